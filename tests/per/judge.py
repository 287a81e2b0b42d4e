"""The verdict on octets and on messages: Erlang's, with the limits of document 01 on top.

Erlang knows the encoding. It knows nothing of the limits behind refusals 4, 7 and 8, which stand here, each from its sentence.
"""
from messages import LAYOUTS, NUMBERS, is_items, is_list

# "The codec covers 32 of the 43 domain messages: all but .."
UNCOVERED = {NUMBERS[name] for name in "PDin MCrq MCcf PCin MTrq MTcf PTin SDrq SDin USrq USin".split()}
COVERED = [number for number in sorted(LAYOUTS) if number not in UNCOVERED]

MOST_OCTETS = 1024  # "message of 0 octets or above 1,024"
MOST_IDS = 64  # "list above 64 ids"
MOST_NUMBER = 4  # "number above 4 octets"


def is_above(octets, at, most):
    """Whether the length at an index asks for refusal 8: fragmented, or rightly formed and above the most. Its form is judged first."""
    form = octets[at : at + 2]
    if not form:
        return False
    if form[0] >= 0xC0:
        return True
    if form[0] >= 0x80:
        size = (form[0] - 0x80) * 256 + form[1] if len(form) == 2 else 0
        return size >= 128 and most is not None and size > most
    return most is not None and form[0] > most


def lengths(octets):
    """Where a message has its lengths, from the left: the index, the most that document 01 allows, and octets that would end the message well.

    Before a list or a string stand at most one code, which ends in the second octet, and ids of two octets."""
    number = octets[0] >> 2
    fields = LAYOUTS[number].fields
    if LAYOUTS[number].name == "EDrq":
        yield 1, MOST_NUMBER, bytes([1, 0, 1, 0])
        if len(octets) > 1:
            yield 2 + octets[1], MOST_NUMBER, bytes([1, 0])
    elif fields and is_items(fields[-1]):
        ids = sum(field.type.endswith("Id") for field in fields[:-1])
        codes = len(fields) - 1 - ids
        yield (2 if codes else 1) + 2 * ids, MOST_IDS if is_list(fields[-1]) else None, bytes([0])


def read(erlang, octets):
    """The message that these octets are, or the number of the refusal."""
    if not 1 <= len(octets) <= MOST_OCTETS:
        return 4
    number = octets[0] >> 2
    if number not in LAYOUTS:
        return 5
    if number in UNCOVERED:
        return 7
    for at, most, end in lengths(octets):
        # All to the left of the length is good where a message that goes on with the end given is.
        if is_above(octets, at, most) and erlang.read(octets[:at] + end) is not None:
            return 8
    message = erlang.read(octets)
    return 5 if message is None else message


def write(erlang, number, values, ids, octets, room):
    """The octets of a message, or the number of the refusal: 7, 8, 4, 9 in this order."""
    if number not in COVERED:
        return 7
    fields = LAYOUTS[number].fields
    has_list, has_string = any(map(is_list, fields)), any(field.type == "OCTET STRING" for field in fields)
    fixed = [field for field in fields if not is_items(field)]
    # A value or a list that the message has no field for, or one that it lacks, is a field out of range (ours).
    if not len(fixed) - sum(field.optional for field in fixed) <= len(values) <= len(fixed):
        return 8
    if not has_string and len(ids) > (MOST_IDS if has_list else 0):
        return 8
    written = erlang.write(number, values, octets if has_string else ids)
    if written is None:
        return 8
    if len(written) > MOST_OCTETS:
        return 4
    return 9 if len(written) > room else written
