"""The cases: octets to be read, and messages to be written. The same at every run."""
from judge import COVERED, MOST_IDS, UNCOVERED
from messages import CODES, LAYOUTS, NUMBERS, is_items, is_list

IDS = {"UserId": (1001, 65535), "PrivateChannelId": (1001, 65535), "ChannelId": (0, 65535), "TokenId": (1, 65535)}
NUMBER_EDGES = [0, 1, 127, 128, 255, 256, 32767, 32768, 65535, 65536, 16777215, 16777216, 2147483648, 4294967295]
STRINGS = [0, 1, 2, 15, 16, 17, 126, 127, 128, 129, 255, 256, 257, 1019, 1020]
LISTS = [0, 1, 2, 3, 63, 64]
ROOM = 1100


class Dice:
    """Numbers that look random and are the same at every run (the constants of Knuth's MMIX)."""

    def __init__(self):
        self.state = 125

    def below(self, n):
        self.state = (self.state * 6364136223846793005 + 1442695040888963407) % 2**64
        return (self.state >> 33) % n

    def octets(self, n):
        return bytes(self.below(256) for _ in range(n))

    def pick(self, choices):
        return choices[self.below(len(choices))]


def edges(kind):
    """Values of a field at its ends and where its octets carry; the first is an ordinary one."""
    if kind in CODES:
        return list(range(len(CODES[kind])))
    if kind == "INTEGER":
        return NUMBER_EDGES
    low, high = IDS[kind]
    return [low + 6, low, low + 1, low + 255, low + 256, 1000 if low == 0 else 32768, high - 1, high]


def some_ids(dice, kind, count):
    """A list with the ends of the range in it, a repeat, and ids in no order."""
    low, high = IDS[kind]
    fixed = [high, low, high][:count]
    return fixed + [low + dice.below(high - low + 1) for _ in range(count - len(fixed))]


def items_of(dice, layout, size):
    last = layout.fields[-1] if layout.fields else None
    if last is None or not is_items(last):
        return None
    return some_ids(dice, last.type.split()[-1], size) if is_list(last) else dice.octets(size)


def value_fields(layout):
    return [field for field in layout.fields if not is_items(field)]


def plain(dice, number, size=2):
    """Ordinary values, with the OPTIONAL, and a few items."""
    layout = LAYOUTS[number]
    return number, [edges(field.type)[0] for field in value_fields(layout)], items_of(dice, layout, size)


def good_messages(dice):
    """Every covered message: each field at each of its edges, the OPTIONAL present and absent, items of each size, and mixtures."""
    for number in COVERED:
        layout = LAYOUTS[number]
        fields = value_fields(layout)
        _, values, items = plain(dice, number)
        yield number, values, items
        for i, field in enumerate(fields):
            for edge in edges(field.type):
                changed = values[:i] + [edge] + values[i + 1 :]
                yield number, changed, items
                if fields[-1].optional and i < len(fields) - 1:
                    yield number, changed[:-1], items
        if items is not None:
            for size in LISTS if is_list(layout.fields[-1]) else STRINGS:
                yield number, values, items_of(dice, layout, size)
        for _ in range(8 if fields else 0):
            mixed = [dice.pick(edges(field.type)) for field in fields]
            yield number, mixed, items_of(dice, layout, dice.below(9))


def samples(dice):
    """Short messages to be damaged: of each message one, and one without its OPTIONAL or without items."""
    for number in COVERED:
        _, values, items = plain(dice, number, 3)
        yield number, values, items
        if value_fields(LAYOUTS[number]) and value_fields(LAYOUTS[number])[-1].optional:
            yield number, values[:-1], items
        if items is not None:
            yield number, values, items[:0]


def damaged(octets):
    """A short message cut at every octet, lengthened, with every bit turned, every code, and ids beyond their range."""
    for n in range(len(octets)):
        yield octets[:n]
    for more in (0, 1, 0xFF):
        yield octets + bytes([more])
    for i in range(len(octets)):
        for bit in range(8):
            yield octets[:i] + bytes([octets[i] ^ 1 << bit]) + octets[i + 1 :]
    for i in range(1, len(octets) - 1):
        for pair in ("fc16", "fc17", "fffe", "ffff"):
            yield octets[:i] + bytes.fromhex(pair) + octets[i + 2 :]
    if len(octets) > 1:
        for six in range(64):
            yield bytes([octets[0] & 0xFC | six >> 4, octets[1] & 0x0F | six % 16 << 4]) + octets[2:]


FORMS = "00 01 03 05 3f 40 41 7f 80 8000 8001 8003 8004 8005 8010 803f 8040 8041 807f 8080 8081 80ff 8100 83fc 83fd bfff c0 c000 c1 c140 c4 c5 ff ffff".split()


LONG = NUMBERS["CLrq"], NUMBERS["RJum"]  # a list and a string whose long forms are all tried; the others have some


def length_forms(dice, erlang):
    """Each form of a length, with nothing behind it, with the octets that it asks for, and with the message wrong before it."""
    for number in COVERED:
        fields = LAYOUTS[number].fields
        if not fields or not is_items(fields[-1]):
            continue
        before = erlang.write(*plain(dice, number, 0))[:-1]
        wide = 2 if is_list(fields[-1]) else 1
        for form in map(bytes.fromhex, FORMS):
            asked = form[0] if form[0] < 128 else (form[0] % 64 * 256 + form[1] if len(form) > 1 else 3)
            body = bytes(min(asked * wide, 1020 if number in LONG else 140))
            yield before + form
            yield before + form + body
            yield before + form + body[:-1]
            yield bytes([before[0] | 1]) + before[1:] + form
            if len(before) > 1:
                yield before[:-1] + bytes([before[-1] | 1]) + form
        for size in (62, 63, 64, 65, 66, 127, 128, 129, 500, 1020, 1021, 1022) if number in LONG else (64, 65, 128):
            octets = erlang.write(*plain(dice, number, size))
            yield octets
            yield octets[:-1]
            yield octets + b"\0"
            short = len(before) + (1 if size < 128 else 2)
            yield before + bytes([0x80 + size // 256, size % 256]) + octets[short:]


def numbers_of_edrq():
    """EDrq with each form of a number, in the first place and in the second, beside a good one, a wrong one and one too long."""
    parts = "0100 01ff 0101 020100 02ffff 03010000 0401000000 04ffffffff 00 0200ff 020000 0300ffff 03000000 0400ffffff 0500ffffffff 050000000001 050102030405 06010000000000 7f 80 8001 800100 8004ffffffff 8005 807f 8080 8100 bfff c0 c001 ff".split()
    for one in map(bytes.fromhex, parts):
        for two in map(bytes.fromhex, parts):
            yield b"\x04" + one + two
            yield b"\x05" + one + two
        yield b"\x04" + one
        yield b"\x04" + one + b"\x01\x00\x00"


def noise(dice):
    """Each first octet, alone and with zeros, and octets without sense behind a number that is covered; messages too long."""
    for first in range(256):
        for zeros in (0, 1, 4):
            yield bytes([first]) + bytes(zeros)
    for _ in range(600):
        yield bytes([dice.pick(COVERED) << 2 | dice.pick([0, 0, 0, 1, 2, 3])]) + dice.octets(1 + dice.below(10))
    for number in (1, 9, 10, 12, 16, 25, 29, 43, 63):
        for size in (1023, 1024, 1025):
            yield bytes([number << 2]) + bytes(size - 1)
    yield bytes(1026)
    yield bytes(4096)


UNCOVERED_MESSAGES = ["00 01 05", "08 00 00", "0c 00 00", "10 00 00", "14 00 00", "18 00 00", "1c 01 00 00"] + [
    "%02x 02 bc 00 05 60 03 4d 43 53" % (number << 2) for number in sorted(UNCOVERED) if number > 7
]


def reads(dice, erlang):
    for message in good_messages(dice):
        yield erlang.write(*message)
    for message in samples(dice):
        yield from damaged(erlang.write(*message))
    for message in (plain(dice, NUMBERS["CArq"], 64), plain(dice, NUMBERS["RJum"], 128)):
        octets = erlang.write(*message)
        yield from (octets[:n] for n in range(len(octets)))
    yield from length_forms(dice, erlang)
    yield from numbers_of_edrq()
    yield from noise(dice)
    for text in UNCOVERED_MESSAGES:
        octets = bytes.fromhex(text)
        yield from (octets, octets[:-1], octets + b"\0", bytes([octets[0] | 1]) + octets[1:])


def outside(kind):
    """Values that lie outside a field's range: beside its ends, and those that would fit if they were cut to fewer octets."""
    if kind == "INTEGER":
        return []
    if kind in CODES:
        codes = len(CODES[kind])
        return [codes, codes + 1, 16, 32, 255, 256, 65536, 4294967295]
    low, high = IDS[kind]
    below = [low - 1, 0] if low else []
    return below + [high + 1, high + 2, high + 1 + low, 131071, 2147483648, 4294967295]


def given(message, room):
    """A message as the writer takes it: number, values, ids, octets, room."""
    number, values, items = message
    return number, values, items if isinstance(items, list) else [], items if isinstance(items, bytes) else b"", room


def good_writes(dice, erlang):
    """Every good message into the room that it needs; the short ones also into one octet less, one more, none, and much."""
    for message in good_messages(dice):
        yield given(message, len(erlang.write(*message)))
    for message in samples(dice):
        size = len(erlang.write(*message))
        for room in (0, size - 1, size, size + 1, ROOM):
            yield given(message, room)
    for size in (1019, 1020, 1021, 1022, 16383, 16384):
        for room in (0, 10, 1022, 1023, 1024, 1025, ROOM) if size < 2000 else (ROOM,):
            yield given((NUMBERS["RJum"], [4], dice.octets(size)), room)


def bad_writes(dice):
    """Each field outside its range, lists too long and with an id outside, values too few and too many; alone, and with no room."""
    for number in COVERED:
        layout = LAYOUTS[number]
        _, values, items = plain(dice, number)
        faults = []
        for i, field in enumerate(value_fields(layout)):
            faults += [(values[:i] + [value] + values[i + 1 :], items) for value in outside(field.type)]
        faults += [(values + [1001], items), (values[: -2 if len(values) > 1 else 0], items)] if values else [([1001], items)]
        if isinstance(items, list):
            kind = layout.fields[-1].type.split()[-1]
            for size in (MOST_IDS, MOST_IDS + 1, MOST_IDS + 2, 127, 128):
                faults.append((values, some_ids(dice, kind, size)))
            if kind != "ChannelId":
                for size, at, wrong in ((1, 0, 1000), (2, 1, 0), (64, 63, 1), (64, 0, 1000), (65, 64, 1000)):
                    ids = some_ids(dice, kind, size)
                    faults.append((values, ids[:at] + [wrong] + ids[at + 1 :]))
        elif items is None:
            faults.append((values, [1001]))
        for changed, listed in faults:
            for room in (ROOM, 0):
                yield given((number, changed, listed), room)


def many_faults(dice):
    """Several faults in one message: 7 before 8 before 4 before 9."""
    long = dice.octets(1100)
    for number in sorted(UNCOVERED) + [43, 44, 62, 63, 64, 128, 255]:
        yield number, [], [], b"", ROOM
        yield number, [4294967295] * 4, [0] * 65, long if number in (0, 25, 43) else b"", 0
        yield number, [1001, 1], [], b"", 0
    for diagnostic in (13, 14):
        for size in (1020, 1021):
            for room in (ROOM, 1024, 1023, 0):
                yield NUMBERS["RJum"], [diagnostic], [], long[:size], room
        yield NUMBERS["RJum"], [diagnostic], [], bytes(16384), ROOM
    for number in (number for number in COVERED if LAYOUTS[number].fields and is_list(LAYOUTS[number].fields[-1])):
        _, values, _ = plain(dice, number)
        for wrong in values, [0] * len(values), [4294967295] * len(values):
            for count in (64, 65):
                for room in (ROOM, 134, 0):
                    yield number, wrong, [65535] * count, b"", room


def writes(dice, erlang):
    yield from good_writes(dice, erlang)
    yield from bad_writes(dice)
    yield from many_faults(dice)
