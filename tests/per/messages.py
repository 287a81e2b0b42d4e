"""The messages of clause 7 of T.125, as MCS-PROTOCOL.asn1 has them, and Erlang's reading and writing of them.

A message is (number, values, items): the values are its fields in order without an absent OPTIONAL, an enumeration as its code; the items
are a list of ids, the octets of a string, or None where it has neither.
"""
import collections
import os
import re
import subprocess

HERE = os.path.dirname(os.path.abspath(__file__))
SPEC = os.path.join(HERE, "MCS-PROTOCOL.asn1")

Field = collections.namedtuple("Field", "type optional")
Layout = collections.namedtuple("Layout", "name fields")

TEXT = re.sub(r"--.*", "", open(SPEC, encoding="ascii").read())

# The codes of each enumeration, by name: all start at 0 and have no gap, so a name's place is its code.
CODES = {name: re.findall(r"([\w-]+) *\(\d+\)", body) for name, body in re.findall(r"(\w+) ::= ENUMERATED \{(.*?)\}", TEXT, re.S)}


def field_of(text):
    words = text.split()
    optional = words[-1] == "OPTIONAL"
    words = words[1:-1] if optional else words[1:]
    return Field(" ".join(w for w in words if not w.startswith("(")), optional)


# The layout of each message, by number.
LAYOUTS = {
    int(number): Layout(name, [field_of(part) for part in body.split(",") if part.strip()])
    for name, number, body in re.findall(r"(\w+) ::= \[APPLICATION (\d+)\] IMPLICIT SEQUENCE \{(.*?)\}", TEXT, re.S)
}
NUMBERS = {layout.name: number for number, layout in LAYOUTS.items()}


def is_list(field):
    return field.type.startswith("SET OF")


def is_items(field):
    return is_list(field) or field.type == "OCTET STRING"


class Erlang:
    """The second PER program, run beside this one."""

    def __init__(self, folder):
        command = ["escript", os.path.join(HERE, "per.escript"), SPEC, folder]
        self.process = subprocess.Popen(command, stdin=subprocess.PIPE, stdout=subprocess.PIPE, text=True, bufsize=1)

    def ask(self, line):
        self.process.stdin.write(line + "\n")
        self.process.stdin.flush()
        return self.process.stdout.readline().strip()

    def read(self, octets):
        """The message whose encoding these octets are, or None."""
        answer = self.ask("read " + octets.hex())
        if answer == "no":
            return None
        name, *words = answer.split(" ")
        return message_of(NUMBERS[name], words)

    def write(self, number, values, items):
        """The encoding of a message, or None where Erlang refuses it."""
        words = words_of(LAYOUTS[number], values, items)
        answer = self.ask(" ".join(["write", LAYOUTS[number].name] + words))
        return None if answer == "no" else bytes.fromhex(answer)


def message_of(number, words):
    values, items = [], None
    for field, word in zip(LAYOUTS[number].fields, words):
        if is_list(field):
            items = [int(n) for n in word[1:-1].split(",") if n]
        elif field.type == "OCTET STRING":
            items = bytes.fromhex(word[1:])
        elif field.type in CODES:
            values.append(CODES[field.type].index(word))
        elif word != "-":
            values.append(int(word))
    return number, values, items


def words_of(layout, values, items):
    """A message's fields for Erlang. A code that an enumeration lacks becomes a name that it lacks."""
    words, rest = [], list(values)
    for field in layout.fields:
        if is_list(field):
            words.append("[" + ",".join(map(str, items)) + "]")
        elif field.type == "OCTET STRING":
            words.append("#" + items.hex())
        elif not rest:
            words.append("-")
        elif field.type in CODES:
            code = rest.pop(0)
            words.append(CODES[field.type][code] if code < len(CODES[field.type]) else "none")
        else:
            words.append(str(rest.pop(0)))
    return words
