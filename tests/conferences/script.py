"""The scripts of the worked conferences: a line an event, with what is expected of it worked by hand.

    open 0
    0 AUrq                    -> 0, AUcf successful 1001 to 0 | 1 1 0      # reply, records | users channels tokens in use
    0 DUrq user-requested [1001]
      -> 0, DUin user-requested [1001] to 0 1 2                            # a line that starts with a space goes on
    0 hex 29 00*3             # octets as they are; `00*3` is `00 00 00`
    frame 00 03 02 00 00      # octets of the trace itself
    for i in 1..64: 0 AUrq -> 0, AUcf successful {i+1000} to 0
    for r in no-such-user user-rejected: 0 TVrq 1001 1 1002 ; 1 TVrs {r} 1002 1
    0 DPum user-requested     -> 0, 13392 octets                          # where the records are too many to write down
    audience 1003 is 2        # asked of the model, no frame
    limits 128 64 1           # channels, users, tokens; such a conference is checked and not stored
"""
import re

from model import CODES, FIELDS, KINDS, read, write


def octets_of(words):
    """Octets in hex; `XX*n` is XX n times."""
    out = b""
    for word in words:
        digits, _, times = word.partition("*")
        out += bytes.fromhex(digits) * int(times or 1)
    return out


def say(octets):
    """A message in words."""
    name, *values = read(octets)
    words = [name]
    for field, value in zip(FIELDS[name], values):
        if isinstance(value, list):
            words.append("[" + " ".join(map(str, value)) + "]")
        elif isinstance(value, bytes):
            words.append(value.hex().upper() or "-")
        elif value is not None:
            words.append(str(value))
    return " ".join(words)


def ids_of(text):
    """`1001 1003..1005` as a list of ids."""
    ids = []
    for word in text.split():
        first, _, last = word.partition("..")
        ids += range(int(first), int(last or first) + 1)
    return ids


def hear(text):
    """The octets of a message in words."""
    name, *words = re.findall(r"\[[^]]*\]|\S+", text)
    values = []
    for field in FIELDS[name]:
        word = words.pop(0) if words else None
        if word is None or field in CODES:
            values.append(word)
        elif field == "string":
            values.append(b"" if word == "-" else octets_of([word]))
        elif word.startswith("["):
            values.append(ids_of(word[1:-1]))
        else:
            values.append(int(word))
    assert not words, f"words too many: {text}"
    octets = write(name, *values)
    assert list(read(octets)) == [name, *values], f"not read back: {text}"
    return octets


def frame(kind, p, octets=b""):
    return (3 + len(octets)).to_bytes(2, "big") + bytes([1, KINDS.index(kind), p]) + octets


class Step:
    """A frame with what is expected, or a question about an audience."""

    def __init__(self, place, text):
        self.place, self.text = place, text
        event, arrow, expected = map(str.strip, text.partition("->"))
        words = event.split()
        self.frame, self.audience = b"", None
        if words[0] == "audience":
            self.audience = int(words[1]), int(words[3])
        elif words[0] == "frame":
            self.frame = octets_of(words[1:])
        elif words[0] in ("open", "lose"):
            self.frame = frame(words[0], int(words[1]))
        elif words[1] == "hex":
            self.frame = frame("message", int(words[0]), octets_of(words[2:]))
        else:
            self.frame = frame("message", int(words[0]), hear(event.split(None, 1)[1]))
        self.reply = self.sent = self.octets = self.counts = None
        if arrow:
            self.expect(expected)

    def expect(self, text):
        answer, bar, counts = text.partition("|")
        reply, *records = [part.strip() for part in answer.split(",")]
        self.reply, self.sent = int(reply), []
        if records and records[0].endswith(" octets"):
            self.sent, self.octets, records = None, int(records[0].split()[0]), []
        for item in records:
            message, connections = item.rsplit(" to ", 1)
            self.sent += [(int(q), hear(message)) for q in connections.split()]
        if bar:
            self.counts = tuple(map(int, counts.split()))

    def check(self, reply, sent, domain):
        """Complains where the model differs from what was worked by hand."""
        if self.audience:
            channel, number = self.audience
            assert domain.audience(channel) == number, f"{self.place}: {self.text}\n  model: {domain.audience(channel)}"
            return
        got = f"{reply}" + "".join(f", {say(m)} to {q}" for q, m in sent) + " | " + " ".join(map(str, domain.counts()))
        size = sum(4 + len(message) for _, message in sent)
        good = (self.reply in (None, reply) and self.sent in (None, sent) and self.octets in (None, size)
                and self.counts in (None, domain.counts()))
        assert good, f"{self.place}: {self.text}\n  model: {got}"


def steps_of(place, text):
    loop = re.fullmatch(r"for (\w+) in ([^:]*): (.*)", text)
    if not loop:
        return [Step(place, text)]
    name, items, bodies = loop.groups()
    items = ids_of(items) if items[0].isdigit() and ".." in items else items.split()

    def fill(body, item):
        return re.sub(r"\{%s([+-]\d+)?\}" % name, lambda m: str(int(item) + int(m[1])) if m[1] else str(item), body)
    return [Step(place, fill(body.strip(), item)) for item in items for body in bodies.split(";")]


def read_script(path):
    """The limits, if the script has its own, and its steps."""
    lines = []
    for number, line in enumerate(path.read_text().splitlines(), 1):
        text = line.split("#")[0].rstrip()
        if text and text[0] == " ":
            lines[-1][1] += " " + text.strip()
        elif text:
            lines.append([f"{path.name}:{number}", text])
    limits = None
    if lines and lines[0][1].startswith("limits"):
        limits = tuple(map(int, lines.pop(0)[1].split()[1:]))
    return limits, [step for place, text in lines for step in steps_of(place, text)]
