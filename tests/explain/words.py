"""What the explain program should print of a trace, from the Python model of tests/conferences and from no code of this project."""
import pathlib
import sys

HERE = pathlib.Path(__file__).resolve().parent
sys.dont_write_bytecode = True
sys.path.insert(0, str(HERE.parent / "conferences"))

from model import CODES, FIELDS, LOWEST, NAMES, Domain, Reader, Refused, frames, read    # noqa: E402

REPLIES = ["done", "ignored", "not open", "open already", "wrong length", "bad encoding", "may not go up", "not served", "too long", "no room",
           "bad limit", "bad frame"]

# The names of each message's fields, in the order of clause 7.
NAMED = {
    "EDrq": "height interval", "DPum": "reason", "RJum": "diagnostic octets", "AUrq": "", "AUcf": "result initiator", "DUrq": "reason users",
    "DUin": "reason users", "CJrq": "initiator channel", "CJcf": "result initiator requested channel", "CLrq": "channels", "CCrq": "initiator",
    "CCcf": "result initiator channel", "CDrq": "initiator channel", "CDin": "channel", "CArq": "initiator channel users",
    "CAin": "initiator channel users", "CErq": "initiator channel users", "CEin": "channel users", "TVrq": "initiator token recipient",
    "TVin": "initiator token recipient", "TVrs": "result recipient token", "TTcf": "initiator token status",
    "TGrq": "initiator token", "TIrq": "initiator token", "TPrq": "initiator token", "TPin": "initiator token", "TRrq": "initiator token",
    "TTrq": "initiator token", "TGcf": "result initiator token status", "TIcf": "result initiator token status",
    "TVcf": "result initiator token status", "TRcf": "result initiator token status",
}


def hexes(octets):
    return " ".join(f"{octet:02X}" for octet in octets) or "none"


def words(octets):
    """A message in words, or None where it cannot be read."""
    if not 1 <= len(octets) <= 1024 or NAMES.get(octets[0] >> 2) not in FIELDS:
        return None
    try:
        name, *values = read(octets)
    except Refused:
        return None
    text = [name]
    for field, value in zip(NAMED[name].split(), values):
        if isinstance(value, list):
            text += [field, " ".join(map(str, value)) or "none"]
        elif isinstance(value, bytes):
            text += [field, hexes(value)]
        elif value is not None:
            text += [field, str(value)]
    return " ".join(text)


def name(octets):
    """What stands for a message that cannot be read."""
    if not octets:
        return "no octets"
    return NAMES.get(octets[0] >> 2, f"number {octets[0] >> 2}")


class Stop(Exception):
    """Reading stopped at a bit, in a part of the message, and why."""


class Places(Reader):
    """A reader that says where it stopped."""

    part = "number"

    def stop(self, at, why):
        raise Stop(at, self.part, why)

    def left(self):
        return len(self.text) - self.at

    def align(self):
        start = self.at
        while self.at % 8:
            if self.bits(1):
                self.stop(start, "skipped bits are not 0")

    def code(self, width, names):
        if self.left() < width:
            self.stop(self.at, "octets are missing")
        if int(self.text[self.at:self.at + width], 2) >= len(names):
            self.stop(self.at, "value out of range")
        return super().code(width, names)

    def id(self, kind):
        self.align()
        if self.left() < 16:
            self.stop(self.at, "octets are missing")
        if int(self.text[self.at:self.at + 16], 2) + LOWEST[kind] > 65535:
            self.stop(self.at, "value out of range")
        return super().id(kind)

    def length(self):
        self.align()
        start = self.at
        first = self.bits(8) if self.left() else self.stop(start, "octets are missing")
        if first < 128:
            return first
        if first >= 192:
            self.stop(start, "fragmented length")
        if not self.left():
            self.stop(start, "octets are missing")
        size = (first - 128) * 256 + self.bits(8)
        if size < 128:
            self.stop(start, "length in the long form")
        return size

    def list(self, kind):
        self.align()
        start = self.at
        size = self.length()
        if size > 64:
            self.stop(start, "list above 64 ids")
        return [self.id(kind) for _ in range(size)]

    def number(self):
        self.align()
        start = self.at
        size = self.length()
        if size == 0:
            self.stop(start, "number of 0 octets")
        if size > 4:
            self.stop(start, "number above 4 octets")
        if self.left() < 8 * size:
            self.stop(self.at, "octets are missing")
        if size > 1 and not int(self.text[self.at:self.at + 8], 2):
            self.stop(self.at, "more octets than needed")
        self.at += 8 * size

    def string(self):
        size = self.length()
        if self.left() < 8 * size:
            self.stop(self.at, "octets are missing")
        self.at += 8 * size

    def end(self):
        self.part = "end"
        self.align()
        if self.left():
            self.stop(self.at, "octets are left over")


def stopped(octets):
    """Where and why reading stopped, of octets that are refused with 5 or 8."""
    reader = Places(octets)
    try:
        if octets[0] >> 2 > 42:
            reader.stop(0, "no such message")
        message = NAMES[reader.bits(6)]
        for part, field in zip(NAMED[message].split(), FIELDS[message]):
            reader.part = part
            if field in CODES:
                reader.code(*CODES[field])
            elif field in LOWEST:
                reader.id(field)
            elif field[:-1] in LOWEST:
                reader.list(field[:-1])
            else:
                getattr(reader, field)()
        reader.end()
    except Stop as stop:
        at, part, why = stop.args
        return f"  stopped at octet {at // 8} bit {at % 8} in {part}: {why}"
    raise AssertionError(octets)


def holding(state):
    """A token's state in words."""
    kind, *who = state
    if kind == "free":
        return "free"
    if kind == "grabbed":
        return f"grabbed by {who[0]}"
    if kind == "inhibited":
        return "inhibited by " + " ".join(map(str, sorted(who[0])))
    if kind == "giving":
        return f"giving from {who[0]} to {who[1]}"
    return f"given to {who[0]}"


def front(trace):
    """The octets of a bad frame: as many as its length says, or all that are left."""
    return trace[:2 + int.from_bytes(trace[:2], "big")] if len(trace) > 1 else trace


def explained(trace):
    """The whole text."""
    domain, lines, at = Domain(), [], 0
    for number, frame in enumerate(frames(trace), 1):
        if frame is None:
            lines += [f"frame {number}: bad frame", "  octets " + hexes(front(trace[at:]))]
            reply, sent, tokens = 11, [], domain.tokens
        else:
            kind, connection, octets = frame
            at += 5 + len(octets)
            tokens = dict(domain.tokens)
            reply, sent = domain.event(kind, connection, octets)
            text = {"open": "open", "lose": "lost", "message": "message"}[kind]
            told = words(octets) if kind == "message" else ""
            lines.append(f"frame {number}: {text}, connection {connection}" + (": " + (told or name(octets)) if kind == "message" else ""))
            if 4 <= reply <= 8 or told is None:
                lines.append("  octets " + hexes(octets))
            if reply in (5, 8):
                lines.append(stopped(octets))
        size = sum(4 + len(message) for _, message in sent)
        users, channels, held = domain.counts()
        lines.append(f"  reply {reply} ({REPLIES[reply]}), sent {size}, users {users}, channels {channels}, tokens {held}")
        lines += [f"  to connection {q}: {words(message)}" for q, message in sent]
        for t in sorted({*tokens, *domain.tokens}):
            if tokens.get(t) != domain.tokens.get(t):
                lines.append(f"  token {t}: {holding(domain.tokens.get(t, ('free',)))}")
    lines.append(f"tokens in use: {len(domain.tokens)}")
    lines += [f"  token {t}: {holding(domain.tokens[t])}" for t in sorted(domain.tokens)]
    return "\n".join(lines) + "\n"
