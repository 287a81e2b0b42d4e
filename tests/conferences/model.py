"""A T.125 top provider in plain Python, written from document 01 and from no code of this project.

Octets go in, a reply and records come out. Nothing here is meant to be fast; it is meant to be read beside document 01.
"""
import copy

# ---------------------------------------------------------------- octets of a message

RESULTS = ("successful domain-merging domain-not-hierarchical no-such-channel no-such-domain no-such-user not-admitted other-user-id "
           "parameters-unacceptable token-not-available token-not-possessed too-many-channels too-many-tokens too-many-users "
           "unspecified-failure user-rejected").split()
REASONS = "domain-disconnected provider-initiated token-purged user-requested channel-purged".split()
DIAGNOSTICS = ("inconsistent-merge forbidden-PDU-downward forbidden-PDU-upward invalid-BER-encoding invalid-PER-encoding misrouted-user "
               "unrequested-confirm wrong-transport-priority channel-id-conflict token-id-conflict not-user-id-channel too-many-channels "
               "too-many-tokens too-many-users").split()
STATUSES = "notInUse selfGrabbed otherGrabbed selfInhibited otherInhibited selfRecipient selfGiving otherGiving".split()

# Number, name, fields in order; a message without a line of fields has "none", one that the codec does not cover "-".
TABLE = """
 0 PDin -
 1 EDrq number number
 2 MCrq -
 3 MCcf -
 4 PCin -
 5 MTrq -
 6 MTcf -
 7 PTin -
 8 DPum reason
 9 RJum diagnostic string
10 AUrq none
11 AUcf result user?
12 DUrq reason users
13 DUin reason users
14 CJrq user channel
15 CJcf result user channel channel?
16 CLrq channels
17 CCrq user
18 CCcf result user user?
19 CDrq user user
20 CDin user
21 CArq user user users
22 CAin user user users
23 CErq user user users
24 CEin user users
25 SDrq -
26 SDin -
27 USrq -
28 USin -
29 TGrq user token
30 TGcf result user token status
31 TIrq user token
32 TIcf result user token status
33 TVrq user token user
34 TVin user token user
35 TVrs result user token
36 TVcf result user token status
37 TPrq user token
38 TPin user token
39 TRrq user token
40 TRcf result user token status
41 TTrq user token
42 TTcf user token status
"""
NAMES, NUMBERS, FIELDS = {}, {}, {}
for line in TABLE.strip().splitlines():
    number, name, *fields = line.split()
    NAMES[int(number)], NUMBERS[name] = name, int(number)
    if fields != ["-"]:
        FIELDS[name] = [] if fields == ["none"] else fields

UP = {1, 2, 5, 8, 9, 10, 12, 14, 16, 17, 19, 21, 23, 25, 27, 29, 31, 33, 35, 37, 39, 41}
NOT_SERVED = {"MCrq", "MTrq", "SDrq", "USrq"}

CODES = {"result": (4, RESULTS), "reason": (3, REASONS), "diagnostic": (4, DIAGNOSTICS), "status": (3, STATUSES)}
LOWEST = {"user": 1001, "channel": 0, "token": 1}   # private channel ids are written as user ids are


class Refused(Exception):
    """A message that is not read, with the reply it gets."""

    def __init__(self, reply):
        self.reply = reply


class Reader:
    """The message and the bit it has reached."""

    def __init__(self, octets):
        self.text = "".join(f"{octet:08b}" for octet in octets)
        self.at = 0

    def bits(self, count):
        if self.at + count > len(self.text):
            raise Refused(5)                     # missing octets
        self.at += count
        return int(self.text[self.at - count:self.at], 2)

    def align(self):
        while self.at % 8:
            if self.bits(1):
                raise Refused(5)                 # bits skipped are 0

    def end(self):
        self.align()
        if self.at < len(self.text):
            raise Refused(5)                     # left-over octets

    def code(self, width, names):
        value = self.bits(width)
        if value >= len(names):
            raise Refused(5)
        return names[value]

    def id(self, kind):
        self.align()
        value = self.bits(16) + LOWEST[kind]
        if value > 65535:
            raise Refused(5)
        return value

    def length(self):
        self.align()
        first = self.bits(8)
        if first < 128:
            return first
        if first >= 192:
            raise Refused(8)                     # fragmented
        size = (first - 128) * 256 + self.bits(8)
        if size < 128:
            raise Refused(5)
        return size

    def list(self, kind):
        size = self.length()
        if size > 64:
            raise Refused(8)
        return [self.id(kind) for _ in range(size)]

    def number(self):
        size = self.length()
        if size == 0:
            raise Refused(5)
        if size > 4:
            raise Refused(8)
        first = self.bits(8)
        if size > 1 and first == 0:
            raise Refused(5)                     # not the fewest octets
        return first if size == 1 else first << 8 * (size - 1) | self.bits(8 * (size - 1))

    def string(self):
        return bytes([self.bits(8) for _ in range(self.length())])


def read(octets):
    """The name and the fields of a message that the codec covers."""
    reader = Reader(octets)
    name = NAMES[reader.bits(6)]
    optional = any(field.endswith("?") for field in FIELDS[name]) and reader.bits(1)
    values = []
    for field in FIELDS[name]:
        if field in CODES:
            values.append(reader.code(*CODES[field]))
        elif field.endswith("?"):
            values.append(reader.id(field[:-1]) if optional else None)
        elif field in LOWEST:
            values.append(reader.id(field))
        elif field[:-1] in LOWEST:
            values.append(reader.list(field[:-1]))
        else:
            values.append(getattr(reader, field)())
    reader.end()
    return (name, *values)


def write(name, *values):
    """The octets of a message within the limits."""
    fields = FIELDS[name]
    assert len(values) == len(fields), (name, values)
    text = f"{NUMBERS[name]:06b}"

    def aligned(octets):
        nonlocal text
        text += "0" * (-len(text) % 8) + "".join(f"{octet:08b}" for octet in octets)

    def size(count):
        aligned([count] if count < 128 else [128 + count // 256, count % 256])

    for field, value in zip(fields, values):
        if field.endswith("?"):
            text += "0" if value is None else "1"
    for field, value in zip(fields, values):
        if field in CODES:
            width, names = CODES[field]
            text += f"{names.index(value):0{width}b}"
        elif field == "number":
            octets = value.to_bytes(max(1, (value.bit_length() + 7) // 8), "big")
            size(len(octets))
            aligned(octets)
        elif field == "string":
            size(len(value))
            aligned(value)
        elif field.rstrip("?") in LOWEST:
            if value is not None:
                aligned((value - LOWEST[field.rstrip("?")]).to_bytes(2, "big"))
        else:
            size(len(value))
            for item in value:
                aligned((item - LOWEST[field[:-1]]).to_bytes(2, "big"))
    aligned([])
    return bytes(int(text[i:i + 8], 2) for i in range(0, len(text), 8))


# ---------------------------------------------------------------- the domain

class Channel:
    """In use: kind is static, user, private or assigned; a private one has a manager and admitted users."""

    def __init__(self, kind, manager=None):
        self.kind, self.manager, self.admitted, self.joined = kind, manager, set(), set()


class Domain:
    """One provider, always the top. A token that is free is not in `tokens`; the others are
    ("grabbed", g), ("inhibited", set), ("giving", g, r) or ("given", r)."""

    def __init__(self, channel_limit=128, user_limit=64, token_limit=64):
        self.channel_limit, self.user_limit, self.token_limit = channel_limit, user_limit, token_limit
        self.open, self.users, self.channels, self.tokens = set(), {}, {}, {}

    def counts(self):
        return len(self.users), len(self.channels), len(self.tokens)

    def audience(self, channel):
        return len(self.channels[channel].joined) if channel in self.channels else 0

    def tables(self):
        """Everything there is, as one value to compare."""
        channels = {c: (x.kind, x.manager, frozenset(x.admitted), frozenset(x.joined)) for c, x in self.channels.items()}
        return set(self.open), dict(self.users), channels, dict(self.tokens)

    # -------- events

    def event(self, kind, p, octets=b"", room=17200):
        """The reply and the records (connection, message) of an event; kind is open, lose or message."""
        after = copy.deepcopy(self)
        reply, sent = after.judge(kind, p, octets)
        if sum(4 + len(message) for _, message in sent) > room:
            return 9, []
        if reply == 0:
            self.__dict__ = after.__dict__
        return reply, sent

    def judge(self, kind, p, octets):
        if p > 15 or (kind != "open" and p not in self.open):
            return 2, []
        if kind == "open":
            if p in self.open:
                return 3, []
            self.open.add(p)
            return 0, []
        if kind == "lose":
            return 0, self.close(p)
        return self.message(p, octets)

    def message(self, p, octets):
        if not 1 <= len(octets) <= 1024:
            return 4, []
        number = octets[0] >> 2
        if number > 42:
            return 5, [self.reject(p, "invalid-PER-encoding", octets)]
        if number not in UP:
            return 6, [self.reject(p, "forbidden-PDU-upward", octets)]
        if NAMES[number] in NOT_SERVED:
            return 7, []
        try:
            name, *values = read(octets)
        except Refused as refused:
            return refused.reply, [self.reject(p, "invalid-PER-encoding", octets)] if refused.reply == 5 else []
        sent = getattr(self, name)(p, *values)
        return (1, []) if sent is None else (0, sent)

    def reject(self, p, diagnostic, octets):
        return p, write("RJum", diagnostic, octets[:16])

    # -------- what each message does: the records to send, or None where it is ignored

    def on(self, p, user):
        return self.users.get(user) == p

    def free_id(self):
        return min(i for i in range(1001, 1200) if i not in self.channels)

    def full(self):
        return len(self.channels) >= self.channel_limit

    def EDrq(self, p, height, interval):
        return []

    def AUrq(self, p):
        if len(self.users) >= self.user_limit:
            return [(p, write("AUcf", "too-many-users", None))]
        if self.full():
            return [(p, write("AUcf", "too-many-channels", None))]
        user = self.free_id()
        self.users[user] = p
        self.channels[user] = Channel("user")
        return [(p, write("AUcf", "successful", user))]

    def CJrq(self, p, user, asked):
        if not self.on(p, user):
            return None
        result, channel = self.may_join(user, asked)
        if result != "successful":
            return [(p, write("CJcf", result, user, asked, None))]
        self.channels[channel].joined.add(p)
        return [(p, write("CJcf", result, user, asked, channel))]

    def may_join(self, user, asked):
        """The result, and on success the channel, which is in use from then on."""
        if asked in self.channels:
            channel = self.channels[asked]
            if channel.kind == "user" and asked != user:
                return "other-user-id", None
            if channel.kind == "private" and user != channel.manager and user not in channel.admitted:
                return "not-admitted", None
            return "successful", asked
        if asked > 1000:
            return "no-such-channel", None
        if self.full():
            return "too-many-channels", None
        channel = asked or self.free_id()
        self.channels[channel] = Channel("static" if asked else "assigned")
        return "successful", channel

    def CLrq(self, p, channels):
        left = [c for c in channels if c in self.channels and p in self.channels[c].joined]
        if not left:
            return None
        for c in left:
            self.channels[c].joined.discard(p)
        self.end_empty()
        return []

    def end_empty(self):
        """A static or assigned channel with nobody joined ends."""
        self.channels = {c: x for c, x in self.channels.items() if x.joined or x.kind in ("user", "private")}

    def CCrq(self, p, user):
        if not self.on(p, user):
            return None
        if self.full():
            return [(p, write("CCcf", "too-many-channels", user, None))]
        channel = self.free_id()
        self.channels[channel] = Channel("private", manager=user)
        return [(p, write("CCcf", "successful", user, channel))]

    def managed(self, p, user, channel):
        """The private channel, if the user is on p and manages it."""
        found = self.channels.get(channel)
        return found if self.on(p, user) and found and found.kind == "private" and found.manager == user else None

    def insiders(self, channel):
        """The connections with the manager or an admitted user of a private channel, ascending."""
        return sorted({self.users[u] for u in channel.admitted | {channel.manager}})

    def unmark(self):
        """A connection is joined to a private channel only while its manager or an admitted user is attached there."""
        for channel in self.channels.values():
            if channel.kind == "private":
                channel.joined &= set(self.insiders(channel))

    def to_each(self, users, message):
        """A record to each connection with one of these users, made of the ids of its own, each once, in list order."""
        once = list(dict.fromkeys(users))
        connections = sorted({self.users[u] for u in once})
        return [(q, message([u for u in once if self.users[u] == q])) for q in connections]

    def CDrq(self, p, user, channel):
        private = self.managed(p, user, channel)
        if not private:
            return None
        del self.channels[channel]
        return [(q, write("CDin", channel)) for q in self.insiders(private)]

    def CArq(self, p, user, channel, users):
        private = self.managed(p, user, channel)
        named = [u for u in users if u in self.users]
        if not private or not named:
            return None
        private.admitted.update(named)
        return self.to_each(named, lambda own: write("CAin", user, channel, own))

    def CErq(self, p, user, channel, users):
        private = self.managed(p, user, channel)
        named = [u for u in users if private and u in private.admitted]
        if not named:
            return None
        private.admitted.difference_update(named)
        self.unmark()
        return self.to_each(named, lambda own: write("CEin", channel, own))

    # -------- leaving

    def DUrq(self, p, reason, users):
        leavers = list(dict.fromkeys(u for u in users if self.on(p, u)))
        return self.leave(leavers, reason) if leavers else None

    def DPum(self, p, reason):
        return self.close(p)

    def RJum(self, p, diagnostic, octets):
        return self.close(p)

    def close(self, p):
        self.open.discard(p)
        for channel in self.channels.values():
            channel.joined.discard(p)
        self.end_empty()
        leavers = sorted(u for u in self.users if self.users[u] == p)
        return self.leave(leavers, "domain-disconnected") if leavers else []

    def leave(self, leavers, reason):
        """The leavers go together: every rule is judged on the tables as they were before."""
        sent = [(q, write("DUin", reason, leavers)) for q in sorted(self.open)]
        for c in sorted(self.channels):
            if self.channels[c].manager in leavers:
                sent += [(q, write("CDin", c)) for q in self.insiders(self.channels[c]) if q in self.open]
        sent += self.drop_tokens(set(leavers))
        self.channels = {c: x for c, x in self.channels.items() if c not in leavers and x.manager not in leavers}
        for channel in self.channels.values():
            channel.admitted -= set(leavers)
        self.users = {u: q for u, q in self.users.items() if u not in leavers}
        self.unmark()
        return sent

    def drop_tokens(self, gone):
        sent = []
        for t in sorted(self.tokens):
            state, *holders = self.tokens.pop(t)
            if state == "inhibited":
                if holders[0] - gone:
                    self.tokens[t] = ("inhibited", holders[0] - gone)
            elif state == "giving":
                g, r = holders
                if g not in gone and r not in gone:
                    self.tokens[t] = ("giving", g, r)
                elif g not in gone:
                    self.tokens[t] = ("grabbed", g)
                    sent.append(self.confirm("TVcf", "no-such-user", g, t))
                elif r not in gone:
                    self.tokens[t] = ("given", r)
            elif holders[0] not in gone:
                self.tokens[t] = (state, holders[0])
        return sent

    # -------- tokens

    def status(self, user, t):
        state, *holders = self.tokens.get(t, ("free",))
        if state == "free":
            return "notInUse"
        if state == "grabbed":
            return "selfGrabbed" if holders[0] == user else "otherGrabbed"
        if state == "inhibited":
            return "selfInhibited" if user in holders[0] else "otherInhibited"
        if state == "giving" and holders[0] == user:
            return "selfGiving"
        return "selfRecipient" if holders[-1] == user else "otherGiving"

    def confirm(self, name, result, user, t):
        return self.users[user], write(name, result, user, t, self.status(user, t))

    def take(self, t, *state):
        """A free token is taken, within the limit."""
        if len(self.tokens) >= self.token_limit:
            return "too-many-tokens"
        self.tokens[t] = state
        return "successful"

    def TGrq(self, p, user, t):
        if not self.on(p, user):
            return None
        result = "token-not-available"
        if t not in self.tokens:
            result = self.take(t, "grabbed", user)
        elif self.tokens[t] == ("inhibited", {user}):
            self.tokens[t], result = ("grabbed", user), "successful"
        return [self.confirm("TGcf", result, user, t)]

    def TIrq(self, p, user, t):
        if not self.on(p, user):
            return None
        result = "token-not-available"
        if t not in self.tokens:
            result = self.take(t, "inhibited", {user})
        elif self.tokens[t] == ("grabbed", user):
            self.tokens[t], result = ("inhibited", {user}), "successful"
        elif self.tokens[t][0] == "inhibited":
            self.tokens[t], result = ("inhibited", self.tokens[t][1] | {user}), "successful"
        return [self.confirm("TIcf", result, user, t)]

    def TVrq(self, p, user, t, recipient):
        if not self.on(p, user):
            return None
        if self.tokens.get(t) != ("grabbed", user):
            return [self.confirm("TVcf", "token-not-possessed", user, t)]
        if recipient not in self.users:
            return [self.confirm("TVcf", "no-such-user", user, t)]
        self.tokens[t] = ("giving", user, recipient)
        return [(self.users[recipient], write("TVin", user, t, recipient))]

    def TVrs(self, p, result, recipient, t):
        state, *holders = self.tokens.get(t, ("free",))
        if not self.on(p, recipient) or state not in ("giving", "given") or holders[-1] != recipient:
            return None
        if result == "successful":
            self.tokens[t] = ("grabbed", recipient)
        elif state == "giving":
            self.tokens[t] = ("grabbed", holders[0])
        else:
            del self.tokens[t]
        return [self.confirm("TVcf", result, holders[0], t)] if state == "giving" else []

    def TRrq(self, p, user, t):
        if not self.on(p, user):
            return None
        result = "successful"
        state, *holders = self.tokens.get(t, ("free",))
        if (state, *holders) == ("grabbed", user) or (state, *holders) == ("inhibited", {user}):
            del self.tokens[t]
        elif state == "inhibited" and user in holders[0]:
            self.tokens[t] = ("inhibited", holders[0] - {user})
        elif state == "giving" and holders[0] == user:
            self.tokens[t] = ("given", holders[1])
        else:
            result = "token-not-possessed"
        return [self.confirm("TRcf", result, user, t)]

    def TPrq(self, p, user, t):
        if not self.on(p, user):
            return None
        state, *holders = self.tokens.get(t, ("free",))
        told = holders[0] if state == "inhibited" else set(holders)
        return [(q, write("TPin", user, t)) for q in sorted({self.users[u] for u in told})]

    def TTrq(self, p, user, t):
        if not self.on(p, user):
            return None
        return [(p, write("TTcf", user, t, self.status(user, t)))]


# ---------------------------------------------------------------- the trace program

KINDS = ["open", "lose", "message"]


def frames(octets):
    """Each frame as (kind, connection, message octets); None for a bad one, after which nothing is read."""
    at = 0
    while at < len(octets):
        size = int.from_bytes(octets[at:at + 2], "big")
        frame = octets[at + 2:at + 2 + size]
        good = len(octets) >= at + 2 + size and size >= 3 and frame[0] == 1 and frame[1] <= 2 and (frame[1] == 2 or size == 3)
        if not good:
            yield None
            return
        yield KINDS[frame[1]], frame[2], frame[3:]
        at += 2 + size


def run(octets, domain=None):
    """For each frame of a trace: the frame, the tables before it, the reply, the records and the domain after it."""
    domain = domain or Domain()
    for frame in frames(octets):
        before = copy.deepcopy(domain)
        reply, sent = domain.event(*frame) if frame else (11, [])
        yield frame, before, reply, sent, domain


def line(reply, sent, domain):
    """What the trace program prints for a frame."""
    return " ".join(map(str, (reply, sum(4 + len(message) for _, message in sent), *domain.counts())))


def record(connection, message):
    """A record sent: length of what follows, version 1, connection, message."""
    return (2 + len(message)).to_bytes(2, "big") + bytes([1, connection]) + message
