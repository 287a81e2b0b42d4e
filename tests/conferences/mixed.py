"""A trace drawn by dice with a fixed seed: tokens, private channels, leaving, limits, damaged octets. The model is asked only what is in use."""
from model import NAMES, REASONS, RESULTS, UP, Domain, write
from script import frame

FRAMES = 600                                                   # of each profile


class Dice:
    """The same numbers on every machine."""

    def __init__(self, seed):
        self.state = seed

    def below(self, n):
        self.state = (self.state * 6364136223846793005 + 1442695040888963407) % 2 ** 64
        return (self.state >> 33) % n

    def pick(self, items):
        return items[self.below(len(items))]

    def some(self, items, most):
        return [self.pick(items) for _ in range(self.below(most + 1))] if items else []


class Draw:
    """Draws events that mostly make sense in the domain as it stands."""

    def __init__(self, dice, domain):
        self.dice, self.domain = dice, domain

    def connection(self, most):
        """One that is open, or, now and then, any."""
        names = sorted(self.domain.open)
        return self.dice.pick(names) if names and self.dice.below(30) else self.dice.below(most + 1)

    def user(self):
        """One that is attached, or, now and then, any near it."""
        names = sorted(self.domain.users)
        return self.dice.pick(names) if names and self.dice.below(25) else 1001 + self.dice.below(12)

    def host(self, user):
        """The connection of a user, or, now and then, another."""
        return self.domain.users[user] if user in self.domain.users and self.dice.below(25) else self.connection(15)

    def message(self, p, name, *values):
        return frame("message", p, write(name, *values))

    def open(self, most):
        return frame("open", self.dice.below(most))

    def attach(self):
        return self.message(self.connection(5), "AUrq")

    def token(self, most):
        """A request on a token, mostly one that its state invites."""
        user, t = self.user(), 1 + self.dice.below(most)
        name = self.dice.pick("TGrq TGrq TIrq TVrq TVrs TRrq TPrq TTrq".split())
        state, *names = self.domain.tokens.get(t, ("free",))
        if state == "grabbed" and self.dice.below(2):
            name, user = self.dice.pick(["TVrq", "TVrq", "TVrq", "TIrq", "TRrq"]), names[0]
        elif state in ("giving", "given") and self.dice.below(2):
            name, user = self.dice.pick([("TVrs", names[-1])] * 3 + [("TRrq", names[0])])
        elif state == "inhibited" and self.dice.below(2):
            name, user = self.dice.pick(["TGrq", "TRrq"]), self.dice.pick(sorted(names[0]))
        if name == "TVrq":
            return self.message(self.host(user), name, user, t, user if not self.dice.below(8) else self.user())
        if name == "TVrs":
            return self.message(self.host(user), name, self.dice.pick(RESULTS + ["successful"] * 12), user, t)
        return self.message(self.host(user), name, user, t)

    def grab(self):
        user = self.user()
        return self.message(self.host(user), self.dice.pick(["TGrq", "TIrq"]), user, 1 + self.dice.below(90))

    def convene(self):
        user = self.user()
        return self.message(self.host(user), "CCrq", user)

    def join_new(self):
        user = self.user()
        return self.message(self.host(user), "CJrq", user, self.dice.below(2) * (1 + self.dice.below(1000)))

    def channel(self):
        """One that is in use, or any."""
        names = sorted(self.domain.channels)
        return self.dice.pick(names) if names and self.dice.below(5) else self.dice.pick([0, 1, 2, 999, 1000, 1001 + self.dice.below(20), 65535])

    def private(self):
        """A request on a private channel, mostly by its manager."""
        known = sorted(c for c, x in self.domain.channels.items() if x.kind == "private")
        if not known or not self.dice.below(8):
            return self.convene()
        channel = self.dice.pick(known)
        user = self.domain.channels[channel].manager if self.dice.below(10) else self.user()
        name = self.dice.pick("CArq CArq CArq CErq CErq CErq CDrq CJrq CJrq CJrq CLrq".split())
        if name == "CJrq":
            inside = sorted(self.domain.channels[channel].admitted)
            user = self.dice.pick(inside) if inside and self.dice.below(2) else user
            return self.message(self.host(user), name, user, channel)
        if name == "CLrq":
            return self.message(self.connection(5), name, [channel] + self.dice.some(known, 2))
        if name == "CDrq":
            return self.message(self.host(user), name, user, channel if self.dice.below(3) else 1001 + self.dice.below(20))
        named = [self.user() for _ in range(self.dice.below(5))]
        if name == "CErq":
            named += self.dice.some(sorted(self.domain.channels[channel].admitted), 3)
        return self.message(self.host(user), name, user, channel, named)

    def join(self):
        user = self.user()
        return self.message(self.host(user), "CJrq", user, self.channel())

    def leave_channels(self):
        return self.message(self.connection(5), "CLrq", [self.channel() for _ in range(self.dice.below(5))])

    def detach(self):
        user = self.user()
        return self.message(self.host(user), "DUrq", self.dice.pick(REASONS), [self.user() for _ in range(self.dice.below(4))] + [user])

    def close(self):
        p = self.connection(5)
        how = self.dice.below(4)
        if how == 0:
            return self.message(p, "DPum", self.dice.pick(REASONS))
        if how == 1:
            return self.message(p, "RJum", "misrouted-user", bytes(self.dice.below(20)))
        return frame("lose", p)

    def damaged(self):
        """A message with a bit turned, cut, lengthened, or with any first octet."""
        message = bytearray(self.dice.pick([self.token, lambda n: self.private(), lambda n: self.join(), lambda n: self.detach()])(4)[5:])
        how = self.dice.below(5)
        if how == 0:
            message[self.dice.below(len(message))] ^= 1 << self.dice.below(8)
        elif how == 1:
            del message[self.dice.below(len(message)):]
        elif how == 2:
            message += bytes(1 + self.dice.below(3))
        elif how == 3:
            message[0] = self.dice.below(256)
        else:
            number = self.dice.pick(sorted(n for n in UP if NAMES[n] != "AUrq"))
            message = bytes([number << 2]) + bytes(self.dice.pick([0, 1, 2, 64, 65, 128, 192, 255]) for _ in range(self.dice.below(8)))
        return frame("message", self.connection(17), bytes(message))


def profiles(draw):
    """Five mixtures: each is a list of draws, an entry as often as it shall weigh."""
    opening = [lambda: draw.open(6)] * 2 + [draw.attach] * 3
    return {
        "tokens": opening + [lambda: draw.token(3)] * 40 + [draw.detach],
        "private": opening + [draw.private] * 30 + [draw.join] * 4 + [draw.detach, draw.leave_channels],
        "leaving": opening + [draw.attach] * 6 + [lambda: draw.token(6)] * 16 + [draw.private] * 12 + [draw.join] * 3 + [draw.detach] * 3 + [draw.close] * 2,
        "limits": [lambda: draw.open(16)] + [draw.attach] * 8 + [draw.join_new] * 6 + [draw.convene] * 4 + [draw.grab] * 8 + [draw.join, draw.leave_channels],
        "damaged": opening + [draw.damaged] * 30 + [lambda: draw.token(4)] * 6 + [draw.private] * 4,
    }


def trace():
    """The whole trace; each profile starts with nothing open, and the last frame is a bad one with more behind it."""
    domain, octets = Domain(), b""
    draw = Draw(Dice(125), domain)
    for entries in profiles(draw).values():
        for _ in range(FRAMES):
            octets += play(domain, draw.dice.pick(entries)())
        for p in sorted(domain.open):
            octets += play(domain, frame("lose", p))
    return octets + bytes.fromhex("0004010100AA") + frame("open", 0)


def play(domain, octets):
    domain.event(["open", "lose", "message"][octets[3]], octets[4], octets[5:])
    return octets
