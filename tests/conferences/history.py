"""Holders read from the history alone, as document 01 has it: events, replies and records, and no table."""
from model import read


class History:
    def __init__(self):
        self.attached, self.holders, self.offers = {}, {}, {}

    def loses(self, user, tokens):
        for t in tokens:
            self.holders.get(t, set()).discard(user)

    def gains(self, user, t):
        self.holders.setdefault(t, set()).add(user)

    def leaves(self, user):
        self.loses(user, list(self.holders))
        self.offers = {t: r for t, r in self.offers.items() if r != user}
        del self.attached[user]

    def event(self, frame, reply, sent):
        if reply != 0:
            return
        kind, p, octets = frame
        name, *values = read(octets) if kind == "message" else (kind,)
        records = [read(message) for _, message in sent]
        for record in records:                                   # in one event losses come first
            if record[0] in ("TRcf", "TVcf") and record[1] == "successful":
                self.loses(record[2], [record[3]])
        if name in ("lose", "DPum", "RJum"):
            for user in [u for u, q in self.attached.items() if q == p]:
                self.leaves(user)
        if name == "DUrq":
            for user in {u for u in values[1] if self.attached.get(u) == p}:
                self.leaves(user)
        if name == "TVrs":
            result, user, t = values
            if result == "successful" and self.offers.get(t) == user and self.attached.get(user) == p:
                self.gains(user, t)
            if self.offers.get(t) == user:
                del self.offers[t]
        for record in records:
            if record[0] in ("TGcf", "TIcf") and record[1] == "successful":
                self.gains(record[2], record[3])
            elif record[0] == "TVin":
                self.offers[record[2]] = record[3]
            elif record[0] == "AUcf" and record[1] == "successful":
                self.attached[record[2]] = p

    def check(self, domain):
        """The table's holders and open offers are those of the history."""
        table, offers = {}, {}
        for t, (state, *names) in domain.tokens.items():
            if state != "given":
                table[t] = set(names[0]) if state == "inhibited" else {names[0]}
            if state in ("giving", "given"):
                offers[t] = names[-1]
        assert table == {t: us for t, us in self.holders.items() if us}, (table, self.holders)
        assert offers == self.offers, (offers, self.offers)
        assert self.attached == domain.users
        assert len(set(table) | set(offers)) == len(domain.tokens) <= domain.token_limit
