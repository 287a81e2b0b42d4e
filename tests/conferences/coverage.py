"""What the conferences must reach, and the token table of document 01 written out by hand, compared with every event."""
from model import FIELDS, NAMES, NOT_SERVED, RESULTS, UP, Refused, read

# The state of a token for the requester u (x, y others); then result/status of TGcf, TIcf, TVcf, TRcf, and the status of TTcf.
# Results: 0 successful, 9 token-not-available, 10 token-not-possessed, 12 too-many-tokens; "offer" is a TVin, or TVcf 5 (no-such-user).
TOKEN_TABLE = """
free        0/selfGrabbed     0/selfInhibited    10/notInUse        10/notInUse        notInUse
free-full   12/notInUse       12/notInUse        10/notInUse        10/notInUse        notInUse
G(u)        9/selfGrabbed     0/selfInhibited    offer              0/notInUse         selfGrabbed
G(x)        9/otherGrabbed    9/otherGrabbed     10/otherGrabbed    10/otherGrabbed    otherGrabbed
I{u}        0/selfGrabbed     0/selfInhibited    10/selfInhibited   0/notInUse         selfInhibited
I{u,x}      9/selfInhibited   0/selfInhibited    10/selfInhibited   0/otherInhibited   selfInhibited
I{x}        9/otherInhibited  0/selfInhibited    10/otherInhibited  10/otherInhibited  otherInhibited
V(u,y)      9/selfGiving      9/selfGiving       10/selfGiving      0/otherGiving      selfGiving
V(u,u)      9/selfGiving      9/selfGiving       10/selfGiving      0/selfRecipient    selfGiving
V(x,u)      9/selfRecipient   9/selfRecipient    10/selfRecipient   10/selfRecipient   selfRecipient
V(x,y)      9/otherGiving     9/otherGiving      10/otherGiving     10/otherGiving     otherGiving
N(u)        9/selfRecipient   9/selfRecipient    10/selfRecipient   10/selfRecipient   selfRecipient
N(y)        9/otherGiving     9/otherGiving      10/otherGiving     10/otherGiving     otherGiving
"""
COLUMNS = ["TGrq", "TIrq", "TVrq", "TRrq", "TTrq"]
CELLS = {}
for row in TOKEN_TABLE.strip().splitlines():
    state, *cells = row.split()
    for request, cell in zip(COLUMNS, cells):
        CELLS[state, request] = cell

SERVED = [NAMES[n] for n in sorted(UP) if NAMES[n] not in NOT_SERVED]
ALWAYS = ["EDrq", "AUrq", "DPum", "RJum"]                       # never ignored
KINDS_SENT = "AUcf DUin CJcf CCcf CDin CAin CEin TGcf TIcf TVin TVcf TPin TRcf TTcf RJum".split()
OFFERED = ["V(g,r)", "V(r,r)", "N(r)"]
LEAVINGS = ["G(g) g", "I(S) all", "I(S) some", "N(r) r", "V(g,r) g", "V(g,r) r", "V(g,r) both", "V(r,r) both"]
JOINS = ["static new", "static again", "static by another", "assigned new", "assigned by another", "own id", "other id on p", "other id elsewhere",
         "unused dynamic", "private manager", "private admitted", "private stranger", "private stranger on a joined connection",
         "static full", "assigned full", "unused dynamic full", "in use full"]
BAD_FRAMES = ["one octet", "length below 3", "version", "kind", "open with octets", "loss with octets", "cut short"]

POINTS = ([f"reply {n}" for n in (0, 1, 2, 3, 4, 5, 6, 7, 8, 11)]
          + [f"record {kind}" for kind in KINDS_SENT]
          + [f"message {name} done" for name in SERVED] + [f"message {name} ignored" for name in SERVED if name not in ALWAYS]
          + [f"message {name} refused 5" for name in SERVED]
          + [f"message {name} refused 8" for name in SERVED if name in "EDrq RJum DUrq CLrq CArq CErq".split()]
          + [f"number {n}" for n in range(64)]
          + [f"cell {state} {request}" for state, request in CELLS] + ["cell G(u) TVrq no-such-user"]
          + [f"cell {state} TPrq" for state in dict(CELLS.keys())]
          + [f"cell {state} TVrs {result}" for state in OFFERED for result in RESULTS]
          + ["cell other TVrs successful", "cell other TVrs user-rejected"]
          + [f"leaving {case}" for case in LEAVINGS]
          + [f"join {case}" for case in JOINS]
          + [f"2 {why}" for why in ("open above 15", "lose above 15", "message above 15", "lose not open", "message not open")]
          + ["4 empty", "4 long", "DUin CDin TVcf in one event"]
          + [f"11 {way}" for way in BAD_FRAMES])


def row_of(domain, user, t):
    """The state of a token as the table's rows name it for this user."""
    state, *names = domain.tokens.get(t, ("free",))
    if state == "free":
        return "free-full" if len(domain.tokens) >= domain.token_limit else "free"
    if state == "grabbed":
        return "G(u)" if names[0] == user else "G(x)"
    if state == "inhibited":
        return "I{x}" if user not in names[0] else "I{u}" if names[0] == {user} else "I{u,x}"
    if state == "giving":
        return "V(u,u)" if names == [user, user] else "V(u,y)" if names[0] == user else "V(x,u)" if names[1] == user else "V(x,y)"
    return "N(u)" if names[0] == user else "N(y)"


def requested(before, name, values, records):
    """The cell of a token request, after comparing its answer with the table."""
    user, t = values[0], values[1]
    row = row_of(before, user, t)
    if name == "TPrq":
        return f"cell {row} TPrq"
    [answer] = records
    cell = CELLS[row, name]
    if cell == "offer":
        if values[2] in before.users:
            assert answer == ("TVin", *values), answer
            return f"cell {row} TVrq"
        cell = "5/selfGrabbed"
    if name == "TTrq":
        assert answer == ("TTcf", user, t, cell), (row, answer)
    else:
        result, status = cell.split("/")
        assert answer == (name[:2] + "cf", RESULTS[int(result)], user, t, status), (row, answer)
    return f"cell {row} {name}" + (" no-such-user" if cell.startswith("5/") else "")


def answered(before, values, reply):
    """The cell of a TVrs from a connection that has its recipient."""
    result, user, t = values
    state, *names = before.tokens.get(t, ("free",))
    if state not in ("giving", "given") or names[-1] != user:
        assert reply == 1
        return f"cell other TVrs {result}"
    row = "N(r)" if state == "given" else "V(r,r)" if names[0] == user else "V(g,r)"
    return f"cell {row} TVrs {result}"


def left(before, after):
    """What the leavers of one event did to tokens."""
    gone = set(before.users) - set(after.users)
    for t, (state, *names) in before.tokens.items():
        if state == "inhibited":
            if names[0] & gone:
                yield "I(S) some" if names[0] - gone else "I(S) all"
        elif state == "giving":
            if names[0] == names[1] and names[0] in gone:
                yield "V(r,r) both"
            elif set(names) & gone:
                yield "V(g,r) both" if set(names) <= gone else "V(g,r) g" if names[0] in gone else "V(g,r) r"
        elif names[0] in gone:
            yield "G(g) g" if state == "grabbed" else "N(r) r"


def joined(before, p, user, asked):
    """What kind of join was asked for."""
    full = before.full()
    if asked not in before.channels:
        kind = "assigned" if asked == 0 else "static" if asked < 1001 else "unused dynamic"
        return kind + (" full" if full else "" if asked > 1000 else " new")
    channel = before.channels[asked]
    if full:
        return "in use full"
    if channel.kind == "user":
        return "own id" if user == asked else "other id on p" if before.users[asked] == p else "other id elsewhere"
    if channel.kind == "private":
        if user == channel.manager:
            return "private manager"
        if user in channel.admitted:
            return "private admitted"
        return "private stranger on a joined connection" if p in channel.joined else "private stranger"
    return channel.kind + (" again" if p in channel.joined and channel.kind == "static" else " by another")


def points(frame, before, reply, sent, after):
    """What an event reaches; complains where an answer breaks a rule that holds of all events."""
    yield f"reply {reply}"
    if frame is None:
        return
    kind, p, octets = frame
    records = [read(message) for _, message in sent]
    kinds = [record[0] for record in records]
    yield from (f"record {name}" for name in set(kinds))
    if {"DUin", "CDin", "TVcf"} <= set(kinds):
        yield "DUin CDin TVcf in one event"
    if reply:
        assert before.tables() == after.tables() and kinds == (["RJum"] if reply in (5, 6) else [])
    yield from (f"leaving {case}" for case in left(before, after))
    if reply == 2:
        yield f"2 {kind} " + ("above 15" if p > 15 else "not open")
    elif reply == 4:
        yield "4 long" if octets else "4 empty"
    elif kind == "message":
        yield from told(before, p, octets, reply, records)


def told(before, p, octets, reply, records):
    """What a message that has a number reaches."""
    number = octets[0] >> 2
    yield f"number {number}"
    if number > 42 or number not in UP or NAMES[number] in NOT_SERVED:
        assert reply == (5 if number > 42 else 6 if number not in UP else 7)
        return
    if reply in (5, 8):
        yield f"message {NAMES[number]} refused {reply}"
        return
    name, *values = read(octets)
    yield f"message {name} " + ("ignored" if reply else "done")
    if name == "TVrs" and before.users.get(values[1]) == p:
        yield answered(before, values, reply)
    elif reply == 0 and name in COLUMNS + ["TPrq"]:
        yield requested(before, name, values, records)
    elif reply == 0 and name == "CJrq":
        yield "join " + joined(before, p, *values)


def bad_frame(rest):
    """The way to 11 of the octets from a bad frame on."""
    if len(rest) < 2:
        return "one octet"
    size = int.from_bytes(rest[:2], "big")
    if size < 3:
        return "length below 3"
    if len(rest) < 2 + size:
        return "cut short"
    return "version" if rest[2] != 1 else "kind" if rest[3] > 2 else ["open", "loss"][rest[3]] + " with octets"


def sound(domain):
    """The rules that the tables keep after every event."""
    assert set(domain.users.values()) <= domain.open
    assert all(domain.channels[u].kind == "user" for u in domain.users)
    for c, channel in domain.channels.items():
        assert channel.joined <= domain.open
        if channel.kind == "user":
            assert c in domain.users and channel.joined <= {domain.users[c]}
        elif channel.kind == "private":
            assert channel.manager in domain.users and channel.admitted <= set(domain.users)
            assert channel.joined <= set(domain.insiders(channel))
        else:
            assert channel.joined and (c < 1001) == (channel.kind == "static")
    for t, (state, *names) in domain.tokens.items():
        assert set(names[0] if state == "inhibited" else names) <= set(domain.users) and names[0]
    assert len(domain.users) <= domain.user_limit and len(domain.channels) <= domain.channel_limit
    assert len(domain.tokens) <= domain.token_limit
