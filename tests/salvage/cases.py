#!/usr/bin/env python3
"""Cases for crates/test_salvage, by a model of T-13 that knows nothing of the code.

    cases.py SEED COUNT CASES LINES    writes COUNT cases, and the lines that test_salvage must print
    cases.py check SEEDS               the model against the sentence itself, and V1 to V5
    cases.py model FILE                what the program salvaged must write to both its outputs

A case: the lengths of the trace, of the output's room and of the list's room, two octets
each, and the trace.  Its line: reply, both lengths, and both rooms in hexadecimal; each
octet of a room is AA before.
"""
import itertools
import random
import re
import sys


def good(data, at):
    """The end of the good frame that begins at `at`, by document 01, or None."""
    if len(data) < at + 5:
        return None
    length, version, kind = data[at] * 256 + data[at + 1], data[at + 2], data[at + 3]
    right = length >= 3 and at + 2 + length <= len(data) and version == 1 and kind <= 2 and (kind == 2 or length == 3)
    return at + 2 + length if right else None


LENGTH, VERSION, KIND, OCTETS, CUT_OFF = ('the length is below 3', 'the version is not 1', 'the kind is above 2', 'an open or a loss with octets', 'cut off')


def reason(data, at):
    """Why no good frame begins at `at`: the first rule that is broken, read from the left; None where one begins."""
    there = len(data) - at
    if there < 2:
        return CUT_OFF
    length = data[at] * 256 + data[at + 1]
    if length < 3:
        return LENGTH
    if there < 3:
        return CUT_OFF
    if data[at + 2] != 1:
        return VERSION
    if there < 4:
        return CUT_OFF
    if data[at + 3] > 2:
        return KIND
    if data[at + 3] != 2 and length > 3:
        return OCTETS
    return CUT_OFF if there < 2 + length else None


# Version and kind of every good frame: the places between are passed over at the speed of a search.
MARK = re.compile(rb'\x01[\x00-\x02]')


def resume(data, at):
    """The first place from `at` on where a good frame begins that is followed by another or by the end; else the end."""
    mark = MARK.search(data, at + 2)
    while mark:
        place = mark.start() - 2
        end = good(data, place)
        if end is not None and (end == len(data) or good(data, end) is not None):
            return place
        mark = MARK.search(data, place + 3)
    return len(data)


def spans(data):
    """[(kept, start, end)] in order; a kept span is one frame."""
    out, at = [], 0
    while at < len(data):
        to = good(data, at)
        kept = to is not None
        if not kept:
            to = resume(data, at + 1)
        out.append((kept, at, to))
        at = to
    return out


def kept_and_told(data):
    """What the program writes to standard output and to standard error."""
    kept, told, cut, cuts = [], [], 0, 0
    for is_kept, a, b in spans(data):
        if is_kept:
            kept.append(data[a:b])
        else:
            told.append('%d %d %s\n' % (a, b - a, reason(data, a)))
            cut, cuts = cut + b - a, cuts + 1
    told.append(summary(len(data) - cut, cut, cuts))
    return b''.join(kept), ''.join(told).encode()


def summary(kept, cut, cuts):
    """The last line of the program."""
    return 'octets kept: %d, ' % kept + ('octets cut: %d, spans cut: %d\n' % (cut, cuts) if cuts else 'nothing cut\n')


def salvage(data, out_room=None, list_room=None):
    """(reply, output, list)"""
    found = spans(data)
    out = b''.join(data[a:b] for kept, a, b in found if kept)
    cuts = b''.join(a.to_bytes(8, 'big') + (b - a).to_bytes(8, 'big') for kept, a, b in found if not kept)
    if out_room is not None and len(out) > out_room or list_room is not None and len(cuts) > list_room:
        return 9, b'', b''
    return 0, out, cuts


def by_sentence(data):
    """The same from the set of all places where a good frame begins."""
    n = len(data)
    begins = {a: good(data, a) for a in range(n) if good(data, a) is not None}
    resume = [a for a, e in begins.items() if e == n or e in begins]
    at, out = 0, []
    while at != n:
        to = begins[at] if at in begins else min((a for a in resume if a > at), default=n)
        out.append((at in begins, at, to))
        at = to
    return out


def is_trace(data):
    at = 0
    while at < len(data):
        at = good(data, at)
        if at is None:
            return False
    return True


def frame(kind, connection, octets=b''):
    return (3 + len(octets)).to_bytes(2, 'big') + bytes([1, kind, connection]) + octets


A, B, C = frame(0, 2), frame(2, 2, b'\x28'), frame(1, 2)
HAND = [b'', A, A + B, b'\x00', A + b'\xff', b'\xff' + A, b'\xff' + A + b'\xff', b'\xff' + A + B + b'\xff', A + b'\xff' + B + b'\xff' + C, A + A[:3],
        A + b'\x00\x00' + B + C, bytes.fromhex('000B01020228') + A + A[:2], b'\x00\x00', bytes(40), b'\xff' * 9, A[:4], A * 3, (b'\xff' + A + A) * 4,
        A[:4] + A, b'\xff' + A + B + C[:4]]


def random_frame(r):
    kind = r.choice([0, 1, 2, 2, 2, 2])
    return frame(kind, r.randrange(20), bytes(r.randrange(256) for _ in range(r.choice([0, 1, 4, 7, 30]))) if kind == 2 else b'')


def torn(r):
    how = r.randrange(8)
    if how == 0:                                     # octets that are nearly all heads of frames
        return bytes(r.choice([0, 0, 0, 3, 4, 7, 1, 1, 2, 3]) for _ in range(r.randrange(80)))
    if how == 1:                                     # frames and odd octets in any order
        return b''.join(r.choice([A, B, C, A, B, b'\x00', b'\xff', b'\x01', A[:3]]) for _ in range(r.randrange(14)))
    d = bytearray(b''.join(random_frame(r) for _ in range(r.choice([1, 2, 5, 10, 40]))))
    for _ in range(r.choice([0, 1, 1, 2, 4, 8])):    # octets lost, changed, doubled, cleared; an end lost
        if d:
            i = r.randrange(len(d))
            n = min(len(d) - i, r.choice([1, 1, 2, 5, 16, 64]))
            kind = r.randrange(12)
            if kind < 3:
                del d[i:i + n]
            elif kind < 5:
                d[i:i + n] = bytes(n)
            elif kind < 7:
                d[i] ^= 1 << r.randrange(8)
            elif kind < 9:
                d[i:i] = bytes(r.randrange(256) for _ in range(n))
            elif kind < 11:
                d[i:i] = d[i:i + n]
            else:
                del d[i:]
    return bytes(d)


def write(seed, count, cases, lines):
    r = random.Random(seed)
    tally = {}
    with open(cases, 'wb') as c, open(lines, 'w') as l:
        for i in range(count):
            data = HAND[i] if i < len(HAND) else torn(r)
            _, out, cut = salvage(data)
            rooms = [max(0, len(x) + r.choice([0, 0, 0, 0, 0, 1, 5, -1, r.randrange(40)])) for x in (out, cut)]
            if r.random() < 0.1:
                rooms = [len(data), 16 * ((len(data) + 10) // 11)]
            if r.random() < 0.05:
                rooms[r.randrange(2)] = 0
            reply, out, cut = salvage(data, *rooms)
            c.write(b''.join(n.to_bytes(2, 'big') for n in [len(data)] + rooms) + data)
            full = [(x + b'\xaa' * (n - len(x))).hex().upper() for x, n in zip((out, cut), rooms)]
            l.write('%d %d %d %s %s\n' % (reply, len(out), len(cut), full[0], full[1]))
            key = 'refused' if reply else '%d cuts' % min(len(cut) // 16, 4)
            tally[key] = tally.get(key, 0) + 1
    print('seed %d: %s' % (seed, dict(sorted(tally.items()))))


def check(seeds):
    most = 0
    for seed in range(seeds):
        r = random.Random('check %d' % seed)
        small = [bytes(x) for n in range(8) for x in itertools.product([0, 1, 3], repeat=n)] if seed == 0 else []
        for data in HAND + small + [torn(r) for _ in range(50)]:
            found = spans(data)
            assert all((good(data, a) is None) == (reason(data, a) is not None) for a in range(len(data)))
            reply, out, cut = salvage(data)
            assert found == by_sentence(data)
            assert b''.join(data[a:b] for _, a, b in found) == data
            assert salvage(out) == (0, out, b'')
            assert (cut == b'') == is_trace(data)
            assert len(out) <= len(data) and len(cut) <= 16 * ((len(data) + 10) // 11)
            most = max(most, len(cut) // 16)
    print('%d seeds: the model holds what is claimed; at most %d cuts' % (seeds, most))


def model(file):
    with open(file, 'rb') as f:
        kept, told = kept_and_told(f.read())
    sys.stdout.buffer.write(kept)
    sys.stderr.buffer.write(told)


if __name__ == '__main__':
    if sys.argv[1] == 'check':
        check(int(sys.argv[2]))
    elif sys.argv[1] == 'model':
        model(sys.argv[2])
    else:
        write(int(sys.argv[1]), int(sys.argv[2]), sys.argv[3], sys.argv[4])
