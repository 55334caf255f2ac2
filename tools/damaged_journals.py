#!/usr/bin/env python3
"""Input and expected output of the test program damaged_journals, from document 01 and W-201 of document 02 alone (tools/model.py).

Run from the repository's root, it writes crates/damaged_journals/stdin and crates/damaged_journals/stdout. It shares nothing with the calculator.
Counts of what was met, by version and strikes, go to standard error; the script fails if one of these is missing: books accepted in either version; books not
accepted of version 1 with a strike, of version 2 without one, of another version, with a strike whose other bytes are not all zero.
"""
import sys
from collections import Counter
from fractions import Fraction
from math import isqrt
from model import A, D, E, HEAD, K, P, SIZE, SLOT, Z, changed, decode, encode, num, period_count, read, self_check

# ------------------------------ second, slow reader: S, Q and s of each engine computed anew; it shares decode and the ranges with the first


def literal_marks(setup, events, which):
    """Marks of pollutant `which` (0 or 1); the spread is computed from the whole prefix, C is carried along."""
    T, X, Ts = setup[2 + which], [], []
    for ev in events:
        if ev[0] == 'A':
            T = ev[1 + which]
        elif ev[0] == 'E':
            X.append(ev[3 + which])
            Ts.append(T)
        elif ev[0] == 'Z':                  # all figures are of the engines that remain, under the standards of their entry
            del X[-1:], Ts[-1:]
    marks, low, high = [], 0, 0
    for i in range(1, len(X) + 1):
        if i == 1:
            marks.append('-')
            continue
        mean = Fraction(sum(X[:i]), i)
        var = sum((x - mean) ** 2 for x in X[:i]) / (i - 1)     # sample variance = V/(i(i-1))
        exact = K * K * var
        s = isqrt(exact.numerator // exact.denominator)
        assert s * s <= exact < (s + 1) ** 2
        e = 0 if s * s == exact else 1
        d = 4 * K * (X[i - 1] - Ts[i - 1])
        low, high = max(0, low + d - s - e), max(0, high + d - s)
        marks.append('O' if low > 20 * (s + e) else 'U' if high <= 20 * s else '?')
    return marks


def literal_accepts(buf):
    got = decode(buf)
    if got is None:
        return False
    setup, events = got
    if bytes(buf[3:5]) != (b'\2\0' if any(ev[0] == 'Z' for ev in events) else b'\1\0'):
        return False
    # periods: a strike cancels an engine before it in its own period; each period but the one begun last has the engines it needs
    text = ''.join(ev[0] for ev in events if ev[0] in 'EPZ').split('P')
    left = [cancelled(part) for part in text]
    if len(text) > period_count(setup[0], setup[1]) or any('Z' in part for part in left):
        return False
    if any(len(part) < (2 if j == 0 else 1) for j, part in enumerate(left[:-1])):
        return False
    # numbers: at no time are there more than forty, or one twice
    numbers = []
    for ev in events:
        if ev[0] == 'E':
            numbers.append(ev[1])
            if not (ev[1] >= 1 and ev[2] in (1, 2, 3) and ev[3] <= 20000 and ev[4] <= 20000):
                return False
        elif ev[0] == 'Z':
            numbers.pop()
        if len(numbers) > 40 or len(set(numbers)) != len(numbers):
            return False
    for ev in events:
        if ev[0] == 'A' and not all(t in range(10, 20001, 10) for t in ev[1:]):
            return False
    # a declaration, or a second consecutive 'O', may come only with the last event. Marks are only added until the next strike, so they are looked at before each
    if any(ev[0] == 'D' for ev in events[:-1]):
        return False
    ends = [j for j, ev in enumerate(events) if ev[0] == 'Z'] + [len(events) - 1]
    return not any('OO' in ''.join(literal_marks(setup, events[:max(0, end)], which)) for end in ends for which in (0, 1))


def cancelled(part):
    """A period's engines E and strikes Z without each engine that is struck, and its strike."""
    while 'EZ' in part:
        part = part.replace('EZ', '')
    return part

# ------------------------------------------------------------ the base journals


def full_events():
    out = []
    for j in range(40):
        if j >= 16:
            out.append(A(1000, 6100))
        out.append(E(10 * j + 1, 1 + j % 3, 700 + (j * 37) % 101, 5000 + (j * 53) % 211))
    assert len(out) == 64
    return out


def struck_full_events():
    """64 events, forty engines at the end: each tenth is struck once, the fortieth twice, and other amendments are kept."""
    out = []
    for j in range(40):
        engine = E(10 * j + 1, 1 + j % 3, 700 + (j * 37) % 101, 5000 + (j * 53) % 211)
        out += [engine, Z] * (2 if j == 39 else 1 if j % 10 == 9 else 0) + [engine]
    out += [A(1000, 6100)] * (64 - len(out))
    assert len(out) == 64
    return out


BASES = [
    ('printed', (5000, 365, 800, 6100, 0, 0, 0, 0),
     [E(1, 1, 998, 5000), E(2, 1, 1071, 5000), E(3, 1, 900, 5000)]),
    ('empty', (1600, 121, 10, 20000, 1, 0, 1000, 60000), []),
    ('mixed', (2000, 301, 1000, 6100, 1, 0, 1050, 25),
     [E(7, 3, 800, 5000), E(65535, 2, 0, 0), P, A(990, 6100), E(1, 1, 801, 4999), P,
      E(2, 1, 790, 5003), P, E(258, 1, 795, 5100), A(20000, 10)]),
    ('declared', (99999999, 366, 20000, 20000, 0, 1, 60000, 60000),
     [E(1, 1, 20000, 20000), E(256, 2, 20000, 0), D]),
    ('failed', (1500, 100, 100, 6100, 0, 0, 0, 0),
     [E(1, 1, 500, 5000), E(2, 1, 500, 5000), E(3, 1, 500, 5000)]),
    ('full', (5000, 200, 1000, 6100, 0, 0, 0, 0), full_events()),
    ('failed by co', (1500, 100, 20000, 100, 0, 0, 0, 0),
     [E(1, 1, 500, 3000), E(2, 1, 500, 3000), E(3, 2, 500, 3000)]),
    ('unsettled', (5000, 365, 800, 6100, 0, 0, 0, 0),
     [E(1, 1, 998, 5000), E(2, 1, 1071, 5000), E(3, 1, 1200, 5000), A(810, 6100), E(4, 1, 700, 5000), P]),
    ('low volume', (256, 1, 10, 10, 0, 0, 60000, 0), [E(1, 1, 0, 0)]),
    ('two periods', (1600, 121, 1000, 6100, 0, 0, 0, 0), [E(1, 1, 800, 5000), E(2, 1, 800, 5000), P]),
    ('three periods', (1600, 211, 1000, 6100, 0, 0, 0, 0),
     [E(1, 1, 800, 5000), E(2, 1, 800, 5000), P, E(3, 1, 800, 5000), P, E(4, 1, 800, 5000)]),
    # not accepted as they are
    ('high volume', (100000000, 366, 1000, 6100, 0, 0, 0, 0), []),
    ('after failure', (1500, 100, 100, 6100, 0, 0, 0, 0),
     [E(1, 1, 500, 5000), E(2, 1, 500, 5000), E(3, 1, 500, 5000), A(200, 6100)]),
    ('after declared', (5000, 365, 800, 6100, 0, 0, 0, 0),
     [E(1, 1, 998, 5000), D, E(2, 1, 1071, 5000)]),
    ('repeated', (5000, 365, 800, 6100, 0, 0, 0, 0),
     [E(5, 1, 998, 5000), E(6, 1, 700, 5000), E(5, 1, 700, 5000)]),
    ('short period', (2000, 301, 1000, 6100, 0, 0, 0, 0), [E(1, 1, 800, 5000), P, E(2, 1, 800, 5000)]),
    ('last period', (1599, 366, 1000, 6100, 0, 0, 0, 0), [E(1, 1, 800, 5000), E(2, 1, 800, 5000), P]),
    ('forty-one', (5000, 200, 1000, 6100, 0, 0, 0, 0),
     [E(j, 1, 800, 5000) for j in range(1, 42)]),
    # with strikes
    ('struck', (5000, 365, 800, 6100, 0, 0, 0, 0),
     [E(1, 1, 998, 5000), E(2, 1, 1071, 5000), E(3, 1, 900, 5000), Z]),
    ('struck, mixed', (2000, 301, 1000, 6100, 1, 0, 1050, 25),
     [E(7, 3, 800, 5000), E(258, 1, 20000, 20000), A(990, 6100), Z, E(258, 2, 0, 0), P, E(1, 1, 801, 4999), Z, E(1, 1, 790, 5003), E(2, 1, 795, 5100), Z, P, D]),
    ('struck, full', (5000, 200, 1000, 6100, 0, 0, 0, 0), struck_full_events()),
    ('all struck', (5000, 200, 1000, 6100, 0, 0, 0, 0), [E(65535, 1, 800, 5000), Z] * 32),
    ('struck, failed', (1500, 100, 100, 6100, 0, 0, 0, 0),
     [E(1, 1, 500, 5000), E(2, 1, 500, 5000), Z, E(2, 1, 500, 5000), E(3, 1, 500, 5000)]),
    # with strikes, and not accepted as they are
    ('none to strike', (1600, 121, 1000, 6100, 0, 0, 0, 0), [Z, E(1, 1, 800, 5000), E(2, 1, 800, 5000)]),
    ('none left', (1600, 121, 1000, 6100, 0, 0, 0, 0), [E(1, 1, 800, 5000), Z, Z]),
    ('earlier period', (1600, 121, 1000, 6100, 0, 0, 0, 0), [E(1, 1, 800, 5000), E(2, 1, 800, 5000), P, Z]),
    ('short by strike', (1600, 121, 1000, 6100, 0, 0, 0, 0), [E(1, 1, 800, 5000), E(2, 1, 800, 5000), Z, P, E(3, 1, 800, 5000)]),
    ('strike failed', (1500, 100, 100, 6100, 0, 0, 0, 0),
     [E(1, 1, 500, 5000), E(2, 1, 500, 5000), E(3, 1, 500, 5000), Z]),
    ('strike declared', (5000, 365, 800, 6100, 0, 0, 0, 0), [E(1, 1, 998, 5000), D, Z]),
    ('number remains', (5000, 365, 800, 6100, 0, 0, 0, 0), [E(5, 1, 998, 5000), E(6, 1, 700, 5000), Z, E(5, 1, 700, 5000)]),
    ('forty-one once', (5000, 200, 1000, 6100, 0, 0, 0, 0), [E(j, 1, 800, 5000) for j in range(1, 42)] + [Z]),
    # of a version that cannot hold the events: the bytes after these differ
    ('strike in 1', (5000, 365, 800, 6100, 0, 0, 0, 0), [E(1, 1, 998, 5000), E(2, 1, 1071, 5000), Z], (3, 1)),
    ('none in 2', (5000, 365, 800, 6100, 0, 0, 0, 0), [E(1, 1, 998, 5000), E(2, 1, 1071, 5000), P], (3, 2)),
    ('version 512', (5000, 365, 800, 6100, 0, 0, 0, 0), [E(1, 1, 998, 5000), Z], (3, 0), (4, 2)),
]

# --------------------------------------------------------------- the damage


def bytes_damage(book):
    """Each byte changed to each other value, counting up from its own and wrapping round at 256."""
    for i in range(SIZE):
        for v in range(1, 256):
            b = bytearray(book)
            b[i] = (book[i] + v) % 256
            yield bytes(b)


def lengths_damage(book):
    for n in range(SIZE):
        yield book[:n]
    for extra in range(1, 17):
        yield book + bytes(extra)


def slots_damage(book):
    for j in range(63):
        a = HEAD + SLOT * j
        yield book[:a] + book[a + 8:a + 16] + book[a:a + 8] + book[a + 16:]
    for v in range(1, 65):
        yield book[:24] + bytes([(book[24] + v) % 65]) + book[25:]


def filled():
    for v in range(256):
        yield bytes([v]) * SIZE


STRIDE = 13     # every 13th buffer is also judged by the second reader


def sort_of(buf):
    """The version of a book, with its strikes: none, some, or some with a byte that has to be zero."""
    strikes = [buf[at:at + SLOT] for at in range(HEAD, HEAD + SLOT * min(buf[24], 64), SLOT) if buf[at] == 5]
    return num(buf, 3, 2), 'none' if not strikes else 'dirty' if any(any(slot[1:]) for slot in strikes) else 'struck'


def run(buffers, met=None):
    """The line that the test program prints; `met` counts the buffers of 544 bytes."""
    tried = accepted = 0
    d = 1
    for index, buf in enumerate(buffers):
        got = read(buf)
        ok = got is not None
        if ok:
            assert encode(*got) == buf              # a book is read back exactly
        if met is not None and len(buf) == SIZE:
            met[(ok,) + sort_of(buf)] += 1
        if index % STRIDE == 0:
            assert literal_accepts(buf) == ok, (index, buf.hex())
        d = (d * 31 + (1 if ok else 0) * (index + 1)) % 4294967291
        tried += 1
        accepted += ok
    return 'tried %d accepted %d digest %d' % (tried, accepted, d)


def check_counts(met):
    """Prints what was met; fails if a case never was."""
    by_sort = Counter()
    for (ok, number, strikes), count in met.items():
        by_sort['accepted' if ok else 'refused', 'version %d' % number if number in (1, 2) else 'another version', strikes] += count
    for sort, count in sorted(by_sort.items()):
        print('%8d %s' % (count, ', '.join(sort)), file=sys.stderr)
    assert {sort for sort in by_sort if sort[0] == 'accepted'} == {('accepted', 'version 1', 'none'), ('accepted', 'version 2', 'struck')}
    assert {sort for sort in by_sort if sort[0] == 'refused'} == {('refused', number, strikes) for number in ('version 1', 'version 2', 'another version')
                                                                 for strikes in ('none', 'struck', 'dirty')}
    assert all((False, number, 'struck') in met and (False, number, 'none') in met for number in (0, 3, 4, 255, 257, 258, 512))


def main():
    self_check()
    books, lines, met = b'', [], Counter()

    def say(name, line):
        lines.append(name.ljust(16) + line)
        print(lines[-1], flush=True)

    for name, setup, events, *bytes_changed in BASES:
        book = changed(encode(setup, events), *bytes_changed)
        assert len(book) == SIZE and len(name) < 16
        books += name.ljust(16).encode() + book
        ok = read(book) is not None
        assert ok == literal_accepts(book)
        say(name, 'accepted %d' % ok)
        say(name, 'rewritten %d' % (encode(*(decode(book) or (setup, events))) == book))
        for test, make, size in (('bytes', bytes_damage, 138720),
                                 ('lengths', lengths_damage, 560),
                                 ('slots', slots_damage, 127)):
            line = run(make(book), met)
            assert line.startswith('tried %d ' % size)
            say(name, test + ' ' + line)
    say('every value', 'filled ' + run(filled()))
    check_counts(met)
    home = sys.argv[1] if len(sys.argv) > 1 else 'crates/damaged_journals'
    with open(home + '/stdin', 'wb') as f:
        f.write(books)
    with open(home + '/stdout', 'w') as f:
        f.write('\n'.join(lines) + '\n')


if __name__ == '__main__':
    main()
