#!/usr/bin/env python3
"""Input and expected output of the test program call_lists, from document 01 and W-201, W-202, W-204 and W-205 of document 02 alone (tools/model.py).

Run from the repository's root, it writes crates/call_lists/stdin and crates/call_lists/stdout. It shares nothing with the calculator.

The input has one call to a line: a letter, then decimal numbers, each after one space.
  # text                      a title, printed as it is
  B n                         the following calls are lent the first n bytes of an array of 560 (544 at the start)
  N                           all 560 bytes become zero, as they are at the start
  W i v                       byte i becomes v
  S P D T1 T2 k1 f1 k2 f2     setup: volume, days, standards, then kind and factor of HC+NOx and of CO
  E number a b r.. r..        engine: a readings of HC+NOx, then b of CO
  T number a b r.. r..        ask: what that engine would be answered, and nothing is written
  A t1 t2   P   X   Z   Q     amendment, next period, declaration, strike, status
  L size                      the strip, into the first `size` bytes of an array of 100 that are all '.' before
  G size                      the wall page, into the first `size` bytes of an array of 2,600 that are all '.' before
It prints a line for each of S E T A P X Z Q:
  refusal n verdict, then S s e Clow Chigh Hlow Hhigh N mark of HC+NOx and of CO, then a digest of all 560 bytes;
for L:
  refusal length |the array of 100| refusal |the part handed back| digest of the 100 bytes after that second call, digest of the 560 bytes;
and for G:
  refusal length digest of the 2,600 bytes, then of a second call refusal, length and digest of the part handed back, digest of the 2,600 bytes and of the 560.

Each answer is computed twice: as the first, in checking order, of all refusals that hold, and from the plain year of the calls (their arguments alone).
Each strip is computed a second time, from fractions, and compared with work at m = 2 and 8, which must be as demand 3 says. The status and strip of a book with
strikes are computed a second time from its events without these and the engines that they removed; a strike right after its engine must give the status before.
Each ask is answered a second time by entering its engine on the book read anew; one right before its engine must have that engine's answer; and with all asks
taken out, the lines must give the same other answers and leave the same array.
Where verdict 1, 3 or 4 is answered, the engines and those that pass are counted a second time, from the events.
Each wall page is read back by position and compared with the setup, the events, the strip, and the statuses after each engine that remains. Wherever a strip is
asked for, two pages are too, into a size that is enough and into one that is not.
Counts of what occurred go to standard error; the script fails if a refusal, a verdict, a mark, a strike after an engine, an amendment or a strike, a book of
either version, a pair of refusals that can hold at once (of which the first must be given), an ask of any answer right before its
engine, a verdict 1, 3 or 4 that failing engines bring about or leave, a page of any number of engines, of a year with strikes or one that is closed, a size next to
what a page takes, or a column as full as it can be never occurred.
"""
import copy
import random
import sys
from collections import Counter
from itertools import combinations
from math import isqrt
from damaged_journals import literal_marks
from model import (K, LINE, MAX_ENGINES, MAX_EVENTS, SIZE, Pollutant, Year, encode, factor_ok, first_refusal, page, page_size, read, result_of, round_even,
                   self_check, standard_ok, version)

ARRAY, STRIP, PAGE = 560, 100, 2600
# The columns of the wall page's lines: what they hold, and their widths.
HEAD_LINE = (('P', 8), ('D', 3), ('periods', 1))
ENGINE_LINE = (('number', 5), ('hcnox', 5), ('co', 5), ('C', 10), ('C', 10), ('C', 10), ('C', 10), ('mark', 1), ('mark', 1))
MOST_LINES = 40000      # so many the test program reads
MODULUS = 4294967291
TOP = 4294967295        # the largest argument
# The refusals that each call can give, in checking order.
ROWS = {'S': (3, 4, 5, 6), 'E': (3, 7, 8, 9, 10, 11, 12, 13, 14), 'A': (3, 5, 7, 8, 9), 'P': (3, 7, 8, 9, 15),
        'X': (3, 7, 8, 9), 'Z': (3, 7, 8, 9, 17), 'Q': (3, 7), 'L': (3, 7, 16), 'G': (3, 7, 18)}
ROWS['T'] = ROWS['E']   # an ask is refused as its engine is

# ------------------------------------------------------------- the answers


def digest(data):
    d = 1
    for b in data:
        d = (d * 31 + b) % MODULUS
    return d


def figures(p):
    """S s e, both C, both H, N in tenths, mark. Before engine 2 all but S is zero, N is absent and the mark is '-'."""
    if p.n < 2:
        return [p.S, 0, 0, 0, 0, 0, 0, '-', '-']
    N = p.N_tenths()
    return [p.S, p.s, p.e, p.c_low, p.c_high, p.h_low, p.h_high, '-' if N is None else N, p.marks[-1]]


REFUSED = [0, 0] + [0, 0, 0, 0, 0, 0, 0, '-', '-'] * 2


def year_of(setup, events):
    year = Year(setup)
    for ev in events:
        assert year.enter(ev) == 0
    return year


def strip_of(year):
    return ''.join(a + b for a, b in zip(year.h.marks, year.c.marks))


def status_of(year):
    return [year.n(), year.verdict()] + figures(year.h) + figures(year.c)


def remaining(events):
    """The events without the strikes and the engines that they removed."""
    left = []
    for ev in events:
        if ev == ('Z',):
            del left[max(i for i, old in enumerate(left) if old[0] == 'E')]
        else:
            left.append(ev)
    return left


def passing_among(setup, events):
    """How many engines pass, of events without strikes: each under the standards set by the amendment before it."""
    standards, passing = setup[2:4], 0
    for ev in events:
        if ev[0] == 'A':
            standards = ev[1:]
        elif ev[0] == 'E':
            passing += ev[3] <= standards[0] and ev[4] <= standards[1]
    return passing


class Finer(Year):
    """Work at m: the events of the book stay, even if the finer marks have failed."""

    def closed(self):
        return False


def finer_work(year, m):
    """Demand 3 for one book: returns how many '?' marks work at m settles, and checks every other mark, the verdict and the brackets."""
    finer = Finer(year.setup, K * m)
    for ev in year.events:
        assert finer.enter(ev) == 0
    pairs = list(zip(strip_of(year), strip_of(finer)))
    assert len(strip_of(finer)) == len(pairs) and all(a == b or a == '?' and b in 'OU' for a, b in pairs)
    assert year.verdict() in (5, finer.verdict())
    for p, q in ((year.h, finer.h), (year.c, finer.c)):
        assert m * p.c_low <= q.c_low <= q.c_high <= m * p.c_high and p.c_high - p.c_low <= max(0, p.n - 1)
        assert m * p.h_low <= q.h_low <= q.h_high <= m * p.h_high and p.h_high - p.h_low <= 20
    return sum(a != b for a, b in pairs)


def call_of(letter, numbers):
    """The arguments by name: a setup in the model's order, an engine's readings as two lists."""
    if letter == 'S':
        p, d, t1, t2, k1, f1, k2, f2 = numbers
        return (p, d, t1, t2, k1, k2, f1, f2)
    if letter in 'ET':
        number, a, b = numbers[:3]
        assert len(numbers) == 3 + a + b and a <= 8 and b <= 8
        return (number, numbers[3:3 + a], numbers[3 + a:])
    return tuple(numbers)


def engine_numbers(number, hcnox, co):
    """An engine's numbers as its line has them; one reading need not be in a list."""
    hcnox, co = (r if isinstance(r, list) else [r] for r in (hcnox, co))
    return [number, len(hcnox), len(co)] + hcnox + co


def results_of(setup, hcnox, co):
    return tuple(result_of(setup[4 + i], setup[6 + i], r) if r else 0 for i, r in enumerate((hcnox, co)))


def rows_that_hold(letter, args, lent, accepted, year):
    """Every refusal of the table that applies. `year` is the book or, if that is damaged, the book before: then it can only add rows after 7."""
    held = set()

    def row(number, test):
        if number in ROWS[letter] and test:
            held.add(number)

    row(3, lent != SIZE)
    if letter == 'S':
        row(4, not (1 <= args[0] <= 99999999 and 1 <= args[1] <= 366))
        row(5, not (standard_ok(args[2]) and standard_ok(args[3])))
        row(6, not (factor_ok(args[4], args[6]) and factor_ok(args[5], args[7])))
        return held
    row(5, letter == 'A' and not (standard_ok(args[0]) and standard_ok(args[1])))
    row(7, not accepted)
    if letter in 'ET':
        number, hcnox, co = args
        row(10, not 1 <= number <= 65535)
        row(11, len(hcnox) != len(co) or not 1 <= len(hcnox) <= 3)
        row(12, any(r > 20000000 for r in hcnox + co))
    if year is not None:
        row(8, year.verdict() in (6, 7))
        row(9, len(year.events) == MAX_EVENTS)
        if letter in 'ET':
            row(10, year.has(number))
            row(13, max(results_of(year.setup, hcnox, co)) > 20000)
        row(17, not year.can_strike())
        row(14, year.n() == MAX_ENGINES)
        row(15, year.period == year.periods or year.short())
        row(16, letter == 'L' and args[0] < 2 * year.n())
        row(18, letter == 'G' and args[0] < page_size(year.n()))
    return held


def event_of(letter, args, setup):
    """The event that an entry adds; of an ask, the engine that it asks about."""
    if letter in 'ET':
        number, hcnox, co = args
        count = len(hcnox) if len(hcnox) == len(co) else 0
        return ('E', number, count) + results_of(setup, hcnox, co)
    return {'A': ('A',) + args, 'P': ('P',), 'X': ('D',), 'Z': ('Z',)}[letter]


def statuses_after(setup, events):
    """What the line of each engine shows, of events without strikes: its number and results, and C and the marks of the status after it."""
    year, found = Year(setup), []
    for ev in events:
        assert year.enter(ev) == 0
        if ev[0] == 'E':
            of_hcnox, of_co = figures(year.h), figures(year.c)
            found.append([ev[1], ev[3], ev[4]] + of_hcnox[3:5] + of_co[3:5] + [of_hcnox[-1], of_co[-1]])
    return found


class Lists:
    """The lines so far, and the array as the calls left it."""

    def __init__(self):
        self.array, self.lent = bytearray(ARRAY), SIZE
        self.plain = None                   # the plain year: what the arguments of the calls alone leave
        self.input, self.output = [], []
        self.refusals, self.verdicts, self.marks, self.pairs = Counter(), Counter(), Counter(), Counter()
        self.strips, self.settled = Counter(), Counter()
        self.struck_after, self.versions = Counter(), Counter()
        self.percents = Counter()           # verdicts 1, 3 and 4, whether all, some or no engines pass, and whether n is at least one percent
        self.pages, self.columns, self.spare = Counter(), Counter(), Counter()  # pages by engines, figures by their width, bytes lent beyond those of a page
        self.asking, self.chance = 0, random.Random(202)    # the share of engines that put asks about before it enters them
        self.sizes, self.read_back = random.Random(205), None

    def book(self):
        got = read(bytes(self.array[:self.lent]))
        return None if got is None else year_of(*got)

    def plain_bytes(self):
        return bytes(SIZE) if self.plain is None else encode(self.plain.setup, self.plain.events)

    def say(self, text):
        """Takes one line of input; returns the number of a call's refusal."""
        self.input.append(text)
        letter, numbers = text[0], None
        if letter == '#':
            self.output.append(text)
            return None
        numbers = [int(w) for w in text[1:].split(' ')[1:]]
        assert text == ' '.join([letter] + [str(x) for x in numbers]) and all(0 <= x <= TOP for x in numbers)
        if letter == 'B':
            self.lent, = numbers
            assert self.lent <= ARRAY
        elif letter == 'N':
            self.array[:] = bytes(ARRAY)
            self.plain = None
        elif letter == 'W':
            self.array[numbers[0]] = numbers[1]
        else:
            return self.call(letter, call_of(letter, numbers))
        return None

    def call(self, letter, args):
        year = self.book()
        intact = bytes(self.array[:SIZE]) == self.plain_bytes()
        if intact and self.lent == SIZE:    # the book is the plain year's
            assert (year is None) == (self.plain is None)
            assert year is None or (year.setup, year.events) == (self.plain.setup, self.plain.events)
        held = rows_that_hold(letter, args, self.lent, year is not None, year or self.plain)
        refusal = first_refusal(held)
        self.refusals[letter, refusal] += 1
        if year is not None and letter != 'S':
            self.versions[self.array[3], refusal == 0] += 1
        for later in held - {refusal}:
            self.pairs[letter, (refusal, later)] += 1
        if letter in 'LG':
            {'L': self.strip, 'G': self.page}[letter](args[0], refusal, year)
            return refusal
        before = bytes(self.array)
        asked = self.asked(args, refusal, year) if letter == 'T' and year is not None else None
        if letter in 'EAPXZ' and year is not None:
            self.entered(letter, args, refusal, year)
        if refusal == 0:
            self.leave(letter, args, year)
            self.wrote(letter, before)
        else:
            assert bytes(self.array) == before
        self.output.append(' '.join(str(x) for x in [refusal] + self.status(refusal, asked) + [digest(self.array)]))
        return refusal

    def entered(self, letter, args, refusal, year):
        """Year.enter, with its own order of checks, gives the same refusal (it does not check 12)."""
        event = event_of(letter, args, year.setup)
        if refusal != 12:
            assert year.enter(event) == refusal, (letter, args, refusal)

    def asked(self, args, refusal, year):
        """The year that the ask tells of, which is also what entering the engine makes of the book read anew; the year itself stays."""
        event = event_of('T', args, year.setup)
        refused, asked = year.ask(event)
        entered = self.book()
        assert entered.enter(event) == refused and (refusal == 12 or refused == refusal)
        assert (entered.events, status_of(entered), strip_of(entered)) == (asked.events, status_of(asked), strip_of(asked))
        assert encode(year.setup, year.events) == bytes(self.array[:SIZE])
        return asked

    def leave(self, letter, args, year):
        if letter == 'S':
            year = Year(args)
        if letter in 'TQ':
            return
        self.plain = year
        self.array[:SIZE] = encode(year.setup, year.events)

    def wrote(self, letter, before):
        """An entry wrote its slot and byte 24, and the first strike byte 3; a status and an ask nothing."""
        if letter in 'EAPXZ':
            count = before[24]
            named = set(range(32 + 8 * count, 40 + 8 * count)) | {24} | ({3} if letter == 'Z' and before[3] == 1 else set())
            differ = {i for i in range(ARRAY) if self.array[i] != before[i]}
            assert differ <= named and 24 in differ and 32 + 8 * count in differ and (3 in named) == (3 in differ)
        elif letter in 'TQ':
            assert bytes(self.array) == before

    def status(self, refusal, asked):
        """Of the book, or of the year that an ask tells of."""
        if refusal:
            return REFUSED
        year = asked or self.book()
        self.verdicts[year.verdict()] += 1
        for p in (year.h, year.c):
            self.marks[figures(p)[-1]] += 1
        if version(year.events) == 2:
            self.as_if_never_entered(year)
        if year.verdict() in (1, 3, 4):
            self.one_percent(year)
        return status_of(year)

    def one_percent(self, year):
        """Verdict 3 counts every engine, 4 those that pass, here counted anew from the events."""
        n, one, passing = year.n(), round_even(year.setup[0], 100), passing_among(year.setup, remaining(year.events))
        assert year.verdict() == (3 if n >= 30 else 4 if passing >= one else 1)
        self.percents[year.verdict(), 'all' if passing == n else 'some' if passing else 'none', n >= one] += 1

    def as_if_never_entered(self, year):
        """The figures are those without the struck engines; right after an engine and its strike, those before both."""
        rest = year_of(year.setup, remaining(year.events))
        assert status_of(rest) == status_of(year) and strip_of(rest) == strip_of(year)
        if year.events[-1] == ('Z',):
            self.struck_after[year.events[-2][0]] += 1
            if year.events[-2][0] == 'E':
                earlier = year_of(year.setup, year.events[:-2])
                assert status_of(earlier) == status_of(year) and strip_of(earlier) == strip_of(year)

    def strip(self, size, refusal, year):
        assert size <= STRIP
        marks = '' if refusal else strip_of(year)
        if not refusal:                     # the marks computed in another way: the spread of each engine anew, from fractions
            again = [literal_marks(year.setup, year.events, which) for which in (0, 1)]
            assert marks == ''.join(a + b for a, b in zip(*again))
            for m in (2, 8):
                self.settled[m] += finer_work(year, m)
        assert len(marks) <= size
        self.strips.update(marks)
        whole = marks + '.' * (STRIP - len(marks))
        self.output.append('%d %d |%s| %d |%s| %d %d' % (refusal, len(marks), whole, refusal, marks,
                                                        digest(whole.encode()), digest(self.array)))

    def page(self, size, refusal, year):
        assert size <= PAGE
        text = '' if refusal else page(year)
        if refusal not in (3, 7):
            self.spare[max(-2, min(2, size - page_size(year.n())))] += 1
        if not refusal:
            self.look_at_page(text, year)
        assert len(text) <= size
        whole = digest((text + '.' * (PAGE - len(text))).encode())
        self.output.append(' '.join(str(x) for x in (refusal, len(text), whole, refusal, len(text), digest(text.encode()), whole, digest(self.array))))

    def look_at_page(self, text, year):
        """Each page once, if the same one is written again before another: its lines, and what stands in their columns."""
        struck, end = version(year.events) == 2, year.verdict() if year.verdict() in (6, 7) else 'open'
        self.pages[year.n(), 'struck' if struck else 'unstruck', end] += 1
        if self.read_back == (text, year.setup, year.events):
            return
        self.read_back = text, year.setup, year.events
        *lines, rest = text.split('\n')
        assert rest == '' and len(lines) == 1 + year.n() and all(len(line) == 60 for line in lines) and len(text) == page_size(year.n())
        P, D = year.setup[:2]
        assert self.read_columns(lines[0], HEAD_LINE) == [P, D, 1 if P < 1600 else 1 + (D > 120) + (D > 210) + (D > 300)]
        engines = [self.read_columns(line, ENGINE_LINE) for line in lines[1:]]
        assert engines == statuses_after(year.setup, remaining(year.events))
        assert ''.join(a + b for *_, a, b in engines) == strip_of(year)

    def read_columns(self, line, columns):
        """What stands in the columns of a line: numbers without a leading zero, and marks. All behind them is spaces."""
        found, at = [], 0
        for name, width in columns:
            text = line[at:at + width]
            at += width
            found.append(text if name == 'mark' else int(text))
            assert text == str(found[-1]).rjust(width)
            self.columns[name, len(text.strip())] += 1
        assert line[at:] == ' ' * (60 - at)
        return found

    # The lines, with the refusal that is expected; None for any.

    def put(self, want, letter, *numbers):
        if letter == 'E' and self.chance.random() < self.asking:
            self.put(want, 'T', *numbers)
        refusal = self.say(' '.join([letter] + [str(x) for x in numbers]))
        assert want is None or refusal == want, (letter, numbers, refusal, want)
        if letter == 'L':
            self.two_pages(refusal)
        return refusal

    def two_pages(self, refusal):
        """The page, into a size that is enough and into one that is not: refused as the strip is by 3 and 7, and otherwise by 18 if the size is not enough."""
        year, draw = self.book() or self.plain, self.sizes
        room = page_size(year.n() if year else 0)
        for size in (draw.choice((room, room, room, room + 1, page_size(MAX_ENGINES), PAGE, draw.randrange(room, PAGE + 1))),
                     draw.choice((room - 1, room - 1, room - 1, room - 2, room - LINE, 0, draw.randrange(room)))):
            self.put(refusal if refusal in (3, 7) else 18 if size < room else 0, 'G', size)

    def title(self, *texts):
        for text in texts:
            assert len(text) <= 150
            self.say('# ' + text)

    def S(self, p, d, t1, t2, k1=0, f1=0, k2=0, f2=0, want=0):
        return self.put(want, 'S', p, d, t1, t2, k1, f1, k2, f2)

    def E(self, number, hcnox, co, want=0):
        return self.put(want, 'E', *engine_numbers(number, hcnox, co))

    def T(self, number, hcnox, co, want=0, verdict=None):
        """An ask, and the verdict that it tells."""
        refusal = self.put(want, 'T', *engine_numbers(number, hcnox, co))
        assert verdict is None or self.output[-1].split(' ')[2] == str(verdict), self.output[-1]
        return refusal

    def A(self, t1, t2, want=0):
        return self.put(want, 'A', t1, t2)

    def P(self, want=0):
        return self.put(want, 'P')

    def X(self, want=0):
        return self.put(want, 'X')

    def Z(self, want=0):
        return self.put(want, 'Z')

    def Q(self, want=0, verdict=None):
        refusal = self.put(want, 'Q')
        assert verdict is None or self.book().verdict() == verdict, self.book().verdict()
        return refusal

    def L(self, size, want=0):
        return self.put(want, 'L', size)

    def G(self, size, want=0):
        return self.put(want, 'G', size)

    def B(self, n):
        self.put(None, 'B', n)

    def N(self):
        self.put(None, 'N')

    def W(self, i, v):
        self.put(None, 'W', i, v)

    def engines(self, first, results, co=5000):
        """Engines of one reading each, numbered from `first` on."""
        for j, x in enumerate(results):
            c = co[j] if isinstance(co, list) else co
            self.E(first + j, 1000 * x, 1000 * c)

# ------------------------------------------------- document 01's own cases


def whole_run(o):
    o.title('the whole run of document 01', 'status and strip after each entry')
    o.S(5000, 365, 800, 6100)
    o.Q(verdict=0), o.L(0), o.L(100)
    for number, x in ((1, 998000), (2, 1071000), (3, 900000)):
        o.E(number, x, 5000000)
        o.Q(), o.L(100)
    o.L(6)
    o.X()
    o.Q(verdict=7), o.L(6)
    o.E(4, 1, 1, want=8)
    o.Q(verdict=7), o.L(5, want=16)


def starred(o):
    o.title('cases on the edges of document 01', '1,000,500 and 1,001,500; mean of 800 and 801; 50 under 1,050 of kind 1: the sums are 1000, 2002, 800, 52')
    o.S(1500, 365, 20000, 20000)
    o.E(1, 1000500, 0), o.E(2, 1001500, 0)
    assert o.book().h.S == 2002
    o.S(1500, 365, 20000, 20000)
    o.E(1, [800000, 801000], [0, 1000])
    assert o.book().h.S == 800 and o.book().c.S == 0
    o.S(1500, 365, 20000, 20000, 1, 1050, 0, 0)
    o.E(1, 50000, 0)
    assert o.book().h.S == 52
    o.title('periods: P 1,599 with D 365 has one; P 1,600 has one to four, by D', 'engines and next periods until the last period refuses')
    for p, d in ((1599, 365), (1600, 120), (1600, 121), (1600, 210), (1600, 211), (1600, 300), (1600, 301), (1600, 366), (1600, 1), (99999999, 366)):
        o.S(p, d, 1000, 6100)
        o.P(want=15)
        o.E(1, 800000, 5000000)
        o.P(want=15)
        o.E(2, 800000, 5000000)
        periods = o.book().periods
        for period in range(2, periods + 1):
            o.P()
            o.Q(verdict=0)
            o.P(want=15)
            o.E(1 + period, 800000, 5000000)
        o.P(want=15)
        o.Q(), o.L(80)
    o.title('one percent of P, halves to even')
    for p, last in ((1, 2), (50, 2), (99, 2), (150, 2), (249, 2), (250, 2), (251, 3), (349, 3), (350, 4), (450, 4), (451, 5), (550, 6)):
        o.S(p, 365, 1000, 6100)
        for j in range(1, last + 1):
            o.E(j, 1000000, 6100000)
            assert o.book().verdict() == (4 if j == last else 0 if j < 2 else 1)
    o.title("T 800, X 998 then 1,071: '?'; then 'O' and 'U'")
    o.S(5000, 365, 800, 6100)
    o.engines(1, [998, 1071])
    o.L(4)
    o.title("T 100, X 500 three times: '-OO', failed")
    o.S(1500, 365, 100, 6100)
    o.engines(1, [500] * 3)
    o.Q(verdict=6), o.L(6)
    o.title("T 1,000, X 800 twice: N is 1, verdict 2; X 1,000 twice: no N, 'U', verdict 1")
    for x in (800, 1000):
        o.S(1500, 365, 1000, 6100)
        o.engines(1, [x] * 2)
        o.Q(verdict=2 if x == 800 else 1), o.L(4)


def slips(o):
    o.title('slips to rule out', 'N exactly 4 at n = 4 is no stop; with the fifth engine it is')
    o.S(5000, 365, 100, 6100)
    o.engines(1, [23, 23, 83, 83])
    assert o.book().h.N() == 4
    o.Q(verdict=1)
    o.engines(5, [23])
    o.Q(verdict=2)
    o.title("C equal to H is 'U'; a standard ten lower is 'O'; ten higher 'U'. An amendment between, and none worked backwards")
    for t in (870, 860, 880):
        for order in ([1000, 1040, 1080], [1040, 1000, 1080]):
            o.S(5000, 365, 2000, 6100)
            o.engines(1, order[:2])
            o.A(t, 6100)
            o.Q()
            o.engines(3, order[2:])
            h = o.book().h
            assert h.e == 0 and (h.c_low == h.h_low) == (t == 870)
            o.Q(), o.L(6)
    o.title('an amendment alters no N, mark or verdict already worked: lower and higher standards after each engine')
    o.S(5000, 365, 1000, 6100)
    for j, x in enumerate((900, 950, 1000, 850, 870)):
        o.engines(j + 1, [x], [5000 + 100 * j])
        o.A(500 if j % 2 else 1000, 6100 if j % 2 else 20000)
        o.Q(), o.L(2 * j + 2)
    o.title('C is 0 at engine 1, however high it is')
    o.S(5000, 365, 10, 10)
    o.engines(1, [20000, 0], [20000, 0])
    o.Q(), o.L(4)
    o.title('H of the newest engine: a wide engine after narrow ones takes the limit up')
    o.S(5000, 365, 1000, 6100)
    o.engines(1, [1000, 1001, 1002, 1003, 1500, 1003, 1004], [6100, 6101, 6102, 9000, 6103, 6100, 6101])
    o.L(14)
    o.title('readings rounded one by one, the mean rounded, the factor last: sums of two engines')
    for k, f in ((0, 0), (0, 499), (0, 500), (0, 501), (0, 1500), (0, 59999), (0, 60000), (1, 1000), (1, 1001), (1, 1500), (1, 2500), (1, 60000)):
        o.S(5000, 365, 20000, 20000, k, f, 1 - k, 1000 if k == 0 else 500)
        o.E(1, [1500, 600], [2500, 500])
        o.E(2, [499, 500, 501], [1499, 1500, 1501], want=0)
        o.E(3, [333333, 1], [999500, 1000500])
        o.E(4, [10000, 10000, 11000], [10000, 11000, 11000])

# --------------------------------------------------------- a year by verdict


def verdicts(o):
    o.title('verdict 0', 'no engine, one engine, a later period without its engine')
    o.S(1600, 301, 1000, 6100)
    o.Q(verdict=0)
    o.engines(1, [800])
    o.Q(verdict=0)
    o.engines(2, [820], [5100])
    o.P()
    o.Q(verdict=0), o.L(4)
    o.title('verdict 1', 'N above n for HC+NOx; for CO; G above 0 for one though n > N; no N')
    o.S(99999999, 200, 1000, 6100)
    o.engines(1, [900, 1050], [5000, 5000])
    o.Q(verdict=1)
    o.S(99999999, 200, 1000, 6100)
    o.engines(1, [900, 900], [5000, 7000])
    o.Q(verdict=1)
    o.S(99999999, 200, 1000, 6100)
    o.engines(1, [1001, 1001], [5000, 5000])
    assert o.book().h.N() < 2 and o.book().h.G() > 0
    o.Q(verdict=1), o.L(4)
    o.S(99999999, 200, 1000, 6100)
    o.engines(1, [1045, 945] * 12 + [1125, 1025, 1125], 5000)
    assert 'O' not in o.book().h.marks
    o.Q(), o.L(80)
    positive(o)
    o.title('verdict 2', 'at engine 2, later, with 30 and more engines, and not before the period has its engine')
    o.S(1600, 121, 1000, 6100)
    o.engines(1, [900, 950, 910], [5000, 5500, 5200])
    o.Q(verdict=2)
    o.P()
    o.Q(verdict=0)
    o.engines(4, [905], [5100])
    o.Q(verdict=2), o.L(8)
    o.S(99999999, 200, 1000, 6100)
    o.engines(1, [500, 1480] * 15, [6000, 6150] * 15)
    o.Q(), o.L(60)
    o.engines(31, [100] * 9, [5900] * 9)
    o.Q(verdict=2), o.L(78)
    o.title('verdict 3', '30 engines, N not reached; it stays; a next period without its engine is 0')
    o.S(99999999, 365, 1000, 6100)
    o.engines(1, [900, 1100] * 14 + [900], [6000, 6200] * 14 + [6000])
    o.Q(verdict=1), o.L(58)
    o.engines(30, [1100], [6200])
    o.Q(verdict=3), o.L(60)
    o.engines(31, [900, 1110], [6000, 6210])
    o.Q(verdict=3)
    o.P()
    o.Q(verdict=0)
    o.engines(33, [900], [6000])
    o.Q(verdict=3), o.L(66)
    o.title('verdict 4', 'one percent of 2,850 is 28, of 2,950 is 30: then 3; engines of all periods count')
    o.S(2850, 365, 1000, 6100)
    o.engines(1, [900, 1000] * 13 + [900], 6100)
    o.Q(verdict=1)
    o.engines(28, [1000], 6100)
    o.Q(verdict=4)
    o.S(2950, 365, 1000, 6100)
    o.engines(1, [900, 1000] * 14 + [900], 6100)
    o.Q(verdict=1)
    o.engines(30, [1000], 6100)
    o.Q(verdict=3)
    o.S(1600, 301, 1000, 6100)
    for j in range(16):
        o.engines(j + 1, [900 + 100 * (j % 2)], 6100)
        if j in (2, 8):
            o.P()
    o.Q(verdict=4), o.L(32)
    o.title('verdict 4 counts only engines that pass', 'of 28 by turns above and below the standards 14 pass: one percent of 1,450 is 14, of 1,550 is 16')
    for volume, verdict in ((2850, 1), (1550, 1), (1450, 4)):
        o.S(volume, 365, 1000, 6100)
        o.engines(1, [900, 1100] * 14, [6000, 6200] * 14)
        o.Q(verdict=verdict)
    o.S(1600, 301, 1000, 6100)
    for j in range(16):
        o.engines(j + 1, [900 + 200 * (j % 2)], [6000 + 200 * (j % 2)])
        if j in (2, 8):
            o.P()
    o.Q(verdict=1), o.L(32)
    o.title('verdict 5', "'?' then 'O', which stays through later engines; by CO; a declaration is 7, a failure 6")
    o.S(5000, 365, 800, 6100)
    o.engines(1, [998, 1071, 926])
    o.Q(verdict=5), o.L(6)
    o.engines(4, [100, 0, 0, 0])
    o.Q(verdict=5), o.L(14)
    o.P()
    o.Q(verdict=5)
    o.A(900, 6100)
    o.Q(verdict=5)
    o.X()
    o.Q(verdict=7), o.L(14)
    o.S(5000, 365, 6100, 800)
    o.engines(1, [5000] * 3, [998, 1071, 926])
    o.Q(verdict=5), o.L(6)
    o.engines(4, [5000], [1000])
    o.Q(verdict=6), o.L(8)
    unsettled(o)
    o.title('verdict 6', 'by HC+NOx, by CO, by both; every entry is refused by 8, status and strip are not')
    for h, c in ((500, 5000), (50, 7000), (500, 7000)):
        o.S(5000, 365, 100, 6100)
        o.engines(1, [h] * 3, c)
        o.Q(verdict=6), o.L(6)
        closed(o)
        o.Q(verdict=6), o.L(6)
    o.title("'O' apart from another 'O', and one 'O' for each pollutant, is no failure")
    o.S(5000, 365, 100, 6100)
    o.engines(1, [500, 500, 20, 500, 500], [6000, 6000, 9000, 5000, 5000])
    o.Q(), o.L(10)
    o.S(5000, 365, 100, 100)
    o.engines(1, [100, 110], [100, 100])
    o.A(200, 10)
    o.engines(3, [20], [100])
    o.Q(), o.L(6)
    o.title('verdict 7', 'declared with no engine, with one, with some, in a later period; every entry is refused by 8')
    for results in ([], [900], [900, 901], [1500, 1500]):
        o.S(5000, 365, 1000, 6100)
        o.engines(1, results)
        if results == [900, 901]:
            o.P()
        o.X()
        o.Q(verdict=7), o.L(2 * len(results))
        closed(o)
        o.Q(verdict=7), o.L(100)


def closed(o):
    o.E(9, 1, 1, want=8), o.A(500, 500, want=8), o.P(want=8), o.X(want=8)


def positive(o):
    """n > N with G above 0 and no 'O': found by search."""
    for d in range(20, 60):
        year = Year((99999999, 200, 1000, 6100, 0, 0, 0, 0))
        xs = [1000 + d + (100 if j % 2 else -100) for j in range(24)]
        for j, x in enumerate(xs):
            year.enter(('E', j + 1, 1, x, 5000))
        if year.h.G() > 0 and year.h.N() < 24 and 'O' not in year.h.marks and '?' not in year.h.marks:
            o.title("N reached with G above 0 and all marks 'U' is no stop")
            o.S(99999999, 200, 1000, 6100)
            o.engines(1, xs)
            o.Q(verdict=1), o.L(48)
            return
    raise AssertionError


def unsettled(o):
    """'O?' and '??' by search, and '?U?' and '?UO', which are settled."""
    for wanted in ('-O?', '-??', '-?U?', '-?UO', '-?O?', '-O?O', '-???', '-?OO', '-O?U'):
        rng, found = random.Random(wanted), None
        while found is None:
            found = chain(rng, wanted)
        start, steps = found
        o.title("marks '%s' for HC+NOx, then for CO" % wanted)
        for co in (False, True):
            pair = (lambda t, other=20000: (other, t)) if co else (lambda t, other=20000: (t, other))
            o.S(99999999, 366, *pair(start))
            for number, (t, x) in enumerate(steps):
                if number:
                    o.A(*pair(t))
                xs = pair(1000 * x, 7000000)
                o.E(number + 1, *xs)
            year = o.book()
            assert (year.c if co else year.h).marks == wanted
            o.Q(), o.L(2 * len(wanted))


def chain(rng, wanted):
    """Standards and results of engines with the wanted marks; None if a mark was not found."""
    p = Pollutant()
    t, x = 10 * rng.randrange(50, 600), rng.randrange(500, 6000)
    steps = [(t, x)]
    p.engine(x, t)
    for mark in wanted[1:]:
        if mark == '?':
            got = close(rng, p, [10 * rng.randrange(20, 1200) for _ in range(300)])
        else:
            got = plain_mark(rng, p, mark)
        if got is None:
            return None
        steps.append(got)
        p.engine(got[1], got[0])
    assert p.marks == wanted
    return t, steps


def plain_mark(rng, p, mark):
    for _ in range(200):
        t, x = 10 * rng.randrange(10, 1000), rng.randrange(0, 12000)
        if next_mark(p, x, t) == mark:
            return t, x
    return None

# --------------------------------------------------------------- close calls


def next_mark(p, x, t):
    q = copy.copy(p)
    q.engine(x, t)
    return q.marks[-1]


def close(rng, p, standards):
    """A standard of the list and a result with which the next mark is '?', or None. The edge of 'O' is found by bisection."""
    centres = [round(p.S / p.n), rng.randrange(20001)]
    for t in standards:
        for centre in centres:
            for far in (0, 20000):
                a, b = centre, far
                if (next_mark(p, a, t) == 'O') == (next_mark(p, b, t) == 'O'):
                    continue
                while abs(a - b) > 1:
                    m = (a + b) // 2
                    if (next_mark(p, m, t) == 'O') == (next_mark(p, b, t) == 'O'):
                        b = m
                    else:
                        a = m
                for x in (a, b):
                    if next_mark(p, x, t) == '?':
                        return t, x
    return None

# ------------------------------------------------------ each refusal alone


def good(o):
    """A year that takes any entry: two engines, four periods."""
    o.S(5000, 365, 1000, 6100)
    o.engines(1, [900, 910], [5000, 5100])


def before_setup(o):
    o.title('calls before a setup', 'all bytes zero: 7, for an amendment after 5, for a wrong size 3')
    o.N()
    o.Q(want=7), o.L(0, want=7), o.L(100, want=7)
    o.E(1, 1, 1, want=7), o.A(100, 100, want=7), o.P(want=7), o.X(want=7)
    o.A(15, 100, want=5)
    o.S(0, 365, 1000, 6100, want=4), o.Q(want=7)
    o.S(5000, 365, 1005, 6100, want=5), o.E(1, 1, 1, want=7)
    o.S(5000, 365, 1000, 6100, 2, 0, 0, 0, want=6), o.L(100, want=7)
    o.S(5000, 365, 1000, 6100)
    o.Q(verdict=0), o.L(0)


def alone(o):
    o.title('refusal 3 alone', 'each call on buffers shorter and longer than 544')
    good(o)
    for n in (0, 1, 31, 32, 40, 272, 536, 543, 545, 552, 560):
        o.B(n)
        o.S(5000, 365, 1000, 6100, want=3), o.E(9, 1, 1, want=3), o.A(990, 6100, want=3), o.P(want=3), o.X(want=3)
        o.Q(want=3), o.L(4, want=3)
    o.B(544)
    o.Q(verdict=2), o.L(4)
    o.title('refusals 4, 5, 6 alone', 'the year before stays')
    o.S(0, 365, 1000, 6100, want=4), o.S(5000, 0, 1000, 6100, want=4)
    o.S(5000, 365, 1001, 6100, want=5), o.S(5000, 365, 1000, 6105, want=5), o.A(0, 6100, want=5), o.A(1000, 0, want=5)
    o.S(5000, 365, 1000, 6100, 2, 0, 0, 0, want=6), o.S(5000, 365, 1000, 6100, 0, 0, 1, 0, want=6)
    o.Q(verdict=2), o.L(4)
    o.title('refusal 7 alone', 'one byte changed')
    o.W(0, 81)
    o.E(9, 1, 1, want=7), o.A(990, 6100, want=7), o.P(want=7), o.X(want=7), o.Q(want=7), o.L(4, want=7)
    o.W(0, 80)
    o.Q(verdict=2), o.L(4)
    o.title('refusals 10, 11, 12, 13 alone', 'the number in the book; counts that differ, none, four and more; each reading; each result')
    for number in (0, 1, 2, 65536, TOP):
        o.E(number, 1, 1, want=10)
    for a in range(9):
        for b in range(9):
            if a != b or a in (0, 4, 5, 6, 7, 8):
                o.E(9, [1] * a, [1] * b, want=11)
    for count in (1, 2, 3):
        for at in range(2 * count):
            for r in (20000001, TOP):
                readings = [0] * (2 * count)
                readings[at] = r
                o.E(9, readings[:count], readings[count:], want=12)
    o.S(5000, 365, 1000, 6100, 1, 2000, 0, 60000)
    o.E(1, 10001000, 1, want=13), o.E(1, 10000501, 1, want=13), o.E(1, 1, 20000000, want=13), o.E(1, 1, 19941000, want=13)
    o.E(1, 10000500, 19940500)
    o.Q(), o.L(2)
    o.title('refusal 8 alone', 'failed, declared')
    o.S(5000, 365, 100, 6100)
    o.engines(1, [500] * 3)
    closed(o)
    good(o)
    o.X()
    closed(o)
    o.title('refusals 9, 14, 15, 16 alone')
    o.S(5000, 365, 1000, 6100)
    o.engines(1, [900, 910], [5000, 5100])
    for j in range(62):
        o.A(10 * j + 10, 6100)
    o.E(9, 1, 1, want=9), o.A(1000, 6100, want=9), o.P(want=9), o.X(want=9)
    o.Q(), o.L(4)
    o.S(5000, 365, 1000, 6100)
    o.engines(1, [900] * 40)
    o.E(41, 1, 1, want=14)
    o.A(990, 6100), o.P(), o.E(41, 1, 1, want=14), o.Q(verdict=0), o.X(), o.L(80)
    o.S(5000, 100, 1000, 6100)
    o.engines(1, [900, 900])
    o.P(want=15)
    o.L(3, want=16), o.L(2, want=16), o.L(1, want=16), o.L(0, want=16), o.L(4)

# ---------------------------------------------- refusals that hold at once


def set_state(o, days, flags):
    """A year in which just the wanted rows among 8, 9 and 14 hold for an engine; 8 by verdict 6 (failed) or 7 (declared). All results are 10,000."""
    engines = 40 if 14 in flags else 4
    failed, declared = 6 in flags, 7 in flags
    spare = (64 if 9 in flags else engines + 2) - engines - failed - declared
    o.S(99999999, days, 20000, 20000, 1, 2000, 1, 2000)
    for j in range(spare):
        o.A(20000, 10 * (j + 1001))
    for number in range(1, engines + 1):
        if failed and number == engines - 1:
            o.A(10, 20000)
        o.E(number, 5000000, [5000000])
    if declared:
        o.X()
    year = o.book()
    assert (year.verdict() if failed or declared else 0) == (6 if failed else 7 if declared else 0)
    assert (year.n() == 40) == (14 in flags) and (len(year.events) == 64) == (9 in flags)


ENGINE_READINGS = {
    (): [([5000000], [5000000]), ([1, 2, 3], [4, 5, 6])],
    (13,): [([11000000], [1]), ([1], [11000000]), ([10000501], [0])],
    (12,): [([20000001, 0, 0], [1, 1, 1]), ([0, 0, 0], [0, 20000001, 0])],
    (12, 13): [([20000001], [1]), ([1], [TOP])],
    (11,): [([1], [1, 2]), ([], []), ([0] * 4, [0] * 4), ([1], []), ([], [1])],
    (11, 13): [([11000000] * 4, [1] * 4), ([11000000], [])],
    (11, 12): [([20000001, 0, 0], [1]), ([0] * 7 + [20000001], [1] * 8)],
    (11, 12, 13): [([20000001], [1, 2]), ([TOP] * 8, [TOP] * 7)],
}


def at_once(o):
    o.title('setup with two and more refusals at once')
    good(o)
    bad = {3: (543, 544), 4: (0, 5000), 5: (15, 1000), 6: (2, 0)}
    for held in [c for size in (2, 3, 4) for c in combinations((3, 4, 5, 6), size)]:
        pick = {row: bad[row][0 if row in held else 1] for row in bad}
        o.B(pick[3])
        o.S(pick[4], 365, pick[5], 6100, pick[6], 0, 0, 0, want=held[0])
        o.S(5000, 367 if 4 in held else 366, 1000, pick[5], 0, 0, pick[6], 0, want=held[0])
    o.B(544)
    o.Q(verdict=2), o.L(4)
    turn = 0
    for flags in ((), (9,), (14,), (9, 14), (7,), (7, 9), (7, 14), (7, 9, 14), (6,), (6, 9), (6, 14), (6, 9, 14)):
        for days in (365, 100):
            o.title('entries at once refused: verdict %s, %d engines%s, %s' % (
                6 if 6 in flags else 7 if 7 in flags else 'open', 40 if 14 in flags else 4, ', 64 events' if 9 in flags else '',
                'a next period to come' if days == 365 else 'the last period'))
            set_state(o, days, flags)
            for damaged, lent in ((False, 544), (True, 544), (False, 543), (True, 545)):
                if damaged:
                    o.W(5, 1)
                o.B(lent)
                if days == 365:
                    turn = engine_rows(o, flags, damaged or lent != 544, turn)
                other_rows(o, flags, days, damaged, lent)
                if damaged:
                    o.W(5, 0)
                o.B(544)
            accepted_last(o, flags, days)
            o.Q(), o.L(80)


def engine_rows(o, flags, unread, turn):
    """An engine for each set of rows 10 to 13, except the set that would be accepted."""
    for number_bad in (False, True):
        for held, kinds in ENGINE_READINGS.items():
            if not (number_bad or held or flags or unread):
                continue
            turn += 1
            hcnox, co = kinds[turn % len(kinds)]
            refusal = o.E((0, 1, 65536, TOP)[turn % 4] if number_bad else 777, hcnox, co, want=None)
            assert refusal != 0
    return turn


def other_rows(o, flags, days, damaged, lent):
    first = 3 if lent != 544 else 7 if damaged else 8 if 6 in flags or 7 in flags else 9 if 9 in flags else 0
    o.A(15, 20000, want=5 if lent == 544 else 3), o.A(20000, 20010, want=5 if lent == 544 else 3)
    if first:
        o.A(1000, 1000, want=first), o.X(want=first)
    if first or days == 100:
        o.P(want=first or 15)
    if first == 3 or first == 7:
        o.Q(want=first), o.L(100, want=first), o.L(0, want=first)
    else:
        o.Q(), o.L(7, want=16), o.L(80)


def accepted_last(o, flags, days):
    """The calls that are accepted in this state, after all those that are not."""
    if 6 in flags or 7 in flags or 9 in flags:
        return
    o.A(10000, 10000)
    if days == 365:
        o.P()
        o.P(want=15)
    o.E(777, 5000000, 5000000, want=14 if 14 in flags else 0)
    o.X()

# ---------------------------------------------------------- ends of ranges


def ranges(o):
    o.title('ends of the ranges of a setup')
    for p in (0, 1, 1599, 1600, 99999999, 100000000, TOP):
        o.S(p, 365, 1000, 6100, want=0 if 1 <= p <= 99999999 else 4)
    for d in (0, 1, 120, 121, 366, 367, 65536 + 1, 65536 + 366, TOP):
        o.S(5000, d, 1000, 6100, want=0 if 1 <= d <= 366 else 4)
    for t in (0, 1, 9, 10, 11, 15, 20, 19990, 19999, 20000, 20001, 20005, 20010, 65536, 65540, 327680, 327690, 4294967290, TOP):
        want = 0 if 10 <= t <= 20000 and t % 10 == 0 else 5
        o.S(5000, 365, t, 6100, want=want), o.S(5000, 365, 1000, t, want=want)
        o.S(5000, 365, 1000, 6100)
        o.A(t, 6100, want=want), o.A(1000, t, want=want)
    for k, f in ((0, 0), (0, 1), (0, 999), (0, 1000), (0, 60000), (0, 60001), (0, 65536), (0, TOP), (1, 0), (1, 999), (1, 1000), (1, 1001),
                 (1, 60000), (1, 60001), (1, 66536), (1, TOP), (2, 0), (2, 1000), (2, 60000), (255, 1000), (256, 1000), (257, 1000), (65536, 0),
                 (TOP, 1000), (TOP, TOP)):
        want = 0 if (k == 0 and f <= 60000) or (k == 1 and 1000 <= f <= 60000) else 6
        o.S(5000, 365, 1000, 6100, k, f, 0, 0, want=want), o.S(5000, 365, 1000, 6100, 0, 0, k, f, want=want)
    o.S(TOP, TOP, TOP, TOP, TOP, TOP, TOP, TOP, want=4), o.S(99999999, 366, 20000, 20000, 1, 60000, 1, 60000)
    o.S(1, 1, 10, 10, 0, 0, 0, 0)
    o.title('engine numbers')
    for number in (0, 1, 255, 256, 257, 65280, 65535, 65536, 65537, 131071, 1 << 24, TOP):
        o.E(number, 0, 0, want=0 if 1 <= number <= 65535 else 10)
    for number in (1, 255, 256, 257, 65280, 65535, 65537):
        o.E(number, 0, 0, want=10)
    o.Q(), o.L(12)
    o.title('counts of readings')
    o.S(5000, 365, 20000, 20000)
    for count in range(9):
        o.E(count + 1, [3000] * count, [5000] * count, want=0 if 1 <= count <= 3 else 11)
    o.Q(), o.L(6)
    o.title('readings and results at their ends', 'kind 0 and no factor; the largest sum; half a unit; three of the largest')
    o.S(5000, 365, 20000, 20000)
    o.E(1, 20000000, 0), o.E(2, 20000001, 0, want=12), o.E(2, 0, 20000001, want=12), o.E(2, TOP, TOP, want=12)
    o.E(2, [20000000] * 3, [20000000] * 3), o.E(3, [0, 0, 20000001], [0] * 3, want=12), o.E(3, 499, 500), o.E(4, 501, 1500)
    o.Q(), o.L(8)
    for k, f, last in ((0, 500, 20000000), (0, 501, 19999500), (0, 1000, 19999499), (0, 60000, 19940500), (1, 1000, 20000000), (1, 1001, 19980500),
                       (1, 2000, 10000500), (1, 60000, 333500), (1, 40000, 500500), (1, 33333, 600500)):
        o.title('the largest reading whose result is at most 20,000 under kind %d and factor %d, and the next' % (k, f))
        for co in (False, True):
            factors = (0, 0, k, f) if co else (k, f, 0, 0)
            o.S(5000, 365, 20000, 20000, *factors)
            top = largest_reading(k, f)
            for r in sorted({top, top + 1, last, last + 1}):
                hcnox, readings = (0, r) if co else (r, 0)
                o.E(r % 60000 + 1, hcnox, readings, want=0 if r <= top else 13 if r <= 20000000 else 12)
            o.Q()


def largest_reading(k, f):
    """By bisection: results grow with the reading."""
    a, b = 0, 20000001
    while b - a > 1:
        m = (a + b) // 2
        if result_of(k, f, [m]) <= 20000:
            a = m
        else:
            b = m
    return a

# -------------------------------------------------------- the largest year


def largest(o):
    o.title('the largest year: 40 engines and 64 events', 'results 0 and 20,000 in turn; the 65th event is refused by 9')
    o.S(99999999, 366, 20000, 20000, 0, 60000, 1, 1000)
    for j in range(24):
        o.A(20000, 20000 - 10 * j)
    for j in range(40):
        high = 20000000 if j % 2 else 0
        o.E(65535 - j, [max(0, high - 60000)] * 3, [20000000 - high] * 3)
        if j % 8 == 7:
            o.L(2 * j + 2)
    o.Q()
    for size, want in ((80, 0), (79, 16), (81, 0), (100, 0), (0, 16), (1, 16)):
        o.L(size, want=want)
    o.E(1, 0, 0, want=9), o.A(10, 10, want=9), o.P(want=9), o.X(want=9)
    o.E(65535, [], [0], want=9), o.A(10, 15, want=5)
    o.Q(), o.L(80)
    o.title('40 engines and 40 events', 'the 41st engine is refused by 14; then next periods, amendments and a declaration')
    o.S(99999999, 366, 20000, 20000)
    for j in range(40):
        o.E(j + 1, [20000000 * (j % 2), 0, 20000000], [20000000 * (1 - j % 2)] * 3)
    o.Q(), o.L(80), o.L(79, want=16)
    o.E(41, 0, 0, want=14)
    o.P(), o.Q(verdict=0), o.E(41, 0, 0, want=14), o.P(want=15)
    for j in range(22):
        o.A(10, 20000)
    o.X()
    assert len(o.book().events) == 64
    o.Q(verdict=7), o.E(41, 0, 0, want=8), o.X(want=8), o.L(80)
    o.title('the largest sums: 20,000 under 10, late', '38 engines under 20,000, then both standards 10')
    o.S(99999999, 366, 20000, 20000)
    for j in range(38):
        o.E(j + 1, 20000000 * (j % 2), 20000000 * (1 - j % 2))
    o.A(10, 10)
    o.E(39, 20000000, 20000000), o.E(40, 20000000, 20000000)
    o.Q(), o.L(80)
    o.title('64 amendments; 63 and a declaration')
    o.S(1, 1, 10, 10)
    for j in range(63):
        o.A(10 * j + 10, 20000 - 10 * j)
    o.Q(verdict=0), o.L(0)
    o.A(640, 640)
    o.E(1, 0, 0, want=9), o.A(10, 10, want=9), o.P(want=9), o.X(want=9), o.Q(verdict=0), o.L(0)
    o.S(1, 1, 10, 10)
    for j in range(63):
        o.A(20000, 10)
    o.X()
    o.E(1, 0, 0, want=8), o.A(10, 10, want=8), o.P(want=8), o.X(want=8), o.Q(verdict=7), o.L(0)

# ------------------------------------------------------------ damaged books


def mixed(o):
    """All kinds of events: E E P A E P E P E A X."""
    o.S(2000, 301, 1000, 6100, 1, 1050, 0, 25)
    o.E(7, [761905] * 3, [4999975] * 3), o.E(65535, [0, 0], [0, 0])
    o.P(), o.A(990, 6100), o.E(1, 762000, 4999000), o.P(), o.E(2, 752000, 5003000), o.P(), o.E(258, 757000, 5100000), o.A(20000, 10), o.X()


def damaged(o):
    o.title('damaged books', 'a byte changed, so that it is no accepted book: 7; then changed back')
    mixed(o)
    o.Q(verdict=7), o.L(10)
    turn, whole = 0, bytes(o.array)
    places = list(range(0, 40)) + [48, 49, 50, 55, 56, 57, 58, 60, 62, 63, 72, 80, 88, 104, 105, 106, 112, 113, 114, 118, 119, 120, 128, 200, 384, 500, 542, 543]
    for at in places:
        for value in ((whole[at] + 1) % 256, 255):
            if read(bytes(whole[:at]) + bytes([value]) + whole[at + 1:544]) is not None:
                continue
            o.W(at, value)
            o.Q(want=7), o.T(9, 1, 1, want=7)
            turn += 1
            o.put(7, *(('L', 100), ('E', 9, 1, 1, 1, 1), ('A', 10, 10), ('P',), ('X',))[turn % 5])
            o.W(at, whole[at])
    o.Q(verdict=7), o.L(10)
    o.title('bytes changed so that it is another accepted book')
    for at, value in ((8, 0), (8, 255), (12, 44), (14, 222), (18, 0), (19, 1), (20, 255), (22, 0), (33, 1), (34, 255), (36, 0), (39, 1), (44, 32), (59, 6), (112, 0)):
        changes = [(at, value)] + ([(24, 10)] if at == 112 else []) + ([(22, 232), (23, 3)] if at == 19 else [])
        for i, v in changes:
            o.W(i, v)
        refusal = o.Q(want=None)
        o.L(10, want=refusal), o.T(9, 1, 1, want=refusal or None)
        for i, v in changes:
            o.W(i, whole[i])
    o.Q(verdict=7), o.L(10)
    o.title('bytes after the 544 are no part of the book')
    for at in (544, 551, 559):
        o.W(at, 200)
    o.Q(verdict=7), o.L(10)
    o.title('a setup over a damaged book, over ones, over a full book: all bytes are written')
    o.W(3, 2)
    o.S(0, 301, 1000, 6100, want=4), o.Q(want=7)
    o.S(1600, 211, 500, 600, 1, 60000, 0, 60000)
    o.Q(verdict=0), o.L(0)
    for at in list(range(0, 560, 3)):
        o.W(at, 255 - at % 200)
    o.Q(want=7)
    o.S(1600, 211, 500, 600, 1, 60000, 0, 60000)
    o.Q(verdict=0), o.L(0)
    o.title('a refused call leaves a damaged book as it is')
    for at in (2, 24, 77, 543):
        o.W(at, 99)
    o.S(0, 1, 10, 10, want=4), o.E(1, 1, 1, want=7), o.A(10, 10, want=7), o.P(want=7), o.X(want=7), o.L(50, want=7)


def by_hand(o):
    o.title('accepted books that no list of calls leaves', 'results that no reading yields under a factor of 60,000; entries are added to them')
    for setup, events in (
            ((5000, 365, 800, 6100, 1, 1, 60000, 60000), [('E', 1, 1, 998, 5000), ('E', 2, 3, 1071, 5001)]),
            ((5000, 365, 800, 6100, 0, 0, 60000, 60000), [('E', 9, 2, 0, 59), ('E', 2, 1, 1, 7), ('P',), ('A', 10, 20000)]),
            ((99999999, 1, 20000, 10, 0, 1, 60000, 59999), [('A', 20000, 20000), ('E', 300, 1, 19999, 20000), ('E', 301, 3, 59, 1)])):
        o.N()
        for at, b in enumerate(encode(setup, events)):
            if b:
                o.W(at, b)
        o.Q(), o.L(4)
        o.E(1000, [0, 1000], [0, 0])
        o.A(1000, 1000)
        o.E(1000, 1, 1, want=10), o.E(events[-1][1] if events[-1][0] == 'E' else 9, 1, 1, want=10)
        o.Q(), o.L(6)
    o.title('books that could not have been entered', 'an event after a declaration or a failure; a number twice; a period too early or too many; 41 engines')
    e = [('E', j, 1, 800, 5000) for j in range(1, 42)]
    for setup, events in (
            ((5000, 365, 1000, 6100, 0, 0, 0, 0), [('D',), ('A', 10, 10)]),
            ((5000, 365, 100, 6100, 0, 0, 0, 0), e[:4]),
            ((5000, 365, 1000, 6100, 0, 0, 0, 0), [e[0], e[1], e[0]]),
            ((5000, 365, 1000, 6100, 0, 0, 0, 0), [e[0], ('P',), e[1]]),
            ((5000, 365, 1000, 6100, 0, 0, 0, 0), [e[0], e[1], ('P',), ('P',)]),
            ((1599, 365, 1000, 6100, 0, 0, 0, 0), [e[0], e[1], ('P',)]),
            ((1600, 121, 1000, 6100, 0, 0, 0, 0), [e[0], e[1], ('P',), e[2], ('P',)]),
            ((5000, 365, 1000, 6100, 0, 0, 0, 0), [('E', 0, 1, 1, 1)]),
            ((5000, 365, 1000, 6100, 0, 0, 0, 0), [('E', 1, 0, 1, 1)]),
            ((5000, 365, 1000, 6100, 0, 0, 0, 0), [('E', 1, 4, 1, 1)]),
            ((5000, 365, 1000, 6100, 0, 0, 0, 0), [('E', 1, 1, 20001, 1)]),
            ((5000, 365, 1000, 6100, 0, 0, 0, 0), [('E', 1, 1, 1, 65535)]),
            ((5000, 365, 1000, 6100, 0, 0, 0, 0), [('A', 1005, 10)]),
            ((5000, 365, 1000, 6100, 0, 0, 0, 0), [('A', 10, 20010)]),
            ((5000, 365, 1000, 6100, 0, 0, 0, 0), e)):
        o.N()
        for at, b in enumerate(encode(setup, events)):
            if b:
                o.W(at, b)
        o.Q(want=7), o.L(100, want=7), o.E(50, 1, 1, want=7), o.X(want=7)


def mid_year(o):
    o.title('a second setup in mid-year', 'the events go; a refused one leaves them; the same numbers come again; after a failure and a declaration')
    for fate in (None, 'failed', 'declared'):
        o.S(5000, 365, 1000, 6100)
        o.engines(1, [2000] * 3 if fate == 'failed' else [900] * 3)
        if fate is None:
            o.A(990, 6100), o.P()
        if fate == 'declared':
            o.X()
        o.Q(), o.L(6)
        o.S(5000, 365, 1000, 6101, want=5)
        o.S(5000, 365, 1000, 6100, 1, 999, 0, 0, want=6)
        o.Q(), o.L(6)
        o.S(400, 100, 2000, 7000, 0, 500, 1, 1500)
        o.Q(verdict=0), o.L(0)
        o.engines(1, [900] * 2, 3000)
        o.Q(), o.L(4)

# -------------------------------------------------- strikes (document 02, W-201)


def shown(o, verdict=None):
    """Status and strip."""
    o.Q(verdict=verdict), o.L(80)


def strikes(o):
    o.title('strikes', 'the whole run of document 01, struck back to its start; with no engine 17')
    o.S(5000, 365, 800, 6100)
    o.Z(want=17)
    o.engines(1, [998, 1071, 900])
    shown(o, verdict=1)
    for n, verdict in ((2, 1), (1, 0), (0, 0)):
        o.Z(), shown(o, verdict), o.L(2 * n)
    o.Z(want=17), shown(o, verdict=0)
    o.title('at once after the engine, on a year of no, one, two and more engines', 'each figure, mark and verdict is as before; the same number comes again')
    o.S(5000, 365, 800, 6100, 1, 1050, 0, 25)
    for j, x in enumerate((998, 1071, 850, 700, 640)):
        o.Q(), o.L(80)
        o.E(j + 1, [1000 * x, 20000], [5000000, 0]), o.Z(), o.Q(), o.L(80)
        o.E(j + 1, 900 * x, 4000000 + 100000 * j)
    o.title('twice, and three times', 'engines 3, 2 and 1; their numbers are free again, in another order')
    o.S(5000, 365, 1000, 6100)
    o.engines(1, [900, 950, 910], [5000, 5100, 5050])
    o.Z(), o.Z(), shown(o, verdict=0)
    o.E(1, 1, 1, want=10), o.E(3, 910000, 5050000), o.E(2, 950000, 5100000), o.E(3, 1, 1, want=10)
    shown(o, verdict=2)
    o.Z(), o.Z(), o.Z(), o.Z(want=17), shown(o, verdict=0)
    o.E(1, 1, 1), o.Z(), o.E(1, 2, 2), o.Z(), o.E(65535, 3, 3), o.Z(), o.E(65535, 4, 4)
    shown(o, verdict=0)


def strikes_and_amendments(o):
    o.title('an amendment between engine and strike is kept', 'and so is one before; the next engine is under the newest')
    for amended, over in ((700, 'O'), (1000, 'U'), (1500, 'U')):
        o.S(1500, 365, 1000, 6100)
        o.engines(1, [900, 900])
        o.A(amended, 6000)
        shown(o)
        o.Z(), shown(o, verdict=0)
        o.engines(2, [900])
        assert o.book().h.marks == '-' + over
        shown(o), o.Z(), shown(o, verdict=0), o.A(20000, 10), o.Z(), o.Z(want=17), o.engines(1, [900], [20]), shown(o)
    o.title('T of G and N is that of the newest remaining engine', 'amended, a third engine, struck: verdict 2 again; under the amended standard the next engine')
    for t in (10, 990, 20000):
        o.S(1500, 100, 1000, 6100)
        o.engines(1, [800, 800])
        o.Q(verdict=2)
        o.A(t, t), o.Q(verdict=2)
        o.E(3, 800000, 5000000), shown(o), o.Z(), shown(o, verdict=2)
        assert o.book().h.G() == -400 and o.book().c.G() == -2200
        o.E(3, 900000, 5000000), shown(o)
        assert o.book().h.G() == 2500 - 3 * t


def strikes_in_periods(o):
    o.title('only engines of the current period', 'after a next period 17; short again by a strike, and then the next period is refused')
    o.S(1600, 301, 1000, 6100)
    o.Z(want=17), o.P(want=15)
    o.engines(1, [801, 802, 803], [5001, 5002, 5003])
    o.Z(), o.P(), o.Z(want=17), o.Q(verdict=0)
    o.S(1600, 301, 1000, 6100)
    o.engines(1, [801, 802, 803], [5001, 5002, 5003])
    o.Z(), o.Z(), o.P(want=15), shown(o, verdict=0)
    o.engines(2, [804])
    for number in (3, 4, 5):                # one in each later period
        o.P(), o.Z(want=17), o.P(want=15), shown(o, verdict=0)
        o.engines(number, [800 + number]), o.Z(), o.Z(want=17), o.P(want=15), shown(o, verdict=0)
        o.engines(number, [810 + number]), o.engines(10 + number, [820]), o.Z(), shown(o, verdict=2)
    o.P(want=15), o.X(), o.Z(want=8), shown(o, verdict=7)


def verdicts_struck(o):
    o.title('verdicts that a strike takes back', '2, 3, 4 and 5')
    o.S(1500, 365, 1000, 6100)
    o.engines(1, [800, 800]), o.Q(verdict=2), o.Z(), shown(o, verdict=0)
    o.S(99999999, 365, 1000, 6100)
    o.engines(1, [900, 1100] * 15, [6000, 6200] * 15)
    o.Q(verdict=3), o.Z(), shown(o, verdict=1), o.engines(30, [1090]), o.Q(verdict=3), o.P(), o.Q(verdict=0), o.Z(want=17), o.engines(31, [900]), o.Q(verdict=3)
    o.Z(), shown(o, verdict=0)
    o.S(2850, 365, 1000, 6100)
    o.engines(1, [900, 1000] * 14, 6100)
    o.Q(verdict=4), o.Z(), shown(o, verdict=1), o.Z(), shown(o, verdict=1)
    o.S(5000, 365, 800, 6100)
    o.engines(1, [998, 1071, 926])
    o.Q(verdict=5), o.Z(), shown(o, verdict=1), o.engines(3, [926]), o.Q(verdict=5), o.engines(4, [100]), o.Z(), o.Q(verdict=5), o.Z(), shown(o, verdict=1)
    o.engines(3, [100]), shown(o, verdict=1)
    o.title("'O' at an engine that was struck, then 'O' in its place: no failure; a second 'O' is one, and cannot be struck")
    for h, c in ((500, 5000), (50, 7000), (500, 7000)):
        o.S(5000, 365, 100, 6100)
        o.engines(1, [h] * 2, c)
        o.Z(), o.engines(2, [h], c), o.Z(), o.engines(3, [h], c)
        shown(o, verdict=1)
        o.engines(4, [h], c)
        o.Q(verdict=6), o.Z(want=8), closed(o), o.Z(want=8), shown(o, verdict=6)
    o.title('declared with no engine, with one struck, with one that remains, after a next period')
    for calls in ('', 'EZ', 'EEZ', 'EEP'):
        o.S(5000, 365, 1000, 6100)
        for number, call in enumerate(calls):
            o.engines(number + 1, [900]) if call == 'E' else o.Z() if call == 'Z' else o.P()
        o.X(), o.Z(want=8), closed(o), shown(o, verdict=7)


def full_of_strikes(o):
    o.title('forty engines remain: 14', 'after a strike a forty-first is entered in its place')
    o.S(99999999, 366, 20000, 20000)
    for j in range(40):
        o.E(j + 1, 20000000 * (j % 2), 20000000 * (1 - j % 2))
    o.E(41, 1, 1, want=14), o.E(40, 1, 1, want=10), shown(o)
    o.Z(), shown(o), o.E(39, 1, 1, want=10), o.E(41, 20000000, 20000000), shown(o), o.E(40, 1, 1, want=14), o.E(42, 1, 1, want=14)
    o.A(10, 10), o.Z(), o.E(40, 0, 0), o.E(41, 1, 1, want=14), o.P(), o.Z(want=17), o.E(41, 1, 1, want=14), shown(o, verdict=0)
    o.title('strikes of all forty', 'as long as there are slots')
    o.S(99999999, 366, 20000, 20000)
    for j in range(40):
        o.E(j + 1, 20000000 * (j % 2), 20000000 * (1 - j % 2))
    for j in range(24):
        o.Z()
    shown(o), o.Z(want=9), o.E(50, 1, 1, want=9), o.L(32), o.L(31, want=16)
    for spare in (61, 62, 63):
        o.title('one engine and %d amendments, then strikes' % spare, 'slots are not given back: the strike that is the 64th event is the last')
        o.S(5000, 365, 1000, 6100)
        o.engines(1, [900])
        for j in range(spare):
            o.A(10 * j + 10, 6100)
        o.Z(want=9 if spare == 63 else 0)
        o.Q(verdict=0), o.L(0, want=16 if spare == 63 else 0)
        o.Z(want=17 if spare == 61 else 9), o.E(1, 1, 1, want=0 if spare == 61 else 9), o.Z(want=9), o.X(want=9), shown(o, verdict=0)
    o.title('64 amendments and no engine: 9 comes before 17')
    o.S(5000, 365, 1000, 6100)
    for j in range(64):
        o.A(1000, 6100)
    o.Z(want=9), shown(o, verdict=0)
    o.title('a year of 32 engines, each struck at once', 'no slot is left, and no engine')
    o.S(5000, 365, 1000, 6100)
    for j in range(32):
        o.E(j % 3 + 1, 1000000 + 1000 * j, 6000000), o.Z()
    o.Z(want=9), o.E(1, 1, 1, want=9), o.A(10, 10, want=9), o.P(want=9), o.X(want=9), shown(o, verdict=0)
    o.title('a year of 31 such engines, an engine and a declaration')
    o.S(5000, 365, 1000, 6100)
    for j in range(31):
        o.E(7, 1000000 + 1000 * j, 6000000), o.Z()
    o.E(7, 5000, 5000), shown(o), o.X(), o.Z(want=8), shown(o, verdict=7)
    o.title('a new setup over a year with strikes', 'it is version 1 again, and its first strike makes it version 2')
    o.S(5000, 365, 1000, 6100)
    o.Z(want=17), o.engines(1, [900]), o.Q(), o.Z(), o.engines(1, [910]), o.A(990, 6100), o.Z(), shown(o, verdict=0)
    o.S(5000, 365, 1000, 6105, want=5), shown(o, verdict=0)
    o.S(5000, 365, 1000, 6100), shown(o, verdict=0)


def strikes_refused(o):
    o.title('calls before a setup', 'all bytes zero: a strike is refused by 7')
    o.N()
    o.Z(want=7)
    o.title('strikes with two and more refusals at once', 'the buffer of another size, the book damaged, closed, without a slot, without an engine to strike')
    for flags in [c for size in range(4) for c in combinations((8, 9, 17), size)] + [(8, 'failed'), (8, 9, 'failed')]:
        o.title('a strike where these hold: %s' % (', '.join(map(str, flags)) or 'none'))
        struck_state(o, flags)
        for damaged, lent in ((False, 543), (True, 544), (True, 545), (True, 0), (False, 544)):
            if damaged:
                o.W(5, 1)
            o.B(lent)
            o.Z(want=3 if lent != 544 else 7 if damaged else flags[0] if flags else 0)
            if damaged:
                o.W(5, 0)
            o.B(544)
        shown(o)


def struck_state(o, flags):
    """A year with a strike, in which just the wanted rows among 8, 9 and 17 hold for another one; 8 by a declaration or by a failure."""
    failed = 'failed' in flags
    o.S(99999999, 365, 100, 6100)
    o.engines(1, [90, 90, 500])
    o.Z()
    if 17 in flags:
        o.P()
    if 9 in flags:
        for j in range(60 - (17 in flags) - (3 if failed else 8 in flags)):
            o.A(100, 10 * j + 6100)
    if failed:
        o.A(10, 6100), o.engines(3, [90, 90])
    elif 8 in flags:
        o.X()
    year = o.book()
    assert (len(year.events) == MAX_EVENTS) == (9 in flags) and year.can_strike() == (17 not in flags)
    assert year.closed() == (8 in flags) and (year.verdict() == 6) == failed


def put_book(o, book):
    """The bytes of a book, over zeros."""
    o.N()
    for at, b in enumerate(book):
        if b:
            o.W(at, b)


def struck_books(o):
    o.title('damaged books with strikes', 'every version; kinds about 5; bytes of a strike that have to be zero; then changed back')
    o.S(2000, 301, 1000, 6100, 1, 1050, 0, 25)
    o.engines(1, [760, 0]), o.E(3, [1, 2, 3], [4, 5, 6]), o.A(990, 6100), o.Z(), o.E(4, 1, 1), o.Z(), o.P(), o.engines(3, [700]), o.Z(), o.engines(3, [710]), o.P()
    whole = bytes(o.array)
    assert whole[3] == 2 and [whole[32 + 8 * j] for j in range(whole[24])] == [1, 1, 1, 2, 5, 1, 5, 3, 1, 5, 1, 3]
    shown(o, verdict=0)
    changes = [((3, v),) for v in (0, 1, 3, 4, 5, 255)] + [((4, v),) for v in (1, 2, 255)] + [((3, 0), (4, 2)), ((3, 1), (4, 1))]
    for at in (64, 80, 104):                # the slots of the strikes
        changes += [((at, kind),) for kind in (0, 1, 2, 3, 4, 6, 255)] + [((at + i, v),) for i in range(1, 8) for v in (1, 255)]
    changes += [((at, 5),) for at in (32, 40, 48, 56, 72, 88, 96, 112, 120)] + [((24, v),) for v in (0, 4, 5, 11, 13, 64, 65)]
    for turn, change in enumerate(changes):
        for at, value in change:
            o.W(at, value)
        refusal = o.Q(want=None)
        o.T(9, 1, 1, want=refusal or None)
        if refusal:
            o.put(7, *(('Z',), ('L', 100), ('E', 9, 1, 1, 1, 1), ('A', 10, 10), ('P',), ('X',))[turn % 6])
        for at, _ in change:
            o.W(at, whole[at])
    shown(o, verdict=0)
    o.title('an accepted book of version 1 whose version becomes 2, and a strike of it')
    o.S(5000, 365, 1000, 6100)
    o.engines(1, [900, 910])
    o.W(3, 2), o.Q(want=7), o.Z(want=7), o.T(3, 1, 1, want=7), o.L(80, want=7)
    o.W(3, 1), o.Z(), o.W(3, 1), o.Q(want=7), o.Z(want=7), o.T(3, 1, 1, want=7), o.W(3, 2), o.T(3, 1, 1), o.Z(), shown(o, verdict=0)


def struck_by_hand(o):
    o.title('accepted books with strikes that no list of calls leaves', 'results that no reading yields; entries and strikes are added to them')
    z = ('Z',)
    for setup, events in (
            ((5000, 365, 800, 6100, 1, 1, 60000, 60000), [('E', 1, 1, 998, 5000), ('E', 2, 3, 1071, 5001), z]),
            ((5000, 365, 800, 6100, 0, 0, 60000, 60000), [('E', 9, 2, 0, 59), ('E', 2, 1, 20000, 7), ('A', 20000, 20), z, ('E', 9999, 1, 7, 1), ('P',)]),
            ((99999999, 1, 20000, 10, 0, 1, 60000, 59999), [('E', 300, 1, 19999, 20000), z, ('E', 300, 3, 59, 1)])):
        put_book(o, encode(setup, events))
        shown(o)
        o.E(1000, [0, 1000], [0, 0]), o.A(1000, 1000), o.E(1001, 1, 1), o.Z(), o.E(1000, 1, 1, want=10), o.Z(), o.Z(want=None), o.E(1000, 1, 1), shown(o)
    o.title('books whose strikes could not have been entered', 'and what comes after a strike: a number that remains, a period too early, a forty-first')
    e = [('E', j, 1, 800, 5000) for j in range(1, 43)]
    year = (5000, 365, 1000, 6100, 0, 0, 0, 0)
    for setup, events in (
            (year, [z]), (year, [('A', 10, 10), z]), (year, [e[0], z, z]), (year, [e[0], e[1], ('P',), z]), (year, [e[0], e[1], ('P',), e[2], z, z]),
            (year, [e[0], ('D',), z]), (year, [('D',), z]), ((5000, 365, 100, 6100, 0, 0, 0, 0), e[:3] + [z]), (year, [e[0], e[1], z, ('P',)]),
            (year, [e[0], e[1], ('P',), e[2], z, ('P',)]), (year, [e[0], e[1], z, e[0]]), (year, e[:41] + [z]), (year, e[:40] + [z, e[40], e[41]]),
            (year, [('E', 1, 1, 20001, 1), z]), (year, [('E', 0, 1, 1, 1), z]), (year, [('E', 1, 4, 1, 1), z])):
        put_book(o, encode(setup, events))
        o.Q(want=7), o.L(100, want=7), o.E(50, 1, 1, want=7), o.Z(want=7)

# ----------------------------------------------------- lists by a fixed seed


def readings_for(rng, kind, factor, x):
    """Readings, 1 to 3, whose result is x; None if there are none."""
    for guess in (x - factor // 1000, x - factor // 1000 - 1) if kind == 0 else (x * 1000 // factor, x * 1000 // factor + 1):
        if 0 <= guess <= 20000 and result_of(kind, factor, [1000 * guess]) == x:
            for _ in range(4):
                count = rng.choice((1, 1, 2, 3))
                d = rng.choice((0, 0, rng.randrange(0, 2000), rng.randrange(0, 5000000)))
                offsets = {1: [0], 2: [d, -d], 3: [d, 0, -d]}[count]
                noise = rng.choice((0, 1, 499, 500, 700))
                readings = [1000 * guess + a + rng.randint(-noise, noise) for a in offsets]
                if all(0 <= r <= 20000000 for r in readings) and result_of(kind, factor, readings) == x:
                    return readings
            return [1000 * guess]
    return None


def sibling(rng, readings, kind, factor, x):
    """As many readings as the other pollutant has, with the result x if possible."""
    for _ in range(20):
        got = readings_for(rng, kind, factor, x)
        if got is not None and len(got) == len(readings):
            return got
    return [about(kind, factor, x)] * len(readings)


def about(kind, factor, x):
    """A reading whose result is x or not far below it."""
    return 1000 * (max(0, x - factor // 1000 - 1) if kind == 0 else x * 1000 // factor)


STYLES = ('pass', 'near', 'close', 'close', 'fail', 'edge', 'steps', 'wide')


def draw(rng, style, p, t):
    """A result in the style."""
    if style == 'pass':
        x = t - rng.randrange(0, t // 4 + 1) - rng.randrange(0, t // 8 + 1)
    elif style == 'near':
        x = t + rng.randint(-30, 30)
    elif style == 'close':
        x = t + rng.randint(-40, 200)
    elif style == 'fail':
        x = t + rng.randrange(0, t // 2 + 50)
    elif style == 'edge':
        x = rng.choice((0, t, t, t - 1, t + 1, 20000))
    elif style == 'steps':
        x = 1000 + 40 * p.n
    else:
        x = rng.randrange(20001)
    return min(20000, max(0, x))


def random_factor(rng):
    return rng.choice(((0, 0), (0, 0), (0, rng.randrange(60001)), (0, 500), (1, 1000), (1, rng.randrange(1000, 1500)), (1, rng.randrange(1000, 60001))))


def random_setup(rng, styles):
    p = rng.choice((rng.randrange(1, 1600), 1599, 1600, rng.randrange(1600, 20000), rng.randrange(1600, 20000), 5000, 99999999))
    d = rng.choice((rng.randrange(1, 367), 120, 121, 210, 211, 300, 301, 366))
    ts = [10 * rng.choice((rng.randrange(1, 2001), rng.randrange(40, 300), rng.randrange(40, 700))) for _ in styles]
    factors = [random_factor(rng) if s != 'close' else rng.choice(((0, 0), (1, 1000), (0, 499))) for s in styles]
    return p, d, ts[0], ts[1], factors[0][0], factors[0][1], factors[1][0], factors[1][1]


def random_engine(o, rng, styles, number):
    """An engine in the styles; with 'close', a standard (set by an amendment) and a result are sought that give '?'."""
    year = o.book()
    standards, results = list(year.standards), [0, 0]
    for i, p in enumerate((year.h, year.c)):
        results[i] = draw(rng, styles[i], p, standards[i])
        if styles[i] == 'close' and p.n >= 1 and rng.random() < 0.5:
            got = close(rng, p, [standards[i]] + [10 * rng.randrange(20, 900) for _ in range(80)])
            if got is not None:
                standards[i], results[i] = got
    if tuple(standards) != year.standards:
        o.A(*standards, want=None)
    s = year.setup
    hcnox = readings_for(rng, s[4], s[6], results[0]) or [about(s[4], s[6], results[0])]
    o.E(number, hcnox, sibling(rng, hcnox, s[5], s[7], results[1]), want=None)


def number_like(rng):
    """Any argument: the ends of ranges and their neighbours more often than others."""
    return rng.choice((0, 1, 2, 9, 10, 15, 366, 367, 1000, 20000, 20010, 60000, 60001, 65535, 65536, 20000000, 20000001, 99999999, 100000000, TOP,
                       rng.randrange(100), 10 * rng.randrange(2001), rng.randrange(1 << 32)))


def random_refused(o, rng):
    """A call with arguments that are mostly out of range."""
    kind = rng.randrange(6)
    if kind == 0:
        o.A(number_like(rng), number_like(rng), want=None)
    elif kind == 1:
        o.E(number_like(rng), [number_like(rng) for _ in range(rng.randrange(9))], [number_like(rng) for _ in range(rng.randrange(9))], want=None)
    elif kind == 2:
        a = rng.randrange(1, 4)
        o.E(rng.choice((1, 2, 3, number_like(rng))), [number_like(rng) for _ in range(a)], [number_like(rng) for _ in range(a)], want=None)
    elif kind == 3:
        args = [rng.choice((5000, 1, number_like(rng))), rng.choice((365, number_like(rng))), rng.choice((1000, number_like(rng))), 6100]
        o.S(*args, rng.choice((0, 1, 2)), number_like(rng), rng.choice((0, 1, 3)), 70000, want=None)
    elif kind == 4:
        o.L(rng.randrange(0, 101), want=None)
    else:
        o.P(want=None)


def random_trouble(o, rng):
    """A wrong size or a changed byte for a few calls, then back."""
    if rng.random() < 0.4:
        o.B(rng.choice((0, 24, 543, 545, 560, rng.randrange(561))))
        for _ in range(2):
            random_refused(o, rng)
        o.Q(want=None)
        o.B(544)
        return
    at = rng.choice((rng.randrange(32), rng.randrange(32, 32 + 8 * (o.array[24] % 64 + 1)), rng.randrange(544)))
    kept = o.array[at]
    o.W(at, rng.choice(((kept + 1) % 256, rng.randrange(256), kept ^ 128)))
    o.Q(want=None), o.L(80, want=None)
    o.W(at, kept)


def random_list(o, rng, index, strikes=0, asks=0):
    """`strikes` is the chance of a strike in place of another call, `asks` that of asks before a call."""
    styles = [rng.choice(STYLES), rng.choice(('pass', rng.choice(STYLES)))]
    if rng.random() < 0.5:
        styles.reverse()
    o.title('list %d' % index)
    if index % 5 == 0:
        o.N()
    o.S(*random_setup(rng, styles), want=None)
    length = rng.choice((4, 8, 8, 12, 12, 16, 24)) if index % 20 else 70
    number = rng.choice((1, 1, 100, 65500))
    for _ in range(length):
        year = o.book()
        pick = rng.random()
        if year.closed() and rng.random() < 0.5:
            break
        if asks and rng.random() < asks:
            random_asks(o, rng, styles, number)
        if strikes and rng.random() < strikes:
            number = random_strikes(o, rng, year, number)
        elif pick < 0.72:
            random_engine(o, rng, styles, number)
            number += rng.choice((1, 1, 1, 1, 1, 1, 1, 0, 2))
        elif pick < 0.78:
            o.A(10 * rng.randrange(1, 2001), 10 * rng.randrange(1, 2001), want=None)
        elif pick < 0.88:
            o.P(want=None)
        elif pick < 0.955:
            random_refused(o, rng)
        elif pick < 0.975:
            random_trouble(o, rng)
        elif pick < 0.985:
            o.X(want=None)
        else:
            o.Q()
    n = o.book().n()
    o.L(rng.choice((2 * n, 2 * n, 100, 80, min(100, 2 * n + 1), max(0, 2 * n - 1))), want=None)
    o.Q()


def random_strikes(o, rng, year, number):
    """One strike or more; returns the number for the next engine, which is at times that of an engine just struck, or of one that remains."""
    for _ in range(rng.choice((1, 1, 1, 2, 3))):
        newest = year.engines[-1].number if year.n() else number
        if o.Z(want=None) == 0 and rng.random() < 0.4:
            number = newest
        year = o.book()
    if year.n() and rng.random() < 0.1:
        number = year.engines[-1].number
    return number


def random_asks(o, rng, styles, number):
    """One ask or more: of possible next engines in the styles; of one with the number of an engine in the book; of any arguments."""
    year = o.book()
    kinds, factors = year.setup[4:6], year.setup[6:8]
    for _ in range(rng.choice((1, 1, 2, 3))):
        if rng.random() < 0.15:
            o.T(number_like(rng), [number_like(rng) for _ in range(rng.randrange(9))], [number_like(rng) for _ in range(rng.randrange(9))], want=None)
            continue
        results = [draw(rng, *one) for one in zip(styles, (year.h, year.c), year.standards)]
        hcnox = readings_for(rng, kinds[0], factors[0], results[0]) or [about(kinds[0], factors[0], results[0])]
        asked = year.engines[0].number if year.n() and rng.random() < 0.1 else number
        o.T(asked, hcnox, sibling(rng, hcnox, kinds[1], factors[1], results[1]), want=None)


def random_lists(o):
    o.title('lists by a fixed seed', 'refused calls among them; strip and status at the end of each')
    rng = random.Random(1054)
    for index in range(1, 401):
        random_list(o, rng, index)


def struck_lists(o):
    o.title('lists by another seed, with strikes')
    rng = random.Random(305)
    for index in range(401, 551):
        random_list(o, rng, index, rng.choice((0.1, 0.2, 0.2, 0.35)))


def asked_lists(o):
    o.title('lists by a third seed, with asks', 'of engines that are entered next, and of others; half of them with strikes')
    rng = random.Random(202)
    for index in range(551, 651):
        random_list(o, rng, index, rng.choice((0, 0.15)), rng.choice((0.2, 0.5, 0.8)))

# ---------------------------------------------------- asks (document 02, W-202)


def asks(o):
    o.title('asks', 'the whole run of document 01, each engine asked about twice; the year keeps its own status and strip, and 64 more asks fill nothing')
    o.S(5000, 365, 800, 6100)
    for number, x, before, after in ((1, 998000, 0, 0), (2, 1071000, 0, 1), (3, 900000, 1, 1)):
        for _ in range(2):
            o.T(number, x, 5000000, verdict=after), shown(o, before)
        o.E(number, x, 5000000), shown(o, after), o.T(number, x, 5000000, want=10)
    for number in range(4, 68):
        o.T(number, 1000 * number, 5000000)
    shown(o, verdict=1), o.X(), o.T(4, 1, 1, want=8), shown(o, verdict=7)
    o.title('asked about, and entered otherwise', 'another result, another number, the same number after a strike; no ask takes its number')
    o.S(1500, 365, 1000, 6100)
    o.T(1, 800000, 5000000), o.E(1, 900000, 5100000), o.T(2, 900000, 5000000), o.T(3, 900000, 5000000), o.E(3, 910000, 5000000), o.T(2, 1, 1), o.T(3, 1, 1, want=10)
    shown(o), o.Z(), o.T(3, 910000, 5000000), shown(o, verdict=0), o.E(2, 900000, 5000000), o.T(3, 1, 1), o.T(2, 1, 1, want=10), shown(o)
    o.title('before a setup, and on buffers of other sizes', 'an ask is refused by 7 and 3, whatever its engine')
    o.N()
    for number, readings in ((1, [1]), (0, [1]), (1, []), (65536, [TOP] * 4)):
        o.T(number, readings, readings, want=7)
        for size in (0, 543, 545, 560):
            o.B(size), o.T(number, readings, readings, want=3)
        o.B(544)
    asked_verdicts(o)
    asked_where_little_is_left(o)
    asked_then_periods(o)


def asked_verdicts(o):
    o.title('each verdict that an ask can tell, and that of the year', '1, 5 and 6 for three results of one engine, 2, 3 and 4; no ask closes the year')
    o.S(5000, 365, 1000, 6100)
    o.T(1, 1389000, 5000000, verdict=0), o.engines(1, [1389, 1389])
    for _ in range(2):
        for x, verdict in ((1195, 1), (1196, 5), (1197, 6)):
            o.T(3, 1000 * x, 5000000, verdict=verdict), shown(o, verdict=1)
    o.A(1000, 6100), o.E(3, 1195000, 5000000), shown(o, verdict=1)
    for volume, hcnox, co, before, verdict in ((1500, [800] * 2, [5000] * 2, 0, 2), (99999999, [900, 1100] * 15, [6000, 6200] * 15, 1, 3),
                                               (2850, [900, 1000] * 14, [6100] * 28, 1, 4)):
        o.S(volume, 365, 1000, 6100)
        o.engines(1, hcnox[:-1], co)
        o.T(len(hcnox), 1000 * hcnox[-1], 1000 * co[-1], verdict=verdict), shown(o, before)
        o.engines(len(hcnox), hcnox[-1:], co[-1:]), shown(o, verdict)


def asked_where_little_is_left(o):
    o.title('the last of forty engines', 'asked about while it is free; then 14, and after a strike once more')
    o.S(99999999, 366, 20000, 20000)
    o.engines(1, [0, 20000] * 19 + [0])
    for number in (40, 41, 42):
        o.T(number, 20000000, 0), o.L(78)
    o.engines(40, [20000]), o.T(41, 1, 1, want=14), o.T(41, 20001000, 1, want=12), o.T(40, 1, 1, want=10), shown(o)
    o.Z(), o.T(41, 1, 1), o.T(40, 1, 1), o.engines(41, [20000]), o.T(40, 1, 1, want=14), shown(o)
    o.title('the last of 64 events', 'asked about while it is free; then 9, which comes before 10 to 14')
    o.S(5000, 365, 1000, 6100)
    o.engines(1, [900])
    for j in range(61):
        o.A(10 * j + 10, 6100)
    o.Z()
    for number in (1, 2, 1):
        o.T(number, 900000, 5000000), shown(o, verdict=0)
    o.engines(1, [900]), o.T(2, 1, 1, want=9), o.T(1, 1, 1, want=9), o.T(0, [TOP] * 4, 1, want=9), o.Z(want=9), shown(o, verdict=0)
    o.title('closed years', 'failed and declared, with slots left and without: 8, which comes before 9 to 14')
    for result, verdict, full in ((500, 6, 61), (90, 7, 60)):
        for amendments in (0, full):
            o.S(5000, 365, 100, 6100)
            for j in range(amendments):
                o.A(100, 6100)
            o.engines(1, [result] * 3), o.X(want=8 if verdict == 6 else 0)
            assert (len(o.book().events) == MAX_EVENTS) == (amendments == full)
            o.T(4, 1, 1, want=8), o.T(1, 1, 1, want=8), o.T(0, [TOP] * 4, 1, want=8), shown(o, verdict)


def asked_then_periods(o):
    o.title('an ask is no engine of a period', 'the year stays short, the next period is refused, and there is nothing to strike')
    o.S(1600, 121, 1000, 6100)
    o.T(1, 800000, 5000000), o.Z(want=17), o.engines(1, [800]), o.T(2, 820000, 5100000, verdict=2), o.P(want=15), o.engines(2, [820]), o.P()
    o.T(3, 810000, 5050000, verdict=2), o.P(want=15), o.Z(want=17), shown(o, verdict=0), o.engines(3, [810]), o.T(4, 1, 1), o.Z(), o.T(3, 1, 1), shown(o, verdict=0)
    o.title('the standards in force, also those amended since a strike', 'asks before and after an amendment')
    o.S(1500, 365, 1000, 6100)
    o.engines(1, [900, 900]), o.T(3, 900000, 5000000), o.A(700, 6000), o.T(3, 900000, 5000000), o.Z(), o.T(2, 900000, 5000000), shown(o, verdict=0)
    o.engines(2, [900]), shown(o)

# -------------------------------- W-204: failing engines and one percent


def failing(o):
    o.title('every engine fails', 'one percent of 51 is 1, of 50 it is 0; HC+NOx alone above its standard, CO alone; equal to both is no failure')
    for volume, verdict in ((51, 1), (50, 4), (150, 1)):
        for hcnox, co in ((1001, 5000), (1000, 6101), (1001, 6101)):
            o.S(volume, 365, 1000, 6100)
            o.engines(1, [hcnox] * 2, co), o.Q(verdict=verdict), o.L(4)
    o.S(150, 365, 1000, 6100)
    o.engines(1, [1000] * 2, 6100), o.Q(verdict=4), o.L(4)
    o.title('each pollutant above by turns', 'no engine passes; and results decide, not readings: 1,000.5 rounds to the standard, 1,000.6 to one above')
    o.S(150, 365, 1000, 6100)
    o.engines(1, [1001, 990, 1001], [6000, 6101, 6000]), o.Q(verdict=1)
    for reading, verdict in ((1000400, 4), (1000500, 4), (1000600, 1)):
        o.S(150, 365, 1000, 6100)
        o.E(1, reading, 6100000), o.E(2, reading, 6100000), o.Q(verdict=verdict)
    o.title('the standards in force when an engine was entered', 'amended after two engines and between them, down and up')
    for before, after, results, verdict in ((1000, 10, [1000] * 2, 4), (1000, 20000, [1001] * 2, 1)):
        o.S(150, 365, before, 6100)
        o.engines(1, results, 6100), o.Q(verdict=verdict), o.A(after, 20000), o.Q(verdict=verdict), o.A(after, 10), o.Q(verdict=verdict)
    for between, result, verdict in ((1010, 1001, 4), (990, 1000, 1)):
        o.S(150, 365, 1000, 6100)
        o.engines(1, [1000], 6100), o.A(between, 6100), o.engines(2, [result], 6100), o.Q(verdict=verdict)
    failing_struck(o)
    failing_thirty(o)


def failing_struck(o):
    o.title('a struck engine is not counted', 'passing engines struck and entered anew as failing ones, and the other way round')
    o.S(150, 365, 1000, 6100)
    o.engines(1, [1001, 1000, 1000]), o.Q(verdict=4), o.Z(), o.Q(verdict=1), o.engines(3, [1001]), o.Q(verdict=1), o.Z(), o.engines(3, [1000]), o.Q(verdict=4)
    o.title('engines of all periods are counted', 'two in the first, one in each later one; one percent of 1,600 is 16')
    o.S(1600, 301, 1000, 6100)
    o.engines(1, [1001, 1000]), o.P(), o.engines(3, [1000]), o.P(), o.engines(4, [1000]), o.P(), o.engines(5, [1000] * 12)
    o.Q(verdict=1), o.engines(17, [1000]), o.Q(verdict=4), o.L(34)


def failing_thirty(o):
    o.title('thirty that fail', 'engine 1, whose C is 0, is far above, the others one above: verdict 3 counts every engine; 29 are one percent of 2,900')
    for volume, verdict in ((2900, 1), (50, 4)):
        o.S(volume, 365, 1000, 6100)
        o.engines(1, [20000] + [1001] * 28), o.Q(verdict=verdict), o.L(58)
        o.engines(30, [1001]), o.Q(verdict=3), o.Z(), o.Q(verdict=verdict), o.engines(30, [1000] * 11), o.Q(verdict=3), o.L(80)

# -------------------------------------- the wall page (document 02, W-205)


def wall_pages(o):
    o.title('the wall page', 'the whole run of document 01: after each entry into each size about that of the page, and into the sizes at the ends')
    o.S(5000, 365, 800, 6100)
    for n in range(4):
        if n:
            o.E(n, (998000, 1071000, 900000)[n - 1], 5000000)
        room = page_size(n)
        for size in sorted({0, 1, LINE - 1, LINE, LINE + 1, room - LINE, room - 1, room, room + 1, room + LINE - 1, room + LINE, page_size(MAX_ENGINES), PAGE}):
            o.G(size, want=0 if room <= size else 18)
    o.title('refused before it', 'a buffer of another size by 3, no setup and a damaged book by 7; 8 is not for a page: declared and failed years have theirs')
    for size, lent in ((size, lent) for size in (0, 243, 244, PAGE) for lent in (0, 543, 545, 560)):
        o.B(lent), o.G(size, want=3)
    o.B(544), o.W(24, 4)
    for size in (0, 243, 244, PAGE):
        o.G(size, want=7)
    o.W(24, 3), o.X(), o.G(244), o.G(243, want=18), o.N()
    for size in (0, LINE - 1, LINE, PAGE):
        o.G(size, want=7)
    o.S(5000, 365, 100, 6100), o.X(), o.G(LINE), o.G(LINE - 1, want=18)
    o.S(5000, 365, 100, 6100), o.engines(1, [500] * 3), o.Q(verdict=6), o.G(244), o.G(243, want=18)
    columns_full(o)
    pages_of_forty(o)
    pages_struck(o)


def columns_full(o):
    o.title('columns that touch', 'P, D, numbers and results as wide as their columns, and as narrow; C of one digit, of two and of more, up to nine')
    for p, d in ((99999999, 366), (10000000, 100), (9999999, 99), (1, 1), (1600, 121), (1599, 366)):
        o.S(p, d, 20000, 20000, 1, 1000, 1, 1000)
        o.G(LINE), o.engines(65535, [20000], 20000), o.engines(9999, [9999], 10000), o.engines(1, [0], 0), o.G(page_size(3)), o.G(PAGE)
    o.title('two engines and C of one digit to eight, for HC+NOx and for CO', 'then results 0 and 20,000 under 10, and C of nine digits')
    for results in second_engines():
        for hcnox, co in ((results, [6000, 6000]), ([6000, 6001], results)):
            o.S(5000, 365, 6000, 6000)
            o.engines(10000, hcnox, co), o.G(page_size(2))
    o.S(99999999, 366, 10, 10)
    for j, x in enumerate(widest_year()):
        o.engines(65500 + j, [x], x), o.G(page_size(j + 1)), o.L(2 * j + 2)
    o.title('C that is 0 again, and C whose ends differ')
    o.S(5000, 365, 1000, 6100)
    for j, x in enumerate((1000, 1003, 1001, 0, 1002, 1500, 990, 1003)):
        o.E(j + 1, 1000 * x, 1000 * (6090 + 7 * j)), o.G(page_size(j + 1))


def second_engines():
    """For each number of digits from 1 to 8, the results of two engines under 6,000 after which C low is above 0 and has so many digits."""
    found = {}
    for above in range(1, 2500):
        for apart in (0, isqrt(32 * above * above)):    # apart by a little less than the root of 32 times as much, so that s is nearly 4,096 times as much
            p, results = Pollutant(), [6000 + above - apart, 6000 + above]
            for x in results:
                p.engine(x, 6000)
            if apart <= 6000 + above and p.c_low:
                found.setdefault(len(str(p.c_low)), results)
    assert set(found) == set(range(1, 9))
    return found.values()


def widest_year():
    """Results 0 and 20,000 under 10: each next one is that of the two after which C is higher, and no more once both fail the family."""
    year, results = Year((99999999, 366, 10, 10, 0, 0, 0, 0)), []
    while True:
        tried = [(year.ask(('E', len(results) + 1, 1, x, x))[1], x) for x in (0, 20000)]
        open_years = [(asked.h.c_low, x, asked) for asked, x in tried if not asked.closed()]
        if not open_years:
            return results
        _, x, year = max(open_years, key=lambda one: one[:2])
        results.append(x)


def pages_of_forty(o):
    o.title('forty engines', 'a page of 2,501 bytes; results by turns far apart, equal, and rising; the figures are those at each engine')
    for results, co in (([0, 20000] * 20, [20000, 0] * 20), ([9000] * 40, [6100] * 40),
                        ([700 + 37 * j % 151 for j in range(40)], [6000 + 5 * j for j in range(40)])):
        o.S(99999999, 366, 9000, 7000)
        for j in range(40):
            o.engines(j + 1, results[j:j + 1], co[j:j + 1]), o.G(page_size(j + 1))
        for size, want in ((2501, 0), (2500, 18), (PAGE, 0), (2502, 0), (2440, 18), (LINE, 18), (0, 18)):
            o.G(size, want=want)
    o.P(), o.G(2501), o.A(10, 10), o.G(2501), o.X(), o.G(2501), o.G(2500, want=18)


def pages_struck(o):
    o.title('struck engines have no line', 'a page after each strike, and after each engine in its place; amendments between; periods')
    o.S(12000000, 200, 10000, 12000)
    o.G(LINE), o.E(10001, 10198000, 12001000), o.G(122), o.Z(), o.G(LINE), o.G(LINE - 1, want=18), o.Z(want=17), o.G(LINE)
    o.E(10001, 10198000, 12001000), o.E(10002, 10271000, 12001000), o.E(10003, 19000000, 1000), o.G(244), o.G(243, want=18)
    o.Z(), o.G(183), o.G(182, want=18), o.A(9000, 12000), o.G(183), o.E(10003, 9990000, 12003000), o.G(244), o.Z(), o.Z(), o.G(122), o.G(121, want=18)
    o.A(10000, 12000), o.E(9, 10271000, 12001000), o.P(), o.Z(want=17), o.G(183), o.E(10, 1, 1), o.G(244), o.Z(), o.G(183), o.E(10, 2, 2), o.X(), o.G(244)
    o.title('forty engines, the newest struck one by one while slots last, and others in their place')
    o.S(99999999, 366, 20000, 20000)
    o.engines(101, [20000 * (j % 2) for j in range(40)], [20000 - 500 * j for j in range(40)])
    for j in range(10):
        o.Z(), o.G(page_size(39 - j)), o.G(page_size(39 - j) - 1, want=18)
    o.engines(60001, [19999 - j for j in range(10)], [9999 + j for j in range(10)]), o.G(2501), o.G(2500, want=18)
    o.Z(), o.G(2440), o.E(7, 0, 20000000), o.G(2501)

# -------------------------------------------------------------- the counts


def answered(o):
    """The lines, each with what is printed for it; None if nothing is."""
    printed = iter(o.output)
    return [(line, None if line[0] in 'BNW' else next(printed)) for line in o.input]


def check_asks(o):
    """With all asks taken out, the other answers and the array are the same; and an ask has the answer of its engine, if that comes next. Returns those answers."""
    lines, rest = answered(o), Lists()
    others = [pair for pair in lines if pair[0][0] != 'T']
    for line, _ in others:
        rest.say(line)
    assert answered(rest) == others and rest.array == o.array
    met = Counter()
    for (line, answer), (after, entered) in zip(lines, lines[1:]):
        if line[0] == 'T' and after == 'E' + line[1:]:
            told = answer.split(' ')[:-1]           # without the digest, which the entry changes
            assert told == entered.split(' ')[:-1]
            met[int(told[0]), int(told[2])] += 1
    return met


def counts(o):
    """Prints what occurred, to standard error; fails if a case never did."""
    def tell(*words):
        print(*words, file=sys.stderr)

    by_number = Counter()
    for (letter, refusal), count in o.refusals.items():
        by_number[refusal] += count
    tell('lines %d, calls %d' % (len(o.input), sum(o.refusals.values())))
    tell('refusals', dict(sorted(by_number.items())))
    for letter, rows in ROWS.items():
        tell('  ' + letter, {row: o.refusals[letter, row] for row in (0,) + rows})
        assert all(o.refusals[letter, row] for row in (0,) + rows)
        pairs = {'%d+%d' % pair: o.pairs[letter, pair] for pair in combinations(rows, 2)}
        tell('    at once', pairs)
        assert all(pairs.values())
    assert sum(o.refusals[letter, row] for letter, rows in ROWS.items() for row in (0,) + rows) == sum(by_number.values())
    tell('verdicts', dict(sorted(o.verdicts.items())))
    assert set(o.verdicts) == set(range(8)) and set(by_number) == {0} | set(range(3, 19))
    tell('events before a newest strike', dict(o.struck_after), 'calls on books of each version, accepted or not', dict(o.versions))
    assert set(o.struck_after) == set('EAZ') and set(o.versions) == {(1, True), (1, False), (2, True), (2, False)}
    tell('newest marks of a status', dict(o.marks), 'marks of strips', dict(o.strips))
    assert set(o.marks) == set(o.strips) == set('-OU?')
    tell('open marks that work at m settles', dict(o.settled))
    assert all(o.settled.values())
    tell('verdicts 1, 3 and 4, how many engines pass, n at least one percent', dict(sorted(o.percents.items())))
    assert {(verdict, passing, True) for verdict in (1, 3, 4) for passing in ('some', 'none')} <= set(o.percents) and (4, 'all', True) in o.percents
    counts_of_pages(o, tell)
    met = check_asks(o)
    tell('refusal and verdict of asks right before their engines', dict(sorted(met.items())))
    assert set(met) == {(0, verdict) for verdict in range(7)} | {(refusal, 0) for refusal in ROWS['T']}


def counts_of_pages(o, tell):
    def of(place):
        return {key: sum(count for one, count in o.pages.items() if one[place] == key) for key in sorted({one[place] for one in o.pages}, key=str)}

    tell('pages by engines', of(0), 'strikes', of(1), 'closed by', of(2))
    assert set(of(0)) == set(range(MAX_ENGINES + 1)) and set(of(1)) == {'struck', 'unstruck'} and set(of(2)) == {'open', 6, 7}
    assert {(n, 'struck') for n in (0, 1, MAX_ENGINES)} <= {one[:2] for one in o.pages}
    tell('bytes lent beyond those of a page, from two less to two more', dict(sorted(o.spare.items())))
    assert set(o.spare) == set(range(-2, 3))
    tell('columns by the width of what stands in them', dict(sorted(o.columns.items())))
    # a pollutant that is over the action limit at two engines in a row ends the year, so C stays below ten digits
    assert all(o.columns[name, width] for name, least, most in (('P', 1, 8), ('D', 1, 3), ('number', 1, 5), ('hcnox', 1, 5), ('co', 1, 5), ('C', 1, 9))
               for width in (least, most))
    assert not o.columns['C', 10]


def main():
    self_check()
    o = Lists()
    for section in (whole_run, starred, slips, verdicts, before_setup, alone, at_once, ranges, largest, damaged, by_hand, mid_year, random_lists,
                    strikes, strikes_and_amendments, strikes_in_periods, verdicts_struck, full_of_strikes, strikes_refused, struck_books, struck_by_hand,
                    struck_lists, asks, asked_lists, failing, wall_pages):
        at = len(o.input)
        o.asking = 0 if section in (asks, wall_pages) else 0.25 if section in (random_lists, struck_lists) else 1
        section(o)
        print('%-22s %5d lines' % (section.__name__, len(o.input) - at), file=sys.stderr)
    counts(o)
    assert len(o.input) <= MOST_LINES
    home = sys.argv[1] if len(sys.argv) > 1 else 'crates/call_lists'
    for name, lines in (('stdin', o.input), ('stdout', o.output)):
        text = '\n'.join(lines) + '\n'
        print('%s %d bytes' % (name, len(text)), file=sys.stderr)
        with open('%s/%s' % (home, name), 'w') as f:
            f.write(text)


if __name__ == '__main__':
    main()
