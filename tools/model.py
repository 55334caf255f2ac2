"""Reference model of document 01, and of W-201, W-202, W-204 and W-205 in document 02, from these alone: readings and results, figures, marks, sample size,
verdict, refusals of entries, what an ask tells, the 544-byte book, the wall page.

It shares nothing with the calculator. The tools beside it make the test programs' input and expected output from it.
Events are tuples: ('E', number, readings, hcnox, co), ('A', hcnox, co), ('P',), ('D',) for a declaration, ('Z',) for a strike.
A setup is (P, D, hcnox standard, co standard, hcnox kind, co kind, hcnox factor, co factor).
"""
import copy
from collections import namedtuple
from fractions import Fraction
from math import isqrt

SIZE, HEAD, SLOT, MAX_EVENTS, MAX_ENGINES = 544, 32, 8, 64, 40
K = 1024
T95 = [631, 292, 235, 213, 202, 194, 190, 186, 183, 181, 180, 178, 177, 176, 175,
       175, 174, 173, 173, 172, 172, 172, 171, 171, 171, 171, 170, 170, 170]
assert len(T95) == 29
# The refusals in checking order, those of document 02 among them: 17 is checked after 9, 18 after 16.
ORDER = (1, 2, 3, 4, 5, 6, 7, 8, 9, 17, 10, 11, 12, 13, 14, 15, 16, 18)

# ---------------------------------------------------------------- small rules


def first_refusal(held):
    """The one that is given when all of these apply; 0 if none does."""
    return min(held, key=ORDER.index, default=0)


def round_even(a, b):
    """a / b to the nearest whole number, halves to even; a >= 0, b > 0."""
    q, r = divmod(a, b)
    if 2 * r > b or (2 * r == b and q % 2 == 1):
        q += 1
    return q


def result_of(kind, factor, readings):
    """The result X of an engine's readings, with no upper limit; 1 or more readings."""
    mean = round_even(sum(round_even(r, 1000) for r in readings), len(readings))
    if kind == 0:
        return round_even(1000 * mean + factor, 1000)
    return round_even(mean * factor, 1000)


def t95(n):
    return T95[n - 2] if n <= 30 else 165


def period_count(P, D):
    if P < 1600 or D <= 120:
        return 1
    if D <= 210:
        return 2
    if D <= 300:
        return 3
    return 4


def needed(period):
    """Engines needed by a period; the first is period 1."""
    return 2 if period == 1 else 1


def standard_ok(t):
    return 10 <= t <= 20000 and t % 10 == 0


def factor_ok(kind, factor):
    if kind == 0:
        return 0 <= factor <= 60000
    if kind == 1:
        return 1000 <= factor <= 60000
    return False


def setup_ok(s):
    P, D, th, tc, kh, kc, fh, fc = s
    return (1 <= P <= 99999999 and 1 <= D <= 366
            and standard_ok(th) and standard_ok(tc)
            and factor_ok(kh, fh) and factor_ok(kc, fc))

# ------------------------------------------------- spread, brackets and marks


class Pollutant:
    """Figures of one pollutant, engine by engine."""

    def __init__(self, k=K):
        self.k = k
        self.n = self.S = self.Q = self.V = 0
        self.s = self.e = 0
        self.c_low = self.c_high = self.h_low = self.h_high = 0
        self.T = None
        self.marks = ''

    def engine(self, X, T):
        k = self.k
        self.n += 1
        self.S += X
        self.Q += X * X
        self.T = T
        i = self.n
        if i == 1:                      # C low and C high are 0 at engine 1
            self.marks = '-'
            return
        self.V = V = i * self.Q - self.S * self.S
        kkv, d = k * k * V, i * (i - 1)
        s = isqrt(kkv // d)             # largest s with s*s*d <= k*k*V
        e = 0 if s * s * d == kkv else 1
        step = 4 * k * (X - T)
        self.s, self.e = s, e
        self.c_low = max(0, self.c_low + step - s - e)
        self.c_high = max(0, self.c_high + step - s)
        self.h_low, self.h_high = 20 * s, 20 * (s + e)
        if self.c_low > self.h_high:
            self.marks += 'O'
        elif self.c_high <= self.h_low:
            self.marks += 'U'
        else:
            self.marks += '?'

    def G(self):
        return self.S - self.n * self.T

    def N(self):
        """Exact N, or None."""
        n = self.n
        if n < 2 or self.G() == 0:
            return None
        return 1 + Fraction(t95(n) ** 2 * self.V * n,
                            10000 * (n - 1) * self.G() ** 2)

    def N_tenths(self):
        N = self.N()
        return None if N is None else -((-10 * N.numerator) // N.denominator)

    def failed(self):
        return 'OO' in self.marks

    def unsettled(self):
        return any(a in 'O?' and b in 'O?' and a + b != 'OO'
                   for a, b in zip(self.marks, self.marks[1:]))

# --------------------------------------------------------------- the year


# An engine in the book: its number and results, and period and standards in force when it was entered.
Engine = namedtuple('Engine', 'number results period standards')


class Year:
    """A setup and the events entered so far, with all figures at k."""

    def __init__(self, setup, k=K):
        assert setup_ok(setup)
        self.setup, self.k = setup, k
        self.events = []
        self.standards = (setup[2], setup[3])   # in force now
        self.periods = period_count(setup[0], setup[1])
        self.period = 1
        self.engines = []                       # those that remain, in the order of entry
        self.declared = False
        self.rework()

    def rework(self):
        """All figures anew, from the engines that remain."""
        self.h, self.c = Pollutant(self.k), Pollutant(self.k)
        for engine in self.engines:
            self.work(engine)

    def work(self, engine):
        for p, result, standard in zip((self.h, self.c), engine.results, engine.standards):
            p.engine(result, standard)

    def n(self):
        return len(self.engines)

    def has(self, number):
        return any(engine.number == number for engine in self.engines)

    def short(self):
        return sum(engine.period == self.period for engine in self.engines) < needed(self.period)

    def passing(self):
        """Engines with both results at or below the standards in force when they were entered."""
        return sum(all(x <= t for x, t in zip(engine.results, engine.standards)) for engine in self.engines)

    def can_strike(self):
        """The newest engine that remains was entered in the current period."""
        return self.n() > 0 and self.engines[-1].period == self.period

    def closed(self):
        """Verdict 6 or 7: both come before all others in the verdict."""
        return self.declared or self.h.failed() or self.c.failed()

    def verdict(self):
        both, n = (self.h, self.c), self.n()
        if self.declared:
            return 7
        if any(p.failed() for p in both):
            return 6
        if any(p.unsettled() for p in both):
            return 5
        if self.short():
            return 0
        if all(p.N() is not None and n > p.N() and p.G() <= 0 for p in both):
            return 2
        if n >= 30:
            return 3
        if self.passing() >= round_even(self.setup[0], 100):
            return 4
        return 1

    def enter(self, ev):
        """Returns the number of the refusal; or adds the event and returns 0."""
        kind = ev[0]
        if kind == 'A' and not (standard_ok(ev[1]) and standard_ok(ev[2])):
            return 5
        if self.closed():
            return 8
        if len(self.events) >= MAX_EVENTS:
            return 9
        if kind == 'E':
            _, number, readings, xh, xc = ev
            if not 1 <= number <= 65535 or self.has(number):
                return 10
            if not 1 <= readings <= 3:
                return 11
            if not (0 <= xh <= 20000 and 0 <= xc <= 20000):
                return 13
            if self.n() >= MAX_ENGINES:
                return 14
            self.engines.append(Engine(number, (xh, xc), self.period, self.standards))
            self.work(self.engines[-1])
        elif kind == 'A':
            self.standards = (ev[1], ev[2])
        elif kind == 'P':
            if self.period == self.periods or self.short():
                return 15
            self.period += 1
        elif kind == 'D':
            self.declared = True
        elif kind == 'Z':
            if not self.can_strike():
                return 17
            self.engines.pop()
            self.rework()
        else:
            raise ValueError(kind)
        self.events.append(ev)
        return 0

    def ask(self, engine):
        """What entering the engine would do, tried on a copy, so that this year stays as it is: the number of the refusal, and the year that would be left."""
        assert engine[0] == 'E'
        tried = copy.deepcopy(self)
        return tried.enter(engine), tried

# --------------------------------------------------------------- the book


def le(x, size):
    return x.to_bytes(size, 'little')


def num(buf, at, size):
    return int.from_bytes(buf[at:at + size], 'little')


def version(events):
    """Version 2 holds at least one strike, version 1 none."""
    return 2 if ('Z',) in events else 1


def encode(setup, events):
    P, D, th, tc, kh, kc, fh, fc = setup
    out = (b'PLT' + le(version(events), 2) + bytes(3) + le(P, 4) + le(D, 2) + le(th, 2) + le(tc, 2)
           + le(kh, 1) + le(kc, 1) + le(fh, 2) + le(fc, 2) + le(len(events), 1) + bytes(7))
    assert len(out) == HEAD
    for ev in events:
        if ev[0] == 'E':
            _, number, readings, xh, xc = ev
            slot = le(1, 1) + le(readings, 1) + le(xh, 2) + le(xc, 2) + le(number, 2)
        elif ev[0] == 'A':
            slot = le(2, 1) + bytes(1) + le(ev[1], 2) + le(ev[2], 2) + bytes(2)
        elif ev[0] == 'P':
            slot = le(3, 1) + bytes(7)
        elif ev[0] == 'D':
            slot = le(4, 1) + bytes(7)
        elif ev[0] == 'Z':
            slot = le(5, 1) + bytes(7)
        assert len(slot) == SLOT
        out += slot
    assert len(out) <= SIZE
    return out + bytes(SIZE - len(out))


def decode_slot(slot):
    """The event of one used slot; None if kind or unnamed bytes are wrong."""
    kind = slot[0]
    if kind == 1:
        return ('E', num(slot, 6, 2), slot[1], num(slot, 2, 2), num(slot, 4, 2))
    if kind == 2:
        if slot[1] or slot[6] or slot[7]:
            return None
        return ('A', num(slot, 2, 2), num(slot, 4, 2))
    if kind in (3, 4, 5):
        if any(slot[1:]):
            return None
        return {3: ('P',), 4: ('D',), 5: ('Z',)}[kind]
    return None


def decode(buf):
    """Setup and events as stored, not yet checked to be admissible in that order; or None."""
    if len(buf) != SIZE:
        return None
    if buf[0:3] != b'PLT' or num(buf, 3, 2) not in (1, 2) or any(buf[5:8]) or any(buf[25:32]):
        return None
    setup = (num(buf, 8, 4), num(buf, 12, 2), num(buf, 14, 2), num(buf, 16, 2),
             buf[18], buf[19], num(buf, 20, 2), num(buf, 22, 2))
    count = buf[24]
    if not setup_ok(setup) or count > MAX_EVENTS:
        return None
    if any(buf[HEAD + SLOT * count:]):
        return None
    events = []
    for j in range(count):
        ev = decode_slot(buf[HEAD + SLOT * j:HEAD + SLOT * (j + 1)])
        if ev is None:
            return None
        events.append(ev)
    return (setup, events) if num(buf, 3, 2) == version(events) else None


def read(buf):
    """None, or (setup, events) if the buffer is an accepted book."""
    got = decode(buf)
    if got is None:
        return None
    setup, events = got
    year = Year(setup)
    for ev in events:
        if year.enter(ev):
            return None
    return setup, events

# ------------------------------------------------------- the wall page (W-205)

LINE = 61                               # the bytes of a line: 60 and a newline
HEAD_WIDTHS, ENGINE_WIDTHS = (8, 3, 1), (5, 5, 5, 10, 10, 10, 10, 1, 1)


def page_size(n):
    """The bytes of a page: a head line and a line for each engine."""
    return LINE * (n + 1)


def brackets(results, standards):
    """C low and C high of a pollutant at each of its engines, in units of 1/4,096 result unit; the sums of the first i results are made anew at each engine."""
    found = []
    for i in range(1, len(results) + 1):
        low = high = 0
        if i > 1:
            V, d = i * sum(x * x for x in results[:i]) - sum(results[:i]) ** 2, i * (i - 1)
            s = isqrt(K * K * V // d)
            e = 0 if s * s * d == K * K * V else 1
            step = 4 * K * (results[i - 1] - standards[i - 1])
            low, high = max(0, found[-1][0] + step - s - e), max(0, found[-1][1] + step - s)
        found.append((low, high))
    return found


def line(widths, figures):
    """Each figure right-aligned with spaces in a column of its width, which it fits; spaces up to 60 bytes, and a newline."""
    columns = [str(figure).rjust(width) for figure, width in zip(figures, widths, strict=True)]
    assert [len(column) for column in columns] == list(widths)
    return ''.join(columns).ljust(LINE - 1) + '\n'


def page(year):
    """The wall page of a year worked at K: a head line, then a line for each engine that remains, in the order of entry, with C and the marks at that engine."""
    assert year.k == K
    lines = [line(HEAD_WIDTHS, (year.setup[0], year.setup[1], year.periods))]
    of_hcnox, of_co = (brackets([engine.results[which] for engine in year.engines], [engine.standards[which] for engine in year.engines]) for which in (0, 1))
    for engine, hcnox, co, *marks in zip(year.engines, of_hcnox, of_co, year.h.marks, year.c.marks, strict=True):
        lines.append(line(ENGINE_WIDTHS, (engine.number, *engine.results, *hcnox, *co, *marks)))
    return ''.join(lines)

# ---------------- cases of document 01, and of W-201, W-202, W-204 and W-205


def E(number, readings, xh, xc):
    return ('E', number, readings, xh, xc)


def A(h, c):
    return ('A', h, c)


P, D, Z = ('P',), ('D',), ('Z',)


def enter_all(setup, events, k=K):
    y = Year(setup, k)
    for ev in events:
        assert y.enter(ev) == 0, ev
    return y


def self_check():
    # rounding, periods, one percent
    assert round_even(1000500, 1000) == 1000 and round_even(1001500, 1000) == 1002
    assert round_even(800 + 801, 2) == 800 and round_even(50 * 1050, 1000) == 52
    assert result_of(1, 1050, [50000]) == 52 and result_of(0, 0, [800000, 801000]) == 800
    assert result_of(0, 0, [1500, 600]) == 2 and result_of(0, 500, [1000, 1000]) == 2
    assert result_of(1, 60000, [20000000] * 3) == 1200000
    assert period_count(1599, 365) == 1
    assert [period_count(1600, d) for d in (120, 121, 210, 211, 300, 301, 366)] == \
        [1, 2, 2, 3, 3, 4, 4]
    assert round_even(250, 100) == 2 and round_even(350, 100) == 4

    # T 800, X 998 then 1,071
    setup = (5000, 365, 800, 6100, 0, 0, 0, 0)
    two = [E(1, 1, 998, 5000), E(2, 1, 1071, 5000)]
    h = enter_all(setup, two).h
    assert (h.s, h.e, h.c_low, h.c_high, h.h_low, h.h_high, h.marks) == \
        (52857, 1, 1057158, 1057159, 1057140, 1057160, '-?')
    assert enter_all(setup, two, 8 * K).h.marks == '-O'

    # the printed run
    y = Year(setup)
    seen = [(y.n(), y.verdict())]
    for ev in two + [E(3, 1, 900, 5000)]:
        assert y.enter(ev) == 0
        seen.append((y.n(), y.verdict(), y.h.marks[-1] + y.c.marks[-1],
                     y.h.N_tenths(), y.c.N_tenths()))
    assert seen == [(0, 0), (1, 0, '--', None, None), (2, 1, '?U', 30, 10), (3, 1, 'UU', 28, 10)]
    assert ''.join(a + b for a, b in zip(y.h.marks, y.c.marks)) == '--?UUU'
    assert y.enter(D) == 0 and y.verdict() == 7
    assert y.enter(E(4, 1, 0, 0)) == 8 and y.enter(A(5, 10)) == 5 and y.enter(D) == 8

    # T 100, X 500 three times
    y = enter_all((1500, 100, 100, 6100, 0, 0, 0, 0), [E(j, 1, 500, 5000) for j in (1, 2, 3)])
    assert y.h.marks == '-OO' and y.verdict() == 6
    assert [y.enter(ev) for ev in (E(4, 1, 0, 0), A(100, 100), P, D)] == [8] * 4

    # N is 1 and verdict 2; no N, 'U' and verdict 1
    setup = (1500, 100, 1000, 6100, 0, 0, 0, 0)
    y = enter_all(setup, [E(1, 1, 800, 5000), E(2, 1, 800, 5000)])
    assert y.h.N() == 1 and y.c.N() == 1 and y.verdict() == 2
    y = enter_all(setup, [E(1, 1, 1000, 5000), E(2, 1, 1000, 5000)])
    assert y.h.N() is None and y.h.marks == '-U' and y.verdict() == 1

    # periods and the other refusals
    y = Year((1600, 121, 1000, 6100, 0, 0, 0, 0))
    assert y.enter(P) == 15 and y.enter(E(1, 1, 0, 0)) == 0 and y.enter(P) == 15
    assert y.enter(E(1, 1, 0, 0)) == 10 and y.enter(E(0, 1, 0, 0)) == 10
    assert y.enter(E(2, 0, 0, 0)) == 11 and y.enter(E(2, 4, 0, 0)) == 11
    assert y.enter(E(2, 1, 20001, 0)) == 13 and y.enter(E(2, 3, 0, 20000)) == 0
    assert y.enter(P) == 0 and y.verdict() == 0 and y.enter(P) == 15
    assert y.enter(A(15, 10)) == 5 and y.enter(A(20010, 10)) == 5 and y.enter(A(10, 20000)) == 0
    assert y.enter(E(3, 1, 0, 0)) == 0 and y.enter(P) == 15
    for j in range(4, 41):
        assert y.enter(E(j, 1, 0, 0)) == 0
    assert y.enter(E(41, 1, 0, 0)) == 14
    strikes_of_years()
    strikes_in_books()
    asks_of_years()
    asks_refused()
    failing_engines()
    pages()


def strikes_of_years():
    # document 01's run, struck back to its start: each time the figures of the engine before
    setup = (5000, 365, 800, 6100, 0, 0, 0, 0)
    three = [E(1, 1, 998, 5000), E(2, 1, 1071, 5000), E(3, 1, 900, 5000)]
    y = enter_all(setup, three + [Z])
    h = y.h
    assert (y.n(), y.verdict(), h.S, h.s, h.e, h.c_low, h.c_high, h.h_low, h.h_high, h.marks, h.N_tenths(), y.c.N_tenths()) == \
        (2, 1, 2069, 52857, 1, 1057158, 1057159, 1057140, 1057160, '-?', 30, 10)
    assert enter_all(setup, three + [Z], 8 * K).h.marks == '-O'
    # one engine: short again, so the next period is refused; none: nothing to strike
    assert y.enter(Z) == 0 and (y.n(), y.verdict(), y.h.S, y.h.marks, y.h.N()) == (1, 0, 998, '-', None) and y.enter(P) == 15
    assert y.enter(Z) == 0 and (y.n(), y.verdict(), y.h.S, y.h.marks, y.c.S) == (0, 0, 0, '', 0)
    assert y.enter(Z) == 17 and len(y.events) == 6 and y.standards == (800, 6100)
    # a number is free again, that of a remaining engine is not
    assert y.enter(E(3, 1, 1071, 5000)) == 0 and y.enter(E(3, 1, 1, 1)) == 10 and y.h.marks == '-'

    # T is that of the newest remaining engine: 1,000, so that G is -400 and N is 1; the amendment stays in force, and the next engine is under it
    setup = (1500, 100, 1000, 6100, 0, 0, 0, 0)
    y = enter_all(setup, [E(1, 1, 800, 5000), E(2, 1, 800, 5000), A(10, 10), E(3, 1, 800, 5000)])
    assert y.verdict() == 1 and y.h.G() == 2370 and y.h.marks == '-UO'
    assert y.enter(Z) == 0 and y.h.G() == -400 and y.h.N() == 1 and y.verdict() == 2 and y.h.marks == '-U'
    assert y.enter(E(3, 1, 800, 5000)) == 0 and y.h.G() == 2370
    # an amendment between an engine and its strike is kept: C is 4,096 x (900 - 700) less s = 0 then, and under 1,000 it was 0
    y = enter_all(setup, [E(1, 1, 900, 5000), E(2, 1, 900, 5000), A(700, 6100), Z])
    assert y.n() == 1 and y.standards == (700, 6100) and y.enter(E(2, 1, 900, 5000)) == 0 and (y.h.c_low, y.h.c_high, y.h.marks) == (819200, 819200, '-O')
    # 'O' at an engine that was struck is not followed by the next 'O'; a failing engine cannot be struck
    y = enter_all((1500, 100, 100, 6100, 0, 0, 0, 0), [E(1, 1, 500, 5000), E(2, 1, 500, 5000), Z, E(2, 1, 500, 5000)])
    assert y.h.marks == '-O' and y.verdict() == 1 and y.enter(E(3, 1, 500, 5000)) == 0 and y.verdict() == 6 and y.enter(Z) == 8

    # only engines of the current period; 8 and 9 come before 17
    y = enter_all((1600, 121, 1000, 6100, 0, 0, 0, 0), [E(1, 1, 0, 0), E(2, 1, 0, 0), P])
    assert y.enter(Z) == 17 and y.enter(E(3, 1, 0, 0)) == 0 and y.enter(Z) == 0 and y.verdict() == 0 and y.enter(Z) == 17 and y.n() == 2
    assert y.enter(D) == 0 and y.enter(Z) == 8
    y = enter_all((5000, 365, 800, 6100, 0, 0, 0, 0), [E(1, 1, 0, 0)] + [A(10, 10)] * 62 + [Z])
    assert y.n() == 0 and [y.enter(ev) for ev in (Z, E(1, 1, 0, 0), A(10, 10), P, D)] == [9] * 5
    assert enter_all((5000, 365, 800, 6100, 0, 0, 0, 0), [E(1, 1, 0, 0)] + [A(10, 10)] * 63).enter(Z) == 9
    # the forty are those that remain
    y = enter_all((5000, 365, 800, 6100, 0, 0, 0, 0), [E(j, 1, 0, 0) for j in range(1, 41)])
    assert y.enter(E(41, 1, 0, 0)) == 14 and y.enter(Z) == 0 and y.enter(E(41, 1, 0, 0)) == 0 and y.enter(E(40, 1, 0, 0)) == 14 and y.n() == 40
    assert [first_refusal(held) for held in ((), {10, 17}, {9, 17}, {16, 3}, {17})] == [0, 17, 9, 3, 17]


def failing_engines():
    """W-204: verdict 4 counts only engines that pass, verdict 3 counts every engine."""
    def verdict_of(volume, events, k=K):
        return enter_all((volume, 365, 800, 6100, 0, 0, 0, 0), events, k).verdict()

    def two(first, second):
        return [E(1, 1, *first), E(2, 1, *second)]

    # every engine fails: one percent is 1, and 0
    assert [verdict_of(volume, two((801, 5000), (801, 5000)), k) for volume in (51, 50) for k in (K, 8 * K)] == [1, 1, 4, 4]
    # equal to both standards; HC+NOx alone above, CO alone
    assert [verdict_of(150, two(x, x)) for x in ((800, 6100), (801, 6100), (800, 6101))] == [4, 1, 1]
    # one of two passes: enough where one percent is 1, not where it is 2
    assert [verdict_of(volume, two(*x)) for volume in (149, 150) for x in (((801, 5000), (800, 5000)), ((800, 5000), (801, 5000)))] == [4, 4, 1, 1]
    # the standards in force when an engine was entered
    assert verdict_of(150, two((800, 6100), (800, 6100)) + [A(10, 10)]) == 4 and verdict_of(150, two((801, 6100), (801, 6100)) + [A(20000, 20000)]) == 1
    assert verdict_of(150, [E(1, 1, 800, 6100), A(810, 6100), E(2, 1, 801, 6100)]) == 4 and verdict_of(150, [E(1, 1, 800, 6100), A(790, 6100), E(2, 1, 800, 6100)]) == 1
    # a struck engine is not counted
    three = two((801, 5000), (800, 5000)) + [E(3, 1, 800, 5000)]
    assert verdict_of(150, three) == 4 and verdict_of(150, three + [Z]) == 1
    # thirty that fail; twenty-nine; one percent of 2,900 is 29
    thirty = [E(j, 1, 20000 if j == 1 else 801, 5000) for j in range(1, 31)]
    assert verdict_of(3000, thirty) == 3 and verdict_of(2900, thirty) == 3 and verdict_of(2900, thirty[:29]) == 1


def changed(book, *changes):
    out = bytearray(book)
    for at, value in changes:
        out[at] = value
    return bytes(out)


def strikes_in_books():
    # the first strike writes its slot, byte 24 and byte 3, the next one its slot and byte 24; a new setup is version 1
    setup, one = (5000, 365, 800, 6100, 0, 0, 0, 0), E(1, 1, 998, 5000)
    struck = encode(setup, [one, Z])
    assert struck == changed(encode(setup, [one]), (3, 2), (24, 2), (40, 5)) and read(struck) == (setup, [one, Z])
    assert encode(setup, [one, Z, one, Z]) == changed(encode(setup, [one, Z, one]), (24, 4), (56, 5))
    assert encode(setup, [])[3:5] == b'\1\0' and struck[3:5] == b'\2\0'
    # version 1 with a strike, version 2 without, any other version
    assert [read(changed(struck, (3, v))) is not None for v in range(5)] == [False, False, True, False, False]
    assert [read(changed(encode(setup, [one]), (3, v))) is not None for v in range(5)] == [False, True, False, False, False]
    assert read(changed(struck, (4, 1))) is None and read(changed(encode(setup, []), (3, 2))) is None and read(changed(struck, (3, 0), (4, 2))) is None
    # the slot of a strike: kinds 3 and 4 are no strike, 0 and 6 no kind; each other byte is zero
    assert [read(changed(struck, (40, kind))) is not None for kind in range(8)] == [kind == 5 for kind in range(8)]
    assert read(changed(struck, (3, 1), (40, 4))) == (setup, [one, D])
    assert all(read(changed(struck, (at, 1))) is None for at in range(41, 48))
    # strikes that could not be entered
    two = [one, E(2, 1, 998, 5000)]
    for events in ([Z], [one, Z, Z], two + [P, Z], two + [P, E(3, 1, 1, 1), Z, Z], two + [Z, P], two + [Z, one], [one, D, Z]):
        assert read(encode(setup, events)) is None, events
    for events in (two + [Z, two[1], P], two + [P, E(3, 1, 1, 1), Z, E(3, 1, 2, 2), P], [one, Z, D], two + [Z, Z, one]):
        assert read(encode(setup, events)) == (setup, events), events


def everything(year):
    """All that a year holds, and its book."""
    return (encode(year.setup, year.events), year.standards, year.period, list(year.engines), year.declared, vars(year.h).copy(), vars(year.c).copy(), year.verdict())


def told(year, engine):
    """Asks about the engine, then enters it: the ask changes nothing, and tells the refusal and the year of the entry. Returns the refusal."""
    before = everything(year)
    refusal, asked = year.ask(engine)
    assert everything(year) == before
    assert year.enter(engine) == refusal and everything(year) == everything(asked) and (everything(year) == before) == (refusal != 0)
    return refusal


def asks_of_years():
    # document 01's run, each engine asked about before it is entered: the figures are those with the engine, and the year keeps its own
    setup, one, two, three = (5000, 365, 800, 6100, 0, 0, 0, 0), E(1, 1, 998, 5000), E(2, 1, 1071, 5000), E(3, 1, 900, 5000)
    y = Year(setup)
    for engine, n, verdict, marks, sizes in ((one, 1, 0, '--', (None, None)), (two, 2, 1, '?U', (30, 10)), (three, 3, 1, 'UU', (28, 10))):
        refusal, asked = y.ask(engine)
        assert (refusal, asked.n(), asked.verdict(), asked.h.marks[-1] + asked.c.marks[-1], asked.h.N_tenths(), asked.c.N_tenths()) == (0, n, verdict, marks, *sizes)
        assert y.n() == n - 1 and told(y, engine) == 0
    # asks do not add up, and take no number: each is of one engine more, with the number of another ask or of a strike
    y = enter_all(setup, [one, two, three, Z])
    assert [y.ask(E(3, 1, x, 5000))[1].h.marks for x in (900, 926, 900)] == ['-?U', '-?O', '-?U'] and y.ask(E(4, 1, 0, 0))[1].n() == 3 and y.n() == 2
    assert told(y, three) == 0 and y.ask(three)[0] == 10
    # the engine is tried under the standards in force, and the amendment stays
    y = enter_all((1500, 100, 1000, 6100, 0, 0, 0, 0), [E(1, 1, 900, 5000), E(2, 1, 900, 5000), A(700, 6100), Z])
    assert y.ask(E(2, 1, 900, 5000))[1].h.marks == '-O' and told(y, E(2, 1, 900, 5000)) == 0
    # an ask is no engine of a period: the year stays short, no next period begins, and nothing can be struck
    y = enter_all((1600, 121, 1000, 6100, 0, 0, 0, 0), [E(1, 1, 0, 0), E(2, 1, 0, 0), P])
    assert y.verdict() == 0 and y.ask(E(3, 1, 0, 0))[1].verdict() == 2 and y.verdict() == 0 and y.enter(P) == 15 and y.enter(Z) == 17 and told(y, E(3, 1, 0, 0)) == 0
    # an engine that would fail the family closes nothing
    y = enter_all((1500, 100, 100, 6100, 0, 0, 0, 0), [E(1, 1, 500, 5000), E(2, 1, 500, 5000)])
    asked = [y.ask(E(3, 1, x, 5000)) for x in (500, 0, 500)]
    assert [(refusal, year.verdict()) for refusal, year in asked] == [(0, 6), (0, 1), (0, 6)] and not y.closed()
    assert told(y, E(3, 1, 0, 5000)) == 0 and y.verdict() == 1
    y = enter_all((1500, 100, 100, 6100, 0, 0, 0, 0), [E(1, 1, 500, 5000), E(2, 1, 500, 5000)])
    assert told(y, E(3, 1, 500, 5000)) == 0 and y.verdict() == 6 and told(y, E(4, 1, 0, 0)) == 8


def asks_refused():
    # with forty engines stored or 64 events, by 14 and 9; one before, any number of asks is told of the last engine or event, which stays free
    setup, engines = (5000, 365, 800, 6100, 0, 0, 0, 0), [E(j, 1, 0, 0) for j in range(1, 41)]
    y = enter_all(setup, engines[:39])
    assert [y.ask(E(40 + j, 1, 0, 0))[1].n() for j in range(3)] == [40] * 3 and y.n() == 39 and told(y, engines[39]) == 0
    assert told(y, E(41, 1, 0, 0)) == 14 and told(y, E(41, 1, 20001, 0)) == 13
    assert y.enter(Z) == 0 and told(y, E(41, 1, 0, 0)) == 0
    y = enter_all(setup, [A(10, 10)] * 63)
    assert [len(y.ask(engines[0])[1].events) for _ in range(3)] == [64] * 3 and len(y.events) == 63 and told(y, engines[0]) == 0
    assert [told(y, engine) for engine in (engines[1], engines[0], E(0, 4, 20001, 0))] == [9] * 3
    # on a failed and on a declared year by 8, which comes before 9 to 14
    failed = [E(1, 1, 20000, 0), E(2, 1, 20000, 0), E(3, 1, 20000, 0)]
    for events in (failed, [D], [A(800, 6100)] * 61 + failed, [A(800, 6100)] * 63 + [D], engines + [D]):
        y = enter_all(setup, events)
        assert y.verdict() in (6, 7) and [told(y, engine) for engine in (E(50, 1, 0, 0), E(1, 1, 0, 0), E(0, 4, 20001, 0))] == [8] * 3
    # by 10, 11 and 13, alone and before the next of them; and a refused ask leaves the year open to the engine
    y = enter_all(setup, engines[:2])
    assert [told(y, engine) for engine in (E(0, 1, 0, 0), E(65536, 1, 0, 0), E(2, 1, 0, 0), E(2, 0, 0, 0), E(2, 1, 20001, 0))] == [10] * 5
    assert [told(y, engine) for engine in (E(3, 0, 0, 0), E(3, 4, 0, 0), E(3, 4, 20001, 0))] == [11] * 3
    assert told(y, E(3, 1, 20001, 0)) == told(y, E(3, 1, 0, 20001)) == 13 and told(y, E(3, 1, 20000, 20000)) == 0


def pages():
    """W-205: lines of 60 bytes and a newline; columns that abut; C at each engine; struck engines have no line."""
    setup, one, two, three = (5000, 365, 800, 6100, 0, 0, 0, 0), E(1, 1, 998, 5000), E(2, 1, 1071, 5000), E(3, 1, 900, 5000)
    assert page(Year(setup)) == '    50003654' + ' ' * 48 + '\n' and page(Year((99999999, 366, 10, 10, 0, 0, 0, 0))) == '999999993664' + ' ' * 48 + '\n'
    assert page(Year((1, 1, 10, 10, 0, 0, 0, 0))) == '       1  11' + ' ' * 48 + '\n'
    # document 01's undecided mark
    first, second = '    1  998 5000' + 4 * '         0' + '--   \n', '    2 1071 5000   1057158   1057159         0         0?U   \n'
    y = enter_all(setup, [one, two])
    assert page(y) == page(Year(setup)) + first + second and len(page(y)) == page_size(2) == 183
    # a third engine and its strike, an amendment, a next period and a declaration leave the lines as they are
    y = enter_all(setup, [one, two, three, A(10, 10), Z, P, D])
    assert page(y) == page(enter_all(setup, [one, two]))
    # columns that touch: T 10, X 0 and 20,000, of which s is 14,481,546 (and a part): C is 4,096 x 19,990 less s
    y = enter_all((99999999, 366, 20000, 10, 0, 0, 0, 0), [E(65535, 1, 20000, 0), E(10000, 1, 20000, 20000)])
    assert page(y).split('\n')[1:] == ['6553520000    0' + 4 * '         0' + '--   ', '100002000020000' + 2 * '         0' + '  67397493  67397494UU   ', '']
    # one line for each of forty, and the last C is that of the status
    y = enter_all(setup, [E(j, 1, 700 + 37 * j % 151, 6000 + 71 * j % 257) for j in range(1, 41)])
    lines = page(y).split('\n')
    assert len(page(y)) == page_size(40) == 2501 and [len(text) for text in lines] == [60] * 41 + [0]
    assert [int(lines[40][at:at + 10]) for at in (15, 25, 35, 45)] == [y.h.c_low, y.h.c_high, y.c.c_low, y.c.c_high]
