#!/usr/bin/env python3
"""Input and expected output of the test program worked_years, from document 01 and W-201 and W-204 of document 02 alone (tools/model.py).

Run from the repository's root, it writes crates/worked_years/stdin and crates/worked_years/stdout; it shares nothing with the calculator.
A line of the input is a letter, then a space and its words or numbers, with single spaces between them:
  T words                          these words are printed
  .                                the printed line ends
  r kind value count reading..     the result of 1 to 3 readings under a factor
  d volume days                    the number of periods
  n period                         how many engines the period needs
  c volume                         one percent of the volume
  S volume days hcnox co kind value kind value
                                   a year begins with this setup (HC+NOx first); if it is out of range, "no year" is printed and the year before goes on
  E number readings hcnox co       an engine with its results; like the next four, it is entered if it can be, and prints nothing
  A hcnox co                       an amendment
  P                                the next period
  X                                the declaration
  Z                                the strike of the newest engine
  F resolution                     prints a line: events entered, n, verdict, the figures of HC+NOx and of CO, and the same computed anew at the resolution.
                                   Figures are S, s, e, both C, both H, N in tenths, mark
It fails if a strike was never entered, or never refused by 8, 9 or 17.
"""
from collections import Counter
from model import A, D, E, K, P, Pollutant, Year, Z, needed, period_count, result_of, round_even, self_check, setup_ok

LETTERS = {'E': 'E', 'A': 'A', 'P': 'P', 'D': 'X', 'Z': 'Z'}
SHOW = ('show',)        # among events: the figures are printed here


class Sheet:
    """Input and output, line by line."""

    def __init__(self):
        self.input, self.output = [], ''
        self.strikes = Counter()            # by their refusal, 0 for none

    def line(self, letter, *numbers):
        self.input.append(' '.join([letter] + [str(n) for n in numbers]))

    def words(self, words):
        self.line('T', words)
        self.output += words

    def number(self, n, letter, *numbers):
        self.line(letter, *numbers)
        self.output += ' %d' % n

    def end(self):
        self.line('.')
        self.output += '\n'

    def title(self, words):
        self.words(words)
        self.end()

    def setup(self, volume, hcnox, co):
        self.line('S', volume, 365, hcnox, co, 0, 0, 0, 0)
        setup = (volume, 365, hcnox, co, 0, 0, 0, 0)
        if not setup_ok(setup):
            self.output += 'no year\n'
            return None
        return Year(setup)

    def figures(self, year, finer, resolution):
        self.line('F', resolution)
        numbers = [len(year.events), year.n(), year.verdict()]
        for p in (year.h, year.c) + finer:
            size = p.N_tenths()
            numbers += [p.S, p.s, p.e, p.c_low, p.c_high, p.h_low, p.h_high, '-' if size is None else size, (p.marks or '-')[-1]]
        self.output += ' '.join(map(str, numbers)) + '\n'

    def year(self, setup, events, resolution, each=True):
        """Prints the figures before the first event and after each event, or only where SHOW stands and after the last."""
        year = self.setup(*setup)
        tested = []                         # results and standards of the engines that remain
        if each:
            self.figures(year, worked_at(resolution, tested), resolution)
        for event in events:
            if event == SHOW:
                self.figures(year, worked_at(resolution, tested), resolution)
                continue
            self.line(LETTERS[event[0]], *event[1:])
            refusal = year.enter(event)
            if event == Z:
                self.strikes[refusal] += 1
            if refusal == 0 and event[0] == 'E':
                tested.append((event[3:], year.standards))
            if refusal == 0 and event == Z:
                tested.pop()
            if each:
                self.figures(year, worked_at(resolution, tested), resolution)
        if not each:
            self.figures(year, worked_at(resolution, tested), resolution)


def worked_at(resolution, tested):
    both = Pollutant(resolution), Pollutant(resolution)
    for results, standards in tested:
        for p, result, standard in zip(both, results, standards):
            p.engine(result, standard)
    return both


def results(kind, value, *readings):
    return result_of(kind, value, readings), 'r', kind, value, len(readings), *readings


def small_rules(sheet):
    """Rounding: 1,000,500 to 1,000; 1,001,500 to 1,002; the mean of 800 and 801; 50 under factor 1,050 of kind 1; readings rounded one by one; a reading of the
    printed run; and the largest readings under the largest factor. Then periods, what they need, and one percent."""
    sheet.words('rounding')
    for case in ((0, 0, 1000500), (0, 0, 1001500), (0, 0, 800000, 801000), (1, 1050, 50000), (0, 0, 1500, 600), (0, 0, 998000),
                 (1, 60000, 20000000, 20000000, 20000000)):
        sheet.number(*results(*case))
    sheet.end()
    sheet.words('periods')
    for volume, days in ((1599, 365), (1600, 120), (1600, 121), (1600, 300), (1600, 301)):
        sheet.number(period_count(volume, days), 'd', volume, days)
    for period in (1, 2):
        sheet.number(needed(period), 'n', period)
    sheet.end()
    sheet.words('percent')
    for volume in (250, 350, 99999999):
        sheet.number(round_even(volume, 100), 'c', volume)
    sheet.end()


def engines(*hcnox):
    """Engines 1, 2, .. with one reading each and these results for HC+NOx."""
    return [E(number + 1, 1, x, 5000) for number, x in enumerate(hcnox)]


def document_years(sheet):
    """Document 01's whole run (the last engine comes after the declaration), and its starred years: T 100, X 500 three times, and a fourth after the failure;
    T 1,000, X 800 twice and X 1,000 twice, P 1,500."""
    sheet.title('run')
    sheet.year((5000, 800, 6100), engines(998, 1071, 900) + [D, E(4, 1, 0, 0)], 8 * K)
    sheet.title('failed')
    sheet.year((5000, 100, 6100), engines(500, 500, 500, 500), K)
    sheet.title('reached')
    sheet.year((1500, 1000, 6100), engines(800, 800), K)
    sheet.title('no size')
    sheet.year((1500, 1000, 6100), engines(1000, 1000), K)


def other_years(sheet):
    """Marks '-', '?', 'O' (verdict 5, which finer work settles); N exactly 4 at n = 4, which is no stop; one percent of 150 is 2 (verdict 4); a deviation that is
    exact, and a next period in the last one. Then amendments and periods, and events that could not be entered: a period while short, a number twice, a
    standard that is no multiple of ten, no reading, a result above 20,000, number 0. Then setups that are out of range; and sixty-five amendments and a declaration,
    of which only the first sixty-four fit."""
    sheet.title('undecided')
    sheet.year((5000, 800, 6100), engines(998, 1071, 926), 8 * K)
    sheet.title('at N')
    sheet.year((5000, 100, 6100), engines(23, 23, 83, 83), K)
    sheet.title('one percent')
    sheet.year((150, 1000, 6100), engines(1000, 1000), K)
    sheet.title('exact')
    sheet.year((1500, 300, 6100), engines(100, 200, 300) + [P], 8 * K)
    sheet.title('amended')
    sheet.year((5000, 800, 6100), [P, E(1, 3, 998, 5000), E(1, 1, 900, 5000), A(700, 6100), A(705, 6100), E(2, 1, 900, 5000), P, P, E(3, 0, 900, 5000),
                                   E(3, 1, 900, 20001), E(0, 1, 900, 5000), E(65535, 1, 950, 6000), P], 2 * K)
    sheet.title('out of range')
    sheet.setup(0, 800, 6100)
    sheet.setup(5000, 805, 6100)
    sheet.title('many events')
    sheet.year((5000, 800, 6100), [A(10, 20000)] * 65 + [D], K, each=False)


def largest_years(sheet):
    """Forty-one engines of three readings, with results 0 and 20,000 by turns, CO the other way round. Under a standard of 20,000 the last does not fit; under 10
    the year fails at the ninth, and no more are entered. Then thirty-eight under 20,000, an amendment of both to 10 in place of the next, and the last two."""
    turns = [E(i + 1, 3, 20000 * (i % 2), 20000 - 20000 * (i % 2)) for i in range(41)]
    sheet.title('largest')
    sheet.year((99999999, 20000, 20000), turns, 8 * K)
    sheet.title('largest')
    sheet.year((99999999, 10, 20000), turns, 8 * K)
    sheet.title('largest, amended')
    sheet.year((99999999, 20000, 20000), turns[:38] + [A(10, 10)] + turns[39:], 8 * K)


def struck_years(sheet):
    """Document 01's run struck back to its start, one strike more, and engine 3 again. An engine over, struck, and entered again under the standard of an
    amendment in between. T of N is that of the newest remaining engine (verdict 2 again), though another is in force. Undecided marks that a strike takes back,
    and 'O' again after an 'O' that was struck; then a failure, which cannot be struck. Periods: short again by a strike, none of an earlier period, none after a
    declaration."""
    sheet.title('struck')
    sheet.year((5000, 800, 6100), engines(998, 1071, 900) + [Z, Z, Z, Z, E(3, 1, 900, 5000), E(3, 1, 900, 5000), E(1, 1, 998, 5000)], 8 * K)
    sheet.title('struck, amended')
    sheet.year((1500, 1000, 6100), [E(1, 1, 900, 5000), E(2, 2, 900, 6000), A(700, 5900), Z, E(2, 1, 900, 6000), A(1000, 6100), Z, A(800, 20000), Z, Z], K)
    sheet.title('struck, T')
    sheet.year((1500, 1000, 6100), [E(1, 1, 800, 5000), E(2, 1, 800, 5000), A(10, 10), E(3, 1, 800, 5000), Z, E(4, 1, 800, 5000)], 8 * K)
    sheet.title('struck, undecided')
    sheet.year((5000, 800, 6100), engines(998, 1071, 926) + [Z, E(3, 1, 926, 5000), Z, E(3, 1, 700, 5000), E(4, 1, 700, 5000)], 8 * K)
    sheet.title('struck, over')
    sheet.year((5000, 100, 6100), [E(1, 1, 500, 5000), E(2, 1, 500, 5000), Z, E(2, 3, 500, 5000), E(3, 1, 500, 5000), Z, P, E(4, 1, 0, 0)], K)
    sheet.title('struck, periods')
    sheet.year((5000, 1000, 6100), [Z, E(1, 1, 800, 5000), E(2, 1, 820, 5100), Z, P, E(2, 1, 830, 5100), P, Z, E(3, 1, 810, 5050), Z, Z, P, E(4, 1, 815, 5060), P,
                                    E(5, 1, 805, 5010), E(6, 1, 825, 5020), Z, D, Z], 2 * K)


def full_struck_years(sheet):
    """Forty engines of the largest results, the last struck, a forty-first in its place, another that does not fit, and strikes until no slot is left. Thirty
    engines (verdict 3), and the strike of the thirtieth; twenty that pass where one percent is twenty (verdict 4). One engine and sixty-two amendments: a strike
    in the last slot, and one more; the same with all slots taken. Thirty-two engines, each struck at once, and one more."""
    turns = [E(i + 1, 3, 20000 * (i % 2), 20000 - 20000 * (i % 2)) for i in range(41)]
    sheet.title('struck, forty')
    sheet.year((99999999, 20000, 20000), turns[:40] + [Z, SHOW, turns[40], SHOW, E(42, 1, 0, 0), SHOW] + [Z, SHOW] * 22 + [Z], 8 * K, each=False)
    steady = [E(i + 1, 1, 900 + 200 * (i % 2), 6000 + 200 * (i % 2)) for i in range(30)]
    sheet.title('struck, thirty')
    sheet.year((99999999, 1000, 6100), steady + [SHOW, Z, SHOW, steady[29]], 2 * K, each=False)
    sheet.title('struck, one percent')
    passing = [E(i + 1, 1, 900 + 100 * (i % 2), 6100) for i in range(21)]
    sheet.year((2000, 1000, 6100), passing[:20] + [SHOW, Z, SHOW, passing[20]], 2 * K, each=False)
    sheet.title('struck, many events')
    sheet.year((5000, 800, 6100), engines(998) + [A(10, 20000)] * 62 + [Z, SHOW, Z, D], K, each=False)
    sheet.year((5000, 800, 6100), engines(998) + [A(10, 20000)] * 63 + [Z], K, each=False)
    sheet.title('year of strikes')
    sheet.year((5000, 800, 6100), [E(7, 1, 998, 5000), Z] * 31 + [SHOW, E(7, 1, 998, 5000), SHOW, Z, SHOW, E(7, 1, 998, 5000), Z], K, each=False)


def failing_years(sheet):
    """W-204. Engines that all fail: one percent of 51 is 1 (verdict 1), of 50 it is 0 (4). P 150: both results equal to the standards, HC+NOx above, CO above.
    One of two passes: P 149 (4) and 150 (1). The standards in force at entry: amendments after two engines and between them, and a strike. Thirty engines that
    all fail (3), the thirtieth struck (1); and by turns above and below, ten of twenty, where one percent is twenty (1) and ten (4)."""
    sheet.title('failing')
    for volume in (51, 50):
        sheet.year((volume, 1000, 6100), engines(1001, 1001), 8 * K)
    for hcnox, co in ((800, 6100), (801, 6100), (800, 6101)):
        sheet.year((150, 800, 6100), [E(1, 1, hcnox, co), E(2, 1, hcnox, co)], 8 * K, each=False)
    for volume in (149, 150):
        sheet.year((volume, 800, 6100), engines(801, 800), 2 * K, each=False)
    sheet.title('failing, amended')
    sheet.year((150, 800, 6100), [E(1, 1, 800, 6100), E(2, 1, 800, 6100), A(10, 10), Z, E(2, 1, 800, 6100), Z, A(800, 6100), E(2, 1, 800, 6100)], K)
    sheet.year((150, 800, 6100), [E(1, 1, 801, 6100), E(2, 1, 801, 6100), A(20000, 20000), Z, E(2, 1, 801, 6100), E(3, 1, 801, 6100)], K)
    sheet.title('failing, thirty')
    sheet.year((2900, 800, 6100), engines(20000, *[801] * 29) + [SHOW, Z], 8 * K, each=False)
    for volume in (2000, 1000):
        sheet.year((volume, 1000, 6100), [E(i + 1, 1, 900 + 200 * (i % 2), 6000 + 200 * (i % 2)) for i in range(20)], 2 * K, each=False)


def main():
    self_check()
    sheet = Sheet()
    small_rules(sheet)
    document_years(sheet)
    other_years(sheet)
    largest_years(sheet)
    struck_years(sheet)
    full_struck_years(sheet)
    failing_years(sheet)
    assert set(sheet.strikes) == {0, 8, 9, 17} and len(sheet.input) <= 2000       # so many lines the test program reads
    for name, text in (('stdin', ''.join(line + '\n' for line in sheet.input)), ('stdout', sheet.output)):
        with open('crates/worked_years/%s' % name, 'w') as f:
            f.write(text)


if __name__ == '__main__':
    main()
