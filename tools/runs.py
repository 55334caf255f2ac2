#!/usr/bin/env python3
"""Input and expected output of the calculator's tested runs, and the wall pages of the worked years, from document 01 and W-201, W-202, W-204 and W-205 of
document 02 alone (tools/model.py, and the table of refusals in tools/call_lists.py).

Run from the repository's root, it writes crates/NAME/stdin and crates/NAME/stdout of each run, examples/YEAR.replies.txt of each worked year, the page
examples/wall_page.page.txt, and tests/pages.txt: the pages of all worked years, one after another, examples/year.txt first. It shares nothing with the calculator.
  calculator   the worked year examples/year.txt, as it stands
  run_years    the other worked years of examples/, one after another
  run_lines    lines that are not of the form, too long or of any bytes, before a setup, in mid-year and after a second setup; the calls of
               crates/call_lists/stdin as key lines, with lines damaged by a fixed seed among them; years with strikes; asks (key T) wherever engines are
               entered; no newline at the end
Each line that begins with T must have the reply that the same line with E would have on the same book; and with all of them taken out, the other replies and the
book after each must be the same. Counts of what was met go to standard error; the script fails if a letter, a refusal that a key line can meet, a verdict, a mark
or a kind of reply that an ask can have was never met.
"""
import copy
import random
import re
import sys
from collections import Counter
from call_lists import call_of, event_of, rows_that_hold, strip_of
from model import ORDER, SIZE, Year, encode, first_refusal, page, self_check

LONGEST = 64
FORM = re.compile(rb'[SETAPXZL]( (0|[1-9][0-9]{0,7}))*')
# The worked years of run_years in their order, which tests/years.sh compares.
YEARS = ['undecided_mark', 'sample_size', 'amendment', 'failed', 'declared', 'first_engine', 'previous_limit', 'equal_limit', 'rounding', 'struck_engine', 'asked_engine',
         'failing_engines', 'wall_page']
COUNTS = {'S': 8, 'A': 2, 'P': 0, 'X': 0, 'Z': 0, 'L': 0}

# --------------------------------------------------------------- the replies


def command_of(line):
    """The letter and the numbers of a line, or the refusal 1 or 2."""
    if len(line) > LONGEST:
        return 1
    if not FORM.fullmatch(line):
        return 2
    letter, numbers = line[:1].decode(), [int(word) for word in line.split(b' ')[1:]]
    if len(numbers) != COUNTS[letter] if letter in COUNTS else len(numbers) % 2 == 0:
        return 2
    return letter, numbers


def arguments(letter, numbers):
    if letter in 'ET':
        half = len(numbers) // 2
        return numbers[0], numbers[1:1 + half], numbers[1 + half:]
    return (80,) if letter == 'L' else call_of(letter, numbers)


def status_reply(year):
    marks = ''.join((p.marks or '-')[-1] for p in (year.h, year.c))
    sizes = ['-' if p.N_tenths() is None else str(p.N_tenths()) for p in (year.h, year.c)]
    return ' '.join(['OK', str(year.n()), str(year.verdict()), marks] + sizes)


class Calculator:
    """The plain year of the lines so far."""

    def __init__(self):
        self.year = None
        self.told = None        # the year of the last reply that was a status: after an ask that with its engine, otherwise the year itself
        self.letters, self.refusals, self.verdicts, self.marks = Counter(), Counter(), Counter(), Counter()

    def reply(self, line):
        command = command_of(line)
        if isinstance(command, int):
            return self.refused(command)
        letter, numbers = command
        args = arguments(letter, numbers)
        rows = rows_that_hold(letter, args, SIZE, self.year is not None, self.year)
        if rows:
            return self.refused(first_refusal(rows))
        self.letters[letter] += 1
        if letter == 'L':
            strip = strip_of(self.year)
            self.marks.update(strip)
            return 'OK ' + strip if strip else 'OK'
        self.told = self.asked(args) if letter == 'T' else self.entered(letter, args)
        self.verdicts[self.told.verdict()] += 1
        return status_reply(self.told)

    def asked(self, args):
        refusal, year = self.year.ask(event_of('T', args, self.year.setup))
        assert refusal == 0
        return year

    def entered(self, letter, args):
        if letter == 'S':
            self.year = Year(args)
        else:
            assert self.year.enter(event_of(letter, args, self.year.setup)) == 0
        return self.year

    def book(self):
        return bytes(SIZE) if self.year is None else encode(self.year.setup, self.year.events)

    def refused(self, number):
        self.refusals[number] += 1
        return 'NO %d' % number

    def run(self, data):
        return ''.join(self.reply(line) + '\n' for line in lines_of(data)).encode()


def lines_of(data):
    lines = data.split(b'\n')
    return lines if lines[-1] else lines[:-1]


def check_asks(data):
    """A line that begins with T, of the form or not, has the reply of the same line with E; and the lines without all of these have the same replies and books.
    Returns how often a reply to T was OK with each verdict, or NO with each number."""
    calculator, without, met = Calculator(), Calculator(), Counter()
    for line in lines_of(data):
        if line.startswith(b'T'):
            entering = copy.deepcopy(calculator)
            reply = calculator.reply(line)
            assert reply == entering.reply(b'E' + line[1:]), line
            words = reply.split(' ')
            met[words[0], int(words[1] if words[0] == 'NO' else words[2])] += 1
        else:
            assert calculator.reply(line) == without.reply(line), line
        assert calculator.book() == without.book(), line
    return met

# -------------------------------------------------------- lines of any bytes

SETUP = b'S 5000 365 800 6100 0 0 0 0'

# Not of the form: a space, a letter, a digit or a number too many, too few or of another kind.
MALFORMED = [
    b'', b' ', b'  ', b'\t', b'\r', b'\0', b'\xff', b'\0' * 64, b'\xff' * 64, b' ' * 64,
    b'L\r', b'L ', b' L', b'L\t', b'l', b'LL', b'L 0', b'L\0', b'\0L', b'\xffL', b'L\xff', b'\xef\xbb\xbfL',
    b'P 1', b'P ', b'PP', b'P\r', b'p', b'X 0', b'X ', b'x', b'XL',
    b'A', b'A ', b'A 800', b'A 800 6100 0', b'A 800 6100 ', b'A 800  6100', b'A  800 6100', b' A 800 6100', b'A\t800 6100', b'A 800\t6100',
    b'A800 6100', b'A 800,6100', b'A 0800 6100', b'A 800 06100', b'A 00 6100', b'A -800 6100', b'A +800 6100', b'A 800.0 6100', b'A 8e2 6100',
    b'A 0x320 6100', b'A 100000000 6100', b'A 800 000000001', b'A 800 6100\r', b'A 800 6100\0', b'A\0800 6100', b'A 80\0 6100', b'A 800 61\xff0',
    b'A 800 6100x', b'a 800 6100', b'A 800 6100 A 800 6100', b'A 4294967296 6100', b'A 80/ 6100', b'A 80: 6100',
    b'S', b'S 5000', b'S 5000 365 800 6100 0 0 0', b'S 5000 365 800 6100 0 0 0 0 0', b'S 5000 365 800 6100 0 0 0 0 ', b's 5000 365 800 6100 0 0 0 0',
    b'S 05000 365 800 6100 0 0 0 0', b'S 100000000 365 800 6100 0 0 0 0', b'S 5000 365 800 6100 0 0 0 00', b'S 5000 365 800 6100 0 0  0 0',
    b'E' + b' 1' * 2, b'E' + b' 1' * 18, b'E' + b' 1' * 30, b'A' + b' 1' * 31, b'E', b'E ', b'E 9 1', b'E 9 1 1 1', b'E 9 1 1 1 1 1', b'E 9 1 1 1 1 1 1 1', b'E 9 1 1 ', b'E 9 01 1', b'E 9 1 1\r', b'E 9 100000000 1', b'E 09 1 1', b'e 9 1 1',
    b'9', b'9 1 1', b'OK', b'NO 2', b'help', b'?', b'#', b'Q', b'H 800', b'C 6100', b'M 5000 365 800 0 0', b'R 800',
    b'Z 1', b'Z 0', b'Z ', b' Z', b'z', b'ZZ', b'Z\r', b'Z\t', b'Z\0', b'\0Z', b'Z\xff', b'\xda', b'Z1', b'Z Z', b'Z 1 1', b'Y', b'[', b'EZ', b'Z' + b' ' * 63,
]

# The letters next to T, also by one bit, and lines in which T is not the first byte or not the only letter.
BESIDE_T = [bytes([b'T'[0] ^ 1 << bit]) + b' 9 1 1' for bit in range(8)] + [
    b'S 9 1 1', b'R 9 1 1', b'TT', b'TE', b'ET', b'TE 9 1 1', b'ET 9 1 1', b'E T 9 1 1', b'T T 9 1 1', b'T E 9 1 1', b' T 9 1 1', b'\0T 9 1 1', b'T9 1 1', b'T\t9 1 1',
    b'T  9 1 1', b'T\0 9 1 1', b'T\xff', b'T' + b' ' * 63, b'T' + b' 1' * 31,
]

# Of the form, and refused by the call, before a setup or in the year below.
REFUSED = [
    b'E' + b' 9' * 17, b'E' + b' 9' * 19, b'E' + b' 9' * 31, b'E 9', b'E 9 1 1 1 1 1 1 1 1', b'E 9 0 0 0 0 0 0 0 0 0 0', b'E 0 1 1', b'E 65536 1 1', b'E 99999999 1 1', b'E 1 1 1', b'E 1', b'E 0',
    b'E 9 20000001 1', b'E 9 1 20000001', b'E 9 99999999 99999999', b'A 0 6100', b'A 800 6105', b'A 20010 6100', b'A 99999999 0',
    b'S 0 365 800 6100 0 0 0 0', b'S 5000 0 800 6100 0 0 0 0', b'S 5000 367 800 6100 0 0 0 0', b'S 5000 365 805 6100 0 0 0 0', b'S 5000 365 800 0 0 0 0 0',
    b'S 5000 365 800 6100 2 0 0 0', b'S 5000 365 800 6100 0 60001 0 0', b'S 5000 365 800 6100 0 0 1 999', b'S 0 0 805 6100 2 0 0 0',
    b'S 5000 365 805 6100 2 0 0 0', b'S 99999999 366 20000 20000 1 60001 1 60001',
]


def long_lines():
    """Lines about 64 bytes and about the sizes in which input comes: of the form, not of the form, accepted but for their length."""
    number = b'E 1 11111111 11111111 11111111 11111111 11111111 11111111 2222 3'
    assert len(number) == LONGEST
    yield from (number[:63], number, number + b'3', number + b' 3', b'L' + b' ' * 63, b'L' + b' ' * 64, SETUP + b' ' * 64)
    for size in (63, 64, 65, 66, 127, 128, 129, 4094, 4095, 4096, 4097, 8192, 100000):
        yield b'9' * size
        yield (SETUP + b' ' + b'7' * size)[:size]
    yield bytes(i % 256 for i in range(100000) if i % 256 != 10)


def with_asks(lines):
    """Before each line that begins with E, of the form or not, the same line with T."""
    return [asked for line in lines for asked in ([b'T' + line[1:], line] if line.startswith(b'E') else [line])]


def any_lines():
    """Lines of any bytes, around a year."""
    every = [bytes([b]) for b in range(256) if b != 10]
    year = [SETUP, b'E 1 998000 5000000', b'E 2 1071000 5000000', b'E 3 998400 998600 5000499 5000501']
    bad = MALFORMED + BESIDE_T + REFUSED
    lines = [b'L', b'E 1 1 1', b'A 800 6100', b'A 805 6100', b'P', b'X'] + every + bad
    lines += year + bad + list(long_lines()) + [b'L', b'P', b'P', b'L']
    lines += [b'S 5000 365 805 6100 0 0 0 0', b'L'] + [b'S 1600 121 1000 6100 0 0 0 0', b'L', b'E 1 900000 5000000', b'E 2 900000 5000000', b'P', b'P', b'L']
    lines += [b'X'] + bad + [b'E 4 1 1', b'A 800 6100', b'P', b'X', b'L', SETUP, b'A 800 6100', b'L']
    return b'\n'.join(with_asks(lines))


def struck_lines():
    """Strikes among lines of any bytes: with no engine; after each of three engines; of what remains; after a next period and after a declaration; after a failure."""
    engines = [b'E 1 998000 5000000', b'E 2 1071000 5000000', b'E 3 998400 998600 5000499 5000501']
    lines = [SETUP, b'Z', b'L']
    for engine in engines:
        lines += [engine, b'Z', b'L', engine]
    lines += MALFORMED + [b'L', b'Z'] + REFUSED + [b'Z' + b' ' * 64, b'Z' * 65, b'L', b'A 700 6000', b'Z', b'L', b'P', engines[2], engines[2], b'P', b'Z', b'L']
    lines += [b'E 4 800000 5000000', b'Z', b'Z', b'P', b'E 4 700000 5000000', b'L', b'X', b'Z', b'L']
    lines += [b'S 1500 365 100 6100 0 0 0 0', b'E 1 500000 5000000', b'E 2 500000 5000000', b'Z', b'E 2 500000 5000000', b'E 3 500000 5000000', b'Z', b'L']
    return b'\n'.join(with_asks(lines))


def asked_lines():
    """The longest ask that can be accepted, and longer lines; one engine asked about and another entered; asks when forty engines or 64 events are stored."""
    longest = b'T 65535' + b' 20000000' * 6
    lines = [b'S 5000 365 20000 20000 0 0 0 0', longest, b'L', longest + b' 1', longest + b' 12', longest + b' 123', longest + b' 1234', b'T' * 64, b'T' * 65, longest, b'L']
    lines += [b'T 1 1000 1000', b'E 1 900000 900000', b'T 1 1 1', b'T 2 1 1', b'E 2 900000 900000', b'Z', b'T 2 1 1', b'L', b'P', b'E 2 1 1', b'P', b'T 3 1 1', b'P', b'Z', b'L']
    lines += [SETUP] + [b'E %d 800000 5000000' % number for number in range(1, 40)] + [b'T 40 1 1', b'T 41 1 1', b'L', b'E 40 800000 5000000', b'T 41 1 1', b'L']
    lines += [b'A 800 6100'] * 23 + [b'Z', b'T 41 1 1', b'L', SETUP] + [b'A 800 6100'] * 63 + [b'T 1 1 1', b'T 2 1 1', b'E 1 1 1', b'T 2 1 1', b'X', b'L']
    return b'\n'.join(lines)

# ---------------------------------------------------------- lists of calls


def keyed(line):
    """A call of tools/call_lists.py as a key line; nothing for what is no key."""
    words = line.split(' ')
    if words[0] in 'PXZL':
        return words[0]
    if words[0] in 'SA':
        return line
    if words[0] in 'ET':
        return ' '.join(words[:2] + words[4:])
    return None


def damaged(rng, line):
    """The line with one fault or two."""
    for _ in range(rng.choice((1, 1, 2))):
        at = rng.randrange(len(line) + 1)
        byte = bytes([rng.choice((32, 32, 48, 48, 57, 9, 13, 0, 255, 69, 45, rng.randrange(256)))]).replace(b'\n', b' ')
        line = rng.choice((line[:at] + byte + line[at:], line[:at] + line[at + 1:], line[:at] + byte + line[at + 1:], line[:at], line + b' ' + line,
                           line + byte * rng.randrange(70)))
    return line


def sessions():
    # asks are damaged by a seed of their own, so that the other lines are the same with and without them
    rng, rng_of_asks = random.Random(310), random.Random(202)
    with open('crates/call_lists/stdin') as f:
        keys = [key.encode() for key in map(keyed, f.read().splitlines()) if key]
    lines = []
    for key in keys:
        draws = rng_of_asks if key.startswith(b'T') else rng
        if draws.random() < 0.08:
            lines.append(damaged(draws, key))
        lines.append(key)
    return b'\n'.join(lines + [struck_lines(), asked_lines(), b'L' * 65, SETUP, b'L'])


# --------------------------------------------------------------------- main


def worked_year(name):
    """The key lines of a worked year. A setup starts a year anew, so that its replies, which are written beside it, are the same wherever in a run it stands."""
    with open('examples/%s.txt' % name, 'rb') as f:
        data = f.read()
    assert data.startswith(b'S ') and data.endswith(b'\n')
    with open('examples/%s.replies.txt' % name, 'wb') as f:
        f.write(Calculator().run(data))
    return data


def write_pages(years):
    """The page of the year that each worked year's lines leave."""
    pages = {}
    for name, data in years.items():
        calculator = Calculator()
        calculator.run(data)
        pages[name] = page(calculator.year)
    for path, text in (('tests/pages.txt', ''.join(pages.values())), ('examples/wall_page.page.txt', pages['wall_page'])):
        with open(path, 'w') as f:
            f.write(text)


def write(name, data, met):
    calculator = Calculator()
    output = calculator.run(data)
    assert all(len(line) < 96 for line in output.split(b'\n'))
    for mine, all_of_them in zip(met, (calculator.letters, calculator.refusals, calculator.verdicts, calculator.marks)):
        mine.update(all_of_them)
    home = 'crates/%s' % name
    for part, text in (('stdin', data), ('stdout', output)):
        with open('%s/%s' % (home, part), 'wb') as f:
            f.write(text)
    print('%-16s %6d bytes, %5d replies, verdicts %s' % (name, len(data), output.count(b'\n'), dict(sorted(calculator.verdicts.items()))), file=sys.stderr)


def main():
    self_check()
    met = [Counter() for _ in range(4)]
    years = {name: worked_year(name) for name in ['year'] + YEARS}
    write_pages(years)
    write('calculator', years['year'], met)
    write('run_years', b''.join(years[name] for name in YEARS), met)
    lines = any_lines() + b'\n' + sessions()
    write('run_lines', lines, met)
    asked = check_asks(lines)
    print('replies to asks', dict(sorted(asked.items())), file=sys.stderr)
    # a declared year takes no engine, so no ask tells 7; every refusal of an engine's line, of which none is 3 to 6 or 15 to 18
    assert set(asked) == {('OK', verdict) for verdict in range(7)} | {('NO', number) for number in (1, 2, 7, 8, 9, 10, 11, 12, 13, 14)}
    for title, counts in zip(('letters accepted', 'refusals', 'verdicts', 'marks'), met):
        print(title, dict(sorted(counts.items())), file=sys.stderr)
    # 3, 16 and 18 cannot be met by a key line: the book has its size, L lends room for forty engines, and no key asks for the page
    assert set(met[0]) == set('SETAPXZL') and set(met[1]) == set(ORDER) - {3, 16, 18} and set(met[2]) == set(range(8)) and set(met[3]) == set('-OU?')
    with open('crates/calculator/stdout') as f:
        assert f.read() == 'OK 0 0 -- - -\nOK 1 0 -- - -\nOK 2 1 ?U 30 10\nOK 3 1 UU 28 10\nOK --?UUU\nOK 3 7 UU 28 10\nNO 8\n'


if __name__ == '__main__':
    main()
