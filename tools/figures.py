#!/usr/bin/env python3
"""Expected output of examples/figures.c on the worked years, from document 01 and W-201, W-202 and W-204 of document 02 alone (tools/model.py).

Run from the repository's root, it writes tests/figures.txt: all worked years one after another, in the order of tools/runs.py.
"""
from runs import YEARS, Calculator

VERDICTS = ['short', 'continue', 'sample size reached', 'thirty tested', 'one percent tested', 'undecided', 'failed', 'declared']
HEAD = '              S         s e       C low      C high       H low      H high             N mark'


def decimals(tenthousandths):
    return '%d.%04d' % divmod(tenthousandths, 10000)


def interval(name, low, high, scale):
    down, up = low * 10000 // scale, -(-high * 10000 // scale)
    return '  %s %s' % (name, decimals(down)) + (' to ' + decimals(up) if up != down else '')


def pollutant(name, p, n):
    size = p.N_tenths()
    shown = '-' if size is None else '%d.%d' % divmod(size, 10)
    yield '%-6s %8d %9d %d %11d %11d %11d %11d %13s    %s' % (name, p.S, p.s, p.e, p.c_low, p.c_high, p.h_low, p.h_high, shown, p.marks[-1])
    if n >= 2:
        yield '      ' + interval('sigma', p.s, p.s + p.e, 1024) + interval('C', p.c_low, p.c_high, 4096) + interval('H', p.h_low, p.h_high, 4096)


def figures(year):
    yield 'n %d  verdict %d (%s)' % (year.n(), year.verdict(), VERDICTS[year.verdict()])
    if year.n():
        yield HEAD
        yield from pollutant('HC+NOx', year.h, year.n())
        yield from pollutant('CO', year.c, year.n())
    yield ''


def session(lines):
    calculator = Calculator()
    for line in lines:
        reply = calculator.reply(line)
        yield line.decode()
        yield reply
        if reply.startswith('OK') and not line.startswith(b'L'):
            yield from figures(calculator.told)


def main():
    lines = []
    for year in ['year'] + YEARS:
        with open('examples/%s.txt' % year, 'rb') as f:
            lines += f.read().splitlines()
    with open('tests/figures.txt', 'w') as f:
        f.write(''.join(line + '\n' for line in session(lines)))


if __name__ == '__main__':
    main()
