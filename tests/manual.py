#!/usr/bin/env python3
"""Runs every example of docs/MANUAL.md and compares: key lines and replies, shell commands and what they print, and what each slip would reply.

Run from the repository's root, after crates/calculator/out/calculator and target/figures are built. The blocks of the manual:
  keys               a line and its reply on each side of an arrow, keyed from an empty journal; \\r, \\t and \\xNN are bytes
  console            $ and a command, and what it prints
  slip NAME YEAR     lines of examples/YEAR.txt with their replies, and what a calculator that makes the slip NAME (tools/slips.py) replies: all lines but L where
                     the two differ
Key lines and replies within the text have to occur in a block or in a worked year, and the table of t95 has to be the model's.
"""
import glob
import re
import subprocess
import sys

sys.path.insert(0, 'tools')
import slips
from model import t95

MANUAL = 'docs/MANUAL.md'
CALCULATOR = 'crates/calculator/out/calculator'
ARROW, CROSS = '→', '✗'
BLOCK = r'^```(.*)\n((?:(?!```).*\n)*)```$'


def run(words, given=b''):
    done = subprocess.run(words, input=given, stdout=subprocess.PIPE)
    assert done.returncode == 0, '%s: exit status %d' % (words, done.returncode)
    return done.stdout


def parts(line, marks):
    """What stands before, between and after the marks."""
    found = re.split(r'\s*[%s]\s*' % marks, line)
    assert len(found) == len(marks) + 1, 'not of the form: %s' % line
    return found


def to_bytes(keyed):
    """The line's bytes. No key line has a backslash of its own, so each has to begin an escape."""
    assert '\\' not in re.sub(r'\\(r|t|x[0-9a-f]{2})', '', keyed), 'an unknown escape: ' + keyed
    return re.sub(rb'\\x([0-9a-f]{2})', lambda m: bytes([int(m.group(1), 16)]), keyed.encode().replace(b'\\r', b'\r').replace(b'\\t', b'\t'))


def keys(body):
    pairs = [parts(line, ARROW) for line in body.splitlines()]
    wanted = ''.join(reply + '\n' for _, reply in pairs)
    got = run([CALCULATOR], b''.join(to_bytes(keyed) + b'\n' for keyed, _ in pairs)).decode()
    assert got == wanted, 'keyed:\n%s\ngot:\n%s' % (body, got)
    return [text for pair in pairs for text in pair]


def console(body):
    found = re.findall(r'^\$ (.*)\n((?:(?!\$ ).*\n)*)', body, re.M)
    assert ''.join('$ %s\n%s' % pair for pair in found) == body, 'a block that does not begin with a command:\n' + body
    for command, wanted in found:
        got = run(['bash', '-euo', 'pipefail', '-c', command]).decode()
        assert got == wanted, '%s\ngot:\n%s' % (command, got)
    return body.splitlines()


def slip(body, name, year):
    shown = [parts(line, ARROW + CROSS) for line in body.splitlines()]
    right, wrong, differing = slips.calculator(None), slips.calculator(name), []
    for line in read('examples/%s.txt' % year).encode().splitlines():
        replies = right.reply(line), wrong.reply(line)
        if replies[0] != replies[1] and line != b'L':
            differing.append([line.decode(), *replies])
    assert shown == differing, 'the slip %s differs at %s' % (name, differing)
    stored = list(zip(read('examples/%s.txt' % year).splitlines(), read('examples/%s.replies.txt' % year).splitlines()))
    assert all((line, reply) in stored for line, reply, _ in shown)
    return [text for row in shown for text in row[:2]]


def coefficients(text):
    """The table of t95: rows of n, each with a row of coefficients below it."""
    found = {}
    for above, below in re.findall(r'^\| n \| (.*) \|\n(?:\|[-|]*\|\n)?\| \*\*t95\*\* \| (.*) \|$', text, re.M):
        found.update(zip(above.split(' | '), below.split(' | ')))
    assert found == {'31+' if n == 31 else str(n): '%.2f' % (t95(n) / 100) for n in range(2, 32)}, found


def read(path):
    with open(path, encoding='utf-8') as f:
        return f.read()


def main():
    text, seen, count = read(MANUAL), set(), {}
    blocks = re.findall(BLOCK, text, re.M)
    assert len(re.findall(r'^\s*(?:```|~~~)', text, re.M)) == 2 * len(blocks), 'a fence that opens or closes no block'
    for words, body in blocks:
        kind, *more = words.split()
        seen.update({'keys': keys, 'console': console, 'slip': slip}[kind](body, *more))
        count[kind] = count.get(kind, 0) + 1
    assert set(re.findall(r'^```slip (\w+)', text, re.M)) == set(slips.SLIPS), 'a slip is missing'
    coefficients(text)
    for path in glob.glob('examples/*.txt'):
        seen.update(read(path).splitlines())
    prose = re.sub(BLOCK, '', text, flags=re.M)
    for quoted in re.findall(r'`([^`]+)`', prose):
        if re.fullmatch(r'(OK|NO) .*|[A-Z]( \d+)+', ' '.join(quoted.split())):
            assert ' '.join(quoted.split()) in seen, 'no example has `%s`' % quoted
    print('the manual: %s' % ', '.join('%d blocks of %s' % (n, kind) for kind, n in sorted(count.items())))


if __name__ == '__main__':
    main()
