#!/usr/bin/env python3
"""Tests the calculator's input and output, which are outside the contracts: it answers each line as soon as its newline comes, whatever pieces the input comes
in, and ends quietly.

    python3 tests/terminal.py crates/calculator/out/calculator

Run from the repository's root. It prints a line for each test, and stops at the first that fails.
"""
import os
import random
import select
import subprocess
import sys
import threading
from contextlib import contextmanager

SECONDS = 20


def stored(run):
    with open('crates/%s/stdin' % run, 'rb') as stdin, open('crates/%s/stdout' % run, 'rb') as stdout:
        return stdin.read(), stdout.read()


def start(*words, **more):
    return subprocess.Popen(words, stderr=subprocess.PIPE, **more)


def ended(child):
    """Its exit status, once it has ended by itself; its standard error must be empty."""
    status = child.wait(SECONDS)
    assert child.stderr.read() == b''
    child.stderr.close()
    return status


@contextmanager
def limit(child):
    """Kills the child if it does not end by itself in time."""
    timer = threading.Timer(SECONDS, child.kill)
    timer.start()
    try:
        yield
    finally:
        timer.cancel()


def at_once(program):
    """A person keys a line, and sees the reply before keying the next."""
    given, wanted = stored('calculator')
    child = start(program, stdin=subprocess.PIPE, stdout=subprocess.PIPE)
    for line, reply in zip(given.splitlines(True), wanted.splitlines(True)):
        os.write(child.stdin.fileno(), line)
        got = b''
        while not got.endswith(b'\n'):
            assert select.select([child.stdout], [], [], SECONDS)[0], 'no reply to %r' % line
            part = os.read(child.stdout.fileno(), 4096)
            assert part, 'ended at %r' % line
            got += part
        assert got == reply, (line, got, reply)
    child.stdin.close()
    assert child.stdout.read() == b'' and ended(child) == 0
    child.stdout.close()


def in_pieces(program, run, sizes):
    """Each piece is read by itself: the pipe keeps pieces apart. (It drops what does not fit a read, so no piece is larger than the 4,096 bytes of a read.)"""
    assert max(sizes) <= 4096
    given, wanted = stored(run)
    rng = random.Random(run)
    reader, writer = os.pipe2(os.O_DIRECT)
    child = start(program, stdin=reader, stdout=subprocess.PIPE)
    os.close(reader)

    def feed():
        at = 0
        while at < len(given):
            at += os.write(writer, given[at:at + rng.choice(sizes)])
        os.close(writer)

    feeder = threading.Thread(target=feed)
    feeder.start()
    with limit(child):
        got = child.stdout.read()
    child.stdout.close()
    feeder.join()
    assert got == wanted and ended(child) == 0


def output_closed(program, ignored):
    """Nobody reads the output: the program ends by itself although the input goes on. Every program that the toolchain builds ignores the signal of a closed pipe
    from its start, so it makes no difference whether the signal was ignored before."""
    reader, writer = os.pipe()
    child = start(program, stdin=subprocess.PIPE, stdout=writer, restore_signals=not ignored)
    os.close(reader)
    os.close(writer)
    os.write(child.stdin.fileno(), b'L\nL\n')
    assert ended(child) == 0
    child.stdin.close()


def peak(child):
    """The most memory that the process has used, in bytes."""
    with open('/proc/%d/status' % child.pid) as f:
        return next(1024 * int(line.split()[1]) for line in f if line.startswith('VmHWM'))


def long_line(program, size):
    """A line far longer than the memory in use while it is dropped; the next line is answered."""
    child = start(program, stdin=subprocess.PIPE, stdout=subprocess.PIPE)
    with limit(child):
        child.stdin.write(b'L\n' + b'7' * size + b'\nL\n')
        child.stdin.flush()
        got = b''.join(child.stdout.readline() for _ in range(3))
        used = peak(child)
        child.stdin.close()
        got += child.stdout.read()
    child.stdout.close()
    assert got == b'NO 7\nNO 1\nNO 7\n' and ended(child) == 0 and used < size // 2, (got, used)


def no_input(program):
    """Standard input that is empty, closed or cannot be read: no reply, and it ends quietly."""
    for stdin in ('</dev/null', '<&-', '</'):
        child = start('/bin/sh', '-c', 'exec "$0" ' + stdin, program, stdout=subprocess.PIPE)
        assert child.communicate(timeout=SECONDS) == (b'', b'') and child.returncode == 0


def main():
    program = os.path.abspath(sys.argv[1])
    tried = [
        ('each line answered before the next comes', lambda: at_once(program)),
        ('one byte at a time', lambda: in_pieces(program, 'run_lines', (1,))),
        ('pieces of every size', lambda: in_pieces(program, 'run_lines', (1, 2, 3, 5, 63, 64, 65, 66, 130, 1000, 4095, 4096))),
        ('output closed', lambda: output_closed(program, False)),
        ('output closed, the signal ignored', lambda: output_closed(program, True)),
        ('a line of 16 million bytes', lambda: long_line(program, 16000000)),
        ('no input', lambda: no_input(program)),
    ]
    for title, attempt in tried:
        attempt()
        print('terminal: %s: ok' % title, flush=True)


if __name__ == '__main__':
    main()
