#!/usr/bin/env python3
"""The script ./calculator around the built program, tried in a copy with a stand-in for rt: help, arguments, a missing rt, progress, log, exit status, signals,
rebuilding.

Run from the repository's root. It prints one line, and fails at the first thing that does not hold.
"""
import os
import pty
import re
import shutil
import signal
import subprocess
import tempfile
import time

COMMANDS = 'awk basename bash cat chmod cut dirname env find flock grep mkdir mktemp nproc readlink rm sh sleep tail touch'.split()
CRATES = 'low:\nhigh: low io\ncalculator: high\nother: low\n'
# Proves three crates, slowly and with a child of its own if there is a file `slow`, and builds a program that repeats its input; or fails with the status in the
# file `fail`. It leaves a temporary file behind.
STAND_IN = '''#!/bin/sh
[ "$*" = run ] && [ "$(basename "$PWD")" = calculator ] || exit 99
mkdir -p out
: >out/kept
cd ../..
echo build >>builds
for crate in low high; do echo "logic=proved functions=1"; done
echo "$TMPDIR" >folder
: >"$TMPDIR/left"
[ ! -f slow ] || { sleep 20 & echo $! >child; sleep 1.2; kill $!; }
echo "something on standard error" >&2
[ ! -f fail ] || exit "$(cat fail)"
printf '#!/bin/sh\\nexec cat\\n' >crates/calculator/out/calculator
chmod +x crates/calculator/out/calculator
echo "logic=proved functions=1"
'''


def write(path, text, mode=0o644):
    os.makedirs(os.path.dirname(path), exist_ok=True)
    with open(path, 'w') as f:
        f.write(text)
    os.chmod(path, mode)


def run(path, program, *words, cwd='/', keyed='L\n'):
    """Exit status, standard output and standard error."""
    done = subprocess.run([program, *words], input=keyed, cwd=cwd, env={'PATH': path}, capture_output=True, text=True, timeout=60)
    return done.returncode, done.stdout, done.stderr


def on_terminal(path, program):
    """What it writes to standard error where that is a terminal."""
    outer, inner = pty.openpty()
    done = subprocess.run([program], input='L\n', cwd='/', env={'PATH': path}, stdout=subprocess.PIPE, stderr=inner, text=True, timeout=60)
    assert (done.returncode, done.stdout) == (0, 'L\n'), done
    os.close(inner)
    shown = os.read(outer, 65536).decode()
    os.close(outer)
    return shown


def runs(number):
    """Whether a process goes on. (One that has ended may still be listed, as a zombie.)"""
    try:
        with open('/proc/%d/stat' % number) as f:
            return f.read().rpartition(')')[2].split()[0] != 'Z'
    except FileNotFoundError:
        return False


def interrupted(path, program, home, how):
    """Exit status after a signal in mid-build. Nothing that the build started goes on, and its temporary files are gone."""
    child = subprocess.Popen([program], cwd='/', env={'PATH': path}, stdin=subprocess.DEVNULL, stdout=subprocess.PIPE, stderr=subprocess.PIPE, text=True)
    while not os.path.exists(home + '/child'):
        time.sleep(0.05)
    child.send_signal(how)
    out, err = child.communicate(timeout=20)
    with open(home + '/child') as f, open(home + '/folder') as g:
        number, folder = int(f.read()), g.read().strip()
    assert not out and 'interrupted' in err and not os.path.exists(folder), (out, err, folder)
    tries = 0
    while runs(number):
        tries += 1
        assert tries < 100, 'a process of the build goes on'
        time.sleep(0.05)
    return child.returncode


def builds(home):
    with open(home + '/builds') as f:
        return len(f.readlines())


def prepare(folder):
    """A copy of the script beside its crates, the commands that it uses, and the stand-in."""
    home = folder + '/a home'
    write(home + '/crates.txt', CRATES)
    write(home + '/crates/low/src/lib.rt', '')
    write(home + '/crates/calculator/src/main.rt', '')
    for file in ('calculator', 'tools/checker_settings.sh'):
        os.makedirs(os.path.dirname(home + '/' + file), exist_ok=True)
        shutil.copy(file, home + '/' + file)
    os.mkdir(folder + '/commands')
    for command in filter(shutil.which, COMMANDS):
        os.symlink(shutil.which(command), folder + '/commands/' + command)
    write(folder + '/rt/rt', STAND_IN, 0o755)
    os.symlink('a home/calculator', folder + '/first')
    os.symlink('first', folder + '/link')
    return home, folder + '/commands', folder + '/rt:' + folder + '/commands'


def arguments(without_rt, program, log):
    status, out, err = run(without_rt, program, '--help')
    assert status == 0 and 'Usage' in out and not err
    with open('docs/MANUAL.md', encoding='utf-8') as f:
        assert re.findall('^  ([A-Z]) ', out, re.M) == re.findall('^### ([A-Z]), ', f.read(), re.M), 'the help and the manual list different keys'
    for words in (['year.txt'], [''], ['--help', 'me']):
        status, out, err = run(without_rt, program, *words)
        assert status == 2 and not out and "'%s'" % words[0] in err and '< FILE' in err and '--help' in err
    status, out, err = run(without_rt, program)
    assert status == 127 and not out and "'rt' is not found" in err and not os.path.exists(log)


def failures(with_rt, program, home, log):
    """The status of a failed build is kept. A program that it left behind is not used, though it is newer than all sources."""
    write(home + '/fail', '3')
    for _ in range(2):
        status, out, err = run(with_rt, program)
        assert status == 3 and not out and 'status 3' in err and log in err and 'something on standard error' in err
        write(home + '/crates/calculator/out/calculator', '#!/bin/sh\necho wrong\n', 0o755)
    os.remove(home + '/fail')


def main():
    os.makedirs('target', exist_ok=True)
    with tempfile.TemporaryDirectory(dir='target') as folder:
        folder = os.path.abspath(folder)
        home, without_rt, with_rt = prepare(folder)
        program, link, log = home + '/calculator', folder + '/link', home + '/target/calculator.log'
        arguments(without_rt, program, log)
        failures(with_rt, program, home, log)
        # Through two symbolic links, from another folder: 3 crates, and nothing of the build on standard output.
        status, out, err = run(with_rt, link, cwd=folder)
        assert (status, out) == (0, 'L\n'), (status, out, err)
        assert len(err.splitlines()) == 2 and 'proved' not in err and re.search('crate [0-3] of 3, [0-9]+ s\n', err), err
        with open(log) as f:
            assert f.read().count('logic=proved') == 3 and builds(home) == 3
        # Built: neither rt nor a word on standard error. Then a source changes.
        assert run(without_rt, link) == (0, 'L\n', '') and builds(home) == 3
        write(home + '/crates/low/src/lib.rt', 'changed')
        write(home + '/slow', '')
        assert interrupted(with_rt, program, home, signal.SIGTERM) == 143
        os.remove(home + '/child')
        assert interrupted(with_rt, program, home, signal.SIGINT) == 130
        shown = on_terminal(with_rt, program)
        assert builds(home) == 6 and re.search('\rcalculator: proving and building: crate 2 of 3, [0-9]+ s', shown), shown
        assert shown.count('\n') == 2 and 'built in' in shown, shown
        assert run(without_rt, program) == (0, 'L\n', '')
    print('./calculator: help, arguments, links, a missing rt, progress, log, exit status, signals and rebuilding: ok')


if __name__ == '__main__':
    main()
