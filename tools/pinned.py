#!/usr/bin/env python3
"""Finds numbers, orders and comparisons in the definitions that no statement pins down.

    python3 tools/pinned.py CRATE FILE..      e.g. year Verdict Periods

changes specs/FILE.antt of a crate of definitions, one place at a time: each number by one; each comparison, connective, pollutant, constructor and letter to its
neighbour. A definition is what a reader has to believe, so each change should break a worked case (proofs/*Cases*, Run) or at least a law. It lists each change
whose first error is in no case, with the file of that error (files are checked in the order of their names, and cases are named to come before laws); the last
line has the counts. It works on a copy of the repository, checks the crate once for each change, and is not part of the gate. The list has to be judged,
since some changes have no effect (a default that is never read, the end of a range between two multiples of ten).
It does not try changes of another shape: a condition left out, or one engine, reading or pollutant used in place of another.
"""
import os
import re
import shutil
import subprocess
import sys
import tempfile

ROOT = os.path.dirname(os.path.dirname(os.path.abspath(__file__)))
NEIGHBOURS = [("leb", "ltb"), ("leb", "eqb"), ("ltb", "eqb"), ("&&", "||"), (".hcnox", ".co"), ("Hcnox", "Co"), ("true", "false"), (".low", ".high"), (".volume", ".days"), (".kind", ".value"),
              (".floor", ".inexact"), (".cumsum", ".limit"), (".first", ".second"), (".second", ".third"), ("NextPeriod", "Declaration"), ("Declaration", "Deletion"),
              ("BeginPeriod", "Declare"), ("Declare", "Delete"), ("Over", "Under"), ("Under", "Undecided"), ("Over", "Undecided"), ("Unmarked", "Under"),
              (" + ", " - "), (" * ", " + "), (" / ", " % ")]


def right_side(line):
    """Where the right side of a definition's line starts, or None if the line has none: imports, comments, signatures, declarations."""
    code = line.strip()
    if not code or code.startswith(("--", "use ", "module ", "pub record ", "pub data ", "abbrev ", "unfoldable ")) or re.match(r"(pub )?\w+ : ", code):
        return None
    head = re.match(r"[a-zA-Z][^{}]*? = ", line)
    return head.end() if head and not line.startswith(" ") else 0


def changes(line, start):
    """The changed lines, each with what was changed."""
    for m in re.finditer(r'(?<![\w.·"-])\d+(?![\w"])', line):
        if m.start() >= start:
            for v in {int(m.group()) + 1, max(0, int(m.group()) - 1)} - {int(m.group())}:
                yield f"{m.group()} to {v}", line[: m.start()] + str(v) + line[m.end():]
    for a, b in NEIGHBOURS:
        for old, new in ((a, b), (b, a)):
            word = r"(?!\w)" if old[-1].isalnum() else ""
            before = r"(?<![\w.])" if old[0].isalnum() else ""
            for m in re.finditer(before + re.escape(old) + word, line):
                if m.start() >= start:
                    yield f"{old.strip()} to {new.strip()}", line[: m.start()] + new + line[m.end():]
    # a test of one kind of call that is false for another kind
    kind = re.match(r"\w+ test \(?\w.* = (false)$", line)
    if kind:
        yield "false to the test", line[: kind.start(1)] + "test"
    for m in re.finditer(r"\bnot \(", line):
        if m.start() >= start:
            yield "not dropped", line[: m.start()] + "(" + line[m.end():]
    for m in re.finditer(r'\b(?:byte|text) "([^"\\]*)([^"\\])"', line):
        yield f'"{m.group(1)}{m.group(2)}" changed', line[: m.start(2)] + chr(ord(m.group(2)) ^ 1) + line[m.end(2):]


def write_edits(copy, crate, files):
    """Writes one edit for each change; returns a description of each, by its label."""
    folder = os.path.join(copy, "crates", crate, "must-fail")
    os.makedirs(folder)
    told = {}
    for name in files:
        text = open(os.path.join(copy, "crates", crate, "specs", name + ".antt")).read()
        for number, line in enumerate(text.split("\n"), 1):
            start = right_side(line)
            if start is None or text.count(line) != 1:
                continue
            for what, new in changes(line, start):
                label = f"c{len(told):04}"
                told[label] = f"{name}:{number}: {what}: {line.strip()[:90]}"
                with open(os.path.join(folder, label + ".edit"), "w") as f:
                    f.write(f"file: specs/{name}.antt\nold: {line}\nnew: {new}\n")
    return told


def main():
    crate, files = sys.argv[1], sys.argv[2:]
    copy = tempfile.mkdtemp()
    try:
        shutil.copytree(ROOT, copy, dirs_exist_ok=True, ignore=shutil.ignore_patterns("must-fail", ".git", "cross", "target", "out"))
        told = write_edits(copy, crate, files)
        said = subprocess.run(["rt", "must-fail", crate], cwd=copy, stdout=subprocess.PIPE, stderr=subprocess.STDOUT, text=True).stdout
        loose = 0
        for label, what in told.items():
            line = re.search(rf"must-fail {crate}/{label}\.edit: (.*)", said)
            if line is None or "BAD EDIT" in line.group(1):
                continue  # a type error or a missing name: not a definition any more
            fell = re.search(r"(proofs/\S+?)\.antt:", line.group(1))
            if fell is None or not re.search(r"Cases|/Run$", fell.group(1)):
                loose += 1
                print(f"{what}  [{fell.group(1) if fell else 'nothing broke'}]")
        print(f"{len(told)} changes, {loose} that no worked case notices")
    finally:
        shutil.rmtree(copy)


if __name__ == "__main__":
    main()
