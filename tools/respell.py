#!/usr/bin/env python3
"""Respells this repository's own definitions and lemmas: once, after the toolchain's port.py, which respells the toolchain's names.

A definition, field or lemma of specs/ or proofs/ that was written in lower camel case (`roundedUp`, `onePercentOf250`) becomes snake case (`rounded_up`,
`one_percent_of_250`). Types, facts, modules and constructors keep their capitals, and a dash between the parts of a lemma's name stays. A name that a parameter
or a local variable bears already gets a word of its own (OTHER). The must-fail edits and the documents follow, and in the edits the spelling of the language
too (fields, clauses and operators), which port.py leaves to the repository.
"""

import collections
import glob
import os
import re
import sys

# Names whose snake case would fall together with another name of the tree.
OTHER = {}

# Lemmas whose name (as port.py leaves it) is the new name of a definition: path below crates/, old, new.
LEMMAS = [
    ("journal/proofs/Reading.antt", "read_as", "read_as-encode"),
    ("protocol/proofs/Run.antt", "read_as", "read_as-encode"),
]

# Variables and other names of a file's own.
LOCAL = ["callRequests", "inForce", "sizeA", "sizeB", "squaresOf"]

DECLARATION = re.compile(r"^\s*(?:abbrev |unfoldable |pub |record |data |axiom )*([^\s:(){}]+)\s*:(?:\s|$)")
WORD = re.compile(r"[A-Za-z_][A-Za-z0-9_']*")


def snake(name):
    name = re.sub(r"(?<=[a-z0-9'])(?=[A-Z])", "_", name)
    name = re.sub(r"(?<=[a-z])(?=[0-9])", "_", name)
    return name.lower()


def is_camel(part):
    return re.match(r"[a-z]", part) and re.search(r"[a-z0-9'][A-Z]", part)


def declared(tree):
    """Every name that a definition, field or lemma of the tree declares."""
    names = collections.Counter()
    for path in sorted(glob.glob(f"{tree}/crates/*/specs/**/*.antt", recursive=True) + glob.glob(f"{tree}/crates/*/proofs/**/*.antt", recursive=True)):
        for line in open(path, encoding="utf-8"):
            found = DECLARATION.match(line)
            if found:
                names[found.group(1)] += 1
    return names


def sources(tree):
    for kind in ("src/**/*.rt", "specs/**/*.antt", "proofs/**/*.antt", "must-fail/*.edit"):
        yield from sorted(glob.glob(f"{tree}/crates/*/{kind}", recursive=True))


def table(tree):
    out = {name: snake(name) for name in LOCAL}
    for name in declared(tree):
        for part in name.split("-"):
            if is_camel(part):
                out[part] = OTHER.get(part, snake(part))
    return out


def collisions(tree, names):
    """New names that already stand in the tree, and pairs of old names with one new name."""
    words = collections.defaultdict(set)
    for path in sources(tree):
        for word in WORD.findall(open(path, encoding="utf-8").read()):
            words[word].add(os.path.relpath(path, tree))
    for old, new in sorted(names.items()):
        if new in words:
            print(f"{old} -> {new}: stands in", *sorted(words[new])[:12])
    backwards = collections.defaultdict(list)
    for old, new in names.items():
        backwards[new].append(old)
    for new, olds in backwards.items():
        if len(olds) > 1:
            print("fall together:", new, olds)


def canonical(name):
    return name.replace("-", "").replace("_", "").lower()


def edits(tree):
    """In the edits of definitions: the fields, the list's element and the names that port.py has respelled in the definitions."""
    known = set(declared(tree))
    for path in sorted(glob.glob(f"{tree}/crates/*/must-fail/*.edit")):
        lines = open(path, encoding="utf-8").read().split("\n")
        definition = False
        for i, line in enumerate(lines):
            if line.startswith("file: "):
                definition = line.endswith(".antt")
            if not definition or not line.startswith(("old: ", "new: ")):
                continue
            line = re.sub(r"(?<=[\w'])((?: \.[a-z]\w*)+)", lambda m: m.group(1).replace(" ", ""), line)
            line = re.sub(r"\(([a-z]\w*(?:\.[a-z]\w*)+)\)", r"\1", line)
            line = re.sub(r"\bgetD\b", "get_or", line)
            lines[i] = WORD.sub(lambda m: snake(m.group(0)) if is_camel(m.group(0)) and snake(m.group(0)) in known else m.group(0), line)
        open(path, "w", encoding="utf-8").write("\n".join(lines))


def documents(tree):
    """Names of definitions and lemmas between backticks."""
    known = set(declared(tree))
    by = collections.defaultdict(set)
    for name in known:
        by[canonical(name)].add(name)

    def name(match):
        old = match.group(0)
        new = by.get(canonical(old), set())
        if old in known or len(new) != 1 or not (is_camel(old) or "-" in old):
            return old
        return next(iter(new))

    for path in sorted(glob.glob(f"{tree}/*.md") + glob.glob(f"{tree}/docs/**/*.md", recursive=True)):
        text = open(path, encoding="utf-8").read()
        new = re.sub(r"`[^`\n]*`", lambda m: re.sub(r"[A-Za-z][A-Za-z0-9_'-]*", name, m.group(0)), text)
        if new != text:
            open(path, "w", encoding="utf-8").write(new)


def main():
    tree = "."
    names = table(tree)
    if "--collisions" in sys.argv:
        collisions(tree, names)
        return
    for path, old, new in LEMMAS:
        path = f"{tree}/crates/{path}"
        text = open(path, encoding="utf-8").read()
        open(path, "w", encoding="utf-8").write(re.sub(rf"(?<![\w'-]){old}(?![\w'-])", new, text))
    for path in list(sources(tree)):
        text = open(path, encoding="utf-8").read()
        new = WORD.sub(lambda m: names.get(m.group(0), m.group(0)), text)
        if new != text:
            open(path, "w", encoding="utf-8").write(new)
    edits(tree)
    documents(tree)


if __name__ == "__main__":
    main()
