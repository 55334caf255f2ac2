#!/usr/bin/env python3
"""Checks that crates.txt names, for each crate, what it uses and nothing else.

Run from the repository's root. A crate uses the crates that its code, definitions and proofs name: in code at the front of a path, as in year::Setup; in all three
as Rattle.year.specs. It also uses the crates of types that it meets without naming them, since a proof has to know how they are
defined: the types in the signature of a function that it names, those of a type's fields and of the signatures of its methods, and what an alias stands for.
With --write, wrong lists are rewritten, in the order of the crates in crates.txt.
"""
import re
import sys
from glob import glob

# Crates of the kit that may be listed.
KIT = ['anyhow', 'arrayvec', 'check', 'bytes', 'io', 'itoa']


def read(path):
    with open(path, encoding='utf-8') as f:
        return re.sub(r'(//|--).*', '', f.read())


class Module:
    """A file of code: what it imports, and the types that each of its items mentions."""

    def __init__(self, crate, path):
        text = read(path)
        # `use year::{Pair, Setup};` is `use year::Pair; use year::Setup;`
        text = re.sub(r'^((?:pub )?use [\w:]+::)\{([^{}]*)\};', lambda m: ' '.join(m[1] + name.strip() + ';' for name in m[2].split(',') if name.strip()), text, flags=re.M)
        paths = re.findall(r'(?<![\w:])(\w+(?:::\w+)+)', text)
        # a module of std that is brought in, as `io`, is not the crate of that name
        brought_in = {p.removesuffix('::self').split('::')[-1] for p in paths if p.startswith('std::')}
        paths = [p for p in paths if p.split('::')[0] not in brought_in]
        # name → (crate, name), for every path in the file
        self.imports = {p.split('::')[-1]: (crate if p.startswith('crate::') else p.split('::')[0], p.split('::')[-1]) for p in paths}
        self.items = {}
        declared = re.findall(r'(?:struct|enum) (\w+)(.*?\n\}|\(.*?\);)', text, re.S) + re.findall(r'\btype (\w+) = (.*?;)', text, re.S)
        signatures = re.findall(r'fn (\w+)(\(.*?\)[^{]*?)(?=\s+requires|\s+ensures|\s*\{)', text, re.S)
        # a type's methods: `impl Type {`, `impl<T> Type<T> {`, `impl Trait for Type {`
        for head, block in re.findall(r'^impl\b([^{]*)\{(.*?)^\}', text, re.S | re.M):
            name = re.findall(r'\w+', re.sub(r'<[^<>]*>', '', head.split(' for ')[-1]))[0]
            signatures += [(name, signature) for signature in re.findall(r'fn \w+(\(.*?\)[^{]*?)(?=\s+requires|\s+ensures|\s*\{)', block, re.S)]
        for name, body in declared + signatures:
            types = set(re.findall(r'\b[A-Z]\w*', body)) - {name}
            self.items.setdefault(name, set()).update(self.imports.get(t, (crate, t)) for t in types)


class Tree:
    def __init__(self, crates):
        self.known = set(crates) | set(KIT)
        self.modules = {crate: [Module(crate, p) for p in glob('crates/%s/src/**/*.rt' % crate, recursive=True)] for crate in crates}

    def used(self, crate):
        """The crates that this one uses."""
        found = set()
        for path in [path for kind in ('src/**/*.rt', 'specs/**/*.antt', 'proofs/**/*.antt') for path in glob('crates/%s/%s' % (crate, kind), recursive=True)]:
            found.update(re.findall(r'Rattle\.(\w+)\.', read(path)))
        waiting = [item for module in self.modules[crate] for item in module.imports.values()]
        seen = set()
        while waiting:
            owner, name = item = waiting.pop()
            if item not in seen:
                seen.add(item)
                found.add(owner)
                waiting += [part for module in self.modules.get(owner, []) for part in module.items.get(name, ())]
        return (found & self.known) - {crate}

    def unknown(self, crate):
        """What this crate's `use` lines name that is not a crate."""
        texts = [read(p) for p in glob('crates/%s/src/**/*.rt' % crate, recursive=True)]
        return {name for text in texts for name in re.findall(r'^use (\w+)::', text, re.M)} - self.known - {'crate', 'std'}


def main():
    with open('crates.txt', encoding='utf-8') as f:
        lines = f.read().split('\n')
    # a static library has that word after its name
    listed = {line.split(':')[0].split()[0]: (at, line.split(':')[1].split()) for at, line in enumerate(lines) if ':' in line and not line.startswith('#')}
    order = list(listed) + KIT
    tree, wrong = Tree(listed), 0
    for crate, (at, names) in listed.items():
        unknown = sorted(tree.unknown(crate))
        if unknown:
            print('crates.txt:%d: %s uses %s, which is no crate; its list is left as it is' % (at + 1, crate, ' and '.join(unknown)))
            wrong += 1
            continue
        used = sorted(tree.used(crate), key=order.index)
        wrong += names != used
        for name in used:
            if name not in names:
                print('crates.txt:%d: %s uses %s, which is not listed' % (at + 1, crate, name))
        for name in names:
            if name not in used:
                print('crates.txt:%d: %s lists %s, which it does not use' % (at + 1, crate, name))
        if sorted(names) == sorted(used) and names != used:
            print('crates.txt:%d: the list of %s is not in the order of the crates' % (at + 1, crate))
        lines[at] = ' '.join([lines[at].split(':')[0] + ':'] + used)
    if '--write' in sys.argv[1:]:
        with open('crates.txt', 'w', encoding='utf-8') as f:
            f.write('\n'.join(lines))
    print('%d crates checked, %d with a wrong list%s' % (len(listed), wrong, ' (python3 tools/dependencies.py --write writes them)' if wrong else ''))
    sys.exit(1 if wrong else 0)


if __name__ == '__main__':
    main()
