#!/usr/bin/env python3
"""Checks that what the documents cite exists: every back-quoted text outside a fenced block is found in the tree, or stands on the list below; every link leads to
a file, and to a heading of it; and the table of the crates in docs/ARCHITECTURE.md is complete. docs/PORT.md, docs/DESIGN-PASS.md and docs/LOOK-BACK.md are
left out, since they name what is gone.

Run from the repository's root. Forms of a citation:
  year/specs/Verdict: verdict     the name in crates/year/specs/Verdict.antt; Verdict: verdict, in a file of that name in any crate
  Demand1.refusedBy               a field of a record or of a struct
  progress::events::enter         an item of crates/progress/src/events.rt, or of lib.rt where no module is named
  decoder/code_kind_5             a must-fail edit; behind it in the same row, code_version_0 alone is an edit of that crate too
  tests/years.sh, progress/proofs a file or a folder, from the root, from crates/, in any crate, or from the document's folder
  entries/promise_..              anything that begins so
  python3 tools/runs.py           a script
  answer                          a crate, a name in definitions, laws, code or tools, an edit or a file; so is each word of three letters or more in a longer text
"""
import os
import re
import sys
from glob import glob

DOCUMENTS = ['README.md', 'CONTRIBUTING.md', 'examples/README.md', 'tests/cross/README.md'] + sorted(set(glob('docs/**/*.md', recursive=True)) - {'docs/PORT.md', 'docs/DESIGN-PASS.md', 'docs/LOOK-BACK.md'})

# What is cited and is nothing of the tree: the language, options and commands, the keys' letters, C, what is built.
ALLOWED = {'&&', '||', '-', '&mut', '&mut u8', 'let', 'let .. else', 'requires', 'crate::module::function', '--calls', '--names', '--case', 'S', 'E', 'T', 'A', 'P', 'X',
           'Z', 'L', 'OK', 'NO', 'N passed, 0 failed', 'memcpy', 'memset', 'libplt.a', 'target/figures', '../../crates/plt/out', 'PLT_LIB', 'NAME.replies.txt', '--write', '--save FILE',
           'must-fail/LABEL.edit', 'BAD EDIT', 'crates/*/specs/'}
COMMANDS = ('rt ', './calculator ')
# Key lines and replies. In the manual, tests/manual.py looks for them in its examples.
KEYED = re.compile(r'(OK|NO) .*|[A-Z]( \d+)+')
# Words of the language and of its library within a longer text.
WORDS = {'let', 'mut', 'else', 'get_or'}
NAME = r'[^\s()\[\]{}.,;:=→λ×]+'

# ------------------------------------------------------------------ the tree


def read(path):
    with open(path, encoding='utf-8') as f:
        return f.read()


class Source:
    """The names that a file of definitions, laws or code declares, and the fields of its records, structs and enums."""

    def __init__(self, path):
        self.path, self.names, self.fields = path, set(), {}
        holder, depth = None, 0
        for line in read(path).split('\n'):
            indent = len(line) - len(line.lstrip())
            if line.strip() and indent <= depth:
                holder = None
            found = antt_names(line, indent) if path.endswith('.antt') else code_names(line, holder is not None)
            self.names.update(found)
            opened = re.match(r'\s*(?:pub )?(?:record|data|struct|enum) (\w+)', line)
            if opened:
                holder, depth = self.fields.setdefault(opened.group(1), set()), indent
            elif holder is not None:
                holder.update(found)


def antt_names(line, indent):
    """What a line of antt declares: a record, a type, or names before a colon."""
    line = re.sub(r'^\s*((abbrev|unfoldable|pub) )*', '', line)
    opened = re.match(r'(?:record|data) (\w+)', line)
    listed = re.match(r'((?:%s )+):( |$)' % NAME, line) if indent <= 4 and not line.startswith(('let ', '--')) else None
    return [opened.group(1)] if opened else listed.group(1).split() if listed else []


def code_names(line, held):
    """What a line of code declares: an item, or within a struct or an enum its field or its variant."""
    item = re.match(r'\s*(?:pub )?(?:extern "C" )?(?:fn|struct|enum|const|mod|type) (\w+)', line)
    field = re.match(r'    (?:pub )?(\w+)(?:: .*,|\(.*\),| \{.*|,)$', line) if held else None
    return [m.group(1) for m in (item, field) if m]


class Tree:
    def __init__(self):
        self.crates = set(os.listdir('crates'))
        self.edits = {crate: {os.path.basename(p)[:-5] for p in glob('crates/%s/must-fail/*.edit' % crate)} for crate in self.crates}
        paths = [p for kind in ('specs/**/*.antt', 'proofs/*.antt', 'src/**/*.rt') for p in glob('crates/*/' + kind, recursive=True)]
        self.sources = {path: Source(path) for path in sorted(paths)}
        self.fields = {}
        for source in self.sources.values():
            for holder, fields in source.fields.items():
                self.fields.setdefault(holder, set()).update(fields)
        files = paths + glob('tests/cross/src/**/*.rs', recursive=True)
        tools = [name for path in glob('tools/*.py') for name in re.findall(r'^def (\w+)', read(path), re.M)]
        self.names = self.crates.union(tools, {os.path.basename(p).split('.')[0] for p in files}, *(s.names for s in self.sources.values()))

    def elsewhere(self, name):
        """Where a name that was looked for in vain could be meant, as the end of a message."""
        places = [s.path for s in self.sources.values() if name in s.names] + ['the must-fail edits of ' + c for c in sorted(self.crates) if name in self.edits[c]]
        return '; %s is in %s' % (name, ', '.join(places[:4])) if places else ''

# ------------------------------------------------------------- the citations


def unfenced(text):
    """The text with its fenced blocks empty."""
    return re.sub(r'^```.*?^```$', lambda block: '\n' * block.group().count('\n'), text, flags=re.M | re.S)


def headings(path):
    """The headings of a document, as links name them."""
    return {re.sub(r'[^\w\- ]', '', title.lower()).replace(' ', '-') for title in re.findall(r'^#+ (.*)$', unfenced(read(path)), re.M)}


class Checker:
    """The citations of one document, in order. Each method says what is wrong, or None."""

    def __init__(self, tree, document):
        self.tree, self.document, self.checked = tree, document, 0
        self.last = None        # the crate that was named last in the same row or paragraph

    def check(self, text):
        if text in ALLOWED or text.startswith(COMMANDS) or KEYED.fullmatch(text):
            return None
        self.checked += 1
        script = re.fullmatch(r'(?:python3|bash) (\S+).*', text)
        if script:
            return self.path(script.group(1))
        in_file = re.fullmatch(r'([\w/]+): (\S+)', text)
        if in_file:
            return self.in_file(*in_file.groups())
        if text.endswith('..'):
            return self.begins(text[:-2])
        if re.fullmatch(r'[A-Z]\w*\.\w+', text):
            return self.field(*text.split('.'))
        if re.fullmatch(r'[\w./-]*(/|\.\w{1,4})[\w./-]*', text):
            return self.path(text)
        if text in self.tree.crates:
            self.last = text
        if re.fullmatch(r"[\w'-]+", text):
            return self.word(text)
        return self.longer(text)

    def in_file(self, file, name):
        pattern = 'crates/%s.antt' % file if '/' in file else 'crates/*/*/%s.antt' % file
        found = [self.tree.sources[p] for p in sorted(glob(pattern)) if p in self.tree.sources]
        holder, _, field = name.partition('.')
        if not found:
            return 'there is no file %s%s' % (pattern, self.tree.elsewhere(holder))
        self.last = found[0].path.split('/')[1]
        if any(field in s.fields.get(holder, ()) if field else holder in s.names for s in found):
            return None
        return '%s has no %s%s' % (' or '.join(s.path for s in found), name, self.tree.elsewhere(field or holder))

    def begins(self, start):
        crate, _, name = start.rpartition('/')
        among = self.tree.edits.get(crate, set()) if crate else self.tree.names
        return None if any(n.startswith(name) for n in among) else 'nothing begins so'

    def field(self, holder, field):
        if holder not in self.tree.fields:
            return 'there is no crate, record or struct %s%s' % (holder, self.tree.elsewhere(field))
        if field in self.tree.fields[holder]:
            return None
        return '%s has no %s, but %s%s' % (holder, field, ', '.join(sorted(self.tree.fields[holder])), self.tree.elsewhere(field))

    def path(self, text):
        crate, _, name = text.partition('/')
        if crate in self.tree.crates:
            self.last = crate
            if name in self.tree.edits[crate]:
                return None
        places = [text, 'crates/' + text, 'crates/%s.antt' % text, 'crates/*/' + text, os.path.join(os.path.dirname(self.document), text)]
        if any(glob(p) for p in places):
            return None
        return 'there is no such file or must-fail edit' + self.tree.elsewhere(os.path.basename(text))

    def link(self, text):
        self.checked += 1
        path, _, heading = text.partition('#')
        target = os.path.join(os.path.dirname(self.document), path) if path else self.document
        if not os.path.exists(target):
            return 'there is no file %s' % target
        return None if not heading or heading in headings(target) else '%s has no such heading' % target

    def item(self, text):
        """crate::module::item, or Type::Variant."""
        crate, *modules, name = text.split('::')
        if crate not in self.tree.crates:
            return self.field(crate, name)
        self.last = crate
        folder = 'crates/%s/src/' % crate
        files = [folder + '/'.join(modules) + '.rt'] if modules else [folder + 'lib.rt', folder + 'main.rt']
        found = [self.tree.sources[p] for p in files if p in self.tree.sources]
        if any(name in s.names for s in found):
            return None
        return ('%s has no %s' % (found[0].path, name) if found else 'there is no file %s' % files[0]) + self.tree.elsewhere(name)

    def word(self, word):
        if word in self.tree.names or self.last and word in self.tree.edits[self.last]:
            return None
        # an edit by its bare name has its crate before it
        return 'no crate, name or file is called so, and no must-fail edit of %s%s' % (self.last or 'a crate named before it', self.tree.elsewhere(word))

    def longer(self, text):
        for part in re.findall(r"\w+(?:::\w+)+|[A-Za-z_][\w'-]*", re.sub(r'"[^"]*"', '', text)):
            wrong = self.item(part) if '::' in part else None if len(part) < 3 or part in WORDS else self.word(part)
            if wrong:
                return '%s: %s' % (part, wrong) if part != text else wrong
        return None


def table_misses(tree):
    """The table of the crates has each crate and nothing else."""
    rows = ''.join(re.findall(r'\n\| crate \|.*\n((?:\|.*\n)+)', read('docs/ARCHITECTURE.md')))
    listed = re.findall(r'`(\w+)`', ' '.join(row.split('|')[1] for row in rows.strip().split('\n')))
    groups = tuple(re.findall(r'`(\w+)\.\.`', rows))
    for name in sorted(set(listed) - tree.crates):
        yield 'docs/ARCHITECTURE.md: the table of the crates has `%s`, which is no crate' % name
    for name in sorted(tree.crates - set(listed)):
        if not name.startswith(groups):
            yield 'docs/ARCHITECTURE.md: the table of the crates does not have `%s`' % name


def misplaced(tree, document, text):
    """`name` in `crate/specs/File`, or in `crate/proofs`: the name is there."""
    for found in re.finditer(r'`([\w-]+)` in\s+`(\w+/(?:specs|proofs)(?:/\w+)?)`', text):
        name, place = found.groups()
        if not any(name in source.names for path, source in tree.sources.items() if path.startswith('crates/' + place)):
            line = text.count('\n', 0, found.start()) + 1
            yield '%s:%d: `%s`: it is not in crates/%s%s' % (document, line, name, place, tree.elsewhere(name))


def main():
    tree, checked = Tree(), 0
    messages = list(table_misses(tree))
    for document in DOCUMENTS:
        checker, text = Checker(tree, document), unfenced(read(document))
        messages += misplaced(tree, document, text)
        for found in re.finditer(r'`([^`]+)`|\]\(([^)]+)\)|\n(?=\n|\||- |\d+\. )', text):
            quoted, link = (' '.join((part or '').split()) for part in found.groups())
            wrong = checker.check(quoted) if quoted else checker.link(link) if link else None
            if wrong:
                messages.append('%s:%d: `%s`: %s' % (document, text.count('\n', 0, found.start()) + 1, quoted or link, wrong))
            if not quoted and not link:     # a paragraph, a row or an entry ends
                checker.last = None
        checked += checker.checked
    print('\n'.join(messages + ['%d citations checked, %d not found' % (checked, len(messages))]))
    sys.exit(1 if messages else 0)


if __name__ == '__main__':
    main()
