#!/usr/bin/env python3
"""Checks the documents against the tree, prints what is missing, and exits with 1 if anything is.
In README.md, docs/*.md, docs/changes/*.md, the C header and the comments of the crates: every path exists (below a crate's out/, which rt makes,
the crate), and every rule that is cited
(E3-5, T-2 and so on) stands in docs/RULES.md. In docs/CLAIMS.md besides: every must-fail edit that is named exists, every edit in the
tree is named, every public function of both faces has its row, and every name of a definition, law, function or type stands in crates/
(in the file that its cell names last, where it names one). Run from anywhere."""
import glob
import os
import re
import sys

os.chdir(os.path.dirname(os.path.dirname(os.path.abspath(__file__))))
WORD = re.compile(r"[^\s(){};,.@\"«»|`:]+")
PATH = re.compile(r"(?<![\w/.])((?:crates|tools|tests|docs|include|samples)/[\w./*{},-]*\w)")
RULE = re.compile(r"\b((?:E21|E2|E3|H|R|G|I|A|T|D|V|L)-\d+)\b")
MADE = re.compile(r'(crates/\w+)/out(?:/.*)?')
NOT_NAMES = re.compile(r"[%+\d]|.*[ /].*|x|X|end|format|evt\d?|geometry|\.\.|\|")
faults = []


def read(path):
    with open(path, encoding='utf-8') as f:
        return f.read()


def sources():
    """The files of the crates' src/, specs/ and proofs/."""
    for folder in ('src', 'specs', 'proofs'):
        yield from (f for f in glob.glob(f'crates/*/{folder}/**/*', recursive=True) if f.endswith(('.rt', '.antt')))


def passed_on(path):
    """The functions that a file passes on: `pub use a::b::f;` and `pub use a::{b::f, g};`."""
    for group, single in re.findall(r'^pub use [\w:]+::(?:\{([^}]*)\}|(\w+));', read(path), re.M):
        for item in (group or single).split(','):
            name = item.strip().split('::')[-1]
            if re.match('[a-z]', name):
                yield name


def words(path):
    text = read(path)
    return set(WORD.findall(text)) | set(re.findall(r'\w+', text))


def check_paths(path, text):
    for number, line in enumerate(text.split('\n'), 1):
        for found in PATH.findall(line):
            made = MADE.fullmatch(found)
            if not glob.glob(made[1] if made else found) and not found.endswith('.out'):
                faults.append(f'{path}:{number}: no {found}')


def check_rules(path, text, rules):
    for number, line in enumerate(text.split('\n'), 1):
        for label in RULE.findall(line):
            if label not in rules:
                faults.append(f'{path}:{number}: docs/RULES.md has no {label}')


class Claims:
    """The names of docs/CLAIMS.md, line by line: `crate` and `file` are those that a cell named last."""

    def __init__(self):
        self.crates = sorted(os.listdir('crates'))
        self.edits = {(e.split('/')[1], os.path.basename(e)[:-5]) for e in glob.glob('crates/*/must-fail/*.edit')}
        self.patches = {os.path.basename(p)[:-6] for p in glob.glob('tools/edits_below/*.patch')}
        self.files = {f: words(f) for f in sources()}
        self.every = set().union(*self.files.values())
        self.named = set()

    def check_name(self, number, line, token, said, file):
        parts = [p for p in re.split(r'::|\.', said.split('(')[0].strip()) if p and p != 'antt']
        if parts and parts[-1] in ('antt', 'rt', 'edit', 'h'):
            return
        last = parts[-1].split(' ')[-1] if parts else ''
        listed = file and file.endswith('.antt') and re.search(re.escape(file) + r'`: (?:`[^`]+`(?:, | and )?)*$', line[:token.start()])
        if last and last not in self.every:
            faults.append(f'docs/CLAIMS.md:{number}: nothing in crates/ is called {said}')
        elif last and listed and last not in self.files.get(file, ()):
            faults.append(f'docs/CLAIMS.md:{number}: {file} has no {said}')

    def check_line(self, number, line):
        crate, file = None, None
        for token in re.finditer(r'`([^`]+)`|(?<![\w`/])([a-z][a-z0-9_]*)(?= `)', line):
            said, bare = token[1], token[2]
            if bare:
                crate = bare if bare in self.crates else None
            elif PATH.match(said):
                path = said.split(' ')[0].rstrip('.')
                file, crate = (path if os.path.isfile(path) else None), None
            elif crate and (crate, said) in self.edits:
                self.named.add((crate, said))
            elif said not in self.patches and said not in self.crates and not NOT_NAMES.fullmatch(said):
                self.check_name(number, line, token, said, file)

    def check(self):
        text = read('docs/CLAIMS.md')
        for number, line in enumerate(text.split('\n'), 1):
            self.check_line(number, line)
        for crate, label in sorted(self.edits - self.named):
            faults.append(f'docs/CLAIMS.md: edit {label} of {crate} is not named')
        exported = re.findall(r'^(?!typedef|static|\s)[\w \*]*?\b(prophesee_\w+)\(', read('include/prophesee_raw.h'), re.M)
        for name in exported + list(passed_on('crates/prophesee_raw/src/lib.rt')):
            if not re.search(r'^\|[^|]*`' + name + r'`', text, re.M):
                faults.append(f'docs/CLAIMS.md: the public function {name} has no row')


rules = set(re.findall(r'\*\*([A-Z]\d*-\d+)\*\*', read('docs/RULES.md')))
texts = ['README.md', 'include/prophesee_raw.h'] + sorted(glob.glob('docs/*.md') + glob.glob('docs/changes/*.md'))
for path in texts:
    check_paths(path, read(path))
    check_rules(path, read(path), rules)
for path in sorted(glob.glob('crates/*/src/**/*.rt', recursive=True) + glob.glob('crates/*/specs/**/*.antt', recursive=True)):
    comments = '\n'.join(line if line.lstrip().startswith(('//', '--')) else '' for line in read(path).split('\n'))
    check_paths(path, comments)
    check_rules(path, comments, rules)
claims = Claims()
claims.check()
print('\n'.join(faults) if faults else f'documents: every path, rule and name is there, and all {len(claims.edits)} edits are named')
sys.exit(1 if faults else 0)
