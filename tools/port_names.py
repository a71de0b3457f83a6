#!/usr/bin/env python3
"""tools/port_names.py: run once at the top, after the kit's port.py: brings the names of the repository's own definitions and lemmas to the kit's spelling.

- a word is in snake case: beFrom is be_from, largeIs12 is large_is_12;
- a dash stands only between two names, as in also-got, where `also` and `got` are both defined; else it is `_`, as in fits_there;
- a lemma that would have the name of a definition that stands beside it gets `_lem`.

Functions of src/, file names, strings, inputs and outputs keep their names, and so does what comes from the kit.
With --say it only prints each name with its new spelling, and the names that fall together.
"""
import collections
import glob
import re
import sys

SPECS = sorted(glob.glob('crates/*/specs/**/*.antt', recursive=True))
PROOFS = sorted(glob.glob('crates/*/proofs/**/*.antt', recursive=True))
SOURCES = sorted(glob.glob('crates/*/src/**/*.rt', recursive=True))
EDITS = sorted(glob.glob('crates/*/must-fail/*.edit'))
PAGES = ['README.md'] + sorted(glob.glob('docs/*.md'))
OWN = {line.split(':')[0].split()[0] for line in open('crates.txt') if line.strip() and not line.startswith('#')}

DEFINED = re.compile(r'^\s*(?:(?:abbrev|unfoldable|pub|mutual|data|record)\s+)*([^\s:(){}.,;|]+)((?: [({][^)}]*[)}])*) :(?!:)')
IMPORT = re.compile(r'^(?:ghost )?use ([^{}\s]+?)(?:\.\{(.*)\})?;?$')
TOKEN = re.compile(r"[^\s(){}.,;:«»\"|]+")

# lemmas that would have the name of a definition, or of a claim's proof. In proofs/ alone
LEMMAS = ['be-from', 'header_of', 'in-numbers', 'ints-agree', 'is-data', 'lists_agree', 'size-now', 'strings-agree', 'value-of']


def snake(word):
    word = re.sub(r'(?<=[a-z0-9])(?=[A-Z])|(?<=[A-Z])(?=[A-Z][a-z])', '_', word).lower()
    return re.sub(r'_(is|are)(?=\d)', r'_\1_', word)


def is_camel(name):
    return re.match(r'[a-z][a-z0-9_]*[A-Z]', name) is not None


def read(path):
    with open(path, encoding='utf-8') as f:
        return f.read()


def own_proof(path):
    return re.search(r'/proofs/(.*/)?[^/]+/Proof\.antt$', path) is not None


def imported():
    kit, aliases = set(), set()
    for path in SPECS + PROOFS + SOURCES:
        for line in read(path).split('\n'):
            m = IMPORT.match(line)
            if not m:
                continue
            parts = m.group(1).split('.')
            mine = parts[0] == 'Rattle' and len(parts) > 1 and parts[1] in OWN
            for item in (m.group(2) or '').split(','):
                names = item.strip().split(' as ')
                if mine and '.proofs.' not in m.group(1) and '.specs.' not in m.group(1):
                    continue
                if not mine:
                    kit.update(n for n in names if n)
    return kit


def defined(paths):
    found = collections.defaultdict(set)
    for path in paths:
        for line in read(path).split('\n'):
            if line.lstrip().startswith('--'):
                continue
            m = DEFINED.match(line)
            if m and re.match(r"[A-Za-z◌μ]", m.group(1)):
                found[m.group(1)].add(path)
    return found


def mapping():
    kit = imported()
    specs = defined(SPECS)
    proofs = defined([p for p in PROOFS if not own_proof(p)])
    local = defined([p for p in PROOFS if own_proof(p)])
    names = set(specs) | set(proofs)
    known = {n for n in specs if '-' not in n} | {n for n in kit if re.match(r'[A-Za-z]+$', n)}
    known |= {'true', 'false', 'cond', 'refl'}
    to = {}
    for name in sorted(names | {n for n in local if is_camel(n)}):
        if name in kit and name not in specs:
            continue
        parts = name.split('-')
        new = snake(parts[0]) if is_camel(parts[0]) else parts[0]
        for left, right in zip(parts, parts[1:]):
            new += '-' if left in known and right in known else '_'
            new += snake(right) if is_camel(right) else right
        if new != name:
            to[name] = new
    for name in LEMMAS:
        to.pop(name, None)
    # what is bound in a line and named as a definition elsewhere
    for path in SPECS + PROOFS + SOURCES:
        for token in TOKEN.findall(strip(read(path), path)):
            if is_camel(token) and '-' not in token and token not in kit and token not in to and '_' not in token:
                to[token] = snake(token)
    return to, names, kit


def strip(text, path):
    return re.sub(r'"[^"\n]*"', '""', text) if path.endswith('.rt') else text


def lem(name):
    return name.replace('-', '_') + '_lem'


def main():
    to, names, kit = mapping()
    if '--say' in sys.argv:
        back = collections.defaultdict(list)
        for name in names | kit:
            back[to.get(name, name) if name not in LEMMAS else lem(name)].append(name)
        words = set()
        for path in SPECS + PROOFS + SOURCES:
            words.update(TOKEN.findall(strip(read(path), path)))
        for old, new in sorted(to.items()):
            if new in words:
                print('TAKEN', old, new)
        for old, new in sorted(to.items()):
            print(old, new)
        for new, olds in sorted(back.items()):
            if len(olds) > 1:
                print('TOGETHER', new, olds)
        return
    for path in SPECS + PROOFS + SOURCES + EDITS:
        old = read(path)
        pieces = re.split(r'("[^"\n]*")', old) if path.endswith('.rt') else [old]
        here = {**to, **{name: lem(name) for name in LEMMAS}} if path in PROOFS else to
        for i in range(0, len(pieces), 2):
            pieces[i] = TOKEN.sub(lambda m: here.get(m.group(0), m.group(0)), pieces[i])
        new = ''.join(pieces)
        if new != old:
            with open(path, 'w', encoding='utf-8') as f:
                f.write(new)
    for path in PAGES:
        old = read(path)
        new = re.sub(r'`([^`\n]+)`', lambda m: '`' + TOKEN.sub(lambda t: to.get(t.group(0), t.group(0)) if t.group(0) in names else t.group(0), m.group(1)) + '`', old)
        if new != old:
            with open(path, 'w', encoding='utf-8') as f:
                f.write(new)


main()
