#!/usr/bin/env python3
"""Respells the repository's own definitions and lemmas: words in snake case, types in camel case.

    python3 tools/snake_names.py

Run once at the top of the repository, right after /opt/rattle/port/port.py and before any edit by hand. Every name with a dash that a file
of specs/ or proofs/ declares (a definition, a lemma, a field, a local name, an alias of an import) is turned, wherever it stands in a .rt,
an .antt or an .edit file. Names that Rattle makes, and names of its library, keep their dashes. It stops, and writes nothing, where a new
name is already the name of something else that a file of specs/ or proofs/ declares or imports.
"""
import glob
import re
import sys

# the goals and invariants that Rattle names after the code
MADE = re.compile(r'(invariant-|decreases-|loop-|overflow-|returns-|then-|else-|in-Some|in-None|ghost-)|.*-requires(-\d+)?$')
NAME = r"[A-Za-z][A-Za-z0-9_']*(?:-[A-Za-z0-9_']+)+"
EDGE = r"A-Za-z0-9_'\-«»"

# names whose new spelling does not follow from the old one
CHOSEN = {'E-over': 'energy_over', 'C-over': 'cost_over', 'sumN': 'sum_nat', 'sumZ': 'sum_int'}
# names that are words of plain English too, and stay as they are in a comment
PROSE = {'kilowatt-hours'}
COMMENT = re.compile(r'\s*(--|//)')

TOP = re.compile(r'^(?:(?:abbrev|unfoldable|pub|record|data)\s+)*([^\s:().{}=,]+)\s')
FIELD = re.compile(r'^\s+(?:pub\s+)?([^\s:().{}=,]+(?:\s+[^\s:().{}=,]+)*)\s*:\s')
LOCAL = re.compile(r'\blet (' + NAME + r')\b')
ALIAS = re.compile(r'\bas (' + NAME + r')\b')


def files(*patterns):
    return sorted({f for p in patterns for f in glob.glob(p, recursive=True)})


def imported(text):
    """The names that a file's use lines bring in from Rattle's library."""
    names = set()
    for line in text.splitlines():
        if re.match(r'(ghost )?use Rattle\.std\.', line):
            items = line[line.find('{') + 1:line.rfind('}')].split(',')
            names.update(i.strip() for i in items if ' as ' not in i)
    return names


def declared(text):
    for line in text.splitlines():
        if line.startswith(('--', 'use ', 'ghost use ', 'pub mod', 'mod ')):
            continue
        for pattern in (TOP, FIELD):
            found = pattern.match(line)
            if found:
                yield from found.group(1).split()
        yield from LOCAL.findall(line)


def turned(name):
    if name in CHOSEN:
        return CHOSEN[name]
    if name[0].isupper():
        return ''.join(part[0].upper() + part[1:] for part in name.split('-'))
    return name.replace('-', '_')


def main():
    proofs = files('crates/*/specs/**/*.antt', 'crates/*/proofs/**/*.antt')
    sources = files('crates/*/src/**/*.rt')
    edits = files('crates/*/must-fail/*.edit')
    texts = {f: open(f, encoding='utf-8').read() for f in proofs + sources + edits}

    every, own = set(), set()
    for f in proofs:
        every.update(declared(texts[f]))
    for f in proofs + sources:
        own.update(ALIAS.findall(texts[f]))
    own.update(n for n in every if re.fullmatch(NAME, n) or n in CHOSEN)
    own = {n for n in own if not MADE.match(n)}

    taken = every.union(*(imported(texts[f]) for f in proofs + sources))
    clashes = sorted(n for n in own if turned(n) in taken or any(n in imported(t) for t in texts.values()))
    twice = sorted(n for n in own if sum(turned(m) == turned(n) for m in own) > 1)
    if clashes or twice:
        sys.exit(f'fall together: {clashes} {twice}')

    pattern = re.compile('(?<![' + EDGE + '])(' + '|'.join(sorted(map(re.escape, own), key=len, reverse=True)) + ')(?![' + EDGE + '])')
    for f, text in texts.items():
        new = ''.join(
            pattern.sub(lambda m: m.group(1) if m.group(1) in PROSE and COMMENT.match(line) else turned(m.group(1)), line)
            for line in text.splitlines(keepends=True))
        if new != text:
            open(f, 'w', encoding='utf-8').write(new)
    print(f'{len(own)} names turned')


main()
