#!/usr/bin/env python3
"""Counts in crates/*/src (and, for proofs, crates/*/proofs) the places of each point of docs/DESIGN-PASS.md.

Run at the top of the repository: `python3 tools/design_counts.py`, with `-v` for each place.
"""
import collections
import pathlib
import re
import sys

FUNCTION = re.compile(r'^( *)(?:pub )?(?:extern "C" )?fn (\w+)(.*?)^\1\{', re.S | re.M)


def sources():
    for path in sorted(pathlib.Path('crates').glob('*/src/*.rt')):
        yield path, path.read_text()


def lines(pattern):
    """The lines of the sources that match."""
    found = re.compile(pattern)
    for path, text in sources():
        for number, line in enumerate(text.splitlines(), 1):
            if found.search(line):
                yield f'{path}:{number}: {line.strip()}'


def functions():
    for path, text in sources():
        for match in FUNCTION.finditer(text):
            yield path, match.group(2), match.group(3)


def structs():
    for path, text in sources():
        for match in re.finditer(r'^(?:pub )?struct (\w+)[^\n]*\{\n(.*?)^\}', text, re.S | re.M):
            yield path, match.group(1), match.group(2)


def enums_like_option():
    """Enums with a case that carries nothing, or that is called Refused or Failed, beside one that carries a value."""
    for path, text in sources():
        for match in re.finditer(r'^(?:pub )?enum (\w+) \{\n(.*?)^\}', text, re.S | re.M):
            cases = re.findall(r'^    (\w+)(\(.*\))?,', match.group(2), re.M)
            bare = [c for c, carried in cases if not carried]
            full = [c for c, carried in cases if carried]
            refusing = [c for c, _ in cases if c in ('Refused', 'Failed', 'Offends', 'Stopped')]
            if len(cases) == 2 and (refusing or (bare and full)) or refusing:
                yield f'{path}: enum {match.group(1)}'


def flags_beside_values():
    for path, name, body in structs():
        flags = re.findall(r'^    (?:pub )?(\w+): bool,', body, re.M)
        if flags:
            yield f'{path}: struct {name}: {", ".join(flags)}'


def numbers_for_none():
    """Functions whose comment says that a number stands for none."""
    for path, text in sources():
        for match in re.finditer(r'^((?: *//[^\n]*\n)+)(?: *#\[[^\n]*\n)* *(?:pub )?fn (\w+)', text, re.M):
            if re.search(r'\bor 0 (if|where)\b|, or 0\b|otherwise returns 0|which is no place|; after the last pair', match.group(1)):
                yield f'{path}: fn {match.group(2)}'


def names_of_two():
    where = collections.defaultdict(list)
    for path, name, _ in functions():
        where[name].append(path.parts[1])
    for name, crates in sorted(where.items()):
        if len(crates) > 1:
            yield f'fn {name}: {", ".join(crates)}'


def facts_of_three():
    """Parts of a `requires` that stand in three functions or more."""
    where = collections.defaultdict(set)
    for path, name, signature in functions():
        for clause in re.findall(r'requires(?: \w+)? \{ (.*) \}', signature):
            for part in clause.split(' × '):
                where[part.strip()].add((path, name))
    for part, users in sorted(where.items(), key=lambda item: -len(item[1])):
        if len(users) >= 3:
            yield f'{part}: {len(users)} functions'


def travelling():
    """Functions with a table's cells and its order in two parameters."""
    for path, name, signature in functions():
        if re.search(r'\b(cells|source|target): &\[u8\],\s*(n|m|order): usize', signature):
            yield f'{path}: fn {name}'


def parallel():
    """Functions with two parameters, and structs with two fields, that are arrays of one type."""
    for path, name, signature in functions():
        arrays = re.findall(r"\w+: &(?:'a )?(?:mut )?(\[[\w\[\]; ]+;[^\]]*\])", signature)
        if len(arrays) > len(set(arrays)):
            yield f'{path}: fn {name}'
    for path, name, body in structs():
        arrays = re.findall(r'\w+: (\[[^\]]*;[^\]]*\]),', body)
        if len(arrays) > len(set(arrays)):
            yield f'{path}: struct {name}'


def lengths_beside():
    for path, name, body in structs():
        if re.search(r': \[', body) and re.search(r'\b(len|count|length): usize', body):
            yield f'{path}: struct {name}'


def flags_handed_on():
    for path, name, signature in functions():
        for flag in re.findall(r'\b(\w+): bool\b', signature.split('requires')[0].split('ensures')[0]):
            yield f'{path}: fn {name}: {flag}'


def whole_proofs():
    for path in sorted(pathlib.Path('crates').glob('*/proofs/**/Proof.antt')):
        yield str(path)


POINTS = [
    ('1a', 'own enums of the shape of Option or Result', enums_like_option),
    ('1b', 'structs with a flag beside a value', flags_beside_values),
    ('1c', 'functions that return a number for none', numbers_for_none),
    ('2', 'names of two functions or more', names_of_two),
    ('3', 'loops with while', lambda: lines(r"^\s*('\w+: )?while ")),
    ('4', 'functions that compare, convert or choose by hand', lambda: lines(r'fn (same_row|agree|smaller|larger|wide|longer|no|refusal|number|capped|digit|same_note)\(')),
    ('5a', 'parts of a requires in three functions or more', facts_of_three),
    ('5b', 'functions with a table in two parameters', travelling),
    ('6a', 'parallel arrays', parallel),
    ('6b', 'arrays with a length beside', lengths_beside),
    ('7', 'flags that are handed on', flags_handed_on),
    ('8', 'proofs that walk the code by hand (Proof.antt)', whole_proofs),
]

for point, what, places in POINTS:
    found = list(places())
    print(f'{point:3} {len(found):4}  {what}')
    if '-v' in sys.argv[1:]:
        for place in found:
            print(f'          {place}')
