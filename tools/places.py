#!/usr/bin/env python3
"""Lists the lines of crates/*/src at which docs/DESIGN-PASS.md looks, by its points.

usage: tools/places.py [POINT]     from the top of the repository
"""
import collections
import glob
import re
import sys


def lines():
    for path in sorted(glob.glob('crates/*/src/**/*.rt', recursive=True)):
        with open(path, encoding='utf-8') as source:
            for number, line in enumerate(source, 1):
                yield path, number, line.rstrip('\n')


def shown(pattern, but=None):
    for path, number, line in lines():
        if re.search(pattern, line) and not (but and re.search(but, path + line)):
            print(f'{path}:{number}: {line.strip()}')


def repeated(kind, least):
    """Facts that stand in the clauses of as many functions as `least`."""
    where = collections.defaultdict(set)
    name = ''
    for path, _, line in lines():
        found = re.search(r'\bfn (\w+)', line)
        if found:
            name = path + ':' + found.group(1)
        found = re.match(r'\s*' + kind + r' (\w+ )?\{ (.*) \}', line)
        if not found:
            continue
        fact = re.sub(r'\.(now|old|new)\b', '', found.group(2))
        # of an implication every premise is a fact of its own
        facts = fact.split(' → ')[:-1] if kind == 'ensures' else [fact]
        for each in facts:
            where[each].add(name)
    for fact, names in sorted(where.items(), key=lambda item: -len(item[1])):
        if len(names) >= least:
            print(f'{len(names)} functions: {fact}')


def twins():
    """Names of private functions, constants and methods that stand in more than one file."""
    where = collections.defaultdict(set)
    for path, _, line in lines():
        if '/tests' in path or '/vectors/' in path:
            continue
        found = re.match(r'\s*(pub |pub\(crate\) )?(?:fn|const) (\w+)', line)
        if found:
            where[found.group(2)].add(path)
    for name, paths in sorted(where.items()):
        if len(paths) > 1:
            print(f'{name}: {", ".join(sorted(paths))}')


TESTS = r'/tests\.rt|crates/vectors/|crates/bits/src/lib\.rt'

POINTS = {
    '1': [
        ('enums', lambda: shown(r'^(pub )?enum ')),
        ('flags', lambda: shown(r'fn (read|finish)\w*\(.*-> bool|fn range_front.*-> usize|fn refusal.*-> u8')),
        ('numbers of theorem functions', lambda: shown(r'^pub fn \w+(<.*>)?\(\) -> u8$')),
        ('conversions', lambda: shown(r'None => (Err|None|Ok\(Asked)|(Ok|Err)\(.*\) => (None|Some|Err|Answer|Ok\(Asked)')),
    ],
    '2': [('names in more than one file', twins)],
    '3': [
        ('loops over a range', lambda: shown(r'for \w+ in .*\.\.', TESTS)),
        ('enumerated loops', lambda: shown(r'for \(.*\) in .*enumerate', TESTS)),
        ('counters', lambda: shown(r'^\s*[a-z_]+ \+= 1;')),
        ('while', lambda: shown(r'^\s*(while|loop)\b')),
    ],
    '4': [
        ('names and texts', lambda: shown(r'fn \w*(_name|_text|_code|digit|name|text_of|listed|before)\(')),
        ('conversions', lambda: shown(r'fn (layer|request|value_word|write_bytes)\b')),
    ],
    '5': [
        ('required', lambda: repeated('requires', 3)),
        ('premises', lambda: repeated('ensures', 3)),
        ('members', lambda: shown(r'\(meanings S\.kept S\.capacity')),
    ],
    '6': [
        ('lengths', lambda: shown(r'^\s*(pub )?len: usize|-> usize$|&mut \[bool; 1024\]')),
        ('indices', lambda: shown(r'^\s*\w+\(usize\),')),
    ],
    '7': [('cases of a check', lambda: shown(r'(CheckCode|StoreCode)::\w+ => .*\(|fill_(first|second)\('))],
}


def main():
    for point in sys.argv[1:] or sorted(POINTS):
        for title, show in POINTS[point]:
            print(f'--- {point}: {title}')
            show()


main()
