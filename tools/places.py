#!/usr/bin/env python3
"""Counts, in src/ of the crates, the places that docs/DESIGN-PASS.md speaks of, point by point. `tools/places.py [FOLDER] [POINT]` lists a point's lines."""
import glob
import os
import re
import sys

top = sys.argv[1] if len(sys.argv) > 1 else '.'
point = sys.argv[2] if len(sys.argv) > 2 else ''
sources = {f[len(top) + 1:]: open(f).read() for f in sorted(glob.glob(top + '/crates/*/src/**/*.rt', recursive=True))}


def lines(pattern, but=None):
    for name, text in sources.items():
        for at, line in enumerate(text.split('\n'), 1):
            code = line.split('//')[0]
            if re.search(pattern, code) and not (but and re.search(but, code)):
                yield f'{name}:{at}: {line.strip()}'


def functions():
    for name, text in sources.items():
        text = re.sub(r'//[^\n]*', '', text)
        for m in re.finditer(r'\bfn (\w+)(?:<[^(]*>)?\s*\(([^{]*?)\)\s*(?:->|requires|ensures|where|\{)', text, re.S):
            given = [p.strip() for p in re.split(r',(?![^<\[]*[>\]])', m.group(2)) if p.strip()]
            yield name, m.group(1), [p.split(':', 1)[0].replace('mut ', '').strip() for p in given], given


def long_lists():
    for name, f, names, given in functions():
        if len(given) >= 6:
            yield f'{name}: {f}({", ".join(names)})'


def with_length():
    for name, f, names, given in functions():
        slices = [p for p in given if re.search(r': &(mut )?\[', p)]
        counts = [n for n in names if n in ('count', 'm', 'stored', 'held', 'entries', 'size', 'n') and f'{n}: usize' in [p.replace('mut ', '') for p in given]]
        if slices and counts:
            yield f'{name}: {f}({", ".join(names)})'


counts = {
    '1 enums with values in a case': lines(r'^\s*(pub )?enum '),
    '1 fields that say which, beside a value': lines(r'^\s+(pub )?(number: u32|(found|counted): bool|back: usize)'),
    '1 functions that answer the number of a refusal': lines(r'fn \w*(shape|lent)\(.*-> u32'),
    '1 refusals by a numeral': lines(r'number: [1-9][0-9]*|(refused|faulty|refusal|shut)\([1-9][0-9]*,'),
    '1 numbers asked for': lines(r'number (!=|==) |\.number (!=|==)'),
    '3 loops by while or loop': lines(r"^\s*('[a-z]+: )?(while|loop)\b"),
    '3 loops by for': lines(r"^\s*('[a-z]+: )?for\b"),
    '4 methods of numbers called as functions': lines(r'wrapping_(add|sub)_u32\(|u32::(count_ones|trailing_zeros)\('),
    '4 fields written twice': lines(r'^\s+([a-z_]+): \1,?$'),
    '4 derives of Clone and Copy alone': lines(r'derive\(Clone, Copy\)'),
    '5 functions of six parameters or more': long_lists(),
    '5 clauses on the length of the gene records': lines(r'(32|64) \* count ≤ length genes'),
    '6 functions with a slice and a length beside it': with_length(),
    '7 switches on a letter': lines(r'match letter'),
}
for what, found in counts.items():
    if what.startswith(point):
        found = list(found)
        print(f'{len(found):4} {what}')
        if point:
            print('\n'.join('     ' + line for line in found))
answers = [f for f in glob.glob(top + '/crates/*/proofs/**/*.antt', recursive=True) if os.path.dirname(f).split('/proofs')[1]]
print(f'{len(answers):4} 8 files of answers and invariants, {sum(open(f).read().count(chr(10)) for f in answers)} lines')
