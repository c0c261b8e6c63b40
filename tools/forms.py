#!/usr/bin/env python3
# Lists the places in the sources where an older form may stand, by kind. Run at the top of a checkout: tools/forms.py
import difflib
import glob
import itertools
import re
import sys

FILES = sorted(glob.glob('crates/*/src/*.rt'))
TEXT = {f: open(f).read() for f in FILES}


def lines(pattern):
    """Lines of code that match."""
    found = []
    for f in FILES:
        for n, line in enumerate(TEXT[f].split('\n'), 1):
            if re.search(pattern, line) and not line.strip().startswith(('//', 'ensures', 'requires', 'ghost')):
                found.append(f'{f}:{n}: {line.strip()}')
    return found


def functions():
    """Name, parameters and body of each function."""
    for f in FILES:
        for m in re.finditer(r'\bfn (\w+)(?:<[^>(]*>)?\(([^)]*)\)', TEXT[f]):
            start = re.compile(r'\n?\s*\{\n').search(TEXT[f], m.end())
            end = re.compile(r'\n {0,4}\}').search(TEXT[f], m.end())
            if start and end and start.start() < end.start():
                yield f, m.group(1), m.group(2), TEXT[f][start.end():end.start()]


def twins():
    """Pairs of functions whose bodies differ in few words."""
    bodies = []
    for f, name, _, body in functions():
        words = re.findall(r'\w+|[^\w\s]', body)
        if len(words) >= 16 and '_checks' not in f:
            bodies.append((f, name, words))
    found = []
    for (f, a, x), (g, b, y) in itertools.combinations(bodies, 2):
        if 0.8 <= min(len(x), len(y)) / max(len(x), len(y)):
            if difflib.SequenceMatcher(None, x, y).ratio() >= 0.8:
                found.append(f'{f} {a} ~ {g} {b}')
    return found


def clauses():
    """Clauses that stand three times or more."""
    count = {}
    for f in FILES:
        for m in re.finditer(r'(?:ensures|requires) (\w+ )?\{ (.*) \}', TEXT[f]):
            count.setdefault(m.group(2), []).append(f)
    return [f'{len(v)} times: {k}' for k, v in count.items() if len(v) >= 3]


def parameters():
    """Functions of four parameters or more, outside tests."""
    return [f'{f} {name}: {len([p for p in ps.split(",") if p.strip()])}'
            for f, name, ps, _ in functions()
            if len([p for p in ps.split(',') if p.strip()]) >= 4 and '_checks' not in f]


KINDS = {
    '1 own enums': lambda: lines(r'^ *(pub(\(crate\))? )?enum '),
    '1 flags in structs': lambda: lines(r'^ +(pub(\(crate\))? )?[a-z_]+: bool,'),
    '1 options and results taken apart': lambda: lines(r'^ *(Some|Ok)\(.*\) => (Ok|Some)\(|^ *let (Some|Ok)\(.*else \{$|(else|=>) \{? ?None\b|^ +Some\([^)]*\)$'),
    '2 twins': twins,
    '3 loops': lambda: [l for l in lines(r'^ *(for|while|loop)\b') if '_checks' not in l],
    '3 counted by hand': lambda: lines(r'\+= [0-9]+;'),
    '4 written by hand': lambda: lines(r'^impl.* (PartialEq|Eq|PartialOrd|Ord|Clone|From<.*>|TryFrom<.*>|fmt::Display) for|fn (from_\w+|letter|number|bytes|raised_size|moved|at_least)\('),
    '4 derives without a comparison': lambda: lines(r'^#\[derive\(Clone, Copy\)\]'),
    '5 clauses': clauses,
    '5 parameters': parameters,
    '6 tables and lengths': lambda: lines(r'^ +(pub(\(crate\))? )?\w+: (\[.*; \d+\]|usize),|^ *(pub(\(crate\))? )?fn .*code: &mut \[Instruction\], at: usize|^ +at: usize,'),
    '7 steps picked by a case': lambda: lines(r'=> (self|request)\.\w+\(|=> \w+\(\w+, |test\.meets\('),
}

for kind, find in KINDS.items():
    found = find()
    print(f'{kind}: {len(found)}')
    if '-q' not in sys.argv:
        for place in found:
            print(f'    {place}')
