#!/usr/bin/env python3
"""Counts, in crates/*/src, the places that a pass on design looks at, point by point, and lists them with `-v`.

    python3 tools/places.py [ROOT] [-v]
"""
import collections
import pathlib
import re
import sys

words = [a for a in sys.argv[1:] if not a.startswith('-')]
root = pathlib.Path(words[0] if words else '.')
files = sorted(root.glob('crates/*/src/*.rt'))
text = {f: f.read_text() for f in files}


def lines(pattern, keep=lambda path, line: True):
    """The lines of the sources that a pattern fits, without those of comments."""
    found = []
    for path, whole in text.items():
        for number, line in enumerate(whole.splitlines(), 1):
            if not line.lstrip().startswith('//') and re.search(pattern, line) and keep(path, line):
                found.append(f'{path.relative_to(root)}:{number}: {line.strip()}')
    return found


def functions():
    """Every function: its file, name, parameters, clauses and body."""
    for path, whole in text.items():
        for m in re.finditer(r'^( *)(?:pub(?:\(crate\))? )?(?:final )?fn (\w+)', whole, re.M):
            end = re.compile(r'^' + m.group(1) + r'\}', re.M).search(whole, m.end())
            head_end = re.compile(r'^' + m.group(1) + r'\{|;$|\{$', re.M).search(whole, m.end())
            if not end or not head_end:
                continue
            head = whole[m.start():head_end.start()]
            yield path, m.group(2), head, whole[head_end.start():end.start()]


def skeleton(code):
    """A body with each name, number and string in one shape."""
    code = re.sub(r'//.*', '', code)
    code = re.sub(r'b?"[^"]*"', '"', code)
    code = re.sub(r"b?'[^']*'", '"', code)
    return re.findall(r'\w+|[^\w\s]', re.sub(r'\b(?!(?:if|else|match|let|mut|return|for|in|while|loop|Some|None|Ok|Err|self|fn)\b)\w+\b', 'x', code))


def twins():
    """Functions whose bodies have one skeleton."""
    groups = collections.defaultdict(list)
    for path, name, head, body in functions():
        s = skeleton(body)
        if 'conformance' not in str(path) and len(s) > 14:
            groups[' '.join(s)].append(f'{path.relative_to(root)}: {name}')
    return [' = '.join(g) for g in groups.values() if len(g) > 1]


def facts():
    """Clauses that stand in three functions or more."""
    seen = collections.Counter()
    for path, name, head, body in functions():
        for c in set(re.findall(r'requires[^{]*\{(.*)\}\s*$', head, re.M)):
            seen[c.strip()] += 1
    return [f'{n} x {c}' for c, n in seen.most_common() if n > 2]


def together():
    """Pairs of parameters of one name and type that travel together through four functions or more."""
    seen = collections.Counter()
    for path, name, head, body in functions():
        m = re.search(r'\(([^{]*?)\)\s*(?:->|\n|$)', head, re.S)
        ps = sorted({re.sub(r'\s+', ' ', p.strip()) for p in m.group(1).split(',') if ':' in p}) if m else []
        for i, a in enumerate(ps):
            for b in ps[i + 1:]:
                seen[a, b] += 1
    return [f'{n} x {a}, {b}' for (a, b), n in seen.most_common() if n > 3]


def wide():
    """Bodies that are one match of eight arms or more."""
    found = []
    for path, name, head, body in functions():
        arms = len(re.findall(r'=>', body))
        if arms >= 8:
            found.append(f'{path.relative_to(root)}: {name} ({arms} arms)')
    return found


no_tests = lambda path, line: 'conformance' not in str(path)
points = [
    ('1 flags: fields, parameters and answers that are bool', lines(r'\bbool\b', no_tests)),
    ('1 numbers for kinds or refusals', lines(r'fn (kind|code)\b|Result<[^<>]*, (u8|u16|usize)>|-> u8$', no_tests)),
    ('2 twins: bodies of one skeleton', twins()),
    ('3 loops', lines(r'\bfor .* in .*\{$|\bwhile .*\{$|\bloop \{')),
    ('4 equality, copying and conversion by hand', lines(r'fn (same|eq|copy_\w+|is_num|is_never)\b|\bas u(8|16|32)\b', no_tests)),
    ('4 printing by hand: functions over a pen', lines(r'pen: &mut (?:Buffer)?Pen')),
    ('5 facts in the contracts of three functions or more', facts()),
    ('5 parameters that travel together', together()),
    ('6 buffers with a length beside them, tables with a capacity', lines(r'\[\w+(<\w+>)?; \d+\],|with_capacity|push_reserved|vec_capacity', no_tests)),
    ('7 bodies of eight arms or more', wide()),
]
for name, found in points:
    print(f'{len(found):4} {name}')
    if '-v' in sys.argv:
        for place in found:
            print(f'         {place}')
answers = sum(len(re.findall(r'^pub \S+ : goal\.', f.read_text(), re.M)) for f in root.glob('crates/*/proofs/**/Answers.antt'))
proofs = sum(f.read_text().count('\n') for f in root.glob('crates/*/proofs/**/*.antt'))
print(f'{answers:4} 8 answers to goals')
print(f'{proofs:4} 8 lines of proofs')
