#!/usr/bin/env python3
"""Lists the places in src/ that docs/DESIGN-PASS.md counts, as they stand at a commit: places.py COMMIT [-v]

Each point has a pattern, which finds more than belongs to it: what of it is a place, the page says by name."""
import collections
import re
import subprocess
import sys

COMMIT = sys.argv[1]
VERBOSE = '-v' in sys.argv


def git(*words):
    return subprocess.check_output(['git', *words], text=True)


FILES = [f for f in git('ls-tree', '-r', '--name-only', COMMIT, 'crates').split() if re.match(r'crates/\w+/src/.*\.rt$', f)]
TEXTS = {f: git('show', f'{COMMIT}:{f}') for f in FILES}

LINES = {
    '1 numbers and flags for what a type says': r'^\s*(pub(\(crate\))? )?\w+: (u8|bool),$|^const NO\w+:|^pub\(crate\) const NO\w+:|-> (u8|bool|\(u8, u8\))$|Vec<u8>|== 0 \{ None|\.number\(\)$',
    '3 loops that count': r'for \w+ in \(?\w*\.\.|for \(\w+, \w+\) in .*enumerate|^\s*while |^\s*\w+(\.\w+)* \+= 1;',
    '4 written by hand': r'^\s+(\w+): \w+\.\1,$|^impl .*(Display|From<\w+>) for|fn (number|same_\w+|is_word)\b|Err\(_\) => Err|Err\(refusal\) => (Err|refusal)',
    '6 arrays': r'\[[\w:<>]+(\(\))?; [\w]+\]',
    '7 switches': r'match (step|key|order\.kind|call|act|verb)\b|\bdyn |: fn\(',
}


def functions():
    """Each function: its file, its name, its parameters, its clauses and its body."""
    for file, text in TEXTS.items():
        for m in re.finditer(r'^( *)(?:pub(?:\(crate\))? )?fn (\w+)(?:<[^(]*>)?\(', text, flags=re.M):
            end = text.find('\n' + m.group(1) + '}', m.end())
            semi = text.find(';\n', m.end())
            whole = text[m.end():end if end >= 0 and (semi < 0 or m.group(1) + '{' in text[m.end():semi] or end < semi) else semi]
            head, _, body = whole.partition('\n' + m.group(1) + '{')
            yield file, m.group(2), head, body


def twins():
    by_shape = collections.defaultdict(list)
    for file, name, head, body in functions():
        flat = re.sub(r'\b(?!let\b|for\b|in\b|if\b|else\b|match\b|return\b|mut\b|Ok\b|Err\b|Some\b|None\b|self\b)\w+', 'x', body)
        flat = re.sub(r'\s+', ' ', flat).strip()
        if len(flat) > 24:
            by_shape[flat].append(f'{file}: {name}')
    return [', '.join(v) for v in by_shape.values() if len(v) > 1]


def repeated_clauses():
    uses = collections.defaultdict(set)
    for file, name, head, body in functions():
        for m in re.finditer(r'(?:ensures|requires)(?: \w+)? \{ (.*) \}', head):
            clause = re.sub(r'\b(orders|rows)\b', 'sheet', m.group(1))
            uses[clause].add(f'{file}: {name}')
    return [f'{len(v)} times: {k}' for k, v in uses.items() if len(v) > 2]


def travelling():
    uses = collections.defaultdict(set)
    for file, name, head, body in functions():
        params = re.findall(r'(\w+): ([^,()]+(?:\([^)]*\))?)', head.split(')')[0])
        params = [f'{n}: {t.strip()}' for n, t in params if n != 'self']
        for i in range(len(params) - 2):
            uses[', '.join(params[i:i + 3])].add(f'{file}: {name}')
    return [f'{len(v)} functions: {k}' for k, v in uses.items() if len(v) > 2]


def show(point, places):
    print(f'{point}: {len(places)}')
    if VERBOSE:
        for place in places:
            print('   ', place)


for point, pattern in LINES.items():
    show(point, [f'{f}:{n}: {line.strip()}' for f, t in TEXTS.items() for n, line in enumerate(t.split('\n'), 1) if re.search(pattern, line)])
show('2 functions of one shape', twins())
show('5 clauses in three contracts or more', repeated_clauses())
show('5 three parameters that travel together through three functions or more', travelling())
PROOFS = [f for f in git('ls-tree', '-r', '--name-only', COMMIT, 'crates').split() if re.match(r'crates/\w+/proofs/.*\.antt$', f)]
print(f"8 files and lines of proofs: {len(PROOFS)}, {sum(git('show', f'{COMMIT}:{f}').count(chr(10)) for f in PROOFS)}")
