#!/usr/bin/env python3
"""Lists places of src/ that an older form of the language may have shaped.

    python3 tools/places.py [--tree DIR] [KIND ..]     each place with file and line, and the count of each kind

A line that is listed is a place to look at: docs/DESIGN-PASS.md says of each kind what was found there.
"""
import collections
import difflib
import glob
import os
import re
import sys

# One kind a row: its topic, what it looks for, and the pattern of a line.
LINES = {
    'sentinel': ('kinds and refusals', 'a number that says none by 0', r'//.*\bor 0\b|^\s*\w+ = \w+ - 1;|let j = at - 1;'),
    'error-number': ('kinds and refusals', 'a number or a bool as an error', r'Result<[^;{}]*, (u8|u16|u32|u64|usize|bool)>'),
    'refused-bool': ('kinds and refusals', 'a bool that says whether a call was refused', r'ensures refuses|-> io::Result<bool>|-> anyhow::Result<bool>'),
    'flag': ('kinds and refusals', 'a bool field', r'^\s+(pub )?(pub\(crate\) )?\w+: bool,$'),
    'kind-bool': ('kinds and refusals', 'a bool parameter', r'fn .*\b\w+: bool\b|^\s+\w+: bool,$'),
    'own-enum': ('kinds and refusals', 'an enum', r'\benum \w+'),
    'law-number': ('kinds and refusals', 'a number that a law answers', r'^    0$'),
    'count-by-hand': ('loops', 'a loop with a condition', r'^\s*while '),
    'range-loop': ('loops', 'a loop over numbers', r'\bfor \w+ in [^{]*\.\.'),
    'next-by-hand': ('loops', 'a walk by next', r'while let Some\(\w+\) = \w+\.next\(\)'),
    'bytes-by-hand': ('by hand', 'bytes of a number by division or by place', r'/ 256|% 256|from_be_bytes\(\['),
    'copy-by-hand': ('by hand', 'a field copied from a value of the same type', r'^\s+(\w+): (cell|delta|self)\.\1,'),
    'match-by-hand': ('by hand', 'a match that a method of Option or Result makes', r'None => None|Some\(_\) => true|Ok\(\(\)\) => \{\}|Err\((_|e|j|f)\) => (return )?Err|Err\(_\) => None|None => \{\}|Ok\(\w\) => \w,'),
    'same-by-hand': ('by hand', 'an equality by hand', r'\.rank\(\) != |fn all_same|fn copied'),
    'error-without-text': ('by hand', 'an error type', r'pub (enum|struct) (\w*(Fault|Error|Refusal)|TooLarge|TooFewCells)\b'),
    'batch': ('buffers', 'a buffer with a length beside it', r'&(mut )?\[u8; ?\w+\]|\[0u8; \w+\]|used: usize|length: Option<usize>'),
    'switch': ('switches', 'a value that picks a step', r'which: \w+|ends: bool|\bkind: Kind\b|else if call ==|coordinate: Coordinate'),
}


def sources(tree):
    for path in sorted(glob.glob(os.path.join(tree, 'crates/*/src/**/*.rt'), recursive=True)):
        yield os.path.relpath(path, tree), open(path, encoding='utf-8').read()


def lines(tree, pattern):
    for path, text in sources(tree):
        for number, line in enumerate(text.split('\n'), 1):
            if re.search(pattern, line):
                yield f'{path}:{number}: {line.strip()[:110]}'


FUNCTION = re.compile(r'^( *)(?:pub(?:\(crate\))? )?fn (\w+)(.*?)\n\1\}', re.S | re.M)


def functions(tree):
    for path, text in sources(tree):
        for m in FUNCTION.finditer(text):
            yield path, text[:m.start()].count('\n') + 1, m.group(2), m.group(0)


# The shape of a function's code, with no clauses: names stand for themselves only where they are words of the language.
WORDS = set('fn let mut if else match for in while return Some None Ok Err break self Self'.split())


def shape(text):
    code = re.sub(r'//.*|^\s*(requires|ensures).*$', '', text, flags=re.M)
    return [t if t in WORDS or not re.match(r'\w', t) else 'x' for t in re.findall(r'\w+|[^\w\s]', code)]


def twins(tree):
    found = [(p, n, f, shape(t)) for p, n, f, t in functions(tree)]
    found = [x for x in found if len(x[3]) > 40]
    for i, a in enumerate(found):
        for b in found[i + 1:]:
            if min(len(a[3]), len(b[3])) < 0.75 * max(len(a[3]), len(b[3])):
                continue
            m = difflib.SequenceMatcher(None, a[3], b[3], autojunk=False)
            if m.quick_ratio() >= 0.9 and m.ratio() >= 0.9:
                yield f'{a[0]}:{a[1]}: {a[2]} as {b[0]}:{b[1]}: {b[2]}'


def names(tree):
    at = collections.defaultdict(set)
    for path, text in sources(tree):
        inner = re.sub(r'^impl.* for .*?^\}', '', text, flags=re.S | re.M)
        inner = re.sub(r'^pub trait .*?^\}', '', inner, flags=re.S | re.M)
        for kind, name in re.findall(r'\b(fn|struct|enum|const) (\w+)', inner):
            if name not in ('main', 'run', 'new', '_'):
                at[kind + ' ' + name].add(path)
    for name, paths in sorted(at.items()):
        if len(paths) > 1:
            yield f'{name}: ' + ', '.join(sorted(paths))


def clauses(tree):
    at = collections.Counter()
    for path, text in sources(tree):
        for m in re.finditer(r'^\s*(requires|ensures) ?\w* \{ (.*) \}$', text, re.M):
            at[(path.split('/')[1], m.group(2))] += 1
    for (crate, clause), n in sorted(at.items()):
        if n >= 3:
            yield f'{crate}: {n} times: {clause[:150]}'


def wide(tree):
    for path, number, name, text in functions(tree):
        head = text.split('{')[0]
        inside = re.search(r'\((.*?)\)\s*(->|\n|$)', head, re.S)
        n = len(re.findall(r'\w+: |&(?:mut )?self|\bself\b', inside.group(1))) if inside else 0
        if n >= 6:
            yield f'{path}:{number}: {name}: {n} parameters'


WALKS = {
    'twins': ('twins', 'two functions of one shape', twins),
    'names': ('twins', 'a name that stands in two files', names),
    'clauses': ('facts that travel', 'a clause that stands three times in a crate', clauses),
    'wide': ('facts that travel', 'a function of six parameters or more', wide),
}


def main():
    args = sys.argv[1:]
    tree = '.'
    if '--tree' in args:
        at = args.index('--tree')
        tree = args[at + 1]
        del args[at:at + 2]
    for kind in args or list(LINES) + list(WALKS):
        if kind in LINES:
            topic, what, pattern = LINES[kind]
            found = list(lines(tree, pattern))
        else:
            topic, what, walk = WALKS[kind]
            found = list(walk(tree))
        print(f'{topic}: {kind}: {what}: {len(found)}')
        for place in found:
            print('    ' + place)


main()
