#!/usr/bin/env python3
"""forms.py [--list]: counts, in crates/*/src, the places that docs/DESIGN-PASS.md speaks of, a line a point; --list shows each.

Run at the top of a checkout. It reads text alone: a place that it finds is one to look at, not yet one to change.
"""
import collections, glob, re, sys

FILES = {f: open(f).read() for f in sorted(glob.glob('crates/*/src/**/*.rt', recursive=True))}
FN = re.compile(r'^( *)(?:pub(?:\([a-z]+\))? )?(?:const )?(?:extern "C" )?fn (\w+)(.*?)^\1\}', re.M | re.S)


def lines(pattern):
    for f, text in FILES.items():
        for n, line in enumerate(text.split('\n'), 1):
            if re.search(pattern, line) and not line.lstrip().startswith('//'):
                yield f'{f}:{n}: {line.strip()}'


def functions():
    for f, text in FILES.items():
        for m in FN.finditer(text):
            head, _, body = m.group(3).partition('\n' + m.group(1) + '{\n')
            if not body:
                head, _, body = m.group(3).partition('{\n')
            yield f'{f}:{text.count(chr(10), 0, m.start()) + 1}: fn {m.group(2)}', head, body


def twins():
    """Functions whose parameters and bodies differ in names, types and numbers alone, of three lines or more."""
    alike = collections.defaultdict(list)
    for name, head, body in functions():
        shape = re.sub(r'\s+', ' ', re.sub(r'\w+', 'x', re.sub(r'//.*', '', body)))
        params = head.split('\n    requires')[0].split('\n    ensures')[0].count(':')
        if body.strip().count('\n') >= 2:
            alike[shape, params].append(name)
    return [' ~ '.join(v) for v in alike.values() if len(v) > 1]


def facts():
    """Facts that stand in the requires of three functions or more."""
    count = collections.Counter()
    for _, head, _ in functions():
        for clause in re.findall(r'requires[^{]*\{ (.*) \}$', head, re.M):
            for fact in set(re.sub(r'^\(|\)$', '', clause).replace(') × (', '\n').split('\n')):
                count[fact] += 1
    return [f'{n} functions: {fact}' for fact, n in count.most_common() if n >= 3]


def travels():
    """Four parameters or more, in a row, that three functions or more share."""
    count = collections.Counter()
    for _, head, _ in functions():
        inside = head[head.find('(') + 1:].split(')\n')[0].split(') ->')[0]
        all_of = [re.sub(r'^mut ', '', p.strip()) for p in inside.split(',') if ':' in p]
        for i in range(len(all_of) - 3):
            count[tuple(all_of[i:i + 4])] += 1
    return [f'{n} functions: {", ".join(p)}' for p, n in count.most_common() if n >= 3]


POINTS = [
    ('1 an answer beside a value', lines(r'pub answer: ')),
    ('1 enum cases for nothing', lines(r'^    (Nothing|Internal|Refused|Clear|None|Only|Astray|Done),$')),
    ('1 an answer as a result', lines(r'-> Answer$')),
    ('1 tests of an answer by its number', lines(r'(number\(answer\)|answer) [!=]= 0')),
    ('1 kinds and refusals as numbers', lines(r': isize|fn \w+\(number: u32')),
    ('2 functions of one shape', twins()),
    ('2 the lesser of two, again', lines(r'fn least')),
    ('3 loops that count by hand', lines(r'^\s*(while .*|loop) \{$')),
    ('4 tests spelled as cases', (n for n, _, b in functions() if re.search(r'=> true,', b) and re.search(r'=> false,', b))),
    ('4 conversions by hand', lines(r'/ 256\b|\* \(?b as|4294967296 \*|/ 4294967296|% 4294967296|if set \{ 1 \}|if set \{ bit \}')),
    ('4 order and equality by hand', lines(r'if a < b \{ a \}|\{ !second \}|if \w+ < \w+ \{ \w+ \} else \{ \w+ \}$|fn worse')),
    ('5 facts in three contracts', facts()),
    ('5 parameters that travel together', travels()),
    ('6 windows as flat numbers', lines(r'windows: &(mut )?\[u32\]')),
    ('6 a slice with its length beside', lines(r'^\s+put: usize,|pub (count|filled|waiting): usize')),
    ('7 a switch on what to do next', lines(r'match (phase|mode|body) \{')),
]

for name, found in POINTS:
    found = list(found)
    print(f'{len(found):4}  {name}')
    if '--list' in sys.argv:
        for place in found:
            print('        ' + place)
