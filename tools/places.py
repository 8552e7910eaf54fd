#!/usr/bin/env python3
"""places.py [-v] [TOP]: counts in TOP/crates/*/src (and proofs/, point 8) the places that docs/DESIGN-PASS.md speaks of, point by point; with -v each with its line."""
import collections
import pathlib
import re
import sys

verbose = '-v' in sys.argv
top = pathlib.Path(next((a for a in sys.argv[1:] if a != '-v'), '.'))
found = collections.OrderedDict()


def note(point, path, number, text):
    found.setdefault(point, []).append(f'{path.relative_to(top)}:{number}: {text.strip()}')


def is_clause(line):
    return re.match(r'\s*(//|ghost |requires|ensures|×|≡|→|\+\+|\()', line) or '≡' in line or ' × ' in line


sources = sorted(top.glob('crates/*/src/**/*.rt'))
named = collections.defaultdict(list)
facts = collections.defaultdict(list)
for path in sources:
    text = path.read_text()
    lines = text.splitlines()
    for number, line in enumerate(lines, 1):
        if re.match(r'\s+Refused\(Refusal\)', line):
            note('1a enums of the shape of Option or Result', path, number, line)
        if re.search(r'if let (\w+::Refused|Err)\(', line):
            note('1b a refusal taken out of an answer and handed on', path, number, line)
        if re.match(r'    (pub )?\w+: bool,', line):
            note('1c a flag beside values', path, number, line)
        if re.match(r'.*\bnumber: u8', line):
            note('1d a number for a kind of test', path, number, line)
        if re.match(r'//.*(;|, or|, but|otherwise|else) .*(where|if) (there is none|none does|none is|it is empty|the set is empty|nobody)', line):
            note('1e a number that stands for none', path, number, line)
        if not is_clause(line) and re.search(r'(\w\.0 [=!]= |[=!]= (\w+::)*\w+\.0\b|tells_(ahead|level)\()', line):
            note('4a equality by the number inside, or by a match', path, number, line)
        if re.match(r'\s*(pub )?fn (number|number_of|letter|wide|answer)\(', line):
            note('4b conversions written by hand', path, number, line)
        if re.match(r'\s*(pub )?(const )?\w+: \[.*\] = |\s*const \w+: \[', line):
            note('6b constant tables', path, number, line)
        for fact in ('Weighed', 'Stored', 'IsLayout', 'IsTable', 'Faulty'):
            if re.search(rf'\b{fact} \(?\w', line) and re.search(r'requires|ensures|×', line):
                facts[fact].append((path, number, line))
    # functions: names, parameters
    for m in re.finditer(r'^( *)(?:pub )?fn (\w+)(?:<[^>]*>)?\((.*?)\)(?: -> ([^{]*?))?\n? *(?=requires|ensures|\{|where)', text, re.S | re.M):
        number = text.count('\n', 0, m.start()) + 1
        parameters = [p for p in re.split(r',\s*(?![^\[<]*[\]>])', m[3].strip().rstrip(',')) if p]
        if not m[1]:
            named[m[2]].append((path, number))
        if len(parameters) >= 7:
            note('5a functions with seven parameters or more', path, number, f'fn {m[2]}: {len(parameters)}')
        if any(re.match(r'(k|count|n|used): usize', p.strip()) for p in parameters) and any(re.search(r'(list|ordering|output|places|rows|entries|table|tail)\w*: (&|\[)', p) for p in parameters):
            note('6a a list with a length beside it', path, number, f'fn {m[2]}')
    # loops
    for m in re.finditer(r'^( *)for (\w+) in ([^{]*\.\.[^{]*)\{\n(.*?)^\1\}', text, re.S | re.M):
        number = text.count('\n', 0, m.start()) + 1
        if re.search(rf'\[[^\]]*\b{m[2]}\b[^\]]*\]|Position\({m[2]}\)', m[4]):
            note('3a a range whose number is an index of a list', path, number, m[0].split('\n')[0])
    for m in re.finditer(r'^( *)while ([^{]*)\{\n(.*?)^\1\}', text, re.S | re.M):
        number = text.count('\n', 0, m.start()) + 1
        if re.search(r'\b(\w+) (?:= \1 [+-]|[+-]=)', m[3]) or re.search(r'^\s*at = ', m[3], re.M):
            note('3b an index counted by hand', path, number, m[0].split('\n')[0])
programs = {p.parent.parent.name for p in sources if p.name == 'main.rt'}
for name, places in sorted(named.items()):
    apart = [(p, n) for p, n in places if p.parent.parent.name not in programs]
    if len(apart) > 1:
        for p, n in apart:
            note('2 functions of one name in several files of the library', p, n, f'fn {name}')
for path in sources:
    for number, line in enumerate(path.read_text().splitlines(), 1):
        if re.match(r'pub (struct|enum) Wide', line):
            note('2b types that differ only in a type', path, number, line)
        if re.search(r'\b(number: u8|passing: bool|halves: Halves|format: Format)', line) and 'fn ' in line or re.match(r'    (number: u8|passing: bool|halves: Halves|format: Format),', line):
            note('7 a parameter that says which step to run', path, number, line)
for fact, places in facts.items():
    if len(places) > 2:
        for p, n, line in places:
            note(f'5b a fact in three contracts or more', p, n, f'{fact}: {line.strip()[:60]}')
answers = measures = 0
for path in sorted(top.glob('crates/*/proofs/**/*.antt')):
    text = path.read_text()
    if path.name == 'Answers.antt':
        answers += len(re.findall(r'^pub [\w.+-]+ : goal\.', text, re.M))
    if path.name == 'Invariants.antt':
        measures += len(re.findall(r'^abbrev pub [\w.+-]+ : goal\.', text, re.M))
for point in sorted(found):
    print(f'{point}: {len(found[point])}')
    if verbose:
        for place in found[point]:
            print('    ' + place)
print(f'8a answers to goals: {answers}')
print(f'8b invariants and measures: {measures}')
