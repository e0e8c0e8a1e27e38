#!/usr/bin/env python3
"""Candidates for the points of docs/DESIGN-PASS.md, found in the source files of the crates.

    tools/design_places.py [POINT..]     the candidates of these points (1 to 8), or the counts of all
    tools/design_places.py --page        the places of the page, counted by point: found, changed, kept

Each line is a candidate: what of them is a place, and what became of it, stands in docs/DESIGN-PASS.md."""
import collections
import difflib
import glob
import itertools
import os
import re
import sys

ROOT = os.path.dirname(os.path.dirname(os.path.abspath(__file__)))
FILES = sorted(glob.glob(os.path.join(ROOT, 'crates/*/src/*.rt')))


def name_of(path):
    crate, file = os.path.relpath(path, os.path.join(ROOT, 'crates')).split('/src/')
    return f'{crate}/{file[:-3]}'


def blocks(path, start):
    """The items of a file whose first line matches, with their lines: to the brace at the item's depth, or, where an
    item has no braces of its own, to its semicolon."""
    lines = open(path, encoding='utf-8').read().split('\n')
    for i, line in enumerate(lines):
        match = re.match(start, line)
        if match:
            depth = len(line) - len(line.lstrip())
            opened, end = False, i
            for end in range(i, len(lines)):
                opened = opened or lines[end].endswith('{')
                if re.match(r'\s{%d}\}' % depth, lines[end]) or not opened and lines[end].endswith(';'):
                    break
            yield i + 1, match.group('name'), lines[i:end + 1]


FUNCTION = r'\s*(pub(\(crate\))? )?(extern "C" )?fn (?P<name>\w+)'
TYPE = r'(pub(\(crate\))? )?(enum|struct) (?P<name>\w+)'


def functions():
    for path in FILES:
        for line, name, text in blocks(path, FUNCTION):
            yield name_of(path), line, name, text


def body_of(text):
    """The lines behind a function's signature and clauses."""
    at = next((i for i, line in enumerate(text) if line.rstrip().endswith('{')
               and not re.match(r'\s*(requires|ensures)', line)), 0)
    return text[at + 1:-1]


def point1():
    """Types with a flag or a case for failure or for none, and functions that tell none by a number."""
    flag = r'\s+(pub )?\w+: bool,|\s+(pub )?(borrow|carry): |\s+(Refused|Wrong|Bad|Large|Many|Unknown|None|NoneOver)\b'
    for path in FILES:
        for line, name, text in blocks(path, TYPE):
            if any(re.match(flag, t) for t in text[1:]):
                yield f'{name_of(path)}:{line} {name}'
        lines = open(path, encoding='utf-8').read().split('\n')
        for i, line in enumerate(lines):
            if line.lstrip().startswith('//') and re.search(r'\bnone\b|there is one\b|, or (16|0|how many)', line):
                rest = next((t for t in lines[i + 1:] if not t.lstrip().startswith(('//', '#'))), '')
                if re.match(FUNCTION, rest):
                    yield f'{name_of(path)}:{i + 1} {re.match(FUNCTION, rest).group("name")}'


def shape(text):
    """A function's tokens without comments, with numbers and types made alike."""
    code = ' '.join(line for line in text if not line.lstrip().startswith('//'))
    code = re.sub(r'\b[A-Z]\w*\b|\b[ui](8|16|32|64|128|size)\b', 'T', code)
    code = re.sub(r'\b[\d_]*\d[\d_]*\b', '0', code)
    code = re.sub(r'(?<=[a-z])\d+\b', '', code)
    return re.findall(r'\w+|[^\w\s]', code)


def point2():
    """Pairs of functions whose tokens are alike but for types and numbers."""
    every = [(where, line, name, shape(text)) for where, line, name, text in functions()]
    every = [f for f in every if len(f[3]) >= 25]
    for a, b in itertools.combinations(every, 2):
        small, large = sorted((len(a[3]), len(b[3])))
        if small * 10 < large * 8:
            continue
        match = difflib.SequenceMatcher(None, a[3], b[3], False)
        if match.quick_ratio() >= 0.85 and match.ratio() >= 0.85:
            yield f'{a[0]}:{a[1]} {a[2]} - {b[0]}:{b[1]} {b[2]}'


def point3():
    """Loops that reach elements by an index counted in the loop."""
    readers = r'(number_at|item_at|section_at|put_section|load_at|group_at)'
    for path in FILES:
        lines = open(path, encoding='utf-8').read().split('\n')
        for i, line in enumerate(lines):
            over = re.match(r'(\s*)for (?P<by>\w+) in .*\.\..* \{', line)
            hand = re.match(r'(\s*)(while .*|loop) \{', line)
            if not over and not hand:
                continue
            depth = len((over or hand).group(1))
            body = list(itertools.takewhile(lambda t: not t.strip() or len(t) - len(t.lstrip()) > depth, lines[i + 1:]))
            text = '\n'.join(body)
            if over:
                by = over.group('by')
                found = (re.search(r'\[[^\]]*\b%s\b[^\]]*\]' % by, text)
                         or re.search(r'\b%s\([^)]*\b%s\b' % (readers, by), text)
                         or re.search(r'let (at|from|to|start|mark) = [^;]*\b%s\b' % by, text))
            else:
                found = re.search(r'\b(i|k|at|turns) [+-]?= ', text)
            if found:
                yield f'{name_of(path)}:{i + 1} {line.strip()}'


def point4():
    """Functions that only map cases to values or texts, pick the greater of two, compare or cut a number down."""
    for where, line, name, text in functions():
        body = [t.strip() for t in body_of(text) if t.strip()]
        code = ' '.join(body)
        arms = [t for t in body if '=>' in t]
        plain = arms and len(arms) + 2 >= len(body) and all(re.search(r'=> [\w:.() &"\\,!-]+,?$', t) for t in arms)
        cut = re.fullmatch(r'if (\d+|\w+) <=? [\w.\[\]]+ \{ (return )?\w+;? \} (else \{ )?[\w ]+( \})?', code)
        pick = re.fullmatch(r'if [\w.]+ <=? [\w.]+ \{ [\w.: ]+ \} else \{ [\w.: ]+ \}', code)
        same = re.fullmatch(r'\w+ == \w+|\w+ < [\d_]+', code)
        chain = len(re.findall(r'if \w+ == |if same\(', code)) >= 1 and code.count('return') >= 1 and len(body) <= 40
        if plain or cut or pick or same or (chain and 'for ' not in code and 'while ' not in code):
            yield f'{where}:{line} {name}'


def conjuncts(text):
    """The facts that a function requires or that a struct's ghost fields hold, without what they are a field of."""
    for line in text:
        match = re.match(r'\s*(requires (\w+ )?|ghost \w+: )\{ (.*?)( \},?)?$', line)
        for fact in match.group(3).split(' × ') if match else []:
            if re.fullmatch(r'\(([^()]|\([^()]*\))*\)', fact):
                fact = fact[1:-1]
            yield re.sub(r'\b[a-z_]+\.(?=[a-z])', '', re.sub(r'\.(now|old|new)\b', '', fact))


def parameters(text):
    head = []
    for line in itertools.takewhile(lambda t: not re.match(r'\s*(requires|ensures|\{)', t), text):
        head.append(line)
        if line.endswith('{'):
            break
    head = ' '.join(head)
    return re.findall(r'(\w+): [^,()]+', head[head.find('(') + 1:])


def point5():
    """Facts that three or more functions or structs ask for, and three parameters that three or more take."""
    facts = collections.defaultdict(set)
    groups = collections.defaultdict(set)
    for where, line, name, text in functions():
        here = f'{where} {name}'
        for fact in conjuncts(text):
            facts[fact].add(here)
        for three in itertools.combinations(parameters(text), 3):
            groups[three].add(here)
    for path in FILES:
        for line, name, text in blocks(path, TYPE):
            for fact in conjuncts(text):
                facts[fact].add(f'{name_of(path)} {name}')
    for fact, where in sorted(facts.items(), key=lambda f: -len(f[1])):
        if len(where) >= 3:
            yield f'{len(where)} ask for {fact}: {", ".join(sorted(where))}'
    kept = [(g, w) for g, w in groups.items() if len(w) >= 3]
    sets = collections.defaultdict(set)
    for group, where in kept:
        sets[frozenset(where)] |= set(group)
    for where, names in sorted(sets.items(), key=lambda f: -len(f[0])):
        if not any(where < other and names <= sets[other] for other in sets):
            yield f'{len(where)} functions take {", ".join(sorted(names))}'


def point6():
    """Arrays in structs, parameters, results and locals, most of which have a count beside them."""
    for path in FILES:
        for i, line in enumerate(open(path, encoding='utf-8')):
            array = re.search(r'(: |-> |= )(&mut |&)?\[\w+(\(\w+\))?; \w+\]', line)
            if array and not line.lstrip().startswith(('//', 'const', 'pub const')):
                yield f'{name_of(path)}:{i + 1} {line.strip()}'


def point7():
    """Functions whose whole body picks a function to call by a case."""
    for where, line, name, text in functions():
        body = [t.strip() for t in body_of(text) if t.strip()]
        arms = [t for t in body if '=>' in t]
        if len(arms) >= 2 and body and body[0].startswith('match') and len(arms) + 2 == len(body):
            if all(re.search(r'=> [a-z_:]+\(.*\),$', t) for t in arms):
                yield f'{where}:{line} {name}'


def point8():
    """Proof files of functions, with their lines."""
    for path in sorted(glob.glob(os.path.join(ROOT, 'crates/*/proofs/**/*.antt'), recursive=True)):
        if '/out/' not in path:
            lines = open(path, encoding='utf-8').readlines()
            yield f'{os.path.relpath(path, os.path.join(ROOT, "crates"))} {len(lines)}'


POINTS = {n: globals()[f'point{n}'] for n in range(1, 9)}


def places(section):
    """The list items of a section of the page, each with the number of its point."""
    point, inside, item = None, False, None
    for line in open(os.path.join(ROOT, 'docs/DESIGN-PASS.md'), encoding='utf-8'):
        if item and not line.startswith('  '):
            yield point, item
            item = None
        if line.startswith('## '):
            inside = line.strip() == f'## {section}'
        head = re.match(r'### (\d)\. ', line)
        if inside and head:
            point = int(head.group(1))
        elif inside and line.startswith('- '):
            item = line[2:].strip()
        elif item:
            item += ' ' + line.strip()


def page():
    """Each place is a list item of the page; a kept one ends in `kept: (x)`, and its reason is an item further down."""
    found, kept, reasons = collections.Counter(), collections.Counter(), collections.Counter()
    for point, item in places('What became of the places'):
        found[point] += 1
        kept[point] += bool(re.search(r'; kept: \([abcd]\)$', item))
    for point, item in places('What stays, and why'):
        reasons[point] += bool(re.search(r' \([abcd]\): ', item))
    for n in POINTS:
        print(f'{n}: {found[n]} found, {found[n] - kept[n]} changed, {kept[n]} kept, {reasons[n]} with a reason')


def main():
    if sys.argv[1:] == ['--page']:
        page()
        return
    asked = [int(a) for a in sys.argv[1:] if a.isdigit()]
    if asked:
        for n in asked:
            for line in POINTS[n]():
                print(line)
        return
    for n, find in POINTS.items():
        print(f'{n}: {len(list(find()))}  {find.__doc__}')
    print(f'lines of src: {sum(len(open(f, encoding="utf-8").readlines()) for f in FILES)}')
    print(f'lines of proofs: {sum(int(line.split()[-1]) for line in point8())}')


if __name__ == '__main__':
    main()
