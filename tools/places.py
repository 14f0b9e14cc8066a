#!/usr/bin/env python3
"""Lists the lines of src/ where an older form may stand, for each of eight points (docs/DESIGN-PASS.md).

usage: python3 tools/places.py [FOLDER] [POINT ..]

It goes by text and finds candidates: which of them are places is judged by reading.
"""

import os
import re
import sys
from collections import defaultdict

FUNCTION = re.compile(r'^( *)(?:pub(?:\(crate\))? )?fn (\w+)(?:<[^(]*>)?\(', re.M)


def sources(top):
    for folder, folders, files in sorted(os.walk(os.path.join(top, 'crates'))):
        folders[:] = sorted(f for f in folders if f != 'out')
        if 'src' in folder.split(os.sep):
            for name in sorted(files):
                if name.endswith('.rt'):
                    path = os.path.join(folder, name)
                    with open(path, encoding='utf-8') as file:
                        yield os.path.relpath(path, top), file.read()


def functions(text):
    """Name, line, signature, clauses and body of each function."""
    for found in FUNCTION.finditer(text):
        indent, name = found.group(1), found.group(2)
        rest = text[found.start():]
        ends = [m for m in re.finditer(r'^' + indent + r'(?:\{\}|\}|.*\{\}|.*;)$', rest, re.M)]
        whole = rest[:ends[0].end()] if ends else rest
        first = re.search(r'^' + indent + r'    (?:requires|ensures)|\{$|^' + indent + r'\{', whole, re.M)
        head = whole[:first.start()] if first else whole
        clauses = re.findall(r'^ +(requires|ensures\*?) *(\w*) *\{ (.*) \}$', whole, re.M)
        body = whole.split('\n' + indent + '{\n', 1)
        if len(body) == 1:
            body = whole.split('{\n', 1)
        yield name, text.count('\n', 0, found.start()) + 1, head, clauses, body[1] if len(body) == 2 else ''


def by_lines(pattern):
    wanted = re.compile(pattern)

    def listed(files):
        for path, text in files:
            for number, line in enumerate(text.split('\n'), 1):
                if wanted.search(line) and not line.strip().startswith(('//', 'ghost use')):
                    yield f'{path}:{number}: {line.strip()}'
    return listed


def shape(body):
    words = re.findall(r'[A-Za-z_]\w*|\d\w*|"[^"]*"|\S', body)
    kept = {'for', 'if', 'else', 'match', 'let', 'return', 'while', 'in', 'Ok', 'Err', 'Some', 'None', 'mut'}
    return ' '.join(w if w in kept or not re.match(r'[\w"]', w) else ('0' if re.match(r'[\d"]', w) else 'x') for w in words)


def twins(files):
    seen, values = defaultdict(list), defaultdict(list)
    names = defaultdict(list)
    for path, text in files:
        for name, line, _, _, body in functions(text):
            place = f'{path}:{line}: fn {name}'
            if len(shape(body).split()) >= 12:
                seen[shape(body)].append(place)
            names[name].append(place)
        for found in re.finditer(r'^(?:pub )?const (\w+): \w+ =\s*([^;]*);', text, re.M):
            values[found.group(2)].append(f'{path}:{text.count(chr(10), 0, found.start()) + 1}: const {found.group(1)} = {found.group(2)}')
    trait = {'code', 'bits_per_group', 'chips_per_group', 'spread', 'despread', 'fmt', 'main', 'run', 'new', 'nothing',
             'charge', 'at_most', 'try_from', 'from'}
    for group in [g for k, g in names.items() if k not in trait] + list(seen.values()) + list(values.values()):
        if len(group) > 1:
            yield ' ~ '.join(group)


def repeated(files):
    facts, pairs = defaultdict(set), defaultdict(set)
    for path, text in files:
        for name, line, head, clauses, _ in functions(text):
            place = f'{path}:{line}: fn {name}'
            for kind, _, fact in clauses:
                for part in re.split(r' × ', fact):
                    part = re.sub(r'\.(now|old|new)\b', '', part.strip('() '))
                    if len(part) > 5 and kind == 'requires':
                        facts[part].add(place)
            given = re.findall(r'(\w+): ([^,()]+(?:\([^)]*\))?)', head)
            for i, a in enumerate(given):
                for b in given[i + 1:]:
                    pairs[f'{a[0]}, {b[0]}'].add(place)
    for kind, found in (('fact', facts), ('parameters', pairs)):
        for what, places in sorted(found.items()):
            if len(places) >= 3:
                yield f'{kind} {what}: ' + ' ~ '.join(sorted(places))


POINTS = {
    '1': [('own enums', by_lines(r'\benum \w+')),
          ('a flag beside a value', by_lines(r'\([^()]*, bool\)|^\s*(?:pub )?\w+: bool,')),
          ('results that are bare numbers', by_lines(r'-> (?:u8|u16|u32|u64|usize)$'))],
    '2': [('functions of one shape or name, constants of one value', twins)],
    '3': [('loops', by_lines(r'^\s*(?:\'\w+: )?(?:for|while|loop)\b'))],
    '4': [('written by hand', by_lines(r'fn (?:\w+_of|\w+_named|\w+_letter|letters|number|name|text|eq|cmp|at_most|nothing|of|'
                                       r'bit|is_doubtful|fmt|digit\w*|hex\w*|\w+_text|verdict|push_\w+)\b')),
          ('casts', by_lines(r'self as u\d+'))],
    '5': [('repeated facts and parameters', repeated)],
    '6': [('arrays and parts of them', by_lines(r'\[[^\[\]]*; [A-Za-z0-9_]+\]|&(?:mut )?\w+\[[^\]]*\.\.[^\]]*\]')),
          ('lengths and offsets beside', by_lines(r'\b(?:from|to|start|base|size|count)\b\s*[:+]'))],
    '7': [('switches, functions as values', by_lines(r'match self|\bdyn\b|\bFn(?:Once|Mut)?\(|: fn\('))],
    '8': [],
}


def main():
    top = sys.argv[1] if len(sys.argv) > 1 and not sys.argv[1].isdigit() else '.'
    wanted = [a for a in sys.argv[1:] if a.isdigit()] or sorted(POINTS)
    files = list(sources(top))
    for point in wanted:
        for title, listed in POINTS[point]:
            lines = list(listed(files))
            print(f'point {point}, {title}: {len(lines)}')
            for line in lines:
                print('  ' + line)
        if point == '8':
            answers, lines = 0, 0
            for folder, folders, names in os.walk(os.path.join(top, 'crates')):
                folders[:] = [f for f in folders if f != 'out']
                if 'proofs' in folder.split(os.sep):
                    for name in names:
                        if name.endswith('.antt'):
                            with open(os.path.join(folder, name), encoding='utf-8') as file:
                                text = file.read()
                            lines += text.count('\n')
                            answers += len(re.findall(r'^pub [^ ]+ : goal\.', text, re.M))
            print(f'point 8, answers: {answers}, lines of proofs/: {lines}')


main()
