#!/usr/bin/env python3
"""Brings this repository's own definitions, lemmas and local names to one spelling: snake case, as the library's.

    python3 tools/respell.py            rewrite crates/ in place; once, right after the kit's own script
    python3 tools/respell.py --look     write nothing, and say which names would fall together in a file

It goes by words. A word is respelled where it starts with a small letter and has a dash between letters or digits, or a capital behind
a small letter, and where it is ours: not brought in from a library of the kit, not a name that the prover makes of the code (the name of
a goal, and what stands first behind 'goal.', 'c.' and the like), not a number, and not in a text or a comment. Types and modules keep their
capitals. The names of ALIKE would fall together with a definition, and get another ending.
"""
import collections
import glob
import re
import sys

NAME = r"[^\s(){}.;,@\"«»]+"
WORD = re.compile(r'"(?:\\.|[^"\\])*"|--[^\n]*|' + NAME)
RUST_WORD = re.compile(r'"(?:\\.|[^"\\])*"|//[^\n]*|[\w\'][\w\'-]*')
USE = re.compile(r"(?m)^[^\S\n]*(?:ghost )?use ([^\s;{]+?)(?:\.?\{([^}]*)\})?(?: as (\S+?))?;?[^\S\n]*$")
OLD_SPELLING = re.compile(r"(?![A-Z0-9])(?=.*(?:[A-Za-z0-9]-[A-Za-z0-9]|[a-z0-9][A-Z]))")
MADE = re.compile(r"field-\d+|(?:then|else|in)-.*|\w+-(?:index|items|iterator)")
LABELLED = re.compile(r'/(Answers|Invariants)\.antt$')
ROOTS = re.compile(r"(?<![\w.'-])(?:goal|need|c|w|l|g)\.$")

# lemmas and fields whose plain spelling is that of the definition that they speak of
ALIKE = {
    'bit-at': 'bit_at_lem',
    'bit-of': 'bit_of_lem',
    'doubt-of': 'doubt_of_lem',
    'header-chips': 'chips_of_header',
    'last-doubt': 'next_last_doubt',
    'least-distance': 'least_distance_lem',
    'message-length': 'length_of_message',
    'read-after': 'read_after_lem',
    'whole-answer': 'whole_answer_lem',
    'whole-chips': 'whole_chips_lem',
}
# in these crates alone: a name that the kit's script has respelled already
IN_CRATE = {
    'frames': {'last_bit': 'next_last_bit'},
    'reading': {'last_bit': 'next_last_bit', 'read_answer': 'read_answer_lem'},
}


def own_crates():
    with open('crates.txt', encoding='utf-8') as f:
        return {line.split(':')[0].strip() for line in f if ':' in line and not line.startswith('#')}


def declared(files):
    """The names that our own definitions and lemmas have; a label of a proof file counts for nothing, but may be one of them."""
    names = set()
    for path in files:
        if path.endswith('.antt') and not re.search(r'/(Answers|Invariants|Proof)\.antt$', path):
            with open(path, encoding='utf-8') as f:
                names.update(re.findall(rf"(?m)^ *(?:(?:unfoldable|abbrev|pub) )*({NAME})(?: \{{[^{{}}\n]*\}})* :\s", f.read()))
    return names


def respelled(name):
    if name in ALIKE:
        return ALIKE[name]
    return re.sub(r"(?<=[a-z0-9])[A-Z]", lambda m: '_' + m[0].lower(), name).replace('-', '_')


def of_libraries(text, own):
    """The names that a file brings in from libraries of the kit."""
    names = set()
    for path, items, alias in USE.findall(text):
        steps = path.split('.')
        if not (steps[0] == 'Rattle' and len(steps) > 1 and steps[1] in own):
            names.update(it.strip() for it in items.split(',')) if items else names.add(alias or steps[-1])
    return names


def turned(path, text, own, ours_declared):
    """The text, respelled, and for each new word the words that it stands for."""
    theirs = of_libraries(text, own)
    goals = set(re.findall(rf"(?m)^(?:abbrev )?(?:pub )?({NAME}) : (?:goal|need)\.", text))
    crate = IN_CRATE.get(path.split('/')[1], {})
    stands_for = collections.defaultdict(set)

    def one(m):
        word = m.group()
        new = word
        before = text[max(0, m.start() - 200):m.start()]
        library = re.search(r"Rattle\.(\w+)(?:\.[\w·]+)*\.$", before)
        ours = not (library and library[1] not in own)
        if word in crate and word not in theirs:
            new = crate[word]
        elif (ours and OLD_SPELLING.match(word) and not re.match(r'["/]|--', word) and word not in theirs and word not in goals
                and not (MADE.fullmatch(word) and word not in ours_declared) and not (LABELLED.search(path) and ROOTS.search(before))):
            new = respelled(word)
        if not re.match(r'["/]|--', word):
            stands_for[new].add(word)
        return new

    return (WORD if path.endswith('.antt') else RUST_WORD).sub(one, text), stands_for


def main():
    own = own_crates()
    look = '--look' in sys.argv[1:]
    files = sorted(it for kind in ('specs/**/*.antt', 'proofs/**/*.antt', 'src/**/*.rt') for it in glob.glob(f'crates/*/{kind}', recursive=True))
    names = declared(files)
    changed = 0
    for path in files:
        with open(path, encoding='utf-8') as f:
            text = f.read()
        new, stands_for = turned(path, text, own, names)
        for word, words in sorted(stands_for.items()):
            if len(words) > 1:
                print(f"look: {path}: {', '.join(sorted(words))} are {word} now")
        changed += new != text
        if not look and new != text:
            with open(path, 'w', encoding='utf-8') as f:
                f.write(new)
    for path in sorted(glob.glob('crates/*/must-fail/*.edit')):
        with open(path, encoding='utf-8') as f:
            text = f.read()
        new = turned(path.replace('.edit', '.antt' if 'file: specs/' in text else '.rt'), text, own, names)[0]
        changed += new != text
        if not look and new != text:
            with open(path, 'w', encoding='utf-8') as f:
                f.write(new)
    print(f"respell: {changed} files")


if __name__ == '__main__':
    main()
