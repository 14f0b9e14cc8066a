#!/usr/bin/env python3
"""Plants one bug at a time in the sources of a copy of the repository, and says which of them the check still proves.

    python3 tools/plant.py [CRATE..]            try the bugs of all crates, or of these, and write docs/planted-bugs.md
    python3 tools/plant.py --table              write the table once more, from what was found

It works on copies, two at a time, and is no part of the gate. A copy begins with what 'rt check' has kept in out/, so that only what
a bug changes is proved again. The bugs are made from the sources by the rules below, a few in each function, always the same ones; tools/bugs.txt adds
those that no rule makes. For a bug that does not compile the next one of its function is tried.
"""
import concurrent.futures
import functools
import hashlib
import json
import os
import re
import shutil
import subprocess
import sys
import tempfile
import time

ROOT = os.path.dirname(os.path.dirname(os.path.abspath(__file__)))
TABLE = os.path.join(ROOT, 'docs', 'planted-bugs.md')
BY_HAND = os.path.join(ROOT, 'tools', 'bugs.txt')
KEPT = os.path.join(ROOT, 'out', 'planted.json')
WORKERS = 2
# how many bugs of the rules are tried in a function of a library, and of a program
IN_A_LIBRARY, IN_A_PROGRAM = 2, 1

CASES = [
    ['FaultKind::ShortMemory', 'FaultKind::FullFrame', 'FaultKind::EarlyClose', 'FaultKind::PsduLength', 'FaultKind::ShortBuffer',
     'FaultKind::ChipCount', 'FaultKind::ChipValue', 'FaultKind::GroupValue', 'FaultKind::MultiplexedSfd', 'FaultKind::UnknownSfd',
     'FaultKind::Parity', 'FaultKind::RateMode', 'FaultKind::FrameLength', 'FaultKind::Settings', 'FaultKind::Section',
     'FaultKind::BenchLength'],
    ['Layer::Line', 'Layer::Header', 'Layer::Frame', 'Layer::Bench'],
    ['Band::Mhz780', 'Band::Mhz868', 'Band::Mhz915', 'Band::Mhz2450'],
    ['RateMode::Mode0', 'RateMode::Mode1', 'RateMode::Mode2', 'RateMode::Mode3'],
    ['TableCode::Dsss4x1', 'TableCode::Dsss16x1k0', 'TableCode::Dsss16x1k1', 'TableCode::Dsss32x1k0', 'TableCode::Dsss32x1k1',
     'TableCode::Dsss64x1', 'TableCode::Dsss128x1', 'TableCode::Dsss8x4', 'TableCode::Dsss16x4', 'TableCode::Dsss32x4'],
    ['Observation::Sure', 'Observation::Doubtful'],
    ['CostChoice::Count', 'CostChoice::Graded'],
]
NEXT_CASE = {case: cases[(i + 1) % len(cases)] for cases in CASES for i, case in enumerate(cases)}

RELATIONS = {'<': '<=', '<=': '<', '>': '>=', '>=': '>', '==': '!=', '!=': '=='}
OPERATORS = {'+': '-', '-': '+', '*': '+', '/': '%', '%': '/', '<<': '>>', '>>': '<<', '^': '&', '&': '|', '+=': '-=', '|=': '^=', '^=': '|='}
LOGIC = {'&&': '||', '||': '&&'}


def replaced(line, match, text):
    return line[:match.start()] + text + line[match.end():]


def in_text(line, at):
    return line[:at].count('"') % 2 == 1


def relations(line):
    for m in re.finditer(r'(?<= )(<=|>=|==|!=|<|>)(?= )', line):
        yield 'relation', replaced(line, m, RELATIONS[m.group()])


def operators(line):
    for m in re.finditer(r'(?<= )(<<|>>|\+=|\|=|\^=|[-+*/%^&])(?= )', line):
        yield 'operator', replaced(line, m, OPERATORS[m.group()])


def logic(line):
    for m in re.finditer(r'(?<= )(&&|\|\|)(?= )', line):
        yield 'and, or', replaced(line, m, LOGIC[m.group()])
    for m in re.finditer(r'\b(true|false)\b', line):
        yield 'truth value', replaced(line, m, 'false' if m.group() == 'true' else 'true')
    for m in re.finditer(r'(?<![\w!])!(?=[a-z])', line):
        yield 'negation', replaced(line, m, '')


def constants(line):
    for m in re.finditer(r'(?<![\w.\'"])(0x[0-9A-Fa-f]+|\d+)(?![\w."\'])', line):
        if line[:m.start()].endswith('; ') or in_text(line, m.start()):
            continue
        n = m.group()
        yield 'constant', replaced(line, m, f'0x{int(n, 16) + 1:X}' if n.startswith('0x') else str(int(n) + 1))


def indices(line):
    for m in re.finditer(r'(?<=\w\[)([a-z]\w*)(?=\])', line):
        yield 'another index', replaced(line, m, f'{m.group()} / 2')


def cases(line):
    for m in re.finditer(r'\b[A-Z]\w+::[A-Z]\w+\b', line):
        if m.group() in NEXT_CASE and '=>' not in line[m.end():]:
            yield 'another case', replaced(line, m, NEXT_CASE[m.group()])


def conditions(line):
    m = re.search(r'\bif (?!let)(.+) \{$', line)
    if m and m.group(1) not in ('true', 'false'):
        yield 'missed case', line[:m.start(1)] + 'false' + line[m.end(1):]


def statements(line):
    if re.match(r'^\s*[\w.\[\] +*&-]+ (=|\+=|\^=|\|=) .*;$', line) and ' let ' not in line and not line.strip().startswith('let '):
        yield 'dropped write', re.match(r'^\s*', line).group() + '{}'
    elif re.match(r'^\s*[\w:.]+\(.*\)\??;$', line):
        yield 'dropped call', re.match(r'^\s*', line).group() + '{}'
    if re.match(r'^\s*[\w.\[\]*]+ (\+=|\^=) .*;$', line) or re.match(r'^\s*\w+\.push\w*\(.*\)\?;$', line):
        yield 'doubled write', line + ' ' + line.strip()


def arguments(line):
    for m in re.finditer(r'(?<=\w\()([\w.*&!]+), ([\w.*&!]+)(?=[,)])', line):
        if m.group(1) != m.group(2) and not in_text(line, m.start()):
            yield 'swapped arguments', replaced(line, m, f'{m.group(2)}, {m.group(1)}')


def parts(line):
    m = re.search(r'\bSome\((?!_)(.+)\)(?=[,;)]*$)', line)
    if m and '=>' not in line[m.end():]:
        yield 'nothing answered', replaced(line, m, 'None')


def texts(line):
    m = re.search(r'(println!|print!|write!|format!|eprintln!).*"([^"]*[a-z])', line) or re.search(r'=> "([a-z])', line)
    if m:
        at = m.end() - 1
        yield 'another text', line[:at] + ('x' if line[at] != 'x' else 'y') + line[at + 1:]


RULES = [relations, constants, statements, cases, conditions, arguments, operators, logic, indices, parts, texts]


@functools.cache
def state_of(crate):
    """A sum over all that the check of a crate reads of it."""
    found = hashlib.sha256()
    for part in ['src', 'specs', 'proofs']:
        for folder, _, names in sorted(os.walk(os.path.join(ROOT, 'crates', crate, part))):
            for name in sorted(names):
                with open(os.path.join(folder, name), 'rb') as file:
                    found.update(name.encode() + file.read())
    return found.hexdigest()[:16]


class Bug:
    def __init__(self, crate, file, line, kind, function, old, new):
        self.crate, self.file, self.line, self.kind, self.function, self.old, self.new = crate, file, line, kind, function, old, new

    def mark(self):
        return hashlib.sha256('\0'.join([self.crate, self.file, self.function, self.old, self.new]).encode()).hexdigest()

    def key(self):
        return f'{state_of(self.crate)} {self.line} {self.mark()}'


def functions(lines):
    """The lines of code of a source, each with its number and its function: bodies of functions, and constants."""
    function, state, indent = '', 'outside', ''
    for number, line in enumerate(lines):
        stripped = line.strip()
        if state == 'outside':
            m = re.match(r'^(\s*)(pub(\(crate\))? )?(const )?fn (\w+)', line)
            if m:
                function, indent = m.group(5), m.group(1)
                state = 'body' if line.endswith('{') else 'outside' if line.endswith(';') else 'signature'
            elif re.match(r'^\s*(pub )?const \w+:', line):
                yield number, line, 'constants'
        elif state == 'signature':
            if stripped == '{' or (line.startswith(indent + ')') and line.endswith('{')):
                state = 'body'
            elif line.endswith(';') and not stripped.startswith(('requires', 'ensures')):
                state = 'outside'
        elif line == indent + '}':
            state = 'outside'
        elif stripped and not stripped.startswith('//'):
            yield number, line, function


def made(crate):
    """The bugs that the rules make in a crate, a list for each function."""
    lists = []
    top = os.path.join(ROOT, 'crates', crate, 'src')
    for folder, _, names in sorted(os.walk(top)):
        for name in sorted(names):
            path = os.path.join(folder, name)
            of_function = {}
            with open(path) as source:
                lines = source.read().split('\n')
            for number, line, function in functions(lines):
                for rule in RULES:
                    for kind, new in rule(line):
                        if new != line:
                            bug = Bug(crate, os.path.relpath(path, os.path.join(ROOT, 'crates', crate)), number + 1, kind, function, line, new)
                            of_function.setdefault(function, {}).setdefault(rule.__name__, []).append(bug)
            lists.extend(in_turn(by_rule) for by_rule in of_function.values())
    return lists


def in_turn(by_rule):
    """A function's bugs, one of each rule in turn; which comes first goes by their texts, not by where they stand."""
    queues = sorted((sorted(bugs, key=Bug.mark) for bugs in by_rule.values()), key=lambda queue: queue[0].mark())
    ordered = []
    while any(queues):
        ordered.extend(queue.pop(0) for queue in queues if queue)
    return ordered


def wanted(bugs, results):
    """Of a function's bugs the first ones that compile, as far as is known, and the next one to try where these are too few."""
    most = IN_A_PROGRAM if is_program(bugs[0].crate) else IN_A_LIBRARY
    kept = []
    for bug in bugs:
        result = results.get(bug.key())
        if result is None:
            return kept, bug
        if result[0] != 'no compile':
            kept.append(bug)
        if len(kept) == most:
            break
    return kept, None


def by_hand():
    """The bugs of tools/bugs.txt, and the reasons for those of which it says that the behaviour stays the same."""
    bugs, same, fields = [], {}, {}
    with open(BY_HAND) as text:
        for line in text.read().split('\n') + ['']:
            if line.startswith('#'):
                continue
            if line:
                name, _, value = line.partition(': ')
                fields[name] = value
            elif fields:
                if 'same' in fields:
                    same[fields['crate'], fields['was'], fields['planted']] = fields['same']
                else:
                    bugs.append(found(fields))
                fields = {}
    return bugs, same


def found(fields):
    path = os.path.join(ROOT, 'crates', fields['crate'], fields['file'])
    with open(path) as source:
        lines = source.read().split('\n')
    places = [(n, line, f) for n, line, f in functions(lines) if fields['was'] in line]
    if len(places) != 1:
        sys.exit(f"{BY_HAND}: '{fields['was']}' stands {len(places)} times in {path}")
    number, line, function = places[0]
    return Bug(fields['crate'], fields['file'], number + 1, fields['kind'], function, line, line.replace(fields['was'], fields['planted']))


def is_program(crate):
    return os.path.exists(os.path.join(ROOT, 'crates', crate, 'src', 'main.rt'))


class Worker:
    """A copy of the repository, in which one bug at a time is planted."""

    def __init__(self, folder):
        self.folder = folder
        for part in ['crates', 'crates.txt', 'ci']:
            subprocess.run(['cp', '-R', os.path.join(ROOT, part), folder], check=True)

    def run(self, *words, where='.', **how):
        where = os.path.join(self.folder, where)
        done = subprocess.run(words, cwd=where, stdin=how.get('stdin', subprocess.DEVNULL), stdout=subprocess.PIPE, stderr=subprocess.STDOUT, text=True, errors='replace')
        return done.returncode, done.stdout

    def forget(self, crate):
        """What an earlier bug in the crate left of its proof and of its program."""
        kept = os.path.join('crates', crate, 'out')
        shutil.rmtree(os.path.join(self.folder, kept), ignore_errors=True)
        if os.path.isdir(os.path.join(ROOT, kept)):
            subprocess.run(['cp', '-R', os.path.join(ROOT, kept), os.path.join(self.folder, kept)], check=False)

    def plant(self, bug):
        path = os.path.join('crates', bug.crate, bug.file)
        with open(os.path.join(ROOT, path)) as source:
            lines = source.read().split('\n')
        assert lines[bug.line - 1] == bug.old
        lines[bug.line - 1] = bug.new
        with open(os.path.join(self.folder, path), 'w') as source:
            source.write('\n'.join(lines))
        began = time.time()
        try:
            return (*self.verdict(bug), round(time.time() - began))
        finally:
            shutil.copy(os.path.join(ROOT, path), os.path.join(self.folder, path))
            self.forget(bug.crate)

    def verdict(self, bug):
        if is_program(bug.crate):
            return self.by_running(bug.crate)
        status, said = self.run('rt', 'check', where=os.path.join('crates', bug.crate))
        return judged(status, said) if status != 0 else ('survived', '')

    def by_running(self, program):
        """Builds the program and compares what it writes, also by the script that the gate runs."""
        folder = os.path.join('crates', program)
        built = os.path.join(self.folder, folder, 'out', program)
        if os.path.exists(built):
            os.remove(built)
        status, said = self.run('rt', 'run', where=folder)
        if not os.path.exists(built):
            return judged(status, said)
        if self.written(program, built) != self.given(program, 'stdout'):
            return 'caught', 'by its output'
        status, said = self.run('sh', 'ci/bench.sh', '.')
        return ('survived', '') if status == 0 else ('caught', 'by ci/bench.sh: ' + said.strip().split('\n')[0][:120])

    def given(self, program, name):
        path = os.path.join(self.folder, 'crates', program, name)
        return open(path, 'rb').read() if os.path.exists(path) else b''

    def written(self, program, built):
        """What the program writes, where its data lie and with its arguments and its input."""
        data = os.path.join(self.folder, 'crates', program, 'data')
        words = [built, *self.given(program, 'args').decode().split('\n')]
        where = data if os.path.isdir(data) else self.folder
        try:
            return subprocess.run([w for w in words if w], cwd=where, input=self.given(program, 'stdin'), stdout=subprocess.PIPE, stderr=subprocess.DEVNULL, timeout=120).stdout
        except subprocess.TimeoutExpired:
            return b'no end'


def judged(status, said):
    if 'logic=not-proved' not in said:
        first = re.search(r'^.*error.*$', said, re.M)
        return 'no compile', first.group()[:160] if first else f'status {status}'
    open_goal = re.search(r'^note: (src/\S+?):\d+: .*?\(`([^`]*)`\)', said, re.M)
    if open_goal:
        values = re.search(r'fails at (.*)$', said, re.M)
        at = [f'{name} = {value}' for name, value in re.findall(r'`c\.args\.(\w+)` = `([^`()]*)`', values.group(1))] if values else []
        return 'refused', f'`{open_goal.group(2)}` of {open_goal.group(1)}' + (', at ' + ', '.join(at[:3]) if at else '')
    first = re.search(r'((?:src|proofs|specs)/[^\s:]+(?::\d+)?)\S*: error(.*)$', said, re.M)
    if first:
        return 'refused', first.group(1) + first.group(2)[:90]
    return 'refused', ''


class Trial:
    """Tries bugs on two copies at a time. What an earlier run found of the same bug in the same crate is taken over."""

    def __init__(self, known):
        self.results = known

    def one(self, worker, bug):
        result = worker.plant(bug)
        self.results[bug.key()] = result
        print(f'{bug.crate}/{bug.file}:{bug.line} {bug.kind}: {bug.old.strip()} => {bug.new.strip()}: {" ".join(map(str, result))}', flush=True)
        os.makedirs(os.path.dirname(KEPT), exist_ok=True)
        with open(KEPT + '.new', 'w') as kept:
            json.dump(dict(self.results), kept)
        os.replace(KEPT + '.new', KEPT)

    def all_of(self, worker, lists):
        for bugs in lists:
            while (bug := wanted(bugs, self.results)[1]) is not None:
                self.one(worker, bug)

    def run(self, lists):
        with tempfile.TemporaryDirectory() as folder, concurrent.futures.ThreadPoolExecutor(WORKERS) as pool:
            halves = []
            for i in range(WORKERS):
                os.mkdir(os.path.join(folder, str(i)))
                halves.append(pool.submit(self.all_of, Worker(os.path.join(folder, str(i))), lists[i::WORKERS]))
            for half in halves:
                half.result()


def code(text):
    return '`` ' + text.strip().replace('|', '\\|') + ' ``'


def outcome(bug, result, same):
    what, detail = result[0], result[1]
    if what == 'survived':
        why = same.get((bug.crate, bug.old.strip(), bug.new.strip()))
        return f'same behaviour: {why}' if why else '**SURVIVED**'
    return f'{what}: {detail.replace("|", chr(92) + "|")}' if detail else what


def write_table(bugs, results, same):
    rows = sorted(((b, results[b.key()]) for b in bugs), key=lambda row: (row[0].crate, row[0].file, row[0].line))
    count = {}
    for bug, result in rows:
        word = outcome(bug, result, same).split(':')[0].strip('*').lower()
        count[word] = count.get(word, 0) + 1
    with open(TABLE, 'w') as out:
        out.write(HEAD.format(total=len(rows), crates=len({b.crate for b, _ in rows}), counts=', '.join(f'{n} {w}' for w, n in sorted(count.items()))))
        for crate in sorted({b.crate for b, _ in rows}):
            out.write(f'\n## {crate}\n\n| Function | Kind | Was | Planted | What happened |\n|---|---|---|---|---|\n')
            for bug, result in rows:
                if bug.crate == crate:
                    out.write(f'| `{bug.function}` | {bug.kind} | {code(bug.old)} | {code(bug.new)} | {outcome(bug, result, same)} |\n')
    print(f'{len(rows)} bugs: {count}')


HEAD = """# Planted bugs

"Proved" says no more than the contracts say. So bugs are planted in the sources, one at a time, and the check is run on each: a contract that says enough refuses it. `python3 tools/plant.py` makes the bugs and this table; it works on copies, and is no part of the gate. Up to two bugs are planted in each function of a library and one in each function of a program, by rules that are blind to the contracts; `tools/bugs.txt` adds those that no rule makes, such as a bit order turned, two checks exchanged, or memory written though a call is refused.

- **refused**: the prover refuses the crate; where it found values at which a fact fails, they stand behind it, else the place of the first fact that is left open.
- **caught**: still proved, since no contract can say what a program reads and prints; the comparison of a program's output, or `ci/bench.sh`, finds it.
- **same behaviour**: still proved, and rightly: the planted code does the same.

{total} bugs in {crates} crates: {counts}.
"""


def main(words):
    hand, same = by_hand()
    crates = [w for w in words if not w.startswith('--')]
    lists = [bugs for crate in sorted(os.listdir(os.path.join(ROOT, 'crates'))) for bugs in made(crate) + [[h] for h in hand if h.crate == crate]]
    trial = Trial(json.load(open(KEPT)) if os.path.exists(KEPT) else {})
    if not words or crates:
        trial.run([bugs for bugs in lists if not crates or bugs[0].crate in crates])
    write_table([bug for bugs in lists for bug in wanted(bugs, trial.results)[0]], trial.results, same)


if __name__ == '__main__':
    main(sys.argv[1:])
