#!/usr/bin/env python3
"""Plants wrong code, or weaker definitions, one at a time, and says how each is refused.

    python3 tools/planted.py COPY FILE [WORD]            has the check try each
    python3 tools/planted.py --tests COPY FILE [WORD]    has the tests try each, with no proof

COPY is a clone of the repository that may be spoilt; its crates are put back after each bug. FILE is one of
planted/*.edits, which list bugs: a line `bug: WHAT`, a line `crate: NAME`, and pairs of `old:` and `new:` under a line
`file:`, as in a must-fail edit. A line `tests:` names the crates of tests, and programs, that should tell them. With
WORD, only the bugs that have it in their first line are planted.

A refusal should be a fact that fails, and not proof text that no longer fits. So in wrong code each answer in proofs/
that fails is taken out, the search is asked in its place, and the check is run again, to the end:

    GOAL      a goal stays open that the search finds in the right code
    ANSWER    goals stay open, and the answer of one proves something else than the wrong code asks
    LOOK      goals stay open, and their answers only named steps that the wrong code does not take
    LEMMA     a lemma fails
    PROVED    some promise is too weak, or the edit changes nothing

A weaker definition, an edit in specs/, may come with proof text that fits it. It is checked in its own crate, and while
that is proved in the crates above it: REFUSED in the first that is not proved, with what failed there."""
import collections
import pathlib
import re
import subprocess
import sys

ROUNDS = 16
GONE = re.compile('has no |can(not)? be named|no constructor|bind a name|needs a|not found|no longer|nearest:')
OPEN = r'^note: (src/\S+?): (?:it is not proved that|`search` found no proof) (.*)$'

Bug = collections.namedtuple('Bug', 'what crate edits')
Said = collections.namedtuple('Said', 'answers lemmas goals errors')


def listed(text):
    """The bugs that a file lists."""
    for part in re.split(r'^bug: ', text, flags=re.M)[1:]:
        what, *lines = part.split('\n')
        crate, edits = '', []
        for line in lines:
            word, _, rest = line.partition(':')
            rest = rest.removeprefix(' ')
            if word == 'crate':
                crate = rest
            elif word == 'file':
                file = rest
            elif word == 'old':
                old = rest
            elif word == 'new':
                edits.append((file, old, rest))
        if not crate or not edits:
            sys.exit(f'nothing is planted: {what}')
        yield Bug(what, crate, edits)


def plant(folder, edits):
    """Makes the edits. Each old text has to stand exactly once."""
    for file, old, new in edits:
        path = folder / file
        text = path.read_text()
        if text.count(old) != 1:
            sys.exit(f'{file} has {text.count(old)} times: {old}')
        path.write_text(text.replace(old, new))


def put_back(copy):
    subprocess.run(['git', 'checkout', '-q', '--', 'crates'], cwd=copy, check=True)


def run(folder, *words, **rest):
    done = subprocess.run(['rt', *words], cwd=folder, capture_output=True, text=True, errors='replace', **rest)
    return done.returncode == 0, done.stdout + done.stderr


def read(said):
    """What a check says: answers and lemmas that fail, each by file, line and text, open goals, and errors in the code."""
    faults = [(m[1], int(m[2]), m[3]) for m in re.finditer(r'^\./(proofs/\S+?):(\d+):\d+: error: (.*)$', said, re.M)]
    answers = [f for f in faults if f[0].count('/') > 1]
    goals = [f'{m[1]}: {m[2]}' for m in re.finditer(OPEN, said, re.M)]
    errors = re.findall(r'^(?:\./)?((?:src|specs)/\S+?: error.*)$', said, re.M)
    return Said(answers, [f for f in faults if f not in answers], goals, errors)


def take_out(folder, fault):
    """Takes out what fails: the names of an import that are not there, or else a whole answer. Answers its name."""
    file, number, said = fault
    path = folder / file
    lines = path.read_text().split('\n')
    line = lines[number - 1]
    if line.startswith('use '):
        head, _, names = line.rstrip('}').rpartition('{')
        lacking = re.findall('`([^`]+)`', said)
        left = [name for name in names.split(', ') if name.split(' as ')[0] not in lacking]
        lines[number - 1] = head + '{' + ', '.join(left) + '}' if left else ''
        name = None if left == names.split(', ') else 'an import'
    else:
        blanks = [-1] + [i for i, l in enumerate(lines) if not l.strip()] + [len(lines)]
        first = max(i for i in blanks if i < number) + 1
        last = min(i for i in blanks if i >= number)
        names = [m[1] for l in lines[first:last] for m in [re.match(r'(?:abbrev )?(?:pub )?(\S+) :', l)] if m]
        del lines[first:last]
        name = names[0] if names and file.endswith('Answers.antt') else None
    if name:
        path.write_text('\n'.join(lines))
    return name


def refused(folder):
    """How wrong code is refused: in which way, without which answers, and what is left."""
    without, other, only = [], [], []
    for _ in range(ROUNDS):
        proved, text = run(folder, 'check', *(w for name in only for w in ('--only', name)))
        if proved and only:
            only = []
            continue
        if proved:
            return 'PROVED', without, []
        said = read(text)
        found = [goal for goal in said.goals if not any(f'`{name}`' in goal or f'`{name}-clause-' in goal for name in without)]
        if found:
            return 'GOAL', without, found
        if said.lemmas:
            return 'LEMMA', without, said.lemmas
        name = take_out(folder, said.answers[0]) if said.answers else None
        if name is None:
            kind = 'NO PROGRAM' if not said.goals else 'ANSWER' if other else 'LOOK'
            return kind, without, other + said.goals + said.answers + said.errors
        if not GONE.search(said.answers[0][2]):
            other.append(said.answers[0])
        without.append(name)
        only = sorted(set(re.findall(r'^fn (\S+?): (?:not proved$|no proof: expected)', text, re.M)))
    return 'NO END', without, other


def above(copy, crate):
    """The crate and those that are built on it, in order."""
    found = [crate]
    for line in (copy / 'crates.txt').read_text().split('\n'):
        name, _, uses = line.partition(':')
        if set(uses.split()) & set(found):
            found.append(name)
    return found


def refused_above(copy, crate):
    """How a weaker definition is refused: in which crate, and what fails there."""
    for name in above(copy, crate):
        proved, text = run(copy / 'crates' / name, 'check')
        if not proved:
            said = read(text)
            return f'REFUSED in {name}', [], said.lemmas + said.answers + said.goals + said.errors
    return 'PROVED', [], []


def told(copy, crates):
    """Which tests tell the bug, with no proof."""
    telling = []
    for name in crates:
        folder = copy / 'crates' / name
        if (folder / 'stdout').exists():
            with open(folder / 'stdin') as given:
                _, text = run(folder, 'try', stdin=given)
            if (folder / 'stdout').read_text() not in text:
                telling.append(name)
        else:
            _, text = run(folder, 'try', '--test')
            telling += re.findall(r'^test (\S+) \.\.\. FAILED', text, re.M)
    return 'TOLD' if telling else 'NOT TOLD', [], telling


def main():
    by_tests = '--tests' in sys.argv
    copy, file, *words = [pathlib.Path(word) for word in sys.argv[1:] if word != '--tests']
    text = file.read_text()
    tests = re.search(r'^tests: (.*)$', text, re.M)
    if by_tests and not tests:
        sys.exit(f'{file} names no tests')
    counts = collections.Counter()
    for bug in listed(text):
        if words and str(words[0]) not in bug.what:
            continue
        put_back(copy)
        plant(copy / 'crates' / bug.crate, bug.edits)
        if by_tests:
            kind, without, left = told(copy, tests[1].split())
        elif any(file.startswith('specs/') for file, _, _ in bug.edits):
            kind, without, left = refused_above(copy, bug.crate)
        else:
            kind, without, left = refused(copy / 'crates' / bug.crate)
        put_back(copy)
        counts[kind] += 1
        print(f'{kind}: {bug.what}')
        if without:
            print('    without', ', '.join(without))
        for line in left[:4]:
            print('   ', (line if isinstance(line, str) else '{}:{}: {}'.format(*line))[:240])
        sys.stdout.flush()
    print(', '.join(f'{n} {kind}' for kind, n in counts.items()))


if __name__ == '__main__':
    main()
