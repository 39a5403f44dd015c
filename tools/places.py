#!/usr/bin/env python3
"""Lists the places in src/ (and counts, in proofs/) that a newer form of the language might serve better.

    python3 tools/places.py [REPOSITORY]        the counts, a line for each rule
    python3 tools/places.py -v [REPOSITORY]     and each place

It goes by text, so it finds more than there is to change. docs/DESIGN-PASS.md judges each place."""
import collections
import pathlib
import re
import sys

verbose = '-v' in sys.argv[1:]
rest = [a for a in sys.argv[1:] if a != '-v']
root = pathlib.Path(rest[0] if rest else '.')
sources = [(p.relative_to(root), p.read_text()) for p in sorted(root.glob('crates/*/src/**/*.rt'))]


def lines_of(pattern, after=None):
    """Lines that fit the pattern, right after a line that fits `after` if that is given."""
    found = []
    for path, text in sources:
        lines = [''] + text.splitlines()
        for n in range(1, len(lines)):
            if re.search(pattern, lines[n]) and (after is None or re.search(after, lines[n - 1])):
                found.append(f'{path}:{n}: {lines[n].strip()}')
    return found


def closing(text, at):
    """Where the bracket that is open at a place closes."""
    depth = 1
    while depth:
        depth += {'(': 1, '{': 1, ')': -1, '}': -1}.get(text[at], 0)
        at += 1
    return at


def functions():
    """Each function: its crate, its name, its parameters and its clauses."""
    clause = re.compile(r'[^{};]*?\b(?:requires|ensures)\s*\w*\s*\{', re.S)
    for path, text in sources:
        for m in re.finditer(r'\bfn (\w+)(?:<[^(]*>)?\(', text):
            at = closing(text, m.end())
            parameters = re.split(r',(?![^<\[(]*[>\])])', text[m.end():at - 1])
            clauses = []
            while c := clause.match(text, at):
                at = closing(text, c.end())
                clauses.append(' '.join(text[c.end():at - 1].split()))
            yield path.parts[1], m.group(1), [p.strip() for p in parameters if p.strip()], clauses


def facts(clause):
    """The premises and conjuncts that a clause is made of."""
    parts, depth = [''], 0
    for token in re.split(r'( → | × |[()])', clause):
        depth += {'(': 1, ')': -1}.get(token, 0)
        if token in (' → ', ' × ') and depth == 0:
            parts.append('')
        else:
            parts[-1] += token
    return {re.sub(r'self\.(old|new|now)', 'self', p.strip()) for p in parts
            if p.strip() and p.strip() != '⊥' and not re.fullmatch(r'\([\w ]+ : [^()]*\)', p.strip())}


def repeated_facts():
    where = collections.defaultdict(set)
    for crate, name, _, clauses in functions():
        for clause in clauses:
            for fact in facts(clause):
                where[crate, fact].add(name)
    return [f'{crate}: {fact}   in {", ".join(sorted(names))}'
            for (crate, fact), names in sorted(where.items()) if len(names) >= 3]


def travelling():
    where = collections.defaultdict(list)
    for crate, name, parameters, _ in functions():
        plain = [p for p in parameters if not re.match(r'(&|mut |&mut )?self\b', p)]
        for i, p in enumerate(plain):
            for q in plain[i + 1:]:
                where[crate, p, q].append(name)
    return [f'{crate}: {p}, {q}   in {", ".join(names)}'
            for (crate, p, q), names in sorted(where.items()) if len(names) >= 3]


RULES = [
    ('1', 'enums of our own', lambda: lines_of(r'^\s*(pub(\([a-z]+\))? )?enum ')),
    ('1', 'arms that only rewrap an Option or a Result', lambda: lines_of(r'^\s*(Some|None|Ok|Err)(\(.*\))? => (return )?(\(?(Some|None|Ok|Err|refuse|Line::NotUnderstood)\b|\{$)')),
    ('1', '`let .. else` that returns an error', lambda: lines_of(r'return (Err|None|Line)', r'let (Some|Ok)\(.*\) = .* else \{')),
    ('1', '`let .. else` that cannot be reached', lambda: lines_of(r'unreachable', r'let (Some|Ok)\(.*\) = .* else \{')),
    ('1', 'a fault in an Option', lambda: lines_of(r'Option<Fault>')),
    ('3', 'loops', lambda: lines_of(r'^\s*(for|while) ')),
    ('3', 'loops over numbers, or with a count, or `while`', lambda: lines_of(r'^\s*for .* in \(?\w+\.\.|^\s*for .*enumerate|^\s*while ')),
    ('3', 'counting by one', lambda: lines_of(r'\+= 1;')),
    ('4', 'comparing, converting, printing by hand', lambda: lines_of(r"== b'|fn (is_before|bytes_before|same|is_between|is_letter|is_mark|copy_of|as_bytes|as_text|into_runs|number|layer|refuse|is_fault|is_part|stands|are)\b|fn new\(text")),
    ('4', 'structs and enums without PartialEq', lambda: lines_of(r'(struct|enum) ', r'#\[derive\((?!.*PartialEq)')),
    ('5', 'a fact in three contracts or more', repeated_facts),
    ('5', 'two parameters together in three functions or more', travelling),
    ('6', 'arrays in structs', lambda: lines_of(r'^\s*(pub(\([a-z]+\))? )?\w+: \[\w+; \w+\],')),
    ('7', 'a step chosen by a value', lambda: lines_of(r'match (self|joints|class) \{')),
    ('7', 'closures taken', lambda: lines_of(r'\bFn(Mut|Once)?\(')),
]

for point, what, find in RULES:
    found = find()
    print(f'{point}  {len(found):4}  {what}')
    if verbose:
        for place in found:
            print('           ', place)

answers = [p.read_text() for p in root.glob('crates/*/proofs/**/Answers.antt')]
count = sum(len(re.findall(r'^pub \S+ : goal\.', text, re.M)) for text in answers)
print(f'8  {count:4}  answers, in {len(answers)} files')
lemmas = [p.read_text() for p in root.glob('crates/*/proofs/*.antt')]
count = sum(len(re.findall(r'^(?:abbrev )?(?:pub )?[^\s:()]+ : ', text, re.M)) for text in lemmas)
print(f'8  {count:4}  lemmas and definitions in proofs/, in {sum(t.count(chr(10)) for t in lemmas)} lines')
