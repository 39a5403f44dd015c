#!/usr/bin/env python3
"""Spells this repository's own definitions and lemmas in snake case, as today's Rattle does.

usage: tools/respell.py [FOLDER]     after port.py, once, in the repository at FOLDER (default: here)

A name that specs/ or proofs/ declare, with a dash or a capital inside, gets underscores and small letters: in every
.antt file, in the ghost text of every .rt file and in every must-fail edit. Names of the library, and the names that
Rattle makes of a function's steps (behind goal. c. w. l. g., and the answers that have them), keep their spelling.
"""
import glob
import os
import re
import sys

NAME = r"[^\s(){}.;,@\"«»]+"
DECLARED = re.compile(r"^\s*(?:(?:abbrev|unfoldable|pub|data|record)\s+)*(" + NAME + r")(?:\s*(?:\{[^{}]*\}|\([^()]*\)))*\s+:(?=\s)[^\n]*", re.M)
ANSWER = re.compile(r":\s+goal\.")
# A lemma that would have its function's name gets `_lem`, and a test that would have a field's name says what it reads.
OTHERWISE = {
    "kind-here": "kind_here_lem",
    "mark-byte": "mark_byte_lem",
    "mark-of": "mark_of_lem",
    "tree-of": "tree_of_lem",
    "isName": "reads_as_name",
    "isList": "reads_as_list",
    "isWord": "reads_as_word",
    # The register has a method of this name.
    "inUse": "rows_in_use",
}
HEADS = ("goal", "c", "w", "l", "g")


def spelled(name):
    if name in OTHERWISE:
        return OTHERWISE[name]
    if re.match(r"[a-z]", name):
        name = re.sub(r"(?<=[a-z0-9])[A-Z]", lambda m: "_" + m[0].lower(), name)
    return name.replace("-", "_")


def read(path):
    with open(path, encoding="utf-8") as f:
        return f.read()


def antt_files(root):
    for kind in ("specs", "proofs"):
        yield from sorted(glob.glob(os.path.join(root, "crates/*", kind, "**/*.antt"), recursive=True))


def own_names(root):
    own, made = set(), set()
    for path in antt_files(root):
        for m in DECLARED.finditer(read(path)):
            (made if ANSWER.search(m[0]) else own).add(m[1])
    return {n: spelled(n) for n in own if spelled(n) != n and n not in made}


def is_made(text, at):
    """Whether the name at a place is the first behind a head, as c.if-same is."""
    front = re.search(r"(?:^|[\s(){};,])([a-z]+)\.$", text[max(0, at - 40):at])
    return bool(front) and front[1] in HEADS


def turn(text, names):
    def one(m):
        return names[m[0]] if m[0] in names and not is_made(text, m.start()) else m[0]

    return re.sub(NAME, one, text)


def turn_ghost(text, names):
    """Turns a .rt file or an edit: no comment, no string."""
    parts = re.split(r'(//[^\n]*|b?"(?:\\.|[^"\\\n])*")', text)
    return "".join(p if i % 2 else turn(p, names) for i, p in enumerate(parts))


def turn_antt(text, names):
    parts = re.split(r'((?m:^\s*--[^\n]*)|"(?:\\.|[^"\\\n])*")', text)
    return "".join(p if i % 2 else turn(p, names) for i, p in enumerate(parts))


def main():
    root = sys.argv[1] if len(sys.argv) > 1 else "."
    names = own_names(root)
    todo = [(p, turn_antt) for p in antt_files(root)]
    todo += [(p, turn_ghost) for p in sorted(glob.glob(os.path.join(root, "crates/*/src/**/*.rt"), recursive=True))]
    todo += [(p, turn_ghost) for p in sorted(glob.glob(os.path.join(root, "crates/*/must-fail/*.edit")))]
    together = 0
    for path, how in todo:
        old = read(path)
        words = set(re.findall(NAME, old))
        for n in sorted(words & set(names)):
            rivals = [w for w in words if w != n and names.get(w, w) == names[n]]
            if rivals:
                together += 1
                print(f"{path}: {n} and {', '.join(rivals)} fall together")
        new = how(old, names)
        if new != old:
            with open(path, "w", encoding="utf-8") as f:
                f.write(new)
    print(f"{len(names)} names, {together} fall together")


if __name__ == "__main__":
    main()
