#!/usr/bin/env python3
"""Brings the repository's own definitions and lemmas to snake case, once.

usage: tools/snake_names.py          at the top of the repository, after the toolchain's own script
       tools/snake_names.py --list   prints each old and new name, and changes nothing

A fact becomes upper camel case, a function snake case, and a lemma keeps a dash only between two names, as in
`length-drop`. In source files only the clauses and imports are touched.
"""

import os
import re
import sys

# Library words that a lemma's name may be made of.
LIBRARY = {
    "length", "take", "drop", "append", "get_or", "set", "map", "replicate", "xor", "zero", "suc", "cons", "min", "sum",
    "shr", "mul", "add", "sub", "lt", "le",
}
# Definitions whose names read as plain words inside a lemma's name.
PLAIN = {
    "back", "before", "both", "bits_of", "first", "second", "third", "late", "next", "none", "over", "missing", "needed",
    "fields", "with", "sent", "said", "start", "read_of", "lacks", "layer", "entries", "rest_of", "last_of", "into",
}
# Names of the older library inside lemmas' names.
OLDER = {"getD": "get_or"}

DEFINITION = re.compile(
    r"^\s*(?:(?:abbrev|unfoldable)\s+(?:pub\s+)?|(?:pub\s+)?(?:data|record)\s+)([^\s:(){};,.]+)", re.M)
SIGNATURE = re.compile(
    r"^[ \t]*(?:(?:abbrev|unfoldable|pub|data|record)\s+)*([A-Za-z][^\s:(){};,.]*)(?=\s*(?:\([^)]*\)|\{[^}]*\})*\s*:\s)", re.M)
NAME = re.compile(r"(?<![\w'′-])[A-Za-z_][\w'′]*(?:-[\w'′]+)*")
ALIAS = re.compile(r"\bas ([a-z]+(?:[A-Z][a-z]*)+)\b")
ODD = re.compile(r"-|′|[a-z][A-Z]")


def files(ends):
    for folder, dirs, names in os.walk("crates"):
        dirs[:] = sorted(d for d in dirs if d != "out")
        for name in sorted(names):
            if name.endswith(ends):
                yield os.path.join(folder, name)


def read(path):
    with open(path, encoding="utf-8") as f:
        return f.read()


def snake(word):
    return re.sub(r"(?<=[a-z])([A-Z])", lambda m: "_" + m.group(1).lower(), word)


def new_name(name, definitions):
    name = name.replace("′", "'")
    if name[0].isupper() and name in definitions:
        return "".join(p[:1].upper() + p[1:] for p in name.split("-"))
    parts = [OLDER.get(p, p if p[0].isupper() else snake(p)) for p in name.split("-")]
    if name in definitions:
        return "_".join(parts)
    known = LIBRARY | {snake(d).replace("-", "_") for d in definitions if d[0].islower()} - PLAIN
    whole = []
    for part in parts:
        if whole and "_".join((whole[-1], part)) in known:
            part = "_".join((whole.pop(), part))
        whole.append(part)
    parts = whole
    out = parts[0]
    for before, after in zip(parts, parts[1:]):
        named = all(p in known or p[0].isupper() for p in (before, after))
        out += ("-" if named else "_") + after
    return out


def table():
    definitions, own = set(), set()
    for path in files(".antt"):
        if "/proofs/" in path and path.endswith(("Answers.antt", "Invariants.antt")):
            continue
        text = read(path)
        definitions |= set(DEFINITION.findall(text))
        own |= set(SIGNATURE.findall(text))
    names = {n: new_name(n, definitions) for n in sorted(own | definitions) if ODD.search(n)}
    names = {a: b for a, b in names.items() if a != b}
    for path in files(".rt"):
        for alias in ALIAS.findall(read(path)):
            names[alias] = snake(alias)
    for path in files(".antt"):
        for alias in ALIAS.findall(read(path)):
            names[alias] = snake(alias)
    return names, own | definitions


def main(words):
    names, all_names = table()
    taken = {}
    for a, b in names.items():
        taken.setdefault(b, []).append(a)
    for b, olds in sorted(taken.items()):
        if len(olds) > 1 or b in all_names:
            print(f"falls together: {b}: {', '.join(olds)}{' and itself' if b in all_names else ''}")
    if "--list" in words:
        for a, b in sorted(names.items()):
            print(a, b)
        return
    changed = 0
    for path in files((".antt", ".rt")):
        text = read(path)
        source = path.endswith(".rt")

        def turn(m):
            word = m.group(0)
            if source and word not in aliases and "-" not in word:
                return word
            return names.get(word, word)

        aliases = {a for a in names if "-" not in a}
        now = NAME.sub(turn, text)
        now = re.sub(r"\b([A-Za-z_][\w'-]*) as \1(?=[,}])", r"\1", now)
        if now != text:
            changed += 1
            with open(path, "w", encoding="utf-8") as f:
                f.write(now)
    print(f"{changed} files changed, {len(names)} names")


if __name__ == "__main__":
    main(sys.argv[1:])
