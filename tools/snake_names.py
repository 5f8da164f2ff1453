#!/usr/bin/env python3
"""Brings the repository's own definitions and lemmas from camel case to snake case:  tools/snake_names.py  (at the top, once).

It collects the names that specs/ and proofs/ define, and those of `use .. as NAME`, with a small first letter and a capital within (`stampOf`), and writes each as
`stamp_of` in every .antt, .rt, .edit and .md file of the repository. Types, modules and names from Rust are left alone. It prints each new
name that stood already in a file where the old one stood, so that a reader sees what fell together.
"""

import os
import re
import sys

ROOT = os.path.dirname(os.path.dirname(os.path.abspath(__file__)))
DEFINED = re.compile(r"^\s*(?:(?:abbrev|opaque|unfoldable|pub|instance|ruleset|syntax)\s+)*([a-z][A-Za-z0-9_'-]*)(?=\s|$)")
ALIAS = re.compile(r"\bas ([a-z][A-Za-z0-9_]*)(?=\s|$|[,};])")
HUMP = re.compile(r"(?<=[a-z0-9])([A-Z])")


def files(*endings):
    for folder, dirs, names in os.walk(ROOT):
        dirs[:] = sorted(d for d in dirs if d not in (".git", "out", "target", "tools"))
        for n in sorted(names):
            if n.endswith(endings):
                yield os.path.join(folder, n)


def text(path):
    with open(path, encoding="utf-8") as f:
        return f.read()


def snake(name):
    return HUMP.sub(lambda m: "_" + m[1].lower(), name)


def parts(name):
    return [p for p in re.split(r"[-]", name) if re.fullmatch(r"[a-z][a-z0-9_]*(?:[A-Z][a-z0-9]*)+'*", p)]


def main():
    words = set()
    for path in files(".antt", ".rt"):
        for line in text(path).split("\n"):
            for alias in ALIAS.findall(line) if "use " in line else ():
                words.update(parts(alias))
            m = DEFINED.match(line) if path.endswith(".antt") else None
            if m and m[1] not in ("use", "mod", "module", "open", "where", "let", "in", "record", "data", "unfolding", "infixl", "infixr", "infix"):
                words.update(parts(m[1]))
    if not words:
        print("no name in camel case is defined")
        return 0
    turn = {w: snake(w) for w in words}
    token = re.compile(r"(?<![A-Za-z0-9_'])(" + "|".join(sorted(map(re.escape, turn), key=len, reverse=True)) + r")(?![A-Za-z0-9_'])")
    changed = 0
    for path in files(".antt", ".rt", ".edit", ".md"):
        old = text(path)
        found = set(token.findall(old))
        for w in sorted(found):
            if re.search(r"(?<![A-Za-z0-9_'])" + re.escape(turn[w]) + r"(?![A-Za-z0-9_'])", old):
                print(f"{os.path.relpath(path, ROOT)}: {turn[w]} stands beside {w}")
        new = token.sub(lambda m: turn[m[1]], old).replace("′", "'")
        if new != old:
            changed += 1
            with open(path, "w", encoding="utf-8") as f:
                f.write(new)
    print(f"{len(turn)} names, {changed} files")
    return 0


if __name__ == "__main__":
    sys.exit(main())
