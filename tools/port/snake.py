#!/usr/bin/env python3
"""Spells the repository's own definitions and lemmas in snake case, by names.tsv beside this file.

usage: python3 tools/port/snake.py [TOP]

Run once, after the kit's port.py. It goes over the .rt, .antt and .edit files of every crate, and over what stands in
backticks in README.md and docs/. A word behind a dot stays in the files of a function's proof, where it is one that
Rattle makes. It stops, with nothing written, if two names of one file would fall together.
"""
import os
import re
import sys

HERE = os.path.dirname(os.path.realpath(__file__))
TOP = sys.argv[1] if len(sys.argv) > 1 else os.path.join(HERE, "../..")
WORD = re.compile(r"[^\s(){}.;,@\"«»`]+")


def table():
    with open(os.path.join(HERE, "names.tsv"), encoding="utf-8") as f:
        return dict(line.rstrip("\n").split("\t") for line in f)


NAMES = table()


def files(top):
    for folder, dirs, names in os.walk(os.path.join(top, "crates")):
        dirs[:] = sorted(d for d in dirs if d not in ("out", "target"))
        for name in sorted(names):
            if name.endswith((".rt", ".antt", ".edit")):
                yield os.path.join(folder, name)


def turned(text, dotted):
    def one(m):
        if m.start() and text[m.start() - 1] == "." and not dotted:
            return m[0]
        return NAMES.get(m[0], m[0])

    return WORD.sub(one, text)


def clash(text, dotted):
    found = {}
    for m in WORD.finditer(text):
        if m.start() and text[m.start() - 1] == ".":
            continue
        new = NAMES.get(m[0], m[0])
        if found.setdefault(new, m[0]) != m[0]:
            yield f"{found[new]} and {m[0]} are both {new}"


def main():
    todo, bad = [], []
    for path in files(TOP):
        with open(path, encoding="utf-8") as f:
            text = f.read()
        dotted = os.path.basename(path) != "Proof.antt"
        if path.endswith(".antt"):
            bad += [f"{path}: {it}" for it in sorted(set(clash(text, dotted)))]
        new = turned(text, dotted)
        if new != text:
            todo.append((path, new))
    pages = [os.path.join(TOP, "README.md")]
    pages += [os.path.join(TOP, "docs", it) for it in sorted(os.listdir(os.path.join(TOP, "docs"))) if it.endswith(".md")]
    for path in pages:
        with open(path, encoding="utf-8") as f:
            text = f.read()
        new = re.sub(r"`[^`\n]+`", lambda m: turned(m[0], True), text)
        if new != text:
            todo.append((path, new))
    for it in bad:
        print("falls together: " + it)
    if bad:
        return 1
    for path, new in todo:
        with open(path, "w", encoding="utf-8") as f:
            f.write(new)
    print(f"{len(todo)} files")
    return 0


if __name__ == "__main__":
    sys.exit(main())
