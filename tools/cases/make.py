#!/usr/bin/env python3
"""Writes crates/cases/stdin and stdout: the cases, and what a plain reading of document 01 answers."""
import os
import random

from reading import U32, refusal_of_table
from tables import EMPTY, LOOP, RICH, T, parts, wide

MOST = U32 - 1


class Cases:
    def __init__(self):
        self.asked, self.answered = [], []

    def title(self, text):
        self.asked.append("# " + text)
        self.answered.append("# " + text)

    def table(self, words):
        self.asked.append("t " + " ".join(map(str, words)))
        self.answered.append(str(refusal_of_table(words)))


def changed(words, at, value):
    return words[:at] + [value] + words[at + 1:]


def swapped(words, a, b):
    out = list(words)
    out[a], out[b] = out[b], out[a]
    return out


def tables(c):
    c.title("T, Loop, the empty table, seven ids with two merged, classes of 49, 50 and 51 nodes")
    for t in (T, LOOP, EMPTY, RICH, wide(48), wide(49), wide(50)):
        c.table(t)
    c.title("number 11: T's last index word 2")
    c.table(changed(T, 48, 2))
    c.title("T cut to 0 to 10 words")
    for n in range(11):
        c.table(T[:n])
    c.title("T one word short, one word long")
    c.table(T[:-1])
    c.table(T + [0])
    c.title("each count of T at its limit, one over, and the largest word")
    for at, most in ((0, 65536), (1, 65536), (2, 65536), (3, 262144)):
        for v in (most, most + 1, MOST):
            c.table(changed(T, at, v))
    c.title("each offset of T off by one, and the largest word")
    for at in range(4, 9):
        for v in (T[at] - 1, T[at] + 1, MOST):
            c.table(changed(T, at, v))
    for name, t in (("T", T), ("Loop", LOOP), ("seven ids", RICH)):
        p = parts(t)
        edges = [(p["find"], "find"), (p["classes"], "classes"), (p["nodes"], "nodes"), (p["children"], "children"),
                 (p["index"], "index"), (len(t), "")]
        for (a, area), (b, _) in zip(edges, edges[1:]):
            c.title(f"{name}: each word of the area {area} one less, one more, 0, the largest")
            for at in range(a, b):
                for v in ((t[at] - 1) % U32, t[at] + 1, 0, MOST):
                    c.table(changed(t, at, v))
    p = parts(RICH)
    c.title("seven ids, a rule broken alone: find not idempotent; a canonical id without a record; records out of order")
    c.table(changed(RICH, p["find"] + 2, 5))
    c.table(changed(RICH, p["find"] + 2, 2))
    c.table(swapped(RICH, p["classes"], p["classes"] + 3))
    c.title("an empty class; ranges that overlap; ranges that leave a gap")
    c.table(changed(changed(RICH, p["classes"] + 5, 0), p["classes"] + 8, 5))
    c.table(changed(RICH, p["classes"] + 7, 2))
    c.table(changed(RICH, p["classes"] + 7, 4))
    c.title("an arity of nine; a child that is not canonical; a child over I; another class as owner")
    c.table(changed(RICH, p["nodes"] + 4 * 8 + 1, 9))
    c.table(changed(RICH, p["children"] + 1, 2))
    c.table(changed(RICH, p["children"] + 1, 7))
    c.table(changed(RICH, p["nodes"] + 3, 1))
    c.title("the last two nodes of a class the wrong way round; two nodes the same")
    c.table(changed(changed(RICH, p["nodes"] + 4, 3), p["nodes"] + 8, 2))
    c.table(changed(RICH, p["nodes"] + 8, 2))
    c.title("an index entry twice; two the wrong way round; one at N; one at the largest word")
    for t in (changed(RICH, p["index"] + 1, RICH[p["index"]]), swapped(RICH, p["index"] + 2, p["index"] + 3),
              changed(RICH, len(RICH) - 1, RICH[2]), changed(RICH, len(RICH) - 1, MOST)):
        c.table(t)
    c.title("one key in two classes")
    t = changed(RICH, p["nodes"] + 4, 1)
    c.table(t)
    c.title("two words of seven ids changed at random, seed 1")
    r = random.Random(1)
    for _ in range(400):
        t = RICH
        for _ in range(2):
            at = r.randrange(len(t))
            t = changed(t, at, r.choice([r.randrange(8), r.randrange(len(t)), MOST - r.randrange(3)]))
        c.table(t)


def main():
    c = Cases()
    tables(c)
    here = os.path.join(os.path.dirname(os.path.abspath(__file__)), "..", "..", "crates", "cases")
    for name, lines in (("stdin", c.asked), ("stdout", c.answered)):
        with open(os.path.join(here, name), "w") as f:
            f.write("\n".join(lines) + "\n")
    print(len(c.asked), "lines")


main()
