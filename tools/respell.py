#!/usr/bin/env python3
"""Brings the repository's own definitions to snake case, as the port script leaves them: verdictOf -> verdict_of.

usage: python3 tools/respell.py        at the top of the repository, once, after the kit's port.py

A definition whose name begins with a small letter and has capitals gets dashes below in their place; letters of the published equations
that differ by their size alone keep it, as Y, the encrypted share, beside y, the key. Types, facts and modules keep their capitals, and
so do the words that FIPS 180-4 names. Lemmas keep the dashes that join the words of their names. It rewrites crates/ (specs, proofs,
clauses, must-fail edits), README.md and docs/, and stops where two names would fall together.
"""

import glob
import os
import re
import sys

# Letters of the equations: y is a key, Y an encrypted share, Z a decrypted one.
# byRank would be named as a constructor beside it, which the port script turned.
LETTERS = {"byRank": "rank_order", "YOf": "Y_of", "ZOf": "Z_of", "YIn": "Y_in", "writtenY": "written_Y", "linesY": "lines_Y", "lineY": "line_Y"}
# Definitions of one file, and fields of a record of another, which no file names without its record.
APART = {"at_zero", "in_order"}
# Lemmas to which the port script gave the name that a definition comes to: they keep the dash that they had.
LEMMAS = {"no_record": "no-record", "too_few": "too-few", "lines_end": "lines-end", "sums_at": "sums-at"}
LEMMA = re.compile(r"(?<![\w.'-])(" + "|".join(LEMMAS) + r")(?![\w.'-])")
DEFINED = re.compile(r"^ *(?:(?:abbrev|unfoldable|pub) )*([a-z][A-Za-z0-9_₀-₉']*) :", re.M)
TOKEN = re.compile(r"[A-Za-z_][A-Za-z0-9_]*")


def snake(name):
    return LETTERS.get(name) or re.sub(r"(?<=[a-z0-9])([A-Z])", lambda m: "_" + m[1], name).lower()


def antt():
    return sorted(glob.glob("crates/*/specs/**/*.antt", recursive=True) + glob.glob("crates/*/proofs/**/*.antt", recursive=True))


def others():
    pages = ["README.md"] + glob.glob("docs/*.md")
    return sorted(glob.glob("crates/*/src/**/*.rt", recursive=True) + glob.glob("crates/*/must-fail/*.edit") + pages)


def read(path):
    with open(path, encoding="utf-8") as it:
        return it.read()


def write(path, text):
    with open(path, "w", encoding="utf-8") as it:
        it.write(text)


def main():
    for p in antt():
        text = read(p)
        new = LEMMA.sub(lambda m: LEMMAS[m[1]], text)
        if new != text:
            write(p, new)
    names = {}
    for p in antt():
        for m in DEFINED.finditer(read(p)):
            if re.search("[A-Z]", m[1]):
                names[m[1]] = snake(m[1])
    names.update(LETTERS)
    taken = {}
    for old, new in names.items():
        if new in taken:
            sys.exit(f"{old} and {taken[new]} would both be {new}")
        taken[new] = old
    for p in antt():
        for m in DEFINED.finditer(read(p)):
            if m[1] in taken and m[1] not in APART:
                sys.exit(f"{p}: {taken[m[1]]} would fall together with {m[1]}")
    known = {m[1] for p in antt() for m in DEFINED.finditer(read(p))}
    changed = 0
    # Pages and edits still have the names that the port script turned.
    late = lambda it: names.get(it) or (snake(it) if it[0].islower() and snake(it) in known else it)
    for p in antt() + others():
        text = read(p)
        old = names.get if p.endswith(".antt") else late
        new = TOKEN.sub(lambda m: old(m[0]) or m[0], text)
        if new != text:
            write(p, new)
            changed += 1
    print(f"{len(names)} names, {changed} files")


if __name__ == "__main__":
    main()
