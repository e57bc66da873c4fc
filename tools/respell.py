#!/usr/bin/env python3
"""Brings the names of the repository's own definitions and lemmas from camel case to snake case, in .antt files, in clauses and
`ghost use` lines of .rt files, in must-fail edits and in the pages. Run once at the top of a checkout, behind port.py. Types, facts
and modules keep their capitals; functions of src/, exported names and strings are in snake case already and stay."""
import glob
import os
import re
import sys

# names that would fall together with another name in the same place
OTHERS = {"tallyLines": "lines_of_tally", "labelTexts": "texts_of_labels"}

WORD = re.compile(r"(?<![\w'-])[a-z][\w']*(?:-[\w'≤≡+*]+)*")
HEAD = re.compile(r"^\s*(?:(?:abbrev|unfoldable|opaque|private|pub|field|constructor)\s+)*([^\s:(){}]+)(?:\s+[\w'-]+)*\s*:(?:\s|$)")


def files(*kinds):
    found = []
    for kind in kinds:
        found += glob.glob(kind, recursive=True)
    return sorted(f for f in found if "/out/" not in f)


def snake(name):
    def part(p):
        if not p or not p[0].islower():
            return p
        p = re.sub(r"(?<=[a-z0-9])([A-Z])", lambda m: "_" + m.group(1).lower(), p)
        return re.sub(r"[A-Z]", lambda m: "_" + m.group(0).lower(), p)

    return "-".join(part(p) for p in name.split("-"))


def names():
    found = set()
    for f in files("crates/*/specs/**/*.antt", "crates/*/proofs/**/*.antt"):
        for line in open(f, encoding="utf-8"):
            m = HEAD.match(line)
            if m and m.group(1)[0].islower() and re.search(r"[A-Z]", m.group(1)):
                found.add(m.group(1))
            elif m and re.search(r"-[a-z]+[A-Z]", m.group(1)):
                found.add(m.group(1))
    return {n: OTHERS.get(n, snake(n)) for n in found if OTHERS.get(n, snake(n)) != n}


def main():
    turned = names()
    if "--list" in sys.argv:
        for n, s in sorted(turned.items()):
            print(n, s)
        return
    one = re.compile(r"(?<![\w'-])(" + "|".join(sorted(map(re.escape, turned), key=len, reverse=True)) + r")(?![\w'])(?!-\w)")
    kinds = ("crates/*/specs/**/*.antt", "crates/*/proofs/**/*.antt", "crates/*/src/**/*.rt", "crates/*/must-fail/*.edit",
             "docs/*.md", "docs/changes/*.md", "README.md")
    for f in files(*kinds):
        if os.path.basename(f).startswith("PORT"):
            continue
        text = open(f, encoding="utf-8").read()
        new = one.sub(lambda m: turned[m.group(1)], text)
        if new != text:
            open(f, "w", encoding="utf-8").write(new)


main()
