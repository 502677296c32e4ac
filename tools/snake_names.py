#!/usr/bin/env python3
"""Brings the names of our own definitions, fields and lemmas to snake case: `partsTold` and `lit-count` become `parts_told` and `lit_count`.

usage: python3 tools/snake_names.py [--look]      at the top of the repository, once, after the toolchain's port.py

Only names that specs/ and proofs/ of this repository bind are turned, in .antt files and in the clauses of .rt files. Names of
goals, which the check makes from the source, keep their dashes. With --look nothing is written; names that would fall together
with others in some file are listed either way.
"""
import collections
import glob
import re
import sys

# a lemma beside the definition of its name
LEMMAS = {n: n.replace("-", "_") + "_lem" for n in "after-all after-job new-bytes order-room rows-shown until-refused up-or-down".split()}
TOKEN = re.compile(r"[A-Za-z_\u2115][\w'\u2115]*(?:-[\w'\u2115]+)*")
BINDER = re.compile(r"^\s*(?:(?:abbrev|unfoldable|record|data|pub) )*(\S+)(?: \([^:]*)? :(?: |$)")
GOAL = re.compile(r"^\s*(?:abbrev )?(?:pub )?(\S+) : (?:goal|need)\.")
LET = re.compile(r"\blet ([A-Za-z][\w'-]*) [:=]")

# variables that clauses of a definition bind
VARIABLES = {"isSteered", "isHeard", "fromA"}


def turned(name):
    if name in LEMMAS:
        return LEMMAS[name]
    name = name.replace("-", "_")
    return re.sub(r"(?<=[a-z0-9])([A-Z])", lambda m: "_" + m.group(1).lower(), name)


def is_old(name):
    return name[0].islower() and ("-" in name or re.search(r"[a-z0-9][A-Z]", name) is not None)


def parts(text, rust):
    """The text in pieces, with whether names are turned there: all of it but comments and strings."""
    mark = r'//[^\n]*|"(?:[^"\\]|\\.)*"' if rust else r"--[^\n]*"
    at = 0
    for m in re.finditer(mark, text):
        # in antt a dash may stand inside a name: a comment begins a line or follows a space
        if not rust and m.start() and text[m.start() - 1] not in " \n":
            continue
        yield text[at : m.start()], True
        yield m.group(0), False
        at = m.end()
    yield text[at:], True


def main(argv):
    antt = sorted(p for p in glob.glob("crates/*/specs/**/*.antt", recursive=True) + glob.glob("crates/*/proofs/**/*.antt", recursive=True))
    rust = sorted(glob.glob("crates/*/src/**/*.rt", recursive=True))
    own, goals = set(VARIABLES), set()
    for p in antt:
        with open(p, encoding="utf-8") as f:
            for line in f:
                g = GOAL.match(line)
                if g:
                    goals.add(g.group(1))
                    continue
                b = BINDER.match(line)
                if b:
                    own.add(b.group(1))
                own.update(LET.findall(line))
    names = {n: turned(n) for n in own if TOKEN.fullmatch(n) and is_old(n) and n not in goals}
    twice = collections.defaultdict(list)
    for n, t in names.items():
        twice[t].append(n)
    for t, ns in sorted(twice.items()):
        if len(ns) > 1:
            print(f"fall together as {t}: {sorted(ns)}")
    for p in antt + rust:
        with open(p, encoding="utf-8") as f:
            text = f.read()
        pieces = list(parts(text, p.endswith(".rt")))
        there = {t for s, code in pieces if code for t in TOKEN.findall(s)}
        for n in sorted(there & names.keys()):
            if names[n] in there:
                print(f"{p}: {n} would be {names[n]}, which is there")
        new = "".join(TOKEN.sub(lambda m: names.get(m.group(0), m.group(0)), s) if code else s for s, code in pieces)
        # comments name definitions by camel case
        new = "".join(s if code else TOKEN.sub(lambda m: names.get(m.group(0), m.group(0)) if "-" not in m.group(0) else m.group(0), s) for s, code in parts(new, p.endswith(".rt")))
        if new != text and "--look" not in argv:
            with open(p, "w", encoding="utf-8") as f:
                f.write(new)
    print(f"{len(names)} names")


if __name__ == "__main__":
    main(sys.argv[1:])
