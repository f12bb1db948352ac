#!/usr/bin/env python3
"""Brings the repository's own definitions and lemmas to today's spelling: words in snake case, types and statements in camel case.

Run once, at the top, right after the kit's port.py. It changes .antt and .rt files of crates/ and the pages in README.md and docs/.
A name is taken if an .antt file of specs/ or proofs/ declares it with a dash in it, and it isn't the name of a goal.
"""
import glob
import re
import sys

DECLARED = re.compile(
    r"\s*((?:(?:abbrev|unfoldable|pub|data|record)\s+)*)([^\s(){}\[\],;.:λ]+)"
    r"((?:\s+\([^()]*(?:\([^()]*\)[^()]*)*\)|\s+\{[^{}]*\})*)\s*:\s+(\S+)"
)
SOURCES = ("crates/*/specs/**/*.antt", "crates/*/proofs/**/*.antt", "crates/*/src/**/*.rt")
KIT = re.compile(r"use (?:Rattle\.std|lib|native|mathlib|Prim|borrow|denote)\.[^{;\n]*\{([^}]*)\}")
WORD = r"\w\-'′·◌"


def files(*patterns):
    return sorted(f for p in patterns for f in glob.glob(p, recursive=True))


def spelled(name):
    parts = name.split("-")
    if parts[0][:1].isupper():
        return "".join(p[:1].upper() + p[1:] for p in parts)
    return "_".join(parts)


def declared():
    names = set()
    for f in files(*SOURCES[:2]):
        answers = f.rsplit("/", 1)[-1] in ("Answers.antt", "Invariants.antt", "Proof.antt")
        for line in open(f):
            m = DECLARED.match(line)
            if m and "-" in m.group(2) and not (answers and m.group(4).startswith("goal.")):
                names.add(m.group(2))
    return names


def main():
    names = declared()
    words = set()
    for f in files(*SOURCES):
        words |= set(re.findall(rf"[{WORD}]+", open(f).read()))
    together = {}
    for n in sorted(names):
        together.setdefault(spelled(n), []).append(n)
    for new, old in together.items():
        if len(old) > 1 or new in words:
            print("stands already, or falls together:", new, old)
    if "--write" not in sys.argv:
        print(len(names), "names")
        return
    one = re.compile(rf"(?<![{WORD}])(" + "|".join(sorted(map(re.escape, names), key=len, reverse=True)) + rf")(?![{WORD}])")
    for f in files(*SOURCES):
        text = open(f).read()
        # where a file imports the kit's name, that one is meant
        kits = set()
        for m in KIT.finditer(text):
            kits |= {w.strip() for w in m.group(1).split(",")} & names
        if kits:
            print("the kit's in", f, sorted(kits))
        new = one.sub(lambda m: m.group(1) if m.group(1) in kits else spelled(m.group(1)), text)
        if f.endswith(".rt"):
            # strings and comments of a source keep their words
            new = "\n".join(
                b if "//" not in a and '"' not in a else a for a, b in zip(text.split("\n"), new.split("\n"))
            )
        if new != text:
            open(f, "w").write(new)
    for f in files("README.md", "docs/**/*.md"):
        text = open(f).read()
        new = re.sub(r"`([^`\n]+)`", lambda m: "`" + one.sub(lambda k: spelled(k.group(1)), m.group(1)) + "`", text)
        if new != text:
            open(f, "w").write(new)


main()
