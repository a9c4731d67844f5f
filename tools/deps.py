#!/usr/bin/env python3
"""Checks crates.txt: each crate stands after those it uses, and lists just the crates that its files cite.

    tools/deps.py [--lists]

Prints what is wrong, and ends with status 1 where something is. With --lists it prints the line that each crate should have.
It reads the files as text: a path's first word in the code, and the word after `Rattle.` in contracts, definitions and proofs.
"""

import re
import sys
from pathlib import Path

TOP = Path(__file__).resolve().parent.parent
PARTS = ("src", "specs", "proofs")
STD_MODULES = re.compile(r"\bstd::(\w+)|\bstd::\{([^}]*)\}")
PATH = re.compile(r"(?<![\w:.])([a-z]\w*)::")
CITED = re.compile(r"\bRattle\.(\w+)\.")
MODULE = re.compile(r"^\s*(?:pub(?:\([^)]*\))? )?mod (\w+)", re.MULTILINE)


def crates_of(text):
    """The crates of a list in order, each with those that its line lists."""
    listed = {}
    for line in text.splitlines():
        name, colon, uses = line.split("#")[0].partition(":")
        if colon:
            listed[name.split()[0]] = uses.split()
    return listed


def without_comments(text, mark):
    """The text without the comments that begin with a mark and end with their line."""
    return "\n".join(line.split(mark)[0] for line in text.splitlines())


def first_words(code):
    """The first words of the paths in a file of code, but for modules of std that the file names by their own names."""
    of_std = set()
    for one, several in STD_MODULES.findall(code):
        of_std.update(re.findall(r"\w+", one or several))
    return set(PATH.findall(code)) - of_std


def cited_by(folder):
    """The words that a crate's files cite where the name of a crate may stand."""
    words, modules = set(), set()
    for part in PARTS:
        for path in sorted((folder / part).rglob("*")):
            if path.suffix == ".rt":
                code = without_comments(path.read_text(), "//")
                words |= first_words(code) | set(CITED.findall(code))
                modules |= set(MODULE.findall(code))
            elif path.suffix == ".antt":
                words |= set(CITED.findall(without_comments(path.read_text(), "-- ")))
    return words - modules


def faults_of(listed, of_kit):
    """What is wrong with the list, a line each."""
    before = set()
    for name, uses in listed.items():
        cited = (cited_by(TOP / "crates" / name) & (set(listed) | of_kit)) - {name, "std", "core"}
        for use in uses:
            if use in listed and use not in before:
                yield f"{name} stands before {use}, which it uses"
            if use not in cited:
                yield f"{name} lists {use}, which none of its files cites"
        for use in sorted(cited - set(uses)):
            yield f"{name} cites {use}, which its line doesn't list"
        before.add(name)


def main():
    listed = crates_of((TOP / "crates.txt").read_text())
    of_kit = {use for uses in listed.values() for use in uses if use not in listed}
    if sys.argv[1:] == ["--lists"]:
        for name in listed:
            cited = (cited_by(TOP / "crates" / name) & (set(listed) | of_kit)) - {name, "std", "core"}
            print(f"{name}: {' '.join(use for use in [*reversed(listed), *sorted(of_kit)] if use in cited)}".rstrip())
        return 0
    faults = list(faults_of(listed, of_kit))
    print("\n".join(faults) or f"{len(listed)} crates, each behind those it uses, list what their files cite")
    return 1 if faults else 0


sys.exit(main())
