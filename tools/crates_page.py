#!/usr/bin/env python3
"""Writes docs/crates.md: each crate under its heading of crates.txt, with the first paragraph of its own documentation.

    tools/crates_page.py [--check]

What is proved of a crate is text of the page itself, by hand, and stays as it is. A new crate gets a row with `-` there.
With --check nothing is written, and the status is 1 if the page isn't what would be written.
"""
import re
import sys
from pathlib import Path

TOP = Path(__file__).resolve().parent.parent
PAGE = TOP / "docs" / "crates.md"
FRONT = """# The crates, and what is proved of each

The groups and their order are those of crates.txt, and what a crate is says the first paragraph of its own documentation
(tools/crates_page.py writes both). A clause holds for every argument unless it says otherwise; running out of memory is always
possible where a function allocates.
"""
TABLE = "| Crate | What it is | What is proved, and the contract that carries it |\n|---|---|---|\n"
NOTHING = "-"


def first_paragraph(name):
    """The first paragraph of a crate's documentation, in one line."""
    source = TOP / "crates" / name / "src"
    root = source / "lib.rt" if (source / "lib.rt").exists() else source / "main.rt"
    words = []
    for line in root.read_text().splitlines():
        if not line.startswith("//!") or not line[3:].strip():
            break
        words.append(line[3:].strip())
    return " ".join(words)


def proved_of(page):
    """What the page says is proved of each crate: the last cell of its row."""
    rows = (line.strip().strip("|").split(" | ") for line in page.splitlines() if line.startswith("| `"))
    return {cells[0].strip().strip("`"): cells[-1].strip() for cells in rows}


def sentence(text):
    """A text as a sentence."""
    return text[:1].upper() + text[1:] + "."


def page_of(listed, proved):
    """The page, by the lines of crates.txt and what is proved of each crate."""
    parts = [FRONT]
    for line in listed.splitlines():
        heading = re.fullmatch(r"# ([a-z ]+): (.*)", line)
        crate = re.match(r"(\w+)[^:#]*:", line)
        if heading:
            parts.append(f"\n## {heading[1].capitalize()}\n\n{sentence(heading[2])}\n\n{TABLE}")
        elif crate:
            name = crate[1]
            parts.append(f"| `{name}` | {first_paragraph(name)} | {proved.get(name, NOTHING)} |\n")
    return "".join(parts)


def main():
    """Writes the page, or checks it."""
    before = PAGE.read_text()
    after = page_of((TOP / "crates.txt").read_text(), proved_of(before))
    if sys.argv[1:] == ["--check"]:
        if after != before:
            print("docs/crates.md isn't what tools/crates_page.py writes")
        return int(after != before)
    PAGE.write_text(after)
    return 0


if __name__ == "__main__":
    sys.exit(main())
