#!/usr/bin/env python3
"""Tells how far copies are behind a journal.

    behind.py JOURNAL COPY..

For each copy one line: its blocks, how many the journal has more, and how many seconds ago the first of those was
committed.
"""
import sys

from pieces import LINE, Blocks, seconds_since


def behind(journal, copy):
    """The blocks of a copy, by how many it is behind, and by how many seconds."""
    has = Blocks(copy).now()
    missing, seconds = 0, 0.0
    with open(journal, "rb") as file:
        for number, line in enumerate(file):
            if number == has:
                seconds = seconds_since(LINE.match(line)[2])
            missing += number >= has and line.endswith(b"\n")
    return has, missing, seconds if missing else 0.0


def main():
    if len(sys.argv) < 3:
        sys.exit(__doc__)
    for copy in sys.argv[2:]:
        has, missing, seconds = behind(sys.argv[1], copy)
        print(f"{copy}: {has} blocks, behind by {missing} blocks and {seconds:.1f} s")


if __name__ == "__main__":
    main()
