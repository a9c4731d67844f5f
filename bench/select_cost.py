#!/usr/bin/env python3
"""Counts the instructions of `SELECT *` over 10,000 documents, a byte of the report, in a transaction that is committed. README.md says
more."""

import os
import shutil
import sys
import tempfile
from pathlib import Path

TOP = Path(__file__).resolve().parent.parent
sys.path.insert(0, str(TOP / "bench"))
from callgrind import counted
from commits import run
from reads import RUN, documents

FEW, MANY = 1, 2


def selecting(program, folder, times):
    """The bytes of the report, and the instructions, of a transaction that says the select so often."""
    journal = folder / "copy"
    shutil.copyfile(folder / "journal", journal)
    said = ",".join(['"SELECT * FROM t"'] * times)
    text = f"[{{statements:[{said}]}}]".encode()
    report, instructions, _ = counted([program, journal, *RUN, "1"], text, folder / "instructions")
    if b"outcome:committed" not in report:
        sys.exit(report[:500].decode())
    return len(report), instructions


def main():
    program = os.path.abspath(sys.argv[1] if len(sys.argv) > 1 else TOP / "crates" / "ledger" / "out" / "ledger")
    if not shutil.which("callgrind_annotate"):
        sys.exit("valgrind is wanted")
    with tempfile.TemporaryDirectory() as folder:
        folder = Path(folder)
        run([program, folder / "journal", *RUN, "1"], documents())
        few, many = (selecting(program, folder, times) for times in (FEW, MANY))
    size, instructions = (much - little for little, much in zip(few, many))
    print(f"`SELECT *` of 10,000 documents: {instructions / size:.0f} instructions a byte of the report")
    return 0


if __name__ == "__main__":
    sys.exit(main())
