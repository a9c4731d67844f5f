#!/usr/bin/env python3
"""Counts the instructions that loading a journal takes, a byte, beside those of its SHA-256 alone. README.md says more."""

import os
import shutil
import sys
import tempfile
from pathlib import Path

TOP = Path(__file__).resolve().parent.parent
sys.path.insert(0, str(TOP / "bench"))
import proofs
from callgrind import counted

FEW, MANY = 1_000, 2_000
MOST_OF_HASHES = 1.7


def loading(program, folder, blocks):
    """The bytes of a journal of so many blocks, the instructions of loading it, and those of SHA-256 among them."""
    journal = folder / "journal"
    proofs.make(journal, blocks)
    told, instructions, hashed = counted([program, journal, "audit"], b"", folder / "instructions")
    assert told == b"{blocks:%d,revisions:%d}\n" % (blocks, blocks - 1)
    return journal.stat().st_size, instructions, hashed


def main():
    program = os.path.abspath(sys.argv[1] if len(sys.argv) > 1 else TOP / "crates" / "ledger" / "out" / "ledger")
    if not shutil.which("callgrind_annotate"):
        sys.exit("valgrind is wanted")
    with tempfile.TemporaryDirectory() as folder:
        few, many = (loading(program, Path(folder), blocks) for blocks in (FEW, MANY))
    size, instructions, hashed = (much - little for little, much in zip(few, many))
    print(f"loading: {instructions / size:.0f} instructions a byte, of which SHA-256 {hashed / size:.0f}")
    print(f"{instructions / hashed:.2f} of those of SHA-256, wanted at most {MOST_OF_HASHES}")
    return 0 if instructions <= MOST_OF_HASHES * hashed else 1


if __name__ == "__main__":
    sys.exit(main())
