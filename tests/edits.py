#!/usr/bin/env python3
"""Tries the edits of edits/, mistakes in the code that the prover must refuse. `rt ci` tries those of crates/*/must-fail alone:
these stand in crates of which one check takes long (docs/gate.md). A crate's edits are put beside its own for the time of
`rt must-fail`, and taken away again. Ends with status 1 where one of them is proved, or can't be tried.

    tests/edits.py [CRATE ..]

Without names it tries those of every crate, for which it takes hours where nothing below them is built yet.
"""
import shutil
import subprocess
import sys
from pathlib import Path

ROOT = Path(__file__).resolve().parent.parent


def try_edits(crate):
    """Whether the prover refuses each edit of the crate, those that `rt ci` tries among them."""
    folder = ROOT / "crates" / crate / "must-fail"
    added = [folder / edit.name for edit in sorted((ROOT / "edits" / crate).glob("*.edit"))]
    if any(edit.exists() for edit in added):
        sys.exit(f"{crate}: an edit of edits/ stands in must-fail/ too")
    is_new = not folder.exists()
    folder.mkdir(exist_ok=True)
    try:
        for edit in added:
            shutil.copy(ROOT / "edits" / crate / edit.name, edit)
        return subprocess.run(["rt", "must-fail", crate], cwd=ROOT).returncode == 0
    finally:
        for edit in added:
            edit.unlink(missing_ok=True)
        if is_new:
            folder.rmdir()


def main():
    there = sorted(folder.name for folder in (ROOT / "edits").iterdir())
    wanted = sys.argv[1:] or there
    unknown = [crate for crate in wanted if crate not in there]
    if unknown:
        sys.exit(f"no edits of {' '.join(unknown)}: there are those of {' '.join(there)}")
    open_ones = [crate for crate in wanted if not try_edits(crate)]
    if open_ones:
        sys.exit(f"not all refused: {' '.join(open_ones)}")


main()
