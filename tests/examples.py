#!/usr/bin/env python3
"""Runs each example of examples/ by the program on a new journal, and compares its reports with those beside it. Ends with
status 1 where they differ.

    tests/examples.py [PROGRAM]

The program is crates/ledger/out/ledger, where `rt ci` leaves it, or another path. An example is a script NAME.ion, or several
scripts NAME.1.ion, NAME.2.ion .. that run one after another on one journal. A first line `// at TIME` tells when a script runs,
and a second line `// rules NAME` under which rules.
"""
import subprocess
import sys
import tempfile
from itertools import groupby
from pathlib import Path

ROOT = Path(__file__).resolve().parent.parent
PROGRAM = ROOT / "crates" / "ledger" / "out" / "ledger"
AT = "// at "
RULES = "// rules "


def time_of(script):
    """When the script runs."""
    first = script.read_text().split("\n", 1)[0]
    return first.removeprefix(AT) if first.startswith(AT) else "2020-01-01T00:00:00.000Z"


def rules_of(script):
    """The words that name the rules of the script, if it has a line that names them."""
    second = script.read_text().split("\n")[1]
    return ["--rules", second.removeprefix(RULES)] if second.startswith(RULES) else []


def report(program, journal, script):
    """What the program writes for the script on this journal."""
    command = [program, str(journal), "run", "--workers", "1", "--plain-ids", "--at", time_of(script), *rules_of(script)]
    ended = subprocess.run(command, input=script.read_bytes(), capture_output=True)
    if ended.returncode != 0:
        sys.exit(f"{script.name}: status {ended.returncode}: {ended.stdout!r} {ended.stderr!r}")
    return ended.stdout


def main():
    program = str(Path(sys.argv[1] if len(sys.argv) > 1 else PROGRAM).resolve())
    scripts = sorted((ROOT / "examples").glob("*.ion"))
    for name, parts in groupby(scripts, lambda it: it.name.split(".")[0]):
        with tempfile.TemporaryDirectory() as folder:
            for script in parts:
                if report(program, Path(folder) / "journal", script) != script.with_suffix(".report").read_bytes():
                    sys.exit(f"{script.name}: another report than {script.stem}.report")
    print(f"{len(scripts)} scripts: all reports as they should be")


main()
