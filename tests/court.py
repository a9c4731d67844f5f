#!/usr/bin/env python3
"""Runs what docs/court.md shows, in an empty folder, and compares what comes out with what stands there.

    tests/court.py [PROGRAM]

A block ```console has commands behind `$ ` (a line that ends with \\ goes on in the next one) and below each its output, on either
channel. A block whose first line's second word is a file's name is that file. The commands are run by `sh`, with `ledger` (PROGRAM,
or crates/ledger/out/ledger), `ledger-verify` and `ledger-view` in the path. Ends with `N passed, N failed`.
"""
import os
import re
import subprocess
import sys
import tempfile
from pathlib import Path

ROOT = Path(__file__).resolve().parent.parent
PAGE = ROOT / "docs" / "court.md"
FENCE = re.compile(r"^```(\S+)(?: (\S+))?\n(.*?)^```$", re.M | re.S)


def commands(block):
    """The commands of a block, each with its output."""
    found = []
    for line in block.splitlines(keepends=True):
        if line.startswith("$ "):
            found.append([line[2:], ""])
        elif found and not found[-1][1] and found[-1][0].endswith("\\\n"):
            found[-1][0] += line
        else:
            found[-1][1] += line
    return found


def path_of(folder, program):
    """A folder with the commands of the page."""
    where = os.path.join(folder, "path")
    os.mkdir(where)
    for name, target in (("ledger", program), *((name, ROOT / "tools" / name) for name in ("ledger-verify", "ledger-view"))):
        os.symlink(target, os.path.join(where, name))
    return where


def compare(tally, program):
    """Compares each command's output with the page's."""
    with tempfile.TemporaryDirectory() as folder:
        work = os.path.join(folder, "work")
        os.mkdir(work)
        environment = dict(os.environ, PATH=path_of(folder, program) + os.pathsep + os.environ["PATH"], LC_ALL="C.UTF-8")
        for kind, name, block in FENCE.findall(PAGE.read_text(encoding="utf-8")):
            if name:
                Path(work, name).write_text(block, encoding="utf-8")
            elif kind == "console":
                for command, output in commands(block):
                    channels = {"stdout": subprocess.PIPE, "stderr": subprocess.STDOUT}
                    ran = subprocess.run(["sh", "-c", command], cwd=work, env=environment, **channels)
                    tally.same(f"docs/court.md: {command.strip()}", ran.stdout.decode(), output)


class Count:
    """Counts, and prints what differs."""

    def __init__(self):
        self.passed = self.failed = 0

    def same(self, what, got, wanted):
        self.passed += got == wanted
        self.failed += got != wanted
        if got != wanted:
            print(f"{what}\n--- shown\n{wanted}--- got\n{got}")


def main():
    program = os.path.abspath(sys.argv[1] if len(sys.argv) > 1 else ROOT / "crates" / "ledger" / "out" / "ledger")
    count = Count()
    compare(count, program)
    print(f"{count.passed} passed, {count.failed} failed")
    return 1 if count.failed else 0


if __name__ == "__main__":
    sys.exit(main())
