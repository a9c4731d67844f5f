#!/usr/bin/env python3
"""Runs every command of the README and of docs/, and compares what it prints with what stands below it there.

    tests/docs.py [PROGRAM [PAGE..]]

PROGRAM is crates/ledger/out/ledger if absent, PAGE each page but those that another test runs. A page's commands are the lines `$ ..` of its blocks that
are fenced as `console`; a backslash at a line's end goes on with the next. They run one after another in one shell, in an
empty folder in which each folder of the repository is found by its name, and `out/ledger` is the program. What a command
prints, on either stream, is to be the lines below it; a line `..` stands for any lines. The last line counts the commands.
"""

import os
import re
import subprocess
import sys
import tempfile
from pathlib import Path

TOP = Path(__file__).resolve().parent.parent
PROGRAM = TOP / "crates" / "ledger" / "out" / "ledger"
BLOCK = re.compile(r"^( *)```console\n(.*?)^ *```$", re.MULTILINE | re.DOTALL)
LIMIT = 240

# pages that a test of their own runs
OTHER_TESTS = {"court.md": "tests/court.py"}


def commands_of(text):
    """The commands of a page in order, each with the lines that it is to print."""
    found = []
    for indent, block in BLOCK.findall(text):
        open_line = False
        for line in (it[len(indent) :] if it.startswith(indent) else it for it in block.splitlines()):
            if open_line:
                found[-1][0].append(line)
            elif line.startswith("$ "):
                found.append(([line[2:]], []))
            elif found:
                found[-1][1].append(line)
            open_line = (open_line or line.startswith("$ ")) and line.endswith("\\")
    return [("\n".join(command), wanted) for command, wanted in found]


def matches(wanted, got):
    """Whether the lines are those that are wanted, of which a line `..` stands for any lines."""
    if not wanted:
        return not got
    if wanted[0] == "..":
        return any(matches(wanted[1:], got[at:]) for at in range(len(got) + 1))
    return bool(got) and wanted[0].rstrip() == got[0].rstrip() and matches(wanted[1:], got[1:])


def prepare(room, program):
    """Makes the folder in which a page's commands run."""
    for entry in TOP.iterdir():
        if entry.name not in (".git", "out"):
            os.symlink(entry, room / entry.name)
    (room / "out").mkdir()
    os.symlink(program, room / "out" / "ledger")


def run_page(page, program):
    """How many commands of a page print what stands there, and how many don't."""
    commands = commands_of(page.read_text())
    with tempfile.TemporaryDirectory(prefix="docs-") as folder:
        room, said = Path(folder) / "room", Path(folder) / "said"
        room.mkdir()
        said.mkdir()
        prepare(room, program)
        lines = ["status=0"]
        for number, (command, _) in enumerate(commands):
            lines += ["(exit $status)", "{", command, f"}} > {said}/{number} 2>&1", "status=$?"]
        try:
            subprocess.run(["bash", "-c", "\n".join(lines)], cwd=room, stdin=subprocess.DEVNULL, timeout=LIMIT, check=False)
        except subprocess.TimeoutExpired:
            print(f"{page.name}: over {LIMIT} s")
        bad = 0
        for number, (command, wanted) in enumerate(commands):
            path = said / str(number)
            got = path.read_text(errors="replace").splitlines() if path.exists() else ["(was not run)"]
            if not matches(wanted, got):
                bad += 1
                print(f"{page.relative_to(TOP)}: $ {command}\n  wanted:", *wanted, "  got:", *got, sep="\n    ")
    return len(commands) - bad, bad


def main():
    program = Path(sys.argv[1] if len(sys.argv) > 1 else PROGRAM).resolve()
    pages = [Path(it).resolve() for it in sys.argv[2:]] or [TOP / "README.md", *(it for it in sorted(TOP.glob("docs/*.md")) if it.name not in OTHER_TESTS)]
    good = bad = 0
    for page in pages:
        more_good, more_bad = run_page(page, program)
        good, bad = good + more_good, bad + more_bad
    print(f"{good} passed, {bad} failed")
    return 1 if bad else 0


sys.exit(main())
