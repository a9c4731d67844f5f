#!/usr/bin/env python3
"""Runs the program with standard streams that are closed. The journal must hold what it holds where they are open, a closed
input is a failed input (status 4) and a closed output a failed output (status 6). Ends with status 1 where something isn't as it
should be.

    tests/standard_streams.py [PROGRAM]

The program is crates/ledger/out/ledger, where `rt ci` leaves it, or another path.
"""
import os
import subprocess
import sys
import tempfile

HERE = os.path.dirname(os.path.abspath(__file__))
PROGRAM = os.path.join(os.path.dirname(HERE), "crates", "ledger", "out", "ledger")
RUN = ["run", "--workers", "2", "--plain-ids", "--at", "2020-01-01T00:00:00.000Z"]
CREATE = b'[{statements:["CREATE TABLE t"]}]'
CLOSED = ["<&-", ">&-", "2>&-", "<&- >&-", "<&- 2>&-", ">&- 2>&-", "<&- >&- 2>&-"]


def check(holds, what):
    if not holds:
        sys.exit(f"not so: {what}")


def run(program, words, script=b"", closed=""):
    """The status of a run whose shell closes these streams, and its output."""
    shell = ["sh", "-c", f'exec "$@" {closed}', "sh", program] + words
    ended = subprocess.run(shell, input=script, stdout=subprocess.PIPE, stderr=subprocess.DEVNULL, timeout=60)
    return ended.returncode, ended.stdout


def left(path):
    """The bytes of a file, None where there is none."""
    if not os.path.exists(path):
        return None
    with open(path, "rb") as file:
        return file.read()


def first_blocks(program, folder, whole):
    """A run that makes the journal."""
    for place, closed in enumerate(CLOSED):
        journal = os.path.join(folder, f"first{place}")
        status, output = run(program, [journal] + RUN, CREATE, closed)
        if "<&-" in closed:
            check(status == 4 and left(journal) is None, f"{closed}: status 4 and no journal, and not {status}")
        else:
            check(status == (6 if " >&-" in f" {closed}" else 0), f"{closed}: not status {status}")
            check(left(journal) == whole, f"{closed}: the journal is as with open streams")
        check(">&-" not in closed.split() or output == b"", f"{closed}: nothing is written")


def kept_journals(program, journal, whole, ends):
    """Commands on a journal that there is."""
    for closed in CLOSED:
        for command, (status, output) in ends.items():
            is_closed = ">&-" in closed.split()
            want = (6, b"") if is_closed else (status, output)
            check(run(program, [journal, command], b"", closed) == want, f"{command} {closed}: {want}")
        want = 4 if "<&-" in closed else 0
        check(run(program, [journal] + RUN, b"", closed)[0] == want, f"an empty script {closed}: {want}")
        check(left(journal) == whole, f"{closed}: the journal is left")


def main():
    program = os.path.abspath(sys.argv[1] if len(sys.argv) > 1 else PROGRAM)
    with tempfile.TemporaryDirectory() as folder:
        journal = os.path.join(folder, "journal")
        check(run(program, [journal] + RUN, CREATE)[0] == 0, "one block is committed")
        whole = left(journal)
        ends = {command: run(program, [journal, command]) for command in ["audit", "compact", "digest", "export", "stream"]}
        check(all(status == 0 for status, _ in ends.values()), "the journal is whole")
        first_blocks(program, folder, whole)
        kept_journals(program, journal, whole, ends)
    print(f"closed streams: all as they should be, {len(CLOSED)} ways to close them")


main()
