#!/usr/bin/env python3
"""Runs the bank's transfers of examples/bank.*.ion by one, two and four workers, some times each on a new journal. The transfers'
numbers, blocks and retries depend on which session comes first; that each of them is committed or in conflict, that each one
committed saw the whole amount, and what is in the accounts at the end doesn't. Ends with status 1 where something isn't as it
should be.

    tests/bank.py [PROGRAM]

The program is crates/ledger/out/ledger, where `rt ci` leaves it, or another path.
"""
import re
import sys
import tempfile
from pathlib import Path

import running
from running import PROGRAM, ROOT, check

WORDS = ["run", "--plain-ids", "--at", "2020-05-05T10:00:00.000Z", "--workers"]
WORKERS = [1, 2, 4]
TIMES = 5
SECONDS = 60
TRANSFERS = 12
WHOLE = "[{total:400}]"
STATES = "[{accounts:4,total:400}],[{owner:\"Ada\",amount:160},{owner:\"Eve\",amount:65},{owner:\"Grace\",amount:90},{owner:\"Kay\",amount:85}]"


def run(program, journal, part, workers):
    """The lines of the report of this part."""
    script = (ROOT / "examples" / f"bank.{part}.ion").read_bytes()
    return running.run([program, journal, *WORDS, workers], script, SECONDS)


def judge(program, journal, workers):
    """Checks a run of all parts, and tells how many transfers were committed and how many tries it took."""
    run(program, journal, 1, 1)
    transfers = run(program, journal, 2, workers)
    committed = [line for line in transfers if "outcome:committed" in line]
    conflicts = [line for line in transfers if "outcome:conflict" in line]
    check(len(transfers) == TRANSFERS == len(committed) + len(conflicts), f"a line for each transfer: {transfers}")
    check(all(line.endswith(WHOLE + "]}") for line in committed), f"each transfer sees the whole amount: {committed}")
    end = run(program, journal, 3, 1)[0]
    check("[{accounts:4,total:400}]" in end, f"no amount is lost: {end}")
    revisions = int(re.search(r"\{revisions:(\d+)\}", end).group(1))
    check(revisions == 4 + 2 * len(committed), f"two revisions for each transfer committed: {end}")
    if not conflicts:
        check(STATES in end, f"the amounts of all transfers: {end}")
    return len(committed)


def main():
    program = str(Path(sys.argv[1] if len(sys.argv) > 1 else PROGRAM).resolve())
    for workers in WORKERS:
        counts = []
        for _ in range(TIMES):
            with tempfile.TemporaryDirectory() as folder:
                counts.append(judge(program, Path(folder) / "journal", workers))
        print(f"{workers} workers: {counts} of {TRANSFERS} transfers committed")


main()
