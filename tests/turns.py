#!/usr/bin/env python3
"""Runs eight sessions by eight workers, some times each on a new journal, of many transactions that take the ledger's turn for a
moment alone: they have no statement and are aborted. Each tenth one inserts a document, and holds the turn while its block is
made. So turns are given back while others go to sleep, and a lost wake would leave a worker asleep for good: each run must end in
time, with each transaction aborted or committed as it says. Ends with status 1 where something isn't as it should be.

    tests/turns.py [PROGRAM [RUNS]]

The program is crates/ledger/out/ledger, where `rt ci` leaves it, or another path.
"""
import sys
import tempfile
from pathlib import Path

import running
from running import PROGRAM, check

WORDS = ["run", "--plain-ids", "--at", "2020-01-01T00:00:00.000Z", "--workers"]
RUNS = 20
WORKERS = 8
SESSIONS = 8
TRANSACTIONS = 1000
SECONDS = 60
TABLE = '[{statements:["CREATE TABLE t"]}]'
SHORT = "{statements:[],end:abort}"
LONG = """{statements:["INSERT INTO t {'n':1}"],retries:100}"""
SESSION = [LONG if at % 10 == 9 else SHORT for at in range(TRANSACTIONS)]
ENDS = ["committed" if one is LONG else "aborted" for one in SESSION]


def run(program, journal, workers, script):
    return running.run([program, journal, *WORDS, workers], script.encode(), SECONDS)


def judge(program, journal):
    """Checks one run."""
    run(program, journal, 1, TABLE)
    lines = run(program, journal, WORKERS, "\n".join(["[" + ",".join(SESSION) + "]"] * SESSIONS))
    wanted = [
        f"{{session:{session + 1},transaction:{at + 1},outcome:{end},"
        for session in range(SESSIONS)
        for at, end in enumerate(ENDS)
    ]
    check(len(lines) == len(wanted), f"a line for each transaction: {len(lines)}")
    other = [line for line, start in zip(lines, wanted) if not line.startswith(start)]
    check(not other, f"each ends as it says: {other[:3]}")


def main():
    program = str(Path(sys.argv[1] if len(sys.argv) > 1 else PROGRAM).resolve())
    runs = int(sys.argv[2]) if len(sys.argv) > 2 else RUNS
    for _ in range(runs):
        with tempfile.TemporaryDirectory() as folder:
            judge(program, Path(folder) / "journal")
    print(f"{runs} runs of {SESSIONS * TRANSACTIONS} transactions by {WORKERS} workers ended")


main()
