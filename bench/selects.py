#!/usr/bin/env python3
"""Measures selects over tables of growing length: processor time and memory beyond loading. README.md says more."""

import os
import subprocess
import sys
import tempfile
from pathlib import Path

TOP = Path(__file__).resolve().parent.parent
WORDS = ["run", "--workers", "1", "--plain-ids", "--at", "2020-01-01T00:00:00.000Z"]
RUNS = 3
REPEATS = 20
ONE_TABLE = [4_000, 8_000, 16_000]
TWO_TABLES = [200, 400, 800]
LARGE_TABLE = [10_000, 100_000]
OVER_ONE = {
    "all fields": "SELECT * FROM t",
    "a condition": "SELECT VALUE t.number FROM t WHERE t.number % 2 = 0 AND t.owner <> 'p1'",
    "items": "SELECT t.number, t.owner AS o, t.number * 2 FROM t",
    "a path source": "SELECT VALUE i FROM t, t.items AS i",
    "aggregates": "SELECT COUNT(*), SUM(t.number), MAX(t.owner) FROM t",
    "a key": "SELECT VALUE t.owner FROM t WHERE t.number = 17",
}
OVER_TWO = {
    "pairs": "SELECT COUNT(*) FROM t AS a, t AS b",
    "a join": "SELECT VALUE a.owner FROM t AS a JOIN t AS b ON a.number = b.number",
}
BY_KEY = {
    "a join by key": "SELECT VALUE a.owner FROM t AS a JOIN t AS b ON a.number = b.number",
    "a join by key, counted": "SELECT COUNT(*) FROM t AS a JOIN t AS b ON a.number = b.number",
}
A_HUNDRED_KEYS = ",".join(str(number * 97) for number in range(100))
AMONG_KEYS = {"among 100 keys": f"SELECT VALUE t.owner FROM t WHERE t.number IN [{A_HUNDRED_KEYS}]"}


def documents(count, before='"CREATE TABLE t"'):
    """One session: a table by these statements, and its documents, 40 a transaction."""
    rows = [f'{{number:{n},owner:"p{n % 97}",items:[{n},{n + 1}]}}' for n in range(count)]
    parts = [rows[at : at + 40] for at in range(0, count, 40)]
    inserts = ",".join(f'{{statements:[{{text:"INSERT INTO t ?",params:[[{",".join(part)}]]}}]}}' for part in parts)
    return f"[{{statements:[{before}]}},{inserts}]".encode()


def indexed(count):
    """The documents, in a table with an index on their numbers."""
    return documents(count, '"CREATE TABLE t","CREATE INDEX ON t (number)"')


def run(program, journal, text):
    """The processor seconds, the peak megabytes and the report of a run of the text."""
    with tempfile.TemporaryFile() as given, tempfile.TemporaryFile() as told:
        given.write(text)
        given.seek(0)
        child = subprocess.Popen([program, journal, *WORDS], stdin=given, stdout=told)
        _, status, used = os.wait4(child.pid, 0)
        told.seek(0)
        report = told.read()
    if status != 0 or b"outcome:refused" in report:
        sys.exit(report.decode()[:500])
    return used.ru_utime + used.ru_stime, used.ru_maxrss * 1024 / 1e6, report


def best(program, journal, text):
    runs = [run(program, journal, text) for _ in range(RUNS)]
    return min(it[0] for it in runs), min(it[1] for it in runs), runs[0][2]


def given_up(statement, times):
    """A transaction that says the statement so many times and is given up, since a block would have the answers."""
    return f'[{{statements:[{",".join([chr(34) + statement + chr(34)] * times)}],end:abort}}]'.encode()


def measure(program, counts, statements, times, texts=documents):
    for name, statement in statements.items():
        told = []
        for count in counts:
            with tempfile.TemporaryDirectory() as folder:
                journal = Path(folder) / "journal"
                run(program, journal, texts(count))
                loading, held, _ = best(program, journal, b"")
                _, peak, _ = best(program, journal, given_up(statement, 1))
                seconds, _, _ = best(program, journal, given_up(statement, times))
            told.append(f"{count}: {(seconds - loading) / times * 1000:.1f} ms, {max(peak - held, 0):.1f} MB")
        print(f"{name} ({statement[:80]}): " + "; ".join(told), flush=True)


def main():
    program = sys.argv[1] if len(sys.argv) > 1 else TOP / "crates" / "ledger" / "out" / "ledger"
    measure(program, ONE_TABLE, OVER_ONE, REPEATS)
    measure(program, TWO_TABLES, OVER_TWO, 1)
    measure(program, TWO_TABLES, BY_KEY, REPEATS, indexed)
    measure(program, LARGE_TABLE, AMONG_KEYS, REPEATS, indexed)
    return 0


sys.exit(main())
