#!/usr/bin/env python3
"""Times commits of one document each on a real file, by several workers, beside SQLite and the disk alone. README.md says more."""

import json
import os
import re
import sqlite3
import statistics
import subprocess
import sys
import tempfile
import time
from pathlib import Path

TOP = Path(__file__).resolve().parent.parent
WORKERS = [1, 2, 4]
SESSIONS = 4
TRANSACTIONS = 250
ROUNDS = 3
RUN = ["run", "--plain-ids", "--at", "2020-01-01T00:00:00.000Z"]
TABLE = b'[{statements:["CREATE TABLE t"]}]'


# ---- the program


def document(session, number):
    return {"session": session, "number": number, "owner": f"p{number % 97}"}


def insert(session, number):
    fields = ",".join(f"{name}:{json.dumps(value)}" for name, value in document(session, number).items())
    return f'{{statements:[{{text:"INSERT INTO t ?",params:[{{{fields}}}]}}],retries:100}}'


def inserts():
    """The sessions: each transaction inserts a document."""
    sessions = [[insert(session, number) for number in range(TRANSACTIONS)] for session in range(SESSIONS)]
    return "\n".join(f"[{','.join(session)}]" for session in sessions).encode()


def run(command, text=b""):
    """The seconds of a command by the clock and by the processors, and what it wrote."""
    with tempfile.TemporaryFile() as given, tempfile.TemporaryFile() as told:
        given.write(text)
        given.seek(0)
        begun = time.monotonic()
        child = subprocess.Popen(command, stdin=given, stdout=told)
        _, status, used = os.wait4(child.pid, 0)
        seconds = time.monotonic() - begun
        told.seek(0)
        wrote = told.read()
    if status != 0:
        sys.exit(wrote.decode()[:500])
    return seconds, used.ru_utime + used.ru_stime, wrote


def by_run(program, journal, workers):
    """Commits a second, and the processor microseconds of each, of a script of inserts."""
    words = [program, journal, *RUN, "--workers"]
    run([*words, "1"], TABLE)
    seconds, used, report = run([*words, str(workers)], inserts())
    count = SESSIONS * TRANSACTIONS
    if report.count(b"outcome:committed") != count:
        sys.exit("not all were committed: " + report.decode()[:500])
    return count / seconds, used / count * 1e6


def by_make(program, journal, workers):
    """The same of a made workload: each transaction inserts a document and counts those of its session."""
    words = ["--seed", "1", "--sessions", str(SESSIONS), "--transactions", str(TRANSACTIONS), "--workers", str(workers)]
    seconds, used, summary = run([program, journal, "make", *words])
    count = SESSIONS * TRANSACTIONS + 1
    if not re.match(rb"\{blocks:%d,documents:%d," % (count, count - 1), summary):
        sys.exit("another summary than it should be: " + summary.decode()[:500])
    return count / seconds, used / count * 1e6


# ---- beside it


def by_sqlite(path):
    """The same of SQLite, with a log that is written ahead and synced at each commit, and an insert a transaction."""
    store = sqlite3.connect(path, isolation_level=None)
    mode = store.execute("PRAGMA journal_mode=WAL").fetchone()
    store.execute("PRAGMA synchronous=FULL")
    if mode != ("wal",) or store.execute("PRAGMA synchronous").fetchone() != (2,):
        sys.exit("SQLite keeps no log that is synced at each commit")
    store.execute("CREATE TABLE t (number INTEGER PRIMARY KEY, document TEXT)")
    begun, used = time.monotonic(), time.process_time()
    for session in range(SESSIONS):
        for number in range(TRANSACTIONS):
            store.execute("INSERT INTO t (document) VALUES (?)", (json.dumps(document(session, number)),))
    seconds, used = time.monotonic() - begun, time.process_time() - used
    store.close()
    count = SESSIONS * TRANSACTIONS
    return count / seconds, used / count * 1e6


def by_disk(path, size):
    """How often a second so many bytes are appended to a file and synced, without a program around it, and the microseconds."""
    line = b"0" * size
    file = os.open(path, os.O_WRONLY | os.O_CREAT | os.O_APPEND)
    begun, used = time.monotonic(), time.process_time()
    for _ in range(SESSIONS * TRANSACTIONS):
        os.write(file, line)
        os.fsync(file)
    seconds, used = time.monotonic() - begun, time.process_time() - used
    os.close(file)
    count = SESSIONS * TRANSACTIONS
    return count / seconds, used / count * 1e6


# ---- all of it


def one_round(program, folder):
    """Each rate once, one after another."""
    rates = {}
    for workers in WORKERS:
        journal = folder / f"run-{workers}"
        rates[f"run, {workers} workers"] = by_run(program, journal, workers)
    size = journal.stat().st_size // (SESSIONS * TRANSACTIONS)
    for workers in WORKERS:
        rates[f"make, {workers} workers"] = by_make(program, folder / f"make-{workers}", workers)
    rates["SQLite"] = by_sqlite(folder / "sqlite")
    rates[f"appends of {size} bytes alone"] = by_disk(folder / "alone", size)
    return rates


def main():
    program = os.path.abspath(sys.argv[1] if len(sys.argv) > 1 else TOP / "crates" / "ledger" / "out" / "ledger")
    place = sys.argv[2] if len(sys.argv) > 2 else None
    rounds = []
    for _ in range(ROUNDS):
        with tempfile.TemporaryDirectory(dir=place) as folder:
            rounds.append(one_round(program, Path(folder)))
    beside = statistics.median(rates["SQLite"][0] for rates in rounds)
    for name in rounds[0]:
        rate = statistics.median(rates[name][0] for rates in rounds)
        used = statistics.median(rates[name][1] for rates in rounds)
        print(f"{name}: {rate:.0f} commits a second, {rate / beside:.2f} times SQLite; {used:.0f} us of the processors each")
    return 0


if __name__ == "__main__":
    sys.exit(main())
