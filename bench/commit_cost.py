#!/usr/bin/env python3
"""Measures commits of one small document each: how many a second beside SQLite's, calls of the system, and instructions. README.md says more."""

import re
import shutil
import sqlite3
import statistics
import subprocess
import sys
import tempfile
import time
from pathlib import Path

TOP = Path(__file__).resolve().parent.parent
sys.path.insert(0, str(TOP / "bench"))
from callgrind import counted

WORDS = ["run", "--plain-ids", "--at", "2020-01-01T00:00:00.000Z"]
ROUNDS, COMMITS = 5, 500
FEW, MANY = 100, 300
LEAST_OF_SQLITE, MOST_OF_HASHES = 1.0, 1.7
CALLS = ("open", "openat", "close", "lseek", "write", "fsync", "fdatasync", "flock", "fstat", "newfstatat", "statx")


def script(commits):
    """One session: a table, and then a document for each commit more."""
    inserts = "".join(f',{{statements:[{{text:"INSERT INTO t ?",params:[{{number:{n},owner:"p{n % 97}"}}]}}]}}' for n in range(commits))
    return f'[{{statements:["CREATE TABLE t"]}}{inserts}]'.encode()


def run(command, folder, commits):
    """Runs the script on a new journal, and answers the seconds."""
    journal = folder / "journal"
    journal.unlink(missing_ok=True)
    started = time.perf_counter()
    done = subprocess.run([*command, journal, *WORDS], input=script(commits), capture_output=True)
    taken = time.perf_counter() - started
    if done.returncode or done.stdout.count(b"outcome:committed") != commits + 1:
        sys.exit((done.stdout[-500:] + done.stderr[-500:]).decode())
    return taken


def rate(program, folder):
    """Commits a second, each of them synced."""
    return COMMITS / (run([program], folder, COMMITS + FEW) - run([program], folder, FEW))


def sqlite_rate(folder):
    """The same of SQLite in its mode WAL, synced at each commit, which inserts a row of the same values."""
    for name in ("rows", "rows-wal", "rows-shm"):
        (folder / name).unlink(missing_ok=True)
    rows = sqlite3.connect(folder / "rows", isolation_level=None)
    for line in ("PRAGMA journal_mode=WAL", "PRAGMA synchronous=FULL", "CREATE TABLE t (number INTEGER, owner TEXT)"):
        rows.execute(line)
    started = time.perf_counter()
    for n in range(COMMITS):
        rows.execute("INSERT INTO t VALUES (?, ?)", (n, f"p{n % 97}"))
    taken = time.perf_counter() - started
    rows.close()
    return COMMITS / taken


def durable(program, folder):
    pairs = [(rate(program, folder), sqlite_rate(folder)) for _ in range(ROUNDS)]
    of_sqlite = statistics.median(ours / theirs for ours, theirs in pairs)
    ours, theirs = (statistics.median(side) for side in zip(*pairs))
    print(f"durable commits a second: {ours:.0f}, SQLite's {theirs:.0f}; {of_sqlite:.2f} of SQLite's, wanted at least {LEAST_OF_SQLITE}")
    return of_sqlite >= LEAST_OF_SQLITE


def calls(program, folder):
    """How often a commit calls the system for its file."""
    counts = []
    for commits in (FEW, MANY):
        said = folder / "calls"
        run(["strace", "-f", "-c", "-o", said, program], folder, commits)
        found = re.findall(r"^\s*[\d.]+\s+[\d.]+\s+\d+\s+(\d+)\s+(?:\d+\s+)?(\w+)$", said.read_text(), re.M)
        counts.append({name: int(count) for count, name in found})
    few, many = counts
    each = {name: (many.get(name, 0) - few.get(name, 0)) / (MANY - FEW) for name in CALLS}
    print("calls a commit: " + ", ".join(f"{name} {count:.2f}" for name, count in each.items() if count))


def instructions(program, folder):
    """Instructions a commit, and those of SHA-256 among them."""
    counts = []
    for commits in (FEW, MANY):
        (folder / "journal").unlink(missing_ok=True)
        report, count, hashed = counted([program, folder / "journal", *WORDS], script(commits), folder / "instructions")
        if report.count(b"outcome:committed") != commits + 1:
            sys.exit(report[-500:].decode())
        counts.append((count, hashed))
    (few, few_hashed), (many, many_hashed) = counts
    each, hashed = (many - few) / (MANY - FEW), (many_hashed - few_hashed) / (MANY - FEW)
    print(f"instructions a commit: {each:.0f}, of which SHA-256 {hashed:.0f}")
    if hashed:
        print(f"{each / hashed:.2f} of those of SHA-256, wanted at most {MOST_OF_HASHES}")
    return not hashed or each / hashed <= MOST_OF_HASHES


def main():
    program = sys.argv[1] if len(sys.argv) > 1 else TOP / "crates" / "ledger" / "out" / "ledger"
    with tempfile.TemporaryDirectory(dir=sys.argv[2] if len(sys.argv) > 2 else None) as folder:
        folder = Path(folder)
        holds = durable(program, folder)
        if shutil.which("strace"):
            calls(program, folder)
        if shutil.which("callgrind_annotate"):
            holds = instructions(program, folder) and holds
    return 0 if holds else 1


if __name__ == "__main__":
    sys.exit(main())
