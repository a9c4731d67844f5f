#!/usr/bin/env python3
"""Times a commit and looked-up selects as the journal grows, and the memory a stored revision takes. README.md says more."""

import bisect
import os
import re
import subprocess
import sys
import tempfile
import time
from pathlib import Path

TOP = Path(__file__).resolve().parent.parent
WORDS = ["run", "--workers", "1", "--plain-ids", "--at", "2020-01-01T00:00:00.000Z"]
SIZES = [1_000, 10_000, 100_000]
HALF = 500
SELECTS, A_TRANSACTION = 4_000, 40
MEMORY = Path("/dev/shm")
MOST_OF_A_COMMIT, MOST_OF_A_SELECT = 1.3, 1.5


# ---- scripts


def insert(number):
    return f'{{statements:[{{text:"INSERT INTO t ?",params:[{{number:{number},owner:"p{number % 97}"}}]}}]}}'


def growing(blocks):
    """One session: a table with an index, and then a document for each block more."""
    inserts = ",".join(insert(number) for number in range(2, blocks))
    return f'[{{statements:["CREATE TABLE t"]}},{{statements:["CREATE INDEX ON t (number)"]}},{inserts}]'.encode()


def between(statement, size):
    """An insert, so many selects of transactions that are given up, and an insert."""
    said = ",".join([f'"{statement}"'] * A_TRANSACTION)
    given_up = ",".join([f"{{statements:[{said}],end:abort}}"] * (SELECTS // A_TRANSACTION))
    return f"[{insert(size)},{given_up},{insert(size + 1)}]".encode()


# ---- a run that is watched


def folder():
    """A folder for journals, in memory where the system has one there: processor time is measured, and no disk."""
    return tempfile.TemporaryDirectory(dir=MEMORY if MEMORY.is_dir() else None)


def seconds_of(pid):
    """The processor seconds of a process's threads so far."""
    total = 0
    for thread in os.listdir(f"/proc/{pid}/task"):
        try:
            total += int(Path(f"/proc/{pid}/task/{thread}/schedstat").read_text().split()[0])
        except OSError:
            pass
    return total / 1e9


def watched(program, journal, text):
    """Runs the text. The lengths that the journal had, each with the processor seconds by then, and the peak memory in bytes."""
    lengths, seconds = [], []
    with tempfile.TemporaryFile() as given, tempfile.TemporaryFile() as told:
        given.write(text)
        given.seek(0)
        child = subprocess.Popen([program, journal, *WORDS], stdin=given, stdout=told)
        while True:
            length = journal.stat().st_size if journal.exists() else 0
            if not lengths or length != lengths[-1]:
                try:
                    seconds.append(seconds_of(child.pid))
                    lengths.append(length)
                except OSError:
                    pass
            pid, status, used = os.wait4(child.pid, os.WNOHANG)
            if pid:
                break
            time.sleep(0.0002)
        told.seek(0)
        report = told.read()
    if status != 0 or b"outcome:refused" in report:
        sys.exit(report.decode()[:500])
    return lengths, seconds, used.ru_maxrss * 1024


def at(length, lengths, seconds):
    """The processor seconds by which the journal had this length."""
    place = bisect.bisect_left(lengths, length)
    if place == len(lengths):
        sys.exit("the run was over before it was seen at its end: give more selects or blocks")
    return seconds[place]


# ---- what is measured


def commits(program, journal):
    """The microseconds of a commit at each size, over the blocks around it."""
    lengths, seconds, _ = watched(program, journal, growing(SIZES[-1] + HALF + 100))
    ends = [0]
    for line in journal.open("rb"):
        ends.append(ends[-1] + len(line))
    for size in SIZES:
        used = at(ends[size + HALF], lengths, seconds) - at(ends[size - HALF], lengths, seconds)
        yield used / (2 * HALF) * 1e6


def selects(program, whole, size, statement):
    """The microseconds of a select on a journal of so many blocks."""
    with folder() as place:
        journal = Path(place) / "journal"
        with whole.open("rb") as lines, journal.open("wb") as some:
            for _ in range(size):
                some.write(next(lines))
        before = journal.stat().st_size
        lengths, seconds, _ = watched(program, journal, between(statement, size))
        first = at(before + 1, lengths, seconds)
        last = at(journal.stat().st_size, lengths, seconds)
        return (last - first) / SELECTS * 1e6


def memory(program, whole):
    """The bytes of memory and of its line that a stored revision takes, by journals of two lengths."""
    peaks, sizes = [], []
    for size in SIZES[-2:]:
        with folder() as place:
            journal = Path(place) / "journal"
            with whole.open("rb") as lines, journal.open("wb") as some:
                for _ in range(size):
                    some.write(next(lines))
            _, _, peak = watched(program, journal, b"")
            peaks.append(peak)
            sizes.append(journal.stat().st_size)
    more = SIZES[-1] - SIZES[-2]
    return (peaks[1] - peaks[0]) / more, (sizes[1] - sizes[0]) / more


def told(name, figures, most):
    """Prints the figures, and answers whether the last is at most so many times the first."""
    ratio = figures[-1] / figures[0]
    row = "; ".join(f"{size:,}: {figure:.0f} us" for size, figure in zip(SIZES, figures))
    print(f"{name}: {row}; the last is {ratio:.2f} times the first, at most {most}", flush=True)
    return ratio <= most


def main():
    program = sys.argv[1] if len(sys.argv) > 1 else TOP / "crates" / "ledger" / "out" / "ledger"
    with folder() as place:
        whole = Path(place) / "journal"
        fine = told("a commit", list(commits(program, whole)), MOST_OF_A_COMMIT)
        with whole.open("rb") as lines:
            line = [next(lines) for _ in range(SIZES[0] // 2)][-1].decode()
        number = re.search(r"number:(\d+)", line).group(1)
        document = re.search(r'metadata:\{id:"(\w+)"', line).group(1)
        statements = {
            "a select by an indexed key": f"SELECT VALUE t.owner FROM t WHERE t.number = {number}",
            "a select by id": f"SELECT VALUE t.owner FROM t BY d WHERE d = '{document}'",
        }
        for name, statement in statements.items():
            figures = [selects(program, whole, size, statement) for size in SIZES]
            fine = told(name, figures, MOST_OF_A_SELECT) and fine
        held, line = memory(program, whole)
        print(f"a stored revision: {held:.0f} bytes of memory, {line:.0f} bytes of its line")
    return 0 if fine else 1


sys.exit(main())
