#!/usr/bin/env python3
"""Loads journals by one thread and by several, whole ones and damaged ones: each way of loading must find the same blocks, or the same
damage. The journals have more lines than one piece that is read, lines that end at the ends of pieces, and one that is longer than
two pieces. Ends with status 1 where something isn't as it should be.

    tests/loads.py [PROGRAM [PIECE]]

The program is crates/ledger/out/ledger, where `rt ci` leaves it, or another path. PIECE is the number of bytes of a piece, where the
program was built with another than that of `wide_piece` in journal_reader (a slow build with small pieces can be tried so).
"""
import subprocess
import sys
import tempfile
from pathlib import Path

from running import PROGRAM, check

WORKERS = [1, 3, 64]
PIECE = int(sys.argv[2]) if len(sys.argv) > 2 else 1048576
RUN = ["run", "--plain-ids", "--at", "2020-01-01T00:00:00.000Z", "--workers"]
# a transaction whose line is longer than two pieces, of documents that are within the bounds of one
SIZE = min(100_000, 2 * PIECE + 100)
PUT = b'{text:"INSERT INTO made ?",params:[{a:"%s"}]}' % (b"x" * SIZE)
LARGE = b"[{statements:[%s]}]" % b",".join([PUT] * (2 * PIECE // SIZE + 1))
# how many small documents are put in for each of two parts of a journal: a block of one has some thousand bytes
DOCUMENTS = PIECE // 900 + 10
SESSIONS = 8


def run(program, words, script=b""):
    """The status of a command, and what it writes."""
    ended = subprocess.run([program, *words], input=script, capture_output=True, timeout=100)
    return ended.returncode, ended.stdout


def made(program, folder):
    """The lines of a journal of several pieces, one of them of more than two pieces."""
    journal = folder / "made"
    insert = b"{statements:[\"INSERT INTO made {'amount':%d}\"]}"
    check(run(program, [journal, "make", "--seed", "1", "--sessions", "2", "--transactions", "3"])[0] == 0, "a workload is made")
    small = b"".join(b"[%s]" % b",".join(insert % n for n in range(first, DOCUMENTS, SESSIONS)) for first in range(SESSIONS))
    for script in [small, LARGE, small]:
        status, report = run(program, [journal, *RUN, "2"], script)
        check(status == 0 and b"committed" in report, f"documents are committed: {report[:300]!r}")
    return journal.read_bytes().splitlines(keepends=True)


def changed(line, at):
    """The line with another byte there."""
    return line[:at] + (b"y" if line[at:at + 1] != b"y" else b"z") + line[at + 1:]


def journals(lines):
    """Journals by name: the whole one, its parts, and what damage does to it."""
    whole = b"".join(lines)
    large = max(range(len(lines)), key=lambda n: len(lines[n]))
    yield "whole", whole
    yield "nothing", b""
    for cut in [1, 2 * PIECE, 2 * PIECE + 1, len(whole) - 1, len(whole) - len(lines[-1])]:
        yield f"cut at {cut}", whole[:cut]
    for n in [0, 1, len(lines) // 3, large - 1, large, large + 1, len(lines) - 1]:
        front, line, back = b"".join(lines[:n]), lines[n], b"".join(lines[n + 1:])
        yield f"line {n} left out", front + back
        yield f"line {n} twice", front + line + line + back
        yield f"an empty line before {n}", front + b"\n" + line + back
        yield f"a space behind {n}", front + line[:-1] + b" \n" + back
        yield f"no line feed behind {n}", front + line[:-1] + back
        for at in [0, len(line) // 2, len(line) - 2]:
            yield f"byte {at} of line {n}", front + changed(line, at) + back
    for first, second in [(3, 4), (5, len(lines) - 5)]:
        swapped = list(lines)
        swapped[first], swapped[second] = swapped[second], swapped[first]
        yield f"lines {first} and {second} swapped", b"".join(swapped)
    yield "line feeds alone", b"\n" * (2 * PIECE)
    twice = (len(lines) // 4, len(lines) // 4 * 3)
    yield "two damaged lines", b"".join(changed(line, 20) if n in twice else line for n, line in enumerate(lines))


def compare(program, folder, name, held):
    """Each number of workers finds in the journal what `audit` finds by one thread, and leaves the lines as they are."""
    journal = folder / "journal"
    journal.write_bytes(held)
    audit = run(program, [journal, "audit"])
    digest = run(program, [journal, "digest"])
    for workers in WORKERS:
        journal.write_bytes(held)
        found = run(program, [journal, *RUN, str(workers)])
        if audit[0] == 3:
            check(found == audit, f"{name}: {workers} workers find {audit[1]!r}, and not {found[1][:300]!r}")
            check(journal.read_bytes() == held, f"{name}: a damaged journal stays as it is")
        else:
            check(found[0] == 0, f"{name}: {workers} workers load it: {found[1][:300]!r}")
            check(run(program, [journal, "audit"]) == audit, f"{name}: {workers} workers leave its blocks")
            check(run(program, [journal, "digest"]) == digest, f"{name}: {workers} workers leave its digest")
    return audit[0]


def main():
    program = str(sys.argv[1] if len(sys.argv) > 1 else PROGRAM)
    found = []
    with tempfile.TemporaryDirectory() as folder:
        folder = Path(folder)
        lines = made(program, folder)
        check(sum(map(len, lines)) > 4 * PIECE, "the journal has several pieces")
        for name, held in journals(lines):
            found.append(compare(program, folder, name, held))
    print(f"{len(found)} journals by {len(WORKERS)} numbers of workers: {found.count(3)} damaged, each by all with the same damage")
    return 0


if __name__ == "__main__":
    sys.exit(main())
