#!/usr/bin/env python3
"""Runs the program on a real file: a script, a second script in a process of its own, and then a journal that is cut at each
byte of its last line. Ends with status 1 where something isn't as it should be.

    tests/round_trip.py [PROGRAM]

The program is crates/ledger/out/ledger, where `rt ci` leaves it, or another path.
"""
import os
import subprocess
import sys
import tempfile

HERE = os.path.dirname(os.path.abspath(__file__))
ROOT = os.path.dirname(HERE)
PROGRAM = os.path.join(ROOT, "crates", "ledger", "out", "ledger")
WORDS = ["run", "--workers", "1", "--plain-ids", "--at", "2020-01-01T00:00:00.000Z"]
SELECT = b'[{statements:["SELECT * FROM accounts"]}]'


def run(program, journal, script):
    """The report of a run of the script on the journal's file."""
    ended = subprocess.run([program, journal] + WORDS, input=script, capture_output=True)
    if ended.returncode != 0:
        sys.exit(f"status {ended.returncode}: {ended.stdout!r} {ended.stderr!r}")
    return ended.stdout


def read(path):
    with open(path, "rb") as file:
        return file.read()


def write(path, content):
    with open(path, "wb") as file:
        file.write(content)


def check(holds, what):
    if not holds:
        sys.exit(f"not so: {what}")


def round_trip(program, journal):
    """Two runs on one file, each a process of its own."""
    accounts = read(os.path.join(ROOT, "examples", "accounts.ion"))
    first = run(program, journal, accounts)
    check([b"committed" in line for line in first.splitlines()] == [True, False, False, True], "the first report")
    before = read(journal)
    check(before.count(b"\n") == 2 and before.endswith(b"\n"), "two lines behind the first run")
    second = run(program, journal, b'[{statements:[{text:"INSERT INTO accounts ?",params:[{owner:"Alan",amount:7}]}]}]' + SELECT)
    check(b"block:2" in second.splitlines()[0], "the second run goes on at block 2")
    answer = b'answers:[[{owner:"Ada",amount:100},{owner:"Grace",amount:250},{owner:"Alan",amount:7}]]}'
    check(second.splitlines()[1].endswith(answer), "the second run finds what both runs inserted")
    after = read(journal)
    check(after.startswith(before) and after.count(b"\n") == 4, "the second run leaves the first lines and adds two")
    return after


def cuts(program, journal, whole):
    """The file cut at each byte of its last line: the next commit stands right behind the whole lines before it."""
    start = whole.rindex(b"\n", 0, len(whole) - 1) + 1
    write(journal, whole[:start])
    report = run(program, journal, SELECT)
    longer = read(journal)
    check(longer.startswith(whole[:start]) and longer.count(b"\n") == whole.count(b"\n"), "one line more")
    for end in range(start, len(whole)):
        write(journal, whole[:end])
        check(run(program, journal, SELECT) == report, f"the report of the journal of {end} bytes")
        check(read(journal) == longer, f"what is left of the journal of {end} bytes")
    return len(whole) - start


def main():
    program = os.path.abspath(sys.argv[1] if len(sys.argv) > 1 else PROGRAM)
    with tempfile.TemporaryDirectory() as folder:
        journal = os.path.join(folder, "journal")
        whole = round_trip(program, journal)
        count = cuts(program, journal, whole)
    print(f"a journal of {len(whole)} bytes, made by two runs and cut at {count} places: all as it should be")


main()
