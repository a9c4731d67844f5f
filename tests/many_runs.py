#!/usr/bin/env python3
"""Starts ten processes at once on one journal: runs, and commands that only read. A run that doesn't get the journal ends with
status 5 and commits nothing; each that gets it commits all; readers tell a state between two runs. Ends with status 1 where
something isn't as it should be.

    tests/many_runs.py [PROGRAM]

The program is crates/ledger/out/ledger, where `rt ci` leaves it, or another path.
"""
import os
import re
import subprocess
import sys
import tempfile

HERE = os.path.dirname(os.path.abspath(__file__))
PROGRAM = os.path.join(os.path.dirname(HERE), "crates", "ledger", "out", "ledger")
RUN = ["run", "--workers", "2", "--plain-ids", "--at", "2020-01-01T00:00:00.000Z"]
CREATE = b'[{statements:["CREATE TABLE t"]}]'
COUNT = 5
RUNS, READERS, TURNS = 6, 4, 5
AUDIT = re.compile(rb"\{blocks:(\d+),revisions:(\d+)\}\n")


def check(holds, what):
    if not holds:
        sys.exit(f"not so: {what}")


def script_of(name):
    insert = "{statements:[\"INSERT INTO t {'run':%d,'n':%d}\"]}"
    return ("[" + ",".join(insert % (name, n) for n in range(COUNT)) + "]").encode()


def start(words, script):
    """A process that was given its script, of which it may read nothing."""
    process = subprocess.Popen(words, stdin=subprocess.PIPE, stdout=subprocess.PIPE)
    try:
        process.stdin.write(script)
        process.stdin.close()
    except BrokenPipeError:
        pass
    return process


def ended(process):
    output = process.stdout.read()
    return process.wait(60), output


def turn(program, journal):
    """Ten processes at once, on a journal with a table and nothing in it. It returns how many runs got the journal."""
    runs = [start([program, journal] + RUN, script_of(name)) for name in range(RUNS)]
    readers = [start([program, journal, "audit"], b"") for _ in range(READERS)]
    won = 0
    for name, process in enumerate(runs):
        status, output = ended(process)
        if status == 0:
            check(output.count(b"outcome:committed") == COUNT, f"run {name}: all is committed: {output!r}")
            won += 1
        else:
            check((status, output) == (5, b"{status:5,faults:1}\n"), f"run {name}: the journal is taken: {status}, {output!r}")
    for process in readers:
        status, output = ended(process)
        counted = AUDIT.fullmatch(output)
        if status == 0:
            check(counted and int(counted[2]) % COUNT == 0, f"a reader sees whole runs: {output!r}")
        else:
            check((status, output) == (5, b"{status:5,faults:1}\n"), f"a reader beside a run: {status}, {output!r}")
    return won


def readers_alone(program, journal, blocks):
    """Ten readers at once, none of which is refused."""
    readers = [start([program, journal, "audit"], b"") for _ in range(RUNS + READERS)]
    for process in readers:
        status, output = ended(process)
        check(status == 0 and output.startswith(b"{blocks:%d," % blocks), f"readers beside readers: {status}, {output!r}")


def main():
    program = os.path.abspath(sys.argv[1] if len(sys.argv) > 1 else PROGRAM)
    all_won = []
    for _ in range(TURNS):
        with tempfile.TemporaryDirectory() as folder:
            journal = os.path.join(folder, "journal")
            check(ended(start([program, journal] + RUN, CREATE))[0] == 0, "one block is committed")
            won = turn(program, journal)
            readers_alone(program, journal, 1 + won * COUNT)
            all_won.append(won)
    print(f"ten processes at once, {TURNS} times: all as it should be, and of {RUNS} runs these got the journal: {all_won}")


main()
