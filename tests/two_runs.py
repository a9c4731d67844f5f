#!/usr/bin/env python3
"""Starts two runs of the program on one journal at the same time, each with 200 inserts: once on a journal that there is, and
once where there is none yet. A run that finds the journal held by the other ends with status 5 and leaves nothing in it; a run
that ends with status 0 finds all that it committed. Ends with status 1 where something isn't as it should be.

    tests/two_runs.py [PROGRAM]

The program is crates/ledger/out/ledger, where `rt ci` leaves it, or another path.
"""
import os
import subprocess
import sys
import tempfile

HERE = os.path.dirname(os.path.abspath(__file__))
PROGRAM = os.path.join(os.path.dirname(HERE), "crates", "ledger", "out", "ledger")
WORDS = ["run", "--workers", "1", "--plain-ids", "--at", "2020-01-01T00:00:00.000Z"]
COUNT = 200
CREATE = '[{statements:["CREATE TABLE t"]}]'
SELECT = '[{statements:["SELECT * FROM t"]}]'


def check(holds, what):
    if not holds:
        sys.exit(f"not so: {what}")


def inserts(name):
    """A session of inserts by the run of this name."""
    one = '{{statements:[{{text:"INSERT INTO t ?",params:[{{run:"{}",n:{}}}]}}]}}'
    return "[" + ",".join(one.format(name, n) for n in range(COUNT)) + "]"


def start(program, journal):
    pipe = subprocess.PIPE
    return subprocess.Popen([program, journal] + WORDS, stdin=pipe, stdout=pipe)


def run(program, journal, script):
    ended = subprocess.run([program, journal] + WORDS, input=script.encode(), capture_output=True)
    check(ended.returncode == 0, f"status 0 and not {ended.returncode}: {ended.stdout!r}")
    return ended.stdout


def both(program, journal, scripts):
    """The statuses and the outputs of the runs of two scripts at the same time."""
    started = [start(program, journal) for _ in scripts]
    for process, script in zip(started, scripts):
        process.stdin.write(script.encode())
        process.stdin.close()
    outputs = [process.stdout.read() for process in started]
    return [process.wait() for process in started], outputs


def judge(program, journal, statuses, outputs, before):
    """Checks what two runs left; `before` is how many transactions stand before the inserts of each of them."""
    check(0 in statuses and set(statuses) <= {0, 5}, f"the statuses are 0 and 0 or 5, and not {statuses}")
    answer = run(program, journal, SELECT)
    for name, status, output in zip("ab", statuses, outputs):
        if status == 0:
            lines = output.splitlines()
            check(len(lines) == before + COUNT, "a line for each transaction")
            check(all(b"outcome:committed" in line for line in lines), "all are committed")
            check(all(f'{{run:"{name}",n:{n}}}'.encode() in answer for n in range(COUNT)), f"all inserts of {name} stand")
        else:
            check(output.startswith(b"{status:5,faults:") and output.count(b"\n") == 1, f"one line and not {output!r}")
            check(f'run:"{name}"'.encode() not in answer, f"nothing of {name} stands")


def main():
    program = os.path.abspath(sys.argv[1] if len(sys.argv) > 1 else PROGRAM)
    ends = []
    for turn in range(3):
        with tempfile.TemporaryDirectory() as folder:
            journal = os.path.join(folder, "journal")
            run(program, journal, CREATE)
            statuses, outputs = both(program, journal, [inserts("a"), inserts("b")])
            judge(program, journal, statuses, outputs, 0)
            ends.append(sorted(statuses))
        with tempfile.TemporaryDirectory() as folder:
            journal = os.path.join(folder, "journal")
            statuses, outputs = both(program, journal, [CREATE + inserts("a"), CREATE + inserts("b")])
            judge(program, journal, statuses, outputs, 1)
            ends.append(sorted(statuses))
    print(f"two runs at a time, {COUNT} inserts each, {len(ends)} times: all as it should be, with the statuses {ends}")


main()
