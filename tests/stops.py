#!/usr/bin/env python3
"""Stops runs from outside: by SIGTERM, SIGINT and SIGKILL in their middle, and by a limit on the size of files. A stopped run leaves
whole blocks and perhaps a front part of one; where a file may not grow as far as a block needs, the store fails and no signal comes.
Ends with status 1 where something isn't as it should be.

    tests/stops.py [PROGRAM]

The program is crates/ledger/out/ledger, where `rt ci` leaves it, or another path.
"""
import os
import re
import resource
import signal
import subprocess
import sys
import tempfile
import time

HERE = os.path.dirname(os.path.abspath(__file__))
PROGRAM = os.path.join(os.path.dirname(HERE), "crates", "ledger", "out", "ledger")
RUN = ["run", "--workers", "1", "--plain-ids", "--at", "2020-01-01T00:00:00.000Z"]
COUNT = 600
FEW = 40
CREATE = b'{statements:["CREATE TABLE t"]}'
NEXT = b'[{statements:["INSERT INTO t {\'n\':-1}"]}]'
AUDIT = re.compile(rb"\{blocks:(\d+),revisions:\d+\}\n")


def check(holds, what):
    if not holds:
        sys.exit(f"not so: {what}")


def run(program, words, script=b"", **more):
    ended = subprocess.run([program] + words, input=script, capture_output=True, timeout=60, **more)
    return ended.returncode, ended.stdout


def script_of(count):
    """A table, and this many inserts into it."""
    return b"[" + b",".join([CREATE] + [b'{statements:["INSERT INTO t {\'n\':%d}"]}' % n for n in range(count)]) + b"]"


def blocks_of(program, journal, what):
    """How many blocks a whole journal has."""
    status, output = run(program, [journal, "audit"])
    counted = AUDIT.fullmatch(output)
    check(status == 0 and counted, f"{what}: the journal is whole: {status}, {output!r}")
    return int(counted[1])


def take_interrupts():
    """Has SIGINT end the program, though a shell that runs this test in the background ignores it."""
    signal.signal(signal.SIGINT, signal.SIG_DFL)


def signals(program, journal):
    """A signal ends the run; the blocks are whole, and the next run commits after them."""
    for number in [signal.SIGTERM, signal.SIGINT, signal.SIGKILL]:
        what = f"a run that is ended by {number.name}"
        process = subprocess.Popen([program, journal] + RUN, stdin=subprocess.PIPE, stdout=subprocess.PIPE, preexec_fn=take_interrupts)
        process.stdin.write(script_of(COUNT))
        process.stdin.close()
        while not os.path.exists(journal) or os.path.getsize(journal) < 3000:
            time.sleep(0.001)
            check(process.poll() is None, "the run goes on")
        process.send_signal(number)
        output = process.stdout.read()
        check(process.wait(30) == -number and output == b"", f"{what}: it tells nothing")
        blocks = blocks_of(program, journal, what)
        check(2 <= blocks <= COUNT, f"{what}: {blocks} blocks stand")
        status, output = run(program, [journal] + RUN, NEXT)
        check(status == 0 and b"block:%d," % blocks in output, f"{what}: the next run commits block {blocks}: {output!r}")
        os.remove(journal)


def limits(program, journal):
    """A file that may not grow: the store fails, and what is told as committed stands."""
    for size in [0, 100, 3000, 20_000]:
        what = f"a limit of {size} bytes"
        limit = (size, size)
        status, output = run(program, [journal] + RUN, script_of(FEW), preexec_fn=lambda: resource.setrlimit(resource.RLIMIT_FSIZE, limit))
        check(status in (0, 5), f"{what}: status 0 or 5, and not {status}")
        check(b"outcome:store_fault" in output or b"{status:5," in output, f"{what}: the fault is told")
        told = output.count(b"outcome:committed")
        check(blocks_of(program, journal, what) == told, f"{what}: what is told as committed stands, and no more")
        check(told > 0 or size < 1000, f"{what}: what has room is committed")
        check(not os.path.exists(journal) or os.path.getsize(journal) <= size, f"{what}: the file is no longer")
        check(run(program, [journal] + RUN, script_of(FEW) if told == 0 else NEXT)[0] == 0, f"{what}: the next run commits")
        os.remove(journal)


def main():
    program = os.path.abspath(sys.argv[1] if len(sys.argv) > 1 else PROGRAM)
    with tempfile.TemporaryDirectory() as folder:
        journal = os.path.join(folder, "journal")
        signals(program, journal)
        limits(program, journal)
    print("runs that are stopped, and files that may not grow: all as it should be")


main()
