#!/usr/bin/env python3
"""Runs the program on pipes whose ends do not wait (O_NONBLOCK): an input that comes late and in parts, and an output that is read
late. What would have to wait is waited for, so the report is the one of plain pipes. Ends with status 1 where something isn't as it
should be.

    tests/slow_pipes.py [PROGRAM]

The program is crates/ledger/out/ledger, where `rt ci` leaves it, or another path.
"""
import os
import subprocess
import sys
import tempfile
import threading
import time

HERE = os.path.dirname(os.path.abspath(__file__))
PROGRAM = os.path.join(os.path.dirname(HERE), "crates", "ledger", "out", "ledger")
RUN = ["run", "--workers", "1", "--plain-ids", "--at", "2020-01-01T00:00:00.000Z"]
TRANSACTION = b'{statements:["SELECT VALUE \'' + b"x" * 4000 + b'\' FROM t"]}'
SCRIPT = b'[{statements:["CREATE TABLE t",{text:"INSERT INTO t ?",params:[{n:1}]}]},' + b",".join([TRANSACTION] * 30) + b"]"
PARTS = 5
PAUSE = 0.2


def check(holds, what):
    if not holds:
        sys.exit(f"not so: {what}")


def feed(end, script):
    """Writes the script in parts, with a pause before each, until the program no longer reads."""
    size = len(script) // PARTS + 1
    try:
        for at in range(0, len(script), size):
            time.sleep(PAUSE)
            rest = script[at:at + size]
            while rest:
                rest = rest[os.write(end, rest):]
    except BrokenPipeError:
        pass
    finally:
        os.close(end)


def drain(end, whole):
    """Reads all, with pauses that leave the pipe full."""
    with os.fdopen(end, "rb", buffering=0) as stream:
        for turn in range(1_000_000):
            if turn < PARTS:
                time.sleep(PAUSE)
            piece = stream.read(20_000)
            if not piece:
                return
            whole.append(piece)


def run(program, journal, script, waits):
    """The status and the output of a run, whose ends of the pipes wait or do not."""
    source, feeding = os.pipe()
    draining, sink = os.pipe()
    os.set_blocking(source, waits)
    os.set_blocking(sink, waits)
    process = subprocess.Popen([program, journal] + RUN, stdin=source, stdout=sink)
    os.close(source)
    os.close(sink)
    whole = []
    threads = [threading.Thread(target=feed, args=(feeding, script)), threading.Thread(target=drain, args=(draining, whole))]
    for thread in threads:
        thread.start()
    try:
        status = process.wait(60)
    except subprocess.TimeoutExpired:
        process.kill()
        sys.exit("not so: the run ends within a minute")
    for thread in threads:
        thread.join()
    return status, b"".join(whole)


def main():
    program = os.path.abspath(sys.argv[1] if len(sys.argv) > 1 else PROGRAM)
    with tempfile.TemporaryDirectory() as folder:
        plain = run(program, os.path.join(folder, "plain"), SCRIPT, True)
        check(plain[0] == 0 and len(plain[1]) > 100_000, f"a run on plain pipes: {plain[0]}, {len(plain[1])} bytes")
        slow = run(program, os.path.join(folder, "slow"), SCRIPT, False)
        check(slow[0] == 0, f"a run on pipes that do not wait: status 0 and not {slow[0]}")
        check(slow[1] == plain[1], "its report is the one of plain pipes")
    print(f"pipes that do not wait: all as it should be, {len(SCRIPT)} bytes in and {len(plain[1])} out")


main()
