#!/usr/bin/env python3
"""Runs the program while calls on its journal's file fail: by strace, which makes one call of the system fail at a time, and on a
medium that is full. No run may hang or end by a signal; what a report tells as committed stands in the journal; the journal is
whole afterwards, and is taken by the next run. Ends with status 1 where something isn't as it should be; what a machine lacks is
said to be skipped.

    tests/faults.py [PROGRAM]

The program is crates/ledger/out/ledger, where `rt ci` leaves it, or another path.
"""
import os
import re
import shutil
import subprocess
import sys
import tempfile

HERE = os.path.dirname(os.path.abspath(__file__))
PROGRAM = os.path.join(os.path.dirname(HERE), "crates", "ledger", "out", "ledger")
RUN = ["run", "--workers", "1", "--plain-ids", "--at", "2020-01-01T00:00:00.000Z"]
CREATE = b'[{statements:["CREATE TABLE t"]},{statements:["INSERT INTO t {\'n\':0}"]}]'
INSERTS = b"[" + b",".join([b'{statements:["INSERT INTO t {\'n\':%d}"]}' % n for n in range(4)]) + b"]"
COMMITTED = re.compile(rb'outcome:committed,tx:"(\w{22})",block:(\d+)')
REST = b"{blockAddress:{strandId:"
SECONDS = 60

# the calls that fail, each by the names that systems have for it, with the errors and at which of the calls
CALLS = [
    (["write"], ["ENOSPC", "EIO", "EINTR", "EDQUOT"], [1, 3]),
    (["fsync"], ["EIO", "EINTR", "ENOSPC"], [1, 2, 3]),
    (["ftruncate"], ["EIO", "EINTR"], [1]),
    (["read", "pread64"], ["EIO", "EINTR"], [1, 2]),
    (["lseek"], ["EIO"], [1, 2]),
    (["openat"], ["EIO", "EINTR", "EMFILE", "EACCES"], [1]),
    (["flock"], ["EINTR", "EAGAIN", "ENOLCK"], [1]),
    (["statx", "fstat", "newfstatat"], ["EIO"], [1, 2, 3, 5]),
]


def check(holds, what):
    if not holds:
        sys.exit(f"not so: {what}")


def run(words, script=b""):
    """The status of a program and its output."""
    try:
        ended = subprocess.run(words, input=script, capture_output=True, timeout=SECONDS)
    except subprocess.TimeoutExpired:
        sys.exit(f"not so: {words} ends within {SECONDS} seconds")
    return ended.returncode, ended.stdout


def left(path):
    with open(path, "rb") as file:
        return file.read()


def write(path, content):
    with open(path, "wb") as file:
        file.write(content)


def judge(program, journal, status, output, before, what):
    """Checks what a run with failing calls told and left, on a journal with these bytes before it."""
    check(status in (0, 5), f"{what}: status 0 or 5, and not {status}: {output[-300:]!r}")
    if status == 5:
        check(output.splitlines()[-1].startswith(b"{status:5,faults:"), f"{what}: the last line tells the fault")
    held = left(journal)
    check(held.startswith(before[:before.rfind(b"\n") + 1]), f"{what}: the blocks before are left")
    lines = held.split(b"\n")[:-1]
    for tx, block in COMMITTED.findall(output):
        check(int(block) < len(lines) and b'transactionId:"' + tx in lines[int(block)], f"{what}: block {int(block)} stands")
    check(run([program, journal, "audit"])[1].startswith(b"{blocks:%d," % len(lines)), f"{what}: the journal is whole")
    status, output = run([program, journal] + RUN, INSERTS)
    check(status == 0 and len(COMMITTED.findall(output)) == 4, f"{what}: the next run commits")


def injected(program, folder):
    """One call, or the calls of two kinds, that fail."""
    if not shutil.which("strace") or run(["strace", "-qq", "-o", os.devnull, "true"])[0] != 0:
        print("skipped: failing calls, for which this machine lacks strace")
        return 0
    journal = os.path.join(folder, "journal")
    run([program, journal] + RUN, CREATE)
    whole = left(journal)
    singles = [[(names, error, when)] for names, errors, whens in CALLS for error in errors for when in whens]
    pairs = [[(["fsync"], "EIO", 3), (["ftruncate"], error, 2)] for error in ["EIO", "EINTR"]]
    for wanted in singles + pairs:
        write(journal, whole + REST)
        words = ["strace", "-f", "-qq", "-P", journal, "-o", os.path.join(folder, "calls")]
        for names, error, when in wanted:
            words += ["-e", f"inject={','.join(names)}:error={error}:when={when}"]
        status, output = run(words + [program, journal] + RUN, INSERTS)
        what = " and ".join(f"{names[0]} {error} {when}" for names, error, when in wanted)
        judge(program, journal, status, output, whole, what)
    os.remove(journal)
    return len(singles + pairs)


def full_medium(program, folder):
    """A medium that is full in the middle of a block: a part of its line is written, and then no more."""
    medium = os.path.join(folder, "medium")
    os.mkdir(medium)
    room = "mount -t tmpfs -o size=32k none"
    shell = ["unshare", "-m", "sh", "-c"]
    if not shutil.which("unshare") or run(shell + [f'{room} "$0"', medium])[0] != 0:
        print("skipped: a full medium, which this user may not mount")
        return
    journal, filler, copy = os.path.join(medium, "journal"), os.path.join(medium, "filler"), os.path.join(folder, "copy")
    script = b"[" + CREATE[1:-1] + b"," + b",".join([b'{statements:["INSERT INTO t {\'n\':\'' + b"x" * 3000 + b"'}\"]}"] * 20) + b"]"
    steps = f'{room} "$0" && head -c 8192 /dev/zero > "{filler}" && shift && "$@"; ended=$?; cp "{journal}" "{copy}"; exit $ended'
    status, output = run(shell + [steps, medium, "-", program, journal] + RUN, script)
    check(b"outcome:store_fault" in output or status == 5, f"a full medium is told: {status}, {output[-300:]!r}")
    check(len(COMMITTED.findall(output)) > 1, "blocks are committed before the medium is full")
    judge(program, copy, status, output, b"", "a full medium")


def main():
    program = os.path.abspath(sys.argv[1] if len(sys.argv) > 1 else PROGRAM)
    with tempfile.TemporaryDirectory() as folder:
        count = injected(program, folder)
        full_medium(program, folder)
    print(f"calls that fail: all as it should be, {count} runs")


main()
