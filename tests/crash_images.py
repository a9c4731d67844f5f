#!/usr/bin/env python3
"""Stops a run at every moment, as far as its journal's file shows it. The program's calls on the file are recorded by strace: appends,
syncs and cuts, also failing ones. After each call every content is built that a stop of the machine may leave then: a front part of
what the file held since its last sync, at least as long as what was synced. Each is loaded by `audit` and compared with what the
report tells as committed: no acknowledged block may lack, and at most one more may stand. Ends with status 1 where something isn't
as it should be; without strace all of it is skipped.

    tests/crash_images.py [PROGRAM]

The program is crates/ledger/out/ledger, where `rt ci` leaves it, or another path.
"""
import os
import re
import shutil
import subprocess
import sys
import tempfile
from concurrent.futures import ThreadPoolExecutor
from dataclasses import dataclass, field

HERE = os.path.dirname(os.path.abspath(__file__))
PROGRAM = os.path.join(os.path.dirname(HERE), "crates", "ledger", "out", "ledger")
FIXED = ["--plain-ids", "--at", "2020-01-01T00:00:00.000Z"]
COMMITTED = re.compile(rb'outcome:committed,tx:"\w{22}",block:(\d+)')
CALL = re.compile(r"^(\d+) +(\w+)\((.*)\) += (-?\d+)(?: .*)?$")
BEGUN = re.compile(r"^(\d+) +(\w+)\((.*) <unfinished \.\.\.>$")
RESUMED = re.compile(r"^(\d+) +<\.\.\. (\w+) resumed>(.*)\) += (-?\d+)(?: .*)?$")
WRITES = ("write", "pwrite64")
SECONDS = 60

# the runs: their name, workers, the calls that fail, and whether a torn line stands in the file at first
RUNS = [
    ("one worker", 1, [], False),
    ("four workers", 4, [], False),
    ("a torn line is cut", 1, [], True),
    ("syncs fail", 1, ["fsync:error=EIO:when=3+4"], False),
    ("every second sync fails", 2, ["fsync:error=EIO:when=2+2"], True),
    ("appends fail", 2, ["write:error=ENOSPC:when=2+3"], False),
    ("cuts fail, too", 1, ["fsync:error=EIO:when=3+3", "ftruncate:error=EIO:when=1+2"], True),
]


def check(holds, what):
    if not holds:
        sys.exit(f"not so: {what}")


@dataclass
class Call:
    """One call on the journal's file, in the order in which the calls ended."""

    name: str
    words: str
    result: int


@dataclass
class File:
    """A file's content, how much of it is synced, and every content that it had since the last sync."""

    content: bytes
    synced: int
    since: list = field(default_factory=list)

    def hold(self, content):
        """Takes a content after those since the last sync."""
        self.content = content
        self.since.append(content)

    def images(self):
        """Every content that a stop may leave now: what was held within an append or a cut is a front part of one of them."""
        return {held[:size] for held in self.since for size in range(self.synced, len(held) + 1)}


def calls_of(record):
    """The calls of a record of strace."""
    begun = {}
    for line in record.splitlines():
        if found := CALL.match(line):
            yield Call(found[2], found[3], int(found[4]))
        elif found := BEGUN.match(line):
            begun[found[1]] = found[3]
        elif found := RESUMED.match(line):
            yield Call(found[2], begun.pop(found[1], "") + found[3], int(found[4]))


def bytes_of(words):
    """The bytes that a write was given, from strace's hexadecimal string."""
    return bytes.fromhex(re.search(r'"((?:\\x[0-9a-f]{2})*)"', words)[1].replace("\\x", ""))


def steps(file, calls):
    """Does to the file what each call does, and yields the call's name before an append and after each call."""
    for call in calls:
        if call.name in WRITES:
            yield "appends"
            file.hold(file.content + bytes_of(call.words)[: max(call.result, 0)])
        elif call.name == "ftruncate":
            size = int(call.words.split(",")[1])
            file.synced = min(file.synced, size)
            if call.result == 0:
                file.hold(file.content[:size])
        elif call.name in ("fsync", "fdatasync") and call.result == 0:
            file.synced, file.since = len(file.content), [file.content]
        yield call.name


def recorded(program, folder, workers, faults, before, script):
    """The calls of a run on a journal with these bytes, and its report."""
    journal, record = os.path.join(folder, "journal"), os.path.join(folder, "calls")
    with open(journal, "wb") as file:
        file.write(before)
    words = ["strace", "-f", "-qq", "-xx", "-s", "100000", "-P", journal, "-o", record]
    for fault in faults:
        words += ["-e", f"inject={fault}"]
    ended = subprocess.run(
        [*words, program, journal, "run", "--workers", str(workers), *FIXED], input=script, capture_output=True, timeout=SECONDS
    )
    check(ended.returncode in (0, 5), f"status 0 or 5, and not {ended.returncode}: {ended.stderr[-500:]!r}")
    with open(record) as file, open(journal, "rb") as left:
        return list(calls_of(file.read())), ended.stdout, left.read()


def moments(calls, report, before, left):
    """Each content that a stop may leave, with the least number of blocks that it has to hold."""
    whole = before[: before.rfind(b"\n") + 1]
    first = whole.count(b"\n")
    acknowledged = sorted(int(block) for block in COMMITTED.findall(report))
    lines = left.split(b"\n")
    file, images = File(before, len(before), [before]), {}

    def note(least):
        for image in file.images():
            images[image] = max(images.get(image, 0), least)

    # a block is acknowledged, at the latest, when the append of another one begins, or when the report is written
    seen = first
    note(seen)
    for step in steps(file, calls):
        if step == "appends":
            seen = first + sum(1 for block in acknowledged if line_ends(lines, block) <= len(file.content))
        note(seen)
    check(file.content == left, "the record shows the file that was left")
    note(first + len(acknowledged))
    return images


def line_ends(lines, block):
    """Where a block's line ends in the journal."""
    return sum(len(line) + 1 for line in lines[: block + 1])


def judged(program, folder, images, left):
    """Loads each image, and returns what is wrong with one."""
    lines = left.split(b"\n")[:-1]

    def judge(numbered):
        number, (image, least) = numbered
        path = os.path.join(folder, f"image{number}")
        with open(path, "wb") as file:
            file.write(image)
        ended = subprocess.run([program, path, "audit"], capture_output=True, timeout=SECONDS)
        os.remove(path)
        held = image.split(b"\n")[:-1]
        if ended.returncode != 0 or not ended.stdout.startswith(b"{blocks:%d," % len(held)):
            return f"an image of {len(image)} bytes isn't loaded: {ended.returncode} {ended.stdout[-200:]!r}"
        if len(held) < least or held[:least] != lines[:least]:
            return f"an image of {len(image)} bytes lacks an acknowledged block: {len(held)} blocks, and not {least}"
        if len(held) > least + 1:
            return f"an image of {len(image)} bytes has {len(held)} blocks, and {least} are acknowledged"
        return None

    with ThreadPoolExecutor(os.cpu_count() or 1) as workers:
        return [wrong for wrong in workers.map(judge, enumerate(images.items())) if wrong]


def script_of(name, count):
    """Sessions that insert one document each."""
    rows = [b'{statements:["INSERT INTO t {\'n\':%d,\'by\':\'%s\'}"]}' % (n, name.encode()) for n in range(count)]
    return b"\n".join(b"[" + row + b"]" for row in rows)


def main():
    program = os.path.abspath(sys.argv[1] if len(sys.argv) > 1 else PROGRAM)
    if not shutil.which("strace") or subprocess.run(["strace", "-qq", "-o", os.devnull, "true"], capture_output=True).returncode:
        print("skipped: crash images, for which this machine lacks strace")
        return
    total = 0
    with tempfile.TemporaryDirectory() as folder:
        _, _, first = recorded(program, folder, 1, [], b"", b'[{statements:["CREATE TABLE t"]}]')
        for name, workers, faults, torn in RUNS:
            before = first + (first[:200] if torn else b"")
            calls, report, left = recorded(program, folder, workers, faults, before, script_of(name, 4))
            images = moments(calls, report, before, left)
            wrong = judged(program, folder, images, left)
            check(not wrong, f"{name}: {wrong[:3]}")
            print(f"{name}: {len(calls)} calls, {len(COMMITTED.findall(report))} blocks, {len(images)} images")
            total += len(images)
    check(total >= 10_000, f"10,000 images, and not {total}")
    print(f"crash images: {total}, none lacks an acknowledged block or has two more")


main()
