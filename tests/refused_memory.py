#!/usr/bin/env python3
"""Refuses the program one allocation after another, by a small library that is loaded before it (tests/refuse.c). Each command ends
with status 8, or with status 0 and `out_of_memory` among its outcomes, or as it does with ample memory; and what is left is loaded
with ample memory and holds each block that was told. Ends with status 1 where something isn't as it should be; without a C compiler
all of it is skipped.

    tests/refused_memory.py [PROGRAM [STEP]]

The program is crates/ledger/out/ledger, where `rt ci` leaves it, or another path. Each STEP-th allocation is refused, each one if
there is no STEP.
"""
import mmap
import os
import re
import shutil
import subprocess
import sys
import tempfile
from concurrent.futures import ThreadPoolExecutor
from pathlib import Path

from rows import FIRST_ANSWERS, REDACTED, RUN, THREE_BLOCKS, VEHICLE_REGISTRATION, Program

HERE = Path(__file__).resolve().parent
PROGRAM = HERE.parent / "crates" / "ledger" / "out" / "ledger"
COMMITTED = re.compile(rb'outcome:committed,tx:"(\w{22})",block:(\d+)')
NEVER = 10**15


def check(holds, what):
    if not holds:
        sys.exit(f"not so: {what}")


class Refuser:
    """The library that refuses an allocation, and the file in which it counts."""

    def __init__(self, folder):
        self.library = os.path.join(folder, "refuse.so")
        self.folder = folder
        words = ["cc", "-shared", "-fPIC", "-O2", "-o", self.library, str(HERE / "refuse.c")]
        subprocess.run(words, check=True, capture_output=True)

    def run(self, program, journal, words, given, at):
        """The status and output of a command whose allocation of this number is refused, and how many there were."""
        count = os.path.join(self.folder, f"count-{journal}")
        with open(count, "w+b") as file:
            file.write(bytes(8))
            file.flush()
            environment = {"LD_PRELOAD": self.library, "REFUSE_AT": str(at), "REFUSE_COUNT": count}
            status, output = program.run(journal, words, given, environment)
            with mmap.mmap(file.fileno(), 8) as shared:
                made = int.from_bytes(shared[:], "little")
        os.remove(count)
        return status, output, made


def is_told(status, output):
    """Whether a command says that memory ran out."""
    return status == 8 or (status == 0 and b"outcome:out_of_memory" in output)


def refused_run(refuser, program, row, script, ample, at):
    """What is wrong with a run whose allocation of this number is refused."""
    name = f"{row}-{at}"
    status, output, made = refuser.run(program, name, RUN, script, at)
    left = program.left(name)
    lines = left.split(b"\n")[:-1]
    audit = program.run(name, ["audit"])
    Path(program.at(name)).unlink(missing_ok=True)
    if made >= at and not is_told(status, output) and (status, output, left) != ample:
        return f"{row}, allocation {at}: status {status}, {output[-200:]!r}"
    for tx, block in COMMITTED.findall(output):
        if int(block) >= len(lines) or b'transactionId:"' + tx not in lines[int(block)]:
            return f"{row}, allocation {at}: block {int(block)} was told and doesn't stand"
    if audit[0] != 0 or not audit[1].startswith(b"{blocks:%d," % len(lines)):
        return f"{row}, allocation {at}: what is left isn't loaded: {audit}"
    return None


def refused_command(refuser, program, journal, words, given, ample, at):
    """What is wrong with a command that only reads, and whose allocation of this number is refused."""
    before = program.left(journal)
    status, output, made = refuser.run(program, journal, words, given, at)
    if made >= at and status != 8 and (status, output) != ample:
        return f"{words} on {journal}, allocation {at}: status {status}, {output[-200:]!r}"
    if status == 8 and output != b"{status:8}\n" and not ample[1].startswith(output):
        return f"{words} on {journal}, allocation {at}: {output[-200:]!r} is no front of the output"
    if program.left(journal) != before:
        return f"{words} on {journal}, allocation {at}: the journal changed"
    return None


def tried(one, total, step):
    """Tries each step-th allocation, and tells how many runs there were."""
    numbers = range(1, total + 1, step)
    with ThreadPoolExecutor(os.cpu_count() or 1) as workers:
        wrong = [it for it in workers.map(one, numbers) if it]
    check(not wrong, wrong[:3])
    return len(numbers)


def rows(refuser, program, step):
    """The scripts of the rows, each run with a refused allocation."""
    scripts = [("first-answers", FIRST_ANSWERS), ("three-blocks", THREE_BLOCKS), ("vehicle", VEHICLE_REGISTRATION), ("redacted", REDACTED)]
    for row, script in scripts:
        status, output, total = refuser.run(program, row, RUN, script, NEVER)
        check(status == 0, f"{row} runs with ample memory")
        ample = (status, output, program.left(row))
        count = tried(lambda at, row=row, script=script, ample=ample: refused_run(refuser, program, row, script, ample, at), total, step)
        print(f"{row}: {total} allocations, {count} runs")


def commands(refuser, program, step):
    """The commands that read a journal of three blocks, one that redacts and that one compacted, or proofs from them."""
    for journal, script in [("whole", THREE_BLOCKS), ("redacts", REDACTED)]:
        check(program.run(journal, RUN, script)[0] == 0, f"the journal {journal} is made")
    program.put("compacted", program.run("redacts", ["compact"])[1])
    proof, other = program.run("whole", ["prove", "2", "0"])[1], program.run("redacts", ["prove", "0", "0"])[1]
    tried = [("whole", words, b"") for words in (["digest"], ["prove", "2", "0"], ["audit"], ["export"], ["stream"])]
    tried += [("whole", ["verify"], proof), ("whole", ["extract"], proof)]
    tried += [("redacts", ["prove", "0", "0"], b""), ("redacts", ["compact"], b""), ("redacts", ["stream", "--from", "1"], b"")]
    tried += [("whole", ["replay"], program.run("whole", ["stream"])[1])]
    tried += [("compacted", ["audit"], b""), ("compacted", ["extract"], other)]
    for journal, words, given in tried:
        refused_at_each(refuser, program, journal, words, given, step)


def refused_at_each(refuser, program, journal, words, given, step):
    """A command that only reads, with each step-th allocation refused."""
    status, output, total = refuser.run(program, journal, words, given, NEVER)
    check(status == 0, f"{words} on {journal} with ample memory")
    ample, numbers = (status, output), range(1, total + 1, step)
    wrong = [it for it in (refused_command(refuser, program, journal, words, given, ample, at) for at in numbers) if it]
    check(not wrong, wrong[:3])
    print(f"{words[0]} on {journal}: {total} allocations, {len(numbers)} runs")


def main():
    path = os.path.abspath(sys.argv[1] if len(sys.argv) > 1 else PROGRAM)
    step = int(sys.argv[2]) if len(sys.argv) > 2 else 1
    if not shutil.which("cc"):
        print("skipped: refused memory, for which this machine lacks a C compiler")
        return
    with tempfile.TemporaryDirectory() as folder:
        refuser, program = Refuser(folder), Program(path, folder)
        rows(refuser, program, step)
        commands(refuser, program, step)
    print("refused memory: all as it should be")


main()
