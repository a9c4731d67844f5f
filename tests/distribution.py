#!/usr/bin/env python3
"""Keeps copies by records that come twice and out of order, and makes the walk of docs/distribution.md by three nodes.

    tests/distribution.py [PROGRAM]

PROGRAM is crates/ledger/out/ledger, where `rt ci` leaves it, or another path. The walk is left out, with a word,
where the log's server isn't installed. What it prints must be what stands on the page, but for the numbers. Ends
with `N passed, N failed`, and with status 1 where one failed.
"""
import random
import re
import subprocess
import sys
import tempfile
from pathlib import Path

sys.dont_write_bytecode = True
ROOT = Path(__file__).resolve().parent.parent
SCRIPTS = ROOT / "examples" / "distributed"
PAGE = ROOT / "docs" / "distribution.md"
sys.path.insert(0, str(SCRIPTS))
import nodes
from follow import Copy, Wrong
from rows import REDACTED, RUN

NUMBER = re.compile(r"\d+(\.\d+)?")


class Tests:
    def __init__(self, program, folder):
        self.program, self.folder = program, Path(folder)
        self.passed = self.failed = 0

    def holds(self, what, found):
        self.passed += bool(found)
        self.failed += not found
        if not found:
            print(f"not so: {what}")

    def ledger(self, journal, *words, given=b""):
        return subprocess.run([self.program, journal, *words], input=given, stdout=subprocess.PIPE, check=True).stdout

    def journal(self, name, script):
        """A journal that a script makes, and the records of its stream."""
        path = self.folder / name
        self.ledger(path, *RUN, given=script)
        return path, self.ledger(path, "stream").splitlines(True)

    # -- copies without a log

    def unruly(self, records, seed):
        """The records, each once or twice, out of order."""
        words, given = [sys.executable, SCRIPTS / "unruly.py", str(seed)], b"".join(records)
        mixed = subprocess.run(words, input=given, stdout=subprocess.PIPE, check=True).stdout
        mixed = mixed.splitlines(True)
        self.holds("no line is lost or new", set(mixed) == set(records))
        self.holds("lines come once or twice", len(records) < len(mixed) < 2 * len(records))
        return mixed

    def deliver(self, log, path, chance):
        """Follows a log, a list of records, in pieces, with a crash now and then. The copy at its end."""
        copy, at = Copy(self.program, path), 0
        while at < len(log):
            end = min(len(log), at + chance.randrange(1, 12))
            for number in range(at, end):
                copy.take(b"%d-0" % number, log[number])
            at = end
            if copy.ready():
                copy.extend(b"%d-0" % at)
            if chance.random() < 0.2 and at < len(log):
                copy = Copy(self.program, path)
                at = int(copy.place.split(b"-")[0])
        return copy

    def copies(self):
        """Each delivery makes the journal's bytes, and a lost record stops the copy in front of its block."""
        journal, records = self.journal("cars", (ROOT / "examples" / "vehicle_registration.ion").read_bytes())
        lines = journal.read_bytes().splitlines(True)
        for seed in range(3):
            path = self.folder / f"cars{seed}"
            self.deliver(self.unruly(records, seed), path, random.Random(seed))
            self.holds(f"the journal's bytes, seed {seed}", path.read_bytes() == b"".join(lines))
        lost = [one for one in records if b"sequenceNo:3}" not in one]
        self.deliver(lost, self.folder / "lost", random.Random(4))
        self.holds("blocks in front of the lost one", (self.folder / "lost").read_bytes() == b"".join(lines[:3]))

    def another_place(self):
        """A place that is ahead of its copy isn't trusted."""
        path = self.folder / "cars0"
        whole = path.read_bytes()
        path.write_bytes(whole.splitlines(True)[0])
        self.holds("all is read anew", Copy(self.program, path).place == b"0-0")
        path.write_bytes(whole)
        self.holds("the place is kept", Copy(self.program, path).place != b"0-0")

    def redaction(self):
        """A front of a compacted journal that lacks the redaction is waited with."""
        journal, records = self.journal("redacted", REDACTED)
        copy = Copy(self.program, self.folder / "redacted.copy")
        for number, record in enumerate(records):
            copy.take(b"%d-0" % number, record)
            if copy.ready() and not copy.extend(b"%d-0" % (number + 1)):
                self.holds("no copy that isn't a journal", not Path(copy.path).exists())
        self.holds("the compacted journal", Path(copy.path).read_bytes() == self.ledger(journal, "compact"))

    def forged(self):
        """Records of another journal leave the copy as it is."""
        _, records = self.journal("cars.again", (ROOT / "examples" / "vehicle_registration.ion").read_bytes())
        path = self.folder / "forged"
        copy = Copy(self.program, path)
        first = [one for one in records if b"sequenceNo:0}" in one]
        for record in first:
            copy.take(b"0-0", record)
        copy.extend(b"1-0")
        before = path.read_bytes()
        for record in records:
            copy.take(b"1-0", record.replace(b"Audi", b"Opel"))
        try:
            copy.extend(b"2-0")
            self.holds("other records are refused", False)
        except Wrong:
            self.holds("the copy is left", path.read_bytes() == before)

    def own_block(self):
        """A copy with a block of its own isn't extended."""
        _, records = self.journal("cars.third", (ROOT / "examples" / "vehicle_registration.ion").read_bytes())
        path = self.folder / "own"
        path.write_bytes((self.folder / "cars0").read_bytes().splitlines(True)[0])
        self.ledger(path, *RUN, given=b"[{statements:[\"SELECT * FROM Vehicle\"]}]")
        before, copy = path.read_bytes(), Copy(self.program, path)
        for record in records:
            copy.take(b"0-0", record)
        try:
            copy.extend(b"1-0")
            self.holds("a copy with its own block is refused", False)
        except Wrong:
            self.holds("the copy with its own block is left", copy.blocks == 2 and path.read_bytes() == before)

    # -- the walk

    def walk(self):
        if not nodes.installed():
            print(f"left out: the walk, since no {nodes.PACKAGE} is installed")
            return
        words = [sys.executable, SCRIPTS / "walk.py", "--program", self.program, "--rounds", "1"]
        ended = subprocess.run(words, stdout=subprocess.PIPE, stderr=subprocess.STDOUT, text=True)
        self.holds(f"the walk's status is 0 and not {ended.returncode}: {ended.stdout[-3000:]}", ended.returncode == 0)
        section = PAGE.read_text().split("\n## The walk\n")[1].split("\n## ")[0]
        wanted = [line[4:] for line in section.splitlines() if line.startswith("    ")]
        found = ended.stdout.splitlines()
        for one, other in zip(wanted, found):
            self.holds(f"{other!r} stands on the page as {one!r}", one == NUMBER.sub("N", other))
        self.holds(f"{len(wanted)} lines of the walk", len(found) == len(wanted))


def main():
    program = Path(sys.argv[1] if len(sys.argv) > 1 else ROOT / "crates" / "ledger" / "out" / "ledger").resolve()
    with tempfile.TemporaryDirectory() as folder:
        tests = Tests(program, folder)
        tests.copies()
        tests.another_place()
        tests.redaction()
        tests.forged()
        tests.own_block()
        tests.walk()
    print(f"{tests.passed} passed, {tests.failed} failed")
    return 1 if tests.failed else 0


sys.exit(main())
