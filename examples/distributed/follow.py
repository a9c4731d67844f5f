#!/usr/bin/env python3
"""Keeps a copy of a journal by the records of a log.

    follow.py [--once] PROGRAM COPY LOG

The records that came since, behind those of the copy itself, which `PROGRAM COPY stream` gives, go into `PROGRAM
COPY replay`; what it writes takes the copy's place if `audit` accepts it. So whoever opens the copy sees whole
blocks, the first N of the journal. COPY.place says from where on the log is to be read again after a crash. After
an extension comes a rest at least as long. With --once it ends when nothing more comes.
"""
import argparse
import os
import re
import subprocess
import sys
import time

from pieces import DETAILS, SUMMARY, Blocks, load, save, seconds_since, sync_folder
from streamlog import Gone, Reader

REST = 0.2
AUDIT = re.compile(rb"\{blocks:(\d+),revisions:\d+\}\n")


class Wrong(Exception):
    """Records that no copy can be made of."""


class Copy:
    """A copy, and the records that came and don't stand in it."""

    def __init__(self, program, path):
        self.program, self.path = program, path
        self.blocks = Blocks(path).now()
        place = load(f"{path}.place")
        # a place that is ahead of the copy is of another copy: all is read anew
        self.place = place["place"].encode() if place and place["blocks"] <= self.blocks else b"0-0"
        self.waiting, self.times, self.fresh = [], {}, False

    def take(self, before, line):
        """Keeps a record for the next extension, with the place before it. What isn't needed is left out."""
        summary = SUMMARY.match(line)
        found = summary or DETAILS.match(line)
        if not found or not line.endswith(b"}}\n"):
            return  # begin, end, or no record
        number = int(found[1])
        if number < self.blocks:
            return  # its block stands
        self.waiting.append((before, number, line))
        self.fresh = True
        if summary:
            self.times[number] = summary[2]

    def ready(self):
        """Whether an extension may find the next block."""
        return self.fresh and self.blocks in self.times

    def extend(self, now):
        """Makes the copy anew of its own records and those that wait. `now` is the place up to which was read."""
        self.fresh = False
        new = f"{self.path}.new"
        self.replay(new)
        blocks = self.audit(new)
        if blocks is None or blocks <= self.blocks:
            return False
        os.replace(new, self.path)
        sync_folder(self.path)
        self.blocks = blocks
        self.waiting = [one for one in self.waiting if one[1] >= blocks]
        self.times = {number: time for number, time in self.times.items() if number >= blocks}
        self.place = self.waiting[0][0] if self.waiting else now
        save(f"{self.path}.place", {"blocks": blocks, "place": self.place.decode()})
        return True

    def replay(self, new):
        """Writes the blocks of all records into a new file."""
        with open(new, "wb") as out:
            replay = subprocess.Popen([self.program, self.path, "replay"], stdin=subprocess.PIPE, stdout=out)
            try:
                if self.blocks:
                    subprocess.run([self.program, self.path, "stream"], stdout=replay.stdin, check=True)
                for _, _, line in self.waiting:
                    replay.stdin.write(line)
                replay.stdin.close()
            except BrokenPipeError:
                pass  # its status says why
            replay.wait()
            os.fsync(out.fileno())
        if replay.returncode:
            with open(new, "rb") as said:
                raise Wrong(f"replay ended with status {replay.returncode}: {said.read(500)!r}")

    def audit(self, new):
        """How many blocks the new file has, or None if it has hashes that a later block asks for."""
        ended = subprocess.run([self.program, new, "audit"], stdin=subprocess.DEVNULL, stdout=subprocess.PIPE)
        found = AUDIT.fullmatch(ended.stdout)
        if ended.returncode == 0 and found:
            return int(found[1])
        if ended.returncode == 3 and b"kind:Unasked" in ended.stdout:
            return None
        raise Wrong(f"audit ended with status {ended.returncode}: {ended.stdout!r}")


def follow(copy, reader, once):
    """Reads and extends, for ever or until nothing more comes."""
    free = 0
    while True:
        came = reader.records(1 if once else REST)
        for before, line in came:
            copy.take(before, line)
        if once and not came and not copy.ready():
            return
        if copy.ready() and time.monotonic() >= free:
            begun, was = time.monotonic(), copy.blocks
            first = copy.times[was]
            if copy.extend(reader.place):
                took, ago, more = time.monotonic() - begun, seconds_since(first), copy.blocks - was
                was = f"was behind by {more} blocks and {ago:.1f} s"
                print(f"{copy.blocks} blocks; {was}; took {took:.2f} s", flush=True)
            free = time.monotonic() + max(REST, time.monotonic() - begun)


def main():
    words = argparse.ArgumentParser()
    words.add_argument("--once", action="store_true")
    words.add_argument("program")
    words.add_argument("copy")
    words.add_argument("log")
    words = words.parse_args()
    copy = Copy(words.program, words.copy)
    try:
        follow(copy, Reader(words.log, copy.place), words.once)
    except (Wrong, Gone) as why:
        sys.exit(f"{words.copy} is left as it is, {copy.blocks} blocks: {why}")


if __name__ == "__main__":
    main()
