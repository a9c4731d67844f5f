#!/usr/bin/env python3
"""Pipes `ledger stream` of a journal into a log, again and again, from the block where it stopped.

    feed.py [--once] [--through COMMAND] PROGRAM JOURNAL LOG

Of the blocks that are new in JOURNAL, `PROGRAM JOURNAL stream --from N --to M` writes the records, through COMMAND
if there is one. When two nodes of LOG have them all, JOURNAL.fed says so, and the next round begins at M. If it is
killed in between, it begins at N again: records are repeated, and none is left out. If LOG has lost the last
record, all blocks are fed anew. A round is followed by a rest at least as long.
"""
import argparse
import subprocess
import sys
import time

from pieces import Blocks, load, save
from streamlog import Gone, Writer

REST = 0.2
BUSY = 5  # the status while a run has the journal


class Feed:
    def __init__(self, program, journal, log, through=None):
        self.program, self.journal, self.through = program, journal, through
        self.blocks, self.place = Blocks(journal), f"{journal}.fed"
        self.writer = Writer(log)

    def round(self):
        """Feeds the blocks that are new. Returns how many there were, or None while a run has the journal."""
        fed = load(self.place)
        begin, last = fed.get("blocks", 0), fed.get("last", "0-0")
        if begin and not self.writer.has(last):
            print(f"the log has lost what it had up to block {begin}; all is fed anew", flush=True)
            begin = 0
        end = self.blocks.now()
        if end < begin:
            sys.exit(f"{self.journal} has {end} blocks, of which {begin} were fed: it isn't that journal")
        if end == begin:
            return 0
        if not self.pipe(begin, end):
            return None
        save(self.place, {"blocks": end, "last": self.writer.flush().decode()})
        return end - begin

    def pipe(self, begin, end):
        """Puts the records of some blocks into the log. Returns whether that could be done."""
        words = [self.program, self.journal, "stream", "--from", str(begin), "--to", str(end)]
        stream = subprocess.Popen(words, stdin=subprocess.DEVNULL, stdout=subprocess.PIPE)
        pipe, other = stream.stdout, []
        if self.through:
            through = subprocess.Popen(self.through, shell=True, stdin=stream.stdout, stdout=subprocess.PIPE)
            stream.stdout.close()
            pipe = through.stdout
        for line in pipe:
            if line.startswith(b"{recordType:"):
                self.writer.append(line)
            else:
                other.append(line.decode(errors="replace").strip())
        if self.through and through.wait():
            sys.exit(f"{self.through} ended with status {through.returncode}")
        if stream.wait() not in (0, BUSY):
            sys.exit(f"stream ended with status {stream.returncode}: {' '.join(other)}")
        return stream.returncode == 0


def run(feed, once):
    """Feeds for ever, or until what is there is fed."""
    while True:
        begun = time.monotonic()
        blocks = feed.round()
        took = time.monotonic() - begun
        if blocks:
            again = f", {feed.writer.repeated} records sent again" if feed.writer.repeated else ""
            print(f"{blocks} blocks fed in {took:.2f} s{again}", flush=True)
            feed.writer.repeated = 0
        if once and blocks is not None:
            return
        time.sleep(max(REST, took if blocks else 0))


def main():
    words = argparse.ArgumentParser()
    words.add_argument("--once", action="store_true")
    words.add_argument("--through")
    words.add_argument("program")
    words.add_argument("journal")
    words.add_argument("log")
    words = words.parse_args()
    try:
        run(Feed(words.program, words.journal, words.log, words.through), words.once)
    except Gone as gone:
        sys.exit(f"the feed ends, and begins where it stopped if it is started again: {gone}")


if __name__ == "__main__":
    main()
