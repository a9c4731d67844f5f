#!/usr/bin/env python3
"""Times how journals of growing length are read back next to sha256sum on the same file. README.md says more."""

import subprocess
import sys
import tempfile
import time
from pathlib import Path

LENGTHS = [2_500, 5_000, 10_000]
RUNS = 5
TOP = Path(__file__).resolve().parent.parent
WORDS = ["run", "--workers", "1", "--plain-ids", "--at", "2020-01-01T00:00:00.000Z"]


def script(blocks):
    """One session: a transaction that creates the table, and then one that inserts a document for each block more."""
    rest = ",".join(
        f'{{statements:[{{text:"INSERT INTO t ?",params:[{{number:{number},owner:"p{number % 97}"}}]}}]}}'
        for number in range(1, blocks)
    )
    return f'[{{statements:["CREATE TABLE t"]}},{rest}]'.encode()


def run(command, text=b""):
    """The seconds and the peak memory in megabytes of a command that reads the text."""
    begun = time.monotonic()
    ran = subprocess.run(["/usr/bin/time", "-f", "%M", *command], input=text, capture_output=True)
    seconds = time.monotonic() - begun
    if ran.returncode != 0:
        sys.exit(ran.stdout.decode()[:500])
    return seconds, int(ran.stderr.split()[-1]) * 1024 / 1e6


def main():
    program = sys.argv[1] if len(sys.argv) > 1 else TOP / "crates" / "ledger" / "out" / "ledger"
    for blocks in LENGTHS:
        with tempfile.TemporaryDirectory() as folder:
            journal = Path(folder) / "journal"
            made, _ = run([program, journal, *WORDS], script(blocks))
            size = journal.stat().st_size
            lines = journal.read_bytes().count(b"\n")
            read = [run([program, journal, *WORDS]) for _ in range(RUNS)]
            digest = [run(["sha256sum", journal])[0] for _ in range(RUNS)]
            seconds = min(seconds for seconds, _ in read)
            print(
                f"{lines} blocks, {size} bytes: made in {made:.2f} s, read back in {seconds:.3f} s "
                f"({size / seconds / 1e6:.1f} MB/s, {read[0][1]:.0f} MB of memory), sha256sum {min(digest):.3f} s"
            )
    return 0


sys.exit(main())
