#!/usr/bin/env python3
"""Times commits of documents of 130,000 bytes beside sha256sum of as many bytes in the same run. README.md says more."""

import os
import statistics
import subprocess
import sys
import tempfile
import time
from pathlib import Path

TOP = Path(__file__).resolve().parent.parent
WORDS = ["run", "--workers", "1", "--plain-ids", "--at", "2020-01-01T00:00:00.000Z"]
DOCUMENT, FEW, MANY, ROUNDS = 130_000, 10, 60, 5
LEAST_OF_HASHES = 0.25
MEMORY = Path("/dev/shm")


def document(number):
    """A document of about 130,000 bytes: parts of a delivery, with a text, numbers and a time each."""
    part = '{part:"%08d",name:"flange of steel, galvanised",weight:1250d-2,count:%d,sent:2020-01-01T00:00:00.000Z}'
    parts = ",".join(part % (n, n + number) for n in range(DOCUMENT // 108))
    return f"{{number:{number},parts:[{parts}]}}"


def script(commits):
    """One session: a table, and then a document for each commit more."""
    inserts = "".join(f',{{statements:[{{text:"INSERT INTO t ?",params:[{document(n)}]}}]}}' for n in range(commits))
    return f'[{{statements:["CREATE TABLE t"]}}{inserts}]'.encode()


def seconds(program, folder, text, commits):
    journal = folder / "journal"
    journal.unlink(missing_ok=True)
    started = time.perf_counter()
    done = subprocess.run([program, journal, *WORDS], input=text, capture_output=True)
    taken = time.perf_counter() - started
    if done.returncode or done.stdout.count(b"outcome:committed") != commits + 1:
        sys.exit((done.stdout[-500:] + done.stderr[-500:]).decode())
    return taken


def hashing(folder, text):
    """The seconds in which sha256sum reads these bytes."""
    (folder / "bytes").write_bytes(text)
    started = time.perf_counter()
    subprocess.run(["sha256sum", folder / "bytes"], check=True, capture_output=True)
    return time.perf_counter() - started


def main():
    program = os.path.abspath(sys.argv[1] if len(sys.argv) > 1 else TOP / "crates" / "ledger" / "out" / "ledger")
    few, many = script(FEW), script(MANY)
    size = (len(many) - len(few)) / 1e6
    with tempfile.TemporaryDirectory(dir=MEMORY if MEMORY.is_dir() else None) as folder:
        folder = Path(folder)
        pairs = []
        for _ in range(ROUNDS):
            taken = seconds(program, folder, many, MANY) - seconds(program, folder, few, FEW)
            pairs.append((size / taken, size / (hashing(folder, many) - hashing(folder, few))))
    of_hashes = statistics.median(ours / theirs for ours, theirs in pairs)
    ours, theirs = (statistics.median(side) for side in zip(*pairs))
    print(f"commits of {len(document(0))} bytes: {ours:.1f} MB/s; sha256sum {theirs:.0f} MB/s")
    print(f"{of_hashes:.2f} of sha256sum's, wanted at least {LEAST_OF_HASHES}")
    return 0 if of_hashes >= LEAST_OF_HASHES else 1


if __name__ == "__main__":
    sys.exit(main())
