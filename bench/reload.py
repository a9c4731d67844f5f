#!/usr/bin/env python3
"""Times how long journals are loaded, by one thread and by four, and their digest behind that, beside sha256sum of the same file in
the same run, and tells the peak memory beside the file's size. README.md says more."""

import os
import subprocess
import sys
import tempfile
import time
from pathlib import Path

TOP = Path(__file__).resolve().parent.parent
sys.path.insert(0, str(TOP / "bench"))
import proofs

RUNS = {10_000: 5, 100_000: 3}
WORKERS = [1, 4]


def run(command):
    """The seconds of a command, its peak memory in bytes, and what it wrote."""
    begun = time.monotonic()
    ran = subprocess.run(["/usr/bin/time", "-f", "%M", *command], stdin=subprocess.DEVNULL, capture_output=True)
    seconds = time.monotonic() - begun
    if ran.returncode != 0:
        sys.exit(ran.stdout.decode()[:500])
    return seconds, int(ran.stderr.split()[-1]) * 1024, ran.stdout


def measure(program, journal, runs):
    """The seconds of a load, of a digest, of sha256sum, and of an empty script's run by each number of workers, each the least of so
    many runs in turn; the peak memory of the load and of the last run; and what the load wrote."""
    commands = [[program, journal, "audit"], [program, journal, "digest"], ["sha256sum", journal]]
    commands += [[program, journal, "run", "--workers", str(workers)] for workers in WORKERS]
    turns = [[run(command) for command in commands] for _ in range(runs)]
    seconds = [min(turn[of][0] for turn in turns) for of in range(len(commands))]
    return seconds, [min(turn[of][1] for turn in turns) for of in (0, -1)], turns[0][0][2]


def main():
    program = os.path.abspath(sys.argv[1] if len(sys.argv) > 1 else TOP / "crates" / "ledger" / "out" / "ledger")
    for blocks, runs in RUNS.items():
        with tempfile.TemporaryDirectory() as folder:
            journal = Path(folder) / "journal"
            proofs.make(journal, blocks)
            size = journal.stat().st_size
            (loading, digest, summed, *ran), (memory, shared), told = measure(program, journal, runs)
            assert told == b"{blocks:%d,revisions:%d}\n" % (blocks, blocks - 1)
            print(
                f"{blocks} blocks, {size / 1e6:.1f} MB: loaded in {loading:.3f} s, {size / loading / 1e6:.1f} MB/s; sha256sum "
                f"{summed:.3f} s, {size / summed / 1e6:.1f} MB/s; peak memory {memory / 1e6:.1f} MB, {memory / size:.2f} times "
                f"the file; digest {1000 * (digest - loading):.1f} ms beyond the load; a run of an empty script by {WORKERS[0]} and "
                f"{WORKERS[-1]} workers {ran[0]:.3f} and {ran[-1]:.3f} s, {ran[0] / ran[-1]:.2f} times as fast, {shared / size:.2f} times the file",
                flush=True,
            )
    return 0


if __name__ == "__main__":
    sys.exit(main())
