#!/usr/bin/env python3
"""Runs every script of tests/ on the built programs, as many at a time as there are processors, each within its time limit, and
prints what each says. The last line is `N passed, N failed`; the status is 1 where one failed. A script that tries the prover, and
no program, is left out.

    tests/all.py [FOLDER]

The programs are crates/ledger/out/ledger and crates/interleavings/out/interleavings, where `rt ci` leaves them, or `ledger` and
`interleavings` of another folder.
"""
import os
import signal
import subprocess
import sys
import time
from concurrent.futures import ThreadPoolExecutor
from pathlib import Path

HERE = Path(__file__).resolve().parent
CRATES = HERE.parent / "crates"
SECONDS = 120

# what is no test of a program: this script, what several tests share, and what tries the prover
NOT_TESTS = ["all.py", "rows.py", "running.py", "edits.py"]

# the longest first, with words behind the program's path, and a time limit of their own
OTHER_WORDS = {"contended.py": ["40"]}
OTHER_SECONDS = {
    "clients.py": 240,
    "commands.py": 240,
    "crash_images.py": 240,
    "deb.py": 240,
    "distribution.py": 400,
    "docs.py": 240,
    "forged_bundles.py": 240,
    "journal_page.py": 240,
    "loads.py": 240,
    "ledgerctl.py": 240,
    "nesting.py": 240,
    "random_rounds.py": 240,
    "refused_memory.py": 240,
    "verifiers.py": 240,
    "contended.py": 180,
    "faults.py": 180,
}
OTHER_PROGRAM = {"interleavings.py": "interleavings", "transactions.py": "interleavings"}


def program_of(test, folder):
    """The program that a test runs."""
    name = OTHER_PROGRAM.get(test.name, "ledger")
    return Path(folder) / name if folder else CRATES / name / "out" / name


def run(test, folder):
    """What a test says, the seconds that it took, and whether it passed."""
    seconds = OTHER_SECONDS.get(test.name, SECONDS)
    words = [sys.executable, str(test), str(program_of(test, folder)), *OTHER_WORDS.get(test.name, [])]
    begun = time.monotonic()
    how = {"stdin": subprocess.DEVNULL, "stdout": subprocess.PIPE, "stderr": subprocess.STDOUT, "text": True, "errors": "replace"}
    process = subprocess.Popen(words, start_new_session=True, **how)
    try:
        said, _ = process.communicate(timeout=seconds)
        passed = process.returncode == 0
    except subprocess.TimeoutExpired:
        os.killpg(process.pid, signal.SIGKILL)
        said, _ = process.communicate()
        said, passed = said + f"it did not end within {seconds} seconds\n", False
    return said, time.monotonic() - begun, passed


def tell(test, said, took, passed):
    print(f"{'passed' if passed else 'FAILED'} {test.name}, {took:.1f} s")
    for line in said.rstrip().splitlines()[-20:]:
        print(f"    {line}")
    sys.stdout.flush()


def main():
    folder = sys.argv[1] if len(sys.argv) > 1 else None
    tests = [test for test in sorted(HERE.glob("*.py")) if test.name not in NOT_TESTS]
    tests.sort(key=lambda test: -OTHER_SECONDS.get(test.name, SECONDS))
    missing = sorted({str(program) for program in (program_of(test, folder) for test in tests) if not program.is_file()})
    for program in missing:
        print(f"no program at {program}: run `rt ci` first")
    if missing:
        print(f"0 passed, {len(tests)} failed")
        return 1
    with ThreadPoolExecutor(os.cpu_count() or 1) as workers:
        ended = list(workers.map(lambda test: (test, *run(test, folder)), tests))
    for test, said, took, passed in ended:
        tell(test, said, took, passed)
    failed = sum(not passed for *_, passed in ended)
    print(f"{len(ended) - failed} passed, {failed} failed")
    return 1 if failed else 0


sys.exit(main())
