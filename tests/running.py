"""What tests of runs by several workers share: the program, a check, and a run that must end in time."""
import subprocess
import sys
from pathlib import Path

ROOT = Path(__file__).resolve().parent.parent
PROGRAM = ROOT / "crates" / "ledger" / "out" / "ledger"


def check(holds, what):
    if not holds:
        sys.exit(f"not so: {what}")


def run(command, script, seconds):
    """The lines of the report of a script, which must come within so many seconds."""
    try:
        ended = subprocess.run([str(word) for word in command], input=script, capture_output=True, timeout=seconds)
    except subprocess.TimeoutExpired:
        sys.exit(f"not so: the run ends within {seconds} seconds")
    check(ended.returncode == 0, f"status 0 and not {ended.returncode}: {ended.stdout[:2000]!r} {ended.stderr[-2000:]!r}")
    return ended.stdout.decode().splitlines()
