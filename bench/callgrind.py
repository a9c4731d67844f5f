"""Instructions of a program, counted by valgrind's callgrind: the same on every machine."""

import re
import subprocess
import sys


def counted(command, given, said):
    """What the command wrote on this input, its instructions, and those of SHA-256 among them; `said` is a file that is written."""
    callgrind = ["valgrind", "-q", "--tool=callgrind", f"--callgrind-out-file={said}"]
    done = subprocess.run([*callgrind, *map(str, command)], input=given, capture_output=True)
    if done.returncode:
        sys.exit((done.stdout[-500:] + done.stderr[-500:]).decode())
    table = subprocess.run(["callgrind_annotate", "--threshold=100", said], capture_output=True, text=True).stdout
    lines = re.findall(r"^\s*([\d,]+)\s+\([\s\d.]+%\)\s+(.*)$", table, re.M)
    told = [(int(count.replace(",", "")), name) for count, name in lines]
    return done.stdout, told[0][0], sum(count for count, name in told[1:] if "sha2" in name)
