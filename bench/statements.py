#!/usr/bin/env python3
"""Times how statements of growing length are parsed, for each construct that repeats. README.md says more."""

import re
import shutil
import subprocess
import sys
import tempfile
from pathlib import Path

SIZES = [25_000, 50_000, 100_000]
RUNS = 5
TOP = Path(__file__).resolve().parent.parent
CRATES = ["lists", "ql_types", "ion_values", "ion_model", "ion_model", "ion_lexer", "ion_text", "ion_order"]
CRATES += ["pql_model", "pql_lexer", "pql_expr_parser", "pql_parse"]


# ---- texts in which one construct repeats


def filled(size, before, part, after, between=""):
    """A text of about this size: numbered parts between a beginning and an end."""
    parts, left = [], size - len(before) - len(after)
    while True:
        text = (between if parts else "") + part.replace("#", str(len(parts)))
        left -= len(text)
        if left < 0:
            return before + "".join(parts) + after
        parts.append(text)


def seen(size):
    """Items that name the sources behind them, which are as many."""
    names = filled(size // 2 - 10, "", "t#", "", ",")
    return f"SELECT {names} FROM {names}"


def constructs(size):
    """Each construct with its text."""
    return {
        "items": filled(size, "SELECT ", "1 AS a", " FROM t", ","),
        "items of names": filled(size, "SELECT ", "a", " FROM t", ","),
        "sources": filled(size, "SELECT * FROM ", "t#", "", ","),
        "sources of one name": filled(size, "SELECT * FROM ", "t", "", ","),
        "joined sources": filled(size, "SELECT * FROM t", " JOIN t# BY i# ON 1", ""),
        "names of sources": seen(size),
        "settings": filled(size, "UPDATE t SET ", "a=1", "", ","),
        "members": filled(size, "INSERT INTO t {", "'a':1", "}", ","),
        "parts of a list": filled(size, "INSERT INTO t [", "1", "]", ","),
        "arguments": filled(size, "INSERT INTO t COALESCE(", "1", ")", ","),
        "field steps": filled(size, "SELECT VALUE t", ".a", " FROM t"),
        "index steps": filled(size, "SELECT VALUE t", "[0]", " FROM t"),
        "parameters": filled(size, "INSERT INTO t [", "?", "]", ","),
        "aggregates": filled(size, "SELECT ", "COUNT(*)", " FROM t", ","),
        "spaces": filled(size, "DROP TABLE t", " ", ""),
        "comments": filled(size, "DROP TABLE t", "--\n", ""),
        "a name": filled(size, "DROP TABLE ", "a", ""),
        "a string": filled(size, "INSERT INTO t '", "''", "'"),
        "an Ion value": filled(size, "INSERT INTO t `[", "1", "]`", ","),
    }


# ---- the program


def built(folder):
    """The program that parses, built over this repository's crates in a folder of its own."""
    for crate in CRATES:
        shutil.copytree(TOP / "crates" / crate, folder / "crates" / crate, ignore=shutil.ignore_patterns("out"))
    lines = [line for line in (TOP / "crates.txt").read_text().splitlines() if line.split(":")[0] in CRATES]
    lines.append("speed: " + " ".join(reversed(CRATES)) + " base64 jiff_core")
    (folder / "crates.txt").write_text("\n".join(lines) + "\n")
    (folder / "HANDLES").write_text("Handles allowed: none.\n")
    crate = folder / "crates" / "speed"
    (crate / "src").mkdir(parents=True)
    shutil.copy(TOP / "bench" / "statements.txt", crate / "src" / "main.rt")
    subprocess.run(["git", "init", "-q", folder], check=True)
    rt = subprocess.run(["rt", "run"], cwd=crate, stdin=subprocess.DEVNULL, capture_output=True)
    if not (crate / "out" / "speed").exists():
        sys.exit(rt.stderr.decode())
    return crate / "out" / "speed"


def run(program, text):
    """The microseconds in which the program parses a text."""
    ran = subprocess.run([program], input=text.encode(), capture_output=True, check=True)
    printed = ran.stdout.decode().strip()
    found = re.fullmatch(r"a statement, read in (\d+) us", printed)
    return int(found[1]) if found else sys.exit(f"{text[:40]}..: {printed}")


def main():
    with tempfile.TemporaryDirectory() as folder:
        program = sys.argv[1] if len(sys.argv) > 1 else built(Path(folder) / "repository")
        times = {}
        for size in SIZES:
            for name, text in constructs(size).items():
                least = min(run(program, text) for _ in range(RUNS))
                times.setdefault(name, []).append(f"{least / 1000:8.2f} ms {len(text) / max(least, 1):6.1f} MB/s")
        print(f"{'':20} " + " ".join(f"{size:14} bytes  " for size in SIZES))
        for name, row in times.items():
            print(f"{name:20} " + "  ".join(row))
    return 0


sys.exit(main())
