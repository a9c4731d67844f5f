#!/usr/bin/env python3
"""Times the reader and the writer of Ion texts next to sha256sum on the same bytes. README.md says more."""

import base64
import random
import re
import shutil
import subprocess
import sys
import tempfile
import time
from pathlib import Path

MEGABYTE = 1_000_000
SIZE = 16 * MEGABYTE
RUNS = 5
TOP = Path(__file__).resolve().parent.parent
CRATES = ["lists", "ion_values", "ion_model", "ion_model", "ion_lexer", "ion_text"]
WORDS = "journal block ledger Lewis vehicle owner Straße owner's registration plate naïve total city 東京".split()


# ---- the text of mixed values


def string(chance):
    text = " ".join(chance.choice(WORDS) for _ in range(chance.randint(1, 12)))
    escape = chance.choice(["\\n", "\\t", '\\"', "\\\\", "\\u20AC", "\\x41"])
    return f'"{text}{escape}"' if chance.random() < 0.1 else f'"{text}"'


def integer(chance):
    limit = 10 ** chance.randint(1, 20)
    number = chance.randint(-limit, limit)
    return hex(number) if chance.random() < 0.1 else str(number)


def decimal(chance):
    number = f"{chance.randint(-99999, 99999)}.{chance.randint(0, 9999):04}"
    return f"{number}d{chance.randint(-9, 9)}" if chance.random() < 0.3 else number


def timestamp(chance):
    day = f"{chance.randint(1970, 2030)}-{chance.randint(1, 12):02}-{chance.randint(1, 28):02}"
    if chance.random() < 0.3:
        return day
    clock = f"{chance.randint(0, 23):02}:{chance.randint(0, 59):02}:{chance.randint(0, 59):02}"
    return f"{day}T{clock}.{chance.randint(0, 999):03}{chance.choice(['Z', '+01:00', '-07:30'])}"


def symbol(chance):
    return chance.choice(["active", "sold", "pending", "transfer_of_title", "'in use'", "$2a"])


def blob(chance):
    return "{{" + base64.b64encode(chance.randbytes(chance.choice([16, 32, 32, 32, 200]))).decode() + "}}"


def scalar(chance):
    return chance.choice([string, integer, decimal, timestamp, symbol, blob])(chance)


def items(chance):
    return "[" + ", ".join(scalar(chance) for _ in range(chance.randint(0, 8))) + "]"


def person(chance):
    fields = {
        "id": integer(chance),
        "name": string(chance),
        "'date of birth'": timestamp(chance),
        "balance": decimal(chance),
        "status": symbol(chance),
        "hash": blob(chance),
        "tags": items(chance),
        "address": f"{{street: {string(chance)}, city: {string(chance)}}}",
    }
    return "{" + ", ".join(f"{name}: {value}" for name, value in fields.items()) + "}"


def mixed():
    """Values of each kind, one a line; the same bytes in each run."""
    chance = random.Random(7)
    lines, size = [], 0
    while size < SIZE:
        line = (chance.choice([scalar, items, person])(chance) + "\n").encode()
        lines.append(line)
        size += len(line)
    return b"".join(lines)


def hostile():
    """Texts that a reader may be slow at or take much memory for, each with the answer at depth 64."""
    cut = f"Unclosed at {SIZE}"
    return [
        ("lists that open", b"[" * SIZE, "TooDeep at 64"),
        ("sexps that open", b"(" * SIZE, "TooDeep at 64"),
        ("structs that open", (b"{a:" * (SIZE // 3 + 1))[:SIZE], f"TooDeep at {3 * 64}"),
        ("a long string that is cut", b"'''" + b"a" * (SIZE - 3), cut),
        ("a comment that is cut", b"/*" + b"a" * (SIZE - 2), cut),
        ("one string", b'"' + b"a" * (SIZE - 2) + b'"', "1 values"),
        ("segments", b"'''a''' " * (SIZE // 8), "1 values"),
        ("annotations", b"ab::" * (SIZE // 4 - 1) + b"cdef", "1 values"),
        ("annotations that are cut", b"ab::" * (SIZE // 4), cut),
        ("one int", b"1" * SIZE, "TooWide at 0"),
        ("one operator", b"(" + b"+" * (SIZE - 2) + b")", "1 values"),
        ("one blob", b"{{" + b"A" * (SIZE - 4) + b"}}", "1 values"),
        ("a clob that is cut", b"{{" + b'"}}"' * (SIZE // 4 - 1) + b'"}', cut),
        ("the least values", b"1 " * (SIZE // 2), f"{SIZE // 2} values"),
    ]


# ---- programs


def built(folder):
    """The program that reads and writes, built over this repository's crates in a folder of its own."""
    for crate in CRATES:
        shutil.copytree(TOP / "crates" / crate, folder / "crates" / crate, ignore=shutil.ignore_patterns("out"))
    lines = [line for line in (TOP / "crates.txt").read_text().splitlines() if line.split(":")[0] in CRATES]
    lines.append("speed: " + " ".join(reversed(CRATES)) + " base64")
    (folder / "crates.txt").write_text("\n".join(lines) + "\n")
    (folder / "HANDLES").write_text("Handles allowed: none.\n")
    crate = folder / "crates" / "speed"
    (crate / "src").mkdir(parents=True)
    shutil.copy(TOP / "bench" / "program.txt", crate / "src" / "main.rt")
    subprocess.run(["git", "init", "-q", folder], check=True)
    rt = subprocess.run(["rt", "run"], cwd=crate, stdin=subprocess.DEVNULL, capture_output=True)
    if rt.returncode != 0:
        sys.exit(rt.stderr.decode())
    return crate / "out" / "speed"


def run(command, file):
    """What a command prints that reads the file, its seconds, and its peak memory in megabytes."""
    with open(file, "rb") as text:
        begun = time.monotonic()
        ran = subprocess.run(["/usr/bin/time", "-f", "%M", *command], stdin=text, capture_output=True, check=True)
        seconds = time.monotonic() - begun
    return ran.stdout.decode().strip(), seconds, int(ran.stderr.split()[-1]) * 1024 / MEGABYTE


def speed(name, size, seconds):
    print(f"{name:16} {seconds:6.3f} s {size / seconds / MEGABYTE:6.0f} MB/s")


def time_mixed(program, file):
    text = mixed()
    file.write_bytes(text)
    read, written, whole, digest = [], [], [], []
    for _ in range(RUNS):
        printed, seconds, memory = run([program], file)
        numbers = re.fullmatch(r"(\d+) values, (\d+) bytes written, read in (\d+) us, written in (\d+) us", printed)
        read.append(int(numbers[3]) / 1e6)
        written.append(int(numbers[4]) / 1e6)
        whole.append(seconds)
        digest.append(run(["sha256sum"], file)[1])
    print(f"{len(text)} bytes, {numbers[1]} values, {memory:.0f} MB of memory; the least of {RUNS} runs")
    speed("read", len(text), min(read))
    speed("write", int(numbers[2]), min(written))
    speed("whole program", len(text), min(whole))
    speed("sha256sum", len(text), min(digest))


def time_hostile(program, file):
    right = True
    for name, text, answer in hostile():
        file.write_bytes(text)
        printed, seconds, memory = run([program], file)
        found = printed.split(",")[0]
        right = right and found == answer
        print(f"{name:26} {seconds:6.3f} s {memory:6.0f} MB  {found}" + ("" if found == answer else f", not {answer}"))
    return right


def main():
    with tempfile.TemporaryDirectory() as folder:
        folder = Path(folder)
        program = sys.argv[1] if len(sys.argv) > 1 else built(folder / "repository")
        time_mixed(program, folder / "text.ion")
        return 0 if time_hostile(program, folder / "text.ion") else 1


sys.exit(main())
