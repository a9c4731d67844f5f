#!/usr/bin/env python3
"""Reads what a run of the gate costs, crate by crate, off the prover's processes while it runs. README.md says more."""

import json
import os
import re
import shutil
import subprocess
import sys
import threading
import time
from pathlib import Path

TOP = Path(__file__).resolve().parent.parent
TICKS = os.sysconf("SC_CLK_TCK")
EVERY = 1.0


# ---- the processes


def stat_of(pid):
    """A process's parent, its start, and its processor seconds with those of its children that ended."""
    text = Path(f"/proc/{pid}/stat").read_text()
    parts = text[text.rindex(")") + 2 :].split()
    return int(parts[1]), int(parts[19]), sum(int(it) for it in parts[11:15]) / TICKS


def processes():
    """Each process by its number, with its parent, start and seconds."""
    found = {}
    for entry in os.listdir("/proc"):
        if entry.isdigit():
            try:
                found[int(entry)] = stat_of(entry)
            except (OSError, ValueError):
                pass
    return found


def is_below(pid, top, found):
    """Whether a process descends from the run."""
    while pid in found and pid != top:
        pid = found[pid][0]
    return pid == top


def words_of(pid):
    """The words of a check or a build of one crate, or none."""
    try:
        words = Path(f"/proc/{pid}/cmdline").read_bytes().decode(errors="replace").split("\0")
    except OSError:
        return []
    is_prover = os.path.basename(words[0]) == "rattle" and words[1:2] in (["build"], ["check"])
    return words if is_prover and "--crate-name" in words else []


def part_of(words):
    """The crate that a prover's words name, and the part of its cost that they are: a check that keeps nothing is that of an edit."""
    crate = words[words.index("--crate-name") + 1]
    if words[1] == "build":
        return crate, "tests" if "--test" in words else "proof"
    return crate, "proof" if "-o" in words else "edits"


def watched(top):
    """The seconds of each prover below the run, until the run ends: (crate, part) with a list of them."""
    provers = {}
    while True:
        found = processes()
        if top not in found:
            break
        for pid, (parent, start, seconds) in found.items():
            # (what isn't a prover yet may become one)
            if not provers.get((pid, start)) and is_below(pid, top, found):
                words = words_of(pid)
                # a prover's own copies are among its children
                provers[pid, start] = [part_of(words), 0.0] if words and not words_of(parent) else None
            if provers.get((pid, start)):
                provers[pid, start][1] = seconds
        time.sleep(EVERY)
    costs = {}
    for prover in provers.values():
        if prover:
            (crate, part), seconds = prover
            costs.setdefault(crate, {}).setdefault(part, []).append(round(seconds, 1))
    return costs


# ---- the lines


def lines_of(crate):
    """A crate's lines of code, of contracts and definitions, of tests, and of proofs; blank ones and comments are left out."""
    code, stated, tests, proofs = 0, 0, 0, 0
    for file in (TOP / "crates" / crate).rglob("*"):
        inside = file.relative_to(TOP / "crates" / crate).parts
        if inside[0] not in ("src", "specs", "proofs") or file.suffix not in (".rt", ".antt"):
            continue
        lines = [line.strip() for line in file.read_text().splitlines()]
        lines = [line for line in lines if line and not line.startswith(("//", "--"))]
        if inside[0] == "specs":
            stated += len(lines)
        elif inside[0] == "proofs":
            proofs += len(lines)
        elif crate.startswith("test_") or "tests" in inside or file.name == "tests.rt":
            tests += len(lines)
        else:
            clauses = clauses_in(lines)
            stated, code = stated + clauses, code + len(lines) - clauses
    return code, stated, tests, proofs


def clauses_in(lines):
    """How many of these lines are clauses, ghost items among them."""
    count, depth, inside = 0, 0, False
    for line in lines:
        if not inside and re.match(r"(pub )?(ghost|requires|ensures)\b", line):
            inside, depth = True, 0
        if inside:
            count += 1
            depth += line.count("{") - line.count("}")
            inside = depth > 0 or not ("}" in line or line.endswith(";"))
    return count


# ---- the table


def table(costs):
    """A line a crate: its lines, and the processor minutes of its proof, its tests and its edits."""
    rows, sums = [], [0.0] * 3
    order = [line.split(":")[0].split()[0] for line in (TOP / "crates.txt").read_text().splitlines() if re.match(r"\w", line)]
    for crate in [it for it in order if it in costs] + [it for it in costs if it not in order]:
        minutes = [sum(costs[crate].get(it, [])) for it in ("proof", "tests", "edits")]
        sums = [a + b for a, b in zip(sums, minutes)]
        tried = len([*(TOP / "crates" / crate / "must-fail").glob("*.edit")])
        rows.append((crate, *lines_of(crate), *minutes, tried))
    print("| Crate | Code | Contracts, definitions | Tests | Proofs | Proof | Tests | Edits | Sum |", "|---|" + "---:|" * 8, sep="\n")
    for crate, code, stated, tests, proofs, *minutes, tried in rows:
        of = f" ({tried})" if tried else ""
        print(f"| {crate} | {code} | {stated} | {tests} | {proofs} |", cells(minutes[:2]), f"{minutes[2] / 60:.1f}{of} | {sum(minutes) / 60:.1f} |")
    lines = [sum(row[place] for row in rows) for place in range(1, 5)]
    print("| all |", " | ".join(str(it) for it in lines), "|", cells(sums), f"{sum(sums) / 60:.1f} |")


def cells(seconds):
    return " ".join(f"{it / 60:.1f} |" for it in seconds)


# ---- the functions of one crate


def prover_below(top):
    """The processor seconds of the provers below a process."""
    found = processes()
    return sum(seconds for pid, (_, _, seconds) in found.items() if is_below(pid, top, found) and words_of(pid))


def functions(crate, words):
    """Checks one crate from nothing, and prints what each function took, the dearest first: the seconds from the line before to its own."""
    shutil.rmtree(TOP / "crates" / crate / "out" / "incremental", ignore_errors=True)
    run = ["rt", "check", "--jobs", "1", "--progress", *words]
    run = subprocess.Popen(run, cwd=TOP / "crates" / crate, stdin=subprocess.DEVNULL, stdout=subprocess.PIPE, text=True)
    before, rows = 0.0, []
    for line in run.stdout:
        if line.startswith("checked "):
            seconds = prover_below(run.pid)
            name = line.split()[1].rstrip(",")
            rows.append((seconds - before, name if rows else f"the beginning, and {name}"))
            before = seconds
        elif not re.match(r"(fn|struct|enum|impl|statements) ", line):
            print(line, end="")
    for seconds, name in sorted(rows, reverse=True)[:40]:
        print(f"{seconds:7.1f}  {name}")
    print(f"{before:7.1f}  all {len(rows)}")


def main():
    words = sys.argv[1:]
    if words[:1] == ["--attach"] and len(words) == 3:
        costs = watched(int(words[1]))
        Path(words[2]).write_text(json.dumps(costs))
    elif words[:1] == ["--run"] and len(words) > 2:
        run = subprocess.Popen(words[2:], cwd=TOP, stdin=subprocess.DEVNULL)
        # (it is waited for where it is watched, so that it leaves the list of processes)
        threading.Thread(target=run.wait, daemon=True).start()
        costs = watched(run.pid)
        Path(words[1]).write_text(json.dumps(costs))
    elif words[:1] == ["--functions"] and len(words) > 1:
        return functions(words[1], words[2:])
    elif words[:1] == ["--table"] and len(words) == 2:
        costs = json.loads(Path(words[1]).read_text())
    else:
        sys.exit("gate.py --run FILE COMMAND.. | --attach PID FILE | --table FILE | --functions CRATE [--test]")
    table(costs)


if __name__ == "__main__":
    main()
