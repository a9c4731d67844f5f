#!/usr/bin/env python3
"""Times selects by several workers on a journal of 10,000 documents, beside one worker. README.md says more."""

import os
import re
import statistics
import sys
import tempfile
from pathlib import Path

TOP = Path(__file__).resolve().parent.parent
sys.path.insert(0, str(TOP / "bench"))
from commits import run

RUN = ["run", "--plain-ids", "--at", "2020-01-01T00:00:00.000Z", "--workers"]
DOCUMENTS, A_TRANSACTION = 10_000, 40
WORKERS = [1, 2, 4]
SESSIONS = 4
ROUNDS = 3


def documents():
    """One session: a table with an index, and its documents, 40 a transaction."""
    rows = [f'{{number:{n},owner:"p{n % 97}"}}' for n in range(DOCUMENTS)]
    parts = [rows[at : at + A_TRANSACTION] for at in range(0, DOCUMENTS, A_TRANSACTION)]
    inserts = ",".join(f'{{statements:[{{text:"INSERT INTO t ?",params:[[{",".join(part)}]]}}]}}' for part in parts)
    return f'[{{statements:["CREATE TABLE t"]}},{{statements:["CREATE INDEX ON t (number)"]}},{inserts}]'.encode()


def selects(statement, params, each):
    """The sessions: each says the statement so often, with the next parameter each time, in transactions that are given up, since
    a block would have the answers."""
    sessions = []
    for session in range(SESSIONS):
        said = [f'{{text:"{statement}",params:[{params[(each * session + n) % len(params)]}]}}' for n in range(each)]
        parts = [said[at : at + A_TRANSACTION] for at in range(0, each, A_TRANSACTION)]
        sessions.append(",".join(f"{{statements:[{','.join(part)}],end:abort}}" for part in parts))
    return "\n".join(f"[{session}]" for session in sessions).encode()


def rates(program, journal, text, count, loading):
    """Reads a second, and the processor microseconds of each, by each number of workers."""
    found = {}
    for workers in WORKERS:
        seconds, used, report = run([program, journal, *RUN, str(workers)], text)
        transactions = count // A_TRANSACTION
        if report.count(b"outcome:aborted") != transactions:
            sys.exit("not all were read: " + report.decode()[:500])
        found[workers] = (count / (seconds - loading[0]), (used - loading[1]) / count * 1e6)
    return found


def measure(program, journal, name, statement, params, each):
    """Prints the rates of a statement, each the median of some rounds."""
    text = selects(statement, params, each)
    rounds = []
    for _ in range(ROUNDS):
        loading = run([program, journal, *RUN, "1"])[:2]
        rounds.append(rates(program, journal, text, each * SESSIONS, loading))
    told = []
    for workers in WORKERS:
        ratio = statistics.median(found[workers][0] / found[1][0] for found in rounds)
        rate = statistics.median(found[workers][0] for found in rounds)
        used = statistics.median(found[workers][1] for found in rounds)
        told.append(f"{workers} workers {rate:.0f} a second, {ratio:.2f} times one, {used:.0f} us of the processors each")
    print(f"{name}: " + "; ".join(told), flush=True)


def main():
    program = os.path.abspath(sys.argv[1] if len(sys.argv) > 1 else TOP / "crates" / "ledger" / "out" / "ledger")
    with tempfile.TemporaryDirectory() as folder:
        journal = Path(folder) / "journal"
        run([program, journal, *RUN, "1"], documents())
        numbers = [str(n * 7919 % DOCUMENTS) for n in range(DOCUMENTS)]
        ids = [f'"{it}"' for it in re.findall(r'metadata:\{id:"(\w+)"', journal.read_text())]
        if len(ids) != DOCUMENTS:
            sys.exit(f"the journal has {len(ids)} documents")
        measure(program, journal, "by an indexed key", "SELECT VALUE t.owner FROM t WHERE t.number = ?", numbers, 8_000)
        measure(program, journal, "by id", "SELECT VALUE t.owner FROM t BY d WHERE d = ?", ids, 8_000)
        measure(program, journal, "through all", "SELECT COUNT(*) FROM t WHERE t.owner = ?", [f'"p{n}"' for n in range(97)], 40)
    return 0


if __name__ == "__main__":
    sys.exit(main())
