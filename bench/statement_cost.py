#!/usr/bin/env python3
"""Counts the instructions of selects by id and by key, of a document that is counted, of UPDATEs in one transaction, and of a commit
behind more blocks. README.md says more."""

import os
import re
import shutil
import sys
import tempfile
from pathlib import Path

TOP = Path(__file__).resolve().parent.parent
sys.path.insert(0, str(TOP / "bench"))
from callgrind import counted
from commits import run
from reads import RUN

DOCUMENTS, GROUP, A_TRANSACTION = 2_000, 500, 40
FEW, MANY = 40, 120
# none of the commits that are counted is the one at which a list of 512 or 4,096 blocks is copied to a longer one
BLOCKS, FEWER, MORE = [520, 4_000], 10, 90
MOST = {"a select by id": 28_000, "a document counted by an index": 1_500, "a document counted by a pass": 1_500}
MOST_UPDATES, MOST_BEHIND = 12, 1.1


def statements(statement, params):
    """One transaction that says the statement with each of these parameters, and is given up."""
    said = ",".join(f'{{text:"{statement}",params:[{param}]}}' for param in params)
    return f"{{statements:[{said}],end:abort}}"


def session(*parts):
    return f"[{','.join(parts)}]".encode()


def documents():
    """Documents of which each group has one word by an index and without one."""
    rows = [f'{{number:{n},s:"g{n // GROUP}",u:"g{n // GROUP}"}}' for n in range(DOCUMENTS)]
    parts = [rows[at : at + A_TRANSACTION] for at in range(0, DOCUMENTS, A_TRANSACTION)]
    inserts = [f'{{statements:[{{text:"INSERT INTO t ?",params:[[{",".join(part)}]]}}]}}' for part in parts]
    indexes = '{statements:["CREATE INDEX ON t (number)","CREATE INDEX ON t (s)"]}'
    return session('{statements:["CREATE TABLE t"]}', indexes, *inserts)


def instructions(program, folder, journal, text):
    """The instructions of a run of the text on a copy of the journal."""
    copy = folder / "copy"
    shutil.copyfile(journal, copy)
    report, count, _ = counted([program, copy, *RUN, "1"], text, folder / "instructions")
    if b"outcome:refused" in report or b"outcome" not in report:
        sys.exit(report[:500].decode())
    return count


def each(measure, few, many):
    """The instructions of one more, by runs with so few and so many."""
    return (measure(many) - measure(few)) / (many - few)


def selects(program, folder, journal):
    """Instructions a select, and a document counted."""
    ids = [f'"{it}"' for it in re.findall(r'metadata:\{id:"(\w+)"', journal.read_text())]
    numbers = [str(n * 7919 % DOCUMENTS) for n in range(DOCUMENTS)]

    def reading(statement, params):
        return lambda count: instructions(program, folder, journal, session(statements(statement, params[:count])))

    yield "a select by id", each(reading("SELECT VALUE t.number FROM t BY d WHERE d = ?", ids), FEW, MANY)
    yield "a select by a key", each(reading("SELECT VALUE t.number FROM t WHERE t.number = ?", numbers), FEW, MANY)
    by_index = each(reading("SELECT COUNT(*) FROM t WHERE t.s = ?", ['"g1"'] * MANY), FEW, MANY)
    yield "a document counted by an index", by_index / GROUP
    by_pass = each(reading("SELECT COUNT(*) FROM t WHERE t.u = ?", ['"g1"'] * MANY), FEW, MANY)
    yield "a document counted by a pass", by_pass / DOCUMENTS


def updates(program, folder):
    """How many times the instructions of 100 UPDATEs of one document in one transaction those of 1,000 are."""
    journal = folder / "one"
    run([program, journal, *RUN, "1"], session('{statements:["CREATE TABLE t"]}', "{statements:[\"INSERT INTO t {'n':0}\"]}"))

    def updating(count):
        return instructions(program, folder, journal, session(statements("UPDATE t SET n = ?", [str(n) for n in range(count)])))

    none, few, many = map(updating, (0, 100, 1_000))
    return (many - none) / (few - none)


def commits(program, folder):
    """Instructions of a commit of one small document behind so many blocks."""
    for blocks in BLOCKS:
        journal = folder / f"behind-{blocks}"
        inserts = [f'{{statements:[{{text:"INSERT INTO t ?",params:[{{number:{n},owner:"p{n % 97}"}}]}}]}}' for n in range(blocks + MORE)]
        run([program, journal, *RUN, "1"], session('{statements:["CREATE TABLE t"]}', *inserts[: blocks - 1]))

        def committing(count, journal=journal, blocks=blocks, inserts=inserts):
            return instructions(program, folder, journal, session(*inserts[blocks : blocks + count]))

        yield blocks, each(committing, FEWER, MORE)


def main():
    program = os.path.abspath(sys.argv[1] if len(sys.argv) > 1 else TOP / "crates" / "ledger" / "out" / "ledger")
    if not shutil.which("callgrind_annotate"):
        sys.exit("valgrind is wanted")
    holds = True
    with tempfile.TemporaryDirectory() as folder:
        folder = Path(folder)
        journal = folder / "journal"
        run([program, journal, *RUN, "1"], documents())
        for name, count in selects(program, folder, journal):
            print(f"{name}: {count:,.0f} instructions" + (f", wanted at most {MOST[name]:,}" if name in MOST else ""), flush=True)
            holds = holds and count <= MOST.get(name, count)
        times = updates(program, folder)
        print(f"1,000 UPDATEs in one transaction: {times:.1f} times the instructions of 100, wanted at most {MOST_UPDATES}", flush=True)
        found = dict(commits(program, folder))
        for blocks, count in found.items():
            print(f"a commit behind {blocks:,} blocks: {count:,.0f} instructions, {count / found[BLOCKS[0]]:.2f} of those behind {BLOCKS[0]:,}")
        holds = holds and times <= MOST_UPDATES and found[BLOCKS[-1]] <= MOST_BEHIND * found[BLOCKS[0]]
    return 0 if holds else 1


if __name__ == "__main__":
    sys.exit(main())
