#!/usr/bin/env python3
"""Has the program and the Python package of clients/python read what the other wrote: random values, random journals, and what
becomes of these by random damage. Ends with `N passed, N failed`, and with status 1 where one failed.

    tests/random_rounds.py [PROGRAM [COUNT [SEED]]]

PROGRAM is crates/ledger/out/ledger, where `rt ci` leaves it, or another path. There are COUNT values, each in a spelling of its own,
and COUNT journals, 200 if absent. Equal seeds make equal ones, but for the order in which workers commit. How far it is stands on
standard error.

- A value passes if the package reads its spelling, and the program writes it and hashes it as the package does.
- A journal passes if the package finds no damage in it and writes each block as it stands, and if the program reads what the package
  wrote, and gives of it the package's digest.
- Of one journal in ten, both also have to count the same, and to say the same of three damaged copies: of one with a changed byte, of
  one with lines lost or exchanged, and of one in which a part of a block is another one and all its hashes are made anew.
"""
import os
import random
import sys
import tempfile
import time
from concurrent.futures import ProcessPoolExecutor
from dataclasses import replace
from pathlib import Path

ROOT = Path(__file__).resolve().parent.parent
PROGRAM = ROOT / "crates" / "ledger" / "out" / "ledger"
sys.path[:0] = [str(ROOT / "clients" / "python"), str(ROOT / "clients" / "python" / "tests")]
sys.dont_write_bytecode = True

import made  # noqa: E402
from test_journals import resealed  # noqa: E402

from ledger import Audit, Damage, DamagedJournal, Journal, Ledger, Struct, Timestamp, Transaction, check_lines, ion  # noqa: E402
from ledger.checks import whole_lines  # noqa: E402
from ledger.hashing import hash_value  # noqa: E402

COUNT = 200
BATCH = 250  # values in a transaction
EVERY = 10  # seconds between two words on standard error
DAMAGED = 10  # of so many journals one is damaged
MOST_TOLD = 20


def put(path, content):
    """Writes a file and returns its path."""
    Path(path).write_bytes(content)
    return path


# ---- values


def value_faults(program, seed, count):
    """What isn't as it should be of random values."""
    rng = random.Random(seed)
    values = [made.value(rng) for _ in range(count)]
    texts = [made.spelled(rng, value) for value in values]
    faults = [f"read by the package: {text}" for value, text in zip(values, texts) if ion.write(ion.read_one(text)) != ion.write(value)]
    said = '{statements:["CREATE TABLE t",{text:"SELECT VALUE ? FROM t",params:[[%s ]]}]}' % " ,".join(texts)
    with tempfile.TemporaryDirectory() as folder:
        ledger = Ledger(os.path.join(folder, "journal"), program, timeout=60)
        ledger.call("run", "--workers", "1", text=f"[{said}]")
        line = Path(ledger.journal).read_bytes().decode().rstrip("\n")
    block = ion.read_one(line, ion.JOURNAL_DEPTH)
    [found] = block["transactionInfo"]["statements"][1]["parameters"]
    faults += [f"written by the program: {ion.write(value)}" for value, other in zip(values, found) if not ion.same(value, other)]
    if len(found) != count or ion.write(block) != line or hash_value(block["transactionInfo"]) != block["entriesHashList"][0]:
        faults.append(f"the line or the hash of {count} values from seed {seed}")
    return faults


# ---- damage


def byte_changed(rng, lines):
    """The lines with one byte more, less or changed."""
    content = b"\n".join([*lines, b""])
    at = rng.randrange(len(content) - 1)
    new = rng.choice([b"", b" ", b"1", b"x", b"\n", b"\xff", b"}", bytes([rng.randrange(256)])])
    return content[:at] + new + content[at + rng.randrange(2):]


def lines_moved(rng, lines):
    """The lines with one of them lost, twice there, or exchanged with another."""
    found, (one, other) = list(lines), (rng.randrange(len(lines)), rng.randrange(len(lines)))
    how = rng.randrange(3)
    if how == 0:
        del found[one]
    elif how == 1:
        found.insert(other, found[one])
    else:
        found[one], found[other] = found[other], found[one]
    return b"\n".join([*found, b""])


def other_leaf(rng, value, ids):
    """Another value than one that holds no others."""
    if isinstance(value, bool) or value is None:
        return rng.choice([True, False, None, 0])
    if isinstance(value, int):
        return rng.choice([value + 1, value - 1, 0, 1, 2**32, ion.Null("int")])
    if isinstance(value, Timestamp):
        return rng.choice([Timestamp(2020), Timestamp(2999, 1, 1, 0, 0, 0, "000", 0), None])
    if isinstance(value, bytes):
        return rng.choice([bytes(32), b"", value[:-1]])
    return rng.choice([*ids, "t", "k", "x", "", ion.Symbol("t")])


def other_part(rng, value, ids):
    """A value with one of its parts changed, lost, or twice there."""
    whole = list(value.items()) if isinstance(value, Struct) else list(value) if isinstance(value, list) else []
    if not whole:
        return other_leaf(rng, value, ids) if not isinstance(value, (Struct, list)) else rng.choice([Struct([("a", 1)]), [1], [[]]])
    at = rng.randrange(len(whole))
    if rng.random() < 0.1:
        whole[at:at + 1] = rng.choice([[], [whole[at]] * 2])
    elif isinstance(value, Struct):
        whole[at] = (whole[at][0], other_part(rng, whole[at][1], ids))
    else:
        whole[at] = other_part(rng, whole[at], ids)
    return Struct(whole) if isinstance(value, Struct) else type(value)(whole)


def part_changed(rng, lines):
    """The lines with another part in one block, of which all hashes are made anew where it still is a block."""
    at = rng.randrange(len(lines))
    ids = [ion.read_one(line, ion.JOURNAL_DEPTH)["transactionId"] for line in rng.choices(lines, k=3)]
    block = ion.read_one(lines[at], ion.JOURNAL_DEPTH)
    name = rng.choice(["transactionInfo", "revisions", "transactionInfo", "revisions", *block])
    block = Struct([(found, other_part(rng, part, ids) if found == name else part) for found, part in block.items()])
    try:
        block = resealed(block)
    except (Damage, LookupError, TypeError, ValueError, AttributeError):
        pass  # it isn't a block any more
    return b"\n".join([*lines[:at], ion.write(block).encode(), *lines[at + 1:], b""])


def said_here(content):
    """What the package says of a journal: its counts, or the first damage."""
    try:
        return check_lines(whole_lines(content)[0])
    except Damage as damage:
        return Struct([("sequence", damage.sequence), ("kind", ion.Symbol(damage.kind))])


def said_there(ledger, content):
    """What the program says of a journal."""
    try:
        return replace(ledger, journal=put(f"{ledger.journal}.other", content)).audit()
    except DamagedJournal as damaged:
        return damaged.fault


# ---- journals


def script_of(rng):
    """A script that makes three tables, and then runs one or two sessions of some transactions."""
    first, *more = made.sessions(rng, rng.randrange(1, 3), rng.randrange(1, 3))
    tables = [statement for transaction in first[:3] for statement in transaction.statements]
    return [[Transaction(tables), *first[3:]], *more]


class Journals:
    """What isn't as it should be of random journals, and how often each damage was found."""

    def __init__(self, program):
        self.program = program
        self.faults, self.kinds = [], {}

    def same(self, what, here, there):
        if here != there:
            self.faults.append(f"{what}: the package has {here}, the program {there}")

    def try_one(self, seed, damages):
        """Makes a journal, and compares what both find of it, and of its damaged copies if `damages`."""
        rng = random.Random(seed)
        with tempfile.TemporaryDirectory() as folder:
            ledger = Ledger(os.path.join(folder, "journal"), self.program, timeout=60)
            ledger.run(*script_of(rng), workers=rng.randrange(1, 4), seed=rng.getrandbits(64), check=False)
            content, journal = Path(ledger.journal).read_bytes(), Journal.read(ledger.journal)
            written = "".join(ion.write(block.value) + "\n" for block in journal.blocks).encode()
            tip = rng.choice([None, rng.randrange(len(journal.blocks))])
            self.same(f"{seed}, its damage and its bytes", (journal.damage, written), (None, content))
            self.same(f"{seed}, its digest up to {tip}", journal.digest(tip), replace(ledger, journal=put(f"{folder}/written", written)).digest(tip))
            if damages:
                counts = Audit(len(journal.blocks), sum(len(block.revisions) for block in journal.blocks))
                self.same(f"{seed}, its counts", counts, ledger.audit())
                self.try_damages(seed, ledger, rng, whole_lines(content)[0])

    def try_damages(self, seed, ledger, rng, lines):
        for damage in [byte_changed, lines_moved, part_changed]:
            content = damage(rng, lines)
            self.try_damaged(f"{seed}, {damage.__name__}: {content!r}", ledger, content)

    def try_damaged(self, what, ledger, content):
        here = said_here(content)
        self.same(what, here, said_there(ledger, content))
        kind = str(here["kind"]) if isinstance(here, Struct) else "no damage"
        self.kinds[kind] = self.kinds.get(kind, 0) + 1


def journal_faults(program, seed, damages):
    """What isn't as it should be of one journal, and the damage that was found in its copies."""
    journals = Journals(program)
    journals.try_one(seed, damages)
    return journals.faults, journals.kinds


# ---- all


class Told:
    """What was tried so far: how many passed, the damage that was found, and the first faults, which are printed."""

    def __init__(self):
        self.passed = self.failed = 0
        self.kinds = {}

    def add(self, tried, faults, failed):
        for fault in faults[:max(MOST_TOLD - self.failed, 0)]:
            print(fault[:2000], flush=True)
        self.passed, self.failed = self.passed + tried - failed, self.failed + failed

    def count(self, kinds):
        for kind, times in kinds.items():
            self.kinds[kind] = self.kinds.get(kind, 0) + times


def try_values(told, pool, program, count, seed):
    sizes = [min(BATCH, count - begin) for begin in range(0, count, BATCH)]
    batches = [pool.submit(value_faults, program, f"{seed} values {at}", size) for at, size in enumerate(sizes)]
    for size, batch in zip(sizes, batches):
        faults = batch.result()
        told.add(size, faults, min(len(faults), size))


def try_journals(told, pool, program, count, seed):
    begun, words = time.monotonic(), 1
    journals = [pool.submit(journal_faults, program, f"{seed} journal {number}", number % DAMAGED == 0) for number in range(count)]
    for number, journal in enumerate(journals, 1):
        faults, kinds = journal.result()
        told.add(1, faults, min(len(faults), 1))
        told.count(kinds)
        if time.monotonic() >= begun + EVERY * words:
            words = int((time.monotonic() - begun) / EVERY) + 1
            print(f"{number} of {count} journals, {time.monotonic() - begun:.0f} s", file=sys.stderr, flush=True)


def main():
    words = sys.argv[1:] + [None] * 3
    program, count, seed = os.path.abspath(words[0] or PROGRAM), int(words[1] or COUNT), int(words[2] or 0)
    if not os.access(program, os.X_OK):
        sys.exit(f"there is no program {program}")
    told = Told()
    with ProcessPoolExecutor(os.cpu_count()) as pool:
        for what, attempt in [("values", try_values), ("journals", try_journals)]:
            begun = time.monotonic()
            attempt(told, pool, program, count, seed)
            print(f"{count:,} {what} in {time.monotonic() - begun:.0f} s", flush=True)
    print("what the package said of the damaged copies:", ", ".join(f"{kind} {times:,}" for kind, times in sorted(told.kinds.items())))
    print(f"{told.passed} passed, {told.failed} failed")
    return 1 if told.failed else 0


if __name__ == "__main__":
    sys.exit(main())
