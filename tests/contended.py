#!/usr/bin/env python3
"""Runs eight sessions by eight workers, some 200 times each on a new journal, that all add to one amount: each transaction reads
what the others write, so they conflict, are tried again, and some are in conflict at the end. Each run must end in time with one
line for each transaction, in the script's order, each committed or in conflict; blocks and transactions are numbered once, in
the order of each session; and the amount at the end is the number of the transactions that were committed. Ends with status 1
where something isn't as it should be.

    tests/contended.py [PROGRAM [RUNS]]

The program is crates/ledger/out/ledger, where `rt ci` leaves it, or another path.
"""
import re
import sys
import tempfile
from pathlib import Path

import running
from running import PROGRAM, check

WORDS = ["run", "--plain-ids", "--at", "2020-01-01T00:00:00.000Z", "--workers"]
RUNS = 200
WORKERS = 8
SESSIONS = 8
TRANSACTIONS = 5
SECONDS = 60
SET_UP = """[{statements:["CREATE TABLE accounts",{text:"INSERT INTO accounts ?",params:[{owner:"Ada",amount:0}]}]}]"""
ADD = """{statements:["UPDATE accounts AS a SET a.amount = a.amount + 1 WHERE a.owner = 'Ada'"]}"""
READ = """[{statements:["SELECT a.amount AS amount FROM accounts AS a","SELECT COUNT(*) AS revisions FROM history(accounts) AS h"]}]"""
LINE = re.compile(r"\{session:(\d+),transaction:(\d+),outcome:(committed|conflict),tx:\"(\w{22})\",(?:block|since):(\d+)(.*)\}")
CONFLICT = re.compile(r",block:(\d+),item:\{kind:doc,table:\"\w{22}\",id:\"\w{22}\"\}|,block:(\d+),item:\{kind:table,table:\"\w{22}\"\}")


def run(program, journal, workers, script):
    return running.run([program, journal, *WORDS, workers], script.encode(), SECONDS)


def ascend(numbers):
    return all(one < other for one, other in zip(numbers, numbers[1:]))


def judge(program, journal):
    """Checks one run, and tells how many transactions were committed, in conflict, and tried again."""
    run(program, journal, 1, SET_UP)
    script = "\n".join(["[" + ",".join([ADD] * TRANSACTIONS) + "]"] * SESSIONS)
    lines = run(program, journal, WORKERS, script)
    found = [LINE.fullmatch(line) for line in lines]
    check(all(found), f"each is committed or in conflict: {lines}")
    places = [(int(one[1]), int(one[2])) for one in found]
    wanted = [(session + 1, number + 1) for session in range(SESSIONS) for number in range(TRANSACTIONS)]
    check(places == wanted, f"a line for each transaction in the script's order: {places}")

    committed = [one for one in found if one[3] == "committed"]
    blocks = sorted(int(one[5]) for one in committed)
    check(blocks == list(range(1, len(committed) + 1)), f"the blocks behind block 0, each once: {blocks}")
    ids = [one[4] for one in found]
    check(len(set(ids)) == len(ids), f"each transaction has its own id: {ids}")
    for session in range(1, SESSIONS + 1):
        own = [one for one in found if int(one[1]) == session]
        check(ascend([one[4] for one in own]), f"the ids of session {session} ascend: {own}")
        check(ascend([int(one[5]) for one in own if one[3] == "committed"]), f"the blocks of session {session} ascend: {own}")
    for one in found:
        if one[3] == "conflict":
            met = CONFLICT.fullmatch(one[6])
            check(met, f"a conflict names a block, and the document or the table: {one[0]}")
            check(int(one[5]) <= int(met[1] or met[2]) <= len(committed), f"the block came behind those it ran on: {one[0]}")

    end = run(program, journal, 1, READ)[0]
    revisions = f"answers:[[{{amount:{len(committed)}}}],[{{revisions:{len(committed) + 1}}}]]}}"
    check(end.endswith(revisions), f"the amount is that of {len(committed)} transactions: {end}")
    # behind that of the first run each attempt has a number, and the last one of all is the last one of its transaction
    attempts = max(map(number_of, ids)) - 1
    return len(committed), len(found) - len(committed), attempts - len(found)


def number_of(id):
    """The number of a transaction by its plain id."""
    digits = "0123456789ABCDEFGHIJKLMNOPQRSTUVWXYZabcdefghijklmnopqrstuvwxyz"
    value = 0
    for digit in id:
        value = value * 62 + digits.index(digit)
    check(value % 2**24 == 0, f"the id of a transaction: {id}")
    return value // 2**24


def main():
    program = str(Path(sys.argv[1] if len(sys.argv) > 1 else PROGRAM).resolve())
    runs = int(sys.argv[2]) if len(sys.argv) > 2 else RUNS
    counts = []
    for _ in range(runs):
        with tempfile.TemporaryDirectory() as folder:
            counts.append(judge(program, Path(folder) / "journal"))
    committed, conflicts, retries = (sum(column) for column in zip(*counts))
    print(f"{runs} runs of {SESSIONS * TRANSACTIONS} transactions by {WORKERS} workers: "
          f"{committed} committed, {conflicts} in conflict, tried again {retries} times")


main()
