#!/usr/bin/env python3
"""Runs small scripts and made workloads, and looks at their reports and at the journals that they leave: each line against the hashes
of another script, digests, what a run leaves of a file that is cut or damaged, how transactions end, and made documents. Ends with
status 1 where something isn't as it should be.

    tests/journal_rows.py [PROGRAM]

The program is crates/ledger/out/ledger, where `rt ci` leaves it, or another path.
"""
import base64
import os
import re
import subprocess
import sys
import tempfile

from rows import FIRST_ANSWERS, REDACTED, RUN, Program

HERE = os.path.dirname(os.path.abspath(__file__))
CRATES = os.path.join(os.path.dirname(HERE), "crates")
PROGRAM = os.path.join(CRATES, "ledger", "out", "ledger")
VECTORS = os.path.join(CRATES, "block_form", "vectors", "make.py")
LAST_NUMBER = os.path.join(CRATES, "test_ledger_core", "vectors", "last_number.py")
DIGITS = "0123456789ABCDEFGHIJKLMNOPQRSTUVWXYZabcdefghijklmnopqrstuvwxyz"

# how many blocks there are, of one statement each, the first of which creates a table and the others of which select from it, and
# their digest; crates/test_ledger_core/vectors/digests.py prints the digests
DIGESTS = [
    (1, "1e109563640c937a34726f5c9adb8591ed28a307d4b5e9ce11541f0e844aeef0"),
    (2, "db411ee27056561546e68d856b7185363942f51d5e897a30462ae06f3489524b"),
    (3, "d27bcee40cfcab616c877ef6ad2b4abde72173e29a4c0195b4554372efbb54a8"),
    (5, "6f336b4e66e9d9d442218eeff06171874f1bbbc7d5d51e40a53038fe90f51c40"),
    (121, "ccb5a37e350a969f5439a0e3b132e9b759a36821293b7a9f51ad1aa4c7e180d1"),
]

# the fields of a block's line, in order
FIELDS = [
    "blockAddress",
    "transactionId",
    "blockTimestamp",
    "blockHash",
    "entriesHash",
    "previousBlockHash",
    "entriesHashList",
    "transactionInfo",
    "revisions",
]

# the statements of one session, a transaction each, which is aborted behind a `-` and denied behind a `!`; how they end, a block by its
# number; how many blocks there are; and the number of the next transaction
ENDS = [
    ("CREATE TABLE t;SELECT * FROM t;SELECT * FROM t", "012", 3, 4),
    ("-CREATE TABLE t;SELECT * FROM t;CREATE TABLE t;CREATE TABLE t;-SELECT * FROM t", "AR0RA", 1, 4),
    ("CREATE TABLE t;!SELECT * FROM t;SELECT * FROM t;-!SELECT * FROM t", "0D1D", 2, 3),
]
LETTERS = {"refused": "R", "aborted": "A", "denied": "D"}

# of made workloads the seed, how many sessions and transactions of each there are, and the documents of each session, whose amounts
# are words of the session's stream
MADE = [
    ((0, 1, 3), ["{s:1,t:1,amount:119}{s:1,t:2,amount:110}{s:1,t:3,amount:469}"]),
    (
        (1, 2, 3),
        [
            "{s:1,t:1,amount:174}{s:1,t:2,amount:392}{s:1,t:3,amount:387}",
            "{s:2,t:1,amount:242}{s:2,t:2,amount:889}{s:2,t:3,amount:160}",
        ],
    ),
    (
        (4, 5, 2),
        [
            "{s:1,t:1,amount:193}{s:1,t:2,amount:873}",
            "{s:2,t:1,amount:386}{s:2,t:2,amount:39}",
            "{s:3,t:1,amount:224}{s:3,t:2,amount:602}",
            "{s:4,t:1,amount:34}{s:4,t:2,amount:550}",
            "{s:5,t:1,amount:166}{s:5,t:2,amount:349}",
        ],
    ),
    (
        (18446744073709551615, 2, 2),
        ["{s:1,t:1,amount:378}{s:1,t:2,amount:634}", "{s:2,t:1,amount:752}{s:2,t:2,amount:806}"],
    ),
]

# rules that deny what reads the table `denied`
RULES = b"""{some:[{rule:"all",effect:allow,actions:[PartiQLSelect,PartiQLCreateTable],tables:["*"]},
  {rule:"none",effect:deny,actions:[PartiQLSelect],tables:["denied"]}]}"""


def check(holds, what):
    if not holds:
        sys.exit(f"not so: {what}")


def number_of(id):
    """The number of a transaction by its plain id."""
    number = 0
    for digit in id:
        number = number * 62 + DIGITS.index(digit)
    return number >> 24


def line_of(script):
    """The line of a block that a script prints last, which shares nothing with the program."""
    printed = subprocess.run([sys.executable, script], capture_output=True, check=True, timeout=60).stdout
    return printed.splitlines(keepends=True)[-1]


def commit(program, journal, statement):
    """Commits a statement as the first transaction of a run."""
    status, report = program.run(journal, RUN, b"[{statements:[%s]}]" % statement)
    check(status == 0 and b"outcome:committed" in report, f"{statement} is committed: {status}, {report}")


def digests(program):
    """Journals have the digests of a script that shares nothing with the program."""
    made = 0
    for blocks, digest in DIGESTS:
        for number in range(made, blocks):
            commit(program, "digests", b'"SELECT * FROM t"' if number else b'"CREATE TABLE t"')
        made = blocks
        status, told = program.run("digests", ["digest"])
        found = base64.b64decode(re.match(rb"\{digest:\{\{(.*?)\}\}", told)[1]).hex()
        check((status, found) == (0, digest), f"the digest of {blocks} blocks: {status}, {found}")
        check(b"sequenceNo:%d}" % (blocks - 1) in told, f"the tip of {blocks} blocks: {told}")
    for blocks, digest in DIGESTS:
        _, told = program.run("digests", ["digest", "--tip", str(blocks - 1)])
        check(base64.b64encode(bytes.fromhex(digest)) in told, f"the digest with the tip {blocks - 1}")


def lines(program, line):
    """A transaction has the line of the vectors."""
    program.run("line", RUN, FIRST_ANSWERS.replace(b',"SELECT * FROM _ql_committed_t"', b""))
    check(program.left("line") == line, "the line of a transaction")
    places = [line.index(b"%s:" % name.encode()) for name in FIELDS]
    check(places == sorted(places), "the order of the fields")


def found(program, content):
    """What an audit says of a journal of these bytes, and the bytes that a run leaves that commits nothing."""
    program.put("found", content)
    told = program.run("found", ["audit"])
    program.run("found", RUN, b'[{statements:["SELECT * FROM nothing"]}]')
    return told, program.left("found")


def files(program, line):
    """A rest behind the last line is cut, and a journal that is damaged is left."""
    whole, none = (0, b"{blocks:1,revisions:1}\n"), (0, b"{blocks:0,revisions:0}\n")
    check(found(program, line) == (whole, line), "a line")
    check(found(program, line + b"{blockAddress:") == (whole, line), "a line and a rest")
    for end in range(len(line)):
        program.put("cut", line[:end])
        check(program.run("cut", ["audit"]) == none, f"{end} bytes of a line")
    for end in [0, 1, len(line) - 1]:
        check(found(program, line[:end]) == (none, b""), f"{end} bytes of a line")
    damaged = [
        (b"\n", 0, "NotALine"),
        (b"a::" + line, 0, "NotALine"),
        (line + line, 1, "WrongAddress"),
    ]
    for content, sequence, kind in damaged:
        told = (3, b"{status:3,fault:{sequence:%d,kind:%s}}\n" % (sequence, kind.encode()))
        check(found(program, content) == (told, content), f"{content[:20]}.. is damaged: {found(program, content)[0]}")


def letter(line):
    """How a transaction ended, by the number of its block or a letter."""
    outcome = re.search(rb"outcome:(\w+)", line)[1].decode()
    return re.search(rb",block:(\d+)", line)[1].decode() if outcome == "committed" else LETTERS.get(outcome, outcome)


def job(told):
    """The job that a statement tells."""
    abort, told = (",end:abort", told[1:]) if told[0] == "-" else ("", told)
    statement = told[1:].replace("t", "denied") if told[0] == "!" else told
    return '{statements:["%s"]%s}' % (statement, abort)


def ends(program):
    """One worker's transactions end as they should, and the next one has the number after the last block's."""
    for at, (statements, wanted, blocks, following) in enumerate(ENDS):
        journal = f"ends{at}"
        script = RULES + ("[%s]" % ",".join(job(it) for it in statements.split(";"))).encode()
        status, report = program.run(journal, RUN + ["--rules", "some"], script)
        told = "".join(letter(line) for line in report.splitlines())
        check((status, told) == (0, wanted), f"{statements}: {status}, {told}")
        check(program.left(journal).count(b"\n") == blocks, f"{statements}: {blocks} blocks")
        _, report = program.run(journal, RUN, b'[{statements:[""]}]')
        number = number_of(re.search(rb'tx:"(\w+)"', report)[1].decode())
        check(number == following, f"{statements}: the number {following} comes next, and not {number}")


def last_number(program):
    """Behind the block of the last transaction that there can be no transaction begins, and the journal stays."""
    line = line_of(LAST_NUMBER)
    program.put("last", line)
    told = program.run("last", RUN, b'[{statements:["SELECT * FROM t"]}]')
    spent = b"{session:1,transaction:1,outcome:ids_spent,last:18446744073709551615}\n"
    check(told == (0, spent), f"no number is left behind the last one: {told}")
    check(program.left("last") == line, "the journal of the last number")


def made(program):
    """A made workload creates a table and its index, and inserts the documents of its seed, session by session."""
    for (seed, sessions, transactions), documents in MADE:
        journal = f"made{seed}"
        numbers = ["--seed", str(seed), "--sessions", str(sessions), "--transactions", str(transactions), "--workers", "1"]
        status, told = program.run(journal, ["make", *numbers])
        first, *others = program.left(journal).decode().splitlines()
        check(status == 0 and len(others) == sessions * transactions, f"a workload is made: {status}, {told}")
        statements = re.findall(r'statement:"(.*?)"', first)
        check(statements == ["CREATE TABLE made", "CREATE INDEX ON made (s)"], f"the first statements: {statements}")
        found = "".join("".join(re.findall(r",data:(\{.*?\})", line)) for line in others)
        check(found == "".join(documents), f"the documents of the seed {seed}: {found}")


def sessions(program):
    """Three sessions that several workers run are told in order, each of them committed."""
    script = b"".join(b'[{statements:["CREATE TABLE %s"]}]' % name for name in (b"a", b"b", b"c"))
    for workers in ["2", "5"]:
        journal = "sessions" + workers
        status, report = program.run(journal, ["run", "--workers", workers, *RUN[3:]], script)
        told = re.findall(rb"session:(\d),transaction:1,outcome:committed", report)
        check((status, told) == (0, [b"1", b"2", b"3"]), f"{workers} workers: {status}, {report}")
        check(program.run(journal, ["audit"]) == (0, b"{blocks:3,revisions:0}\n"), f"{workers} workers: three blocks")


def hashes(program, journal, statements):
    """The hash of the last block of these statements, a transaction each, that of its entries, and the list of theirs."""
    for statement in statements:
        commit(program, journal, statement)
    last = program.left(journal).splitlines()[-1]
    block, entries = (re.search(name + rb":\{\{(.*?)\}\}", last)[1] for name in (rb"blockHash", rb"entriesHash"))
    return block, entries, re.search(rb"entriesHashList:\[(.*?)\]", last)[1].split(b",")


def parts(program):
    """Another statement, another content and another block before it change the hashes that they are in, and no other."""
    table, select = b'"CREATE TABLE t"', b'"SELECT * FROM t"'
    first = hashes(program, "first", [table])
    other = hashes(program, "other", [b'"CREATE TABLE  t"'])
    check(first[0] != other[0] and first[1] != other[1], "the hashes of another statement")
    check(first[2][0] != other[2][0] and first[2][1:] == other[2][1:], "another statement is in one of the entries' hashes")
    five = hashes(program, "first", [b'{text:"INSERT INTO t ?",params:[{a:5}]}'])
    six = hashes(program, "six", [table, b'{text:"INSERT INTO t ?",params:[{a:6}]}'])
    check(five[0] != six[0] and five[1] != six[1] and five[2][1] != six[2][1], "the hashes of another content")
    check(five[2][2] == six[2][2], "a content isn't in the hash of the header")
    first, other = hashes(program, "before", [table, select]), hashes(program, "other", [select])
    check(first[0] != other[0] and first[1:] == other[1:], "the hashes behind another block")


def contents(program):
    """A deletion is read again, and a revision that is redacted keeps its hash."""
    for statement in [b'"CREATE TABLE t"', b'{text:"INSERT INTO t ?",params:[{a:5}]}', b'"DELETE FROM t"']:
        commit(program, "deleted", statement)
    check(program.run("deleted", ["audit"]) == (0, b"{blocks:3,revisions:2}\n"), "a journal with a deletion")
    program.run("redacted", RUN, REDACTED)
    kept, (status, compacted) = program.left("redacted"), program.run("redacted", ["compact"])
    revision = re.compile(rb",hash:\{\{(.*?)\}\}")
    check(status == 0 and kept != compacted and b"dataHash" in compacted, f"a journal is compacted: {status}, {compacted}")
    check(revision.findall(kept) == revision.findall(compacted), "the hashes of its revisions")
    program.put("compacted", compacted)
    audits = [program.run(journal, ["audit"]) for journal in ("redacted", "compacted")]
    check(audits == [(0, b"{blocks:4,revisions:2}\n")] * 2, f"both are what their hashes say: {audits}")


def main():
    with tempfile.TemporaryDirectory() as folder:
        program = Program(os.path.abspath(sys.argv[1] if len(sys.argv) > 1 else PROGRAM), folder)
        line = line_of(VECTORS)
        digests(program)
        lines(program, line)
        files(program, line)
        ends(program)
        last_number(program)
        made(program)
        sessions(program)
        parts(program)
        contents(program)
    print("scripts and their journals: all as they should be")


main()
