#!/usr/bin/env python3
"""Streams journals, and replays their records as they may arrive: lost, repeated and in another order. Ends with status 1 where
something isn't as it should be.

    tests/streams.py [PROGRAM]

The program is crates/ledger/out/ledger, where `rt ci` leaves it, or another path.
"""
import os
import sys
import tempfile

from commands import Texts, lines_of_rows
from rows import Program

HERE = os.path.dirname(os.path.abspath(__file__))
PROGRAM = os.path.join(os.path.dirname(HERE), "crates", "ledger", "out", "ledger")

CREATED = '{recordType:"CONTROL",payload:{controlRecordType:"CREATED"}}\n'
COMPLETED = '{recordType:"CONTROL",payload:{controlRecordType:"COMPLETED"}}\n'
SUMMARY = '{recordType:"BLOCK_SUMMARY",payload:%s,revisionSummaries:[%s]}}\n'
DETAILS = '{recordType:"REVISION_DETAILS",payload:{tableInfo:{tableId:"0000000000000000018OWH",tableName:"t"},revision:%s}}\n'

# the records that are delivered of the stream of three blocks, counted from 0, and how many blocks are rebuilt. The records are:
# created, three summaries, the details of the last block's revision, completed
THREE = [
    ("0 1 2 3 4 5", 3),
    ("5 4 3 2 1 0", 3),
    ("4 4 3 1 3 2 1", 3),
    ("1 2 3", 2),
    ("1 3 4", 1),
    ("2 3 4", 0),
    ("0 5", 0),
    ("4 3 2", 0),
]

# the records of the stream of one block: created, its summary, the details of its revision, completed
ONE = [("2 1 1 0", 1), ("0 1 3", 0)]

# values that are no records
OTHERS = ["5", '{recordType:"CONTROL"}', '{recordType:"CONTROL",payload:{controlRecordType:"created"}}']


def check(holds, what):
    if not holds:
        sys.exit(f"not so: {what}")


def journal(name):
    """The lines of a journal that tests/commands.txt names."""
    return Texts(lines_of_rows()).named[name].splitlines(keepends=True)


def records(lines):
    """The records of the stream of blocks of at most one revision, of the parts of the blocks' own lines."""
    told = [CREATED]
    for line in lines:
        block, _, rest = line.partition(",revisions:[")
        revision = rest.removesuffix("]}\n")
        told.append(SUMMARY % (block, summary(revision)))
        told += [DETAILS % revision] if revision else []
    return [*told, COMPLETED]


def summary(revision):
    """What a summary says of a revision: its hash, and its document."""
    if not revision:
        return ""
    hash, id = (revision.partition(before)[2].partition(",")[0] for before in (",hash:", ",metadata:{id:"))
    return "{hash:%s,documentId:%s}" % (hash, id)


def streamed(program, name, rows):
    """A journal's stream, and what is rebuilt of its records where they arrive as the rows say."""
    lines = journal(name)
    told = records(lines)
    program.put(name, "".join(lines).encode())
    found = program.run(name, ["stream"])
    check(found == (0, "".join(told).encode()), f"the stream of {name}: {found}")
    for places, blocks in rows:
        delivered = "".join(told[int(place)] for place in places.split(" "))
        found = program.run("none", ["replay"], delivered.encode())
        check(found == (0, "".join(lines[:blocks]).encode()), f"the records {places} of {name}: {found}")


def refused(program):
    """Values that are no records, and another summary of a block, are refused."""
    for value in OTHERS:
        found = program.run("none", ["replay"], value.encode())
        check(found == (2, b"{status:2,fault:{kind:NotARecord,at:0}}\n"), f"{value} is no record: {found}")
    block = journal("ONE_BLOCK")[0]
    first = records([block])[1]
    hash, entries = (block.partition(name + ":")[2].partition(",")[0] for name in ("blockHash", "entriesHash"))
    found = program.run("none", ["replay"], (first + first.replace(hash, entries, 1)).encode())
    check(found == (2, b"{status:2,fault:{kind:RecordDiffers,at:1,sequence:0}}\n"), f"another hash of a block: {found}")


def main():
    with tempfile.TemporaryDirectory() as folder:
        program = Program(os.path.abspath(sys.argv[1] if len(sys.argv) > 1 else PROGRAM), folder)
        streamed(program, "THREE_BLOCKS", THREE)
        streamed(program, "ONE_BLOCK", ONE)
        refused(program)
    print(f"{len(THREE) + len(ONE)} streams whose records are lost, repeated or in another order: all as they should be")


main()
