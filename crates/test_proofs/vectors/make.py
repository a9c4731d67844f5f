#!/usr/bin/env python3
"""Prints the journals and the bundles of the tests, by clients/python alone. (It isn't proved.)

    make.py six      six blocks: block 0 creates a table, block 4 inserts a document, and the others do nothing
    make.py many     two blocks: block 0 inserts two documents, block 1 changes one, deletes the other and inserts one

The bundle is that of the revision of block 4, or of the deletion of block 1, under the last block's digest.
"""

import sys
from pathlib import Path

CRATES = Path(__file__).resolve().parents[2]
sys.path.insert(0, str(CRATES.parent / "clients" / "python"))
sys.path.insert(0, str(CRATES / "test_journal" / "vectors"))

from ledger import ion  # noqa: E402
from ledger.hashing import dot, hash_value, path, root  # noqa: E402
from ledger.values import Struct  # noqa: E402
from make import block as block_of_steps, id_text  # noqa: E402

TIME = ion.read_one("2020-01-01T00:00:00.000Z")
FIRST, SECOND = (
    "tx 10, create t 11, put {a:5} 11 12 0, put {a:6} 11 13 0",
    "sequence 1, tx 20, put {a:7} 11 12 1, put - 11 13 1, put {a:8} 11 21 0",
)


def ident(transaction, thing=0):
    return id_text(transaction << 24 | thing)


def address(sequence):
    return Struct([("strandId", ident(0)), ("sequenceNo", sequence)])


def said(text, answer):
    return Struct([("statement", text), ("parameters", []), ("answer", [Struct([answer])])])


def done(sequence):
    """What the transaction of a block of the six said, changed in the schema, and wrote."""
    table = ("tableId", ident(1, 1))
    if sequence == 0:
        return [said("CREATE TABLE t", table)], [Struct([("create", "t"), table])], []
    if sequence != 4:
        return [], [], []
    names = [("id", ident(5, 1)), ("version", 0), ("txTime", TIME), ("txId", ident(5))]
    metadata, data = Struct(names), Struct([("a", 5)])
    digest = dot(hash_value(metadata), hash_value(data))
    revision = Struct([("blockAddress", address(4)), ("hash", digest), ("data", data), ("metadata", metadata)])
    return [said("INSERT INTO t {'a': 5}", ("documentId", ident(5, 1)))], [], [revision]


def block_of_six(sequence, previous):
    """The hash and the line of a block of the six behind that of a hash."""
    statements, schema, revisions = done(sequence)
    place = Struct([("session", 1), ("transaction", sequence + 1)])
    documents = [Struct([("documentId", ident(5, 1)), ("tableId", ident(1, 1))]) for _ in revisions]
    info = Struct([("place", place), ("statements", statements), ("schema", schema), ("documents", documents)])
    head = [("blockAddress", address(sequence)), ("transactionId", ident(sequence + 1)), ("blockTimestamp", TIME)]
    hashes = [hash_value(info), root([revision["hash"] for revision in revisions])]
    hashes.append(hash_value(Struct([*head, ("revisionCount", len(revisions))])))
    entries = dot(dot(hashes[0], hashes[1]), hashes[2])
    digest = dot(entries, previous)
    more = [
        ("blockHash", digest), ("entriesHash", entries), ("previousBlockHash", previous), ("entriesHashList", hashes),
        ("transactionInfo", info), ("revisions", revisions),
    ]
    return digest, ion.write(Struct(head + more))


def bundle(lines, sequence, index):
    """The last block's digest, a revision, and its proof."""
    blocks = [ion.read_one(line) for line in lines]
    block, leaves = blocks[sequence], [block["blockHash"] for block in blocks]
    digest = Struct([("digest", root(leaves)), ("digestTipAddress", address(len(blocks) - 1))])
    head = [(name, block[name]) for name in ("blockAddress", "transactionId", "blockTimestamp")]
    header = Struct([*head, ("revisionCount", len(block["revisions"]))])
    below = path([revision["hash"] for revision in block["revisions"]], index)
    hashes = [*below, block["entriesHashList"][0], block["previousBlockHash"], *path(leaves, sequence)]
    return [digest, block["revisions"][index], Struct([("header", header), ("index", index), ("path", hashes)])]


def main():
    makers = {"six": [block_of_six] * 6, "many": [lambda _, hash: block_of_steps(hash, FIRST),
                                                  lambda _, hash: block_of_steps(hash, SECOND)]}
    digest, lines = hash_value(ident(0)), []
    for sequence, maker in enumerate(makers[sys.argv[1]]):
        digest, line = maker(sequence, digest)
        lines.append(line)
    for line in lines:
        print(line)
    for value in bundle(lines, *((4, 0) if sys.argv[1] == "six" else (1, 1))):
        print(ion.write(value))


if __name__ == "__main__":
    main()
