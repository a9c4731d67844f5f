#!/usr/bin/env python3
"""Prints the lines of a journal whose blocks are told in steps, by clients/python alone. (It isn't proved.)

    make.py STEPS..

Each argument is a block's steps, with `, ` between them:

- `create NAME TABLE`, `index FIELD TABLE` and `drop NAME TABLE` change the schema,
- `redact SEQUENCE TABLE DOCUMENT` redacts a revision of the block of this number in the strand so far,
- `put CONTENT TABLE DOCUMENT VERSION` adds a revision of the address, the time and the transaction so far, and a content
  of `-` is a deletion's,
- `strand`, `sequence`, `tx`, `second` and `microsecond` set a part of the header: the last two set the second of the
  year 2020 in UTC, of two digits, with three and with six digits behind it,
- `table TABLE` adds a table of no revision, `forget table` takes the last table away, and `forget hash` makes the last
  revision's hash zeros,
- `forget data` and `forget statements` put their hash in place of the last revision's data and of the statements.

An id is the number of its transaction, and a digit, the number of the thing in it.
"""

import sys
from itertools import zip_longest
from pathlib import Path

sys.path.insert(0, str(Path(__file__).resolve().parents[3] / "clients" / "python"))

from ledger import ion  # noqa: E402
from ledger.hashing import dot, field_hash, hash_value, root, struct_hash  # noqa: E402
from ledger.values import Struct  # noqa: E402

DIGITS = "0123456789ABCDEFGHIJKLMNOPQRSTUVWXYZabcdefghijklmnopqrstuvwxyz"


def id_text(number):
    """The 22 digits of an id."""
    text = ""
    for _ in range(22):
        number, digit = divmod(number, 62)
        text = DIGITS[digit] + text
    return text


def id_number(word):
    """The number of an id that a number of a transaction and a digit tell."""
    transaction, thing = divmod(int(word), 10)
    return transaction << 24 | thing


def id_of(word):
    return id_text(id_number(word))


def moment(second, digits):
    return ion.read_one(f"2020-01-01T00:00:{second}.{digits}Z")


class Steps:
    """What the steps of a block make."""

    def __init__(self):
        self.strand, self.sequence, self.tx = 0, 0, 0
        self.time = moment("00", "000")
        self.schema, self.tables, self.revisions = [], [], []
        self.said = "statements", []

    def address(self):
        return Struct([("strandId", id_text(self.strand)), ("sequenceNo", self.sequence)])

    def put(self, content, table, document, version):
        """Adds a revision, and its table."""
        metadata = Struct(
            [("id", id_of(document)), ("version", int(version)), ("txTime", self.time), ("txId", id_text(self.tx))]
        )
        data = [] if content == "-" else [("data", ion.read_one(content))]
        digest = dot(hash_value(metadata), hash_value(data[0][1]) if data else b"")
        self.revisions.append(
            Struct([("blockAddress", self.address()), ("hash", digest), *data, ("metadata", metadata)])
        )
        self.tables.append(id_of(table))

    def redact(self, sequence, table, document):
        address = Struct([("strandId", id_text(self.strand)), ("sequenceNo", int(sequence))])
        self.schema.append(Struct([("redact", address), ("tableId", id_of(table)), ("documentId", id_of(document))]))

    def forget(self, what):
        if what == "table":
            self.tables.pop()
        elif what == "statements":
            self.said = "statementsHash", field_hash(*self.said)
        else:
            self.revisions[-1] = Struct([self.forgotten(what, *field) for field in self.revisions[-1].fields])

    def forgotten(self, what, name, value):
        """A field of a revision whose hash or data are forgotten."""
        if name != what:
            return name, value
        return ("hash", bytes(32)) if what == "hash" else ("dataHash", hash_value(value))

    def take(self, step):
        """Takes one step."""
        verb, _, rest = step.partition(" ")
        if verb in ("create", "index", "drop"):
            name, table = rest.split(" ")
            self.schema.append(Struct([(verb, name), ("tableId", id_of(table))]))
        elif verb == "redact":
            self.redact(*rest.split(" "))
        elif verb == "put":
            self.put(*rest.rsplit(" ", 3))
        elif verb in ("strand", "sequence"):
            setattr(self, verb, int(rest))
        elif verb == "tx":
            self.tx = id_number(rest)
        elif verb in ("second", "microsecond"):
            self.time = moment(rest, "000" if verb == "second" else "000000")
        elif verb == "table":
            self.tables.append(id_of(rest))
        elif verb == "forget":
            self.forget(rest)
        else:
            raise SystemExit(f"no step: {step}")

    def documents(self):
        """The document and the table of each revision."""
        pairs = zip_longest(self.revisions, self.tables)
        return [
            Struct([("documentId", revision["metadata"]["id"]), ("tableId", table)])
            for revision, table in pairs
            if revision is not None and table is not None
        ]


def block(previous, text):
    """The hash and the line of the block of these steps behind that of a hash. It said nothing."""
    steps = Steps()
    for step in text.split(", "):
        steps.take(step)
    place = Struct([("session", 1), ("transaction", 1)])
    info = Struct([("place", place), steps.said, ("schema", steps.schema), ("documents", steps.documents())])
    head = [("blockAddress", steps.address()), ("transactionId", id_text(steps.tx)), ("blockTimestamp", steps.time)]
    header = Struct([*head, ("revisionCount", len(steps.revisions))])
    said = struct_hash(value if name == "statementsHash" else field_hash(name, value) for name, value in info.fields)
    hashes = [said, root([revision["hash"] for revision in steps.revisions]), hash_value(header)]
    entries = dot(dot(hashes[0], hashes[1]), hashes[2])
    digest = dot(entries, previous)
    more = [
        ("blockHash", digest), ("entriesHash", entries), ("previousBlockHash", previous), ("entriesHashList", hashes),
        ("transactionInfo", info), ("revisions", steps.revisions),
    ]
    return digest, ion.write(Struct(head + more))


def main():
    digest = hash_value(id_text(0))
    for text in sys.argv[1:]:
        digest, line = block(digest, text)
        print(line)


if __name__ == "__main__":
    main()
