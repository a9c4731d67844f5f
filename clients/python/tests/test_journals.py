"""Journals: the package's checker and the program agree, on whole ones and on damaged ones."""
from __future__ import annotations

import random
import unittest
from collections.abc import Callable
from typing import Optional

import made
from common import AT, WithJournal
from ledger import Damage, DamagedJournal, Journal, Refused, Statement, Struct, Timestamp, Transaction, check_lines, ion
from ledger.blocks import block_of
from ledger.checks import whole_lines
from ledger.hashing import GrowingTree, dot, field_hash, fold, hash_value, path, root
from ledger.journal import last_moment

Lines = list[bytes]


def replaced(value: Struct, name: str, new: object) -> Struct:
    """A struct with another value in one field."""
    return Struct([(found, new if found == name else old) for found, old in value.items()])


def resealed(value: Struct, previous: Optional[bytes] = None) -> Struct:
    """A block with the hashes of what it says, so that no check of hashes finds what was changed."""
    revisions = []
    for revision in value["revisions"]:
        data = hash_value(revision["data"]) if "data" in revision else revision.get("dataHash", b"")
        revisions.append(replaced(revision, "hash", dot(hash_value(revision["metadata"]), data)))
    value = replaced(value, "revisions", revisions)
    if previous is not None:
        value = replaced(value, "previousBlockHash", previous)
    hashes = block_of(value).computed_list()
    entries = dot(dot(hashes[0], hashes[1]), hashes[2])
    value = replaced(replaced(value, "entriesHashList", hashes), "entriesHash", entries)
    return replaced(value, "blockHash", dot(entries, value["previousBlockHash"]))


def with_info(value: Struct, name: str, new: object) -> Struct:
    """A block with another value in one field of `transactionInfo`."""
    return replaced(value, "transactionInfo", replaced(value["transactionInfo"], name, new))


def with_metadata(value: Struct, name: str, new: object) -> Struct:
    """A block whose first revision has another value in one field of its metadata."""
    first, *more = value["revisions"]
    return replaced(value, "revisions", [replaced(first, "metadata", replaced(first["metadata"], name, new)), *more])


def redacting(value: Struct, sequence: int) -> Struct:
    """A block that redacts the revision of its first revision's document in another block."""
    address = replaced(value["blockAddress"], "sequenceNo", sequence)
    document, table = value["transactionInfo"]["documents"][0].values()
    return with_info(value, "schema", [Struct([("redact", address), ("tableId", table), ("documentId", document)])])


OTHER_ID = "0000000000000000018OWZ"  # of transaction 1's, without a mask
CHANGES: dict[str, list[Callable[[Struct], Struct]]] = {
    "WrongAddress": [lambda b: replaced(b, "blockAddress", replaced(b["blockAddress"], "sequenceNo", 7)),
                     lambda b: replaced(b, "blockAddress", replaced(b["blockAddress"], "strandId", OTHER_ID))],
    "WrongId": [lambda b: replaced(b, "transactionId", OTHER_ID), lambda b: replaced(b, "transactionId", "0" * 22),
                lambda b: replaced(b, "transactionId", "0000000000000000018OWG")],
    "TimeFell": [lambda b: replaced(b, "blockTimestamp", Timestamp(2019))],
    "WrongPrevious": [lambda b: replaced(b, "previousBlockHash", bytes(32))],
    "WrongHash": [lambda b: replaced(b, "blockHash", bytes(32)), lambda b: replaced(b, "entriesHash", bytes(32)),
                  lambda b: replaced(b, "entriesHashList", [b""] * 3), lambda b: with_metadata(b, "version", 5),
                  lambda b: with_info(b, "place", Struct([("session", 9), ("transaction", 9)]))],
    "NotALine": [lambda b: replaced(b, "blockHash", b""), lambda b: Struct(b.items()[:8]), lambda b: Struct(b.items() + [("a", 1)]),
                 lambda b: with_info(b, "place", Struct([("session", 2**32), ("transaction", 1)])),
                 lambda b: with_info(b, "documents", []), lambda b: with_metadata(b, "id", "x"),
                 lambda b: with_metadata(b, "version", -1), lambda b: ion.Annotated(("x",), b)],
}
FOLLOWING: list[Callable[[Struct], Struct]] = [  # each fails WrongState once its hashes are made anew
    lambda b: with_metadata(b, "version", 5), lambda b: with_metadata(b, "txTime", Timestamp(2020)),
    lambda b: with_metadata(b, "txId", "0000000000000000018OWG"),
    lambda b: with_info(b, "schema", [Struct([("create", "t"), ("tableId", OTHER_ID)])]),
    lambda b: with_info(b, "schema", [Struct([("create", "v"), ("tableId", OTHER_ID)])]),
    lambda b: with_info(b, "schema", [Struct([("drop", "t"), ("tableId", OTHER_ID)])]),
    lambda b: with_info(b, "schema", [Struct([("index", "k"), ("tableId", OTHER_ID)])]),
    lambda b: redacting(b, 1), lambda b: redacting(b, 2), lambda b: redacting(b, 0),
    lambda b: replaced(b, "revisions", [replaced(r, "blockAddress", replaced(r["blockAddress"], "sequenceNo", 0)) for r in b["revisions"]]),
]


class Checked(WithJournal):
    def there(self, content: bytes) -> str:
        """What the program's audit says of a journal."""
        self.put(content)
        try:
            return "{blocks:%d,revisions:%d}" % self.ledger.audit()
        except DamagedJournal as damaged:
            return ion.write(damaged.fault)

    def here(self, content: bytes) -> str:
        """What the package's checker says of a journal."""
        try:
            return "{blocks:%d,revisions:%d}" % check_lines(whole_lines(content)[0])
        except Damage as damage:
            return "{sequence:%d,kind:%s}" % (damage.sequence, damage.kind)

    def agree(self, content: bytes) -> str:
        said = self.here(content)
        self.assertEqual(said, self.there(content))
        return said

    def redact(self) -> None:
        """Redacts the first revision of each document that has another one."""
        older = [revisions[0] for revisions in self.ledger.read().histories("t") if len(revisions) > 1]
        address = [Struct([("strandId", one.address.strand), ("sequenceNo", one.address.sequence)]) for one in older]
        statements = [Statement("EXEC REDACT_REVISION ?, ?, ?", where, one.table, one.id) for where, one in zip(address, older)]
        self.ledger.run([Transaction(statements)], plain_ids=True, at=AT)

    def sample(self) -> Lines:
        """The lines of a small journal: tables, an index, two documents, an update."""
        statements = [
            ["CREATE TABLE t", "CREATE INDEX ON t (k)"], [Statement("INSERT INTO t ?", [{"k": 1, "v": "\u00e9"}, {"k": 2}])],
            ["UPDATE t AS d SET d.v = 2 WHERE d.k = 2"], ["DELETE FROM t AS d WHERE d.k = 2"],
        ]
        self.ledger.run([Transaction(each) for each in statements], plain_ids=True, at=AT)
        return whole_lines(self.content())[0]

    def test_random_journals(self) -> None:
        """Scripts by several workers, in several runs: both agree on the blocks and on every digest."""
        rng = random.Random(1)
        for _ in range(2):
            self.ledger.run(*made.sessions(rng, 3, 5), workers=rng.choice([1, 3]), check=False)
        content = self.content()
        self.assertRegex(self.agree(content), r"^\{blocks:[0-9]{2,}")
        journal = Journal.read(self.path)
        for tip in [len(journal.blocks) // 2, None]:
            self.assertEqual(journal.digest(tip), self.ledger.digest(tip))
        digests = [journal.digest(tip) for tip in range(len(journal.blocks))]
        other = digests[0]._replace(digest=bytes(32))
        self.assertEqual(journal.match([*digests, other]), [True] * len(digests) + [False])

    def test_changes(self) -> None:
        """Each check, by a change of one line that fails it first."""
        lines = self.sample()
        for kind, changes in CHANGES.items():
            for number, change in enumerate(changes):
                value = change(ion.read_one(lines[2], 256))
                found = b"\n".join([*lines[:2], ion.write(value).encode(), *lines[3:], b""])
                with self.subTest(f"{kind} {number}"):
                    self.assertEqual(self.agree(found), "{sequence:2,kind:%s}" % kind)

    def test_changes_with_new_hashes(self) -> None:
        """Blocks whose hashes hold, and that don't follow what stands before them."""
        lines = self.sample()
        for number, change in enumerate(FOLLOWING):
            value = resealed(change(ion.read_one(lines[2], 256)))
            with self.subTest(number):
                found = b"\n".join([*lines[:2], ion.write(value).encode(), b""])
                self.assertEqual(self.agree(found), "{sequence:2,kind:WrongState}")
        self.assertEqual(resealed(ion.read_one(lines[2], 256)), ion.read_one(lines[2], 256))

    def test_compacted(self) -> None:
        """A compacted journal, its fronts, mixtures with the one from before, hashes that nothing asks for, changed bytes."""
        self.sample()
        self.redact()
        self.ledger.run([Transaction(["SELECT * FROM t"])], plain_ids=True, at=AT)
        olds, lines = whole_lines(self.content())[0], whole_lines(self.ledger.compact().encode())[0]
        self.assertEqual((b"dataHash:" in lines[1], b"statements:" in lines[4], lines[5]), (True, False, olds[5]))
        found = [self.agree(b"\n".join([*lines[:count], b""])) for count in range(1, 7)]
        self.assertEqual(found, ["{sequence:0,kind:Unasked}"] * 4 + ["{blocks:5,revisions:4}", "{blocks:6,revisions:4}"])
        for number in range(1, 32):
            mixed = [lines[at] if number >> at & 1 else olds[at] for at in range(5)]
            self.assertEqual(self.agree(b"\n".join([*mixed, olds[5], b""])), "{blocks:6,revisions:4}")
        said = ion.read_one(olds[5], 256)["transactionInfo"]
        info = Struct([("statementsHash", field_hash(name, value)) if name == "statements" else (name, value) for name, value in said.items()])
        behind = ion.write(replaced(ion.read_one(olds[5], 256), "transactionInfo", info)).encode()
        self.assertEqual(self.agree(b"\n".join([*olds[:5], behind, b""])), "{sequence:5,kind:Unasked}")
        rng = random.Random(3)
        content = b"\n".join([*lines, b""])
        for at in [rng.randrange(len(content) - 1) for _ in range(20)]:
            with self.subTest(at):
                self.agree(content[:at] + rng.choice([b"", b"1", b"x"]) + content[at + 1:])

    def test_changed_bytes(self) -> None:
        """One byte more, less or changed, anywhere: both name the same line and the same check."""
        rng = random.Random(2)
        lines = self.sample()
        content = b"\n".join([*lines, b""])
        for _ in range(40):
            at = rng.randrange(len(content) - 1)
            new = content[:at] + rng.choice([b"", b" ", b"1", b"x", b"\n", b"\xff", b"}"]) + content[at + rng.randrange(2):]
            with self.subTest(at):
                self.agree(new)
        self.assertEqual(self.agree(content + b"{block"), "{blocks:4,revisions:4}")  # a rest behind the last line
        self.assertIn("WrongAddress", self.agree(b"\n".join([lines[1], lines[0], b""])))
        self.assertIn("WrongAddress", self.agree(b"\n".join([lines[0], lines[0], b""])))


class Read(WithJournal):
    def test_tables_and_documents(self) -> None:
        run = [
            ("2024-01-01T10:00Z", "CREATE TABLE t"), ("2024-01-01T11:00Z", "CREATE INDEX ON t (k)"),
            ("2024-01-01T12:00Z", Statement("INSERT INTO t ?", [{"k": 1}, {"k": 2}])),
            ("2024-02-01T00:00Z", "UPDATE t AS d SET d.k = 3 WHERE d.k = 1"), ("2024-02-02T00:00Z", "DELETE FROM t AS d WHERE d.k = 3"),
            ("2024-02-03T00:00Z", "DROP TABLE t"), ("2024-02-04T00:00Z", "CREATE TABLE t"),
        ]
        for at, statement in run:
            self.ledger.run([Transaction([statement])], at=at, plain_ids=True)
        journal = Journal.read(self.path)
        first, second = journal.tables
        self.assertEqual([(first.name, first.made, first.dropped, first.indexes), (second.made, second.dropped)], [("t", 0, 5, ["k"]), (6, None)])
        self.assertEqual(journal.rows("t"), [])
        journal = Journal.of_lines(line + b"\n" for line in whole_lines(self.content())[0][:5])
        self.assertEqual([revision.data for revision in journal.rows("t")], [{"k": 2}])
        self.assertEqual([revision.data for revision in journal.rows("t", Timestamp(2024, 1))], [{"k": 1}, {"k": 2}])
        self.assertEqual(journal.rows("t", Timestamp(2023)), [])
        (history,) = journal.with_value("t", "k", 3)
        self.assertEqual([(r.version, r.deleted, r.address.sequence, r.index) for r in history], [(0, False, 2, 0), (1, False, 3, 0), (2, True, 4, 0)])
        found = journal.revision(history[0].id, 1)
        self.assertEqual(found and (found.address.sequence, found.index), (3, 0))

    def test_redaction(self) -> None:
        """A redacted revision has the hash of its data in their place, its block has the data, and the hashes hold."""
        run = ["CREATE TABLE t", Statement("INSERT INTO t ?", {"k": 1}), "UPDATE t AS d SET d.k = 2"]
        self.ledger.run([Transaction([statement]) for statement in run], at=AT, plain_ids=True)
        (revisions,) = self.ledger.read().histories("t")
        address = Struct([("strandId", revisions[0].address.strand), ("sequenceNo", revisions[0].address.sequence)])
        redact = Statement("EXEC REDACT_REVISION ?, ?, ?", address, revisions[0].table, revisions[0].id)
        self.ledger.run([Transaction([redact])], at=AT, plain_ids=True)
        with self.assertRaises(Refused) as refused:
            self.ledger.run([Transaction([redact])], at=AT, plain_ids=True)
        self.assertEqual(refused.exception.cause, Struct([("code", 17), ("version", 0)]))
        journal = self.ledger.read()
        ((first, second),) = journal.histories("t")
        self.assertEqual((first.data, first.data_hash, first.deleted), (None, hash_value({"k": 1}), False))
        self.assertEqual((second.data, second.data_hash), ({"k": 2}, None))
        self.assertEqual((first.computed_hash(), journal.blocks[1].revisions[0].data), (first.hash, {"k": 1}))
        self.assertEqual((len(journal.blocks), journal.damage), (4, None))
        self.assertEqual(list(journal.with_value("t", "k", 1)), [])
        self.put(self.ledger.compact().encode())
        compacted = self.ledger.read()
        self.assertEqual((compacted.documents, compacted.digest(), compacted.damage), (journal.documents, journal.digest(), None))
        self.assertEqual((compacted.blocks[1].revisions[0], compacted.blocks[1].statements), (first, []))
        self.assertEqual([block.computed_list() for block in compacted.blocks], [block.computed_list() for block in journal.blocks])
        cut = Journal.of_lines(line + b"\n" for line in whole_lines(self.content())[0][:3])
        self.assertEqual((cut.blocks, cut.damage and (cut.damage.sequence, cut.damage.kind)), ([], (0, "Unasked")))

    def test_damage_and_rest(self) -> None:
        self.ledger.run([Transaction(["CREATE TABLE t"]), Transaction(["CREATE TABLE u"])], at=AT, plain_ids=True)
        content = self.content()
        self.put(content.replace(b"CREATE TABLE u", b"CREATE TABLE v"))
        journal = Journal.read(self.path)
        self.assertEqual((len(journal.blocks), journal.damage and journal.damage.kind), (1, "WrongHash"))
        self.put(content + b"{blockAd")
        self.assertEqual((len(Journal.read(self.path).blocks), Journal.read(self.path).rest), (2, 8))
        self.put(b"Dear Ada")
        with self.assertRaises(ValueError):
            Journal.read(self.path)


class Trees(unittest.TestCase):
    def test_trees(self) -> None:
        leaves = [hash_value(number) for number in range(20)]
        tree = GrowingTree()
        for count in range(1, len(leaves) + 1):
            top = root(leaves[:count])
            self.assertEqual(tree.push(leaves[count - 1]), top)
            for index in range(count):
                self.assertEqual(fold(leaves[index], path(leaves[:count], index)), top)

    def test_ends_of_times(self) -> None:
        for text, following in [("2024T", "2025T"), ("2024-02T", "2024-03T"), ("2023-12T", "2024T"), ("2024-02-28", "2024-02-29"),
                                ("2024-02-28T23:59Z", "2024-02-29"), ("2024-01-01T00:00:00.9Z", "2024-01-01T00:00:01Z")]:
            begin, end = ion.read(f"{text} {following}")
            self.assertEqual(last_moment(begin) + 1, end.instant(), text)


if __name__ == "__main__":
    unittest.main()
