"""The package on docs/vectors: values, spellings, pairs, trees and journals with what they have to come to."""
from __future__ import annotations

import unittest
from typing import Any

from common import vectors
from ledger import Damage, Journal, check_lines, ion
from ledger.hashing import PAD, dot, fold, hash_value, path, root, serialize, sha256
from ledger.ion import IonError


class Vectors(unittest.TestCase):
    def test_values(self) -> None:
        for row in vectors("values")["values"]:
            with self.subTest(row["name"]):
                value = ion.read_one(row["text"])
                found = (ion.write(value), serialize(value).hex(), hash_value(value).hex())
                self.assertEqual(found, (row["text"], row["serialization"], row["hash"]))

    def test_spellings(self) -> None:
        rows = vectors("spellings")
        for row in rows["accepted"]:
            with self.subTest(row["rule"]):
                value = ion.read_one("{data:" + row["text"] + "}")  # as it stands in a bundle
                self.assertEqual(ion.write(value), "{data:" + row["written"] + "}")
        for row in rows["refused"]:
            text = bytes.fromhex(row["hex"]) if "hex" in row else row["text"].encode()
            with self.subTest(row["rule"]), self.assertRaises(IonError) as caught:
                ion.read(text)
            self.assertEqual((caught.exception.at, caught.exception.kind), (row["at"], row["kind"]), text)

    def test_pairs_and_trees(self) -> None:
        rows = vectors("pairs")
        self.assertEqual(PAD.hex(), rows["pad"])
        for row in rows["sha256"]:
            self.assertEqual(sha256(row["text"].encode() * row["times"]).hex(), row["digest"])
        for row in rows["dot"]:
            self.assertEqual(dot(*map(bytes.fromhex, row["pair"])).hex(), row["result"])
        for row in rows["trees"]:
            leaves = list(map(bytes.fromhex, row["leaves"]))
            self.assertEqual(root(leaves).hex(), row["root"])
            for index, siblings in enumerate(row["siblings"]):
                self.assertEqual([sibling.hex() for sibling in path(leaves, index)], siblings)
                self.assertEqual(fold(leaves[index], path(leaves, index)).hex(), row["root"])

    def test_journals(self) -> None:
        rows = vectors("journals")
        whole = {row["name"]: row for row in rows["whole"]}
        for row in rows["whole"]:
            journal = Journal.of_lines(line.encode() + b"\n" for line in row["lines"])
            digests = [ion.write(journal.digest(tip).value()) for tip in range(len(journal.blocks))]
            self.assertEqual((journal.damage, len(journal.blocks), digests), (None, row["blocks"], row["digests"]))
        for row in rows["sound"] + rows["damaged"]:
            lines = [line.encode() for line in whole[row["journal"]]["lines"][:row["keep"]] + row["then"]]
            with self.subTest(row["name"]):
                try:
                    found: Any = check_lines(lines)
                    wanted: Any = (row.get("blocks"), row.get("revisions"))
                except Damage as damage:
                    found, wanted = (damage.sequence, damage.kind), (row.get("sequence"), row.get("kind"))
                self.assertEqual(found, wanted)


if __name__ == "__main__":
    unittest.main()
