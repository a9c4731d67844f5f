"""Values: the package against rows of the documents, and against the program."""
from __future__ import annotations

import hashlib
import os
import random
import re
import subprocess
import sys
import unittest
from decimal import Decimal

import made
from common import PROGRAM, ROOT, WithJournal
from ledger import Statement, Transaction, ion
from ledger.hashing import commit_digest, dot, hash_value, root
from ledger.ion import IonError, Symbol, Timestamp

MADE_DIGESTS = os.path.join(ROOT, "crates", "test_workers", "vectors", "make.py")
REFUSED = [  # the text, the place of its first fault, and its kind
    (b"\xff", 0, "NotUtf8"), (b'"\xc3\xa9" \xc3\xa9', 5, "BadToken"), ("[1, 2e0]", 4, "FloatRefused"), ("(+inf)", 1, "FloatRefused"),
    ("nan", 0, "FloatRefused"), ("null.float", 0, "FloatRefused"), ("$10", 0, "SymbolIdRefused"),
    ("$ion_symbol_table::{}", 19, "SymbolIdRefused"), ("01", 0, "BadToken"), ("1__0", 0, "BadToken"), ("0x", 0, "BadToken"),
    ('"a\nb"', 0, "BadToken"), ('"\\uD83D"', 0, "BadToken"), ('"\\x+1"', 0, "BadToken"), ('"\u0661"1\u0662', 4, "BadToken"),
    ("[+]", 1, "BadToken"), ("[,]", 1, "BadToken"), ("[1 2]", 3, "BadToken"), ("{a 1}", 3, "BadToken"), ('"x"::1', 3, "BadToken"),
    ("{{YR==}}", 0, "BadBase64"), ("{{YQ}}", 0, "BadBase64"), ("{{", 2, "Unclosed"), ("/*", 2, "Unclosed"), ("a::", 3, "Unclosed"),
    ("[1", 2, "Unclosed"), ('"a', 2, "Unclosed"), ("'''a''", 6, "Unclosed"), ("2020-02-30", 0, "BadTimestamp"),
    ("2020-01-01T24:00Z", 0, "BadTimestamp"), ("0001-01-01T00:00+00:01", 0, "BadTimestamp"), ("2020-01-01T00:00", 0, "BadToken"),
    ("2020-01-01T00:00:00.1234567890Z", 0, "TooWide"), (str(2**127), 0, "TooWide"), ("9" * 5000, 0, "TooWide"), ("1d32768", 0, "TooWide"),
    ("[" * 81, 80, "TooDeep"),
]
READ = [  # the text, and that of its values as they are written
    ("$ion_1_0 5", "5"), ("'$ion_1_0'", "'$ion_1_0'"), ("-0x8_0 0b101 -0", "-128 5 0"), ("1. 1.5d-3 -0.0", "1d0 15d-4 -0d-1"),
    ("(a+b 1)", "(a '+' b 1)"), ("'''a\r\nb''' '''c'''", '"a\\nbc"'), ('"\\uD83D\\uDE00"', '"\U0001f600"'), ('"a\\\nb"', '"ab"'),
    ("{{'''a''' '''b'''}}", '{{"ab"}}'), ('{{ "a}}" }}', '{{"a}}"}}'), ("{{ Y Q = = }}", "{{YQ==}}"), ("[1,2,]", "[1,2]"),
    ("{'''a''' '''b''':1,\"c\":2,}", "{ab:1,c:2}"), ("x::y::1", "x::y::1"), ("null.null null.int", "null null.int"),
    ("2020-01-01T", "2020-01-01"), ("2020-01-01T00:00+00:00", "2020-01-01T00:00Z"), ("2020-01-01T00:00-00:00", "2020-01-01T00:00-00:00"),
    ("[$ion_symbol_table::{}]", "['$ion_symbol_table'::{}]"), (str(2**127 - 1), str(2**127 - 1)), (str(-2**127), str(-2**127)),
]


class Texts(unittest.TestCase):
    def test_refused(self) -> None:
        for text, at, kind in REFUSED:
            with self.subTest(text[:30]), self.assertRaises(IonError) as caught:
                ion.read(text)
            self.assertEqual((caught.exception.at, caught.exception.kind), (at, kind), text[:30])

    def test_read(self) -> None:
        for text, written in READ:
            self.assertEqual(" ".join(map(ion.write, ion.read(text))), written)

    def test_limits_of_the_writer(self) -> None:
        for value in [1.5, 2**127, Decimal("1e40000"), Decimal("nan"), "\ud800", {1, 2}]:
            with self.subTest(value), self.assertRaises((TypeError, ValueError)):
                ion.write(value)

    def test_deep_values(self) -> None:
        """Values as deep as a block may be are read, written and hashed."""
        text = "{a:" * 255 + "[]" + "}" * 255
        value = ion.read_one(text, ion.JOURNAL_DEPTH)
        self.assertEqual((ion.write(value), len(hash_value(value)), ion.to_json(value).count("{")), (text, 32, 255))

    def test_timestamps(self) -> None:
        self.assertEqual(Timestamp(2020, 1, 1, 0, 0, 0, "", 90).in_utc(), Timestamp(2019, 12, 31, 22, 30, 0, "", 0))
        self.assertEqual(Timestamp(1970, 1, 1, 0, 0, 1, "5", 60).instant(), -3_598_500_000_000)
        self.assertEqual(Timestamp.of(Timestamp(2020, 2, 3, 4, 5, 6, "070000", -90).to_datetime()), Timestamp(2020, 2, 3, 4, 5, 6, "070000", -90))

    def test_json(self) -> None:
        text = '{"a": 1.50, "a": [true, null, -3], "b": {"\u00e9": "x\\ny"}, "c": 1E+30}'
        self.assertEqual(ion.to_json(ion.from_json(text)), text)
        self.assertEqual(ion.to_json(ion.read_one("x::{s:'a b',t:2020T,c:{{\"q\"}},b:{{YQ==}},n:null.int,p:(1 2)}")),
                         '{"s": "a b", "t": "2020T", "c": "q", "b": "YQ==", "n": null, "p": [1, 2]}')
        for refused in ['{"a": NaN}', "1e40000", str(2**127)]:
            with self.subTest(refused), self.assertRaises(ValueError):
                ion.from_json(refused)


class Hashes(unittest.TestCase):
    def test_order_of_pairs(self) -> None:
        below, above = bytes(31) + b"\x80", bytes(31) + b"\x01"  # 80 is -128, which comes before 1
        self.assertEqual(dot(above, below), hashlib.sha256(below + above).digest())
        self.assertEqual((dot(b"", above), dot(above, b""), root([])), (above, above, b""))

    def test_commit_digests(self) -> None:
        made_there = subprocess.run([sys.executable, MADE_DIGESTS], capture_output=True, text=True).stdout
        line = next(line for line in made_there.splitlines() if line.startswith("1") and line.endswith("INSERT INTO t ?|[{'a': 5}]"))
        self.assertEqual(commit_digest("0000000000000000018OWG", [("INSERT INTO t ?", [{"a": 5}])]).hex(), line.split()[1])


class AgainstTheProgram(WithJournal):
    COUNT = 10_000

    def test_round_trip(self) -> None:
        """Values go to the program in free spellings, and come back in its own, with its own hashes."""
        rng = random.Random(55)
        values = [made.value(rng) for _ in range(self.COUNT)]
        batches = [values[at:at + 500] for at in range(0, len(values), 500)]
        texts = ["[" + ",".join(made.spelled(rng, value) + " " for value in batch) + "]" for batch in batches]
        for batch, text in list(zip(batches, texts))[:3]:
            self.assertEqual(ion.write(ion.read_one(text)), ion.write(batch))
        script = "".join('{statements:[{text:"SELECT VALUE ? FROM t",params:[' + text + "]}]}," for text in texts)
        self.ledger.execute("CREATE TABLE t")
        report = self.ledger.call("run", "--workers", "1", text="[" + script + "]")
        self.assertEqual(report.count("outcome:committed"), len(batches))
        for batch, line in zip(batches, self.content().decode().split("\n")[1:]):
            self.check_block(batch, line)

    def check_block(self, batch: list, line: str) -> None:
        """The program's spelling and its hash of a batch are the package's."""
        self.assertIn("parameters:[" + ion.write(batch) + "]", line)
        block = ion.read_one(line, ion.JOURNAL_DEPTH)
        self.assertEqual(ion.write(block), line)
        self.assertEqual(hash_value(block["transactionInfo"]), block["entriesHashList"][0])

    def test_faults(self) -> None:
        """A text with a fault is refused by both at the same place, with the same kind."""
        rng = random.Random(56)
        for _ in range(100):
            text = made.spelled(rng, made.value(rng)).encode()
            at = rng.randrange(len(text) + 1)
            text = text[:at] + rng.choice([b"", b"{", b"]", b"'", b'"', b"\\", b"e", b"::", b"\xc3", b"1", b"/*", b"$7"]) + text[at + rng.randrange(2):]
            self.assertEqual(self.fault_here(text), self.fault_there(text), text)

    def fault_here(self, text: bytes) -> str:
        try:
            ion.read(text)
        except IonError as error:
            return f"at:{error.at},kind:{error.kind}"
        return ""

    def fault_there(self, text: bytes) -> str:
        ended = subprocess.run([PROGRAM, self.path, "run", "--plain-ids", "--workers", "1"], input=text, capture_output=True)
        found = re.match(rb"\{status:2,fault:\{(at:\d+,kind:\w+)\}\}", ended.stdout)
        return found[1].decode() if found else ""


class Scripts(unittest.TestCase):
    def test_spellings(self) -> None:
        """What is spelled freely is read as what was spelled."""
        rng = random.Random(57)
        for _ in range(300):
            value = made.value(rng)
            text = made.spelled(rng, value)
            self.assertEqual(ion.write(ion.read_one(text)), ion.write(value), text)

    def test_script(self) -> None:
        transaction = Transaction([Statement("INSERT INTO t ?", Symbol("x")), "DROP TABLE t"], retries=0, digest=bytes(32), abort=True)
        self.assertEqual(transaction.text(), '{statements:[{text:"INSERT INTO t ?",params:[x]},"DROP TABLE t"],retries:0,digest:{{'
                         + "A" * 43 + "=}},end:abort}")


if __name__ == "__main__":
    unittest.main()
