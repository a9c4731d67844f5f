"""The client: statuses and outcomes as exceptions, expected rows, digests, a busy journal, and what a crash left."""
from __future__ import annotations

import fcntl
import os
import subprocess
import threading
import time
import unittest

from common import AT, PROGRAM, WithJournal
from ledger import (
    BusyJournal, Conflict, DamagedJournal, Ledger, NotVerified, Outcome, Refused, RestWarning, Statement, Struct, Transaction, UnexpectedRows, client, ion,
)
from ledger.ids import Id
from ledger.journal import fronts


class Outcomes(WithJournal):
    def test_committed(self) -> None:
        self.ledger.execute("CREATE TABLE t", digests=True)
        made = self.ledger.execute("INSERT INTO t ?", {"a": 1, "b": ion.read_one("12.50")}, digests=True)
        self.assertEqual(len(made), 1)
        self.assertEqual(self.ledger.query("SELECT * FROM t AS d WHERE d.a = ?", 1, expect_rows=1), [{"a": 1, "b": ion.read_one("12.50")}])
        self.assertEqual((self.ledger.tip(), self.ledger.audit()), (1, (2, 1)))
        self.ledger.verify(self.ledger.prove(1, 0))
        self.assertEqual(self.ledger.read().digest(), self.ledger.digest())

    def test_expected_rows(self) -> None:
        """What has other rows than expected leaves no block, on an empty journal and on another one."""
        with self.assertRaises(UnexpectedRows):
            self.ledger.execute("CREATE TABLE t", expect_rows=2)
        self.assertFalse(os.path.exists(self.path))
        self.ledger.execute("CREATE TABLE t", expect_rows=1)
        self.ledger.execute("INSERT INTO t ?", {"a": 1}, expect_rows=1)
        before = self.content()
        with self.assertRaises(UnexpectedRows) as caught:
            self.ledger.execute("UPDATE t AS d SET d.b = 1 WHERE d.a = ?", 2, expect_rows=1)
        self.assertEqual((caught.exception.rows, self.content()), ([], before))

    def test_refused(self) -> None:
        with self.assertRaises(Refused) as caught:
            self.ledger.execute("SELECT * FORM t")
        self.assertEqual((caught.exception.statement, caught.exception.cause), (1, {"code": 1, "at": 9, "kind": "Unexpected"}))
        report = self.ledger.run([Transaction(["CREATE TABLE t"], abort=True), Transaction(["DROP TABLE t"])], check=False)
        self.assertEqual([outcome.outcome for outcome in report], ["aborted", "refused"])
        self.ledger.run([Transaction(["CREATE TABLE t"], abort=True)])

    def test_digests(self) -> None:
        """The digest of another transaction is refused; that of the next one can be told beforehand."""
        self.ledger.execute("CREATE TABLE t")
        with self.assertRaises(client.DigestDiffers):
            self.ledger.run([Transaction(["SELECT * FROM t"], digest=bytes(32))])
        ahead = client.ahead_of(self.path, 0)
        outcome = self.ledger.run([Transaction(["SELECT * FROM t"])])[0]
        self.assertEqual(outcome.transaction_id, ahead.transaction_id(1))
        self.assertEqual(Id.of(outcome.transaction_id or "", ahead.mask), Id(2, 0))

    def test_other_outcomes(self) -> None:
        """Lines of reports, as docs/formats.md has them."""
        wanted = {
            'conflict,tx:"x",since:3,block:3,item:{kind:table_list}}': Conflict, 'store_fault,tx:"x",count:1}': client.StoreFault,
            'journal_full,tx:"x",blocks:9}': client.JournalFull, "ids_spent,last:9}": client.IdsSpent,
            'aborted,tx:"x",since:1}': client.Aborted, "out_of_memory}": client.TransactionOutOfMemory,
            'denied,statement:1,action:PartiQLInsert,table:"t",rule:null}': client.Denied,
        }
        for text, error in wanted.items():
            outcome = Outcome.of(ion.read_one("{session:1,transaction:1,outcome:" + text))
            with self.subTest(text), self.assertRaises(error):
                client.check_report([[Transaction(["x"])]], [outcome])


class Statuses(WithJournal):
    def test_statuses(self) -> None:
        with self.assertRaises(client.WrongWords):
            self.ledger.call("frobnicate")
        with self.assertRaises(client.WrongInput) as caught:
            self.ledger.digest()
        self.assertEqual(caught.exception.fault, {"kind": "NoSuchBlock", "sequence": 0, "blocks": 0})
        with self.assertRaises(NotVerified) as refused:
            self.ledger.verify("5")
        self.assertEqual(refused.exception.fault, {"code": 1, "field": "count"})
        self.put(b"Dear Ada,\n")
        with self.assertRaises(DamagedJournal) as damaged:
            self.ledger.audit()
        self.assertEqual(damaged.exception.fault, {"sequence": 0, "kind": "NotALine"})

    def test_no_journal(self) -> None:
        """Files that can't be served are told at once."""
        self.put(b"Dear Ada, how are you?")
        started = time.monotonic()
        for path in [self.path, self.folder]:
            with self.assertRaises(client.StoreFailed) as caught:
                Ledger(path, PROGRAM, timeout=60).audit()
            self.assertNotIsInstance(caught.exception, BusyJournal)
        self.assertLess(time.monotonic() - started, 30)

    def test_busy(self) -> None:
        self.ledger.run([Transaction(["CREATE TABLE t"])], at=AT)
        held = open(self.path, "rb")
        self.addCleanup(held.close)
        fcntl.flock(held, fcntl.LOCK_EX)
        with self.assertRaises(BusyJournal):
            Ledger(self.path, PROGRAM, timeout=0.05).audit()
        threading.Timer(0.3, lambda: fcntl.flock(held, fcntl.LOCK_UN)).start()
        self.assertEqual(self.ledger.audit(), (1, 0))


class Rests(WithJournal):
    """Bytes after the last line feed are warned of before a run, and not before a run on a copy."""

    def warned(self) -> list[str]:
        words: list[str] = []
        ledger = Ledger(self.path, PROGRAM, timeout=20, warn=words.append)
        ledger.query("SELECT * FROM t")
        self.assertEqual(words, [])
        ledger.run([Transaction(["SELECT * FROM t"], abort=True)], check=False)
        return words

    def test_rests(self) -> None:
        self.ledger.execute("CREATE TABLE t")
        self.ledger.execute("INSERT INTO t ?", {"a": 1})
        whole = self.content()
        self.assertEqual(self.warned(), [])
        for size in [1, 100_000]:
            self.put(whole + b"x" * size)
            self.assertEqual(len(self.warned()), 1)
        self.put(whole[:-1])
        words = self.warned()
        self.assertIn("a whole block without its line feed", words[0])
        self.assertIn(f"{len(whole.splitlines()[1])} bytes after the last line feed", words[0])
        self.put(whole + b"{block")
        with self.assertWarns(RestWarning) as caught:
            self.ledger.execute("SELECT * FROM t")
        self.assertEqual(os.path.basename(caught.filename), "client.py")  # `execute`, which calls `run`
        self.assertEqual(self.warned(), [])

    def test_fronts(self) -> None:
        """What is taken from the fixed front of a line is what the reading of the whole line gives."""
        for number in range(3):
            self.ledger.run([Transaction([f"CREATE TABLE t{number}"]), Transaction([Statement(f"INSERT INTO t{number} ?", {"transactionInfo": "{place:"})])])
        self.put(self.content() + b"{blockAddress")
        blocks = self.ledger.read().blocks
        self.assertEqual(list(fronts(self.path)), [(block.address, block.transaction_id, block.hash, block.place) for block in blocks])
        self.assertEqual(len(blocks), 6)


class Recovery(WithJournal):
    def test_crash(self) -> None:
        """A run that is killed: what its blocks say of the script is what is committed, and the rest can be run."""
        self.ledger.execute("CREATE TABLE t")
        tip = self.ledger.tip()
        script = [[Transaction([Statement("INSERT INTO t ?", {"s": s, "n": n})]) for n in range(40)] for s in range(2)]
        running = subprocess.Popen([PROGRAM, self.path, "run", "--workers", "1"], stdin=subprocess.PIPE, stdout=subprocess.DEVNULL)
        running.stdin.write(client.script_text(script).encode())
        running.stdin.close()
        while running.poll() is None and (self.ledger.tip() or 0) < 3:
            time.sleep(0.001)
        running.kill()
        running.wait()
        found = self.ledger.recover(*script, tip=tip)
        blocks = (self.ledger.tip() or 0) - (tip or 0)
        self.assertEqual((len(found.committed), len(found.left)), (blocks, 80 - blocks))
        self.ledger.run([script[place.session - 1][place.transaction - 1] for place in found.left])
        rows = self.ledger.query("SELECT d.s, d.n FROM t AS d")
        self.assertEqual(sorted((row["s"], row["n"]) for row in rows), [(s, n) for s in range(2) for n in range(40)])

    def test_of_another_script(self) -> None:
        """A block of the same place with other statements isn't taken for the script's."""
        self.ledger.run([Transaction(["CREATE TABLE t"])])
        self.assertEqual(self.ledger.recover([Transaction(["CREATE TABLE u"])]).committed, {})
        self.assertEqual(list(self.ledger.recover([Transaction(["CREATE TABLE t"])]).committed), [(1, 1)])
        self.assertEqual(self.ledger.recover([Transaction(["CREATE TABLE t"])], tip=0).committed, {})


class Calls(unittest.TestCase):
    def test_words(self) -> None:
        with self.assertRaises(TypeError):
            Ledger("j").execute()
        with self.assertRaises(TypeError):
            Ledger("j").execute(Statement("x"), "y")
        with self.assertRaises(ValueError):
            Ledger("j").run([Transaction(["x"])], workers=2, digests=True)

    def test_structs(self) -> None:
        row = Struct([("a", 1), ("a", 2), ("b", None)])
        self.assertEqual((row["a"], row.all("a"), row.get("c", 3), "b" in row, len(row)), (1, [1, 2], 3, True, 3))
        self.assertNotEqual(row, {"a": 1, "b": None})


if __name__ == "__main__":
    unittest.main()
