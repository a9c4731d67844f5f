"""ledger-view, ledger-shell and the page, on a small registry."""
from __future__ import annotations

import contextlib
import csv
import fcntl
import io
import json
import os
import shutil
import subprocess
import unittest.mock

from common import PROGRAM, WithJournal, vectors
from ledger import Journal, Ledger, Statement, Timestamp, Transaction, ion, shell, view
from ledger.page import page, read_text

CARS = [{"vin": "A1", "owner": "Ada", "price": ion.read_one("12.50")}, {"vin": "B2", "owner": "Eve", "note": "a,\"b\"\n</script>\u202e"}]
RUNS = [
    ("2024-01-02T09:00:00Z", ["CREATE TABLE cars", "CREATE INDEX ON cars (vin)"]),
    ("2024-01-02T10:00:00Z", [Statement("INSERT INTO cars ?", CARS)]),
    ("2024-03-05T12:00:00Z", [Statement("UPDATE cars AS c SET c.owner = ? WHERE c.vin = ?", "Grace", "A1")]),
    ("2024-06-01T08:00:00Z", [Statement("DELETE FROM cars AS c WHERE c.vin = ?", "B2")]),
]


class Registry(WithJournal):
    made = b""  # the journal of RUNS, which is made once

    def setUp(self) -> None:
        super().setUp()
        if Registry.made:
            self.put(Registry.made)
        else:
            for at, statements in RUNS:
                self.ledger.run([Transaction(statements)], at=at, plain_ids=True)
            Registry.made = self.content()
        self.before = Registry.made

    def tearDown(self) -> None:
        self.assertEqual(self.content(), self.before)  # none of the tools wrote into it, unless a test says so

    def view(self, *words: str, status: int = 0) -> str:
        out = io.StringIO()
        with contextlib.redirect_stderr(io.StringIO()):
            self.assertEqual(view.main([self.path, *words], out), status)
        return out.getvalue()


class Views(Registry):
    def test_tables_and_blocks(self) -> None:
        self.assertRegex(self.view("tables"), r"^cars +\w{22} made in block 0, 1 document, indexes: vin\n$")
        blocks = self.view("blocks", "--from", "2", "--to", "2").splitlines()
        self.assertEqual(len(blocks), 2)
        self.assertIn('SET c.owner = ? WHERE c.vin = ? with "Grace" "A1" -> 1 row', blocks[1])

    def test_documents(self) -> None:
        self.assertEqual(len(self.view("rows", "cars").splitlines()), 1)
        self.assertEqual(len(self.view("rows", "cars", "--at", "2024-05").splitlines()), 2)
        self.assertEqual(self.view("rows", "cars", "--at", "2023T"), "")
        self.assertEqual(self.view("rows", self.ledger.read().table("cars").id), self.view("rows", "cars"))
        self.assertIn('owner:"Ada"', self.view("rows", "cars", "--at", "2024-03-05T11:59:59Z"))
        self.assertEqual(json.loads(self.view("json", "cars")), [{"vin": "A1", "owner": "Grace", "price": 12.5}])
        self.assertIn('"price": 12.50', self.view("json", "cars"))
        rows = list(csv.reader(io.StringIO(self.view("csv", "cars", "--at", "2024-02T"))))
        self.assertEqual(rows, [["vin", "owner", "price", "note"], ["A1", "Ada", "12.50", ""], ["B2", "Eve", "", CARS[1]["note"]]])

    def test_history(self) -> None:
        lines = self.view("history", "cars", "vin", "A1").splitlines()
        self.assertEqual([line.split()[:5] for line in lines], [["2024-01-02T10:00:00.000Z", "block", "1", "index", "0"],
                                                                ["2024-03-05T12:00:00.000Z", "block", "2", "index", "0"]])
        self.assertEqual(self.view("history", "cars", "vin", "A1", "--at", "2024-02T").splitlines(), lines[:1])
        self.assertEqual(self.view("history", "cars", "owner", '"Ada"').splitlines(), lines)
        self.assertEqual(self.view("history", "cars", "price", "12.5").splitlines(), lines)
        document = lines[0].split()[5]
        self.assertEqual(self.view("history", "cars", "--id", document).splitlines(), lines)
        self.assertEqual(self.view("find", document, "1"), "2 0\n")
        self.assertIn("DELETED", self.view("history", "cars", "vin", "B2"))
        self.assertIn("\\u202e", self.view("history", "cars", "vin", "B2"))
        self.ledger.verify(self.ledger.prove(*map(int, self.view("find", document, "1").split())))

    def test_refused(self) -> None:
        for words in [["rows", "trucks"], ["history", "cars", "vin", "C3"], ["history", "cars"], ["find", "x"], ["frobnicate"], ["rows", "cars", "--at", "x"]]:
            with self.subTest(words):
                self.view(*words, status=1)
        with contextlib.redirect_stderr(io.StringIO()) as said:
            self.assertEqual(view.main([self.path + "x", "check"]), 5)
        self.assertIn("no file", said.getvalue())

    def test_digests(self) -> None:
        """Published digests in files, one or many, against the journal."""
        journal = self.ledger.read()
        good, bad, later = (os.path.join(self.folder, name) for name in ("good", "bad", "later"))
        for path, digests in [(good, [journal.digest(tip) for tip in range(4)]), (bad, [journal.digest(1)._replace(digest=bytes(32))]),
                              (later, [journal.digest()._replace(tip=journal.digest().tip._replace(sequence=9))])]:
            with open(path, "w", encoding="utf-8") as file:
                file.writelines(ion.write(digest.value()) + "\n" for digest in digests)
        self.assertIn("4 agree, 0 differ", self.view("digests", good))
        self.assertIn("tip 9 DIFFERS: the journal has 4 blocks", self.view("digests", good, bad, later, status=7))
        self.view("digests", self.path, status=2)

    def test_beside_a_run(self) -> None:
        """A journal that a run has alone, and that may only be read, is shown all the same."""
        shown = self.view("blocks")
        os.chmod(self.path, 0o444)
        with open(self.path, "rb") as held:
            fcntl.flock(held, fcntl.LOCK_EX)
            self.assertEqual(self.view("blocks"), shown)
            self.assertIn("4 agree", self.view("digests", self.published()))
        os.chmod(self.path, 0o644)

    def published(self) -> str:
        """A file of the digests of all blocks."""
        journal, path = self.ledger.read(), os.path.join(self.folder, "published")
        with open(path, "w", encoding="utf-8") as file:
            file.writelines(ion.write(journal.digest(tip).value()) + "\n" for tip in range(len(journal.blocks)))
        return path

    def test_damage(self) -> None:
        """What stands before the damage is shown, and the status says that there is one."""
        self.put(self.before.replace(b"Grace", b"Gracf", 1))
        self.assertEqual(self.view("check", status=3), "2 blocks and 2 revisions, before the damage\n")
        self.put(self.before + b"{blockAddress")
        self.assertIn("13 bytes after the last line", self.view("check"))
        self.put(self.before)


class Shells(Registry):
    def shell(self, text: str, status: int = 0) -> str:
        out = io.StringIO()
        found = shell.Shell(Ledger(self.path, PROGRAM, 20), out).run(io.StringIO(text))
        self.assertEqual(found, status, out.getvalue())
        return out.getvalue()

    def test_select_leaves_no_block(self) -> None:
        self.assertIn('owner:"Grace"', self.shell("-- who\nSELECT * -- ;\nFROM cars AS c\nWHERE c.vin <> ';';"))
        self.assertIn("made in block 0", self.shell("\\d\n\\h cars vin A1 2024-02T\n\\q\nnever"))

    def test_faults(self) -> None:
        said = self.shell("SELECT *\n  FORM cars;\nSELECT * FROM trucks; INSERT INTO cars 5;\nCOMMIT;\nSELECT 1", 1)
        for words in ["Unexpected, line 2 column 3\n    FORM cars\n    ^\n", "no table trucks", "a document is a struct, and not Int", "no transaction is open", "has no ;"]:
            self.assertIn(words, said)

    def test_transactions(self) -> None:
        said = self.shell("BEGIN; INSERT INTO cars {'vin': 'C3'}; SELECT * FROM cars; ABORT;")
        self.assertIn('{vin:"C3"}', said)
        self.shell("BEGIN; INSERT INTO cars {'vin': 'C3'};", 1)
        self.assertEqual(self.content(), self.before)
        said = self.shell("BEGIN; INSERT INTO cars {'vin': 'C3'}; SELECT * FROM trucks; UPDATE cars AS c SET c.owner = 'Kay' WHERE c.vin = 'C3'; COMMIT;", 1)
        self.assertIn("committed in block 4", said)
        block = self.ledger.read().blocks[4]
        self.assertEqual(([revision.data for revision in block.revisions], len(block.statements)), ([{"vin": "C3", "owner": "Kay"}], 2))
        self.assertIn("committed in block 5", self.shell("DELETE FROM cars AS c WHERE c.vin = 'C3';"))
        self.put(self.before)

    def test_interrupted(self) -> None:
        """Ctrl-C drops the statement that is being typed, and neither the shell nor the open transaction."""
        typed = iter(["BEGIN;", "INSERT INTO cars", KeyboardInterrupt(), "SELECT COUNT(*) FROM cars;", "\\q"])
        out = io.StringIO()
        terminal = unittest.mock.Mock(isatty=lambda: True)
        with unittest.mock.patch("builtins.input", side_effect=typed), contextlib.redirect_stdout(io.StringIO()):
            status = shell.Shell(Ledger(self.path, PROGRAM, 20), out).run(terminal)
        self.assertEqual(status, 1, out.getvalue())
        self.assertRegex(out.getvalue(), r"^  \{_1:1\}\n  \(1 row\)\n  \(not committed yet\)\nthe open transaction was dropped\n$")

    def test_rest(self) -> None:
        """Bytes after the last line feed are warned of before the run that cuts them off."""
        self.put(self.before + b"{block")
        for text, count in [("SELECT * FROM cars;", 0), ("SELECT * FROM cars; CREATE TABLE vans;", 1)]:
            with contextlib.redirect_stderr(io.StringIO()) as said:
                out = io.StringIO()
                self.assertEqual(shell.main([self.path, "--program", PROGRAM], io.StringIO(text), out), 0, out.getvalue())
            self.assertEqual(said.getvalue().count("6 bytes after the last line feed"), count)
        self.assertTrue(self.content().startswith(self.before + b"{blockAddress:{"))
        self.put(self.before)


SCRIPT = """
const fs = require("fs"), vm = require("vm");
const html = fs.readFileSync(process.argv[1], "utf8");
const part = (id) => html.split(`id="${id}">`)[1].split("</script>")[0];
const task = `
  const journal = new LedgerJournal.Journal();
  let damage = null;
  for (const line of LINES) {
    try { journal.take(line); } catch (fault) { damage = fault.message; break; }
  }
  JSON.stringify({ blocks: journal.blocks.length, documents: journal.documents.size, damage, unasked: journal.unasked(),
    digests: journal.blocks.map((block) => journal.digest(block.sequence)), agrees: journal.blocks.length ? journal.compare(journal.digest(0)) : [] })`;
const lines = JSON.parse(part("journal")).lines;
process.stdout.write(vm.runInNewContext(part("verifier") + part("page") + task, { LINES: lines, TextEncoder, TextDecoder, Uint8Array }));
"""


class Pages(Registry):
    def run_page(self, text: str) -> dict:
        """What the page's scripts find of the journal in the page, run without a browser."""
        node = shutil.which("node")
        if node is None:
            self.skipTest("there is no node")
        path = os.path.join(self.folder, "page.html")
        with open(path, "w", encoding="utf-8") as file:
            file.write(text)
        return json.loads(subprocess.run([node, "-e", SCRIPT, path], capture_output=True, check=True, text=True).stdout)

    def test_page(self) -> None:
        journal = self.ledger.read()
        text = page(journal, "cars")
        found = self.run_page(text)
        self.assertEqual((found["blocks"], found["documents"], found["damage"], found["agrees"]), (4, 2, None, [[0, True]]))
        self.assertEqual(found["digests"], [ion.write(journal.digest(tip).value()) for tip in range(4)])
        for old, new, words in [("Grace", "Gracf", "said and did"), ("sequenceNo:2", "sequenceNo:3", "another number"), ("12:00:00.000Z", "12:00:00Z", "")]:
            found = self.run_page(text.replace(old, new, 1))
            self.assertEqual(found["blocks"], 2)
            self.assertIn(words, found["damage"])

    def test_compacted(self) -> None:
        """A compacted journal holds in the page, and a hash that no block asks for is found."""
        whole = {row["name"]: row for row in vectors("journals")["whole"]}
        lines, digests = whole["compacted"]["lines"], whole["erased"]["digests"]
        text = page(Journal.of_lines(line.encode() + b"\n" for line in lines), "compacted")
        found = self.run_page(text)
        self.assertEqual((found["blocks"], found["damage"], found["unasked"], found["digests"]), (7, None, -1, digests))
        told = json.dumps(whole["erased"]["lines"][0])[1:-1]
        self.assertEqual(self.run_page(text.replace(json.dumps(lines[0])[1:-1], told))["unasked"], -1)
        for old in lines[5:]:
            text = text.replace(", " + json.dumps(old), "")
        self.assertEqual([self.run_page(text)[name] for name in ("blocks", "damage", "unasked")], [5, None, 0])

    def test_without_a_network(self) -> None:
        text = page(self.ledger.read(), "cars")
        self.assertIn("default-src 'none'", text)
        self.assertNotIn("</script>\u202e", text)
        self.assertIn("not proved", text)
        self.assertNotRegex(read_text(os.path.join(os.path.dirname(view.__file__), "page.js")), "innerHTML|fetch|XMLHttp|import ")


class Words(Registry):
    def test_times_and_values(self) -> None:
        self.assertEqual([view.time_of(word) for word in ["2024-01-31", "2024-01", "2024"]], [Timestamp(2024, 1, 31), Timestamp(2024, 1), Timestamp(2024)])
        self.assertEqual([view.value_of(word) for word in ["5", "A-1", "1N4", '"x y"', "x y"]], [5, "A-1", "1N4", "x y", "x y"])
