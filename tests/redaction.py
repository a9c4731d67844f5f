#!/usr/bin/env python3
"""Makes the walk of docs/redaction.md on a larger journal: words are written, found, changed, redacted, and taken out by `compact`.

    tests/redaction.py [PROGRAM]

PROGRAM is crates/ledger/out/ledger, where `rt ci` leaves it, or another path. The new file is searched by grep for the erased
words, in text and, as an export, in Ion's binary encoding; and each published digest, each proof and each revision is tried on both
files by the program, by tools/ledger-verify and by the client's own checks. Ends with `N passed, N failed`, and with status 1
where one failed.
"""
import os
import shutil
import subprocess
import sys
import tempfile
from pathlib import Path

sys.dont_write_bytecode = True
ROOT = Path(__file__).resolve().parent.parent
PROGRAM = ROOT / "crates" / "ledger" / "out" / "ledger"
VERIFY = ROOT / "tools" / "ledger-verify"
sys.path.insert(0, str(ROOT / "clients" / "python"))
from ledger import DamagedJournal, Journal, Ledger, Refused, Statement, Struct, Timestamp, Transaction, check_lines
from ledger.checks import whole_lines
from ledger.client import WrongWords

PEOPLE = ["Ada Quillfeather", "Bo Thistledown", "Cy Marlowe", "Di Oakenshaw", "Eli Fennimore"]
ERASED = ["Quillfeather", "Mossbridge", "Fernhollow", "quill@example.org", "+44 7700 900123"]
KEPT = ["Bo Thistledown", "Cy Marlowe", "Eli Fennimore"]


class Walk:
    """A journal, the digests that are published of it, and bundles that are handed out."""

    def __init__(self, program, folder):
        self.folder, self.program = Path(folder), program
        self.old, self.new = self.folder / "people.journal", self.folder / "people.new"
        self.ledger = Ledger(self.old, program=program)
        self.published, self.bundles = [], []
        self.passed = self.failed = 0
        self.day = 0

    def holds(self, what, found):
        self.passed += bool(found)
        self.failed += not found
        if not found:
            print(f"not so: {what}")

    def commit(self, *statements, **more):
        """Commits one transaction, a day after the one before."""
        self.day += 1
        return self.ledger.run([Transaction(list(statements))], at=Timestamp(2026, 3, self.day), **more)[0]

    def publish(self):
        """Publishes the digest, and hands out a bundle of each revision since the digest before."""
        before = self.published[-1][1].tip.sequence if self.published else -1
        self.published.append((self.day, self.ledger.digest()))
        revisions = [one for one in self.ledger.read().revisions() if one.address.sequence > before]
        self.bundles += [(one, self.ledger.prove(one.address.sequence, one.index)) for one in revisions]

    # -- the journal

    def write(self):
        """Tables with an index, documents that quote the words in values, in parameters, in texts and in answers."""
        self.commit("CREATE TABLE Person", "CREATE TABLE Letter", "CREATE INDEX ON Person (Name)", seed=20260301)
        self.commit(Statement("INSERT INTO Person ?", [{"Name": name, "Town": "Elmstead"} for name in PEOPLE]))
        self.commit("UPDATE Person AS p SET p.Town = 'Mossbridge' WHERE p.Name = 'Ada Quillfeather'")
        self.commit(Statement("INSERT INTO Letter ?", {"To": "quill@example.org", "Text": b"Dear Ada Quillfeather"}))
        self.publish()
        self.commit(Statement("UPDATE Person AS p SET p.Town = ?, p.Phone = ? WHERE p.Name = ?", "Fernhollow", "+44 7700 900123", PEOPLE[0]))
        self.commit("SELECT * FROM Person AS p WHERE p.Town = 'Fernhollow'")
        self.publish()

    def erase(self):
        """Writes the words out of the latest revisions, one by a change and one by a delete, and redacts the older ones."""
        self.commit(Statement("UPDATE Person AS p SET p.Name = 'erased', p.Town = 'erased', p.Phone = 'erased' WHERE p.Name = ?", PEOPLE[0]))
        self.commit("DELETE FROM Letter")
        older = [one for one in self.ledger.read().revisions() if self.names_erased(one)]
        self.holds("four revisions have the words", len(older) == 4)
        self.commit(*[self.redaction(one) for one in older])
        self.publish()
        self.commit("SELECT p.Town FROM Person AS p WHERE p.Name = 'erased'")
        return older

    @staticmethod
    def names_erased(revision):
        text = repr(revision.data)
        return not revision.deleted and any(word in text for word in ERASED)

    @staticmethod
    def redaction(revision):
        address = Struct([("strandId", revision.address.strand), ("sequenceNo", revision.address.sequence)])
        return Statement("EXEC REDACT_REVISION ?, ?, ?", address, revision.table, revision.id)

    # -- what is looked at

    def grep(self, path, word):
        """How many lines of a file have the word, by grep, which reads it as bytes."""
        found = subprocess.run(["grep", "-a", "-c", "-F", "-e", word, str(path)], capture_output=True, env={**os.environ, "LC_ALL": "C"})
        return int(found.stdout)

    def refusals(self, older):
        """What can't be redacted: the same revision again, and a latest one."""
        latest = [one for one in self.ledger.read().rows("Person")][0]
        for revision, code in ((older[0], 17), (latest, 16)):
            try:
                self.ledger.run([Transaction([self.redaction(revision)])])
                self.holds(f"code {code}", False)
            except Refused as refused:
                self.holds(f"code {code}", refused.cause["code"] == code)

    def compact(self):
        """Writes the new file, and looks for the words in both."""
        before = self.old.read_bytes()
        self.new.write_text(self.ledger.compact(), encoding="utf-8")
        self.holds("the old file is left", self.old.read_bytes() == before)
        exported = [self.folder / "old.ion", self.folder / "new.ion"]
        for journal, export in zip((self.old, self.new), exported):
            export.write_bytes(subprocess.run([self.program, journal, "export"], capture_output=True, check=True).stdout)
        self.holds("one export", exported[0].read_bytes() == exported[1].read_bytes())
        for word in ERASED:
            self.holds(f"{word} stands in the old file", self.grep(self.old, word) > 0)
            self.holds(f"{word} is gone from the new file", self.grep(self.new, word) == 0)
            self.holds(f"{word} is in no export", self.grep(exported[0], word) == 0)
        for word in KEPT:
            self.holds(f"{word} is kept", self.grep(self.new, word) > 0)

    def compare(self, older):
        """Both files have the same blocks by their hashes, the same views, and differ in what is erased alone."""
        new = Ledger(self.new, program=self.program)
        one, other = self.ledger.read(), new.read()
        self.holds("an audit of each", new.audit() == self.ledger.audit() == check_lines(whole_lines(self.new.read_bytes())[0]))
        self.holds("the client's checks", one.damage is None and other.damage is None)
        self.holds("hashes of blocks", [block.hash for block in one.blocks] == [block.hash for block in other.blocks])
        self.holds("digests by the client", [one.digest(tip) for tip in range(len(one.blocks))] == [other.digest(tip) for tip in range(len(one.blocks))])
        for tip in (0, len(one.blocks) // 2, len(one.blocks) - 1):
            self.holds(f"digest --tip {tip}", self.ledger.digest(tip) == new.digest(tip) == other.digest(tip))
        self.holds("documents", one.documents == other.documents)
        hidden = {(revision.address, revision.id) for revision in other.revisions() if revision.data_hash is not None}
        self.holds("what has a hash in place of its data", hidden == {(revision.address, revision.id) for revision in older})
        told = [block.address.sequence for block in other.blocks if block.statements_hash is None]
        self.holds("statements after the last redaction stand", told == [len(one.blocks) - 1])
        self.holds("compact again", new.compact() == self.new.read_text(encoding="utf-8"))
        query = "SELECT h.data, h.dataHash, h.metadata FROM history(Person) AS h"
        self.holds("one answer from both", new.query(query) == self.ledger.query(query))

    def proofs(self):
        """Digests and bundles from before hold, and the new file proves each revision under each of the digests."""
        new = Ledger(self.new, program=self.program)
        for day, digest in self.published:
            self.holds(f"the digest of day {day}", new.digest(digest.tip.sequence) == digest)
        tip = self.published[0][1].tip.sequence
        for revision in new.read().revisions():
            place = (revision.address.sequence, revision.index, tip if revision.address.sequence <= tip else None)
            bundle = new.prove(*place)
            self.holds(f"both files prove alike, {place}", bundle == self.ledger.prove(*place))
            self.holds(f"no word in a proof, {place}", not any(word in bundle for word in ERASED))
            self.accepted(new, revision, bundle, "of the new file")
        for revision, bundle in self.bundles:
            self.accepted(new, revision, bundle, "from before")

    def accepted(self, ledger, revision, bundle, when):
        """A bundle is accepted by the program and by the verifier, and found in the new file."""
        what = f"{when}, revision {revision.index} of block {revision.address.sequence}"
        digest = self.folder / "digest"
        digest.write_text(bundle.split("\n", 1)[0] + "\n", encoding="utf-8")
        self.holds(f"verify, {what}", ledger.call("verify", text=bundle) == "{verified:true}\n")
        self.holds(f"extract, {what}", ledger.call("extract", text=bundle) == f"{{found:{revision.index}}}\n")
        ended = subprocess.run([sys.executable, VERIFY, "--line", digest], input=bundle.encode(), capture_output=True)
        self.holds(f"ledger-verify, {what}", ended.stdout == b"{verified:true}\n")

    def forgeries(self):
        """Data that were put back hold, others don't; a file without its redactions, and an unasked hash, are damaged."""
        lines, olds = self.new.read_bytes().splitlines(True), self.old.read_bytes().splitlines(True)
        forged = Ledger(self.folder / "forged", program=self.program)

        def told(what, content, wanted):
            (self.folder / "forged").write_bytes(b"".join(content))
            try:
                forged.audit()
                found = None
            except DamagedJournal as damaged:
                found = (damaged.fault["sequence"], str(damaged.fault["kind"]))
            own = Journal.of_lines(content).damage
            self.holds(f"{what}: {found}", found == wanted)
            self.holds(f"{what}, by the client: {own}", (own and (own.sequence, own.kind)) == wanted)

        told("lines of the old file among those of the new one", [*lines[:2], *olds[2:4], *lines[4:]], None)
        told("a front without the redactions", lines[:5], (0, "Unasked"))
        told("a changed hash", [lines[0].replace(b"statementsHash:{{", b"statementsHash:{{A", 1), *lines[1:]], (0, "NotALine"))
        last = next(at for at, line in enumerate(olds) if b"{redact:" in line)
        told("hashed statements in a front of the old file", [lines[0], *olds[1:last]], (0, "Unasked"))

    def words(self):
        """`compact` takes no words and reads no input, and a damaged journal has no compacted one."""
        try:
            self.ledger.call("compact", "1")
            self.holds("compact 1", False)
        except WrongWords:
            self.holds("compact 1", True)
        empty = Ledger(self.folder / "nothing", program=self.program)
        self.holds("compact of no journal", empty.compact() == "" and not (self.folder / "nothing").exists())

    def replace(self):
        """The new file takes the old one's place, and the next transaction goes on from it."""
        shutil.move(self.new, self.old)
        digest = self.ledger.digest()
        outcome = self.commit(Statement("UPDATE Person AS p SET p.Town = 'Ashcombe' WHERE p.Name = ?", PEOPLE[1]))
        self.holds("the next block", outcome.block == digest.tip.sequence + 1)
        self.holds("the digest from before", self.ledger.digest(digest.tip.sequence) == digest)
        again = next(one for one in self.ledger.read().revisions() if "Thistledown" in repr(one.data))
        self.commit(self.redaction(again))
        self.old.write_text(self.ledger.compact(), encoding="utf-8")
        self.holds("a second redaction, compacted", self.ledger.audit().blocks == self.ledger.read().digest().tip.sequence + 1)
        told = [block.address.sequence for block in self.ledger.read().blocks if block.statements_hash is None]
        self.holds("no statements are left", told == [])


def main():
    program = os.path.abspath(sys.argv[1] if len(sys.argv) > 1 else PROGRAM)
    with tempfile.TemporaryDirectory() as folder:
        walk = Walk(program, folder)
        walk.write()
        older = walk.erase()
        walk.refusals(older)
        walk.compact()
        walk.compare(older)
        walk.proofs()
        walk.forgeries()
        walk.words()
        walk.replace()
    print(f"{walk.passed} passed, {walk.failed} failed")
    return 1 if walk.failed else 0


sys.exit(main())
