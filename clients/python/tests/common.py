"""What the tests share: the program's path, and folders with a journal."""
from __future__ import annotations

import json
import os
import tempfile
import unittest
from typing import Any

from ledger import Ledger

HERE = os.path.dirname(os.path.abspath(__file__))
ROOT = os.path.dirname(os.path.dirname(os.path.dirname(HERE)))
PROGRAM = os.environ.get("LEDGER_PROGRAM", os.path.join(ROOT, "crates", "ledger", "out", "ledger"))
AT = "2020-01-01T00:00:00.000Z"


def vectors(name: str) -> Any:
    """The vectors of a file of docs/vectors."""
    with open(os.path.join(ROOT, "docs", "vectors", name + ".json"), encoding="utf-8") as file:
        return json.load(file)


class WithJournal(unittest.TestCase):
    """A test with a folder, and a ledger over a journal in it that isn't there yet."""

    def setUp(self) -> None:
        folder = tempfile.TemporaryDirectory()
        self.addCleanup(folder.cleanup)
        self.folder = folder.name
        self.path = os.path.join(folder.name, "journal")
        self.ledger = Ledger(self.path, PROGRAM, timeout=20)

    def content(self) -> bytes:
        """The bytes of the journal's file."""
        with open(self.path, "rb") as file:
            return file.read()

    def put(self, content: bytes) -> None:
        """Replaces the journal's file."""
        with open(self.path, "wb") as file:
            file.write(content)
