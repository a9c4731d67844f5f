"""The examples in the modules' own words, and those of the package's page."""
from __future__ import annotations

import contextlib
import doctest
import importlib
import io
import os
import pkgutil
import re
import textwrap
import unittest
from collections.abc import Callable
from typing import Any

import ledger
from common import PROGRAM, ROOT, WithJournal
from ledger import Statement, Transaction

PAGE = os.path.join(ROOT, "clients", "python", "README.md")


def load_tests(loader: unittest.TestLoader, tests: unittest.TestSuite, pattern: object) -> unittest.TestSuite:
    """A test for each module of the package, beside those of this file."""
    for found in pkgutil.iter_modules(ledger.__path__, "ledger."):
        tests.addTests(doctest.DocTestSuite(importlib.import_module(found.name)))
    tests.addTests(doctest.DocTestSuite(ledger))
    return tests


class OfEachModule(unittest.TestCase):
    def test_examples(self) -> None:
        """Each module's words have an example, as Python or as a command."""
        for found in pkgutil.iter_modules(ledger.__path__, "ledger."):
            with self.subTest(found.name):
                words = importlib.import_module(found.name).__doc__ or ""
                self.assertRegex(words, r"(?m)^    (>>> |ledger|from ledger )")


class OfThePage(WithJournal):
    def blocks(self) -> list[str]:
        """The blocks of Python on the page, in order."""
        with open(PAGE, encoding="utf-8") as file:
            found = re.findall(r"(?:^    .*\n(?:\n(?=    ))?)+", file.read(), re.M)
        return [textwrap.dedent(block) for block in found if "ledger." in block or "import Journal" in block]

    def test_page(self) -> None:
        """The page's blocks one after the other, on one journal: their output, and the one exception."""
        first, guarded, recovered, read = self.blocks()
        names: dict[str, Any] = {}
        first = first.replace("accounts.journal", self.path).replace("crates/ledger/out/ledger", PROGRAM)
        self.assertEqual(self.said(first, names), "Ada 12.50\n")
        with self.assertRaises(ledger.UnexpectedRows):
            self.said(guarded, names)
        names["session"] = [Transaction([Statement("INSERT INTO accounts ?", {"owner": "Eve"})]), Transaction(["SELECT * FROM none"])]
        names["ledger"].run = dies_after(names["ledger"].run)
        said = self.said(recovered, names)
        self.assertEqual(said, "committed: [Place(session=1, transaction=1)] not committed: [Place(session=1, transaction=2)]\n")
        said = self.said(read.replace("accounts.journal", self.path).replace("Timestamp(2024, 1, 31)", "None"), names)
        self.assertRegex(said, r"""^\w{22} 0 Struct.*'Ada'.*\n\w{22} 0 Struct.*'Eve'.*\nDigest\(.*\) None\n$""")

    def said(self, block: str, names: dict[str, Any]) -> str:
        """What a block prints."""
        with contextlib.redirect_stdout(io.StringIO()) as out:
            exec(block, names)
        return out.getvalue()


def dies_after(run: Callable[..., Any]) -> Callable[..., Any]:
    """A run whose report is lost."""
    def died(*sessions: Any) -> None:
        run(*sessions, check=False)
        raise OSError("the report was lost")

    return died
