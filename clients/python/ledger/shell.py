"""`ledger-shell JOURNAL [--program PATH]` runs statements as they are typed, each ended by a `;`.

A SELECT by itself runs on a copy of the journal and leaves no block. Any other statement is a transaction of its own,
which is committed. Between BEGIN and COMMIT each statement is tried on a copy, behind those before it, and its answer
is shown; COMMIT runs them all as one transaction, and ABORT drops them. It isn't proved; what the program commits is.

    ledger> SELECT * FORM accounts;
    refused: no statement of the language: Unexpected, line 1 column 10
      SELECT * FORM accounts
               ^

    \\d                             the tables
    \\h TABLE FIELD VALUE [TIME]    the history of documents, up to the end of a time
    \\q                             ends the shell, as the end of the input does
    Ctrl-C                          drops what was typed of a statement; an open transaction stays open

    >>> split("SELECT ';' FROM t; COMM")
    ("SELECT ';' FROM t", ' COMM')
    >>> split("SELECT ';' FROM t") is None
    True
"""
from __future__ import annotations

import argparse
import contextlib
import os
import re
import shutil
import sys
from collections.abc import Sequence
from typing import IO, Optional

from . import view
from .causes import cause_text, outcome_words
from .client import Ledger, LedgerError, NotCommitted, Refused, Statement, Transaction
from .ion import Value
from .journal import rest_words
from .view import counted, printable, shown

# strings, quoted names, Ion literals and comments, in which a `;` ends nothing
_TOKEN = re.compile(r"""'[^']*'|"[^"]*"|`[^`]*`|--[^\n\r]*(?=[\n\r])|[^'"`;-]+|-(?!-)|;""")
_FRONT = re.compile(r"(?:\s|--[^\n\r]*(?:[\n\r]|\Z))*([A-Za-z]*)")
INTERRUPTED = "\n\n"  # no line of a terminal has two line feeds
HELP = "statements end with ;   BEGIN; COMMIT; ABORT;   \\d tables   \\h TABLE FIELD VALUE [TIME] history   \\q quit"


def split(text: str) -> Optional[tuple[str, str]]:
    """The first statement of a text without its `;`, and the text after it; `None` if none is ended."""
    at = 0
    while (found := _TOKEN.match(text, at)) is not None:
        if found[0] == ";":
            return text[:at], text[found.end():]
        at = found.end()
    return None


def first_word(text: str) -> str:
    """The first word of a statement in capitals, comments apart."""
    return _FRONT.match(text)[1].upper()


def is_blank(text: str) -> bool:
    """Whether white space and comments alone stand in a text."""
    return _FRONT.match(text).end() == len(text) and not first_word(text)


class Shell:
    """The state of a shell: the statements of the open transaction, if one is open, and whether anything failed."""

    def __init__(self, ledger: Ledger, out: IO[str]) -> None:
        self.ledger = ledger
        self.out = out
        self.open: Optional[list[Statement]] = None
        self.failed = False

    def say(self, text: str) -> None:
        """Writes a line."""
        print(text, file=self.out)

    def fail(self, text: str) -> None:
        """Writes a line, and has the shell end with status 1."""
        self.failed = True
        self.say(text)

    def take(self, text: str) -> None:
        """Does one statement, without its `;`."""
        word = first_word(text)
        text = text.strip()
        if is_blank(text):
            return
        if word in ("BEGIN", "COMMIT", "ABORT") and text.upper().endswith(word):
            self.control(word)
            return
        try:
            if self.open is not None:
                self.try_in_transaction(text)
            elif word == "SELECT":
                self.rows(self.ledger.query(text))
            else:
                self.commit([Statement(text)])
        except LedgerError as error:
            self.explain(error, [text] if self.open is None else [s.text for s in self.open] + [text])

    def control(self, word: str) -> None:
        """BEGIN, COMMIT or ABORT."""
        if (word == "BEGIN") == (self.open is not None):
            self.fail("a transaction is open already" if word == "BEGIN" else "no transaction is open; BEGIN; opens one")
            return
        statements, self.open = self.open or [], [] if word == "BEGIN" else None
        if word == "COMMIT" and statements:
            try:
                self.commit(statements)
            except LedgerError as error:
                self.explain(error, [statement.text for statement in statements])
        elif word != "BEGIN":
            self.say("nothing was committed")

    def try_in_transaction(self, text: str) -> None:
        """Shows the answer of a statement after those of the open transaction, and takes it unless it is refused."""
        statements = [*(self.open or []), Statement(text)]
        with self.ledger.copy() as copied:
            self.rows(copied.execute(*statements))
        self.open = statements
        self.say("  (not committed yet)")

    def commit(self, statements: Sequence[Statement]) -> None:
        """Runs statements as one transaction, and shows the answer of the last one and the block."""
        outcome = self.ledger.run([Transaction(statements)])[0]
        self.rows(outcome.answers[-1])
        self.say(f"  committed in block {outcome.block}")

    def rows(self, rows: Sequence[Value]) -> None:
        """Shows an answer, a row a line, and how many rows it has."""
        for row in rows:
            self.say("  " + shown(row))
        self.say(f"  ({counted(len(rows), 'row')})")

    def explain(self, error: LedgerError, texts: list[str]) -> None:
        """Says what went wrong with statements of these texts."""
        if isinstance(error, Refused):
            self.fail(cause_text(error.cause, texts[error.statement - 1]))
        elif isinstance(error, NotCommitted):
            self.fail(f"not committed: {outcome_words(os.fspath(self.ledger.journal), error.outcome)}")
        else:
            self.fail(f"ledger: {printable(str(error))}")

    def command(self, line: str) -> bool:
        """Does a command that begins with a backslash. Returns whether the shell goes on."""
        word, *more = line[1:].split() or [""]
        if word == "q":
            return False
        path = os.fspath(self.ledger.journal)
        if word == "d" and not more:
            self.failed |= view.main([path, "tables"], self.out) != 0
        elif word == "h" and len(more) in (3, 4):
            at = ["--at", more[3]] if len(more) == 4 else []
            self.failed |= view.main([path, "history", *more[:3], *at], self.out) != 0
        else:
            self.say(HELP)
        return True

    def run(self, source: IO[str]) -> int:
        """Reads statements and commands to the end of the source, and returns the status."""
        text = ""
        while line := self.next_line(source, text):
            if line == INTERRUPTED:
                text = ""
                continue
            if is_blank(text) and line.startswith("\\"):
                text = ""
                if not self.command(line):
                    break
                continue
            text += line
            while (found := split(text)) is not None:
                self.take(found[0])
                text = found[1].lstrip()
        if not is_blank(text):
            self.fail("the last statement has no ; and wasn't run")
        if self.open:
            self.fail("the open transaction was dropped")
        return 1 if self.failed else 0

    def next_line(self, source: IO[str], text: str) -> str:
        """The next line, with a prompt if the source is a terminal; empty at the end."""
        if not source.isatty():
            return source.readline()
        return read_line(("ledger> " if self.open is None else "ledger* ") if not text else "     -> ")


def read_line(prompt: str) -> str:
    """A line from a terminal, empty at its end, and `INTERRUPTED` if Ctrl-C was typed in it."""
    try:
        return input(prompt) + "\n"
    except EOFError:
        print()
        return ""
    except KeyboardInterrupt:
        print()
        return INTERRUPTED


def warn_on_error(words: str) -> None:
    """Writes a warning on standard error."""
    print(f"warning: {printable(words)}", file=sys.stderr)


def warn_of_rest(path: str) -> None:
    """Warns on standard error of bytes after the last line feed of a journal, if there are any."""
    rest = rest_words(path)
    if rest is not None:
        warn_on_error(rest)


def program_path() -> str:
    """The program: that of the environment's LEDGER, that of this repository, or the one on the path."""
    here = os.path.dirname(os.path.dirname(os.path.dirname(os.path.dirname(os.path.realpath(__file__)))))
    built = [os.path.join(here, "crates", "ledger", "out", "ledger"), os.path.join(here, "out", "ledger")]
    found = [path for path in built if os.path.exists(path)]
    return os.environ.get("LEDGER") or (found[0] if found else shutil.which("ledger") or "ledger")


def main(arguments: Sequence[str], source: Optional[IO[str]] = None, out: Optional[IO[str]] = None) -> int:
    """Runs the shell with the words of its command line. Returns 1 if a statement failed, else 0."""
    words = argparse.ArgumentParser("ledger-shell", description="Runs statements on a journal. Not proved; the program is.", epilog=HELP)
    words.add_argument("journal", metavar="JOURNAL")
    words.add_argument("--program", metavar="PATH", default=program_path(), help="the ledger program")
    words.add_argument("--timeout", type=float, default=10.0, metavar="SECONDS", help="how long to wait for a journal that is in use")
    given = words.parse_args(arguments)
    source, out = source or sys.stdin, out or sys.stdout
    if source.isatty():
        with contextlib.suppress(ImportError):
            import readline  # noqa: F401  (lines can be edited and called back)
        print(HELP, file=out)
        warn_of_rest(given.journal)
    if not os.path.exists(given.journal):
        print(f"no file {given.journal} yet: the first commit makes it", file=sys.stderr)
    return Shell(Ledger(given.journal, given.program, given.timeout, warn_on_error), out).run(source)
