"""`ledgerctl JOURNAL COMMAND ..` is for whoever keeps a journal: it runs scripts, makes copies and publishes digests.

It says in words what went wrong and why (who holds the lock, no rights, no journal, a full disk), and on standard
error how far it is. It isn't proved. What is committed, audited or digested, the program does, which is proved.

    run [SCRIPT] [--new]            runs a script, of standard input if no file is named; the report is the program's
        [--workers N] [--seed S] [--plain-ids] [--at TIME]
    backup COPY [--overwrite]       copies the whole lines, has the copy audited, and puts it in place at once
    restore COPY [--overwrite] [--published FOLDER]   puts an audited copy at JOURNAL; what was there is kept beside it
    doctor [--around N]             the first damaged line, the check that it fails, and the lines round it; reads only
    publish FOLDER [--sign KEY] [--stamp WHERE --stamp-ca FILE] [--git [--push]] [--day DATE]
                                    checks all digests in FOLDER against the journal, and adds the digest of the day

The status is 0 if all was done, and of a run, if every transaction committed; 20 if one didn't. The others are the
program's: 1 if the words are wrong, 2 if an input is refused, 3 if the journal is damaged, 5 if it can't be opened,
read or written, or isn't there, 6 if something else can't be written, signed, stamped or committed to git, 7 if a
copy or a published digest isn't that of the journal, 8 without memory, and 128 and a signal's number by a signal.

    >>> import contextlib
    >>> with contextlib.redirect_stderr(sys.stdout):
    ...     main(["/nowhere/journal", "doctor"])
    ledgerctl: there is no folder /nowhere
    5
"""
from __future__ import annotations

import argparse
import os
import signal
import sys
from collections.abc import Callable, Sequence
from datetime import datetime
from typing import IO, Any, Optional

from .calls import tell
from .client import LedgerError
from .copies import backup, restore
from .doctor import doctor
from .files import FAILED
from .publish import publish
from .runs import SIGNALLED, run
from .shell import program_path
from .view import UNREADABLE, WORDS, Parser, Refused, printable


def day_of(word: str) -> str:
    """The word, if it is a date such as 2026-06-01."""
    try:
        return f"{datetime.strptime(word, '%Y-%m-%d'):%Y-%m-%d}"
    except ValueError:
        raise argparse.ArgumentTypeError(f"no date: {word}") from None


def parser() -> Parser:
    """The parser of the command's words."""
    found = Parser("ledgerctl", description="Runs scripts, makes copies and publishes digests. Not proved; the program is.")
    found.add_argument("--program", metavar="PATH", default=program_path(), help="the ledger program")
    found.add_argument("--timeout", type=float, default=10.0, metavar="SECONDS", help="how long to wait for a journal that is in use")
    found.add_argument("journal", metavar="JOURNAL")
    commands = found.add_subparsers(dest="command", required=True, metavar="COMMAND", parser_class=Parser)

    def command(name: str, does: Callable[[argparse.Namespace, IO[str]], int], words: str, *arguments: tuple[str, dict[str, Any]]) -> None:
        made = commands.add_parser(name, help=words, description=words)
        made.set_defaults(does=does)
        for argument, options in arguments:
            made.add_argument(argument, **options)

    flag: dict[str, Any] = {"action": "store_true"}
    command("run", run, "runs a script", ("script", {"nargs": "?", "metavar": "SCRIPT"}),
            ("--new", {**flag, "help": "the journal has no block yet"}), ("--workers", {"metavar": "N"}), ("--seed", {"metavar": "S"}),
            ("--plain-ids", flag), ("--at", {"metavar": "TIME"}))
    command("backup", backup, "makes an audited copy", ("copy", {"metavar": "COPY", "help": "a file, or a folder for it"}),
            ("--overwrite", {**flag, "help": "also a copy that isn't a front of the journal"}))
    command("restore", restore, "puts an audited copy at JOURNAL", ("copy", {"metavar": "COPY"}),
            ("--overwrite", {**flag, "help": "also if there is a file, which is kept under another name"}),
            ("--published", {"metavar": "FOLDER", "help": "digests that the copy has to agree with"}))
    command("doctor", doctor, "the first damaged line, and the lines round it",
            ("--around", {"type": int, "default": 1, "metavar": "N", "help": "how many lines before and after it"}))
    command("publish", publish, "publishes the digest of the day", ("folder", {"metavar": "FOLDER"}),
            ("--sign", {"metavar": "KEY", "help": "signs it by this key of gpg"}),
            ("--stamp", {"metavar": "WHERE", "help": "has it stamped by this URL, or by a command that reads a request and writes the reply"}),
            ("--stamp-ca", {"metavar": "FILE", "help": "the certificates that a stamp is checked with"}),
            ("--git", {**flag, "help": "commits it; FOLDER is in a git repository"}), ("--push", {**flag, "help": "and pushes it"}),
            ("--day", {"type": day_of, "metavar": "DATE", "help": "today in UTC if absent"}))
    return found


def main(arguments: Sequence[str], out: Optional[IO[str]] = None) -> int:
    """Runs the command of these words and returns its status."""
    try:
        words = parser().parse_args(arguments)
        return words.does(words, out or sys.stdout)
    except Refused as refused:
        tell(f"ledgerctl: {refused}")
        return refused.status
    except LedgerError as error:
        tell(f"ledgerctl: {printable(str(error))}")
        return WORDS
    except KeyboardInterrupt:
        tell("ledgerctl: interrupted")
        return SIGNALLED + signal.SIGINT
    except BrokenPipeError:
        raise
    except OSError as error:
        tell(f"ledgerctl: {error.filename or 'the system'}: {error.strerror}")
        return UNREADABLE if error.filename in (words.journal, os.path.realpath(words.journal)) else FAILED
