"""`ledger-view JOURNAL COMMAND ..` shows what is in a journal, from its file alone.

It takes no lock, writes nothing into the journal and leaves no block, so it works beside a run and on read-only
media. Every line that it reads is checked (`ledger.checks`). It isn't proved; `ledger JOURNAL audit` is.

    tables                              the tables, with their indexes and how many documents they have
    blocks [--from N] [--to N]          the blocks, with their statements
    rows TABLE [--at TIME]              the documents of a table, now or at the end of a time
    history TABLE FIELD VALUE [--at TIME]   all revisions of the documents of which one had this value in this field
    history TABLE --id ID [--at TIME]   all revisions of one document
    find ID [VERSION]                   where the revisions of a document stand: the SEQ and INDEX of `ledger JOURNAL prove`
    csv TABLE [--at TIME]               the documents as CSV, json TABLE as JSON
    digests FILE ..                     compares published digests with the journal, all in one pass
    html [FILE]                         one page for a browser, with blocks, documents, their time lines and a search
    check                               how many blocks and revisions there are, or the first damaged line

The status is 0, or 1 if there is no such command, table or document, 2 if a file has no digests that can be read, 3
if the journal is damaged (what stands before the damage is shown), 5 if it can't be read, and 7 if a digest differs.

    >>> main(["/dev/null", "check"])
    0 blocks and 0 revisions, undamaged
    0
"""
from __future__ import annotations

import argparse
import csv
import os
import sys
from collections.abc import Callable, Sequence
from typing import IO, Any, NoReturn, Optional

from . import ion
from .blocks import Revision
from .ion import Struct, Timestamp, Value, bare
from .journal import Digest, Journal, NoSuchTable, NotAJournal, latest
from .progress import Progress

WORDS, INPUT, DAMAGED, UNREADABLE, DIFFERS = 1, 2, 3, 5, 7


class Refused(Exception):
    """What is wrong, in words, and the status that it ends with."""

    def __init__(self, words: str, status: int = WORDS) -> None:
        super().__init__(words)
        self.status = status


def printable(text: str) -> str:
    """The text with escapes in place of characters that a terminal may obey."""
    return "".join(c if c.isprintable() else f"\\u{ord(c):04x}" if ord(c) < 0x10000 else f"\\U{ord(c):08x}" for c in text)


def counted(number: int, word: str) -> str:
    """A number and a word, in the plural unless it is one."""
    return f"{number:,} {word}{'' if number == 1 else 's'}"


def read_journal(path: str) -> Journal:
    """The journal in a file, with progress on standard error. Raises `Refused`."""
    try:
        progress = Progress(os.path.getsize(path))
        journal = Journal.read(path, progress)
        progress.end()
    except FileNotFoundError:
        raise Refused(f"no file {path}", UNREADABLE) from None
    except (OSError, NotAJournal) as error:
        raise Refused(str(error), UNREADABLE) from None
    return journal


# ---- values on one line


def shown(value: Value) -> str:
    """A value on one line, for people."""
    return printable(ion.write(value))


def content(revision: Revision) -> str:
    """A revision's data, or the word that says that it deletes or is redacted."""
    if revision.data_hash is not None:
        return "REDACTED"
    return "DELETED" if revision.deleted else shown(revision.data)


def value_of(word: str) -> Value:
    """The value that a word of the command line means: an Ion value, or else the word itself as a string."""
    try:
        return ion.read_one(word)
    except ValueError:
        return word


def time_of(word: str) -> Timestamp:
    """The timestamp of a word, also of a year or a month without its T. Raises `argparse.ArgumentTypeError`."""
    for text in (word, word + "T"):
        found = value_of(text)
        if isinstance(found, Timestamp):
            return found
    raise argparse.ArgumentTypeError(f"no time: {word}; 2024, 2024-01, 2024-01-31 and 2024-01-31T10:00:00Z are")


# ---- commands; each writes to `out` and returns a status


def tables(journal: Journal, words: argparse.Namespace, out: IO[str]) -> int:
    """Writes the tables with their indexes."""
    for table in journal.tables:
        active = table.dropped is None
        count = sum(not revisions[-1].deleted for revisions in journal.documents.values() if revisions[0].table == table.id)
        told = counted(count, "document") if active else f"dropped in block {table.dropped}"
        indexes = ", ".join(map(printable, table.indexes)) or "none"
        print(f"{printable(table.name):20} {table.id} made in block {table.made}, {told}, indexes: {indexes}", file=out)
    return 0


def blocks(journal: Journal, words: argparse.Namespace, out: IO[str]) -> int:
    """Writes the blocks from one number to another, with their statements."""
    last = len(journal.blocks) - 1 if words.to is None else words.to
    for block in journal.blocks[words.begin:last + 1]:
        place = f"session {block.place.session} transaction {block.place.transaction}"
        print(f"block {block.address.sequence} {block.time} tx {block.transaction_id} {place}, {counted(len(block.revisions), 'revision')}", file=out)
        if block.statements_hash is not None:
            print("    STATEMENTS REDACTED", file=out)
        for statement in block.statements:
            parameters = "".join(f" {shown(parameter)}" for parameter in statement.parameters)
            with_them = " with" + parameters if parameters else ""
            print(f"    {printable(statement.text)}{with_them} -> {counted(len(statement.answer), 'row')}", file=out)
    return 0


def print_revision(revision: Revision, out: IO[str]) -> None:
    """Writes a revision on one line: when, where, whose, and its content."""
    place = f"block {revision.address.sequence} index {revision.index}"
    print(f"{revision.time}  {place}  {revision.id} version {revision.version}  {content(revision)}", file=out)


def rows(journal: Journal, words: argparse.Namespace, out: IO[str]) -> int:
    """Writes the documents of a table as of a time."""
    for revision in journal.rows(words.table, words.at):
        print_revision(revision, out)
    return 0


def history(journal: Journal, words: argparse.Namespace, out: IO[str]) -> int:
    """Writes the revisions of documents up to a time."""
    if (words.id is None) == (words.value is None):
        raise Refused("history wants a field and a value, or --id")
    if words.id is not None:
        found = [revisions for revisions in journal.histories(words.table) if revisions[0].id == words.id]
    else:
        found = journal.with_value(words.table, words.field, value_of(words.value))
    if not found:
        raise Refused("no such document")
    for revisions in found:
        until = latest(revisions, words.at)
        for revision in revisions[:0 if until is None else until.version + 1]:
            print_revision(revision, out)
    return 0


def find(journal: Journal, words: argparse.Namespace, out: IO[str]) -> int:
    """Writes the block and the index of each revision of a document, or of one version."""
    found = journal.documents.get(words.id, [])
    if words.version is not None:
        found = [revision for revision in found if revision.version == words.version]
    if not found:
        raise Refused("no such revision")
    for revision in found:
        print(f"{revision.address.sequence} {revision.index}", file=out)
    return 0


def cell(value: Value) -> str:
    """A value in a cell of CSV: a text as it is, a null as nothing, all else as JSON."""
    value = bare(value)
    if value is None or isinstance(value, ion.Null):
        return ""
    if isinstance(value, (str, Timestamp)):
        return str(value)
    return ion.to_json(value)


def as_struct(value: Value) -> Struct:
    """A document, or another value as the field `value`; no fields of a redacted one."""
    value = bare(value)
    if value is None:
        return Struct([])
    return value if isinstance(value, Struct) else Struct([("value", value)])


def write_csv(journal: Journal, words: argparse.Namespace, out: IO[str]) -> int:
    """Writes the documents of a table as CSV, under the names of all their fields."""
    documents = [as_struct(revision.data) for revision in journal.rows(words.table, words.at)]
    names = list(dict.fromkeys(name for document in documents for name in document))
    writer = csv.writer(out, lineterminator="\n")
    writer.writerow(names)
    writer.writerows([cell(document.get(name)) for name in names] for document in documents)
    return 0


def write_json(journal: Journal, words: argparse.Namespace, out: IO[str]) -> int:
    """Writes the documents of a table as a JSON list."""
    print(ion.to_json([revision.data for revision in journal.rows(words.table, words.at)], indent=1), file=out)
    return 0


def published(path: str) -> list[Digest]:
    """The digests in a file, one or many. Raises `Refused`."""
    try:
        with open(path, "rb") as file:
            found = [Digest.of(value) for value in ion.read(file.read())]
    except (OSError, ValueError) as error:
        raise Refused(f"{path}: {error}", INPUT) from None
    if not found:
        raise Refused(f"{path}: no digest", INPUT)
    return found


def digests(journal: Journal, words: argparse.Namespace, out: IO[str]) -> int:
    """Writes of each published digest whether it is the journal's."""
    wanted = [(path, digest) for path in words.file for digest in published(path)]
    differ = 0
    for (path, digest), holds in zip(wanted, journal.match(digest for _, digest in wanted)):
        beyond = digest.tip.sequence >= len(journal.blocks)
        said = "agrees" if holds else f"DIFFERS: the journal has {counted(len(journal.blocks), 'block')}" if beyond else "DIFFERS"
        differ += not holds
        print(f"{path}: tip {digest.tip.sequence} {said}", file=out)
    print(f"{len(wanted) - differ} agree, {differ} differ", file=out)
    return DIFFERS if differ else 0


def html(journal: Journal, words: argparse.Namespace, out: IO[str]) -> int:
    """Writes the journal as a page for a browser."""
    from .page import page

    text = page(journal, os.path.basename(words.journal))
    if words.file is None:
        out.write(text)
    else:
        with open(words.file, "w", encoding="utf-8") as file:
            file.write(text)
    return 0


def check(journal: Journal, words: argparse.Namespace, out: IO[str]) -> int:
    """Writes how many blocks and revisions there are before any damage."""
    count = sum(len(block.revisions) for block in journal.blocks)
    told = "undamaged" if journal.damage is None else "before the damage"
    rest = f"; {counted(journal.rest, 'byte')} after the last line are no line" if journal.rest else ""
    print(f"{counted(len(journal.blocks), 'block')} and {counted(count, 'revision')}, {told}{rest}", file=out)
    return 0


# ---- the words of the command


class Parser(argparse.ArgumentParser):
    """Ends with the status of wrong words, as the program does."""

    def error(self, message: str) -> NoReturn:
        raise Refused(f"{message}\n{self.format_usage().strip()}")


Command = Callable[[Journal, argparse.Namespace, IO[str]], int]


def parser() -> Parser:
    """The parser of the command's words."""
    found = Parser("ledger-view", description="Shows what is in a journal, from its file alone. Not proved.")
    found.add_argument("journal", metavar="JOURNAL")
    commands = found.add_subparsers(dest="command", required=True, metavar="COMMAND", parser_class=Parser)

    def command(name: str, run: Command, words: str, *arguments: tuple[str, dict[str, Any]]) -> None:
        made = commands.add_parser(name, help=words)
        made.set_defaults(run=run)
        for argument, options in arguments:
            made.add_argument(argument, **options)

    at = ("--at", {"type": time_of, "metavar": "TIME", "help": "at the end of this time, such as 2024-01-31"})
    table = ("table", {"metavar": "TABLE"})
    number = {"type": int, "metavar": "N"}
    command("tables", tables, "the tables, their indexes and how many documents they have")
    command("blocks", blocks, "the blocks", ("--from", {**number, "dest": "begin", "default": 0}), ("--to", number))
    command("rows", rows, "the documents of a table", table, at)
    command("history", history, "all revisions of documents", table, ("field", {"nargs": "?", "metavar": "FIELD"}),
            ("value", {"nargs": "?", "metavar": "VALUE"}), ("--id", {"metavar": "ID"}), at)
    command("find", find, "where the revisions of a document stand", ("id", {"metavar": "ID"}),
            ("version", {"nargs": "?", "type": int, "metavar": "VERSION"}))
    command("csv", write_csv, "the documents of a table as CSV", table, at)
    command("json", write_json, "the documents of a table as JSON", table, at)
    command("digests", digests, "compares published digests with the journal", ("file", {"nargs": "+", "metavar": "FILE"}))
    command("html", html, "one page for a browser", ("file", {"nargs": "?", "metavar": "FILE"}))
    command("check", check, "how many blocks and revisions there are, or the first damaged line")
    return found


def main(arguments: Sequence[str], out: Optional[IO[str]] = None) -> int:
    """Runs the command of these words and returns its status."""
    out = out or sys.stdout
    try:
        words = parser().parse_args(arguments)
        journal = read_journal(words.journal)
        status = words.run(journal, words, out)
    except (Refused, NoSuchTable) as refused:
        print(f"ledger-view: {printable(str(refused)) if isinstance(refused, NoSuchTable) else refused}", file=sys.stderr)
        return getattr(refused, "status", WORDS)
    if journal.damage is not None:
        print(f"ledger-view: DAMAGED from {printable(str(journal.damage))}; what stands before it is shown", file=sys.stderr)
        return DAMAGED
    return status
