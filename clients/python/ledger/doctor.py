"""`ledgerctl JOURNAL doctor`: what is wrong with a journal's file, into which nothing is written.

    ledgerctl accounts.journal doctor --around 2

(This package is not proved; the program is.)
"""
from __future__ import annotations

import argparse
import itertools
import os
import re
import stat
from typing import IO, NamedTuple, Union

from .calls import ledger_of, there
from .causes import KINDS, held_words, holders, status_words
from .checks import Audit, Checker, Damage
from .client import DamagedJournal, StatusError
from .journal import rest_words
from .progress import Progress, Waiting
from .view import DAMAGED, Refused, counted, printable

MOST_SHOWN = 100  # characters of a line


class Found(NamedTuple):
    """The first damaged line, counted from 0, and the check that it fails."""

    sequence: int
    kind: str


def doctor(words: argparse.Namespace, out: IO[str]) -> int:
    """Says what is wrong with a journal, from its file, into which nothing is written."""
    there(words.journal)
    _print_file(words.journal, out)
    told = _program_finds(words, out)
    if isinstance(told, Audit):
        return 0
    own = _own_check(words.journal) if told is None else None
    if isinstance(own, Audit):
        print(f"by this tool's own check, which isn't proved: {_counts(own)}, undamaged", file=out)
        return 0
    found = told or Found(own.sequence, own.kind)
    _print_damage(words.journal, found, words.around, out)
    _print_reason(words.journal, found, own or _own_check(words.journal), out)
    return DAMAGED


def _print_reason(path: str, found: Found, own: Union[Audit, Damage], out: IO[str]) -> None:
    """Prints why a line fails, as the package's own check finds it, and what to do."""
    if isinstance(own, Damage) and (own.sequence, own.kind) == found:
        print(f"why, by this tool's own check: {printable(own.reason)}{_text_there(path, own)}", file=out)
    else:
        print(f"this tool's own check finds otherwise: {own}. The program is proved; was the file changed meanwhile?", file=out)
    lines = f"The {counted(found.sequence, 'line')} before it {'is' if found.sequence == 1 else 'are'} sound"
    print(f"{lines if found.sequence else 'No line is before it'}. What to do: docs/operations.md, \"A damaged journal\"", file=out)


def _text_there(path: str, own: Damage) -> str:
    """The text round the byte at which a line can't be read, if that is why it is damaged."""
    place = re.match(r"at byte (\d+): ", own.reason)
    if place is None:
        return ""
    with open(path, "rb") as file:
        line = next(itertools.islice(file, own.sequence, None), b"").rstrip(b"\n")
    at = int(place[1])
    before, after = (printable(part.decode("utf-8", "replace")) for part in (line[max(at - 40, 0):at], line[at:at + 40]))
    return f"\n  {before}{after}\n  {' ' * len(before)}^"


def _counts(counts: Audit) -> str:
    return f"{counted(counts.blocks, 'block')} and {counted(counts.revisions, 'revision')}"


def _print_file(path: str, out: IO[str]) -> None:
    """Prints what the system tells of the file."""
    file = os.stat(path)
    links = f", {counted(file.st_nlink, 'name')}" if file.st_nlink != 1 else ""
    print(f"{path}: {counted(file.st_size, 'byte')}, {stat.filemode(file.st_mode)}, owner {file.st_uid}:{file.st_gid}{links}", file=out)
    if holders(path):
        print(held_words(path), file=out)
    rest = rest_words(path)
    if rest is not None:
        print(f"rest: {printable(rest)}", file=out)


def _program_finds(words: argparse.Namespace, out: IO[str]) -> Union[Audit, Found, None]:
    """What the program finds: its counts, the damage, or `None` if it found neither, which is said."""
    try:
        with Waiting(f"the program audits {words.journal}"):
            counts = ledger_of(words).audit()
    except DamagedJournal as error:
        return Found(error.fault["sequence"], str(error.fault["kind"]))
    except (StatusError, Refused) as error:
        print(status_words(words.journal, error) if isinstance(error, StatusError) else str(error), file=out)
        return None
    print(f"by the program: {_counts(counts)}, undamaged", file=out)
    return counts


def _own_check(path: str) -> Union[Audit, Damage]:
    """The first damage that the package's own checks find, or its counts."""
    checker, progress, done = Checker(), Progress(os.path.getsize(path), done_word="checked"), 0
    try:
        with open(path, "rb") as file:
            for line in file:
                if line.endswith(b"\n"):
                    checker.take(line[:-1])
                    done += len(line)
                    progress(done)
        return checker.end()
    except Damage as damage:
        return damage
    finally:
        progress.end()


def _print_damage(path: str, found: Found, around: int, out: IO[str]) -> None:
    """Prints the damaged line between those round it."""
    begin, lines = 0, []
    with open(path, "rb") as file:
        for number, line in enumerate(itertools.islice(file, found.sequence + around + 1)):
            if number < found.sequence:
                begin += len(line)
            if number >= found.sequence - around:
                lines.append((number, line))
    at = f"block {found.sequence} (line {found.sequence + 1}, from byte {begin:,} on)"
    print(f"DAMAGED: {at} fails {found.kind}: {KINDS.get(found.kind, 'unknown here')}", file=out)
    for number, line in lines:
        mark = ">" if number == found.sequence else " "
        text = printable(line[:MOST_SHOWN].rstrip(b"\n").decode("utf-8", "replace"))
        print(f"{mark} line {number + 1}, {counted(len(line), 'byte')}: {text}{' ..' if len(line) > MOST_SHOWN else ''}", file=out)
        zeros = line.count(b"\0")
        if zeros and number == found.sequence:
            print(f"  it has {counted(zeros, 'zero byte')}, as a file system may leave after a loss of power", file=out)
