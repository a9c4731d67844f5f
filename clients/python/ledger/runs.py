"""`ledgerctl JOURNAL run`: a script's run, and in words what of it isn't committed.

    ledgerctl accounts.journal run --new script.ion > report

(This package is not proved; the program is.)
"""
from __future__ import annotations

import argparse
import itertools
import os
import re
import signal
import sys
from collections import Counter
from collections.abc import Callable, Sequence
from typing import IO, Optional

from . import ion
from .calls import ledger_of, tell
from .causes import journal_fault, outcome_words, refused_text, status_words
from .client import BusyJournal, Ledger, Outcome, StatusError
from .files import FAILED
from .journal import fronts, rest_words
from .progress import Waiting
from .shell import warn_on_error
from .view import UNREADABLE, Refused, counted

SOURCE_FAILED = 4
NOT_COMMITTED = 20
SIGNALLED = 128
MOST_TOLD = 20  # transactions that are told one by one
_COMMITTED = re.compile(r"\{session:\d+,transaction:\d+,outcome:committed,tx:\"\w{22}\",block:(\d+),")


def run(words: argparse.Namespace, out: IO[str]) -> int:
    """Runs a script, writes the report as it is, and says in words what isn't committed."""
    ledger = ledger_of(words)
    before = _check_new(ledger, words.new)
    script = _script(words.script)
    rest = rest_words(words.journal)
    if rest is not None:
        warn_on_error(rest)
    try:
        with Waiting("the program runs the script", _growth(words.journal)):
            report = ledger.call("run", *_run_words(words), text=script)
    except (StatusError, KeyboardInterrupt) as error:
        return _run_failed(words.journal, error, before, script)
    try:
        write_text(out, report)
    except OSError as error:
        tell(f"ledgerctl: the report couldn't be written: {error.strerror}")
        _tell_since(words.journal, before)
        return FAILED
    return _tell_report(words.journal, report, script)


def _check_new(ledger: Ledger, new: bool) -> int:
    """How many blocks the journal has. Raises `Refused` if there are none and it isn't new, or the other way about."""
    path = os.fspath(ledger.journal)
    fault = journal_fault(path, writes=True)
    if fault is not None:
        raise Refused(fault, UNREADABLE)
    with Waiting(f"counting the blocks of {path}"):
        tip = ledger.tip()
    if tip is None and not new:
        what = f"{path} has no block" if os.path.exists(path) else f"no journal at {path}"
        raise Refused(f"{what}, and nothing was run; --new says that it is to be made", UNREADABLE)
    if tip is not None and new:
        raise Refused(f"{path} isn't new: it has {counted(tip + 1, 'block')}, and nothing was run")
    return 0 if tip is None else tip + 1


def _script(path: Optional[str]) -> bytes:
    """The bytes of a script, of standard input if no file is named."""
    if path is None:
        return sys.stdin.buffer.read()
    try:
        with open(path, "rb") as file:
            return file.read()
    except OSError as error:
        raise Refused(f"the script {path} can't be read: {error.strerror}", SOURCE_FAILED) from None


def _run_words(words: argparse.Namespace) -> list[str]:
    """The options of a run as the program takes them."""
    options = [("--workers", words.workers), ("--seed", words.seed), ("--at", words.at)]
    found = [word for name, value in options if value is not None for word in (name, value)]
    return found + (["--plain-ids"] if words.plain_ids else [])


def _growth(path: str) -> Callable[[], str]:
    """What a journal grew by since now, in words."""
    def size() -> int:
        return os.path.getsize(path) if os.path.exists(path) else 0

    begin = size()
    return lambda: f", and the journal grew by {(size() - begin) / 1e6:.1f} MB"


def write_text(out: IO[str], text: str) -> None:
    """Writes a text in UTF-8 to a stream."""
    binary = getattr(out, "buffer", None)
    if binary is None:
        out.write(text)
    else:
        out.flush()
        binary.write(text.encode("utf-8"))
    out.flush()


def _run_failed(path: str, error: BaseException, before: int, script: bytes) -> int:
    """Says why a run has no report, and what of it may be committed."""
    if isinstance(error, StatusError):
        tell(f"ledgerctl: {status_words(path, error, writes=True, script=script)}")
        status = error.status if error.status > 0 else SIGNALLED - error.status
    else:
        tell("ledgerctl: interrupted")
        status = SIGNALLED + signal.SIGINT
    if isinstance(error, BusyJournal) or status in (1, 2, 3, 4):
        tell("nothing was run")
    else:
        _tell_since(path, before)
    return status


def _tell_since(path: str, before: int) -> None:
    """Says which blocks came since a journal had so many, and of which places of a script they are."""
    with Waiting(f"reading {path}"):
        since = list(itertools.islice(fronts(path), before, None)) if os.path.isfile(path) else []
    if not since:
        tell("no block came since the run began")
        return
    tell(f"{counted(len(since), 'block')} came since the run began; if no other run was at it, these transactions are committed:")
    for front in since[:MOST_TOLD]:
        tell(f"  block {front.address.sequence}: session {front.place.session} transaction {front.place.transaction}")
    if len(since) > MOST_TOLD:
        tell(f"  and {len(since) - MOST_TOLD} more, to block {since[-1].address.sequence}")


def _tell_report(path: str, report: str, script: bytes) -> int:
    """Says in words which transactions of a report aren't committed. Returns the status."""
    blocks, others = [], []
    for line in filter(None, report.split("\n")):
        found = _COMMITTED.match(line)
        if found is None:
            others.append(Outcome.of(ion.read_one(line, ion.JOURNAL_DEPTH)))
        else:
            blocks.append(int(found[1]))
    for outcome in others[:MOST_TOLD]:
        at = f"session {outcome.place.session} transaction {outcome.place.transaction}"
        tell(f"{at}: {refused_text(outcome, script) or outcome_words(path, outcome)}")
    if len(others) > MOST_TOLD:
        tell(f"and {len(others) - MOST_TOLD} more")
    in_blocks = f" ({_range(blocks)})" if blocks else ""
    counts = "".join(f", {count:,} {name}" for name, count in Counter(outcome.outcome for outcome in others).items())
    tell(f"{counted(len(blocks) + len(others), 'transaction')}: {len(blocks):,} committed{in_blocks}{counts}")
    return NOT_COMMITTED if others else 0


def _range(blocks: Sequence[int]) -> str:
    first, last = min(blocks), max(blocks)
    return f"block {first}" if first == last else f"blocks {first} to {last}"
