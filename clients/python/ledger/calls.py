"""What the commands of `ledgerctl` share: what they say, and the program that they call.

(This package is not proved; the program is.)

    >>> import contextlib
    >>> with contextlib.redirect_stderr(sys.stdout):
    ...     tell(f"{counted(1200, 'block')} came since the run began")
    1,200 blocks came since the run began
"""
from __future__ import annotations

import argparse
import os
import shutil
import sys
from collections.abc import Iterator, Sequence
from dataclasses import replace
from itertools import islice
from typing import Optional

from .causes import journal_fault, status_words
from .checks import Audit
from .client import Ledger, StatusError
from .files import FAILED
from .journal import Digest, Front, fronts, match_digests
from .progress import Progress, Waiting
from .view import DAMAGED, DIFFERS, UNREADABLE, Refused, counted

Named = tuple[str, Digest]


def tell(words: str) -> None:
    """Says something on standard error."""
    print(words, file=sys.stderr)


def there(path: str, writes: bool = False) -> None:
    """Raises `Refused` if there is no journal at a path that could be opened."""
    fault = journal_fault(path, writes)
    if fault is None and not os.path.exists(path):
        fault = f"no journal at {path}"
    if fault is not None:
        raise Refused(fault, UNREADABLE)


def ledger_of(words: argparse.Namespace) -> Ledger:
    """The journal with the program that the words name. Raises `Refused` if there is no such program."""
    if shutil.which(words.program) is None:
        raise Refused(f"there is no program {words.program}; --program or the environment's LEDGER names it")
    return Ledger(words.journal, words.program, words.timeout)


def audited(ledger: Ledger, path: str, name: str) -> Audit:
    """What the program counts in the file at a path, called `name`. Raises `Refused` if it is damaged."""
    try:
        with Waiting(f"the program audits {name}"):
            return replace(ledger, journal=path).audit()
    except StatusError as error:
        raise Refused(f"{name}: {status_words(path, error)}", error.status if error.status > 0 else FAILED) from None


def count_lines(path: str) -> int:
    """How many whole lines a file has."""
    with open(path, "rb") as file:
        return sum(line.endswith(b"\n") for line in file)


def check_published(path: str, earlier: Sequence[Named], own: Optional[Digest] = None) -> int:
    """How many digests agree with the hashes in a journal's file, which all do, in one pass. Raises `Refused`.

    `own` is the program's digest of the file. It rests on the hashes that the program computed; if those that stand
    in the file lead to it too, they are the same.
    """
    progress = Progress(os.path.getsize(path))
    wanted = [digest for _, digest in earlier] + ([own] if own is not None else [])
    found = match_digests(((front.address, front.hash) for front in _up_to(fronts(path, progress), own)), wanted)
    progress.end()
    if own is not None and not found[-1]:
        raise Refused("the hashes in the file don't lead to the program's digest: it was changed meanwhile; nothing was done", DAMAGED)
    differ = dict.fromkeys(name for (name, _), holds in zip(earlier, found) if not holds)
    if differ:
        raise Refused(f"published digests that aren't the journal's: {', '.join(differ)}. It isn't the journal that was published, "
                      "or blocks of it were lost; nothing was done", DIFFERS)
    return len(earlier)


def _up_to(found: Iterator[Front], own: Optional[Digest]) -> Iterator[Front]:
    """The fronts up to a digest's tip."""
    return found if own is None else islice(found, own.tip.sequence + 1)
