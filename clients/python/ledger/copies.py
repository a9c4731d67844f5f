"""`ledgerctl JOURNAL backup` and `restore`: copies that the program has audited, and that are there whole or not at all.

    ledgerctl accounts.journal backup /mnt/copy/accounts.journal
    ledgerctl accounts.journal restore /mnt/copy/accounts.journal --published digests

(This package is not proved; the program is.)
"""
from __future__ import annotations

import argparse
import itertools
import os
import shutil
from datetime import datetime, timezone
from typing import IO, Optional

from .calls import audited, check_published, count_lines, ledger_of, there
from .checks import Audit
from .files import beside, copy_whole_lines, is_front, locked, put_in_place, sync_folder, take_mode
from .progress import Waiting
from .publish import Folder, Options
from .shell import warn_on_error
from .view import DIFFERS, Refused, counted


def backup(words: argparse.Namespace, out: IO[str]) -> int:
    """Makes an audited copy of the whole lines, or has a copy grow to what the journal has now."""
    ledger = ledger_of(words)
    there(words.journal)
    name = os.path.join(words.copy, os.path.basename(words.journal)) if os.path.isdir(words.copy) else words.copy
    target = os.path.realpath(name)
    if os.path.exists(target) and os.path.samefile(target, words.journal):
        raise Refused("the copy is to be another file than the journal")
    with beside(target) as new:
        with locked(words.journal, words.timeout) as file:
            left_out = copy_whole_lines(file, new)
        counts = audited(ledger, new, f"the copy of {words.journal}")
        if os.path.exists(target) and not words.overwrite and not is_front(target, new):
            raise Refused(_not_a_front(name, counts), DIFFERS)
        put_in_place(new, target, overwrite=True)
    print(f"{name}: {counted(counts.blocks, 'block')} and {counted(counts.revisions, 'revision')}, audited", file=out)
    if left_out:
        warn_on_error(f"{counted(left_out, 'byte')} after the last line feed of {words.journal} aren't in the copy")
    return 0


def _not_a_front(target: str, counts: Audit) -> str:
    lines = count_lines(target)
    return (f"{target} isn't a front of the journal and is left: it has {counted(lines, 'line')}, and the journal {counts.blocks:,}. "
            "One of them was changed, or an older copy was restored. --overwrite replaces it")


def restore(words: argparse.Namespace, out: IO[str]) -> int:
    """Puts an audited copy in the journal's place."""
    ledger = ledger_of(words)
    there(words.copy)
    target = os.path.realpath(words.journal)
    if os.path.exists(target) and os.path.samefile(target, words.copy):
        raise Refused("the copy is to be another file than the journal")
    if os.path.lexists(target) and not words.overwrite:
        raise Refused(f"there is a file at {words.journal}, and it is left. --overwrite replaces it, and keeps it under another name")
    with beside(target) as new:
        with locked(words.copy, words.timeout) as file:
            copy_whole_lines(file, new)
        counts = audited(ledger, new, words.copy)
        if counts.blocks == 0:
            raise Refused(f"{words.copy} has no block", DIFFERS)
        if words.published is not None:
            agree = check_published(new, Folder(words.published, Options()).earlier())
            print(f"{counted(agree, 'published digest')} agree{'s' if agree == 1 else ''} with the copy", file=out)
        _put_restored(new, target, words, out)
    print(f"{words.journal}: {counted(counts.blocks, 'block')} and {counted(counts.revisions, 'revision')}, audited", file=out)
    return 0


def _put_restored(new: str, target: str, words: argparse.Namespace, out: IO[str]) -> None:
    """Gives the new file the journal's name; one that has it is kept beside it."""
    if not os.path.exists(target):
        put_in_place(new, target, overwrite=False)
        return
    with locked(target, words.timeout, alone=True):
        with Waiting(f"comparing {target} with the copy"):
            lost = _lost_words(target, new)
        kept = _keep(target)
        take_mode(target, new)
        put_in_place(new, target, overwrite=True)
    print(f"what was there is kept as {os.path.basename(kept)}", file=out)
    if lost is not None:
        warn_on_error(lost)


def _lost_words(former: str, new: str) -> Optional[str]:
    """What a restored copy hasn't of the file before, in words; `None` if the file is a front of the copy."""
    with open(former, "rb") as one, open(new, "rb") as other:
        same = sum(1 for _ in itertools.takewhile(lambda pair: pair[0] == pair[1] and pair[0].endswith(b"\n"), zip(one, other)))
    had, has = count_lines(former), count_lines(new)
    if same == had:
        return None
    if same < has:
        return f"from block {same} on the copy has other lines than the file before, which had {counted(had, 'line')}, and the copy {has:,}"
    return (f"{counted(had - same, 'line')} of the file before, from block {same} on, {'is' if had - same == 1 else 'are'} lost. "
            "Whoever holds a digest or a proof of a lost block can show that it was there: say publicly which blocks are lost")


def _keep(path: str) -> str:
    """Gives a file a second name beside its own, which survives a loss of power, and returns it."""
    name = f"{path}.before-{datetime.now(timezone.utc):%Y%m%dT%H%M%SZ}"
    names = itertools.chain([name], (f"{name}.{number}" for number in itertools.count(2)))
    kept = next(found for found in names if not os.path.lexists(found))
    try:
        os.link(path, kept)
    except OSError:  # a file system without hard links
        _copy_all(path, kept)
    else:
        sync_folder(kept)
    return kept


def _copy_all(path: str, target: str) -> None:
    """Copies all bytes of a file, with its times, mode and owner, to a new name, which it has once they are synced."""
    with beside(target) as new:
        shutil.copy2(path, new)
        take_mode(path, new)
        put_in_place(new, target, overwrite=False)
