"""Checks a journal from its text alone: each check of docs/formats.md, "The journal", in its order.

A damage has the place of the first line that fails, counted from 0, and the name of the check, as the program reports
them with status 3; besides, `reason` has the cause in words. (This package is not proved; the program is.)

    >>> check_lines([])
    Audit(blocks=0, revisions=0)
    >>> check_lines([b"{}"])
    Traceback (most recent call last):
    ledger.checks.Damage: line 0: NotALine (fields in place of those of a block)
"""
from __future__ import annotations

from collections.abc import Callable, Iterable
from typing import NamedTuple, Optional

from .blocks import Address, Block, Change, NotALine, Redaction, Revision, read_block
from .hashing import dot, hash_value
from .ids import Id, id_number

MOST_BLOCKS = (1 << 32) - 1


class Damage(Exception):
    """The first damaged line of a journal, counted from 0, the check that it fails, and the cause in words."""

    def __init__(self, sequence: int, kind: str, reason: str) -> None:
        super().__init__(f"line {sequence}: {kind} ({reason})")
        self.sequence = sequence
        self.kind = kind
        self.reason = reason


Named = tuple[Address, str, str]  # a revision, by the address of its block, its table and its document


def named_of(revision: Revision) -> Named:
    """How a redaction names a revision."""
    return (revision.address, revision.table, revision.id)


class Audit(NamedTuple):
    """How many blocks a journal has, and how many revisions these have."""

    blocks: int
    revisions: int


class Latest(NamedTuple):
    """The latest revision of a document."""

    address: Address
    table: str
    version: int
    deleted: bool


class _State:
    """What the blocks so far left: active tables, indexes and the latest revision of each document."""

    def __init__(self) -> None:
        self.names: dict[str, str] = {}  # the ids of active tables by their names
        self.active: set[str] = set()
        self.indexes: set[tuple[str, str]] = set()
        self.latest: dict[str, Latest] = {}
        self.revisions: set[Named] = set()  # all of them
        self.redacted: set[Named] = set()

    def change(self, change: Change) -> Optional[str]:
        """Makes a change of the schema, or returns why it can't be made."""
        if change.kind == "create":
            if change.name in self.names:
                return f"creates the table {change.name!r} that is there"
            self.names[change.name] = change.table
            self.active.add(change.table)
        elif change.kind == "index":
            if change.table not in self.active or (change.table, change.name) in self.indexes:
                return f"makes an index on {change.name!r} of a table that isn't active or has one"
            self.indexes.add((change.table, change.name))
        else:
            if self.names.get(change.name) != change.table:
                return f"drops the table {change.name!r}, which isn't active with this id"
            del self.names[change.name]
            self.active.discard(change.table)
        return None

    def redact(self, redaction: Redaction) -> Optional[str]:
        """Redacts an earlier revision, or returns why it can't be redacted."""
        if redaction not in self.revisions:
            return "redacts what is no earlier revision"
        if self.latest[redaction.document].address == redaction.address:
            return "redacts the latest revision of its document"
        if redaction in self.redacted:
            return "redacts what is redacted"
        self.redacted.add(redaction)
        return None

    def revision_fault(self, revision: Revision, tables: set[str]) -> Optional[str]:
        """Why a revision doesn't follow the latest one of its document, if it doesn't."""
        if revision.table not in tables:
            return "a revision of a table that isn't active"
        last = self.latest.get(revision.id)
        if last is None:
            fits = revision.version == 0 and not revision.deleted
            return None if fits else "a new document without version 0 or without content"
        if last.deleted or (revision.table, revision.version) != (last.table, last.version + 1):
            return "a revision of a deleted document, of another table or of another version than the next"
        return None


class Checker:
    """Takes the lines of a journal in order. After a damage it takes no more."""

    def __init__(self) -> None:
        self.audit = Audit(0, 0)
        self._strand = ""
        self._mask = 0
        self._last: Optional[Block] = None
        self._transactions: set[str] = set()
        self._state = _State()
        self._untold: list[int] = []  # blocks with a hash for their statements, behind the last redaction
        self._hashed: list[tuple[int, Named]] = []  # revisions with a hash for their data, and their blocks

    def take(self, line: bytes) -> Block:
        """The block of the next line, without its line feed. Raises `Damage` if it fails a check."""
        try:
            block = read_block(line)
        except NotALine as error:
            raise Damage(self.audit.blocks, "NotALine", str(error)) from None
        if self._last is None:
            self._strand = block.address.strand
            self._mask = id_number(self._strand) or 0
        for kind, check in self._checks():
            reason = check(block)
            if reason is not None:
                raise Damage(self.audit.blocks, kind, reason)
        self._last = block
        self._transactions.add(block.transaction_id)
        self._keep_hashes(block)
        self.audit = Audit(self.audit.blocks + 1, self.audit.revisions + len(block.revisions))
        return block

    def _keep_hashes(self, block: Block) -> None:
        """Keeps which hashes in place of data and of statements a block has yet to ask for."""
        place = self.audit.blocks
        if block.statements_hash is not None:
            self._untold.append(place)
        if block.redactions:
            self._untold.clear()
        self._hashed += [(place, named_of(one)) for one in block.revisions if one.data_hash is not None]

    def end(self) -> Audit:
        """What was taken, as a whole journal. Raises `Damage` if a hash stands for data or statements and isn't asked for."""
        places = self._untold[:1] + [place for place, named in self._hashed if named not in self._state.redacted]
        if places:
            raise Damage(min(places), "Unasked", "a hash in place of data or statements that no block redacts")
        return self.audit

    def _checks(self) -> list[tuple[str, Callable[[Block], Optional[str]]]]:
        """The checks in their order; each returns why a block fails it, or `None`."""
        return [
            ("WrongAddress", self._address), ("WrongId", self._id), ("TimeFell", self._time),
            ("WrongPrevious", self._previous), ("WrongHash", self._hashes), ("WrongState", self._follows),
        ]

    def _address(self, block: Block) -> Optional[str]:
        place = self.audit.blocks
        if block.address != (self._strand, place) or place >= MOST_BLOCKS:
            return f"block {block.address.sequence} of strand {block.address.strand}"
        return None

    def _id(self, block: Block) -> Optional[str]:
        found = Id.of(block.transaction_id, self._mask)
        if found.thing != 0 or not 1 <= found.number < 1 << 64:
            return "not the id of a transaction of the strand"
        return "the id of an earlier block" if block.transaction_id in self._transactions else None

    def _time(self, block: Block) -> Optional[str]:
        if self._last is not None and block.time.instant() < self._last.time.instant():
            return f"{block.time} is before {self._last.time}"
        return None

    def _previous(self, block: Block) -> Optional[str]:
        wanted = self._last.hash if self._last else hash_value(self._strand)
        return None if block.previous_hash == wanted else "not the hash of the block before"

    def _hashes(self, block: Block) -> Optional[str]:
        for revision in block.revisions:
            if revision.hash != revision.computed_hash():
                return f"the hash of revision {revision.index}"
        computed = block.computed_list()
        if block.entries_list != computed:
            return "a member of the list of hashes"
        entries = dot(dot(computed[0], computed[1]), computed[2])
        if block.entries_hash != entries:
            return "the hash of the entries"
        return None if block.hash == dot(entries, block.previous_hash) else "the hash of the block"

    def _follows(self, block: Block) -> Optional[str]:
        tables = self._state.active | {change.table for change in block.schema if change.kind == "create"}
        for change in block.schema:
            reason = self._state.change(change)
            if reason is not None:
                return reason
        for redaction in block.redactions:
            reason = self._state.redact(redaction)
            if reason is not None:
                return reason
        return self._ids_fault(block) or self._revisions_fault(block, tables)

    def _ids_fault(self, block: Block) -> Optional[str]:
        """Why the ids of the new tables and documents don't follow, if they don't."""
        made = [change.table for change in block.schema if change.kind == "create"]
        made += [revision.id for revision in block.revisions if revision.id not in self._state.latest]
        number = Id.of(block.transaction_id, self._mask).number
        for text in made:
            found = Id.of(text, self._mask)
            if found.number != number or found.thing < 1:
                return f"{text} isn't the id of a thing of its transaction"
        return None if len(set(made)) == len(made) else "two things of one id"

    def _revisions_fault(self, block: Block, tables: set[str]) -> Optional[str]:
        """Takes the revisions, or returns why they don't follow."""
        of_block = (block.address, block.time, block.transaction_id)
        if len({revision.id for revision in block.revisions}) != len(block.revisions):
            return "two revisions of one document"
        for revision in block.revisions:
            if (revision.address, revision.time, revision.transaction_id) != of_block:
                return "a revision of another block, time or transaction"
            reason = self._state.revision_fault(revision, tables)
            if reason is not None:
                return reason
        for revision in block.revisions:
            self._state.latest[revision.id] = Latest(revision.address, revision.table, revision.version, revision.deleted)
            self._state.revisions.add(named_of(revision))
        return None


def check_lines(lines: Iterable[bytes]) -> Audit:
    """The number of blocks and revisions of the lines of a journal, without their line feeds. Raises `Damage`."""
    checker = Checker()
    for line in lines:
        checker.take(line)
    return checker.end()


def whole_lines(data: bytes) -> tuple[list[bytes], bytes]:
    """The lines of a journal without their line feeds, and the bytes after the last line feed, which are no line."""
    *lines, rest = data.split(b"\n")
    return lines, rest
