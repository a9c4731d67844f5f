"""A journal's file as tables, documents and revisions, read from the file alone.

Reading takes no lock, writes nothing and leaves no block, so it works beside a run and on read-only media: what a run
is about to append, or the rest of a torn line, isn't there yet. Every line is checked on the way, as `ledger.checks`
does; a damaged line ends the reading, and `damage` says which. (This package is not proved; the program is.)

    >>> journal = Journal.of_lines([])
    >>> journal.blocks, journal.damage, journal.tables
    ([], None, [])

With a real one, `journal = Journal.read("accounts.journal")`:

    journal.rows("accounts")                                  # the documents that are there
    journal.rows("accounts", as_of=Timestamp(2024, 1, 31))    # those that were there at the end of that day
    journal.digest().value()                                  # as `ledger JOURNAL digest` writes it
"""
from __future__ import annotations

import base64
import os
import re
import time
from collections.abc import Callable, Iterable, Iterator
from dataclasses import dataclass, field
from decimal import Decimal
from typing import NamedTuple, Optional, Union

from .blocks import Address, Block, Change, NotALine, Place, Revision, read_block
from .checks import Checker, Damage
from .hashing import GrowingTree, root
from .ion import Struct, Timestamp, Value, bare, write

PathLike = Union[str, "os.PathLike[str]"]
LINE_START = b'{blockAddress:{strandId:"'
NANOS = 10**9
DAY = 86_400 * NANOS


class NotAJournal(ValueError):
    """A file without a line feed that doesn't begin as a journal does."""


class NoSuchTable(KeyError):
    """No table has this name."""

    def __str__(self) -> str:
        return str(self.args[0])


@dataclass
class Table:
    """A table, from the block that made it to the one that dropped it, if it was dropped."""

    name: str
    id: str
    made: int
    dropped: Optional[int] = None
    indexes: list[str] = field(default_factory=list)


class Digest(NamedTuple):
    """The digest of a journal up to a block, the tip."""

    digest: bytes
    tip: Address

    @classmethod
    def of(cls, value: Value) -> "Digest":
        """The digest of its Ion value. Raises `ValueError` if it is the value of none."""
        try:
            tip = value["digestTipAddress"]
            found = cls(value["digest"], Address(tip["strandId"], tip["sequenceNo"]))
        except (KeyError, TypeError):
            raise ValueError("no digest") from None
        if type(found.digest) is not bytes or len(found.digest) != 32 or type(found.tip.sequence) is not int:
            raise ValueError("no digest")
        return found

    def value(self) -> Struct:
        """The digest as an Ion value."""
        tip = Struct([("strandId", self.tip.strand), ("sequenceNo", self.tip.sequence)])
        return Struct([("digest", self.digest), ("digestTipAddress", tip)])


def last_moment(time: Timestamp) -> int:
    """The last billionth of a second, counted since 1970, of the year, month, day, minute or second that a timestamp
    names.

    >>> last_moment(Timestamp(1970, 1, 1)) == 86_400 * 10**9 - 1
    True
    """
    begin = time.instant()
    if time.month is None:
        return begin + (366 if _is_leap(time.year) else 365) * DAY - 1
    if time.day is None:
        following = (time.year + time.month // 12, time.month % 12 + 1)
        return (Timestamp(*following).instant() if following[0] <= 9999 else begin + 31 * DAY) - 1
    if time.hour is None:
        return begin + DAY - 1
    if time.second is None:
        return begin + 60 * NANOS - 1
    return begin + NANOS // 10 ** len(time.fraction) - 1


def _is_leap(year: int) -> bool:
    return year % 4 == 0 and (year % 100 != 0 or year % 400 == 0)


def read_lines(path: PathLike) -> Iterator[bytes]:
    """The lines of a journal's file with their line feeds; the last one has none if it isn't whole.

    Raises `NotAJournal`, and `OSError` if the file can't be read.
    """
    with open(path, "rb") as file:
        for number, line in enumerate(file):
            if number == 0 and not line.endswith(b"\n") and line[:len(LINE_START)] != LINE_START[:len(line)]:
                raise NotAJournal(f"{os.fspath(path)} is no journal")
            yield line


# ---- the file, without reading the blocks in it

_ID = rb'"([0-9A-Za-z]{22})"'
_HASH = rb"\{\{([0-9A-Za-z+/]{43}=|)\}\}"
_FRONT = re.compile(
    rb"\{blockAddress:\{strandId:" + _ID + rb",sequenceNo:([0-9]+)\},transactionId:" + _ID + rb",blockTimestamp:[^,]+,blockHash:"
    + _HASH + rb",entriesHash:" + _HASH + rb",previousBlockHash:" + _HASH + rb",entriesHashList:\[" + b",".join([_HASH] * 3)
    + rb"\],transactionInfo:\{place:\{session:([0-9]+),transaction:([0-9]+)\},"
)
PIECE = 1 << 16
LONGEST_REST = 1 << 26  # bytes of a rest that are still read


class Front(NamedTuple):
    """What the front of a block's line says, taken from its fixed place and not checked."""

    address: Address
    transaction_id: str
    hash: bytes
    place: Place


def front_of(line: bytes) -> Optional[Front]:
    """What the front of a line says, `None` if the line doesn't begin as a block's."""
    found = _FRONT.match(line)
    if found is None:
        return None
    strand, sequence, transaction, block_hash, *_, session, place = (text.decode("ascii") for text in found.groups())
    address = Address(strand, int(sequence))
    return Front(address, transaction, base64.b64decode(block_hash), Place(int(session), int(place)))


def fronts(path: PathLike, progress: Optional[Callable[[int], None]] = None) -> Iterator[Front]:
    """The fronts of the whole lines of a file, up to the first line that doesn't begin as a block's.

    Nothing is checked, so this is as fast as the file is read: for a journal that the program has checked.
    """
    size = 0
    with open(path, "rb") as file:
        for line in file:
            found = front_of(line) if line.endswith(b"\n") else None
            if found is None:
                return
            size += len(line)
            if progress is not None:
                progress(size)
            yield found


def match_digests(blocks: Iterable[tuple[Address, bytes]], published: Iterable[Digest]) -> list[bool]:
    """Whether each digest is that of the blocks, given by their addresses and hashes, in one pass over them."""
    wanted = list(published)
    tips = {digest.tip for digest in wanted}
    tree, found = GrowingTree(), {}
    for address, block_hash in blocks:
        tree.add(block_hash)
        if address in tips:
            found[address] = tree.root()
    return [found.get(digest.tip) == digest.digest for digest in wanted]


def rest_size(path: PathLike) -> int:
    """How many bytes stand after the last line feed of a file, which is read from its end; 0 if it is no regular file.

    >>> rest_size("/dev/null")
    0
    """
    if not os.path.isfile(path):
        return 0
    with open(path, "rb") as file:
        size = end = file.seek(0, os.SEEK_END)
        while end > 0:
            begin = max(end - PIECE, 0)
            file.seek(begin)
            at = file.read(end - begin).rfind(b"\n")
            if at >= 0:
                return size - (begin + at + 1)
            end = begin
        return size


def rest_words(path: PathLike) -> Optional[str]:
    """A warning in words of a rest after the last line feed, `None` if there is none or the file can't be read.

    What a run is just appending is no rest: it is looked at twice. The rest may be a whole block whose line feed an
    editor or a shell took away; the next run would cut it off and report nothing of it.
    """
    try:
        size = rest_size(path)
        if size:
            time.sleep(0.02)
        if size == 0 or rest_size(path) != size:
            return None
    except OSError:
        return None
    words = f"{os.fspath(path)}: {size} bytes after the last line feed are no block; the next run cuts them off"
    return words + (". They are a whole block without its line feed, as an editor or a shell leaves it" if _is_block(path, size) else "")


def _is_block(path: PathLike, size: int) -> bool:
    """Whether the last so many bytes of a file are the line of a block."""
    if size > LONGEST_REST:
        return False
    with open(path, "rb") as file:
        file.seek(-size, os.SEEK_END)
        rest = file.read()
    try:
        read_block(rest)
    except NotALine:
        return False
    return True


@dataclass
class Journal:
    """The blocks of a journal up to the first damaged line, and what they made of tables and documents."""

    blocks: list[Block] = field(default_factory=list)
    tables: list[Table] = field(default_factory=list)
    # The revisions of each document, oldest first, without the data that a block redacts; `blocks` may have them still.
    documents: dict[str, list[Revision]] = field(default_factory=dict)
    damage: Optional[Damage] = None
    rest: int = 0  # how many bytes stand after the last line feed

    @classmethod
    def read(cls, path: PathLike, progress: Optional[Callable[[int], None]] = None) -> "Journal":
        """The journal in a file. `progress` is called with the number of bytes that were read, after each line."""
        return cls.of_lines(read_lines(path), progress)

    @classmethod
    def of_lines(cls, lines: Iterable[bytes], progress: Optional[Callable[[int], None]] = None) -> "Journal":
        """The journal of lines with their line feeds; a last one without is the rest."""
        journal, checker, size = cls(), Checker(), 0
        for line in lines:
            if not line.endswith(b"\n"):
                journal.rest = len(line)
                break
            try:
                journal._take(checker.take(line[:-1]))
            except Damage as damage:
                journal.damage = damage
                break
            size += len(line)
            if progress is not None:
                progress(size)
        if journal.damage is None:
            try:
                checker.end()
            except Damage as damage:
                journal = cls._before(damage, journal)
        return journal

    @classmethod
    def _before(cls, damage: Damage, journal: "Journal") -> "Journal":
        """What stands before a damage that only the end of the journal shows."""
        found = cls(damage=damage, rest=journal.rest)
        for block in journal.blocks[:damage.sequence]:
            found._take(block)
        return found

    def _take(self, block: Block) -> None:
        self.blocks.append(block)
        for change in block.schema:
            self._change(change, block.address.sequence)
        for redaction in block.redactions:
            revisions = self.documents[redaction.document]
            at = next(at for at, revision in enumerate(revisions) if revision.address == redaction.address)
            revisions[at] = revisions[at].redacted()
        for revision in block.revisions:
            self.documents.setdefault(revision.id, []).append(revision)

    def _change(self, change: Change, sequence: int) -> None:
        if change.kind == "create":
            self.tables.append(Table(change.name, change.table, sequence))
            return
        table = next(table for table in self.tables if table.id == change.table)
        if change.kind == "index":
            table.indexes.append(change.name)
        else:
            table.dropped = sequence

    # ---- tables and documents

    def table(self, name: str) -> Table:
        """The table of this name, the last one if it was dropped and made again, or of this id. Raises `NoSuchTable`."""
        for table in reversed(self.tables):
            if name in (table.name, table.id):
                return table
        names = ", ".join(dict.fromkeys(table.name for table in self.tables)) or "none"
        raise NoSuchTable(f"no table {name}; the tables are: {names}")

    def histories(self, name: str) -> Iterator[list[Revision]]:
        """The revisions of each document of a table, oldest first, in the order in which the documents were
        inserted."""
        table = self.table(name).id
        return (revisions for revisions in self.documents.values() if revisions[0].table == table)

    def rows(self, name: str, as_of: Optional[Timestamp] = None) -> list[Revision]:
        """The latest revision of each document of a table that isn't deleted, or the latest up to the end of
        `as_of`."""
        found = (latest(revisions, as_of) for revisions in self.histories(name))
        return [revision for revision in found if revision is not None and not revision.deleted]

    def with_value(self, name: str, field_name: str, value: Value) -> list[list[Revision]]:
        """The revisions of each document of a table of which one has a value that equals this one in the field, as in
        a statement."""
        return [revisions for revisions in self.histories(name) if any(_has(r, field_name, value) for r in revisions)]

    def revision(self, document: str, version: int) -> Optional[Revision]:
        """A document's revision of a version; its `address.sequence` and `index` are the words SEQ and INDEX of
        `prove`."""
        revisions = self.documents.get(document, [])
        return revisions[version] if 0 <= version < len(revisions) else None

    def revisions(self) -> Iterator[Revision]:
        """All revisions in the order of their blocks."""
        return (revision for block in self.blocks for revision in block.revisions)

    # ---- digests

    def digest(self, tip: Optional[int] = None) -> Digest:
        """The digest up to a block, the last one if none is named. Raises `IndexError` if there is no such block."""
        at = len(self.blocks) - 1 if tip is None else tip
        if not 0 <= at < len(self.blocks):
            raise IndexError(f"no block {max(at, 0)} of {len(self.blocks)}")
        return Digest(root([block.hash for block in self.blocks[:at + 1]]), self.blocks[at].address)

    def match(self, published: Iterable[Digest]) -> list[bool]:
        """Whether each digest is the journal's own, in one pass over the blocks."""
        return match_digests(((block.address, block.hash) for block in self.blocks), published)


def latest(revisions: list[Revision], as_of: Optional[Timestamp] = None) -> Optional[Revision]:
    """The latest of a document's revisions, or of those up to the end of `as_of`; `None` if there is none."""
    if as_of is None:
        return revisions[-1]
    end = last_moment(as_of)
    return next((revision for revision in reversed(revisions) if revision.time.instant() <= end), None)


def _has(revision: Revision, field_name: str, value: Value) -> bool:
    data = bare(revision.data)
    return isinstance(data, Struct) and field_name in data and equal(data[field_name], value)


def equal(one: Value, other: Value) -> bool:
    """Whether two values are equal as in a statement: numbers by value, strings and symbols by text, timestamps by
    moment."""
    one, other = bare(one), bare(other)
    for kinds in ((int, Decimal), str, Timestamp):
        if isinstance(one, kinds) and isinstance(other, kinds) and not isinstance(one, bool) and not isinstance(other, bool):
            return one.instant() == other.instant() if isinstance(one, Timestamp) else one == other
    return write(one) == write(other)
