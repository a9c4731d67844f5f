"""Blocks and their revisions, read from the lines of a journal.

The rules are those of docs/formats.md, "Revisions", "Blocks" and "The journal".

`read_block` reads one line and refuses what isn't the line of a whole block, spelled as the program spells it.
Whether the block fits those before it is for `ledger.checks`. (This package is not proved; the program is.)

    >>> read_block(b"{}")
    Traceback (most recent call last):
    ledger.blocks.NotALine: fields in place of those of a block
"""
from __future__ import annotations

from dataclasses import dataclass, field, replace
from typing import Any, NamedTuple, Optional, Union

from . import ion
from .hashing import dot, field_hash, hash_value, root, struct_hash
from .ids import id_number
from .ion import Struct, Timestamp, Value, bare

BLOCK_FIELDS = [
    "blockAddress", "transactionId", "blockTimestamp", "blockHash", "entriesHash", "previousBlockHash", "entriesHashList",
    "transactionInfo", "revisions",
]
DOCUMENT_DEPTH = 64


class NotALine(ValueError):
    """Bytes that aren't the line of a whole block, with the reason in words."""


class Address(NamedTuple):
    """Where a block stands: the id of the journal's strand, and the block's number, counted from 0."""

    strand: str
    sequence: int


class Place(NamedTuple):
    """A transaction's place in its script: the session and the transaction, both counted from 1."""

    session: int
    transaction: int


class Said(NamedTuple):
    """One statement of a transaction: its text, its parameters, and the rows of its answer."""

    text: str
    parameters: list[Value]
    answer: list[Value]


class Change(NamedTuple):
    """A change of the schema: `create` and `drop` of a table by its name, or `index` on a field."""

    kind: str
    name: str
    table: str


class Redaction(NamedTuple):
    """The redaction of the revision of a document in the block at an address; `table` is the id of its table."""

    address: Address
    table: str
    document: str


@dataclass(frozen=True)
class Revision:
    """What a transaction made of one document. `table` is the id of its table, and `index` its place in its block.

    A redacted revision has the hash of its data as `data_hash` in place of `data`.
    """

    address: Address
    index: int
    hash: bytes
    deleted: bool
    data: Value  # None if it is deleted or redacted
    metadata: Struct
    id: str
    version: int
    time: Timestamp
    transaction_id: str
    table: str
    data_hash: Optional[bytes] = None  # None unless it is redacted

    def content_hash(self) -> bytes:
        """The hash of its data, and no bytes if it is deleted."""
        return self.data_hash or (b"" if self.deleted else hash_value(self.data))

    def computed_hash(self) -> bytes:
        """The hash of its metadata and its data, which `hash` has to be."""
        return dot(hash_value(self.metadata), self.content_hash())

    def redacted(self) -> Revision:
        """The revision with the hash of its data in their place."""
        return self if self.deleted else replace(self, data=None, data_hash=self.content_hash())


@dataclass(frozen=True)
class Block:
    """A committed transaction. `value` is the whole of it as an Ion value."""

    address: Address
    transaction_id: str
    time: Timestamp
    hash: bytes
    entries_hash: bytes
    previous_hash: bytes
    entries_list: list[bytes]
    place: Place
    statements: list[Said]  # empty if their hash stands in their place
    schema: list[Change]
    redactions: list[Redaction]
    revisions: list[Revision]
    value: Struct = field(repr=False)
    statements_hash: Optional[bytes] = None  # None unless it stands in place of the statements

    def header(self) -> Struct:
        """The header, which stands in no field: its hash is the last of `entries_list`."""
        fields = self.value.fields[:3] + [("revisionCount", len(self.revisions))]
        return Struct(fields)

    def computed_list(self) -> list[bytes]:
        """The hashes of what it said and did, of its revisions and of its header, which `entries_list` has to be."""
        revisions = root([revision.hash for revision in self.revisions])
        return [self._info_hash(), revisions, hash_value(self.header())]

    def _info_hash(self) -> bytes:
        """The hash of what it said and did, in which a hash may stand for its statements."""
        fields = self.value["transactionInfo"].fields
        return struct_hash(value if name == "statementsHash" else field_hash(name, value) for name, value in fields)


# ---- parts


def _need(holds: bool, what: str) -> None:
    if not holds:
        raise NotALine(what)


def _fields(value: Value, names: list[str], of: str) -> list[Any]:
    """The values of a struct's fields, which have these names in this order."""
    _need(type(value) is Struct and value.keys() == names, f"fields in place of those of {of}")
    return value.values()


def _number(value: Value, bits: int) -> int:
    _need(type(value) is int and 0 <= value < 1 << bits, f"no number of {bits} bits")
    return value


def _string(value: Value) -> str:
    _need(type(value) is str, "no string")
    return value


def _id(value: Value) -> str:
    _need(id_number(_string(value)) is not None, "no id")
    return value


def _hash(value: Value) -> bytes:
    _need(type(value) is bytes and len(value) == 32, "no hash")
    return value


def _time(value: Value) -> Timestamp:
    _need(type(value) is Timestamp, "no timestamp")
    return value


def _list(value: Value) -> list[Any]:
    _need(type(value) is list, "no list")
    return value


def _address(value: Value) -> Address:
    strand, sequence = _fields(value, ["strandId", "sequenceNo"], "an address")
    return Address(_id(strand), _number(sequence, 64))


def depth(value: Value) -> int:
    """How deep a value nests, counted in containers."""
    value = bare(value)
    if isinstance(value, Struct):
        return 1 + max(map(depth, value.values()), default=0)
    return 1 + max(map(depth, value), default=0) if isinstance(value, list) else 0


# ---- revisions, and what a transaction said and did


def _revision(value: Value, index: int, document: Value) -> Revision:
    deleted = type(value) is Struct and len(value) == 3
    redacted = not deleted and type(value) is Struct and "dataHash" in value
    content_name = [] if deleted else ["dataHash" if redacted else "data"]
    names = ["blockAddress", "hash", *content_name, "metadata"]
    address, stated, *content, metadata = _fields(value, names, "a revision")
    made, version, time, transaction_id = _fields(metadata, ["id", "version", "txTime", "txId"], "metadata")
    _need(deleted or redacted or depth(content[0]) <= DOCUMENT_DEPTH, "a document that nests too deep")
    of_document, table = _fields(document, ["documentId", "tableId"], "a document")
    _need(_id(of_document) == _id(made), "the document of another revision")
    return Revision(
        _address(address), index, _hash(stated), deleted, None if deleted or redacted else content[0], metadata, made,
        _number(version, 64), _time(time), _id(transaction_id), _id(table), _hash(content[0]) if redacted else None,
    )


def _said(value: Value) -> Said:
    text, parameters, answer = _fields(value, ["statement", "parameters", "answer"], "a statement")
    return Said(_string(text), _list(parameters), _list(answer))


def _change(value: Value) -> Union[Change, Redaction]:
    _need(type(value) is Struct and len(value) in (2, 3), "no change of the schema")
    if len(value) == 3:
        address, table, document = _fields(value, ["redact", "tableId", "documentId"], "a redaction")
        return Redaction(_address(address), _id(table), _id(document))
    kind, name = value.fields[0]
    _need(kind in ("create", "index", "drop"), "no change of the schema")
    _, table = _fields(value, [kind, "tableId"], "a change of the schema")
    return Change(kind, _string(name), _id(table))


def _place(value: Value) -> Place:
    session, transaction = _fields(value, ["session", "transaction"], "a place")
    return Place(_number(session, 32), _number(transaction, 32))


# ---- blocks


def _entry(value: Value) -> bytes:
    return b"" if type(value) is bytes and not value else _hash(value)


def block_of(value: Value) -> Block:
    """The block of a value. Raises `NotALine` if it is the value of no block."""
    address, transaction_id, time, block_hash, entries, previous, hashes, info, found = _fields(value, BLOCK_FIELDS, "a block")
    hashed = type(info) is Struct and "statementsHash" in info
    told = "statementsHash" if hashed else "statements"
    place, statements, schema, documents = _fields(info, ["place", told, "schema", "documents"], "transactionInfo")
    _need(len(_list(hashes)) == 3, "no list of three hashes")
    _need(len(_list(found)) == len(_list(documents)), "not a document for each revision")
    changes = list(map(_change, _list(schema)))
    return Block(
        _address(address), _id(transaction_id), _time(time), _hash(block_hash), _hash(entries), _hash(previous),
        list(map(_entry, hashes)), _place(place), [] if hashed else list(map(_said, _list(statements))),
        [entry for entry in changes if isinstance(entry, Change)], [entry for entry in changes if isinstance(entry, Redaction)],
        [_revision(revision, index, document) for index, (revision, document) in enumerate(zip(found, documents))],
        value, _hash(statements) if hashed else None,
    )


def read_block(line: bytes) -> Block:
    """The whole block of a line without its line feed. Raises `NotALine` if it is the line of no block."""
    try:
        value = ion.read_one(line, ion.JOURNAL_DEPTH)
    except ValueError as error:
        raise NotALine(str(error)) from None
    block = block_of(value)
    _need(ion.write(value).encode("utf-8") == line, "spelled otherwise than the program spells it")
    return block
