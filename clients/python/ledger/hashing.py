"""Hashes of values, of pairs and of trees, and commit digests.

The rules are those of docs/formats.md, "Hashes of values", "Hashes of pairs, and trees of hashes", "Commit digests"
and "Digests and proofs". SHA-256 is Python's own. (This package is not proved; the program is.)

    >>> hash_value("0000000000000000000000").hex()[:16]  # the hash of a strand, before block 0 of the README's journal
    'e779492d1e26a898'
    >>> leaves = [hash_value(number) for number in range(3)]
    >>> root(leaves) == dot(dot(leaves[0], leaves[1]), dot(leaves[2], PAD))
    True
    >>> root(leaves) == fold(leaves[1], path(leaves, 1))
    True
"""
from __future__ import annotations

import hashlib
import re
from collections.abc import Iterable, Mapping, Sequence
from datetime import date
from decimal import Decimal

from .ion import decimal_parts
from .values import Annotated, Clob, Null, Sexp, Struct, Symbol, Timestamp, Value

_NULLS = {
    "bool": 0x1F, "int": 0x2F, "decimal": 0x5F, "timestamp": 0x6F, "symbol": 0x7F, "string": 0x8F, "clob": 0x9F,
    "blob": 0xAF, "list": 0xBF, "sexp": 0xCF, "struct": 0xDF,
}
_CONTROL = re.compile(rb"[\x0b\x0c\x0e]")


def sha256(data: bytes) -> bytes:
    """The SHA-256 digest of the bytes."""
    return hashlib.sha256(data).digest()


# ---- numbers in bytes


def _magnitude(number: int) -> bytes:
    """The number's bytes, the most significant first, without zero bytes in front; none for 0."""
    return number.to_bytes((number.bit_length() + 7) // 8, "big")


def _var_uint(number: int) -> bytes:
    found = bytearray([number & 0x7F | 0x80])
    while number := number >> 7:
        found.insert(0, number & 0x7F)
    return bytes(found)


def _var_int(number: int) -> bytes:
    magnitude = abs(number)
    groups = [magnitude & 0x7F]
    while magnitude := magnitude >> 7:
        groups.insert(0, magnitude & 0x7F)
    if groups[0] & 0x40:
        groups.insert(0, 0)
    groups[0] |= 0x40 if number < 0 else 0
    groups[-1] |= 0x80
    return bytes(groups)


def _int(magnitude: int, minus: bool) -> bytes:
    """The magnitude with its sign in the top bit. A positive zero takes no bytes, a negative one is 80."""
    if magnitude == 0:
        return b"\x80" if minus else b""
    found = bytearray(magnitude.to_bytes(magnitude.bit_length() // 8 + 1, "big"))
    found[0] |= 0x80 if minus else 0
    return bytes(found)


# ---- serializations


def _frame(type_byte: int, content: bytes) -> bytes:
    return b"\x0b" + bytes([type_byte]) + content + b"\x0e"


def _scalar(type_byte: int, representation: bytes) -> bytes:
    return _frame(type_byte, _escape(representation))


def _escape(content: bytes) -> bytes:
    return _CONTROL.sub(lambda found: b"\x0c" + found[0], content)


def _symbol(text: str) -> bytes:
    return _scalar(0x70, text.encode("utf-8"))


def _decimal(number: Decimal) -> bytes:
    minus, coefficient, exponent = decimal_parts(number)
    if (minus, coefficient, exponent) == (False, 0, 0):
        return b""
    return _var_int(exponent) + _int(coefficient, minus)


def _timestamp(time: Timestamp) -> bytes:
    offset = b"\xc0" if time.offset is None else _var_int(time.offset)
    fraction = _var_int(-len(time.fraction)) + _int(int(time.fraction), False) if time.fraction else b""
    return offset + b"".join(map(_var_uint, time.in_utc().parts())) + fraction


def _struct(fields: Iterable[tuple[str, Value]]) -> bytes:
    return _struct_form(field_hash(name, value) for name, value in fields)


def _struct_form(hashes: Iterable[bytes]) -> bytes:
    return _frame(0xD0, _escape(b"".join(sorted(hashes))))


def _annotated(value: Annotated) -> bytes:
    names, inner = list(value.annotations), value.value
    while isinstance(inner, Annotated):
        names, inner = names + list(inner.annotations), inner.value
    if not names:
        return serialize(inner)
    return _frame(0xE0, b"".join(map(_symbol, names)) + serialize(inner))


def _container(value: Value) -> bytes:
    if isinstance(value, (Struct, Mapping)):
        return _struct(value.items())
    if isinstance(value, (list, tuple)):
        return _frame(0xC0 if isinstance(value, Sexp) else 0xB0, b"".join(map(serialize, value)))
    if isinstance(value, Annotated):
        return _annotated(value)
    raise TypeError(f"no Ion value: {type(value).__name__}")


def serialize(value: Value) -> bytes:
    """The bytes of a value by Ion Hash 1.0. Raises `TypeError` or `ValueError` if it is no value of the profile."""
    if value is None:
        return _frame(0x0F, b"")
    if isinstance(value, bool):
        return _frame(0x11 if value else 0x10, b"")
    if isinstance(value, int):
        return _scalar(0x30 if value < 0 else 0x20, _magnitude(abs(value)))
    if isinstance(value, str):
        return _scalar(0x70 if isinstance(value, Symbol) else 0x80, value.encode("utf-8"))
    if isinstance(value, (bytes, bytearray)):
        return _scalar(0x90 if isinstance(value, Clob) else 0xA0, bytes(value))
    if isinstance(value, Decimal):
        return _scalar(0x50, _decimal(value))
    if isinstance(value, date):
        value = Timestamp.of(value)
    if isinstance(value, Timestamp):
        return _scalar(0x60, _timestamp(value))
    return _frame(_NULLS[value.kind], b"") if isinstance(value, Null) else _container(value)


def hash_value(value: Value) -> bytes:
    """The hash of a value, 32 bytes."""
    return sha256(serialize(value))


def field_hash(name: str, value: Value) -> bytes:
    """The hash of a field of a struct: of its name as a symbol, and of its value."""
    return sha256(_symbol(name) + serialize(value))


def struct_hash(hashes: Iterable[bytes]) -> bytes:
    """The hash of a struct, from the hashes of its fields."""
    return sha256(_struct_form(hashes))


# ---- pairs and trees

PAD = hash_value(Symbol("pad"))  # stands in the further places of a tree


def _order(digest: bytes) -> bytes:
    """Orders digests as the pairs do: from the last byte to the first, each as a signed byte."""
    return bytes(byte ^ 0x80 for byte in reversed(digest))


def dot(a: bytes, b: bytes) -> bytes:
    """The hash of two hashes, in either order; of an empty one and another it is the other."""
    if not a or not b:
        return a or b
    return sha256(a + b if _order(a) < _order(b) else b + a)


def height(leaves: int) -> int:
    """The least h with 2^h >= `leaves`, so 0 for one leaf and for none."""
    return max(leaves - 1, 0).bit_length()


def _levels(leaves: Sequence[bytes]) -> list[list[bytes]]:
    """The nodes of the tree over the leaves, level by level from the padded leaves to the root."""
    level = list(leaves) + [PAD] * ((1 << height(len(leaves))) - len(leaves))
    levels = [level]
    while len(level) > 1:
        level = [dot(level[at], level[at + 1]) for at in range(0, len(level), 2)]
        levels.append(level)
    return levels


def root(leaves: Sequence[bytes]) -> bytes:
    """The root of the tree over the leaves, the empty hash if there are none."""
    return _levels(leaves)[-1][0] if leaves else b""


def path(leaves: Sequence[bytes], index: int) -> list[bytes]:
    """The siblings of a leaf, level by level from the leaves up. Raises `IndexError` if there is no such leaf."""
    if not 0 <= index < len(leaves):
        raise IndexError(index)
    return [level[(index >> number) ^ 1] for number, level in enumerate(_levels(leaves)[:-1])]


def fold(start: bytes, hashes: Iterable[bytes]) -> bytes:
    """The `dot` of what there is with each hash in turn."""
    for digest in hashes:
        start = dot(start, digest)
    return start


class GrowingTree:
    """The root of a tree after any further leaf, in time of the tree's height.

    >>> tree = GrowingTree()
    >>> [tree.push(PAD) == root([PAD] * (count + 1)) for count in range(5)]
    [True, True, True, True, True]
    """

    def __init__(self) -> None:
        self.count = 0
        self._whole: list[bytes] = []  # roots of whole subtrees by their height, in use if the bit of `count` is set
        self._pads: list[bytes] = [PAD]  # roots of subtrees of pads alone by their height

    def push(self, leaf: bytes) -> bytes:
        """Adds a leaf and returns the root over all leaves."""
        self.add(leaf)
        return self.root()

    def add(self, leaf: bytes) -> None:
        """Adds a leaf."""
        node, level = leaf, 0
        while self.count >> level & 1:
            node = dot(self._whole[level], node)
            level += 1
        self._whole[level:level + 1] = [node]
        self.count += 1

    def root(self) -> bytes:
        """The root over all leaves, the empty hash if there are none."""
        top, node = height(self.count), b""  # the node over the last leaves, if they fill no subtree of this height
        while len(self._pads) < top:
            self._pads.append(dot(self._pads[-1], self._pads[-1]))
        for level, pad in enumerate(self._pads[:top]):
            if self.count >> level & 1:
                node = dot(self._whole[level], node or pad)
            elif node:
                node = dot(node, pad)
        return node or (self._whole[top] if self.count else b"")


# ---- commit digests

def commit_digest(transaction_id: str, statements: Iterable[tuple[str, Sequence[Value]]]) -> bytes:
    """The digest over a transaction's id and its statements, each a text and its parameters."""
    digest = hash_value(transaction_id)
    for text, parameters in statements:
        digest = dot(digest, fold(hash_value(text), map(hash_value, parameters)))
    return digest
