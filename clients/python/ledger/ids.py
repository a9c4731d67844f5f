"""Ids of transactions, tables and documents, and the mask that a seed makes of them (docs/formats.md, "Ids").

(This package is not proved; the program is.)

    >>> Id(number=1, thing=0).text(mask=0)  # the first transaction of a journal without a mask
    '0000000000000000018OWG'
    >>> Id.of("0000000000000000018OWI", mask=0)  # the second thing that it made
    Id(number=1, thing=2)
    >>> id_text(mask_of(1))  # the strand's id of seed 1
    '43dK1GyEJ9xVaAFdtEe377'
"""
from __future__ import annotations

import re
from dataclasses import dataclass
from typing import Optional

DIGITS = "0123456789ABCDEFGHIJKLMNOPQRSTUVWXYZabcdefghijklmnopqrstuvwxyz"
THINGS = 1 << 24  # of a transaction, itself included
_VALUES = {digit: value for value, digit in enumerate(DIGITS)}
_FORM = re.compile("[0-9A-Za-z]{22}")


def id_number(text: str) -> Optional[int]:
    """The number of an id's 22 digits, `None` if the text is no id or the number doesn't fit 128 bits."""
    if not _FORM.fullmatch(text):
        return None
    number = 0
    for digit in text:
        number = number * 62 + _VALUES[digit]
    return number if number < 1 << 128 else None


def id_text(number: int) -> str:
    """The 22 digits of an id's number."""
    digits = []
    for _ in range(22):
        number, digit = divmod(number, 62)
        digits.append(DIGITS[digit])
    return "".join(reversed(digits))


@dataclass(frozen=True)
class Id:
    """What an id means: a transaction's number, from 1 on, and a thing that it made, 0 being itself."""

    number: int
    thing: int

    @classmethod
    def of(cls, text: str, mask: int) -> "Id":
        """The id of this text under the mask of the journal's strand. Raises `ValueError` if the text is no id."""
        raw = id_number(text)
        if raw is None:
            raise ValueError(f"no id: {text!r}")
        return cls(*divmod(raw ^ mask, THINGS))

    def text(self, mask: int) -> str:
        """The 22 digits of the id under a mask."""
        return id_text((self.number * THINGS + self.thing) ^ mask)


# ---- the mask of a seed


def _rotated(word: int, bits: int) -> int:
    return (word << bits | word >> (32 - bits)) & 0xFFFFFFFF


def _quarter(words: list[int], a: int, b: int, c: int, d: int) -> None:
    """The quarter round of ChaCha20 (RFC 8439, section 2.1)."""
    for x, y, z, bits in ((a, b, d, 16), (c, d, b, 12), (a, b, d, 8), (c, d, b, 7)):
        words[x] = (words[x] + words[y]) & 0xFFFFFFFF
        words[z] = _rotated(words[z] ^ words[x], bits)


def mask_of(seed: int) -> int:
    """The mask of the ids of a seed: the first 128 bits of the key stream of ChaCha20 with the seed as its key."""
    if not 0 <= seed < 1 << 64:
        raise ValueError("a seed has 64 bits")
    start = list(b"expand 32-byte k"[at:at + 4] for at in range(0, 16, 4))
    first = [int.from_bytes(word, "little") for word in start] + [seed & 0xFFFFFFFF, seed >> 32] + [0] * 10
    words = list(first)
    for _ in range(10):
        for column in range(4):
            _quarter(words, column, column + 4, column + 8, column + 12)
        for column in range(4):
            _quarter(words, column, (column + 1) % 4 + 4, (column + 2) % 4 + 8, (column + 3) % 4 + 12)
    return sum(((words[at] + first[at]) & 0xFFFFFFFF) << 32 * at for at in range(4))
