"""The kinds of Ion values that Python has no type for.

A value is one of these; `ledger.ion` reads and writes them as text. (This package is not proved; the program is.)

| Ion                    | Python                                                        |
|------------------------|---------------------------------------------------------------|
| null, null.int         | `None`, `Null("int")`                                         |
| bool, int              | `bool`, `int`                                                 |
| decimal                | `decimal.Decimal`, which keeps the exponent and a negative zero |
| timestamp              | `Timestamp`, which keeps its precision and its offset         |
| symbol, string         | `Symbol`, `str`                                               |
| clob, blob             | `Clob`, `bytes`                                               |
| list, sexp             | `list`, `Sexp`                                                |
| struct                 | `Struct`, which keeps the order of fields, and repeated ones  |
| x::y::1                | `Annotated(("x", "y"), 1)`                                    |

    >>> account = Struct([("owner", "Ada"), ("amount", 100)])
    >>> account["owner"], account.get("limit", 0)
    ('Ada', 0)
    >>> account == {"owner": "Ada", "amount": 100}
    True
    >>> Timestamp(2020, 2, 3, 4, 5, 6, "070", 90).in_utc()
    Timestamp('2020-02-03T02:35:06.070Z')
"""
from __future__ import annotations

from collections.abc import Iterable, Iterator, Mapping
from dataclasses import dataclass
from datetime import date, datetime, timedelta, timezone
from decimal import Decimal
from typing import Any, Optional, Union

KINDS = ("null", "bool", "int", "decimal", "timestamp", "symbol", "string", "clob", "blob", "list", "sexp", "struct")
MINUTES_IN_A_DAY = 24 * 60


class Symbol(str):
    """A symbol. As a Python value it is the string of its text."""

    __slots__ = ()

    def __repr__(self) -> str:
        return f"Symbol({str(self)!r})"


class Clob(bytes):
    """A clob: bytes that stand as text between quotes."""

    __slots__ = ()

    def __repr__(self) -> str:
        return f"Clob({bytes(self)!r})"


class Sexp(list):
    """An S-expression, `(a b)`. As a Python value it is the list of its members."""

    __slots__ = ()

    def __repr__(self) -> str:
        return f"Sexp({list(self)!r})"


@dataclass(frozen=True)
class Null:
    """A null of a type, such as `null.int`. The plain null, `null` or `null.null`, is `None`."""

    kind: str

    def __post_init__(self) -> None:
        if self.kind not in KINDS[1:]:
            raise ValueError(f"no type of a null: {self.kind!r}")


@dataclass(frozen=True)
class Annotated:
    """A value with annotations, as in `x::y::1`."""

    annotations: tuple[str, ...]
    value: "Value"


class Struct:
    """The fields of a struct in their order, repeated ones included. A name means the first field of it, as in a
    statement."""

    __slots__ = ("fields",)

    def __init__(self, fields: Union[Mapping[str, "Value"], Iterable[tuple[str, "Value"]]] = ()) -> None:
        pairs = fields.items() if isinstance(fields, Mapping) else fields
        self.fields: list[tuple[str, Value]] = [(str(name), value) for name, value in pairs]

    def __getitem__(self, name: str) -> "Value":
        for found, value in self.fields:
            if found == name:
                return value
        raise KeyError(name)

    def get(self, name: str, default: Any = None) -> Any:
        """The value of the first field of the name, `default` if there is none."""
        return next((value for found, value in self.fields if found == name), default)

    def all(self, name: str) -> list["Value"]:
        """The values of all fields of the name, in order."""
        return [value for found, value in self.fields if found == name]

    def keys(self) -> list[str]:
        """The names of the fields in order, repeated ones as often as they stand."""
        return [name for name, _ in self.fields]

    def values(self) -> list["Value"]:
        """The values of the fields in order."""
        return [value for _, value in self.fields]

    def items(self) -> list[tuple[str, "Value"]]:
        """The fields in order, each as its name and its value."""
        return list(self.fields)

    def __contains__(self, name: object) -> bool:
        return any(found == name for found, _ in self.fields)

    def __iter__(self) -> Iterator[str]:
        return iter(self.keys())

    def __len__(self) -> int:
        return len(self.fields)

    def __eq__(self, other: object) -> bool:
        """Of two structs the fields count in their order, of a struct and a dict without it."""
        if isinstance(other, Struct):
            return self.fields == other.fields
        if isinstance(other, Mapping):
            return len(self.fields) == len(other) and dict(self.fields) == other
        return NotImplemented

    __hash__ = None

    def __repr__(self) -> str:
        return f"Struct({self.fields!r})"


@dataclass(frozen=True, repr=False)
class Timestamp:
    """A timestamp as far as its precision goes.

    The parts are those of the local time. `fraction` has the digits behind the second, at most 9; `offset` is the
    distance from UTC in minutes, `None` if it is unknown, as it is of a year, a month or a day. Two timestamps are
    equal if every part is; `instant` compares moments. A part that doesn't exist raises `ValueError`.
    """

    year: int
    month: Optional[int] = None
    day: Optional[int] = None
    hour: Optional[int] = None
    minute: Optional[int] = None
    second: Optional[int] = None
    fraction: str = ""
    offset: Optional[int] = None

    def __post_init__(self) -> None:
        self._check_precision()
        if not 1 <= self.year <= 9999:
            raise ValueError("the year isn't one of 0001 to 9999")
        if self.fraction and not (self.fraction.isascii() and self.fraction.isdigit() and len(self.fraction) <= 9):
            raise ValueError("the fraction isn't up to 9 digits")
        if self.offset is not None and abs(self.offset) >= MINUTES_IN_A_DAY:
            raise ValueError("the offset is a day or more")
        try:
            self._moment()
        except OverflowError:
            raise ValueError("the date in UTC isn't of the years 0001 to 9999") from None

    def _check_precision(self) -> None:
        parts = self.parts()
        given = [part is not None for part in (self.month, self.day, self.hour, self.minute, self.second)]
        if len(parts) == 4 or given != [True] * (len(parts) - 1) + [False] * (6 - len(parts)):
            raise ValueError("a part is missing before a finer one")
        if len(parts) < 5 and self.offset is not None:
            raise ValueError("an offset without a clock")
        if len(parts) < 6 and self.fraction:
            raise ValueError("a fraction without a second")

    def parts(self) -> tuple[int, ...]:
        """The year, the month, the day, the hour, the minute and the second, as far as they go."""
        found = (self.year, self.month, self.day, self.hour, self.minute, self.second)
        return tuple(part for part in found if part is not None)

    def _moment(self) -> datetime:
        """The beginning of the written precision in UTC, without the fraction."""
        parts = list(self.parts())
        local = datetime(*(parts + [1, 1][len(parts) - 1:] if len(parts) < 3 else parts))
        return local - timedelta(minutes=self.offset or 0)

    def in_utc(self) -> "Timestamp":
        """This moment and precision in UTC. An unknown offset stays unknown."""
        if not self.offset:
            return self
        at = self._moment()
        second = None if self.second is None else at.second
        return Timestamp(at.year, at.month, at.day, at.hour, at.minute, second, self.fraction, 0)

    def instant(self) -> int:
        """The billionths of a second since 1970 in UTC at which the written precision begins."""
        since = self._moment() - datetime(1970, 1, 1)
        return (since.days * 86_400 + since.seconds) * 10**9 + int(self.fraction.ljust(9, "0"))

    def to_datetime(self) -> datetime:
        """A datetime with its zone, in UTC if the offset is unknown. Digits below a millionth are left out."""
        zone = timezone(timedelta(minutes=self.offset or 0))
        moment = self._moment().replace(tzinfo=timezone.utc, microsecond=int(self.fraction.ljust(6, "0")[:6]))
        return moment.astimezone(zone)

    @classmethod
    def of(cls, moment: Union[datetime, date]) -> "Timestamp":
        """A date as a day, and a datetime with its offset, and with its millionths if it has any."""
        if not isinstance(moment, datetime):
            return cls(moment.year, moment.month, moment.day)
        away = moment.utcoffset()
        if away is not None and away % timedelta(minutes=1):
            raise ValueError("an offset has whole minutes")
        offset = None if away is None else away // timedelta(minutes=1)
        fraction = f"{moment.microsecond:06}" if moment.microsecond else ""
        return cls(moment.year, moment.month, moment.day, moment.hour, moment.minute, moment.second, fraction, offset)

    def __str__(self) -> str:
        """The text of the timestamp, as Ion has it."""
        year, rest = f"{self.year:04}", [f"{part:02}" for part in self.parts()[1:]]
        if len(rest) < 2:
            return "-".join([year] + rest) + "T"
        day = "-".join([year] + rest[:2])
        if len(rest) == 2:
            return day
        fraction = "." + self.fraction if self.fraction else ""
        return f"{day}T{':'.join(rest[2:])}{fraction}{self._offset_text()}"

    def _offset_text(self) -> str:
        if self.offset == 0:
            return "Z"
        hours, minutes = divmod(abs(self.offset or 0), 60)
        return f"{'+' if (self.offset or 0) > 0 else '-'}{hours:02}:{minutes:02}"

    def __repr__(self) -> str:
        return f"Timestamp({str(self)!r})"


Value = Union[
    None, bool, int, Decimal, Timestamp, str, Symbol, bytes, Clob, list, Sexp, Struct, Null, Annotated,
    # these are written, and read back as a struct, a list, a blob and a timestamp
    Mapping, tuple, bytearray, datetime, date,
]


def bare(value: Value) -> Value:
    """The value without its annotations."""
    while isinstance(value, Annotated):
        value = value.value
    return value
