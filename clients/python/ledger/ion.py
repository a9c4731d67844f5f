"""Reads and writes the Ion text of the ledger's profile, and JSON.

The reader refuses what the program refuses, with the place and the kind of the first fault; the writer gives every
value its one text (docs/formats.md, "How values are read", "How values are written" and "Kind of a fault"). Floats,
symbol ids and symbol tables are refused, ints and coefficients have 128 bits, exponents lie within -32,767 and
32,767. `ledger.values` says which Python value stands for which Ion value. (This package is not proved; the program
is.)

    >>> read('{owner:"Ada",since:2020-01T} 12.50')
    [Struct([('owner', 'Ada'), ('since', Timestamp('2020-01T'))]), Decimal('12.50')]
    >>> write({"owner": "Ada", "raw": b"ab", "kind": Symbol("in use")})
    '{owner:"Ada",raw:{{YWI=}},kind:\\'in use\\'}'
    >>> read("[1, 2e0]")
    Traceback (most recent call last):
    ledger.ion.IonError: at byte 4: FloatRefused
    >>> to_json(read_one("{a:1.50,a:null.int,when:2020T}"))
    '{"a": 1.50, "a": null, "when": "2020T"}'
    >>> write(from_json('{"a": 1.50, "list": [true, null]}'))
    '{a:150d-2,list:[true,null]}'
"""
from __future__ import annotations

import base64
import binascii
import json
import re
import sys
from collections.abc import Callable, Mapping
from datetime import date
from decimal import Decimal
from enum import Enum, auto
from typing import Any, NoReturn, Optional, Union

from .values import KINDS, Annotated, Clob, Null, Sexp, Struct, Symbol, Timestamp, Value, bare

__all__ = [
    "Annotated", "Clob", "IonError", "Null", "Sexp", "Struct", "Symbol", "Timestamp", "Value", "bare",
    "from_json", "read", "read_one", "same", "to_json", "write",
]

MOST = 2**127 - 1
LEAST = -(2**127)
MOST_EXPONENT = 32_767
SCRIPT_DEPTH = 80  # of scripts and bundles
JOURNAL_DEPTH = 256  # of a block
sys.setrecursionlimit(max(sys.getrecursionlimit(), 16 * JOURNAL_DEPTH))  # a level of a value takes some calls
KEYWORDS = ("null", "true", "false", "nan")
WHITE = " \t\n\v\f\r"


class IonError(ValueError):
    """A text that the program would refuse: the place of the first fault in bytes, and its kind."""

    def __init__(self, at: int, kind: str) -> None:
        super().__init__(f"at byte {at}: {kind}")
        self.at = at
        self.kind = kind


# ---- tokens

_STOP = r"{}\[\](),\"' \t\n\v\f\r"
_TOKEN = re.compile(
    rf"""(?P<blank>[ \t\n\v\f\r]+|//[^\n\r]*|/\*.*?\*/)
    |(?P<lob>\{{\{{)
    |(?P<string>"[^"\\]*(?:\\.[^"\\]*)*")
    |(?P<segment>'''[^'\\]*(?:(?:\\.|'(?!''))[^'\\]*)*''')
    |(?P<quoted>'(?!'')[^'\\]*(?:\\.[^'\\]*)*')
    |(?P<number>-?[0-9][^{_STOP}]*)
    |(?P<word>[A-Za-z_$][A-Za-z0-9_$]*)
    |(?P<operator>(?!/\*)[!\#%&*+\-./;<=>?@^`|~]+)
    |(?P<mark>::|[\[\](){{}},:])""",
    re.X | re.S,
)
_SHORT_QUOTED = re.compile(r'"[^"\\]*(?:\\.[^"\\]*)*"', re.S)
_LONG_QUOTED = re.compile(r"'''[^'\\]*(?:(?:\\.|'(?!''))[^'\\]*)*'''", re.S)
_CLOB_MARK = re.compile(r"}}|\"|'''")
_INFINITY = re.compile(rf"[+-]inf(?=[{_STOP}]|\Z)")
_TYPED_NULL = re.compile(r"\.([A-Za-z0-9_$]*)")
_SYMBOL_ID = re.compile(r"\$[0-9]+")
_BASE64 = re.compile(r"(?:[A-Za-z0-9+/]{4})*(?:[A-Za-z0-9+/]{2}==|[A-Za-z0-9+/]{3}=)?")


class _Refused(Exception):
    """A token that is refused itself, with the kind of the fault."""


class _Cut(Exception):
    """The text ends inside a token."""


# ---- texts between quotes

_ESCAPES = {"a": "\a", "b": "\b", "t": "\t", "n": "\n", "f": "\f", "r": "\r", "v": "\v", "0": "\0"}
_ESCAPES.update((mark, mark) for mark in "\"'?\\/")
_LINE_END = re.compile(r"\r\n|\r|\n")
_ESCAPE = re.compile(
    r"\\(?:x([0-9A-Fa-f]{2})|u([Dd][89ABab][0-9A-Fa-f]{2})\\u([Dd][C-Fc-f][0-9A-Fa-f]{2})|u([0-9A-Fa-f]{4})"
    r"|U([0-9A-Fa-f]{8})|(\r\n|\r|\n)|([abtnfrv0\"'?\\/]))"
)
_RAW_CONTROL = re.compile(r"[\0-\x08\n\r\x0e-\x1f]")


def _character(code: int) -> str:
    if code > 0x10FFFF or 0xD800 <= code <= 0xDFFF:
        raise _Refused("BadToken")
    return chr(code)


def _escaped(text: str, at: int, in_clob: bool) -> tuple[str, int]:
    """The text that the escape at `at` gives, and the place after it."""
    found = _ESCAPE.match(text, at)
    if found is None:
        raise _Refused("BadToken")
    byte, high, low, unit, wide, line_end, mark = found.groups()
    if in_clob and (high or unit or wide):
        raise _Refused("BadToken")
    if high:
        code = 0x10000 + ((int(high, 16) & 0x3FF) << 10) + (int(low, 16) & 0x3FF)
        return chr(code), found.end()
    if line_end:
        return "", found.end()
    if mark:
        return _ESCAPES[mark], found.end()
    return _character(int(byte or unit or wide, 16)), found.end()


def _pieces(inside: str, raw: Callable[[str], str], in_clob: bool) -> str:
    """The text that stands between quotes, its escapes read, and `raw` applied to what stands between them."""
    pieces, at = [], 0
    while (slash := inside.find("\\", at)) >= 0:
        piece, end = _escaped(inside, slash, in_clob)
        pieces += [raw(inside[at:slash]), piece]
        at = end
    return "".join(pieces) + raw(inside[at:])


def _no_control(raw: str) -> str:
    """Refuses a control character, tab, vertical tab and form feed apart."""
    if _RAW_CONTROL.search(raw):
        raise _Refused("BadToken")
    return raw


def _line_feeds(raw: str) -> str:
    """Makes each line's end a line feed."""
    return _LINE_END.sub("\n", raw)


def _short_text(inside: str, in_clob: bool = False) -> str:
    """What stands between single marks, `"` or `'`."""
    return _pieces(inside, _no_control, in_clob)


def _long_text(inside: str, in_clob: bool = False) -> str:
    """What stands between threefold marks."""
    return _pieces(inside, _line_feeds, in_clob)


# ---- clobs and blobs


def _clob_end(text: str, at: int) -> int:
    """Where the closing braces of a clob begin. Its quoted texts hide braces."""
    while (mark := _CLOB_MARK.search(text, at)) is not None and mark[0] != "}}":
        found = (_SHORT_QUOTED if mark[0] == '"' else _LONG_QUOTED).match(text, mark.start())
        if found is None:
            raise _Cut
        at = found.end()
    if mark is None:
        raise _Cut
    return mark.start()


def _blob_end(text: str, at: int) -> int:
    """Where the closing braces of a blob begin."""
    close = text.find("}}", at)
    if close < 0:
        raise _Cut
    return close


def _clob(inside: str) -> Clob:
    if not inside.isascii():
        raise _Refused("BadToken")
    found = _SHORT_QUOTED.match(inside)
    if found is not None:
        if inside[found.end():].strip(WHITE):
            raise _Refused("BadToken")
        return Clob(_short_text(found[0][1:-1], in_clob=True).encode("latin-1"))
    pieces, at = [], 0
    while at < len(inside):
        found = _LONG_QUOTED.match(inside, at)
        if found is not None:
            pieces.append(_long_text(found[0][3:-3], in_clob=True))
        elif inside[at] not in WHITE:
            raise _Refused("BadToken")
        at = found.end() if found is not None else at + 1
    return Clob("".join(pieces).encode("latin-1"))


def _blob(inside: str) -> bytes:
    digits = inside.translate({ord(white): None for white in WHITE})
    if not _BASE64.fullmatch(digits):
        raise _Refused("BadBase64")
    found = binascii.a2b_base64(digits)
    if base64.b64encode(found).decode("ascii") != digits:  # the unused bits of the last digit aren't zero
        raise _Refused("BadBase64")
    return found


# ---- numbers and timestamps

_DATED = re.compile(r"[0-9]{4}[T-]")
_TIME = re.compile(
    r"([0-9]{4})(?:T|-([0-9]{2})(?:T|-([0-9]{2})(?:T?|T([0-9]{2}):([0-9]{2})(?::([0-9]{2})(?:\.([0-9]+))?)?"
    r"(Z|[+-][0-9]{2}:[0-9]{2}))))"
)
_DIGITS = {2: re.compile(r"[01](?:_?[01])*"), 10: re.compile(r"[0-9](?:_?[0-9])*"), 16: re.compile(r"[0-9A-Fa-f](?:_?[0-9A-Fa-f])*")}
_REAL = re.compile(r"(0|[1-9](?:_?[0-9])*)(\.(?:[0-9](?:_?[0-9])*)?)?([dD][+-]?[0-9]+)?")


def _limited(digits: str, base: int, minus: bool) -> int:
    """The number that the digits write, if it fits 128 bits."""
    digits = digits.replace("_", "").lstrip("0") or "0"
    if len(digits) > 128:
        raise _Refused("TooWide")
    number = -int(digits, base) if minus else int(digits, base)
    if not LEAST <= number <= MOST:
        raise _Refused("TooWide")
    return number


def _exponent(text: str, places: int) -> int:
    """The exponent that is written, less the number of digits after the point."""
    sign, digits = re.fullmatch(r"([+-]?)0*([0-9]*)", text).groups()
    if len(digits) > 12:
        raise _Refused("TooWide")
    exponent = int(sign + (digits or "0")) - places
    if abs(exponent) > MOST_EXPONENT:
        raise _Refused("TooWide")
    return exponent


def _plain_number(run: str, minus: bool) -> Union[int, Decimal]:
    found = _REAL.fullmatch(run)
    if found is None:
        raise _Refused("BadToken")
    whole, fraction, exponent = found.groups()
    if fraction is None and exponent is None:
        return _limited(whole, 10, minus)
    behind = (fraction or ".")[1:].replace("_", "")
    coefficient = _limited(whole + behind, 10, minus)
    return _decimal(minus, coefficient, _exponent((exponent or "d0")[1:], len(behind)))


def _decimal(minus: bool, coefficient: int, exponent: int) -> Decimal:
    return Decimal((1 if minus else 0, tuple(map(int, str(abs(coefficient)))), exponent))


def _time(run: str) -> Timestamp:
    found = _TIME.fullmatch(run)
    if found is None:
        raise _Refused("BadToken")
    *parts, fraction, zone = found.groups()
    if fraction is not None and len(fraction) > 9:
        raise _Refused("TooWide")
    if zone not in (None, "Z") and int(zone[4:]) > 59:
        raise _Refused("BadTimestamp")
    try:
        return Timestamp(*(None if part is None else int(part) for part in parts), fraction or "", _offset(zone))
    except ValueError:
        raise _Refused("BadTimestamp") from None


def _offset(zone: Optional[str]) -> Optional[int]:
    if zone is None or zone == "-00:00":
        return None
    return 0 if zone == "Z" else int(zone[0] + "1") * (int(zone[1:3]) * 60 + int(zone[4:]))


def _number(run: str) -> Value:
    minus = run[0] == "-"
    digits = run[1:] if minus else run
    if digits[:2] in ("0x", "0X"):
        return _in_base(digits[2:], 16, minus)
    if "e" in digits or "E" in digits:
        raise _Refused("FloatRefused")
    if digits[:2] in ("0b", "0B"):
        return _in_base(digits[2:], 2, minus)
    if not minus and _DATED.match(digits):
        return _time(digits)
    return _plain_number(digits, minus)


def _in_base(digits: str, base: int, minus: bool) -> int:
    if not _DIGITS[base].fullmatch(digits):
        raise _Refused("BadToken")
    return _limited(digits, base, minus)


# ---- which token may come next


class _Last(Enum):
    """What was read last in a container."""

    OPENING = auto()
    NAME = auto()
    LONG_NAME = auto()
    COLON = auto()
    ANNOTATION = auto()
    SYMBOL = auto()
    LONG_STRING = auto()
    VALUE = auto()
    COMMA = auto()


class _Members(Enum):
    """The container that is open; the whole text is a stream."""

    STREAM = auto()
    LIST = auto()
    SEXP = auto()
    STRUCT = auto()


_OPENERS = {"[": _Members.LIST, "(": _Members.SEXP, "{": _Members.STRUCT}
_CLOSERS = {"]": _Members.LIST, ")": _Members.SEXP, "}": _Members.STRUCT}
_MAY_BEGIN = {
    (_Members.STREAM, _Last.OPENING), (_Members.STREAM, _Last.VALUE), (_Members.LIST, _Last.OPENING),
    (_Members.LIST, _Last.COMMA), (_Members.SEXP, _Last.OPENING), (_Members.SEXP, _Last.VALUE),
    (_Members.STRUCT, _Last.COLON),
}


class _Frame:
    """An open container, with the name and the annotations of the value that comes next."""

    __slots__ = ("members", "kind", "name", "annotations", "is_table", "last", "text", "quoted")

    def __init__(self, kind: _Members) -> None:
        self.members: list[Any] = []
        self.kind = kind
        self.name = ""
        self.annotations: list[str] = []
        self.is_table = False
        self.last = _Last.OPENING
        self.text = ""
        self.quoted = False

    def may_begin(self) -> bool:
        return self.last is _Last.ANNOTATION or (self.kind, self.last) in _MAY_BEGIN

    def may_name(self) -> bool:
        return self.kind is _Members.STRUCT and self.last in (_Last.OPENING, _Last.COMMA)

    def add(self, value: Value) -> None:
        """Takes a value under the name and the annotations that were read before it."""
        if self.annotations:
            value = Annotated(tuple(self.annotations), value)
            self.annotations = []
            self.is_table = False
        self.members.append((self.name, value) if self.kind is _Members.STRUCT else value)
        self.last = _Last.VALUE

    def settle(self) -> None:
        """Makes the symbol or the long string that was read last a value."""
        if self.last is _Last.LONG_STRING:
            self.add(self.text)
        elif self.last is _Last.SYMBOL and self.is_marker():
            self.last = _Last.VALUE
        elif self.last is _Last.SYMBOL:
            self.add(Symbol(self.text))

    def is_marker(self) -> bool:
        """`$ion_1_0` at the top level marks the version and is no value."""
        plain = not self.quoted and not self.annotations
        return plain and self.kind is _Members.STREAM and self.text == "$ion_1_0"

    def content(self) -> Value:
        if self.kind is _Members.STRUCT:
            found = Struct()
            found.fields = self.members
            return found
        return Sexp(self.members) if self.kind is _Members.SEXP else self.members


class _Reader:
    """Reads a text token by token, with the open containers in a list, the innermost one last."""

    def __init__(self, text: str, depth: int) -> None:
        self.text = text
        self.depth = depth
        self.at = 0
        self.end = 0
        self.open = [_Frame(_Members.STREAM)]
        self.takers: dict[str, Callable[[str], None]] = {
            "lob": self.take_lob, "string": self.take_string, "segment": self.take_segment, "quoted": self.take_quoted,
            "number": self.take_number, "word": self.take_word, "operator": self.take_operator, "mark": self.take_mark,
        }

    def read(self) -> list[Value]:
        try:
            self.read_tokens()
        except _Refused as refused:
            self.fault(refused.args[0], self.at)
        except _Cut:
            self.fault("Unclosed", len(self.text))
        self.open[-1].settle()
        if len(self.open) > 1 or self.open[0].last is _Last.ANNOTATION:
            self.fault("Unclosed", len(self.text))
        return self.open[0].members

    def read_tokens(self) -> None:
        match, text, takers, length = _TOKEN.match, self.text, self.takers, len(self.text)
        while self.at < length:
            found = match(text, self.at)
            if found is None:
                self.no_token()
            self.end = found.end()
            if found.lastgroup != "blank":
                takers[found.lastgroup](found[0])
            self.at = self.end

    def fault(self, kind: str, at: int) -> NoReturn:
        raise IonError(len(self.text[:at].encode("utf-8")), kind) from None

    def no_token(self) -> NoReturn:
        """No token begins here: a quoted text or a comment isn't closed, or there is no such token."""
        if self.text[self.at] in "\"'" or self.text.startswith("/*", self.at):
            self.fault("Unclosed", len(self.text))
        self.fault("BadToken", self.at)

    # -- tokens that are values

    def frame(self) -> _Frame:
        """The innermost container, as a token finds it that doesn't belong to what was read last."""
        frame = self.open[-1]
        if frame.last is _Last.SYMBOL or frame.last is _Last.LONG_STRING:
            frame.settle()
        return frame

    def add(self, value: Value) -> None:
        frame = self.frame()
        if not frame.may_begin():
            raise _Refused("BadToken")
        frame.add(value)

    def take_number(self, run: str) -> None:
        self.add(_number(run))

    def take_lob(self, braces: str) -> None:
        begin = self.at + 2
        while begin < len(self.text) and self.text[begin] in WHITE:
            begin += 1
        is_clob = self.text.startswith(('"', "'''"), begin)
        end = _clob_end(self.text, begin) if is_clob else _blob_end(self.text, self.at + 2)
        self.end = end + 2
        self.add(_clob(self.text[begin:end]) if is_clob else _blob(self.text[self.at + 2:end]))

    def take_string(self, token: str) -> None:
        text = _short_text(token[1:-1])
        if not self.take_name(text, _Last.NAME):
            self.add(text)

    def take_name(self, text: str, last: _Last) -> bool:
        """Takes the text as a field's name if one may come next, and returns whether it did."""
        frame = self.frame()
        if frame.may_name():
            frame.name, frame.last = text, last
            return True
        return False

    # -- tokens to which the next one may belong

    def take_segment(self, token: str) -> None:
        text = _long_text(token[3:-3])
        frame = self.open[-1]
        if frame.last is _Last.LONG_STRING:
            frame.text += text
        elif frame.last is _Last.LONG_NAME:
            frame.name += text
        elif not self.take_name(text, _Last.LONG_NAME):
            self.pend(text, _Last.LONG_STRING)

    def pend(self, text: str, last: _Last, quoted: bool = False) -> None:
        frame = self.frame()
        if not frame.may_begin():
            raise _Refused("BadToken")
        frame.text, frame.last, frame.quoted = text, last, quoted

    def take_symbol(self, text: str, quoted: bool) -> None:
        if not self.take_name(text, _Last.NAME):
            self.pend(text, _Last.SYMBOL, quoted)

    def take_quoted(self, token: str) -> None:
        self.take_symbol(_short_text(token[1:-1]), True)

    def take_word(self, word: str) -> None:
        if word == "null":
            self.add(self.null())
        elif word in ("true", "false"):
            self.add(word == "true")
        elif word == "nan":
            raise _Refused("FloatRefused")
        elif _SYMBOL_ID.fullmatch(word):
            raise _Refused("SymbolIdRefused")
        else:
            self.take_symbol(word, False)

    def null(self) -> Value:
        found = _TYPED_NULL.match(self.text, self.end)
        if found is None:
            return None
        if found[1] not in KINDS:
            raise _Refused("FloatRefused" if found[1] == "float" else "BadToken")
        self.end = found.end()
        return None if found[1] == "null" else Null(found[1])

    def take_operator(self, run: str) -> None:
        if _INFINITY.match(self.text, self.at):
            raise _Refused("FloatRefused")
        if self.frame().kind is not _Members.SEXP:
            raise _Refused("BadToken")
        self.take_symbol(run, False)

    # -- marks

    def take_mark(self, mark: str) -> None:
        if mark == ":":
            self.colon(self.frame())
        elif mark == ",":
            self.comma(self.frame())
        elif mark in _OPENERS:
            self.begin(_OPENERS[mark])
        elif mark in _CLOSERS:
            self.close(_CLOSERS[mark])
        else:
            self.annotate(self.open[-1])

    def begin(self, kind: _Members) -> None:
        frame = self.frame()
        if kind is _Members.STRUCT and frame.is_table and frame.kind is _Members.STREAM:
            raise _Refused("SymbolIdRefused")
        if len(self.open) > self.depth:
            raise _Refused("TooDeep")
        if not frame.may_begin():
            raise _Refused("BadToken")
        self.open.append(_Frame(kind))

    def close(self, kind: _Members) -> None:
        frame = self.frame()
        if frame.kind is not kind or frame.last not in (_Last.OPENING, _Last.VALUE, _Last.COMMA):
            raise _Refused("BadToken")
        self.open.pop()
        self.open[-1].add(frame.content())

    def annotate(self, frame: _Frame) -> None:
        if frame.last is not _Last.SYMBOL:
            raise _Refused("BadToken")
        frame.annotations.append(frame.text)
        frame.is_table = frame.is_table or (not frame.quoted and frame.text == "$ion_symbol_table")
        frame.last = _Last.ANNOTATION

    def colon(self, frame: _Frame) -> None:
        if frame.last not in (_Last.NAME, _Last.LONG_NAME):
            raise _Refused("BadToken")
        frame.last = _Last.COLON

    def comma(self, frame: _Frame) -> None:
        if frame.kind not in (_Members.LIST, _Members.STRUCT) or frame.last is not _Last.VALUE:
            raise _Refused("BadToken")
        frame.last = _Last.COMMA


def read(text: Union[str, bytes], depth: int = SCRIPT_DEPTH) -> list[Value]:
    """The values of an Ion text, whose containers nest at most `depth` deep. Raises `IonError` at the first fault."""
    if isinstance(text, (bytes, bytearray)):
        try:
            text = text.decode("utf-8")
        except UnicodeDecodeError as error:
            raise IonError(error.start, "NotUtf8") from None
    return _Reader(text, depth).read()


def read_one(text: Union[str, bytes], depth: int = SCRIPT_DEPTH) -> Value:
    """The one value of a text. Raises `IonError`, or `ValueError` if there are none or several."""
    values = read(text, depth)
    if len(values) != 1:
        raise ValueError(f"{len(values)} values where one should stand")
    return values[0]


# ---- writing

_BARE = re.compile(r"[A-Za-z_][A-Za-z0-9_$]*")
_ESCAPED = {ord(c): f"\\x{ord(c):02x}" for c in map(chr, [*range(32), 127])}
_ESCAPED.update({ord("\n"): "\\n", ord("\r"): "\\r", ord("\t"): "\\t", ord("\\"): "\\\\"})
_IN_STRING = {**_ESCAPED, ord('"'): '\\"'}
_IN_SYMBOL = {**_ESCAPED, ord("'"): "\\'"}
_IN_CLOB = {byte: f"\\x{byte:02x}" for byte in [*range(32), *range(127, 256)]}
_IN_CLOB.update({ord('"'): '\\"', ord("\\"): "\\\\"})


def symbol_text(text: str) -> str:
    """A symbol, a field's name or an annotation as it is written."""
    if _BARE.fullmatch(text) and text not in KEYWORDS:
        return text
    return "'" + _encodable(text).translate(_IN_SYMBOL) + "'"


def _encodable(text: str) -> str:
    text.encode("utf-8")  # raises UnicodeEncodeError, a ValueError, at a surrogate
    return text


def _int_text(number: int) -> str:
    if not LEAST <= number <= MOST:
        raise ValueError(f"{number} doesn't fit 128 bits")
    return str(number)


def decimal_parts(number: Decimal) -> tuple[bool, int, int]:
    """Whether the number has a minus, its coefficient without it, and its exponent. Raises `ValueError` past the
    limits."""
    sign, digits, exponent = number.as_tuple()
    if not isinstance(exponent, int) or abs(exponent) > MOST_EXPONENT or len(digits) > 39:
        raise ValueError(f"no decimal of the profile: {number}")
    coefficient = int("".join(map(str, digits)))
    _int_text(-coefficient if sign else coefficient)
    return bool(sign), coefficient, exponent


def _decimal_text(number: Decimal) -> str:
    minus, coefficient, exponent = decimal_parts(number)
    return f"{'-' if minus else ''}{coefficient}d{exponent}"


def _struct_text(fields: list[tuple[str, Value]]) -> str:
    return "{" + ",".join(f"{symbol_text(name)}:{write(value)}" for name, value in fields) + "}"


def _annotated_text(value: Annotated) -> str:
    return "".join(symbol_text(name) + "::" for name in value.annotations) + write(value.value)


_WRITERS: list[tuple[Any, Callable[[Any], str]]] = [
    (bool, lambda v: "true" if v else "false"),
    (int, _int_text),
    (Symbol, symbol_text),
    (str, lambda v: '"' + _encodable(v).translate(_IN_STRING) + '"'),
    (Decimal, _decimal_text),
    (Timestamp, str),
    (Clob, lambda v: '{{"' + v.decode("latin-1").translate(_IN_CLOB) + '"}}'),
    ((bytes, bytearray), lambda v: "{{" + base64.b64encode(v).decode("ascii") + "}}"),
    (Struct, lambda v: _struct_text(v.fields)),
    (Mapping, lambda v: _struct_text(list(v.items()))),
    (Sexp, lambda v: "(" + " ".join(map(write, v)) + ")"),
    ((list, tuple), lambda v: "[" + ",".join(map(write, v)) + "]"),
    (Null, lambda v: "null." + v.kind),
    (type(None), lambda v: "null"),
    (Annotated, _annotated_text),
    (date, lambda v: str(Timestamp.of(v))),
]
_WRITER_OF: dict[type, Callable[[Any], str]] = {}


def _writer_of(kind: type) -> Callable[[Any], str]:
    for kinds, writer in _WRITERS:
        if issubclass(kind, kinds):
            _WRITER_OF[kind] = writer
            return writer
    hint = "; a float is no value of the profile, a decimal.Decimal is" if kind is float else ""
    raise TypeError(f"no Ion value: {kind.__name__}{hint}")


def write(value: Value) -> str:
    """The one text of a value. Raises `TypeError` or `ValueError` if it is no value of the profile."""
    kind = type(value)
    return (_WRITER_OF.get(kind) or _writer_of(kind))(value)


def same(one: Value, other: Value) -> bool:
    """Whether two values are equal in every part, so that they have one text. (1.0 and 1.00 are equal in Python.)"""
    return write(one) == write(other)


# ---- JSON


def _json_text(value: Value, newline: str, indent: str) -> str:
    value = bare(value)
    if isinstance(value, Null):
        return "null"
    if isinstance(value, (Struct, Mapping)):
        members = [f"{json.dumps(name, ensure_ascii=False)}: {_json_text(v, newline + indent, indent)}" for name, v in value.items()]
        return _json_container("{}", members, newline, indent)
    if isinstance(value, (list, tuple)):
        return _json_container("[]", [_json_text(v, newline + indent, indent) for v in value], newline, indent)
    if isinstance(value, Decimal):
        minus, coefficient, exponent = decimal_parts(value)
        return str(Decimal((int(minus), tuple(map(int, str(coefficient))), exponent)))
    if isinstance(value, Clob):
        return json.dumps(value.decode("latin-1"), ensure_ascii=False)
    if isinstance(value, (bytes, bytearray)):
        return json.dumps(base64.b64encode(value).decode("ascii"))
    if isinstance(value, date):
        value = Timestamp.of(value)
    return json.dumps(str(value) if isinstance(value, Timestamp) else value, ensure_ascii=False)


def _json_container(braces: str, members: list[str], newline: str, indent: str) -> str:
    if not members:
        return braces
    if not indent:
        return braces[0] + ", ".join(members) + braces[1]
    return braces[0] + newline + indent + ("," + newline + indent).join(members) + newline + braces[1]


def to_json(value: Value, indent: int = 0) -> str:
    """The value as JSON text, on one line or with `indent` spaces a level.

    Decimals keep their digits and repeated fields stay. What JSON has no kind for is written as the next best: a
    symbol and a timestamp as a string, a blob as its base64, a clob as a string of its bytes, a sexp as a list, each
    null as null; annotations are left out.
    """
    return _json_text(value, "\n" if indent else "", " " * indent)


def _no_constant(text: str) -> NoReturn:
    raise ValueError(f"no JSON number: {text}")


def from_json(text: str) -> Value:
    """The value of a JSON text: a number with a point or an exponent is a decimal, an object a struct with all its
    fields."""
    found = json.loads(text, parse_float=Decimal, parse_constant=_no_constant, object_pairs_hook=Struct)
    write(found)  # raises ValueError if a number is past the limits
    return found
