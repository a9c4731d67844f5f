"""Random values, random spellings of them and random scripts, each made from a `random.Random`."""
from __future__ import annotations

import base64
import random
from decimal import Decimal

from ledger import ion
from ledger.client import Statement, Transaction
from ledger.ion import Annotated, Clob, Null, Sexp, Struct, Symbol, Timestamp, Value
from ledger.values import KINDS

CHARACTERS = "ab cZ09_$'\"\\/\n\r\t\0\x07\x0b\x1f\x7f\x80\u00e9\u0442\u65e5\ufffd\U0001f600\U0010ffff"
TEXTS = ["", "a", "null", "true", "nan", "$ion_1_0", "$10", "_x$1", "a b", "pad", "'''", "}}", "//", "/*", "1", "\u00e9"]


def text(rng: random.Random) -> str:
    """A text of any characters, or one that a reader may mistake."""
    return rng.choice(TEXTS) if rng.random() < 0.3 else "".join(rng.choices(CHARACTERS, k=rng.randrange(12)))


def integer(rng: random.Random) -> int:
    """An int of any length, the limits included."""
    number = rng.choice([0, 1, 2**63, ion.MOST, rng.getrandbits(rng.randrange(1, 127))])
    return rng.choice([number, -number, ion.LEAST])


def decimal(rng: random.Random) -> Decimal:
    """A decimal of any exponent, negative zeros included."""
    number = abs(rng.choice([0, integer(rng)]))
    number = min(number, ion.MOST)
    exponent = rng.choice([0, 1, -1, -2, 63, 64, -64, 8191, -8192, 32767, -32767])
    return Decimal((rng.randrange(2), tuple(map(int, str(number))), exponent))


def timestamp(rng: random.Random) -> Timestamp:
    """A timestamp of any precision and offset."""
    parts = [rng.choice([2, 1969, 2020, 9998, rng.randrange(2, 9999)]), rng.randrange(1, 13), rng.randrange(1, 29)]
    parts += [rng.randrange(24), rng.randrange(60), rng.randrange(60)]
    length = rng.choice([1, 2, 3, 5, 6, 6])
    fraction = "".join(rng.choices("0019", k=rng.randrange(10))) if length == 6 else ""
    offset = rng.choice([None, 0, 1, -1, 90, 1439, -1439, rng.randrange(-1439, 1440)]) if length > 3 else None
    return Timestamp(*parts[:length], *[None] * (6 - length), fraction, offset)


def data(rng: random.Random) -> bytes:
    """Some bytes, those that the hash escapes often among them."""
    return bytes(rng.choice([0, 0x0B, 0x0C, 0x0E, 0x22, 0x5C, 0x7F, 0x80, 0xFF, rng.randrange(256)]) for _ in range(rng.randrange(9)))


def scalar(rng: random.Random) -> Value:
    """A value that is no container."""
    kind = rng.randrange(10)
    if kind < 3:
        return rng.choice([None, True, False, Null(rng.choice(KINDS[1:]))])
    if kind == 3:
        return integer(rng)
    if kind == 4:
        return decimal(rng)
    if kind == 5:
        return timestamp(rng)
    if kind == 6:
        return Symbol(text(rng))
    if kind == 7:
        return text(rng)
    return Clob(data(rng)) if kind == 8 else data(rng)


def value(rng: random.Random, depth: int = 4) -> Value:
    """A value of any kind, repeated fields and annotations included, which nests at most `depth` deep."""
    if rng.random() < 0.1:
        return Annotated(tuple(text(rng) for _ in range(rng.randrange(1, 3))), bare_value(rng, depth))
    return bare_value(rng, depth)


def bare_value(rng: random.Random, depth: int) -> Value:
    """A value without annotations of its own."""
    if depth == 0 or rng.random() < 0.6:
        return scalar(rng)
    members = [value(rng, depth - 1) for _ in range(rng.randrange(4))]
    kind = rng.randrange(3)
    if kind == 0:
        return Struct([(rng.choice(["a", "b", text(rng)]), member) for member in members])
    return Sexp(members) if kind == 1 else members


# ---- other spellings of values


def blank(rng: random.Random, needed: bool = False) -> str:
    """White space and comments."""
    return rng.choice([" ", "\n", "\t\r\n", " /* [ */", " // \"\n", "\x0b\x0c"] + ([] if needed else [""] * 6))


def quoted(rng: random.Random, content: str, quote: str) -> str:
    """A text between quotes, some characters of it escaped."""
    found = []
    for character in content:
        code = ord(character)
        escapes = [f"\\U{code:08x}", f"\\u{code:04X}" if code < 0x10000 else f"\\U{code:08X}"]
        escapes += [f"\\x{code:02X}"] if code < 256 else []
        must = character in "\\'\"" or (code < 32 and character not in "\t\x0b\x0c")
        found.append(rng.choice(escapes) if must or rng.random() < 0.2 else character)
        if rng.random() < 0.05:
            found.append("\\" + rng.choice(["\n", "\r\n", "\r"]))
    return quote + "".join(found) + quote


def spelled_string(rng: random.Random, content: str) -> str:
    """A string in double quotes, or in segments."""
    if rng.random() < 0.7:
        return quoted(rng, content, '"')
    cut = rng.randrange(len(content) + 1)
    return quoted(rng, content[:cut], "'''") + blank(rng) + quoted(rng, content[cut:], "'''")


def spelled_int(rng: random.Random, number: int) -> str:
    """An int in one of its three bases, with underscores."""
    digits = rng.choice([str(abs(number)), hex(number).lstrip("-"), bin(number).lstrip("-").replace("b", "B")])
    if len(digits) > 3 and rng.random() < 0.3:
        digits = digits[:-1] + "_" + digits[-1]
    return ("-" if number < 0 else "") + digits


def spelled_decimal(rng: random.Random, number: Decimal) -> str:
    """A decimal with or without a point."""
    minus, coefficient, exponent = ion.decimal_parts(number)
    digits, sign = str(coefficient), "-" if minus else ""
    places = rng.randrange(len(digits))
    whole, behind = digits[:len(digits) - places], digits[len(digits) - places:]
    mark = rng.choice("dD")
    exponent += places
    return sign + (f"{whole}.{behind}" if places else whole + rng.choice(["", "."])) + f"{mark}{rng.choice(['', '+']) if exponent >= 0 else ''}{exponent}"


def spelled_clob(rng: random.Random, content: bytes) -> str:
    """A clob in double quotes, or in segments."""
    inside = "".join(f"\\x{byte:02x}" if byte < 32 or byte > 126 or byte in b"\"'\\" else chr(byte) for byte in content)
    body = rng.choice([f'"{inside}"', f"'''{inside}'''", f"'''{inside}''' ''''''"])
    return "{{" + rng.choice(["", " \n"]) + body + rng.choice(["", "\t"]) + "}}"


def spelled_symbol(rng: random.Random, content: str) -> str:
    """A symbol, bare where it may be, or quoted."""
    bare = ion.symbol_text(content)
    return bare if not bare.startswith("'") and rng.random() < 0.7 else quoted(rng, content, "'")


def spelled(rng: random.Random, content: Value) -> str:
    """Another spelling of a value than the writer's."""
    if isinstance(content, Annotated):
        names = [spelled_symbol(rng, name) + blank(rng) + "::" + blank(rng) for name in content.annotations]
        return "".join(names) + spelled(rng, content.value)
    if isinstance(content, Struct):
        fields = [spelled_name(rng, name) + blank(rng) + ":" + blank(rng) + spelled(rng, member) for name, member in content.items()]
        return spelled_container(rng, "{}", fields)
    if isinstance(content, Sexp):
        return spelled_sexp(rng, content)
    if isinstance(content, list):
        return spelled_container(rng, "[]", [spelled(rng, member) for member in content])
    if isinstance(content, Decimal):
        return spelled_decimal(rng, content)
    if isinstance(content, int) and not isinstance(content, bool):
        return spelled_int(rng, content)
    if isinstance(content, Symbol):
        return spelled_symbol(rng, content)
    if isinstance(content, str):
        return spelled_string(rng, content)
    if isinstance(content, Clob):
        return spelled_clob(rng, content)
    if isinstance(content, bytes):
        return "{{ " + base64.b64encode(content).decode() + rng.choice(["", "\n"]) + "}}"
    return ion.write(content)


def spelled_sexp(rng: random.Random, content: Sexp) -> str:
    """A sexp. Segments of two strings would be one string, so behind segments stands the writer's spelling."""
    found: list[str] = []
    for member in content:
        after_segments = bool(found) and found[-1].endswith("'''")
        found.append(ion.write(member) if after_segments else spelled(rng, member))
    return "(" + "".join(blank(rng) + member + blank(rng, needed=True) for member in found) + ")"


def spelled_name(rng: random.Random, name: str) -> str:
    """A field's name, as a symbol or a string."""
    return rng.choice([spelled_symbol, spelled_string])(rng, name)


def spelled_container(rng: random.Random, brackets: str, members: list[str]) -> str:
    """A list or a struct, at times with a comma behind its last member."""
    last = "," if members and rng.random() < 0.2 else ""
    inside = ",".join(blank(rng) + member + blank(rng) for member in members)
    return brackets[0] + inside + last + blank(rng) + brackets[1]


# ---- scripts


def document(rng: random.Random) -> Struct:
    """A document with a key among few, so that later statements find it."""
    return Struct([("k", rng.randrange(4)), ("s", rng.choice(["x", "y"])), ("v", value(rng, 2))])


def statement(rng: random.Random) -> Statement:
    """A statement on one of three tables."""
    table = rng.choice("tuw")
    made = [
        lambda: Statement(f"CREATE TABLE {table}"), lambda: Statement(f"CREATE INDEX ON {table} ({rng.choice('ks')})"),
        lambda: Statement(f"INSERT INTO {table} ?", [document(rng) for _ in range(rng.randrange(1, 5))]),
        lambda: Statement(f"INSERT INTO {table} ?", document(rng)),
        lambda: Statement(f"UPDATE {table} AS d SET d.v = ?, d.s = 'y' WHERE d.k = ?", value(rng, 2), rng.randrange(4)),
        lambda: Statement(f"DELETE FROM {table} AS d WHERE d.k = ?", rng.randrange(4)),
        lambda: Statement(f"SELECT d.k, d.v FROM {table} AS d WHERE d.s = ?", "x"),
    ]
    weights = [3, 1, 5, 5, 3, 1, 1]
    if rng.random() < 0.03:
        return Statement(f"DROP TABLE {table}")
    return rng.choices(made, weights)[0]()


def sessions(rng: random.Random, count: int, length: int) -> list[list[Transaction]]:
    """A script of `count` sessions of `length` transactions each, before which three tables are made."""
    tables = [Transaction([f"CREATE TABLE {name}"]) for name in "tuw"]
    found = [[Transaction([statement(rng) for _ in range(rng.randrange(1, 4))]) for _ in range(length)] for _ in range(count)]
    return [tables + found[0]] + found[1:]
