#!/usr/bin/env python3
"""Reads the binary encoding of Ion 1.0 and writes its values as Ion text, spelled as the ledger spells them
(docs/formats.md, "How values are written"). It follows the Ion 1.0 specification, "Ion Binary Encoding" and
"Ion Symbols", shares no code with the program and isn't proved.

    tests/ion_binary.py                 runs its own tests, and ends with status 1 if one fails
    tests/ion_binary.py --read FILE     writes the values of the file, one a line
"""
import base64
import datetime
import re
import sys

MARKER = b"\xe0\x01\x00\xea"
SYSTEM = [None, "$ion", "$ion_1_0", "$ion_symbol_table", "name", "version", "imports", "symbols", "max_id",
          "$ion_shared_symbol_table"]
NULLS = ["null", "null.bool", "null.int", "null.int", "null.float", "null.decimal", "null.timestamp", "null.symbol",
         "null.string", "null.clob", "null.blob", "null.list", "null.sexp", "null.struct"]
PAD, SCALARS, LIST, SEXP, STRUCT, ANNOTATED = 0, range(1, 11), 11, 12, 13, 14


class NotIon(Exception):
    """The bytes aren't Ion 1.0 binary, or hold what this reader doesn't read: floats and imports."""


def check(truth, text):
    if not truth:
        raise NotIon(text)


class Reader:
    """A stream of bytes, and the symbols that its tables have given so far."""

    def __init__(self, data):
        self.data, self.at, self.symbols = data, 0, SYSTEM

    def take(self, count):
        check(self.at + count <= len(self.data), "the bytes end early")
        self.at += count
        return self.data[self.at - count:self.at]

    def groups(self):
        """The bytes of a VarUInt or a VarInt: seven bits each, the top bit set on the last."""
        bits = []
        while not bits or bits[-1] < 128:
            bits += self.take(1)
        return [byte % 128 for byte in bits]

    def var_uint(self):
        number = 0
        for bits in self.groups():
            number = number * 128 + bits
        return number

    def var_int(self):
        """The sign and the magnitude, since a zero may be negative."""
        first, *rest = self.groups()
        number = first % 64
        for bits in rest:
            number = number * 128 + bits
        return first >= 64, number

    def int_field(self, end):
        data = self.take(end - self.at)
        number = int.from_bytes(data, "big")
        top = 1 << (8 * len(data) - 1) if data else 0
        return bool(number & top), number & ~top

    def symbol(self, number):
        check(number < len(self.symbols) and self.symbols[number] is not None, f"no symbol {number}")
        return self.symbols[number]

    def head(self):
        """The type, the lower half and the end of the value that begins here."""
        high, low = divmod(self.take(1)[0], 16)
        if low == 15 or high == 1:
            return high, low, self.at
        ordered = high == STRUCT and low == 1
        return high, low, (self.var_uint() if low == 14 or ordered else low) + self.at

    def values(self, end):
        """The values up to the end, without padding."""
        texts = []
        while self.at < end:
            texts += self.value()
        check(self.at == end, "a value goes past the end of the one around it")
        return texts

    def value(self):
        """The text of the value that begins here; none for padding."""
        high, low, end = self.head()
        check(high < 15 and end <= len(self.data), "no such type or length")
        if low == 15:
            return [NULLS[high]]
        if high == PAD:
            self.at = end
            return []
        if high in SCALARS:
            text = getattr(self, f"read_{high}")(low, end)
        elif high == STRUCT:
            text = "{" + ",".join(self.fields(end)) + "}"
        elif high == ANNOTATED:
            names = self.names()
            text = "".join(spelled(name) + "::" for name in names) + self.values(end)[0]
        else:
            members = self.values(end)
            text = f"[{','.join(members)}]" if high == LIST else f"({' '.join(members)})"
        check(self.at == end, "a value's length isn't that of what is in it")
        return [text]

    def names(self):
        end = self.var_uint() + self.at
        names = []
        while self.at < end:
            names.append(self.symbol(self.var_uint()))
        check(names and self.at == end, "annotations of no or another length")
        return names

    def fields(self, end):
        while self.at < end:
            name = self.symbol(self.var_uint())
            for text in self.value():
                yield spelled(name) + ":" + text

    def read_1(self, low, end):
        check(low < 2, "no bool")
        return ["false", "true"][low]

    def read_2(self, low, end):
        return str(int.from_bytes(self.take(end - self.at), "big"))

    def read_3(self, low, end):
        text = self.read_2(low, end)
        check(text != "0", "a negative zero int")
        return "-" + text

    def read_4(self, low, end):
        raise NotIon("a float")

    def read_5(self, low, end):
        if self.at == end:
            return "0d0"
        below, exponent = self.var_int()
        negative, coefficient = self.int_field(end)
        return f"{'-' if negative else ''}{coefficient}d{'-' if below and exponent else ''}{exponent}"

    def read_6(self, low, end):
        behind, minutes = self.var_int()
        parts = []
        while self.at < end and len(parts) < 6:
            parts.append(self.var_uint())
        fraction = ""
        if self.at < end:
            below, digits = self.var_int()
            negative, number = self.int_field(end)
            check(below or number == 0 and digits == 0, "a fraction of a second or more")
            check(not negative or number == 0, "a negative fraction")
            fraction = "." + str(number).zfill(digits) if digits else ""
        return timestamp(parts, -minutes if behind else minutes, behind and minutes == 0, fraction)

    def read_7(self, low, end):
        return spelled(self.symbol(int.from_bytes(self.take(end - self.at), "big")))

    def read_8(self, low, end):
        return quoted(self.take(end - self.at).decode(), '"')

    def read_9(self, low, end):
        held = "".join(chr(b) if 32 <= b < 127 and b not in b'"\\' else f"\\{chr(b)}" if b in b'"\\' else f"\\x{b:02x}"
                       for b in self.take(end - self.at))
        return '{{"' + held + '"}}'

    def read_10(self, low, end):
        return "{{" + base64.b64encode(self.take(end - self.at)).decode() + "}}"

    def is_table(self):
        """Whether a local symbol table begins here: a struct whose first annotation is symbol 3."""
        start = self.at
        high, low, end = self.head()
        table = high == ANNOTATED and low != 15 and self.names()[0] == SYSTEM[3] and self.data[self.at] // 16 == STRUCT
        self.at = start
        return table

    def table(self):
        """Takes the table's texts as the symbols after the system's."""
        self.head()
        self.names()
        _, low, end = self.head()
        texts = []
        while low != 15 and self.at < end:
            name = self.symbol(self.var_uint())
            check(name != "imports", "imports")
            high, _, last = self.head()
            check(name != "symbols" or high == LIST, "symbols that are no list")
            while name == "symbols" and self.at < last:
                high, _, stop = self.head()
                check(high == 8, "a symbol without a text")
                texts.append(self.take(stop - self.at).decode())
            self.at = last
        self.symbols = SYSTEM + texts


def timestamp(parts, offset, unknown, fraction):
    """The text of a moment whose parts are in UTC, by its local time."""
    check(len(parts) in (1, 2, 3, 5, 6), "an hour without minutes")
    moment = datetime.datetime(*(parts + [1, 1])[:max(3, len(parts))]) + datetime.timedelta(minutes=offset)
    day = f"{moment.year:04}-{moment.month:02}-{moment.day:02}"
    if len(parts) < 4:
        return [day[:4] + "T", day[:7] + "T", day][len(parts) - 1]
    clock = f"T{moment.hour:02}:{moment.minute:02}" + (f":{moment.second:02}" if len(parts) == 6 else "") + fraction
    sign, far = "-" if offset < 0 or unknown else "+", abs(offset)
    return day + clock + ("Z" if offset == 0 and not unknown else f"{sign}{far // 60:02}:{far % 60:02}")


def quoted(text, mark):
    escapes = {mark: "\\" + mark, "\\": "\\\\", "\n": "\\n", "\r": "\\r", "\t": "\\t"}
    controls = {chr(code): f"\\x{code:02x}" for code in [*range(32), 127]}
    return mark + "".join((controls | escapes).get(c, c) for c in text) + mark


def spelled(name):
    """A symbol's text, bare if it may stand so."""
    bare = re.fullmatch("[A-Za-z_][A-Za-z0-9_$]*", name) and name not in ("null", "true", "false", "nan")
    return name if bare else quoted(name, "'")


def read(data):
    """The texts of the values of a stream."""
    reader, texts = Reader(data), []
    check(data[:4] == MARKER, "no version marker")
    while reader.at < len(data):
        if data[reader.at] == MARKER[0]:
            check(reader.take(4) == MARKER, "another version")
            reader.symbols = SYSTEM
        elif reader.is_table():
            reader.table()
        else:
            texts += reader.value()
    return texts


# Bytes after the version marker, and their values. The bytes are worked by hand from the specification's tables.
ROWS = """
=>
0f 1f 2f 3f 5f 6f 7f => null null.bool null.int null.int null.decimal null.timestamp null.symbol
8f 9f af bf cf df => null.string null.clob null.blob null.list null.sexp null.struct
10 11 => false true
20 21 01 31 01 22 01 00 28 7f ff ff ff ff ff ff ff => 0 1 -1 256 9223372036854775807
50 51 80 52 80 80 52 c1 0a 53 c2 00 96 52 83 05 => 0d0 0d0 -0d0 10d-1 150d-2 5d3
63 c0 0f d0 64 c0 0f d0 81 65 c0 0f d0 82 9d => 2000T 2000-01T 2000-02-29
68 80 0f d0 81 81 80 80 80 69 80 0f d0 81 81 80 80 80 80 => 2000-01-01T00:00:00Z 2000-01-01T00:00:00Z
67 c0 0f d0 81 81 80 80 => 2000-01-01T00:00-00:00
6b 43 a4 0f d0 81 81 80 80 80 c3 07 => 1999-12-31T17:00:00.007-07:00
71 04 => name
83 68 c3 a9 => "h\xe9"
8e 8e 30 31 32 33 34 35 36 37 38 39 61 62 63 64 => "0123456789abcd"
81 22 81 0a 81 7f => "\\"" "\\n" "\\x7f"
93 61 22 ff a1 00 => {{"a\\"\\xff"}} {{AA==}}
b0 b3 21 01 b0 c0 => [] [1,[]] ()
c2 21 => refused
c4 21 01 21 02 => (1 2)
d0 d3 84 21 01 d1 83 84 21 02 => {} {name:1} {name:2}
e4 81 84 21 01 e5 82 84 85 21 01 => name::1 name::version::1
00 01 ff 21 01 => 1
e7 81 83 d4 87 b2 81 61 d3 8a 21 01 => {a:1}
e7 81 83 d4 87 b2 81 78 ba e3 81 8a 11 32 01 00 52 c1 0a => [x::true,-256,10d-1]
e9 81 83 d6 87 b4 81 24 81 2d 72 00 0a 71 0b => '$' '-'
e7 81 83 d4 87 b2 81 61 e0 01 00 ea 71 0a => refused
30 => refused
31 00 => refused
71 0a => refused
f0 => refused
83 61 => refused
b1 21 => refused
48 3f f0 00 00 00 00 00 00 => refused
"""


def said_of(data):
    """The texts, and `refused` where the bytes are."""
    try:
        return read(data)
    except (NotIon, ValueError):
        return ["refused"]


def tests():
    failed = 0
    for row in ROWS.strip().split("\n"):
        given, _, wanted = row.partition("=>")
        found = " ".join(said_of(MARKER + bytes.fromhex(given)))
        if found != wanted.strip():
            failed += 1
            print(f"{given}: {found}")
    failed += said_of(b"\xe0\x02\x00\xea") != ["refused"]
    print(f"{len(ROWS.strip().splitlines())} rows, {failed} failed")
    return failed


def main():
    if sys.argv[1:2] != ["--read"]:
        sys.exit(1 if tests() else 0)
    with open(sys.argv[2], "rb") as file:
        print("".join(text + "\n" for text in read(file.read())), end="")


if __name__ == "__main__":
    main()
