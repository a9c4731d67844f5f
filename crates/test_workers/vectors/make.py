"""Prints the commit digests that the tests expect.

It is written from the rules in docs/formats.md and from the Ion Hash specification by itself, and shares nothing with the
crates. Run it as `python3 vectors/make.py`.
"""

import hashlib


def escape(content):
    for control in (b"\x0c", b"\x0b", b"\x0e"):
        content = content.replace(control, b"\x0c" + control)
    return content


def frame(type_byte, content):
    return bytes([0x0B, type_byte]) + content + b"\x0e"


def serialize(value):
    """Of text, a whole number that isn't negative, a list or a struct."""
    if isinstance(value, str):
        return frame(0x80, escape(value.encode()))
    if isinstance(value, int):
        return frame(0x20, escape(value.to_bytes((value.bit_length() + 7) // 8, "big")))
    if isinstance(value, list):
        return frame(0xB0, b"".join(map(serialize, value)))
    fields = [hashlib.sha256(frame(0x70, escape(name.encode())) + serialize(v)).digest() for name, v in value.items()]
    return frame(0xD0, escape(b"".join(sorted(fields))))


def H(value):
    return hashlib.sha256(serialize(value)).digest()


def dot(a, b):
    def signed(digest):
        return [byte - 256 if byte > 127 else byte for byte in reversed(digest)]

    return hashlib.sha256(min(a, b, key=signed) + max(a, b, key=signed)).digest()


def id_text(raw):
    digits = "0123456789ABCDEFGHIJKLMNOPQRSTUVWXYZabcdefghijklmnopqrstuvwxyz"
    found = ""
    while raw:
        raw, digit = divmod(raw, 62)
        found = digits[digit] + found
    return found.rjust(22, "0")


def commit_digest(raw, statements):
    digest = H(id_text(raw))
    for text, params in statements:
        statement = H(text)
        for param in params:
            statement = dot(statement, H(param))
        digest = dot(digest, statement)
    return digest


def main():
    insert, select = ("INSERT INTO t ?", [{"a": 5}]), ("SELECT * FROM t", [])
    for number, statements in [
        (1, []),
        (1, [("CREATE TABLE t", [])]),
        (1, [insert]),
        (1, [select, insert]),
        (1, [insert, select]),
        (2, [("SELECT * FROM t WHERE a = ? AND b = ?", [5, "x"])]),
        (2, [("SELECT * FROM t WHERE a = ? AND b = ?", ["x", 5])]),
        (3, [("", [[], {}])]),
    ]:
        print(number, commit_digest(number << 24, statements).hex(), *(f"{text}|{params}" for text, params in statements))


main()
