"""Prints the hashes that the tests of blocks expect, and the journal line that those of journal_text expect.

It is written from the rules in docs/formats.md and from the Ion Hash specification by itself, and shares nothing with
the crates: a value is a tuple of its kind and its content. Run it as `python3 vectors/make.py`.
"""

import base64
import hashlib


# ---- serializations and hashes of values


def escape(content):
    for control in (b"\x0c", b"\x0b", b"\x0e"):
        content = content.replace(control, b"\x0c" + control)
    return content


def frame(type_byte, content):
    return bytes([0x0B, type_byte]) + content + b"\x0e"


def var_uint(number):
    found = [number & 0x7F | 0x80]
    while number := number >> 7:
        found.insert(0, number & 0x7F)
    return bytes(found)


def moment(content):
    """The UTC parts as far as they go, and how many digits of a fraction of 0 there are; no parts below years:
    the offset is unknown."""
    parts, digits = content
    found = b"\xc0" if len(parts) < 4 else b"\x80"
    found += b"".join(map(var_uint, parts))
    return found + (bytes([0xC0 | digits]) if digits else b"")


def serialize(value):
    kind, content = value
    if kind == "null":
        return frame(0x0F, b"")
    if kind == "int":
        return frame(0x20, escape(content.to_bytes((content.bit_length() + 7) // 8, "big")))
    if kind == "timestamp":
        return frame(0x60, escape(moment(content)))
    if kind == "symbol":
        return frame(0x70, escape(content.encode()))
    if kind == "string":
        return frame(0x80, escape(content.encode()))
    if kind == "blob":
        return frame(0xA0, escape(content))
    if kind == "list":
        return frame(0xB0, b"".join(map(serialize, content)))
    fields = [hashlib.sha256(serialize(("symbol", name)) + serialize(member)).digest() for name, member in content]
    return frame(0xD0, escape(b"".join(sorted(fields))))


def H(value):
    return hashlib.sha256(serialize(value)).digest()


def dot(a, b):
    if not a or not b:
        return a or b

    def key(digest):
        return [byte - 256 if byte > 127 else byte for byte in reversed(digest)]

    return hashlib.sha256(min(a, b, key=key) + max(a, b, key=key)).digest()


# ---- the text of values


def text(value):
    kind, content = value
    if kind == "null":
        return "null"
    if kind == "int":
        return str(content)
    if kind == "timestamp":
        (year, month, day, hour, minute, second), digits = content
        return f"{year:04}-{month:02}-{day:02}T{hour:02}:{minute:02}:{second:02}.{'0' * digits}Z"
    if kind == "string":
        return f'"{content}"'
    if kind == "blob":
        return "{{" + base64.b64encode(content).decode() + "}}"
    if kind == "list":
        return "[" + ",".join(map(text, content)) + "]"
    return "{" + ",".join(f"{name}:{text(member)}" for name, member in content) + "}"


# ---- revisions and blocks


def number(n):
    return ("int", n)


def string(content):
    return ("string", content)


def blob(content):
    return ("blob", content)


def structure(**fields):
    return ("struct", list(fields.items()))


def id_text(n, i):
    """The id of this number of a transaction and this place in it, without a mask."""
    digits = "0123456789ABCDEFGHIJKLMNOPQRSTUVWXYZabcdefghijklmnopqrstuvwxyz"
    raw, found = (n << 24) + i, ""
    while raw:
        raw, digit = divmod(raw, 62)
        found = digits[digit] + found
    return found.rjust(22, "0")


def ident(n, i):
    return string(id_text(n, i))


STRAND = ident(0, 0)
ADDRESS = structure(strandId=STRAND, sequenceNo=number(0))


def revision(data, time):
    """The first revision of the second object that transaction 1 made; no data is a delete."""
    metadata = structure(id=ident(1, 2), version=number(0), txTime=time, txId=ident(1, 0))
    hash = dot(H(metadata), H(data) if data else b"")
    kept = {"data": data} if data else {}
    return hash, structure(blockAddress=ADDRESS, hash=blob(hash), **kept, metadata=metadata)


def block(previous, time, info, revisions):
    """Block 0 of transaction 1, which has at most one revision. It answers the entries' hash, the block's, and all."""
    header = structure(
        blockAddress=ADDRESS, transactionId=ident(1, 0), blockTimestamp=time, revisionCount=number(len(revisions))
    )
    root = revisions[0][0] if revisions else b""
    hashes = [H(info), root, H(header)]
    entries = dot(dot(hashes[0], hashes[1]), hashes[2])
    hash = dot(entries, previous)
    whole = structure(
        blockAddress=ADDRESS,
        transactionId=ident(1, 0),
        blockTimestamp=time,
        blockHash=blob(hash),
        entriesHash=blob(entries),
        previousBlockHash=blob(previous),
        entriesHashList=("list", list(map(blob, hashes))),
        transactionInfo=info,
        revisions=("list", [value for _, value in revisions]),
    )
    return entries, hash, whole


def transaction_info(statements, schema):
    said = [
        structure(statement=string(words), parameters=("list", parameters), answer=("list", answer))
        for words, parameters, answer in statements
    ]
    document = structure(documentId=ident(1, 2), tableId=ident(1, 1))
    return structure(
        place=structure(session=number(1), transaction=number(1)),
        statements=("list", said),
        schema=("list", schema),
        documents=("list", [document]),
    )


def show(name, digest):
    print(f"{name}: {digest.hex(' ')}")


show("the strand's hash", H(STRAND))
year = ("timestamp", ((2020,), 0))
said_a = transaction_info([("a", [], [])], [])
entries, hash, _ = block(H(STRAND), year, said_a, [revision(("null", None), year)])
show("block of one null, its entries", entries)
show("block of one null", hash)
show("block of one delete", block(H(STRAND), year, said_a, [revision(None, year)])[1])

new_year = ("timestamp", ((2020, 1, 1, 0, 0, 0), 3))
five = structure(a=number(5))
said = transaction_info(
    [
        ("CREATE TABLE t", [], [structure(tableId=ident(1, 1))]),
        ("INSERT INTO t ?", [five], [structure(documentId=ident(1, 2))]),
        ("SELECT * FROM t", [], [five]),
    ],
    [structure(create=string("t"), tableId=ident(1, 1))],
)
print("the line of the first block:")
print(text(block(H(STRAND), new_year, said, [revision(five, new_year)])[2]))
