"""Values, blocks, digests and proofs for the vectors, written from docs/formats.md and the Ion Hash 1.0 specification alone.

It reads nothing: every value is built from its parts, written and hashed. It shares no code with the ledger, with the verifiers or
with the clients, so that whatever agrees with its vectors agrees with the documents.
"""
import base64
import copy
import hashlib
from datetime import datetime, timedelta

# ---- Values: pairs of a kind and a content


def null(kind="null"):
    return ("null", kind)


def boolean(content):
    return ("bool", content)


def number(content):
    return ("int", content)


def decimal(magnitude, exponent, negative=False):
    return ("decimal", (negative, magnitude, exponent))


def timestamp(*parts, fraction="", offset=None):
    """From the year as far as the precision goes, in local time; the offset in minutes, None where it is unknown."""
    return ("timestamp", (parts, fraction, offset))


def symbol(text):
    return ("symbol", text)


def string(text):
    return ("string", text)


def clob(data):
    return ("clob", data)


def blob(data):
    return ("blob", data)


def sequence(*members):
    return ("list", list(members))


def sexp(*members):
    return ("sexp", list(members))


def structure(*pairs, **fields):
    return ("struct", list(pairs) + list(fields.items()))


def annotated(*words):
    """The last of these, annotated by those before it."""
    return ("annotated", (words[:-1], words[-1]))


# ---- The one spelling (docs/formats.md, "How values are written")

NAMED = {"\\": "\\\\", "\n": "\\n", "\r": "\\r", "\t": "\\t"}


def in_quotes(text, quote):
    spelled = ""
    for one in text:
        if one == quote:
            spelled += "\\" + one
        elif one in NAMED:
            spelled += NAMED[one]
        elif ord(one) < 0x20 or ord(one) == 0x7F:
            spelled += f"\\x{ord(one):02x}"
        else:
            spelled += one
    return quote + spelled + quote


def name_text(text):
    letters = "ABCDEFGHIJKLMNOPQRSTUVWXYZabcdefghijklmnopqrstuvwxyz_"
    bare = text[:1] and text[0] in letters and all(one in letters + "0123456789$" for one in text)
    return text if bare and text not in ("null", "true", "false", "nan") else in_quotes(text, "'")


def time_text(content):
    parts, fraction, offset = content
    spelled = f"{parts[0]:04}" + "".join(f"-{part:02}" for part in parts[1:3])
    if len(parts) < 3:
        return spelled + "T"
    if len(parts) == 3:
        return spelled
    spelled += "T" + ":".join(f"{part:02}" for part in parts[3:])
    if fraction:
        spelled += "." + fraction
    if offset is None:
        return spelled + "-00:00"
    if offset == 0:
        return spelled + "Z"
    return spelled + ("-" if offset < 0 else "+") + f"{abs(offset) // 60:02}:{abs(offset) % 60:02}"


def clob_text(data):
    spelled = ""
    for byte in data:
        if byte in b'"\\':
            spelled += "\\" + chr(byte)
        else:
            spelled += chr(byte) if 0x20 <= byte <= 0x7E else f"\\x{byte:02x}"
    return '{{"' + spelled + '"}}'


def base64_text(data):
    return base64.b64encode(data).decode()


def text(value):
    kind, content = value
    if kind == "null":
        return "null" if content == "null" else "null." + content
    if kind == "bool":
        return "true" if content else "false"
    if kind == "int":
        return str(content)
    if kind == "decimal":
        return f"{'-' if content[0] else ''}{content[1]}d{content[2]}"
    if kind == "timestamp":
        return time_text(content)
    if kind == "symbol":
        return name_text(content)
    if kind == "string":
        return in_quotes(content, '"')
    if kind == "clob":
        return clob_text(content)
    if kind == "blob":
        return "{{" + base64_text(content) + "}}"
    if kind == "annotated":
        return "".join(name_text(name) + "::" for name in content[0]) + text(content[1])
    if kind == "struct":
        return "{" + ",".join(name_text(name) + ":" + text(member) for name, member in content) + "}"
    members = list(map(text, content))
    return "[" + ",".join(members) + "]" if kind == "list" else "(" + " ".join(members) + ")"


# ---- Serializations and hashes (docs/formats.md, "Hashes of values")

QUALIFIERS = {"null": 0x0F, "bool": 0x1F, "int": 0x2F, "decimal": 0x5F, "timestamp": 0x6F, "symbol": 0x7F, "string": 0x8F,
              "clob": 0x9F, "blob": 0xAF, "list": 0xBF, "sexp": 0xCF, "struct": 0xDF}  # fmt: skip


def H256(data):
    return hashlib.sha256(data).digest()


def frame(type_byte, content):
    return b"\x0b" + bytes([type_byte]) + content + b"\x0e"


def escape(content):
    for control in (b"\x0c", b"\x0b", b"\x0e"):
        content = content.replace(control, b"\x0c" + control)
    return content


def groups(magnitude, first_bits):
    """Groups of seven bits, the most significant first, of which the first has only some."""
    found = [magnitude & 0x7F]
    while magnitude := magnitude >> 7:
        found.insert(0, magnitude & 0x7F)
    return found if found[0] >> first_bits == 0 else [0] + found


def var_uint(magnitude):
    found = groups(magnitude, 7)
    found[-1] |= 0x80
    return bytes(found)


def var_int(whole):
    found = groups(abs(whole), 6)
    found[0] |= 0x40 if whole < 0 else 0
    found[-1] |= 0x80
    return bytes(found)


def int_field(negative, magnitude):
    if magnitude == 0:
        return b"\x80" if negative else b""
    found = magnitude.to_bytes(magnitude.bit_length() // 8 + 1, "big")
    return bytes([found[0] | 0x80]) + found[1:] if negative else found


def time_bytes(content):
    parts, fraction, offset = content
    moment = datetime(*parts, *(1, 1, 1, 0, 0, 0)[len(parts) :]) - timedelta(minutes=offset or 0)
    in_utc = (moment.year, moment.month, moment.day, moment.hour, moment.minute, moment.second)[: len(parts)]
    found = b"\xc0" if offset is None else var_int(offset)
    found += b"".join(map(var_uint, in_utc))
    return found + var_int(-len(fraction)) + int_field(False, int(fraction)) if fraction else found


def serialize(value):
    kind, content = value
    if kind == "annotated":
        return frame(0xE0, b"".join(serialize(symbol(name)) for name in content[0]) + serialize(content[1]))
    if kind == "null":
        return frame(QUALIFIERS[content], b"")
    if kind == "bool":
        return frame(0x11 if content else 0x10, b"")
    if kind == "int":
        magnitude = abs(content).to_bytes((abs(content).bit_length() + 7) // 8, "big")
        return frame(0x30 if content < 0 else 0x20, escape(magnitude))
    if kind == "struct":
        return struct_form(field_hash(name, member) for name, member in content)
    if kind in ("list", "sexp"):
        return frame(QUALIFIERS[kind] - 0x0F, b"".join(map(serialize, content)))
    if kind == "decimal":
        content = b"" if content == (False, 0, 0) else var_int(content[2]) + int_field(content[0], content[1])
    elif kind == "timestamp":
        content = time_bytes(content)
    elif kind in ("symbol", "string"):
        content = content.encode()
    return frame(QUALIFIERS[kind] - 0x0F, escape(content))


def field_hash(name, value):
    return H256(serialize(symbol(name)) + serialize(value))


def struct_form(hashes):
    """The serialization of a struct, from the hashes of its fields."""
    return frame(0xD0, escape(b"".join(sorted(hashes))))


def H(value):
    return H256(serialize(value))


# ---- Pairs and trees (docs/formats.md, "Hashes of pairs, and trees of hashes")

PAD = H256(b"\x0b\x70pad\x0e")


def dot(a, b):
    if not a or not b:
        return a or b

    def signed(digest):
        return [byte - 256 if byte > 127 else byte for byte in reversed(digest)]

    return H256(a + b if signed(a) <= signed(b) else b + a)


def levels(leaves):
    """The tree over some leaves, level by level from the padded leaves to the root."""
    places = 1
    while places < len(leaves):
        places *= 2
    found = [leaves + [PAD] * (places - len(leaves))]
    while len(found[-1]) > 1:
        below = found[-1]
        found.append([dot(below[i], below[i + 1]) for i in range(0, len(below), 2)])
    return found


def root(leaves):
    return levels(leaves)[-1][0] if leaves else b""


def siblings(leaves, place):
    found = []
    for level in levels(leaves)[:-1]:
        found.append(level[place ^ 1])
        place //= 2
    return found


# ---- Ids, blocks, digests and proofs (docs/formats.md, "Ids" to "Digests and proofs")

DIGITS = "0123456789ABCDEFGHIJKLMNOPQRSTUVWXYZabcdefghijklmnopqrstuvwxyz"


def id_text(raw):
    found = ""
    for _ in range(22):
        raw, digit = divmod(raw, 62)
        found = DIGITS[digit] + found
    return found


def id_of(mask, n, i):
    return id_text((n << 24 | i) ^ mask)


def address(strand, place):
    return structure(strandId=string(strand), sequenceNo=number(place))


class Revision:
    """A revision. `data` is None where it deletes its document; `data_hash`, if it is there, stands in the place of the data."""

    def __init__(self, document, table, version, data):
        self.document, self.table, self.version, self.data = document, table, version, data
        self.strand = self.place = self.time = self.transaction = self.hash = self.data_hash = None

    def metadata(self):
        return structure(id=string(self.document), version=number(self.version), txTime=self.time, txId=string(self.transaction))

    def content_hash(self):
        return self.data_hash or (H(self.data) if self.data else b"")

    def computed(self):
        return dot(H(self.metadata()), self.content_hash())

    def redact(self):
        self.data_hash = self.content_hash() or None

    def value(self):
        content = {"dataHash": blob(self.data_hash)} if self.data_hash else {"data": self.data} if self.data else {}
        return structure(blockAddress=address(self.strand, self.place), hash=blob(self.hash), **content, metadata=self.metadata())


class Block:
    """A block. `seal` computes its hashes from all else; what is changed after it stays as it is changed."""

    def __init__(self, strand, place, transaction, time, turn, statements, schema, revisions):
        self.strand, self.place, self.transaction, self.time, self.turn = strand, place, transaction, time, turn
        self.statements, self.schema, self.revisions = statements, schema, revisions
        self.told_hash = None  # stands in the place of the statements, if it is there
        for one in revisions:
            one.strand, one.place, one.time, one.transaction = strand, place, time, transaction

    def header(self):
        return structure(
            blockAddress=address(self.strand, self.place),
            transactionId=string(self.transaction),
            blockTimestamp=self.time,
            revisionCount=number(len(self.revisions)),
        )

    def info(self):
        said = [
            structure(statement=string(words), parameters=sequence(*parameters), answer=sequence(*answer))
            for words, parameters, answer in self.statements
        ]
        touched = [structure(documentId=string(one.document), tableId=string(one.table)) for one in self.revisions]
        told = {"statementsHash": blob(self.told_hash)} if self.told_hash else {"statements": sequence(*said)}
        return structure(
            place=structure(session=number(self.turn[0]), transaction=number(self.turn[1])),
            **told,
            schema=sequence(*self.schema),
            documents=sequence(*touched),
        )

    def info_hashes(self):
        """The hashes of the four fields of `transactionInfo`, of which a stored one may stand for the statements."""
        return [self.told_hash if name == "statementsHash" else field_hash(name, value) for name, value in self.info()[1]]

    def hide_statements(self):
        self.told_hash = self.info_hashes()[1]

    def seal(self, previous):
        for one in self.revisions:
            one.hash = one.computed()
        self.previous = previous
        self.parts = [H256(struct_form(self.info_hashes())), root([one.hash for one in self.revisions]), H(self.header())]
        self.entries = dot(dot(self.parts[0], self.parts[1]), self.parts[2])
        self.hash = dot(self.entries, previous)
        return self

    def value(self):
        return structure(
            blockAddress=address(self.strand, self.place),
            transactionId=string(self.transaction),
            blockTimestamp=self.time,
            blockHash=blob(self.hash),
            entriesHash=blob(self.entries),
            previousBlockHash=blob(self.previous),
            entriesHashList=sequence(*map(blob, self.parts)),
            transactionInfo=self.info(),
            revisions=sequence(*(one.value() for one in self.revisions)),
        )

    def line(self):
        return text(self.value())


class Journal:
    """The blocks of one journal, whose ids have this mask."""

    def __init__(self, mask):
        self.mask, self.strand, self.blocks = mask, id_of(mask, 0, 0), []

    def id(self, n, i=0):
        return id_of(self.mask, n, i)

    def previous(self, place=None):
        before = (len(self.blocks) if place is None else place) - 1
        return self.blocks[before].hash if before >= 0 else H(string(self.strand))

    def append(self, n, time, turn, statements, schema=(), revisions=()):
        block = Block(self.strand, len(self.blocks), self.id(n), time, turn, statements, list(schema), list(revisions))
        self.blocks.append(block.seal(self.previous()))

    def lines(self):
        return [block.line() for block in self.blocks]

    def changed(self, place, change, sealed=True):
        """The line at a place after a change to a copy of its block, with its hashes computed anew or as they were."""
        block = copy.deepcopy(self.blocks[place])
        change(block)
        return (block.seal(self.previous(place)) if sealed else block).line()

    def digest(self, tip):
        whole = root([block.hash for block in self.blocks[: tip + 1]])
        return structure(digest=blob(whole), digestTipAddress=address(self.strand, tip))

    def proof(self, place, index, tip):
        block = self.blocks[place]
        path = siblings([one.hash for one in block.revisions], index) + [block.parts[0], block.previous]
        path += siblings([one.hash for one in self.blocks[: tip + 1]], place)
        return structure(header=block.header(), index=number(index), path=sequence(*map(blob, path)))

    def bundle(self, place, index, tip):
        """The digest, the revision and its proof, as values."""
        return [self.digest(tip), self.blocks[place].revisions[index].value(), self.proof(place, index, tip)]


def bundle_text(parts):
    return "".join(text(part) + "\n" for part in parts)
