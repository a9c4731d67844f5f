"""Small journals, and what is damaged in them (docs/formats.md, "Blocks" and "The journal")."""
import copy
import re

from bundles import BASE64
from forms import (Journal, Revision, annotated, blob, clob, decimal, id_of, null, number, sequence, sexp, string, structure,
                   symbol, text, timestamp)  # fmt: skip

MORNING = timestamp(2019, 6, 5, 16, 30, 45, fraction="123", offset=0)
LEAP_DAY = timestamp(2020, 2, 29, 23, 59, 59, fraction="999", offset=0)


def car(vin, owner):
    return structure(VIN=string(vin), Owner=string(owner))


def sample():
    """A document with a value of each kind."""
    plain = [null(), null("int"), ("bool", True), number(-5), decimal(150, -2), timestamp(2020, 2)]
    texts = [symbol("a b"), string("\u00e9\n"), clob(b"\x00a"), blob(b"\x0b\x0c")]
    kinds = [*plain, *texts, sexp(symbol("+"), number(1)), annotated("x", structure(y=sequence()))]
    return structure(VIN=string("WBA3B5C5"), Kinds=sequence(*kinds))


def registry():
    """The journal that the program leaves under --plain-ids by the scripts below: five blocks with 3, 1, 0, 1 and 2 revisions."""
    journal = Journal(0)
    table, cars = journal.id(1, 1), [journal.id(1, 2), journal.id(1, 3), journal.id(1, 4)]
    owners = {"1N4AL11D75C109151": "Raul Lewis", "KM8SRDHF6EU074761": "Brent Logan", "3HGGK5G53FM761765": "Alexis Pena"}
    said = [car(vin, owner) for vin, owner in owners.items()]
    answers = [structure(documentId=string(one)) for one in cars]
    told = [structure(tableId=string(table))]
    journal.append(
        1,
        MORNING,
        (1, 1),
        [
            ("CREATE TABLE Vehicle", [], told),
            ("CREATE INDEX ON Vehicle (VIN)", [], told),
            ("INSERT INTO Vehicle ?", [sequence(*said)], answers),
        ],
        [structure(create=string("Vehicle"), tableId=string(table)), structure(index=string("VIN"), tableId=string(table))],
        [Revision(one, table, 0, data) for one, data in zip(cars, said)],
    )
    change = "UPDATE Vehicle AS v SET v.Owner = ? WHERE v.VIN = ?"
    sold = car("1N4AL11D75C109151", "Melvin Parker")
    parameters = [string("Melvin Parker"), string("1N4AL11D75C109151")]
    journal.append(2, MORNING, (1, 2), [(change, parameters, answers[:1])], [], [Revision(cars[0], table, 1, sold)])
    rows = [sold, *said[1:]]
    owners = [structure(Owner=dict(one[1])["Owner"]) for one in rows]
    journal.append(3, LEAP_DAY, (1, 1), [("SELECT v.Owner FROM Vehicle AS v", [], owners)])
    scrap = ("DELETE FROM Vehicle AS v WHERE v.VIN = ?", [string("3HGGK5G53FM761765")], answers[2:])
    journal.append(4, LEAP_DAY, (1, 2), [scrap], [], [Revision(cars[2], table, 1, None)])
    fifth = journal.id(5, 1)
    repaint = ("UPDATE Vehicle AS v SET v.Colour = 'green' WHERE v.VIN = ?", [string("KM8SRDHF6EU074761")], answers[1:2])
    journal.append(
        5,
        LEAP_DAY,
        (2, 1),
        [("INSERT INTO Vehicle ?", [sample()], [structure(documentId=string(fifth))]), repaint],
        [],
        [Revision(fifth, table, 0, sample()), Revision(cars[1], table, 1, structure(*said[1][1], ("Colour", string("green"))))],
    )
    return journal


# the runs that leave the registry: the time, and the statements of each session's transactions
def runs(journal):
    def script(blocks):
        sessions = {}
        for block in blocks:
            statements = [structure(text=string(words), params=sequence(*params)) for words, params, _ in block.statements]
            sessions.setdefault(block.turn[0], []).append(structure(statements=sequence(*statements)))
        return [sequence(*transactions) for transactions in sessions.values()]

    parts = [(MORNING, journal.blocks[:2]), (LEAP_DAY, journal.blocks[2:5]), (LEAP_DAY, journal.blocks[5:])]
    return [(time, script(blocks)) for time, blocks in parts if blocks]


def erased():
    """The registry with two blocks more: the first redacts the first owner of a car and the content of one that was deleted."""
    journal = registry()
    table, cars = journal.id(1, 1), [journal.id(1, 2), journal.id(1, 4)]
    address = structure(strandId=string(journal.strand), sequenceNo=number(0))
    parts = [[("blockAddress", address), ("tableId", string(table)), ("documentId", string(one))] for one in cars]
    answers = [[structure(*part, ("version", number(0)))] for part in parts]
    said = [("EXEC REDACT_REVISION ?, ?, ?", [value for _, value in part], answer) for part, answer in zip(parts, answers)]
    journal.append(6, LEAP_DAY, (1, 1), said, [redaction(journal, 0, one) for one in cars])
    owners = [structure(Owner=string(name)) for name in ("Melvin Parker", "Brent Logan")]
    last = ("SELECT v.Owner FROM Vehicle AS v WHERE v.Kinds IS MISSING", [], owners)
    journal.append(7, LEAP_DAY, (1, 2), [last])
    return journal


def compacted(journal):
    """The journal without what its blocks redact; its hashes stay."""
    journal = copy.deepcopy(journal)
    entries = [(block.place, dict(entry[1])) for block in journal.blocks for entry in block.schema if "redact" in dict(entry[1])]
    named = {(dict(entry["redact"][1])["sequenceNo"][1], entry["documentId"][1]) for _, entry in entries}
    last = max(place for place, _ in entries)
    for block in journal.blocks:
        if block.place <= last:
            block.hide_statements()
        for one in block.revisions:
            if (block.place, one.document) in named:
                one.redact()
        before = block.hash
        assert block.seal(journal.previous(block.place)).hash == before
    return journal


def other():
    """A journal under another mask, of two blocks; the document of the first has the form of a revision's metadata."""
    journal = Journal(0x2B7E151628AED2A6ABF7158809CF4F3C)
    table, document = journal.id(1, 1), journal.id(1, 2)
    likeness = structure(id=string(document), version=number(7), txTime=LEAP_DAY, txId=string(journal.id(9)))
    answer = [structure(documentId=string(document))]
    said = [("CREATE TABLE t", [], [structure(tableId=string(table))]), ("INSERT INTO t ?", [likeness], answer)]
    created = [structure(create=string("t"), tableId=string(table))]
    journal.append(1, MORNING, (1, 1), said, created, [Revision(document, table, 0, likeness)])
    journal.append(2, MORNING, (1, 2), [("DELETE FROM t", [], answer)], [], [Revision(document, table, 1, None)])
    return journal


# ---- Damages. Each is (name, kind, place, line, rule): the journal is the lines before the place and then this one, or, where the
# line is a list, these.


def nested(levels):
    value = number(1)
    for _ in range(levels):
        value = sequence(value)
    return value


def swapped(line, old, new):
    """The line with its first part like this exchanged; the part has to be there."""
    assert old in line, old
    return line.replace(old, new, 1)


def unused_bit(found):
    """The last digit of a blob with an unused bit set."""
    return BASE64[BASE64.index(found[1]) + 1] + "=}}"


def not_lines(journal):
    """Lines that aren't the line of a whole block as the writer spells it. The place is 0, and the block's hashes don't count."""
    line = journal.lines()[0]
    value = journal.blocks[0].value()[1]
    joined = "{blockAddress:" + line.split("{blockAddress:", 1)[1]
    whole = {
        "no bytes": "",
        "white space in front": " " + line,
        "a space between two tokens": swapped(line, ",", ", "),
        "a comment": swapped(line, ",", ",/**/"),
        "a carriage return behind it": line + "\r",
        "a version marker": "$ion_1_0 " + line,
        "two blocks": line + joined,
        "no block": "{}",
        "a list": "[" + line + "]",
        "an annotation": "block::" + line,
        "a byte order mark": "\ufeff" + line,
        "cut inside": line[:-1],
        "a comma behind the last field": line[:-1] + ",}",
        "an int in hexadecimal digits": swapped(line, "sequenceNo:0", "sequenceNo:0x0"),
        "an int below zero": swapped(line, "sequenceNo:0", "sequenceNo:-1"),
        "an int past 64 bits": swapped(line, "sequenceNo:0", f"sequenceNo:{1 << 64}"),
        "a version past 64 bits": swapped(line, "version:0", f"version:{1 << 64}"),
        "a decimal for an int": swapped(line, "sequenceNo:0", "sequenceNo:0d0"),
        "a name in quotes that it doesn't need": swapped(line, "{VIN:", "{'VIN':"),
        "a name as a string": swapped(line, "{VIN:", '{"VIN":'),
        "an escape that isn't needed": swapped(line, '"Raul Lewis"', '"\\x52aul Lewis"'),
        "a long string": swapped(line, '"Raul Lewis"', "'''Raul Lewis'''"),
        "a timestamp with another offset for Z": swapped(line, "45.123Z,blockHash", "45.123+00:00,blockHash"),
        "a digit of another script": swapped(line, "sequenceNo:0", "sequenceNo:\u0660"),
        "base64 with an unused bit": re.sub(r"([A-Za-z0-9+/])=}}", unused_bit, line, count=1),
        "a hash of 31 bytes": re.sub(r"blockHash:{{[^}]*}}", "blockHash:{{" + "A" * 40 + "AA==}}", line, count=1),
        "two members in the list of hashes": re.sub(r"entriesHashList:\[{{[^}]*}},", "entriesHashList:[", line),
        "an id of 21 digits": swapped(line, 'strandId:"0', 'strandId:"'),
        "an id past 128 bits": re.sub(r'strandId:"[^"]*"', 'strandId:"' + "z" * 22 + '"', line, count=1),
        "an id as a symbol": re.sub(r'strandId:"([^"]*)"', r"strandId:'\1'", line, count=1),
        "a document too few": re.sub(r"documents:\[{[^}]*},", "documents:[", line),
        "no documents": re.sub(r",documents:\[[^]]*\]", "", line),
        "a field twice": swapped(line, "{strandId:", '{strandId:"' + journal.strand + '",strandId:'),
        "a field beside": line[:-1] + ",note:null}",
    }
    for name, member in value:
        whole[f"without {name}"] = text(structure(*[pair for pair in value if pair[0] != name]))
    whole["fields in another order"] = text(structure(*[value[1], value[0], *value[2:]]))
    rule = "bytes that aren't the line of a whole block, spelled as the writer spells it"
    yield from ((name, "NotALine", 0, spelled, rule) for name, spelled in whole.items())
    deep = journal.changed(0, lambda block: setattr(block.revisions[0], "data", nested(65)))
    yield "a document 65 deep", "NotALine", 0, deep, "a document nests at most 64 deep"


def wrong_places(journal):
    def to(place, strand=None):
        def change(block):
            block.place, block.strand = place, strand or block.strand
            for one in block.revisions:
                one.place, one.strand = block.place, block.strand

        return change

    rule = "the sequence number is the line's place, and the strand that of block 0"
    yield "the first line isn't block 0", "WrongAddress", 0, journal.changed(0, to(1)), rule
    yield "a number is left out", "WrongAddress", 1, journal.changed(1, to(2)), rule
    yield "a number comes again", "WrongAddress", 2, journal.changed(2, to(1)), rule
    yield "another strand", "WrongAddress", 1, journal.changed(1, to(1, id_of(0, 9, 9))), rule
    yield "a block is left out", "WrongAddress", 1, journal.lines()[2], rule
    yield "a block comes again", "WrongAddress", 2, journal.lines()[1], rule


def wrong_ids(journal):
    def to(transaction):
        def change(block):
            block.transaction = transaction
            for one in block.revisions:
                one.transaction = transaction

        return change

    rule = "the id of a number from 1 to 2^64 - 1 under the strand's mask, which no earlier block has"
    yield "the transaction's number is 0", "WrongId", 0, journal.changed(0, to(journal.id(0))), rule
    yield "the id is that of a thing of a transaction", "WrongId", 0, journal.changed(0, to(journal.id(1, 1))), rule
    yield "the number is past 64 bits", "WrongId", 1, journal.changed(1, to(journal.id(1 << 64))), rule
    yield "an earlier block has the id", "WrongId", 1, journal.changed(1, to(journal.id(1))), rule
    yield "an id under another mask", "WrongId", 1, journal.changed(1, to(id_of(1 << 100, 2, 0))), rule


def wrong_times(journal):
    def to(time):
        def change(block):
            block.time = time
            for one in block.revisions:
                one.time = time

        return change

    rule = "the block's moment isn't before that of the block before it"
    second = timestamp(2019, 6, 5, 16, 30, 45, offset=0)
    yield "a moment before", "TimeFell", 1, journal.changed(1, to(second)), rule
    abroad = timestamp(2019, 6, 5, 17, 0, 0, offset=60)
    yield "a later hour that is an earlier moment", "TimeFell", 1, journal.changed(1, to(abroad)), rule


def wrong_hashes(journal):
    def flip(data):
        return data[:-1] + bytes([data[-1] ^ 1])

    def previous(data):
        return lambda block: setattr(block, "previous", data)

    rule = "the previous hash is the hash of the block before it, or for block 0 the strand's"
    flipped = previous(flip(journal.blocks[0].hash))
    yield "one bit of the previous hash", "WrongPrevious", 1, journal.changed(1, flipped, False), rule
    yield "the hash of the block before that", "WrongPrevious", 2, journal.changed(2, previous(journal.blocks[0].hash), False), rule
    yield "zeros before block 0", "WrongPrevious", 0, journal.changed(0, previous(bytes(32)), False), rule

    def part(place):
        return lambda block: block.parts.__setitem__(place, flip(block.parts[place]))

    def attribute(of, name):
        return lambda block: setattr(of(block), name, flip(getattr(of(block), name)))

    changes = {
        "one bit of a revision's hash": attribute(lambda block: block.revisions[1], "hash"),
        "one bit of the hash of transactionInfo": part(0),
        "one bit of the root of the revisions": part(1),
        "one bit of the hash of the header": part(2),
        "one bit of the hash of the entries": attribute(lambda block: block, "entries"),
        "one bit of the block's hash": attribute(lambda block: block, "hash"),
        "another document": lambda block: setattr(block.revisions[2], "data", car("3HGGK5G53FM761765", "Alexis Bena")),
        "a document left out": lambda block: setattr(block.revisions[2], "data", None),
        "another version": lambda block: setattr(block.revisions[0], "version", 1),
        "another statement": lambda block: block.statements.__setitem__(0, ("CREATE TABLE Vehicles", *block.statements[0][1:])),
        "another place in the script": lambda block: setattr(block, "turn", (1, 2)),
        "revisions in another order": lambda block: block.revisions.reverse(),
        "no root": lambda block: block.parts.__setitem__(1, b""),
    }
    rule = "a hash is the computed one"
    yield from ((name, "WrongHash", 0, journal.changed(0, change, False), rule) for name, change in changes.items())
    root_of_none = journal.changed(2, lambda block: block.parts.__setitem__(1, bytes(32)), False)
    yield "a root of no revisions", "WrongHash", 2, root_of_none, rule
    time = timestamp(2019, 6, 5, 17, 30, 45, fraction="123", offset=60)
    yield "the same moment otherwise", "WrongHash", 1, journal.changed(1, lambda block: setattr(block, "time", time), False), rule


def redaction(journal, place, document, table=None):
    """The entry that redacts the revision of a document in the block at a place."""
    of = structure(strandId=string(journal.strand), sequenceNo=number(place))
    return structure(redact=of, tableId=string(table or journal.id(1, 1)), documentId=string(document))


def redacting(journal):
    """Lines that redact: each with its place, how many blocks and revisions the journal then has, and what it is."""
    first, deleted = journal.id(1, 2), journal.id(1, 4)
    add = lambda *entries: lambda block: block.schema.extend(entries)  # noqa: E731
    drop = structure(drop=string("Vehicle"), tableId=string(journal.id(1, 1)))
    yield "an older revision is redacted", 2, add(redaction(journal, 0, first)), 4
    yield "an older revision is redacted where its table is dropped", 2, add(drop, redaction(journal, 0, first)), 4
    yield "the content of a deleted document is redacted", 4, add(redaction(journal, 0, deleted)), 7
    yield "two revisions are redacted", 4, add(redaction(journal, 0, deleted), redaction(journal, 0, first)), 7


def wrong_redactions(journal):
    table, first, second, deleted = (journal.id(1, thing) for thing in range(1, 5))
    add = lambda *entries: lambda block: block.schema.extend(entries)  # noqa: E731
    other = structure(strandId=string(journal.id(9, 9)), sequenceNo=number(0))
    changes = {
        "the latest revision of its document is redacted": (2, add(redaction(journal, 1, first))),
        "the only revision of its document is redacted": (2, add(redaction(journal, 0, second))),
        "a delete is redacted": (4, add(redaction(journal, 3, deleted))),
        "a revision is redacted twice": (2, add(redaction(journal, 0, first), redaction(journal, 0, first))),
        "a revision of no document is redacted": (2, add(redaction(journal, 0, journal.id(1, 9)))),
        "a revision in another table is redacted": (2, add(redaction(journal, 0, first, second))),
        "a revision in a block without one is redacted": (3, add(redaction(journal, 2, first))),
        "a revision in a block that isn't there is redacted": (2, add(redaction(journal, 9, first))),
        "a revision of another strand is redacted": (2, add(structure(redact=other, tableId=string(table), documentId=string(first)))),
        "a revision of the block itself is redacted": (1, add(redaction(journal, 1, first))),
        "the revision that the block makes an older one is redacted": (1, add(redaction(journal, 0, first))),
    }
    rule = "a redaction names an earlier revision that isn't its document's latest before the block, and once"
    yield from ((name, "WrongState", place, journal.changed(place, change), rule) for name, (place, change) in changes.items())


def wrong_states(journal):
    table, first, deleted = journal.id(1, 1), journal.id(1, 2), journal.id(1, 4)
    add = lambda *changes: lambda block: block.schema.extend(changes)  # noqa: E731
    made = lambda name, of: structure(create=string(name), tableId=string(of))  # noqa: E731
    index = lambda field, of: structure(index=string(field), tableId=string(of))  # noqa: E731
    drop = lambda name, of: structure(drop=string(name), tableId=string(of))  # noqa: E731

    def put(document, version, data, of=table):
        def change(block):
            one = Revision(document, of, version, data)
            one.strand, one.place, one.time, one.transaction = block.strand, block.place, block.time, block.transaction
            block.revisions.append(one)

        return change

    def field(name, value):
        return lambda block: setattr(block.revisions[0], name, value)

    def both(one, two):
        return lambda block: (one(block), two(block))

    data, new = car("3HGGK5G53FM761765", "Alexis Pena"), journal.id(3, 1)
    changes = {
        "a table is created under an active name": (2, add(made("Vehicle", journal.id(3, 1)))),
        "two tables are created under one name": (2, add(made("a", journal.id(3, 1)), made("a", journal.id(3, 2)))),
        "a table's id is of another transaction": (2, add(made("a", journal.id(9, 1)))),
        "a table's id is the transaction's own": (2, add(made("a", journal.id(3, 0)))),
        "two tables have one id": (2, add(made("a", journal.id(3, 1)), made("b", journal.id(3, 1)))),
        "an index on a field that has one": (2, add(index("VIN", table))),
        "two indexes on one field": (2, add(index("Owner", table), index("Owner", table))),
        "an index on no table": (2, add(index("VIN", journal.id(3, 1)))),
        "a table is dropped under another name": (2, add(drop("Car", table))),
        "a table is dropped with another id": (2, add(drop("Vehicle", first))),
        "a table is dropped twice": (2, add(drop("Vehicle", table), drop("Vehicle", table))),
        "an index on a dropped table": (2, add(drop("Vehicle", table), index("Owner", table))),
        "a revision in no table": (2, put(journal.id(3, 1), 0, data, journal.id(3, 9))),
        "a new document's version isn't 0": (2, put(journal.id(3, 1), 1, data)),
        "a new document without content": (2, put(journal.id(3, 1), 0, None)),
        "a new document's id is of another transaction": (2, put(journal.id(9, 1), 0, data)),
        "a new document's id is the transaction's own": (2, put(journal.id(3, 0), 0, data)),
        "a version is left out": (2, put(first, 3, data)),
        "a version comes again": (2, put(first, 1, data)),
        "a document in another table": (2, both(add(made("a", new)), put(first, 2, data, new))),
        "a document twice in one block": (2, both(put(first, 2, data), put(first, 3, data))),
        "a deleted document again": (4, put(deleted, 2, data)),
        "a table and a document of one id": (2, both(add(made("a", new)), put(new, 0, data))),
        "a revision of another block": (1, field("place", 0)),
        "a revision of another strand": (1, field("strand", journal.id(9, 9))),
        "a revision of another time": (1, field("time", LEAP_DAY)),
        "a revision of the same moment otherwise": (1, field("time", timestamp(2019, 6, 5, 17, 30, 45, fraction="123", offset=60))),
        "a revision of another transaction": (1, field("transaction", journal.id(1))),
    }
    rule = "a block follows the blocks before it"
    yield from ((name, "WrongState", place, journal.changed(place, change), rule) for name, (place, change) in changes.items())


def in_order(journal):
    """Lines that fail two checks: the first in the table's order is told."""

    def change(*steps):
        return lambda block: [step(block) for step in steps]

    place = lambda block: setattr(block, "place", 7)  # noqa: E731
    transaction = lambda block: setattr(block, "transaction", journal.id(0))  # noqa: E731
    time = lambda block: setattr(block, "time", timestamp(2019))  # noqa: E731
    previous = lambda block: setattr(block, "previous", bytes(32))  # noqa: E731
    hash = lambda block: setattr(block, "hash", bytes(32))  # noqa: E731
    state = lambda block: setattr(block.revisions[0], "version", 9)  # noqa: E731
    rule = "the first check that a line fails is told"
    for name, kind, steps in (
        ("NotALine before WrongAddress", "NotALine", (place,)),
        ("WrongAddress before WrongId", "WrongAddress", (place, transaction)),
        ("WrongId before TimeFell", "WrongId", (transaction, time)),
        ("TimeFell before WrongPrevious", "TimeFell", (time, previous)),
        ("WrongPrevious before WrongHash", "WrongPrevious", (previous, hash)),
        ("WrongHash before WrongState", "WrongHash", (hash, state)),
    ):
        line = journal.changed(1, change(*steps), False)
        yield name, kind, 1, " " + line if kind == "NotALine" else line, rule
    first = journal.changed(1, time)
    yield "the first damaged line is told", "TimeFell", 1, [first, "", journal.lines()[3]], "the first damaged line is told"


def partly(journal):
    """Lines of a compacted journal which have again what is redacted: each with its place, and what it is."""
    data = lambda block: setattr(block.revisions[0], "data_hash", None)  # noqa: E731
    told = lambda block: setattr(block, "told_hash", None)  # noqa: E731
    yield "the data beside the hash of the statements", 0, data
    yield "the statements beside the hash of the data", 0, told
    yield "the statements in the middle", 3, told
    yield "the statements of the block that redacts", 5, told


def not_hidden(journal):
    """Lines with a hash in place of data or of statements, which are no lines. The place is 0."""
    line = journal.lines()[0]
    data, told = (found + re.search(found + "({{[^}]*}})", line)[1] for found in ("dataHash:", "statementsHash:"))
    empty, short = "{{}}", "{{" + "A" * 40 + "AA==}}"
    changes = {}
    for name, field in (("data", data), ("statements", told)):
        changes |= {
            f"the hash of {name} has 31 bytes": (field, field.split(":")[0] + ":" + short),
            f"the hash of {name} is empty": (field, field.split(":")[0] + ":" + empty),
            f"the hash of {name} as a string": (field, field.replace("{{", '"').replace("}}", '"')),
            f"the hash of {name} is annotated": (field, field.replace(":", ":x::", 1)),
        }
    changes |= {
        "data and their hash": (data, "data:{}," + data),
        "the hash of data, and data": (data, data + ",data:{}"),
        "the hash of data where data stand": (data, data.replace("dataHash", "data") + ",dataHash:null"),
        "statements and their hash": (told, "statements:[]," + told),
        "the hash of statements, and statements": (told, told + ",statements:[]"),
    }
    rule = "one blob of 32 bytes stands in the place of the data, or of the statements"
    yield from ((name, "NotALine", 0, swapped(line, *change), rule) for name, change in changes.items())


def wrong_hidden(journal):
    flip = lambda data: data[:-1] + bytes([data[-1] ^ 1])  # noqa: E731
    changes = {
        "one bit of the hash of data": (0, lambda block: setattr(block.revisions[0], "data_hash", flip(block.revisions[0].data_hash))),
        "the hash of other data": (0, lambda block: setattr(block.revisions[0], "data_hash", block.revisions[2].data_hash)),
        "a delete with a hash of data": (3, lambda block: setattr(block.revisions[0], "data_hash", bytes(32))),
        "one bit of the hash of statements": (2, lambda block: setattr(block, "told_hash", flip(block.told_hash))),
        "the hash of another block's statements": (2, lambda block: setattr(block, "told_hash", journal.blocks[1].told_hash)),
        "the hash of transactionInfo in place of that of its statements": (1, lambda block: setattr(block, "told_hash", block.parts[0])),
    }
    rule = "a hash is the computed one, also where a hash stands for data or statements"
    yield from ((name, "WrongHash", place, journal.changed(place, change, False), rule) for name, (place, change) in changes.items())


def unasked(journal):
    """Hashes in place of data or of statements that no block of the journal asks for. All hashes hold."""
    lines = journal.lines()
    rule = "all lines pass the other checks, and the hash that stands for data or statements isn't asked for"
    for kept in (1, 3, 5):
        yield f"the first {kept} lines, without the block that redacts", "Unasked", 0, lines[:kept], rule
    yield "statements of a block behind the last that redacts", "Unasked", 6, [*lines[:6], journal.changed(6, hide)], rule
    for name, place, index in (("the latest revision of its document", 1, 0), ("the only revision of its document", 4, 0), ("an older revision", 0, 1)):
        yield f"{name}, which no block redacts", "Unasked", place, [*lines[:place], journal.changed(place, redacted(index)), *lines[place + 1 :]], rule
    both = [*lines[:4], journal.changed(4, redacted(1)), lines[5], journal.changed(6, hide)]
    yield "the first of two is told", "Unasked", 4, both, rule
    rule = "the first line that fails a check is told, before a hash that isn't asked for"
    time = journal.changed(5, lambda block: setattr(block, "time", MORNING))
    yield "a later line that fails a check", "TimeFell", 5, [*lines[:5], time], rule


def hide(block):
    block.hide_statements()


def redacted(index):
    return lambda block: block.revisions[index].redact()


def damages_of_compacted(journal):
    for family in (not_hidden, wrong_hidden, unasked):
        yield from family(journal)


def damages(journal):
    for family in (not_lines, wrong_places, wrong_ids, wrong_times, wrong_hashes, wrong_states, wrong_redactions, in_order):
        yield from family(journal)
