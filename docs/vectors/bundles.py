"""Bundles: honest ones, and what is refused, by which check (docs/formats.md, "Digests and proofs").

Each is (name, text, the line of `verify`, whether the bundle's digest is the published one, rule). The line is computed here from
the changed parts, and so are the hashes in it.
"""
import re

from forms import (H, annotated, base64_text, blob, bundle_text, dot, null, number, sequence, string, structure, symbol, text,
                   timestamp)  # fmt: skip

ACCEPTED = "{verified:true}"
BASE64 = "ABCDEFGHIJKLMNOPQRSTUVWXYZabcdefghijklmnopqrstuvwxyz0123456789+/"

# blocks, revisions and tips of the registry whose proofs stand among the vectors
PROOFS = [(0, 0, 0), (0, 1, 0), (0, 2, 0), (0, 0, 4), (0, 2, 3), (1, 0, 1), (1, 0, 2), (1, 0, 4), (3, 0, 3), (3, 0, 4), (4, 0, 4)]
PROOFS += [(4, 1, 4)]

# those of the compacted journal: of a redacted revision, and of one in the same block that isn't redacted
REDACTED = "the hash of the data stands in its place, as dataHash"
REDACTED_PROOFS = {"a redacted revision, the last tip": (0, 2, 6), "a revision beside redacted ones": (0, 1, 6)}


def refusal(code, fields):
    return f"{{status:7,fault:{{code:{code},{fields}}}}}"


def malformed(field):
    return refusal(1, f'field:"{field}"')


def member(value, *path):
    """The value at a path of names and places."""
    for step in path:
        value = value[1][step] if isinstance(step, int) else dict(value[1])[step]
    return value


def put(value, new, *path):
    """The value with another one at a path, or without it where that is None."""
    if not path:
        return new
    kind, content = value
    if kind == "struct":
        pairs = [(name, put(one, new, *path[1:]) if name == path[0] else one) for name, one in content]
        return kind, [pair for pair in pairs if pair[1] is not None]
    members = [put(one, new, *path[1:]) if i == path[0] else one for i, one in enumerate(content)]
    return kind, [one for one in members if one is not None]


def flipped(data):
    return bytes([data[0] ^ 1]) + data[1:]


def flip(value, *path):
    """The value with one bit of the blob at a path changed."""
    return put(value, blob(flipped(member(value, *path)[1])), *path)


def computed(revision):
    """The hash of a revision's metadata and data, or of what stands in the data's place."""
    content = dict(revision[1])
    data = H(content["data"]) if "data" in content else content["dataHash"][1] if "dataHash" in content else b""
    return dot(H(content["metadata"]), data)


def height(leaves):
    return max(leaves - 1, 0).bit_length()


def root_of(bundle):
    """What the fold of a bundle finds."""
    _, revision, proof = bundle
    low = height(member(proof, "header", "revisionCount")[1])
    path = [one[1] for one in member(proof, "path")[1]]
    found = member(revision, "hash")[1]
    for beside in path[: low + 1] + [H(member(proof, "header"))] + path[low + 1 :]:
        found = dot(found, beside)
    return found


def root_differs(bundle):
    return refusal(8, f"computed:{text(blob(root_of(bundle)))},published:{text(member(bundle[0], 'digest'))}")


def hash_differs(bundle):
    return refusal(7, f"stated:{text(member(bundle[1], 'hash'))},computed:{text(blob(computed(bundle[1])))}")


def honest(registry, other):
    rule = "the proof that the program gives"
    for place, index, tip in PROOFS:
        yield f"revision {index} of block {place}, tip {tip}", bundle_text(registry.bundle(place, index, tip)), ACCEPTED, True, rule
    yield "one block with one revision: a path of two hashes", bundle_text(other.bundle(0, 0, 0)), ACCEPTED, True, rule
    yield "another journal", bundle_text(other.bundle(1, 0, 1)), ACCEPTED, True, rule


def otherwise(registry, other):
    """Bundles that are accepted, and differ from the program's."""
    parts = registry.bundle(0, 0, 4)
    lines = bundle_text(parts)
    spellings = [
        ("values without line ends", lines.replace("\n", ""), "white space may be left out where no token needs it"),
        ("comments between the values", "// a\n" + lines.replace("\n", " /* b */\r\n"), "comments stand where Ion has them"),
        ("a version marker in front", "$ion_1_0 " + lines + "$ion_1_0", "a version marker is no value"),
        ("names in quotes", lines.replace("hash:", "'hash':").replace("path:", '"path":'), "a name is a symbol or a string"),
        ("numbers otherwise", lines.replace("sequenceNo:4", "sequenceNo:0x4").replace("index:0", "index:-0"), "an int in any spelling"),
        ("white space in the hashes", re.sub("{{(....)", r"{{ \1 ", lines), "white space stands anywhere in a blob"),
        ("a comma behind the last member", lines.replace("}]}\n", "}],}\n"), "a comma may stand behind the last member"),
    ]
    yield from ((name, words, ACCEPTED, True, rule) for name, words, rule in spellings)
    data = structure(*reversed(member(parts[1], "data")[1]))
    fields = bundle_text([parts[0], put(parts[1], data, "data"), parts[2]])
    yield "the document's fields in another order", fields, ACCEPTED, True, "a struct's hash forgets the order of its fields"
    index = bundle_text([*parts[:2], put(parts[2], number(2), "index")])
    yield "another index below the count", index, ACCEPTED, True, "the index doesn't go into the fold"
    tip = registry.bundle(0, 0, 2)
    tip[0] = put(tip[0], number(3), "digestTipAddress", "sequenceNo")
    yield "another tip whose tree is as high", bundle_text(tip), ACCEPTED, False, "the tip's number doesn't go into the fold"
    mixed = other.bundle(0, 0, 1)
    swapped = put(put(mixed[1], member(mixed[1], "metadata"), "data"), member(mixed[1], "data"), "metadata")
    rule = "a pair's hash forgets which came first, and this document has the form of metadata"
    yield "metadata and document exchanged", bundle_text([mixed[0], swapped, mixed[2]]), ACCEPTED, True, rule
    rule = "a bundle brings a digest of its own, which has to be compared with the published one"
    yield "a sound bundle of another journal", bundle_text(other.bundle(0, 0, 1)), ACCEPTED, False, rule
    earlier = bundle_text(registry.bundle(0, 0, 3))
    yield "the digest of another tip", earlier, ACCEPTED, False, "a proof leads to the digest of one tip"


def malformed_parts(registry):
    parts = registry.bundle(0, 0, 4)
    lines = bundle_text(parts)
    one, two, three = lines.splitlines()
    rule = "a bundle is three values"
    counts = [("nothing", ""), ("a digest alone", one), ("two values", one + two), ("four values", lines + "1")]
    for name, words in [*counts, ("a list of three", f"[{one},{two},{three}]")]:
        yield name, words, malformed("count"), False, rule
    yield "revision and proof exchanged", one + three + two, malformed("revision"), True, "the values stand in this order"
    yield "digest and revision exchanged", two + one + three, malformed("digest"), False, "the values stand in this order"
    names = ("digest", "revision", "proof")

    def case(name, place, new, *path, rule):
        bundle = [*parts[:place], put(parts[place], new, *path), *parts[place + 1 :]]
        return name, bundle_text(bundle), malformed(names[place]), place > 0, rule

    only_data = "no annotation stands but in the data"
    rule = "the fields stand in this order, with none beside them"
    for place, part in enumerate(parts):
        yield case(f"the {names[place]} is null", place, null("struct"), rule=rule)
        yield case(f"the {names[place]} is annotated", place, annotated("a", part), rule=only_data)
        turned = structure(part[1][1], part[1][0], *part[1][2:])
        yield case(f"the {names[place]}'s fields are in another order", place, turned, rule=rule)
        yield case(f"the {names[place]} has a field beside", place, structure(*part[1], ("note", null())), rule=rule)
        yield case(f"the {names[place]} has its first field twice", place, structure(part[1][0], *part[1]), rule=rule)
        for name, _ in part[1]:
            if name != "data":  # without data the revision deletes its document
                yield case(f"the {names[place]} without {name}", place, None, name, rule=rule)
    address = member(parts[0], "digestTipAddress")
    digits = member(address, "strandId")[1]
    numbers = [("below zero", number(-1)), ("past 64 bits", number(1 << 64)), ("a decimal", ("decimal", (False, 4, 0)))]
    numbers += [("a string", string("4")), ("null", null("int"))]
    for name, new in numbers:
        yield case(f"the tip's number is {name}", 0, new, "digestTipAddress", "sequenceNo", rule="sequenceNo is an int below 2^64")
    yield case("the version is past 64 bits", 1, number(1 << 64), "metadata", "version", rule="version is an int below 2^64")
    rule = "revisionCount and index are ints below 2^32"
    yield case("the index is past 32 bits", 2, number(1 << 32), "index", rule=rule)
    yield case("the count is past 32 bits", 2, number(1 << 32), "header", "revisionCount", rule=rule)
    ids = [("21 digits", string(digits[1:])), ("23 digits", string("0" + digits)), ("past 128 bits", string("z" * 22))]
    ids += [("another letter", string(digits[:-1] + "-")), ("a digit of another script", string(digits[:-1] + "\u0660"))]
    ids += [("a line feed behind it", string(digits + "\n")), ("a symbol", symbol(digits))]
    rule = "ids are strings of 22 digits whose number fits 128 bits"
    for name, new in ids:
        yield case(f"an id with {name}", 0, new, "digestTipAddress", "strandId", rule=rule)
        yield case(f"a document's id with {name}", 1, new, "metadata", "id", rule=rule)
    blobs = [("31 bytes", blob(bytes(31))), ("33 bytes", blob(bytes(33))), ("no bytes", blob(b""))]
    blobs += [("a clob", ("clob", bytes(32))), ("null", null("blob"))]
    for name, new in blobs:
        yield case(f"a digest of {name}", 0, new, "digest", rule="hashes are blobs of 32 bytes")
        yield case(f"a hash of {name}", 1, new, "hash", rule="hashes are blobs of 32 bytes")
        yield case(f"a hash of the path of {name}", 2, new, "path", 0, rule="hashes are blobs of 32 bytes")
    yield case("a time that is null", 1, null("timestamp"), "metadata", "txTime", rule="the fields above")
    yield case("a time that is a string", 2, string("2020"), "header", "blockTimestamp", rule="the fields above")
    yield case("an annotated time", 1, annotated("a", timestamp(2020)), "metadata", "txTime", rule=only_data)
    yield case("a path that is a sexp", 2, ("sexp", member(parts[2], "path")[1]), "path", rule="the path is a list")
    yield case("an annotated hash of the path", 2, annotated("a", member(parts[2], "path", 0)), "path", 0, rule=only_data)
    odd = re.sub(r"([A-Za-z0-9+/])=}}", lambda found: BASE64[BASE64.index(found[1]) + 1] + "=}}", lines, count=1)
    rule = "the unused bits of the last digit are zero"
    yield "an unused bit in the digest", odd, "{status:2,fault:{at:8,kind:BadBase64}}", False, rule


def forged(registry, other):
    """Bundles that the checks 2 to 8 refuse."""
    parts = registry.bundle(0, 0, 4)
    digest, revision, proof = parts
    strand = registry.strand
    elsewhere = other.bundle(0, 0, 1)
    own, its = text(member(registry.bundle(1, 0, 4)[1], "blockAddress")), text(member(proof, "header", "blockAddress"))
    strange = text(member(elsewhere[1], "blockAddress"))
    rules = {
        2: "the header's strand is that of the digest's tip",
        3: "the revision's address is the header's",
        4: "the header's number isn't above the tip's",
        5: "the index is below the count",
        6: "the path has h1 + 2 + h2 hashes",
    }

    def case(name, code, fields, bundle):
        return name, bundle_text(bundle), refusal(code, fields), bundle[0] == digest, rules[code]

    yield case("the digest of another journal", 2, f'proof:"{strand}",digest:"{other.strand}"', [elsewhere[0], revision, proof])
    another = [digest, registry.bundle(1, 0, 4)[1], proof]
    yield case("the revision of another block", 3, f"revision:{own},proof:{its}", another)
    yield case("the revision of another journal", 3, f"revision:{strange},proof:{its}", [digest, elsewhere[1], proof])
    yield case("a block behind the tip", 4, "sequence:4,tip:3", [registry.digest(3), *registry.bundle(4, 0, 4)[1:]])
    yield case("the index is the count", 5, "index:3,count:3", [digest, revision, put(proof, number(3), "index")])
    none = put(proof, number(0), "header", "revisionCount")
    yield case("a block of no revisions", 5, "index:0,count:0", [digest, revision, none])
    path = member(proof, "path")[1]
    for name, new in (("no hash", []), ("a hash too few", path[:-1]), ("a hash too many", path + path[:1])):
        changed = put(proof, sequence(*new), "path")
        yield case(f"a path with {name}", 6, f"wanted:7,given:{len(new)}", [digest, revision, changed])
    one = put(proof, number(1), "header", "revisionCount")
    yield case("a count whose tree is lower", 6, "wanted:5,given:7", [digest, revision, one])
    far = put(digest, number((1 << 64) - 1), "digestTipAddress", "sequenceNo")
    yield case("the greatest tip", 6, "wanted:68,given:7", [far, revision, proof])
    rule = "the revision's hash is that of its metadata and its data"
    moment = (2019, 6, 5, 16, 30, 45)
    later = timestamp(*moment, fraction="124", offset=0)
    precise = timestamp(*moment, fraction="1230", offset=0)
    abroad = timestamp(2019, 6, 5, 17, 30, 45, fraction="123", offset=60)
    changes = [
        ("another owner", put(revision, string("Nobody"), "data", "Owner")),
        ("another character that looks alike", put(revision, string("R\u0430ul Lewis"), "data", "Owner")),
        ("an annotated document", put(revision, annotated("a", member(revision, "data")), "data")),
        ("an int for a decimal", put(revision, number(1), "data")),
        ("no document", put(revision, None, "data")),
        ("another version", put(revision, number(1), "metadata", "version")),
        ("another time", put(revision, later, "metadata", "txTime")),
        ("the same moment with another precision", put(revision, precise, "metadata", "txTime")),
        ("the same moment with another offset", put(revision, abroad, "metadata", "txTime")),
        ("another document's id", put(revision, string(registry.id(1, 3)), "metadata", "id")),
        ("another transaction", put(revision, string(registry.id(2)), "metadata", "txId")),
        ("one bit of its hash", flip(revision, "hash")),
    ]
    for name, new in changes:
        bundle = [digest, new, proof]
        yield name, bundle_text(bundle), hash_differs(bundle), True, rule
    deleted = registry.bundle(3, 0, 4)
    deleted[1] = structure(*deleted[1][1][:2], ("data", structure()), *deleted[1][1][2:])
    yield "a document where it was deleted", bundle_text(deleted), hash_differs(deleted), True, rule
    rule = "the fold is the digest"
    for name, new in changes[:2]:
        resealed = [digest, put(new, blob(computed(new)), "hash"), proof]
        yield f"{name}, with its hash computed anew", bundle_text(resealed), root_differs(resealed), True, rule
    for place in range(len(path)):
        bundle = [digest, revision, flip(proof, "path", place)]
        yield f"one bit of hash {place} of the path", bundle_text(bundle), root_differs(bundle), True, rule
    headers = [
        ("another transaction in the header", put(proof, string(registry.id(2)), "header", "transactionId")),
        ("another time in the header", put(proof, timestamp(2019), "header", "blockTimestamp")),
        ("another count whose tree is as high", put(proof, number(4), "header", "revisionCount")),
        ("two hashes of the path exchanged", put(proof, sequence(path[1], path[0], *path[2:]), "path")),
    ]
    for name, new in headers:
        bundle = [digest, revision, new]
        yield name, bundle_text(bundle), root_differs(bundle), True, rule
    bundle = [flip(digest, "digest"), revision, proof]
    yield "one bit of the digest", bundle_text(bundle), root_differs(bundle), False, rule
    bundle = [digest, registry.bundle(0, 1, 4)[1], proof]
    yield "another revision of the block", bundle_text(bundle), root_differs(bundle), True, rule


def in_order(registry, other):
    """Bundles that fail two checks: the first is told."""
    digest, revision, proof = registry.bundle(0, 0, 4)
    far = put(put(proof, number(9), "header", "blockAddress", "sequenceNo"), number(7), "index")
    near = put(revision, number(9), "blockAddress", "sequenceNo")
    short = put(proof, sequence(), "path")
    changed = put(revision, string("Nobody"), "data", "Owner")
    first = [text(member(part, "blockAddress")) for part in (revision, member(far, "header"))]
    rule = "the first check that fails is told"
    cases = [
        ("2 before 3", [other.digest(1), revision, far], refusal(2, f'proof:"{registry.strand}",digest:"{other.strand}"'), False),
        ("3 before 4", [digest, revision, far], refusal(3, f"revision:{first[0]},proof:{first[1]}"), True),
        ("4 before 5", [digest, near, far], refusal(4, "sequence:9,tip:4"), True),
        ("5 before 6", [digest, revision, put(short, number(7), "index")], refusal(5, "index:7,count:3"), True),
        ("6 before 7", [digest, changed, short], refusal(6, "wanted:7,given:0"), True),
        ("7 before 8", [digest, changed, flip(proof, "path", 0)], hash_differs([digest, changed, proof]), True),
    ]
    for name, bundle, line, published in cases:
        yield name, bundle_text(bundle), line, published, rule
    yield "the digest before the revision", text(digest)[:-1] + ",a:1}" + text(near) + "5", malformed("digest"), False, rule
    yield "the count before the digest", "1 2", malformed("count"), False, rule


def redacted(compacted):
    """Revisions whose data was taken out, so that the hash of the data stands in its place."""
    parts = compacted.bundle(0, 0, 4)
    rule = REDACTED
    yield "a redacted revision", bundle_text(parts), ACCEPTED, True, rule
    changed = [parts[0], flip(parts[1], "dataHash"), parts[2]]
    yield "one bit of dataHash", bundle_text(changed), hash_differs(changed), True, rule
    both = structure(*parts[1][1][:3], ("data", structure()), *parts[1][1][3:])
    yield "dataHash and data", bundle_text([parts[0], both, parts[2]]), malformed("revision"), True, rule
    both = structure(*parts[1][1][:2], ("data", structure()), *parts[1][1][2:])
    yield "data and dataHash", bundle_text([parts[0], both, parts[2]]), malformed("revision"), True, rule
    annotation = annotated("a", blob(bytes(32)))
    for name, new in (("of 31 bytes", blob(bytes(31))), ("that is a struct", structure()), ("that is annotated", annotation)):
        bundle = [parts[0], put(parts[1], new, "dataHash"), parts[2]]
        yield f"a dataHash {name}", bundle_text(bundle), malformed("revision"), True, rule
    last = structure(*parts[1][1][:2], *reversed(parts[1][1][2:]))
    yield "dataHash behind metadata", bundle_text([parts[0], last, parts[2]]), malformed("revision"), True, rule


def hostile(registry):
    """Bundles in spellings that a lenient reader takes. The place of the fault is computed from the text."""
    lines = bundle_text(registry.bundle(0, 0, 4))

    def case(name, old, new, kind, rule, ahead=""):
        assert old in lines, old
        place = len((lines[: lines.index(old)] + ahead).encode())
        return name, lines.replace(old, new, 1), f"{{status:2,fault:{{at:{place},kind:{kind}}}}}", True, rule

    yield case("a raw line feed in a string", '"Raul Lewis"', '"Raul\nLewis"', "BadToken", "no line feed stands in a string")
    yield case("a sign in an escape", '"Raul Lewis"', '"Raul\\x+1Lewis"', "BadToken", r"\x has two hexadecimal digits")
    yield case("half of a pair", '"Raul Lewis"', '"Raul\\ud800Lewis"', "BadToken", "a surrogate alone")
    yield case("a digit of another script", "index:0", "index:\u0660", "BadToken", "only the digits 0 to 9 are digits", "index:")
    yield case("a version with a zero in front", "version:0", "version:00", "BadToken", "a zero in front", "version:")
    yield case("a number with a sign", "index:0", "index:+0", "BadToken", "a sign + begins no number", "index:")
    yield case("a float", "index:0", "index:0e0", "FloatRefused", "a float", "index:")
    yield case("no comma", ",index:0", " index:0", "BadToken", "no comma between fields", " ")
    yield case("two commas", ",index:0", ",,index:0", "BadToken", "two commas", ",")
    yield case("white space of another script", ",index:0", ",\u00a0index:0", "BadToken", "white space of another script", ",")
    yield case("a symbol id for a name", "index:0", "$10:0", "SymbolIdRefused", "a symbol id")
    yield case("a day that isn't there", "txTime:2019-06-05", "txTime:2019-06-31", "BadTimestamp", "no such day", "txTime:")
    hash = base64_text(registry.blocks[0].revisions[0].hash)
    old = "hash:{{" + hash + "}}"
    for name, new in (
        ("of another alphabet", hash.replace("+", "-").replace("/", "_")),
        ("of wide letters", chr(ord(hash[0]) - 0x21 + 0xFF01) + hash[1:]),
        ("without padding", hash[:-1]),
        ("with an unused bit", hash[:-2] + BASE64[BASE64.index(hash[-2]) + 1] + "="),
        ("with a comment", hash[:4] + "/**/" + hash[4:]),
    ):
        if new != hash:
            rule = "base64 of the standard alphabet with padding"
            yield case(f"base64 {name}", old, "hash:{{" + new + "}}", "BadBase64", rule, "hash:")
    cut = f"{{status:2,fault:{{at:{len(lines.encode()) - 3},kind:Unclosed}}}}"
    yield "a bundle that is cut", lines[:-3], cut, True, "the text ends inside a container"
    yield "a byte order mark", "\ufeff" + lines, "{status:2,fault:{at:0,kind:BadToken}}", True, "a byte order mark begins no token"


def all_bundles(registry, other):
    yield from honest(registry, other)
    yield from otherwise(registry, other)
    yield from malformed_parts(registry)
    yield from forged(registry, other)
    yield from in_order(registry, other)
    yield from hostile(registry)
