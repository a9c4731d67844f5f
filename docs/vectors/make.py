#!/usr/bin/env python3
"""Writes the vectors beside it, or says with `--check` whether they are as it would write them.

    docs/vectors/make.py [--check]

forms.py has the rules, spellings.py, journals.py and bundles.py what is tried. Nothing here reads what a ledger or a verifier gave.
"""
import hashlib
import json
import sys
from pathlib import Path

import bundles
import journals
import spellings
from forms import H, PAD, H256, base64_text, blob, bundle_text, dot, levels, root, sequence, serialize, siblings, structure, text

HERE = Path(__file__).resolve().parent

# the examples of SHA-256 that go with FIPS 180-4: a text, how often it is repeated, and the digest
FIPS = [
    ("", 1, "e3b0c44298fc1c149afbf4c8996fb92427ae41e4649b934ca495991b7852b855"),
    ("abc", 1, "ba7816bf8f01cfea414140de5dae2223b00361a396177a9cb410ff61f20015ad"),
    ("abcdbcdecdefdefgefghfghighijhijkijkljklmklmnlmnomnopnopq", 1, "248d6a61d20638b8e5c026930c3e6039a33ce45964ff2167f6ecedd419db06c1"),
    ("a", 1_000_000, "cdc76e5c9914fb9281a1c7e284d73e67f1809a48a497200e046d39ccc7112cd0"),
]


def as_data(journal, data):
    """The hash of the journal's first revision and the digest of the first block, if this were the revision's data."""
    first = journal.blocks[0]
    hash = dot(H(first.revisions[0].metadata()), H(data))
    entries = dot(dot(first.parts[0], root([hash])), first.parts[2])
    return {"revisionHash": base64_text(hash), "digest": base64_text(dot(entries, first.previous))}


def as_bundle(journal):
    """The bundle of the journal's first revision with the digest of the first block, but for what `as_data` gives and the data."""
    digest, revision, proof = map(text, journal.bundle(0, 0, 0))
    first = journal.blocks[0]
    hash, data = text(blob(first.revisions[0].hash)), text(first.revisions[0].data)
    assert revision.count(hash) == 1 and revision.count(data) == 1
    revision = revision.replace(hash, "{{REVISION_HASH}}").replace(data, "DATA")
    return {"digest": digest.replace(text(blob(first.hash)), "{{DIGEST}}"), "revision": revision, "proof": proof}


def values(journal):
    found = [
        {"name": name, "text": text(value), "serialization": serialize(value).hex(), "hash": H(value).hex()} | as_data(journal, value)
        for name, value in spellings.VALUES
    ]
    every = as_data(journal, sequence(*(value for _, value in spellings.VALUES[:-1])))  # the deepest one fits no list
    return {"bundle": as_bundle(journal), "values": found, "all": every, "allBut": spellings.VALUES[-1][0]}


def texts(journal):
    accepted = [
        {"text": words, "written": text(value), "rule": rule} | as_data(journal, value) for words, value, rule in spellings.ACCEPTED
    ]
    refused = [{"hex": data.hex(), "at": at, "kind": kind, "rule": rule} for data, at, kind, rule in spellings.REFUSED]
    every = as_data(journal, sequence(*(value for _, value, _ in spellings.ACCEPTED)))
    return {"bundle": as_bundle(journal), "accepted": accepted, "all": every, "refused": refused}


def pairs():
    for words, times, digest in FIPS:
        assert hashlib.sha256(words.encode() * times).hexdigest() == digest
    low, high = bytes(31) + b"\x80", bytes(31) + b"\x01"  # -128 comes before 1
    first, last = b"\x01" + bytes(31), bytes(31) + b"\x00"
    least, greatest = b"\x80" + bytes(31), b"\x7f" + bytes(31)
    tried = [(low, high), (high, low), (first, last), (last, first), (least, greatest), (low, low), (H256(b"a"), H256(b"b"))]
    leaves = [H256(bytes([i])) for i in range(9)]
    sha = [{"text": words, "times": times, "digest": digest} for words, times, digest in FIPS]
    dots = [{"pair": [a.hex(), b.hex()], "result": dot(a, b).hex()} for a, b in tried]
    return {"sha256": sha, "pad": PAD.hex(), "dot": dots, "trees": [tree(leaves[:count]) for count in range(1, 10)]}


def tree(leaves):
    beside = [[one.hex() for one in siblings(leaves, place)] for place in range(len(leaves))]
    found = {"leaves": [leaf.hex() for leaf in leaves], "root": root(leaves).hex()}
    return found | {"height": len(levels(leaves)) - 1, "siblings": beside}


def steps(journal, place):
    """A block step by step: what is hashed, and the hash."""
    block = journal.blocks[place]
    found = []

    def step(name, of, hash):
        found.append({"step": name, "of": of, "hash": hash.hex()})

    for number, one in enumerate(block.revisions):
        step(f"the metadata of revision {number}", text(one.metadata()), H(one.metadata()))
        if one.content_hash():
            step(f"the data of revision {number}", "the blob dataHash" if one.data_hash else text(one.data), one.content_hash())
        step(f"revision {number}", "dot of the two above" if one.data else "the one above, since there is no data", one.hash)
    hashes = [one.hash for one in block.revisions]
    for height, level in enumerate(levels(hashes)[1:] if hashes else [], 1):
        for node, hash in enumerate(level):
            below = f"dot of the nodes {2 * node} and {2 * node + 1} below, padded by pad"
            step(f"node {node} of level {height} of the tree of the revisions", below, hash)
    if block.told_hash:
        for (name, value), hash in zip(block.info()[1], block.info_hashes()):
            step(f"the field {name}", "the blob itself" if name == "statementsHash" else f"the symbol {name} and {text(value)}", hash)
        step("transactionInfo", "a struct whose fields have the four hashes above", block.parts[0])
    else:
        step("transactionInfo", text(block.info()), block.parts[0])
    step("the header", text(block.header()), block.parts[2])
    first = dot(block.parts[0], block.parts[1])
    step("transactionInfo and the root", "dot of the two" if hashes else "transactionInfo's, since there is no root", first)
    step("entriesHash", "dot of the one above and the header's", block.entries)
    step("previousBlockHash", "blockHash of the block before" if place else text(("string", journal.strand)), block.previous)
    step("blockHash", "dot of the two above", block.hash)
    return {"block": place, "steps": found, "line": block.line(), "digest": text(journal.digest(place))}


def journal_vectors(registry, other, erased, compacted):
    def whole(name, journal, **more):
        counts = [len(block.revisions) for block in journal.blocks]
        digests = [text(journal.digest(tip)) for tip in range(len(counts))]
        return {"name": name, "lines": journal.lines(), "blocks": len(counts), "revisions": sum(counts), "digests": digests, **more}

    def made(journal):
        return [{"at": text(time), "script": "".join(text(one) + "\n" for one in script)} for time, script in journals.runs(journal)]

    good = [whole("registry", registry, runs=made(registry)), whole("other", other)]
    good += [whole("erased", erased, runs=made(erased), compact="compacted"), whole("compacted", compacted, compact="compacted")]

    def behind(name, place, lines, journal="registry", **more):
        return {"name": name, "journal": journal, "keep": place, "then": lines, **more}

    damaged = [
        behind(name, place, line if isinstance(line, list) else [line], sequence=place, kind=kind, rule=rule)
        for name, kind, place, line, rule in journals.damages(registry)
    ]
    for name, kind, place, line, rule in journals.damages_of_compacted(compacted):
        keep, lines = (0, line) if isinstance(line, list) else (place, [line])
        damaged.append(behind(name, keep, lines, "compacted", sequence=place, kind=kind, rule=rule))
    deep = registry.changed(0, lambda block: setattr(block.revisions[0], "data", journals.nested(64)))
    sound = [behind("a document 64 deep", 0, [deep], blocks=1, revisions=3)]
    sound += [
        behind(name, place, [registry.changed(place, change)], blocks=place + 1, revisions=count)
        for name, place, change, count in journals.redacting(registry)
    ]
    sound += [
        behind(name, 0, [*compacted.lines()[:place], compacted.changed(place, change), *compacted.lines()[place + 1 :]], "compacted", blocks=7, revisions=7)
        for name, place, change in journals.partly(compacted)
    ]
    return {"whole": good, "sound": sound, "damaged": damaged}


def bundle_vectors(registry, other, compacted):
    """Each bundle with the digest that was published: its own, or that of the registry's last block where it isn't its own."""

    every = {text(journal.digest(tip)) for journal in (registry, other, compacted) for tip in range(len(journal.blocks))}

    def entry(name, words, line, own, rule, **more):
        first = words.split("\n")[0]
        published = first if own and first in every else text(registry.digest(4))
        compared = line if own or line.startswith("{status:2") or "code:1," in line else "{status:7,fault:{kind:NotPublished}}"
        return {"name": name, "bundle": words, "published": published, "verify": line, "compared": compared, "rule": rule, **more}

    found = [entry(*one) for one in bundles.all_bundles(registry, other)]
    for (place, index, tip), one in zip(bundles.PROOFS, found):
        one["prove"] = {"journal": "registry", "sequence": place, "index": index, "tip": tip}
    for name, (place, index, tip) in bundles.REDACTED_PROOFS.items():
        one = entry(name, bundle_text(compacted.bundle(place, index, tip)), bundles.ACCEPTED, True, bundles.REDACTED)
        found.append(one | {"prove": {"journal": "compacted", "sequence": place, "index": index, "tip": tip}})
    return {"bundles": found + [entry(*one) for one in bundles.redacted(compacted)]}


def made():
    """The name and the text of each file."""
    registry, other, erased = journals.registry(), journals.other(), journals.erased()
    compacted = journals.compacted(erased)
    found = {
        "values": values(other),
        "spellings": texts(other),
        "pairs": pairs(),
        "blocks": {"blocks": [*(steps(registry, place) for place in range(5)), steps(other, 0), steps(compacted, 0)]},
        "journals": journal_vectors(registry, other, erased, compacted),
        "bundles": bundle_vectors(registry, other, compacted),
    }
    return {name + ".json": json.dumps(content, indent=1) + "\n" for name, content in found.items()}


def main(words):
    if words not in ([], ["--check"]):
        sys.exit(__doc__)
    status = 0
    for name, content in made().items():
        path = HERE / name
        if not words:
            path.write_text(content, encoding="ascii")
        elif not path.exists() or path.read_text(encoding="ascii") != content:
            print(f"{name} isn't what make.py writes")
            status = 1
    return status


if __name__ == "__main__":
    sys.exit(main(sys.argv[1:]))
