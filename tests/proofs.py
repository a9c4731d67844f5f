#!/usr/bin/env python3
"""Checks the program's digests and proofs without the program: it runs a script, folds the journal's lines to the digest by
tools/ledger-verify's hashes, has that verifier accept what `prove` writes, and sees it refuse each bundle of which one byte is another
one. The program's own `verify` has to say the same of each. Ends with status 1 where something isn't as it should be.

    tests/proofs.py [PROGRAM]

The program is crates/ledger/out/ledger, where `rt ci` leaves it, or another path.
"""
import importlib.util
import importlib.machinery
import os
import subprocess
import sys
import tempfile
from pathlib import Path


def load_verifier():
    """The module of tools/ledger-verify, which has no name that an import could take."""
    path = str(Path(__file__).resolve().parent.parent / "tools" / "ledger-verify")
    spec = importlib.util.spec_from_loader("ledger_verify", importlib.machinery.SourceFileLoader("ledger_verify", path))
    module = importlib.util.module_from_spec(spec)
    sys.modules["ledger_verify"] = module
    spec.loader.exec_module(module)
    return module


ledger_verify = load_verifier()

HERE = os.path.dirname(os.path.abspath(__file__))
ROOT = os.path.dirname(HERE)

PROGRAM = os.path.join(ROOT, "crates", "ledger", "out", "ledger")
RUN = ["run", "--workers", "1", "--seed", "7", "--at", "2020-01-01T00:00:00.000Z"]
SCRIPT = b"""[{statements:["CREATE TABLE t",{text:"INSERT INTO t ?",params:[[{a:1.50},{b:'x y'},{c:"q"}]]}]},
 {statements:[]},{statements:["SELECT * FROM t"]},
 {statements:[{text:"INSERT INTO t ?",params:[{d:[null,{{YQ==}},2020-02-29T23:59:59.999+01:00],e:x::(a+b)}]}]}]"""
PAD = ledger_verify.hash_of(ledger_verify.Value((), "symbol", "pad"))


def run(program, journal, words, data=b""):
    """The status of a command and its output."""
    ended = subprocess.run([program, journal] + words, input=data, capture_output=True)
    return ended.returncode, ended.stdout


def check(holds, what):
    if not holds:
        sys.exit(f"not so: {what}")


def values_of(text):
    """The values of a text."""
    return ledger_verify.read_values(text.encode(), 256)


def fields_of(value):
    return dict(value.content)


def root(leaves):
    """The root of the padded tree over some hashes."""
    level = leaves + [PAD] * ((1 << (len(leaves) - 1).bit_length()) - len(leaves))
    while len(level) > 1:
        level = [ledger_verify.dot(a, b) for a, b in zip(level[::2], level[1::2])]
    return level[0]


def block_hash(block, previous):
    """The hash of a block behind the hash of the block before it, computed anew from what the block says."""
    said = fields_of(block)
    revisions = [ledger_verify.read_revision(revision) for revision in said["revisions"].content]
    check(all(one.stated == one.computed for one in revisions), "a revision's hash")
    header = [(name, said[name]) for name in ("blockAddress", "transactionId", "blockTimestamp")]
    count = ledger_verify.Value((), "int", len(revisions))
    header = ledger_verify.Value((), "struct", header + [("revisionCount", count)])
    entries = ledger_verify.hash_of(said["transactionInfo"])
    if revisions:
        entries = ledger_verify.dot(entries, root([one.computed for one in revisions]))
    entries = ledger_verify.dot(entries, ledger_verify.hash_of(header))
    check(said["entriesHash"].content == entries and said["previousBlockHash"].content == previous, "the hashes of a block")
    return ledger_verify.dot(entries, previous)


def fold(journal):
    """The hashes of the journal's blocks, each checked against its line."""
    with open(journal, encoding="utf-8") as file:
        blocks = [values_of(line)[0] for line in file]
    strand = fields_of(fields_of(blocks[0])["blockAddress"])["strandId"]
    hashes = [ledger_verify.hash_of(strand)]
    for block in blocks:
        hashes.append(block_hash(block, hashes[-1]))
        check(fields_of(block)["blockHash"].content == hashes[-1], "a block's hash")
    return hashes[1:]


def accepts(text):
    """Whether the other verifier accepts a bundle of three lines."""
    try:
        lines = text.split(b"\n")
        values = [value for line in lines for value in ledger_verify.read_values(line)]
        ledger_verify.verify(*ledger_verify.read_bundle(values))
        return len(lines) == 4 and not lines[3]
    except (ledger_verify.Unread, ledger_verify.Refused):
        return False


def prove(program, journal, sequence, count):
    """The proofs of a block's revisions, for the digest with that block as tip, and that they are accepted."""
    for index in range(count):
        status, bundle = run(program, journal, ["prove", str(sequence), str(index), "--tip", str(sequence)])
        check(status == 0 and accepts(bundle), f"the proof of revision {index} of block {sequence}")
        check(run(program, journal, ["verify"], bundle) == (0, b"{verified:true}\n"), "the program accepts it too")
    return bundle


def changed(bundle, at):
    return bundle[:at] + bytes([bundle[at] ^ 1]) + bundle[at + 1:]


def main():
    program = os.path.abspath(sys.argv[1] if len(sys.argv) > 1 else PROGRAM)
    with tempfile.TemporaryDirectory() as folder:
        journal = os.path.join(folder, "journal")
        check(run(program, journal, RUN, SCRIPT)[0] == 0, "the script runs")
        hashes = fold(journal)
        for tip in range(len(hashes)):
            status, text = run(program, journal, ["digest", "--tip", str(tip)])
            digest = ledger_verify.read_digest(values_of(text.decode())[0])
            check(status == 0 and digest.hash == root(hashes[:tip + 1]) and digest.tip.sequence == tip, f"the digest with the tip {tip}")
        check(run(program, journal, ["audit"]) == (0, b"{blocks:4,revisions:4}\n"), "how much the journal holds")
        prove(program, journal, 0, 3)
        bundle = prove(program, journal, 3, 1)
        for at in range(len(bundle)):
            check(not accepts(changed(bundle, at)), f"byte {at} of the bundle counts")
        for at in range(0, len(bundle), 29):
            check(run(program, journal, ["verify"], changed(bundle, at))[0] in (2, 7) or bundle[at] == 10, f"byte {at} counts for the program")
    print("the digests are the journal's, and the proofs are accepted, and with no byte changed")


main()
