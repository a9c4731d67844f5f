#!/usr/bin/env python3
"""Times digests, proofs and their check on journals of growing length, beside openssl's time for as many hashes. README.md says more."""

import importlib.util
import importlib.machinery
import os
import re
import subprocess
import sys
import tempfile
import time
from pathlib import Path


def load_verifier():
    """The module of tools/ledger-verify, which has no name that an import could take."""
    path = str(Path(__file__).resolve().parent.parent / "tools" / "ledger-verify")
    spec = importlib.util.spec_from_loader("ledger_verify", importlib.machinery.SourceFileLoader("ledger_verify", path))
    module = importlib.util.module_from_spec(spec)
    sys.modules["ledger_verify"] = module
    spec.loader.exec_module(module)
    return module


ledger_verify = load_verifier()

TOP = Path(__file__).resolve().parent.parent

RUNS = {1_000: 5, 10_000: 3, 100_000: 3}
TIME = "2020-01-01T00:00:00.000Z"
STRAND = "0" * 22


def id_text(number, made):
    """The id of what a transaction of this number made, without a mask."""
    raw, digits = number << 24 | made, ""
    while raw or len(digits) < 22:
        raw, digit = divmod(raw, 62)
        digits = ledger_verify.DIGITS[digit] + digits
    return digits


def hash_of(text):
    """The hash of a value that is given as text."""
    return ledger_verify.hash_of(ledger_verify.read_values(text.encode())[0])


def line_of(sequence, previous):
    """The line of a block and its hash: block 0 makes a table, each other one inserts a document."""
    number = sequence + 1
    address = f'{{strandId:"{STRAND}",sequenceNo:{sequence}}}'
    tx, made, table = id_text(number, 0), id_text(number, 1), id_text(1, 1)
    if sequence == 0:
        said = f'{{statement:"CREATE TABLE t",parameters:[],answer:[{{tableId:"{table}"}}]}}'
        schema, documents, revisions, second = f'{{create:"t",tableId:"{table}"}}', "", "", b""
    else:
        data = f'{{number:{sequence},owner:"p{sequence % 97}"}}'
        metadata = f'{{id:"{made}",version:0,txTime:{TIME},txId:"{tx}"}}'
        second = ledger_verify.dot(hash_of(data), hash_of(metadata))
        said = f'{{statement:"INSERT INTO t ?",parameters:[{data}],answer:[{{documentId:"{made}"}}]}}'
        schema, documents = "", f'{{documentId:"{made}",tableId:"{table}"}}'
        revisions = f"{{blockAddress:{address},hash:{ledger_verify.written_blob(second)},data:{data},metadata:{metadata}}}"
    info = f"{{place:{{session:1,transaction:{number}}},statements:[{said}],schema:[{schema}],documents:[{documents}]}}"
    count = 1 if revisions else 0
    header = f'{{blockAddress:{address},transactionId:"{tx}",blockTimestamp:{TIME},revisionCount:{count}}}'
    hashes = [hash_of(info), second, hash_of(header)]
    entries = ledger_verify.dot(ledger_verify.dot(hashes[0], second) if second else hashes[0], hashes[2])
    block = ledger_verify.dot(entries, previous)
    return (
        f'{{blockAddress:{address},transactionId:"{tx}",blockTimestamp:{TIME},blockHash:{ledger_verify.written_blob(block)},'
        f"entriesHash:{ledger_verify.written_blob(entries)},previousBlockHash:{ledger_verify.written_blob(previous)},"
        f"entriesHashList:[{','.join(map(ledger_verify.written_blob, hashes))}],transactionInfo:{info},revisions:[{revisions}]}}\n"
    ), block


def make(journal, blocks):
    """Writes a journal of so many blocks, without the program."""
    previous = hash_of(f'"{STRAND}"')
    with open(journal, "w", encoding="utf-8") as file:
        for sequence in range(blocks):
            line, previous = line_of(sequence, previous)
            file.write(line)


def run(runs, command, text=b""):
    """The least seconds of a command that reads the text, run so often, and what it wrote."""
    best = None
    for _ in range(runs):
        begun = time.monotonic()
        ran = subprocess.run(command, input=text, capture_output=True)
        seconds = time.monotonic() - begun
        if ran.returncode != 0:
            sys.exit(ran.stdout.decode()[:500])
        best = seconds if best is None else min(best, seconds)
    return best, ran.stdout


def hashes_a_second():
    """How many SHA-256 of 64 bytes openssl makes in a second."""
    told = subprocess.run(["openssl", "speed", "-mr", "-seconds", "1", "-bytes", "64", "sha256"], capture_output=True, text=True)
    return float(re.search(r"\+F:\d+:sha256:([\d.]+)", told.stdout)[1]) / 64


def main():
    program = os.path.abspath(sys.argv[1] if len(sys.argv) > 1 else TOP / "crates" / "ledger" / "out" / "ledger")
    for blocks in RUNS:
        with tempfile.TemporaryDirectory() as folder:
            journal = Path(folder) / "journal"
            make(journal, blocks)
            rate = hashes_a_second()
            runs = RUNS[blocks]
            loading, audited = run(runs, [program, journal, "audit"])
            digest, _ = run(runs, [program, journal, "digest"])
            proving, bundle = run(runs, [program, journal, "prove", str(blocks // 2), "0"])
            verifying, told = run(5, [program, journal, "verify"], bundle)
            assert audited == b"{blocks:%d,revisions:%d}\n" % (blocks, blocks - 1) and told == b"{verified:true}\n"
            path = bundle.count(b"{{") - 2
            print(
                f"{blocks} blocks: loaded in {loading:.3f} s; behind that digest {1000 * (digest - loading):.1f} ms, prove "
                f"{1000 * (proving - loading):.1f} ms, openssl {1000 * blocks / rate:.1f} ms for {blocks} hashes; verify "
                f"{1000 * verifying:.1f} ms with its start, for {path} hashes, openssl {1000 * path / rate:.3f} ms",
                flush=True,
            )
    return 0


if __name__ == "__main__":
    sys.exit(main())
