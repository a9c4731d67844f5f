"""Prints the digests that the tests of tails expect: of journals of so many blocks, each of one transaction.

It is written from the rules in docs/formats.md, with the hashes of the vectors of block_form, and shares nothing with
the crates. The first transaction says `CREATE TABLE t`, and each other one `SELECT * FROM t`; all of them end at the
beginning of 2020 in UTC. Run it as `python3 vectors/digests.py`.
"""

import contextlib
import io
import sys
from pathlib import Path

sys.path.insert(0, str(Path(__file__).resolve().parents[2] / "block_form" / "vectors"))
with contextlib.redirect_stdout(io.StringIO()):
    from make import H, STRAND, dot, ident, new_year, number, string, structure

PAD = H(("symbol", "pad"))


def transaction_info(words, answer, schema):
    """What the transaction said and did that had one statement."""
    said = structure(statement=string(words), parameters=("list", []), answer=("list", answer))
    return structure(
        place=structure(session=number(1), transaction=number(1)),
        statements=("list", [said]),
        schema=("list", schema),
        documents=("list", []),
    )


def block_hash(previous, sequence, info):
    """The hash of the block of this number without revisions, of the transaction whose number is one greater."""
    header = structure(
        blockAddress=structure(strandId=STRAND, sequenceNo=number(sequence)),
        transactionId=ident(sequence + 1, 0),
        blockTimestamp=new_year,
        revisionCount=number(0),
    )
    return dot(dot(H(info), H(header)), previous)


def root(leaves):
    """The root of the padded tree over these leaves."""
    pad = PAD
    while len(leaves) > 1:
        leaves = leaves + [pad] * (len(leaves) % 2)
        leaves = [dot(left, right) for left, right in zip(leaves[::2], leaves[1::2])]
        pad = dot(pad, pad)
    return leaves[0]


table = structure(tableId=ident(1, 1))
create = transaction_info("CREATE TABLE t", [table], [structure(create=string("t"), tableId=ident(1, 1))])
select = transaction_info("SELECT * FROM t", [], [])
hashes = [block_hash(H(STRAND), 0, create)]
for sequence in range(1, 121):
    hashes.append(block_hash(hashes[-1], sequence, select))
for count in (1, 2, 3, 5, 121):
    print(f"{count}: {root(hashes[:count]).hex()}")
