"""Prints the journal line of block 0 of the last transaction, whose number is 2^64 - 1, as the last line of its output.

It is the line that ../../block_form/vectors/make.py prints for the transaction 1. Run it as `python3 vectors/last_number.py`.
"""

import pathlib

make = pathlib.Path(__file__).resolve().parents[2] / "block_form" / "vectors" / "make.py"
exec(make.read_text().replace("ident(1, ", "ident(2**64 - 1, "))
