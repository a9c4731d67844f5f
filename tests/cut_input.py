#!/usr/bin/env python3
"""Cuts a user's registration of a vehicle at each byte: its script, its journal and a proof from it. A script that is cut is refused
(status 2) and leaves no journal, but for one without a byte, which has no session (status 0); a journal that is cut has the blocks of
its whole lines (status 0), and not the digest of a proof from the whole one (status 7); a proof that is cut is refused by both commands
that read it (status 2, or 7 where whole values are left, but too few). Ends with status 1 where something isn't as it should be.

    tests/cut_input.py [PROGRAM]

The program is crates/ledger/out/ledger, where `rt ci` leaves it, or another path.
"""
import os
import sys
import tempfile
from concurrent.futures import ThreadPoolExecutor
from pathlib import Path

from rows import RUN, VEHICLE_REGISTRATION, Program

TOP = Path(__file__).resolve().parent.parent
PROGRAM = TOP / "crates" / "ledger" / "out" / "ledger"
NOT_PUBLISHED = b"{status:7,fault:{kind:NotPublished}}\n"


def check(holds, what):
    if not holds:
        sys.exit(f"not so: {what}")


def script_cut(program, script, size):
    """What is wrong where a script is cut."""
    name = f"script{size}"
    status, output = program.run(name, RUN, script[:size])
    left = len(program.left(name))
    Path(program.at(name)).unlink(missing_ok=True)
    wanted = (2, b"{status:2,fault:") if size else (0, b"")
    if status != wanted[0] or left or not output.startswith(wanted[1]):
        return f"a script of {size} bytes: {status}, {left} bytes left, {output[:200]!r}"
    return None


def journal_cut(program, journal, proof, size):
    """What is wrong where a journal is cut, to which a proof from the whole one is taken."""
    name = f"journal{size}"
    program.put(name, journal[:size])
    status, output = program.run(name, ["audit"])
    found = program.run(name, ["extract"], proof)
    os.remove(program.at(name))
    if status != 0 or not output.startswith(b"{blocks:%d," % journal[:size].count(b"\n")):
        return f"a journal of {size} bytes: {status}, {output[:200]!r}"
    if found != ((7, NOT_PUBLISHED) if size < len(journal) else (0, b"{found:0}\n")):
        return f"a proof with a journal of {size} bytes: {found}"
    return None


def proof_cut(program, proof, size):
    """What is wrong where a proof is cut. `extract` says of it what `verify` says, and doesn't read the journal."""
    status, output = program.run("none", ["verify"], proof[:size])
    is_whole = size == 0 or proof[size : size + 1] == b"\n" or proof[size - 1 : size] == b"\n"
    wanted = (7, b'{status:7,fault:{code:1,field:"count"}}') if is_whole else (2, b"{status:2,fault:")
    if status != wanted[0] or not output.startswith(wanted[1]):
        return f"a proof of {size} bytes: {status}, {output[:200]!r}"
    if program.run("damaged", ["extract"], proof[:size]) != (status, output):
        return f"a proof of {size} bytes, for extract"
    return None


def tried(cut, program, whole, most):
    """Tries each cut below so many bytes."""
    with ThreadPoolExecutor(os.cpu_count() or 1) as workers:
        wrong = [it for it in workers.map(lambda size: cut(program, whole, size), range(most)) if it]
    check(not wrong, wrong[:3])
    return most


def main():
    path = os.path.abspath(sys.argv[1] if len(sys.argv) > 1 else PROGRAM)
    script = VEHICLE_REGISTRATION
    with tempfile.TemporaryDirectory() as folder:
        program = Program(path, folder)
        check(program.run("whole", RUN, script)[0] == 0, "the whole script runs")
        journal = program.left("whole")
        status, proof = program.run("whole", ["prove", "2", "0"])
        check(status == 0 and program.run("none", ["verify"], proof)[0] == 0, "the whole proof is accepted")
        program.put("damaged", b"\n")
        check(program.run("damaged", ["extract"], proof)[0] == 3, "the journal is read for a whole proof")
        counts = [
            tried(script_cut, program, script, len(script.rstrip())),
            tried(lambda program, journal, size: journal_cut(program, journal, proof, size), program, journal, len(journal) + 1),
            tried(proof_cut, program, proof, len(proof.rstrip())),
        ]
    print(f"cut input: a script at {counts[0]} places, a journal at {counts[1]}, a proof at {counts[2]}; all as it should be")


main()
