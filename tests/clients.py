#!/usr/bin/env python3
"""Runs the tests of the Python package in clients/python and of the tools that stand on it, against the program. Its last line is
`N passed, N failed`, and it ends with status 1 where one failed.

    tests/clients.py [PROGRAM] [TEST ..]

The program is crates/ledger/out/ledger, where `rt ci` leaves it, or another path. A TEST is a name such as test_values.Texts.
"""
import os
import sys
import unittest

HERE = os.path.dirname(os.path.abspath(__file__))
ROOT = os.path.dirname(HERE)
PACKAGE = os.path.join(ROOT, "clients", "python")
PROGRAM = os.path.join(ROOT, "crates", "ledger", "out", "ledger")


def main():
    program = os.path.abspath(sys.argv[1] if len(sys.argv) > 1 else PROGRAM)
    if not os.access(program, os.X_OK):
        sys.exit(f"there is no program {program}")
    os.environ["LEDGER_PROGRAM"] = program
    tests = os.path.join(PACKAGE, "tests")
    sys.path[:0] = [PACKAGE, tests]
    sys.dont_write_bytecode = True
    loader = unittest.TestLoader()
    found = loader.loadTestsFromNames(sys.argv[2:]) if sys.argv[2:] else loader.discover(tests)
    result = unittest.TextTestRunner(verbosity=1).run(found)
    failed = len({test for test, _ in result.failures + result.errors})
    print(f"{result.testsRun - failed} passed, {failed} failed")
    sys.exit(1 if failed else 0)


main()
