#!/usr/bin/env python3
"""Runs the program `interleavings`: on its stored events, whole and in small parts, on inputs of another form, and with an output that
fails. Ends with status 1 where something isn't as it should be.

    tests/interleavings.py [PROGRAM]

The program is crates/interleavings/out/interleavings, where `rt ci` leaves it, or another path.
"""
import os
import subprocess
import sys

HERE = os.path.dirname(os.path.abspath(__file__))
CRATE = os.path.join(os.path.dirname(HERE), "crates", "interleavings")
PROGRAM = os.path.join(CRATE, "out", "interleavings")


def check(holds, what):
    if not holds:
        sys.exit(f"not so: {what}")


def read(name):
    with open(os.path.join(CRATE, name), "rb") as file:
        return file.read()


def run(program, script, **streams):
    streams.setdefault("stdout", subprocess.PIPE)
    ended = subprocess.run([program], input=script, timeout=60, **streams)
    return ended.returncode, ended.stdout


def in_parts(program, script):
    """A run whose input comes a few bytes at a time."""
    process = subprocess.Popen([program], stdin=subprocess.PIPE, stdout=subprocess.PIPE, bufsize=0)
    for at in range(0, len(script), 7):
        process.stdin.write(script[at:at + 7])
    process.stdin.close()
    output = process.stdout.read()
    return process.wait(60), output


def main():
    program = os.path.abspath(sys.argv[1] if len(sys.argv) > 1 else PROGRAM)
    script, wanted = read("stdin"), read("stdout")
    check(run(program, script) == (0, wanted), "the lines of the stored events")
    check(in_parts(program, script) == (0, wanted), "the same lines, where the events come in parts")
    check(run(program, b"") == (0, b"{blocks:0}\n"), "no event, no block")
    check(run(program, b"{frobnicate:1}") == (2, b"{bad_event:0}\n"), "an input of another form")
    with open("/dev/full", "wb") as full:
        check(run(program, script, stdout=full)[0] == 6, "an output that fails")
    folder = os.open(CRATE, os.O_RDONLY)
    check(subprocess.run([program], stdin=folder, capture_output=True).returncode == 4, "an input that fails")
    os.close(folder)
    print("events in any order: all as they should be")


main()
