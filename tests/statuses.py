#!/usr/bin/env python3
"""Runs the program to each of its statuses: the output, what stands on standard error, and what is left at the journal's path.
Ends with status 1 where something isn't as it should be. (A program built with a sanitizer doesn't run in the memory that status
8 is tried with.)

    tests/statuses.py [PROGRAM]

The program is crates/ledger/out/ledger, where `rt ci` leaves it, or another path.
"""
import os
import resource
import subprocess
import sys
import tempfile

HERE = os.path.dirname(os.path.abspath(__file__))
PROGRAM = os.path.join(os.path.dirname(HERE), "crates", "ledger", "out", "ledger")
RUN = ["run", "--workers", "1", "--plain-ids", "--at", "2020-01-01T00:00:00.000Z"]
CREATE = b'[{statements:["CREATE TABLE t"]}]'
LINE_START = b'{blockAddress:{strandId:"'


def check(holds, what):
    if not holds:
        sys.exit(f"not so: {what}")


def run(program, words, script=b"", **streams):
    """The status of a run, its output and what it wrote on standard error."""
    if "stdin" not in streams:
        streams["input"] = script
    streams.setdefault("stdout", subprocess.PIPE)
    ended = subprocess.run([program] + words, stderr=subprocess.PIPE, **streams)
    return ended.returncode, ended.stdout, ended.stderr


def left(path):
    """The bytes of a file, None where there is none."""
    if not os.path.exists(path):
        return None
    with open(path, "rb") as file:
        return file.read()


def write(path, content):
    with open(path, "wb") as file:
        file.write(content)


def words(program, journal):
    """Status 1: the words name no journal or no command. Nothing is touched."""
    named = [(1, b"", b"ledger: no journal\n")] * 2
    check([run(program, []), run(program, [journal, b"\xff"])] == named, "no journal is named")
    for wrong in [[], ["frobnicate"], RUN[:-1] + ["2020"], ["digest", "--tip", "01"], RUN + ["--plain-ids"]]:
        check(run(program, [journal] + wrong, CREATE) == (1, b"{status:1}\n", b""), f"{wrong} is no command")
    check(left(journal) is None, "no journal is made")


def inputs(program, journal):
    """Statuses 0, 2, 4 and 7 before anything is committed. No journal is made."""
    check(run(program, [journal] + RUN) == (0, b"", b""), "an empty script is done")
    fault = b"{status:2,fault:{session:1,transaction:0,kind:NotASession}}\n"
    check(run(program, [journal] + RUN, b"5") == (2, fault, b""), "5 is no script")
    for rules, kind in [(b"", b"BadRules"), (b"5", b"BadRules"), (b"{s:[]} 5", b"NoSuchRules")]:
        fault = b"{status:2,fault:{kind:" + kind + b"}}\n"
        check(run(program, [journal] + RUN + ["--rules", "r"], rules) == (2, fault, b""), f"{rules} has no rules r")
    bundle = b"{status:7,fault:{code:1,field:\"count\"}}\n"
    for command in ["verify", "extract"]:
        check(run(program, [journal, command], b"5") == (7, bundle, b""), f"5 is no bundle for {command}")
    for words, given, fault in [
        (["replay"], b"5", b"{kind:NotARecord,at:0}"),
        (["replay"], b"5 ]", b"{at:2,kind:BadToken}"),
        (["stream", "--to", "1"], b"", b"{kind:NoSuchBlock,sequence:1,blocks:0}"),
        (["stream", "--from", "1"], b"", b"{kind:BadRange,from:1,to:0}"),
    ]:
        check(run(program, [journal] + words, given) == (2, b"{status:2,fault:" + fault + b"}\n", b""), f"{words} is refused")
    check(run(program, [journal, "replay"]) == (0, b"", b""), "no records rebuild no blocks")
    none = b"{status:2,fault:{kind:NoSuchBlock,sequence:0,blocks:0}}\n"
    check(run(program, [journal, "digest"]) == (2, none, b""), "there is no block")
    with open_folder(os.path.dirname(journal)) as folder:
        for command in [RUN, ["replay"]]:
            check(run(program, [journal] + command, stdin=folder) == (4, b"{status:4,faults:1}\n", b""), f"{command}: a folder can't be read")
    check(left(journal) is None, "no journal is made")


class open_folder:
    """A folder as a stream, of which each read fails."""

    def __init__(self, path):
        self.path = path

    def __enter__(self):
        self.stream = os.open(self.path, os.O_RDONLY)
        return self.stream

    def __exit__(self, *_):
        os.close(self.stream)


def journals(program, journal):
    """Statuses 3 and 5: what stands at the journal's path can't be served, and is left as it is."""
    fault = b"{status:3,fault:{sequence:0,kind:NotALine}}\n"
    faults = b"{status:5,faults:1}\n"
    for content, want in [
        (b"Dear Ada,\nhow are you?", (3, fault, b"")),
        (b"Dear Ada, how are you?", (5, faults, b"")),
        (b"{a:1}", (5, faults, b"")),
        (b" " * 100_000, (5, faults, b"")),
        (LINE_START[:-1] + b"'", (5, faults, b"")),
    ]:
        write(journal, content)
        check(run(program, [journal] + RUN, CREATE) == want, f"{content[:30]!r} is no journal")
        check(left(journal) == content, f"{content[:30]!r} is left")
    for path in [os.path.dirname(journal), os.path.join(journal, "below")]:
        check(run(program, [path] + RUN, CREATE) == (5, faults, b""), f"{path} can't be opened")
    os.remove(journal)


def torn_first_lines(program, journal):
    """A first line that was cut off is made anew, however short."""
    committed = run(program, [journal] + RUN, CREATE)
    check(committed[0] == 0 and committed[1].count(b"outcome:committed") == 1, "one block is committed")
    whole = left(journal)
    check(whole.startswith(LINE_START), "a line begins as it should")
    for end in list(range(len(LINE_START) + 2)) + [len(whole) - 1]:
        write(journal, whole[:end])
        check(run(program, [journal] + RUN, CREATE) == committed, f"the report on {end} bytes")
        check(left(journal) == whole, f"the journal made of {end} bytes")
    os.remove(journal)


def outputs(program, journal):
    """Status 6: the output fails, and what was committed stands."""
    with open("/dev/full", "wb") as full:
        check(run(program, [journal] + RUN, CREATE, stdout=full)[0] == 6, "a full output")
    check(left(journal).count(b"\n") == 1, "one block stands")
    os.remove(journal)


def memory(program, journal):
    """Status 8: 14 MB of statements don't fit into 48 MiB of memory. No journal is made."""
    script = b"[{statements:[" + b",".join([b'"SELECT * FROM t"'] * 800_000) + b"]}]"
    limit = (48 << 20, 48 << 20)
    ended = run(program, [journal] + RUN, script, preexec_fn=lambda: resource.setrlimit(resource.RLIMIT_AS, limit))
    check(ended[0] == 8, f"status 8 and not {ended[0]}")
    check(left(journal) is None, "no journal is made")


def main():
    program = os.path.abspath(sys.argv[1] if len(sys.argv) > 1 else PROGRAM)
    with tempfile.TemporaryDirectory() as folder:
        journal = os.path.join(folder, "journal")
        for part in [words, inputs, journals, torn_first_lines, outputs, memory]:
            part(program, journal)
    print("statuses 0 to 8: all as they should be")


main()
