#!/usr/bin/env python3
"""Runs the rows of tests/commands.txt, each a command on a journal of its own; and a registration's proof, runs by several workers, and
journals that are cut in their last line. Ends with status 1 where something isn't as it should be.

    tests/commands.py [PROGRAM]

The program is crates/ledger/out/ledger, where `rt ci` leaves it, or another path.

A row has the words, the input, what the journal holds, what fails, what is told, and what the journal holds then, with `|` between
them. What fails is `r0` for the input, `w0` for the output, both or none.

Between two `@` stands the name of a text, with changes of it behind `~`, or a count, `*` and what is repeated. A change is what stands
there, `>`, and what takes its place; between changes stands `;`. `let NAME = TEXT` gives a text its name. What is told is the status,
with the output or nothing behind it, or `*` for anything. What the journal holds then is `=` for what it held, `!` for anything else,
`*` for anything, `#` with a count of lines, `^` with its beginning, or all of it.

Some rows are told in short: `refused|STATEMENTS = NUMBER = CAUSE`, `selected|SELECT => ANSWER` of two tables, `verdict|CHANGES|TOLD`
of a bundle that is verified, and `bad|VALUE = KIND` of a value that is no set of rules. `rules RULES` tells those of the rows after it
that are `denied|SESSION STATEMENTS is NUMBER ACTION TABLE by RULE`, or `is none`; between statements stands ` then `, and ` of ` before
a statement's parameters.
"""
import os
import re
import subprocess
import sys
import tempfile

from rows import RUN, SECONDS, Program

HERE = os.path.dirname(os.path.abspath(__file__))
PROGRAM = os.path.join(os.path.dirname(HERE), "crates", "ledger", "out", "ledger")

REFUSED = (
    '@RUN@|[{statements:[%s]}]|||0 {session:1,transaction:1,outcome:refused,tx:"0000000000000000018OWG",since:0,statement:%s,'
    "cause:{%s}}|*"
)

# the documents of two tables, and what the statements that make them answer
TWO_TABLES = (
    '"CREATE TABLE t","CREATE TABLE u",{text:"INSERT INTO t ?",params:[[{n:1},{n:2,items:[7,8,9]},{n:3,items:4}]]},'
    "\"INSERT INTO u {'x': 7, 'y': '7'}\""
)
TWO_MADE = (
    '[{tableId:"0000000000000000018OWH"}],[{tableId:"0000000000000000018OWI"}],[{documentId:"0000000000000000018OWJ"},'
    '{documentId:"0000000000000000018OWK"},{documentId:"0000000000000000018OWL"}],[{documentId:"0000000000000000018OWM"}]'
)
SELECTED = (
    f'@RUN@|[{{statements:[{TWO_TABLES},"%s"]}}]|||0 {{session:1,transaction:1,outcome:committed,'
    f'tx:"0000000000000000018OWG",block:0,answers:[{TWO_MADE},[%s]]}}|*'
)
VERDICT = "verify|@HONEST~%s@|@LINE_FEED@||%s|="
BAD = "@RUN@ --rules r|%s|||2 {status:2,fault:{kind:%s}}|="
DENIED = re.compile(r'outcome:denied,statement:(\d+),action:(\w+),table:"(.*?)",rule:(?:null|"(.*?)")\}')

# nine sessions on one table, of two transactions each, that all read what all others write, and may try again
CONTENDED = "\n".join(
    '[{statements:[{text:"INSERT INTO t ?",params:[{a:%d}]},"SELECT COUNT(*) FROM t"],retries:100},'
    '{statements:["UPDATE t SET a = a + 1 WHERE a = %d"],retries:100}]' % (session, session)
    for session in range(9)
)
# what there is no proof of for the tip 2 of four blocks, of which the third one has one revision: a block, an index, and why
EARLIER = [(1, 0, "NoSuchRevision,index:0,count:0"), (2, 1, "NoSuchRevision,index:1,count:1"), (4, 0, "NoSuchBlock,sequence:4,blocks:4")]
WORKERS = [["run", "--workers", "1"], ["run", "--workers", "3"], ["run"], ["run", "--workers", "64"]]


def check(holds, what):
    if not holds:
        sys.exit(f"not so: {what}")


class Texts:
    """The texts that have names."""

    def __init__(self, lines=()):
        self.named = {"LINE_FEED": "\n"}
        for line in lines:
            self.take(line)

    def take(self, line):
        """Whether the line gives a text its name."""
        word, _, rest = line.partition(" ")
        if word == "let":
            name, _, text = rest.partition(" = ")
            self.named[name] = self.spelled(text)
        return word == "let"

    def spelled(self, told):
        """The text in which each part between two `@` names another one."""
        return "".join(self.of(part) if at % 2 else part for at, part in enumerate(told.split("@")))

    def of(self, told):
        """The text that a name stands for, changed or repeated."""
        name, _, changes = told.partition("~")
        if changes:
            return changed(self.named[name], changes)
        count, _, part = told.partition("*")
        return part * int(count) if part else self.named[name]


def changed(text, changes):
    for change in changes.split(";"):
        old, _, new = change.partition(">")
        check(old in text, f"the text has {old}")
        text = text.replace(old, new, 1)
    return text


def in_full(row):
    """The row that stands for one that is told in short."""
    kind, _, rest = row.partition("|")
    if kind == "refused":
        return REFUSED % tuple(rest.split(" = "))
    if kind == "selected":
        return SELECTED % tuple(rest.split(" => "))
    if kind == "verdict":
        return VERDICT % tuple(rest.split("|"))
    if kind == "bad":
        return BAD % tuple(rest.split(" = "))
    return row


def run(program, words, given, fails):
    """The status of a command whose input or output fails as told, and its output. A folder as an input fails."""
    if not fails:
        return program.run("row", words, given)
    with tempfile.TemporaryFile() as file, open("/dev/full", "wb") as full:
        file.write(given)
        file.seek(0)
        folder = os.open(program.folder, os.O_RDONLY)
        streams = {"stdin": folder if "r0" in fails else file, "stdout": full if "w0" in fails else subprocess.PIPE}
        ended = subprocess.run([program.path, program.at("row"), *words], stderr=subprocess.PIPE, timeout=SECONDS, **streams)
        os.close(folder)
    return ended.returncode, ended.stdout or b""


def told_by(status, output):
    """The status, with the output or nothing behind it."""
    return f"{status} {output.decode()}".removesuffix("\n") if output else str(status)


def is_left(texts, left, before, wanted):
    """Whether a journal is left as it is wanted."""
    if wanted in ("*", "=", "!"):
        return wanted == "*" or (left == before) == (wanted == "=")
    if wanted.startswith("#"):
        return len(left.splitlines()) == int(wanted[1:])
    if wanted.startswith("^"):
        return left.startswith(wanted[1:].encode())
    return left == texts.spelled(wanted).encode()


def holds(program, texts, row):
    """Whether a row comes out as it says."""
    words, given, held, fails, told, wanted = in_full(row).split("|", 5)
    held = texts.spelled(held).encode()
    if os.path.exists(program.at("row")):
        os.remove(program.at("row"))
    if held:
        program.put("row", held)
    found = told_by(*run(program, texts.spelled(words).split(" "), texts.spelled(given).encode(), fails))
    left = program.left("row")
    if told != "*" and found != texts.spelled(told):
        print(f"{found[:300]}, and not as the row says: {row[:300]}")
        return False
    if not is_left(texts, left, held, wanted):
        print(f"it leaves {left[:300]}, and not what the row says: {row[:300]}")
        return False
    return True


def statement_of(told):
    """The statement that a row tells with its parameters."""
    text, _, params = told.partition(" of ")
    quoted = text.replace("\\", "\\\\").replace('"', '\\"')
    return '{text:"%s",params:[%s]}' % (quoted, ",".join(params.split(" ")))


def is_denied(program, rules, row):
    """Whether the rules deny of a session's statements what the row says."""
    told, _, wanted = row.removeprefix("denied|").partition(" is ")
    session, _, statements = told.partition(" ")
    statements = ",".join(statement_of(it) for it in statements.split(" then ")) if statements else ""
    script = rules + "[]" * (int(session) - 1) + "[{statements:[%s]}]" % statements
    program.put("denied", b"")
    status, report = program.run("denied", [*RUN, "--rules", "r"], script.encode())
    denial = DENIED.search(report.decode())
    found = "{} {} {} by {}".format(*denial.groups("no rule")) if denial else "none"
    if (status, found) != (0, wanted):
        print(f"{status}, {found}, and not as the row says: {row[:300]}")
    return (status, found) == (0, wanted)


def all_rows(program, texts, lines):
    """How many rows there are, each of which comes out as it says."""
    held, rules = [], ""
    for line in lines:
        word, _, rest = line.partition(" ")
        if texts.take(line):
            continue
        if word == "rules":
            rules = rest
        elif line.startswith("denied|"):
            held.append(is_denied(program, rules, line))
        elif word != "#":
            held.append(holds(program, texts, line))
    if not all(held):
        sys.exit(1)
    return len(held)


def registered(program, texts):
    """The journal of a registration counts its blocks and revisions, and the proof of a change is accepted."""
    program.run("registered", RUN, texts.named["REGISTRATION"].encode())
    check(program.run("registered", ["audit"]) == (0, b"{blocks:4,revisions:3}\n"), "the counts of a registration")
    status, bundle = program.run("registered", ["prove", "2", "0"])
    _, digest = program.run("registered", ["digest"])
    check(status == 0 and digest and bundle.startswith(digest), "the proof of a change begins with the digest")
    check(program.run("none", ["verify"], bundle) == (0, b"{verified:true}\n"), "the proof of a change is accepted")


def earlier(program, texts):
    """With a block more, the proofs for the tip before it are those of the journal without it, and so are the refusals."""
    for blocks, bundle, last in [("ONE_BLOCK", "ONE_BUNDLE", 0), ("THREE_BLOCKS", "THREE_BUNDLE", 2)]:
        program.put("earlier", texts.named[blocks].encode())
        check(program.run("earlier", RUN, b"[{statements:[]}]")[0] == 0, f"a block behind {blocks}")
        told = program.run("earlier", ["prove", str(last), "0", "--tip", str(last)])
        check(told == (0, texts.named[bundle].encode()), f"the proof behind {blocks}: {told}")
    for sequence, index, kind in EARLIER:
        told = program.run("earlier", ["prove", str(sequence), str(index), "--tip", "2"])
        check(told == (2, b"{status:2,fault:{kind:%s}}\n" % kind.encode()), f"revision {index} of block {sequence}: {told}")


def contended(program):
    """Whatever order transactions take, each has one line, in the script's order, and each block is told."""
    places = [(str(session), str(number)) for session in range(1, 10) for number in (1, 2)]
    for words in WORKERS:
        journal = "contended" + words[-1]
        program.run(journal, words, b'[{statements:["CREATE TABLE t"]}]')
        status, report = program.run(journal, words, CONTENDED.encode())
        found = re.findall(r"^\{session:(\d+),transaction:(\d+),outcome:committed,", report.decode(), re.MULTILINE)
        check((status, found) == (0, places), f"{words}: each is committed, in the script's order: {status}, {report}")
        check(program.left(journal).count(b"\n") == 19, f"{words}: a block each, and the first one")


def cuts(program, texts):
    """Of a journal that is cut in its last line the lines before are counted, and a run cuts it to these."""
    whole, two = (texts.named[name].encode() for name in ("THREE_BLOCKS", "TWO_BLOCKS"))
    for end in range(len(two) + 1, len(whole)):
        program.put("cut", whole[:end])
        told = program.run("cut", ["audit"])
        check(told == (0, b"{blocks:2,revisions:0}\n") and program.left("cut") == whole[:end], f"{end} bytes are counted: {told}")
        check(program.run("cut", RUN) == (0, b"") and program.left("cut") == two, f"{end} bytes are cut")


def lines_of_rows():
    """The lines of tests/commands.txt."""
    with open(os.path.join(HERE, "commands.txt"), encoding="utf-8") as file:
        return file.read().splitlines()


def main():
    lines = lines_of_rows()
    with tempfile.TemporaryDirectory() as folder:
        program, texts = Program(os.path.abspath(sys.argv[1] if len(sys.argv) > 1 else PROGRAM), folder), Texts()
        count = all_rows(program, texts, lines)
        registered(program, texts)
        earlier(program, texts)
        contended(program)
        cuts(program, texts)
    print(f"{count} rows of commands, and what they leave: all as they should be")


if __name__ == "__main__":
    main()
