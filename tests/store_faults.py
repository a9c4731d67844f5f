#!/usr/bin/env python3
"""Runs commands while calls on the journal's file, of standard input or of standard output fail, one or several in turn, by a small
library that is loaded before the program (tests/fail.c): what is told, and what the file holds. Ends with status 1 where something isn't
as it should be; without a C compiler all of it is skipped.

    tests/store_faults.py [PROGRAM]

The program is crates/ledger/out/ledger, where `rt ci` leaves it, or another path. tests/fail.c says how calls that fail are told.
"""
import os
import re
import shutil
import subprocess
import sys
import tempfile

import commands
from rows import RUN, Program

HERE = os.path.dirname(os.path.abspath(__file__))
PROGRAM = os.path.join(os.path.dirname(HERE), "crates", "ledger", "out", "ledger")

# rows in the form of tests/commands.txt, but for what fails
COMMANDS = r"""
let STORE_FAULT = {session:1,transaction:1,outcome:store_fault,tx:"0000000000000000018OWG",count:1}
let CREATED = {session:1,transaction:1,outcome:committed,tx:"0000000000000000018OWG",block:0,answers:[[{tableId:"0000000000000000018OWH"}]]}
let FAULT_AT_2 = {session:1,transaction:2,outcome:store_fault,tx:"000000000000000002Gn2W",count:1}
let READ_AT_3 = {session:1,transaction:3,outcome:committed,tx:"000000000000000003PBYm",block:1,answers:[[]]}
let TWO = {statements:["CREATE TABLE t"]},{statements:["SELECT * FROM t"]}
let FIRST_RECORD = {recordType:"CONTROL",payload:{controlRecordType:"CREATED"}}
# sources and sinks; a source that wants memory
@RUN@|@FIRST@||in:1:0|4 {status:4,faults:1}|=
@RUN@|@FIRST@||in:2:0|4 {status:4,faults:1}|=
@RUN@|@FIRST@||out:1:0|6|@FIRST_LINE@
@RUN@|@FIRST@||in:1:0 out:1:0|4|=
verify|@FIRST@||in:1:0|4 {status:4,faults:1}|=
frobnicate|@FIRST@||out:1:0|1|=
audit|@FIRST@||in:1:0 out:1:0|6|=
stream||@ONE_BLOCK@|out:2:0|6 @FIRST_RECORD@|=
@RUN@|||in:1:memory|8 {status:8}|=
verify|||in:1:memory|8 {status:8}|=
# a file that fails at its size; at the line of a commit, of which nothing, a part or all is written; at its sync; then also at the cut
# after one of these, which is done or not, or at the sync after the cut
@RUN@|@FIRST@||size:1:0|5 {status:5,faults:1}|=
@RUN@|@FIRST@||write:1:0|0 @STORE_FAULT@|=
@RUN@|@FIRST@||write:1:10|0 @STORE_FAULT@|=
@RUN@|@FIRST@||write:1:1190|0 @STORE_FAULT@|=
@RUN@|@FIRST@||sync:1:0|0 @STORE_FAULT@|=
@RUN@|@FIRST@||write:1:0 size:4:0|5 {status:5,faults:2}|=
@RUN@|@FIRST@||write:1:10 cut:1:0|5 {status:5,faults:2}|{blockAddr
@RUN@|@FIRST@||write:1:1190 cut:1:0|5 {status:5,faults:2}|@FIRST_LINE@
@RUN@|@FIRST@||write:1:10 cut:1:1|5 {status:5,faults:2}|=
@RUN@|@FIRST@||sync:1:0 cut:1:0|5 {status:5,faults:2}|@FIRST_LINE@
@RUN@|@FIRST@||write:1:10 sync:1:0|5 {status:5,faults:2}|=
@RUN@|@FIRST@||sync:1:0 sync:2:0|5 {status:5,faults:2}|=
@RUN@|@FIRST@|||0 @COMMITTED@|@FIRST_LINE@
# at the sync of the second transaction's line: the third one is committed after a cut. Two more failures keep the line, at the third
# one's cut and at the cut at the end. If there is no third one, the cut at the end takes the line
@RUN@|[@TWO@,{statements:["SELECT * FROM t"]}]||sync:2:0|0 @CREATED@@LINE_FEED@@FAULT_AT_2@@LINE_FEED@@READ_AT_3@|#2
@RUN@|[@TWO@,{statements:["SELECT * FROM t"]}]||sync:2:0 cut:1:0 cut:2:0|5 {status:5,faults:3}|#2
@RUN@|[@TWO@]||sync:2:0|0 @CREATED@@LINE_FEED@@FAULT_AT_2@|#1
# files of other commands, and those that aren't touched
digest||@FIRST_LINE@|size:1:0|5 {status:5,faults:1}|=
prove 0 0||@FIRST_LINE@|size:1:0|5 {status:5,faults:1}|=
audit||@FIRST_LINE@|size:1:0|5 {status:5,faults:1}|=
audit||@FIRST_LINE@|read:2:0|5 {status:5,faults:1}|=
compact||@ONE_BLOCK@|size:1:0|5 {status:5,faults:1}|=
extract|5|@LINE_FEED@|size:1:0|7 {status:7,fault:{code:1,field:"count"}}|=
extract|@ONE_BUNDLE@|@ONE_BLOCK@|size:1:0|5 {status:5,faults:1}|=
stream --to 9||@ONE_BLOCK@|size:1:0|5 {status:5,faults:1}|=
replay|@FIRST_RECORD@|@LINE_FEED@|size:1:0|0|="""

# what the file holds: nothing, a line, or a line and a rest of four bytes; what fails; the transactions, of a statement each, c for
# `CREATE TABLE t` and s for `SELECT * FROM t`; how they end: the number of the block, R for refused, S with a count of the file's
# failures, F with that count where the run fails, and K where it is killed; and how many lines and further bytes the file holds, how
# many blocks an audit finds, and the number of the next transaction
RUNS = """
# each call fails in turn
nothing|write:1:0|c s s|S1 R R|0 0 0 1
nothing|write:1:9|c s s|S1 R R|0 0 0 1
nothing|sync:1:0|c s s|S1 R R|0 0 0 1
nothing|write:2:9|c s s|0 S1 1|2 0 2 4
nothing|sync:2:0|c s s|0 S1 1|2 0 2 4
nothing|write:3:9|c s s|0 1 S1|2 0 2 3
nothing|sync:3:0|c s s|0 1 S1|2 0 2 3
nothing||c s s|0 1 2|3 0 3 4
# the line of a commit behind a rest: the cut fails, undone and done, and its sync; then the line with nothing, a part and all of it,
# and its sync
rest|cut:1:0|s s|S1 1|2 0 2 4
rest|cut:1:1|s s|S1 1|2 0 2 4
rest|sync:1:0|s s|S1 1|2 0 2 4
rest|write:1:0|s s|S1 1|2 0 2 4
rest|write:1:2|s s|S1 1|2 0 2 4
rest|write:1:9999|s s|S1 1|2 0 2 4
rest|sync:2:0|s s|S1 1|2 0 2 4
# what is cut at the end, and what a stop before it leaves: the first commit fails at its line, and at its sync
nothing|write:1:0|c|S1|0 0 0 1
nothing|write:1:0 size:4:stop|c|K|0 0 0 1
nothing|sync:1:0|c|S1|0 0 0 1
nothing|sync:1:0 cut:1:stop|c|K|1 0 1 2
# the second commit fails at its sync, and the third one cuts its line
nothing|sync:2:0|c s|0 S1|1 0 1 2
nothing|sync:2:0 cut:1:stop|c s|K|2 0 2 3
# that one makes four calls, and the fourth commit fails in the next one, at its line
nothing|sync:2:0 write:4:0|c s s s|0 S1 1 S2|2 0 2 4
# the second one fails at its line
nothing|write:2:10|c s|0 S1|1 0 1 2
nothing|write:2:10 cut:1:stop|c s|K|1 10 1 2
nothing|write:2:10|c s s|0 S1 1|2 0 2 4
# the second one fails at its sync, and the third one in its cut
nothing|sync:2:0 cut:1:0|c s s|0 S1 S2|1 0 1 2
nothing|sync:2:0 cut:1:0 cut:2:stop|c s s|K|2 0 2 3
nothing|sync:2:0 cut:1:0|c s s s|0 S1 S2 1|2 0 2 5
# without a transaction a rest is cut at the end: the cut fails, undone and done, and then its sync; and with one whose commit fails so
rest|cut:1:0||F1|1 4 1 2
rest|cut:1:0|s|S1|1 0 1 2
rest|cut:1:1||F1|1 0 1 2
rest|cut:1:1|s|S1|1 0 1 2
rest|sync:1:0||F1|1 0 1 2
rest|sync:1:0|s|S1|1 0 1 2
rest||||1 0 1 2
# without a rest nothing is cut
line|cut:1:1|||1 0 1 2
# a load fails by the file's size, and by what is read
line|size:1:0||F1|1 0 1 2
line|read:1:0||F1|1 0 1 2
line|read:2:0||F1|1 0 1 2"""

STATEMENTS = {"c": '{statements:["CREATE TABLE t"]}', "s": '{statements:["SELECT * FROM t"]}'}
ENDS = re.compile(r'outcome:(\w+),tx:"\w+"(?:,(?:block|count):(\d+))?')
LETTERS = {"committed": "", "refused": "R", "store_fault": "S"}

# how many bytes of a line a write that fails leaves in the registration of a vehicle, and the calls of its four transactions
KEPT = ["0", "10", "9999"]
CALLS = ["size:1:0"] + [f"write:{number}:{kept}" for number in range(1, 5) for kept in KEPT] + [f"sync:{number}:0" for number in range(1, 5)]


class Failing(Program):
    """A program whose calls fail as `fails` tells."""

    def __init__(self, path, folder):
        super().__init__(path, folder)
        self.library, self.fails = os.path.join(folder, "fail.so"), ""
        words = ["cc", "-shared", "-fPIC", "-O2", "-o", self.library, os.path.join(HERE, "fail.c")]
        subprocess.run(words, check=True, capture_output=True)

    def run(self, journal, words, given=b"", environment=None):
        failing = {"LD_PRELOAD": self.library, "FAIL": f" {self.fails}", "FAIL_FILE": self.at(journal)} if self.fails else {}
        return super().run(journal, words, given, failing)

    def failing(self, fails, journal, words, given=b""):
        """The status and the output of a command whose calls fail so."""
        self.fails = fails
        told = self.run(journal, words, given)
        self.fails = ""
        return told


def check(holds, what):
    if not holds:
        sys.exit(f"not so: {what}")


def rows_of(text):
    return [row for row in text.strip().splitlines() if not row.startswith(("#", "let "))]


def command_rows(program, texts):
    """Commands tell what they should, and leave the file so."""
    for row in rows_of(COMMANDS):
        words, given, held, program.fails, told, left = row.split("|")
        check(commands.holds(program, texts, "|".join([words, given, held, "", told, left])), row)
    program.fails = ""


def end(status, report):
    """How the transactions of a run ended."""
    if status < 0:
        return "K"
    if status:
        return "F" + re.search(rb"faults:(\d+)", report)[1].decode()
    return " ".join(LETTERS[outcome] + number for outcome, number in ENDS.findall(report.decode()))


def number_of(id):
    """The number of a transaction by its plain id."""
    digits, number = "0123456789ABCDEFGHIJKLMNOPQRSTUVWXYZabcdefghijklmnopqrstuvwxyz", 0
    for digit in id:
        number = number * 62 + digits.index(digit)
    return number >> 24


def found(program):
    """How many lines and further bytes the file holds, how many blocks an audit finds, and the next transaction's number."""
    *lines, rest = program.left("run").split(b"\n")
    told = program.run("run", ["audit"])[1]
    _, report = program.run("run", RUN, b'[{statements:[""]}]')
    blocks = re.search(rb"blocks:(\d+)", told)[1].decode()
    number = number_of(re.search(rb'tx:"(\w+)"', report)[1].decode())
    return f"{len(lines)} {len(rest)} {blocks} {number}"


def run_rows(program, line):
    """Transactions end as they should, and leave the file so."""
    held = {"nothing": b"", "line": line, "rest": line + b"rest"}
    for row in rows_of(RUNS):
        begun, fails, told, ends, left = row.split("|")
        if os.path.exists(program.at("run")):
            os.remove(program.at("run"))
        if held[begun]:
            program.put("run", held[begun])
        script = "[%s]" % ",".join(STATEMENTS[it] for it in told.split())
        ended = end(*program.failing(fails, "run", RUN, script.encode()))
        check((ended, found(program)) == (ends, left), f"{row}: {ended}")


def registrations(program, script):
    """Whichever call of a registration fails, the file holds just the blocks that are told."""
    for call in CALLS:
        journal = call.replace(":", "-")
        status, report = program.failing(call, journal, RUN, script)
        lines = program.left(journal).splitlines()
        told = re.findall(rb'outcome:committed,tx:"(\w+)",block:(\d+)', report)
        check(len(told) == len(lines) and status in (0, 5), f"{call}: a line for each block that is told, {status}, {report}")
        check(all(int(block) == at and tx in lines[at] for at, (tx, block) in enumerate(told)), f"{call}: its transaction in each")
        check(program.run(journal, ["audit"])[1].startswith(b"{blocks:%d," % len(lines)), f"{call}: a journal of these blocks")


def main():
    if not shutil.which("cc"):
        print("skipped: files that fail, for which this machine lacks a C compiler")
        return
    texts = commands.Texts([*commands.lines_of_rows(), *COMMANDS.splitlines()])
    with tempfile.TemporaryDirectory() as folder:
        program = Failing(os.path.abspath(sys.argv[1] if len(sys.argv) > 1 else PROGRAM), folder)
        command_rows(program, texts)
        run_rows(program, texts.named["FIRST_LINE"].encode())
        registrations(program, texts.named["REGISTRATION"].encode())
    print(f"{len(rows_of(COMMANDS)) + len(rows_of(RUNS)) + len(CALLS)} rows of calls that fail: all as they should be")


main()
