#!/usr/bin/env python3
"""Runs tools/ledgerctl on real files, with the program: runs, copies, damaged journals, published digests, and the files of
tools/systemd. What a machine lacks (gpg, openssl, git, systemd-analyze) is said to be skipped. Nothing goes over a network. Ends
with `N passed, N failed`, and with status 1 where one failed.

    tests/ledgerctl.py [PROGRAM] [TEST ..]

The program is crates/ledger/out/ledger, where `rt ci` leaves it, or another path. A TEST is a name such as Backups.test_grows.
"""
import errno
import fcntl
import http.server
import io
import json
import os
import re
import shutil
import signal
import subprocess
import sys
import tempfile
import threading
import time
import unittest
import unittest.mock
from pathlib import Path

ROOT = Path(__file__).resolve().parent.parent
sys.path.insert(0, str(ROOT / "clients" / "python"))
sys.dont_write_bytecode = True

from ledger import control  # noqa: E402

TOOL = ROOT / "tools" / "ledgerctl"
UNITS = ROOT / "tools" / "systemd"
PROGRAM = os.path.abspath(sys.argv[1] if len(sys.argv) > 1 else ROOT / "crates" / "ledger" / "out" / "ledger")
EXAMPLES = ROOT / "examples"
AT = "2020-01-01T00:00:00Z"
FIXED = ["--workers", "1", "--plain-ids", "--at", AT]
CREATE = b'[{statements:["CREATE TABLE t"]}]'
INSERT = b'[{statements:["INSERT INTO t {\'n\':1}"]}]'
NOBODY = 65534
SECONDS = 60


def left(path):
    with open(path, "rb") as file:
        return file.read()


def write(path, content):
    with open(path, "wb") as file:
        file.write(content)
    return path


def called(arguments, given):
    """How a call of the tool within this process ended. A process of its own takes far longer to start."""
    streams = sys.stdin, sys.stdout, sys.stderr
    sys.stdin, sys.stdout = (io.TextIOWrapper(io.BytesIO(content), encoding="utf-8") for content in (given, b""))
    sys.stderr = io.StringIO()
    try:
        status = control.main(arguments)
        sys.stdout.flush()
        return subprocess.CompletedProcess(arguments, status, sys.stdout.buffer.getvalue(), sys.stderr.getvalue().encode())
    finally:
        sys.stdin, sys.stdout, sys.stderr = streams


def as_nobody(arguments):
    """The status of a call of the tool by a user without rights, and what it said."""
    reads, writes = os.pipe()
    child = os.fork()
    if child == 0:
        status = 99
        try:
            if os.geteuid() == 0:
                os.setgroups([])
                os.setgid(NOBODY)
                os.setuid(NOBODY)
            ended = called(arguments, b"")
            os.write(writes, ended.stdout + ended.stderr)
            status = ended.returncode
        finally:
            os._exit(status)
    os.close(writes)
    with open(reads, encoding="utf-8") as said:
        return os.waitstatus_to_exitcode(os.waitpid(child, 0)[1]), said.read()


def has(name):
    return shutil.which(name) is not None


class WithFolder(unittest.TestCase):
    """A test with a folder of its own, and a journal of some blocks in it."""

    made = b""  # the journal, which is made once
    maxDiff = None

    def setUp(self):
        folder = tempfile.TemporaryDirectory(prefix="ctl-")
        self.addCleanup(folder.cleanup)
        self.folder = folder.name
        self.journal = self.path("journal")
        if not WithFolder.made:
            for script in [CREATE, INSERT, INSERT]:
                self.program("run", *FIXED, given=script)
            WithFolder.made = left(self.journal)
        write(self.journal, WithFolder.made)
        self.lines = WithFolder.made.splitlines(keepends=True)

    def path(self, name):
        return os.path.join(self.folder, name)

    def program(self, *words, given=b"", journal=None):
        """The output of the program, which ends with status 0."""
        return subprocess.run([PROGRAM, journal or self.journal, *words], input=given, capture_output=True, check=True, timeout=SECONDS).stdout

    def ended(self, *words, given=b"", program=PROGRAM, journal=None, timeout=5, **how):
        """How the tool ended: called here, or started as a process if the words `how` are for one."""
        arguments = ["--program", program, "--timeout", str(timeout), journal or self.journal, *words]
        if not how:
            return called(arguments, given)
        return subprocess.run([sys.executable, str(TOOL), *arguments], input=given, timeout=SECONDS, **{"capture_output": True, **how})

    def ctl(self, *words, status=0, says=(), **how):
        """What the tool writes to its output; it ends with this status, and what it says has these words."""
        ended = self.ended(*words, **how)
        out, said = (ended.stdout or b"").decode(), ended.stderr.decode()
        self.assertEqual(ended.returncode, status, f"{words}: {out}{said}")
        for part in [says] if isinstance(says, str) else says:
            self.assertIn(part, out + said)
        return out

    def wrapped(self, text):
        """The path of a program of these lines of sh, in which $PROGRAM is the program."""
        path = write(self.path("wrapped"), f'#!/bin/sh\nPROGRAM="{PROGRAM}"\n{text}\n'.encode())
        os.chmod(path, 0o755)
        return path

    def names(self):
        """The names in the folder, but for hidden ones that a test itself made."""
        return sorted(os.listdir(self.folder))


class Runs(WithFolder):
    def test_new(self):
        """A missing journal is refused unless it is said to be new, and one with blocks if it is."""
        new = self.path("new")
        for given in [None, b"", b'{blockAddress:{strandId:"0000']:
            if given is not None:
                write(new, given)
            self.ctl("run", *FIXED, given=CREATE, journal=new, status=5, says=["--new", "nothing was run"])
            self.assertEqual(left(new) if given is not None else os.path.lexists(new), given or given is not None and b"")
        self.ctl("run", "--new", *FIXED, given=CREATE, journal=new)
        self.assertEqual(left(new), self.lines[0])
        self.ctl("run", "--new", *FIXED, given=CREATE, journal=new, status=1, says=["isn't new", "1 block"])
        self.assertEqual(left(new), self.lines[0])

    def test_report(self):
        """The report is the program's own; the status is 0 only if every transaction committed."""
        new = self.path("new")
        words = ["run", "--new", *FIXED, str(EXAMPLES / "accounts.ion")]
        out = self.ctl(*words, journal=new, status=20, says=[
            "session 1 transaction 2: aborted, as its script says", "session 2 transaction 1: statement 1 was refused: there is a table accounts already",
            "4 transactions: 2 committed (blocks 0 to 1), 1 aborted, 1 refused"])
        self.assertEqual(out, (EXAMPLES / "accounts.report").read_text())
        self.assertEqual(self.ctl("run", *FIXED, given=INSERT, says="1 transaction: 1 committed (block 3)").count("\n"), 1)
        self.ctl("run", *FIXED, given=b"[]", says="0 transactions: 0 committed")
        breaks = '[{statements:[{text:"INSERT INTO t ?",params:[{a:"\u2028\x85"}]},"SELECT * FROM t"]}]'  # no ends of lines, for Ion
        self.assertIn("\u2028\x85", self.ctl("run", *FIXED, given=breaks.encode(), says="1 transaction: 1 committed (block 4)"))
        self.ctl("run", *FIXED, given=b'[{statements:["SELECT * FROM t",{text:"SELECT *\\n FORM t",params:[]}]}]', status=20,
                 says=["statement 2 was refused: no statement of the language: Unexpected, line 2 column 2\n   FORM t\n   ^\n"])

    def test_bad_input(self):
        self.ctl("run", given=b"[\n {statements:[1.5e0]}]", status=2, says=["line 2 column 15", "a float", "\n                ^\n", "nothing was run"])
        self.ctl("run", given=b"[{statements:[5]}]", status=2, says="session 1 transaction 1: a statement is a string")
        self.ctl("run", given=b"\xff", status=2, says="UTF-8")
        self.ctl("run", self.path("nothing"), status=4, says="can't be read")
        self.ctl("run", "--workers", "99", status=1, says="the words aren't a command")
        self.ctl("frobnicate", status=1, says="usage")
        self.ctl("run", program=self.path("nothing"), status=1, says="there is no program")
        self.assertEqual(left(self.journal), WithFolder.made)

    def test_rest(self):
        """A rest is warned of before the run cuts it off; a whole block without its line feed is told as one."""
        write(self.journal, WithFolder.made + b"{blockAddress")
        self.ctl("run", *FIXED, given=INSERT, says=["warning: ", "13 bytes after the last line feed", "cuts them off"])
        self.assertTrue(left(self.journal).startswith(WithFolder.made + b"{blockAddress:{"))
        write(self.journal, WithFolder.made[:-1])
        self.ctl("run", *FIXED, given=b"[]", says=["warning: ", "a whole block without its line feed"])
        write(self.journal, WithFolder.made)
        self.assertNotIn(b"warning", self.ended("run", *FIXED, given=b"[]").stderr)

    def test_lock(self):
        """Who holds the lock is named; a lock that is given back is waited for."""
        with open(self.journal, "rb") as file:
            fcntl.flock(file, fcntl.LOCK_SH)
            named = f"process {os.getpid()} " if os.path.exists("/proc/locks") else "another process"
            self.ctl("run", *FIXED, given=INSERT, timeout=0.1, status=5, says=["the journal is in use", named, "nothing was run"])
            threading.Timer(0.3, lambda: fcntl.flock(file, fcntl.LOCK_UN)).start()
            self.ctl("run", *FIXED, given=INSERT, timeout=SECONDS)

    def test_no_files(self):
        """What is no journal is refused in words, and never read."""
        pipe, link, letter = self.path("pipe"), self.path("link"), write(self.path("letter"), b"Dear Ada, how are you?")
        os.mkfifo(pipe)
        os.symlink(self.path("nothing"), link)
        rows = [(pipe, "a pipe"), (self.folder, "a folder"), (link, "a link to"), (letter, "is no journal"), ("/dev/zero", "a device"),
                (self.path("no/journal"), "there is no folder")]
        for path, words in rows:
            for command in [["run", "--new"], ["run"], ["doctor"], ["backup", self.path("copy")], ["publish", self.folder]]:
                with self.subTest(path=path, command=command):
                    self.ctl(*command, given=CREATE, journal=path, status=5, says=words)
        self.assertEqual(left(letter), b"Dear Ada, how are you?")
        self.assertFalse(os.path.lexists(self.path("nothing")) or os.path.lexists(self.path("copy")))

    def test_no_rights(self):
        os.chmod(self.folder, 0o755)
        rows = [(0o444, ["run"], "may not be written by you"), (0o000, ["run"], "may not be read by you"), (0o000, ["doctor"], "may not be read by you")]
        for mode, words, says in rows:
            os.chmod(self.journal, mode)
            status, said = as_nobody(["--program", PROGRAM, self.journal, *words])
            self.assertEqual(status, 5, said)
            self.assertIn("no rights: ", said)
            self.assertIn(says, said)
        os.chmod(self.folder, 0o555)
        status, said = as_nobody(["--program", PROGRAM, self.path("new"), "run", "--new"])
        os.chmod(self.folder, 0o755)
        self.assertEqual((status, "you may make no file" in said), (5, True), said)

    def test_limit(self):
        """A limit on the size of files: what isn't committed is told with the limit, and the status isn't 0."""
        how = f'ulimit -f {len(WithFolder.made) // 512 + 4}; exec "$@"'
        command = ["sh", "-c", how, "sh", sys.executable, str(TOOL), "--program", PROGRAM, self.journal, "run", *FIXED]
        script = b"[" + b",".join([INSERT[1:-1]] * 40) + b"]"
        ended = subprocess.run(command, input=script, capture_output=True, timeout=SECONDS)
        self.assertEqual(ended.returncode, 20, ended)
        for words in [b"the journal couldn't be written: the limit on the size of files", b"and 1", b"store_fault"]:
            self.assertIn(words, ended.stderr)
        self.assertEqual(left(self.journal).count(b"\n") - 3, ended.stdout.count(b"outcome:committed"))

    def test_full(self):
        medium = self.path("medium")
        os.mkdir(medium)
        shell = ["unshare", "-m", "sh", "-c"]
        room = "mount -t tmpfs -o size=32k none"
        if not has("unshare") or subprocess.run(shell + [f'{room} "$0"', medium], capture_output=True).returncode != 0:
            self.skipTest("this user may not mount a full medium")
        steps = f'{room} "$0" && cp "$1" "$0/journal" && shift && exec "$@"'
        script = b"[" + b",".join([b'{statements:["INSERT INTO t {\'n\':\'' + b"x" * 3000 + b"'}\"]}"] * 20) + b"]"
        command = [*shell, steps, medium, self.journal, sys.executable, str(TOOL), "--program", PROGRAM, f"{medium}/journal", "run", *FIXED]
        ended = subprocess.run(command, input=script, capture_output=True, timeout=SECONDS)
        self.assertEqual(ended.returncode, 20, ended.stderr)
        self.assertIn(b"the journal couldn't be written: the disk is full", ended.stderr)

    def test_died(self):
        """A run without a report: which signal it was, and which transactions came since."""
        dies = self.wrapped('"$PROGRAM" "$@" > /dev/null; kill -9 $$')
        two = b"[" + INSERT[1:-1] + b"," + INSERT[1:-1] + b"]"
        self.ctl("run", *FIXED, given=two, program=dies, status=128 + signal.SIGKILL,
                 says=["SIGKILL", "2 blocks came since", "block 3: session 1 transaction 1\n", "block 4: session 1 transaction 2\n"])
        self.ctl("run", *FIXED, given=two, program=self.wrapped("kill -9 $$"), status=128 + signal.SIGKILL, says="no block came since")
        self.ctl("run", *FIXED, given=b"", program=self.wrapped("echo '{status:8}'; exit 8"), status=8, says="status 8: out of memory")

    def test_lost_report(self):
        with open("/dev/full", "wb") as full:
            self.ctl("run", *FIXED, given=INSERT, status=6, says=["the report couldn't be written", "block 3: session 1 transaction 1"],
                     capture_output=False, stdout=full, stderr=subprocess.PIPE)

    def test_progress(self):
        slow = self.wrapped('sleep 1.5; exec "$PROGRAM" "$@"')
        said = self.ended("run", *FIXED, given=INSERT, program=slow).stderr.decode()
        self.assertRegex(said, r"the program runs the script: 1 s, and the journal grew by 0.0 MB\n")
        with unittest.mock.patch.dict(os.environ, LEDGER_QUIET="yes"):
            self.assertNotIn(b" s,", self.ended("run", *FIXED, given=INSERT, program=slow).stderr)


class Backups(WithFolder):
    def setUp(self):
        super().setUp()
        self.copy = self.path("copy")

    def test_grows(self):
        """A copy has the whole lines and the mode; it is replaced by one that begins with it."""
        os.chmod(self.journal, 0o640)
        write(self.journal, WithFolder.made + b"{blockAddress")
        self.ctl("backup", self.copy, says=["3 blocks and 2 revisions, audited", "warning: 13 bytes after the last line feed"])
        self.assertEqual((left(self.copy), os.stat(self.copy).st_mode & 0o777), (WithFolder.made, 0o640))
        self.program("run", *FIXED, given=INSERT)
        self.ctl("backup", self.copy, says="4 blocks")
        self.assertEqual(left(self.copy), left(self.journal))
        write(self.copy, self.lines[0] + b"{blockAddress")  # a copy that was made beside a run
        self.ctl("backup", self.copy, says="4 blocks")
        self.assertEqual(self.names(), ["copy", "journal"])

    def test_ended(self):
        """A copy that is ended by a signal leaves nothing."""
        slow = self.wrapped("exec sleep 60")
        command = [sys.executable, str(TOOL), "--program", slow, self.journal, "backup", self.copy]
        process = subprocess.Popen(command, stdin=subprocess.DEVNULL, stderr=subprocess.PIPE)
        self.assertIn(b"the program audits the copy", process.stderr.readline())
        process.send_signal(signal.SIGTERM)
        self.assertIn(b"interrupted", process.communicate(timeout=SECONDS)[1])
        self.assertEqual((process.returncode, self.names()), (128 + signal.SIGINT, ["journal", "wrapped"]))

    def test_folder(self):
        os.mkdir(self.copy)
        self.ctl("backup", self.copy)
        self.assertEqual(left(os.path.join(self.copy, "journal")), WithFolder.made)
        self.assertEqual(os.listdir(self.copy), ["journal"])

    def test_other_copy(self):
        """What isn't a front of the journal isn't written over, unless that is wanted."""
        for other in [self.lines[0] + self.lines[1].replace(b"'n':1", b"'n':2"), WithFolder.made + b"x\n", b"Dear Ada,\n", b"Dear Ada"]:
            write(self.copy, other)
            self.ctl("backup", self.copy, status=7, says=["isn't a front of the journal and is left", "--overwrite"])
            self.assertEqual(left(self.copy), other)
        self.ctl("backup", self.copy, "--overwrite")
        self.assertEqual(left(self.copy), WithFolder.made)
        for path in [self.journal, self.folder]:
            self.ctl("backup", path, status=1, says="another file")

    def test_damage(self):
        """A damaged journal isn't copied, and the copy from before is left."""
        self.ctl("backup", self.copy)
        write(self.journal, WithFolder.made.replace(b"{n:1}", b"{n:2}", 1))
        self.ctl("backup", self.copy, status=3, says=["damaged from block 1 on (line 2): WrongHash", "doctor"])
        self.assertEqual(left(self.copy), WithFolder.made)
        self.ctl("backup", self.path("no/copy"), status=6, says="there is no folder")
        self.ctl("backup", self.copy, journal=self.path("nothing"), status=5, says="no journal at")
        self.assertEqual(self.names(), ["copy", "journal"])

    def test_lock(self):
        """A copy is made beside a reader and not beside a run."""
        with open(self.journal, "rb") as file:
            fcntl.flock(file, fcntl.LOCK_SH)
            self.ctl("backup", self.copy)
            fcntl.flock(file, fcntl.LOCK_EX)
            self.ctl("backup", self.copy, timeout=0.1, status=5, says="the journal is in use")

    def test_beside_runs(self):
        """Copies that are made while blocks are appended are whole."""
        insert = b"[" + b",".join([INSERT[1:-1]] * 5) + b"]"
        ends = []

        def append():
            for _ in range(2):
                ends.append(self.ended("run", *FIXED, given=insert, timeout=SECONDS, cwd=self.folder).returncode)

        runs = threading.Thread(target=append)
        runs.start()
        while runs.is_alive():
            self.ctl("backup", self.copy, timeout=SECONDS)
        runs.join()
        self.ctl("backup", self.copy, timeout=SECONDS)
        self.assertEqual((left(self.copy), ends), (left(self.journal), [0] * 2))


class Restores(WithFolder):
    def setUp(self):
        super().setUp()
        self.copy = write(self.path("copy"), b"".join(self.lines[:2]) + b"{blockAddress")
        self.whole = b"".join(self.lines[:2])

    def test_missing(self):
        os.unlink(self.journal)
        self.ctl("restore", self.copy, says="2 blocks and 1 revision, audited")
        self.assertEqual((left(self.journal), self.names()), (self.whole, ["copy", "journal"]))

    def test_overwrite(self):
        """A file that is there is left, or kept under another name; what is lost is said."""
        self.ctl("restore", self.copy, status=1, says=["there is a file", "--overwrite"])
        self.assertEqual(left(self.journal), WithFolder.made)
        os.chmod(self.journal, 0o600)
        self.ctl("restore", self.copy, "--overwrite", says=["is kept", "1 line of the file before, from block 2 on, is lost", "say publicly"])
        kept = [name for name in self.names() if name.startswith("journal.before-")]
        self.assertEqual((left(self.journal), [left(self.path(name)) for name in kept]), (self.whole, [WithFolder.made]))
        self.assertEqual(os.stat(self.journal).st_mode & 0o777, 0o600)
        write(self.journal, self.lines[0] + b"{}\n")
        self.ctl("restore", self.copy, "--overwrite", says="from block 1 on the copy has other lines than the file before, which had 2 lines, and the copy 2")
        self.assertEqual(left(self.journal), self.whole)

    def test_without_links(self):
        """Without hard links what was there is copied, and is on the disk before the journal's name goes to another file."""
        done, calls = [], {name: getattr(os, name) for name in ("fsync", "rename", "replace")}

        def synced(handle):
            calls["fsync"](handle)
            done.append(("synced", os.fstat(handle).st_ino))

        def renamed(name):
            return lambda path, target: (calls[name](path, target), done.append(("named", os.path.basename(target))))

        patched = {"link": unittest.mock.Mock(side_effect=OSError(errno.EPERM, "no hard links")), "fsync": synced}
        os.chmod(self.journal, 0o640)
        before = os.stat(self.journal)
        with unittest.mock.patch.multiple(os, **patched, rename=renamed("rename"), replace=renamed("replace")):
            self.ctl("restore", self.copy, "--overwrite", says="is kept")
        [kept] = [name for name in self.names() if name.startswith("journal.before-")]
        found = os.stat(self.path(kept))
        self.assertEqual((left(self.path(kept)), found.st_mode, found.st_mtime_ns), (WithFolder.made, before.st_mode, before.st_mtime_ns))
        self.assertEqual((left(self.journal), self.names()), (self.whole, ["copy", "journal", kept]))
        folder, new = os.stat(self.folder).st_ino, os.stat(self.journal).st_ino
        steps = [("synced", found.st_ino), ("named", kept), ("synced", folder), ("synced", new), ("named", "journal"), ("synced", folder)]
        self.assertEqual(done[-len(steps):], steps)

    def test_link(self):
        """A link to the journal stays a link."""
        link = self.path("link")
        os.symlink(self.journal, link)
        self.ctl("restore", self.copy, "--overwrite", journal=link)
        self.assertTrue(os.path.islink(link))
        self.assertEqual(left(self.journal), self.whole)

    def test_bad_copies(self):
        for content, status, words in [(self.whole.replace(b"{n:1}", b"{n:2}", 1), 3, "WrongHash"), (b"", 7, "no block"), (b"Dear Ada", 5, "is no journal")]:
            write(self.copy, content)
            self.ctl("restore", self.copy, "--overwrite", status=status, says=words)
        self.ctl("restore", self.path("nothing"), "--overwrite", status=5, says="no journal at")
        self.ctl("restore", self.journal, "--overwrite", status=1, says="another file")
        self.assertEqual((left(self.journal), self.names()), (WithFolder.made, ["copy", "journal"]))

    def test_lock(self):
        with open(self.journal, "rb") as file:
            fcntl.flock(file, fcntl.LOCK_SH)
            self.ctl("restore", self.copy, "--overwrite", timeout=0.1, status=5, says="the journal is in use")
        self.assertEqual((left(self.journal), self.names()), (WithFolder.made, ["copy", "journal"]))

    def test_published(self):
        """A copy that hasn't what was published isn't restored."""
        folder = self.path("published")
        os.mkdir(folder)
        write(os.path.join(folder, "1.digest"), self.program("digest", "--tip", "1"))
        self.ctl("restore", self.copy, "--overwrite", "--published", folder, says="1 published digest agrees with the copy")
        write(self.journal, WithFolder.made)
        write(os.path.join(folder, "2.digest"), self.program("digest"))
        self.ctl("restore", self.copy, "--overwrite", "--published", folder, status=7, says="aren't the journal's: 2.digest")
        self.assertEqual(left(self.journal), WithFolder.made)


class Doctors(WithFolder):
    def test_vectors(self):
        """The damaged journals of docs/vectors: the line and the check are those that stand there."""
        rows = json.loads((ROOT / "docs" / "vectors" / "journals.json").read_text())
        whole = {row["name"]: row["lines"] for row in rows["whole"]}
        kinds = {}
        for row in rows["damaged"]:
            kinds.setdefault(row["kind"], row)
        self.assertEqual(len(kinds), 8)
        for row in kinds.values():
            lines = whole[row["journal"]][:row["keep"]] + row["then"]
            write(self.journal, "".join(line + "\n" for line in lines).encode())
            with self.subTest(row["name"]):
                out = self.ctl("doctor", status=3, says=f"DAMAGED: block {row['sequence']} (line {row['sequence'] + 1}, ")
                self.assertIn(f"fails {row['kind']}: ", out)
                self.assertIn(f"\n> line {row['sequence'] + 1}, ", out)
                self.assertIn("why, by this tool's own check: ", out)

    def test_lines(self):
        damaged = self.lines[0] + self.lines[1].replace(b"{n:1}", b"{n:2}", 1) + self.lines[2]
        write(self.journal, damaged)
        before = os.stat(self.journal)
        out = self.ctl("doctor", status=3)
        self.assertIn(f"block 1 (line 2, from byte {len(self.lines[0]):,} on) fails WrongHash", out)
        self.assertEqual(re.findall(r"^([ >]) line (\d), ([\d,]+) bytes: (.{40})", out, re.M), [
            (mark, str(number), f"{len(line):,}", line[:40].decode()) for mark, number, line in zip(" > ", [1, 2, 3], damaged.splitlines(keepends=True))])
        self.assertEqual(len(re.findall(r"^[ >] line", self.ctl("doctor", "--around", "0", status=3), re.M)), 1)
        self.assertEqual((left(self.journal), os.stat(self.journal).st_mtime_ns), (damaged, before.st_mtime_ns))

    def test_zeros(self):
        """What a file system may leave after a loss of power."""
        write(self.journal, self.lines[0] + bytes(40) + b"\n")
        self.ctl("doctor", status=3, says=["block 1", "NotALine", "40 zero bytes", "The 1 line before it is sound"])

    def test_sound(self):
        self.ctl("doctor", says=["by the program: 3 blocks and 2 revisions, undamaged", f"{len(WithFolder.made):,} bytes"])
        write(self.journal, WithFolder.made[:-1])
        self.ctl("doctor", says=["rest: ", "a whole block without its line feed", "2 blocks and 1 revision, undamaged"])
        self.ctl("doctor", journal=self.path("nothing"), status=5, says="no journal at")

    def test_without_the_program(self):
        self.ctl("doctor", program=self.path("nothing"), says=["there is no program", "own check, which isn't proved: 3 blocks and 2 revisions, undamaged"])
        with open(self.journal, "rb") as file:
            fcntl.flock(file, fcntl.LOCK_EX)
            self.ctl("doctor", timeout=0.1, says=["the lock is held by", "own check"])
        write(self.journal, WithFolder.made.replace(b"{n:1}", b"{n:2}", 1))
        self.ctl("doctor", program=self.path("nothing"), status=3, says="fails WrongHash")
        otherwise = self.wrapped("echo '{status:3,fault:{sequence:0,kind:NotALine}}'; exit 3")
        self.ctl("doctor", program=otherwise, status=3, says=["block 0", "finds otherwise: line 1: WrongHash"])


class Publications(WithFolder):
    def setUp(self):
        super().setUp()
        self.published = self.path("published")
        os.mkdir(self.published)

    def publish(self, day, *words, **how):
        return self.ctl("publish", self.published, "--day", day, *words, **how)

    def digests(self):
        return sorted(os.listdir(self.published))

    def test_days(self):
        """The program's own line, a file a day; what was published is never written over."""
        first = self.program("digest")
        self.publish("2020-01-01", says=["tip 2: written to", "2020-01-01.digest"])
        self.publish("2020-01-01", says="has it already")
        self.publish("2020-01-02", says="1 earlier digest agrees with the journal")
        self.program("run", *FIXED, given=INSERT)
        self.publish("2020-01-02", says=["2 earlier digests agree with the journal", "tip 3: written to", "2020-01-02.2.digest"])
        self.assertEqual(self.digests(), ["2020-01-01.digest", "2020-01-02.2.digest", "2020-01-02.digest"])
        found = [left(os.path.join(self.published, name)) for name in self.digests()]
        self.assertEqual(found, [first, self.program("digest"), first])
        self.ctl("publish", self.published, says="3 earlier digests agree")
        self.assertIn(time.strftime("%Y-%m-%d", time.gmtime()) + ".digest", self.digests())

    def test_another_journal(self):
        """If an earlier digest isn't the journal's, nothing is published."""
        self.publish("2020-01-01")
        write(self.journal, b"".join(self.lines[:2]))
        self.publish("2020-01-02", status=7, says=["aren't the journal's: 2020-01-01.digest", "nothing was done"])
        other = self.path("other")
        self.program("run", "--workers", "1", "--seed", "5", given=CREATE, journal=other)
        self.publish("2020-01-02", journal=other, status=7)
        write(self.journal, WithFolder.made)
        name = os.path.join(self.published, "2020-01-01.digest")
        write(name, left(name).replace(b"sequenceNo:2", b"sequenceNo:1"))
        self.publish("2020-01-02", status=7)
        write(name, b"Dear Ada")
        self.publish("2020-01-02", status=2, says="2020-01-01.digest")
        self.assertEqual(self.digests(), ["2020-01-01.digest"])

    def test_refused(self):
        empty = write(self.path("empty"), b"")
        self.publish("2020-01-01", journal=empty, status=2, says="no such block")
        self.publish("2020-01-32", status=1, says="no date")
        self.publish("2020-01-01", "--push", status=1, says="--push wants --git")
        self.publish("2020-01-01", "--stamp", "false", status=1, says="--stamp-ca")
        self.ctl("publish", self.path("nothing"), status=6, says="there is no folder")
        self.publish("2020-01-01", journal=self.path("nothing"), status=5, says="no journal at")
        write(self.journal, WithFolder.made.replace(b"{n:1}", b"{n:2}", 1))
        self.publish("2020-01-01", status=3, says="WrongHash")
        self.assertEqual(self.digests(), [])

    @unittest.skipUnless(has("git"), "there is no git")
    def test_git(self):
        def git(*words, cwd=self.published):
            return subprocess.run(["git", *words], cwd=cwd, env=environment, capture_output=True, check=True, text=True).stdout

        environment = {**os.environ, "HOME": self.folder, "GIT_CONFIG_NOSYSTEM": "1", "GIT_CEILING_DIRECTORIES": self.folder}
        for who in ["AUTHOR", "COMMITTER"]:
            environment[f"GIT_{who}_NAME"], environment[f"GIT_{who}_EMAIL"] = "operator", "operator@example.org"
        self.publish("2020-01-01", "--git", status=6, says="git -C", env=environment)
        self.assertEqual(self.digests(), [])
        git("init", "--quiet")
        write(os.path.join(self.published, "note"), b"not the tool's\n")
        self.publish("2020-01-01", "--git", says="committed to git", env=environment)
        self.publish("2020-01-01", "--git", says="committed to git already", env=environment)
        self.assertEqual(git("log", "--format=%s").splitlines(), ["digest of 2020-01-01, tip 2"])
        self.assertEqual(git("ls-files").split(), ["2020-01-01.digest"])
        self.publish("2020-01-02", says="written", env=environment)  # as if git had failed
        self.publish("2020-01-02", "--git", says=["has it already", "committed to git"], env=environment)
        git("init", "--quiet", "--bare", self.path("elsewhere"))
        git("remote", "add", "origin", self.path("elsewhere"))
        git("config", "push.default", "current")
        self.publish("2020-01-03", "--git", "--push", says=["committed to git", "pushed"], env=environment)
        self.assertEqual(git("log", "--all", "--format=%s", cwd=self.path("elsewhere")).count("\n"), 3)
        os.unlink(os.path.join(self.published, "2020-01-02.digest"))
        self.publish("2020-01-04", "--git", status=7, says="2020-01-02.digest: changed or removed", env=environment)

    @unittest.skipUnless(has("gpg"), "there is no gpg")
    def test_gpg(self):
        home = tempfile.mkdtemp(prefix="gpg-")  # a short path, since a socket stands in it
        environment = {**os.environ, "GNUPGHOME": home}
        self.addCleanup(shutil.rmtree, home, True)
        self.addCleanup(subprocess.run, ["gpgconf", "--kill", "all"], env=environment, capture_output=True)
        make = ["gpg", "--batch", "--quiet", "--passphrase", "", "--quick-gen-key", "operator@example.org", "ed25519", "sign", "1d"]
        if subprocess.run(make, env=environment, capture_output=True, timeout=SECONDS).returncode != 0:
            self.skipTest("gpg makes no key here")
        self.publish("2020-01-01", "--sign", "nobody@example.org", status=6, says="gpg", env=environment)
        self.assertEqual(self.digests(), ["2020-01-01.digest"])
        self.publish("2020-01-01", "--sign", "operator@example.org", says=["has it already", "signed by"], env=environment)
        self.publish("2020-01-01", "--sign", "operator@example.org", says="signed by operator@example.org already", env=environment)
        name = os.path.join(self.published, "2020-01-01.digest")
        verify = ["gpg", "--batch", "--verify", name + ".asc", name]
        self.assertEqual(subprocess.run(verify, env=environment, capture_output=True).returncode, 0)
        write(name, left(name) + b"\n")
        self.assertNotEqual(subprocess.run(verify, env=environment, capture_output=True).returncode, 0)

    @unittest.skipUnless(has("openssl"), "there is no openssl")
    def test_stamp(self):
        """Time stamps of an authority of the test's own, by a command and by HTTP on this machine."""
        authority = self.authority()
        ca = self.path("ca.pem")
        words = ["--stamp", authority, "--stamp-ca", ca]
        self.publish("2020-01-01", "--stamp", "false", "--stamp-ca", ca, status=6, says="failed with status 1")
        self.publish("2020-01-01", "--stamp", "echo no reply", "--stamp-ca", ca, status=6, says="openssl ts")
        self.assertEqual(self.digests(), ["2020-01-01.digest"])
        self.publish("2020-01-01", *words, says="stamped by")
        self.publish("2020-01-01", *words, says="already")
        self.assertEqual(self.digests(), ["2020-01-01.digest", "2020-01-01.digest.tsr"])
        name = os.path.join(self.published, "2020-01-01.digest")
        verify = ["openssl", "ts", "-verify", "-data", name, "-in", name + ".tsr", "-CAfile", ca]
        self.assertEqual(subprocess.run(verify, capture_output=True).returncode, 0)
        self.stamp_by_http(authority, ca)

    def stamp_by_http(self, authority, ca):
        class Handler(http.server.BaseHTTPRequestHandler):
            def do_POST(handler):
                request = handler.rfile.read(int(handler.headers["Content-Length"]))
                is_query = handler.headers["Content-Type"] == "application/timestamp-query"
                handler.send_response(200 if is_query else 400)
                handler.end_headers()
                handler.wfile.write(subprocess.run(["sh", "-c", authority], input=request, capture_output=True).stdout)

            def log_message(handler, *_):
                pass

        try:
            server = http.server.HTTPServer(("127.0.0.1", 0), Handler)
        except OSError as error:
            self.skipTest(f"no server on this machine: {error}")
        threading.Thread(target=server.serve_forever, daemon=True).start()
        environment = {name: value for name, value in os.environ.items() if "proxy" not in name.lower()}
        where = f"http://127.0.0.1:{server.server_port}/"
        self.publish("2020-01-02", "--stamp", where, "--stamp-ca", ca, says="stamped by http", env=environment)
        server.shutdown()
        server.server_close()
        self.publish("2020-01-03", "--stamp", where, "--stamp-ca", ca, status=6, says="no time stamp of http", env=environment)

    def authority(self):
        """A command that is a time stamp authority."""
        config = write(self.path("ts.cnf"), f"""
[req]
distinguished_name = name
prompt = no
[name]
CN = authority of a test
[tsa]
basicConstraints = CA:FALSE
keyUsage = critical, digitalSignature
extendedKeyUsage = critical, timeStamping
[ts]
serial = {self.path("serial")}
signer_digest = sha256
default_policy = 1.2.3.4
digests = sha256
ess_cert_id_alg = sha256
""".encode())
        write(self.path("serial"), b"01\n")
        new = ["req", "-x509", "-newkey", "rsa:2048", "-nodes", "-days", "2", "-config", config, "-subj", "/CN=root of a test"]
        request = ["req", "-new", "-newkey", "rsa:2048", "-nodes", "-config", config, "-keyout", self.path("tsa.key"), "-out", self.path("tsa.csr")]
        signed = ["x509", "-req", "-in", self.path("tsa.csr"), "-CA", self.path("ca.pem"), "-CAkey", self.path("ca.key"), "-CAcreateserial",
                  "-days", "2", "-extfile", config, "-extensions", "tsa", "-out", self.path("tsa.pem")]
        for words in [[*new, "-keyout", self.path("ca.key"), "-out", self.path("ca.pem")], request, signed]:
            ended = subprocess.run(["openssl", *words], capture_output=True, timeout=SECONDS)
            if ended.returncode != 0:
                self.skipTest(f"openssl makes no authority here: {ended.stderr[-200:]!r}")
        reply = f'openssl ts -reply -config {config} -section ts -signer {self.path("tsa.pem")} -inkey {self.path("tsa.key")}'
        return f'cat > {self.path("request")}; {reply} -queryfile {self.path("request")} -out {self.path("reply")} && cat {self.path("reply")}'


class Units(WithFolder):
    """The service and the timer of tools/systemd."""

    def service(self, tool):
        return (UNITS / "ledger-daily@.service").read_text().replace("/usr/bin/ledgerctl", str(tool))

    def test_commands(self):
        """The service's commands, with the variables of its configuration, as systemd runs them: one after the other."""
        names = {line.split("=")[0]: line.split("=", 1)[1] for line in (UNITS / "example.conf").read_text().splitlines() if "=" in line and line[0] != "#"}
        copy, published = self.path("copy"), self.path("published")
        os.mkdir(published)
        given = {"LEDGER": PROGRAM, "JOURNAL": self.journal, "COPY": copy, "PUBLISHED": published, "PUBLISH_OPTIONS": "--day 2020-01-01"}
        self.assertEqual(sorted(names), sorted(given))
        commands = re.findall(r"^ExecStart=(.*)$", self.service(TOOL), re.M)
        self.assertEqual(len(commands), 2)
        for command in commands:
            subprocess.run(["sh", "-e", "-c", command], env={**os.environ, **given}, check=True, capture_output=True, timeout=SECONDS)
        self.assertEqual((left(copy), left(os.path.join(published, "2020-01-01.digest"))), (WithFolder.made, self.program("digest")))

    @unittest.skipUnless(has("systemd-analyze"), "there is no systemd-analyze")
    def test_units(self):
        units = [self.path("ledger-daily@.service"), self.path("ledger-daily@.timer")]
        write(units[0], self.service(TOOL).encode())
        shutil.copy(UNITS / "ledger-daily@.timer", units[1])
        ended = subprocess.run(["systemd-analyze", "verify", "--man=no", *units], capture_output=True, text=True, timeout=SECONDS)
        if ended.returncode != 0 and "ledger-daily" not in ended.stderr:
            self.skipTest(f"systemd-analyze doesn't work here: {ended.stderr.strip()[-200:]}")
        self.assertEqual((ended.returncode, [line for line in ended.stderr.splitlines() if "ledger-daily" in line]), (0, []))


def main():
    if not os.access(PROGRAM, os.X_OK):
        sys.exit(f"there is no program {PROGRAM}")
    os.environ.update(LC_ALL="C.UTF-8", PYTHONDONTWRITEBYTECODE="1")
    loader = unittest.TestLoader()
    found = loader.loadTestsFromNames(sys.argv[2:], sys.modules["__main__"]) if sys.argv[2:] else loader.loadTestsFromModule(sys.modules["__main__"])
    result = unittest.TextTestRunner(verbosity=1).run(found)
    for test, why in result.skipped:
        print(f"skipped: {test.id().split('.', 1)[1]}: {why}")
    failed = len({test.id().split(" ")[0] for test, _ in result.failures + result.errors})
    print(f"{result.testsRun - failed - len(result.skipped)} passed, {failed} failed")
    sys.exit(1 if failed else 0)


main()
