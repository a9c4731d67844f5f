#!/usr/bin/env python3
"""Runs the program on what may stand at a journal's path beside a journal that one may write: something that is no regular file, a
link to nothing, a file that one may only read, a file that other programs lock or change. Ends with status 1 where something isn't
as it should be; what a machine does not allow is said to be skipped.

    tests/journal_files.py [PROGRAM]

The program is crates/ledger/out/ledger, where `rt ci` leaves it, or another path.
"""
import fcntl
import os
import shutil
import signal
import socket
import subprocess
import sys
import tempfile
import time

HERE = os.path.dirname(os.path.abspath(__file__))
PROGRAM = os.path.join(os.path.dirname(HERE), "crates", "ledger", "out", "ledger")
RUN = ["run", "--workers", "1", "--plain-ids", "--at", "2020-01-01T00:00:00.000Z"]
MAKE = ["make", "--seed", "1", "--sessions", "1", "--transactions", "1"]
CREATE = b'[{statements:["CREATE TABLE t"]}]'
INSERT = b'{statements:["INSERT INTO t {\'n\':1}"]}'
FAULT = b"{status:5,faults:1}\n"
READING = [["audit"], ["digest"], ["compact"], ["export"], ["stream"], ["prove", "0", "0"]]
NOBODY = 65534

# a bundle of no journal
ADDRESS = b'{strandId:"0000000000000000000000",sequenceNo:0}'
HASH = b"{{AAAAAAAAAAAAAAAAAAAAAAAAAAAAAAAAAAAAAAAAAAA=}}"
ID, TIME = b'"0000000000000000018OWG"', b"2020-01-01T00:00:00.000Z"
BUNDLE = b"{digest:%s,digestTipAddress:%s}" % (HASH, ADDRESS)
BUNDLE += b"{blockAddress:%s,hash:%s,metadata:{id:%s,version:0,txTime:%s,txId:%s}}" % (ADDRESS, HASH, ID, TIME, ID)
BUNDLE += b"{header:{blockAddress:%s,transactionId:%s,blockTimestamp:%s,revisionCount:1},index:0,path:[]}" % (ADDRESS, ID, TIME)
NOT_PUBLISHED = b"{status:7,fault:{kind:NotPublished}}\n"


def check(holds, what):
    if not holds:
        sys.exit(f"not so: {what}")


def run(program, words, script=b"", **more):
    """The status of a run, which must end within half a minute, and its output."""
    try:
        ended = subprocess.run([program] + words, input=script, capture_output=True, timeout=30, **more)
    except subprocess.TimeoutExpired:
        sys.exit(f"not so: {words} ends")
    return ended.returncode, ended.stdout


def left(path):
    with open(path, "rb") as file:
        return file.read()


def refuse(program, path, what):
    """Each command refuses what stands at the path."""
    for words in READING + [MAKE]:
        check(run(program, [path] + words) == (5, FAULT), f"{words} on {what}: status 5")
    check(run(program, [path] + RUN, CREATE) == (5, FAULT), f"a run on {what}: status 5")


def no_files(program, folder):
    """What is no regular file is never read, and a link to nothing is refused by each command."""
    pipe, server = os.path.join(folder, "pipe"), os.path.join(folder, "socket")
    os.mkfifo(pipe)
    with socket.socket(socket.AF_UNIX) as bound:
        bound.bind(server)
        for path in [pipe, server, "/dev/zero", "/dev/full", "/dev/null", folder]:
            refuse(program, path, path)
    dangling, target = os.path.join(folder, "dangling"), os.path.join(folder, "nothing")
    os.symlink(target, dangling)
    refuse(program, dangling, "a link to nothing")
    check(not os.path.lexists(target), "the link's file isn't made")
    missing = os.path.join(folder, "missing")
    check(run(program, [missing, "audit"]) == (0, b"{blocks:0,revisions:0}\n"), "a missing file is an empty journal")
    check(not os.path.lexists(missing), "a command that only reads makes no file")


def links(program, folder, journal):
    """A link to a journal is the journal."""
    link = os.path.join(folder, "link")
    os.symlink(journal, link)
    check(run(program, [link, "audit"]) == run(program, [journal, "audit"]), "a link to a journal is read")


def locked(program, journal):
    """Commands that only read share the journal, and those that change it have it alone."""
    whole = left(journal)
    with open(journal, "rb") as file:
        fcntl.flock(file, fcntl.LOCK_SH)
        for words in READING[:4]:
            check(run(program, [journal] + words)[0] == 0, f"{words} beside another reader")
        check(run(program, [journal, "extract"], BUNDLE) == (7, NOT_PUBLISHED), "extract beside another reader")
        check(run(program, [journal] + RUN, CREATE) == (5, FAULT), "a run beside a reader")
        check(run(program, [journal] + MAKE) == (5, FAULT), "a make beside a reader")
        fcntl.flock(file, fcntl.LOCK_EX)
        for words in READING:
            check(run(program, [journal] + words) == (5, FAULT), f"{words} beside a run")
        check(run(program, [journal, "extract"], BUNDLE) == (5, FAULT), "extract beside a run")
    check(left(journal) == whole, "the journal is left")


def read_only(program, folder, journal):
    """A journal that one may only read is read, and a run on it fails and leaves it."""
    if os.geteuid() != 0:
        person = {}
    else:
        person = {"user": NOBODY, "group": NOBODY, "extra_groups": []}
    ends = [run(program, [journal] + words) for words in READING[:4]]
    whole = left(journal)
    os.chmod(journal, 0o444)
    for words, end in zip(READING, ends):
        check(run(program, [journal] + words, **person) == end, f"{words} on a file that one may only read")
    check(run(program, [journal, "extract"], BUNDLE, **person) == (7, NOT_PUBLISHED), "extract on a file that one may only read")
    check(run(program, [journal] + RUN, CREATE, **person) == (5, FAULT), "a run on a file that one may only read")
    os.chmod(journal, 0o644)
    check(left(journal) == whole, "the journal is left")
    searched = os.path.join(folder, "searched")
    os.mkdir(searched)
    if person:
        os.chown(searched, NOBODY, NOBODY)
    os.chmod(searched, 0o311)
    path = os.path.join(searched, "journal")
    for outcome in [b"outcome:committed", b"outcome:refused"]:
        status, output = run(program, [path] + RUN, CREATE, **person)
        check(status == 0 and outcome in output, f"a run in a folder that is only searched: {status}, {output!r}")
    os.chmod(searched, 0o755)
    check(left(path).count(b"\n") == 1, "one block stands")


def read_only_medium(program, folder, journal):
    """A journal on a medium that is only read."""
    end = run(program, [journal, "audit"])
    script = f'mount --bind "{folder}" "{folder}" && mount -o remount,ro,bind "{folder}" && exec "$@"'
    shell = ["unshare", "-m", "sh", "-c", script, "sh"]
    if not shutil.which("unshare") or subprocess.run(shell + ["true"], capture_output=True).returncode != 0:
        print("skipped: a medium that is only read, which this user may not mount")
        return
    check(run(shell[0], shell[1:] + [program, journal, "audit"]) == end, "an audit on a medium that is only read")
    check(run(shell[0], shell[1:] + [program, journal] + RUN, CREATE) == (5, FAULT), "a run on a medium that is only read")


def changed(program, folder):
    """Another program changes the file in the middle of a run: no later transaction is told as committed."""
    count = 500
    script = b"[" + CREATE[1:-1] + b"," + b",".join([INSERT] * count) + b"]"
    for what, change in [("cut", cut), ("appended to", append), ("replaced", replace), ("removed", os.remove)]:
        path = os.path.join(folder, "changed")
        process = subprocess.Popen([program, path] + RUN, stdin=subprocess.PIPE, stdout=subprocess.PIPE)
        process.stdin.write(script)
        process.stdin.close()
        while not os.path.exists(path) or os.path.getsize(path) < 3000:
            time.sleep(0.001)
            check(process.poll() is None, "the run goes on")
        process.send_signal(signal.SIGSTOP)
        time.sleep(0.05)
        stood = left(path).count(b"\n")
        check(stood < count, "the run is stopped in its middle")
        change(path)
        process.send_signal(signal.SIGCONT)
        output = process.stdout.read()
        check(process.wait(30) in (0, 5), f"a file that is {what} in a run: status 0 or 5")
        told = output.count(b"outcome:committed")
        check(told <= stood + 1, f"a file that is {what} in a run: {stood} blocks stood, {told} are told as committed")
        check(b"outcome:store_fault" in output or b"{status:5," in output, f"{what}: the fault is told")
        if os.path.exists(path):
            os.remove(path)


def cut(path):
    os.truncate(path, 0)


def append(path):
    with open(path, "ab") as file:
        file.write(b"x")


def replace(path):
    with open(path + ".new", "wb") as file:
        file.write(b"")
    os.replace(path + ".new", path)


def main():
    program = os.path.abspath(sys.argv[1] if len(sys.argv) > 1 else PROGRAM)
    with tempfile.TemporaryDirectory() as folder:
        os.chmod(folder, 0o755)
        copy = os.path.join(folder, "ledger")
        shutil.copy(program, copy)
        os.chmod(copy, 0o755)
        journal = os.path.join(folder, "journal")
        no_files(copy, folder)
        check(run(copy, [journal] + RUN, CREATE)[0] == 0, "one block is committed")
        links(copy, folder, journal)
        locked(copy, journal)
        read_only(copy, folder, journal)
        read_only_medium(copy, folder, journal)
        changed(copy, folder)
    print("files that are no journals, that one may only read, that others lock or change: all as they should be")


main()
