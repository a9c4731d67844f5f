#!/usr/bin/env python3
"""Sets up a replicated log on this machine, and walks through what docs/distribution.md tells.

    walk.py [--install] [--program PATH] [--folder FOLDER] [--rounds N] [--seed S] [--figures BLOCKS]

Three machines are played by processes on loopback: machine 1 has the journal that runs append to, and feeds the
log; machines 2 and 3 have copies; each has a node of the log. Machine 2, whose node leads the log, is killed in
the middle, and so are the feed and a follower. Every record is put into the log once or twice, out of order. At
the end the copies must have the journal's bytes, digests, proofs and answers. --install first gets the log's
server from Debian's packages, where it isn't there; that needs root. --figures measures instead how fast so many
blocks come through the log. The status is 0 if all is as it has to be.
"""
import argparse
import os
import signal
import subprocess
import sys
import tempfile
import time
from pathlib import Path

sys.dont_write_bytecode = True
import nodes
from behind import behind
from pieces import Blocks
from streamlog import Reader, Writer

HERE = Path(__file__).resolve().parent
PROGRAM = HERE.parent.parent / "out" / "ledger"
PER_ROUND = 8  # transactions, each a block
THROUGH = 10000  # blocks that go through the log where it is measured alone
BUSY = 5
SECONDS = 400  # in which a copy must catch up
AT = ["--workers", "1", "--plain-ids", "--at", "2030-01-01T00:00:00Z"]
QUESTION = b"[{statements:[\"SELECT COUNT(*) AS n, SUM(r.amount) AS s FROM Reading AS r\",\"SELECT * FROM Reading\"]}]"


def say(*words):
    print(*words, flush=True)


class Walk:
    def __init__(self, program, folder, seed):
        self.program, self.folder, self.seed = program, folder, seed
        self.journal = folder / "ledger.journal"
        self.log = nodes.Nodes(folder)
        self.running = {}
        self.made = 0

    # -- processes

    def start(self, name, *words):
        """Starts one of the scripts, whose words go to a file of its name."""
        with open(self.folder / f"{name}.said", "ab") as said:
            how = {"stdin": subprocess.DEVNULL, "stdout": said, "stderr": said}
            self.running[name] = subprocess.Popen([sys.executable, *words], **how)

    def kill(self, name):
        process = self.running.pop(name)
        process.kill()
        process.wait()

    def feed(self):
        mixed = f"{sys.executable} {HERE / 'unruly.py'} {self.seed}"
        self.start("feed", HERE / "feed.py", "--through", mixed, self.program, self.journal, self.log.address(1))

    def follow(self, number):
        self.start(f"copy {number}", HERE / "follow.py", self.program, self.copy(number), self.log.address(number))

    def copy(self, number):
        return self.folder / f"copy{number}.journal"

    def end(self):
        for name in list(self.running):
            self.kill(name)
        self.log.kill(*list(self.log.running))

    # -- the journal

    def ledger(self, journal, *words, given=b""):
        """What the program writes; it is asked again while another process has the journal."""
        while True:
            ended = subprocess.run([self.program, journal, *words], input=given, stdout=subprocess.PIPE)
            if ended.returncode != BUSY:
                break
            time.sleep(0.05)
        if ended.returncode:
            sys.exit(f"{words[0]} ended with status {ended.returncode}: {ended.stdout[:500]!r}")
        return ended.stdout

    def run(self, journal, words, script, transactions):
        """The report of a script of which so many transactions are to be committed."""
        report = self.ledger(journal, "run", *words, given=script)
        if report.count(b"outcome:committed") != transactions:
            sys.exit(f"not all was committed: {report[:2000]!r}")
        return report

    def commit(self, rounds):
        """Commits some rounds of transactions, each a run of its own."""
        for _ in range(rounds):
            script = []
            for _ in range(PER_ROUND):
                self.made += 1
                if self.made == 1:
                    script.append('{statements:["CREATE TABLE Reading","CREATE INDEX ON Reading (number)"]}')
                elif self.made % 3:
                    script.append(f'{{statements:["INSERT INTO Reading {{\'number\': {self.made}, \'amount\': 1}}"]}}')
                else:
                    change = f"UPDATE Reading SET amount = amount + {self.made} WHERE number = {self.made - 1}"
                    script.append(f'{{statements:["{change}"]}}')
            self.run(self.journal, ["--workers", "1"], f"[{','.join(script)}]".encode(), PER_ROUND)
            time.sleep(0.3)
        say(f"{self.blocks()} blocks are committed")

    def blocks(self):
        return Blocks(self.journal).now()

    # -- what is looked at

    def until(self, holds, what):
        """Waits, and returns how many seconds that took."""
        begun = time.monotonic()
        while not holds():
            for name, process in self.running.items():
                if process.poll() is not None:
                    sys.exit(f"{name} ended: {(self.folder / f'{name}.said').read_text()[-2000:]}")
            if time.monotonic() - begun > SECONDS:
                sys.exit(f"not within {SECONDS} s: {what}")
            time.sleep(0.05)
        return time.monotonic() - begun

    def caught_up(self, number):
        """Waits until a copy has all blocks."""
        blocks, copy = self.blocks(), Blocks(self.copy(number))
        return self.until(lambda: copy.now() >= blocks, f"copy {number} has {blocks} blocks")

    def say_behind(self):
        for number in (2, 3):
            has, missing, seconds = behind(self.journal, self.copy(number))
            say(f"copy {number}: {has} blocks, behind by {missing} blocks and {seconds:.1f} s")

    def walk(self, rounds):
        begun = time.monotonic()
        self.log.start_all()
        say(f"three nodes of the log are up after {time.monotonic() - begun:.1f} s; node 2 leads")
        self.feed()
        for number in (2, 3):
            self.follow(number)
        self.commit(rounds)
        self.until(lambda: all(Blocks(self.copy(number)).now() for number in (2, 3)), "both copies have blocks")
        self.say_behind()
        self.machine_2_dies(rounds)
        self.others_die(rounds)
        self.machine_2_returns()
        self.compare()

    def machine_2_dies(self, rounds):
        self.log.kill(2)
        self.kill("copy 2")
        say("killed by SIGKILL: node 2 of the log, its sentinel, the follower of copy 2")
        begun = time.monotonic()
        self.until(self.log.leader, "another node leads")
        say(f"node {self.log.leader()} leads after {time.monotonic() - begun:.1f} s")
        self.commit(rounds)

    def others_die(self, rounds):
        for name in ("feed", "copy 3"):
            self.kill(name)
        say("killed by SIGKILL: the feed, the follower of copy 3; both are started again")
        self.feed()
        self.follow(3)
        self.commit(rounds)
        took = self.caught_up(3)
        say(f"copy 3 has all blocks {took:.1f} s later")
        self.say_behind()

    def machine_2_returns(self):
        has, begun = Blocks(self.copy(2)).now(), time.monotonic()
        self.log.start_again(2)
        self.follow(2)
        self.caught_up(2)
        took = time.monotonic() - begun
        say(f"machine 2 is back: copy 2 has caught up {self.blocks() - has} blocks {took:.1f} s after its start")
        self.log.ask(self.log.first + self.log.leader(), "DEL", "ledger")
        say("the log is deleted on all nodes; the feed finds that, and feeds all blocks anew")
        self.kill("copy 3")
        for path in (self.copy(3), Path(f"{self.copy(3)}.place")):
            path.unlink()
        self.follow(3)
        say(f"copy 3 was lost, and is made of the log alone, {self.blocks()} blocks in {self.caught_up(3):.1f} s")

    def compare(self):
        """Copies against the journal: bytes, digests, proofs, and answers of a query."""
        records = self.ledger(self.journal, "stream").count(b"\n")
        for name in ("feed", "copy 2", "copy 3"):
            self.kill(name)
        logged = self.log.ask(self.log.first + 3, "XLEN", "ledger")
        say(f"{records} records of the journal's stream stand in the log as {logged}")
        wanted = self.shown(self.journal)
        for number in (2, 3):
            for what, found in self.shown(self.copy(number)).items():
                if found != wanted[what]:
                    sys.exit(f"copy {number} has other {what} than the journal")
        if self.ledger(self.copy(3), "verify", given=wanted["proofs"][-1]) != b"{verified:true}\n":
            sys.exit("a proof isn't accepted")
        digests, proofs = len(wanted["digests"]), len(wanted["proofs"])
        say(f"copies 2 and 3 have the journal's bytes, digests at {digests} tips, {proofs} proofs and answers")

    def shown(self, journal):
        """What a journal or a copy shows: its bytes, digests, proofs of revisions, and answers."""
        blocks = self.blocks()
        tips = sorted({0, blocks // 3, blocks // 2, blocks - 1})
        return {
            "bytes": journal.read_bytes(),
            "digests": [self.ledger(journal, "digest", "--tip", str(tip)) for tip in tips],
            "proofs": [self.ledger(journal, "prove", str(at), "0") for at in range(1, blocks, blocks // 5)],
            "answers": self.answers(journal),
        }

    def answers(self, journal):
        """What a query answers, asked of a file that is thrown away, since a query that commits is a block."""
        thrown = self.folder / "asked.journal"
        thrown.write_bytes(journal.read_bytes())
        return self.run(thrown, AT, QUESTION, 1)

    # -- figures

    def figures(self, blocks):
        """Measures how fast blocks come through the log, and into a new copy."""
        self.log.start_all()
        size = ["--sessions", "10", "--transactions", str(blocks // 10)]
        self.ledger(self.journal, "make", "--seed", "1", *size)
        blocks, begun = self.blocks(), time.monotonic()
        records = self.ledger(self.journal, "stream").splitlines(True)
        self.say_figure(f"the stream of {blocks} blocks", blocks, begun)
        times = THROUGH // blocks + 1
        self.through_the_log(records * times, blocks * times)
        self.feed()
        self.follow(3)
        begun = time.monotonic()
        self.caught_up(3)
        self.say_figure("from the journal into a new copy", blocks, begun)

    def through_the_log(self, records, blocks):
        """Measures the log alone."""
        writer, begun = Writer(self.log.address(1, "figures")), time.monotonic()
        for record in records:
            writer.append(record)
        writer.flush()
        self.say_figure(f"records of {blocks} blocks, on two nodes of the log", blocks, begun)
        reader, read, begun = Reader(self.log.address(3, "figures")), 0, time.monotonic()
        while read < len(records):
            read += len(reader.records(1))
        self.say_figure("the same, read from the third node", blocks, begun)
        room = self.log.ask(self.log.first + 3, "MEMORY", "USAGE", "figures", "SAMPLES", 0)
        say(f"{sum(map(len, records))} bytes of records take {room} bytes of each node's memory")

    @staticmethod
    def say_figure(what, blocks, begun):
        took = time.monotonic() - begun
        say(f"{what}: {took:.1f} s, {blocks / took:.0f} blocks a second")


def install():
    """Gets the log's server from Debian's packages."""
    words = ["apt-get", "install", "-y", "--no-install-recommends", nodes.PACKAGE]
    subprocess.run(words, check=True, env={**os.environ, "DEBIAN_FRONTEND": "noninteractive"})


def main():
    words = argparse.ArgumentParser()
    words.add_argument("--install", action="store_true")
    words.add_argument("--program", default=PROGRAM, type=Path)
    words.add_argument("--folder", type=Path)
    words.add_argument("--rounds", default=4, type=int)
    words.add_argument("--seed", default=1, type=int)
    words.add_argument("--figures", type=int)
    words = words.parse_args()
    if not nodes.installed():
        if not words.install:
            sys.exit(f"no {nodes.PACKAGE} is installed; --install gets it from Debian's packages")
        install()
    signal.signal(signal.SIGTERM, lambda *_: sys.exit(1))  # nothing is left running then, either
    with tempfile.TemporaryDirectory(prefix="distributed-") as folder:
        walk = Walk(words.program.resolve(), (words.folder or Path(folder)).resolve(), words.seed)
        walk.folder.mkdir(exist_ok=True)
        try:
            walk.figures(words.figures) if words.figures else walk.walk(words.rounds)
        finally:
            walk.end()


if __name__ == "__main__":
    main()
