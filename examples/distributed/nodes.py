"""Three nodes of Redis on loopback, each with its sentinel, in folders of their own, as the user who starts them.

Node 2 leads at first. Two sentinels together find that the leading node is gone, and let the replica lead that has
more. Debian's package starts a node of its own at port 6379; it is left alone.
"""
import os
import shutil
import socket
import subprocess
import time
from pathlib import Path

from streamlog import Connection, Gone

PACKAGE = "redis-server"
SECONDS = 60  # in which a node must be up

# a node answers after its file is written; it takes records only while a second node is there
NODE = """bind 127.0.0.1
port {port}
dir {home}
daemonize no
save ""
appendonly yes
appendfsync always
min-replicas-to-write 1
min-replicas-max-lag 10
repl-diskless-sync-delay 0
"""

SENTINEL = """bind 127.0.0.1
port {port}
dir {home}
sentinel monitor ledger 127.0.0.1 {leader} 2
sentinel down-after-milliseconds ledger 3000
sentinel failover-timeout ledger 10000
"""


def installed():
    return shutil.which("redis-server") is not None


def answers(port):
    """Whether something listens at a port."""
    try:
        socket.create_connection(("127.0.0.1", port), 1).close()
        return True
    except OSError:
        return False


def free_ports():
    """The number before six free ports: of the nodes 1 to 3, and ten above of their sentinels."""
    for first in range(6390 + os.getpid() % 1000 * 20, 32000, 20):
        if not any(answers(first + more + number) for more in (0, 10) for number in (1, 2, 3)):
            return first
    raise RuntimeError("no free ports")


class Nodes:
    """The nodes 1 to 3."""

    def __init__(self, folder):
        self.folder, self.first, self.running = Path(folder).resolve(), free_ports(), {}

    def address(self, first, stream="ledger"):
        """The log's address, for one who asks the node of a number first."""
        ports = [self.first + (first + more - 1) % 3 + 1 for more in range(3)]
        return ",".join(f"127.0.0.1:{port}" for port in ports) + "/" + stream

    def start_all(self):
        """Starts all three, and returns when node 2 leads the others and each sentinel knows all."""
        for number in (1, 2, 3):
            home = self.folder / f"log{number}"
            home.mkdir(parents=True)
            port, leader = self.first + number, self.first + 2
            (home / "node.conf").write_text(NODE.format(port=port, home=home))
            (home / "sentinel.conf").write_text(SENTINEL.format(port=port + 10, home=home, leader=leader))
            self.start(number, "node.conf", *(["--replicaof", "127.0.0.1", str(leader)] if number != 2 else []))
        self.until(lambda: len(self.ask(self.first + 2, "ROLE")[2]) == 2, "node 2 leads two others")
        for number in (1, 2, 3):
            self.start(number, "sentinel.conf", "--sentinel")
        self.until(lambda: all(self.knows(number) for number in (1, 2, 3)), "the sentinels know all nodes")

    def start_again(self, number):
        """Starts a node that was killed, as a replica of the one that leads now, and its sentinel."""
        self.start(number, "node.conf", "--replicaof", "127.0.0.1", str(self.first + self.leader()))
        self.start(number, "sentinel.conf", "--sentinel")

    def start(self, number, settings, *more):
        """Starts one process, and returns when it takes connections."""
        home = self.folder / f"log{number}"
        with open(home / "said", "ab") as said:
            how = {"stdin": subprocess.DEVNULL, "stdout": said, "stderr": said}
            process = subprocess.Popen(["redis-server", home / settings, *more], **how)
        self.running.setdefault(number, []).append(process)
        port = self.first + number + (10 if settings == "sentinel.conf" else 0)
        self.until(lambda: answers(port), f"something listens at port {port}")

    def until(self, holds, what):
        """Waits until something holds."""
        deadline = time.monotonic() + SECONDS
        while True:
            try:
                if holds():
                    return
            except Gone:
                pass
            if time.monotonic() > deadline:
                raise RuntimeError(f"not within {SECONDS} s: {what}; see the files `said` in {self.folder}")
            time.sleep(0.1)

    @staticmethod
    def ask(port, *words):
        """What the process at a port answers."""
        connection = Connection(("127.0.0.1", port))
        try:
            return connection.ask(*words)
        finally:
            connection.close()

    def knows(self, number):
        """Whether a sentinel knows both replicas and both other sentinels."""
        told = self.ask(self.first + number + 10, "SENTINEL", "MASTER", "ledger")
        told = dict(zip(told[::2], told[1::2]))
        return told[b"num-slaves"] == b"2" and told[b"num-other-sentinels"] == b"2"

    def leader(self):
        """The number of the node that leads the log, or None."""
        for number in self.running:
            try:
                if self.ask(self.first + number, "ROLE")[0] == b"master":
                    return number
            except Gone:
                pass
        return None

    def kill(self, *numbers):
        """Kills nodes and their sentinels at once, by SIGKILL."""
        for number in numbers:
            for process in self.running[number]:
                process.kill()
            for process in self.running.pop(number):
                process.wait()
