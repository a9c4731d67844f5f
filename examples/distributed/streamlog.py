"""A log on three nodes: a Redis stream with two replicas, spoken to by sockets, in Redis' own protocol.

A log is named by a text: HOST:PORT of each node, the one to ask first before the others, and the stream's name, as
in `127.0.0.1:6391,127.0.0.1:6392,127.0.0.1:6393/ledger`. `Writer.flush` returns when two of the three nodes have
all that was appended. If a node is gone, the next one is asked; a writer then sends again what it doesn't know to
be on two nodes, so a record may stand in the log twice.
"""
import socket
import time

BATCH = 500  # records that are sent at once
PATIENCE = 120  # seconds in which some node must do what it is asked
ANSWER = 20  # seconds in which a node must answer
WAIT = 5  # seconds in which a second node must have what was sent


class Gone(Exception):
    """The node can't be reached, or doesn't do what it is asked."""


class Connection:
    """A connection to one node."""

    def __init__(self, node):
        try:
            self.socket = socket.create_connection(node, ANSWER)
        except OSError as error:
            raise Gone(f"{node[0]}:{node[1]}: {error}") from error
        self.socket.setsockopt(socket.IPPROTO_TCP, socket.TCP_NODELAY, 1)
        self.file = self.socket.makefile("rb", 1 << 18)

    def close(self):
        self.file.close()
        self.socket.close()

    def send(self, *commands):
        """Sends commands, each a list of words, at once."""
        made = []
        for words in commands:
            made.append(b"*%d\r\n" % len(words))
            for word in words:
                word = word if isinstance(word, bytes) else str(word).encode()
                made += [b"$%d\r\n" % len(word), word, b"\r\n"]
        try:
            self.socket.sendall(b"".join(made))
        except OSError as error:
            raise Gone(str(error)) from error

    def answer(self):
        """The next answer: bytes, an int, None or a list of these."""
        try:
            line = self.file.readline()
            kind, rest = line[:1], line[1:-2]
            if not line.endswith(b"\r\n"):
                raise Gone("the node closed the connection")
            if kind == b"-":
                raise Gone(rest.decode(errors="replace"))
            if kind in (b"+", b":"):
                return int(rest) if kind == b":" else rest
            size = int(rest)
            if size < 0:
                return None
            if kind == b"*":
                return [self.answer() for _ in range(size)]
            found = self.file.read(size + 2)
        except OSError as error:
            raise Gone(str(error)) from error
        if len(found) != size + 2:
            raise Gone("the node closed the connection")
        return found[:-2]

    def ask(self, *words):
        self.send(words)
        return self.answer()


class Client:
    """What writers and readers share: a connection to the first node that will do."""

    def __init__(self, address):
        nodes, _, self.stream = address.partition("/")
        self.nodes = [(node.rpartition(":")[0], int(node.rpartition(":")[2])) for node in nodes.split(",")]
        self.connection, self.turn = None, 0

    def suits(self):
        """Whether the node that is connected is one to go on with."""
        return True

    def connect(self):
        """Connects to the node whose turn it is, or to the next one that suits."""
        deadline = time.monotonic() + PATIENCE
        why = "no node leads the log"
        while time.monotonic() < deadline:
            self.close()
            try:
                self.connection = Connection(self.nodes[self.turn % len(self.nodes)])
                if self.suits():
                    return
            except Gone as gone:
                why = gone
            self.turn += 1
            time.sleep(0.3 if self.turn % len(self.nodes) == 0 else 0)
        raise Gone(f"no node will do: {why}")

    def patiently(self, step):
        """What a step answers; where it fails, it is tried again, on the next node."""
        deadline = time.monotonic() + PATIENCE
        while True:
            try:
                if self.connection is None:
                    self.connect()
                return step()
            except Gone:
                self.close()
                self.turn += 1
                if time.monotonic() > deadline:
                    raise
                time.sleep(0.1)

    def close(self):
        if self.connection:
            self.connection.close()
        self.connection = None


class Writer(Client):
    """Appends records to the log, by the node that leads it."""

    def __init__(self, address):
        super().__init__(address)
        self.waiting, self.last, self.repeated = [], b"0-0", 0

    def suits(self):
        return self.connection.ask("ROLE")[0] == b"master"

    def append(self, record):
        """Takes a record, which is sure to be in the log after the next `flush`."""
        self.waiting.append(record)
        if len(self.waiting) >= BATCH:
            self.flush()

    def flush(self):
        """Returns when two nodes have all records; the place in the log of the last one."""
        if self.waiting:
            self.repeated -= len(self.waiting)
            self.last = self.patiently(self.put)
            self.waiting = []
        return self.last

    def put(self):
        """Sends what waits, and waits until a second node has it."""
        self.repeated += len(self.waiting)
        self.connection.send(*(["XADD", self.stream, "*", "r", record] for record in self.waiting))
        last = [self.connection.answer() for _ in self.waiting][-1]
        if self.connection.ask("WAIT", 1, WAIT * 1000) < 1:
            raise Gone("no second node has the records")
        return last

    def has(self, place):
        """Whether the log still has the record of a place."""
        return bool(self.patiently(lambda: self.connection.ask("XRANGE", self.stream, place, place)))


class Reader(Client):
    """Reads the records behind a place of the log, from any node."""

    def __init__(self, address, place=b"0-0"):
        super().__init__(address)
        self.place = place

    def records(self, seconds):
        """The next records, each with the place before it; waits so many seconds for the first one."""
        return self.patiently(lambda: self.read(seconds))

    def read(self, seconds):
        wait = max(1, int(seconds * 1000))
        found = self.connection.ask("XREAD", "COUNT", BATCH, "BLOCK", wait, "STREAMS", self.stream, self.place)
        records = []
        for place, (_, record) in found[0][1] if found else []:
            records.append((self.place, record))
            self.place = place
        return records
