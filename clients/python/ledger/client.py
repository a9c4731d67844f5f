"""A client: runs scripts on a journal by the program, and reads its reports.

Each call starts the program once. What it reports with another status than 0 is raised as the exception of that
status, and an outcome that isn't `committed` as the exception of that outcome, unless `check=False` asks for the
report as it is. While another process has the journal, a call waits and tries again until `timeout` seconds have
passed. (This package is not proved; the program is.)

    from ledger import Ledger, Transaction

    ledger = Ledger("accounts.journal", program="crates/ledger/out/ledger")
    ledger.execute("CREATE TABLE accounts")
    ledger.execute("INSERT INTO accounts ?", {"owner": "Ada", "amount": 100})
    ledger.query("SELECT * FROM accounts AS a WHERE a.owner = ?", "Ada")     # leaves no block
    ledger.execute("UPDATE accounts AS a SET a.amount = 90 WHERE a.owner = ?", "Ada", expect_rows=1)

`expect_rows` is kept before anything is committed: the script is run on a copy of the journal first, and then on the
journal itself with the digest of each transaction, which holds only if no other block came in between.
`digests=True` sends these digests too. Both want one worker, so that the ids of transactions are known beforehand.

    >>> Transaction([Statement("SELECT * FROM t WHERE a = ?", 5), "CREATE TABLE u"], retries=2).text()
    '{statements:[{text:"SELECT * FROM t WHERE a = ?",params:[5]},"CREATE TABLE u"],retries:2}'
"""
from __future__ import annotations

import os
import secrets
import shutil
import subprocess
import tempfile
import time
import warnings
from collections.abc import Callable, Iterable, Sequence
from dataclasses import dataclass, field, replace
from datetime import datetime
from typing import Any, Optional, Union

from . import ion
from .blocks import Block, Place
from .checks import Audit
from .hashing import commit_digest
from .ids import THINGS, id_number, id_text, mask_of
from .ion import Struct, Symbol, Timestamp, Value
from .journal import LINE_START, Digest, Journal, PathLike, fronts, rest_words

# ---- scripts


class Statement:
    """A statement with its parameters, and the number of rows that its answer has to have, if it has to."""

    __slots__ = ("text", "parameters", "expect_rows")

    def __init__(self, text: str, *parameters: Value, expect_rows: Optional[int] = None) -> None:
        self.text = text
        self.parameters = parameters
        self.expect_rows = expect_rows

    def value(self) -> Value:
        """The statement as a script has it."""
        return {"text": self.text, "params": list(self.parameters)} if self.parameters else self.text

    def __repr__(self) -> str:
        return f"Statement({', '.join(map(repr, (self.text, *self.parameters)))})"


@dataclass
class Transaction:
    """A transaction of a script. A string stands for a statement without parameters."""

    statements: Sequence[Union[str, Statement]]
    retries: Optional[int] = None  # the program's 4 if it is None
    digest: Optional[bytes] = None
    abort: bool = False

    def all(self) -> list[Statement]:
        """Its statements, each as a `Statement`."""
        return [Statement(s) if isinstance(s, str) else s for s in self.statements]

    def value(self) -> Struct:
        """The transaction as a script has it."""
        fields: list[tuple[str, Value]] = [("statements", [statement.value() for statement in self.all()])]
        if self.retries is not None:
            fields.append(("retries", self.retries))
        if self.digest is not None:
            fields.append(("digest", self.digest))
        if self.abort:
            fields.append(("end", Symbol("abort")))
        return Struct(fields)

    def text(self) -> str:
        """The text of the transaction in a script."""
        return ion.write(self.value())

    def commit_digest(self, transaction_id: str) -> bytes:
        """The commit digest under an id."""
        return commit_digest(transaction_id, [(statement.text, statement.parameters) for statement in self.all()])


Session = Sequence[Transaction]
Script = Sequence[Session]


def script_text(sessions: Script) -> str:
    """The text of a script, a session a line."""
    return "\n".join("[" + ",".join(transaction.text() for transaction in session) + "]" for session in sessions)


# ---- reports


@dataclass(frozen=True)
class Outcome:
    """How a transaction ended, one line of a report. `value` is the whole line."""

    place: Place
    outcome: str
    value: Struct = field(repr=False)

    @classmethod
    def of(cls, value: Value) -> "Outcome":
        """The outcome of a report's line."""
        if not isinstance(value, Struct):
            raise ValueError("no line of a report")
        return cls(Place(value["session"], value["transaction"]), str(value["outcome"]), value)

    @property
    def committed(self) -> bool:
        """Whether it is in a block."""
        return self.outcome == "committed"

    @property
    def transaction_id(self) -> Optional[str]:
        """The id of the transaction, `None` if it got none."""
        return self.value.get("tx")

    @property
    def block(self) -> Optional[int]:
        """The number of its block; if it met a conflict, of the block that touched what it read."""
        return self.value.get("block")

    @property
    def answers(self) -> list[list[Value]]:
        """The rows of each statement's answer; none if it isn't committed."""
        return self.value.get("answers", [])


class RestWarning(UserWarning):
    """Bytes after the last line feed of a journal, which the next run cuts off."""


class LedgerError(Exception):
    """Whatever the client raises of a call."""


class StatusError(LedgerError):
    """The program ended with another status than 0. `fault` is the error line's fault or count of faults."""

    meaning = "ended otherwise than it may"

    def __init__(self, status: int, line: str) -> None:
        super().__init__(f"status {status}: {self.meaning}" + (f": {line}" if line else ""))
        self.status = status
        self.line = line
        try:
            value = ion.read_one(line)
        except ValueError:
            value = None
        fault = value if isinstance(value, Struct) else Struct()
        self.fault: Any = fault.get("fault", fault.get("faults"))


class WrongWords(StatusError):
    meaning = "the words aren't a command"


class WrongInput(StatusError):
    meaning = "the script, the block or the revision is refused"


class DamagedJournal(StatusError):
    meaning = "the journal is damaged"


class SourceFailed(StatusError):
    meaning = "the input couldn't be read"


class StoreFailed(StatusError):
    meaning = "the journal couldn't be opened, read or written"


class BusyJournal(StoreFailed):
    meaning = "until the timeout another process had the journal, or its file system served no lock"


class OutputFailed(StatusError):
    meaning = "the output couldn't be written; what was committed stands"


class NotVerified(StatusError):
    meaning = "the proof isn't accepted"


class OutOfMemory(StatusError):
    meaning = "out of memory"


class NotCommitted(LedgerError):
    """A transaction of a script wasn't committed. `report` has all outcomes: others may be committed."""

    def __init__(self, outcome: Outcome, report: list[Outcome]) -> None:
        super().__init__(f"transaction {outcome.place.transaction} of session {outcome.place.session}: {ion.write(outcome.value)}")
        self.outcome = outcome
        self.report = report


class Conflict(NotCommitted):
    """A later block touched what it read, at each try."""


class Refused(NotCommitted):
    """A statement was refused; `statement` is its number, from 1 on, and `cause` says why."""

    def __init__(self, outcome: Outcome, report: list[Outcome]) -> None:
        super().__init__(outcome, report)
        self.statement: int = outcome.value["statement"]
        self.cause: Struct = outcome.value["cause"]


class DigestDiffers(NotCommitted):
    """The digest that was sent isn't the transaction's own."""


class StoreFault(NotCommitted):
    """The journal couldn't be written: a full disk, say."""


class JournalFull(NotCommitted):
    """The journal has 2^32 - 1 blocks."""


class IdsSpent(NotCommitted):
    """No number is left for a transaction."""


class Aborted(NotCommitted):
    """It was aborted otherwise than its script asked for."""


class Denied(NotCommitted):
    """The rules deny one of its statements, counted from 1, an action on a table: by this rule, or by none."""

    def __init__(self, outcome: Outcome, report: list[Outcome]) -> None:
        super().__init__(outcome, report)
        self.statement: int = outcome.value["statement"]
        self.action: str = str(outcome.value["action"])
        self.table: str = outcome.value["table"]
        self.rule: str | None = outcome.value["rule"]


class TransactionOutOfMemory(NotCommitted):
    """Its transaction found no memory."""


class UnexpectedRows(LedgerError):
    """A statement's answer has another number of rows than `expect_rows`. Nothing was committed."""

    def __init__(self, place: Place, number: int, wanted: int, rows: list[Value]) -> None:
        super().__init__(
            f"statement {number} of transaction {place.transaction} of session {place.session} has {len(rows)} rows and not {wanted}"
        )
        self.place, self.statement, self.wanted, self.rows = place, number, wanted, rows


STATUSES: dict[int, type[StatusError]] = {
    1: WrongWords, 2: WrongInput, 3: DamagedJournal, 4: SourceFailed, 5: StoreFailed, 6: OutputFailed, 7: NotVerified,
    8: OutOfMemory,
}
OUTCOMES: dict[str, type[NotCommitted]] = {
    "conflict": Conflict, "refused": Refused, "digest_differs": DigestDiffers, "store_fault": StoreFault,
    "journal_full": JournalFull, "ids_spent": IdsSpent, "aborted": Aborted, "denied": Denied, "out_of_memory": TransactionOutOfMemory,
}


# ---- what stands in the file


@dataclass(frozen=True)
class Ahead:
    """From what the next run on a journal numbers its transactions: the mask of its ids, and the greatest number."""

    mask: int
    last: int

    def transaction_id(self, ordinal: int) -> str:
        """The id of the transaction that a run by one worker begins as its `ordinal`th, counted from 1."""
        return id_text((self.last + ordinal) * THINGS ^ self.mask)


def ahead_of(path: PathLike, mask: int) -> Ahead:
    """What the next run on the journal's file goes on from; `mask` is that of a journal without blocks."""
    last = 0
    try:
        for front in fronts(path):
            mask, made = id_number(front.address.strand) or 0, id_number(front.transaction_id) or 0
            last = max(last, (made ^ mask) // THINGS)
    except FileNotFoundError:
        pass
    return Ahead(mask, last)


@dataclass(frozen=True)
class Recovered:
    """What of a script is committed: the blocks of its transactions by their places, and the places that have none."""

    committed: dict[Place, Block]
    left: list[Place]


def recover(path: PathLike, sessions: Script, tip: Optional[int]) -> Recovered:
    """What of a script was committed after the block `tip`, or after nothing if `tip` is `None`.

    For a client whose run died before its report: a block tells its transaction's place in the script, and it counts
    if its statements and parameters are those of the script at that place. A block of which `compact` took the
    statements doesn't count.
    """
    wanted = {Place(s, t): tx for s, session in enumerate(sessions, 1) for t, tx in enumerate(session, 1)}
    texts = {place: _said_text(transaction) for place, transaction in wanted.items()}
    committed: dict[Place, Block] = {}
    for block in Journal.read(path).blocks[0 if tip is None else tip + 1:]:
        said = ion.write([[statement.text, statement.parameters] for statement in block.statements])
        if block.statements_hash is None and texts.get(block.place) == said:
            committed.setdefault(block.place, block)
    return Recovered(committed, [place for place in wanted if place not in committed and not wanted[place].abort])


def _said_text(transaction: Transaction) -> str:
    return ion.write([[statement.text, statement.parameters] for statement in transaction.all()])


# ---- the client


@dataclass
class Ledger:
    """A journal in a file, and the program that serves it.

    `program` is its path or its name on the path; `timeout` is how many seconds a call waits for a journal that
    another process has. `warn` takes a warning in words, that of bytes after the last line feed before a run.
    """

    journal: PathLike
    program: str = "ledger"
    timeout: float = 10.0
    warn: Callable[[str], None] = field(default=lambda words: warnings.warn(words, RestWarning, stacklevel=3), repr=False)

    # -- calls of the program

    def call(self, *words: str, text: Union[str, bytes] = "") -> str:
        """The output of a command of the program. Raises the exception of its status if that isn't 0."""
        end = time.monotonic() + self.timeout
        pause = 0.005
        while True:
            try:
                return self._call_once(words, text)
            except StoreFailed as failed:
                if not self._may_be_busy(failed):
                    raise
                if time.monotonic() >= end:
                    raise BusyJournal(failed.status, failed.line) from None
            time.sleep(pause)
            pause = min(pause * 2, 0.25)

    def _call_once(self, words: Sequence[str], text: Union[str, bytes]) -> str:
        command = [self.program, os.fspath(self.journal), *words]
        given = text if isinstance(text, bytes) else text.encode("utf-8")
        ended = subprocess.run(command, input=given, capture_output=True)
        output = ended.stdout.decode("utf-8", "replace")
        if ended.returncode != 0:
            line = output.strip() if output.startswith("{status:") else ended.stderr.decode("utf-8", "replace").strip()
            raise STATUSES.get(ended.returncode, StatusError)(ended.returncode, line)
        return output

    def _may_be_busy(self, failed: StoreFailed) -> bool:
        """Whether another process may have had the journal: the store's only fault, before which nothing was done.

        The lock isn't tried here, since a run of another process that came at that moment would end with status 5.
        """
        if failed.fault != 1 or not os.path.isfile(self.journal):
            return False
        try:
            with open(self.journal, "r+b") as file:
                return LINE_START.startswith(file.read(len(LINE_START)))
        except OSError:
            return False

    # -- commands

    def run(
        self, *sessions: Session, workers: int = 1, seed: Optional[int] = None, plain_ids: bool = False,
        at: Optional[Union[Timestamp, datetime, str]] = None, check: bool = True, digests: bool = False,
    ) -> list[Outcome]:
        """Runs sessions, each a list of transactions, and returns the outcome of each transaction in order.

        `at` is the time of the blocks; if it is None, the system's clock is asked. Unless `check` is False, the first
        outcome that is neither committed nor the abort that its script asked for is raised, once the whole script has
        run.
        """
        rest = rest_words(self.journal)
        if rest is not None:
            self.warn(rest)
        expecting = any(s.expect_rows is not None for session in sessions for tx in session for s in tx.all())
        if not digests and not expecting:
            report = self._run(["run", *_options(workers, seed, plain_ids, at)], sessions)
        elif workers != 1:
            raise ValueError("digests and expect_rows want one worker")
        else:
            seed = secrets.randbits(64) if seed is None and not plain_ids else seed
            words = ["run", *_options(workers, seed, plain_ids, at)]
            report = self._guarded(sessions, words, 0 if plain_ids else mask_of(seed or 0), expecting)
        if check:
            check_report(sessions, report)
        return report

    def _run(self, words: Sequence[str], sessions: Script) -> list[Outcome]:
        text = self.call(*words, text=script_text(sessions))
        return [Outcome.of(value) for value in ion.read(text, ion.JOURNAL_DEPTH)]

    def _guarded(self, sessions: Script, words: Sequence[str], mask: int, expecting: bool) -> list[Outcome]:
        """Runs a script with the digests of its transactions, on a copy before if rows are expected.

        Another process may commit in between; then every digest differs, nothing is committed, and all is done again.
        """
        own = any(transaction.digest is not None for session in sessions for transaction in session)
        end = time.monotonic() + self.timeout
        while True:
            ahead = self._tried(sessions, words, mask) if expecting else ahead_of(self.journal, mask)
            report = self._run(words, _with_digests(sessions, ahead))
            moved = all(outcome.outcome == "digest_differs" for outcome in report)
            if own or not report or not moved or time.monotonic() >= end:
                return report

    def _tried(self, sessions: Script, words: Sequence[str], mask: int) -> Ahead:
        """Runs a script on a copy, and returns from what the copy numbered its transactions.

        Raises `UnexpectedRows`, and `NotCommitted` as `run` does.
        """
        with self.copy() as tried:
            ahead = ahead_of(tried.journal, mask)
            check_rows(sessions, tried._run(words, sessions))
        return ahead

    def execute(self, *statements: Any, expect_rows: Optional[int] = None, **options: Any) -> list[Value]:
        """Commits one transaction and returns the rows of its last statement.

        Either a statement's text and its parameters, or statements as `Statement`s alone. `expect_rows` is
        the number of rows that the last one has to have.
        """
        transaction = Transaction(_statements(statements, expect_rows))
        outcome = self.run([transaction], **options)[0]
        return outcome.answers[-1] if outcome.answers else []

    def query(self, *statements: Any, expect_rows: Optional[int] = None) -> list[Value]:
        """The rows of the last statement, run on a copy of the journal, so that no block is left."""
        with self.copy() as copied:
            return copied.execute(*statements, expect_rows=expect_rows)

    def digest(self, tip: Optional[int] = None) -> Digest:
        """The digest of the journal up to a block, the last one if none is named."""
        return Digest.of(ion.read_one(self.call("digest", *_tip(tip))))

    def prove(self, sequence: int, index: int, tip: Optional[int] = None) -> str:
        """The bundle of a revision, as the program writes it: the digest, the revision and its proof."""
        return self.call("prove", str(sequence), str(index), *_tip(tip))

    def verify(self, bundle: str) -> None:
        """Returns if the program accepts the bundle, and else raises `NotVerified`."""
        self.call("verify", text=bundle)

    def compact(self) -> str:
        """The lines of the journal without what its blocks redact. The journal's file is left."""
        return self.call("compact")

    def audit(self) -> Audit:
        """How many blocks and revisions the journal has. Raises `DamagedJournal` if it is damaged."""
        found = ion.read_one(self.call("audit"))
        return Audit(found["blocks"], found["revisions"])

    # -- what stands in the file

    def read(self) -> Journal:
        """The journal, read from its file without the program."""
        return Journal.read(self.journal)

    def tip(self) -> Optional[int]:
        """The number of the last whole block in the file, `None` if there is none. Keep it for `recover`."""
        try:
            with open(self.journal, "rb") as file:
                count = sum(line.endswith(b"\n") for line in file)
        except FileNotFoundError:
            return None
        return count - 1 if count else None

    def recover(self, *sessions: Session, tip: Optional[int] = None) -> Recovered:
        """What of a script was committed after the block `tip`. For a client whose run died before its report."""
        if not os.path.exists(self.journal):
            return recover(os.devnull, sessions, tip)
        return recover(self.journal, sessions, tip)

    def copy(self) -> "_Copy":
        """A ledger over a copy of the journal's whole lines, for a `with` statement, which removes it."""
        return _Copy(self)


class _Copy:
    """A copy of a journal in a folder of its own, for as long as the `with` statement runs."""

    def __init__(self, ledger: Ledger) -> None:
        self._ledger = ledger
        self._folder = ""

    def __enter__(self) -> Ledger:
        self._folder = tempfile.mkdtemp(prefix="ledger-")
        path = os.path.join(self._folder, "journal")
        if os.path.exists(self._ledger.journal):
            shutil.copyfile(self._ledger.journal, path)
        return replace(self._ledger, journal=path, warn=lambda words: None)

    def __exit__(self, *_: object) -> None:
        shutil.rmtree(self._folder, ignore_errors=True)


def _tip(tip: Optional[int]) -> list[str]:
    return [] if tip is None else ["--tip", str(tip)]


def _options(
    workers: int, seed: Optional[int], plain_ids: bool, at: Optional[Union[Timestamp, datetime, str]]
) -> list[str]:
    """The words after `run`."""
    words = ["--workers", str(workers)]
    if plain_ids:
        words.append("--plain-ids")
    elif seed is not None:
        words += ["--seed", str(seed)]
    if at is not None:
        words += ["--at", at if isinstance(at, str) else ion.write(at)]
    return words


def _statements(statements: Sequence[Any], expect_rows: Optional[int]) -> list[Statement]:
    """The statements that a call names: a text and its parameters, or statements alone."""
    if not statements:
        raise TypeError("no statement")
    if isinstance(statements[0], Statement):
        found = list(statements)
        if not all(isinstance(statement, Statement) for statement in found):
            raise TypeError("statements alone, or a text and its parameters")
    else:
        found = [Statement(statements[0], *statements[1:])]
    if expect_rows is not None:
        found[-1] = Statement(found[-1].text, *found[-1].parameters, expect_rows=expect_rows)
    return found


def _with_digests(sessions: Script, ahead: Ahead) -> list[list[Transaction]]:
    """The script with the digest of each transaction, if one worker runs it after what `ahead` says."""
    found, ordinal = [], 0
    for session in sessions:
        found.append([])
        for transaction in session:
            ordinal += 1
            digest = transaction.digest or transaction.commit_digest(ahead.transaction_id(ordinal))
            found[-1].append(replace(transaction, digest=digest))
    return found


def check_report(sessions: Script, report: list[Outcome]) -> None:
    """Raises the first outcome that is neither committed nor the abort that the script asked for."""
    wanted = [transaction for session in sessions for transaction in session]
    if len(report) != len(wanted):
        raise LedgerError(f"a report of {len(report)} transactions and not of {len(wanted)}")
    for transaction, outcome in zip(wanted, report):
        if not outcome.committed and not (transaction.abort and outcome.outcome == "aborted"):
            raise OUTCOMES.get(outcome.outcome, NotCommitted)(outcome, report)


def check_rows(sessions: Script, report: list[Outcome]) -> None:
    """Raises the first outcome that isn't committed, and else the first answer with unexpected rows."""
    check_report(sessions, report)
    transactions: Iterable[Transaction] = (transaction for session in sessions for transaction in session)
    for transaction, outcome in zip(transactions, report):
        for number, (statement, rows) in enumerate(zip(transaction.all(), outcome.answers), 1):
            if statement.expect_rows is not None and len(rows) != statement.expect_rows:
                raise UnexpectedRows(outcome.place, number, statement.expect_rows, rows)
