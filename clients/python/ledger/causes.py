"""Why a command of the program failed, in words for an operator.

The program tells a status and a count of faults. What stands behind a failed journal is looked up in the system: who
holds the lock, rights, room on the disk. (This package is not proved; the program is.)

    >>> journal_fault("/nowhere/journal", writes=True)
    'there is no folder /nowhere'
"""
from __future__ import annotations

import os
import pwd
import resource
import signal
import stat
from collections.abc import Iterator
from typing import Optional

from . import ion
from .client import BusyJournal, DamagedJournal, Outcome, StatusError, StoreFailed, WrongInput
from .ion import Struct
from .journal import LINE_START, rest_size
from .view import printable

LITTLE = 1 << 20  # a file system with fewer free bytes is called full
PIECE = 1 << 16

CAUSES = {
    1: "no statement of the language: {kind}", 2: "no table {name}", 3: "there is a table {name} already",
    4: "{name} is a name of the ledger's own", 5: "there is an index on {field} of {name} already",
    6: "{count} tables are as many as there may be", 7: "{count} indexes are as many as a table may have",
    8: "a transaction touches at most 40 documents", 9: "a document of {bytes} bytes is too large",
    10: "a document is a struct, and not {kind}", 11: "{wanted} parameters are wanted and {given} given",
    12: "a value that nests {depth} deep is too deep", 13: "a statement before it was refused", 14: "out of memory",
    15: "no committed revision has this address, table and document", 16: "version {version} is its document's latest",
    17: "version {version} is redacted already", 18: "a transaction redacts at most 40 revisions",
}
INPUT_KINDS = {
    "NotUtf8": "bytes that aren't UTF-8",
    "BadToken": "what may not stand there",
    "Unclosed": "the text ends inside a bracket or a quote",
    "FloatRefused": "a float, which the ledger has none of",
    "TooWide": "a number past its limits",
    "TooDeep": "too many brackets in one another",
    "SymbolIdRefused": "a symbol id or a symbol table",
    "BadTimestamp": "a date or a time that doesn't exist",
    "BadBase64": "a blob that is no base64",
    "InputTooLong": "more than 16,777,216 bytes",
    "BadRules": "the first value isn't named sets of rules",
    "NoSuchRules": "no set of rules has the name",
    "NotASession": "a session is a list of transactions",
    "NotATransaction": "a transaction is a struct",
    "RepeatedField": "a field stands twice",
    "UnknownField": "a transaction has no such field",
    "MissingField": "there is no field statements",
    "NotAStatement": "a statement is a string, or a struct of text and params",
    "BadRetries": "retries is an int from 0 to 100",
    "BadDigest": "digest is a blob of 32 bytes",
    "BadEnd": "end is commit or abort",
    "TooManySessions": "more than 1,024 sessions",
    "NoSuchBlock": "the journal has no such block",
    "JournalNotEmpty": "the journal isn't empty",
}
KINDS = {
    "NotALine": "its bytes aren't the line of a whole block, spelled as the program spells it",
    "WrongAddress": "its number isn't the line's place, or its strand isn't that of block 0",
    "WrongId": "its transaction's id isn't one of the journal, or an earlier block has it",
    "TimeFell": "its time is before that of the block before it",
    "WrongPrevious": "its previous hash isn't the hash of the block before it",
    "WrongHash": "a hash isn't the computed one: its content or a hash was changed",
    "WrongState": "what it did doesn't follow what the blocks before it left",
    "Unasked": "it has a hash in place of data or statements, and no block redacts them",
}
LONGEST_READ = 1 << 20  # bytes of a script that is read again to show a statement


# ---- refused statements


def place_in(text: str, at: int) -> tuple[int, int, str]:
    """The line and the column of a place in bytes, both counted from 1, and the line's text."""
    before = text.encode("utf-8")[:at].decode("utf-8", "replace")
    lines = before.split("\n")
    return len(lines), len(lines[-1]) + 1, text.split("\n")[len(lines) - 1]


def cause_text(cause: Struct, text: Optional[str] = None) -> str:
    """Why a statement was refused, in words; if it isn't in the language, with its place, and a caret below its text."""
    fields = {name: printable(str(value)) for name, value in cause.items()}
    code = cause["code"]
    words = "refused: " + CAUSES.get(code, ion.write(cause)).format(**fields)
    if code != 1:
        return words
    if text is None:
        return f"{words}, byte {cause['at']}"
    line, column, content = place_in(text, cause["at"])
    return f"{words}, line {line} column {column}\n  {printable(content)}\n  {' ' * len(printable(content[:column - 1]))}^"


def refused_text(outcome: Outcome, script: bytes) -> Optional[str]:
    """Why a statement of a script isn't in the language, with a caret below its text; `None` if that isn't why."""
    cause = outcome.value.get("cause")
    if cause is None or cause["code"] != 1 or len(script) > LONGEST_READ:
        return None
    try:
        session = list(ion.read(script))[outcome.place.session - 1]
        statement = session[outcome.place.transaction - 1]["statements"][outcome.value["statement"] - 1]
    except (ValueError, LookupError, TypeError):
        return None
    text = statement["text"] if isinstance(statement, Struct) else statement
    return f"statement {outcome.value['statement']} was {cause_text(cause, text)}"


# ---- who holds the lock


def holders(path: str) -> list[str]:
    """The processes that hold the lock on a file, in words, as far as the system tells (Linux, by /proc)."""
    try:
        file = os.stat(path)
        with open("/proc/locks", encoding="ascii", errors="replace") as locks:
            found = [lock.split() for lock in locks]
    except OSError:
        return []
    held = [words for words in found if "->" not in words and "FLOCK" in words and words[-3].endswith(f":{file.st_ino}")]
    processes = dict.fromkeys(int(words[-4]) for words in held)
    return [_process_words(process) for process in processes if process > 0 and _may_have_open(process, file)]


def _may_have_open(process: int, file: os.stat_result) -> bool:
    """Whether a process has a file open, also if that can't be told: a device's number isn't always that of its locks."""
    folder = f"/proc/{process}/fd"
    try:
        return any(os.path.samestat(os.stat(os.path.join(folder, name)), file) for name in os.listdir(folder))
    except OSError:
        return True


def _process_words(process: int) -> str:
    try:
        with open(f"/proc/{process}/cmdline", "rb") as file:
            command = file.read().replace(b"\0", b" ").decode("utf-8", "replace").strip()
        user = os.stat(f"/proc/{process}").st_uid
    except OSError:
        return f"process {process}"
    try:
        name = pwd.getpwuid(user).pw_name
    except KeyError:
        name = str(user)
    return f"process {process} of {name} ({printable(command[:120])})"


def held_words(path: str) -> str:
    """Who holds the lock on a file, in words."""
    found = holders(path)
    return "the lock is held by " + (" and ".join(found) if found else "another process, which the system doesn't name")


# ---- what is wrong at a path


def journal_fault(path: str, writes: bool) -> Optional[str]:
    """Why the file at a path can't be opened as a journal, `None` if nothing is found."""
    return next(_path_faults(path, writes), None)


def _path_faults(path: str, writes: bool) -> Iterator[str]:
    folder = os.path.dirname(path) or "."
    if not os.path.isdir(folder):
        yield f"there is no folder {folder}"
    try:
        mode = os.stat(path).st_mode
    except FileNotFoundError:
        yield from _missing_faults(path, folder, writes)
        return
    except OSError as error:
        yield f"{path} can't be looked at: {error.strerror}"
        return
    if not stat.S_ISREG(mode):
        yield f"{path} is a {'folder' if stat.S_ISDIR(mode) else 'pipe, a socket or a device'}, and no file"
    for needed, right, name in [(True, os.R_OK, "read"), (writes, os.W_OK, "written")]:
        if needed and not os.access(path, right):
            yield _no_right(path, name)
    if _is_other_file(path):
        yield f"{path} is no journal: it has no line feed and begins otherwise"


def _missing_faults(path: str, folder: str, writes: bool) -> Iterator[str]:
    if os.path.islink(path):
        yield f"{path} is a link to {os.readlink(path)}, at which nothing stands"
    elif writes and not os.access(folder, os.W_OK | os.X_OK):
        yield f"{path} isn't there, and in {folder} you may make no file"


def _no_right(path: str, what: str) -> str:
    file = os.stat(path)
    if what == "written" and os.statvfs(path).f_flag & os.ST_RDONLY:
        return f"{path} is on a medium that is only read"
    return f"no rights: {path} may not be {what} by you; its mode is {stat.filemode(file.st_mode)}, its owner {file.st_uid}:{file.st_gid}"


def _is_other_file(path: str) -> bool:
    """Whether a file that one may read was never a journal: it has no line feed and another begin."""
    try:
        size = os.path.getsize(path)
        if size == 0 or rest_size(path) != size:
            return False
        with open(path, "rb") as file:
            begin = file.read(len(LINE_START))
        return begin != LINE_START[:len(begin)]
    except OSError:
        return False


def write_fault(path: str) -> str:
    """Why the journal couldn't be written, in words, as far as the file system tells afterwards."""
    folder = os.path.dirname(path) or "."
    try:
        system = os.statvfs(path if os.path.exists(path) else folder)
        size = os.path.getsize(path) if os.path.exists(path) else 0
    except OSError as error:
        return f"{path} can't be looked at: {error.strerror}"
    limit = resource.getrlimit(resource.RLIMIT_FSIZE)[0]
    free = system.f_bavail * system.f_frsize
    if not os.path.exists(path):
        return f"nothing stands at {path} any more"
    if free < LITTLE:
        return f"the disk is full: {free:,} bytes are free on the file system of {path}"
    if limit != resource.RLIM_INFINITY and size + LITTLE > limit:
        return f"the limit on the size of files is {limit:,} bytes (ulimit -f), and {path} has {size:,}"
    return f"a quota, a failing disk, or a program that changed {path} meanwhile; {free:,} bytes are free there"


# ---- a status, and an outcome, in words


def status_words(path: str, error: StatusError, writes: bool = False, script: bytes = b"") -> str:
    """What a status of the program means for a journal, in words; `script` is what the program read."""
    if error.status < 0:
        return f"the program was ended by {signal.Signals(-error.status).name}"
    words = f"status {error.status}: {error.meaning}"
    if isinstance(error, StoreFailed):
        if isinstance(error, BusyJournal):
            return f"status 5: the journal is in use: {held_words(path)}"
        return f"{words}: {journal_fault(path, writes) or write_fault(path)}"
    if isinstance(error, DamagedJournal) and isinstance(error.fault, Struct):
        at = error.fault["sequence"]
        return f"{words} from block {at} on (line {at + 1}): {error.fault['kind']}. See ledgerctl JOURNAL doctor"
    if isinstance(error, WrongInput) and isinstance(error.fault, Struct):
        return words + ": " + _input_words(error.fault, script)
    return f"{words}{': ' + printable(error.line) if error.line else ''}"


def _input_words(fault: Struct, script: bytes) -> str:
    kind = str(fault["kind"])
    words = INPUT_KINDS.get(kind, ion.write(fault))
    if "session" in fault:
        at = f"session {fault['session']}" + (f" transaction {fault['transaction']}" if fault["transaction"] else "")
        return f"{at}: {words} ({kind})"
    if "at" not in fault:
        return f"{words} ({kind})"
    line, column, content = place_in(script.decode("utf-8", "replace"), fault["at"])
    begin = max(column - 60, 0)
    shown = printable(content[begin:begin + 100])
    caret = " " * len(printable(content[begin:column - 1])) + "^"
    return f"line {line} column {column}: {words} ({kind})\n  {shown}\n  {caret}"


def outcome_words(path: str, outcome: Outcome) -> str:
    """How a transaction that isn't committed ended, in words. `path` is that of the journal."""
    value = outcome.value
    if outcome.outcome == "store_fault":
        return f"the journal couldn't be written: {write_fault(path)}"
    if outcome.outcome == "refused":
        return f"statement {value['statement']} was {cause_text(value['cause'])}"
    if outcome.outcome == "denied":
        rule = "no rule allows it" if value.get("rule") is None else f"the rule {printable(str(value['rule']))} denies it"
        return f"statement {value['statement']} was denied {value['action']} on {printable(str(value['table']))}: {rule}"
    words = {
        "conflict": f"conflict: block {value.get('block')} touched what it had read, at each try",
        "aborted": "aborted, as its script says",
        "digest_differs": "the digest that was sent isn't the transaction's own",
        "journal_full": "the journal is full",
        "ids_spent": "no number is left for a transaction",
        "out_of_memory": "out of memory",
    }
    return words.get(outcome.outcome, printable(ion.write(value)))
