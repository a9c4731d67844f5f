#!/usr/bin/env python3
"""Runs the rows of tests/transactions.txt by the program `interleavings`, each on a journal of its own. Ends with status 1 where
something isn't as it should be.

    tests/transactions.py [PROGRAM]

The program is crates/interleavings/out/interleavings, where `rt ci` leaves it, or another path.

A row is `STATEMENTS = END`. Between statements stands `;`, and a bar before a statement's parameters. Between two signs `^` stand a
count and a text that is repeated. `history` and bounds stand for a select of the history of t1. An end is

- the last statement's rows, one after another, `none`, or how many; or the number of the statement that is refused, and the cause,
- `drafts` and the revisions that are committed, by document and version, and a sign that tells whether there is content,
- `read` and the items of the footprint,
- `each` and how each statement ends, with a bar after which the transaction is ended, its id, and on how many blocks it runs.

`on JOURNAL` tells the journal of the rows after it, `none` or blocks with ` / ` between them, of steps with `, ` between these:

- `tables COUNT` creates t0, t1 and so on; `index FIELD TABLE` and `drop NAME TABLE` change them,
- `put TABLE DOCUMENT VERSION DAY CONTENT` makes a document, and from version 1 on sets its fields, on a day of January 2020; with
  `-` it deletes the document,
- `documents COUNT` puts `{a:1}` into t1, as the documents 2, 3 and so on.

Rows tell the ids of its tables and documents by the numbers there, and those of what they make themselves as of transaction 1.
Behind `commits`, which is below, ids are as they are.

`does STATEMENTS` tells what the rows after it do first that are `sees VIEW TABLE PROBE = DOCUMENTS`, and `commits STATEMENTS =>
ANSWERS` has a bar after each answer and leaves its block for the rows after it. `conflict BEFORE > READS > WRITES = END` has
transactions of one statement each, then one that reads, and one that begins after it, writes, and is committed first. `commit own
STATEMENT = END` and `commit other STATEMENT = END` commit with a digest of that kind.
"""
import os
import re
import subprocess
import sys

HERE = os.path.dirname(os.path.abspath(__file__))
PROGRAM = os.path.join(os.path.dirname(HERE), "crates", "interleavings", "out", "interleavings")
DIGITS = "0123456789ABCDEFGHIJKLMNOPQRSTUVWXYZabcdefghijklmnopqrstuvwxyz"
START, DAY = 1577836800000, 86400000
NO_HASH = "{{AAAAAAAAAAAAAAAAAAAAAAAAAAAAAAAAAAAAAAAAAAA=}}"
REVISIONS = "SELECT h.metadata.id AS id, h.metadata.version AS v, h.data IS MISSING AS gone FROM history(t1) AS h"


# ---- texts of Ion


def parts(text, is_between):
    """The pieces of a text between the characters that part them, outside of containers and of quotes."""
    pieces, begun, depth, quote, at = [], 0, 0, "", 0
    while at < len(text):
        sign = text[at]
        if quote:
            at += sign == "\\"
            quote = "" if sign == quote else quote
        elif sign in "\"'":
            quote = sign
        elif depth == 0 and is_between(sign):
            pieces.append(text[begun:at])
            begun = at + 1
        else:
            depth += (sign in "[{(") - (sign in "]})")
        at += 1
    return [piece for piece in [*pieces, text[begun:]] if piece]


def members(container):
    """The members of a list, or the fields of a struct."""
    return parts(container[1:-1], lambda sign: sign == ",")


def field(struct, name):
    """The text of a field's value, None if the struct has no such field."""
    found = [it[len(name) + 1 :] for it in members(struct) if it.startswith(name + ":")]
    return found[0] if found else None


def quoted(text):
    return '"' + text.replace("\\", "\\\\").replace('"', '\\"') + '"'


def id_text(number, at):
    """The id of the transaction of this number, or of the thing of the number `at` that it makes."""
    raw, text = (number << 24) + at, ""
    for _ in range(22):
        raw, digit = divmod(raw, 62)
        text = DIGITS[digit] + text
    return text


def raw(text):
    """The number of an id between quotes."""
    number = 0
    for digit in text[1:-1]:
        number = number * 62 + DIGITS.index(digit)
    return number


def swapped(text, ids):
    """The text with other ids in place of some."""
    return re.sub(r"\b\w{22}\b", lambda found: ids.get(found[0], found[0]), text)


# ---- events of transactions, and the lines that answer them


class Events:
    """The texts of events, how many transactions they begin, and what the clock tells each commit."""

    def __init__(self):
        self.texts, self.begun, self.times = [], 0, []

    def begin(self, name="row"):
        self.begun += 1
        self.texts.append("{begin:%s,place:{session:1,transaction:1}}" % quoted(name))

    def execute(self, statement, name="row"):
        text, _, params = statement.partition("|")
        params = ",".join(parts(params, str.isspace))
        self.texts.append("{execute:%s,text:%s,params:[%s]}" % (quoted(name), quoted(text), params))

    def commit(self, name="row", given=None, day=1):
        self.times.append(START + (day - 1) * DAY)
        self.texts.append("{commit:%s%s}" % (quoted(name), ",digest:" + given if given else ""))

    def transaction(self, statements, day=1):
        self.begin()
        for statement in statements:
            self.execute(statement)
        self.commit(day=day)

    def lines(self, program):
        """The line of each event, in which each statement and each commit of the journal is done."""
        clock = "{clock:[%s]}" % ",".join(str(time) for time in self.times or [START])
        script = "\n".join([clock, *self.texts]).encode()
        ended = subprocess.run([program], input=script, capture_output=True, timeout=60)
        lines = ended.stdout.decode().splitlines()
        if ended.returncode != 0 or len(lines) != len(self.texts) + 1:
            sys.exit(f"not so: a line for each event, and status 0: {ended.returncode}, {lines[-1:]}")
        return lines[:-1]


class Journal:
    """The events that make a journal that is told, and the ids that its tables and documents have."""

    def __init__(self, told):
        self.events, self.ids = Events(), {}
        self.statements, self.made, self.day = [], 0, 1
        for block in told.split(" / ") if told != "none" else []:
            for step in block.split(", "):
                verb, rest = step.split(" ", 1)
                getattr(self, "do_" + verb)(rest)
            self.seal()

    def seal(self):
        """Ends a block. What a row tells as one may be several, so that none has too many documents."""
        self.events.transaction(self.statements, self.day)
        self.statements, self.made, self.day = [], 0, 1

    def make(self, number, statement):
        if self.made == 40:
            self.seal()
        self.made += 1
        self.ids[number] = id_text(self.events.begun + 1, self.made)
        self.statements.append(statement)

    def do_tables(self, count):
        for number in range(int(count)):
            self.make(number, f"CREATE TABLE t{number}")

    def do_documents(self, count):
        for number in range(int(count)):
            self.make(number + 2, "INSERT INTO t1 ?|{a:1}")

    def do_index(self, told):
        name, table = told.split(" ")
        self.statements.append(f"CREATE INDEX ON t{table} ({name})")

    def do_drop(self, told):
        self.statements.append(f"DROP TABLE {told.split(' ')[0]}")

    def do_put(self, told):
        table, document, version, day, content = told.split(" ", 4)
        self.day = int(day)
        if version == "0" and content != "-":
            return self.make(int(document), f"INSERT INTO t{table} ?|{content}")
        chosen = f"FROM t{table} AS x BY d WHERE d = '{self.ids[int(document)]}'"
        if content == "-":
            return self.statements.append("DELETE " + chosen)
        fields = [it.split(":", 1) for it in members(content)]
        targets = ", ".join(f"x.{name} = ?" for name, _ in fields)
        return self.statements.append(f"{chosen} SET {targets}|{' '.join(value for _, value in fields)}")

    def told_ids(self):
        """The ids that rows tell, by those of the journal and of the row's own transaction."""
        told = {id: id_text(0, number) for number, id in self.ids.items()}
        return told | {id_text(self.events.begun + 1, at): id_text(1, at) for at in range(99)}


# ---- what a row tells, and what comes of it


def repeated(told):
    """The text with what is repeated."""
    text = ""
    for at, piece in enumerate(told.split("^")):
        count, _, again = piece.partition(" ")
        text += again * int(count) if at % 2 else piece
    return text


def spelled(told):
    """The statements that a row tells."""
    if told.startswith("history"):
        bounds = told.removeprefix("history")
        return [f"SELECT h.data.n AS n, h.metadata.version AS v FROM history(t1{bounds}) AS h"]
    return repeated(told).split(";")


def probed(told):
    """The condition that has this probe: for all rows, for documents, or for a field and values."""
    name, _, keys = told.rpartition(":")
    if told == "all":
        return "TRUE"
    if not name:
        chosen = [quoted(id_text(0, int(it))) for it in keys.split("+")]
    else:
        chosen = [it if it.isdigit() or it == "true" else quoted(it) for it in keys.split("+")]
    target, chosen = f"x.{name}" if name else "d", [it.replace('"', "'") for it in chosen]
    return f"{target} = {chosen[0]}" if len(chosen) == 1 else f"{target} IN [{', '.join(chosen)}]"


def rows_of(line):
    """The rows of an answer, none for another line."""
    answer = field(line, "answer")
    return members(answer) if answer else []


def item_text(item):
    """An item of a footprint, as rows tell it."""
    kind, *told = [it.split(":", 1)[1] for it in members(item)]
    if kind == "table_name":
        return "name " + told[0].strip('"')
    if kind == "table_list":
        return "list"
    if kind == "index_value":
        return f"key {raw(told[0])} {told[1][1:-1]} {told[2].removesuffix('d0')}"
    return f"{kind} {' '.join(str(raw(it)) for it in told)}"


def items_of(line):
    return ", ".join(item_text(it) for it in members(field(line, "footprint"))) or "none"


def ended(lines, end):
    """How statements end, in the form of this end."""
    for at, line in enumerate(lines):
        if not line.startswith("{answer:"):
            return f"{at + 1}: {(field(line, 'refused') or line)[1:-1]}"
    rows = rows_of(lines[-1])
    return f"{len(rows)} rows" if end.endswith(" rows") else "".join(rows) or "none"


def words(lines):
    """A word for how each statement ends: how many rows there are, that it is refused, or that one before it was."""
    told = []
    for line in lines:
        is_ended = field(line, "refused") == "{code:13}"
        told += ["|"] if is_ended and "|" not in told else []
        told.append("ended" if is_ended else "refused" if field(line, "refused") else str(len(rows_of(line))))
    return " ".join(told)


def conflict_text(line):
    """How the commit of a transaction ends that may be in conflict."""
    conflict = field(line, "conflict")
    if not conflict:
        return f"sealed {field(line, 'committed')}"
    item = item_text(field(conflict, "item")).split(" ")
    named = {"table": "all", "doc": "document"}.get(item[0], " ".join(item[2:]))
    return f"since {field(conflict, 'since')} block {field(conflict, 'block')} {named}"


class Rows:
    """The journal that rows are on, and what their transactions do first."""

    def __init__(self, program):
        self.program, self.told, self.first, self.before = program, "none", [], []

    def journal(self):
        journal = Journal(self.told)
        for statements in self.before:
            journal.events.transaction(statements)
        return journal

    def told_lines(self, journal):
        """The lines of the events, with the ids that rows tell."""
        text = "\n".join(journal.events.lines(self.program))
        return swapped(text, self.ids).split("\n")

    def does(self, statements, then=()):
        """The lines of the statements on the journal, of a begin before them, and of a commit and what is done `then`."""
        journal = self.journal()
        self.ids = {} if self.before else journal.told_ids()
        real = {told: id for id, told in self.ids.items()}
        events, made = journal.events, len(journal.events.texts)
        events.begin()
        for statement in statements:
            events.execute(swapped(statement, real))
        events.commit()
        if then:
            events.transaction(then)
        return self.told_lines(journal)[made:]

    def drafts(self, statements):
        """The revisions that the statements leave."""
        before = rows_of(self.does([], [REVISIONS])[3])
        after = rows_of(self.does(statements, [REVISIONS])[-2])
        told = ["drafts"]
        for row in after[len(before) :]:
            sign = "-" if field(row, "gone") == "true" else "+"
            told.append(f"{raw(field(row, 'id'))}.{field(row, 'v')}{sign}")
        return " ".join(told)

    def each(self, statements):
        """How each statement ends, and the transaction."""
        begun, *lines, end = self.does(statements)
        told = words(lines) if "ended" not in words(lines) or end.startswith("{ended:") else end
        return f"each {told} as {raw(field(begun, 'tx'))} on {field(begun, 'since')}"

    def seen(self, told):
        """The documents that a transaction sees that does something first."""
        view, table, probe = told.split(" ")
        source = "_ql_committed_" + table if view == "committed" else table
        select = f"SELECT VALUE d FROM {source} AS x BY d WHERE {probed(probe)}"
        line = self.does([*self.first, select])[-2]
        return " ".join(str(raw(it)) for it in rows_of(line)) or "none"

    def around(self, told):
        """How the commit of a transaction ends that reads, if one that begins after it is committed first."""
        before, reads, writes = told.split(" > ")
        events = Events()
        for statement in before.split(";"):
            events.transaction([statement])
        events.begin("reads")
        events.execute(reads, "reads")
        events.transaction([writes])
        events.commit("reads")
        *_, later, first = events.lines(self.program)
        return conflict_text(first) if later.startswith("{committed:") else later

    def committed(self, told):
        """The word of the line that answers the commit of one statement."""
        whose, statement = told.split(" ", 1)
        events = Events()
        events.begin()
        events.execute(statement)
        events.commit(given=None if whose == "own" else NO_HASH)
        return events.lines(self.program)[-1].partition(":")[0][1:]

    def commits(self, statements):
        """The answers of the statements, a bar after each. Their block stays."""
        lines = self.does(statements)[1:-1]
        self.before.append(statements)
        return "".join("".join(rows_of(line)) + "|" for line in lines)

    def end(self, told, end):
        """How a row that is told so ends, in the form of this end."""
        word, _, rest = told.partition(" ")
        kind = end.partition(" ")[0]
        if word == "sees":
            return self.seen(rest)
        if word == "conflict":
            return self.around(rest)
        if word == "commit":
            return self.committed(rest)
        if kind == "drafts":
            return self.drafts(spelled(told))
        if kind == "read":
            return "read " + items_of(self.does(spelled(told))[-1])
        if kind == "each":
            return self.each(spelled(told))
        return ended(self.does(spelled(told))[1:-1], end)

    def holds(self, row):
        """Whether a row comes out as it says, None if it only prepares others."""
        word, _, rest = row.partition(" ")
        if word == "on":
            self.told, self.first, self.before = rest, [], []
        elif word == "does":
            self.first = rest.split(";")
        if word in ("#", "on", "does"):
            return None
        if word == "commits":
            told, _, end = rest.partition(" => ")
            found = self.commits(told.split(";"))
        else:
            told, _, end = row.rpartition(" = ")
            found = self.end(told, end)
        if found != end:
            print(f"{found[:300]}, and not as the row says: {row[:300]}")
        return found == end


def main():
    program = os.path.abspath(sys.argv[1] if len(sys.argv) > 1 else PROGRAM)
    with open(os.path.join(HERE, "transactions.txt"), encoding="utf-8") as file:
        text = file.read()
    rows = Rows(program)
    held = [rows.holds(row) for row in text.splitlines()]
    if not all(it is not False for it in held):
        sys.exit(1)
    print(f"{held.count(True)} rows of transactions: all as they should be")


main()
