#!/usr/bin/env python3
"""Finds for each construct that nests how deep the program takes it, and then has 64 workers run all of them at that depth at
once, each a share that begins at another one: what nests is read, meant, compared, hashed, written and read back on the stack of
a worker's thread. What is deeper must be refused as it should be, and no run may end by a signal. Ends with status 1 where
something isn't as it should be.

    tests/nesting.py [PROGRAM [KILOBYTES]]

The program is crates/ledger/out/ledger, where `rt ci` leaves it, or another path. With a number each of its threads has a stack of so
many kilobytes, as `ulimit -s` sets it.
"""
import re
import resource
import subprocess
import sys
import tempfile
from pathlib import Path

import running
from running import PROGRAM, check

WORDS = ["run", "--plain-ids", "--at", "2020-01-01T00:00:00.000Z", "--workers"]
WORKERS = 64
DEEPEST = 70
STEP = 3
SHARE = 32
SECONDS = 300
LEVELS = 64
DOCUMENT = "a parameter or a document that nests too deep"


# ---- what nests

def list_of(depth):
    return "[" * depth + "1" + "]" * depth


def struct_of(depth):
    return "{a:" * depth + "1" + "}" * depth


def sexp_of(depth):
    return "(" * depth + "a" + ")" * depth


def annotated(depth):
    return "x::[" * depth + "y::1" + "]" * depth


def mixed(depth):
    opens = ["[", "{a:", "(", "x::["]
    closes = ["]", "}", ")", "]"]
    kinds = [level % 4 for level in range(depth)]
    return "".join(opens[kind] for kind in kinds) + "1" + "".join(closes[kind] for kind in reversed(kinds))


def wrapped(front, middle, back):
    return lambda depth: front * depth + middle + back * depth


def chained(operator, operand="1"):
    return lambda depth: f" {operator} ".join([operand] * (depth + 1))


# expressions, by how often they nest
EXPRESSIONS = {
    "round brackets": wrapped("(", "1", ")"),
    "NOT": wrapped("NOT ", "TRUE", ""),
    "unary minus": wrapped("- ", "1", ""),
    "lists": wrapped("[", "1", "]"),
    "lists of two": wrapped("[0, ", "1", "]"),
    "bags": wrapped("<<", "1", ">>"),
    "structs": wrapped("{'a': ", "1", "}"),
    "structs of two": wrapped("{'a': 0, 'b': ", "1", "}"),
    "lists, bags and structs": wrapped("[<<{'a': ", "1", "}>>]"),
    "an index in an index": wrapped("t.a[", "0", "]"),
    "an index behind brackets": wrapped("(t.a[", "0", "])"),
    "OR": chained("OR", "FALSE"),
    "AND": chained("AND", "TRUE"),
    "||": chained("||", "'a'"),
    "+": chained("+"),
    "-": chained("-"),
    "*": chained("*"),
    "/": chained("/"),
    "%": chained("%"),
    "OR and AND": chained("OR TRUE AND", "FALSE"),
    "=": wrapped("(1 = ", "1", ")"),
    "= on the left": wrapped("(", "1", " = 1)"),
    "<": wrapped("(1 < ", "1", ")"),
    "IN": wrapped("(1 IN ", "[1]", ")"),
    "IN a list": wrapped("1 IN [", "1", "]"),
    "NOT IN": wrapped("(1 NOT IN ", "[1]", ")"),
    "LIKE": wrapped("('a' LIKE ", "'a'", ")"),
    "BETWEEN": wrapped("(1 BETWEEN 0 AND ", "1", ")"),
    "NOT BETWEEN": wrapped("(1 NOT BETWEEN ", "1", " AND 2)"),
    "IS NULL": wrapped("(", "1", " IS NULL)"),
    "IS NOT MISSING": wrapped("(", "1", " IS NOT MISSING)"),
    "COALESCE": wrapped("COALESCE(", "1", ")"),
    "COALESCE of two": wrapped("COALESCE(NULL, ", "1", ")"),
    "SIZE": wrapped("SIZE(", "[1]", ")"),
    "CHAR_LENGTH": wrapped("CHAR_LENGTH(", "'a'", ")"),
    "CHAR_LENGTH of ||": wrapped("CHAR_LENGTH('a' || ", "'a'", ")"),
    "minus and brackets": wrapped("-(", "1", ")"),
    "a list of NOT": wrapped("[NOT ", "TRUE", "]"),
}
# aggregates' arguments, as whole items
ARGUMENTS = {
    "SUM": ("SUM", wrapped("(", "1", ")")),
    "COUNT": ("COUNT", wrapped("[", "1", "]")),
    "MIN": ("MIN", wrapped("COALESCE(", "1", ")")),
    "MAX": ("MAX", wrapped("- ", "1", "")),
}
# where an expression stands: a statement around it
PLACES = {
    "SELECT VALUE": "SELECT VALUE {} FROM t",
    "an item": "SELECT {} AS x FROM t",
    "WHERE": "SELECT * FROM t WHERE {}",
    "ON": "SELECT VALUE 1 FROM t JOIN t AS u ON {}",
    "the index of a source": "SELECT VALUE x FROM t, t.a[{}] AS x",
    "SET": "UPDATE t SET t.b = {}",
    "the index of a change": "UPDATE t SET t.a[{}] = 1",
    "INSERT INTO a path": "UPDATE t INSERT INTO t.b VALUE {}",
    "AT": "UPDATE t INSERT INTO t.b VALUE 1 AT {}",
    "REMOVE": "UPDATE t REMOVE t.a[{}]",
    "a FROM with a change": "FROM t AS t WHERE {} SET t.b = 1",
    "DELETE": "DELETE FROM t WHERE {}",
}
VALUES = {"lists": list_of, "structs": struct_of, "sexps": sexp_of, "annotated lists": annotated, "all kinds": mixed}


class Construct:
    """One construct by its depth: a statement with its parameters, how it may be refused where it is too deep, and where that begins."""

    def __init__(self, name, statement, refused=("TooDeep",), deepest=None, writes=False):
        self.name, self.statement, self.refused, self.deepest, self.writes = name, statement, refused, deepest, writes

    def transaction(self, depth, aborts):
        text, params = self.statement(depth)
        end = ",end:abort" if aborts or self.writes else ""
        return f"{{statements:[{{text:{quoted(text)},params:[{','.join(params)}]}}]{end}}}"


def quoted(text):
    return '"' + text.replace("\\", "\\\\").replace('"', '\\"') + '"'


def constructs():
    """All of them."""
    made = []
    for name, expression in EXPRESSIONS.items():
        made.append(Construct(name, lambda depth, e=expression: (PLACES["SELECT VALUE"].format(e(depth)), [])))
    for name, (word, expression) in ARGUMENTS.items():
        made.append(Construct(name, lambda depth, w=word, e=expression: (f"SELECT {w}({e(depth)}) FROM t", [])))
    for place, around in PLACES.items():
        writes = not around.startswith("SELECT")
        for name in ["round brackets", "NOT", "lists", "OR", "COALESCE"]:
            statement = lambda depth, a=around, e=EXPRESSIONS[name]: (a.format(e(depth)), [])
            refused = ("TooDeep", DOCUMENT) if writes and name == "lists" else ("TooDeep",)
            made.append(Construct(f"{name} in {place}", statement, refused=refused, writes=writes))
    for name, value in VALUES.items():
        literal = lambda depth, v=value: (f"SELECT VALUE `{v(depth)}` FROM t", [])
        made.append(Construct(f"a literal of {name}", literal, refused=("IonLiteral",), deepest=LEVELS))
        deep = dict(refused=(DOCUMENT,), deepest=LEVELS)
        made.append(Construct(f"a parameter of {name}", lambda depth, v=value: ("SELECT VALUE ? FROM t", [v(depth)]), **deep))
        equal = lambda depth, v=value: (f"SELECT VALUE [? = ?, ? IN [?], `{v(1)}` < ?] FROM t", [v(depth)] * 5)
        made.append(Construct(f"equal {name}", equal, **deep))
        inserted = lambda depth, v=value: ("INSERT INTO t ?", [f"{{a:{v(depth - 1)}}}"])
        made.append(Construct(f"a document of {name}", inserted, writes=True, **deep))
        changed = lambda depth, v=value: ("UPDATE t SET t.b = ?", [v(depth - 1)])
        made.append(Construct(f"a change to {name}", changed, writes=True, **deep))
    path = lambda depth: (f"UPDATE t SET t.deep{'.a' * depth} = 2", [])
    made.append(Construct("a change along a path", path, refused=(), writes=True))
    return made


# ---- runs

def run(program, journal, workers, script):
    return running.run([program, journal, *WORDS, workers], script.encode(), SECONDS)


def session(transactions):
    return "[" + ",\n".join(transactions) + "]"


def set_up(program, journal):
    """A table with one document, as deep as a document may be."""
    document = f"{{a:[1,2],b:[],deep:{struct_of(LEVELS - 1)}}}"
    run(program, journal, 1, session([f'{{statements:["CREATE TABLE t",{{text:"INSERT INTO t ?",params:[{document}]}}]}}']))


def is_taken(line):
    return bool(re.search(r"outcome:(committed|aborted),", line))


def is_refused(line, ways):
    causes = [r"\{code:12,depth:\d+\}" if way == DOCUMENT else r"\{code:1,at:\d+,kind:" + way + r"\}" for way in ways]
    return any(re.search("outcome:refused,.*cause:" + cause, line) for cause in causes)


def find(construct, lines):
    """The greatest depth that is taken, with all deeper ones refused as they should be."""
    taken = [is_taken(line) for line in lines]
    greatest = taken.index(False) if False in taken else len(taken)
    check(not any(taken[greatest:]), f"{construct.name}: what is deeper than what is refused is refused: {taken}")
    for depth, line in enumerate(lines[greatest:], greatest + 1):
        check(is_refused(line, construct.refused), f"{construct.name} of {depth} is refused as {construct.refused}: {line[:500]}")
    if not construct.refused:
        check(greatest == DEEPEST, f"{construct.name} of any depth is taken: {lines[greatest:]}")
    elif construct.deepest is None:
        check(LEVELS // 4 <= greatest <= LEVELS, f"{construct.name}: refused from {greatest + 1} on")
    else:
        check(greatest == construct.deepest, f"{construct.name}: {construct.deepest} deep is the greatest, and not {greatest}")
    return greatest


def main():
    program = str(Path(sys.argv[1] if len(sys.argv) > 1 else PROGRAM).resolve())
    if len(sys.argv) > 2:
        _, most = resource.getrlimit(resource.RLIMIT_STACK)
        resource.setrlimit(resource.RLIMIT_STACK, (int(sys.argv[2]) << 10, most))
    made = constructs()
    with tempfile.TemporaryDirectory() as folder:
        journal = Path(folder) / "journal"
        set_up(program, journal)
        script = "\n".join(session(one.transaction(depth, True) for depth in range(1, DEEPEST + 1)) for one in made)
        lines = run(program, journal, WORKERS, script)
        check(len(lines) == len(made) * DEEPEST, f"a line for each transaction and not {len(lines)}")
        greatest = [find(one, lines[at * DEEPEST : (at + 1) * DEEPEST]) for at, one in enumerate(made)]
    for depth in sorted(set(greatest)):
        names = [one.name for one, taken in zip(made, greatest) if taken == depth]
        print(f"{depth} deep: {', '.join(names)}", flush=True)

    with tempfile.TemporaryDirectory() as folder:
        journal = Path(folder) / "journal"
        set_up(program, journal)
        deep = [one.transaction(depth, False) for one, depth in zip(made, greatest)]
        shares = [[deep[(at * STEP + turn) % len(deep)] for turn in range(SHARE)] for at in range(WORKERS)]
        lines = run(program, journal, WORKERS, "\n".join(map(session, shares)))
        check(len(lines) == WORKERS * SHARE, f"a line for each transaction and not {len(lines)}")
        check(all(map(is_taken, lines)), f"each is taken: {[line[:500] for line in lines if not is_taken(line)][:3]}")

        # writes that are committed: each session in a table of its own, as many as tables may be active
        tables = [f"t{at}" for at in range(19)]
        made_tables = ",".join(f'{{statements:["CREATE TABLE {name}"]}}' for name in tables)
        run(program, journal, 1, f"[{made_tables}]")
        value = mixed(LEVELS - 1)
        writes = lambda name: session([
            f'{{statements:[{{text:"INSERT INTO {name} ?",params:[{{a:{value}}}]}}]}}',
            f'{{statements:[{{text:"UPDATE {name} SET {name}.b = ?",params:[{value}]}}]}}',
            f'{{statements:[{{text:"SELECT * FROM {name} WHERE {name}.b = ?",params:[{value}]}}]}}',
            f'{{statements:["SELECT * FROM history({name}) AS h"]}}',
        ])
        lines = run(program, journal, WORKERS, "\n".join(map(writes, tables)))
        check(len(lines) == 4 * len(tables) and all("outcome:committed" in line for line in lines), "each write is committed")
        check(all(line.count(value) == 2 for line in lines[2::4]), "each document is found by its deep value")
        ended = subprocess.run([program, str(journal), "audit"], capture_output=True)
        check(ended.returncode == 0, f"the journal is read back: {ended.stdout!r}")
    print(f"{len(made)} constructs at their greatest depth by {WORKERS} workers at once: all as it should be")


main()
