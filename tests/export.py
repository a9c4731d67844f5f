#!/usr/bin/env python3
"""Exports journals and reads the bytes back with a reader of its own (ion_binary.py): they have to be the values of the journal's
lines. The journals hold every kind of value, what the examples leave, and a made workload. Ends with status 1 where something
isn't as it should be.

    tests/export.py [PROGRAM]

The program is crates/ledger/out/ledger, where `rt ci` leaves it, or another path.
"""
import os
import subprocess
import sys
import tempfile
from pathlib import Path

import ion_binary

ROOT = Path(__file__).resolve().parent.parent
PROGRAM = ROOT / "crates" / "ledger" / "out" / "ledger"
RULES = "// rules "
RUN = ["run", "--workers", "1", "--plain-ids", "--at", "2020-01-01T00:00:00.000Z"]
MAKE = ["make", "--seed", "1", "--sessions", "4", "--transactions", "40", "--workers", "2"]
EMPTY = bytes.fromhex("e00100ea")

# a line is the content of one document
KINDS = r"""
{a:null,b:null.bool,c:null.int,d:null.decimal,e:null.timestamp,f:null.symbol,g:null.string,h:null.clob,i:null.blob}
{a:null.list,b:null.sexp,c:null.struct,d:true,e:false}
{a:0,b:1,c:-1,d:255,e:256,f:-256,g:65535,h:170141183460469231731687303715884105727,i:-170141183460469231731687303715884105728}
{a:0.,b:-0.,c:1.0,d:-1.50,e:123d10,f:-7d-30,g:0d5,h:-0d-5,i:12345678901234567890.123456789}
{a:2007T,b:2007-02T,c:2007-02-03,d:2007-02-03T04:05Z,e:2007-02-03T04:05-00:00,f:2007-02-03T04:05:06+05:30}
{a:2007-02-03T04:05:06.7Z,b:2007-02-03T04:05:06.000-23:59,c:0001-01-01T00:00:00.000000001Z,d:9999-12-31T23:59:59.999999999Z}
{a:x,b:'a b',c:'',d:name,e:$ion,f:'null',g:'+',h:'é'}
{a:"",b:"0123456789abc",c:"0123456789abcd",d:"\"\\\n\t\0é\U0001F600",e:'''long'''}
{a:{{"clob\"\x00\xff"}},b:{{""}},c:{{AA==}},d:{{}},e:{{MDEyMzQ1Njc4OWFiY2RlZg==}}}
{a:[],b:[1,[2,[3]]],c:(),d:(x (y + 1) "z"),e:{},f:{name:1,symbols:2,imports:3,'a b':{c:{d:[{e:1}]}}},g:{a:1,a:2}}
{a:x::1,b:x::y::[y::null,'a b'::(z::{w:name::"s"})],c:version::null.list,d:$ion_1_0::{},e:x::a::b::c::d::e::f::g::h::i::j::k::l::m::{}}
x::{a:1}
""".strip().splitlines()


def run(program, journal, words, script=b""):
    ended = subprocess.run([program, journal] + words, input=script, capture_output=True, check=False)
    return ended.returncode, ended.stdout


def check(holds, what):
    if not holds:
        sys.exit(f"not so: {what}")


def kinds(program, journal):
    """A document of each line, put there, changed and deleted."""
    params = ",".join(KINDS)
    script = (
        '[{statements:["CREATE TABLE t","CREATE INDEX ON t (a)"]},'
        f'{{statements:[{{text:"INSERT INTO t ?",params:[[{params}]]}},"SELECT * FROM t"]}},'
        '{statements:["UPDATE t AS t SET t.added = `x::\'a b\'`","DELETE FROM t AS t WHERE t.a IS NULL"]},'
        '{statements:["DROP TABLE t"]}]'
    )
    status, report = run(program, journal, RUN, script.encode())
    check(status == 0 and report.count(b"committed") == 4, f"the kinds are committed: {report[:400]}")


def rules_of(script):
    """The words that name the rules of the script, if its second line does."""
    second = script.read_text().split("\n")[1]
    return ["--rules", second.removeprefix(RULES)] if second.startswith(RULES) else []


def example(program, journal, scripts):
    for script in scripts:
        status, report = run(program, journal, [*RUN, *rules_of(script)], script.read_bytes())
        check(status == 0, f"{script.name} is run: {report[:400]}")


def made(program, journal):
    check(run(program, journal, MAKE)[0] == 0, "a workload is made")


def exported(program, journal, what):
    """The number of blocks and of bytes of a journal's export, whose values are those of the journal's lines."""
    before = Path(journal).read_bytes()
    status, output = run(program, journal, ["export"], b"no input is read")
    check(status == 0, f"{what} is exported: {output[:400]}")
    check(Path(journal).read_bytes() == before, f"{what} stays as it is")
    lines = before.decode().split("\n")[:-1]
    values = ion_binary.read(output)
    for line, value in zip(lines, values):
        check(line == value, f"{what}, a block:\n  {line}\n  {value}")
    check(len(lines) == len(values), f"{what}: {len(lines)} blocks, {len(values)} values")
    return len(values), len(output)


def ends(program, journal):
    """Statuses 0, 1, 3, 5 and 6, and a rest behind the last line."""
    check(run(program, journal, ["export"]) == (0, EMPTY), "no block")
    check(not os.path.exists(journal), "no journal is made")
    check(run(program, journal, ["export", "1"]) == (1, b"{status:1}\n"), "export takes no words")
    run(program, journal, RUN, b'[{statements:["CREATE TABLE t"]}]')
    whole = run(program, journal, ["export"])
    line = Path(journal).read_bytes()
    Path(journal).write_bytes(line + line[:90])
    check(run(program, journal, ["export"]) == whole, "a rest isn't exported")
    Path(journal).write_bytes(line + line)
    check(run(program, journal, ["export"])[0] == 3, "a damaged journal isn't exported")
    check(run(program, os.path.dirname(journal), ["export"]) == (5, b"{status:5,faults:1}\n"), "a folder is no journal")
    Path(journal).write_bytes(line)
    with open("/dev/full", "wb") as full:
        ended = subprocess.run([program, journal, "export"], stdin=subprocess.DEVNULL, stdout=full, check=False)
    check(ended.returncode == 6, "the output is full")


def main():
    program = os.path.abspath(sys.argv[1] if len(sys.argv) > 1 else PROGRAM)
    examples = {}
    for script in sorted((ROOT / "examples").glob("*.ion")):
        examples.setdefault(script.name.split(".")[0], []).append(script)
    blocks = size = 0
    with tempfile.TemporaryDirectory() as folder:
        ends(program, os.path.join(folder, "ends"))
        makers = {"every kind of value": kinds, "a made workload": made}
        makers |= {f"the example {name}": lambda *at, scripts=scripts: example(*at, scripts) for name, scripts in examples.items()}
        for number, (what, make) in enumerate(makers.items()):
            journal = os.path.join(folder, f"journal-{number}")
            make(program, journal)
            count, length = exported(program, journal, what)
            blocks, size = blocks + count, size + length
    print(f"{len(makers)} journals, whose {blocks} blocks are exported as {size} bytes: all as it should be")


main()
