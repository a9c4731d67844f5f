#!/usr/bin/env python3
"""Forges bundles: honest ones with bytes changed, parts of others in place of their own, paths of other lengths, hashes made anew, and
digests that the forger made. Each is judged by tools/ledger-verify, which shares no code with the program, and by the program's
`verify`, which have to say the same. If it is accepted, and now and then if it isn't, `extract` has to say what the journal's own lines
say: where the revision stands, or that the digest isn't the journal's. Ends with `N passed, N failed`, and with status 1 where one
failed.

    tests/forged_bundles.py [PROGRAM] [--count COUNT] [--seed SEED] [--workers WORKERS] [--forks]

PROGRAM is crates/ledger/out/ledger, where `rt ci` leaves it, or another path. There are COUNT bundles, 2,000 if absent; equal seeds
make equal ones. How far it is stands on standard error. With `--forks`, for many bundles, the program is started once for each journal
and command, and each bundle is judged by a fork of it that begins at its `main` (tests/forks.c), for which there has to be a C compiler.
"""
import argparse
import importlib.machinery
import importlib.util
import os
import random
import re
import select
import struct
import subprocess
import sys
import tempfile
import time
from collections import Counter
from concurrent.futures import ProcessPoolExecutor
from functools import lru_cache, partial
from pathlib import Path
from typing import NamedTuple

ROOT = Path(__file__).resolve().parent.parent
PROGRAM = ROOT / "crates" / "ledger" / "out" / "ledger"
COUNT = 2_000
BATCH = 250  # bundles that one process forges
OTHERS = 10  # one refused bundle in so many is given to `extract` too
EVERY = 10  # seconds between two words on standard error
SECONDS = 600  # that a run may take, also where others keep the processors busy
MOST_TOLD = 20
REMEMBERED = 4_096  # lines of bundles whose values are at hand
ACCEPTED = "{verified:true}"
NOT_PUBLISHED = "{status:7,fault:{kind:NotPublished}}"
RUN = ["run", "--workers", "1", "--at", "2020-01-01T00:00:00.000Z"]


def load_verifier():
    """The module of tools/ledger-verify, which has no name that an import could take."""
    loader = importlib.machinery.SourceFileLoader("ledger_verify", str(ROOT / "tools" / "ledger-verify"))
    module = importlib.util.module_from_spec(importlib.util.spec_from_loader("ledger_verify", loader))
    sys.dont_write_bytecode = True
    sys.modules["ledger_verify"] = module
    loader.exec_module(module)
    return module


tool = load_verifier()


# ---- Runs of the program


def ended(program, words, data=b""):
    """The exit status of a command, and what it writes."""
    run = subprocess.run([program, *map(str, words)], input=data, capture_output=True, timeout=SECONDS)
    return run.returncode, run.stdout.decode()


def said(program, words, data=b""):
    """What a command writes, on one line or more."""
    return ended(program, words, data)[1]


class Forks:
    """A program that stands ahead of its `main`, and is forked for each run (tests/forks.c)."""

    def __init__(self, library, program, words):
        streams = {"stdin": subprocess.PIPE, "stdout": subprocess.PIPE, "stderr": subprocess.DEVNULL}
        self.process = subprocess.Popen([program, *words], env=os.environ | {"LD_PRELOAD": library}, **streams)

    def ended(self, data):
        """The exit status of a run that is given these bytes, and what it writes."""
        self.process.stdin.write(struct.pack("=Q", len(data)) + data)
        self.process.stdin.flush()
        if not select.select([self.process.stdout], [], [], SECONDS)[0]:
            raise TimeoutError(f"no fork of {self.process.args} ends")
        status, size = struct.unpack("=QQ", self.process.stdout.read(16))
        return os.waitstatus_to_exitcode(status), self.process.stdout.read(size).decode()


class Runner(NamedTuple):
    """How the program is run: its path, and the library of tests/forks.c, or None where each run is a process of its own."""

    program: str
    library: object

    def ended(self, words, data):
        """The exit status of a command, and what it writes."""
        if self.library is None:
            return ended(self.program, words, data)
        return forks(self.library, self.program, *words).ended(data)


@lru_cache(None)
def forks(library, program, *words):
    """The one Forks of this process for these words."""
    return Forks(library, program, words)


def built_library(folder):
    """The library of tests/forks.c."""
    library = os.path.join(folder, "forks.so")
    source = str(ROOT / "tests" / "forks.c")
    subprocess.run(["cc", "-shared", "-fPIC", "-O2", "-o", library, source], check=True)
    return library


# ---- Honest bundles


class Source(NamedTuple):
    """A journal: its path, its digests by their tips, the hashes of each block's revisions, and honest bundles."""

    path: str
    digests: dict
    hashes: list
    bundles: list


def script(first, blocks):
    """A script of some blocks with up to five revisions, among them deletes and equal documents."""
    lines = ['{statements:["CREATE TABLE t"]}']
    for block in range(blocks):
        values = ",".join(f"{{k:{block},n:{n % 2},at:{first}}}" for n in range((block + 2) % 5))
        statements = [f'{{text:"INSERT INTO t ?",params:[[{values}]]}}'] if values else []
        statements += ['"UPDATE t AS t SET t.n = [1.50, `x::(a b)`, `{{YQ==}}`] WHERE t.k = 1"'] if block == 5 else []
        statements += ['"DELETE FROM t AS t WHERE t.k = 2"'] if block == 6 else []
        lines.append(f"{{statements:[{','.join(statements)}]}}")
    return f"[{','.join(lines)}]".encode()


def fields_of(value):
    return dict(value.content)


def source(program, path, seed, first, blocks):
    """A journal that is made, and all that is asked of it."""
    said(program, [path, *RUN, "--seed", seed], script(first, blocks))
    lines = [fields_of(tool.read_values(line, 256)[0]) for line in Path(path).read_bytes().splitlines()]
    digests = {tip: said(program, [path, "digest", "--tip", tip]).strip() for tip in range(len(lines))}
    hashes = [[fields_of(revision)["hash"].content for revision in line["revisions"].content] for line in lines]
    places = [(sequence, index) for sequence, block in enumerate(hashes) for index in range(len(block))]
    tips = [(place, tip) for place in places for tip in {place[0], len(lines) - 1, (place[0] + len(lines)) // 2}]
    bundles = [said(program, [path, "prove", *place, "--tip", tip]) for place, tip in tips]
    return Source(path, digests, hashes, [tuple(bundle.splitlines()) for bundle in bundles])


def sources(program, folder):
    """Journals of several lengths, two of which have one strand and part behind their first block."""
    made = [(1, "a", 1), (2, "a", 3), (3, "a", 9), (3, "b", 9), (4, "a", 20)]
    return [source(program, os.path.join(folder, f"journal-{n}"), *what) for n, what in enumerate(made)]


# ---- Forgeries

NUMBERED = re.compile("(?:sequenceNo|index|revisionCount|version):")
DIGITS = re.compile("[0-9]*")

# Each takes a chance, the journals, and an honest bundle of one of them, as its three lines.


@lru_cache(REMEMBERED)
def value_of(line):
    return tool.read_values(line.encode())[0]


def blob(data):
    return tool.Value((), "blob", data)


def bytes_changed(rng, journals, bundle):
    """Some bytes more, less or changed."""
    text = bytearray("\n".join(bundle).encode())
    for _ in range(rng.choice([1, 1, 1, 2, 5])):
        at = rng.randrange(len(text))
        text[at:at + rng.randrange(2)] = rng.choice([b"", b"0", b"1", b"a", b" ", b"}", b",", bytes([rng.randrange(256)])])
    return bytes(text)


def digit_changed(rng, journals, bundle):
    """A digit or a letter in the place of another."""
    text = "\n".join(bundle)
    at = rng.randrange(len(text))
    while not text[at].isalnum():
        at = rng.randrange(len(text))
    return (text[:at] + rng.choice("0123456789ABCXYZabcxyz+/") + text[at + 1:]).encode()


def other_bundle(rng, journals):
    return rng.choice(rng.choice(journals).bundles)


def parts_swapped(rng, journals, bundle):
    """One or two of the three parts are those of another bundle, perhaps of another journal."""
    lines, other = list(bundle), other_bundle(rng, journals)
    for part in rng.sample(range(3), rng.randrange(1, 3)):
        lines[part] = other[part]
    if rng.random() < 0.05:
        rng.shuffle(lines)
    return "\n".join(lines[:rng.choice([3] * 20 + [2])]).encode()


def changed_path(rng, path, more):
    """The path with a hash more, less, exchanged, doubled or changed."""
    path, at = list(path), rng.randrange(len(path) + 1)
    how = rng.randrange(5)
    if how == 0 or at == len(path):
        path.insert(at, rng.choice(more))
    elif how == 1:
        del path[at]
    elif how == 2:
        path[at], path[0] = path[0], path[at]
    elif how == 3:
        path[at] = rng.choice(more)
    else:
        path[at:at + 1] = [tool.dot(path[at], rng.choice(more))]
    return path


def with_path(proof, path):
    fields = [(name, tool.Value((), "list", [blob(one) for one in path]) if name == "path" else part) for name, part in proof.content]
    return tool.Value((), "struct", fields)


def path_of(proof):
    return [one.content for one in fields_of(proof)["path"].content]


def path_changed(rng, journals, bundle):
    """The path is another one, with hashes of this bundle and of others."""
    digest, revision, proof = map(value_of, bundle)
    other = value_of(other_bundle(rng, journals)[2])
    more = path_of(proof) + path_of(other) + [tool.read_revision(revision).stated, tool.read_digest(digest).hash, bytes(32)]
    path = path_of(proof)
    for _ in range(rng.choice([1, 1, 2])):
        path = changed_path(rng, path, more)
    return "\n".join([*bundle[:2], tool.written(with_path(proof, path))]).encode()


def number_changed(rng, journals, bundle):
    """A tip, an index, a count or an address is another one, which a digest and a proof don't always bind."""
    text = "\n".join(bundle)
    places = [found.end() for found in NUMBERED.finditer(text)]
    for at in rng.sample(places, rng.choice([1, 1, 2, 3])):
        end = DIGITS.match(text, at).end()
        number = max(int(text[at:end]) + rng.choice([-1, 1, 2, 7]), 0)
        if end - at == len(str(number)):  # the places behind it stay where they are
            text = text[:at] + str(number) + text[end:]
    return text.encode()


def rehashed(revision, data, metadata):
    """The revision with these parts, and the hash that belongs to them."""
    parts = fields_of(revision) | {"metadata": metadata} | ({"data": data} if data else {})
    stated = tool.dot(tool.hash_of(metadata), tool.hash_of(data)) if data else tool.hash_of(metadata)
    names = ["blockAddress", "hash", *(["data"] if data else []), "metadata"]
    return tool.Value((), "struct", [(name, blob(stated) if name == "hash" else parts[name]) for name in names])


def content_forged(rng, journals, bundle):
    """Other content, other metadata or none, or both exchanged, with a hash of their own."""
    revision, other = value_of(bundle[1]), value_of(other_bundle(rng, journals)[1])
    data, metadata = fields_of(revision).get("data"), fields_of(revision)["metadata"]
    new = [(fields_of(other).get("data"), metadata), (data, fields_of(other)["metadata"]), (None, metadata)]
    new += [(metadata, metadata), (tool.Value((), "int", rng.randrange(9)), metadata)]
    return "\n".join([bundle[0], tool.written(rehashed(revision, *rng.choice(new))), bundle[2]]).encode()


def digest_forged(rng, journals, bundle):
    """The digest is the one to which a forged bundle leads, so that it is accepted, and is no journal's."""
    forge = rng.choice([content_forged, path_changed, number_changed])
    lines = forge(rng, journals, bundle).decode().split("\n")
    try:
        digest, revision, proof = tool.read_bundle([value_of(line) for line in lines])
    except (tool.Unread, tool.Refused):
        return "\n".join(lines).encode()
    root = tool.fold(revision, proof)
    tip = fields_of(value_of(lines[0]))["digestTipAddress"]
    made = tool.Value((), "struct", [("digest", blob(root)), ("digestTipAddress", tip)])
    return "\n".join([tool.written(made), *lines[1:]]).encode()


def honest(rng, journals, bundle):
    return "\n".join([*bundle, ""]).encode()


FORGERIES = [bytes_changed, digit_changed, parts_swapped, parts_swapped, path_changed, path_changed, number_changed, number_changed]
FORGERIES += [content_forged, digest_forged, honest]


# ---- What has to be said


def verdict(data):
    """What tools/ledger-verify says of a bundle, and its digest and revision if it is one."""
    try:
        parts = tool.read_bundle(tool.read_values(data))
    except tool.Unread as fault:
        return tool.unread(fault, "bundle", True), None
    except tool.Refused as fault:
        return tool.refused_line(fault), None
    try:
        tool.verify(*parts)
    except tool.Refused as fault:
        return tool.refused_line(fault), parts
    return ACCEPTED, parts


def extract(journal, line, parts):
    """What `extract` has to say of a bundle with this verdict, by the lines of the journal and its digests."""
    if parts is None:
        return line
    digest, revision, _ = parts
    own = journal.digests.get(digest.tip.sequence)
    if own is None or tool.read_digest(value_of(own)) != digest:
        return NOT_PUBLISHED
    if line != ACCEPTED:
        return line
    block = journal.hashes[revision.address.sequence]
    return f"{{found:{block.index(revision.stated)}}}" if revision.stated in block else "a place in the journal, where it doesn't stand"


def status_of(line):
    """The exit status of a command that writes this line."""
    return int(line[8]) if line.startswith("{status:") else 0


def kind_of(line):
    """The sort of an answer."""
    if line.startswith("{status:7"):
        return re.search(r"(?:code|kind):\w+", line)[0]
    return "status:2" if line.startswith("{status:2") else line.strip("{}").split(":")[0]


class Tried:
    """What was tried, and what isn't as it should be."""

    def __init__(self, runner, journals):
        self.runner, self.journals = runner, journals
        self.faults, self.kinds = [], Counter()

    def same(self, words, data, line, what):
        """Runs a command on a bundle, which has to write this line."""
        status, text = self.runner.ended(words, data)
        if text.rstrip("\n") != line or status != status_of(line):
            self.faults.append(f"{' '.join(words)}, {what}: the program says {text!r} with status {status}, and not {line!r}")

    def one(self, rng, what):
        """Forges a bundle and tries it."""
        journal = rng.choice(self.journals)
        forge, bundle = rng.choice(FORGERIES), rng.choice(journal.bundles)
        data = forge(rng, self.journals, bundle)
        line, parts = verdict(data)
        verb = "accepted" if line == ACCEPTED else "refused"
        what = f"{what}, {forge.__name__}: {data!r}"
        self.same(["/", "verify"], data, line, what)
        self.kinds[f"{forge.__name__} {verb}"] += 1
        self.kinds[f"verify {kind_of(line)}"] += 1
        if line == ACCEPTED or rng.randrange(OTHERS) == 0:
            wanted = extract(journal, line, parts)
            self.same([journal.path, "extract"], data, wanted, what)
            self.kinds[f"extract, {verb}: {kind_of(wanted)}"] += 1


def batch(runner, journals, seed, numbers):
    """What isn't as it should be of these bundles, and how often each answer came."""
    tried, failed = Tried(runner, journals), 0
    for number in numbers:
        before = len(tried.faults)
        tried.one(random.Random(f"{seed} {number}"), f"bundle {number} of seed {seed}")
        failed += len(tried.faults) > before
    return tried.faults, tried.kinds, failed


def words_given():
    words = argparse.ArgumentParser(description="Forges bundles, and compares what two verifiers say of them.")
    words.add_argument("program", nargs="?", default=str(PROGRAM))
    words.add_argument("--count", type=int, default=COUNT)
    words.add_argument("--seed", type=int, default=0)
    words.add_argument("--workers", type=int, default=os.cpu_count())
    words.add_argument("--forks", action="store_true")
    return words.parse_args()


def main():
    given = words_given()
    program, count = os.path.abspath(given.program), given.count
    if not os.access(program, os.X_OK):
        sys.exit(f"there is no program {program}")
    begun, told, kinds, done, failed = time.monotonic(), 1, Counter(), 0, 0
    with tempfile.TemporaryDirectory() as folder, ProcessPoolExecutor(given.workers) as pool:
        runner = Runner(program, built_library(folder) if given.forks else None)
        judge = partial(batch, runner, sources(program, folder), given.seed)
        ranges = [range(begin, min(begin + BATCH, count)) for begin in range(0, count, BATCH)]
        for numbers, (faults, counted, wrong) in zip(ranges, pool.map(judge, ranges)):
            for fault in faults[:max(MOST_TOLD - failed, 0)]:
                print(fault[:2000], flush=True)
            done, failed, kinds = done + len(numbers), failed + wrong, kinds + counted
            if time.monotonic() >= begun + EVERY * told:
                told = int((time.monotonic() - begun) / EVERY) + 1
                print(f"{done:,} of {count:,} bundles, {time.monotonic() - begun:.0f} s", file=sys.stderr, flush=True)
    print(f"{done:,} bundles of seed {given.seed}:", ", ".join(f"{kind} {times:,}" for kind, times in sorted(kinds.items())))
    print(f"{done - failed} passed, {failed} failed")
    return 1 if failed else 0


if __name__ == "__main__":
    sys.exit(main())
