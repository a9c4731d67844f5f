#!/usr/bin/env python3
"""Tries the verifiers and the program on the vectors of docs/vectors, the page in a browser, and what docs/court.md shows.

    tests/verifiers.py [PROGRAM]

PROGRAM is crates/ledger/out/ledger, where `rt ci` leaves it, or another path. Where node or chromium isn't there, what needs it is
skipped. Ends with `N passed, N failed`, and with status 1 where something failed.
"""
import importlib.machinery
import importlib.util
import json
import os
import shutil
import subprocess
import sys
import tempfile
import time
from concurrent.futures import ThreadPoolExecutor
from pathlib import Path
from urllib.parse import unquote

ROOT = Path(__file__).resolve().parent.parent
VECTORS = ROOT / "docs" / "vectors"
TOOL = ROOT / "tools" / "ledger-verify"
PAGE = ROOT / "tools" / "verify.html"
sys.path.insert(0, str(ROOT / "tests"))
import court

ACCEPTED = "{verified:true}"
NOT_PUBLISHED = "{status:7,fault:{kind:NotPublished}}"
LONGEST = 16_777_216


def load_tool():
    """tools/ledger-verify as a module."""
    loader = importlib.machinery.SourceFileLoader("ledger_verify", str(TOOL))
    module = importlib.util.module_from_spec(importlib.util.spec_from_loader("ledger_verify", loader))
    sys.dont_write_bytecode = True
    loader.exec_module(module)
    return module


tool = load_tool()


class Tally:
    """How many comparisons held and how many didn't."""

    def __init__(self):
        self.passed = self.failed = 0

    def same(self, what, got, wanted):
        if got == wanted:
            self.passed += 1
            return
        self.failed += 1
        if self.failed <= 30:
            print(f"{what}: {str(got)[:300]!r} and not {str(wanted)[:300]!r}")


def load(name):
    return json.loads((VECTORS / f"{name}.json").read_text(encoding="ascii"))


def filled(bundle, vector, data):
    """The bundle of some data, from the template that stands beside the vectors."""
    digest = bundle["digest"].replace("DIGEST", vector["digest"])
    revision = bundle["revision"].replace("REVISION_HASH", vector["revisionHash"]).replace("DATA", data)
    return "\n".join((digest, revision, bundle["proof"], "")).encode()


# ---- What is asked of each verifier: (what, task, the expected answer). The tasks are those of verify_page.js.


def value_task(text):
    return {"do": "value", "text": text.encode().hex()}


def check_task(bundle, published=None):
    return {"do": "check", "published": published and published.encode().hex(), "bundle": bundle.hex()}


def value_cases():
    vectors = load("values")
    for one in vectors["values"]:
        wanted = {"written": one["text"], "serialization": one["serialization"], "hash": one["hash"]}
        yield f"value, {one['name']}", value_task(one["text"]), wanted
        yield f"value in a bundle, {one['name']}", check_task(filled(vectors["bundle"], one, one["text"])), ACCEPTED


def spelling_cases():
    vectors = load("spellings")
    for one in vectors["accepted"]:
        bundle = filled(vectors["bundle"], one, one["text"])
        yield f"spelling in a bundle, {one['rule']}: {one['text'][:40]!r}", check_task(bundle), ACCEPTED
    for one in vectors["refused"]:
        line = f"{{status:2,fault:{{at:{one['at']},kind:{one['kind']}}}}}"
        yield f"refused spelling, {one['rule']}: {one['hex'][:40]}", check_task(bytes.fromhex(one["hex"])), line


def pair_cases():
    vectors = load("pairs")
    for one in vectors["sha256"]:
        data = (one["text"] * one["times"]).encode()
        yield f"SHA-256 of {one['text'][:8]!r}", {"do": "sha256", "data": data.hex()}, one["digest"]
    for one in vectors["dot"]:
        yield f"dot of {one['pair']}", {"do": "dot", "pair": one["pair"]}, one["result"]
    for tree in vectors["trees"]:
        for place, leaf in enumerate(tree["leaves"]):
            task = {"do": "fold", "hashes": [leaf, *tree["siblings"][place]]}
            yield f"the way from leaf {place} of {len(tree['leaves'])}", task, tree["root"]
    for block in load("blocks")["blocks"]:
        for step in block["steps"]:
            if step["of"][0] in '{"':
                yield f"block {block['block']}, {step['step']}", {"do": "hash", "text": step["of"].encode().hex()}, step["hash"]


def bundle_cases():
    for one in load("bundles")["bundles"]:
        yield f"bundle, {one['name']}", check_task(one["bundle"].encode()), one["verify"]
        yield f"bundle and published digest, {one['name']}", check_task(one["bundle"].encode(), one["published"]), one["compared"]
    long = b" " * (LONGEST + 1)
    yield "an input that is too long", check_task(long), "{status:2,fault:{kind:InputTooLong}}"


def cases():
    for family in (value_cases, spelling_cases, pair_cases, bundle_cases):
        yield from family()


# ---- The verifiers


def python_answer(task):
    """What tools/ledger-verify, as a module, says to a task."""
    if task["do"] == "sha256":
        return tool.sha(bytes.fromhex(task["data"])).hex()
    if task["do"] in ("dot", "fold"):
        first, *rest = map(bytes.fromhex, task.get("pair") or task["hashes"])
        for one in rest:
            first = tool.dot(first, one)
        return first.hex()
    if task["do"] == "check":
        return python_check(bytes.fromhex(task["bundle"]), task["published"] and bytes.fromhex(task["published"]))
    [value] = tool.read_values(bytes.fromhex(task["text"]), 256)
    if task["do"] == "hash":
        return tool.hash_of(value).hex()
    return {"written": tool.written(value), "serialization": tool.serialized(value).hex(), "hash": tool.hash_of(value).hex()}


def python_check(data, published):
    try:
        digest, revision, proof = tool.read_bundle(tool.read_values(data))
        if published:
            tool.compare_published(digest, tool.read_digest(tool.read_values(published)[0]))
        tool.verify(digest, revision, proof)
    except tool.Unread as fault:
        return tool.unread(fault, "bundle", True)
    except tool.Refused as fault:
        return tool.refused_line(fault)
    return ACCEPTED


def try_python(tally):
    for what, task, wanted in cases():
        tally.same(f"ledger-verify: {what}", python_answer(task), wanted)


def try_node(tally):
    if not shutil.which("node"):
        print("skipped: the verifier in JavaScript, since there is no node")
        return
    tried = list(cases())
    tasks = json.dumps([task for _, task, _ in tried]).encode()
    ran = subprocess.run(["node", str(ROOT / "tests" / "verify_page.js")], input=tasks, capture_output=True)
    tally.same("node ends", (ran.returncode, ran.stderr.decode()[:300]), (0, ""))
    if ran.returncode:
        return
    for (what, task, wanted), got in zip(tried, json.loads(ran.stdout)):
        if task["do"] == "check":
            tally.same(f"verify.html: {what}, its status", got["status"], 0 if wanted == ACCEPTED else int(wanted.split(":")[1][0]))
            got = got["line"]
        tally.same(f"verify.html: {what}", got, wanted)


# ---- The command


def try_command(tally):
    """The command's words, its status, and what it says to people."""
    vectors = {one["name"]: one for one in load("bundles")["bundles"]}
    honest, deleted = vectors["revision 0 of block 0, tip 4"], vectors["revision 0 of block 3, tip 4"]
    redacted, swapped = vectors["a redacted revision"], vectors["metadata and document exchanged"]
    long = b"1" * (LONGEST + 1)
    with tempfile.TemporaryDirectory() as folder:
        published = os.path.join(folder, "published")

        def tried(what, words, bundle, status, *parts, digest=honest["published"]):
            Path(published).write_text(digest + "\n", encoding="utf-8")
            ran = subprocess.run([sys.executable, str(TOOL), *words], input=bundle, capture_output=True)
            said = ran.stdout.decode() + ran.stderr.decode()
            tally.same(f"ledger-verify, {what}: status", ran.returncode, status)
            for part in parts:
                tally.same(f"ledger-verify, {what}: {part!r} in {said!r}", part in said, True)

        bundle = honest["bundle"].encode()
        parts = ("VERIFIED", 'Owner:"Raul Lewis"', "version 0", "block 4", "2019-06-05T16:30:45.123Z", "Not shown")
        tried("honest", [published], bundle, 0, *parts)
        tried("honest, one line", ["--line", published], bundle, 0, ACCEPTED + "\n")
        tried("deleted", [published], deleted["bundle"].encode(), 0, "VERIFIED", "deleted the document")
        tried("redacted", [published], redacted["bundle"].encode(), 0, "VERIFIED", "redacted; its hash is {{")
        tried("exchanged", [published], swapped["bundle"].encode(), 0, "VERIFIED", "CAUTION", digest=swapped["published"])
        changed = bundle.replace(b"Raul", b"Saul")
        tried("changed", [published], changed, 7, "REFUSED: HashFieldDiffers (code 7)", "stated:{{", "computed:{{")
        tried("cut", [published], bundle[:-9], 2, f"Unclosed at byte {len(bundle) - 9}")
        other = vectors["a sound bundle of another journal"]
        tried("another journal", [published], other["bundle"].encode(), 7, "REFUSED: NotPublished", "--tip 4")
        tried("another journal, one line", ["--line", published], other["bundle"].encode(), 7, NOT_PUBLISHED + "\n")
        hidden = tool.shown(tool.Value((), "string", "\u202eR\u200b\U000e0041"))
        tally.same("hidden characters are shown", hidden, '"\\u202eR\\u200b\\U000e0041"')
        tried("too long", ["--line", published], long, 2, "{status:2,fault:{kind:InputTooLong}}")
        tried("no digest", [published], bundle, 2, "the published digest is no text that is read", digest="5")
        tried("an odd digest", [published], bundle, 2, "BadToken at byte 2", digest="5 ]")
        tried("no file", [os.path.join(folder, "none")], bundle, 2, "the published digest can't be read")
        tried("no words", [], bundle, 1, "name the file of the published digest")
        tried("too many words", [published, published], bundle, 1, "name the file of the published digest")
        tried("help", ["--help"], b"", 0, "NOT proved")


# ---- The program


def run(program, words, data=b""):
    ran = subprocess.run([program, *map(str, words)], input=data, capture_output=True)
    return ran.returncode, ran.stdout.decode()


def line_answer(program, words, data=b""):
    return run(program, words, data)[1].rstrip("\n")


def program_bundles(program, none):
    """(what, a call, the expected line) of each bundle; the values and spellings all at once."""
    values, spellings, bundles = load("values"), load("spellings"), load("bundles")["bundles"]
    every = ",".join(one["text"] for one in values["values"] if one["name"] != values["allBut"])
    yield "every value in one bundle", filled(values["bundle"], values["all"], f"[{every}]"), ACCEPTED
    yield "the deepest value", filled(values["bundle"], values["values"][-1], values["values"][-1]["text"]), ACCEPTED
    every = "\n,".join(one["text"] for one in spellings["accepted"])
    yield "every spelling in one bundle", filled(spellings["bundle"], spellings["all"], f"[{every}]"), ACCEPTED
    for one in spellings["refused"]:
        line = f"{{status:2,fault:{{at:{one['at']},kind:{one['kind']}}}}}"
        yield f"refused spelling {one['rule']}: {one['hex'][:40]}", bytes.fromhex(one["hex"]), line
    for one in bundles:
        yield f"bundle {one['name']}", one["bundle"].encode(), one["verify"]


def try_bundles(tally, program, folder):
    none = os.path.join(folder, "none")
    tried = list(program_bundles(program, none))
    with ThreadPoolExecutor(4) as pool:
        answers = list(pool.map(lambda one: line_answer(program, [none, "verify"], one[1]), tried))
    for (what, _, wanted), got in zip(tried, answers):
        tally.same(f"verify: {what}", got, wanted)


def written_journal(path, lines):
    Path(path).write_bytes("".join(line + "\n" for line in lines).encode())
    return path


def try_journals(tally, program, folder):
    vectors = load("journals")
    whole = {one["name"]: one["lines"] for one in vectors["whole"]}

    def audited(numbered):
        number, one = numbered
        lines = one["lines"] if "lines" in one else whole[one["journal"]][: one["keep"]] + one["then"]
        return line_answer(program, [written_journal(os.path.join(folder, f"journal-{number}"), lines), "audit"])

    tried = vectors["whole"] + vectors["sound"] + vectors["damaged"]
    with ThreadPoolExecutor(4) as pool:
        answers = list(pool.map(audited, enumerate(tried)))
    for one, got in zip(tried, answers):
        damage = f"{{status:3,fault:{{sequence:{one['sequence']},kind:{one['kind']}}}}}" if "kind" in one else None
        tally.same(f"audit: {one['name']}", got, damage or f"{{blocks:{one['blocks']},revisions:{one['revisions']}}}")


def try_whole(tally, program, folder):
    """That the program leaves the lines of whole journals, also compacted, and gives the digests and the bundles of the vectors."""
    whole = {one["name"]: one for one in load("journals")["whole"]}
    for name, row in whole.items():
        journal = os.path.join(folder, name)
        for one in row.get("runs", ()):
            run(program, [journal, "run", "--workers", "1", "--plain-ids", "--at", one["at"]], one["script"].encode())
        if "runs" in row:
            tally.same(f"run: the lines of {name}", Path(journal).read_text(encoding="utf-8").splitlines(), row["lines"])
        written_journal(journal, row["lines"])
        lines = whole[row.get("compact", name)]["lines"]
        tally.same(f"compact: the lines of {name}", run(program, [journal, "compact"]), (0, "".join(line + "\n" for line in lines)))
        for tip, digest in enumerate(row["digests"]):
            tally.same(f"digest --tip {tip} of {name}", line_answer(program, [journal, "digest", "--tip", tip]), digest)
    for one in load("bundles")["bundles"]:
        if "prove" in one:
            place = one["prove"]
            got = run(program, [os.path.join(folder, place["journal"]), "prove", place["sequence"], place["index"], "--tip", place["tip"]])
            tally.same(f"prove: {one['name']}", got, (0, one["bundle"]))


def try_program(tally, program):
    with tempfile.TemporaryDirectory() as folder:
        try_whole(tally, program, folder)
        try_journals(tally, program, folder)
        try_bundles(tally, program, folder)


# ---- The page in a browser

# puts each case into the page's fields, presses its button, and leaves what the page then shows as the document's text; at last the
# bundle is a file that is no UTF-8, and then the field is changed, so that what was found has to go
PRESS = """<script>
const found = CASES.map(([published, bundle]) => {
  for (const [id, text] of [["published", published], ["bundle", bundle]]) {
    document.getElementById(id).value = text;
    document.getElementById(id).dispatchEvent(new Event("input"));
  }
  document.getElementById("check").click();
  const banner = document.getElementById("banner"), boxes = [...document.querySelectorAll("#fold rect")];
  const [passed, failed] = ["good", "bad"].map((style) => document.querySelectorAll("#checks ." + style).length);
  const green = boxes.some((box) => box.getAttribute("stroke") === "#17692f");
  const told = document.getElementById("told").hidden ? "" : document.getElementById("rows").textContent;
  const { hidden } = document.getElementById("caution");
  return [banner.className, banner.textContent, passed, failed, boxes.length, green, told, hidden];
});
(async () => {
  const transfer = new DataTransfer(), chosen = document.getElementById("bundle-file"), field = document.getElementById("bundle");
  transfer.items.add(new File([Uint8Array.of(0x22, 0xff)], "bundle"));
  chosen.files = transfer.files;
  File.prototype.arrayBuffer = async () => Uint8Array.of(0x22, 0xff).buffer; // at once, since the browser's own waits for a disk
  chosen.dispatchEvent(new Event("change"));
  const button = document.getElementById("check");
  const early = button.disabled;
  for (let i = 0; i < 100 && button.disabled; i++) await null;
  button.click();
  const banner = document.getElementById("banner").textContent;
  field.dispatchEvent(new Event("input"));
  found.push([banner, early, document.getElementById("result").hidden]);
  document.body.textContent = "FOUND" + encodeURIComponent(JSON.stringify(found)) + "END";
})();
</script>"""


def browser():
    return next(filter(None, map(shutil.which, ("chromium", "chromium-browser", "google-chrome"))), None)


def page_cases():
    """(the name of a bundle's vector, a change to its text, the banner's class and first words, checks that pass, boxes, green)."""
    nothing = ("", "")
    yield "revision 0 of block 0, tip 4", nothing, "good", "VERIFIED", 9, 18, True
    yield "revision 0 of block 3, tip 4", nothing, "good", "VERIFIED", 9, 14, True
    yield "a redacted revision", nothing, "good", "VERIFIED", 9, 18, True
    yield "metadata and document exchanged", nothing, "good", "VERIFIED", 9, 10, True
    yield "revision 0 of block 0, tip 4", ("Raul", "Saul"), "bad", "REFUSED: HashFieldDiffers (code 7)", 7, 18, False
    yield "one bit of hash 3 of the path", nothing, "bad", "REFUSED: RootDiffers (code 8)", 8, 18, False
    yield "another owner, with its hash computed anew", nothing, "bad", "REFUSED: RootDiffers (code 8)", 8, 18, False
    yield "a sound bundle of another journal", nothing, "bad", "REFUSED: NotPublished", 1, 10, False
    yield "the index is the count", nothing, "bad", "REFUSED: IndexPastCount (code 5)", 5, 18, False
    yield "a path with a hash too few", nothing, "bad", "REFUSED: PathLength (code 6)", 6, 0, False
    yield "two values", nothing, "bad", "REFUSED: Malformed (code 1)", 0, 0, False
    yield "a bundle that is cut", nothing, "bad", "NOT READ: the bundle is no text that is read: Unclosed", 0, 0, False
    yield "base64 of wide letters", nothing, "bad", "NOT READ: the bundle is no text that is read: BadBase64", 0, 0, False


def page_with_cases(vectors):
    inputs = [[vectors[name]["published"], vectors[name]["bundle"].replace(*change)] for name, change, *_ in page_cases()]
    page = PAGE.read_text(encoding="utf-8")
    return page.replace("</body>", PRESS.replace("CASES", json.dumps(inputs).replace("<", "\\u003c")) + "</body>")


def try_browser(tally):
    if not browser():
        print("skipped: the page in a browser, since there is no chromium")
        return
    vectors = {one["name"]: one for one in load("bundles")["bundles"]}
    with tempfile.TemporaryDirectory() as folder:
        page = Path(folder) / "page.html"
        page.write_text(page_with_cases(vectors), encoding="utf-8")
        options = ["--headless", "--no-sandbox", "--disable-gpu", f"--user-data-dir={folder}/profile"]
        options += ["--dump-dom"]
        words = [browser(), *options, page.as_uri()]
        try:
            ran = subprocess.run(words, capture_output=True, timeout=100)
        except subprocess.TimeoutExpired:
            tally.same("the browser ends within 100 seconds", False, True)
            return
    said = ran.stdout.decode()
    tally.same("the page ran in the browser", "FOUND" in said, True)
    if "FOUND" not in said:
        return
    found = json.loads(unquote(said.split("FOUND")[-1].split("END")[0]))
    line = "NOT READ: the bundle is no text that is read: NotUtf8 at byte 1 (counted from 0)."
    tally.same("page, a file, and a changed field", found.pop(), [line, True, True])
    for (name, _, style, words, passed, boxes, green), got in zip(page_cases(), found):
        banner, failed = got[1], 1 if style == "bad" else 0
        tally.same(f"page, {name}: banner", (got[0], banner[: len(words)]), (style, words))
        tally.same(f"page, {name}: checks that pass and fail, boxes, green", got[2:6], [passed, failed, boxes, green])
        tally.same(f"page, {name}: what was verified stands there", bool(got[6]), style == "good")
        tally.same(f"page, {name}: a caution", not got[7], name == "metadata and document exchanged")


def try_vectors(tally):
    """That the vectors are what their generator writes."""
    ran = subprocess.run([sys.executable, str(VECTORS / "make.py"), "--check"], capture_output=True)
    tally.same("docs/vectors are as make.py writes them", (ran.returncode, ran.stdout.decode()), (0, ""))


def main():
    program = os.path.abspath(sys.argv[1] if len(sys.argv) > 1 else ROOT / "crates" / "ledger" / "out" / "ledger")
    if not os.access(program, os.X_OK):
        sys.exit(f"no program at {program}: build it, or name another one")
    tally, begun = Tally(), time.monotonic()
    steps = {
        "vectors": try_vectors,
        "ledger-verify": try_python,
        "the command": try_command,
        "JavaScript": try_node,
        "the browser": try_browser,
        "the program": lambda tally: try_program(tally, program),
        "docs/court.md": lambda tally: court.compare(tally, program),
    }
    for name, step in steps.items():
        before = tally.passed + tally.failed
        step(tally)
        print(f"{name}: {tally.passed + tally.failed - before} comparisons, {time.monotonic() - begun:.0f} s", flush=True)
    print(f"{tally.passed} passed, {tally.failed} failed")
    return 1 if tally.failed else 0


if __name__ == "__main__":
    sys.exit(main())
