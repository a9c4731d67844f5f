#!/usr/bin/env python3
"""Tries the page that `tools/ledger-view JOURNAL html` makes in a browser: a whole journal, damaged ones, its search, its time lines,
the state as of a day, and published digests. The journal is the registry of docs/vectors. Where no chromium is, that is said, and nothing
is tried. Ends with `N passed, N failed`, and with status 1 where one failed.

    tests/journal_page.py [PROGRAM]

PROGRAM isn't run, as the page is made of the file alone.
"""
import json
import subprocess
import sys
import tempfile
from pathlib import Path
from urllib.parse import unquote

sys.dont_write_bytecode = True
from verifiers import ROOT, Tally, browser, load

VIEW = ROOT / "tools" / "ledger-view"
SECONDS = 40
DELETED = '{VIN:"3HGGK5G53FM761765",Owner:"Alexis Pena"}'
GREEN = '{VIN:"KM8SRDHF6EU074761",Owner:"Brent Logan",Colour:"green"}'
BEFORE, AFTER = "2019-06-05T16:30:45.123Z", "2020-02-29T23:59:59.999Z"

# waits for the page's own check, uses the page as a reader would, and leaves what it then shows as the document's text
USE = """<script>
(async () => {
  const part = (id) => document.getElementById(id), all = (id, words) => [...part(id).querySelectorAll(words)];
  const texts = (id, words) => all(id, words).map((element) => element.textContent);
  const typed = (id, text) => { part(id).value = text; part(id).dispatchEvent(new Event("input")); };
  const listed = () => [texts("list", "h2")[0], ...texts("list", ".row .value")];
  const line = () => all("detail", ".time li").map((item) => [item.className, item.querySelector("strong").textContent,
    item.querySelector(".value").textContent, item.querySelector(".hint").textContent]);
  const pressed = (text) => [...document.querySelectorAll("button")].find((button) => button.textContent.includes(text)).click();
  while (part("banner").textContent.startsWith("Checking")) await new Promise((go) => setTimeout(go, 10));
  const found = { banner: [part("banner").className, part("banner").textContent], title: part("title").textContent, documents: listed() };
  found.tip = part("tip").textContent;
  part("digests").value = DIGESTS;
  part("compare").click();
  found.compared = all("compared", "li").map((item) => [item.className, item.textContent]);
  if (found.banner[0] === "good") {
    typed("search", "ALEXIS");
    found.searched = listed();
    pressed("Alexis");
    found.line = line();
    typed("as-of", "2019-06");
    found.earlier = [listed(), line()];
    pressed("block 3");
    found.block = [texts("detail", "h2"), texts("detail", ".value"), listed()];
    typed("as-of", "");
    typed("search", "select");
    found.blocks = listed();
    pressed("SELECT");
    found.query = texts("detail", ".value");
  }
  document.body.textContent = "FOUND" + encodeURIComponent(JSON.stringify(found)) + "END";
})();
</script>"""


def page_of(folder, lines):
    """The page of a journal of these lines, as the tool makes it."""
    journal, page = Path(folder) / "registry", Path(folder) / "page.html"
    journal.write_bytes("".join(line + "\n" for line in lines).encode())
    subprocess.run([sys.executable, str(VIEW), str(journal), "html", str(page)], capture_output=True, check=False)
    return page.read_text(encoding="utf-8")


def shown(folder, text, digests):
    """What the browser shows of a page, with published digests put into it; `None` if it doesn't end in time."""
    page = Path(folder) / "used.html"
    page.write_text(text.replace("</body>", USE.replace("DIGESTS", json.dumps("\n".join(digests))) + "</body>"), encoding="utf-8")
    options = ["--headless", "--no-sandbox", "--disable-gpu", f"--user-data-dir={folder}/profile", "--virtual-time-budget=60000"]
    try:
        ended = subprocess.run([browser(), *options, "--dump-dom", page.as_uri()], capture_output=True, timeout=SECONDS)
    except subprocess.TimeoutExpired:
        return None
    said = ended.stdout.decode()
    return json.loads(unquote(said.split("FOUND")[-1].split("END")[0])) if "FOUND" in said else None


def try_whole(tally, folder, registry):
    digests = registry["digests"]
    found = shown(folder, page_of(folder, registry["lines"]), [*digests[:2], digests[3].replace("sequenceNo:3", "sequenceNo:4")])
    tally.same("the page ends", found is not None, True)
    if found is None:
        return
    told = "All hashes hold: 5 blocks and 7 revisions, computed anew in this browser."
    tally.same("whole: its banner", found["banner"], ["good", told])
    tally.same("whole: its title", found["title"], "The journal registry")
    tally.same("whole: its documents", (found["documents"][0], GREEN in found["documents"], len(found["documents"])), ("4 documents", True, 5))
    tally.same("whole: its digest", found["tip"], digests[-1])
    wanted = [["good", "tip 0: agrees"], ["good", "tip 1: agrees"], ["bad", "tip 4: DIFFERS"]]
    tally.same("whole: published digests", found["compared"], wanted)
    tally.same("a search", found["searched"], ["1 document", f"deleted, and was {DELETED}"])
    first = ["", f"{BEFORE} · version 0", DELETED, "for a proof: prove 0 2 · block 0"]
    last = [f"{AFTER} · version 1", "deleted", "for a proof: prove 3 0 · block 3"]
    tally.same("a time line", found["line"], [first, ["deleted", *last]])
    tally.same("as of a month", found["earlier"], [["1 document", DELETED], [first, ["deleted later", *last]]])
    statement = "DELETE FROM Vehicle AS v WHERE v.VIN = ?"
    tally.same("a block", found["block"][:2], [["Block 3", "1 revision"], [statement, 'with "3HGGK5G53FM761765"', found["block"][1][2], "deleted"]])
    tally.same("blocks that were searched", found["blocks"], ["1 block", "SELECT v.Owner FROM Vehicle AS v"])
    rows = [f'{{Owner:"{name}"}}' for name in ["Melvin Parker", "Brent Logan", "Alexis Pena"]]
    tally.same("a query's answer", sorted(found["query"]), sorted(["SELECT v.Owner FROM Vehicle AS v", *rows]))


def try_damaged(tally, folder, registry):
    """A page that was changed after it was made, and one of a damaged file."""
    text = page_of(folder, registry["lines"])
    cases = [
        ("a changed name", text.replace("Melvin Parker", "Melvin Barker"), "DAMAGED: block 1: revision 0 has another hash"),
        ("another number", text.replace("sequenceNo:2}", "sequenceNo:7}", 1), "DAMAGED: block 2: the block has another number"),
        ("a block that is lost", page_of(folder, registry["lines"][:1] + registry["lines"][2:]), "The journal is damaged from block 1 on"),
        ("a damaged file", page_of(folder, [line.replace("Brent", "Brant") if at == 4 else line for at, line in enumerate(registry["lines"])]), ""),
    ]
    for name, changed, words in cases:
        found = shown(folder, changed, registry["digests"])
        banner = found and found["banner"]
        tally.same(f"{name}: its banner", banner and (banner[0], banner[1][:len(words)]), ("bad", words))


def main():
    tally = Tally()
    if not browser():
        print("skipped: the page of a journal in a browser, since there is no chromium")
    else:
        registry = next(one for one in load("journals")["whole"] if one["name"] == "registry")
        with tempfile.TemporaryDirectory() as folder:
            try_whole(tally, folder, registry)
            try_damaged(tally, folder, registry)
    print(f"{tally.passed} passed, {tally.failed} failed")
    return 1 if tally.failed else 0


if __name__ == "__main__":
    sys.exit(main())
