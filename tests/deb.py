#!/usr/bin/env python3
"""Makes the Debian package by tools/deb, unpacks it into an empty folder, and tries what is in it: the program on the examples
and on the commands of docs/court.md, the tools, the man pages with their examples, the completion in bash, the Python package.

    tests/deb.py [--root | --root-of FOLDER] [--suite SUITE] [--mirror URL] [PROGRAM]

PROGRAM is crates/ledger/out/ledger, where `rt ci` leaves it, or another path. With `--root` the package is also installed in a
new root of Debian that debootstrap makes of MIRROR's packages, tried there by a user without rights, and removed. This takes some
minutes, root's rights and a network, so tests/all.py does without it. With `--root-of` it is a copy of a root of Debian that stands
in FOLDER, with python3, man-db and bash-completion, and there is no need of a network. What can't be done here is skipped, and said.
Ends with `N passed, N failed`, and with status 1 where something failed.
"""
import argparse
import hashlib
import io
import os
import pty
import re
import select
import shutil
import subprocess
import sys
import tarfile
import tempfile
import time
from itertools import groupby
from pathlib import Path

sys.dont_write_bytecode = True
import court

TOP = Path(__file__).resolve().parent.parent
PROGRAM = TOP / "crates" / "ledger" / "out" / "ledger"
PACKAGE = "ledger-database"
GATE = "140 passed, 0 failed"
# what stands in tools/ for those who work on the repository
NOT_FOR_USERS = {"crates_page.py", "deb", "deps.py", "quick"}
NOBODY = 65534
# runs words in a root of Debian, with what the system tells of its processes
INSIDE = f'mount -t proc proc "$0/proc" && exec chroot --userspec={NOBODY}:{NOBODY} "$0" "$@"'
PAGE_LINT = "MANROFFSEQ= MANWIDTH=80 man --warnings -E UTF-8 -l -Tutf8 -Z"


class Tally:
    """How many comparisons held and how many didn't."""

    def __init__(self):
        self.passed = self.failed = 0

    def same(self, what, got, wanted):
        if got == wanted:
            self.passed += 1
            return
        self.failed += 1
        print(f"{what}: not as it should be\n--- got\n{got}\n--- wanted\n{wanted}")


def skip(what):
    print(f"skipped: {what}")


class Place:
    """Where the package stands: unpacked in a folder, or installed in a root of Debian."""

    def __init__(self, root, installed):
        self.root, self.installed = Path(root), installed
        self.work = self.root / "work"

    def words(self, script):
        """The words and the settings that run a script of bash there, in the folder `work`."""
        if self.installed:
            inside = ["unshare", "--mount", "sh", "-c", INSIDE, str(self.root), "/usr/bin/env", "-i", "-C", "/work"]
            return {"args": [*inside, "PATH=/usr/bin:/bin", "HOME=/work", "LC_ALL=C.UTF-8", "LEDGER_QUIET=yes", "bash", "-c", script]}
        paths = {"PATH": f"{self.root}/usr/bin:/usr/bin:/bin", "PYTHONPATH": f"{self.root}/usr/lib/python3/dist-packages"}
        settings = {"LC_ALL": "C.UTF-8", "HOME": str(self.work), "PYTHONDONTWRITEBYTECODE": "1", "LEDGER_QUIET": "yes", **paths}
        return {"args": ["bash", "-c", script], "env": settings, "cwd": self.work}

    def path(self, path):
        """The path there of a file of the package."""
        return f"/{path}" if self.installed else str(self.root / path)

    def run(self, script, data=b""):
        """What a script of bash prints there, on both streams."""
        ended = subprocess.run(**self.words(script), input=data, stdout=subprocess.PIPE, stderr=subprocess.STDOUT, check=False)
        return ended.stdout.decode(errors="replace")

    def empty(self):
        """Makes the folder `work` anew."""
        shutil.rmtree(self.work, ignore_errors=True)
        self.work.mkdir()
        if self.installed:
            os.chown(self.work, NOBODY, NOBODY)


# ---- the package


def made(program, folder, *words, **settings):
    """The status of tools/deb and the path that it prints."""
    command = [sys.executable, str(TOP / "tools" / "deb"), "--to", str(folder), *words, str(program)]
    ended = subprocess.run(command, capture_output=True, text=True, check=False, **settings)
    return ended.returncode, ended.stdout.strip()


def build(tally, program, folder):
    """Makes the package twice and returns its path."""
    status, package = made(program, folder / "one", "--gate", GATE)
    if status:
        sys.exit("tools/deb made no package")
    elsewhere = {**os.environ, "TZ": "Pacific/Auckland", "LC_ALL": "C"}
    _, again = made(program, folder / "two", "--gate", GATE, env=elsewhere, umask=0o077)
    tally.same("the package made twice", Path(package).read_bytes() == Path(again).read_bytes(), True)
    for line in ["140 passed, 1 failed", "0 passed, 0 failed", "all is well"]:
        tally.same(f"a gate's line {line!r}", made(program, folder / "three", "--gate", line), (1, ""))
    tally.same("a text in the program's place", made(TOP / "README.md", folder / "three"), (1, ""))
    _, unproved = made(program, folder / "four")
    tally.same("a package without a gate's line", "may be one" in field(unproved, "Description"), True)
    tally.same("a package with a gate's line", "may be one" in field(package, "Description"), False)
    return Path(package)


def field(package, name):
    return subprocess.run(["dpkg-deb", "-f", str(package), name], capture_output=True, text=True, check=True).stdout


def contents(tally, package, program):
    """Compares the package's files with those that they were made of."""
    data = subprocess.run(["dpkg-deb", "--fsys-tarfile", str(package)], capture_output=True, check=True).stdout
    with tarfile.open(fileobj=io.BytesIO(data)) as archive:
        members = archive.getmembers()
        files = {it.name[2:]: archive.extractfile(it).read() for it in members if it.isfile()}
    tally.same("owners", {(it.uid, it.gid) for it in members}, {(0, 0)})
    tally.same("times", len({it.mtime for it in members}), 1)
    modes = {it.name: oct(it.mode) for it in members if it.isreg() and it.mode != (0o755 if "/bin/" in it.name else 0o644)}
    tally.same("modes", modes, {})
    tally.same("the program", files["usr/bin/ledger"] == Path(program).read_bytes(), True)
    record = files[f"usr/share/doc/{PACKAGE}/program.txt"].decode()
    sha256 = hashlib.sha256(files["usr/bin/ledger"]).hexdigest()
    tally.same("the record's hash", re.findall("^sha256: *(.*)$", record, re.M), [sha256])
    tally.same("the record's gate", re.findall("^gate: *(.*)$", record, re.M), [GATE])
    for path in (TOP / "clients" / "python" / "ledger").glob("*.*"):
        tally.same(path.name, files[f"usr/lib/python3/dist-packages/ledger/{path.name}"], path.read_bytes())
    for name in tools():
        lines = files[f"usr/bin/{name}"].split(b"\n", 1)
        tally.same(f"{name}'s first line", lines[0] in (b"#!/usr/bin/python3", b"#!/bin/sh", b"#!/bin/bash"), True)
        tally.same(name, lines[1], (TOP / "tools" / name).read_bytes().split(b"\n", 1)[1])
        for path in [f"usr/share/man/man1/{name}.1.gz", f"usr/share/bash-completion/completions/{name}"]:
            tally.same(path, path in files, True)


def tools():
    """The tools that are for users: each is to have a page and a completion."""
    names = {path.name for path in (TOP / "tools").iterdir() if path.is_file() and os.access(path, os.X_OK)}
    return sorted(names - NOT_FOR_USERS)


def pages():
    """The pages of the program, of the tools that are there, and of forms."""
    found = sorted((TOP / "docs" / "man").iterdir())
    return [path for path in found if path.suffix != ".1" or path.stem in ["ledger", *tools()]]


# ---- the pages


def plain(source):
    """The text of a page's source without its marks."""
    text = re.sub(r"^\.(?:[A-Z]+ ?)?", "", source, flags=re.M)
    for mark, sign in {r"\f.": "", r"\\\(aq": "'", r"\\\(ha": "^", r"\\\(dq": '"', r"\\-": "-", r"\\e": r"\\"}.items():
        text = re.sub(mark, sign, text)
    return text


def page(name):
    return (TOP / "docs" / "man" / name).read_text(encoding="utf-8")


def table(document, heading):
    """The rows of the table that has a heading."""
    lines = (TOP / "docs" / document).read_text(encoding="utf-8").split(f"\n{heading}", 1)[1].splitlines()[2:]
    rows = lines[: next((at for at, line in enumerate(lines) if not line.startswith("|")), len(lines))]
    return [[cell.strip() for cell in row.strip("|").split(" | ")] for row in rows]


def named(rows, column=0):
    """The names in a column of a table that stand between backquotes."""
    return [name for row in rows for name in re.findall(r"`(?:[a-z]+:)?(\w+)", row[column])]


def options_of(text):
    return sorted(set(re.findall(r"(?<![\w-])--[a-z-]+", text)))


def commands():
    """The program's commands, each with its options."""
    rows = table("formats.md", "| Command | Words after it | Reads | Writes |")
    return [(row[0].strip("`"), options_of(row[1])) for row in rows]


def stated(tally):
    """Looks for what docs/formats.md names in the pages: outcomes, statuses, kinds, checks, codes, options."""
    ledger, journal = page("ledger.1"), page("ledger-journal.5")
    errors = table("formats.md", "| Status | Line | When |")
    kinds = [kind for row in errors for kind in re.findall(r"kind:(\w{2,})", row[1])]
    scripts = (TOP / "docs" / "formats.md").read_text(encoding="utf-8").split("The fault is the first", 1)[1].split("\n\n", 1)[0]
    kinds += re.findall(r"`([A-Z]\w+)`", scripts)
    kinds += named(table("formats.md", "| Kind of a fault | What is refused |"))
    kinds += named(table("statements.md", "| Kind of code 1 | Means |"))
    outcomes = named(table("formats.md", "| Outcome | Text |"), 1)
    tally.same("outcomes", re.findall(r"^\.TP\n\.B (\w+)$", ledger.split("SH REPORTS")[1].split(".SS")[0], re.M), outcomes)
    for name in set(kinds):
        tally.same(f"ledger.1 says {name}", name in re.findall(r"\w+", ledger), True)
    causes = re.findall(r"^\.TP\n\.BR? ([0-9].*)$", ledger.split("SS Causes")[1].split(".SH")[0], re.M)
    codes = [row[0] for row in table("formats.md", "| Code | Fields | The statement |")]
    tally.same("causes", [" ".join(it.replace('"', "").split()).replace(" ,", ",") for it in causes], codes)
    statuses = re.findall(r"^\.TP\n\.B (\d)$", ledger.split("SH EXIT")[1].split("SH FILES")[0], re.M)
    tally.same("statuses", set(statuses), {row[0] for row in errors} | {"0", "6", "8"})
    checks = journal.split("SS Checks")[1].split(".SS")[0]
    damages = named(table("formats.md", "| Damage | The line fails if |"))
    tally.same("checks", re.findall(r"^\.B ([A-Z]\w+)$", checks, re.M), damages)
    bundles = [(row[0], row[1].strip("`")) for row in table("formats.md", "| Code | Fault | Fields | A bundle is refused if |")]
    tally.same("codes of bundles", re.findall(r'^\.BR (\d) " \((\w+)\)"$', journal, re.M), bundles)
    for name, options in commands():
        tally.same(f"ledger.1 says {name}", bool(re.search(rf"^{name}$", plain(ledger), re.M)), True)
        for option in options:
            tally.same(f"ledger.1 says {option}", option in plain(ledger), True)


def helps_of(place):
    """What each tool's help says, of the tool and of each of its commands."""
    helps = {}
    for name in tools():
        told = place.run(f"{name} --help")
        commands = re.findall(r"^    (\w+) {2,}", told, re.M) if "positional arguments" in told else []
        helps[name] = {"": told, **{command: place.run(f"{name} J {command} --help") for command in commands}}
    return helps


def helped(tally, place):
    """Looks for each command and option of a tool's help in its page, and in what is completed."""
    for name, helps in helps_of(place).items():
        text = plain(page(f"{name}.1"))
        tally.same(f"{name}.1 says that it isn't proved", "not proved" in text.replace("\n", " "), True)
        for command in filter(None, helps):
            tally.same(f"{name}.1 says {command}", bool(re.search(rf"^{command}$", text, re.M)), True)
            tally.same(f"{name} J {command} -", completed(place, [name, "J", command, "-"]), options_of(helps[command]))
        for option in {option for told in helps.values() for option in options_of(told)}:
            tally.same(f"{name}.1 says {option}", option in text, True)
        if len(helps) > 1:
            tally.same(f"{name} J ..", completed(place, [name, "J", ""]), sorted(filter(None, helps)))


def readable(tally, place):
    """Reads each page by `man`, with its warnings."""
    if "man" not in place.run("command -v man"):
        return skip("the pages are not read: there is no man")
    for path in pages():
        installed = place.path(f"usr/share/man/man{path.suffix[1:]}/{path.name}.gz")
        tally.same(f"{path.name}: warnings", place.run(f"{PAGE_LINT} {installed} > /dev/null"), "")
        asked = f"{path.suffix[1:]} {path.stem}" if place.installed else f"-l {installed}"
        first = place.run(f"man -P cat {asked}").strip().splitlines()[0].split()[0]
        tally.same(f"{path.name}: its first word", first, f"{path.stem.upper()}({path.suffix[1:]})")


# ---- what is run


def commands_of(block):
    """The commands of a page's example, each with what it is to print."""
    found, inside = [], False
    for line in plain(block).splitlines():
        if line.startswith("$ "):
            found.append([line[2:], ""])
        elif inside:
            found[-1][0] += "\n" + line
        elif found:
            found[-1][1] += line + "\n"
        inside = line.endswith("<<END") or inside and line != "END"
    return found


def examples_of_pages(tally, place):
    """Runs the commands of the pages' examples."""
    for path in pages():
        place.empty()
        for block in re.findall(r"^\.EX\n(\$.*?)^\.EE$", path.read_text(encoding="utf-8"), re.M | re.S):
            for command, wanted in commands_of(block):
                tally.same(f"{path.name}: {command}", place.run(command), wanted)
        for made_page in place.work.glob("*.html"):
            verifier = (place.root / f"usr/share/{PACKAGE}/verify.html").read_text(encoding="utf-8")
            verifier = verifier.split('<script id="verifier">')[1].split("</script>")[0]
            tally.same(f"{made_page.name} has the verifier", verifier in made_page.read_text(), True)


def examples(tally, place):
    """Runs the package's examples and compares their reports with those beside them."""
    folder = place.root / f"usr/share/doc/{PACKAGE}/examples"
    for name, scripts in groupby(sorted(folder.glob("*.ion")), lambda path: path.name.split(".")[0]):
        place.empty()
        for script in scripts:
            at = re.match("// at (.*)", script.read_text())
            rules = re.match("// at .*\n// rules (.*)", script.read_text())
            run = f"ledger {name}.journal run --workers 1 --plain-ids --at {at[1] if at else '2020-01-01T00:00:00.000Z'}"
            run += f" --rules {rules[1]}" if rules else ""
            tally.same(script.name, place.run(run, script.read_bytes()), script.with_suffix(".report").read_text())


def in_court(tally, place):
    """Runs the commands of docs/court.md."""
    place.empty()
    for kind, name, block in court.FENCE.findall(court.PAGE.read_text(encoding="utf-8")):
        if name:
            (place.work / name).write_text(block, encoding="utf-8")
        elif kind == "console":
            for command, output in court.commands(block):
                tally.same(f"docs/court.md: {command.strip()}", place.run(command), output)


def python_package(tally, place):
    """Runs the first example of the Python package's page."""
    place.empty()
    lines = (TOP / "clients" / "python" / "README.md").read_text().split("## Run statements\n")[1].split("\n`execute`")[0]
    script = "\n".join(line[4:] for line in lines.splitlines()).replace("crates/ledger/out/ledger", "ledger")
    tally.same("the Python package's example", place.run("/usr/bin/python3 -", script.encode()), "Ada 12.50\n")
    sums = place.path(f"usr/share/doc/{PACKAGE}/SHA256SUMS")
    there = "" if place.installed else f"sed 's|  /|  {place.root}/|' {sums} | "
    told = place.run(f"{there}sha256sum --quiet -c {sums if place.installed else '-'} && echo sound")
    tally.same("SHA256SUMS", told, "sound\n")


# ---- the completion


def completed(place, words):
    """What bash would complete the last of the words to, files apart."""
    file = place.path(f"usr/share/bash-completion/completions/{words[0]}")
    quoted = " ".join(f"'{word}'" for word in words)
    function = f"$(complete -p {words[0]} | sed 's/.*-F //; s/ .*//') 2> errors"
    script = f"source {file}; COMP_WORDS=({quoted}); COMP_CWORD={len(words) - 1}; {function}"
    return sorted(place.run(script + "; printf '%s\\n' \"${COMPREPLY[@]}\"").split())


def completion(tally, place):
    """Compares what is completed of the program's words with those in docs/formats.md, and some of the tools'."""
    place.empty()
    tally.same("ledger J ..", completed(place, ["ledger", "J", ""]), sorted(name for name, _ in commands()))
    for name, options in commands():
        tally.same(f"ledger J {name} ..", completed(place, ["ledger", "J", name, ""]), options)
    for words, wanted in [
        (["ledger", "J", "pr"], ["prove"]),
        (["ledger", "J", "run", "--seed", "1", "--p"], []),
        (["ledger", "J", "run", "--plain-ids", "--workers", "=", "1"], ["1", "16"]),
        (["ledger", "J", "digest", "--tip", ""], []),
        (["ledger-verify", "--l"], ["--line"]),
        (["ledger-shell", "--t"], ["--timeout"]),
        (["ledger-view", "J", "history", "t", "--i"], ["--id"]),
    ]:
        tally.same(" ".join(words), completed(place, words), wanted)


def typed(place, keys):
    """Types keys into a bash at a terminal, and waits for its end."""
    loads = f"for it in {place.root}/usr/share/bash-completion/completions/*; do source $it; done"
    if place.installed:
        loads = "source /usr/share/bash-completion/bash_completion"
    (place.work / "settings").write_text(f"PS1='ready '\n{loads}\n")
    words = place.words("exec bash --noprofile --rcfile settings -i")
    master, slave = pty.openpty()
    process = subprocess.Popen(**words, stdin=slave, stdout=slave, stderr=slave, start_new_session=True)
    os.close(slave)
    seen, ends = b"", time.monotonic() + 30
    while process.poll() is None and time.monotonic() < ends:
        if select.select([master], [], [], 0.1)[0]:
            try:
                seen += os.read(master, 65536)
            except OSError:
                break
        if keys and b"ready " in seen:
            os.write(master, keys)
            keys = b""
    process.kill()
    process.wait()
    os.close(master)


def typing(tally, place):
    """Types a command of which the Tab key makes most, and looks at what it did."""
    if place.installed and not (place.root / "usr/share/bash-completion/bash_completion").exists():
        return skip("nothing is typed: there is no bash-completion")
    place.empty()
    place.run("ledger cars.journal run", b"""[{statements:["CREATE TABLE cars","INSERT INTO cars {'wheels': 4}"]}]""")
    place.run("ledger cars.journal digest > published")
    typed(place, b"ledger ca\tpro\t0 0 > bundle\rledger-verify --l\tpub\t< bun\t> verified\rexit\r")
    verified = place.work / "verified"
    tally.same("what is typed with Tab", verified.read_text() if verified.exists() else "nothing", "{verified:true}\n")


# ---- a root of Debian


def debian_root(folder, words):
    """Makes a root of Debian with what the package needs, its man pages and bash's completion. Returns why there is none."""
    if os.geteuid() != 0:
        return "it takes root's rights"
    if words.root_of:
        subprocess.run(["cp", "-a", "--", f"{words.root_of}/.", str(folder)], check=True)
        return ""
    if not shutil.which("debootstrap"):
        return "there is no debootstrap (apt-get install debootstrap)"
    command = ["unshare", "--mount", "debootstrap", "--variant=minbase", "--include=python3,man-db,bash-completion"]
    ended = subprocess.run([*command, words.suite, str(folder), words.mirror], capture_output=True, text=True, check=False)
    return (ended.stdout + ended.stderr).strip().splitlines()[-1] if ended.returncode else ""


def files_of(root):
    """The files of a root but those in which Debian's tools keep what they know, and the tests' own."""
    kept = ("var/lib/", "var/cache/", "var/log/", "work", "tmp/", "proc/", "sys/", "dev/")
    paths = (path.relative_to(root).as_posix() for path in Path(root).rglob("*"))
    return {path for path in paths if not path.startswith(kept)}


def dpkg(tally, root, *words):
    """Runs dpkg in a root, which has to end well."""
    settings = {"PATH": "/usr/sbin:/usr/bin:/sbin:/bin", "LC_ALL": "C.UTF-8", "DEBIAN_FRONTEND": "noninteractive"}
    how = {"env": settings, "stdout": subprocess.PIPE, "stderr": subprocess.STDOUT, "text": True, "check": False}
    ended = subprocess.run(["chroot", str(root), "dpkg", *words], **how)
    tally.same(f"dpkg {' '.join(words)}", (ended.returncode, ended.stdout if ended.returncode else ""), (0, ""))


def installed(tally, package, folder, words):
    """Installs the package in a new root of Debian, tries it there, and removes it."""
    root = folder / "root"
    if why := debian_root(root, words):
        return skip(f"no root of Debian: {why}")
    before = files_of(root)
    shutil.copy(package, root / "tmp")
    dpkg(tally, root, "-i", f"/tmp/{package.name}")
    compiled = root / "usr/lib/python3/dist-packages/ledger/__pycache__"
    tally.same("Python's compiled files", compiled.is_dir(), True)
    tried(tally, Place(root, True))
    dpkg(tally, root, "--verify", PACKAGE)
    dpkg(tally, root, "-i", f"/tmp/{package.name}")
    dpkg(tally, root, "-r", PACKAGE)
    tally.same("files that stay", sorted(files_of(root) - before)[:20], [])
    tally.same("files that went", sorted(before - files_of(root))[:20], [])


def tried(tally, place):
    """Tries a package where it stands."""
    for part in [examples, in_court, examples_of_pages, python_package, helped, readable, completion, typing]:
        part(tally, place)


def main():
    words = argparse.ArgumentParser("tests/deb.py", description="Tries the Debian package.")
    words.add_argument("program", metavar="PROGRAM", nargs="?", default=PROGRAM)
    words.add_argument("--root", action="store_true", help="installs it in a root of Debian, too")
    words.add_argument("--root-of", metavar="FOLDER", help="installs it in a copy of this root of Debian, too")
    words.add_argument("--suite", default="bookworm")
    words.add_argument("--mirror", default="http://deb.debian.org/debian")
    words = words.parse_args()
    tally = Tally()
    if not shutil.which("dpkg-deb"):
        skip("no package is made: there is no dpkg-deb")
        return 0
    with tempfile.TemporaryDirectory(prefix="deb-") as name:
        folder = Path(name).resolve()
        folder.chmod(0o755)
        package = build(tally, words.program, folder)
        contents(tally, package, words.program)
        stated(tally)
        subprocess.run(["dpkg-deb", "-x", str(package), str(folder / "unpacked")], check=True)
        tried(tally, Place(folder / "unpacked", False))
        if words.root or words.root_of:
            installed(tally, package, folder, words)
        else:
            skip("the package isn't installed in a root of Debian; --root and --root-of do that")
    print(f"{tally.passed} passed, {tally.failed} failed")
    return 1 if tally.failed else 0


if __name__ == "__main__":
    sys.exit(main())
