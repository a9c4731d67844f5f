"""`ledgerctl JOURNAL publish`: a folder of published digests, one file a day.

`DATE.digest` has the line that `ledger JOURNAL digest` wrote. Nothing that was published is ever written over: a second
digest of one day is `DATE.2.digest`, and so on. Beside a digest stand its signature by gpg (`.asc`) and its time stamp
by RFC 3161 (`.tsr`), if they are wanted. Each step that was done is left out when the same digest is published again,
so what failed half way is done by the next call.

    ledgerctl accounts.journal publish digests --sign operator@example.org --git --push

(This package is not proved; the program is.)
"""
from __future__ import annotations

import argparse
import os
import subprocess
import tempfile
from collections.abc import Callable, Sequence
from dataclasses import dataclass
from datetime import datetime, timezone
from typing import IO, NamedTuple, Optional

from . import ion
from .calls import check_published, ledger_of, there
from .causes import status_words
from .client import StatusError
from .files import FAILED, write_new
from .journal import Digest
from .progress import Waiting
from .view import DIFFERS, Refused, counted, published

LIMIT = 300.0  # seconds for a call of another program, and of a time stamp authority
TIME_STAMP_QUERY = "application/timestamp-query"


class Earlier(NamedTuple):
    """A digest in the folder, with its file's name."""

    name: str
    digest: Digest


@dataclass(frozen=True)
class Options:
    """What is done with a digest beside writing it. What is `None` or `False` isn't done."""

    sign: Optional[str] = None  # a key of gpg
    stamp: Optional[str] = None  # the URL of a time stamp authority, or a command that reads a request and writes the reply
    stamp_ca: Optional[str] = None  # the file of the certificates that a stamp is checked with
    git: bool = False
    push: bool = False


class Folder:
    """A folder of published digests."""

    def __init__(self, path: str, options: Options) -> None:
        self.path = path
        self.options = options

    def earlier(self) -> list[Earlier]:
        """All digests in the folder, in the order of their names. Raises `Refused` if one can't be read."""
        names = sorted(name for name in os.listdir(self.path) if name.endswith(".digest"))
        return [Earlier(name, digest) for name in names for digest in published(os.path.join(self.path, name))]

    def add(self, day: str, line: bytes, tip: int) -> list[str]:
        """Publishes a digest's line under a day. Returns in words what was done."""
        name, is_new = self._write(day, line)
        done = [f"written to {os.path.join(self.path, name)}" if is_new else f"{os.path.join(self.path, name)} has it already"]
        names = [name]
        if self.options.sign is not None:
            done.append(self._made(name, ".asc", self._sign, f"signed by {self.options.sign}"))
            names.append(name + ".asc")
        if self.options.stamp is not None:
            done.append(self._made(name, ".tsr", self._stamp, f"stamped by {self.options.stamp}"))
            names.append(name + ".tsr")
        if self.options.git:
            done += self._commit(names, f"digest of {day}, tip {tip}")
        return done

    def _write(self, day: str, line: bytes) -> tuple[str, bool]:
        """The name of the file of the day with this line, and whether it was written now."""
        number = 1
        while True:
            name = f"{day}.digest" if number == 1 else f"{day}.{number}.digest"
            path = os.path.join(self.path, name)
            try:
                write_new(path, line)
                return name, True
            except FileExistsError:
                with open(path, "rb") as file:
                    if file.read() == line:
                        return name, False
            number += 1

    def _made(self, name: str, suffix: str, make: Callable[[str], bytes], words: str) -> str:
        """Makes the file beside a digest, if it isn't there."""
        path = os.path.join(self.path, name)
        if os.path.exists(path + suffix):
            return f"{words} already"
        write_new(path + suffix, make(path))
        return words

    # ---- gpg and openssl

    def _sign(self, path: str) -> bytes:
        """The signature of a file, which is checked."""
        with tempfile.TemporaryDirectory(prefix="ledgerctl-") as folder:
            signature = os.path.join(folder, "signature")
            gpg = ["gpg", "--batch", "--quiet"]
            call([*gpg, "--armor", "--local-user", str(self.options.sign), "--output", signature, "--detach-sign", path])
            call([*gpg, "--verify", signature, path])
            return _content(signature)

    def _stamp(self, path: str) -> bytes:
        """The time stamp of a file, which is checked."""
        with tempfile.TemporaryDirectory(prefix="ledgerctl-") as folder:
            request, reply = os.path.join(folder, "request"), os.path.join(folder, "reply")
            call(["openssl", "ts", "-query", "-data", path, "-sha256", "-cert", "-out", request])
            with open(reply, "wb") as file:
                file.write(stamp_reply(str(self.options.stamp), _content(request)))
            call(["openssl", "ts", "-verify", "-data", path, "-in", reply, "-CAfile", str(self.options.stamp_ca)])
            return _content(reply)

    # ---- git

    def changed(self) -> list[str]:
        """The digests in the folder that were changed or removed since they were committed to git."""
        if not self.options.git:
            return []
        return self._git("ls-files", "--modified", "--deleted", "--", "*.digest").splitlines()

    def _git(self, *words: str) -> str:
        return call(["git", "-C", self.path, *words])

    def _commit(self, names: Sequence[str], message: str) -> list[str]:
        """Commits files, and pushes if that is wanted. Returns in words what was done."""
        self._git("add", "--", *names)
        done = ["committed to git already"]
        if self._git("status", "--porcelain", "--", *names):
            self._git("commit", "--quiet", "-m", message, "--", *names)
            done = ["committed to git"]
        if self.options.push:
            self._git("push", "--quiet")
            done.append("pushed")
        return done

    def check_git(self) -> None:
        """Raises `Refused` if the folder isn't in a git repository, or a committed digest was changed."""
        if self.options.git:
            self._git("rev-parse", "--show-toplevel")
        changed = self.changed()
        if changed:
            names = ", ".join(dict.fromkeys(changed))
            raise Refused(f"{names}: changed or removed since it was committed to git; nothing was published", DIFFERS)


def stamp_reply(where: str, request: bytes) -> bytes:
    """The reply of a time stamp authority: of a URL, or of a command that reads the request."""
    import urllib.request  # it takes long to load

    with Waiting(f"waiting for a time stamp of {where}"):
        if not where.startswith(("http://", "https://")):
            return _ran(["sh", "-c", where], request).stdout
        asked = urllib.request.Request(where, request, {"Content-Type": TIME_STAMP_QUERY})
        try:
            with urllib.request.urlopen(asked, timeout=LIMIT) as reply:
                return reply.read()
        except OSError as error:
            raise Refused(f"no time stamp of {where}: {error}", FAILED) from None


def call(words: Sequence[str]) -> str:
    """The output of another program. Raises `Refused` if it fails or isn't there."""
    with Waiting(f"{words[0]} is at work"):
        return _ran(words, b"").stdout.decode("utf-8", "replace")


def _ran(words: Sequence[str], given: bytes) -> "subprocess.CompletedProcess[bytes]":
    try:
        ended = subprocess.run(words, input=given, capture_output=True, timeout=LIMIT)
    except FileNotFoundError:
        raise Refused(f"there is no program {words[0]}", FAILED) from None
    except subprocess.TimeoutExpired:
        raise Refused(f"{words[0]} did not end within {LIMIT:.0f} seconds", FAILED) from None
    if ended.returncode != 0:
        said = (ended.stderr or ended.stdout).decode("utf-8", "replace").strip()
        raise Refused(f"{' '.join(words[:3])} failed with status {ended.returncode}: {said}", FAILED)
    return ended


def _content(path: str) -> bytes:
    with open(path, "rb") as file:
        return file.read()


# ---- the command


def publish(words: argparse.Namespace, out: IO[str]) -> int:
    """Checks all digests of a folder against the journal, and adds that of the day."""
    options, ledger = _publish_options(words), ledger_of(words)
    there(words.journal)
    if not os.path.isdir(words.folder):
        raise Refused(f"there is no folder {words.folder}", FAILED)
    folder = Folder(words.folder, options)
    folder.check_git()
    earlier = folder.earlier()
    try:
        with Waiting(f"the program makes the digest of {words.journal}"):
            line = ledger.call("digest")
    except StatusError as error:
        raise Refused(status_words(words.journal, error), error.status if error.status > 0 else FAILED) from None
    own = Digest.of(ion.read_one(line))
    agree = check_published(words.journal, earlier, own)
    if earlier:
        print(f"{counted(agree, 'earlier digest')} agree{'s' if agree == 1 else ''} with the journal", file=out)
    day = words.day or f"{datetime.now(timezone.utc):%Y-%m-%d}"
    print(f"tip {own.tip.sequence}: " + ", ".join(folder.add(day, line.encode("ascii"), own.tip.sequence)), file=out)
    return 0


def _publish_options(words: argparse.Namespace) -> Options:
    if (words.stamp is None) != (words.stamp_ca is None):
        raise Refused("--stamp wants --stamp-ca, the certificates that the stamp is checked with, and the other way about")
    if words.push and not words.git:
        raise Refused("--push wants --git")
    return Options(words.sign, words.stamp, words.stamp_ca, words.git, words.push)
