"""A journal as one static page for a browser, without a server or a network.

The page has the journal's lines in it and computes their hashes anew in the browser, so whoever is handed the page
can see that its chain holds. Values are read and hashed by the script of tools/verify.html. It isn't proved.

    ledger-view accounts.journal html accounts.html

    >>> embedded({"a": "</script>"})
    '{"a": "\\\\u003c/script>"}'
"""
from __future__ import annotations

import json
import os
import re
from typing import Any

from . import ion
from .journal import Journal

HERE = os.path.dirname(os.path.realpath(__file__))
VERIFIERS = [  # where the verifier's page may stand: beside this file, or in this repository
    os.path.join(HERE, "verify.html"),
    os.path.join(os.path.dirname(os.path.dirname(os.path.dirname(HERE))), "tools", "verify.html"),
]
SCRIPT_BEGIN, SCRIPT_END = '<script id="verifier">', "</script>"


def read_text(path: str) -> str:
    """The text of a file."""
    with open(path, encoding="utf-8") as file:
        return file.read()


def verifier() -> str:
    """The script that reads and hashes values. Raises `FileNotFoundError` if the verifier's page isn't there."""
    for path in VERIFIERS:
        if os.path.exists(path):
            return read_text(path).split(SCRIPT_BEGIN, 1)[1].split(SCRIPT_END, 1)[0]
    raise FileNotFoundError(f"no verify.html at {' or '.join(VERIFIERS)}")


def embedded(value: Any) -> str:
    """JSON that can stand in a script element of a page."""
    return json.dumps(value, ensure_ascii=False).replace("<", "\\u003c").replace("\u2028", "\\u2028").replace("\u2029", "\\u2029")


def page(journal: Journal, name: str) -> str:
    """The page of a journal that is called `name`."""
    rest = "" if journal.damage is None else str(journal.damage)
    content = {"name": name, "rest": rest, "lines": [ion.write(block.value) for block in journal.blocks]}
    parts = {"JOURNAL": embedded(content), "VERIFIER": verifier(), "PAGE": read_text(os.path.join(HERE, "page.js"))}
    return re.sub("@(JOURNAL|VERIFIER|PAGE)@", lambda found: parts[found[1]], read_text(os.path.join(HERE, "page.html")))
