"""Says on standard error how far something is that takes more than a second.

A terminal gets one line, which is written anew each second. Anything else gets a line after 1, 2, 4, 8 seconds and so
on, and then one a minute. If the environment's LEDGER_QUIET is set nothing is said. (This package is not proved; the program is.)

    >>> with Waiting("the program runs the script"):
    ...     time.sleep(0.01)  # what takes more than a second: `the program runs the script: 1 s`
"""
from __future__ import annotations

import os
import sys
import threading
import time
from collections.abc import Callable
from typing import IO, Optional

LONGEST_PAUSE = 60.0


class Told:
    """Writes lines on standard error, none in the first second."""

    def __init__(self, out: Optional[IO[str]] = None) -> None:
        self.out = out or sys.stderr
        self.pause = 1.0
        self.next = time.monotonic() + self.pause
        self.shown = False

    def due(self) -> bool:
        """Whether it is time for a line."""
        return time.monotonic() >= self.next

    def say(self, words: str) -> None:
        """Writes a line, and sets the time of the next one."""
        is_terminal = self.out.isatty()
        self.pause = 1.0 if is_terminal else min(self.pause * (2 if self.shown else 1), LONGEST_PAUSE)
        self.next = time.monotonic() + self.pause
        if os.environ.get("LEDGER_QUIET"):
            return
        self.shown = True
        print(words, end="\033[K\r" if is_terminal else "\n", file=self.out, flush=True)

    def end(self) -> None:
        """Ends the line, if one was begun."""
        if self.shown and self.out.isatty():
            print(file=self.out)


class Progress:
    """Takes how many of so many bytes are done."""

    def __init__(self, size: int, out: Optional[IO[str]] = None, done_word: str = "read") -> None:
        self.size = size
        self.done_word = done_word
        self.told = Told(out)

    def __call__(self, done: int) -> None:
        if self.told.due():
            self.told.say(f"{self.done_word} {done / 1e6:.1f} of {self.size / 1e6:.1f} MB")

    def end(self) -> None:
        """Ends the line, if one was begun."""
        self.told.end()


class Waiting:
    """Says for how long another program has been at work, for a `with` statement. `more` adds to what is said."""

    def __init__(self, words: str, more: Optional[Callable[[], str]] = None) -> None:
        self.words = words
        self.more = more
        self.ended = threading.Event()
        self.thread = threading.Thread(target=self._tell, daemon=True)

    def _tell(self) -> None:
        told, begun = Told(), time.monotonic()
        while not self.ended.wait(max(told.next - time.monotonic(), 0)):
            told.say(f"{self.words}: {time.monotonic() - begun:.0f} s{self.more() if self.more else ''}")
        told.end()

    def __enter__(self) -> "Waiting":
        self.thread.start()
        return self

    def __exit__(self, *_: object) -> None:
        self.ended.set()
        self.thread.join()
