"""Files that are there whole or not at all: copies of journals, put in place at once.

(This package is not proved; the program is.)

    >>> with tempfile.TemporaryDirectory() as folder:
    ...     short, long = os.path.join(folder, "short"), os.path.join(folder, "long")
    ...     write_new(short, b"{}\\n")
    ...     write_new(long, b"{}\\n{}\\n")
    ...     is_front(short, long), is_front(long, short)
    (True, False)
"""
from __future__ import annotations

import contextlib
import errno
import fcntl
import os
import shutil
import tempfile
import time
from collections.abc import Iterator
from typing import IO

from .causes import held_words
from .journal import rest_size
from .progress import Progress, Waiting
from .view import UNREADABLE, Refused

FAILED = 6  # the status if something beside the journal can't be written
PIECE = 1 << 20
PAUSE = 0.05


@contextlib.contextmanager
def locked(path: str, timeout: float, alone: bool = False) -> Iterator[IO[bytes]]:
    """The file at a path, open to be read, with its lock: shared with those that read, or alone.

    Waits for the lock until `timeout` seconds have passed. Raises `Refused`, and `OSError` if the file can't be opened.
    """
    with Waiting(f"waiting for the lock of {path}"):
        file = _locked_file(path, timeout, alone)
    with file:
        yield file


def _locked_file(path: str, timeout: float, alone: bool) -> IO[bytes]:
    end = time.monotonic() + timeout
    while True:
        file = open(path, "r+b" if alone else "rb")
        try:
            if _got_lock(file, alone) and _stands_at(file, path):
                return file
        except OSError:
            file.close()
            raise
        file.close()
        if time.monotonic() >= end:
            raise Refused(f"the journal is in use: {held_words(path)}", UNREADABLE)
        time.sleep(PAUSE)


def _got_lock(file: IO[bytes], alone: bool) -> bool:
    try:
        fcntl.flock(file, (fcntl.LOCK_EX if alone else fcntl.LOCK_SH) | fcntl.LOCK_NB)
    except OSError as error:
        if error.errno in (errno.EWOULDBLOCK, errno.EACCES, errno.EINTR):
            return False
        raise
    return True


def _stands_at(file: IO[bytes], path: str) -> bool:
    """Whether the open file is still the one at the path."""
    try:
        return os.path.samestat(os.fstat(file.fileno()), os.stat(path))
    except FileNotFoundError:
        return False


@contextlib.contextmanager
def beside(target: str) -> Iterator[str]:
    """The path of a new file in the folder of `target`, which is removed at the end unless it was put in place."""
    folder, name = os.path.split(target)
    if not os.path.isdir(folder or "."):
        raise Refused(f"there is no folder {folder}", FAILED)
    handle, path = tempfile.mkstemp(prefix=f".{name}.", suffix=".new", dir=folder or ".")
    os.close(handle)
    try:
        yield path
    finally:
        with contextlib.suppress(FileNotFoundError):
            os.unlink(path)


def copy_whole_lines(source: IO[bytes], path: str) -> int:
    """Copies the whole lines of an open file to a path, and syncs them. Returns how many bytes of a rest were left out.

    The copy has the mode of the source, and its owner if the system allows that.
    """
    source.seek(0)
    left_out = rest_size(source.name)
    size = done = os.fstat(source.fileno()).st_size - left_out
    progress = Progress(size, done_word="copied")
    with open(path, "wb") as target:
        while done > 0:
            piece = source.read(min(PIECE, done))
            if not piece:
                raise OSError(errno.EIO, "the file became shorter", source.name)
            target.write(piece)
            done -= len(piece)
            progress(size - done)
        target.flush()
        os.fsync(target.fileno())
    progress.end()
    take_mode(source.name, path)
    return left_out


def take_mode(source: str, path: str) -> None:
    """Gives a path the mode of a source, and its owner if the system allows that."""
    found = os.stat(source)
    shutil.copymode(source, path)
    with contextlib.suppress(PermissionError):
        os.chown(path, found.st_uid, found.st_gid)


def put_in_place(path: str, target: str, overwrite: bool) -> None:
    """Syncs a file, gives it the name `target` at once, and syncs the folder.

    Raises `FileExistsError` if `target` is there, unless it may be overwritten.
    """
    sync_file(path)
    if overwrite:
        os.replace(path, target)
    else:
        _rename_new(path, target)
    sync_folder(target)


def _rename_new(path: str, target: str) -> None:
    """Renames a file, and raises `FileExistsError` if the new name is taken."""
    try:
        os.link(path, target)
    except OSError as error:
        if error.errno not in (errno.EPERM, errno.ENOTSUP, errno.EOPNOTSUPP, errno.ENOSYS):
            raise
        if os.path.lexists(target):  # a file system without hard links
            raise FileExistsError(errno.EEXIST, os.strerror(errno.EEXIST), target) from None
        os.rename(path, target)
    else:
        os.unlink(path)


def sync_file(path: str) -> None:
    """Syncs a file, its bytes and its mode, so that they survive a loss of power."""
    with open(path, "rb") as file:
        os.fsync(file.fileno())


def sync_folder(path: str) -> None:
    """Syncs the folder in which a path's last name stands, so that the name survives a loss of power.

    A folder that may be searched and not read can't be synced.
    """
    try:
        folder = os.open(os.path.dirname(path) or ".", os.O_RDONLY)
    except PermissionError:
        return
    try:
        os.fsync(folder)
    finally:
        os.close(folder)


def write_new(target: str, content: bytes, overwrite: bool = False) -> None:
    """Writes a file that is there whole or not at all. Raises `FileExistsError` if it is there already."""
    with beside(target) as path:
        with open(path, "wb") as file:
            file.write(content)
            file.flush()
            os.fsync(file.fileno())
        os.chmod(path, 0o666 & ~_umask())
        put_in_place(path, target, overwrite)


def _umask() -> int:
    mask = os.umask(0)
    os.umask(mask)
    return mask


def is_front(one: str, other: str) -> bool:
    """Whether the whole lines of a file are the first bytes of another one; all its bytes, if it has no whole line."""
    size = os.path.getsize(one)
    left = size - rest_size(one) or size
    progress = Progress(left, done_word="compared")
    with open(one, "rb") as first, open(other, "rb") as second:
        while left > 0:
            piece = first.read(min(PIECE, left))
            if not piece or second.read(len(piece)) != piece:
                return False
            left -= len(piece)
            progress(progress.size - left)
    progress.end()
    return True
