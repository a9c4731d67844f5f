"""What the scripts share: a record's block, how many blocks a journal has, and small files that are replaced whole."""
import json
import os
import re
from datetime import datetime, timezone

BLOCK = rb'blockAddress:\{strandId:"[^"]*",sequenceNo:(\d+)\}'
TIMED = BLOCK + rb',transactionId:"[^"]*",blockTimestamp:([^,Z]*)Z'
SUMMARY = re.compile(rb'\{recordType:"BLOCK_SUMMARY",payload:\{' + TIMED)
TABLE = rb'tableInfo:\{tableId:"[^"]*",tableName:"(?:[^"\\]|\\.)*"\}'
DETAILS = re.compile(rb'\{recordType:"REVISION_DETAILS",payload:\{' + TABLE + rb",revision:\{" + BLOCK)
LINE = re.compile(rb"\{" + TIMED)


def seconds_since(time):
    """How many seconds ago a block was committed, by its time."""
    then = datetime.fromisoformat(time.decode()).replace(tzinfo=timezone.utc)
    return (datetime.now(timezone.utc) - then).total_seconds()


class Blocks:
    """Counts the blocks of a journal's file, and reads only what it has grown by."""

    def __init__(self, path):
        self.path, self.file, self.count, self.end = path, None, 0, 0

    def now(self):
        try:
            file = open(self.path, "rb")
        except FileNotFoundError:
            return 0
        with file:
            found = os.fstat(file.fileno())
            if self.file != found.st_ino or found.st_size < self.end:
                self.file, self.count, self.end = found.st_ino, 0, 0
            file.seek(self.end)
            while piece := file.read(1 << 20):
                self.count += piece.count(b"\n")
                self.end += len(piece)
        return self.count


def sync_folder(path):
    folder = os.open(os.path.dirname(os.path.abspath(path)), os.O_RDONLY)
    os.fsync(folder)
    os.close(folder)


def save(path, value):
    """Replaces a small file at once."""
    with open(f"{path}.new", "w", encoding="ascii") as file:
        json.dump(value, file)
        file.flush()
        os.fsync(file.fileno())
    os.replace(f"{path}.new", path)
    sync_folder(path)


def load(path):
    """What `save` left, or nothing."""
    try:
        with open(path, encoding="ascii") as file:
            return json.load(file)
    except (FileNotFoundError, ValueError):
        return {}
