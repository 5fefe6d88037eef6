"""What answers say. Whatever is no answer to its question raises ValueError, IndexError or KeyError."""
from __future__ import annotations

from typing import List, NamedTuple, Optional, Tuple

from .errors import Error, Usage, refusal
from .words import bytes_of

Row = Tuple[bytes, bytes]


class Stat(NamedTuple):
    """The numbers of a store."""

    generation: int
    """The openings, rotations and installs so far, and the format."""
    batches: int
    """The batches so far."""
    room: int
    """The free sectors of the open log, 0 if none is open."""
    waiting: int
    """1 if batches in logs wait to be moved into a table, else 0."""
    runs: int
    """The runs of tables of level 0."""
    tables: int
    """The tables of all levels."""
    free: int
    """The data blocks in no table."""


class Lack(NamedTuple):
    """What a store lacks that could not be compacted to the end: blocks, or all is 0 and it was something else."""

    wanted: int
    """So many blocks are wanted at most."""
    together: int
    """So many of these have to lie side by side at most."""
    longest: int
    """So many that are free lie side by side at most."""


class Compacted(Stat):
    """The numbers of a store that was compacted."""

    lack: Optional[Lack] = None
    """What it lacks, None if all its tables are in the last level and no batch waits."""


class Page(NamedTuple):
    """Rows of a scan, and the first key that was left out, if one was."""

    rows: List[Row]
    next: Optional[bytes]


class Words:
    """The words of an answer."""

    def __init__(self, answer: str) -> None:
        self.text = answer
        self.words = answer.split(" ")

    def only(self, word: str) -> None:
        """It is this word alone."""
        if self.words != [word]:
            raise ValueError("another word")

    def number(self, name: str) -> int:
        """It is this word and a number."""
        said, number = self.words
        if said != name:
            raise ValueError("another word")
        return _number(number)

    def value(self) -> Optional[bytes]:
        """It is a value, or `absent`."""
        if self.words == ["absent"]:
            return None
        said, value = self.words
        if said != "value":
            raise ValueError("another word")
        return bytes_of(value)

    def stat(self) -> Stat:
        """It is the numbers of a store. Others besides them are passed over."""
        said = dict(zip(self.words[::2], self.words[1::2]))
        if len(self.words) % 2 or len(said) * 2 != len(self.words):
            raise ValueError("names without numbers")
        return Stat(*(_number(said[name]) for name in Stat._fields))

    def compacted(self) -> Compacted:
        """It is the numbers of a store, and with `whole 0` what it lacks."""
        found = Compacted(*self.stat())
        said = dict(zip(self.words[::2], self.words[1::2]))
        if said.get("whole") == "0":
            found.lack = Lack(*(_number(said.get(name, "0")) for name in Lack._fields))
        return found

    def page(self, start: bytes, end: Optional[bytes], limit: int) -> Page:
        """It is rows of this range, in order, and no more than the limit."""
        first, *rows = self.words
        if first != "rows":
            raise ValueError("another word")
        after = None if rows[-1] == "end" else bytes_of(rows[-1])
        if after is not None and rows[-2] != "next":
            raise ValueError("another word")
        page = Page([_row(row) for row in rows[: -1 if after is None else -2]], after)
        keys = [key for key, _ in page.rows] + ([] if after is None else [after])
        if len(page.rows) > limit or (after is not None and not page.rows):
            raise ValueError("another number of rows")
        if any(not low < high for low, high in zip(keys, keys[1:])):
            raise ValueError("rows out of order")
        if keys and not (start <= keys[0] and (end is None or keys[-1] < end)):
            raise ValueError("rows of another range")
        return page


def failure(words: Words) -> Optional[Error]:
    """The refusal that an answer is, or the mistake that it tells, if it does either."""
    if words.words[0] == "refused":
        return refusal(words.words[1:])
    if words.words[0] == "usage":
        return Usage(words.text)
    return None


def _number(word: str) -> int:
    if not word.isdigit():
        raise ValueError("a word that is no number")
    return int(word)


def _row(word: str) -> Row:
    key, value = word.split("=")
    return bytes_of(key), bytes_of(value)
