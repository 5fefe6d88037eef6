"""Maps that can be read: the present one of a store, and that of a snapshot."""
from __future__ import annotations

import threading
from typing import Iterator, List, Optional

from .answers import Page, Row, Words
from .channel import Channel
from .ending import Held
from .errors import LimitError
from .words import MOST_PAGE, Data, key_of, range_of, word


def get_line(key: Data, at: str) -> str:
    """The line that looks a key up."""
    return f"get {word(key_of(key))}{at}"


class View:
    """A map of keys to values, both of bytes."""

    def __init__(self, channel: Channel) -> None:
        self._channel = channel

    def _at(self) -> str:
        """How a line names this map."""
        return ""

    def get(self, key: Data, default: Optional[bytes] = None) -> Optional[bytes]:
        """The value of a key, or the default if it has none."""
        value = self._channel.ask(get_line(key, self._at()), Words.value)
        return default if value is None else value

    def scan(
        self, start: Data = b"", end: Optional[Data] = None, *, prefix: Optional[Data] = None, page: int = MOST_PAGE
    ) -> "Scan":
        """The pairs of key and value from the key `start` on and before `end`, or those whose keys begin with `prefix`, in order.

        They are of one moment, that of this call. They are asked for page by page, with up to 64 rows each.
        """
        first, last = range_of(start, end, prefix)
        if not 1 <= page <= MOST_PAGE:
            raise LimitError(f"a page has 1 to {MOST_PAGE} rows, and not {page}")
        return Scan(self._channel, self._at(), first, last, page)

    def __getitem__(self, key: Data) -> bytes:
        value = self.get(key)
        if value is None:
            raise KeyError(key)
        return value

    def __contains__(self, key: Data) -> bool:
        return self.get(key) is not None

    def __iter__(self) -> Iterator[bytes]:
        return self.keys()

    def keys(self) -> Iterator[bytes]:
        """All keys of one moment, in order."""
        return (key for key, _ in self.scan())

    def values(self) -> Iterator[bytes]:
        """All values of one moment, in the order of their keys."""
        return (value for _, value in self.scan())

    def items(self) -> "Scan":
        """All pairs of key and value of one moment, in order."""
        return self.scan()


class Scan(Iterator[Row]):
    """The rows of a scan. If they don't fit a page it holds a snapshot until its end, or until it is closed. One that is dropped
    before loses it before the next call of its store.
    """

    def __init__(self, channel: Channel, at: str, start: bytes, end: Optional[bytes], limit: int) -> None:
        self._channel, self._at, self._end, self._limit = channel, at, end, limit
        self._lock = threading.RLock()
        self._snapshot: Optional[int] = None
        self._take(self._ask(start))
        if self._next is not None and not at:
            channel.ask("snapshot", self._taken)
            self._take(self._ask(start))
            self._release_at_end()

    def _taken(self, words: Words) -> None:
        self._snapshot = words.number("snapshot")
        self._at = f" @{self._snapshot}"

    def _ask(self, start: bytes) -> Page:
        line = f"scan {word(start)} {'end' if self._end is None else word(self._end)} {self._limit}{self._at}"
        return self._channel.ask(line, lambda words: words.page(start, self._end, self._limit))

    def _take(self, page: Page) -> None:
        self._rows: List[Row] = page.rows[::-1]
        self._next = page.next

    def _release_at_end(self) -> None:
        if self._next is None:
            self._release()

    def _release(self) -> None:
        number, self._snapshot = self._snapshot, None
        if number is not None:
            self._channel.release(number)

    def __iter__(self) -> "Scan":
        return self

    def __next__(self) -> Row:
        with self._lock:
            if not self._rows:
                if self._next is None:
                    raise StopIteration
                self._take(self._ask(self._next))
                self._release_at_end()
            return self._rows.pop()

    def close(self) -> None:
        """Ends the iteration, and releases its snapshot."""
        with self._lock:
            self._take(Page([], None))
            self._release()

    def __enter__(self) -> "Scan":
        return self

    def __exit__(self, *_: object) -> None:
        self.close()

    def __del__(self) -> None:
        number: Optional[int] = getattr(self, "_snapshot", None)
        if number is not None:  # Nothing is asked here: this may run at any moment, and what it raised would be lost.
            self._channel.release_later(number)


class Snapshot(Held, View):
    """A map as it was. It is released at the end of `with`, or by `release`; 32 live at a time in a store."""

    def __init__(self, channel: Channel) -> None:
        super().__init__(channel)
        self._keeper = channel
        channel.ask("snapshot", self._taken)

    def _taken(self, words: Words) -> None:
        self._number = words.number("snapshot")

    def _at(self) -> str:
        return f" @{self._held()}"
