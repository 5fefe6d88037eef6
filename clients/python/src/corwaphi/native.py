"""The store in this process, by libcorwaphi.so: the same class as `corwaphi.Store`, without lsmctl.

    from corwaphi.native import Store
    with Store.open("store.img", create=True) as store:
        store[b"pear"] = b"green"
        store.sync()

`CORWAPHI_LIBRARY` names the library, if the system doesn't find it. Threads may share a store; a call lets go of Python's lock while it
works. A child of a fork doesn't have its parent's stores.
"""
from __future__ import annotations

import contextlib
import ctypes
import os
import threading
import warnings
from ctypes import POINTER, byref, c_bool, c_char_p, c_size_t, c_uint8, c_uint16, c_uint32, c_uint64
from typing import Any, Callable, Iterator, List, Optional

from .answers import Page, Row, Stat
from .ending import Held, Run, Written
from .errors import Busy, Closed, IoError, LimitError, NoSpace, Refused, refusal
from .files import LEAST_SECTORS, MOST_SECTORS, SECTORS, Path, check_sizes, log_for
from .views import View
from .words import (
    MOST_BATCH, MOST_GUARDS, MOST_KEY, MOST_PAGE, MOST_VALUE, Data, Pairs, check_batch, data_of, key_of, pairs_of, range_of,
)

_NOW = 2**64 - 1
_CACHE = 256
_ROW_BYTES = 4 + MOST_KEY + MOST_VALUE
_NO_VALUE, _CLOSED, _FORKED, _FILE, _IN_USE = 32, 35, 36, 37, 38


class _Handle(ctypes.Structure):
    _fields_ = [("number", c_uint64)]


class _Options(ctypes.Structure):
    _fields_ = [("cache", c_uint32), ("sectors", c_uint32), ("log_sectors", c_uint16)]


class _Row(ctypes.Structure):
    _fields_ = [("key", c_char_p), ("key_length", c_size_t), ("value", c_char_p), ("value_length", c_size_t)]


class _Page(ctypes.Structure):
    _fields_ = [("bytes", c_char_p), ("length", c_size_t), ("rows", c_size_t), ("at", c_size_t), ("has_next", c_bool), ("next", _Row)]


class _Numbers(ctypes.Structure):
    _fields_ = [(name, c_uint64) for name in ("generation", "batches", "synced", "runs", "tables")] + [
        ("log_room", c_uint32), ("free_blocks", c_uint32), ("waiting", c_bool),
    ]


_SIGNATURES = {
    "create": [c_char_p, POINTER(_Options)],
    "open": [c_char_p, POINTER(_Options), POINTER(_Handle)],
    "close": [_Handle],
    "write": [_Handle, c_char_p, c_size_t, POINTER(c_uint64)],
    "write_if": [_Handle, c_char_p, c_size_t, c_char_p, c_size_t, POINTER(c_uint64), POINTER(c_uint8)],
    "sync": [_Handle],
    "compact": [_Handle],
    "get": [_Handle, c_uint64, c_char_p, c_size_t, ctypes.c_void_p, c_size_t, POINTER(c_size_t)],
    "rows": [_Handle, c_uint64, c_char_p, c_size_t, c_char_p, c_size_t, c_uint64, ctypes.c_void_p, c_size_t, POINTER(_Page)],
    "snapshot": [_Handle, POINTER(c_uint64)],
    "release": [_Handle, c_uint64],
    "stat": [_Handle, POINTER(_Numbers)],
}

_library: Optional[Any] = None


def library() -> Any:
    """The library, which is loaded once. OSError is raised if there is none."""
    global _library
    if _library is None:
        found = ctypes.CDLL(os.environ.get("CORWAPHI_LIBRARY", "libcorwaphi.so.0"), use_errno=True)
        for name, parameters in _SIGNATURES.items():
            call = getattr(found, f"corwaphi_{name}")
            call.argtypes, call.restype = parameters, c_uint32
        found.corwaphi_name.argtypes, found.corwaphi_name.restype = [c_uint32], c_char_p
        _library = found
    return _library


def _check(code: int, place: int = 0) -> None:
    """Raises what a code tells."""
    if code == 0:
        return
    if code in (_CLOSED, _FORKED):
        raise Closed("the store is closed" if code == _CLOSED else "the store belongs to the parent of this process")
    if code == _IN_USE:
        raise Busy(2, "Io", "the file is in use")
    if code == _FILE:
        cause = os.strerror(ctypes.get_errno())
        causes = {"No such file or directory": "there is no such file", "Is a directory": "the file is a folder"}
        raise IoError(2, "Io", causes.get(cause, cause))
    name = library().corwaphi_name(code).decode()
    if code > 31:
        raise Refused(code, name)
    raise refusal([str(code), name, *([str(place)] if code == 30 else [])])


def _text(pairs: "List[tuple[bytes, Optional[bytes]]]") -> bytes:
    """The text of a batch."""
    parts = [len(pairs).to_bytes(2, "big")]
    for key, value in pairs:
        if value is None:
            parts.append(bytes([2, len(key)]) + key)
        else:
            parts.append(bytes([1, len(key)]) + key + len(value).to_bytes(2, "big") + value)
    return b"".join(parts)


class _Engine:
    """A store that is open, until it is closed."""

    def __init__(self, path: Path, cache: int) -> None:
        self.handle = _Handle()
        self._dropped: List[int] = []
        self._lock = threading.Lock()
        _check(library().corwaphi_open(os.fsencode(path), byref(_Options(cache, 0, 0)), byref(self.handle)))
        self.process = os.getpid()
        self.is_open = True

    def call(self, name: str, *words: Any) -> None:
        """Makes a call, which gives back the snapshots first whose holders were dropped."""
        self.give_back()
        _check(getattr(library(), f"corwaphi_{name}")(self.handle, *words))

    def give_back(self) -> None:
        while self._dropped:
            with contextlib.suppress(IndexError):
                library().corwaphi_release(self.handle, self._dropped.pop())

    def release_later(self, number: int) -> None:
        self._dropped.append(number)

    def release(self, number: int) -> None:
        with contextlib.suppress(Closed):
            self.call("release", number)

    def get(self, at: int, key: bytes) -> Optional[bytes]:
        self.give_back()
        room, length = ctypes.create_string_buffer(MOST_VALUE), c_size_t()
        code = library().corwaphi_get(self.handle, at, key, len(key), room, MOST_VALUE, byref(length))
        if code == _NO_VALUE:
            return None
        _check(code)
        return room.raw[: length.value]

    def page(self, at: int, start: bytes, end: Optional[bytes], limit: int) -> Page:
        room, told = ctypes.create_string_buffer((limit + 1) * _ROW_BYTES), _Page()
        self.call("rows", at, start, len(start), end, 0 if end is None else len(end), limit, room, len(room), byref(told))
        data, place = room.raw[: told.length], 0
        rows: List[Row] = []
        for _ in range(told.rows + told.has_next):
            key_end = place + 4 + int.from_bytes(data[place : place + 2], "little")
            value_end = key_end + int.from_bytes(data[place + 2 : place + 4], "little")
            rows.append((data[place + 4 : key_end], data[key_end:value_end]))
            place = value_end
        following = rows.pop()[0] if told.has_next else None
        return Page(rows, following)

    def snapshot(self) -> int:
        number = c_uint64()
        self.call("snapshot", byref(number))
        return number.value

    def stat(self) -> _Numbers:
        numbers = _Numbers()
        self.call("stat", byref(numbers))
        return numbers

    def write(self, text: bytes) -> int:
        number = c_uint64()
        self.call("write", text, len(text), byref(number))
        return number.value

    def write_if(self, guards: bytes, text: bytes) -> int:
        self.give_back()
        number, place = c_uint64(), c_uint8()
        code = library().corwaphi_write_if(self.handle, guards, len(guards), text, len(text), byref(number), byref(place))
        _check(code, place.value)
        return number.value

    @property
    def closed(self) -> bool:
        return not self.is_open or self.process != os.getpid()

    def close(self, syncs: bool) -> None:
        with self._lock:
            was_open, self.is_open = self.is_open and self.process == os.getpid(), False
        if was_open:
            try:
                if syncs:
                    self.call("sync")
            finally:
                library().corwaphi_close(self.handle)


class _Reads(View):
    """A map that is read in this process."""

    def __init__(self, engine: _Engine) -> None:
        self._engine = engine

    def _place(self) -> int:
        return _NOW

    def get(self, key: Data, default: Optional[bytes] = None) -> Optional[bytes]:
        value = self._engine.get(self._place(), key_of(key))
        return default if value is None else value

    def scan(  # type: ignore[override]
        self, start: Data = b"", end: Optional[Data] = None, *, prefix: Optional[Data] = None, page: int = MOST_PAGE
    ) -> "Scan":
        first, last = range_of(start, end, prefix)
        if not 1 <= page <= MOST_PAGE:
            raise LimitError(f"a page has 1 to {MOST_PAGE} rows, and not {page}")
        return Scan(self._engine, self._place(), first, last, page)

    def items(self) -> "Scan":  # type: ignore[override]
        return self.scan()


class Scan(Iterator[Row]):
    """The rows of a scan. If they don't fit a page it holds a snapshot until its end, or until it is closed."""

    def __init__(self, engine: _Engine, at: int, start: bytes, end: Optional[bytes], limit: int) -> None:
        self._engine, self._at, self._end, self._limit = engine, at, end, limit
        self._lock = threading.RLock()
        self._snapshot: Optional[int] = None
        self._take(engine.page(at, start, end, limit))
        if self._next is not None and at == _NOW:
            self._snapshot = self._at = engine.snapshot()
            self._take(engine.page(self._at, start, end, limit))
            self._release_at_end()

    def _take(self, page: Page) -> None:
        self._rows: List[Row] = page.rows[::-1]
        self._next = page.next

    def _release_at_end(self) -> None:
        if self._next is None:
            number, self._snapshot = self._snapshot, None
            if number is not None:
                self._engine.release(number)

    def __iter__(self) -> "Scan":
        return self

    def __next__(self) -> Row:
        with self._lock:
            if not self._rows:
                if self._next is None:
                    raise StopIteration
                self._take(self._engine.page(self._at, self._next, self._end, self._limit))
                self._release_at_end()
            return self._rows.pop()

    def close(self) -> None:
        """Ends the iteration, and releases its snapshot."""
        with self._lock:
            self._take(Page([], None))
            self._release_at_end()

    def __enter__(self) -> "Scan":
        return self

    def __exit__(self, *_: object) -> None:
        self.close()

    def __del__(self) -> None:
        number: Optional[int] = getattr(self, "_snapshot", None)
        if number is not None:
            self._engine.release_later(number)


class Snapshot(Held, _Reads):
    """A map as it was. It is released at the end of `with`, or by `release`; 32 live at a time in a store."""

    def __init__(self, engine: _Engine) -> None:
        super().__init__(engine)
        self._keeper = engine
        self._number = engine.snapshot()

    def _place(self) -> int:
        return self._held()


class Pipeline(Run):
    """Calls that are gathered and then made one after another. The result of one that the store refuses is that `Refused`."""

    def __init__(self, store: "Store") -> None:
        self._store = store
        self._calls: List[Callable[[], object]] = []
        self.results: List[Any] = []

    def _add(self, call: Callable[[], object]) -> "Pipeline":
        self._calls.append(call)
        return self

    def get(self, key: Data) -> "Pipeline":
        name = key_of(key)
        return self._add(lambda: self._store.get(name))

    def put(self, key: Data, value: Data) -> "Pipeline":
        return self.commit([(key, value)])

    def delete(self, key: Data) -> "Pipeline":
        return self.commit([(key, None)])

    def commit(self, changes: Pairs) -> "Pipeline":
        batch = pairs_of(changes)
        return self._add(lambda: self._store.commit(batch))

    def commit_if(self, guards: Pairs, changes: Pairs) -> "Pipeline":
        asked, batch = pairs_of(guards), pairs_of(changes)
        return self._add(lambda: self._store.commit_if(asked, batch))

    def page(self, start: Data = b"", end: Optional[Data] = None, limit: int = MOST_PAGE) -> "Pipeline":
        first, last = range_of(start, end, None)
        return self._add(lambda: self._store.page(first, last, limit))

    def sync(self) -> "Pipeline":
        return self._add(self._store.sync)

    def run(self) -> List[Any]:
        """Makes the calls, and gives their results."""
        calls, self._calls, self.results = self._calls, [], []
        for call in calls:
            try:
                self.results.append(call())
            except Refused as refused:
                self.results.append(refused)
        return self.results

    def __len__(self) -> int:
        return len(self._calls)


class Store(_Reads, Written):
    """A map of keys to values in a file, both of bytes. It is made by `Store.open`. Threads may share it. A fork may not use it."""

    def __init__(self, path: Path, cache: int = _CACHE) -> None:
        super().__init__(_Engine(path, cache))
        self._path = path

    @classmethod
    def open(
        cls, path: Path, create: bool = False, sectors: int = SECTORS, log_sectors: Optional[int] = None, cache: int = _CACHE
    ) -> "Store":
        """Opens the store in a file, and keeps others out of it. `Busy` is raised if another has it.

        With `create` a file that isn't there is made, of so many sectors of 512 bytes, with logs of `log_sectors` each, or of as
        many as fit the file. `cache` says how many blocks of 4 KiB are kept in memory, 1 to 4,096.
        """
        if create:
            try:
                _create(path, sectors, log_for(sectors) if log_sectors is None else log_sectors)
            except FileExistsError:
                pass  # It is opened as it is.
        return cls(path, cache)

    @property
    def closed(self) -> bool:
        """Whether each call is refused: after `close`, and in a fork."""
        return self._engine.closed

    def close(self) -> None:
        """Syncs, closes the store, and raises what failed of that. Once more does nothing."""
        self._engine.close(True)

    def put(self, key: Data, value: Data) -> int:
        """Puts a value, and gives the number of the batch."""
        return self.commit([(key, value)])

    def delete(self, key: Data) -> int:
        """Deletes a key, which need not be there, and gives the number of the batch."""
        return self.commit([(key, None)])

    def commit(self, changes: Pairs) -> int:
        """Commits a batch, all or nothing: a dict, or pairs, of keys and their values, or None to delete. Gives its number."""
        return self._engine.write(_text(check_batch(pairs_of(changes))))

    def commit_if(self, guards: Pairs, changes: Pairs) -> int:
        """Commits a batch if each key of the guards has its value, or none where that is None. Else `GuardFailed` is raised."""
        asked = pairs_of(guards)
        if len(asked) > MOST_GUARDS:
            raise LimitError(f"a batch has at most {MOST_GUARDS} guards, and this one has {len(asked)}")
        return self._engine.write_if(_text(asked) if asked else b"", _text(check_batch(pairs_of(changes))))

    def page(self, start: Data = b"", end: Optional[Data] = None, limit: int = MOST_PAGE) -> Page:
        """The first rows from a key on, as they are now, and the first key that was left out."""
        return self._engine.page(_NOW, data_of(start, "start"), None if end is None else data_of(end, "end"), limit)

    def snapshot(self) -> Snapshot:
        """The map as it is now: `with store.snapshot() as then:`."""
        return Snapshot(self._engine)

    def pipeline(self) -> Pipeline:
        """Many calls together: `with store.pipeline() as calls:`."""
        return Pipeline(self)

    def sync(self) -> None:
        """Makes all batches so far outlast a crash."""
        self._engine.call("sync")

    def stat(self) -> Stat:
        """The numbers of the store."""
        told = self._engine.stat()
        return Stat(told.generation, told.batches, told.log_room, int(told.waiting), told.runs, told.tables, told.free_blocks)

    def room(self) -> int:
        """The free sectors of the open log."""
        return int(self._engine.stat().log_room)

    def compact(self) -> Stat:
        """Merges all tables into the last level, and gives the numbers after that. Other threads read and write meanwhile."""
        self._engine.call("compact")
        return self.stat()

    def backup(self, path: Path, sectors: Optional[int] = None, log_sectors: Optional[int] = None) -> int:
        """Copies all rows of one moment into a new store in another file, and gives their number. Others go on meanwhile.

        The new file has the size of this one, and more if that doesn't do. FileExistsError is raised if there is a file of that name.
        """
        size = min(max(sectors or os.stat(self._path).st_size // 512, LEAST_SECTORS), MOST_SECTORS)
        with self.snapshot() as then:
            while True:
                _create(path, size, log_for(size) if log_sectors is None else log_sectors)
                try:
                    return _copy(then, path)
                except BaseException as failed:
                    os.unlink(path)
                    if not isinstance(failed, NoSpace) or size == MOST_SECTORS:
                        raise
                size = min(2 * size, MOST_SECTORS)

    def __del__(self) -> None:
        engine: Optional[_Engine] = getattr(self, "_engine", None)
        if engine is not None and getattr(engine, "is_open", False) and not engine.closed:
            warnings.warn(f"a store was not closed: {self!r}", ResourceWarning, source=self)
            with contextlib.suppress(Exception):
                engine.close(True)

    def __repr__(self) -> str:
        return f"<Store {str(self._path)!r}{' closed' if self.closed else ''}>"


def _create(path: Path, sectors: int, log_sectors: int) -> None:
    """Makes a file with an empty store. FileExistsError is raised if there is a file of that name, which stays as it was."""
    check_sizes(sectors, log_sectors)
    if os.path.lexists(path):
        raise FileExistsError(17, "there is a file of that name, which is not overwritten", os.fspath(path))
    _check(library().corwaphi_create(os.fsencode(path), byref(_Options(_CACHE, sectors, log_sectors))))


def _copy(then: Snapshot, path: Path) -> int:
    """Copies all rows of a map into the empty store of a file, and gives their number."""
    copied, size = 0, 2
    batch: List[Row] = []
    with Store(path) as other:
        for key, value in then.scan():
            if size + 4 + len(key) + len(value) > MOST_BATCH:
                other.commit(batch)
                batch, size = [], 2
            batch.append((key, value))
            size += 4 + len(key) + len(value)
            copied += 1
        if batch:
            other.commit(batch)
    return copied
