"""What stores, snapshots and pipelines have in common, however their calls are made: items, and what the end of `with` does."""
from __future__ import annotations

import contextlib
import warnings
from types import TracebackType
from typing import Optional, Protocol, Type, TypeVar

from .errors import Closed, GuardFailed
from .words import Data, Pairs

_Self = TypeVar("_Self")


class Keeper(Protocol):
    """What holds the snapshots of a store."""

    @property
    def closed(self) -> bool:
        """Whether it holds none any more."""

    def release(self, number: int) -> None:
        """Forgets a snapshot."""

    def release_later(self, number: int) -> None:
        """Forgets a snapshot at a call that comes later, or at once."""


class Held:
    """A snapshot that is held until it is released."""

    _number: Optional[int] = None
    _keeper: Keeper

    def _held(self) -> int:
        if self._number is None:
            raise Closed("the snapshot was released")
        return self._number

    def release(self) -> None:
        """Forgets it. Once more does nothing."""
        number, self._number = self._number, None
        if number is not None:
            self._keeper.release(number)

    def __enter__(self: _Self) -> _Self:
        return self

    def __exit__(
        self, kind: Optional[Type[BaseException]], error: Optional[BaseException], trace: Optional[TracebackType]
    ) -> None:
        self.release()

    def __del__(self) -> None:
        number = self._number
        if number is not None and not self._keeper.closed:
            self._keeper.release_later(number)
            warnings.warn(f"a snapshot was not released: {self!r}", ResourceWarning, source=self)


class Run:
    """Calls that are made at the end of `with`, if no exception ends it."""

    def run(self) -> object:
        """Makes the calls."""
        raise NotImplementedError

    def __enter__(self: _Self) -> _Self:
        return self

    def __exit__(
        self, kind: Optional[Type[BaseException]], error: Optional[BaseException], trace: Optional[TracebackType]
    ) -> None:
        if kind is None:
            self.run()


class Written:
    """A map whose items are put and deleted, and which is closed at the end of `with`."""

    def __getitem__(self, key: Data) -> bytes:
        raise NotImplementedError

    def put(self, key: Data, value: Data) -> int:
        """Puts a value under a key. Gives the number of the batch."""
        raise NotImplementedError

    def commit_if(self, guards: Pairs, changes: Pairs) -> int:
        """Commits a batch if each guard's key has its value. Gives the number of the batch."""
        raise NotImplementedError

    def close(self) -> None:
        """Closes it."""
        raise NotImplementedError

    def __setitem__(self, key: Data, value: Data) -> None:
        self.put(key, value)

    def __delitem__(self, key: Data) -> None:
        while True:
            value = self[key]
            try:
                self.commit_if([(key, value)], [(key, None)])
                return
            except GuardFailed:
                pass  # Another has changed it meanwhile.

    def __enter__(self: _Self) -> _Self:
        return self

    def __exit__(
        self, kind: Optional[Type[BaseException]], error: Optional[BaseException], trace: Optional[TracebackType]
    ) -> None:
        if kind is None:
            self.close()
            return
        with contextlib.suppress(Exception):  # The exception that ends the block is the one that is told.
            self.close()
