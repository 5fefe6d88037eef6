"""What a call may raise. All of it is an `Error`."""
from __future__ import annotations

from typing import Optional


class Error(Exception):
    """Any failure that this package tells."""


class Closed(Error):
    """The store is closed: by `close`, or for good by a call that was cut off before its answer had come."""


class Ended(Error):
    """The other side has ended before it answered. The call may have been done or not."""


class BadAnswer(Error):
    """An answer that isn't one to the question. It gives no value, and the store is closed for good."""


class Usage(Error):
    """The other side doesn't know the call: it is of another version than this package."""


class LimitError(Error, ValueError):
    """An argument is outside the limits of a store. Nothing was sent."""


class Refused(Error):
    """The store refused a call: `number` and `name` say why. `cause` is what the system says of a file, if it does."""

    def __init__(self, number: int, name: str, cause: str = "") -> None:
        super().__init__(f"{number:02} {name}" + (f": {cause}" if cause else ""))
        self.number, self.name, self.cause = number, name, cause


class NoMemory(Refused):
    """Memory was refused. Nothing has changed."""


class IoError(Refused):
    """The file can't be opened, or a read, a write or a sync of it failed."""


class Busy(IoError):
    """Another process has the file."""


class Stopped(Refused):
    """A write or a sync has failed before. Close the store and open it again: what was synced is there."""


class LogFull(Refused):
    """The log has no room for the batch, and no other could be opened. Only earlier programs tell it."""


class NoSpace(Refused):
    """There is no room for puts, or no log with room could be opened. Delete keys, or move to a larger file."""


class NoSuchSnapshot(Refused):
    """The snapshot was released."""


class TooManySnapshots(Refused):
    """32 snapshots are live."""


class GuardFailed(Refused):
    """A guard of `commit_if` is false: `place` is its place among the guards, from 0. Nothing was committed."""

    def __init__(self, number: int, name: str, place: int) -> None:
        super().__init__(number, name, f"guard {place} is false")
        self.place = place


_BY_NUMBER: dict[int, type[Refused]] = {
    1: NoMemory,
    2: IoError,
    3: Stopped,
    4: LogFull,
    7: NoSuchSnapshot,
    8: TooManySnapshots,
    13: NoSpace,
}


def refusal(words: list[str], cause: str = "") -> Refused:
    """The refusal that the words `NN Name` or `30 GuardFailed P` tell. Other words raise ValueError."""
    number, name, *rest = words
    if int(number) == 30:
        (place,) = rest
        return GuardFailed(30, name, int(place))
    if rest:
        raise ValueError("a refusal with more words than it has")
    if int(number) == 2 and "in use" in cause:
        return Busy(2, name, cause)
    return _BY_NUMBER.get(int(number), Refused)(int(number), name, cause)


def refusal_of_end(said: str) -> Optional[Refused]:
    """The refusal that a program told on standard error as it ended, if it was one."""
    lines = said.splitlines()
    if not lines or not lines[0].startswith("refused "):
        return None
    causes = [line[len("error: "):] for line in lines[1:] if line.startswith("error: ")]
    try:
        return refusal(lines[0].split()[1:], " ".join(causes))
    except ValueError:
        return None
