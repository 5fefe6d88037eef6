"""A Corwaphi store from Python: a map of keys to values in a file, with atomic batches, guards and snapshots.

    from corwaphi import Store
    with Store.open("store.img", create=True) as store:
        store[b"pear"] = b"green"
        store.sync()

It runs `lsmctl serve`, whose answers it checks: an answer is given only to its question.
"""
from .answers import Compacted, Lack, Page, Stat
from .errors import (
    BadAnswer,
    Busy,
    Closed,
    Ended,
    Error,
    GuardFailed,
    IoError,
    LimitError,
    LogFull,
    NoMemory,
    NoSpace,
    NoSuchSnapshot,
    Refused,
    Stopped,
    TooManySnapshots,
    Usage,
)
from .pipeline import Pipeline
from .store import Store
from .views import Scan, Snapshot, View

__version__ = "0.9.0"

__all__ = [
    "BadAnswer",
    "Busy",
    "Closed",
    "Compacted",
    "Ended",
    "Error",
    "GuardFailed",
    "IoError",
    "Lack",
    "LimitError",
    "LogFull",
    "NoMemory",
    "NoSpace",
    "NoSuchSnapshot",
    "Page",
    "Pipeline",
    "Refused",
    "Scan",
    "Snapshot",
    "Stat",
    "Stopped",
    "Store",
    "TooManySnapshots",
    "Usage",
    "View",
]
