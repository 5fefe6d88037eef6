"""The words of the lines that are sent, made of keys, values and batches within the limits of a store."""
from __future__ import annotations

from typing import Iterable, Mapping, Optional, Tuple, Union

from .errors import LimitError

MOST_KEY = 255
MOST_VALUE = 2048
MOST_BATCH = 61440
MOST_GUARDS = 16
MOST_PAGE = 64
MOST_BOUND = 1024  # No key is so long: a bound of a scan with more bytes is a mistake.

Data = Union[bytes, bytearray, memoryview]
Pair = Tuple[Data, Optional[Data]]
Pairs = Union[Mapping[bytes, Optional[Data]], Iterable[Pair]]


def data_of(data: Data, what: str) -> bytes:
    """The bytes of an argument. Text is refused: whoever has text says how it is encoded."""
    if isinstance(data, str):
        raise TypeError(f"the {what} is text: keys and values are bytes, so say {data[:20]!r}.encode()")
    if not isinstance(data, (bytes, bytearray, memoryview)):
        raise TypeError(f"the {what} is of type {type(data).__name__}: keys and values are bytes")
    return bytes(data)


def key_of(key: Data) -> bytes:
    """A key, which has 1 to 255 bytes."""
    data = data_of(key, "key")
    if not 1 <= len(data) <= MOST_KEY:
        raise LimitError(f"a key has 1 to {MOST_KEY} bytes, and this one has {len(data)}")
    return data


def value_of(value: Data) -> bytes:
    """A value, which has 0 to 2,048 bytes."""
    data = data_of(value, "value")
    if len(data) > MOST_VALUE:
        raise LimitError(f"a value has at most {MOST_VALUE} bytes, and this one has {len(data)}")
    return data


def pairs_of(pairs: Pairs) -> list[tuple[bytes, Optional[bytes]]]:
    """Keys with their values, or None, of a mapping or of pairs."""
    if isinstance(pairs, (str, bytes, bytearray, memoryview)):
        raise TypeError("changes and guards are a dict or pairs of a key and a value")
    rows = pairs.items() if isinstance(pairs, Mapping) else pairs
    return [(key_of(key), None if value is None else value_of(value)) for key, value in rows]


def word(data: bytes) -> str:
    """Bytes as lines write them."""
    return data.hex() or "empty"


def bytes_of(said: str) -> bytes:
    """The bytes that a word of an answer says. Any other word raises ValueError."""
    if said == "empty":
        return b""
    if not said or not set(said) <= set("0123456789abcdef"):
        raise ValueError("a word that is no hex")
    return bytes.fromhex(said)


def commit_line(changes: Pairs) -> str:
    """The line that commits a batch."""
    return "commit " + _operations(changes)


def guarded_line(guards: Pairs, changes: Pairs) -> str:
    """The line that commits a batch if its guards are true."""
    asked = pairs_of(guards)
    if len(asked) > MOST_GUARDS:
        raise LimitError(f"a batch has at most {MOST_GUARDS} guards, and this one has {len(asked)}")
    words = [f"!{word(key)}" if value is None else f"?{word(key)}={word(value)}" for key, value in asked]
    return " ".join(["if", *words, "then", _operations(changes)])


def check_batch(batch: list[tuple[bytes, Optional[bytes]]]) -> list[tuple[bytes, Optional[bytes]]]:
    """A batch, which has an operation and isn't too long."""
    if not batch:
        raise LimitError("a batch has at least one operation")
    size = 2 + sum(2 + len(key) if value is None else 4 + len(key) + len(value) for key, value in batch)
    if size > MOST_BATCH:
        raise LimitError(
            f"a batch has at most {MOST_BATCH} bytes of text (2, for each put 4 with its key and value, "
            f"for each delete 2 with its key), and this one has {size}"
        )
    return batch


def _operations(changes: Pairs) -> str:
    batch = check_batch(pairs_of(changes))
    return " ".join(f"-{word(key)}" if value is None else f"+{word(key)}={word(value)}" for key, value in batch)


def range_of(start: Data, end: Optional[Data], prefix: Optional[Data]) -> tuple[bytes, Optional[bytes]]:
    """The first key of a scan, and the one before which it ends, if there is one."""
    first = data_of(start, "start")
    last = None if end is None else data_of(end, "end")
    if prefix is not None:
        if first or last is not None:
            raise LimitError("a scan has a prefix, or a start and an end")
        first = data_of(prefix, "prefix")
        last = _after(first)
    if last is not None and first > last:
        raise LimitError("the start of a scan is above its end")
    for bound, what in ((first, "start"), (last, "end")):
        if bound is not None and len(bound) > MOST_BOUND:
            raise LimitError(f"the {what} of a scan has at most {MOST_BOUND} bytes, and this one has {len(bound)}")
    return first, last


def _after(prefix: bytes) -> Optional[bytes]:
    """The first key after all that begin with a prefix, if there is one."""
    kept = prefix.rstrip(b"\xff")
    return kept[:-1] + bytes([kept[-1] + 1]) if kept else None
