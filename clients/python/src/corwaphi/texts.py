"""Keys and values as people write and read them: `pear`, `"with space"`, or `0x7065` for other bytes."""
from __future__ import annotations

import re
from typing import List, Optional

ABSENT = "absent"  # The bare word says that there is no value; the text of it stands in quotes.

_ESCAPES = {"n": "\n", "t": "\t", "r": "\r", "0": "\0", '"': '"', "\\": "\\"}
_PLAIN = re.compile(r"[^\s\"\\]+")


def shown(data: Optional[bytes]) -> str:
    """How bytes, or no value, are shown. What is shown can be written again."""
    if data is None:
        return ABSENT
    try:
        text = data.decode()
    except UnicodeDecodeError:
        return "0x" + data.hex()
    if not text.isprintable():
        return "0x" + data.hex()
    if _PLAIN.fullmatch(text) and text != ABSENT and not text.lower().startswith("0x"):
        return text
    return '"' + text.replace("\\", "\\\\").replace('"', '\\"') + '"'


def read(word: str) -> bytes:
    """The bytes that a word says. ValueError tells what is wrong with it."""
    if word.startswith('"'):
        return _quoted(word)
    if word.lower().startswith("0x"):
        try:
            if not re.fullmatch(r"([0-9a-fA-F]{2})*", word[2:]):
                raise ValueError
            return bytes.fromhex(word[2:])
        except ValueError:
            raise ValueError(f"{word[:40]} is no hex of two digits a byte; in quotes it is text") from None
    return word.encode(errors="surrogateescape")


def read_value(word: str) -> Optional[bytes]:
    """The bytes that a word says, or None for `absent`."""
    return None if word == ABSENT else read(word)


def _quoted(word: str) -> bytes:
    if len(word) < 2 or not word.endswith('"'):
        raise ValueError(f"{word[:40]} has no quote at its end")
    text, place, inner = [], 0, word[1:-1]
    while place < len(inner):
        letter = inner[place]
        if letter == '"':
            raise ValueError(f"{word[:40]} has a quote within, which is written \\\"")
        if letter == "\\":
            place += 1
            if place == len(inner) or inner[place] not in _ESCAPES:
                raise ValueError(f"{word[:40]} has a \\ before none of n t r 0 \" \\")
            letter = _ESCAPES[inner[place]]
        text.append(letter)
        place += 1
    return "".join(text).encode(errors="surrogateescape")


def split(line: str) -> List[str]:
    """The words of a line: what stands in quotes is one word, with its quotes."""
    words, rest = [], line.strip()
    while rest:
        found = re.match(r'"(?:[^"\\]|\\.)*"|[^\s"]+', rest)
        if found is None:
            raise ValueError("a quote has no end")
        words.append(found.group())
        after = rest[found.end():]
        if after and not after[0].isspace():
            raise ValueError(f"{after[:40]} stands after {found.group()[:40]} without a space")
        rest = after.strip()
    return words
