#!/usr/bin/env python3
"""A stand-in for lsmctl: a dict that answers the lines of `serve` as docs/program.md says, and keeps what was synced in a file.

Tests of the client alone run on it quickly. CORWAPHI_FAULT has it go wrong: `KIND:N` does so at the answer N, from 1 on.
"""
from __future__ import annotations

import bisect
import fcntl
import os
import re
import struct
import sys
import time
from typing import Dict, List, Optional

HEADER = struct.Struct(">8sQ")
MAGIC = b"corwmod\n"


def word(data: bytes) -> str:
    return data.hex() or "empty"


def data_of(said: str) -> bytes:
    if said != "empty" and not re.fullmatch("([0-9a-fA-F]{2})+", said):
        raise ValueError
    return b"" if said == "empty" else bytes.fromhex(said)


def refuse(text: str, cause: str = "") -> "None":
    sys.exit(f"refused {text}" + (f"\nerror: {cause}" if cause else ""))


class Refusal(Exception):
    pass


class Model:
    """The rows of a file, with a log of its batches behind a header that says where it ends."""

    def __init__(self, path: str) -> None:
        if os.path.isdir(path):
            refuse("02 Io", "the file is a folder")
        try:
            self.file = open(path, "r+b", buffering=0)
        except FileNotFoundError:
            refuse("02 Io", "there is no such file")
        try:
            fcntl.flock(self.file, fcntl.LOCK_EX | fcntl.LOCK_NB)
        except BlockingIOError:
            refuse("02 Io", "the file is in use")
        size = os.fstat(self.file.fileno()).st_size
        if size % 512:
            refuse("02 Io", "the length of the file is not a whole number of sectors")
        magic, self.end = HEADER.unpack(self.file.read(HEADER.size).ljust(HEADER.size, b"\0"))
        if magic != MAGIC:
            refuse("21 NotAStore")
        self.most = size * 2 // 3
        self.rows: Dict[bytes, bytes] = {}
        self.batches, self.bytes, self.snapshots, self.taken = 0, 0, {}, 0  # type: int, int, Dict[int, Dict[bytes, bytes]], int
        self.pending: List[str] = []
        for line in self.file.read(self.end - HEADER.size).decode().splitlines():
            self.apply(line.split())
        self.pending.clear()

    def apply(self, operations: List[str]) -> None:
        for operation in operations:
            key, _, value = operation[1:].partition("=")
            old = self.rows.pop(data_of(key), None)
            self.bytes -= 0 if old is None else len(data_of(key)) + len(old)
            if operation[0] == "+":
                self.rows[data_of(key)] = data_of(value)
                self.bytes += len(data_of(key)) + len(data_of(value))
        self.pending.append(" ".join(operations) + "\n")
        self.batches += 1

    def sync(self) -> None:
        data = "".join(self.pending).encode()
        os.pwrite(self.file.fileno(), data, self.end)
        os.pwrite(self.file.fileno(), HEADER.pack(MAGIC, self.end + len(data)), 0)
        self.end += len(data)
        if os.fstat(self.file.fileno()).st_size % 512:
            os.ftruncate(self.file.fileno(), (self.end // 512 + 1) * 512)
        self.pending.clear()

    def at(self, words: List[str]) -> Dict[bytes, bytes]:
        if not words:
            return self.rows
        (number,) = words
        if int(number[1:]) not in self.snapshots:
            raise Refusal("refused 07 NoSuchSnapshot")
        return self.snapshots[int(number[1:])]

    def commit(self, operations: List[str]) -> str:
        for operation in operations:
            key, _, value = operation[1:].partition("=")
            if not 1 <= len(data_of(key)) <= 255:
                raise Refusal("refused 16 BadKey")
        if self.bytes > self.most and any(operation[0] == "+" for operation in operations):
            raise Refusal("refused 13 NoSpace")
        self.apply(operations)
        return f"batch {self.batches}"

    def answer(self, line: str) -> str:
        first, *rest = line.split(" ")
        if first == "commit" and rest:
            return self.commit(rest)
        if first == "if":
            place = rest.index("then")
            for number, guard in enumerate(rest[:place]):
                key, _, value = guard[1:].partition("=")
                if self.rows.get(data_of(key)) != (data_of(value) if guard[0] == "?" else None):
                    return f"refused 30 GuardFailed {number}"
            return self.commit(rest[place + 1:])
        if first == "get":
            rows = self.at(rest[1:])
            return f"value {word(rows[data_of(rest[0])])}" if data_of(rest[0]) in rows else "absent"
        if first == "scan":
            return self.scan(*rest[:3], rows=self.at(rest[3:]))
        if line == "snapshot":
            if len(self.snapshots) == 32:
                return "refused 08 TooManySnapshots"
            self.taken += 1
            self.snapshots[self.taken] = dict(self.rows)
            return f"snapshot {self.taken}"
        if first == "release":
            if self.snapshots.pop(int(rest[0]), None) is None:
                return "refused 07 NoSuchSnapshot"
            return "ok"
        if line == "sync":
            self.sync()
            return "ok"
        if line == "room":
            return "room 100"
        if line in ("stat", "compact"):
            return f"generation 2 batches {self.batches} room 100 waiting 0 runs 0 tables 0 free 959"
        raise ValueError

    def scan(self, start: str, end: str, limit: str, rows: Dict[bytes, bytes]) -> str:
        keys = sorted(rows)
        keys = keys[bisect.bisect_left(keys, data_of(start)): None if end == "end" else bisect.bisect_left(keys, data_of(end))]
        page = "".join(f"{word(key)}={word(rows[key])} " for key in keys[: int(limit)])
        return f"rows {page}" + (f"next {word(keys[int(limit)])}" if len(keys) > int(limit) else "end")


def serve(path: str) -> None:
    model = Model(path)
    kind, _, place = os.environ.get("CORWAPHI_FAULT", "none:0").partition(":")
    rest, number = b"", 0
    while True:
        data = os.read(0, 1 << 18)
        *lines, rest = (rest + data).split(b"\n")
        answers = []
        for line in lines:
            number += 1
            answers.append(fault(kind, answered(model, line, number)) if number == int(place) else answered(model, line, number))
        told = memoryview(b"".join(answers))
        while told:
            told = told[os.write(1, told):]
        if not data:
            model.sync()
            if rest:
                sys.exit("error: the input could not be read: it ends within a line, which was not done")
            return


def answered(model: Model, line: bytes, number: int) -> bytes:
    tagged = re.match(rb"#[0-9]{1,20} ", line)
    tag = tagged.group() if tagged else b""
    try:
        answer = model.answer(line[len(tag):].decode())
    except Refusal as refusal:
        answer = str(refusal)
    except (ValueError, IndexError, TypeError):
        answer = f"usage {number}: the line can't be read"
    return tag + answer.encode() + b"\n"


def fault(kind: str, answer: bytes) -> bytes:
    """A wrong answer in the place of this one, or an end."""
    tag, _, text = answer.partition(b" ")
    if kind == "ends":
        os._exit(0)
    if kind == "dies":
        os.kill(os.getpid(), 9)
    if kind == "short":
        os.write(1, answer[: len(answer) // 2])
        os._exit(0)
    if kind == "silent":
        os.close(1)
        time.sleep(0.5)
        os._exit(0)
    if kind == "fails":
        sys.exit("refused 02 Io\nerror: No space left on device")
    return {
        "other-tag": b"#999999 " + text,
        "tag-before": b"#%d %s" % (int(tag[1:]) - 1, text),
        "no-tag": text,
        "two": answer + answer,
        "empty": tag + b" \n",
        "blank": b"\n",
        "garbage": tag + b" value 6g\n",
        "half-byte": tag + b" value 616\n",
        "no-refusal": tag + b" refused\n",
        "bytes": tag + b" value \xff\xfe\n",
        "other-kind": tag + b" generation 7\n",
        "twice": tag + b" value 61 61\n",
        "none": answer,
    }[kind]


def load(path: str) -> None:
    model = Model(path)
    count = 0
    for line in sys.stdin:
        key, value = line.split()
        try:
            model.commit([f"+{key}={value}"])
        except Refusal as refusal:
            model.sync()
            print(f"loaded {count}")
            sys.exit(str(refusal))
        count += 1
    model.sync()
    print(f"loaded {count}")


def main(words: List[str]) -> Optional[str]:
    if words[0] == "format":
        with open(words[1], "wb") as file:
            file.truncate(int(words[2]) * 512)
            file.write(HEADER.pack(MAGIC, HEADER.size))
        print("formatted blocks 959")
    elif words[0] == "check":
        print(f"ok generation 2 batches {Model(words[1]).batches} tables 0 entries 0 free 959")
    elif words[0] == "serve":
        serve(words[1])
    else:
        load(words[1])
    return None


if __name__ == "__main__":
    main(sys.argv[1:])
