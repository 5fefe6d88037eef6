#!/usr/bin/env python3
"""Runs a program of which each sync of a file fails with an input/output error, by a filter of system calls.

    tests/unsynced.py PROGRAM WORDS..

It needs neither strace nor a compiler, but Linux on x86-64. It ends with 77 where the system takes no such filter.
"""

from __future__ import annotations

import ctypes
import errno
import os
import struct
import sys

X86_64 = 0xC000003E
FSYNC, FDATASYNC = 74, 75
LOAD, JUMP_IF_EQUAL, RETURN = 0x20, 0x15, 0x06
ALLOW, FAIL = 0x7FFF0000, 0x00050000 | errno.EIO
NO_NEW_PRIVILEGES, SECCOMP, FILTER = 38, 22, 2


def step(code: int, value: int, if_so: int = 0, if_not: int = 0) -> bytes:
    """A step of a filter, with how many steps to pass over behind it."""
    return struct.pack("=HBBI", code, if_so, if_not, value)


def main(words: list[str]) -> int:
    steps = [
        step(LOAD, 4),
        step(JUMP_IF_EQUAL, X86_64, 0, 3),
        step(LOAD, 0),
        step(JUMP_IF_EQUAL, FSYNC, 2, 0),
        step(JUMP_IF_EQUAL, FDATASYNC, 1, 0),
        step(RETURN, ALLOW),
        step(RETURN, FAIL),
    ]
    code = ctypes.create_string_buffer(b"".join(steps))
    program = ctypes.create_string_buffer(struct.pack("=H6xQ", len(steps), ctypes.addressof(code)))
    library = ctypes.CDLL(None, use_errno=True)
    if library.prctl(NO_NEW_PRIVILEGES, 1, 0, 0, 0) or library.prctl(SECCOMP, FILTER, ctypes.byref(program), 0, 0):
        print(f"unsynced.py: {os.strerror(ctypes.get_errno())}", file=sys.stderr)
        return 77
    os.execv(words[0], words)


if __name__ == "__main__":
    sys.exit(main(sys.argv[1:]))
