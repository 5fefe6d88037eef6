"""Times puts and gets of `lsmctl serve` beside those of redis-server, over one connection each.

    beside_redis.py PROGRAM REDIS [PART]

PROGRAM is a built `lsmctl`, REDIS a redis-server, and PART the part of the calls that is made, 1 by default. Both are driven by the same
code: bytes that ask, and the bytes that have to be answered. lsmctl is asked over pipes, redis-server over a Unix socket. It keeps an
append-only file, which it syncs never by itself (`no`), each second (`everysec`), or before each answer (`always`); lsmctl syncs where
a line `sync` says so: once at the end, each second, or after each put.
"""
from __future__ import annotations

import os
import random
import select
import shutil
import socket
import subprocess
import sys
import tempfile
import time
from typing import Callable, List, Tuple

Call = Tuple[bytes, bytes]  # What asks, and what has to be answered.

VALUE = b"v" * 100


class Peer:
    """One that answers bytes with bytes."""

    def __init__(self, output: int, source: int) -> None:
        self.output, self.source = output, source

    def together(self, calls: List[Call]) -> None:
        """Sends all without a wait, and reads meanwhile. Each answer has to be right."""
        questions, wanted = b"".join(ask for ask, _ in calls), b"".join(answer for _, answer in calls)
        os.set_blocking(self.output, False)
        sent, got = 0, bytearray()
        poll = select.poll()
        poll.register(self.source, select.POLLIN)
        while len(got) < len(wanted):
            if sent < len(questions):
                try:
                    sent += os.write(self.output, questions[sent:sent + 65536])
                except BlockingIOError:
                    pass
            if poll.poll(0 if sent < len(questions) else 10000):
                got += os.read(self.source, 1 << 18)
        os.set_blocking(self.output, True)
        if got != wanted:
            sys.exit("beside_redis.py: an answer is wrong")

    def one_by_one(self, calls: List[Call]) -> None:
        """Waits for each answer before it sends the next."""
        for ask, wanted in calls:
            os.write(self.output, ask)
            got = os.read(self.source, 1 << 18)
            while len(got) < len(wanted):
                got += os.read(self.source, 1 << 18)
            if got != wanted:
                sys.exit(f"beside_redis.py: {ask[:80]!r} was answered {got[:80]!r}")


class Corwaphi:
    """The lines of `lsmctl serve`."""

    name = "lsmctl"

    def __init__(self, program: str, folder: str) -> None:
        file = os.path.join(folder, "F")
        subprocess.run([program, "format", file, "262144", "1018"], check=True, stdout=subprocess.DEVNULL)
        self.process = subprocess.Popen([program, "serve", file], bufsize=0, stdin=subprocess.PIPE, stdout=subprocess.PIPE)
        assert self.process.stdin is not None and self.process.stdout is not None
        self.peer = Peer(self.process.stdin.fileno(), self.process.stdout.fileno())
        self.batches = 0

    def put(self, key: bytes) -> Call:
        self.batches += 1
        return b"commit +%s=%s\n" % (key.hex().encode(), VALUE.hex().encode()), b"batch %d\n" % self.batches

    def get(self, key: bytes) -> Call:
        return b"get %s\n" % key.hex().encode(), b"value %s\n" % VALUE.hex().encode()

    def synced(self, call: Call) -> Call:
        return call[0] + b"sync\n", call[1] + b"ok\n"

    def sync(self) -> None:
        self.peer.one_by_one([(b"sync\n", b"ok\n")])

    def end(self) -> None:
        self.process.communicate()


class Redis:
    """The protocol of redis-server."""

    name = "redis"

    def __init__(self, program: str, folder: str, syncs: str) -> None:
        path = os.path.join(folder, "redis")
        words = ["--port", "0", "--unixsocket", path, "--save", "", "--appendonly", "yes", "--appendfsync", syncs, "--dir", folder]
        self.process = subprocess.Popen([program, *words], stdout=subprocess.DEVNULL)
        self.socket = socket.socket(socket.AF_UNIX)
        while True:
            try:
                self.socket.connect(path)
                break
            except OSError:
                time.sleep(0.05)
        self.peer = Peer(self.socket.fileno(), self.socket.fileno())

    def put(self, key: bytes) -> Call:
        return b"*3\r\n$3\r\nSET\r\n$%d\r\n%s\r\n$%d\r\n%s\r\n" % (len(key), key, len(VALUE), VALUE), b"+OK\r\n"

    def get(self, key: bytes) -> Call:
        return b"*2\r\n$3\r\nGET\r\n$%d\r\n%s\r\n" % (len(key), key), b"$%d\r\n%s\r\n" % (len(VALUE), VALUE)

    def synced(self, call: Call) -> Call:
        return call

    def sync(self) -> None:
        pass

    def end(self) -> None:
        self.socket.close()
        self.process.terminate()
        self.process.wait()


def keys(count: int) -> List[bytes]:
    """Keys of 16 bytes, in a random order that is always the same."""
    found = [b"key:%012d" % place for place in range(count)]
    random.Random(7).shuffle(found)
    return found


def timed(name: str, what: str, count: int, work: Callable[[], None]) -> None:
    """Does work, and prints how long each of its calls took."""
    begun = time.perf_counter()
    work()
    used = time.perf_counter() - begun
    print(f"{name:8} {what:40} {count:7} {used:8.2f} s {used / count * 1e6:9.1f} us each", flush=True)


def in_seconds(peer: "Corwaphi | Redis", calls: List[Call]) -> None:
    """Sends calls together, a thousand at a time, with a sync for each second."""
    until = time.perf_counter() + 1
    for place in range(0, len(calls), 1000):
        peer.peer.together(calls[place:place + 1000])
        if time.perf_counter() > until:
            peer.sync()
            until = time.perf_counter() + 1
    peer.sync()


def synced_after(peer: "Corwaphi | Redis", make: Callable[[List[Call]], None], calls: List[Call]) -> None:
    """Makes calls, and syncs."""
    make(calls)
    peer.sync()


def unsynced(peer: "Corwaphi | Redis", part: float) -> None:
    """Puts and gets where nothing is synced but at the end."""
    many, few = int(100_000 * part), int(20_000 * part)
    names = keys(many)
    puts = [peer.put(key) for key in names]
    timed(peer.name, "puts together, a sync at the end", many, lambda: synced_after(peer, peer.peer.together, puts))
    gets = [peer.get(key) for key in random.Random(8).sample(names, many)]
    timed(peer.name, "gets together", many, lambda: peer.peer.together(gets))
    timed(peer.name, "gets one by one", few, lambda: peer.peer.one_by_one(gets[:few]))
    again = [peer.put(key) for key in names[:few]]
    timed(peer.name, "puts one by one, a sync at the end", few, lambda: synced_after(peer, peer.peer.one_by_one, again))


def each_second(peer: "Corwaphi | Redis", part: float) -> None:
    """Puts with a sync a second."""
    puts = [peer.put(key) for key in keys(int(100_000 * part))]
    timed(peer.name, "puts together, a sync a second", len(puts), lambda: in_seconds(peer, puts))


def each_put(peer: "Corwaphi | Redis", part: float) -> None:
    """Puts of which each is synced before its answer."""
    puts = [peer.synced(peer.put(key)) for key in keys(int(2_000 * part))]
    timed(peer.name, "puts one by one, each synced", len(puts), lambda: peer.peer.one_by_one(puts))


def main(program: str, redis: str, part: float) -> None:
    for syncs, work in (("no", unsynced), ("everysec", each_second), ("always", each_put)):
        for name in (Corwaphi.name, Redis.name):
            folder = tempfile.mkdtemp(prefix="beside redis ")
            peer: "Corwaphi | Redis" = Corwaphi(program, folder) if name == Corwaphi.name else Redis(redis, folder, syncs)
            try:
                work(peer, part)
            finally:
                peer.end()
                shutil.rmtree(folder, ignore_errors=True)


if __name__ == "__main__":
    main(os.path.realpath(sys.argv[1]), sys.argv[2], float(sys.argv[3]) if len(sys.argv) > 3 else 1)
