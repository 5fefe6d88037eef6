"""Holds one store for many clients, on a socket of the file system.

    python -m corwaphi.server FILE SOCKET

Each client sends lines as to `lsmctl serve`, with tags or without, and is answered in its own order. Snapshots are numbered for each
client from 1, and released when it goes. SIGTERM and SIGINT end the server in order: what was answered is synced.
"""
from __future__ import annotations

import contextlib
import fcntl
import os
import re
import selectors
import signal
import socket
import stat
import sys
import time
from collections import deque
from typing import IO, Deque, Dict, Iterator, List, Optional, Tuple

from .answers import Words
from .channel import Channel
from .errors import BadAnswer, Error
from .links import ProcessLink

MOST_LINE = 300_000
MOST_WAITING = 1 << 16  # The bytes of lines that are read of a client before they are asked.
MOST_UNREAD = 1 << 21  # The bytes of answers that a client may leave unread, with those that are still to come.
PATIENCE = 2.0  # The seconds that clients have to read their last answers when the server ends.

_TAGGED = re.compile(rb"#[0-9]{1,20} ")
_USAGE = re.compile(rb"usage [0-9]+: ")
_SNAPSHOT = re.compile(rb"(release |(?:get|scan) .* @)([0-9]{1,18})", re.DOTALL)
_NO_SNAPSHOT = 2**64 - 1  # A number that no snapshot has.


class Slot:
    """The place of an answer among those of a client."""

    def __init__(self, tag: bytes, number: int, line: bytes) -> None:
        self.tag, self.number, self.line = tag, number, line
        self.answer: Optional[bytes] = None
        self.released: Optional[int] = None  # The client's number of the snapshot that it releases.
        # What the answer may take: a page has up to 64 rows.
        self.cost = MOST_LINE if line.startswith(b"scan") else 5_000

    @property
    def ordered(self) -> bool:
        """Whether the client's next line has to wait for the answer, since it may name the snapshot."""
        return self.line == b"snapshot" or self.line.startswith(b"release ")


class Client:
    """One that has connected: its lines, its answers, and its snapshots."""

    def __init__(self, connection: socket.socket) -> None:
        self.socket = connection
        self.lines: Deque[bytes] = deque()  # Whole lines that were not asked yet.
        self.waiting = 0  # Their bytes.
        self.rest = b""  # What came after the last newline.
        self.slots: Deque[Slot] = deque()
        self.outgoing = bytearray()
        self.cost = 0
        self.number = 0
        self.snapshots: Dict[int, int] = {}
        self.taken = 0
        self.ended = False  # It sends no more.
        self.gone = False

    def receive(self, data: bytes) -> None:
        """Takes what it has sent. Of a line that is too long no more is kept than shows that it is."""
        if not data:
            self.ended, self.rest = True, b""  # A line that no newline ends is none.
            return
        *lines, rest = (self.rest + data).split(b"\n")
        self.rest = rest[: MOST_LINE + 1]
        for line in lines:
            self.lines.append(line[: MOST_LINE + 1])
            self.waiting += len(line)

    def next(self) -> Slot:
        """Takes its next line. One that is too long has its answer at once."""
        line = self.lines.popleft()
        self.waiting = self.waiting - len(line) if self.lines else 0
        self.number += 1
        tagged = _TAGGED.match(line)
        tag = tagged.group() if tagged else b""
        slot = Slot(tag, self.number, line[len(tag):])
        if len(line) > MOST_LINE:
            slot.answer = b"usage 0: a line has at most %d bytes" % MOST_LINE
        self.slots.append(slot)
        self.cost += slot.cost
        return slot

    def asked(self, slot: Slot) -> bytes:
        """What is asked for a line: the same, with the store's number of a snapshot in the place of the client's."""
        named = _SNAPSHOT.fullmatch(slot.line)
        if named is None:
            return slot.line
        number = int(named.group(2))
        if named.group(1) == b"release ":
            slot.released = number
        return named.group(1) + b"%d" % self.snapshots.get(number, _NO_SNAPSHOT)

    def answered(self, slot: Slot, answer: bytes) -> None:
        """Takes an answer of the store. What it says of lines and snapshots is said by the client's numbers."""
        if slot.line == b"snapshot" and answer.startswith(b"snapshot "):
            self.taken += 1
            self.snapshots[self.taken] = int(answer[9:])
            answer = b"snapshot %d" % self.taken
        elif slot.released is not None and answer == b"ok":
            self.snapshots.pop(slot.released, None)
        slot.answer = answer

    def tell(self) -> None:
        """Puts the answers whose turn has come among what goes out."""
        while self.slots and self.slots[0].answer is not None:
            slot = self.slots.popleft()
            self.cost -= slot.cost
            answer = slot.answer or b""
            usage = _USAGE.match(answer)
            if usage:
                answer = b"usage %d: " % slot.number + answer[usage.end():]
            self.outgoing += slot.tag + answer + b"\n"

    @property
    def full(self) -> bool:
        """Whether it has to read before more of its lines are asked."""
        return len(self.outgoing) + self.cost > MOST_UNREAD

    @property
    def ready(self) -> bool:
        """Whether its next line may be asked."""
        return bool(self.lines) and not self.full and not (self.slots and self.slots[-1].ordered)

    @property
    def done(self) -> bool:
        """Whether it has had all that it asked for."""
        return self.ended and not (self.lines or self.slots or self.outgoing)

    def events(self) -> int:
        """What is waited for: its lines, if there is room for them, and that it reads, if there is something."""
        reads = not self.ended and not self.full and self.waiting < MOST_WAITING
        return (selectors.EVENT_READ if reads else 0) | (selectors.EVENT_WRITE if self.outgoing else 0)


class Server:
    """Hands the lines of all clients to one lsmctl, in turn, and its answers back."""

    def __init__(self, file: str, listener: socket.socket) -> None:
        self.channel = Channel(ProcessLink(file, None))
        self.link = self.channel.link
        try:
            self.channel.ask("stat", Words.stat)
        except BaseException:
            self.channel.abandon()
            raise
        self.listener = listener
        self.selector = selectors.DefaultSelector()
        self.clients: Deque[Client] = deque()
        self.flying: Deque[Tuple[bytes, int, Optional[Client], Optional[Slot]]] = deque()
        self.size = 0  # The bytes of what flies.
        self.releases: Deque[int] = deque()
        self.tag = 1
        self.rest = b""
        self.until: Optional[float] = None  # When it ends at the latest, once it was told to.
        self.wake = -1

    def serve(self, wake: int) -> None:
        """Serves until it is told to end, by a byte on `wake`. Then it ends lsmctl in order."""
        self.wake = wake
        self.selector.register(wake, selectors.EVENT_READ, self._stop)
        self.selector.register(self._output, selectors.EVENT_READ, self._receive)
        try:
            while not self._finished():
                for key, events in self.selector.select(None if self.until is None else 0.1):
                    if isinstance(key.data, Client):
                        self._serve(key.data, events)
                    else:
                        key.data()
                self._ask()
                for client in list(self.clients):
                    self._watch(client)
            self.channel.close()
        finally:
            for client in list(self.clients):
                client.socket.close()
            self.channel.abandon()

    @property
    def _output(self) -> int:
        assert isinstance(self.link, ProcessLink)
        return self.link.fileno()

    def listen(self) -> None:
        """Takes clients from now on."""
        self.listener.setblocking(False)
        self.selector.register(self.listener, selectors.EVENT_READ, self._accept)

    def _accept(self) -> None:
        try:
            connection, _ = self.listener.accept()
        except BlockingIOError:
            return
        except OSError:  # There are too many. It goes on when one has gone.
            self.selector.unregister(self.listener)
            return
        connection.setblocking(False)
        client = Client(connection)
        self.clients.append(client)
        self.selector.register(connection, selectors.EVENT_READ, client)

    def _stop(self) -> None:
        os.read(self.wake, 512)
        if self.until is None:
            self.until = time.monotonic() + PATIENCE
            with contextlib.suppress(KeyError):
                self.selector.unregister(self.listener)
            for client in self.clients:
                client.ended = True
                client.lines.clear()

    def _finished(self) -> bool:
        if self.until is None or self.flying:
            return False
        return time.monotonic() > self.until or not any(client.outgoing for client in self.clients)

    def _serve(self, client: Client, events: int) -> None:
        """Reads of a client, and sends to it."""
        try:
            if events & selectors.EVENT_READ:
                client.receive(client.socket.recv(1 << 16))
            if events & selectors.EVENT_WRITE:
                del client.outgoing[: client.socket.send(client.outgoing)]
        except BlockingIOError:
            pass
        except OSError:
            self._forget(client)

    def _watch(self, client: Client) -> None:
        """Waits for what a client is waited for. One that is done is let go."""
        if client.gone:
            return
        if client.done:
            self._forget(client)
            return
        events = client.events()
        known = self.selector.get_map().get(client.socket)
        if known is None:
            if events:
                self.selector.register(client.socket, events, client)
        elif not events:
            self.selector.unregister(client.socket)
        elif known.events != events:
            self.selector.modify(client.socket, events, client)

    def _forget(self, client: Client) -> None:
        if client.gone:
            return
        client.gone = True
        self.clients.remove(client)
        with contextlib.suppress(KeyError):
            self.selector.unregister(client.socket)
        client.socket.close()
        self.releases.extend(client.snapshots.values())
        client.snapshots.clear()
        if self.until is None and self.listener not in [key.fileobj for key in self.selector.get_map().values()]:
            self.selector.register(self.listener, selectors.EVENT_READ, self._accept)

    def _ask(self) -> None:
        """Sends lsmctl as many lines as it can take, one of each client in turn."""
        chunk: List[bytes] = []
        while self.releases:
            self._add(chunk, b"release %d" % self.releases.popleft(), None, None)
        for client, slot in self._turns():
            self._add(chunk, client.asked(slot), client, slot)
        if chunk:
            try:
                self.link.write(b"".join(chunk))
            except BrokenPipeError:
                raise Error(self.link.end() or "lsmctl has ended") from None

    def _turns(self) -> Iterator[Tuple[Client, Slot]]:
        """The clients whose turn it is, with their next lines, as long as there is room for them."""
        idle = 0
        while self.clients and idle < len(self.clients):
            client = self.clients[0]
            if client.ready:
                if self.size and self.size + len(client.lines[0]) + 32 > self.link.window:
                    return
                slot = client.next()
                if slot.answer is None:
                    yield client, slot
                else:
                    client.tell()
                idle = 0
            else:
                idle += 1
            self.clients.rotate(-1)

    def _add(self, chunk: List[bytes], line: bytes, client: Optional[Client], slot: Optional[Slot]) -> None:
        self.tag += 1
        tag = b"#%d " % (10**9 + self.tag)
        chunk.append(tag + line + b"\n")
        self.flying.append((tag, len(chunk[-1]), client, slot))
        self.size += len(chunk[-1])

    def _receive(self) -> None:
        """Takes what lsmctl has answered."""
        data = self.link.read()
        if not data:
            raise Error(self.link.end() or "lsmctl has ended")
        *answers, self.rest = (self.rest + data).split(b"\n")
        told = set()
        for answer in answers:
            client = self._take(answer)
            if client is not None:
                told.add(client)
        for client in told:
            client.tell()

    def _take(self, answer: bytes) -> Optional[Client]:
        tag, length, client, slot = self.flying.popleft() if self.flying else (b"#", 0, None, None)
        if not answer.startswith(tag):
            raise BadAnswer(f"the answer to {tag.decode().strip()} is {answer[:80].decode(errors='replace')!r}")
        self.size -= length
        if client is None or slot is None:
            return None
        client.answered(slot, answer[len(tag):])
        if client.gone:
            self.releases.extend(client.snapshots.values())
            client.snapshots.clear()
            return None
        return client


@contextlib.contextmanager
def _listening(path: str) -> Iterator[socket.socket]:
    """A socket at this path, which only its owner may use. One that stands there is replaced only if nobody listens on it."""
    with _locked(path + ".lock"), socket.socket(socket.AF_UNIX, socket.SOCK_STREAM) as listener:
        _remove_stale(path)
        mask = os.umask(0o177)
        try:
            listener.bind(path)
        finally:
            os.umask(mask)
        try:
            listener.listen(128)
            yield listener
        finally:
            with contextlib.suppress(FileNotFoundError):
                os.unlink(path)


@contextlib.contextmanager
def _locked(path: str) -> Iterator[IO[bytes]]:
    """Keeps other servers from the same socket. The file stays, and the lock goes with the process."""
    with open(os.open(path, os.O_RDWR | os.O_CREAT | os.O_CLOEXEC, 0o600), "wb") as lock:
        try:
            fcntl.flock(lock, fcntl.LOCK_EX | fcntl.LOCK_NB)
        except BlockingIOError:
            raise Error(f"another server has {path}") from None
        yield lock


def _remove_stale(path: str) -> None:
    try:
        if not stat.S_ISSOCK(os.lstat(path).st_mode):
            raise Error(f"{path} is no socket, and is left as it is")
    except FileNotFoundError:
        return
    with socket.socket(socket.AF_UNIX, socket.SOCK_STREAM) as probe:
        try:
            probe.connect(path)
        except ConnectionRefusedError:
            os.unlink(path)
            return
    raise Error(f"another server listens at {path}")


def main(words: List[str]) -> int:
    """Runs a server until a signal ends it. Gives the exit status."""
    if len(words) != 2:
        print("usage: python -m corwaphi.server FILE SOCKET", file=sys.stderr)
        return 2
    wake, waker = os.pipe2(os.O_NONBLOCK | os.O_CLOEXEC)
    signal.set_wakeup_fd(waker, warn_on_full_buffer=False)
    for number in (signal.SIGTERM, signal.SIGINT):
        signal.signal(number, lambda *_: None)
    try:
        with _listening(words[1]) as listener:
            server = Server(words[0], listener)
            server.listen()
            print(f"serving {words[0]} at {words[1]}", flush=True)
            server.serve(wake)
    except (Error, OSError) as error:
        print(f"corwaphi.server: {error}", file=sys.stderr)
        return 1
    finally:  # A second signal changes the status no more.
        signal.pthread_sigmask(signal.SIG_BLOCK, {signal.SIGTERM, signal.SIGINT})
    return 0


def run() -> None:
    """The command `corwaphi-server`."""
    sys.exit(main(sys.argv[1:]))


if __name__ == "__main__":
    run()
