"""What the tests share: a folder of their own, the program, and how much of the long ones is done."""
from __future__ import annotations

import faulthandler
import os
import shutil
import signal
import subprocess
import sys
import tempfile
import time
import unittest
from typing import Any, Callable, List, Optional

HERE = os.path.dirname(os.path.abspath(__file__))
SOURCES = os.path.join(os.path.dirname(HERE), "src")
MODEL = os.path.join(HERE, "model.py")
sys.path.insert(0, SOURCES)
os.environ["PYTHONPATH"] = SOURCES
os.environ.setdefault("LSMCTL", MODEL)

from corwaphi import Busy, Error, Store  # noqa: E402

LIMIT = float(os.environ.get("CORWAPHI_TEST_SECONDS", "300"))
PART = float(os.environ.get("CORWAPHI_TEST_PART", "1"))
SECTORS, LOG = 8192, 130


def some(count: int) -> int:
    """The part of so many that is done."""
    return max(1, int(count * PART))


class Case(unittest.TestCase):
    """A test with a folder of its own. It ends the process, with all stacks, if it lasts too long."""

    def setUp(self) -> None:
        faulthandler.dump_traceback_later(LIMIT, exit=True)
        self.folder = tempfile.mkdtemp(prefix="corwaphi test ")
        self.file = os.path.join(self.folder, "F")
        self.socket = os.path.join(self.folder, "S")
        self.addCleanup(shutil.rmtree, self.folder, ignore_errors=True)
        if len(self.socket) > 100:  # The path of a socket has at most 107 bytes.
            short = tempfile.mkdtemp(dir="/tmp")
            self.socket = os.path.join(short, "S")
            self.addCleanup(shutil.rmtree, short, ignore_errors=True)
        self.addCleanup(faulthandler.cancel_dump_traceback_later)

    def store(self, **words: Any) -> Store:
        """The store of the test, which is made when it is first opened. Another one may still be on its way out."""
        return within(20, lambda: Store.open(self.file, create=True, sectors=SECTORS, log_sectors=LOG, **words), Busy)

    def server(self) -> "subprocess.Popen[str]":
        """A server of the store, which listens."""
        if not os.path.exists(self.file):
            self.store().close()
        process = within(30, self._started, Error)
        self.addCleanup(end, process)
        return process

    def _started(self) -> "subprocess.Popen[str]":
        words = [sys.executable, "-m", "corwaphi.server", self.file, self.socket]
        process = subprocess.Popen(words, stdout=subprocess.PIPE, stderr=subprocess.PIPE, text=True)
        assert process.stdout is not None and process.stderr is not None
        if process.stdout.readline().startswith("serving "):
            return process
        raise Error(process.communicate()[1])

    def refuses_all(self, store: Store, kind: type) -> None:
        """Each call raises, and none gives a value."""
        calls: List[Callable[[], object]] = [
            lambda: store.get(b"k"), lambda: store.put(b"k", b"v"), lambda: store.delete(b"k"), lambda: list(store.scan()),
            lambda: store.commit_if({b"k": b"v"}, {b"k": b"w"}), store.snapshot, store.stat, store.room, store.sync,
            lambda: store.pipeline().get(b"k").run(), lambda: store.backup(self.file + ".backup"), lambda: b"k" in store,
        ]
        for place, call in enumerate(calls):
            with self.subTest(call=place), self.assertRaises(kind):
                call()


def within(seconds: float, make: Callable[[], Any], error: type) -> Any:
    """What is made, once it can be, within so many seconds."""
    until = time.monotonic() + seconds
    while True:
        try:
            return make()
        except error:
            if time.monotonic() > until:
                raise
            time.sleep(0.05)


def wait_for(condition: Callable[[], bool], seconds: float = 30) -> bool:
    """Whether something comes to hold within so many seconds."""
    until = time.monotonic() + seconds
    while not condition():
        if time.monotonic() > until:
            return False
        time.sleep(0.02)
    return True


def end(process: "subprocess.Popen[str]", number: int = signal.SIGTERM) -> Optional[int]:
    """Ends a process by a signal, and gives its status."""
    if process.poll() is None:
        process.send_signal(number)
    process.wait(60)
    for stream in (process.stdout, process.stderr):
        if stream is not None:
            stream.close()
    return process.returncode


def run(code: str, *words: str) -> "subprocess.Popen[str]":
    """Another Python, which runs this code."""
    return subprocess.Popen([sys.executable, "-c", code, *words], stdout=subprocess.PIPE, stderr=subprocess.PIPE, text=True)
