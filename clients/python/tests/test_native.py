"""The calls of a store in this process: what `test_client` looks at, and what is its own. They want CORWAPHI_LIBRARY."""
from __future__ import annotations

import gc
import os
import threading
import unittest
import warnings
from typing import List
from unittest import mock

import base
import test_client
from base import LOG, SECTORS, some
from corwaphi import Busy, Closed, IoError, LimitError, Refused, native


class Native(test_client.Calls):
    """The tests of the other engine, with this one in its place."""

    def setUp(self) -> None:
        super().setUp()
        for module in (base, test_client):
            patched = mock.patch.object(module, "Store", native.Store)
            patched.start()
            self.addCleanup(patched.stop)

    def test_what_is_dropped_asks_nothing(self) -> None:
        """Scans and snapshots that are dropped are released by the next call, also behind a close."""
        store = native.Store.open(self.file, create=True, sectors=SECTORS, log_sectors=LOG)
        store.commit([(b"%03d" % place, b"") for place in range(200)])
        for _ in range(100):
            rows, snapshot = store.scan(page=5), store.snapshot()
            with warnings.catch_warnings():
                warnings.simplefilter("ignore")
                del rows, snapshot
                gc.collect()
        rows = store.scan(page=5)
        store.close()
        del rows
        gc.collect()
        with self.assertRaises(Closed):
            store.get(b"000")

    def test_open(self) -> None:
        with self.assertRaisesRegex(IoError, "no such file"):
            native.Store.open(self.file)
        with self.assertRaisesRegex(IoError, "folder"):
            native.Store.open(self.folder)
        with self.assertRaises(LimitError):
            native.Store.open(self.file, create=True, sectors=8191)
        other = os.path.join(self.folder, "no store")
        with open(other, "wb") as file:
            file.write(b"\0" * 512 * SECTORS)
        with self.assertRaises(Refused) as caught:
            native.Store.open(other)
        self.assertEqual((caught.exception.number, caught.exception.name), (21, "NotAStore"))
        with native.Store.open(self.file, create=True, sectors=SECTORS, log_sectors=LOG) as store:
            with self.assertRaises(Busy):
                native.Store.open(self.file)
            store[b"k"] = b"v"
        with native.Store.open(self.file) as store:
            self.assertEqual(store[b"k"], b"v")
        self.assertEqual(sorted(os.listdir(self.folder)), ["F", "no store"])

    def test_dropped(self) -> None:
        """A store that is dropped is synced and closed, and warns as a file does."""
        store = native.Store.open(self.file, create=True, sectors=SECTORS, log_sectors=LOG)
        store[b"k"] = b"v"
        with warnings.catch_warnings(record=True) as caught:
            warnings.simplefilter("always")
            del store
            gc.collect()
        self.assertEqual([warning.category for warning in caught], [ResourceWarning])
        with native.Store.open(self.file) as store:
            self.assertEqual(store[b"k"], b"v")

    def test_fork(self) -> None:
        """A fork doesn't have the store, and leaves it to its parent."""
        with native.Store.open(self.file, create=True, sectors=SECTORS, log_sectors=LOG) as store:
            store[b"k"] = b"parent"
            child = os.fork()
            if child == 0:
                status = 1
                try:
                    store.get(b"k")
                except Closed:
                    status = 0 if store.closed else 2
                finally:
                    os._exit(status)
            self.assertEqual(os.waitstatus_to_exitcode(os.waitpid(child, 0)[1]), 0)
            self.assertEqual(store[b"k"], b"parent")

    def test_threads(self) -> None:
        """Threads write, read and compact at once."""
        failed: List[BaseException] = []
        with native.Store.open(self.file, create=True, sectors=SECTORS, log_sectors=LOG) as store:

            def work(thread: int) -> None:
                try:
                    for place in range(some(200)):
                        key = b"%d/%05d" % (thread, place)
                        store[key] = b"%d" % place
                        self.assertEqual(store[key], b"%d" % place)
                        if place % 50 == 25:
                            store.compact()
                except BaseException as error:  # noqa: B902
                    failed.append(error)

            threads = [threading.Thread(target=work, args=(thread,)) for thread in range(4)]
            for thread in threads:
                thread.start()
            for thread in threads:
                thread.join()
            self.assertEqual(failed, [])
            self.assertEqual(len(list(store)), 4 * some(200))


if __name__ == "__main__":
    unittest.main()
