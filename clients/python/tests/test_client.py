"""The calls of a store, compared with a dict, and their limits."""
from __future__ import annotations

import gc
import os
import random
import signal
import sys
import threading
import unittest
import warnings
from typing import Dict, List, Optional, Tuple
from unittest import mock

from base import SECTORS, Case, some, wait_for
from corwaphi import (
    Busy, Closed, Ended, Error, GuardFailed, IoError, Lack, LimitError, NoSpace, NoSuchSnapshot, Page, Refused, Snapshot, Stat,
    Store, TooManySnapshots,
)
from corwaphi.answers import Words

Pairs = List[Tuple[bytes, Optional[bytes]]]


class Answers(unittest.TestCase):
    def test_what_a_compaction_lacks(self) -> None:
        numbers = "generation 7 batches 3 room 120 waiting 0 runs 1 tables 4 free 85"
        found = Words(f"whole 0 wanted 166 together 72 longest 60 {numbers}").compacted()
        self.assertEqual((found, found.lack), (Stat(7, 3, 120, 0, 1, 4, 85), Lack(wanted=166, together=72, longest=60)))
        self.assertEqual(Words(f"whole 0 {numbers}").compacted().lack, Lack(0, 0, 0))
        self.assertIsNone(Words(numbers).compacted().lack)
        for words in (f"whole 0 wanted x together 72 longest 60 {numbers}", f"whole {numbers}", "whole 0"):
            with self.assertRaises((ValueError, KeyError)):
                Words(words).compacted()


class Calls(Case):
    def test_as_a_dict(self) -> None:
        """Random calls beside a dict, and beside copies of it for the snapshots."""
        chosen = random.Random(5)
        rows: Dict[bytes, bytes] = {}
        views: List[Tuple[Snapshot, Dict[bytes, bytes]]] = []

        def key() -> bytes:
            return b"k%03d" % chosen.randrange(150)

        def value() -> bytes:
            return chosen.randbytes(chosen.choice([0, 1, 7, 60, 2048]))

        def changes() -> Pairs:
            return [(key(), value() if chosen.random() < 0.8 else None) for _ in range(chosen.randrange(1, 12))]

        def apply(batch: Pairs) -> None:
            for name, text in batch:
                if text is None:
                    rows.pop(name, None)
                else:
                    rows[name] = text

        with self.store() as store:
            number = 0
            for _ in range(some(3000)):
                choice = chosen.random()
                view, copy = chosen.choice(views) if views and chosen.random() < 0.5 else (store, rows)
                if choice < 0.35:
                    name = key()
                    self.assertEqual(view.get(name), copy.get(name))
                elif choice < 0.65:
                    batch = changes()
                    number += 1
                    self.assertEqual(store.commit(batch), number)
                    apply(batch)
                elif choice < 0.75:
                    batch = changes()
                    guards = {name: rows.get(name) if chosen.random() < 0.8 else b"no" for name in (key(), key())}
                    wrong = [place for place, name in enumerate(guards) if guards[name] != rows.get(name)]
                    try:
                        number = store.commit_if(guards, batch)
                        self.assertEqual(wrong, [])
                        apply(batch)
                    except GuardFailed as failed:
                        self.assertEqual(failed.place, wrong[0])
                elif choice < 0.85:
                    low, high = sorted([key(), key()])
                    found = list(view.scan(low, high, page=chosen.randrange(1, 65)))
                    self.assertEqual(found, sorted((name, text) for name, text in copy.items() if low <= name < high))
                elif choice < 0.90:
                    names = [key() for _ in range(20)]
                    calls = store.pipeline()
                    for name in names:
                        calls.get(name)
                    self.assertEqual(calls.run(), [rows.get(name) for name in names])
                elif choice < 0.95 and len(views) < 10:
                    views.append((store.snapshot(), dict(rows)))
                elif views:
                    views.pop(chosen.randrange(len(views)))[0].release()
            for view, copy in views:
                self.assertEqual(list(view.items()), sorted(copy.items()))
                view.release()
            self.assertEqual(dict(store.items()), rows)
        with self.store() as store:
            self.assertEqual(dict(store), rows)

    def test_mapping(self) -> None:
        with self.store() as store:
            store[b"pear"] = b"green"
            store[b"empty"] = b""
            self.assertEqual((store[b"pear"], store[b"empty"], b"pear" in store, b"plum" in store), (b"green", b"", True, False))
            self.assertEqual((store.get(b"plum"), store.get(b"plum", b"none"), store.get(b"empty", b"none")), (None, b"none", b""))
            with self.assertRaises(KeyError):
                store[b"plum"]
            with self.assertRaises(KeyError):
                del store[b"plum"]
            self.assertEqual((list(store), list(store.values())), ([b"empty", b"pear"], [b"", b"green"]))
            del store[b"pear"]
            self.assertNotIn(b"pear", store)
            store.commit({b"a": b"1", b"b": b"2", b"empty": None})
            store.commit([(bytearray(b"c"), memoryview(b"3"))])
            self.assertEqual(list(store.items()), [(b"a", b"1"), (b"b", b"2"), (b"c", b"3")])
            self.assertEqual(store.stat().batches, 5)
            self.assertGreater(store.room(), 0)
            self.assertEqual(store.compact().batches, 5)
            self.assertEqual(store[b"c"], b"3")

    def test_scan_is_of_one_moment(self) -> None:
        with self.store() as store:
            store.commit([(b"p\xff%03d" % place, b"old") for place in range(200)] + [(b"q", b"")])
            rows = store.scan(prefix=b"p\xff", page=7)
            store.commit([(b"p\xff%03d" % place, b"new" if place % 2 else None) for place in range(200)])
            self.assertEqual(list(rows), [(b"p\xff%03d" % place, b"old") for place in range(200)])
            self.assertEqual(len(list(store.scan(prefix=b"p"))), 100)
            self.assertEqual(list(store.scan(prefix=b"\xff")), [])
            self.assertEqual(list(store.scan(b"p\xff199", None)), [(b"p\xff199", b"new"), (b"q", b"")])
            page = store.pipeline().page(b"p", b"q", 1).run()[0]
            self.assertEqual(page, Page([(b"p\xff001", b"new")], b"p\xff003"))

    def test_scans_that_are_left_release_their_snapshots(self) -> None:
        with self.store() as store:
            store.commit([(b"%03d" % place, b"") for place in range(200)])
            for _ in range(100):
                for _row in store.scan(page=5):
                    break
            kept = [store.scan(page=5) for _ in range(32)]
            with self.assertRaises(TooManySnapshots):
                store.snapshot()
            del kept
            gc.collect()
            with store.scan(page=5) as rows:
                next(rows)
            taken = [store.snapshot() for _ in range(32)]
            for snapshot in taken:
                snapshot.release()
                snapshot.release()
            with self.assertRaises(Closed):
                taken[0].get(b"000")

    def test_what_is_dropped_asks_nothing(self) -> None:
        """Scans and snapshots that are dropped raise nothing, also where lsmctl has been killed: the next call tells that."""
        store = self.store()
        store.commit([(b"%03d" % place, b"") for place in range(200)])
        rows, snapshot = store.scan(page=5), store.snapshot()
        assert store.pid is not None
        os.kill(store.pid, signal.SIGKILL)
        unraisable: List[object] = []
        with mock.patch.object(sys, "unraisablehook", unraisable.append), warnings.catch_warnings():
            warnings.simplefilter("ignore")
            del rows, snapshot
            gc.collect()
        self.assertEqual(unraisable, [])
        with self.assertRaises(Ended):
            store.get(b"000")
        with self.assertRaisesRegex(Closed, "the other side has ended"):
            store.get(b"000")

    def test_a_log_fits_its_file(self) -> None:
        """Without another word a small store has small logs."""
        with Store.open(self.file, create=True, sectors=SECTORS) as store:
            self.assertLessEqual(store.room(), SECTORS // 32)

    def test_limits(self) -> None:
        with self.store() as store:
            wrong: "List[object]" = [
                lambda: store.put(b"", b""), lambda: store.put(b"k" * 256, b""), lambda: store.put(b"k", b"v" * 2049),
                lambda: store.commit({}), lambda: store.get(b""), lambda: store.commit_if([(b"k", None)] * 17, {b"k": b""}),
                lambda: store.commit_if([(b"k" * 256, None)], {b"k": b""}), lambda: store.scan(b"b", b"a"),
                lambda: store.scan(page=65), lambda: store.scan(b"a", prefix=b"b"), lambda: store.scan(b"a" * 1025),
                lambda: store.commit([(b"%04d" % place, b"v" * 2040) for place in range(30)] + [(b"k", b"v" * (61440 - 2 - 30 * 2048 - 4))]),
            ]
            for place, call in enumerate(wrong):
                with self.subTest(call=place), self.assertRaises(LimitError) as caught:
                    call()  # type: ignore[operator]
                self.assertIsInstance(caught.exception, ValueError)
                self.assertIsInstance(caught.exception, Error)
            for bad in ("k", 7, None, [1]):
                with self.assertRaises(TypeError):
                    store.put(bad, b"")  # type: ignore[arg-type]
            with self.assertRaisesRegex(TypeError, r"\.encode\(\)"):
                store.get("pear")  # type: ignore[arg-type]
            with self.assertRaises(TypeError):
                store.commit(b"ab")  # type: ignore[arg-type]
            self.assertEqual(store.stat().batches, 0)
            # All that lies on the limits is taken. 2, and 29 puts of 4, 5 and 2,048 bytes, leave a put of 4, 5 and 1,776 bytes.
            most = [(b"k%04d" % place, b"v" * 2048) for place in range(29)]
            most.append((b"k9999", b"v" * (61440 - 2 - 29 * (4 + 5 + 2048) - 4 - 5)))
            store.commit(most)
            with self.assertRaises(LimitError):
                store.commit(most + [(b"k", None)])
            longest = [(bytes([200 + place]) * 255, b"w" * 2048) for place in range(16)]
            store.commit(longest)
            store.commit_if(longest, most)
            self.assertEqual(list(store.scan(prefix=b"k")), sorted(most))
            self.assertEqual(store.stat().batches, 3)

    def test_pipeline(self) -> None:
        with self.store() as store:
            with store.pipeline() as calls:
                calls.put(b"a", b"1").get(b"a").commit_if({b"a": b"2"}, {b"a": b"3"}).delete(b"a").get(b"a").sync()
            self.assertEqual(calls.results[:2] + calls.results[3:], [1, b"1", 2, None, None])
            self.assertIsInstance(calls.results[2], GuardFailed)
            self.assertEqual((store.pipeline().run(), len(calls)), ([], 0))
            # Long lines and long answers: neither side may wait for the other.
            value = b"v" * 2000
            with store.pipeline() as calls:
                for turn in range(some(60)):
                    calls.commit([(b"%02d" % place, value) for place in range(29)])
                    calls.page()
            self.assertEqual(calls.results[1], Page([(b"%02d" % place, value) for place in range(29)], None))

    def test_pipeline_is_left(self) -> None:
        with self.store() as store:
            with self.assertRaises(ZeroDivisionError):
                with store.pipeline() as calls:
                    calls.put(b"a", b"1")
                    raise ZeroDivisionError
            self.assertNotIn(b"a", store)

    def test_open(self) -> None:
        with self.assertRaisesRegex(IoError, "no such file"):
            Store.open(self.file)
        with self.assertRaisesRegex(IoError, "folder"):
            Store.open(self.folder)
        with self.assertRaisesRegex(Error, "can't be started"):
            Store.open(self.file, program="/nowhere/lsmctl")
        with self.assertRaises(LimitError):
            Store.open(self.file, create=True, sectors=8191)
        other = os.path.join(self.folder, "no store")
        with open(other, "wb") as file:
            file.write(b"\0" * 512 * SECTORS)
        with self.assertRaises(Refused) as caught:
            Store.open(other)
        self.assertEqual((caught.exception.number, caught.exception.name), (21, "NotAStore"))
        with self.store() as store:
            self.assertEqual(os.listdir(self.folder).count("F"), 1)
            with self.assertRaises(Busy):
                Store.open(self.file)
            store[b"k"] = b"v"
            self.assertIsInstance(store.pid, int)
        with self.store() as store:
            self.assertEqual(store[b"k"], b"v")
        self.assertEqual(sorted(os.listdir(self.folder)), ["F", "no store"])

    def test_close(self) -> None:
        store = self.store()
        snapshot = store.snapshot()
        rows = store.scan()
        store[b"k"] = b"v"
        store.close()
        store.close()
        self.assertTrue(store.closed)
        self.assertEqual(list(rows), [])
        self.refuses_all(store, Closed)
        with self.assertRaises(Closed):
            snapshot.get(b"k")
        with self.assertRaises(ZeroDivisionError):
            with self.store() as store:
                self.assertEqual(store[b"k"], b"v")
                raise ZeroDivisionError
        self.assertTrue(store.closed)

    def test_dropped(self) -> None:
        """A store that is dropped ends its lsmctl in order, warns as a file does, and leaves no zombie."""
        store = self.store()
        store[b"k"] = b"v"
        pid = store.pid
        with warnings.catch_warnings(record=True) as caught:
            warnings.simplefilter("always")
            del store
            gc.collect()
        self.assertEqual([warning.category for warning in caught], [ResourceWarning])
        self.assertTrue(wait_for(lambda: not os.path.exists(f"/proc/{pid}")))
        with self.store() as store:
            self.assertEqual(store[b"k"], b"v")

    def test_backup(self) -> None:
        """A backup beside writers is of one moment: they move units between accounts, and the sum stays."""
        accounts = [b"account%03d" % place for place in range(100)]
        with self.store() as store:
            store.commit([(name, b"100") for name in accounts])
            ended = threading.Event()

            def move(seed: int) -> None:
                chosen = random.Random(seed)
                while not ended.is_set():
                    one, two = chosen.sample(accounts, 2)
                    before = [(one, store[one]), (two, store[two])]
                    after = [(one, b"%d" % (int(before[0][1]) - 1)), (two, b"%d" % (int(before[1][1]) + 1))]
                    try:
                        store.commit_if(before, after)
                    except GuardFailed:
                        pass

            movers = [threading.Thread(target=move, args=(seed,)) for seed in range(3)]
            for mover in movers:
                mover.start()
            try:
                for turn in range(3):
                    copy = f"{self.file}.{turn}"
                    self.assertEqual(store.backup(copy), 100)
                    with Store.open(copy) as other:
                        self.assertEqual(sum(int(value) for value in other.values()), 100 * 100)
                        self.assertEqual(list(other), accounts)
                    self.assertEqual(os.path.getsize(copy), os.path.getsize(self.file))
                    with self.assertRaises(FileExistsError):
                        store.backup(copy)
            finally:
                ended.set()
                for mover in movers:
                    mover.join()
            self.assertEqual([name for name in os.listdir(self.folder) if "new" in name], [])

    def test_full(self) -> None:
        """A store that is full tells so, and takes deletes."""
        with self.store() as store:
            value = b"v" * 2000
            with self.assertRaises(NoSpace):
                for turn in range(20000):
                    store.commit([(b"%05d.%02d" % (turn, place), value) for place in range(29)])
            store.delete(b"00000.00")
            self.assertEqual(store.get(b"00000.01"), value)


if __name__ == "__main__":
    unittest.main()
