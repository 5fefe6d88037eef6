"""What comes between a question and its answer: threads, signals, forks, kills, and answers that are wrong."""
from __future__ import annotations

import multiprocessing
import os
import random
import signal
import subprocess
import sys
import threading
import time
import unittest
from typing import Callable, Dict, List, Optional, Tuple
from unittest import mock

from base import HERE, MODEL, PART, Case, run, some, wait_for, within
from corwaphi import BadAnswer, Busy, Closed, Ended, Error, GuardFailed, IoError, Store

KEYS = [b"key%02d" % place for place in range(40)]


class Interrupt(Exception):
    """What a signal's handler raises."""


class Threads(Case):
    def test_each_thread_has_its_own_answers(self) -> None:
        """Eight threads get and commit. A key has a value that a commit gave it, and never an older one than before."""
        with self.store() as store:
            store.commit([(key, key + b":0") for key in KEYS])
            wrong: List[str] = []
            seen = [0] * 8

            def read(thread: int, key: bytes, value: object, last: Dict[bytes, int]) -> None:
                seen[thread] += 1
                name, _, number = value.partition(b":") if isinstance(value, bytes) else (b"", b"", b"0")
                if name != key or int(number) < last.get(key, 0):
                    wrong.append(f"{key!r} had {value!r} after {last.get(key)}")
                last[key] = int(number)

            def work(thread: int) -> None:
                chosen, last = random.Random(thread), {}  # type: random.Random, Dict[bytes, int]
                while seen[thread] < some(250_000) // 8 and not wrong:
                    keys = chosen.choices(KEYS, k=250)
                    calls = store.pipeline()
                    for key in keys:
                        calls.get(key)
                    for key, value in zip(keys, calls.run()):
                        read(thread, key, value, last)
                    for key in keys[:5]:
                        read(thread, key, store[key], last)
                    mine = KEYS[thread * 5:thread * 5 + 5]
                    store.commit([(key, b"%s:%d" % (key, last.get(key, 0) + 1)) for key in mine])
                    for key in mine:
                        read(thread, key, store[key], last)

            threads = [threading.Thread(target=work, args=(thread,)) for thread in range(8)]
            for thread in threads:
                thread.start()
            for thread in threads:
                thread.join()
            self.assertEqual(wrong, [])
            self.assertGreaterEqual(sum(seen), some(250_000) - 8)

    def test_others_are_told_when_one_is_cut_off(self) -> None:
        store = self.store()
        told: List[type] = []

        def work() -> None:
            try:
                while True:
                    store.get(b"k")
            except Error as error:
                told.append(type(error))

        threads = [threading.Thread(target=work) for _ in range(4)]
        for thread in threads:
            thread.start()
        assert store.pid is not None
        os.kill(store.pid, signal.SIGKILL)
        for thread in threads:
            thread.join()
        self.assertEqual((told.count(Ended), told.count(Closed)), (1, 3))
        store_closes_quietly(store)


def store_closes_quietly(store: Store) -> None:
    """Closes a store whose end was told already or may be told now."""
    try:
        store.close()
    except Error:
        pass


class Signals(Case):
    def interrupted(self, store: Store, last: int, chosen: random.Random) -> Tuple[int, int]:
        """Commits and reads until a signal's handler raises. Gives the last number that was synced, and that was asked for."""
        synced = last
        try:
            signal.setitimer(signal.ITIMER_REAL, chosen.random() ** 2 * 0.004 + 1e-5)
            while True:
                last += 1
                store.commit([(b"one", b"%d" % last), (b"two", b"%d" % last), (b"long", b"v" * 2000)])
                self.assertEqual(store[b"one"], b"%d" % last)
                self.assertEqual(store.pipeline().get(b"two").get(b"none").get(b"one").run(), [b"%d" % last, None, b"%d" % last])
                if chosen.random() < 0.3:
                    store.sync()
                    synced = last
        except Interrupt:
            signal.setitimer(signal.ITIMER_REAL, 0)
        return synced, last

    def stopped_at_random(self, connect: Callable[[], Store], times: int) -> None:
        def interrupt(*_: object) -> None:
            raise Interrupt

        before = signal.signal(signal.SIGALRM, interrupt)
        self.addCleanup(signal.signal, signal.SIGALRM, before)
        chosen = random.Random(11)
        cut, last = 0, 0
        with connect() as first:
            first.commit([(b"one", b"0"), (b"two", b"0")])
        while cut < times:
            store = connect()
            found = store.pipeline().get(b"one").get(b"two").run()
            self.assertEqual(found[0], found[1])
            last = int(store[b"one"])
            synced, asked = self.interrupted(store, last, chosen)
            if store.closed:
                cut += 1
                self.refuses_all(store, Closed)
            else:
                self.assertEqual(store[b"one"], store[b"two"])
            store_closes_quietly(store)
            with connect() as then:
                self.assertTrue(synced <= int(then[b"one"]) <= asked, (synced, then[b"one"], asked))
                self.assertEqual(then[b"one"], then[b"two"])

    def test_a_handler_that_raises(self) -> None:
        self.stopped_at_random(self.store, some(200))

    def test_a_handler_that_raises_beside_a_server(self) -> None:
        self.server()
        self.stopped_at_random(lambda: Store.connect(self.socket), some(100))

    def test_a_handler_that_calls(self) -> None:
        """A handler can't ask between a question and its answer, nor close; the call that it interrupts is answered."""
        store = self.store()
        store[b"k"] = b"v"
        told: List[object] = []

        def call(*_: object) -> None:
            for make in (lambda: store.get(b"other"), store.close):
                try:
                    told.append(make())
                except Error as error:
                    told.append(type(error))

        before = signal.signal(signal.SIGALRM, call)
        self.addCleanup(signal.signal, signal.SIGALRM, before)
        self.addCleanup(signal.setitimer, signal.ITIMER_REAL, 0)
        signal.setitimer(signal.ITIMER_REAL, 0.001, 0.001)
        try:
            for _ in range(2000):
                self.assertEqual(store[b"k"], b"v")
        except Closed:
            pass  # The handler came between two calls, and closed it.
        signal.setitimer(signal.ITIMER_REAL, 0)
        self.assertTrue(set(told) <= {None, Error, Closed}, told)
        store.close()

    def test_ctrl_c(self) -> None:
        """A Ctrl-C, which goes to all processes of the terminal's group, ends the caller and not lsmctl, which syncs."""
        code = """if True:
            import sys
            from corwaphi import Store
            with Store.open(sys.argv[1]) as store:
                number = 0
                while True:
                    number += 1
                    store.put(b"number", b"%d" % number)
                    if number == 100:
                        print(store.pid, flush=True)
            """
        self.store().close()
        process = subprocess.Popen(
            [sys.executable, "-c", code, self.file], stdout=subprocess.PIPE, stderr=subprocess.PIPE, text=True, start_new_session=True
        )
        assert process.stdout is not None
        process.stdout.readline()
        os.killpg(process.pid, signal.SIGINT)
        self.assertIn("KeyboardInterrupt", process.communicate(timeout=60)[1])
        with self.store() as store:
            self.assertGreaterEqual(int(store[b"number"]), 100)


class Forks(Case):
    def test_a_child_can_do_nothing(self) -> None:
        with self.store() as store:
            store[b"k"] = b"v"
            snapshot = store.snapshot()
            rows = store.scan()
            child = os.fork()
            if child == 0:
                status = 1
                try:
                    self.refuses_all(store, Closed)
                    with self.assertRaises(Closed):
                        snapshot.get(b"k")
                    snapshot.release()
                    rows.close()
                    store.close()
                    del snapshot, rows
                    status = 0 if store.closed else 2
                finally:
                    os._exit(status)
            for _ in range(200):
                self.assertEqual(store[b"k"], b"v")
            self.assertEqual(os.waitpid(child, 0)[1], 0)
            self.assertEqual(snapshot[b"k"], b"v")
            snapshot.release()
            self.assertEqual(list(rows), [(b"k", b"v")])

    def test_a_child_does_not_hold_the_pipe(self) -> None:
        """The parent's close doesn't wait for a child that lives on, and a child that ends as usual disturbs nothing."""
        store = self.store()
        store[b"k"] = b"v"
        context = multiprocessing.get_context("fork")
        held = context.Event()
        waiting = context.Process(target=held.wait)
        waiting.start()
        ending = context.Process(target=lambda: None)
        ending.start()
        ending.join()
        self.assertEqual((ending.exitcode, store[b"k"]), (0, b"v"))
        begun = time.monotonic()
        store.close()
        self.assertLess(time.monotonic() - begun, 20)
        held.set()
        waiting.join()

    def test_a_child_beside_threads(self) -> None:
        """Forks while other threads are between questions and answers."""
        with self.store() as store:
            store[b"k"] = b"v"
            ended = threading.Event()
            wrong: List[object] = []

            def read() -> None:
                while not ended.is_set():
                    value = store.get(b"k")
                    if value != b"v":
                        wrong.append(value)

            threads = [threading.Thread(target=read) for _ in range(3)]
            for thread in threads:
                thread.start()
            for _ in range(some(20)):
                child = os.fork()
                if child == 0:
                    try:
                        store.get(b"k")
                    except Closed:
                        os._exit(0)
                    os._exit(1)
                self.assertEqual(os.waitpid(child, 0)[1], 0)
            ended.set()
            for thread in threads:
                thread.join()
            self.assertEqual(wrong, [])


class Kills(Case):
    def test_lsmctl_is_killed(self) -> None:
        for turn in range(some(5)):
            store = self.store()
            last = synced = int(store.get(b"one", b"0") or b"0")
            killer = threading.Timer(random.Random(turn).random() * 0.3, os.kill, (store.pid, signal.SIGKILL))
            killer.start()
            with self.assertRaises(Ended):
                while True:
                    last += 1
                    store.commit({b"one": b"%d" % last, b"two": b"%d" % last})
                    if last % 7 == 0:
                        store.sync()
                        synced = last
            killer.join()
            self.refuses_all(store, Closed)
            store_closes_quietly(store)
            with self.store() as then:
                found = int(then.get(b"one", b"0") or b"0")
                self.assertTrue(synced <= found <= last, (synced, found, last))
                self.assertEqual(then.get(b"one"), then.get(b"two"))

    def test_the_caller_is_killed_within_a_line(self) -> None:
        """A batch is there whole or not at all, also if who sends it is killed while it sends."""
        code = """if True:
            import sys
            from corwaphi import Store
            store = Store.open(sys.argv[1])
            print("open", flush=True)
            number = 0
            while True:
                calls = store.pipeline()
                for _ in range(20):
                    number += 1
                    calls.commit([(b"%02d" % place, b"%06d" % number * 300) for place in range(29)])
                calls.run()
            """
        self.store().close()
        for turn in range(some(12)):
            process = run(code, self.file)
            assert process.stdout is not None
            process.stdout.readline()
            time.sleep(random.Random(turn).random() * 0.5)
            process.kill()
            process.communicate()
            with self.store() as store:
                values = set(store.values())
                self.assertLessEqual(len(values), 1)
                for value in values:
                    self.assertEqual(value, value[:6] * 300)


class WrongAnswers(Case):
    KINDS = ["other-tag", "tag-before", "no-tag", "two", "empty", "blank", "garbage", "half-byte", "no-refusal", "bytes",
             "other-kind", "twice", "short", "ends", "dies", "silent", "fails"]

    def faulty(self, kind: str, number: int) -> Store:
        Store.open(self.file, create=True, program=MODEL).close()
        with mock.patch.dict(os.environ, CORWAPHI_FAULT=f"{kind}:{number}"):
            return within(20, lambda: Store.open(self.file, program=MODEL), Busy)

    def test_close_for_good(self) -> None:
        """A wrong answer is no value: it is told, and from then on each call is refused."""
        ends = {"short": Ended, "ends": Ended, "dies": Ended, "silent": Ended, "fails": IoError}
        for kind in self.KINDS:
            with self.subTest(kind=kind):
                store = self.faulty(kind, 4)
                store[b"k"] = b"aa"
                self.assertEqual(store[b"k"], b"aa")
                with self.assertRaises(ends.get(kind, BadAnswer)):
                    store.get(b"k")
                self.refuses_all(store, Closed)
                store_closes_quietly(store)

    def test_in_a_pipeline(self) -> None:
        for kind in self.KINDS:
            with self.subTest(kind=kind):
                store = self.faulty(kind, 5)
                calls = store.pipeline().put(b"k", b"aa").get(b"k").get(b"k").get(b"k").get(b"k")
                with self.assertRaises(Error):
                    calls.run()
                self.assertEqual(calls.results, [])
                self.refuses_all(store, Closed)
                store_closes_quietly(store)

    def test_at_the_opening(self) -> None:
        for kind in self.KINDS:
            with self.subTest(kind=kind), self.assertRaises(Error):
                self.faulty(kind, 1)

    def test_of_another_number(self) -> None:
        """Rows that are out of order, of another range, or too many."""
        fake = os.path.join(self.folder, "fake")
        for answer in ("rows 62=31 61=31 end", "rows 7a=31 end", "rows 61=31 61=31 end", "rows next 61", "rows 61=31 next 61", "rows 61 end",
                       "rows 61=31", "rows", "rows 61=31 63=31 end ", "rows 62=31 63=31 64=31 end"):
            with self.subTest(answer=answer):
                with open(fake, "w", encoding="ascii") as file:
                    file.write(f"#!{sys.executable}\nimport sys\nfor line in sys.stdin:\n    tag, word = line.split()[:2]\n"
                               "    stat = 'generation 1 batches 0 room 0 waiting 0 runs 0 tables 0 free 0'\n"
                               f"    print(tag, {answer!r} if word == 'scan' else 'ok' if word == 'sync' else stat, flush=True)\n")
                os.chmod(fake, 0o700)
                store = Store.open(self.file, program=fake)
                with self.assertRaises(BadAnswer):
                    list(store.scan(b"a", b"f", page=2))
                self.refuses_all(store, Closed)
                store_closes_quietly(store)

    def test_an_end_that_never_comes(self) -> None:
        """Who doesn't end is killed."""
        fake = os.path.join(self.folder, "fake")
        with open(fake, "w", encoding="ascii") as file:
            file.write(f"#!{sys.executable}\nimport sys, time\nfor line in sys.stdin:\n    tag, word = line.split()[:2]\n"
                       "    print(tag, 'ok' if word == 'sync' else 'generation 1 batches 0 room 0 waiting 0 runs 0 tables 0 free 0', flush=True)\n"
                       "time.sleep(1000)\n")
        os.chmod(fake, 0o700)
        store = Store.open(self.file, program=fake)
        with mock.patch("corwaphi.links.PATIENCE", 0.5), self.assertRaisesRegex(Ended, "killed"):
            store.close()
        store.close()


if __name__ == "__main__":
    unittest.main()
