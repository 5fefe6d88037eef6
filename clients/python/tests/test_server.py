"""One store for many processes: a server on a socket, and its clients."""
from __future__ import annotations

import os
import random
import signal
import socket
import subprocess
import sys
import threading
import time
import unittest
from typing import List, Optional

from base import Case, end, run, some, wait_for, within
from corwaphi import Closed, Ended, Error, Store, TooManySnapshots

COUNTER = """if True:
    import sys
    from corwaphi import GuardFailed, Store
    with Store.connect(sys.argv[1]) as store:
        raised = 0
        while raised < int(sys.argv[3]):
            key = b"counter%d" % ((raised + int(sys.argv[2])) % 4)
            value = store.get(key)
            try:
                store.commit_if({key: value}, {key: b"%d" % (int(value or b"0") + 1)})
                raised += 1
            except GuardFailed:
                pass
    """


class Lines:
    """A client that sends and receives lines."""

    def __init__(self, path: str) -> None:
        self.socket = socket.socket(socket.AF_UNIX)
        self.socket.settimeout(60)
        self.socket.connect(path)
        self.file = self.socket.makefile("rb")

    def ask(self, *lines: bytes) -> List[bytes]:
        self.socket.sendall(b"".join(line + b"\n" for line in lines))
        return [self.file.readline().rstrip(b"\n") for _ in lines]

    def close(self) -> None:
        self.file.close()
        self.socket.close()


class Servers(Case):
    def lines(self) -> Lines:
        lines = Lines(self.socket)
        self.addCleanup(lines.close)
        return lines

    def test_counters(self) -> None:
        """16 processes raise counters under guards: none is raised twice, and none is lost."""
        self.server()
        each = some(50)
        processes = [run(COUNTER, self.socket, str(number), str(each)) for number in range(16)]
        for process in processes:
            said = process.communicate()[1]
            self.assertEqual((process.returncode, said), (0, ""))
        with Store.connect(self.socket) as store:
            self.assertEqual(sum(int(value) for value in store.values()), 16 * each)

    def test_lines_without_tags(self) -> None:
        """Answers come in order, with the tags of their lines or without, and with the client's own numbers of lines and snapshots."""
        self.server()
        other = self.lines()
        self.assertEqual(other.ask(b"snapshot", b"commit +61=31"), [b"snapshot 1", b"batch 1"])
        lines = self.lines()
        told = lines.ask(b"get 61", b"#7 get 61", b"#07 snapshot", b"commit +61=32", b"get 61 @1", b"#8 get 61 @2", b"scan empty end 2 @1", b"release 2",
                         b"release 1", b"release 1", b"#12345678901234567890 get 61 @1", b"#123456789012345678901 get 61", b"# get 61", b"get 61\r", b"#9 ")
        self.assertEqual(told[:11], [
            b"value 31", b"#7 value 31", b"#07 snapshot 1", b"batch 2", b"value 31", b"#8 refused 07 NoSuchSnapshot", b"rows 61=31 end",
            b"refused 07 NoSuchSnapshot", b"ok", b"refused 07 NoSuchSnapshot", b"#12345678901234567890 refused 07 NoSuchSnapshot"])
        for number, text in enumerate(told[11:14], 12):
            self.assertTrue(text.startswith(b"usage %d: " % number), text)
        self.assertTrue(told[14].startswith(b"#9 usage 15: "), told[14])
        self.assertEqual(other.ask(b"get 61 @1", b"release 1"), [b"absent", b"ok"])

    def test_long_lines(self) -> None:
        self.server()
        lines = self.lines()
        told = lines.ask(b"x" * 300_001, b"#5 " + b"x" * 900_000, b"x" * 299_000, b"get 61")
        self.assertEqual(told[:2], [b"usage 1: a line has at most 300000 bytes", b"#5 usage 2: a line has at most 300000 bytes"])
        self.assertTrue(told[2].startswith(b"usage 3: "))
        self.assertEqual(told[3], b"absent")
        longest = b"commit " + b" ".join(b"+%04x=%s" % (place, b"61" * 2048) for place in range(29))
        self.assertEqual(lines.ask(longest, b"get 0003"), [b"batch 1", b"value " + b"61" * 2048])

    def test_what_no_newline_ends_is_not_done(self) -> None:
        self.server()
        for close in (True, False):
            lines = self.lines()
            lines.socket.sendall(b"commit +61=31\nget 61\ncommit +61=3233")
            if close:
                lines.socket.shutdown(socket.SHUT_WR)
                self.assertEqual([line[:6] for line in lines.file.read().split(b"\n")], [b"batch ", b"value ", b""])
            else:
                self.assertEqual(lines.file.readline()[:6], b"batch ")
            lines.close()
        time.sleep(0.2)
        with Store.connect(self.socket) as store:
            self.assertEqual((store[b"a"], store.stat().batches), (b"1", 2))

    def test_one_that_does_not_read(self) -> None:
        """It holds up nobody else, and is read no further."""
        process = self.server()
        with Store.connect(self.socket) as store:
            store.commit([(b"%02d" % place, b"v" * 2000) for place in range(29)])
            slow = socket.socket(socket.AF_UNIX)
            self.addCleanup(slow.close)
            slow.connect(self.socket)
            slow.setblocking(False)
            sent, line = 0, b"#%020d get 3037\n" % 7
            for _ in range(200):
                try:
                    sent += slow.send(line * 1000)
                except BlockingIOError:
                    time.sleep(0.01)
            self.assertLess(sent, 3_000_000)
            for _ in range(50):
                self.assertEqual(store[b"07"], b"v" * 2000)
            with open(f"/proc/{process.pid}/status", encoding="ascii") as file:
                memory = [int(row.split()[1]) for row in file if row.startswith("VmRSS")]
            self.assertLess(memory[0], 200_000)
            # It reads at last, and has all its answers.
            slow.settimeout(60)
            slow.shutdown(socket.SHUT_WR)
            answers = 0
            while True:
                data = slow.recv(1 << 20)
                if not data:
                    break
                answers += data.count(b"\n")
            self.assertEqual(answers, sent // len(line))

    def test_one_that_goes_loses_its_snapshots(self) -> None:
        self.server()
        with Store.connect(self.socket) as store:
            gone = self.lines()
            self.assertEqual(gone.ask(*[b"snapshot"] * 32)[31], b"snapshot 32")
            with self.assertRaises(TooManySnapshots):
                store.snapshot()
            gone.close()
            taken = [within(20, store.snapshot, TooManySnapshots) for _ in range(32)]
            for snapshot in taken:
                snapshot.release()
            gone = self.lines()
            gone.socket.sendall(b"snapshot\n" * 32)
            gone.close()
            time.sleep(0.3)
            self.assertTrue(wait_for(lambda: self.takes_all(store)))

    def takes_all(self, store: Store) -> bool:
        taken = []
        try:
            for _ in range(32):
                taken.append(store.snapshot())
        except TooManySnapshots:
            return False
        finally:
            for snapshot in taken:
                snapshot.release()
        return True

    def test_ends_in_order(self) -> None:
        for number in (signal.SIGTERM, signal.SIGINT):
            process = self.server()
            self.assertEqual(os.stat(self.socket).st_mode & 0o777, 0o600)
            store = Store.connect(self.socket)
            for turn in range(50):
                store.put(b"k", b"%d" % turn)
            self.assertEqual(end(process, number), 0)
            with self.assertRaises(Ended):
                store.get(b"k")
            self.refuses_all(store, Closed)
            self.assertFalse(os.path.exists(self.socket))
            with self.store() as then:
                self.assertEqual(then[b"k"], b"49")

    def test_killed(self) -> None:
        """What was synced is there after a kill of the server, whose socket the next one replaces."""
        for turn in range(some(3)):
            process = self.server()
            store = Store.connect(self.socket)
            last = int(store.get(b"one", b"0") or b"0")
            synced, until = last, time.monotonic() + random.Random(turn).random()
            with self.assertRaises(Ended):
                while True:
                    last += 1
                    store.commit({b"one": b"%d" % last, b"two": b"%d" % last})
                    if last % 7 == 0:
                        store.sync()
                        synced = last
                    if time.monotonic() > until:
                        end(process, signal.SIGKILL)
            self.assertTrue(os.path.exists(self.socket))
            self.server()
            with Store.connect(self.socket) as then:
                found = int(then.get(b"one", b"0") or b"0")
                self.assertTrue(synced <= found <= last, (synced, found, last))
                self.assertEqual(then.get(b"one"), then.get(b"two"))
            self.doCleanups_of_server()

    def doCleanups_of_server(self) -> None:
        """Ends the server that runs, so that the next turn starts its own."""
        while self._cleanups and self._cleanups[-1][0] is end:
            function, arguments, words = self._cleanups.pop()
            function(*arguments, **words)

    def test_lsmctl_is_killed(self) -> None:
        process = self.server()
        store = Store.connect(self.socket)
        for child in subprocess.run(["ps", "-o", "pid=", "--ppid", str(process.pid)], capture_output=True, text=True, check=True).stdout.split():
            os.kill(int(child), signal.SIGKILL)
        with self.assertRaises(Ended):
            while True:
                store.get(b"k")
        self.assertEqual(process.wait(60), 1)
        assert process.stderr is not None
        self.assertIn("killed by signal 9", process.stderr.read())
        self.assertFalse(os.path.exists(self.socket))

    def test_two_servers(self) -> None:
        """Neither a store nor a socket that another server has is taken, and no file that is no socket."""
        self.server()
        other = os.path.join(self.folder, "other")
        for words, told in (([self.file, other], "in use"), ([self.file, self.socket], "another server"), ([self.file, self.file], "no socket")):
            done = subprocess.run([sys.executable, "-m", "corwaphi.server", *words], capture_output=True, text=True, check=False)
            self.assertEqual(done.returncode, 1)
            self.assertIn(told, done.stderr)
        with Store.connect(self.socket) as store:
            store[b"k"] = b"v"
        with self.assertRaisesRegex(Error, "nobody answers"):
            Store.connect(other)

    def test_a_server_that_is_waited_for(self) -> None:
        """Who may wait finds a server that begins later, also where a socket was left from before."""
        found: List[Optional[bytes]] = []

        def connect() -> None:
            with Store.connect(self.socket, wait=60) as store:
                found.append(store.get(b"k"))

        for number in (signal.SIGKILL, signal.SIGTERM):
            with self.assertRaisesRegex(Error, "nobody answers"):
                Store.connect(self.socket, wait=0.1)
            waiting = threading.Thread(target=connect)
            waiting.start()
            time.sleep(0.1)
            process = self.server()
            waiting.join()
            end(process, number)
        self.assertEqual(found, [None, None])

    def test_backup(self) -> None:
        self.server()
        with Store.connect(self.socket) as store:
            store.commit([(b"%03d" % place, b"v" * place) for place in range(200)])
            self.assertEqual(store.backup(self.file + ".copy"), 200)
            with Store.open(self.file + ".copy") as copy:
                self.assertEqual(list(copy.items()), list(store.items()))


if __name__ == "__main__":
    unittest.main()
