"""The package: its pages, its installation, its types, its shell."""
from __future__ import annotations

import os
import pty
import re
import select
import shutil
import signal
import subprocess
import sys
import time
import unittest
from typing import List, Tuple

from base import HERE, SOURCES, Case, end, wait_for  # It makes the package known.

import corwaphi
from corwaphi import Store, texts

PACKAGE = os.path.dirname(HERE)
ROOT = os.path.dirname(os.path.dirname(PACKAGE))


def blocks(path: str) -> List[Tuple[str, str]]:
    """The blocks of code of a page, with their languages."""
    with open(path, encoding="utf-8") as file:
        return re.findall(r"^```(\w+)\n(.*?)^```$", file.read(), re.MULTILINE | re.DOTALL)


class Pages(Case):
    def test_the_page_of_the_package(self) -> None:
        """All of its code runs, as it stands: the queue gives each task to one worker."""
        script = ["set -eu"]
        for language, code in blocks(os.path.join(PACKAGE, "README.md")):
            if language == "sh":
                script.append(code.replace("first.sock &", "first.sock &\nuntil [ -S first.sock ]; do sleep 0.1; done"))
                continue
            found = re.match(r"# (\w+\.py)\n", code)
            assert found is not None
            with open(os.path.join(self.folder, found.group(1)), "w", encoding="utf-8") as file:
                file.write(code)
        done = subprocess.run(["bash", "-c", "\n".join(script)], cwd=self.folder, capture_output=True, text=True, timeout=200, check=False)
        self.assertEqual((done.returncode, done.stderr), (0, ""))
        lines = done.stdout.splitlines()
        self.assertEqual(lines[:3], ["guard 0 is false: it is ripe", "pear ripe", "apple red"])
        # Both workers print to one pipe, and an unbuffered print writes its text and its newline apart.
        tasks = re.findall(r"(?:ann|bob) does (task \d+)", done.stdout)
        self.assertEqual(sorted(tasks), sorted(f"task {number}" for number in range(20)))
        with Store.open(os.path.join(self.folder, "first.img")) as store:
            self.assertEqual(dict(store.items()), {b"apple": b"red", b"pear": b"ripe", b"last": b"20"})

    def test_the_page_of_other_languages(self) -> None:
        self.store().close()
        code = dict(blocks(os.path.join(os.path.dirname(PACKAGE), "README.md")))
        with open(os.path.join(self.folder, "first.c"), "w", encoding="utf-8") as file:
            file.write(code["c"])
        self.assertEqual(self.lines("bash", "-euc", code["sh"].replace("first.img", "F")), ["batch 1", "value 31"])
        if shutil.which("cc") is None:
            self.skipTest("cc is not installed, so the page's example in C is not compiled")
        self.server()
        self.lines("cc", "-Wall", "-Wextra", "-Werror", "-o", "first", "first.c")
        self.assertEqual(self.lines("./first", self.socket), ["batch 2", "value 677265656e", "ok"])

    def lines(self, *words: str) -> List[str]:
        done = subprocess.run(words, cwd=self.folder, stdout=subprocess.PIPE, text=True, timeout=100, check=True)
        return done.stdout.splitlines()


class Installed(Case):
    def test_without_a_network(self) -> None:
        """pip installs it with neither an index nor another package."""
        if subprocess.run([sys.executable, "-m", "pip", "--version"], capture_output=True, check=False).returncode:
            self.skipTest("pip is not installed")
        target = os.path.join(self.folder, "target")
        words = ["-m", "pip", "install", "-q", "--disable-pip-version-check", "--no-index", "--target", target, PACKAGE]
        done = subprocess.run([sys.executable, *words], capture_output=True, text=True, timeout=200, check=False)
        self.assertEqual(done.returncode, 0, done.stderr)
        code = "import corwaphi; print(corwaphi.__version__, corwaphi.__file__)"
        said = subprocess.run([sys.executable, "-c", code], env={**os.environ, "PYTHONPATH": target}, capture_output=True, text=True, check=True)
        self.assertEqual(said.stdout.split()[0], corwaphi.__version__)
        self.assertTrue(said.stdout.split(" ", 1)[1].startswith(target))
        wanted = sorted(name for name in os.listdir(os.path.join(SOURCES, "corwaphi")) if name != "__pycache__")
        self.assertEqual(sorted(name for name in os.listdir(os.path.join(target, "corwaphi")) if name != "__pycache__"), wanted)

    def test_version(self) -> None:
        """The package has the version of the repository."""
        path = os.path.join(ROOT, "VERSION")
        if not os.path.exists(path):
            self.skipTest("the repository has no file VERSION")
        with open(path, encoding="ascii") as file:
            self.assertEqual(corwaphi.__version__, file.read().strip())

    def test_types(self) -> None:
        if shutil.which("mypy") is None:
            self.skipTest("mypy is not installed")
        words = ["mypy", "--cache-dir", os.path.join(self.folder, "cache"), "--strict", "src", "backend.py"]
        done = subprocess.run(words, cwd=PACKAGE, capture_output=True, text=True, timeout=250, check=False)
        self.assertEqual(done.returncode, 0, done.stdout)


class Shells(Case):
    def once(self, *words: str) -> Tuple[int, str, str]:
        done = subprocess.run([sys.executable, "-m", "corwaphi", self.file, *words], capture_output=True, text=True, timeout=100, check=False)
        return done.returncode, done.stdout, done.stderr

    def test_once(self) -> None:
        self.assertEqual(self.once("create", "8192"), (0, "ok\n", ""))
        self.assertEqual(self.once("create")[0], 1)
        self.assertEqual(self.once("put", "pear", "green and red"), (0, "ok\n", ""))
        self.assertEqual(self.once("get", "0x70656172"), (0, '"green and red"\n', ""))
        self.assertEqual(self.once("get", "plum"), (0, "absent\n", ""))
        self.assertEqual(self.once("putif", "plum", "absent", '"absent"'), (0, "ok\n", ""))
        self.assertEqual(self.once("putif", "plum", "absent", "blue"), (1, "", "error: not done: the key has another value\n"))
        self.assertEqual(self.once("put", "0xff00", "0x"), (0, "ok\n", ""))
        self.assertEqual(self.once("scan"), (0, 'pear "green and red"\nplum "absent"\n0xff00 ""\n', ""))
        self.assertEqual(self.once("scan", "pl"), (0, 'plum "absent"\n', ""))
        self.assertEqual(self.once("count"), (0, "3\n", ""))
        self.assertEqual(self.once("del", "pear"), (0, "ok\n", ""))
        self.assertEqual(self.once("backup", self.file + ".copy"), (0, "2 rows\n", ""))
        self.assertEqual(self.once("backup", self.file + ".copy")[0], 1)
        for word, begins in (("stat", "generation "), ("compact", "generation "), ("check", "ok generation "), ("help", "get KEY ")):
            status, answer, _ = self.once(word)
            self.assertEqual((status, answer[:len(begins)]), (0, begins))
        for words in (("get",), ("put", "k"), ("git", "k"), ("get", "0x6"), ("get", '"pear'), ("get", ""), ("put", "k", "v" * 2049), ("create", "x")):
            status, answer, said = self.once(*words)
            self.assertEqual((status, answer, said[:7]), (2, "", "error: "), words)
        self.file += ".none"
        status, answer, said = self.once("get", "k")
        self.assertEqual((status, answer), (1, ""))
        self.assertIn("no such file; create makes a store", said)

    def test_a_call_that_is_interrupted(self) -> None:
        """A Ctrl-C ends a call from the command line in few words."""
        fake = os.path.join(self.folder, "fake")
        with open(fake, "w", encoding="ascii") as file:
            file.write("#!/bin/sh\ncat >/dev/null\n")
        os.chmod(fake, 0o700)
        errors = os.path.join(self.folder, "errors")
        with open(errors, "wb") as said:
            shell = subprocess.Popen([sys.executable, "-m", "corwaphi", self.file, "get", "k"], env={**os.environ, "LSMCTL": fake},
                                     stdout=subprocess.PIPE, stderr=said)
        self.addCleanup(shell.wait)
        self.assertTrue(wait_for(lambda: bool(subprocess.run(["ps", "-o", "pid=", "--ppid", str(shell.pid)], capture_output=True, check=False).stdout)))
        time.sleep(0.5)
        shell.send_signal(signal.SIGINT)
        self.assertEqual((shell.wait(60), shell.communicate()[0]), (130, b""))
        with open(errors, encoding="ascii") as file:
            self.assertEqual(file.read(), "cut off: a change may have been made or not\n")

    def test_lines(self) -> None:
        """Lines that are no terminal's are answered one by one; a mistake ends nothing."""
        self.store().close()
        lines = 'put pear green\n\nget pear\nput "a b" "\\"\\\\\\n"\nnonsense\nget "a b"\nscan\nget "pear\nquit\nget pear\n'
        done = subprocess.run([sys.executable, "-m", "corwaphi", self.file], input=lines, capture_output=True, text=True, timeout=100, check=False)
        self.assertEqual(done.stdout, 'ok\ngreen\nok\n0x225c0a\n"a b" 0x225c0a\npear green\n')
        self.assertEqual((done.returncode, done.stderr.count("error: ")), (0, 2))

    def test_beside_a_server(self) -> None:
        self.server()
        self.file = self.socket
        self.assertEqual(self.once("put", "k", "v"), (0, "ok\n", ""))
        self.assertEqual(self.once("get", "k"), (0, "v\n", ""))
        self.assertEqual(self.once("check")[0], 2)

    def test_on_a_terminal(self) -> None:
        """A Ctrl-C at the prompt ends the line and nothing else, and Ctrl-D ends the shell in order. Earlier lines come back."""
        self.store().close()
        terminal, other = pty.openpty()
        environment = {**os.environ, "HOME": self.folder, "TERM": "dumb", "INPUTRC": "/dev/null"}
        words = [sys.executable, "-m", "corwaphi", self.file]
        shell = subprocess.Popen(words, stdin=other, stdout=other, stderr=other, env=environment, start_new_session=True, preexec_fn=lambda: _control(0))
        os.close(other)
        self.addCleanup(end, shell)
        said = self.until(terminal, b"> ")
        self.assertIn(b"help lists the words", said)
        for typed, answer in ((b"put pear green\n", b"ok"), (b"get pear\n", b"green"), (b"get ", b"\n"), (b"get pear\n", b"green"),
                              (b"\x10\n", b"green")):
            os.write(terminal, typed)
            if not typed.endswith(b"\n"):
                self.interrupt(terminal, typed)
            said = self.until(terminal, b"> ")
            self.assertIn(answer, said)
        os.write(terminal, b"\x04")
        self.assertEqual(shell.wait(60), 0)
        os.close(terminal)
        with open(os.path.join(self.folder, ".corwaphi_history"), encoding="utf-8") as file:
            self.assertIn("put pear green\n", file.readlines())
        with self.store() as store:
            self.assertEqual(store[b"pear"], b"green")

    def interrupt(self, terminal: int, typed: bytes) -> None:
        """Presses Ctrl-C once a line is shown, and again where nothing comes of it: readline may miss a signal between two keys."""
        self.assertTrue(self.until(terminal, typed).endswith(typed))
        for _ in range(20):
            os.write(terminal, b"\x03")
            if select.select([terminal], [], [], 3)[0]:
                return

    def until(self, terminal: int, text: bytes) -> bytes:
        """What comes on a terminal up to this text at its end."""
        said, until = b"", time.monotonic() + 60
        while not said.endswith(text) and time.monotonic() < until:
            if select.select([terminal], [], [], 1)[0]:
                said += os.read(terminal, 4096)
        return said

    def test_texts(self) -> None:
        for data in (b"pear", b"a b", b"", b"0x", b"0x61", b"absent", b'"', b"\\", b"\n", b"\xff", "ü".encode(), b"'", "\u202e".encode()):
            word = texts.shown(data)
            self.assertEqual(texts.split(word), [word])
            self.assertEqual(texts.read_value(word), data)
        self.assertEqual(texts.read_value(texts.shown(None)), None)
        for wrong in ('"', '"a', '"a"b', '"\\x"', "0x6", "0x6g", '"a" "'):
            with self.assertRaises(ValueError):
                texts.read(wrong)


def _control(terminal: int) -> None:
    """Makes a terminal the one that controls this process, so that a Ctrl-C on it is a signal."""
    import fcntl
    import termios

    fcntl.ioctl(terminal, termios.TIOCSCTTY, 0)


if __name__ == "__main__":
    unittest.main()
