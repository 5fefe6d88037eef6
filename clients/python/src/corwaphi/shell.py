"""A shell for people: `python -m corwaphi FILE [WORD ..]`."""
from __future__ import annotations

import contextlib
import os
import stat
import sys
from typing import Callable, Dict, Iterator, List, NamedTuple, Optional

from . import files, texts
from .errors import Closed, Ended, Error, GuardFailed, IoError
from .links import path_word
from .store import Store
from .texts import read, read_value, shown

USAGE = """\
usage: python -m corwaphi FILE               a shell
       python -m corwaphi FILE WORD ..       one call
FILE is a store, or the socket of `python -m corwaphi.server`. The program lsmctl is found by LSMCTL, or on the path."""


class Mistake(Exception):
    """Words that ask for nothing."""


class Call(NamedTuple):
    """What a word does: the words after it, at least and at most how many they are, and what it is for."""

    usage: str
    least: int
    most: int
    about: str
    make: "Callable[[Shell, List[str]], Iterator[str]]"


class Shell:
    """A store that is opened when it is first asked, and again after a call was cut off."""

    def __init__(self, file: str) -> None:
        self.file = file
        self._store: Optional[Store] = None

    @property
    def is_socket(self) -> bool:
        """Whether the file is the socket of a server."""
        try:
            return stat.S_ISSOCK(os.stat(self.file).st_mode)
        except OSError:
            return False

    @property
    def store(self) -> Store:
        """The open store."""
        if self._store is not None and self._store.closed:
            self.close()
        if self._store is None:
            self._store = Store.connect(self.file) if self.is_socket else Store.open(self.file)
        return self._store

    def close(self) -> None:
        """Ends lsmctl in order."""
        store, self._store = self._store, None
        if store is not None:
            store.close()

    def run(self, words: List[str]) -> Iterator[str]:
        """The lines that a call prints."""
        call = CALLS.get(words[0])
        if call is None:
            raise Mistake(f"no word is {words[0][:40]!r}: help lists them")
        if not call.least <= len(words) - 1 <= call.most:
            raise Mistake(f"usage: {words[0]} {call.usage}".rstrip())
        try:
            yield from call.make(self, words[1:])
        except ValueError as error:
            raise Mistake(str(error)) from error


def _get(shell: Shell, words: List[str]) -> Iterator[str]:
    yield shown(shell.store.get(read(words[0])))


def _put(shell: Shell, words: List[str]) -> Iterator[str]:
    shell.store.put(read(words[0]), read(words[1]))
    shell.store.sync()
    yield "ok"


def _del(shell: Shell, words: List[str]) -> Iterator[str]:
    shell.store.delete(read(words[0]))
    shell.store.sync()
    yield "ok"


def _putif(shell: Shell, words: List[str]) -> Iterator[str]:
    key, old, new = read(words[0]), read_value(words[1]), read_value(words[2])
    shell.store.commit_if([(key, old)], [(key, new)])
    shell.store.sync()
    yield "ok"


def _scan(shell: Shell, words: List[str]) -> Iterator[str]:
    for key, value in shell.store.scan(prefix=read(words[0]) if words else b""):
        yield f"{shown(key)} {shown(value)}"


def _count(shell: Shell, words: List[str]) -> Iterator[str]:
    yield str(sum(1 for _ in shell.store.scan(prefix=read(words[0]) if words else b"")))


def _stat(shell: Shell, _: List[str]) -> Iterator[str]:
    yield " ".join(f"{name} {number}" for name, number in shell.store.stat()._asdict().items())


def _compact(shell: Shell, _: List[str]) -> Iterator[str]:
    yield " ".join(f"{name} {number}" for name, number in shell.store.compact()._asdict().items())


def _check(shell: Shell, _: List[str]) -> Iterator[str]:
    if shell.is_socket:
        raise Mistake("a store that a server holds can't be checked: end the server first")
    shell.close()
    yield files.run(None, "check", path_word(shell.file)).strip()


def _backup(shell: Shell, words: List[str]) -> Iterator[str]:
    yield f"{shell.store.backup(words[0])} rows"


def _create(shell: Shell, words: List[str]) -> Iterator[str]:
    sectors = int(words[0]) if words else files.SECTORS
    files.create(shell.file, sectors, int(words[1]) if words[1:] else files.log_for(sectors), None)
    yield "ok"


def _help(_shell: Shell, _: List[str]) -> Iterator[str]:
    for name, call in CALLS.items():
        yield f"{name + ' ' + call.usage:24} {call.about}"
    yield 'Keys and values are words as pear, "with space" and 0x7065. absent says that there is no value.'


CALLS: Dict[str, Call] = {
    "get": Call("KEY", 1, 1, "the value of a key", _get),
    "put": Call("KEY VALUE", 2, 2, "puts a value, and syncs", _put),
    "del": Call("KEY", 1, 1, "deletes a key, and syncs", _del),
    "putif": Call("KEY OLD NEW", 3, 3, "puts NEW if the key has the value OLD, and syncs; each may be absent", _putif),
    "scan": Call("[PREFIX]", 0, 1, "all keys with their values, or those that begin with PREFIX", _scan),
    "count": Call("[PREFIX]", 0, 1, "how many they are", _count),
    "stat": Call("", 0, 0, "the numbers of the store", _stat),
    "check": Call("", 0, 0, "reads the whole file, and tests it", _check),
    "compact": Call("", 0, 0, "merges all tables into the last level", _compact),
    "backup": Call("PATH", 1, 1, "copies all rows of one moment into a new store", _backup),
    "create": Call("[SECTORS [LOG]]", 0, 2, "makes the file, if there is none; a sector has 512 bytes", _create),
    "help": Call("", 0, 0, "these lines", _help),
}


def told(error: BaseException) -> str:
    """An error in words for people."""
    if isinstance(error, GuardFailed):
        return "not done: the key has another value"
    if isinstance(error, IoError) and "no such file" in error.cause:
        return f"{error}; create makes a store"
    if isinstance(error, FileExistsError):
        return f"{error.filename}: {error.strerror}"
    return str(error) or type(error).__name__


def once(file: str, words: List[str]) -> int:
    """Makes one call. Gives the exit status."""
    shell = Shell(file)
    try:
        with contextlib.closing(shell):
            for line in shell.run(words):
                print(line)
        sys.stdout.flush()
    except Mistake as mistake:
        print(f"error: {mistake}", file=sys.stderr)
        return 2
    except BrokenPipeError:
        os.dup2(os.open(os.devnull, os.O_WRONLY), sys.stdout.fileno())
        return 1
    except KeyboardInterrupt:
        print("cut off: a change may have been made or not", file=sys.stderr)
        return 130
    except (Error, OSError) as error:
        print(f"error: {told(error)}", file=sys.stderr)
        return 1
    return 0


def loop(file: str) -> int:
    """Asks for calls until the input ends."""
    shell = Shell(file)
    prompt = "> " if sys.stdin.isatty() else ""
    with _history(bool(prompt)):
        try:
            if prompt:
                _greet(shell)
            while _turn(shell, prompt):
                pass
            shell.close()
        except (Error, OSError) as error:
            print(f"error: {told(error)}", file=sys.stderr)
            return 1
    return 0


def _greet(shell: Shell) -> None:
    try:
        stat_now = shell.store.stat()
        print(f"{shell.file}: {stat_now.batches} batches, {stat_now.free} free blocks. help lists the words; Ctrl-D ends.")
    except Error as error:
        print(f"error: {told(error)}", file=sys.stderr)


def _turn(shell: Shell, prompt: str) -> bool:
    """Reads a line, and makes its call. Tells whether there may be another one."""
    try:
        line = input(prompt)
    except EOFError:
        if prompt:
            print()
        return False
    except KeyboardInterrupt:
        print()
        return True
    try:
        words = texts.split(line)
        if words and words[0] in ("quit", "exit"):
            return False
        for answer in shell.run(words) if words else ():
            print(answer)
    except KeyboardInterrupt:
        print("\ncut off: a change may have been made or not")
    except (Mistake, ValueError) as mistake:
        print(f"error: {mistake}", file=sys.stderr)
    except (Closed, Ended) as error:
        print(f"error: {told(error)}; the next call opens the store again", file=sys.stderr)
    except (Error, OSError) as error:
        print(f"error: {told(error)}", file=sys.stderr)
    return True


@contextlib.contextmanager
def _history(asked: bool) -> Iterator[None]:
    """Keeps the lines of earlier sessions, where there is a terminal and the home may be written."""
    if not asked:
        yield
        return
    try:
        import readline
    except ImportError:
        yield
        return
    path = os.path.join(os.path.expanduser("~"), ".corwaphi_history")
    readline.set_history_length(1000)
    readline.parse_and_bind("tab: self-insert")
    with contextlib.suppress(OSError):
        readline.read_history_file(path)
    try:
        yield
    finally:
        with contextlib.suppress(OSError):
            readline.write_history_file(path)


def main(words: List[str]) -> int:
    """Runs the shell on the words of a command line. Gives the exit status."""
    if not words or words[0] in ("-h", "--help"):
        print(USAGE, file=sys.stdout if words else sys.stderr)
        return 0 if words else 2
    if len(words) > 1:
        return once(words[0], words[1:])
    return loop(words[0])
