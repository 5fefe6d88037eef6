"""Files of stores: new ones are made beside their place, and take it whole. No file is ever overwritten."""
from __future__ import annotations

import contextlib
import os
import secrets
import subprocess
from typing import Iterator, Optional, Union

from .errors import Ended, Error, LimitError, NoSpace, refusal_of_end
from .links import path_word, program_of, scratch, start
from .views import View
from .words import MOST_PAGE, word

Path = Union[str, "os.PathLike[str]"]

LEAST_SECTORS, MOST_SECTORS = 8192, 1048576
LEAST_LOG, MOST_LOG = 128, 2048
SECTORS, LOG_SECTORS = 131072, 1018  # 64 MiB, with logs that put each block of a table on a page of the system's cache.


def run(program: Optional[str], *words: str) -> str:
    """What lsmctl prints on these words. What it refuses is raised."""
    said = scratch()
    with said, start([program_of(program), *words], said) as process:
        answer = process.communicate()[0].decode(errors="replace")
        said.seek(0)
        _raise_end(process.returncode, said.read(1 << 16).decode(errors="replace").strip())
    return answer


def _raise_end(status: int, said: str) -> None:
    if status:
        raise refusal_of_end(said) or Ended(said or f"lsmctl ended with {status}")


def check_sizes(sectors: int, log_sectors: int) -> None:
    """Refuses sizes that no store has."""
    if not LEAST_SECTORS <= sectors <= MOST_SECTORS:
        raise LimitError(f"a store has {LEAST_SECTORS} to {MOST_SECTORS} sectors of 512 bytes, and not {sectors}")
    if not LEAST_LOG <= log_sectors <= MOST_LOG:
        raise LimitError(f"a log has {LEAST_LOG} to {MOST_LOG} sectors, and not {log_sectors}")


def create(path: Path, sectors: int, log_sectors: int, program: Optional[str]) -> None:
    """Makes a file with an empty store. FileExistsError is raised if there is a file of that name, which stays as it was."""
    check_sizes(sectors, log_sectors)
    with _beside(path) as new:
        run(program, "format", path_word(new), str(sectors), str(log_sectors))
        _put_in_place(new, path)


@contextlib.contextmanager
def _beside(path: Path) -> Iterator[str]:
    """The path of a new file in the same folder, which goes at the end."""
    said = os.fspath(path)
    if os.path.lexists(said):
        raise FileExistsError(17, "there is a file of that name, which is not overwritten", said)
    folder, name = os.path.split(said)
    new = os.path.join(folder, f".{name[:100]}.new-{secrets.token_hex(6)}")
    try:
        yield new
    finally:
        with contextlib.suppress(FileNotFoundError):
            os.unlink(new)


def _put_in_place(new: str, path: Path) -> None:
    """Gives a file its name, unless there is one of that name, and makes the name outlast a power cut."""
    os.link(new, path)
    folder = os.open(os.path.dirname(os.fspath(path)) or ".", os.O_RDONLY | os.O_DIRECTORY)
    try:
        os.fsync(folder)
    finally:
        os.close(folder)


def copy(view: View, path: Path, sectors: int, log_sectors: int, program: Optional[str]) -> int:
    """Copies all rows of a map into a new store, and gives their number. Where the sectors don't do it takes more."""
    while True:
        check_sizes(sectors, log_sectors)
        with _beside(path) as new:
            run(program, "format", path_word(new), str(sectors), str(log_sectors))
            try:
                count = _load(view, new, program)
            except NoSpace:
                if sectors >= MOST_SECTORS:
                    raise
            else:
                _put_in_place(new, path)
                return count
        sectors = min(2 * sectors, MOST_SECTORS)


def _load(view: View, file: str, program: Optional[str]) -> int:
    """Has lsmctl load all rows of a map, and gives their number, which it has to tell too."""
    said = scratch()
    count = 0
    with said, start([program_of(program), "load", path_word(file)], said) as process:
        assert process.stdin is not None and process.stdout is not None
        try:
            lines = []
            for key, value in view.scan():
                lines.append(f"{word(key)} {word(value)}\n")
                count += 1
                if len(lines) == MOST_PAGE:
                    _write(process, lines)
            _write(process, lines)
        except BrokenPipeError:
            pass  # It has ended, and says why.
        except BaseException:
            process.kill()
            raise
        process.stdin.close()
        answer = process.stdout.read()
        status = process.wait()
        said.seek(0)
        _raise_end(status, said.read(1 << 16).decode(errors="replace").strip())
    if answer != b"loaded %d\n" % count:
        raise Error(f"of {count} rows that were copied lsmctl says {answer!r}")
    return count


def _write(process: "subprocess.Popen[bytes]", lines: "list[str]") -> None:
    assert process.stdin is not None
    rest = memoryview("".join(lines).encode())
    while rest:
        rest = rest[process.stdin.write(rest):]
    lines.clear()


def sectors_for(view: View) -> int:
    """The sectors of a store that has room for all rows of a map, and as much again."""
    blocks = sum(40 + len(key) + len(value) for key, value in view.scan()) // 4096
    return max(LEAST_SECTORS, min(MOST_SECTORS, 8 * 4 * blocks))


def log_for(sectors: int) -> int:
    """The sectors of a log that fit a store."""
    return LOG_SECTORS if sectors >= SECTORS // 2 else LEAST_LOG + 2


def sectors_of(path: Path) -> Optional[int]:
    """The sectors of a file, if it can be told."""
    try:
        return os.stat(path).st_size // 512
    except OSError:
        return None
