"""A store, which `lsmctl serve` holds."""
from __future__ import annotations

from typing import Optional

from . import files
from .answers import Compacted, Stat, Words
from .channel import Channel
from .ending import Written
from .files import SECTORS, Path
from .links import Link, ProcessLink, SocketLink
from .pipeline import Pipeline
from .views import Snapshot, View
from .words import Data, Pairs, commit_line, guarded_line


class Store(View, Written):
    """A map of keys to values in a file, both of bytes. It is made by `Store.open` or `Store.connect`.

    Threads may share it. A fork may not use it. What cuts a call off before its answer has come, as a Ctrl-C does, closes it for
    good, and the call may have been done or not.
    """

    def __init__(self, link: Link, path: Path, program: Optional[str]) -> None:
        super().__init__(Channel(link))
        self._path, self._program = path, program
        self._local = isinstance(link, ProcessLink)
        try:
            self.stat()
        except BaseException:
            self._channel.abandon()
            raise

    @classmethod
    def open(
        cls,
        path: Path,
        create: bool = False,
        sectors: int = SECTORS,
        log_sectors: Optional[int] = None,
        program: Optional[str] = None,
    ) -> "Store":
        """Opens the store in a file, and keeps others out of it. What lsmctl refuses is raised here: `Busy` if another has it.

        With `create` a file that isn't there is made, of so many sectors of 512 bytes, with logs of `log_sectors` each, or of as
        many as fit the file. `program` is the path of lsmctl; else `LSMCTL` says it, or it is found on the path.
        """
        if create:
            try:
                files.create(path, sectors, files.log_for(sectors) if log_sectors is None else log_sectors, program)
            except FileExistsError:
                pass  # It is opened as it is.
        return cls(ProcessLink(path, program), path, program)

    @classmethod
    def connect(cls, path: Path, wait: float = 0, program: Optional[str] = None) -> "Store":
        """Connects to a store that `python -m corwaphi.server FILE SOCKET` holds, by the path of its socket.

        Where nobody listens yet it waits up to so many seconds for that. `program` is the path of lsmctl, for `backup` alone.
        """
        return cls(SocketLink(path, wait), path, program)

    @property
    def closed(self) -> bool:
        """Whether each call is refused: after `close`, for good after a call that was cut off, and in a fork."""
        return self._channel.closed

    @property
    def pid(self) -> Optional[int]:
        """The process id of the lsmctl that holds the store, if this is no connection to a server."""
        link = self._channel.link
        return link.pid if isinstance(link, ProcessLink) else None

    def close(self) -> None:
        """Syncs, ends lsmctl or the connection in order, and raises what failed of that. Once more does nothing."""
        self._channel.close()

    def put(self, key: Data, value: Data) -> int:
        """Puts a value, and gives the number of the batch."""
        return self.commit([(key, value)])

    def delete(self, key: Data) -> int:
        """Deletes a key, which need not be there, and gives the number of the batch."""
        return self.commit([(key, None)])

    def commit(self, changes: Pairs) -> int:
        """Commits a batch, all or nothing: a dict, or pairs, of keys and their values, or None to delete. Gives its number."""
        return self._channel.ask(commit_line(changes), lambda words: words.number("batch"))

    def commit_if(self, guards: Pairs, changes: Pairs) -> int:
        """Commits a batch if each key of the guards has its value, or none where that is None. Else `GuardFailed` is raised."""
        return self._channel.ask(guarded_line(guards, changes), lambda words: words.number("batch"))

    def snapshot(self) -> Snapshot:
        """The map as it is now: `with store.snapshot() as then:`."""
        return Snapshot(self._channel)

    def pipeline(self) -> Pipeline:
        """Many calls together: `with store.pipeline() as calls:`."""
        return Pipeline(self._channel)

    def sync(self) -> None:
        """Makes all batches so far outlast a crash."""
        self._channel.ask("sync", lambda words: words.only("ok"))

    def stat(self) -> Stat:
        """The numbers of the store."""
        return self._channel.ask("stat", Words.stat)

    def room(self) -> int:
        """The free sectors of the open log."""
        return self._channel.ask("room", lambda words: words.number("room"))

    def compact(self) -> Compacted:
        """Merges all tables into the last level, and gives the numbers after that. Meanwhile all others wait.

        What lacks for that is in `lack`, where not all tables get there or batches still wait: `store.compact().lack`.
        """
        return self._channel.ask("compact", Words.compacted)

    def backup(self, path: Path, sectors: Optional[int] = None, log_sectors: Optional[int] = None) -> int:
        """Copies all rows of one moment into a new store in another file, and gives their number. Others go on meanwhile.

        The new file has the size of this one, or of a connection one that fits, and more if that doesn't do. FileExistsError is
        raised if there is a file of that name.
        """
        with self.snapshot() as then:
            if sectors is None:
                sectors = files.sectors_of(self._path) if self._local else files.sectors_for(then)
            size = min(max(sectors or SECTORS, files.LEAST_SECTORS), files.MOST_SECTORS)
            return files.copy(then, path, size, files.log_for(size) if log_sectors is None else log_sectors, self._program)

    def __repr__(self) -> str:
        return f"<Store {str(self._path)!r}{' closed' if self.closed else ''}>"


