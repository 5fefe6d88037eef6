"""Questions and their answers: each line that is sent bears a tag, and its answer has to bear the same.

From a question to its answer a channel belongs to one thread. Whatever comes between the two, be it an exception, a signal, another
tag or an end, closes the channel for good: an answer that was not read then can't be taken for that of a later question.
"""
from __future__ import annotations

import os
import sys
import threading
import warnings
from collections import deque
from typing import Callable, Deque, List, Optional, Sequence, Tuple, TypeVar, Union

from .answers import Words, failure
from .errors import BadAnswer, Closed, Ended, Error, Refused, refusal_of_end
from .links import Link

T = TypeVar("T")
Question = Tuple[str, Callable[[Words], object]]
Result = Union[object, Refused]

MOST_ANSWER = 1 << 20  # A page of 64 rows has less than a third of that.


class _NoMore(Exception):
    """The other side sends no more."""


class Channel:
    """Asks, one question after another."""

    def __init__(self, link: Link) -> None:
        self._link = link
        self._lock = threading.RLock()
        self._closed = ""  # Why it is closed, if it is.
        self._ended = self._ending = False
        self._pending = False  # Whether a question was asked whose answer has not come whole.
        self._inside = False  # Whether a call of this channel is on the stack of the thread that has the lock.
        self._tag = 0
        self._rest = b""
        self._dropped: Deque[int] = deque()

    def ask(self, line: str, read: Callable[[Words], T]) -> T:
        """Sends a line, and gives what `read` makes of the answer. A refusal is raised."""
        self._check_process()
        with self._lock:
            self._check_open()
            self._release_dropped()
            return self._ask(line, read)

    def ask_all(self, questions: Sequence[Question]) -> List[Result]:
        """Sends lines without a wait for the answers to those before, and gives what is made of the answers. Refusals are results."""
        self._check_process()
        with self._lock:
            self._check_open()
            self._release_dropped()
            return self._between(lambda: self._exchange(questions))

    def _ask(self, line: str, read: Callable[[Words], T]) -> T:
        result = self._between(lambda: self._answer(line, read))
        if isinstance(result, Error):
            raise result
        return result

    def _between(self, work: Callable[[], T]) -> T:
        """Does what lies between questions and answers. That a question is pending stands before it is sent, and until its answer is read."""
        self._inside = True  # From here on a handler can't close it.
        try:
            if self._closed:
                raise Closed(f"the store is closed: {self._closed}")
            self._pending = True
            result = work()
            self._check_process()
            self._pending = False
            return result
        except BaseException as error:
            if self._pending:
                raise self._cut_off(error) from None
            raise
        finally:
            self._inside = False

    def _answer(self, line: str, read: Callable[[Words], T]) -> Union[T, Error]:
        tag = self._next_tag()
        self._link.write(b"%s%s\n" % (tag, line.encode()))
        while b"\n" not in self._rest:
            self._receive()
        answer, self._rest = self._rest.split(b"\n", 1)
        if self._rest:
            raise BadAnswer("there is more than one answer to a question")
        return _result(tag, answer, read)

    def _exchange(self, questions: Sequence[Question]) -> List[Result]:
        """Sends as much as the window takes, reads what comes, and so on, so that neither side waits for ever."""
        results: List[Result] = []
        flying: Deque[Tuple[bytes, int, Callable[[Words], object]]] = deque()
        size, place, unsent = 0, 0, b""
        while len(results) < len(questions):
            if not unsent and size <= self._link.window // 2:
                lines = []
                while place < len(questions) and (size == 0 or size + len(questions[place][0]) + 22 <= self._link.window):
                    tag = self._next_tag()
                    lines.append(b"%s%s\n" % (tag, questions[place][0].encode()))
                    flying.append((tag, len(lines[-1]), questions[place][1]))
                    size, place = size + len(lines[-1]), place + 1
                unsent = b"".join(lines)
            if unsent:
                unsent = unsent[self._link.offer(unsent):]
            if self._link.wait(bool(unsent)):
                self._receive()
                *answers, self._rest = self._rest.split(b"\n")
                for answer in answers:
                    if not flying:
                        raise BadAnswer("there are more answers than questions")
                    tag, length, read = flying.popleft()
                    size -= length
                    results.append(_result(tag, answer, read))
        if self._rest:
            raise BadAnswer("there are more answers than questions")
        return results

    def _next_tag(self) -> bytes:
        self._tag += 1
        return b"#%d " % self._tag

    def _receive(self) -> None:
        data = self._link.read()
        if not data:
            raise _NoMore
        self._rest += data
        if len(self._rest) > MOST_ANSWER and b"\n" not in self._rest:
            raise BadAnswer("an answer has no end")

    def _cut_off(self, error: BaseException) -> BaseException:
        """Closes for good, since the answer to a question may still come. Gives what the caller is told."""
        ended = isinstance(error, (_NoMore, ConnectionError))
        self._closed = self._closed or ("the other side has ended" if ended else f"a call was cut off by {type(error).__name__}")
        self._link.shut()
        if ended:
            said = self._end()
            return refusal_of_end(said) or Ended(said or "it ended before it answered")
        return error

    def _check_process(self) -> None:
        if os.getpid() != self._link.owner:
            raise Closed(f"the store belongs to process {self._link.owner}, of which this one is a fork: open another connection here")

    def _check_open(self) -> None:
        if self._inside:
            raise Error("a call is under way in this thread, and its answer comes first: a signal's handler can't make another one")
        if self._closed or self._pending:
            raise Closed(f"the store is closed: {self._closed or 'a call was cut off'}")

    def release_later(self, number: int) -> None:
        """Has a snapshot released before the next question. It asks nothing by itself, so that it can be called at any moment."""
        self._dropped.append(number)

    def release(self, number: int) -> None:
        """Releases a snapshot: at once, or before the next question if one is under way. If the channel is closed there is none."""
        self.release_later(number)
        if sys.is_finalizing() or os.getpid() != self._link.owner or not self._lock.acquire(blocking=False):
            return
        try:
            if not (self._inside or self._pending or self._closed):
                self._release_dropped()
        finally:
            self._lock.release()

    def _release_dropped(self) -> None:
        while self._dropped:
            try:
                self._ask(f"release {self._dropped.popleft()}", lambda words: words.only("ok"))
            except Refused:
                pass  # The store is stopped, and its snapshots go with it.

    def close(self) -> None:
        """Syncs, ends the other side in order, and waits for that. What fails is raised."""
        if os.getpid() != self._link.owner:
            return
        with self._lock:
            if self._ended:
                return
            if self._inside:
                self._check_open()
            try:
                if not self._closed and not self._pending:
                    self._ask("sync", lambda words: words.only("ok"))
            finally:
                said = self._end()
            if said:
                raise refusal_of_end(said) or Ended(said)

    def abandon(self) -> None:
        """Ends the other side, and raises nothing."""
        with self._lock:
            self._end()

    def _end(self) -> str:
        """Ends the other side, once. Gives what it said. A handler that comes meanwhile does nothing."""
        self._closed = self._closed or "close() was called"
        if self._ended or self._ending:
            return ""
        self._ending = True
        try:
            said = self._link.end()
            self._ended = True
            return said
        finally:
            self._ending = False

    @property
    def closed(self) -> bool:
        """Whether each call is refused."""
        return bool(self._closed) or os.getpid() != self._link.owner

    @property
    def link(self) -> Link:
        """What it asks over."""
        return self._link

    def __del__(self) -> None:
        if getattr(self, "_ended", True) or os.getpid() != self._link.owner:
            return
        warnings.warn(f"a store was not closed: {self!r}", ResourceWarning, source=self)
        self._link.drop()


def _result(tag: bytes, answer: bytes, read: Callable[[Words], T]) -> Union[T, Error]:
    """What is made of an answer. One that isn't of this tag, or says what no answer to the question does, is bad."""
    if not answer.startswith(tag):
        if answer.startswith(b"usage ") and tag == b"#1 ":
            raise BadAnswer("it knows no tags: lsmctl is older than this package")
        raise BadAnswer(f"the answer to {tag.decode().strip()} is {_shown(answer)}")
    try:
        words = Words(answer[len(tag):].decode("ascii"))
        told = failure(words)
        return read(words) if told is None else told
    except (ValueError, IndexError, KeyError) as error:
        raise BadAnswer(f"the answer {_shown(answer)} is none to its question") from error


def _shown(answer: bytes) -> str:
    return repr(answer[:80].decode(errors="replace"))
