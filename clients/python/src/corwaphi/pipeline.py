"""Many calls that are sent without a wait for the answers to those before."""
from __future__ import annotations

from typing import Callable, List, Optional, Tuple, cast

from .answers import Page, Words
from .channel import Channel
from .ending import Run
from .errors import LimitError
from .views import get_line
from .words import MOST_PAGE, Data, Pairs, commit_line, guarded_line, range_of, word


class Pipeline(Run):
    """Gathers calls, and makes them together: `run` gives their results, in order.

    A call that is refused has its `Refused` as its result, and the later ones are made all the same. The calls are no batch: others
    may come between them. From the first question to the last answer the other threads of this store wait.

    At the end of `with` it runs, unless an exception ends it, and `results` has the results.
    """

    def __init__(self, channel: Channel) -> None:
        self._channel = channel
        self._questions: List[Tuple[str, Callable[[Words], object]]] = []
        self.results: List[object] = []

    def _add(self, line: str, read: Callable[[Words], object]) -> "Pipeline":
        self._questions.append((line, read))
        return self

    def get(self, key: Data) -> "Pipeline":
        """Looks a key up: its value, or None."""
        return self._add(get_line(key, ""), Words.value)

    def put(self, key: Data, value: Data) -> "Pipeline":
        """Puts a value: the number of the batch."""
        return self.commit([(key, value)])

    def delete(self, key: Data) -> "Pipeline":
        """Deletes a key: the number of the batch."""
        return self.commit([(key, None)])

    def commit(self, changes: Pairs) -> "Pipeline":
        """Commits a batch, as `Store.commit`: its number."""
        return self._add(commit_line(changes), lambda words: words.number("batch"))

    def commit_if(self, guards: Pairs, changes: Pairs) -> "Pipeline":
        """Commits a batch under guards, as `Store.commit_if`: its number."""
        return self._add(guarded_line(guards, changes), lambda words: words.number("batch"))

    def page(self, start: Data = b"", end: Optional[Data] = None, limit: int = MOST_PAGE) -> "Pipeline":
        """Rows of a range, up to the limit: a `Page`, which has `rows` and the `next` key, if one was left out."""
        first, last = range_of(start, end, None)
        if not 1 <= limit <= MOST_PAGE:
            raise LimitError(f"a page has 1 to {MOST_PAGE} rows, and not {limit}")
        line = f"scan {word(first)} {'end' if last is None else word(last)} {limit}"
        return self._add(line, lambda words: cast(Page, words.page(first, last, limit)))

    def sync(self) -> "Pipeline":
        """Makes all batches before it outlast a crash: None."""
        return self._add("sync", lambda words: words.only("ok"))

    def __len__(self) -> int:
        return len(self._questions)

    def run(self) -> List[object]:
        """Makes the calls, and forgets them. Gives their results."""
        questions, self._questions, self.results = self._questions, [], []
        self.results = self._channel.ask_all(questions)
        return self.results
