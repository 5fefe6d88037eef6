"""What rows and engines there are, what their programs print, and what is made of it: medians, ratios, and tables as text."""

from __future__ import annotations

import statistics
from dataclasses import dataclass, field
from typing import Callable, Iterable, Optional

# The rows, in the order in which an engine does them: each goes on with what those before it have left.
ROWS = (
    "fill",
    "overwrite",
    "batches of 100",
    "synced puts",
    "load",
    "get hit",
    "get miss",
    "pages of 64",
    "whole scan",
    "4 readers",
    "4 clients",
    "keys in order",
)
OURS = "ours"
FROM_C = "corwaphi-c"
# The engines with their names. A peer counts for the best one where it is as its options are by default.
ENGINES = {
    OURS: "Corwaphi",
    FROM_C: "Corwaphi from C",
    "leveldb": "LevelDB",
    "rocksdb": "RocksDB",
    "lmdb": "LMDB",
    "sqlite": "SQLite",
    "leveldb-buffer": "LevelDB, buffer as ours",
    "rocksdb-buffer": "RocksDB, buffer as ours",
}
PEERS = ("leveldb", "rocksdb", "lmdb", "sqlite")

# The rows of bench_store, by its words, that are ours: first the names that it may have for a row.
OF_STORE_BENCH: dict[str, dict[str, tuple[str, ...]]] = {
    "upkeep": {
        "fill": ("fill, policy", "fill"),
        "overwrite": ("overwrite, policy", "overwrite"),
        "batches of 100": ("batches of 100, policy", "batches of 100"),
        "load": ("load, policy", "load"),
    },
    "gets": {"get hit": ("get hit",), "get miss": ("get miss",), "pages of 64": ("scan pages",)},
    "synced": {"synced puts": ("synced puts",)},
}
# The rows in which so many operations wait at the same time: those of a batch, or one of each thread.
AT_ONCE = {"batches of 100": 100, "load": 100, "4 readers": 4, "4 clients": 4}
# How often bench_store scans all keys, by pages: so its pages are a whole scan too.
SCANS = 5


@dataclass(frozen=True)
class Sample:
    """One run of a row: operations a second, and microseconds that single ones waited, or that threads went on afterwards."""

    rate: float
    median: Optional[float] = None
    most: Optional[float] = None
    longest: Optional[float] = None
    rest: Optional[float] = None


@dataclass(frozen=True)
class Figure:
    """The medians of a row's runs, with the lowest and the highest rate."""

    row: str
    keys: int
    engine: str
    middle: Sample
    lowest: float
    highest: float
    runs: int


@dataclass
class Results:
    """What was measured, with what is told of the machine."""

    head: dict[str, str] = field(default_factory=dict)
    figures: list[Figure] = field(default_factory=list)

    def find(self, row: str, keys: int, engine: str) -> Optional[Figure]:
        found = [it for it in self.figures if (it.row, it.keys, it.engine) == (row, keys, engine)]
        return found[0] if found else None

    def rate(self, row: str, keys: int, engine: str) -> Optional[float]:
        found = self.find(row, keys, engine)
        return found.middle.rate if found else None

    def sizes(self) -> list[int]:
        return sorted({it.keys for it in self.figures})

    def engines(self) -> list[str]:
        return [it for it in ENGINES if any(figure.engine == it for figure in self.figures)]

    def best(self, row: str, keys: int) -> Optional[str]:
        """The fastest peer of a row."""
        rates = {it: rate for it in PEERS if (rate := self.rate(row, keys, it))}
        return max(rates, key=lambda it: rates[it]) if rates else None

    def ours(self) -> str:
        """What our rates in ratios are those of: of bench_store, or where that isn't measured of the library for C."""
        engines = self.engines()
        return FROM_C if OURS not in engines and FROM_C in engines else OURS

    def ratio(self, row: str, keys: int, peer: Optional[str]) -> Optional[float]:
        """Our rate by that of a peer."""
        ours, theirs = self.rate(row, keys, self.ours()), self.rate(row, keys, peer) if peer else None
        return ours / theirs if ours and theirs else None


# ---- what programs print


def of_peer(line: str) -> Optional[Sample]:
    """A line of a peer's program: operations, nanoseconds of all, three waits, and nanoseconds of the rest. None if it lacks the row."""
    if line.strip() == "-":
        return None
    operations, nanos, *waits, rest = line.split("\t")
    median, most, longest = (None if it == "-" else int(it) / 1_000 for it in waits)
    return Sample(int(operations) * 1e9 / max(int(nanos), 1), median, most, longest, int(rest) / 1_000)


def tables_of(text: str) -> dict[str, dict[str, str]]:
    """The tables that bench_store prints: by the name of a workload its columns by their headings."""
    workloads: dict[str, dict[str, str]] = {}
    headings: list[str] = []
    for line in text.splitlines():
        name, rest = line[:22].strip(), line[22:]
        if name == "workload":
            headings = [rest[place : place + 13].strip() for place in range(0, len(rest), 13)]
        elif not name or not headings:
            headings = []
        elif len(rest.split()) == len(headings):
            workloads.setdefault(name, {}).update(zip(headings, rest.split()))
    return workloads


def of_bench_store(text: str, words: str, keys: int) -> dict[str, Sample]:
    """Our rows, by what bench_store printed after these words. Of waits it tells the longest alone."""
    tables, samples = tables_of(text), {}
    for row, names in OF_STORE_BENCH[words].items():
        columns = next((tables[it] for it in names if it in tables), None)
        if columns is None:
            continue
        wait = columns.get("wait us")
        samples[row] = Sample(float(columns["store ops/s"]), longest=float(wait) if wait else None)
        if row == "pages of 64":
            rows_a_page = keys * SCANS / int(columns["operations"])
            samples["whole scan"] = Sample(samples[row].rate * rows_a_page)
    return samples


# ---- medians


def middle_of(samples: list[Sample], figure: Callable[[Sample], Optional[float]]) -> Optional[float]:
    """The median of those runs that have the figure."""
    numbers = [number for it in samples if (number := figure(it)) is not None]
    return statistics.median(numbers) if numbers else None


def figure_of(row: str, keys: int, engine: str, samples: list[Sample]) -> Figure:
    rates = [it.rate for it in samples]
    middle = Sample(
        statistics.median(rates),
        middle_of(samples, lambda it: it.median),
        middle_of(samples, lambda it: it.most),
        middle_of(samples, lambda it: it.longest),
        middle_of(samples, lambda it: it.rest),
    )
    return Figure(row, keys, engine, middle, min(rates), max(rates), len(samples))


# ---- the file of results

COLUMNS = (
    "row",
    "keys",
    "engine",
    "operations a second",
    "median wait us",
    "99th percentile us",
    "longest wait us",
    "busy afterwards us",
    "lowest rate",
    "highest rate",
    "runs",
)


def as_tsv(results: Results) -> str:
    lines = [f"# {name}: {text}" for name, text in results.head.items()]
    lines.append("\t".join(COLUMNS))
    for it in results.figures:
        waits = (it.middle.median, it.middle.most, it.middle.longest, it.middle.rest)
        numbers = ["-" if number is None else f"{number:.3f}" for number in waits]
        rates = [f"{rate:.1f}" for rate in (it.middle.rate, it.lowest, it.highest)]
        lines.append("\t".join([it.row, str(it.keys), it.engine, rates[0], *numbers, *rates[1:], str(it.runs)]))
    return "\n".join(lines) + "\n"


def of_tsv(text: str) -> Results:
    results = Results()
    for line in text.splitlines():
        if line.startswith("# "):
            name, _, told = line[2:].partition(": ")
            results.head[name] = told
        elif line and not line.startswith("row\t"):
            row, keys, engine, rate, *waits, lowest, highest, runs = line.split("\t")
            middle = Sample(float(rate), *(None if it == "-" else float(it) for it in waits))
            results.figures.append(Figure(row, int(keys), engine, middle, float(lowest), float(highest), int(runs)))
    return results


# ---- tables


def short(number: Optional[float]) -> str:
    """A number with three digits that count, and a comma at each thousand."""
    if number is None:
        return "-"
    if number >= 100:
        digits = len(str(int(number)))
        return f"{round(number, 3 - digits):,.0f}"
    return f"{number:.2f}" if number < 10 else f"{number:.1f}"


def markdown(headings: Iterable[str], lines: Iterable[Iterable[str]]) -> str:
    columns = list(headings)
    text = [columns, ["---"] * len(columns), *(list(it) for it in lines)]
    return "".join(f"| {' | '.join(it)} |\n" for it in text)


def rates_table(results: Results, keys: int) -> str:
    """Operations a second of each engine, and our ratios."""
    engines = results.engines()
    lines = []
    for row in ROWS:
        rates = [results.rate(row, keys, it) for it in engines]
        if any(rates):
            best = results.best(row, keys)
            ratios = [results.ratio(row, keys, "leveldb"), results.ratio(row, keys, best)]
            lines.append([row, *map(short, rates), *map(short, ratios), ENGINES[best] if best else "-"])
    return markdown(["row", *(ENGINES[it] for it in engines), "ours by LevelDB", "ours by the best", "the best"], lines)


def waits_table(results: Results, keys: int) -> str:
    """Mean, median, 99th percentile and longest wait of each engine, in microseconds."""
    engines = results.engines()
    lines = []
    for row in ROWS:
        samples = [found.middle if (found := results.find(row, keys, it)) else None for it in engines]
        if any(it and it.longest is not None for it in samples):
            lines.append([row, *(waits_of(row, it) if it else "-" for it in samples)])
    return markdown(["row", *(ENGINES[it] for it in engines)], lines)


def waits_of(row: str, sample: Sample) -> str:
    mean = 1e6 * AT_ONCE.get(row, 1) / sample.rate
    return " / ".join(map(short, (mean, sample.median, sample.most, sample.longest)))


def caption(results: Results) -> str:
    """What a picture says of itself: sizes, machine, disk, sync time and commit."""
    head = results.head
    parts = ["Keys of 16 bytes, values of 100."]
    names = ("machine", "processors", "disk", "file system")
    parts += [", ".join(f"{head[it]} processors" if it == "processors" else head[it] for it in names if it in head) + "."]
    if "sync" in head:
        parts += [f"A sync of a sector takes {head['sync']} there."]
    made = [f"Medians of {head.get('runs', '?')} runs", f"commit {head.get('commit', '?')}"]
    parts += ["; ".join([*made, head["engines"]] if head.get("engines") else made) + "."]
    return " ".join(parts)


def page(results: Results, name: str, pictures: dict[str, str]) -> str:
    """All as a page: the pictures, by their files, with their captions, and the tables."""
    parts = [f"# Beside other engines: {name}\n", "".join(f"- {it}: {text}\n" for it, text in results.head.items())]
    parts += [f"![{told}]({file})\n\n*{told}. {caption(results)}*\n" for file, told in pictures.items()]
    for keys in results.sizes():
        parts += [f"## {keys:,} keys\n", "Operations a second:\n", rates_table(results, keys)]
        parts += ["Waits in microseconds, as mean / median / 99th percentile / longest:\n", waits_table(results, keys)]
    return "\n".join(parts)


def missing(results: Results) -> list[str]:
    """The rows of which there is a peer's figure but none of ours, with their sizes."""
    rows: dict[str, list[str]] = {}
    for row in ROWS:
        beside = [it for it in results.sizes() if results.best(row, it)]
        sizes = [it for it in beside if not results.rate(row, it, results.ours())]
        if sizes:
            where = "" if sizes == beside else f" at {' and '.join(f'{it:,}' for it in sizes)}"
            rows.setdefault(where, []).append(row)
    return [f"{', '.join(names)}{where}" for where, names in rows.items()]
