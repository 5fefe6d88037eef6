"""Tests of bench/run and of what it stands on, with made figures and programs: nothing is measured."""

import argparse
import math
import re
import sys
import tempfile
import unittest
import unittest.mock
import xml.etree.ElementTree
from pathlib import Path

from build_test import TOP, load

sys.path.insert(0, str(TOP / "bench"))
import figures  # noqa: E402
import pictures  # noqa: E402
from figures import ENGINES, FROM_C, OURS, ROWS, Figure, Results, Sample  # noqa: E402

run = load("bench/run")

# As bench_store lays it out: a name of 22 columns, and 13 for each figure.
UPKEEP = f"""{'workload':<22} {'operations':>12} {'store ops/s':>12} {'raw ops/s':>12} {'ratio':>12} {'aim':>12}
{'fill, next':<22} {200000:>12} {42100:>12} {2000000:>12} {'0.02':>12} {'0.00':>12}
{'fill, policy':<22} {200000:>12} {264000:>12} {2000000:>12} {'0.13':>12} {'0.00':>12}
{'batches of 100, policy':<22} {200000:>12} {266000:>12} {2000000:>12} {'0.13':>12} {'0.00':>12}

{'fill, next':<22} |
{'fill, policy':<22} |####

{'workload':<22} {'wait us':>12} {'blocks held':>12} {'table bytes':>12} {'all bytes':>12}
{'fill, policy':<22} {35600:>12} {6760:>12} {'8.50':>12} {'13.00':>12}

"""
GETS = f"""{'workload':<22} {'operations':>12} {'store ops/s':>12}
{'get hit':<22} {20000:>12} {1295000:>12}
{'scan pages':<22} {1565:>12} {201000:>12}
"""
# Stands in for bench_store: it tells of each call, and refuses the larger store.
BENCH = """#!/usr/bin/env python3
import os, sys
with open(os.environ["CALLS"], "a") as calls:
    print(*(it.rpartition("/")[2] for it in sys.argv[1:]), file=calls)
if "1000000" in sys.argv:
    sys.exit("no room")
print(open(os.environ["GETS"]).read())
"""
# Stands in for the program of an engine: it does one row, lacks the second, and ends in the third.
PEER = """#!/bin/sh
read -r row && printf '100\\t100000000\\t1000\\t2000\\t3000\\t0\\n' && read -r row && echo - && read -r row
"""
# What bench_store lacks, and what SQLite lacks.
NOT_OURS = ("4 readers", "4 clients", "keys in order")
OF_THREADS = ("4 readers", "4 clients")
# The last one lies over the first.
MOUNTS = """1 0 0:2 / / rw - rootfs rootfs rw
20 1 0:5 / /dev/shm rw shared:3 - tmpfs tmpfs rw
21 1 8:1 / /data rw - xfs /dev/sda1 rw
22 1 254:0 / / rw,relatime shared:1 master:2 - ext4 /dev/vda rw
"""


def figure(row: str, keys: int, engine: str, rate: float) -> Figure:
    return Figure(row, keys, engine, Sample(rate, 1.5, 20.25, 3000.0, None), rate, rate, 3)


def made(sizes: tuple[int, ...] = (20_000, 200_000, 1_000_000)) -> Results:
    """Figures of all rows, where ours go from far behind to far ahead, and where ours lack some."""
    results = Results({"machine": "A Processor", "processors": "4", "disk": "a disk", "file system": "ext4", "sync": "0.1 ms", "runs": "3"})
    for keys in sizes:
        for place, row in enumerate(ROWS):
            for number, engine in enumerate(it for it in ENGINES if it not in (OURS, FROM_C)):
                if engine != "sqlite" or row not in OF_THREADS:
                    results.figures.append(figure(row, keys, engine, 1e6 / (number + 1) / math.log10(keys)))
            results.figures.append(figure(row, keys, FROM_C, 3e4 * 2**place / math.log10(keys)))
            if row not in NOT_OURS and keys < 1_000_000:
                results.figures.append(figure(row, keys, OURS, 2e4 * 2**place / math.log10(keys)))
    return results


class Samples(unittest.TestCase):
    def test_a_peers_line(self) -> None:
        self.assertEqual(figures.of_peer("2000\t500000000\t1500\t2500\t80000\t0\n"), Sample(4000, 1.5, 2.5, 80, 0))
        self.assertEqual(figures.of_peer("10\t1000000000\t-\t-\t-\t3000\n"), Sample(10, None, None, None, 3))
        self.assertIsNone(figures.of_peer("-\n"))

    def test_bench_store(self) -> None:
        found = figures.of_bench_store(UPKEEP, "upkeep", 200_000)
        self.assertEqual(found, {"fill": Sample(264_000, longest=35_600), "batches of 100": Sample(266_000)})
        # 1,565 pages are 100,000 rows.
        found = figures.of_bench_store(GETS, "gets", 20_000)
        self.assertEqual((found["get hit"], found["pages of 64"]), (Sample(1_295_000), Sample(201_000)))
        self.assertAlmostEqual(found["whole scan"].rate, 201_000 * 100_000 / 1_565)
        self.assertEqual(figures.of_bench_store("wrong answers\n", "upkeep", 100), {})

    def test_medians(self) -> None:
        samples = [Sample(30, 5, None), Sample(10, 9, None), Sample(20, 1, 7.0)]
        self.assertEqual(figures.figure_of("fill", 100, "lmdb", samples), Figure("fill", 100, "lmdb", Sample(20, 5, 7), 10, 30, 3))


class Tables(unittest.TestCase):
    def test_the_file(self) -> None:
        results = made()
        again = figures.of_tsv(figures.as_tsv(results))
        self.assertEqual(again.head, results.head)
        self.assertEqual(len(again.figures), len(results.figures))
        self.assertEqual(figures.as_tsv(again), figures.as_tsv(results))
        self.assertEqual(again.figures[0].middle.most, 20.25)
        self.assertIsNone(again.figures[0].middle.rest)

    def test_ratios(self) -> None:
        results = Results(figures=[figure("fill", 100, it, rate) for it, rate in ((OURS, 30), ("leveldb", 10), ("lmdb", 40), ("leveldb-buffer", 90))])
        self.assertEqual(results.best("fill", 100), "lmdb")
        self.assertEqual(results.ratio("fill", 100, "leveldb"), 3)
        self.assertEqual(results.ratio("fill", 100, results.best("fill", 100)), 0.75)
        self.assertIsNone(results.ratio("fill", 100, "sqlite"))

    def test_ratios_from_c(self) -> None:
        results = Results(figures=[figure("fill", 100, it, rate) for it, rate in ((FROM_C, 30), ("leveldb", 10))])
        self.assertEqual(results.ratio("fill", 100, "leveldb"), 3)
        self.assertEqual(figures.missing(results), [])
        self.assertIn("from C", pictures.ratios(results) or "")
        self.assertIsNone(results.best("fill", 200))

    def test_the_library_for_c_stands_beside_ours_and_is_no_peer(self) -> None:
        results = made()
        self.assertTrue(figures.rates_table(results, 20_000).startswith("| row | Corwaphi | Corwaphi from C | LevelDB |"))
        rates = [results.rate("keys in order", 20_000, it) or 0 for it in (FROM_C, "leveldb")]
        self.assertGreater(*rates)
        self.assertEqual(results.best("keys in order", 20_000), "leveldb")

    def test_what_is_missing(self) -> None:
        told = figures.missing(made())
        self.assertEqual(told, [f"{', '.join(it for it in ROWS if it not in NOT_OURS)} at 1,000,000", ", ".join(NOT_OURS)])

    def test_numbers(self) -> None:
        told = [figures.short(it) for it in (None, 0.0512, 9.876, 12.34, 456.7, 58_670.0, 1_234_567.0)]
        self.assertEqual(told, ["-", "0.05", "9.88", "12.3", "457", "58,700", "1,230,000"])

    def test_mean_waits_are_those_of_all_that_wait_at_once(self) -> None:
        sample = Sample(200_000, 1.5, None, 3000)
        means = [figures.waits_of(it, sample).partition(" / 1.50 / - / 3,000")[0] for it in ("fill", "load", "4 clients", "4 readers")]
        self.assertEqual(means, ["5.00", "500", "20.0", "20.0"])

    def test_a_row_that_an_engine_lacks(self) -> None:
        for table in (figures.rates_table(made(), 20_000), figures.waits_table(made(), 20_000)):
            heads, *lines = ([cell.strip() for cell in line.strip("|\n").split("|")] for line in table.splitlines())
            cells = {line[0]: dict(zip(heads, line)) for line in lines}
            self.assertEqual([row for row in ROWS if cells[row]["SQLite"] == "-"], list(OF_THREADS))
            self.assertEqual([row for row in ROWS if cells[row]["Corwaphi"] == "-"], list(NOT_OURS))

    def test_the_page(self) -> None:
        page = figures.page(made(), "made", {"made-best.svg": "Ratios"})
        for line in ("# Beside other engines: made", "![Ratios](made-best.svg)", "## 1,000,000 keys", "/ 1.50 / 20.2 / 3,000"):
            self.assertIn(line, page)
        for table in re.findall(r"(?:^\|.*\n)+", page, re.MULTILINE):
            self.assertEqual(len({line.count("|") for line in table.splitlines()}), 1)


def contrast(one: str, other: str) -> float:
    """How far two colours are apart, by the formula of the WCAG."""

    def light(colour: str) -> float:
        parts = [int(colour[place : place + 2], 16) / 255 for place in (1, 3, 5)]
        red, green, blue = (it / 12.92 if it <= 0.04045 else math.pow((it + 0.055) / 1.055, 2.4) for it in parts)
        return 0.2126 * red + 0.7152 * green + 0.0722 * blue

    dark, bright = sorted((light(one), light(other)))
    return (bright + 0.05) / (dark + 0.05)


def boxes(svg: str) -> list[tuple[str, float, float, float, float]]:
    """The texts of a picture with the room that each takes, by a letter as wide as three fifths of its size."""
    found = []
    for it in xml.etree.ElementTree.fromstring(svg).iter("{http://www.w3.org/2000/svg}text"):
        x, y, size, text = float(it.attrib["x"]), float(it.attrib["y"]), float(it.attrib["font-size"]), it.text or ""
        width = len(text) * size * 0.6
        left = x - {"start": 0, "middle": 0.5, "end": 1}[it.attrib["text-anchor"]] * width
        found.append((text, left, y - 0.75 * size, left + width, y + 0.2 * size))
    return found


class Pictures(unittest.TestCase):
    def test_colours_are_seen_on_white_and_on_black(self) -> None:
        for colour in {*pictures.SIZES, pictures.LINE, *(it.colour for it in pictures.LOOKS.values())}:
            for page in ("#ffffff", "#0d1117"):
                self.assertGreaterEqual(contrast(colour, page), 3, colour)
        self.assertGreaterEqual(min(contrast(pictures.TEXT, "#ffffff"), contrast(pictures.TEXT, "#0d1117")), 4)
        self.assertEqual(set(pictures.LOOKS), set(ENGINES))
        self.assertEqual(len({(it.mark, it.dashes) for it in pictures.LOOKS.values()}), len(ENGINES))

    def test_no_two_texts_meet(self) -> None:
        for svg in (pictures.ratios(made()), pictures.ratios(made(), "leveldb"), pictures.growth(made())):
            assert svg is not None
            texts = boxes(svg)
            self.assertGreater(len(texts), 20)
            width, height = (float(it) for it in re.findall(r'viewBox="0 0 (\d+) (\d+)"', svg)[0])
            for place, (text, left, upper, right, lower) in enumerate(texts):
                self.assertTrue(0 <= left and right <= width and 0 <= upper and lower <= height, text)
                for other, left2, upper2, right2, lower2 in texts[:place]:
                    self.assertFalse(left < right2 and left2 < right and upper < lower2 and upper2 < lower, (text, other))

    def test_bars_and_their_line(self) -> None:
        bars = {(it.row, it.keys): it for it in pictures.bars_of(made(), None)}
        self.assertEqual(len(bars), 2 * (len(ROWS) - len(NOT_OURS)))
        self.assertAlmostEqual(bars["fill", 20_000].ratio, 0.02)
        self.assertEqual(bars["fill", 20_000].peer, "leveldb")
        x_of = pictures.scale(0.1, 10, 0, 200)
        self.assertAlmostEqual(x_of(1), 100)
        self.assertAlmostEqual(x_of(0.1), 0)

    def test_what_there_is_nothing_to_draw_of(self) -> None:
        self.assertIsNone(pictures.growth(made((20_000,))))
        self.assertIsNone(pictures.ratios(Results(figures=[figure("fill", 100, "lmdb", 5)])))

    def test_the_numbers_of_an_axis(self) -> None:
        self.assertEqual(pictures.steps(0.1, 10), [0.1, 0.2, 0.5, 1, 2, 5, 10])
        self.assertEqual(pictures.steps(1, 1_000, 4), [1, 10, 100, 1_000])
        low, high = pictures.bounds([5.0])
        self.assertAlmostEqual(high / low, 3)


class Runs(unittest.TestCase):
    def test_words(self) -> None:
        words = run.words_of(["quiet", "--keys", "1000,200", "--runs", "5", "--rows", "load,fill", "--engines", "sqlite,leveldb"])
        self.assertEqual((words.keys, words.runs, words.rows, words.engines), ([1000, 200], 5, ["fill", "load"], ["leveldb", "sqlite"]))
        words = run.words_of(["quiet", "--library", "some.a"])
        self.assertEqual((words.library, words.engines), (Path("some.a"), [it for it in ENGINES if it not in (OURS, "rocksdb-buffer")]))
        for bad in (lambda: run.odd("4"), lambda: run.numbers("150"), lambda: run.chosen("fil", ["fill"])):
            self.assertRaises(argparse.ArgumentTypeError, bad)

    def test_each_comes_first_in_turn(self) -> None:
        self.assertEqual([run.turned(["a", "b", "c"], it)[0] for it in range(4)], ["a", "b", "c", "a"])
        self.assertEqual(run.turned([], 1), [])

    def test_what_is_not_installed_is_skipped(self) -> None:
        with tempfile.TemporaryDirectory() as folder, unittest.mock.patch.dict("os.environ", CXX="false"):
            with unittest.mock.patch.object(run, "tell") as told:
                engines = ["corwaphi-c", "leveldb", "leveldb-buffer", "sqlite"]
                self.assertEqual(run.build(Path(folder), engines, Path(folder) / "none.a"), {})
        lines = [it.args[0] for it in told.call_args_list]
        self.assertEqual([it.partition(" is ")[0] for it in lines], ["Corwaphi from C", "LevelDB", "SQLite"])
        self.assertIn("rt lib in crates/corwaphi_c, or --library ARCHIVE", lines[0])
        self.assertIn("apt-get install libsqlite3-dev", lines[2])

    def test_what_is_named_has_to_be_there(self) -> None:
        for word in ("--ours", "--library"):
            self.assertRaisesRegex(SystemExit, "none is no file", run.measure, run.words_of(["name", word, "/none"]), Path())

    def test_the_library_for_c_is_built_over_an_archive(self) -> None:
        with tempfile.TemporaryDirectory() as name, unittest.mock.patch.object(run.subprocess, "run") as ran:
            folder = Path(name).resolve()
            (folder / "some.a").touch()
            programs = run.build(folder, ["corwaphi-c"], folder / "some.a")
        self.assertEqual(programs, {"corwaphi-c": folder / "corwaphi-c"})
        library, program = (it.args[0] for it in ran.call_args_list)
        self.assertEqual((library[0], library[-1]), ("make", str(folder / "c" / "libcorwaphi.a")))
        self.assertIn(f"ARCHIVE={folder / 'some.a'}", library)
        for word in (str(run.PEERS / "corwaphi.cpp"), str(folder / "corwaphi-c"), library[-1]):
            self.assertIn(word, program)

    def test_each_engine_has_a_program(self) -> None:
        programs = {it: run.program_of(it) for it in ENGINES if it != OURS}
        self.assertEqual([it for it, program in programs.items() if it != program], ["leveldb-buffer", "rocksdb-buffer"])
        self.assertEqual(set(programs.values()), {FROM_C, *run.LIBRARIES})

    def test_each_row_is_done_and_documented(self) -> None:
        page = (TOP / "bench" / "README.md").read_text(encoding="utf-8").partition("## The rows")[2]
        self.assertEqual(re.findall(r"^\| ([^|]+?) \|", page, re.MULTILINE)[: len(ROWS) + 1], ["row", *ROWS])
        done = re.findall(r'row == "([^"]+)"', (run.PEERS / "workloads.hpp").read_text(encoding="utf-8"))
        self.assertEqual(set(done), set(ROWS))

    def test_ours_is_asked_once_for_what_it_refuses(self) -> None:
        with tempfile.TemporaryDirectory() as name:
            folder = Path(name)
            (folder / "gets").write_text(GETS)
            (folder / "bench").write_text(BENCH)
            (folder / "bench").chmod(0o755)
            ours = run.Ours(folder / "bench", {})
            changed = unittest.mock.patch.dict("os.environ", CALLS=str(folder / "calls"), GETS=str(folder / "gets"))
            with changed, unittest.mock.patch.object(run, "tell"), unittest.mock.patch.object(run.os, "sync"):
                few = ours.do(folder, 20_000, ["get hit", "whole scan"])
                none = [ours.do(folder, 1_000_000, list(ROWS)) for _ in range(2)]
            self.assertEqual((set(few), none), ({"get hit", "whole scan"}, [{}, {}]))
            self.assertEqual((folder / "calls").read_text(), "gets store 20000 1\nupkeep store 1000000 1\ngets store 1000000 1\n")
            self.assertEqual(ours.refused, dict.fromkeys(("upkeep of 1,000,000 keys", "gets of 1,000,000 keys"), "no room"))

    def test_an_engine_that_ends_does_no_further_row(self) -> None:
        with tempfile.TemporaryDirectory() as folder:
            program = Path(folder) / "lmdb"
            program.write_text(PEER)
            program.chmod(0o755)
            words = run.words_of(["name", "--rows", "fill,overwrite,load,get hit"])
            measuring = run.Measuring(Path(folder), {"lmdb": program}, None, words)
            with unittest.mock.patch.object(run, "tell"), unittest.mock.patch.object(run.os, "sync"):
                measuring.run(100, 0)
            self.assertEqual(list(Path(folder).iterdir()), [program])
        self.assertEqual(measuring.samples, {("fill", 100, "lmdb"): [Sample(1000, 1, 2, 3, 0)]})
        self.assertEqual(measuring.results({"runs": "1"}).head, {"runs": "1", "not measured": "LMDB, 100 keys: ended in load"})

    def test_results_stand_in_the_order_of_rows(self) -> None:
        measuring = run.Measuring(Path(), {"lmdb": Path()}, None, run.words_of(["name"]))
        with unittest.mock.patch.object(run, "tell"):
            for row, keys, engine in (("load", 200, "lmdb"), ("fill", 200, "lmdb"), ("fill", 100, "lmdb"), ("fill", 200, OURS)):
                measuring.add(row, keys, engine, Sample(1))
        self.assertEqual(measuring.engines, ["lmdb"])
        found = [(it.keys, it.row, it.engine) for it in measuring.results({}).figures]
        self.assertEqual(found, [(100, "fill", "lmdb"), (200, "fill", OURS), (200, "fill", "lmdb"), (200, "load", "lmdb")])

    def test_what_a_folder_lies_on(self) -> None:
        for folder, device in (("/srv", "254:0"), ("/data", "8:1"), ("/data/sub", "8:1"), ("/database", "254:0"), ("/dev/shm/x", "0:5")):
            self.assertEqual(run.mount_of(MOUNTS, folder)[0], device)
        self.assertEqual(run.mount_of(MOUNTS, "/data"), ("8:1", "/dev/sda1", "xfs"))


if __name__ == "__main__":
    unittest.main()
