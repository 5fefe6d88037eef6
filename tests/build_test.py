"""Tests of ./build, with a command in the place of rt that proves nothing: it looks that what a crate stands on is there, and writes out/."""

import importlib.machinery
import importlib.util
import os
import shutil
import signal
import subprocess
import sys
import tempfile
import time
import unittest
import unittest.mock
from pathlib import Path
from types import ModuleType

TOP = Path(__file__).resolve().parent.parent


def load(name: str) -> ModuleType:
    """The script of this name at the top, as a module."""
    loader = importlib.machinery.SourceFileLoader(name, str(TOP / name))
    spec = importlib.util.spec_from_loader(name, loader)
    assert spec is not None
    module = sys.modules[name] = importlib.util.module_from_spec(spec)
    loader.exec_module(module)
    return module


build = load("build")

CRATES = """low:
left may_wait=2: low std
right: low # a comment
top: left right
lsmctl: top
beside: low
"""
COSTS = "crate\tproof\tedits\ttests\nlow\t1\t\t7\nleft\t4\t\t\nright\t2\t9\t\ntop\t1\t\t\nlsmctl\t3\t\t\nbeside\t\t\t5\n"
# It ends with 3 where the crate below is not built, and 4 where another works in its folder or below, for which rt would wait.
RT = """#!/usr/bin/env python3
import fcntl, os, sys, time
from pathlib import Path
crate, top = Path.cwd(), Path.cwd().parent
held = [os.open(top / it, os.O_RDONLY) for it in {"left": ["low", "left"], "right": ["low", "right"]}.get(crate.name, [crate.name])]
for it in held:
    try:
        fcntl.flock(it, fcntl.LOCK_EX | fcntl.LOCK_NB)
    except BlockingIOError:
        sys.exit(4)
below = {"left": ["low"], "right": ["low"], "top": ["left", "right"], "lsmctl": ["top"]}.get(crate.name, [])
if not all((top / it / "out" / "rlib" / "stamp").is_file() for it in below):
    sys.exit(3)
with open(os.environ["CALLS"], "a") as calls:
    print(crate.name, *sys.argv[1:4], file=calls)
if crate.name == os.environ.get("FAILS"):
    sys.exit("no proof")
time.sleep(0.3)
for folder in ("rlib", "incremental"):
    os.makedirs(f"out/{folder}", exist_ok=True)
Path("out/rlib/stamp").write_text(crate.name)
if sys.argv[1] == "run":
    Path("out/lsmctl").write_text("the program")
"""
# It starts a process that lasts, whose number it tells.
SLEEPING = """#!/bin/sh
sleep 1000 &
echo $! >>"$CALLS"
wait
"""


def is_running(process: int) -> bool:
    """Whether there is such a process, but for one that has ended and that nobody has waited for."""
    try:
        return Path(f"/proc/{process}/stat").read_text().rpartition(") ")[2][0] != "Z"
    except OSError:
        return False


class Builds(unittest.TestCase):
    def setUp(self) -> None:
        room = tempfile.TemporaryDirectory(prefix="a room ")
        self.addCleanup(room.cleanup)
        self.root = Path(room.name) / "repository"
        for crate in ("low", "left", "right", "top", "lsmctl", "beside"):
            (self.root / "crates" / crate / "src").mkdir(parents=True)
        (self.root / "docs").mkdir()
        for name, text in [("crates.txt", CRATES), ("HANDLES", "none\n"), ("docs/costs.tsv", COSTS)]:
            (self.root / name).write_text(text)
        self.rt = Path(room.name) / "rt"
        self.rt.write_text(RT)
        self.rt.chmod(0o755)
        self.calls = Path(room.name) / "calls"
        self.said: list[str] = []

    def build(self, jobs: list[int], fails: str = "") -> int:
        with unittest.mock.patch.dict("os.environ", CALLS=str(self.calls), FAILS=fails):
            made = build.Build(self.root, jobs, str(self.rt), self.said.append)
            status: int = made.run()
        self.assertEqual([it for it in [made.logs, *made.places[1:]] if it.exists()], [])
        return status

    def test_plan(self) -> None:
        plan = build.plan(self.root)
        self.assertEqual(list(plan.below), ["low", "left", "right", "top", "lsmctl"])
        self.assertEqual(plan.chain, {"low": 9, "left": 8, "right": 6, "top": 4, "lsmctl": 3})
        self.assertEqual(plan.ready({"low"}, {"low"}), ["left", "right"])
        self.assertEqual(plan.ready({"low", "left"}, {"low", "left", "right"}), [])

    def test_jobs(self) -> None:
        plan = build.plan(self.root)
        self.assertEqual(build.jobs_for(plan, [3, 2], "low", set(), set()), 4)
        self.assertEqual(build.jobs_for(plan, [3, 2], "left", {"low"}, {"low"}), 3)
        self.assertEqual(build.jobs_for(plan, [3, 2], "right", {"low"}, {"low", "left"}), 2)
        self.assertEqual(build.jobs_for(plan, [2], "left", {"low"}, {"low"}), 2)
        self.assertEqual(build.jobs_of(4, 12 * 10**9), [3, 2])
        self.assertEqual(build.jobs_of(2, 12 * 10**9), [2])
        self.assertEqual(build.jobs_of(8, 10**9), [1])

    def test_time_left(self) -> None:
        plan = build.plan(self.root)
        # One job at a time: all the work, at the pace that was seen.
        self.assertEqual(build.seconds_left(plan, [1], set(), {}, 2.0), 22.0)
        self.assertEqual(build.seconds_left(plan, [1], {"low", "left"}, {"right": 0.5}, 2.0), 8.5)
        # Two at a time: right is done while left is.
        self.assertEqual(build.seconds_left(plan, [1, 1], {"low"}, {}, 1.0), 4.0 + 4.0 / build.SPEED[2])

    def test_a_build(self) -> None:
        for jobs in ([3, 2], [2]):
            with self.subTest(jobs=jobs):
                self.setUp()
                self.assertEqual(self.build(jobs), 0, self.said)
                self.assertEqual((self.root / "crates/lsmctl/out/lsmctl").read_text(), "the program")
                for crate in ("low", "left", "right", "top"):
                    self.assertEqual((self.root / "crates" / crate / "out/rlib/stamp").read_text(), crate)
                self.assertEqual(list(self.root.glob("crates/*/out/incremental")), [])
                self.assertEqual(len(self.said), 5)
                self.assertIn("min to go, until ", self.said[3])
                self.assertNotIn("min to go", self.said[4])
                calls = self.calls.read_text().splitlines()
                self.assertEqual(calls[0], f"low lib --jobs {4 if len(jobs) > 1 else 2}")
                self.assertEqual(sorted(calls[1:3]), ["left lib --jobs 3", "right lib --jobs 2"] if len(jobs) > 1 else sorted(calls[1:3]))

    def test_what_checks_kept_stays(self) -> None:
        (self.root / "crates/low/out/incremental").mkdir(parents=True)
        self.assertEqual(self.build([3, 2]), 0, self.said)
        self.assertEqual([it.parts[-3] for it in self.root.glob("crates/*/out/incremental")], ["low"])

    def test_a_crate_that_is_not_proved(self) -> None:
        self.assertEqual(self.build([3, 2], fails="left"), 1)
        self.assertIn("no proof", self.said[-1])
        self.assertIn("left was not built", self.said[-1])
        self.assertFalse((self.root / "crates/top/out").exists())

    def test_a_build_that_is_ended(self) -> None:
        self.rt.write_text(SLEEPING)
        shutil.copy(TOP / "build", self.root / "build")
        room = self.rt.parent
        given = {**os.environ, "CALLS": str(self.calls), "PATH": f"{room}:{os.environ['PATH']}", "TMPDIR": str(room)}
        with subprocess.Popen([sys.executable, self.root / "build"], env=given, stdin=subprocess.DEVNULL, stderr=subprocess.DEVNULL) as running:
            while not self.calls.exists() or not self.calls.read_text().endswith("\n"):
                self.assertIsNone(running.poll())
                time.sleep(0.01)
            running.send_signal(signal.SIGTERM)
            self.assertEqual(running.wait(), 143)
        (started,) = map(int, self.calls.read_text().split())
        for _ in range(1000):
            if not is_running(started):
                break
            time.sleep(0.01)
        self.assertFalse(is_running(started))
        self.assertEqual(list(room.glob("corwaphi-*")), [])


if __name__ == "__main__":
    unittest.main()
