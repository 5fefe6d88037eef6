"""Tests of edits.py and bodies.py, on made-up sources, and on what the prover prints."""

import contextlib
import io
import tempfile
import unittest
import unittest.mock
from pathlib import Path

import bodies
import edits
from edits import BadEdit, Crate, Edit, Verdict

CACHE = """//! A cache.

const ROOM: usize = 8;

impl<A: Allocator> Model for Cache<A> {
    ghost view = { λ c. c.blocks };
}

impl<F: Fn(u8) -> bool, A> Cache<A>
where
    A: Clone,
{
    /// Puts a block.
    pub fn put(&mut self, at: u32) -> Result<(), AllocError>
        ensures keeps { OnOk result (Has self.new at) }
    {
        for it in self.blocks {
            look(it);
        }
        self.blocks.push(at)
    }

    #[inline]
    fn count(&self) -> usize {
        fn one() -> usize {
            1
        }
        self.blocks.len() + one() + ROOM
    }
}

impl<A> lsm_device::Device for &'a mut Cache<A> {
    fn sync(&mut self) -> Result<(), Fault> { Ok(()) }
}

pub trait Holds {
    fn held(&self) -> u8;
}

fn look(at: u32) -> bool
{
    found::<u32>(at)
}

pub(crate) fn found<T>(at: T) -> bool {
    true
}
"""
GUARD = """impl Guard {
    pub fn put(&self) -> bool {
        Guard::is_met(self)
    }

    fn is_met(&self) -> bool {
        false
    }
}
"""
KEPT = "# breaks: put.keeps\nfile: src/cache.rt\nold: self.blocks.push(at)\nnew: self.blocks.push(0)\n"
PLACE = "./proofs/cache/Cache/put/Answers.antt:10:5: error: `returns-clause-keeps`: the types differ"
GONE = "./proofs/cache/Cache/put/Answers.antt:9:5: error: `overflow_add`: `goal.overflow_add`: module `Goals` has no `overflow_add`"
NOTE = "note: src/cache.rt:21:5: it is not proved that what the function ensures holds when it returns (`returns-clause-keeps`); `search` gave up"


def said(*lines: str, put: str = "not proved") -> str:
    return "\n".join(["note: a note", *lines, "fn lsm_cache::look: proved", f"fn lsm_cache::cache::Cache::put: {put}", "only=2 proved=1", ""])


class Bodies(unittest.TestCase):
    def setUp(self) -> None:
        room = tempfile.TemporaryDirectory()
        self.addCleanup(room.cleanup)
        self.folder = Path(room.name) / "crates" / "lsm_cache"
        (self.folder / "src" / "inner").mkdir(parents=True)
        (self.folder / "edits").mkdir()
        (self.folder / "src" / "cache.rt").write_text(CACHE)
        (self.folder / "src" / "inner" / "guard.rt").write_text(GUARD)

    def edit(self, name: str, text: str) -> Path:
        (self.folder / "edits" / f"{name}.edit").write_text(text)
        return self.folder / "edits" / f"{name}.edit"

    def changing(self, name: str, old: str, first: str = "", file: str = "cache.rt") -> Path:
        return self.edit(name, f"{first}file: src/{file}\nold: {old}\nnew: {old}!\n")


class Functions(Bodies):
    def test_paths_and_lines(self) -> None:
        found = {it.path: it for it in bodies.functions_of("lsm_cache", "src/cache.rt", CACHE)}
        inner = "lsm_cache::cache::"
        self.assertEqual({*found}, {"Cache::put", "Cache::count", "Cache::one", "CacheDevice::sync", f"{inner}look", f"{inner}found"})
        self.assertTrue(found["CacheDevice::sync"].is_of_trait)
        self.assertFalse(found["Cache::put"].is_of_trait)
        lines = CACHE.splitlines()
        for it in found.values():
            self.assertIn(f"fn {it.name}", lines[it.first])
            self.assertTrue(lines[it.last].endswith("}"))
        self.assertEqual(bodies.functions_of("low", "src/inner/guard.rt", "fn one() {}")[0].path, "low::inner::guard::one")
        self.assertEqual(bodies.functions_of("low", "src/lib.rt", "fn one() {}")[0].path, "low::one")

    def test_owners(self) -> None:
        for head, owner in [
            ("Db<FileDevice> {", ("Db", False)),
            ("<T: Fn() -> X<u8>> a::Row<T> for &'x mut b::Table<T> where T: X {", ("TableRow", True)),
        ]:
            self.assertEqual(bodies.owner(head), owner)

    def test_calls(self) -> None:
        crate = Crate(self.folder)
        self.assertEqual(crate.bodies.reached({"put"}), {"look", "found", "is_met"})
        self.assertEqual(crate.bodies.reached({"found"}), set())


class Edits(Bodies):
    def read(self, *files: Path) -> list[Edit]:
        crate = Crate(self.folder)
        return [crate.read(it) for it in files]

    def test_what_is_read(self) -> None:
        [edit] = self.read(self.edit("put_keeps_zero", KEPT))
        self.assertEqual(edit.label, "lsm_cache/put_keeps_zero")
        self.assertEqual(edit.pairs, [("src/cache.rt", "self.blocks.push(at)", "self.blocks.push(0)")])
        self.assertEqual((edit.named, edit.paths()), ([("put", "keeps")], ["Cache::put"]))

    def test_the_functions_that_are_checked(self) -> None:
        constant = self.changing("constant", "= 8;", "# breaks: count.ensures\n")
        caller = self.changing("caller", "true", "# breaks: look.ensures\n")
        inner = self.changing("inner", "            1")
        self.assertEqual([it.paths() for it in self.read(constant, caller, inner)], [["Cache::count"], ["lsm_cache::cache::found", "lsm_cache::cache::look"], ["Cache::one"]])

    def test_bad_edits(self) -> None:
        for text, why in [
            (KEPT.replace("push(at)", "push(it)"), "0 times"),
            (KEPT.replace("self.blocks.push(at)", "at"), "times, and not once"),
            (KEPT.replace("cache.rt", "other.rt"), "no file src/other.rt"),
            (KEPT.replace("old:", "# old:"), "stands before"),
            ("# breaks: put.keeps\n", "no lines"),
            ("file: src/cache.rt\nold: = 8;\nnew: = 9;\n", "no function"),
        ]:
            with self.assertRaisesRegex(BadEdit, why):
                self.read(self.edit("bad", text))

    def test_one_change_after_the_other(self) -> None:
        self.assertIn("push(1)", edits.applied([*edits.pairs_of(KEPT), ("src/cache.rt", "push(0)", "push(1)")], self.folder)["src/cache.rt"])

    def test_batches(self) -> None:
        kept, look = self.edit("kept", KEPT), self.changing("look", "found::<u32>(at)")
        count, guard = self.changing("count", "+ ROOM"), self.changing("guard", "Guard::is_met(self)", file="inner/guard.rt")
        met, sync = self.changing("met", "        false", file="inner/guard.rt"), self.changing("sync", "Ok(())")
        crate = Crate(self.folder)
        named = [[it.label.partition("/")[2] for it in batch] for batch in crate.batches(self.read(kept, look, count, guard, met, sync))]
        # One that calls another is tried beside others, two of one name are tried together, and one of a trait alone.
        self.assertEqual(named, [["kept", "count", "guard"], ["look", "met"], ["sync"]])

    def test_lines_of_an_edit(self) -> None:
        [edit] = self.read(self.edit("kept", KEPT))
        for line, is_its in [
            (PLACE, True),
            (PLACE.replace("Cache/put", "Cache/+put"), True),
            (PLACE.replace("Cache/put", "Cache/count"), False),
            (PLACE.replace("cache/Cache", "guard/Guard"), False),
            (NOTE, True),
            (NOTE.replace(":21:", ":27:"), False),
            ("fn lsm_cache::cache::Cache::put: proved", False),
        ]:
            self.assertEqual(edits.is_told(line, edit, "lsm_cache", self.folder), is_its, line)
        # A function with an attribute is told there.
        [count] = self.read(self.changing("count", "+ ROOM"))
        self.assertTrue(edits.is_told(NOTE.replace(":21:", ":23:"), count, "lsm_cache", self.folder))


class Verdicts(Bodies):
    def judged(self, text: str, *lines: str, edit: str = KEPT) -> str:
        read = Crate(self.folder).read(self.edit("kept", edit))
        what = edits.what_of(read, list(lines), text)
        return edits.breaks.fault(read.named, what, self.folder) or ""

    def test_refused_at_its_clause(self) -> None:
        for line in (PLACE, NOTE):
            self.assertEqual(self.judged(said(line), line), "")
        # What names something that is gone is passed over where another goal fails.
        self.assertEqual(self.judged(said(GONE, PLACE), GONE, PLACE), "")

    def test_refused_elsewhere(self) -> None:
        other = PLACE.replace("clause-keeps", "clause-eps")
        self.assertIn("it is to break put.keeps, and the prover says: ./proofs", self.judged(said(other), other))
        self.assertIn("no line '# breaks:", self.judged(said(PLACE), PLACE, edit=KEPT.partition("\n")[2]))
        self.assertIn("the prover says: fn lsm_cache::cache::Cache::put: not proved", self.judged(said()))

    def test_let_through(self) -> None:
        self.assertIn("NOT REFUSED", self.judged(said(put="proved")))

    def test_little_said(self) -> None:
        self.assertIn("a limit of the prover", self.judged(said(put="could not tell")))
        self.assertIn("a name is gone", self.judged(said(GONE), GONE))

    def test_not_tried(self) -> None:
        self.assertIn("no verdict: src/cache.rt:9:1: error[type]: no", self.judged("src/cache.rt:9:1: error[type]: no"))
        for line in ("./src/cache.rt:9:1: error: expected a term", "./src/cache.rt:9:1: error: `put`: `x` is not in scope"):
            self.assertIn("can't read", self.judged(said(line), line))


class Runs(Bodies):
    def setUp(self) -> None:
        super().setUp()
        self.root = self.folder.parent.parent
        (self.root / "crates.txt").write_text("lsm_cache staticlib: lsm_low byteorder\nlsm_low:\n")
        (self.root / "crates" / "lsm_low" / "out" / "rlib" / "lsm_low.rlib").mkdir(parents=True)

    def tries(self) -> edits.Tries:
        with unittest.mock.patch("subprocess.run") as run:
            run.return_value.stdout = "/kit/START-HERE.md\n"
            return edits.Tries(self.root, self.root, self.root, None)

    def test_the_command(self) -> None:
        [edit] = [Crate(self.folder).read(self.edit("kept", KEPT))]
        words = " ".join(self.tries().command("lsm_cache", [edit, edit]))
        self.assertIn(f"--extern lsm_low={self.root}/crates/lsm_low/out/rlib/lsm_low.rlib --extern byteorder=/kit/rlibs/byteorder.rlib", words)
        self.assertIn("--crate-type staticlib", words)
        self.assertEqual(words.count("--only Cache::put"), 1)

    def test_libraries_that_are_not_there(self) -> None:
        with unittest.mock.patch.object(edits.Tries, "library", lambda _, name: self.root / "crates" / name / "out" / "rlib" / f"{name}.rlib"):
            self.assertEqual(self.tries().lacking("lsm_cache"), ["byteorder"])

    def test_libraries_that_are_being_proved(self) -> None:
        file = self.root / "report"
        for text, waits in [
            ("", True),
            ("rt: lsm_low: its tests are proved\nrt: lsm_lower proved\n", True),
            ("== lsm_low\nlogic=proved\nrt: lsm_low proved\n", False),
            ("rt: lsm_low NOT PROVED: its library lsm_lower failed\n", False),
            ("rt: lsm_low is kept: an earlier run on this machine proved the same files over the same libraries\n", False),
            ("rt: FAILED: lsm_low\n3 passed, 1 failed\n", False),
        ]:
            file.write_text(text)
            self.assertEqual(edits.Report(file).waits({"lsm_low"}), waits, text)
        self.assertFalse(edits.Report(None).waits({"lsm_low"}))
        self.assertEqual(self.tries().below("lsm_cache"), {"lsm_low", "byteorder"})

    def test_edits_of_one_text(self) -> None:
        files = [self.edit("kept", KEPT), self.edit("count", "file: src/cache.rt\nold: + ROOM\nnew: + ROOM; self.blocks.push(at)\n")]
        crate = Crate(self.folder)
        found = self.tries().check(crate, [crate.read(it) for it in reversed(files)])
        self.assertEqual([it.why for it in found], ["BAD EDIT: an 'old:' text is in src/cache.rt 2 times, and not once"] * 2)

    def test_once_more_alone(self) -> None:
        files = [self.edit("kept", KEPT), self.changing("count", "+ ROOM"), self.changing("bad", "+ NONE")]
        calls = []

        def check(_: edits.Tries, crate: Crate, batch: list[Edit]) -> list[Verdict]:
            calls.append([it.label for it in batch])
            return [Verdict("", "no" if len(batch) > 1 and it.label.endswith("count") else None) for it in batch]

        with unittest.mock.patch.multiple(edits.Tries, check=check, lacking=lambda *_: []):
            found = edits.tried(self.tries(), edits.Report(None), self.folder, files)
        self.assertEqual(calls, [["lsm_cache/kept", "lsm_cache/count"], ["lsm_cache/count"]])
        self.assertEqual([label for label, it in found.items() if it.why], ["lsm_cache/bad"])

    def test_names(self) -> None:
        self.edit("kept", KEPT), self.changing("count", "+ ROOM")
        for names, count in [([], 2), (["lsm_cache"], 2), (["lsm_cache/kept"], 1), (["lsm_cache/kept.edit", "lsm_cache/count"], 2)]:
            self.assertEqual(sum(map(len, edits.chosen(self.root, names).values())), count)
        gate = self.folder / "edits" / "gate"
        gate.mkdir()
        (gate / "put_keeps_one.edit").write_text(KEPT)
        self.assertEqual(edits.chosen(self.root, [], of_gate=True), {self.folder: [gate / "put_keeps_one.edit"]})
        self.assertEqual(sum(map(len, edits.chosen(self.root, []).values())), 3)
        for names in (["lsm_low"], ["lsm_cache/none"]):
            with self.assertRaises(SystemExit), contextlib.redirect_stderr(io.StringIO()):
                edits.chosen(self.root, names)


if __name__ == "__main__":
    unittest.main()
