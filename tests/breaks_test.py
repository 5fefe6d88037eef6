"""Tests of breaks.py, on what the prover prints of edits."""

import tempfile
import unittest
from pathlib import Path

from breaks import breaks, clauses_of, fault

PLACE = "./proofs/cache/Cache/put/Answers.antt:10:5: error: `returns-clause-keeps`: `rw`: no occurrence of the path's left endpoint"
LIMIT = f"refused, as it must be (only by a limit of the prover): {PLACE}"
NAME = f"refused, as it must be (only because a proof file names what the edit took away): {PLACE}"


class Breaks(unittest.TestCase):
    def told(self, what: str, *named: tuple[str, str]) -> str:
        return fault(list(named), what, Path("lsm_cache")) or ""

    def kept(self, *named: tuple[str, str]) -> str:
        return self.told(f"refused, as it must be: {PLACE}", *named)

    def test_the_clause_that_is_named(self) -> None:
        self.assertEqual(self.kept(("put", "keeps")), "")
        self.assertEqual(self.kept(("get", "keeps"), ("put", "keeps")), "")
        self.assertEqual(self.kept(("put", "")), "")

    def test_another_clause_or_function(self) -> None:
        for named in [("put", "eps"), ("put", "keep"), ("put", "ensures"), ("get", "keeps"), ("Cache", "keeps")]:
            self.assertEqual(self.kept(named), f"it is to break {'.'.join(named)}, and the prover says: {PLACE}")
        self.assertEqual(self.kept(("get", ""), ("put", "x")), f"it is to break get or put.x, and the prover says: {PLACE}")

    def test_no_clause(self) -> None:
        self.assertEqual(self.kept(), f"it has no line '# breaks: FUNCTION.CLAUSE', or more than one; the prover says: {PLACE}")

    def test_no_goal(self) -> None:
        self.assertEqual(self.told("refused, as it must be", ("put", "keeps")), "it is to break put.keeps, and the prover says: ")

    def test_goals(self) -> None:
        answers = "./proofs/writer/switch/Answers.antt:40:138: error: `returns-in_err-sync-2-clause-moments`: `rw`: no occurrence"
        self.assertTrue(breaks("switch", "moments", answers, Path()))
        self.assertFalse(breaks("switch", "all", answers, Path()))
        whole = "./proofs/reader/newer/Answers.antt:4:1: error: `returns-in-Ok`: the types differ"
        self.assertTrue(breaks("newer", "ensures", whole, Path()))
        self.assertFalse(breaks("newer", "newest", whole, Path()))
        self.assertTrue(breaks("newer", "ensures", whole.replace("newer", "+newer"), Path()))
        required = "./proofs/cache/Cache/put/Answers.antt:9:1: error: `lru-put-requires-clause-keeps`: the types differ"
        self.assertFalse(breaks("put", "keeps", required, Path()) or breaks("put", "", required, Path()))
        # A lemma is no clause, and a goal that is cut off is none.
        self.assertFalse(breaks("put", "keeps", "./proofs/ReadingLaws.antt:159:14: error: `put-clause-keeps`: write a variable", Path()))
        self.assertFalse(breaks("put", "keeps", "./proofs/cache/Cache/put/Answers.antt:10:5: error: `returns-clause-kee", Path()))
        self.assertTrue(breaks("put", "keeps", "./src/cache.rt:10:5: error: `returns-clause-keeps`: no proof", Path()))
        self.assertFalse(breaks("put", "keeps", "./src/cache.rt:10:5: error: `returns-clause-size`: no proof", Path()))
        self.assertTrue(breaks("may_follow", "ensures", "src/reader.rt:49:1: error[not-proved]: fn lsm_root::reader::may_follow", Path()))

    def test_a_function_without_answers(self) -> None:
        note = "note: src/reader.rt:2:1: it is not proved that what the function ensures holds when it returns (`returns-in-One-later`); the facts"
        with tempfile.TemporaryDirectory() as room:
            (Path(room) / "src").mkdir()
            (Path(room) / "src" / "reader.rt").write_text("// Whether.\nfn may_follow(a: u8) -> bool\n{\n    true\n}\n#[inline]\nfn newer() {}\n")
            self.assertTrue(breaks("may_follow", "ensures", note, Path(room)))
            self.assertFalse(breaks("newer", "ensures", note, Path(room)))
            self.assertFalse(breaks("may_follow", "later", note, Path(room)))
            # A line of its body is one of it.
            self.assertTrue(breaks("may_follow", "ensures", note.replace(":2:", ":4:"), Path(room)))
            self.assertFalse(breaks("may_follow", "ensures", note.replace(":2:", ":7:"), Path(room)))
            loop = "note: src/reader.rt:4:5: it is not proved that the invariant of the loop holds (`loop-row-preserved`); `search` gave up"
            self.assertTrue(breaks("may_follow", "loop", loop, Path(room)))
            self.assertFalse(breaks("may_follow", "", loop, Path(room)))
            call = "note: src/reader.rt:4:5: it is not proved that what `lay` requires holds at this call (`lay-requires`)"
            self.assertTrue(breaks("may_follow", "lay", call, Path(room)))
            # An attribute is one of the function below it.
            self.assertTrue(breaks("newer", "ensures", note.replace(":2:", ":6:"), Path(room)))

    def test_refusals_that_say_little(self) -> None:
        self.assertIn("a limit of the prover", self.told(LIMIT, ("put", "keeps")))
        self.assertIn("a name is gone", self.told(NAME, ("put", "keeps")))

    def test_what_is_no_refusal(self) -> None:
        for what in ("BAD EDIT: an 'old:' text is in src/cache.rt 2 times, and not once", "NOT REFUSED: the prover lets it through"):
            self.assertEqual(self.told(what, ("put", "keeps")), what)

    def test_the_line_of_an_edit(self) -> None:
        self.assertEqual(clauses_of("# Why.\n# breaks: put.keeps\nfile: src/cache.rt\n"), [("put", "keeps")])
        self.assertEqual(clauses_of("# breaks: lives.led, make\n"), [("lives", "led"), ("make", "")])
        for text in ("file: src/cache.rt\n", "# breaks:\n", "# breaks: a.one b.two\n", "# breaks: a.one\n# breaks: a.two\n"):
            self.assertEqual(clauses_of(text), [])


if __name__ == "__main__":
    unittest.main()
