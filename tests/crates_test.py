"""Tests of crates.txt: each crate has a line in a group, below those of the crates that it uses, and is on the page of the architecture."""

import re
import unittest
from pathlib import Path

TOP = Path(__file__).resolve().parent.parent


def rows() -> dict[str, list[str]]:
    """The libraries of each crate, in the order of crates.txt."""
    found = {}
    for row in (TOP / "crates.txt").read_text().splitlines():
        if row.strip() and not row.startswith("#"):
            head, _, libraries = row.partition(":")
            found[head.split()[0]] = libraries.split()
    return found


class CratesTest(unittest.TestCase):
    def test_each_folder_has_a_line(self) -> None:
        self.assertEqual(sorted(rows()), sorted(path.name for path in (TOP / "crates").iterdir() if (path / "src").is_dir()))

    def test_each_line_is_in_a_group(self) -> None:
        lines = [line for line in (TOP / "crates.txt").read_text().splitlines() if line.strip()]
        self.assertTrue(lines[0].startswith("# "))
        for line, following in zip(lines, [*lines[1:], "#"]):
            self.assertFalse(line.startswith("#") and following.startswith("#"), f"an empty group: {line}")

    def test_crates_stand_below_those_that_use_them(self) -> None:
        before: set[str] = set()
        for crate, libraries in rows().items():
            later = [it for it in libraries if it in rows() and it not in before]
            self.assertEqual(later, [], f"{crate} uses crates of lines below its own")
            before.add(crate)

    def test_listed_libraries_are_named(self) -> None:
        for crate, libraries in rows().items():
            folder = TOP / "crates" / crate
            files = [path for part in ("src", "specs", "proofs", "tests") for path in (folder / part).rglob("*") if path.is_file()]
            words = set(re.findall(r"\w+", "\n".join(path.read_text() for path in files)))
            self.assertEqual([it for it in libraries if it not in words], [], f"{crate} names none of these")

    def test_architecture_has_each_crate(self) -> None:
        page = (TOP / "docs" / "architecture.md").read_text()
        self.assertEqual([it for it in rows() if f"`{it}`" not in page], [])


if __name__ == "__main__":
    unittest.main()
