"""Looks that what names a version names that of the file VERSION."""

import re
import unittest
from pathlib import Path

TOP = Path(__file__).resolve().parent.parent


class Version(unittest.TestCase):
    def setUp(self) -> None:
        self.version = (TOP / "VERSION").read_text().strip()

    def test_form(self) -> None:
        self.assertRegex(self.version, r"^\d+\.\d+\.\d+$")

    def test_python_client(self) -> None:
        files = [*TOP.glob("clients/python/pyproject.toml"), *TOP.glob("clients/python/**/__init__.py"), *TOP.glob("clients/python/*.py")]
        found = [it for file in files for it in re.findall(r'(?m)^(?:version|__version__) *= *"(.*)"$', file.read_text())]
        self.assertEqual({*found} - {self.version}, set())
        if (TOP / "clients/python/pyproject.toml").is_file():
            self.assertTrue(found, "the package names no version")

    def test_documents(self) -> None:
        self.assertIn(f"Version {self.version}", (TOP / "README.md").read_text())
        self.assertIn(f"\n## {self.version}\n", (TOP / "CHANGELOG.md").read_text())


if __name__ == "__main__":
    unittest.main()
