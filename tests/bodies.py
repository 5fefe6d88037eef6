"""The functions of a crate's sources, with the lines of their bodies and the names that they call, for edits.py."""

from __future__ import annotations

import re
from pathlib import Path
from typing import NamedTuple

FUNCTION = re.compile(r"(?P<indent> *)(?:pub(?:\([^)]*\))? )?(?:const )?(?:unsafe )?(?:extern \"C\" )?fn (?P<name>\w+)")


class Function(NamedTuple):
    """A function of a source by its path, and the places of its first and its last line. One of a trait may be called without its name."""

    path: str
    first: int
    last: int
    is_of_trait: bool

    @property
    def name(self) -> str:
        return self.path.rpartition("::")[2]


def owner(head: str) -> tuple[str, bool]:
    """How the prover names the owner of an impl's functions, `Type` or `TypeTrait`, by what follows `impl`; and whether it is a trait's."""
    head = re.split(r"\{| where ", head, maxsplit=1)[0].strip()
    if head.startswith("<"):
        depths = [head[:end].count("<") - len(re.findall("(?<!-)>", head[:end])) for end in range(1, len(head) + 1)]
        head = head[depths.index(0) + 1 :].strip()
    trait, _, of = head.rpartition(" for ")
    names = [re.match(r"(?:&(?:'\w+ )?(?:mut )?)?([\w:]*)", it.strip()) for it in (of, trait)]
    return "".join(it[1].rpartition("::")[2] for it in names if it), bool(trait)


def functions_of(crate: str, file: str, text: str) -> list[Function]:
    """The functions with a body in a source as `rt fmt` leaves it, where each ends with the brace below its `fn`; the inner ones first."""
    module = [it for it in Path(file).with_suffix("").parts[1:] if it not in ("lib", "main")]
    lines, found = text.splitlines(), []
    begun: list[tuple[str, str, int, bool]] = []
    of, is_of_trait = "", False
    for place, line in enumerate(lines):
        if head := re.match(r"(?:unsafe )?impl\b", line):
            of, is_of_trait = owner(" ".join(lines[place : place + 10])[head.end() :])
        if head := FUNCTION.match(line):
            is_inside = bool(of and head["indent"])
            path = f"{of}::{head['name']}" if is_inside else "::".join([crate, *module, head["name"]])
            begun.append((head["indent"], path, place, is_inside and is_of_trait))
        for at in reversed(range(len(begun))):
            indent, path, first, is_trait = begun[at]
            if line.startswith(indent + "}") or first == place and line.endswith("}"):
                found.append(Function(path, first, place, is_trait))
                begun = begun[:at]
                break
        if line.startswith("}"):
            of, begun = "", []
    return found


class Bodies:
    """The functions of a crate by file, and the names that the functions of a name call."""

    def __init__(self, folder: Path) -> None:
        texts = {str(it.relative_to(folder)): it.read_text(encoding="utf-8") for it in sorted(folder.glob("src/**/*.rt"))}
        self.functions = {file: functions_of(folder.name, file, text) for file, text in texts.items()}
        self.calls: dict[str, set[str]] = {}
        for file, functions in self.functions.items():
            lines = texts[file].splitlines()
            for it in functions:
                # As NAME(..), NAME::<..>(..) or TYPE::NAME.
                named = re.findall(r"(?<=::)\w+|\b\w+(?=\(|::<)", "\n".join(lines[it.first + 1 : it.last]))
                self.calls.setdefault(it.name, set()).update(named)

    def at(self, file: str, place: int) -> list[Function]:
        """The innermost function of a file that has this line, if one has."""
        return [it for it in self.functions.get(file, []) if it.first <= place <= it.last][:1]

    def called(self, names: set[str]) -> list[Function]:
        """The functions of these names."""
        return [it for functions in self.functions.values() for it in functions if it.name in names]

    def reached(self, names: set[str]) -> set[str]:
        """The names of the functions that those of these names call, or that what they call does."""
        found: set[str] = set()
        while names:
            names = {it for name in names for it in self.calls[name] if it in self.calls} - found
            found |= names
        return found
