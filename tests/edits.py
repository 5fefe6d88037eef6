#!/usr/bin/env python3
"""Tries wrong bodies: the prover must refuse each, and at the clause that it is there to break.

    tests/edits.py [--gate] [--report FILE] [--jobs N] [--libraries ROOT] [--said FOLDER] [CRATE | CRATE/EDIT]..

They are crates/*/edits/*.edit and crates/*/edits/gate/*.edit; with --gate only the latter, which the gate tries each time. Without a name
all are tried. A copy of the crate is checked over the libraries in crates/*/out/rlib, as `rt ci`, `./check`, `./build` and `rt lib` leave
them, of this checkout or of the one at ROOT. Only the functions are checked whose bodies change, those that a line `# breaks:` names, and
what they call; so the edits of functions that don't call each other go into one check, and what fails there is tried once more, alone. N
crates are tried side by side; if N is not given, as many as there are processors and 5 GB of free memory for each. FILE is what an `rt ci`
prints, which may still run: a crate is tried once it tells that the libraries below are proved. FOLDER gets what the prover said in each
check.

A line tells of each edit that is let through, that breaks another clause or names none, that can't be applied, or that is refused only by
a limit of the prover or only since a name is gone. The last line also counts those for which the prover's search only gave up.
"""

from __future__ import annotations

import argparse
import os
import re
import shutil
import subprocess
import sys
import tempfile
import time
from concurrent.futures import ThreadPoolExecutor
from pathlib import Path
from typing import NamedTuple, Optional

import breaks
from bodies import Bodies, Function, functions_of

PARTS = ("src", "specs", "proofs")
# What a check of the largest crate may take, in bytes.
MEMORY = 5_000_000_000
# What the prover says of a function that it was asked for, and the beginning of its last line.
STATUS = re.compile(r"fn (?P<path>\S+): (?P<status>proved|not proved|could not tell|no proof)")
ENDED = re.compile(r"(?m)^only=\d+ ")
# What it says of a place; that it can't read a text, while it reads a false statement; and that a proof names what is gone.
PLACE = re.compile(r"(?:note: )?(?:\./)?(?P<file>(?:src|specs|proofs)/[^\s:]+):(?P<line>\d+):\d+: ")
NO_WORD = "is not in scope|has no field|is no name|operand is missing|expected the end|cannot continue"
UNREAD = re.compile(rf"(?:\./)?(?P<file>\S+?):\d+:\d+: error: (?:[^`]|`[^`]*`: .*(?:{NO_WORD}))")
GONE = re.compile(r"(?:\./)?proofs/.*(?:has no field|is not in scope|has no `|was not admitted)")
GAVE_UP = "`search` gave up"
# How these are told, which breaks.py reads.
LIMIT = f"{breaks.REFUSED} (only by a limit of the prover)"
NAME = f"{breaks.REFUSED} (only because a proof file names what the edit took away)"

Pairs = list[tuple[str, str, str]]


class BadEdit(Exception):
    """Why an edit can't be applied."""


class Edit(NamedTuple):
    """An edit: CRATE/NAME, its file, old and new text for each change, the clauses that it names, and the functions to check."""

    label: str
    pairs: Pairs
    named: list[tuple[str, str]]
    functions: list[Function]

    def paths(self) -> list[str]:
        return [it.path for it in self.functions]


class Verdict(NamedTuple):
    """What the try of an edit came to, and what is wrong with that."""

    what: str
    why: Optional[str]


def pairs_of(text: str) -> Pairs:
    """The changes of an edit."""
    file, old, pairs = "", "", []
    for line in text.splitlines():
        word, _, rest = line.partition(":")
        if word == "file":
            file = rest.strip()
        elif word == "old":
            old = rest.removeprefix(" ")
        elif word == "new":
            if not file or not old:
                raise BadEdit("a line 'new:' stands before any 'file:' or 'old:'")
            pairs.append((file, old, rest.removeprefix(" ")))
            old = ""
    if not pairs:
        raise BadEdit("it has no lines 'old:' and 'new:'")
    return pairs


def applied(pairs: Pairs, folder: Path) -> dict[str, str]:
    """The texts of a crate's files with these changes."""
    texts: dict[str, str] = {}
    for file, old, new in pairs:
        if not (folder / file).is_file():
            raise BadEdit(f"there is no file {file}")
        text = texts.get(file) or (folder / file).read_text(encoding="utf-8")
        if text.count(old) != 1:
            raise BadEdit(f"an 'old:' text is in {file} {text.count(old)} times, and not once")
        texts[file] = text.replace(old, new)
    return texts


class Crate:
    """A crate whose edits are tried."""

    def __init__(self, folder: Path) -> None:
        self.folder, self.name, self.bodies = folder, folder.name, Bodies(folder)

    def changed(self, pairs: Pairs, named: list[tuple[str, str]]) -> list[Function]:
        """The functions whose bodies these changes are in; and where an edit names none of them, those that it does name."""
        found: list[Function] = []
        for file, old, _ in pairs:
            text = (self.folder / file).read_text(encoding="utf-8")
            place = text[: text.find(old)].count("\n")
            found += self.bodies.at(file, place)
        names = {name for name, _ in named}
        if not names & {it.name for it in found}:
            found += self.bodies.called(names)
        if not found:
            raise BadEdit("it changes no function's body, and names no function")
        return list(dict.fromkeys(found))

    def read(self, file: Path) -> Edit:
        text = file.read_text(encoding="utf-8")
        pairs, named = pairs_of(text), breaks.clauses_of(text)
        applied(pairs, self.folder)
        return Edit(f"{self.name}/{file.stem}", pairs, named, self.changed(pairs, named))

    def disturb(self, one: Edit, other: Edit) -> bool:
        """Whether a refusal of one edit may be due to the other: they share a function, or functions of one call some of the other."""
        names, others = ({it.name for it in edit.functions} for edit in (one, other))
        if any(it.is_of_trait for it in one.functions + other.functions) or {*one.paths()} & {*other.paths()}:
            return True
        return bool(names & self.bodies.reached(others) or others & self.bodies.reached(names))

    def batches(self, edits: list[Edit]) -> list[list[Edit]]:
        """The edits, together those that don't disturb each other."""
        found: list[list[Edit]] = []
        for edit in edits:
            free = (batch for batch in found if not any(self.disturb(edit, it) for it in batch))
            batch = next(free, None)
            if batch is None:
                found.append(batch := [])
            batch.append(edit)
        return found


def is_told(line: str, edit: Edit, crate: str, folder: Path) -> bool:
    """Whether a line of the prover is of a function by which this edit is tried, in a folder of its crate."""
    place = PLACE.match(line)
    if not place:
        return False
    parts = Path(place["file"]).parts
    if parts[0] != "src":
        told = "::".join([crate, *(it.removeprefix("+") for it in parts[1:-1])])
        return told.endswith(tuple(f"::{it}" for it in edit.paths())) or told in edit.paths()
    text = (folder / place["file"]).read_text(encoding="utf-8")
    line = breaks.below_attributes(text.splitlines(), int(place["line"]))
    inside = [it.path for it in functions_of(crate, place["file"], text) if it.first < line <= it.last + 1]
    return any(it in edit.paths() for it in inside[:1])


def what_of(edit: Edit, lines: list[str], said: str) -> str:
    """What the try of an edit came to, by the prover's lines on the edit and by all that it said."""
    if not ENDED.search(said):
        return f"BAD EDIT: the prover gave no verdict: {said.strip()[-300:]}"
    for found in filter(None, map(UNREAD.match, lines)):
        if found["file"].startswith(("src/", "specs/")) or found["file"] in (file for file, _, _ in edit.pairs):
            return f"BAD EDIT: the prover can't read the edited text: {found.string}"
    ends = tuple(f"::{it}" for it in edit.paths())
    found = [it for it in map(STATUS.match, said.splitlines()) if it and f"::{it['path']}".endswith(ends)]
    if {it["status"] for it in found} == {"proved"}:
        return "NOT REFUSED: the prover lets it through"
    refused = [it.string for it in found if it["status"] in ("not proved", "no proof")]
    if not refused:
        return LIMIT
    told = [it for it in lines if PLACE.match(it) and (": error" in it or it.startswith("note: "))]
    first = next((it for it in told if not GONE.match(it)), None)
    if told and not first:
        return f"{NAME}: {told[0]}"
    return f"{breaks.REFUSED}: {first or refused[0]}"


class Report:
    """What an `rt ci` has printed so far of the crates that are proved."""

    def __init__(self, file: Optional[Path]) -> None:
        self.file = file

    def waits(self, libraries: set[str]) -> bool:
        """Whether there is still something to be told of these libraries."""
        text = self.file.read_text(encoding="utf-8", errors="replace") if self.file else None
        if text is None or re.search(r"(?m)^\d+ passed, \d+ failed$", text):
            return False
        return bool(libraries - {*re.findall(r"(?m)^rt: (\w+) (?:proved|NOT PROVED|is kept)", text)})

    def wait(self, libraries: set[str]) -> None:
        while self.waits(libraries):
            time.sleep(1)


class Tries:
    """Tries edits in copies of their crates, over the libraries of a checkout, and keeps what the prover said where that is wanted."""

    def __init__(self, root: Path, libraries: Path, room: Path, said: Optional[Path]) -> None:
        self.root, self.libraries, self.room, self.said = root, libraries, room, said
        self.kit = Path(subprocess.run(["rt", "doc"], check=True, capture_output=True, text=True).stdout.splitlines()[0]).parent
        rows = [row.partition("#")[0].partition(":") for row in (root / "crates.txt").read_text().splitlines()]
        self.uses = {head.split()[0]: uses.split() for head, _, uses in rows if head.strip()}
        self.static = {head.split()[0] for head, _, _ in rows if "staticlib" in head.split()}

    def library(self, name: str) -> Path:
        folder = self.libraries / "crates" / name / "out" / "rlib" if name in self.uses else self.kit / "rlibs"
        return folder / f"{name}.rlib"

    def below(self, crate: str) -> set[str]:
        """The libraries below a crate, those of the kit too."""
        below: set[str] = set()
        left = {crate}
        while left:
            left = {it for name in left for it in self.uses.get(name, [])} - below
            below |= left
        return below

    def lacking(self, crate: str) -> list[str]:
        """The libraries below a crate that aren't there."""
        return sorted(it for it in self.below(crate) if not self.library(it).is_dir())

    def command(self, crate: str, edits: list[Edit]) -> list[str]:
        source = "src/main.rt" if (self.root / "crates" / crate / "src/main.rt").is_file() else "src/lib.rt"
        words = [str(self.kit / "bin" / "rattle"), "check", "--crate-name", crate, source, "--jobs", "1", "--links", f"{crate}="]
        words += ["--crate-type", "staticlib"] * (crate in self.static)
        words += [it for name in ["std", *self.uses[crate]] for it in ("--extern", f"{name}={self.library(name)}")]
        words += [it for folder in [self.kit / "rlibs", *self.libraries.glob("crates/*/out/rlib")] for it in ("-L", f"dependency={folder}")]
        words += ["--antt-project", f"{self.kit}/rattle/logic/antt-project.json", "--logic-built", f"{self.kit}/logic_built"]
        words += [it for path in dict.fromkeys(it for edit in edits for it in edit.paths()) for it in ("--only", path)]
        return [*words, "--incremental", str(self.room / f"{crate}.kept")]

    def check(self, crate: Crate, edits: list[Edit]) -> list[Verdict]:
        """What the try of these edits together came to for each."""
        with tempfile.TemporaryDirectory(dir=self.room) as folder:
            copy = Path(folder)
            for part in PARTS:
                if (crate.folder / part).is_dir():
                    shutil.copytree(crate.folder / part, copy / part)
            try:
                for edit in edits:
                    for file, text in applied(edit.pairs, copy).items():
                        (copy / file).write_text(text, encoding="utf-8")
            except BadEdit as error:
                # One writes what another looks for: each is tried alone.
                return [Verdict("", f"BAD EDIT: {error}") for _ in edits]
            how = {"cwd": copy, "stdin": subprocess.DEVNULL, "stdout": subprocess.PIPE, "stderr": subprocess.STDOUT}
            said = subprocess.run(self.command(crate.name, edits), text=True, errors="replace", **how).stdout
            if self.said:
                (self.said / f"{crate.name}.{Path(edits[0].label).name}.{len(edits)}").write_text(said, encoding="utf-8")
            lines = said.splitlines()
            whats = [what_of(it, [line for line in lines if len(edits) == 1 or is_told(line, it, crate.name, copy)], said) for it in edits]
            return [Verdict(what, breaks.fault(it.named, what, copy)) for it, what in zip(edits, whats)]


def tried(tries: Tries, report: Report, folder: Path, files: list[Path]) -> dict[str, Verdict]:
    """What the tries of these edits of a crate came to, once the libraries below it are there."""
    crate, edits, found = Crate(folder), [], {}
    report.wait(tries.below(crate.name) & {*tries.uses})
    for file in files:
        try:
            edits.append(crate.read(file))
        except BadEdit as error:
            found[f"{crate.name}/{file.stem}"] = Verdict("", f"BAD EDIT: {error}")
    if lacking := tries.lacking(crate.name):
        return {f"{crate.name}/{it.stem}": Verdict("", f"NOT TRIED: these libraries aren't built: {', '.join(lacking)}") for it in files}
    for batch in crate.batches(edits):
        for edit, verdict in zip(batch, tries.check(crate, batch)):
            again = verdict.why and len(batch) > 1
            found[edit.label] = tries.check(crate, [edit])[0] if again else verdict
    return found


def chosen(root: Path, names: list[str], of_gate: bool = False) -> dict[Path, list[Path]]:
    """The edits of these names, or all, or all that the gate tries, by the folders of their crates."""
    found: dict[Path, list[Path]] = {}
    wanted = {name.removesuffix(".edit") for name in names}
    for file in sorted(root.glob("crates/*/edits/gate/*.edit" if of_gate else "crates/*/edits/**/*.edit")):
        folder = root / "crates" / file.relative_to(root).parts[1]
        if not names or wanted & {folder.name, f"{folder.name}/{file.stem}"}:
            found.setdefault(folder, []).append(file)
    known = {it for folder, files in found.items() for it in [folder.name, *(f"{folder.name}/{file.stem}" for file in files)]}
    if wanted - known:
        raise SystemExit(f"edits.py: there are no edits {', '.join(sorted(wanted - known))}")
    return found


def lanes() -> int:
    """How many crates to try side by side: as many as there are processors, and memory for the largest."""
    free = re.search(r"MemAvailable:\s+(\d+) kB", Path("/proc/meminfo").read_text(encoding="utf-8"))
    return max(1, min(len(os.sched_getaffinity(0)), int(free[1]) * 1024 // MEMORY if free else 1))


def main(words: list[str]) -> int:
    root = Path(__file__).resolve().parent.parent
    parser = argparse.ArgumentParser(prog="edits.py", description=__doc__, formatter_class=argparse.RawDescriptionHelpFormatter)
    parser.add_argument("names", nargs="*", metavar="CRATE | CRATE/EDIT")
    parser.add_argument("--gate", action="store_true")
    parser.add_argument("--report", type=Path)
    parser.add_argument("--jobs", type=int, default=lanes())
    parser.add_argument("--libraries", type=Path, default=root)
    parser.add_argument("--said", type=Path)
    given = parser.parse_args(words)
    edits = chosen(root, given.names, given.gate)
    if given.said:
        given.said.mkdir(parents=True, exist_ok=True)
    found: dict[str, Verdict] = {}
    with tempfile.TemporaryDirectory() as room, ThreadPoolExecutor(given.jobs) as pool:
        tries = Tries(root, given.libraries.resolve(), Path(room), given.said)
        report, order = Report(given.report), [*tries.uses]
        lowest_first = sorted(edits.items(), key=lambda it: order.index(it[0].name))
        for verdicts in pool.map(lambda it: tried(tries, report, *it), lowest_first):
            found |= verdicts
            for label, verdict in verdicts.items():
                if verdict.why:
                    print(f"edits.py: {label}: {verdict.why}", file=sys.stderr, flush=True)
    wrong, weak = (sum(map(bool, it)) for it in ((it.why for it in found.values()), (GAVE_UP in it.what for it in found.values())))
    print(f"edits.py: of {len(found)} edits {len(found) - wrong} break a clause that they name; for {weak} the search only gave up")
    return 1 if wrong else 0


if __name__ == "__main__":
    sys.exit(main(sys.argv[1:]))
