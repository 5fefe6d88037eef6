"""Whether the prover's refusal of an edit is of the clause that the edit is there to break.

An edit has a line `# breaks: FUNCTION.CLAUSE, ..`, as `put.keeps`, where `ensures` stands for a clause without a name, and a FUNCTION alone
for each of its clauses. `put.loop` is what a loop of it keeps, `put.CALL` what it owes to a call, and `put.invariant_of` the invariant of a
type. The first goal that the prover tells of the edit has to be of one of these. What was refused only by a limit of the prover, or only
since a name is gone, says little of a contract, and a bad edit says nothing.
"""

from __future__ import annotations

import re
from pathlib import Path

REFUSED = "refused, as it must be"
# The goal that the prover told first, with the file of its answer: proofs/MODULE/FUNCTION/Answers.antt:LINE:COLUMN: error: `GOAL`: TEXT.
# One without an answer is told at its line of src/.
GOAL = re.compile(r"(?:\./)?(?P<file>(?:proofs|src)/\S+?):\d+:\d+: error(?:\[[\w-]+\])?: (?:`(?P<goal>[^`]+)`)?")
# What has no answer is told at the line of the function's `fn`, or at one of its body.
NOTE = re.compile(r"note: (?P<file>src/\S+?):(?P<line>\d+):\d+: it is not proved that .*?\(`(?P<goal>[^`]+)`\)")


def clauses_of(text: str) -> list[tuple[str, str]]:
    """The functions that an edit names, each with its clause, or with nothing for each of its clauses."""
    found = re.findall(r"(?m)^# breaks: (\w+(?:\.\w+)?(?:, \w+(?:\.\w+)?)*)$", text)
    return [(it.partition(".")[0], it.partition(".")[2]) for it in found[0].split(", ")] if len(found) == 1 else []


def is_of(goal: str, clause: str) -> bool:
    """Whether a goal is that of a clause of its function: it stands at a return, and is none of what a callee requires. In the place of a
    clause `loop` stands for what its loops keep, and the name of a call for what that requires."""
    if not goal.startswith("returns"):
        return bool(clause) and goal.startswith(f"{clause}-")
    if clause == "ensures":
        return "-clause-" not in goal
    return not clause or goal.endswith(f"-clause-{clause}")


def below_attributes(lines: list[str], line: int) -> int:
    """This line, or the first below it that is no attribute: a function with attributes is told at the first of them."""
    while line < len(lines) and lines[line - 1].lstrip().startswith("#["):
        line += 1
    return line


def is_in(folder: Path, file: str, line: int, function: str) -> bool:
    """Whether this line of a file of the crate is one of a function: the last that begins there or before."""
    lines = (folder / file).read_text(encoding="utf-8").splitlines()
    begun = [found[1] for found in (re.search(r"\bfn (\w+)", text) for text in lines[: below_attributes(lines, line)]) if found]
    return begun[-1:] == [function]


def breaks(function: str, clause: str, reason: str, folder: Path) -> bool:
    """Whether what the prover said of an edit of this crate is of this clause of the function. A line of src/ names the function, or is on
    its own clause."""
    noted = NOTE.search(reason)
    if noted:
        return is_in(folder, noted["file"], int(noted["line"]), function) and is_of(noted["goal"], clause)
    found = GOAL.search(reason)
    if not found:
        return False
    if found["file"].startswith("proofs/"):
        # A function that calls itself has its answers in +FUNCTION.
        return Path(found["file"]).parent.name.removeprefix("+") == function and bool(found["goal"]) and is_of(found["goal"], clause)
    return is_of(found["goal"], clause) if found["goal"] else function in reason


def fault(named: list[tuple[str, str]], what: str, folder: Path) -> str | None:
    """What is wrong with an edit of this crate that names these functions and clauses, by what its try came to."""
    if not what.startswith(REFUSED):
        return what
    reason = what[len(REFUSED) :].removeprefix(": ")
    if reason.startswith(" (only by a limit of the prover"):
        return "it is refused only by a limit of the prover: choose a change that it refuses sooner"
    if reason.startswith(" (only because a proof file names"):
        return "it is refused only since a name is gone: change a value and keep the names"
    if not named:
        return f"it has no line '# breaks: FUNCTION.CLAUSE', or more than one; the prover says: {reason}"
    if any(breaks(*it, reason, folder) for it in named):
        return None
    wanted = " or ".join(".".join(filter(None, it)) for it in named)
    return f"it is to break {wanted}, and the prover says: {reason}"
