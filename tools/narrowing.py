"""Narrows a function that an edit changes to one goal, which the prover is known not to prove, for `try_edits.py`.

`tools/data/refused_at.txt` has a line for an edit of a body at which this saves time: the goal at which it was refused, and behind a semicolon those
that weren't proved either and would be asked all the same. (Of an edit of a definition it has the law that refuses it and reads least.) It is
written by `try_edits.py --write`. The copy of the function that the edit changes then keeps,
of what it ensures, only the clause that the goal is about, or nothing, if it is about none. Of its answers it keeps that of the goal, and what this
names; all other goals that are answered, and those behind the semicolon, are left open.

That can't refuse what is right. A goal's type and what is known at it follow from the code up to there, from what the function requires and from what the
functions that it calls ensure. The clause of another goal has no part in it, nor has the answer of one. Only a function that calls itself uses its own
clauses in its proof, and of such there are no copies; and nobody calls a copy. So the goal is the one that a check of the whole contract asks, and is
asked under the same limits. If it is proved, or isn't asked, the edit is judged by the whole contract.
"""
from __future__ import annotations

import dataclasses
import functools
import pathlib
import re

RECORDS = pathlib.Path(__file__).resolve().parent / "data" / "refused_at.txt"
# A line of a file of proofs that brings names of another one of the crate.
USE = re.compile(r"^\s*(?:pub )?use Rattle\.\w+\.proofs\.([^\s{]+?)\.?(?:\{.*| as .*)?$", re.M)
RETURNS = re.compile(r"returns(?![^-])[^`\s]*")
ENSURES = re.compile(r"\s*ensures(?P<star>\*?)\s*(?P<label>\w+)?\s*\{")
DECLARED = re.compile(r"(?:pub )?(\S+) :(?= |$)")
ANSWER = re.compile(r"pub (\S+) : goal\.\1$")


@dataclasses.dataclass(frozen=True)
class Record:
    """The goal at which an edit is refused, and those that aren't proved either and would be asked beside it; of an edit of a definition the law."""

    goal: str
    others: tuple[str, ...] = ()

    def line(self, name: str) -> str:
        return f"{name}: {self.goal}" + (f"; {' '.join(self.others)}" if self.others else "")


def read_records(path: pathlib.Path = RECORDS) -> dict[str, Record]:
    """Returns the records by the names of their edits."""
    found = {}
    for line in path.read_text().split("\n") if path.is_file() else []:
        name, colon, rest = line.partition(": ")
        goal, _, others = rest.partition("; ")
        if colon:
            found[name] = Record(goal, tuple(others.split()))
    return found


def write_records(records: dict[str, Record], path: pathlib.Path = RECORDS) -> None:
    path.write_text("".join(f"{records[name].line(name)}\n" for name in sorted(records)))


@dataclasses.dataclass(frozen=True)
class Clause:
    """A clause of what a function ensures: its lines, from the first up to the one behind the last, and its name."""

    first: int
    end: int
    label: str | None
    is_starred: bool


def clauses(head: list[str]) -> list[Clause]:
    """Returns what a function ensures, of the lines between its first one and its body."""
    found, at = [], 0
    while at < len(head):
        begun = ENSURES.match(head[at])
        end = at + 1
        while begun and end < len(head) and sum(it.count("{") - it.count("}") for it in head[at:end]) > 0:
            end += 1
        if begun:
            found.append(Clause(at, end, begun["label"], bool(begun["star"])))
        at = end
    return found


class Narrowing:
    """What of a function stays, where it is narrowed to a goal: `kept` is the name of the clause, if it is about one."""

    def __init__(self, head: list[str], record: Record) -> None:
        self.record, self.clauses = record, clauses(head)
        self.is_of_return = bool(RETURNS.fullmatch(record.goal))
        label = record.goal.rpartition("-clause-")[2] if self.is_of_return else None
        self.kept = label if "-clause-" in record.goal and label in {it.label for it in self.clauses} else None
        self.drops = bool(self.clauses) and not any(it.is_starred for it in self.clauses) and (not self.is_of_return or bool(self.kept))

    def count_dropped(self) -> int:
        return len(self.clauses) - bool(self.kept) if self.drops else 0

    def head(self, lines: list[str]) -> list[str]:
        """Returns the lines without the clauses that go; the number of lines stays. A clause that stays alone has no name, so that its goals have the
        name of the return alone, and its type."""
        if not self.drops:
            return lines
        narrow = list(lines)
        for it in self.clauses:
            if it.label and it.label == self.kept:
                narrow[it.first] = narrow[it.first].replace(f"ensures {it.label} {{", "ensures {", 1)
            else:
                narrow[it.first : it.end] = [""] * (it.end - it.first)
        return narrow

    def name(self, goal: str) -> str:
        """Returns what a goal of the whole contract is called in the narrow one."""
        return goal.removesuffix(f"-clause-{self.kept}") if self.drops and self.kept and RETURNS.fullmatch(goal) else goal

    def goes(self, goal: str) -> bool:
        """Returns whether a goal of the whole contract isn't asked in the narrow one."""
        return self.drops and bool(RETURNS.fullmatch(goal)) and not (self.kept and goal.endswith(f"-clause-{self.kept}"))

    def answers(self, text: str, goals: str) -> str:
        """Returns what stays of a file of answers, with holes for the goals that are left open; `goals` is the module of the function's goals."""
        uses, blocks = parts(text)
        kept = reached(blocks, self.record.goal)
        answered = [name for name, lines in blocks.items() if ANSWER.match(lines[0])]
        opened = [it for it in dict.fromkeys((*answered, *self.record.others)) if it not in kept and it != self.record.goal and not self.goes(it)]
        body = "\n\n".join("\n".join(lines) for name, lines in blocks.items() if name in kept)
        body = "\n\n".join([*([body] if body else []), *(f"pub {it} : goal.{it}\n{it} = ?" for it in opened)])
        if self.kept:
            body = re.sub(rf"\b(returns(?:-[^\s`]*?)?)-clause-{self.kept}(?=[\s;,)]|$)", r"\1", body)
        # (a file of the crate's own proofs that isn't used isn't read)
        own = ".".join(goals.split(".")[:3]) + "."
        named = [it for it in uses if own not in it or is_used(it, body)]
        if not any(it.endswith(" as goal") for it in named):
            named.append(f"use {goals} as goal")
        return "\n".join([*named, "", body, ""])


def parts(text: str) -> tuple[list[str], dict[str, list[str]]]:
    """Returns the `use` lines of a file of answers, and the lines of what it declares, by the names."""
    uses: list[str] = []
    blocks: dict[str, list[str]] = {}
    lines: list[str] = []
    for line in text.split("\n"):
        if line.startswith("use "):
            uses.append(line)
        elif declared := DECLARED.match(line):
            lines = blocks.setdefault(declared[1], [])
            lines.append(line)
        elif line.strip() and not line.startswith("--"):
            lines.append(line)
    return uses, blocks


def count_answers(text: str) -> int:
    return sum(bool(ANSWER.match(line)) for line in text.split("\n"))


def pieces(name: str) -> list[str]:
    """Returns the parts of a name between the places of its arguments."""
    return [it for it in name.split("◌") if it] or [name]


def reached(blocks: dict[str, list[str]], name: str) -> set[str]:
    """Returns what a declaration names, and itself, of those that are there."""
    kept, left = set(), [name]
    while left:
        one = left.pop()
        if one in blocks and one not in kept:
            kept.add(one)
            text = "\n".join(blocks[one])
            left += [it for it in blocks if any(part in text for part in pieces(it))]
    return kept


def is_used(use: str, text: str) -> bool:
    """Returns whether a text names something of a `use` line."""
    names = use.rpartition("{")[2].rstrip("}").split(", ") if "{" in use else [use.split()[-1]]
    return any(part in text for it in names for part in pieces(it.split(" as ")[-1]))


def files_below(crate: pathlib.Path, path: list[str]) -> dict[str, int]:
    """Returns the crate's files of proofs that the proof of a function reads, with their lengths."""
    found: dict[str, int] = {}
    left = sorted(crate.joinpath("proofs", *path).glob("*.antt"))
    while left:
        file = left.pop()
        name = str(file.relative_to(crate))
        if name not in found:
            found[name], used = read(crate, file)
            left += used
    return found


@functools.cache
def read(crate: pathlib.Path, file: pathlib.Path) -> tuple[int, list[pathlib.Path]]:
    """Returns the length of a file of proofs, and those of which it uses names."""
    text = file.read_text()
    return len(text), [it for used in USE.findall(text) if (it := file_of(crate, used.split(".")))]


def file_of(crate: pathlib.Path, names: list[str]) -> pathlib.Path | None:
    """Returns the file of proofs of a module, or of the nearest one above it that has one."""
    for count in range(len(names), 0, -1):
        if (file := crate.joinpath("proofs", *names[:count]).with_suffix(".antt")).is_file():
            return file
    return None
