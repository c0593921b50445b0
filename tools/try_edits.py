"""Has the prover refuse the wrong bodies and wrong definitions of the folders `edits`, many in one check.

    python3 tools/try_edits.py [NAME..]                   those of these crates, or of all
    python3 tools/try_edits.py --since COMMIT [NAME..]    those, and of `must-fail`, that have changed since, or whose function or else file has
    python3 tools/try_edits.py --beside FOLDER            beside an `rt ci` here, as .ci/run does
    python3 tools/try_edits.py --write [NAME..]           judges by whole contracts, and writes where edits are refused (`narrowing.py`)
    python3 tools/try_edits.py --kit NAME..               has `rt must-fail` try these crates' in a copy, one after the other

Each edit has one line, and so has each crate, with the processor's seconds; the last line counts them. The tool fails if an edit isn't as it
must be. An edit is `refused` if a goal of a function that it changes isn't proved, and the line names the goal. Those of `harmless-edits`
mean the same as what stands, and must be NOT REFUSED. All else fails: a BAD EDIT can't be made, compiled or read; of ONLY NAMES the names are
gone, so that the text of a proof doesn't fit and no goal was asked; ONLY A LIMIT of the prover was met; and NOT TRIED is what nothing is known
of.

**Edits of bodies.** The proof of a function uses the contracts of those that it calls, and not their bodies, so whether a goal of its own is
proved has nothing to do with any other body. So edits that change nothing but bodies are made together. Of several in one function each but the
first changes a copy of it, which stands behind it under another name, with the same contract and proof files. A constant counts as a part of the
bodies that name it. Only the functions that they change are checked. Of each other function only the contract is used: its proof is a hole,
since `rt ci` proves it as it is, and its body is left out, so that what it calls isn't read; only a trait's function, and one that calls itself,
keep both. A function that only calls what isn't proved has no such goal, and rattle's line of the function tells the two apart.

An edit of one function, of which tools/data/refused_at.txt says at which goal it is refused, changes a copy that is narrowed to that goal, as
`narrowing.py` says, with the reason why that refuses nothing that is right. What isn't refused at that very goal is tried again with the whole
contract; and what isn't refused so is tried once more, by itself, in the function. So a line that is wrong costs time, and turns no verdict.

**Other edits** (a definition, a clause, a type) are tried one by one: the crate, over what a check of it as it stands has proved, must
not be proved. The functions that an edit names in a line `refused by: PATH, PATH`, or else the crate's laws, which are its functions without a
statement, are asked first, and only the contract of all else is used; if they are proved, the whole crate is checked. Of the laws the one that
tools/data/refused_at.txt names is asked before all others, alone.

All of it happens on copies. The libraries below are made by `rt lib`, and a check begins with what `rt check` kept in the folders `out`. With
`--beside` both are from nothing: a crate is tried once that run has built the libraries below it. Then what is as it must be is kept for later
runs on this machine, by the sums of all that it was made from: the edit, the crate, the libraries below, the kit and this tool. If the variable
EDIT_LOGS names a folder, what each check said is written there; EDIT_SECONDS is the most that one may take.
"""
from __future__ import annotations

import argparse
import bisect
import contextlib
import dataclasses
import functools
import hashlib
import itertools
import json
import os
import pathlib
import re
import shutil
import signal
import subprocess
import sys
import tempfile
import threading
import time
from collections.abc import Callable, Iterable, Iterator, Mapping
from concurrent.futures import ThreadPoolExecutor

import narrowing
from narrowing import Narrowing, Record

TOP = pathlib.Path(__file__).resolve().parent.parent
KIT = pathlib.Path(subprocess.run(["rt", "doc"], stdout=subprocess.PIPE, text=True, check=True).stdout.strip()).parent
PARTS = ("src", "specs", "proofs")
REFUSED, MISSED, BAD, NAMES, LIMIT, UNKNOWN = "refused", "NOT REFUSED", "BAD EDIT", "ONLY NAMES", "ONLY A LIMIT", "NOT TRIED"
HARMLESS = "harmless-edits"
FOLDERS = ("edits", HARMLESS)
PROCESSORS = int(os.environ.get("RT_JOBS") or min(4, len(os.sched_getaffinity(0))))
# A check that hasn't ended after so many seconds is ended.
MOST_SECONDS = int(os.environ.get("EDIT_SECONDS", "3600"))
# What is asked now and then while `rt ci` goes on beside: whether a processor is idle, and whether so many bytes are free for one check more.
SECONDS_BETWEEN, LEAST_FREE = 4, 6 << 30
# So much is printed of an error.
MOST_LETTERS = 200
KEPT = pathlib.Path(os.environ.get("XDG_CACHE_HOME") or pathlib.Path.home() / ".cache", "ipcz-edits")


# ---- Crates ----


def read_crates() -> dict[str, list[str]]:
    """Returns the libraries that crates.txt lists of each crate."""
    lines = (line.partition("#")[0].partition(":") for line in (TOP / "crates.txt").read_text().split("\n"))
    return {name.split()[0]: used.split() for name, colon, used in lines if colon}


USED = read_crates()


def below(name: str) -> list[str]:
    """Returns the repository's libraries below a crate, each after those that it uses."""
    return list(dict.fromkeys(it for used in USED[name] if used in USED for it in (*below(used), used)))


def library(name: str) -> pathlib.Path:
    return TOP / "crates" / name / "out" / "rlib"


class Beside:
    """An `rt ci` that goes on beside: the folder has `begun`, made before it, its `log`, and `ended` once it has ended."""

    def __init__(self, folder: pathlib.Path) -> None:
        self.folder, self.begun = folder, (folder / "begun").stat().st_mtime

    def has_ended(self) -> bool:
        return (self.folder / "ended").exists()

    def awaits(self, name: str) -> bool:
        """Waits for the libraries below a crate, and returns whether the run has built them."""
        while True:
            has_ended = self.has_ended()
            built = re.findall(r"^rt: (\w+) (?:proved$|is kept: )", (self.folder / "log").read_text(errors="replace"), re.M)
            if set(built).issuperset(below(name)):
                return True
            if has_ended:
                return False
            time.sleep(2)

    def are_its_own(self, name: str) -> bool:
        """Returns whether the libraries that stand below a crate are this run's: at its end `rt ci` puts back what it found, which is older."""
        return all(library(it).is_dir() and library(it).stat().st_mtime >= self.begun for it in below(name))


def make_libraries(names: Iterable[str]) -> None:
    for name in dict.fromkeys(it for name in names for it in below(name)):
        done = subprocess.run(["rt", "lib", "--jobs", "1"], cwd=TOP / "crates" / name, stdout=subprocess.PIPE, stderr=subprocess.STDOUT, text=True)
        if done.returncode:
            sys.exit(f"{done.stdout}\ntry_edits: the library {name} isn't proved, so nothing was tried")


# ---- Functions ----

HEAD = re.compile(r"([ \t]*)(?:pub(?:\([^)]*\))? )?(?:const |unsafe |extern \"C\" )*fn (\w+)")
IMPL = re.compile(r"(?:unsafe )?impl\b(?:<.*?>)? (?:(?P<of>[\w:]+)(?:<(?P<with>.*)>)? for )?(?:[\w:]+::)?(?P<type>\w+|\(\))(?:<.*>)?(?: where .*)? \{")
CONSTANT = re.compile(r"(?:pub(?:\([^)]*\))? )?const (\w+): ")
TYPE = re.compile(r"^(?:pub(?:\([^)]*\))? )?(?:struct|enum) (\w+)", re.M)


def module_of(file: str | pathlib.Path) -> list[str]:
    return [it for it in pathlib.Path(file).with_suffix("").parts[1:] if it not in ("lib", "main", "mod")]


@functools.lru_cache(maxsize=None)
def modules_of(crate: pathlib.Path, name: str) -> list[list[str]]:
    """Returns the modules in which a crate declares a type of the name."""
    files = sorted((crate / "src").glob("**/*.rt"))
    return [module_of(it.relative_to(crate)) for it in files if name in TYPE.findall(it.read_text())]


@dataclasses.dataclass(frozen=True)
class Function:
    """A function with a body: where it stands, rattle's name of it, if that is clear from the text, the line of its head, and those of its body's
    braces."""

    file: str
    owner: tuple[str, str] | None
    short: str
    name: str | None = dataclasses.field(compare=False)
    head: int = dataclasses.field(compare=False)
    begin: int = dataclasses.field(compare=False)
    end: int = dataclasses.field(compare=False)


def body(lines: list[str], at: int, indent: str) -> tuple[int, int] | None:
    """Returns the lines of the braces of the body of the function whose head is there, or none if it has no body."""
    for begin in range(at, len(lines)):
        line, is_last_of_head = lines[begin], begin == at or lines[begin].startswith(indent + ")")
        if line == indent + "{" or line.endswith(" {") and is_last_of_head:
            return next(((begin, end) for end in range(begin + 1, len(lines)) if lines[end] == indent + "}"), None)
        if line == indent + "{}" or line.endswith(" {}") and is_last_of_head:
            return begin, begin
        if line.endswith(";") and not line.startswith(indent + " "):
            return None
    return None


def functions_in(crate: pathlib.Path, file: str, text: str) -> list[Function]:
    """Returns the functions of a file that `rt fmt` has laid out."""
    lines, owner, found = text.split("\n"), None, []
    for at, line in enumerate(lines):
        if it := IMPL.match(line):
            owner = it["type"].replace("()", "Unit"), (it["of"] or "").split("::")[-1] + (it["with"] or "")
        elif line == "}":
            owner = None
        elif (it := HEAD.match(line)) and bool(it[1]) == bool(owner) and (braces := body(lines, at, it[1])):
            modules, inner = [module_of(file)], ()
            if owner:
                # (what a trait has for a type stands in the module of its file, and what a type has by itself in the type's)
                modules, inner = (not owner[1] and modules_of(crate, owner[0])) or modules, ("".join(owner),)
            name = "::".join((crate.name, *modules[0], *inner, it[2]))
            # (what rattle makes of a trait with other parameters than one name isn't clear from the text)
            name = name if len(modules) == 1 and re.fullmatch(r"[\w:]+", name) else None
            found.append(Function(file, owner, it[2], name, at, *braces))
    return found


def functions_of(crate: pathlib.Path) -> list[Function]:
    files = [str(it.relative_to(crate)) for it in sorted((crate / "src").glob("**/*.rt"))]
    return [it for file in files for it in functions_in(crate, file, (crate / file).read_text())]


def function_round(crate: pathlib.Path, file: str, text: str, place: int, length: int) -> Function | None:
    """Returns the function in whose body a text stands whole, or none."""
    begins = list(itertools.accumulate((len(line) + 1 for line in text.split("\n")), initial=0))
    first, last = (bisect.bisect_right(begins, it) - 1 for it in (place, place + length - 1))
    return next((it for it in functions_in(crate, file, text) if it.begin < first and last < it.end), None)


def users_of(crate: pathlib.Path, text: str, place: int) -> set[Function | None]:
    """Returns the functions whose bodies name the constant that is declared in the line of a place; none if there is no such thing."""
    declared = CONSTANT.match(text[text.rfind("\n", 0, place) + 1 :])
    if not declared:
        return {None}
    lines = {file: (crate / file).read_text().split("\n") for file in {it.file for it in functions_of(crate)}}
    name = re.compile(rf"\b{declared[1]}\b")
    return {it for it in functions_of(crate) if name.search("\n".join(lines[it.file][it.begin : it.end + 1]))} or {None}


def text_of(crate: pathlib.Path, file: str, text: str, function: Function) -> list[str] | None:
    """Returns the lines of a function, from behind the body before it on."""
    last = 0
    for it in functions_in(crate, file, text):
        if it == function:
            return text.split("\n")[last : it.end + 1]
        last = it.end + 1
    return None


# ---- Edits ----


def changes(text: str) -> Iterator[tuple[str | None, str | None, str]]:
    """Yields the file, the old text and the new one of each change of an edit."""
    file = old = None
    for line in text.split("\n"):
        if line.startswith("file: "):
            file = line.removeprefix("file: ").strip()
        elif line.startswith("old: "):
            old = line.removeprefix("old: ")
        elif line.startswith("new:"):
            yield file, old, line.removeprefix("new:").removeprefix(" ")
            old = None


REFUSER = re.compile(r"^refused by: (.*)$", re.M)


class Edit:
    """The lines that an edit changes, what keeps it from being made, the functions whose bodies it changes, if it changes nothing else, and
    those of which it says that they refuse it."""

    def __init__(self, crate: pathlib.Path, path: pathlib.Path) -> None:
        self.crate, self.path, self.name, self.is_harmless = crate, path, f"{crate.name}/{path.stem}", path.parent.name == HARMLESS
        self.lines: dict[str, dict[int, str]] = {}
        self.functions: frozenset[Function] = frozenset()
        texts: dict[str, str] = {}
        rounds: set[Function | None] = set()
        self.fault = self.apply(crate, texts, rounds) if path.suffix == ".edit" else "its name doesn't end in .edit"
        for file, text in texts.items():
            was = (crate / file).read_text().split("\n")
            self.lines[file] = {at: line for at, line in enumerate(text.split("\n")) if line != was[at]}
        if not self.fault and not any(self.lines.values()):
            self.fault = "it changes nothing"
        if not self.fault and all(it and it.name for it in rounds):
            self.functions = frozenset(rounds)
        self.refusers = self.named(crate) if not self.fault else frozenset()

    def named(self, crate: pathlib.Path) -> frozenset[Function]:
        """Returns the functions that the edit names. To name one that isn't there, or to name any if it changes only bodies, is a fault."""
        names = {f"{crate.name}::{it.strip()}" for found in REFUSER.findall(self.path.read_text()) for it in found.split(",")}
        found = frozenset(it for it in functions_of(crate) if it.name in names) if names else frozenset()
        if lost := names - {it.name for it in found}:
            self.fault = f"there is no function {min(lost)}"
        elif names and self.functions:
            self.fault = "it changes bodies alone, which their own functions refuse"
        return found

    def apply(self, crate: pathlib.Path, texts: dict[str, str], rounds: set[Function | None]) -> str | None:
        """Makes the changes in texts, notes what functions they stand in, and returns what keeps it from that."""
        for file, old, new in changes(self.path.read_text()):
            if not file or not old or file.split("/")[0] not in PARTS or not (crate / file).is_file():
                return f"there is no file {file}, or no old text"
            text = texts.setdefault(file, (crate / file).read_text())
            if text.count(old) != 1:
                return f"{file} has {text.count(old)} times: {old}"
            # (a change leaves the number of lines as it is, so the bodies stand where they stood)
            place = text.index(old)
            found = function_round(crate, file, text, place, len(old)) if file.startswith("src/") else None
            rounds.update({found} if found or not file.startswith("src/") else users_of(crate, text, place))
            texts[file] = text.replace(old, new)
        return None

    def has_changed(self, crate: pathlib.Path, commit: str) -> bool:
        """Returns whether the edit, or what it changes, isn't what it was at a commit."""
        paths = [str(it.relative_to(TOP)) for it in (self.path, *(crate / file for file in self.lines))]
        told = subprocess.run(["git", "diff", "--name-only", commit, "--", *paths], cwd=TOP, stdout=subprocess.PIPE, text=True, check=True)
        files = told.stdout.split()
        is_new = subprocess.run(["git", "cat-file", "-e", f"{commit}:{paths[0]}"], cwd=TOP, stderr=subprocess.DEVNULL).returncode != 0
        if self.fault or is_new or paths[0] in files or not self.functions:
            return bool(self.fault or is_new or files)
        for it in self.functions:
            path = str((crate / it.file).relative_to(TOP))
            shown = subprocess.run(["git", "show", f"{commit}:{path}"], cwd=TOP, stdout=subprocess.PIPE, stderr=subprocess.DEVNULL, text=True)
            now, then = ((crate / it.file).read_text(), shown.stdout) if path in files else ("", "")
            if text_of(crate, it.file, now, it) != text_of(crate, it.file, then, it):
                return True
        return False

    def is_within(self) -> bool:
        """Returns whether all its lines stand within the functions that it changes, and none declares a constant."""
        return all(any(it.file == file and it.begin < at < it.end for it in self.functions) for file, found in self.lines.items() for at in found)


def has_copies(crate: pathlib.Path, function: Function) -> bool:
    """Returns whether copies of a function may stand beside it: not of a trait's, of one that calls itself, or of one with a proof of its own."""
    folder = crate.joinpath("proofs", *function.name.split("::")[1:])
    return not (function.owner and function.owner[1] or (folder.parent / f"+{function.short}").exists() or (folder / "Proof.antt").exists())


def may_be_narrowed(crate: pathlib.Path, edit: Edit) -> bool:
    return len(edit.functions) == 1 and edit.is_within() and all(has_copies(crate, it) for it in edit.functions)


def parted(crate: pathlib.Path, edits: Iterable[Edit]) -> list[list[Edit]]:
    """Parts edits of bodies so that of those in one batch that change the same function each but the first can change a copy of it."""

    def stands_beside(edit: Edit, batch: list[Edit]) -> bool:
        same = [it for it in batch if it.functions & edit.functions]
        # (a constant that one changes is changed for the copies, too)
        return not same or all(it.is_within() for it in (edit, *same)) and all(has_copies(crate, it) for it in edit.functions)

    batches: list[list[Edit]] = []
    for edit in edits:
        batch = next((it for it in batches if stands_beside(edit, it)), None)
        if batch is None:
            batches.append(batch := [])
        batch.append(edit)
    return batches


# ---- Rooms ----

COPY = re.compile(r"_edit\d+\b")


class Room:
    """A copy of a crate in which edits are made: which functions of the copy each of them changes, where the lines of its files come from, and to what
    the functions are narrowed, of those edits for which there is a record."""

    def __init__(self, crate: pathlib.Path, folder: pathlib.Path, edits: list[Edit], records: Mapping[str, Record] | None = None) -> None:
        self.crate, self.folder = crate, folder
        self.narrowed = {it: self.narrowing(it, records[it.name]) for it in edits if records and it.name in records and may_be_narrowed(crate, it)}
        self.changed: dict[Edit, frozenset[Function]] = {}
        self.lines: dict[str, list[tuple[int, str]]] = {}
        folder.mkdir(parents=True)
        for part in PARTS:
            if (crate / part).is_dir():
                shutil.copytree(crate / part, folder / part)
        seen: set[Function] = set()
        aside = []
        for edit in edits:
            if edit.functions & seen or edit in self.narrowed:
                aside.append(edit)
            else:
                seen |= edit.functions
                self.changed[edit] = edit.functions
                self.change(edit)
        copies = [(function, edit, f"{function.short}_edit{at}") for at, edit in enumerate(aside) for function in edit.functions]
        # (from the last on, so that what stands above stays where it was)
        for function, edit, name in sorted(copies, key=lambda it: -it[0].end):
            self.add_copy(function, edit, name)
        for file, lines in self.lines.items():
            (folder / file).write_text("\n".join(line for _, line in lines))
        for edit in aside:
            names = {(it.file, it.owner, name) for it, of, name in copies if of is edit}
            self.changed[edit] = frozenset(it for file in edit.lines for it in self.functions_in(file) if (it.file, it.owner, it.short) in names)

    def narrowing(self, edit: Edit, record: Record) -> Narrowing:
        (function,) = edit.functions
        return Narrowing((self.crate / function.file).read_text().split("\n")[function.head + 1 : function.begin], record)

    def lines_of(self, file: str) -> list[tuple[int, str]]:
        return self.lines.setdefault(file, list(enumerate((self.crate / file).read_text().split("\n"))))

    def change(self, edit: Edit) -> None:
        for file, found in edit.lines.items():
            lines = self.lines_of(file)
            for at, line in found.items():
                lines[at] = at, line

    def add_copy(self, function: Function, edit: Edit, name: str) -> None:
        """Adds a copy of a function behind it, as an edit changes it, with its attributes and its files of proofs."""
        text = (self.crate / function.file).read_text().split("\n")
        first = function.head
        while first and text[first - 1].strip() and not text[first - 1].endswith(("{", "}", ";")):
            first -= 1
        found = edit.lines.get(function.file, {})
        copy = [(at, found.get(at, text[at])) for at in range(first, function.end + 1)]
        at, head = copy[function.head - first]
        copy[function.head - first] = at, head.replace(f"fn {function.short}", f"fn {name}", 1)
        if narrow := self.narrowed.get(edit):
            begin, end = function.head - first + 1, function.begin - first
            copy[begin:end] = [(at, line) for (at, _), line in zip(copy[begin:end], narrow.head([line for _, line in copy[begin:end]]))]
        self.lines_of(function.file)[function.end + 1 : function.end + 1] = copy
        self.add_proofs(function.name.split("::")[1:], name, narrow)

    def add_proofs(self, path: list[str], name: str, narrow: Narrowing | None) -> None:
        """Adds a copy of a function's files of proofs under another name, narrowed if need be."""
        folder, renamed = self.folder.joinpath("proofs", *path), ".".join((*path[:-1], name))
        if folder.is_dir():
            to = shutil.copytree(folder, folder.with_name(name))
            was = re.compile(rf"\.{re.escape('.'.join(path))}(?=\.)")
            for it in to.glob("**/*.antt"):
                it.write_text(was.sub("." + renamed, it.read_text()))
        answers = folder.with_name(name) / "Answers.antt"
        if narrow and (answers.is_file() or narrow.record.others):
            answers.parent.mkdir(parents=True, exist_ok=True)
            text = answers.read_text() if answers.is_file() else ""
            answers.write_text(narrow.answers(text, f"Rattle.{self.crate.name}.proofs.{renamed}.Goals"))

    def empty(self, functions: set[Function]) -> None:
        """Puts a loop without end in place of the bodies of functions. One that makes a constant, or whose body tells the type of its result, keeps it."""
        for file in {it.file for it in functions}:
            lines = (self.folder / file).read_text().split("\n")
            for it in self.functions_in(file):
                head = "\n".join(lines[it.head : it.begin + 1])
                if it in functions and it.end > it.begin + 1 and not re.search(r"const fn|-> impl\b", head):
                    lines[it.begin + 1 : it.end] = ["loop {}", *[""] * (it.end - it.begin - 2)]
            (self.folder / file).write_text("\n".join(lines))

    def functions_in(self, file: str) -> list[Function]:
        lines = self.lines.get(file)
        text = (self.crate / file).read_text() if lines is None else "\n".join(line for _, line in lines)
        return functions_in(self.crate, file, text)

    def original(self, file: str, line: int) -> int:
        """Returns which line of the crate's file a line of the copy is, both counted from 1."""
        return self.lines[file][line - 1][0] + 1 if file in self.lines else line

    def remove(self) -> None:
        shutil.rmtree(self.folder, ignore_errors=True)


# ---- Checks ----

FUNCTION = re.compile(r"^fn (\S+): (.*)$", re.M)
# What rattle says of a function: a goal of its own isn't proved, or it is proved but for the holes.
OPEN = re.compile(r"^no proof: .*? did not prove `[^`]+`")
WELL = re.compile(r"^(?:proved|no holes|depends on a hole)\b")
NOTE = re.compile(r"^note: (src/\S+?):(\d+):\d+: (it is not proved [^;\n]*)(.*)$", re.M)
# Its name, and what is said of one that `search` didn't end with, which took it long.
GOAL = re.compile(r"\(`([^`]+)`\)$")
GAVE_UP = "gave up at one of its limits"
# A function isn't narrowed for so few clauses or answers that go, if nothing else of it is unproved.
LITTLE = 2
# An error in the answers of a function, at a goal or a lemma; and what says only that a name is gone.
ANSWER = re.compile(r"^(?:\./)?proofs/(\S+)/(?:Answers|Invariants|Proof)\.antt:\d+:\d+: error: (`[^`]+`: .*)$", re.M)
GONE = re.compile(r"has no field|record `[^`]+` \(nearest: |is not in scope|has no `|is no constructor of|write one of its constructors|(?:was|is) not admitted")
# An error or an unproved goal anywhere.
PLACED = re.compile(r"^(?:note: (?=.*: it is not proved ))?(?:\./)?((?:src|specs|proofs)/\S+?):(\d+):\d+: ((?:error: |it is not proved ).*)$", re.M)
UNREAD = re.compile(r"is not in scope|has no field|is no name|operand is missing|expected the end|cannot continue")
LIMITS = re.compile(r"antt ran out of (?:stack|the (?:steps|memory) that the check of one declaration may (?:take|use))|(?:outgrew the memory limit|stopped at the step limit) \(")
# What can't be taken by its contract, for instance one of several functions that call each other and have one proof.
RESERVED = re.compile(r"^\./proofs/(\S+)/Proof\.antt: error\[reserved-name\]", re.M)


class Said:
    """What a check of a crate with some edits said."""

    def __init__(self, room: Room, status: int, text: str, is_late: bool) -> None:
        self.room, self.status, self.text, self.is_late = room, status, text, is_late
        self.last = text.strip().rpartition("\n")[2]
        self.is_proved = status == 0 and self.last.startswith("logic=proved")
        # (with any other last line rattle has judged nothing)
        self.is_judged = status in (0, 1) and self.last.startswith(("logic=not-proved", "only="))
        self.functions = dict(FUNCTION.findall(text))
        self.placed = PLACED.findall(text)

    def open_goal(self, edit: Edit) -> str | None:
        """Returns the first unproved goal of a function's own, of those that the edit changes, or none."""
        for function in self.room.changed[edit]:
            # (its closures have lines of their own)
            for name in [it for it in self.functions if it == function.name or "::fn::" in it and it.replace("::fn::", "::").startswith(f"{function.name}::")]:
                if own := OPEN.match(self.functions[name]):
                    return self.noted(function) or own[0]
                if self.functions[name].startswith("not proved") and (found := [it for it in self.answered(name) if not GONE.search(it)]):
                    return found[0]
        return None

    def noted(self, function: Function) -> str | None:
        """Returns the first unproved goal that is placed in the function."""
        return next((where for where, _ in self.notes(function).values()), None)

    def notes(self, function: Function) -> dict[str, tuple[str, bool]]:
        """Returns the unproved goals that are placed in the function, by their names: each with its place, and whether the search gave up."""
        return self.all_notes.get(function, {})

    @functools.cached_property
    def all_notes(self) -> dict[Function, dict[str, tuple[str, bool]]]:
        found: dict[Function, dict[str, tuple[str, bool]]] = {}
        files: dict[str, list[Function]] = {}
        for file, line, what, more in NOTE.findall(self.text):
            functions = files[file] = files.get(file) or self.room.functions_in(file)
            if near := next((it for it in functions if int(line) <= it.end + 1), None):
                goal = GOAL.search(what)
                where = f"{file}:{self.room.original(file, int(line))}: {what}"
                found.setdefault(near, {}).setdefault(goal[1] if goal else what, (where, GAVE_UP in more))
        return found

    def answers(self, function: Function) -> dict[str, str]:
        """Returns what is refused among the function's answers, by the names, but for what says only that a name is gone."""
        found = [it for it in self.answered(function.name) if not GONE.search(it)]
        return {it.split("`")[1]: it for it in found}

    def is_open(self, function: Function) -> bool:
        said = self.functions.get(function.name, "")
        return bool(OPEN.match(said)) or said.startswith("not proved")

    def narrow_goal(self, edit: Edit) -> str | None:
        """Returns the goal to which the function is narrowed, if it isn't proved, or none."""
        (function,), narrow = self.room.changed[edit], self.room.narrowed[edit]
        if not self.is_judged or not self.is_open(function):
            return None
        found = {**{name: where for name, (where, _) in self.notes(function).items()}, **self.answers(function)}
        goal = narrow.name(narrow.record.goal)
        return found[goal].replace(f"`{goal}`", f"`{narrow.record.goal}`") if goal in found else None

    def record(self, edit: Edit) -> Record | None:
        """Returns at which goal the whole contract refuses an edit soonest, if to narrow the function to it saves something: at one that `search` leaves
        open, if it leaves one and no answer is refused, or else at an answer, as in `open_goal`."""
        (function,) = self.room.changed[edit]
        notes = self.notes(function)
        # (a search that ends by itself ends soon, and to a goal of no clause no clause is kept)
        goals = sorted(notes, key=lambda it: (notes[it][1], it.startswith("returns")))
        is_left = OPEN.match(self.functions.get(function.name, ""))
        if not self.is_open(function) or not (found := goals if is_left else [*self.answers(function)]):
            return None
        narrow = self.room.narrowing(edit, Record(found[0]))
        others = tuple(it for it in goals if it != found[0] and not narrow.goes(it))
        answers = self.room.crate.joinpath("proofs", *next(iter(edit.functions)).name.split("::")[1:], "Answers.antt")
        count = narrowing.count_answers(answers.read_text()) if answers.is_file() else 0
        is_dear = len({*goals, *self.answers(function)}) > 1 or max(narrow.count_dropped(), count) > LITTLE
        return Record(found[0], others) if is_dear else None

    def answered(self, name: str) -> list[str]:
        """Returns the errors among the function's answers, each whole, since what says that a name is gone may come late."""
        path = "/".join(name.split("::")[1:])
        # (the answers of a function that calls itself stand under its name with a plus)
        return [f"proofs/{where}: {what}" for where, what in ANSWER.findall(self.text) if where.replace("+", "") == path]

    def refuser(self, asked: Iterable[Function]) -> str | None:
        """Returns the function that refuses an edit of a definition and whose proof reads least, of those that were asked."""
        wrong = {file for file, _, what in self.placed if not GONE.search(what)}
        read = {}
        for it in asked:
            path = it.name.split("::")[1:]
            files = narrowing.files_below(self.room.crate, path)
            if not WELL.match(self.functions.get(it.name, "")) and wrong & set(files):
                read["::".join(path)] = sum(files.values())
        return min(read, key=lambda it: read[it], default=None)

    def verdict(self, edit: Edit) -> tuple[str, str]:
        """Returns what an edit comes to that was tried by itself, and why."""
        if self.is_proved:
            return MISSED, "the crate is proved with it"
        if self.is_judged:
            return self.of_bodies(edit) if edit.functions else self.of_others()
        if self.is_late:
            return UNKNOWN, f"its check had not ended after {MOST_SECONDS} seconds"
        if self.status == 3 and (limit := LIMITS.search(self.text)):
            return LIMIT, f"{limit[0]}: choose a change that it refuses sooner"
        if self.status == 1 and (found := re.search(r"^.*\berror\[[\w-]+\].*$", self.text, re.M)):
            return BAD, f"it doesn't reach the prover: {found[0]}"
        return UNKNOWN, f"its check ended with status {self.status}: {self.last}"

    def of_bodies(self, edit: Edit) -> tuple[str, str]:
        told = {it.name: self.functions.get(it.name, "nothing is told of it") for it in self.room.changed[edit]}
        if goal := self.open_goal(edit):
            return REFUSED, goal
        if all(WELL.match(it) for it in told.values()):
            return MISSED, "each goal of the functions that it changes is proved"
        if lost := [it for name in told for it in self.answered(name)]:
            return NAMES, f"change a value and keep the names, so that a goal is asked: {lost[0]}"
        return UNKNOWN, "; ".join(f"{name}: {it}" for name, it in told.items())

    def of_others(self) -> tuple[str, str]:
        asked = [it for it in self.placed if re.match(r"error: `[^`]+`: |it is not proved ", it[2])]
        texts = [it for it in self.placed if it[0].startswith(("src/", "specs/"))]
        unread = [it for it in texts if it not in asked or UNREAD.search(re.sub(r"`[^`]*`", "", it[2]))]
        for what, found in (BAD, unread), (REFUSED, [it for it in asked if not GONE.search(it[2])]), (NAMES, self.placed):
            if found and self.status:
                return what, "{}:{}: {}".format(*found[0])
        return UNKNOWN, self.last


def words(name: str, *flags: str) -> list[str]:
    """Returns the command by which a crate is checked, as `rt` does it."""
    root = "src/main.rt" if (TOP / "crates" / name / "src/main.rt").is_file() else "src/lib.rt"
    found = [f"{KIT}/bin/rattle", "check", "--crate-name", name, root]
    for it in dict.fromkeys(("std", *(it for it in USED[name] if it not in USED))):
        found += ["--extern", f"{it}={KIT}/rlibs/{it}.rlib"]
    found += ["-L", f"dependency={KIT}/rlibs"]
    for it in USED[name]:
        if it in USED:
            found += ["--extern", f"{it}={library(it)}/{it}.rlib"]
    for it in below(name):
        found += ["-L", f"dependency={library(it)}"]
    found += ["--antt-project", f"{KIT}/rattle/logic/antt-project.json", "--logic-built", f"{KIT}/logic_built"]
    return [*found, "--links", f"{name}=", "--jobs", "1", *flags]


RUNNING: set[subprocess.Popen] = set()
STARTING = threading.Lock()


def idle_seconds() -> float:
    """Returns for how long this tool's processors had nothing to do, all added up, since the machine was started."""
    of = {f"cpu{it}" for it in os.sched_getaffinity(0)}
    rows = [line.split() for line in pathlib.Path("/proc/stat").read_text().split("\n") if line.startswith("cpu")]
    return sum(int(row[4]) + int(row[5]) for row in rows if row[0] in of) / os.sysconf("SC_CLK_TCK")


def free_bytes() -> int:
    return 1024 * int(re.search(r"^MemAvailable: *(\d+)", pathlib.Path("/proc/meminfo").read_text(), re.M)[1])


def lend(turns: threading.Semaphore, most: int, is_over: Callable[[], bool]) -> None:
    """Lets one check more run for each processor that has nothing to do, and one less once none is idle; in the end as many more as may be."""
    lent, was = 0, idle_seconds()
    while not is_over():
        time.sleep(SECONDS_BETWEEN)
        now = idle_seconds()
        idle, was = (now - was) / SECONDS_BETWEEN, now
        if idle > 0.8 and lent < most and free_bytes() > LEAST_FREE:
            turns.release()
            lent += 1
        elif idle < 0.1 and lent and turns.acquire(blocking=False):
            lent -= 1
    for _ in range(most - lent):
        turns.release()


def end_all(room: str) -> None:
    """Ends this tool with all that it has started."""
    with STARTING:
        for it in RUNNING:
            with contextlib.suppress(ProcessLookupError):
                os.killpg(it.pid, signal.SIGKILL)
        shutil.rmtree(room, ignore_errors=True)
        os._exit(1)


def ran(command: list[str], room: pathlib.Path) -> tuple[int, str, bool, float]:
    """Returns a command's status, what it said, whether it took too long, and the seconds of a processor that it took."""
    with STARTING:
        # (a group, to be ended whole, but no session of its own: to a session a kernel may give as much as to all that `rt ci` has running)
        it = subprocess.Popen(command, cwd=room, stdin=subprocess.DEVNULL, stdout=subprocess.PIPE, stderr=subprocess.STDOUT, process_group=0)
        RUNNING.add(it)
    late = threading.Event()

    def end() -> None:
        late.set()
        with contextlib.suppress(ProcessLookupError):
            os.killpg(it.pid, signal.SIGKILL)

    timer = threading.Timer(MOST_SECONDS, end)
    timer.start()
    text = it.stdout.read().decode(errors="replace")
    _, status, used = os.wait4(it.pid, 0)
    timer.cancel()
    with STARTING:
        RUNNING.discard(it)
    it.stdout.close()
    it.returncode = os.waitstatus_to_exitcode(status)
    return it.returncode, text, late.is_set(), used.ru_utime + used.ru_stime


def linked(folder: pathlib.Path, to: pathlib.Path) -> None:
    """Copies what checks kept, by links if these can be made: a check replaces such a file, and writes into none."""

    def copy(one: str, other: str) -> object:
        if one.endswith(".oantt"):
            with contextlib.suppress(OSError):
                return os.link(one, other)
        return shutil.copy2(one, other)

    shutil.copytree(folder, to, symlinks=True, copy_function=copy)


def sum_of(*folders: pathlib.Path) -> str:
    """Returns a sum of all files of some folders."""
    found = hashlib.sha256()
    for folder in folders:
        for path in sorted(it for it in folder.glob("**/*") if it.is_file()):
            found.update(f"{path.relative_to(folder)} {hashlib.sha256(path.read_bytes()).hexdigest()}\n".encode())
    return found.hexdigest()


@functools.lru_cache(maxsize=None)
def sum_of_library(name: str) -> str:
    return sum_of(library(name))


def sum_below(crate: pathlib.Path) -> str:
    """Returns a sum of what the verdict on an edit of the crate stands on but the edit: its text, the libraries below, the kit and this tool."""
    own = [hashlib.sha256(it.read_bytes()).hexdigest() for it in (KIT / "KIT-ID", KIT / "WHAT", pathlib.Path(__file__), pathlib.Path(narrowing.__file__))]
    return " ".join((*own, crate.name, *USED[crate.name], *map(sum_of_library, below(crate.name)), *(sum_of(crate / it) for it in PARTS)))


# ---- Trials ----


class Trial:
    """The edits of one crate."""

    def __init__(self, name: str, folders: Iterable[str], room: str | pathlib.Path, turns: threading.Semaphore, beside: Beside | None) -> None:
        self.crate, self.room, self.turns, self.beside = TOP / "crates" / name, pathlib.Path(room, name), turns, beside
        self.all = functions_of(self.crate)
        self.laws = frozenset(it for it in self.all if it.name and not it.owner and it.begin == it.end)
        # (harmless ones first, so that they stand in the largest batch)
        self.edits = [Edit(self.crate, it) for folder in sorted(folders, key=lambda it: it != HARMLESS) for it in sorted((self.crate / folder).glob("*"))]
        self.verdicts: dict[Edit, tuple[str, str]] = {}
        self.closed: set[str] = set()
        self.seconds, self.earlier, self.sum = 0.0, 0, ""
        self.lock, self.numbers = threading.Lock(), itertools.count()
        self.records: dict[str, Record] = {}
        self.found: dict[str, Record] = {}
        self.is_written = False

    def failed(self) -> list[Edit]:
        return [it for it in self.edits if self.verdicts.get(it, (UNKNOWN,))[0] != (MISSED if it.is_harmless else REFUSED)]

    def place(self, edit: Edit) -> pathlib.Path:
        return KEPT / hashlib.sha256(f"{self.sum} {edit.is_harmless} {edit.path.read_text()}".encode()).hexdigest()

    def is_known(self, edit: Edit) -> bool:
        """Tells what an earlier run came to, if there was one, and returns whether there was."""
        with contextlib.suppress(OSError, ValueError):
            what, why = json.loads(self.place(edit).read_text())
            self.tell(edit, what, why)
            self.earlier += 1
            return True
        return False

    def tell(self, edit: Edit, what: str, why: str) -> None:
        why = COPY.sub("", why)
        with self.lock:
            self.verdicts[edit] = what, why
            print(f"{edit.name}: {what}: {why[:MOST_LETTERS]}", flush=True)
            # (it is kept if nothing that it was made from has changed meanwhile)
            if self.beside and edit not in self.failed() and self.sum == sum_below(self.crate) and self.beside.are_its_own(self.crate.name):
                with contextlib.suppress(OSError):
                    KEPT.mkdir(mode=0o700, parents=True, exist_ok=True)
                    new = KEPT / f"new-{os.getpid()}-{self.crate.name}"
                    new.write_text(json.dumps(self.verdicts[edit]))
                    new.replace(self.place(edit))

    def next_room(self, name: str) -> pathlib.Path:
        return self.room / f"{name}{next(self.numbers)}"

    def check(self, edits: list[Edit], over: pathlib.Path, asked: frozenset[Function] = frozenset(), is_narrow: bool = False) -> Said:
        """Checks a copy of the crate with these edits, over what the folder holds: whole, or only the functions that are asked for, or whose bodies are
        changed, with each other taken by its contract."""
        room = Room(self.crate, self.next_room("copy"), edits, self.records if is_narrow else None)
        flags = ["--incremental", str(over)]
        if changed := frozenset().union(*room.changed.values()):
            asked = changed
        if asked:
            self.leave_open(room, asked)
            flags += ["--allow-holes", *(word for it in sorted(it.name for it in asked) for word in ("--only", it.partition("::")[2]))]
        for is_last in (False, True):
            with self.turns:
                status, text, is_late, seconds = ran(words(self.crate.name, *flags), room.folder)
            with self.lock:
                self.seconds += seconds
            # (killed, most likely for memory: once more)
            if status != -signal.SIGKILL or is_late or is_last:
                break
        if "EDIT_LOGS" in os.environ:
            told = f"{seconds:.1f} s of a processor\n" + "".join(f"{it.name}\n" for it in edits) + f"\n{text}"
            pathlib.Path(os.environ["EDIT_LOGS"], f"{self.crate.name}.{room.folder.name}").write_text(told)
        room.remove()
        closed = {"::".join((self.crate.name, *it.split("/"))) for it in RESERVED.findall(text)} - self.closed
        if asked and closed:
            self.closed |= closed
            return self.check(edits, over, asked, is_narrow)
        return Said(room, status, text, is_late)

    def leave_open(self, room: Room, asked: frozenset[Function]) -> None:
        """Writes a hole as the proof of each function but those asked for, and empties its body, so that what it calls isn't read either. A trait's
        and one that calls itself keep their own bodies and proofs."""
        left = set()
        for it in self.all:
            if it in asked or not it.name or it.name in self.closed or it.owner and it.owner[1] or "tests" in it.file or it.short == "main":
                continue
            path = it.name.split("::")[1:]
            folder = room.folder.joinpath("proofs", *path)
            inside = "\n".join((self.crate / it.file).read_text().split("\n")[it.begin + 1 : it.end])
            if re.search(rf"\b{it.short}\(", inside) or (folder.parent / f"+{it.short}").exists():
                continue
            shutil.rmtree(folder, ignore_errors=True)
            folder.mkdir(parents=True)
            stated = ".".join(("Rattle", self.crate.name, "proofs", *path, "Statement"))
            text = f"use {stated} as stated\n\npub {it.short}_spec : {{M : Type 1}} → stated.statement M\n{it.short}_spec = ?\n"
            (folder / "Proof.antt").write_text(text)
            left.add(it)
        room.empty(left)

    def together(self, edits: list[Edit], over: pathlib.Path, is_narrow: bool = True) -> None:
        """Tries edits of bodies in one check, those with a record narrowly. What isn't refused so is tried once more, with the whole contract or by
        itself, and those of a check that judges nothing (one doesn't compile, say) in halves."""
        said = self.check(edits, over, is_narrow=is_narrow)
        narrowed = said.room.narrowed
        if len(edits) == 1 and not narrowed:
            self.note(said, edits[0])
            self.tell(edits[0], *said.verdict(edits[0]))
        elif len(edits) > 1 and not said.is_judged:
            self.together(edits[: len(edits) // 2], over, is_narrow)
            self.together(edits[len(edits) // 2 :], over, is_narrow)
        else:
            goals = {it: said.narrow_goal(it) if it in narrowed else said.open_goal(it) for it in edits}
            for edit, goal in goals.items():
                if goal:
                    self.note(said, edit)
                    self.tell(edit, REFUSED, goal)
            for batch in parted(self.crate, [it for it in narrowed if not goals[it]]):
                self.together(batch, over, is_narrow=False)
            for edit in [it for it in edits if not goals[it] and it not in narrowed]:
                self.together([edit], over, is_narrow=False)

    def note(self, said: Said, edit: Edit) -> None:
        """Notes where the whole contract refuses an edit, if that is to be written."""
        if self.is_written and edit not in said.room.narrowed and may_be_narrowed(self.crate, edit) and (record := said.record(edit)):
            self.found[edit.name] = record

    def one_by_one(self, edits: list[Edit]) -> None:
        """Tries edits that change more than bodies: by the function that is known to refuse one, then by the functions that it names, or the crate's
        laws, if it has some, and what these don't refuse by the whole crate."""
        named = {it.name.partition("::")[2]: it for it in self.all if it.name}
        known = {it: frozenset({named[self.records[it.name].goal]}) for it in edits if it.name in self.records and self.records[it.name].goal in named}
        edits = self.asked_first(edits, known)
        edits = self.asked_first(edits, {it: it.refusers or self.laws for it in edits if it.refusers or self.laws})
        if not edits:
            return
        linked(self.room / "kept", self.room / "seed")
        said = self.check([], self.room / "seed")
        if said.is_proved:
            with ThreadPoolExecutor(PROCESSORS) as pool:
                list(pool.map(lambda it: self.is_told(it, self.room / "seed", frozenset()), edits))
        else:
            for edit in edits:
                self.tell(edit, UNKNOWN, f"the crate isn't proved without it: {said.last}")

    def asked_first(self, edits: list[Edit], asked: dict[Edit, frozenset[Function]]) -> list[Edit]:
        """Tries edits by the functions that are asked of each, if these are proved without it, and returns those that aren't refused so."""
        if not (every := frozenset().union(*asked.values())):
            return edits
        said = self.check([], self.room / "kept", every)
        if not said.is_judged or not all(WELL.match(said.functions.get(it.name, "")) for it in every):
            return edits
        with ThreadPoolExecutor(PROCESSORS) as pool:
            told = dict(zip(asked, pool.map(lambda it: self.is_told(it, self.room / "kept", asked[it]), asked)))
        return [it for it in edits if not told.get(it)]

    def is_told(self, edit: Edit, start: pathlib.Path, asked: frozenset[Function]) -> bool:
        """Tries one edit by some functions, or by the whole crate, and returns whether that tells what it comes to: only a refusal does, if some are asked."""
        over = self.next_room("over")
        linked(start, over)
        said = self.check([edit], over, asked)
        what, why = said.verdict(edit)
        shutil.rmtree(over, ignore_errors=True)
        if asked and what != REFUSED:
            return False
        if self.is_written and len(asked) > 1 and (law := said.refuser(asked)):
            self.found[edit.name] = Record(law)
        self.tell(edit, what, why)
        return True

    def run(self) -> None:
        """Tries all edits."""
        name = self.crate.name
        if self.beside and not self.beside.awaits(name):
            print(f"{name}: none of its edits was tried, since a library below it isn't proved", flush=True)
            return
        self.sum = sum_below(self.crate) if self.beside else ""
        for edit in [it for it in self.edits if it.fault]:
            self.tell(edit, BAD, edit.fault)
        edits = [it for it in self.edits if not it.fault and not (self.beside and not self.is_written and self.is_known(it))]
        kept = self.crate / "out" / "incremental"
        self.room.mkdir()
        if kept.is_dir() and not self.beside:
            linked(kept, self.room / "kept")
        else:
            (self.room / "kept").mkdir()
        for batch in parted(self.crate, [it for it in edits if it.functions]):
            self.together(batch, self.room / "kept")
        others = [it for it in edits if not it.functions]
        if others:
            self.one_by_one(others)
        shutil.rmtree(self.room, ignore_errors=True)
        if self.beside and not self.beside.are_its_own(name):
            print(f"{name}: none of its edits counts, since its libraries were replaced by older ones", flush=True)
            self.verdicts.clear()
        count, failed = len(self.edits), len(self.failed())
        print(f"{name}: {count - failed} as they must be, {self.earlier} of them by an earlier run, {failed} failed, in {self.seconds:.0f} s of a processor", flush=True)


def by_kit(names: list[str]) -> int:
    """Has `rt must-fail` try the crates' edits in a copy."""
    with tempfile.TemporaryDirectory(prefix="try-edits-") as room:
        every = dict.fromkeys(it for name in names for it in (*below(name), name))
        lines = (TOP / "crates.txt").read_text().split("\n")
        pathlib.Path(room, "crates.txt").write_text("".join(f"{line}\n" for line in lines if line.partition(":")[0] in every))
        shutil.copy(TOP / "HANDLES", room)
        for name in every:
            linked(TOP / "crates" / name, pathlib.Path(room, "crates", name))
        for edit in [it for name in names for it in pathlib.Path(room, "crates", name, "edits").glob("*")]:
            to = edit.parent.with_name("must-fail")
            to.mkdir(exist_ok=True)
            edit.rename(to / edit.name)
        return subprocess.run(["rt", "must-fail", *names], cwd=room).returncode


def write(trials: list[Trial], records: dict[str, Record]) -> None:
    """Writes the records of the edits that were tried, in place of the earlier ones, and leaves those of others."""
    tried = {edit.name for it in trials for edit in it.verdicts}
    found = {name: record for it in trials for name, record in it.found.items()}
    narrowing.write_records({**{name: record for name, record in records.items() if name not in tried}, **found})


def main() -> None:
    given = argparse.ArgumentParser(description=__doc__, formatter_class=argparse.RawDescriptionHelpFormatter)
    given.add_argument("names", nargs="*")
    given.add_argument("--since")
    given.add_argument("--beside", type=pathlib.Path)
    given.add_argument("--write", action="store_true")
    given.add_argument("--kit", action="store_true")
    asked = given.parse_args()
    folders = (*FOLDERS, "must-fail") if asked.since else FOLDERS
    names = asked.names or [it for it in USED if any((TOP / "crates" / it / folder).is_dir() for folder in folders)]
    if asked.kit:
        sys.exit(by_kit(names))
    beside = asked.beside and Beside(asked.beside)
    jobs = max(1, PROCESSORS // 2) if beside else PROCESSORS
    turns = threading.Semaphore(jobs)
    with tempfile.TemporaryDirectory(prefix="try-edits-") as room:
        signal.signal(signal.SIGTERM, lambda *_: end_all(room))
        trials = [Trial(it, folders, room, turns, beside) for it in names]
        records = narrowing.read_records()
        for it in trials:
            it.records, it.is_written = {} if asked.write else records, asked.write
        for it in trials if asked.since else ():
            it.edits = [edit for edit in it.edits if edit.has_changed(it.crate, asked.since)]
        trials = [it for it in trials if it.edits]
        if not beside:
            make_libraries([it.crate.name for it in trials])
        with ThreadPoolExecutor(len(trials) + 1) as pool:
            runs = [pool.submit(it.run) for it in trials]
            # (once the other run has ended its processors are free)
            lend(turns, PROCESSORS - jobs, lambda: not beside or beside.has_ended() or all(it.done() for it in runs))
            for it in runs:
                it.result()
    if asked.write:
        write(trials, records)
    failed = [edit for it in trials for edit in it.failed()]
    for edit in failed:
        print(f"FAILED: {edit.name}")
    print(f"edits: {sum(len(it.edits) for it in trials) - len(failed)} as they must be, {len(failed)} failed, in {sum(it.seconds for it in trials):.0f} s of a processor")
    sys.exit(len(failed) > 0)


if __name__ == "__main__":
    main()
