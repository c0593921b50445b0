"""Lists what the crates promise: each public contract, and each definition that public contracts reach, with a sum of its text.

    python3 tools/list_statements.py                          compares docs/statements.txt with what is there; prints what differs, and fails if something does
    python3 tools/list_statements.py --write                  writes that page
    python3 tools/list_statements.py --below CRATE [WORD ..]  prints what has to be read below the contracts of a crate that are named by these words, or
                                                              below all: its definitions, their lines and files; a definition that is only handed
                                                              on needs no reading, and `--but NAME` leaves it out; `--most N` fails above so many lines

A change of what is promised is so a change of that page, which whoever reviews it sees. Comments and layout aren't part of a sum. A line has a
crate's `fn` (a public function with a contract, or one of a trait), `type`, `model` (how contracts see a type) or `def` (a definition), its path
and the sum.
"""
from __future__ import annotations

import argparse
import dataclasses
import difflib
import functools
import hashlib
import pathlib
import re
import sys
from collections.abc import Iterable, Iterator

import asked
from asked import TOP
from find_unused_imports import GHOST_USE, TOKEN, USE, end_of_group, names_of, without_comments

PAGE = TOP / "docs/statements.txt"
# (the text of an ABI is blanked with the other literals)
FUNCTION = re.compile(r"^(?P<indent> *)(?P<public>pub )?(?:const |unsafe |extern +)*fn (?P<name>\w+)", re.M)
CLAUSE = re.compile(r"\b(?:requires|ensures)\b\*?\s*(?P<word>\w*)\s*$|\bghost \w+:\s*$")
OPENS = re.compile(r"[\[{;]")
BLOCK = re.compile(r"^(?:pub )?(?P<kind>impl|trait)\b(?P<head>[^{]*)\{", re.M)
TYPE = re.compile(r"^pub (?:struct|enum) (?P<name>\w+)[^;{]*[;{]", re.M)
START = re.compile(r"^(?:(?:abbrev|unfoldable|pub|record|data|opaque) +)*(?P<name>[^\s:]+)")
Key = tuple[str, str]


@dataclasses.dataclass
class Definition:
    """A definition of specs/: its text, and the definitions that it names."""
    path: pathlib.Path
    lines: list[str]
    uses: set[Key]


@dataclasses.dataclass
class Contract:
    """What is promised at a place, the words that name its clauses each with that clause, and where the names of clauses come from."""
    kind: str
    path: str
    text: str
    clauses: list[tuple[str, str]]
    names: dict[str, Key]
    modules: dict[str, str]


def summed(text: str) -> str:
    return hashlib.sha256(" ".join(text.split()).encode()).hexdigest()[:10]


def imports(text: str, pattern: re.Pattern[str]) -> tuple[dict[str, Key], dict[str, str]]:
    """What each imported name stands for, and each module that is called by a name of its own."""
    names: dict[str, Key] = {}
    modules: dict[str, str] = {}
    for found in pattern.finditer(text):
        for whole, called in names_of(found):
            if found["names"] is None:
                modules[called] = found["path"].strip()
            else:
                names[called] = (found["path"], whole.split(" as ")[0].strip())
    return names, modules


def named(text: str, names: dict[str, Key], modules: dict[str, str]) -> set[Key]:
    """The imported definitions that a text names."""
    words = {found["word"] for found in TOKEN.finditer(text) if not found["field"]}
    keys = {key for called, key in names.items() if all(part in words for part in called.split("◌") if part)}
    return keys | {(module, name) for called, module in modules.items() for name in re.findall(rf"(?<![\w.]){re.escape(called)}\.(\w+)", text)}


def groups(text: str) -> Iterator[tuple[str, list[str]]]:
    """The definitions of a file, each with its lines; a definition's clauses begin with its name, as its signature does."""
    name, lines = "", []
    for line in text.splitlines():
        if not line.strip() or line.startswith("use "):
            continue
        found = None if line[0] == " " else START.match(line)
        if found and found["name"] not in (name, "unfolding"):
            yield name, lines
            name, lines = found["name"], []
        lines.append(line)
    yield name, lines


@functools.cache
def definitions() -> dict[Key, Definition]:
    """Each definition of specs/."""
    every: dict[Key, Definition] = {}
    for path in sorted((TOP / "crates").glob("*/specs/**/*.antt")):
        crate, _, *rest = path.relative_to(TOP / "crates").with_suffix("").parts
        module = ".".join(["Rattle", crate, "specs", *rest])
        bare = without_comments(path.read_text(), "--")
        names, modules = imports(bare, USE)
        own = [(name, lines) for name, lines in groups(bare) if lines]
        names |= {name: (module, name) for name, _ in own}
        for name, lines in own:
            one = every.setdefault((module, name), Definition(path, [], set()))
            one.lines += lines
            one.uses |= named("\n".join(lines), names, modules) - {(module, name)}
    return every


def head_of(text: str, start: int) -> tuple[str, list[tuple[str, str]]]:
    """A function's signature with its clauses, and each clause with its name."""
    at, clauses = start, []
    while found := OPENS.search(text, at):
        if found.group() == "[":
            at = end_of_group(text, found.start())
            continue
        clause = CLAUSE.search(text, start, found.start())
        if found.group() == ";" or not clause:
            return text[start:found.start()], clauses
        at = end_of_group(text, found.start())
        clauses.append((clause["word"] or "", text[found.start():at]))
    return text[start:], clauses


def contracts_in(crate: str, path: pathlib.Path) -> Iterator[Contract]:
    """The public contracts of a file, its types and how contracts see them."""
    text = without_comments(path.read_text(), "//")
    module = "::".join(part for part in path.relative_to(TOP / "crates" / crate / "src").with_suffix("").parts if part not in ("lib", "main"))
    names, modules = imports(text, GHOST_USE)
    blocks = [(found, end_of_group(text, found.end() - 1)) for found in BLOCK.finditer(text)]
    for found, end in blocks:
        if re.search(r"\bModel for\b", found["head"]):
            body = text[found.start():end]
            yield Contract("model", "::".join([module, found["head"].split(" for ")[1].strip()]), body, [("", body)], names, modules)
    for found in TYPE.finditer(text):
        end = found.end() if found.group().endswith(";") else end_of_group(text, found.end() - 1)
        yield Contract("type", "::".join([module, found["name"]]), text[found.start():end], [], names, modules)
    for found in FUNCTION.finditer(text):
        owner = next((block for block, end in blocks if block.start() < found.start() < end), None)
        of_trait = owner and (owner["kind"] == "trait" or " for " in owner["head"])
        head, clauses = head_of(text, found.start())
        if clauses and (found["public"] or of_trait):
            place = [module, *([" ".join(owner["head"].split())] if owner else []), found["name"]]
            yield Contract("fn", "::".join(part for part in place if part), head, clauses, names, modules)


def contracts(crate: str) -> list[Contract]:
    return [one for path in sorted((TOP / "crates" / crate / "src").glob("**/*.rt")) for one in contracts_in(crate, path)]


def closure(roots: Iterable[Key], but: Iterable[str] = ()) -> set[Key]:
    """The definitions that these reach, but for those that need no reading."""
    every, seen, left = definitions(), set[Key](), list(roots)
    while left:
        key = left.pop()
        if key in every and key not in seen and key[1] not in but:
            seen.add(key)
            left += every[key].uses
    return seen


def roots_of(given: Iterable[Contract], words: Iterable[str] = ()) -> set[Key]:
    wanted = set(words)
    return {key for one in given for word, clause in one.clauses if not wanted or word in wanted for key in named(clause, one.names, one.modules)}


def listing() -> list[str]:
    crates = sorted(path.name for path in (TOP / "crates").iterdir())
    public = {crate: contracts(crate) for crate in crates}
    reached = closure(key for given in public.values() for key in roots_of(given))
    lines = [f"{crate} {one.kind} {one.path} {summed(one.text)}" for crate, given in public.items() for one in given]
    for module, name in reached:
        crate, place = module.removeprefix("Rattle.").split(".specs.")
        lines.append(f"{crate} def {place}.{name} {summed(' '.join(definitions()[module, name].lines))}")
    return sorted(lines)


def measure(crate: str, words: list[str], but: list[str]) -> int:
    """How many lines of definitions are below a crate's contracts; it prints them by file."""
    reached = closure(roots_of((one for one in contracts(crate) if not one.path.startswith("laws")), words), but)
    by_file: dict[pathlib.Path, list[str]] = {}
    for key in sorted(reached):
        by_file.setdefault(definitions()[key].path, []).append(key[1])
    count = {key: len(definitions()[key].lines) for key in reached}
    for path, names in sorted(by_file.items()):
        lines = sum(lines for key, lines in count.items() if definitions()[key].path == path)
        print(f"{path.relative_to(TOP / 'crates')}: {lines} lines: {', '.join(names)}")
    print(f"{sum(count.values())} lines, {len(reached)} definitions, {len(by_file)} files")
    return sum(count.values())


def main() -> None:
    parser = asked.parser(__doc__)
    parser.add_argument("--write", action="store_true", help="write the page")
    parser.add_argument("--below", metavar="CRATE", help="print what has to be read below a crate's contracts")
    parser.add_argument("--but", action="append", default=[], metavar="NAME", help="with --below: a definition that needs no reading")
    parser.add_argument("--most", type=int, metavar="N", help="with --below: fail if it is more than so many lines")
    parser.add_argument("words", nargs="*", metavar="WORD", help="with --below: only clauses of these names")
    given = parser.parse_args()
    if given.below:
        lines = measure(given.below, given.words, given.but)
        sys.exit(f"more than {given.most} lines" if given.most is not None and lines > given.most else 0)
    text = "\n".join(listing()) + "\n"
    if given.write:
        PAGE.write_text(text)
    elif not PAGE.exists() or PAGE.read_text() != text:
        old = PAGE.read_text().splitlines() if PAGE.exists() else []
        sys.stdout.writelines(line + "\n" for line in difflib.unified_diff(old, text.splitlines(), "docs/statements.txt", "what is there", n=0, lineterm=""))
        sys.exit("what is promised has changed: see that it is meant, and write the page anew by `python3 tools/list_statements.py --write`")


if __name__ == "__main__":
    main()
