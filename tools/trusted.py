"""Lists what the proofs take as given, by crate: each function of the kit's libraries whose contract a crate's functions rest on, and each function of C
that these come to in the end.

    python3 tools/trusted.py            compares docs/trusted.txt with the libraries that `rt ci` or `rt lib` left in crates/*/out; prints what differs, which
                                        crates aren't built, and what the page counts
    python3 tools/trusted.py --write    writes the page, and its table in docs/THEOREM.md; of a crate that isn't built its lines stay

It reads the code that the prover has read: a library keeps it as `mir.json`, with each called function by its whole name. A crate has a line of its own on the
page, and one with each function that its code calls, or hands on in an impl; and, with a C between them, with each function of C that is called in the
end. Programs and the static library keep no such file, so they aren't listed. It takes some seconds.
"""
from __future__ import annotations

import difflib
import functools
import json
import pathlib
import re
import subprocess
import sys
from collections.abc import Iterator
from typing import Any

import asked
from asked import TOP

PAGE = TOP / "docs/trusted.txt"
THEOREM = TOP / "docs/THEOREM.md"
TABLE = re.compile(r"(<!-- by tools/trusted.py -->\n).*?(?=\n\n)", re.DOTALL)
# The kit's libraries that are std, by the table.
STD = ("core", "std", "std_alloc", "std_collections", "std_heap", "std_io", "io", "os", "libc")
# What the theorem speaks of.
OF_THE_THEOREM = ("ipcz_base", "ipcz_edge", "ipcz_word", "ipcz_seq", "ipcz_router", "ipcz_node", "ipcz_world")
MOST_TOLD = 60
# What a module in antt would call a premise without a proof, and what a function of C that a crate declares begins with.
PREMISE, DECLARES_C = re.compile(r"^\s*(?:pub )?(?:axiom|postulate)\b", re.MULTILINE), re.compile(r'^\s*(?:unsafe )?extern "C" \{', re.MULTILINE)


def libraries() -> list[str]:
    """The crates that keep what the prover has read: not programs, nor the static library, nor what has only tests."""
    lines = (line.partition("#")[0].partition(":")[0].split() for line in (TOP / "crates.txt").read_text().splitlines())
    return [it[0] for it in lines if len(it) == 1 and (TOP / "crates" / it[0] / "src/lib.rt").is_file() and not it[0].endswith("_tests")]


def names_in(value: Any) -> Iterator[str]:
    """The whole names of functions in a part of a `mir.json`: those of types and traits begin with a capital."""
    if isinstance(value, str):
        if re.search(r"::[a-z_]\w*$", value):
            yield value
    elif isinstance(value, (dict, list)):
        for it in value.values() if isinstance(value, dict) else value:
            yield from names_in(it)


def functions_of(built: pathlib.Path) -> dict[str, Any]:
    """The code of each function of a library."""
    return dict(json.loads((built / "toolchain/mir.json").read_text()))


@functools.cache
def kit() -> dict[str, Any]:
    """The code of each function of the kit's libraries."""
    top = pathlib.Path(subprocess.run(["rt", "doc"], stdout=subprocess.PIPE, text=True, check=True).stdout.strip()).parent / "rlibs"
    used = {name for line in (TOP / "crates.txt").read_text().splitlines() for name in line.partition("#")[0].replace(":", " ").split()}
    return {name: code for it in sorted({*used, *STD}) if (top / f"{it}.rlib").is_dir() for name, code in functions_of(top / f"{it}.rlib").items()}


@functools.cache
def called_by(name: str) -> frozenset[str]:
    """What a function of the kit names."""
    return frozenset(names_in(kit().get(name))) - {name}


def is_c(name: str) -> bool:
    return any("Foreign" in it for it in kit().get(name, {"body": []})["body"])


def reached(names: set[str]) -> set[str]:
    """All that these functions of the kit come to."""
    seen, left = set[str](), list(names)
    while left:
        name = left.pop()
        if name not in seen:
            seen.add(name)
            left += called_by(name)
    return seen


def library(crate: str) -> pathlib.Path:
    return TOP / "crates" / crate / "out/rlib" / f"{crate}.rlib"


def given_to(crate: str) -> list[str]:
    """The lines of a crate that is built."""
    of_kit = {name.split("::")[0] for name in kit()}
    called = {name for name in names_in(functions_of(library(crate))) if name.split("::")[0] in of_kit}
    in_c = sorted(filter(is_c, reached(called)))
    return [crate, *(f"{crate} {name}" for name in sorted(called)), *(f"{crate} C {name}" for name in in_c)]


def page() -> dict[str, list[str]]:
    """The lines of the page, by crate."""
    lines: dict[str, list[str]] = {}
    for line in PAGE.read_text().splitlines() if PAGE.is_file() else []:
        lines.setdefault(line.split()[0], []).append(line)
    return lines


def counted(lines: list[str]) -> list[int]:
    """How many of these lines, each function once, are of std, of other libraries, and of C."""
    named = {tuple(line.split()[1:]) for line in lines}
    in_std = {it for it in named if len(it) == 1 and it[0].split("::")[0] in STD}
    in_c = {it for it in named if len(it) == 2}
    return [len(in_std), len(named - in_std - in_c - {()}), len(in_c)]


def table() -> str:
    """How many functions each crate rests on."""
    lines = page()
    rows = [(f"`{crate}`", lines[crate]) for crate in libraries() if crate in lines]
    rows.append(("those up to `ipcz_world`, each once", [line for crate in OF_THE_THEOREM for line in lines.get(crate, [])]))
    rows.append(("all of these, each once", [line for found in lines.values() for line in found]))
    missing = ", ".join(f"`{crate}`" for crate in libraries() if crate not in lines)
    head = "| crate | of std | of other libraries | of C |\n|---|---|---|---|"
    counts = [f"| {name} | {' | '.join(map(str, counted(found)))} |" for name, found in rows]
    return "\n".join([head, *counts, *([f"| not looked at yet: {missing} | | | |"] if missing else [])])


def faults() -> list[str]:
    """What can be told without a build: whether the table counts the page, and whether a crate assumes something of its own."""
    found = TABLE.search(THEOREM.read_text())
    wrong = [] if found and found[0] == found[1] + table() else ["the table of THEOREM.md doesn't count docs/trusted.txt: `python3 tools/trusted.py --write` writes it"]
    for path in sorted((TOP / "crates").glob("*/*/**/*")):
        if path.suffix in (".antt", ".rt") and path.relative_to(TOP / "crates").parts[1] in ("src", "specs", "proofs"):
            pattern = PREMISE if path.suffix == ".antt" else DECLARES_C
            wrong += [f"{path.relative_to(TOP)} assumes something: {it[0].strip()}" for it in pattern.finditer(path.read_text())]
    return wrong


def main() -> None:
    parser = asked.parser(__doc__)
    parser.add_argument("--write", action="store_true", help="write the page and the table")
    given = parser.parse_args()
    old = page()
    new = {crate: given_to(crate) if library(crate).is_dir() else old.get(crate, []) for crate in libraries()}
    lines = [line for found in new.values() for line in found]
    if given.write:
        PAGE.write_text("".join(f"{line}\n" for line in lines))
        THEOREM.write_text(TABLE.sub(lambda found: found[1] + table(), THEOREM.read_text()))
    if unbuilt := [crate for crate in libraries() if not library(crate).is_dir()]:
        print(f"trusted: not built, and so not looked at: {', '.join(unbuilt)}")
    stored = [line for found in old.values() for line in found]
    if not given.write and lines != stored:
        print(*list(difflib.unified_diff(stored, lines, "docs/trusted.txt", "what is there", n=0, lineterm=""))[:MOST_TOLD], sep="\n")
        sys.exit("what the proofs take as given has changed: see that it is meant, and write the page anew by `python3 tools/trusted.py --write`")
    if found := faults():
        sys.exit("\n".join(found))
    in_std, in_others, in_c = counted(lines)
    print(f"trusted: {in_std} functions of std, {in_others} of other libraries and {in_c} of C; no axiom of a crate's own")


if __name__ == "__main__":
    main()
