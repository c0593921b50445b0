"""Counts the lines of each crate: code, contracts, definitions, proofs and edits.

    python3 tools/count_sizes.py            prints what is off by more than a tenth in the table of docs/SIZES.md, and fails if something is
    python3 tools/count_sizes.py --write    writes the table

Comments, empty lines and lines that only import aren't counted. Of src/, contracts are what stands from a function's first `requires` or `ensures` to its body,
ghost members, and what names tactics; all else is code. Definitions are specs/, proofs are proofs/. The minutes are those of docs/GATE.md, "Time".
"""
from __future__ import annotations

import pathlib
import re
import sys

import asked
from asked import TOP
from find_unused_imports import GHOST_USE, USE, without_comments
from list_statements import head_of

PAGE = TOP / "docs/SIZES.md"
TABLE = re.compile(r"(<!-- by tools/count_sizes.py -->\n).*?(?=\n\n)", re.DOTALL)
FUNCTION = re.compile(r"^ *(?:pub(?:\([^)]*\))? )?(?:const |unsafe |extern \s*)*fn \w+", re.MULTILINE)
CLAUSES = re.compile(r"^ *(?:requires|ensures)\b", re.MULTILINE)
GHOST = re.compile(r"^ *(?:ghost \w|#!?\[tactic)")
# Minutes of a processor for a crate's proof, of the run of 54f79509 in docs/GATE.md, and of the two crates that came since.
MINUTES = {
    "ipcz_base": "1", "ipcz_word": "½", "ipcz_edge": "½", "ipcz_device": "½", "ipcz_seq": "1", "ipcz_router": "3", "ipcz_node": "9", "ipcz_world": "6", "ipcz_promise": "1",
    "ipcz_rule": "½", "ipcz_cell": "7", "ipcz_fabric": "2", "ipcz_c": "4", "ipcz_script": "5", "ipcz_threads": "3", "ipcz_places": "½", "ipcz_report": "4", "ipcz_check": "1",
    "ipcz_run": "1", "ipcz_lines": "3", "ipcz_markup": "1", "ipcz_messages": "6", "ipcz_picture": "6", "ipcz_draw": "½", "ipcz_bench": "3", "ipcz_bench_threads": "2",
    "ipcz_faults": "5", "ipcz_example": "1", "ipcz_example_threads": "2", "ipcz_parts_tests": "2", "ipcz_world_tests": "11", "ipcz_fabric_tests": "9", "ipcz_threads_tests": "6",
    "ipcz_messages_tests": "3", "ipcz_promise_tests": "2½", "ipcz_shown": "½",
}
HEADS = ("crate", "code", "contracts", "definitions", "proofs", "edits", "minutes")
# A count may be off by so much before the table counts as stale.
SHARE, LEAST = 0.1, 20


def filled(text: str) -> int:
    return sum(bool(line.strip()) for line in text.splitlines())


def of_source(path: pathlib.Path) -> tuple[int, int]:
    """The lines of code and of contracts of a file of src/."""
    text = GHOST_USE.sub("", without_comments(path.read_text(), "//"))
    contracts, at, rest = 0, 0, []
    for found in FUNCTION.finditer(text):
        if found.start() < at:
            continue
        head, _ = head_of(text, found.start())
        if first := CLAUSES.search(head):
            contracts += filled(head[first.start():])
            rest.append(text[at:found.start() + first.start()])
            at = found.start() + len(head)
    code = "".join([*rest, text[at:]])
    ghosts = sum(bool(GHOST.match(line)) for line in code.splitlines())
    imports = sum(line.lstrip().startswith(("use ", "pub use ")) for line in code.splitlines())
    return filled(code) - ghosts - imports, contracts + ghosts


def of_antt(folder: pathlib.Path) -> int:
    return sum(filled(USE.sub("", without_comments(path.read_text(), "--"))) for path in folder.glob("**/*.antt"))


def sizes(crate: str) -> list[int]:
    folder = TOP / "crates" / crate
    sources = [of_source(path) for path in folder.glob("src/**/*.rt")]
    edits = sum(1 for name in ("edits", "must-fail") for _ in folder.glob(f"{name}/*.edit"))
    return [sum(code for code, _ in sources), sum(contracts for _, contracts in sources), of_antt(folder / "specs"), of_antt(folder / "proofs"), edits]


def crates() -> list[str]:
    return [line.split(":")[0].split()[0] for line in (TOP / "crates.txt").read_text().splitlines() if line.partition("#")[0].strip()]


def row(name: str, counts: list[int], minutes: str) -> str:
    return f"| {name} | {' | '.join(f'{it:,}' for it in counts)} | {minutes} |"


def table() -> str:
    every = {crate: sizes(crate) for crate in crates()}
    tests = [sum(column) for column in zip(*(counts for crate, counts in every.items() if crate.endswith("_tests")))]
    others = [sum(column) for column in zip(*(counts for crate, counts in every.items() if not crate.endswith("_tests")))]
    lines = [f"| {' | '.join(HEADS)} |", "|" + "---|" * len(HEADS), *(row(f"`{crate}`", counts, MINUTES.get(crate, "")) for crate, counts in every.items())]
    return "\n".join([*lines, row("all but tests", others, ""), row("tests", tests, "")])


def numbers(line: str) -> list[int]:
    return [int(it.replace(",", "")) for it in re.findall(r"(?<=\| )[\d,]+(?= \|)", line.rsplit("|", 2)[0] + "|")]


def faults() -> list[str]:
    """Which rows of the table are off."""
    found = TABLE.search(PAGE.read_text())
    old = {line.split("|")[1]: numbers(line) for line in found[0].splitlines() if line.startswith("|")} if found else {}
    new = {line.split("|")[1]: numbers(line) for line in table().splitlines()}

    def is_near(a: list[int], b: list[int]) -> bool:
        return len(a) == len(b) and all(abs(x - y) <= max(LEAST, SHARE * max(x, y)) for x, y in zip(a, b))

    rows = [name.strip() for name in {**new, **old} if not is_near(old.get(name, [-1]), new.get(name, [-2]))]
    return [f"docs/SIZES.md is off by more than a tenth at {', '.join(rows)}: `python3 tools/count_sizes.py --write` writes its table"] if rows else []


def main() -> None:
    parser = asked.parser(__doc__)
    parser.add_argument("--write", action="store_true", help="write the table")
    if parser.parse_args().write:
        PAGE.write_text(TABLE.sub(lambda found: found[1] + table(), PAGE.read_text()))
    if found := faults():
        sys.exit("\n".join(found))


if __name__ == "__main__":
    main()
