"""Finds names that a file imports for its clauses or proofs and doesn't use.

    python3 tools/find_unused_imports.py                    all crates; prints each such name, and fails if there is one
    python3 tools/find_unused_imports.py CRATE ..           only these crates
    python3 tools/find_unused_imports.py --remove CRATE ..  takes them out of the files (run `rt fmt` and `rt check` then)

In a .rt file a name of a `ghost use` line is used where it stands in a clause: what `requires`, `ensures` or `ghost NAME` has in
braces, or an attribute. Under a block's own `ghost use` only that block counts. In an .antt file a name of a `use` line is used
where it stands anywhere below, but not as a field behind a dot. So a name that is a variable's too counts as used.
"""
import pathlib
import re
import sys

import asked
from asked import TOP
GHOST_USE = re.compile(r"^[ \t]*ghost use (?P<path>[^{;]*?)(?:\.\{(?P<names>[^}]*)\})?(?: as (?P<alias>\S+))?;[ \t]*\n", re.M)
USE = re.compile(r"^[ \t]*use (?P<path>[^{\n]*?)(?:\.\{(?P<names>[^}]*)\})?(?: as (?P<alias>\S+))?[ \t]*\n", re.M)
CLAUSE = re.compile(r"\b(?:requires|ensures)\b\*?\s*\w*\s*\{|\bghost (?!use\b)\w+[^;{]*\{|\bby \{|#!?\[")
CLOSES = {"{": "}", "[": "]"}
TOKEN = re.compile(r"(?P<field>(?<=[^\s.])\.(?=[^\s.]))?(?P<word>\[\]|[^\s(){},;«».\[\]]+)")


def without_comments(text: str, mark: str) -> str:
    """The text with its comments and literals blanked, so that all else stands where it stood."""
    literal = r"""r#".*?"#|'(?:\\.[^']*|[^'\\])'|"(?:\\.|[^"\\])*"|""" if mark == "//" else ""
    return re.sub(literal + mark + r"[^\n]*", lambda found: re.sub(r"[^\n]", " ", found.group()), text, flags=re.S)


def end_of_group(text: str, start: int) -> int:
    """Where the bracket that opens at `start` is closed."""
    opens, closes, depth = text[start], CLOSES[text[start]], 0
    for at in range(start, len(text)):
        depth += (text[at] == opens) - (text[at] == closes)
        if depth == 0:
            return at + 1
    return len(text)


def clauses(text: str) -> str:
    """What of a .rt file proofs read: clauses, ghost members, attributes."""
    parts, at = [], 0
    while found := CLAUSE.search(text, at):
        at = end_of_group(text, found.end() - 1)
        parts.append(text[found.start():at])
    return "\n".join(parts)


def block_round(text: str, at: int) -> str:
    """The innermost block in braces round a place, or the whole text."""
    depth = 0
    for start in range(at - 1, -1, -1):
        depth += (text[start] == "}") - (text[start] == "{")
        if depth < 0:
            return text[start:end_of_group(text, start)]
    return text


def words(text: str) -> set[str]:
    return {found["word"] for found in TOKEN.finditer(text) if not found["field"]}


def names_of(found: re.Match[str]) -> list[tuple[str, str]]:
    """Each import of a line, as it stands there and as the file calls it."""
    if found["names"] is None:
        name = found["alias"] or found["path"].split(".")[-1]
        return [(found.group().strip().rstrip(";"), name)]
    return [(name.strip(), name.split(" as ")[-1].strip()) for name in found["names"].split(",") if name.strip()]


def is_used(name: str, there: set[str]) -> bool:
    return all(part in there for part in name.split("◌") if part)


def unused_in(path: pathlib.Path) -> tuple[str, list[tuple[re.Match[str], list[str]]]]:
    """The import lines of a file that have such names, each with those names."""
    rust = path.suffix == ".rt"
    text = path.read_text()
    pattern = GHOST_USE if rust else USE
    bare = without_comments(text, "//" if rust else "--")
    rest = pattern.sub(lambda found: re.sub(r"[^\n]", " ", found.group()), bare)
    whole, lines = words(clauses(rest) if rust else rest), []
    for found in pattern.finditer(bare):
        block = block_round(rest, found.start()) if rust and found.group()[0] in " \t" else rest
        there = whole if block is rest else words(clauses(block))
        wanted = [(name, called) for name, called in names_of(found) if not is_used(called, there)]
        if wanted:
            lines.append((found, [name for name, _ in wanted]))
    return text, lines


def remove(path: pathlib.Path, text: str, lines: list[tuple[re.Match[str], list[str]]]) -> None:
    for found, gone in reversed(lines):
        line = found.group()
        kept = [name for name, _ in names_of(found) if name not in gone]
        if found["names"] is None or not kept:
            line = ""
        else:
            line = line.replace("{" + found["names"] + "}", "{" + ", ".join(kept) + "}")
        text = text[:found.start()] + line + text[found.end():]
    path.write_text(text)


def main() -> None:
    parser = asked.parser(__doc__)
    parser.add_argument("crates", nargs="*", metavar="CRATE")
    parser.add_argument("--remove", action="store_true", help="take them out of the files")
    given = parser.parse_args()
    crates = given.crates or sorted(folder.name for folder in (TOP / "crates").iterdir())
    said = []
    for crate in crates:
        folder = TOP / "crates" / crate
        files = sorted(folder.glob("src/**/*.rt")) + sorted(folder.glob("specs/**/*.antt")) + sorted(folder.glob("proofs/**/*.antt"))
        for path in files:
            text, lines = unused_in(path)
            if given.remove:
                remove(path, text, lines)
            said += [f"{path.relative_to(TOP)}: {', '.join(gone)}" for _, gone in lines]
    if said and not given.remove:
        sys.exit("imported and not used:\n" + "\n".join(said))


if __name__ == "__main__":
    main()
