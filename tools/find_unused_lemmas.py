"""Finds lemmas of proofs/ that nobody names: no file of the repository but their own declaration.

    python3 tools/find_unused_lemmas.py            prints each, with the lines that it takes; fails never
    python3 tools/find_unused_lemmas.py --remove   takes them out, and then those that only they named

It goes by names alone, so of a lemma whose name stands somewhere for another thing it knows nothing. Whether the crate is proved without what it took
out, `rt check` says; imports that are left over `find_unused_imports.py --remove` takes out.
"""
import pathlib
import re
from collections import Counter
from dataclasses import dataclass

import asked
from asked import TOP
from find_unused_imports import without_comments

WORD = re.compile(r"[^\s(){}\[\].,;:λ=|@]+")
DECLARED = re.compile(r"(?P<indent> {0,2})(?:pub )?(?:(?:abbrev|unfoldable) (?:pub )?)?(?P<name>[^\s:(){}◌]+) :(?: |$)")
# Answers to goals have the names of the goals, and files of modules name files.
NO_LEMMAS = ("Answers.antt", "Invariants.antt", "Proof.antt", "Lib.antt")


@dataclass
class Lemma:
    """A lemma with its comment: the lines from the first up to the one behind the last."""

    path: pathlib.Path
    name: str
    first: int
    end: int


def lemmas(path: pathlib.Path, lines: list[str]) -> list[Lemma]:
    """The lemmas of a file."""
    found = []
    for at, line in enumerate(lines):
        if declared := DECLARED.match(line):
            indent, name, end = declared["indent"], declared["name"], at + 1
            own = re.compile(rf"{indent}(?: |{re.escape(name)} |[\]}})])")
            # (what is local to a lemma may stand behind an empty line)
            while end < len(lines) and own.match(lines[end] or lines[min(end + 1, len(lines) - 1)]):
                end += 1
            first = at
            while first > 1 and lines[first - 1].strip().startswith("--"):
                first -= 1
            found.append(Lemma(path, name, first, end))
    return found


def unused() -> list[Lemma]:
    """The lemmas whose names stand nowhere but in their own declarations."""
    files = [it for part in ("src/**/*.rt", "specs/**/*.antt", "proofs/**/*.antt") for it in sorted((TOP / "crates").glob(f"*/{part}"))]
    texts = {it: without_comments(it.read_text(), "//" if it.suffix == ".rt" else "--") for it in files}
    named = Counter(word for text in texts.values() for word in WORD.findall(text))
    found = []
    for path in files:
        if path.suffix == ".antt" and "proofs" in path.parts and path.name not in NO_LEMMAS:
            lines = texts[path].split("\n")
            for it in lemmas(path, path.read_text().split("\n")):
                if named[it.name] == WORD.findall("\n".join(lines[it.first : it.end])).count(it.name):
                    found.append(it)
    return found


def remove(found: list[Lemma]) -> None:
    """Takes lemmas out of their files, from the last on, each with the empty line before it."""
    for it in sorted(found, key=lambda it: -it.first):
        lines = it.path.read_text().split("\n")
        first = it.first - (it.first > 0 and not lines[it.first - 1].strip() and not "".join(lines[it.end : it.end + 1]).strip())
        it.path.write_text("\n".join(lines[:first] + lines[it.end :]))


def main() -> None:
    parser = asked.parser(__doc__)
    parser.add_argument("--remove", action="store_true", help="take them out")
    given = parser.parse_args()
    while found := unused():
        for it in found:
            print(f"{it.path.relative_to(TOP)}:{it.first + 1}: {it.name} ({it.end - it.first} lines)")
        if not given.remove:
            break
        remove(found)


if __name__ == "__main__":
    main()
