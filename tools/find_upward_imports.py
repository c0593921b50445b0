"""Finds imports that go against the drawing of the law's proof.

    python3 tools/find_upward_imports.py    prints each such import, and fails if there is one

A page of docs/ draws the folders of `crates/ipcz_world/proofs` in rows, a row resting on those below it. A file may import from
its own row and from rows below. What the drawing doesn't show, as the answers to the goals of code, stands above it, but for
`Vocabulary`, which stands below. So an import goes upward if it is of a higher row, or of what the drawing doesn't show.
"""
import pathlib
import re
import sys

import asked
from asked import TOP
PROOFS = TOP / "crates/ipcz_world/proofs"
BLOCK = re.compile(r"^```\n(?P<lines>(?:(?!```).*\n)*)```$", re.M)
FOLDER = re.compile(r"\b(\w+)/")
IMPORT = re.compile(r"^(?:pub )?use Rattle\.ipcz_world\.proofs\.(\w+)(\.\w+)?", re.M)
BELOW = ["Vocabulary"]


def drawing() -> list[list[str]]:
    """The folders of each row, the highest first."""
    for page in sorted((TOP / "docs").glob("*.md")):
        for block in BLOCK.finditer(page.read_text()):
            if "facts/" in block["lines"] and "frames/" in block["lines"]:
                rows = re.split(r"^ *\| *\n", block["lines"], flags=re.M)
                return [FOLDER.findall(row) for row in rows]
    sys.exit("no page of docs/ has the drawing")


def upward(rows: list[list[str]]) -> list[str]:
    """Each import that goes upward, as `FILE imports FOLDER.FILE`."""
    heights = {name: height for height, row in enumerate(reversed([*rows, BELOW])) for name in row}
    top = len(rows) + 1
    found = []
    for file in sorted(PROOFS.rglob("*.antt")):
        place = file.relative_to(PROOFS).with_suffix("")
        own = heights.get(place.parts[0], top)
        for name, within in IMPORT.findall(file.read_text()):
            if heights.get(name, top) > own:
                found.append(f"{place} imports {name}{within}")
    return found


def main() -> int:
    asked.parser(__doc__).parse_args()
    found = upward(drawing())
    for line in found:
        print(line)
    return int(bool(found))


if __name__ == "__main__":
    sys.exit(main())
