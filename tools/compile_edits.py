"""Finds edits of bodies that are no code any more, as where a type that they name has changed. Nothing is proved: it takes some seconds a crate.

    python3 tools/compile_edits.py [NAME..]    prints each, of these crates or of all, and fails if there is one

It goes over the libraries that `rt ci`, `rt check` or `rt lib` has built below a crate. The gate finds such an edit, too, but only when its turn comes. Edits of
definitions and clauses aren't looked at.
"""
import itertools
import pathlib
import re
import subprocess
import sys
import tempfile
from collections.abc import Iterator

import asked
from try_edits import FOLDERS, TOP, USED, Edit, Room, library, parted, words

ERROR = re.compile(r"^.*\berror\[[\w-]+\].*$", re.M)


class Compiler:
    """Compiles copies of a crate with some of its edits made."""

    def __init__(self, name: str, folder: str) -> None:
        self.crate = TOP / "crates" / name
        self.copies = (pathlib.Path(folder, f"{name}{number}") for number in itertools.count())
        every = [Edit(self.crate, it) for kind in FOLDERS for it in sorted((self.crate / kind).glob("*"))]
        self.edits = [it for it in every if not it.fault and it.functions]

    def error(self, edits: list[Edit]) -> str | None:
        """What is wrong with the crate with these edits, if something is."""
        room = Room(self.crate, next(self.copies), edits)
        command = words(self.crate.name, "--only", "")
        done = subprocess.run(command, cwd=room.folder, stdout=subprocess.PIPE, stderr=subprocess.STDOUT, text=True)
        room.remove()
        if done.returncode == 0:
            return None
        found = ERROR.search(done.stdout)
        return found[0] if found else done.stdout.strip().rpartition("\n")[2]

    def among(self, edits: list[Edit]) -> Iterator[str]:
        """Those of these edits that aren't compiled, each with what is wrong."""
        error = self.error(edits)
        if error and len(edits) == 1:
            yield f"{edits[0].name}: {error}"
        elif error:
            half = len(edits) // 2
            yield from self.among(edits[:half])
            yield from self.among(edits[half:])

    def bad(self) -> Iterator[str]:
        for batch in parted(self.crate, self.edits):
            yield from self.among(batch)


def main() -> None:
    parser = asked.parser(__doc__)
    parser.add_argument("names", nargs="*", metavar="NAME", help="a crate")
    names = parser.parse_args().names or [it for it in USED if any((TOP / "crates" / it / kind).is_dir() for kind in FOLDERS)]
    if lost := [it for it in names if it not in USED]:
        sys.exit(f"there is no crate {lost[0]}")
    missing = [used for name in names for used in USED[name] if used in USED and not (library(used) / f"{used}.rlib").exists()]
    if missing:
        sys.exit(f"the library {missing[0]} isn't built: `.ci/run` builds it, or `rt check` in a crate above it")
    with tempfile.TemporaryDirectory(prefix="compile-edits-") as folder:
        bad = [line for name in names for line in Compiler(name, folder).bad()]
    print(*bad, sep="\n", end="\n" if bad else "")
    sys.exit(len(bad) > 0)


if __name__ == "__main__":
    main()
