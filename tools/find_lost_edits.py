"""Finds edits of wrong bodies and turns of definitions that can't be made: a text that one replaces doesn't stand in its file once. And lines of
tools/data/refused_at.txt that are for no edit, or for one that isn't judged by them.

    python3 tools/find_lost_edits.py    prints each, and fails if there is one

It looks at the folders `must-fail`, `edits` and `harmless-edits` of all crates and at the turns of `tools/turn_definitions.py`. The gate fails
for an edit that it can't make, but late, and not with each kit for one of `must-fail`; and it tries a third of the turns.
"""
import sys
from collections.abc import Iterable, Iterator

import asked
import narrowing
from try_edits import FOLDERS, TOP, USED, Edit, may_be_narrowed
from turn_definitions import TURNS


def every_edit() -> list[Edit]:
    crates = [TOP / "crates" / name for name in USED]
    return [Edit(crate, it) for crate in crates for folder in ("must-fail", *FOLDERS) for it in sorted((crate / folder).glob("*"))]


def lost_edits(edits: Iterable[Edit]) -> Iterator[str]:
    for edit in edits:
        if edit.fault:
            yield f"{edit.path.relative_to(TOP)}: {edit.fault}"


def lost_records(edits: Iterable[Edit], records: Iterable[str]) -> Iterator[str]:
    judged = {it.name for it in edits if it.path.parent.name in FOLDERS and (may_be_narrowed(it.crate, it) or not it.functions)}
    for name in sorted(set(records) - judged):
        yield f"{narrowing.RECORDS.relative_to(TOP)}: {name}: there is no edit of that name, or it changes what can't be copied"


def lost_turns() -> Iterator[str]:
    for name, changes in TURNS.items():
        texts = {file: (TOP / "crates" / file).read_text() for file, _, _ in changes}
        for file, old, new in changes:
            if texts[file].count(old) != 1 or old == new:
                yield f"turn {name}: {file} has {texts[file].count(old)} times: {old!r}"
            texts[file] = texts[file].replace(old, new)


def main() -> None:
    asked.parser(__doc__).parse_args()
    edits = every_edit()
    lost = [*lost_edits(edits), *lost_records(edits, narrowing.read_records()), *lost_turns()]
    print(*lost, sep="\n", end="\n" if lost else "")
    sys.exit(len(lost) > 0)


if __name__ == "__main__":
    main()
