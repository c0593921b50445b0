"""The ten wrong versions of docs/TOUR.md: shows the run of one that goes wrong, or has the prover refuse it.

    python3 tools/tour.py N            the run of stop N by tools/model.py as it is, and by the model with the same turned in it: lines with - and +
    python3 tools/tour.py N --prove    has the prover refuse the edit of stop N, and prints which clause isn't proved
    python3 tools/tour.py              prints what docs/TOUR.md shows otherwise than the runs are, and fails if there is something

The first takes a second. The second proves first what isn't proved yet of the libraries below the edit's crate; over those that `.ci/run` or
`rt check` has kept it takes a minute or two. tools/data/tour.json has for each stop its edit, what is turned in the model, and the script.
"""
from __future__ import annotations

import difflib
import json
import pathlib
import re
import sys
import tempfile
import threading
import types
from typing import Any

import asked
import model
from asked import TOP

PAGE = TOP / "docs/TOUR.md"
STOPS: list[dict[str, Any]] = json.loads((TOP / "tools/data/tour.json").read_text())
# What a part of the page shows of its stop's run.
SHOWN = re.compile(r"^```diff\n(.*?)^```$", re.MULTILINE | re.DOTALL)


def turned_model(changes: list[list[str]]) -> types.ModuleType:
    """The model with some lines changed. A message that fits nowhere then is told as a stray, as the program does."""
    text = pathlib.Path(model.__file__).read_text()
    for old, new in changes:
        if text.count(old) != 1:
            sys.exit(f"tools/model.py has {text.count(old)} times, and not once: {old}")
        text = text.replace(old, new)
    # (dataclasses look their module up by its name)
    turned = sys.modules["turned_model"] = types.ModuleType("turned_model")
    exec(compile(text, "tools/model.py, turned", "exec"), turned.__dict__)
    hear = turned.World.hear

    def hear_or_stray(world: Any, node: Any, sender: int, message: Any) -> str:
        try:
            return hear(world, node, sender, message)
        except (AssertionError, AttributeError):
            number = f" {message.fields['number']}" if message.kind == "item" else ""
            return f"hand {message.kind}{number} {turned.printed(message.link)} stray"

    turned.World.hear = hear_or_stray
    return turned


def difference(stop: dict[str, Any]) -> list[str]:
    """What the turned model prints otherwise than the model, with one line round it."""
    right, wrong = (it.transcript(stop["script"])[0].splitlines() for it in (model, turned_model(stop["turned"])))
    return [line for line in list(difflib.unified_diff(right, wrong, n=1, lineterm=""))[2:] if not line.startswith("@@")]


def faults() -> list[str]:
    """Which lines of the page aren't a part of the difference of their stop."""
    parts = dict(re.findall(r"^## (\d+)\. (.*?)(?=^## |\Z)", PAGE.read_text(), re.MULTILINE | re.DOTALL))
    found = []
    for number, stop in enumerate(STOPS, 1):
        part, edit = parts.get(str(number), ""), f"crates/{stop['edit']}"
        if not (TOP / edit).is_file() or edit not in part:
            found.append(f"TOUR.md doesn't show {edit} at stop {number}")
        run, shown = difference(stop) if stop["script"] else [], SHOWN.search(part)
        if bool(shown) != bool(run) or shown and f"\n{shown[1]}" not in "\n" + "".join(f"{line}\n" for line in run):
            found.append(f"TOUR.md shows other lines at stop {number} than `python3 tools/tour.py {number}` prints")
    return found


def prove(edit: pathlib.Path) -> bool:
    """Has the prover judge an edit, and returns whether it refuses it."""
    # (not above, since it wants the kit)
    import try_edits

    folder = edit.parent
    with tempfile.TemporaryDirectory(prefix="tour-") as room:
        trial = try_edits.Trial(folder.parent.name, [folder.name], room, threading.Semaphore(1), None)
        trial.edits = [it for it in trial.edits if it.path == edit]
        try_edits.make_libraries([folder.parent.name])
        trial.run()
        return not trial.failed()


def main() -> None:
    parser = asked.parser(__doc__)
    parser.add_argument("stop", type=int, nargs="?", choices=range(1, len(STOPS) + 1), metavar="N")
    parser.add_argument("--prove", action="store_true", help="have the prover refuse the edit")
    given = parser.parse_args()
    if given.stop is None:
        if found := faults():
            sys.exit("\n".join(found))
        return
    stop = STOPS[given.stop - 1]
    if given.prove:
        sys.exit(not prove(TOP / "crates" / stop["edit"]))
    if not stop["script"]:
        sys.exit("this one is of threads, and no script shows it")
    print(*difference(stop), sep="\n")


if __name__ == "__main__":
    main()
