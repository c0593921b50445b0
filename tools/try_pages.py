"""Runs each script that a page of docs shows, and prints what isn't as the page shows it.

    python3 tools/try_pages.py                    runs them by tools/model.py
    python3 tools/try_pages.py PROGRAM            runs them by that program, which is `ipcz_run`
    python3 tools/try_pages.py --script PAGE N    prints the Nth script of a page whole: --script TUTORIAL 5

A script is a block `json`. One that doesn't begin with a brace is only commands, which stand behind those of the script before it. The block
beneath has the lines that the run prints, and of only commands those that are new. If a picture stands beneath that, docs/pictures has
the same script under the picture's name, and tools/compare_pictures.py draws it.
"""
from __future__ import annotations

import dataclasses
import difflib
import json
import pathlib
import re
import subprocess
import sys
from collections.abc import Callable
from typing import Any

import asked
import model
from asked import TOP

DOCS = TOP / "docs"
# A script, and, with nothing but an empty line between them, what it prints, and its picture.
SHOWN = re.compile(r"^```json\n(.*?)^```$(?:\n\n```\n(.*?)^```$)?(?:\n\n!\[[^]]*\]\(pictures/(\w+)\.svg\)$)?", re.MULTILINE | re.DOTALL)


@dataclasses.dataclass
class Shown:
    """The script of a number on a page, the lines that the page shows of its run, from the first on, and the name of its picture."""
    page: str
    number: int
    script: dict[str, Any]
    printed: str
    picture: str


def scripts_of(page: pathlib.Path) -> list[Shown]:
    scripts: list[Shown] = []
    for number, (text, printed, picture) in enumerate(SHOWN.findall(page.read_text()), 1):
        if text.startswith("{"):
            script = json.loads(text)
        else:
            last = scripts[-1]
            script = last.script | {"commands": [*last.script["commands"], *json.loads(f"[{text}]")]}
            printed = last.printed + printed
        scripts.append(Shown(page.stem, number, script, printed, picture))
    return scripts


def every_script() -> list[Shown]:
    return [one for page in sorted(DOCS.glob("*.md")) for one in scripts_of(page)]


def faults(run: Callable[[bytes], str]) -> list[str]:
    """What is otherwise than the pages show, if scripts are run so."""
    found = []
    for one in every_script():
        name, printed = f"{one.page}.md, script {one.number}", run(json.dumps(one.script).encode())
        if printed != one.printed:
            found += difflib.unified_diff(one.printed.splitlines(), printed.splitlines(), f"what {name} shows", "what it prints", n=0, lineterm="")
        stored = DOCS / "pictures" / f"{one.picture}.json"
        if one.picture and (not stored.is_file() or json.loads(stored.read_text()) != one.script):
            found.append(f"{name}, has the picture of another: {stored.relative_to(TOP)} isn't that script")
    return found


def by_model(script: bytes) -> str:
    return model.answer(script)[0]


def printed_whole(script: dict[str, Any]) -> str:
    """A script as a reader would write it, a command on each line."""
    commands = ",\n".join(f"    {json.dumps(command)}" for command in script["commands"])
    return f'{{"nodes": {script["nodes"]}, "words": {script["words"]}, "commands": [\n{commands}\n]}}'


def main() -> None:
    parser = asked.parser(__doc__)
    parser.add_argument("program", type=asked.program, nargs="?")
    parser.add_argument("--script", nargs=2, metavar=("PAGE", "N"), help="print a script of a page whole")
    given = parser.parse_args()
    if given.script:
        shown = {(one.page, str(one.number)): one for one in every_script()}
        if tuple(given.script) not in shown:
            parser.error("no page of docs shows that script")
        print(printed_whole(shown[*given.script].script))
        return

    def by_program(script: bytes) -> str:
        return subprocess.run([given.program], input=script, stdout=subprocess.PIPE).stdout.decode(errors="replace")

    if found := faults(by_program if given.program else by_model):
        sys.exit("\n".join(found))


if __name__ == "__main__":
    main()
