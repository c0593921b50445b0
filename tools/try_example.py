"""Runs the worked example of docs/JUDGE.md, and prints what isn't as the page says.

    python3 tools/try_example.py [PROGRAM]

PROGRAM is `ipcz_judge`; if nothing is said, tools/judge.py judges. tools/examples/judge_and_shrink.sh must print what stands in judge_and_shrink.txt, which
the page shows, too. And of three hundred drawn scripts tools/examples/wrong_portals.py must have the calls of at least one refused; but with its fault taken out
those of each must be allowed, by the rules in Python, so that nothing else is wrong with it.
"""
import difflib
import os
import pathlib
import subprocess
import sys
import types

import asked
import judge
import make_cases
from asked import TOP
from record_calls import written

EXAMPLES = TOP / "tools/examples"
FAULT = ("return self.length is not None and self.came >= self.length", "return self.length is not None and self.came - len(self.early) >= self.length")
SCRIPTS = 300


def portals(is_mended: bool) -> types.ModuleType:
    """The wrong implementation, or the same without its fault."""
    text = (EXAMPLES / "wrong_portals.py").read_text()
    if text.count(FAULT[0]) != 1:
        sys.exit(f"wrong_portals.py doesn't have once, by itself: {FAULT[0]}")
    module = types.ModuleType("portals")
    exec(compile(text.replace(*FAULT) if is_mended else text, "wrong_portals.py", "exec"), module.__dict__)
    return module


def refused(implementation: types.ModuleType, scripts: list[make_cases.Script]) -> list[str]:
    """Of which scripts the calls aren't allowed."""
    verdicts = [judge.verdict(written(implementation.run(script)).encode()) for script in scripts]
    return [f"script {number}: {verdict}" for number, verdict in enumerate(verdicts) if verdict != "allowed"]


def otherwise(program: pathlib.Path | None) -> list[str]:
    """What the lines of shell print otherwise than the page shows."""
    surroundings = os.environ | {"JUDGE": os.path.relpath(program, TOP) if program else ""}
    done = subprocess.run(["sh", EXAMPLES / "judge_and_shrink.sh"], cwd=TOP, env=surroundings, capture_output=True, text=True)
    stored = (EXAMPLES / "judge_and_shrink.txt").read_text()
    return [*difflib.unified_diff(stored.splitlines(), (done.stdout + done.stderr).splitlines(), "what the page shows", "what it prints", n=0, lineterm="")]


def main() -> None:
    parser = asked.parser(__doc__)
    parser.add_argument("program", type=asked.program, nargs="?")
    given = parser.parse_args()
    scripts = [*make_cases.scripts(0, SCRIPTS)]
    faults = otherwise(given.program)
    faults += [f"without its fault: {it}" for it in refused(portals(is_mended=True), scripts)]
    if not refused(portals(is_mended=False), scripts):
        faults.append("no script shows the fault")
    if faults:
        sys.exit("\n".join(faults))


if __name__ == "__main__":
    main()
