"""Tries ipcz_judge_events on logs that are changed in each of a hundred ways, and on logs of what ipcz_run does.

    python3 tools/try_logs.py JUDGE RUN [--logs N] [--runs N] [--first SEED] [--jobs N] [--counts] [--keep FOLDER]

JUDGE is ipcz_judge_events, and RUN is ipcz_run. Each of N logs (8 if nothing is said) is that of a random script, run by tools/judge_events.py in an order of acts that
its seed draws. It must be allowed. A copy of it is changed in each way of tools/mutations.py for which it has a place: of each the program must say what
tools/judge_events.py says, with its status. No line before the changed one may be refused; a copy that means the same must be allowed; and where nothing makes the
changed line possible, that line must be the one that isn't allowed.

Each of N runs (80 if nothing is said) is one of a random script by ipcz_run, with turns in place of each settle, so that the transcript shows each act. Both judges must
allow the log that the script and its transcript are.

What is otherwise is printed, and the tool fails; with `--keep` the log is put into FOLDER, too. With `--counts` it prints of each kind of change how many copies there
were, how many of them were refused at the first changed line, and how many at a later one; in how many that line was none of a log; and how many were allowed, and why
that can be.
"""
import collections
import functools
import itertools
import json
import pathlib
import random
import re
import subprocess
import sys
from collections.abc import Iterator
from concurrent.futures import ProcessPoolExecutor
from dataclasses import dataclass
from typing import Any

import asked
import judge_events
import make_cases
import model
import mutations
from compare_with_model import of_any_calls

COLUMNS = ("refused there", "refused later", "no line", "allowed")
# Orders of acts are drawn for scripts of few nodes; those of eight nodes are run by ipcz_run.
MOST_NODES = 4
# Of the eight logs from this seed on some have a place for each kind of change.
FIRST = 8
AS_IT_IS, OF_A_RUN = "as it is", "run"


@dataclass
class Tried:
    """A log that both judges have judged: what it is, what came of it, and if something is wrong, what, and the log."""
    name: str
    outcome: str
    fault: str = ""
    log: bytes = b""


def readable(line: bytes) -> str:
    """The text of a line; what is no UTF-8 is no JSON, whatever it is."""
    try:
        return line.decode()
    except UnicodeDecodeError:
        return "no UTF-8"


def said_by_rules(log: bytes) -> str:
    """What tools/judge_events.py says."""
    return judge_events.verdict("\n".join(map(readable, log.split(b"\n"))))


def said_by_program(judge: pathlib.Path, log: bytes) -> str:
    """What the program says, if its status is that of such a verdict."""
    done = subprocess.run([judge], input=log, capture_output=True)
    said = done.stdout.decode(errors="replace").removesuffix("\n")
    status = 0 if said == "allowed" else 2
    return said if (done.returncode, done.stderr) == (status, b"") else f"{said}, status {done.returncode}"


def first_changed(log: bytes, changed: bytes) -> int:
    """The number of the first line that isn't as it was, or that isn't there any more; or one behind them all, if each is as it was."""
    was, now = (each.removesuffix(b"\n").split(b"\n") for each in (log, changed))
    return next((number for number, (one, other) in enumerate(itertools.zip_longest(was, now), 1) if one != other), len(was) + 1)


def outcome_of(said: str, first: int) -> str:
    """What came of a log whose first changed line has this number."""
    found = re.match(r"line (\d+): (.*)", said)
    if not found:
        return said
    if int(found[1]) < first:
        return "refused before"
    if found[2] == "no line of a log":
        return "no line"
    return "refused there" if int(found[1]) == first else "refused later"


def is_known(allowed: str, said: str, first: int) -> bool:
    """Whether a verdict is one that is known to be possible of a log whose first changed line has this number."""
    if allowed == mutations.ALWAYS:
        return said == "allowed"
    if allowed == mutations.NEVER:
        return said.startswith(f"line {first}: ")
    return outcome_of(said, first) in COLUMNS


def judged(judge: pathlib.Path, name: str, seed: int, log: bytes, allowed: str, first: int = 0) -> Tried:
    """What the two judges say of a log, of which it is known whether it is allowed."""
    rules, program = said_by_rules(log), said_by_program(judge, log)
    fault = ""
    if rules != program:
        fault = f"{name}, seed {seed}: the program says {program!r}; tools/judge_events.py {rules!r}"
    elif not is_known(allowed, rules, first):
        fault = f"{name}, seed {seed}: both say {rules!r}; the first changed line is {first} (allowed: {allowed})"
    return Tried(name, outcome_of(rules, first), fault, log if fault else b"")


# ---- Changed logs


@functools.lru_cache(maxsize=2)
def log_of(seed: int) -> tuple[dict[str, Any], ...]:
    """The log of a random script, in an order of acts that the seed draws."""
    draw = random.Random(seed)
    script = (make_cases.of_moves if seed % 2 else of_any_calls)(draw)
    while script["nodes"] > MOST_NODES:
        script = of_any_calls(draw)
    return tuple(judge_events.log_of(script, seed))


def changed_logs(judge: pathlib.Path, seed: int) -> list[Tried]:
    """A log, and copies of it, each changed in a way of its own."""
    log, other = log_of(seed), log_of(seed + 1)
    tried = [judged(judge, AS_IT_IS, seed, judge_events.written(list(log)).encode(), mutations.ALWAYS)]
    # (the changed copies are written as tools/mutations.py writes lines)
    text = mutations.text_of([json.dumps(entry) for entry in log]).encode()
    for kind in mutations.KINDS:
        case = mutations.Case(random.Random(f"{seed} {kind.name}"), list(log), list(other))
        made = kind.change(case)
        changed = text if made is None else made.encode(errors="surrogateescape")
        if changed != text:
            tried.append(judged(judge, kind.name, seed, changed, kind.allowed, first_changed(text, changed)))
    return tried


# ---- Runs of the program


def turns_of(world: model.World, limit: int) -> Iterator[list[Any]]:
    """The turns that a settle takes, one after the other."""
    acts, before = 0, -1
    while acts != before:
        before = acts
        for number in range(len(world.nodes)):
            if world.is_idle(number):
                continue
            if acts == limit:
                return
            world.turn(number)
            acts += 1
            yield ["turn", number, 1]


def with_turns(script: dict[str, Any]) -> dict[str, Any]:
    """The script with the same turns in place of each settle."""
    run = model.Run(script["nodes"], script["words"])
    commands: list[list[Any]] = []
    for command in script["commands"]:
        if command[0] == "settle":
            commands += turns_of(run.world, command[1])
        else:
            run.do(command)
            commands.append(command)
    return script | {"commands": commands}


def log_of_run(script: dict[str, Any], transcript: str) -> list[dict[str, Any]]:
    """The log that a script without settles and its transcript are: a line of it for each."""
    log: list[dict[str, Any]] = [{"nodes": script["nodes"], "words": script["words"]}]
    calls = (command for command in script["commands"] if command[0] != "turn")
    for line in transcript.splitlines():
        if found := re.match(r"n(\d): ", line):
            log.append({"node": int(found[1]), "event": line[found.end() :]})
        else:
            log.append({"call": next(calls), "answer": line})
    return log


def run_log(judge: pathlib.Path, program: pathlib.Path, seed: int) -> list[Tried]:
    """The log of a run of a random script by the program."""
    script = with_turns(next(make_cases.scripts(seed, 1)))
    done = subprocess.run([program], input=json.dumps(script).encode(), capture_output=True)
    if done.returncode:
        return [Tried(OF_A_RUN, "not run", f"{OF_A_RUN}, seed {seed}: the program ends with status {done.returncode}", json.dumps(script).encode())]
    log = log_of_run(script, done.stdout.decode())
    return [judged(judge, OF_A_RUN, seed, judge_events.written(log).encode(), mutations.ALWAYS)]


# ---- What is printed


def table(counts: collections.Counter[tuple[str, str]]) -> Iterator[str]:
    """A line for each kind."""
    yield "".join(f"{name:>15}" for name in ("tried", *COLUMNS)) + "  what is changed"
    for kind in mutations.KINDS:
        told = [counts[kind.name, column] for column in COLUMNS]
        yield "".join(f"{number:15}" for number in (sum(told), *told)) + f"  {kind.name}: {kind.sentence} (Allowed: {kind.allowed})"


def summary(counts: collections.Counter[tuple[str, str]]) -> str:
    """All in a line."""
    kinds = {name for name, _ in counts} - {AS_IT_IS, OF_A_RUN}
    told = {column: sum(counts[name, column] for name in kinds) for column in COLUMNS}
    runs, logs = (sum(number for (name, _), number in counts.items() if name == meant) for meant in (OF_A_RUN, AS_IT_IS))
    copies = f"{sum(told.values())} copies changed in {len(kinds)} of {len(mutations.KINDS)} ways"
    return f"{runs} runs, {logs} logs, {copies}: " + ", ".join(f"{number} {column}" for column, number in told.items())


def keep(folder: pathlib.Path | None, number: int, tried: Tried) -> None:
    print(tried.fault)
    if folder:
        folder.mkdir(parents=True, exist_ok=True)
        (folder / f"{number}.log").write_bytes(tried.log)
        (folder / f"{number}.txt").write_text(tried.fault + "\n")


def main() -> int:
    parser = asked.parser(__doc__)
    parser.add_argument("judge", type=asked.program)
    parser.add_argument("run", type=asked.program)
    parser.add_argument("--logs", type=int, default=8, help="how many logs are changed (8)")
    parser.add_argument("--runs", type=int, default=80, help="how many scripts ipcz_run runs (80)")
    parser.add_argument("--first", type=int, default=FIRST, help=f"the first seed ({FIRST})")
    parser.add_argument("--jobs", type=int, default=1, help="how many processes try them (1)")
    parser.add_argument("--counts", action="store_true", help="print what came of each kind of change")
    parser.add_argument("--keep", type=pathlib.Path, metavar="FOLDER", help="where a log is put that is judged otherwise than it must be")
    given = parser.parse_args()
    if given.keep and given.keep.exists() and not given.keep.is_dir():
        parser.error(f"{given.keep} is no folder")
    counts: collections.Counter[tuple[str, str]] = collections.Counter()
    faults = 0
    with ProcessPoolExecutor(max_workers=max(1, given.jobs)) as pool:
        logs = pool.map(functools.partial(changed_logs, given.judge), range(given.first, given.first + given.logs), chunksize=5)
        runs = pool.map(functools.partial(run_log, given.judge, given.run), range(given.first, given.first + given.runs), chunksize=20)
        for tried in itertools.chain.from_iterable(itertools.chain(logs, runs)):
            counts[tried.name, tried.outcome] += 1
            if tried.fault:
                keep(given.keep, faults, tried)
                faults += 1
    if given.counts:
        print(*table(counts), sep="\n")
    print(f"{summary(counts)}; {faults} wrong")
    return 1 if faults else 0


if __name__ == "__main__":
    sys.exit(main())
