"""Makes logs with events, wrong ones among them, and prints which ipcz_judge_events and tools/judge_events.py judge differently; and which scripts they run differently.

    python3 tools/compare_event_judges.py PROGRAM [COUNT [FIRST]] [--folder FOLDER]

Of each of COUNT scripts (100 if nothing is said), drawn from the seeds FIRST and up, a run whose order of acts the seed draws must be allowed. Some copies of its log
are changed in one place each: a line lost, doubled, or swapped with the next one; a number, a link, a node, a portal or a word changed; some byte spoiled. The program
must say of each what tools/judge_events.py says, with what is told in place of a refused line's text and all acts that were possible there, and its status. With
`--folder` the logs and what is to be written are put there, for `rt try --cases FOLDER`, and no program is run.

The program is also to run each of these scripts by its seed, and two scripts that ask for each act of that run: one as it is, and one with an act changed. It must write
what tools/judge_events.py does, with its status.
"""
import json
import pathlib
import random
import re
import subprocess
import sys
from typing import Any

import compare_judges
import judge_events
from compare_with_model import of_any_calls

CHANGES = 6
VERBS = ["send out", "send in", "finish out", "finish in", "mark", "wake", "lock", "wait", "refused", "begin", "unlock", "rest", "leave"]


def other_text(draw: random.Random, text: str) -> str:
    """The text of an event, or an answer, with another number, link, side or verb."""
    numbers = list(re.finditer(r"\d+", text))
    if numbers and draw.random() < 0.7:
        at = draw.choice(numbers)
        return text[: at.start()] + str(max(0, int(at[0]) + draw.choice([-1, 1, 2]))) + text[at.end() :]
    if found := re.search("|".join(VERBS), text):
        return text[: found.start()] + draw.choice(VERBS) + text[found.end() :]
    return draw.choice([text + " ", text.upper(), "idle", "post 1", "look 0"])


def changed(draw: random.Random, log: list[dict[str, Any]]) -> bytes:
    """The log with one change."""
    log = json.loads(json.dumps(log))
    at = draw.randrange(1, len(log))
    match draw.randrange(9):
        case 0 | 1 | 2:
            compare_judges.change_order(draw, log, at)
        case 3:
            text = bytearray(judge_events.written(log).encode())
            text[draw.randrange(len(text))] = draw.randrange(128)
            return bytes(text)
        case 4:
            log[at]["node"] = draw.randrange(9)
        case _:
            name = "event" if "event" in log[at] else "answer"
            log[at][name] = other_text(draw, log[at][name])
    return judge_events.written(log).encode()


def logs_of(seed: int) -> list[bytes]:
    """The log of a run of a random script, and changed copies of it."""
    draw = random.Random(seed)
    log = judge_events.log_of(of_any_calls(draw), seed)
    return [judge_events.written(log).encode()] + [changed(draw, log) for _ in range(CHANGES) if len(log) > 1]


def asking(log: list[dict[str, Any]]) -> dict[str, Any]:
    """A script whose run is this one, since it asks for each act."""
    commands = [line["call"] if "call" in line else ["act", line["node"], line["event"]] for line in log[1:]]
    return {"nodes": log[0]["nodes"], "words": log[0]["words"], "commands": commands}


def with_another_act(draw: random.Random, script: dict[str, Any]) -> dict[str, Any]:
    """The script with one act changed."""
    script = json.loads(json.dumps(script))
    acts = [command for command in script["commands"] if command[0] == "act"]
    if acts:
        changed = draw.choice(acts)
        changed[1 + draw.randrange(2)] = draw.choice([draw.randrange(script["nodes"]), other_text(draw, changed[2]), "hand", "idle"])
    return script


def differing_runs(program: pathlib.Path, seed: int) -> list[str]:
    """The runs by a seed that the program writes differently."""
    draw = random.Random(seed)
    script = of_any_calls(draw)
    asked = asking(judge_events.log_of(script, seed))
    faults = []
    for name, each in ("drawn", script), ("asked for", asked), ("asked for otherwise", with_another_act(draw, asked)):
        given = json.dumps(each).encode()
        text, status = judge_events.output(given, seed)
        done = subprocess.run([program, "run", "--seed", str(seed)], input=given, capture_output=True)
        if (done.stdout, done.returncode, done.stderr) != (text.encode(), status, b""):
            faults.append(f"a run that is {name}: status {done.returncode}, not {status}, {len(done.stdout)} bytes; of {given.decode()}")
    return faults


def said_of(log: bytes) -> str:
    """What tools/judge_events.py says, and the program is to write."""
    return judge_events.verdict(log.decode())


if __name__ == "__main__":
    sys.exit(compare_judges.compare(__doc__, "tools/judge_events.py", 100, logs_of, said_of, differing_runs))
