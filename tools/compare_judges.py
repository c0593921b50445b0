"""Makes logs of random scripts, wrong ones among them, and prints which ipcz_judge and tools/judge.py judge differently.

    python3 tools/compare_judges.py PROGRAM [COUNT [FIRST]] [--folder FOLDER]

Of each of COUNT scripts (200 if nothing is said), drawn from the seeds FIRST and up, the log of its transcript by tools/model.py must be allowed. Some copies of the
log are changed in one place each: a line lost, doubled, or swapped with the next one; a number, a node, a name, the bytes, a portal or a refusal changed; some bytes
spoiled. The first lines of the log, and of changed copies, are also judged as several logs, of which only the order within each is known: one of each
node's lines, or of threads' that the seed draws. The program must say of each what tools/judge.py says, with its status. With `--folder` the logs and what is to be written are put
there, for `rt try --cases FOLDER`, and no program is run.
"""
import argparse
import collections
import contextlib
import json
import pathlib
import random
import subprocess
import sys
from collections.abc import Callable
from typing import Any

import asked
import judge
import model
from compare_with_model import of_any_calls
from record_calls import log_of, written

CHANGES = 6
# (so few lines of several logs that all their orders can be tried)
TOGETHER = 7


def other(draw: random.Random, line: dict[str, Any], log: list[dict[str, Any]]) -> None:
    """Changes one member of a line."""
    name = draw.choice([member for member in line if member != "op"])
    names = [value for each in log for key, value in each.items() if key in ("at", "first", "second")] + ["nobody"]
    match name:
        case "n":
            line["n"] = max(0, line["n"] + draw.choice([-1, 1, 2]))
        case "node":
            line["node"] = draw.randrange(9)
        case "bytes":
            line["bytes"] = draw.choice(["", "a", "b", line["bytes"] + "x", "x" * 257])
        case "portals":
            line["portals"] = draw.choice([line["portals"][::-1], line["portals"][1:], [*line["portals"], draw.choice(names)]])
        case "refused":
            del line["refused"]
            line |= draw.choice([{"n": 0}, {"n": 1}, {"refused": draw.choice(judge.WORDS)}])
        case _:
            line[name] = draw.choice(names)


def change_order(draw: random.Random, log: list[dict[str, Any]], at: int) -> None:
    """Leaves a line out, writes it twice, or puts it before the one before it."""
    match draw.randrange(3):
        case 0:
            del log[at]
        case 1:
            log.insert(at, log[at])
        case _:
            log[at - 1 : at + 1] = log[at - 1 : at + 1][::-1]


def changed(draw: random.Random, log: list[dict[str, Any]]) -> bytes:
    """The log with one change."""
    log = json.loads(json.dumps(log))
    at = draw.randrange(1, len(log))
    match draw.randrange(8):
        case 0 | 1 | 2:
            change_order(draw, log, at)
        case 3:
            log[at] = {"node": log[at]["node"], "op": log[at]["op"], "at": log[at].get("at", "x"), "bytes": "", "refused": draw.choice(judge.WORDS)}
        case 4:
            text = bytearray(written(log).encode())
            text[draw.randrange(len(text))] = draw.randrange(256)
            return bytes(text)
        case _:
            other(draw, log[at], log)
    return written(log).encode()


def parted(draw: random.Random, text: bytes) -> bytes:
    """The lines of a log as those of some logs: of each its own lines in their order, and in none between them."""
    first, *lines = text.split(b"\n")[: TOGETHER + 1]
    count, is_by_node = draw.randrange(1, 4), draw.randrange(2) == 0
    logs: list[list[bytes]] = [[] for _ in range(count)]
    for line in lines:
        name = draw.randrange(count)
        with contextlib.suppress(ValueError, AttributeError, TypeError):
            value = json.loads(line)
            if is_by_node:
                name = value.get("node") % count
            line = json.dumps(value | {"log": name}).encode()
        logs[name].append(line)
    with contextlib.suppress(ValueError, TypeError):
        first = json.dumps(json.loads(first) | {"logs": count}).encode()
    merged = [first]
    while left := [log for log in logs if log]:
        merged.append(draw.choice(left).pop(0))
    return b"".join(line + b"\n" for line in merged)


def logs_of(seed: int) -> list[bytes]:
    """The log of a random script, changed copies of it, and the first lines of some as several logs."""
    draw = random.Random(seed)
    script = of_any_calls(draw)
    log = log_of(script, model.transcript(script)[0].splitlines())
    copies = [changed(draw, log) for _ in range(CHANGES) if len(log) > 1]
    fronts = [written(log[: TOGETHER + 1]).encode()] + [changed(draw, log[: TOGETHER + 1]) for _ in copies]
    return [written(log).encode(), *copies, *(parted(draw, front) for front in fronts)]


def compare(
    doc: str, name: str, count: int, logs_of: Callable[[int], list[bytes]], verdict: Callable[[bytes], str],
    also: Callable[[pathlib.Path, int], list[str]] = lambda program, seed: [],
) -> int:
    """Has a program and the judge of this name say what is to be said of the logs of so many seeds, by the arguments that `doc` tells of; `also` gives what
    else is wrong with a program by a seed."""
    parser = asked.parser(doc)
    parser.add_argument("program")
    parser.add_argument("count", type=int, nargs="?", default=count)
    parser.add_argument("first", type=int, nargs="?", default=0)
    parser.add_argument("--folder", type=pathlib.Path)
    arguments = parser.parse_args()
    program = None
    if not arguments.folder:
        try:
            program = asked.program(arguments.program)
        except argparse.ArgumentTypeError as why:
            parser.error(str(why))
    wrong = 0
    said: collections.Counter[str] = collections.Counter()
    for seed in range(arguments.first, arguments.first + arguments.count):
        for number, log in enumerate(logs_of(seed)):
            wanted = verdict(log)
            said[wanted.partition("\n")[0].split(": ")[-1]] += 1
            if number == 0 and wanted != "allowed":
                print(f"{seed}.{number}: {name} says {wanted}")
                wrong += 1
            if arguments.folder:
                (arguments.folder / f"{seed}.{number}").write_bytes(log)
                (arguments.folder / f"{seed}.{number}.stdout").write_text(wanted + "\n")
                continue
            done = subprocess.run([program], input=log, capture_output=True)
            if (done.stdout.decode(), done.returncode) != (wanted + "\n", 0 if wanted == "allowed" else 2):
                print(f"{seed}.{number}: the program says {done.stdout.decode()!r}, status {done.returncode}; {name} {wanted!r}")
                wrong += 1
        for fault in also(program, seed) if program else []:
            print(f"{seed}: {fault}")
            wrong += 1
    print(", ".join(f"{times} {what}" for what, times in sorted(said.items())) + f"; {wrong} differ")
    return 1 if wrong else 0


if __name__ == "__main__":
    sys.exit(compare(__doc__, "tools/judge.py", 200, logs_of, judge.verdict))
