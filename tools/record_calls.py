"""Turns a script of ipcz_run and its transcript into a log for ipcz_judge.

    python3 tools/record_calls.py SCRIPT < TRANSCRIPT > LOG

The log has the calls of the script, each with its answer and with the node whose callers held the portal. A command that made no call
(`UnknownName`, `Away`) has no line, and neither have turns, settles and the link words.
"""
import argparse
import json
import sys
from typing import Any

import asked

CALLS = ("open", "put", "get", "close")


def answers_of(lines: list[str]) -> list[str]:
    """The lines of calls. What a node does begins with the node, a settle is one word, and the words' line has a word of its own."""
    return [line for line in lines if line.split(" ")[0] in CALLS]


def log_of(script: dict[str, Any], lines: list[str]) -> list[dict[str, Any]]:
    """The log of a script whose transcript has these lines."""
    nodes = script["nodes"]
    holder = {f"{i}>{j}": i for i in range(nodes) for j in range(nodes) if i != j}
    log: list[dict[str, Any]] = [{"nodes": nodes, "profile": "printed"}]
    answers = iter(answers_of(lines))
    for command in script["commands"]:
        if command[0] in CALLS:
            call = call_of(command, next(answers), holder)
            if call:
                log.append(call)
    return log


def call_of(command: list[Any], answer: str, holder: dict[str, int | None]) -> dict[str, Any] | None:
    """The line of a command with this answer, if it made a call; `holder` says which node's callers hold each portal, and is kept so."""
    op, *rest = command
    if op == "open":
        node, first, second = rest
        said = answer.split(" ")[3]
        if said != "ok":
            return {"node": node, "op": op, "refused": said}
        holder[first] = holder[second] = node
        return {"node": node, "op": op, "first": first, "second": second}
    name = rest[0]
    said, *more = answer.removeprefix(f"{op} {name} ").split(" ", 2)
    if said in ("UnknownName", "Away"):
        return None
    call: dict[str, Any] = {"node": holder[name], "op": op, "at": name}
    if op == "put":
        call |= {"bytes": rest[1], "portals": rest[2] if len(rest) > 2 else []}
    if not said.isdigit():
        return call | {"refused": said}
    if op == "put":
        holder.update(dict.fromkeys(call["portals"]))
    elif op == "get":
        names = [each for each in more[0][1:-1].split(",") if each]
        call |= {"bytes": more[1][1:-1], "portals": names}
        holder.update(dict.fromkeys(names, holder[name]))
    else:
        holder[name] = None
    return call | {"n": int(said)}


def written(log: list[dict[str, Any]]) -> str:
    return "".join(json.dumps(line) + "\n" for line in log)


def main() -> None:
    parser = asked.parser(__doc__)
    parser.add_argument("script", type=argparse.FileType(encoding="utf-8"))
    script = json.load(parser.parse_args().script)
    sys.stdout.write(written(log_of(script, sys.stdin.read().splitlines())))


if __name__ == "__main__":
    main()
