"""Makes a script smaller, as long as a command still ends with another status than 0 on it.

    python3 tools/shrink.py SCRIPT -- COMMAND [ARGUMENT ..]

COMMAND gets a script as its input, and is to fail where the difference is seen that is looked for: for example a shell script that compares what
an implementation writes with what tools/model.py writes, or what ipcz_judge says of the calls that it has recorded (docs/JUDGE.md, "A worked example"). It
prints the smallest script that was found, one command a line: no command can be left out of it, no node be taken away or be made one with another, and no
number, list or text in it be made smaller by the ways that are tried. Only what is a script is given to COMMAND, and each only once. It fails if COMMAND ends
with 0 on SCRIPT itself.
"""
import argparse
import functools
import json
import pathlib
import subprocess
import sys
from collections.abc import Callable, Iterator
from typing import Any

import asked
import model

MOST_SECONDS = 60

Fails = Callable[[Any], bool]


def fails_by(command: list[str]) -> Fails:
    """Whether a value is a script on which the command fails. One that goes on for long fails, too."""

    @functools.cache
    def fails_on(text: str) -> bool:
        try:
            return subprocess.run(command, input=text.encode(), stdout=subprocess.DEVNULL, stderr=subprocess.DEVNULL, timeout=MOST_SECONDS).returncode != 0
        except subprocess.TimeoutExpired:
            return True

    return lambda script: model.first_fault(script) is None and fails_on(json.dumps(script))


def without_commands(script: dict, fails: Fails) -> dict:
    """The script without each run of commands that can be left out: first long ones, then shorter ones."""
    size = len(script["commands"])
    while size:
        at = 0
        while at < len(script["commands"]):
            commands = script["commands"][:at] + script["commands"][at + size :]
            if fails(script | {"commands": commands}):
                script = script | {"commands": commands}
            else:
                at += size
        size //= 2
    return script


def renamed(name: str, places: list[int | None]) -> str | None:
    """A portal's name where node i is called places[i]. None if it is one of a first pair, and a node of it has no place, or both have the same."""
    ends = name.split(">")
    if len(ends) != 2 or not all(end.isdigit() and int(end) < len(places) for end in ends):
        return name
    node, other = (places[int(end)] for end in ends)
    return None if None in (node, other) or node == other else f"{node}>{other}"


def on_other_nodes(command: list, places: list[int | None]) -> list | None:
    """A command likewise, without the portals of its parcel that have no name any more; None if it can't be given."""
    match command:
        case ["open" | "turn" as kind, node, *rest]:
            return None if places[node] is None else [kind, places[node], *rest]
        case ["put", name, data, names] if renamed(name, places):
            return ["put", renamed(name, places), data, [other for each in names if (other := renamed(each, places))]]
        case ["put" | "get" | "close" as kind, name, *rest]:
            return [kind, renamed(name, places), *rest] if renamed(name, places) else None
    return command


def on_fewer_nodes(script: dict) -> Iterator[dict]:
    """The script without one of its nodes: what was done there is left out, or done on another node."""
    nodes = script["nodes"]
    for gone in range(nodes):
        rest = [node - (node > gone) for node in range(nodes)]
        for place in [None, *sorted({rest[node] for node in range(nodes) if node != gone})]:
            places = [place if node == gone else rest[node] for node in range(nodes)]
            commands = [moved for command in script["commands"] if (moved := on_other_nodes(command, places))]
            yield script | {"nodes": nodes - 1, "commands": commands}


def smaller_numbers(number: int) -> Iterator[int]:
    """From the smallest on; few of them."""
    yield from sorted({0, 1, number // 2, number - 1} & set(range(number)))


def smaller_commands(command: list) -> Iterator[list]:
    match command:
        case ["put", name, data, names]:
            yield ["put", name, data]
            yield from (["put", name, data, names[:at] + names[at + 1 :]] for at in range(len(names)) if len(names) > 1)
            yield from (["put", name, data[:length], names] for length in smaller_numbers(len(data)))
        case ["put", name, data]:
            yield from (["put", name, data[:length]] for length in smaller_numbers(len(data)))
        case ["open", node, first, second]:
            yield from (["open", other, first, second] for other in range(node))
        case ["turn", node, turns]:
            yield from (["turn", node, fewer] for fewer in smaller_numbers(turns))
        case ["settle", limit]:
            yield from (["settle", less] for less in smaller_numbers(limit))


def with_fewer_nodes(script: dict, fails: Fails) -> dict:
    while smaller := next(filter(fails, on_fewer_nodes(script)), None):
        script = smaller
    return script


def smaller_scripts(script: dict) -> Iterator[dict]:
    """Those that differ from it in one value, which is smaller."""
    commands = script["commands"]
    for at, command in enumerate(commands):
        yield from (script | {"commands": [*commands[:at], smaller, *commands[at + 1 :]]} for smaller in smaller_commands(command))
    yield from (script | {"words": fewer} for fewer in smaller_numbers(script["words"]))


def with_smaller_values(script: dict, fails: Fails) -> dict:
    while smaller := next(filter(fails, smaller_scripts(script)), None):
        script = smaller
    return script


def shrunk(script: dict, fails: Fails) -> dict:
    smaller = with_smaller_values(with_fewer_nodes(without_commands(script, fails), fails), fails)
    return smaller if smaller == script else shrunk(smaller, fails)


def printed(script: dict) -> str:
    lines = ",\n".join(json.dumps(command) for command in script["commands"])
    return f'{{"nodes":{script["nodes"]},"words":{script["words"]},"commands":[\n{lines}\n]}}'


def main() -> None:
    parser = asked.parser(__doc__)
    parser.add_argument("script", type=pathlib.Path)
    parser.add_argument("command", nargs=argparse.REMAINDER)
    given = parser.parse_args()
    command = given.command[1:] if given.command[:1] == ["--"] else given.command
    if not command:
        parser.error("which command is it?")
    try:
        script = model.read_json(given.script.read_text())
    except (OSError, ValueError) as fault:
        parser.error(f"{given.script} is no script: {fault}")
    fails = fails_by(command)
    if not fails(script):
        sys.exit(f"{given.script} is no script on which the command fails")
    print(printed(shrunk(script, fails)))


if __name__ == "__main__":
    main()
