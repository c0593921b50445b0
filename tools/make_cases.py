"""Draws scripts for who tests an implementation of its own, until each kind of line and each rare case came often enough.

    python3 tools/make_cases.py FOLDER [--times N] [--seed N] [--most N]
    python3 tools/make_cases.py --check PROGRAM [--times N] [--seed N] [--most N]

FOLDER gets three files for each case: NUMBER.json, a script; NUMBER.txt, the transcript that tools/model.py writes for it, in which each node takes its first
possible act; and NUMBER.log, the calls of that run with their answers, as ipcz_judge reads them. Another implementation may take other acts, and then writes other
lines of turns; what is got, with its number and its portals, is the same wherever all was settled before. Whether its own calls may have their answers ipcz_judge
says (docs/JUDGE.md). With `--check` no file is written: PROGRAM, which is `ipcz_run`, runs each case, and must write the model's transcript, with its status;
tools/judge.py must allow its calls; and only what is wrong is printed, with how many cases there were.

A case is kept if something came in it that hadn't come N times before (3 if nothing is said). It prints how often each kind came in the cases that were kept: a line
each time that it is written, and a rare case each time that it begins. It fails if one didn't come often enough in so many scripts (2,000 if nothing is said). The
scripts are the same for the same seed. A Flush that finds no router is so rare that it isn't waited for; strays, and what comes of missing memory, no script shows.

The rare cases are states of the model's world after a turn, a call or a whole settle; they stand below, each with its test. That a try for the lock is lost is told
by the lines `wait` and `refused`, and a flush by `hand Flush`.
"""
import argparse
import collections
import json
import pathlib
import random
import subprocess
import sys
from collections.abc import Callable, Iterator
from typing import Any

import asked
import judge
import model
from compare_with_model import Drawing, form, of_any_calls, of_rounds
from record_calls import log_of, written

Script = dict[str, Any]

EVENTS = [
    "hand item", "hand BypassPeer", "hand AcceptBypass", "hand StopProxying", "hand ProxyWillStop", "hand Flush", "look", "post", "close",
    "send out", "send out moves", "send in", "send in moves", "discard", "discard leave", "finish out", "finish in", "leave", "rest", "mark", "wake", "lock", "wait",
    "refused", "claim", "claim NoWord", "begin", "retire", "idle",
]
REFUSALS = [
    "open NoWord", "put UnknownName", "put Away", "put TooMany", "put BadData", "put SelfAttach", "put PeerAttach", "put Stranger", "put PeerClosed",
    "get Empty", "get PeerClosed", "get UnknownName", "get Away", "close UnknownName", "close Away", "unsettled",
]


def routers(world: model.World) -> Iterator[model.Router]:
    return (router for node in world.nodes for router in node.routers.values())


def terminals(world: model.World) -> Iterator[model.Router]:
    return (router for router in routers(world) if not router.is_proxy())


def is_in_bypass(router: model.Router) -> bool:
    """Whether it is a proxy that has begun its bypass, and so has no new links, and still has an old one."""
    return router.is_proxy() and router.outward.primary is None and any(edge.decaying for edge in router.edges())


def is_nearly_done(router: model.Router) -> bool:
    """Whether it is in its bypass, and has heard how many items still pass it."""
    return is_in_bypass(router) and router.outward.length_to is not None


def in_bypass(world: model.World) -> list[model.End]:
    return [router.end for router in routers(world) if is_in_bypass(router)]


def travelling(world: model.World) -> set[model.End]:
    """The ends that nobody holds now and nobody has closed."""
    held = set().union(*(node.held for node in world.nodes))
    return {router.end for router in terminals(world) if not router.closed and router.end not in held}


def closed(world: model.World) -> set[model.End]:
    return {router.end for router in terminals(world) if router.closed}


def proxies_of_an_end(world: model.World) -> int:
    return max(collections.Counter(router.end for router in routers(world) if router.is_proxy()).values(), default=0)


def have_neighbours_words(world: model.World) -> bool:
    """Whether the proxies at both ends of one link have each claimed a word: both try for the lock of that link, and only one may get it."""
    links = [router.outward.primary.link for router in routers(world) if router.spare is not None]
    return len(set(links)) < len(links)


def waits_behind_a_gap(router: model.Router, is_meant: Callable[[model.Item], bool]) -> bool:
    reach = router.in_queue.reach()
    return any(number > reach and is_meant(item) for number, item in router.in_queue.items.items())


def has_left(world: model.World, side: str) -> bool:
    """Whether of a pair's terminals only that of the other side is left, and no end of the pair travels."""
    ends = {router.end for router in routers(world)}
    return any((pair, side) not in ends and (pair, other) in ends for pair, other in ends if other != side)


RARE: dict[str, Callable[[model.World], bool]] = {
    "two neighbouring proxies try for the lock of their link at once": have_neighbours_words,
    "two proxies of one end in their bypasses at once": lambda world: len(set(in_bypass(world))) < len(in_bypass(world)),
    "proxies of both ends of a pair in their bypasses at once": lambda world: any(model.opposite(end) in in_bypass(world) for end in in_bypass(world)),
    "a parcel overtakes another by the new link of a bypass, and waits": lambda world: any(
        waits_behind_a_gap(router, lambda item: item.data is not None) for router in terminals(world)
    ),
    "a close overtakes a parcel by the new link of a bypass, and waits": lambda world: any(waits_behind_a_gap(router, model.Item.is_mark) for router in terminals(world)),
    "both ends of a pair travel at once": lambda world: any(model.opposite(end) in travelling(world) for end in travelling(world)),
    "an end travels on while a proxy of it is in its bypass": lambda world: bool(travelling(world).intersection(in_bypass(world))),
    "an end is closed while a proxy of it is in its bypass": lambda world: bool(closed(world).intersection(in_bypass(world))),
    "an end is closed while a proxy of its peer is in its bypass": lambda world: bool(closed(world).intersection(map(model.opposite, in_bypass(world)))),
    "three proxies of one end in a row": lambda world: proxies_of_an_end(world) >= 3,
    "a proxy without a word": lambda world: any(router.dry for router in routers(world)),
    "side A has retired, and side B is still there": lambda world: has_left(world, "A"),
    "side B has retired, and side A is still there": lambda world: has_left(world, "B"),
}
WANTED = [*(f"n: {event}" for event in EVENTS), *REFUSALS, *RARE]
# The portals that move in a script of moves.
PAIR = ("0>1", "1>0")


class Moves(Drawing):
    """A script in which the portals of one first pair move by way of the others, while parcels with different bytes are put at them. One node at a time takes no
    turns, often one with a proxy that is being bypassed; and an end is closed mostly while it has an old link."""

    def __init__(self, draw: random.Random) -> None:
        super().__init__(draw, words=60, nodes=draw.choice([3, 3, 4]))
        self.asleep, self.puts = 0, 0

    def holders(self) -> list[tuple[str, model.Node]]:
        """The portals of the pair that are held, each with its node."""
        held = ((name, self.run.world.holder_of(self.run.ends[name])) for name in PAIR)
        return [(name, node) for name, node in held if node]

    def full(self) -> list[str]:
        """The portals at which a get finds something."""
        return [name for node in self.run.world.nodes for name in self.held(node) if node.open_terminal(self.run.ends[name]).in_queue.next()]

    def turns(self) -> None:
        nearly_done = [node.number for node in self.run.world.nodes if any(map(is_nearly_done, node.routers.values()))]
        bypassed = [router.outward.decaying.other for router in terminals(self.run.world) if router.outward.decaying]
        if self.draw.random() < (0.9 if nearly_done else 0.3):
            self.asleep = self.draw.choice(nearly_done or bypassed or range(self.nodes))
        awake = [node for node in range(self.nodes) if node != self.asleep]
        self.add("turn", self.draw.choice(awake), self.draw.choice([1, 3, 9]))

    def call(self) -> None:
        kind, full, holders = self.draw.random(), self.full(), self.holders()
        if kind < 0.25 and full:
            self.add("get", self.draw.choice(full))
        elif holders:
            name, node = self.draw.choice(holders)
            ways = [way for way in self.held(node) if ">" in way and way not in PAIR]
            if kind < 0.35 and ways:
                self.add("put", self.draw.choice(ways), "", [name])
            elif kind > (0.8 if node.open_terminal(self.run.ends[name]).outward.decaying else 0.99):
                self.add("close", name)
            else:
                self.puts += 1
                self.add("put", name, str(self.puts))


def of_moves(draw: random.Random) -> Script:
    moves = Moves(draw)
    for _ in range(draw.choice([40, 80, 120])):
        if draw.random() < 0.5:
            moves.turns()
        else:
            moves.call()
    moves.get_all()
    return moves.script()


def steps_of(run: model.Run, command: list) -> Iterator[list[str]]:
    """The lines of a command, those of each turn by themselves."""
    if command[0] != "turn":
        yield run.do(command)
        return
    for _ in range(command[2]):
        lines = run.do(["turn", command[1], 1])
        yield lines
        if lines[0].endswith(": idle"):
            return


def kinds_of(script: Script) -> collections.Counter[str]:
    """How often each kind of line came, and how often each rare case began."""
    run = model.Run(script["nodes"], script["words"])
    kinds: collections.Counter[str] = collections.Counter()
    there: set[str] = set()
    for lines in (lines for command in script["commands"] for lines in steps_of(run, command)):
        kinds.update(map(form, lines))
        now = {name for name, is_there in RARE.items() if is_there(run.world)}
        kinds.update(now - there)
        there = now
    return kinds


def scripts(seed: int, most: int) -> Iterator[Script]:
    for number in range(seed, seed + most):
        kinds = [of_any_calls, of_moves, of_moves] * 5 + [of_rounds]
        yield kinds[number % len(kinds)](random.Random(number))


def cases_of(seed: int, most: int, times: int) -> tuple[list[Script], collections.Counter[str]]:
    """The cases, and how often each kind came in them."""
    came: collections.Counter[str] = collections.Counter()
    cases: list[Script] = []
    for script in scripts(seed, most):
        kinds = kinds_of(script)
        if any(came[kind] < times for kind in kinds if kind in WANTED):
            came.update(kinds)
            cases.append(script)
        if all(came[kind] >= times for kind in WANTED):
            break
    return cases, came


def write(folder: pathlib.Path, number: int, script: Script) -> None:
    text = model.transcript(script)[0]
    (folder / f"{number:03}.json").write_text(json.dumps(script) + "\n")
    (folder / f"{number:03}.txt").write_text(text)
    (folder / f"{number:03}.log").write_text(written(log_of(script, text.splitlines())))


def faults_of(script: Script, program: pathlib.Path) -> list[str]:
    """What is otherwise of a case than it must be: what the program writes; and what tools/judge.py says of its calls."""
    text, status = model.transcript(script)
    done = subprocess.run([program], input=json.dumps(script).encode(), capture_output=True)
    faults = ["the program writes otherwise than the model"] if (done.stdout, done.stderr, done.returncode) != (text.encode(), b"", status) else []
    verdict = judge.verdict(written(log_of(script, text.splitlines())).encode())
    return faults + ([f"tools/judge.py says {verdict}"] if verdict != "allowed" else [])


def arguments() -> argparse.Namespace:
    parser = asked.parser(__doc__)
    parser.add_argument("folder", type=pathlib.Path, nargs="?")
    parser.add_argument("--check", type=asked.program, metavar="PROGRAM", help="run each case by ipcz_run, and compare")
    parser.add_argument("--times", type=int, default=3, help="how often each kind is to come")
    parser.add_argument("--seed", type=int, default=0, help="the seed of the first script")
    parser.add_argument("--most", type=int, default=2000, help="how many scripts are drawn at most")
    given = parser.parse_args()
    if bool(given.folder) == bool(given.check):
        parser.error("either FOLDER or --check PROGRAM is needed")
    return given


def main() -> int:
    given = arguments()
    cases, came = cases_of(given.seed, given.most, given.times)
    if given.folder:
        given.folder.mkdir(parents=True, exist_ok=True)
    is_wrong = False
    for number, script in enumerate(cases):
        if given.folder:
            write(given.folder, number, script)
        for fault in faults_of(script, given.check) if given.check else []:
            is_wrong = True
            print(f"case {number}: {fault}")
    missing = [kind for kind in WANTED if came[kind] < given.times]
    print(f"{len(cases)} cases")
    for kind in missing if given.check else WANTED:
        print(f"{came[kind]:8} {kind}")
    return int(is_wrong or bool(missing))


if __name__ == "__main__":
    sys.exit(main())
