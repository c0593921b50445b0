"""Judges a log with events by tools/model.py: whether its calls and the acts of its nodes, in the order of the log, are those of a world.

    python3 tools/judge_events.py < LOG                          prints `allowed`, or the first line that isn't, with a text that is allowed in its place, and,
                                                                 of an act, each act that its node could take there
    python3 tools/judge_events.py --run SCRIPT --seed N > LOG    runs a script in which each node takes any of its possible acts, as the seed draws, or the
                                                                 act that a command of the script names

What a log is tells docs/JUDGE.md, "Events", and how a run is drawn its part "Drawing an order of acts". Nothing of it is proved.
"""
import json
import pathlib
import re
import sys
from collections.abc import Iterator
from typing import Any

import asked
import model

# An act of a node: what comes before its first blank, and what it is about.
Act = tuple[str, Any]
VERBS = {
    "send out": model.World.send_out, "send in": model.World.send_in, "discard": model.World.discard, "finish out": model.World.finish_out,
    "finish in": model.World.finish_in, "leave": model.World.leave, "mark": model.World.mark, "wake": model.World.wake, "claim": model.World.claim,
    "lock": model.World.lock, "wait": model.World.lock, "refused": model.World.lock, "begin": model.World.begin, "retire": model.World.retire,
    "rest": model.World.rest, "unlock": None,
}
# What routers do, in the order in which it is told: the verbs that name another act's outcome are left out.
TOLD_VERBS = [
    "send out", "send in", "discard", "finish out", "finish in", "leave", "mark", "wake", "claim", "lock", "begin", "retire", "unlock", "rest",
]


# A number as events have it.
NUMBER = re.compile(r"0|[1-9]\d{0,19}", re.ASCII)


class NoLine(Exception):
    """What stands there is no line of a log."""


class World(model.World):
    """A world in which a node takes the act that it is told to. What isn't possible changes nothing, and gives nothing."""

    def take(self, number: int, act: Act) -> str | None:
        """Takes an act."""
        if not 0 <= number < len(self.nodes):
            return None
        node = self.nodes[number]
        match act:
            case "hand", _:
                return self.hand(node)
            case "look", sender:
                return self.look_at(node, sender)
            case "post", receiver:
                return self.post_to(node, receiver)
            case "close", end:
                return self.pending_close(node) if end == self.next_close(node) else None
            case "idle", _:
                return "idle" if self.is_idle(number) else None
            case verb, serial:
                return self.let_act(node, serial, verb)

    def next_close(self, node: model.Node) -> str | None:
        """The end that a node closes next."""
        return "{}{}".format(*node.pending_closes[0]) if node.pending_closes else None

    def has_hand(self, number: int) -> bool:
        """Whether a node has a message in its hand."""
        return any(each is not None and each[1] for (_, to), each in self.mailboxes.items() if to == number)

    def look_at(self, node: model.Node, sender: int) -> str | None:
        mail = self.mailboxes.get((sender, node.number))
        if not mail or self.has_hand(node.number):
            return None
        self.mailboxes[sender, node.number] = mail[0], True
        return f"look {sender}"

    def post_to(self, node: model.Node, receiver: int) -> str | None:
        if receiver >= len(node.outboxes) or not node.outboxes[receiver] or self.mailboxes[node.number, receiver]:
            return None
        self.mailboxes[node.number, receiver] = node.outboxes[receiver].pop(0), False
        return f"post {receiver}"

    def let_act(self, node: model.Node, serial: int, verb: str) -> str | None:
        router = node.routers.get(serial)
        if router is None:
            return None
        if verb == "rest":
            event = self.rest(node, router) if self.is_possible(node.number, (verb, serial)) else None
        else:
            event = self.unlock(node, router) if verb == "unlock" else VERBS[verb](self, node, router)
        if event and (event.endswith("leave") or event.startswith("retire")):
            del node.routers[serial]
        return f"r{serial} {event}" if event else None

    def unlock(self, node: model.Node, router: model.Router) -> str | None:
        """It stands in for a begin and a retire."""
        if not router.holds or not (router.is_proxy() or self.is_done(router)):
            return None
        at = router.outward.primary
        router.holds = False
        router.flag()
        return self.changed("unlock", at, self.word(at) % 256 & ~model.LOCKED[at.side])

    def acts_of(self, number: int) -> Iterator[Act]:
        """What a node could do, if it is possible, in the order in which it is told."""
        node, others = self.nodes[number], range(len(self.nodes))
        yield "hand", None
        yield from (("look", sender) for sender in others)
        yield from (("post", receiver) for receiver in others)
        yield "close", self.next_close(node)
        yield from ((verb, serial) for serial in sorted(node.routers) for verb in TOLD_VERBS)
        yield "idle", None

    def is_possible(self, number: int, act: Act) -> bool:
        """Whether a node may take an act that is one of `acts_of`."""
        node = self.nodes[number]
        match act:
            case "hand", _:
                return self.has_hand(number)
            case "look", sender:
                return self.mailboxes[sender, number] is not None and not self.has_hand(number)
            case "post", receiver:
                return bool(node.outboxes[receiver]) and not self.mailboxes[number, receiver]
            case "close", end:
                return end is not None
            case "idle", _:
                return self.is_idle(number)
            case "rest", serial:
                return not any(self.may(node.routers[serial], verb) for verb in TOLD_VERBS if verb != "rest")
            case verb, serial:
                return self.may(node.routers[serial], verb)

    def may(self, router: model.Router, verb: str) -> bool:
        """Whether a router may do this, which is no rest (docs/PROTOCOL.md, "Turns")."""
        waiting, coming = router.out_queue, router.in_queue
        match verb:
            case "send out":
                return waiting.next() is not None and router.outward.choose(waiting.current) is not None
            case "send in":
                return router.is_proxy() and coming.next() is not None and router.inward.choose(coming.current) is not None
            case "discard":
                return router.is_sink() and coming.next() is not None
            case "finish out":
                return router.outward.can_finish(waiting.current, coming.reach())
            case "finish in":
                return router.is_proxy() and router.inward.can_finish(coming.current, waiting.reach())
            case "leave":
                return router.is_proxy() and (router.gone_sent or not any(edge.links() for edge in router.edges()))
            case "mark":
                return router.is_settled() and not router.marked
            case "wake":
                return router.wake_owed
            case "claim":
                return router.is_proxy() and self.could_try(router) and router.spare is None and not router.dry
            case "lock":
                return self.could_try(router) and not router.holds and (self.is_done(router) or router.is_proxy() and router.spare is not None)
            case "begin":
                return router.is_proxy() and router.holds
            case "retire":
                return self.is_done(router) and router.holds
            case _:
                return router.holds and (router.is_proxy() or self.is_done(router))

    def possible(self, number: int) -> list[Act]:
        """All that a node could do now."""
        return [act for act in self.acts_of(number) if self.is_possible(number, act)]


def beginning(act: Act) -> str:
    """The words that an event of an act begins with."""
    match act:
        case "hand" | "idle" as verb, _:
            return verb
        case "look" | "post" | "close" as verb, about:
            return f"{verb} {about}"
        case verb, serial:
            return f"r{serial} {verb}"


class Run(model.Run):
    def __init__(self, nodes: int, words: int) -> None:
        super().__init__(nodes, words)
        self.world = World(nodes, words)


def named(text: str) -> Act | None:
    """The act that the first words of an event name, if they name one; only what it prints tells whether it is that act. A word ends at a space."""
    word, _, rest = text.partition(" ")
    verb, way = [*rest.split(" "), ""][:2]
    if verb in ("send", "finish"):
        verb += " " + way
    match word:
        case "hand" | "idle":
            return word, None
        case "look" | "post":
            return (word, int(rest)) if NUMBER.fullmatch(rest) else None
        case "close":
            return word, rest
        case _:
            is_router = word[:1] == "r" and NUMBER.fullmatch(word[1:])
            return (verb, int(word[1:])) if is_router and verb in VERBS else None


def read(line: str) -> dict[str, Any]:
    try:
        value = model.read_json(line)
    except ValueError as fault:
        raise NoLine from fault
    if not isinstance(value, dict):
        raise NoLine
    return value


def own_text(line: dict[str, Any]) -> str:
    """The text of an event, or the answer of a call."""
    return line["event"] if isinstance(line.get("event"), str) else line["answer"]


def taken(run: Run, line: dict[str, Any]) -> str | None:
    """Takes the call of a line, or the act that its event begins with, and gives what that prints: with this text the line may come next. None if it is no call,
    or no such act is possible."""
    if isinstance(text := line.get("event"), str):
        if not model.is_number(line.get("node"), 0, 255):
            raise NoLine
        act = named(text)
        return run.world.take(int(line["node"]), act) if act else None
    command = line.get("call")
    if not isinstance(line.get("answer"), str) or not model.is_command(command, len(run.world.nodes), set()):
        raise NoLine
    return None if command[0] in ("turn", "settle") else run.do(command)[0]


def verdict(log: str) -> str:
    """What is said of a log."""
    lines = log.split("\n")
    lines = lines[:-1] if lines[-1] == "" else lines
    try:
        header = read(lines[0] if lines else "")
        nodes, words = header.get("nodes"), header.get("words")
        if not model.is_number(nodes, 1, 8) or not model.is_number(words, int(nodes) * (int(nodes) - 1) // 2, 4096):
            raise NoLine
    except NoLine:
        return "line 1: no line of a log"
    run = Run(int(nodes), int(words))
    for number, text in enumerate(lines[1:], 2):
        try:
            line = read(text)
            instead = taken(run, line)
        except NoLine:
            return f"line {number}: no line of a log"
        if instead != own_text(line):
            said = [f"line {number}: refused"] + ([] if instead is None else [f"in its place: {instead}"])
            return "\n".join(said + acts_there(line, int(nodes), int(words), lines[1 : number - 1]))
    return "allowed"


def acts_there(line: dict[str, Any], nodes: int, words: int, before: list[str]) -> list[str]:
    """The lines that tell each act that the node of an act could take behind the lines before; none of a call, or if there is no such node."""
    if not isinstance(line.get("event"), str) or line["node"] >= nodes:
        return []
    run = Run(nodes, words)
    for text in before:
        taken(run, read(text))
    return [f"possible: {beginning(act)}" for act in run.world.possible(int(line["node"]))]


# ---- runs


class Draw:
    """What a seed draws, as docs/JUDGE.md, "Drawing an order of acts", has it."""

    def __init__(self, seed: int) -> None:
        self.state = seed

    def choice(self, among: list[Any]) -> Any:
        self.state = (self.state * 6364136223846793005 + 1442695040888963407) % 2**64
        return among[(self.state >> 32) % len(among)]


class NotPossible(Exception):
    """A command asks for an act that its node can't take there: the lines that tell which it could take."""


def drawn_act(world: World, number: int, draw: Draw) -> str:
    """Takes some possible act of a node: a rest only if nothing else is possible."""
    possible = world.possible(number)
    event = world.take(number, draw.choice([act for act in possible if act[0] != "rest"] or possible))
    assert event is not None
    return event


def drawn_turns(world: World, number: int, most: int, draw: Draw) -> Iterator[dict[str, Any]]:
    """At most so many turns of a node, up to an idle one."""
    for _ in range(most):
        event = drawn_act(world, number, draw)
        yield {"node": number, "event": event}
        if event == "idle":
            return


def drawn_settle(world: World, most: int, draw: Draw) -> Iterator[dict[str, Any]]:
    """At most so many acts of nodes that have something to do, up to where none has."""
    for _ in range(most):
        busy = [number for number in range(len(world.nodes)) if not world.is_idle(number)]
        if not busy:
            return
        number = draw.choice(busy)
        yield {"node": number, "event": drawn_act(world, number, draw)}


def asked_act(world: World, number: int, words: str) -> dict[str, Any]:
    """The act of a node that an event with these words begins with."""
    act = named(words)
    event = world.take(number, act) if act else None
    if event is None:
        raise NotPossible([f"possible: {beginning(act)}" for act in world.possible(number)])
    return {"node": number, "event": event}


def called(run: Run, command: list[Any]) -> dict[str, Any]:
    """A call with its answer; a put has a list of portals, whether it has some or not."""
    call = [*command, []] if command[0] == "put" and len(command) == 3 else command
    return {"call": call, "answer": run.do(command)[0]}


def lines_of_run(script: dict[str, Any], seed: int) -> Iterator[dict[str, Any]]:
    """The lines of the log of a run, one after the other; NotPossible where the run ends at a command that asks for an act."""
    draw = Draw(seed)
    run = Run(script["nodes"], script["words"])
    yield {"nodes": script["nodes"], "words": script["words"], "seed": seed}
    for number, command in enumerate(script["commands"], 1):
        match command:
            case ["turn", node, most]:
                yield from drawn_turns(run.world, node, most, draw)
            case ["settle", most]:
                yield from drawn_settle(run.world, most, draw)
            case ["act", node, words]:
                try:
                    yield asked_act(run.world, node, words)
                except NotPossible as why:
                    raise NotPossible([f"command {number}: not possible", *why.args[0]]) from why
            case _:
                yield called(run, command)


def log_of(script: dict[str, Any], seed: int) -> list[dict[str, Any]]:
    """The log of a run of a script in which the seed draws which node acts next in a settle, and which of its possible acts a node takes."""
    return list(lines_of_run(script, seed))


def written(log: list[dict[str, Any]]) -> str:
    return "".join(json.dumps(line, ensure_ascii=False, separators=(",", ":"), sort_keys=True) + "\n" for line in log)


def first_fault(script: Any) -> int | None:
    """As of a script (tools/model.py), which may have commands that ask for acts."""
    if type(script) is not dict or type(commands := script.get("commands")) is not list:
        return model.first_fault(script)
    nodes = script.get("nodes")
    without = [["show"] if is_act(command, nodes) else command for command in commands]
    return model.first_fault(script | {"commands": without})


def is_act(command: Any, nodes: Any) -> bool:
    match command:
        case ["act", node, str()]:
            return type(nodes) is int and model.is_number(node, 0, nodes - 1)
    return False


def output(script: bytes, seed: int) -> tuple[str, int]:
    """What is written for the bytes of a script that is run by a seed, and the status."""
    if len(script) > model.MOST_BYTES:
        return "refused TooLong\n", 2
    try:
        value = model.read_json(script.decode())
    except ValueError:
        return "refused NotJson\n", 2
    if (fault := first_fault(value)) is not None:
        return f"refused BadShape {fault}\n", 2
    log: list[dict[str, Any]] = []
    try:
        for line in lines_of_run(value, seed):
            log.append(line)
    except NotPossible as why:
        return written(log) + "".join(f"{line}\n" for line in why.args[0]), 2
    return written(log), 0


def main() -> int:
    parser = asked.parser(__doc__)
    parser.add_argument("--run", type=pathlib.Path, metavar="SCRIPT", help="a script that is run")
    parser.add_argument("--seed", type=int, default=0, help="what draws the order of acts, a number below 2^64 (0)")
    given = parser.parse_args()
    if not 0 <= given.seed < 2**64:
        parser.error(f"the seed {given.seed} isn't from 0 to 2^64 - 1")
    if given.run:
        text, status = output(given.run.read_bytes(), given.seed)
        print(text, end="")
        return status
    said = verdict(sys.stdin.read())
    print(said)
    return 0 if said == "allowed" else 2


if __name__ == "__main__":
    sys.exit(main())
