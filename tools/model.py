"""The protocol once more, in Python: after docs/PROTOCOL.md and not after the crates, to compare the program with. It is plain and slow.

    python3 tools/model.py < script.json     prints the transcript of a script, as `ipcz_run` does, with its status

Of what is no JSON it says on standard error what is wrong, too. It holds the rules for scripts of trusted nodes: which messages would be strays it doesn't know, and fails if one doesn't fit.
"""
from __future__ import annotations

import json
import math
import re
import sys
from collections.abc import Callable
from dataclasses import dataclass, field
from typing import Any

import asked

End = tuple[int, str]  # the number of a pair, and a side
Link = tuple[str, int] | tuple[str, int, int]  # ("C", word) or ("P", node, serial)
Descriptor = tuple[End, Link, int, int]  # of a moved end: the end, its link, next out, next in

OPPOSITE = {"A": "B", "B": "A"}
STABLE = {"A": 1, "B": 2}
WAITING = {"A": 4, "B": 8}
LOCKED = {"A": 16, "B": 32}


MOST_BYTES = 1048576
MOST_LEVELS = 127
U64_DIGITS = 20


class Refused(Exception):
    """A refusal, by its name."""


def opposite(end: End) -> End:
    return end[0], OPPOSITE[end[1]]


def printed(link: Link) -> str:
    return link[0] + ".".join(map(str, link[1:]))


@dataclass
class LinkEnd:
    link: Link
    side: str
    other: int


@dataclass
class Item:
    """A parcel, or the mark or Gone, which have no bytes."""
    data: bytes | None = None
    ends: list[End] = field(default_factory=list)
    is_gone: bool = False

    def is_mark(self) -> bool:
        return self.data is None and not self.is_gone


@dataclass
class Message:
    kind: str
    link: Link
    side: str
    fields: dict[str, Any]


class GapQueue:
    def __init__(self, first: int) -> None:
        self.current = first
        self.items: dict[int, Item] = {}

    def reach(self) -> int:
        number = self.current
        while number in self.items:
            number += 1
        return number

    def push(self, number: int, item: Item) -> None:
        assert number >= self.current and number not in self.items
        self.items[number] = item

    def next(self) -> Item | None:
        return self.items.get(self.current)

    def pop(self) -> Item:
        item = self.items.pop(self.current)
        self.current += 1
        return item


class Edge:
    def __init__(self, primary: LinkEnd) -> None:
        self.primary: LinkEnd | None = primary
        self.decaying: LinkEnd | None = None
        self.length_to: int | None = None
        self.length_from: int | None = None

    def links(self) -> list[LinkEnd]:
        return [at for at in (self.primary, self.decaying) if at]

    def begin_decay(self) -> None:
        assert self.primary and not self.decaying
        self.decaying, self.primary = self.primary, None

    def choose(self, number: int) -> LinkEnd | None:
        if self.decaying and (self.length_to is None or number < self.length_to):
            return self.decaying
        return self.primary

    def can_finish(self, sent: int, received: int) -> bool:
        if None in (self.decaying, self.length_to, self.length_from):
            return False
        return sent >= self.length_to and received >= self.length_from

    def finish(self) -> LinkEnd:
        given_up = self.decaying
        self.decaying = self.length_to = self.length_from = None
        return given_up


class Router:
    def __init__(self, end: End, primary: LinkEnd, is_marked: bool, next_out: int = 0, next_in: int = 0) -> None:
        self.end = end
        self.outward = Edge(primary)
        self.inward: Edge | None = None
        self.out_queue, self.in_queue = GapQueue(next_out), GapQueue(next_in)
        self.spare: int | None = None
        self.flagged = self.closed = self.mark_seen = self.dry = self.mark_dropped = self.gone_sent = False
        self.marked, self.tried, self.wake_owed, self.holds = is_marked, False, False, False

    def flag(self) -> None:
        self.flagged, self.tried = True, False

    def lose_primary(self) -> None:
        """The outward primary link changes, or is given up."""
        self.marked = self.tried = self.wake_owed = self.holds = False

    def is_proxy(self) -> bool:
        return self.inward is not None

    def is_sink(self) -> bool:
        return self.closed and not self.is_proxy()

    def edges(self) -> list[Edge]:
        return [edge for edge in (self.outward, self.inward) if edge]

    def is_settled(self) -> bool:
        """The outward primary link is central, and no edge decays."""
        at = self.outward.primary
        return at is not None and at.link[0] == "C" and not any(edge.decaying for edge in self.edges())


class Node:
    def __init__(self, number: int, count: int) -> None:
        self.number = number
        self.routers: dict[int, Router] = {}
        self.next_serial = self.next_peripheral = 0
        self.outboxes: list[list[Message]] = [[] for _ in range(count)]
        self.pending_closes: list[End] = []
        self.held: set[End] = set()

    def add(self, router: Router) -> None:
        self.routers[self.next_serial] = router
        self.next_serial += 1

    def open_terminal(self, end: End) -> Router:
        """The terminal of an end that isn't closed."""
        found = [r for r in self.routers.values() if r.end == end and not r.is_proxy() and not r.closed]
        assert len(found) == 1
        return found[0]

    def asked(self, link: Link, side: str) -> tuple[Router, Edge] | tuple[None, None]:
        """The router that has a link at a side, and its edge that has it; none and none if no router here does."""
        for router in self.routers.values():
            for edge in router.edges():
                if any(at.link == link and at.side == side for at in edge.links()):
                    return router, edge
        return None, None

    def send(self, kind: str, to: int, link: Link, side: str, **fields: Any) -> None:
        self.outboxes[to].append(Message(kind, link, side, fields))


class World:
    def __init__(self, count: int, words: int) -> None:
        self.most_words = words
        self.words: list[int] = []
        self.nodes = [Node(number, count) for number in range(count)]
        # (from, to): nothing, or a message and whether it is in hand
        self.mailboxes: dict[tuple[int, int], tuple[Message, bool] | None] = {
            (sender, receiver): None for sender in range(count) for receiver in range(count)
        }
        for low in range(count):
            for high in range(low + 1, count):
                self.make_pair(self.nodes[low], self.nodes[high])

    def make_pair(self, node_of_a: Node, node_of_b: Node) -> tuple[End, End]:
        pair = len(self.words)
        self.words.append(STABLE["A"] + STABLE["B"])
        for side, node, other in (("A", node_of_a, node_of_b), ("B", node_of_b, node_of_a)):
            node.add(Router((pair, side), LinkEnd(("C", pair), side, other.number), True))
            node.held.add((pair, side))
        return (pair, "A"), (pair, "B")

    def holder_of(self, end: End) -> Node | None:
        return next((node for node in self.nodes if end in node.held), None)

    # What callers do

    def open(self, number: int) -> tuple[End, End]:
        if len(self.words) == self.most_words:
            raise Refused("NoWord")
        return self.make_pair(self.nodes[number], self.nodes[number])

    def put(self, node: Node, at: End, data: bytes, ends: list[End]) -> int:
        router = node.open_terminal(at)
        if len(data) > 256 or len(ends) > 8:
            raise Refused("TooMany")
        if any(byte < 0x20 or byte > 0x7E for byte in data):
            raise Refused("BadData")
        if at in ends:
            raise Refused("SelfAttach")
        if opposite(at) in ends:
            raise Refused("PeerAttach")
        if not node.held.issuperset(ends) or len(set(ends)) < len(ends):
            raise Refused("Stranger")
        if router.mark_seen:
            raise Refused("PeerClosed")
        number = router.out_queue.reach()
        router.out_queue.push(number, Item(data, ends))
        router.flag()
        node.held.difference_update(ends)
        return number

    def get(self, node: Node, at: End) -> tuple[int, Item]:
        queue = node.open_terminal(at).in_queue
        item = queue.next()
        if item is None:
            raise Refused("Empty")
        if item.data is None:
            raise Refused("PeerClosed")
        node.held.update(item.ends)
        return queue.current, queue.pop()

    def close(self, node: Node, at: End) -> int:
        router = node.open_terminal(at)
        number = router.out_queue.reach()
        router.out_queue.push(number, Item())
        router.closed = True
        router.flag()
        node.held.discard(at)
        return number

    # A node's turn: each of these gives the text of its event, or nothing if it isn't possible

    def turn(self, number: int) -> str:
        node = self.nodes[number]
        for act in (self.hand, self.look, self.post, self.pending_close, self.router_act):
            event = act(node)
            if event:
                return event
        return "idle"

    def hand(self, node: Node) -> str | None:
        for sender in range(len(self.nodes)):
            mail = self.mailboxes[sender, node.number]
            if mail and mail[1]:
                self.mailboxes[sender, node.number] = None
                return self.hear(node, sender, mail[0])
        return None

    def look(self, node: Node) -> str | None:
        for sender in range(len(self.nodes)):
            mail = self.mailboxes[sender, node.number]
            if mail:
                self.mailboxes[sender, node.number] = mail[0], True
                return f"look {sender}"
        return None

    def post(self, node: Node) -> str | None:
        for receiver, outbox in enumerate(node.outboxes):
            if outbox and not self.mailboxes[node.number, receiver]:
                self.mailboxes[node.number, receiver] = outbox.pop(0), False
                return f"post {receiver}"
        return None

    def pending_close(self, node: Node) -> str | None:
        if not node.pending_closes:
            return None
        end = node.pending_closes.pop(0)
        self.close(node, end)
        return f"close {end[0]}{end[1]}"

    def router_act(self, node: Node) -> str | None:
        serials = [serial for serial, router in node.routers.items() if router.flagged]
        if not serials:
            return None
        serial = min(serials)
        router = node.routers[serial]
        for act in ROUTER_ACTS:
            event = act(self, node, router)
            if event:
                break
        if event.endswith("leave") or event.startswith("retire"):
            del node.routers[serial]
        return f"r{serial} {event}"

    # The acts of a router, likewise

    def send_out(self, node: Node, router: Router) -> str | None:
        return self.send_item(node, "send out", router.out_queue, router.outward)

    def send_in(self, node: Node, router: Router) -> str | None:
        item = router.in_queue.next()
        event = self.send_item(node, "send in", router.in_queue, router.inward) if router.is_proxy() else None
        router.gone_sent |= event is not None and item.is_gone
        return event

    def send_item(self, node: Node, name: str, queue: GapQueue, edge: Edge) -> str | None:
        number, item = queue.current, queue.next()
        at = edge.choose(number)
        if item is None or at is None:
            return None
        queue.pop()
        moves = [self.move(node, end, at.other) for end in item.ends] if at.other != node.number else []
        node.send("item", at.other, at.link, OPPOSITE[at.side], number=number, item=item, moves=moves)
        told = " moves " + ",".join(f"{pair}{side}" for pair, side in item.ends) if moves else ""
        return f"{name} {number} {printed(at.link)}{told}"

    def move(self, node: Node, end: End, to: int) -> Descriptor:
        """The terminal of an end becomes a proxy; gives the descriptor: end, link, next out, next in."""
        router = node.open_terminal(end)
        link = ("P", node.number, node.next_peripheral)
        node.next_peripheral += 1
        router.inward = Edge(LinkEnd(link, "A", to))
        router.flag()
        return end, link, router.out_queue.reach(), router.in_queue.current

    def discard(self, node: Node, router: Router) -> str | None:
        number, item = router.in_queue.current, router.in_queue.next()
        if not router.is_sink() or item is None:
            return None
        router.in_queue.pop()
        router.mark_dropped |= item.is_mark()
        node.pending_closes += item.ends
        return f"discard {number}" + (" leave" if item.is_gone else "")

    def finish_out(self, node: Node, router: Router) -> str | None:
        if not router.outward.can_finish(router.out_queue.current, router.in_queue.reach()):
            return None
        return f"finish out {printed(router.outward.finish().link)}"

    def finish_in(self, node: Node, router: Router) -> str | None:
        if not router.is_proxy() or not router.inward.can_finish(router.in_queue.current, router.out_queue.reach()):
            return None
        return f"finish in {printed(router.inward.finish().link)}"

    def leave(self, node: Node, router: Router) -> str | None:
        has_left = router.is_proxy() and (router.gone_sent or not any(edge.links() for edge in router.edges()))
        return "leave" if has_left else None

    def mark(self, node: Node, router: Router) -> str | None:
        if not router.is_settled() or router.marked:
            return None
        at = router.outward.primary
        router.marked = True
        router.wake_owed = bool(self.word(at) & WAITING[OPPOSITE[at.side]])
        return self.changed("mark", at, self.word(at) | STABLE[at.side])

    def wake(self, node: Node, router: Router) -> str | None:
        if not router.wake_owed:
            return None
        at = router.outward.primary
        router.wake_owed = False
        node.send("Flush", at.other, at.link, OPPOSITE[at.side])
        return self.changed("wake", at, self.word(at) & ~WAITING[OPPOSITE[at.side]])

    def claim(self, node: Node, router: Router) -> str | None:
        if not router.is_proxy() or not self.could_try(router) or router.spare is not None or router.dry:
            return None
        if len(self.words) == self.most_words:
            router.dry = True
            return "claim NoWord"
        router.spare = len(self.words)
        self.words.append(0)
        return f"claim {router.spare}"

    def lock(self, node: Node, router: Router) -> str | None:
        bypasses = router.is_proxy() and router.spare is not None
        if not self.could_try(router) or not (bypasses or self.is_done(router)) or router.holds:
            return None
        at = router.outward.primary
        word = self.word(at)
        router.tried = True
        if word & (LOCKED["A"] + LOCKED["B"]) or not word & STABLE[at.side]:
            return self.changed("refused", at, word)
        if not word & STABLE[OPPOSITE[at.side]]:
            return self.changed("wait", at, word | WAITING[at.side])
        router.tried, router.holds = False, True
        code = router.inward.primary.other + 1 if bypasses else 0
        return self.changed("lock", at, word % 256 + LOCKED[at.side] + 256 * code)

    def begin(self, node: Node, router: Router) -> str | None:
        if not router.is_proxy() or not router.holds:
            return None
        at, inner = router.outward.primary, router.inward.primary
        for edge in router.edges():
            edge.begin_decay()
        node.send("BypassPeer", inner.other, inner.link, OPPOSITE[inner.side], old=at.link[1], target=at.other, fresh=router.spare)
        router.spare = None
        router.lose_primary()
        return f"begin {printed(at.link)}"

    def retire(self, node: Node, router: Router) -> str | None:
        if not self.is_done(router) or not router.holds:
            return None
        at, number = router.outward.primary, router.out_queue.reach()
        node.send("item", at.other, at.link, OPPOSITE[at.side], number=number, item=Item(is_gone=True), moves=[])
        return f"retire {number} {printed(at.link)}"

    def rest(self, node: Node, router: Router) -> str:
        router.flagged = False
        return "rest"

    def is_done(self, router: Router) -> bool:
        """A sink that has discarded the peer's mark and has nothing to send."""
        return router.is_sink() and router.mark_dropped and not router.out_queue.items

    def could_try(self, router: Router) -> bool:
        return router.is_settled() and router.marked and not router.tried

    def word(self, at: LinkEnd) -> int:
        return self.words[at.link[1]]

    def changed(self, name: str, at: LinkEnd, word: int) -> str:
        """The event of an act that leaves a link with a word."""
        self.words[at.link[1]] = word
        return f"{name} {printed(at.link)} {word}"

    # What a message does

    def hear(self, node: Node, sender: int, message: Message) -> str:
        router, edge = node.asked(message.link, message.side)
        if message.kind == "Flush" and router is None:
            return f"hand Flush {printed(message.link)} dropped"
        router.flag()
        if message.kind == "item":
            self.hear_item(node, sender, router, edge, **message.fields)
            return f"hand item {message.fields['number']} {printed(message.link)}"
        HEARD[message.kind](self, node, sender, router, **message.fields)
        return f"hand {message.kind} {printed(message.link)}"

    def hear_item(self, node: Node, sender: int, router: Router, edge: Edge, number: int, item: Item, moves: list[Descriptor]) -> None:
        comes_in = edge is router.outward
        queue = router.in_queue if comes_in else router.out_queue
        queue.push(number, item)
        if item.is_mark() and comes_in and not router.is_proxy():
            router.mark_seen = True
        for end, link, next_out, next_in in moves:
            node.add(Router(end, LinkEnd(link, "B", sender), False, next_out, next_in))

    def hear_bypass_peer(self, node: Node, sender: int, router: Router, old: int, target: int, fresh: int) -> None:
        edge, side = router.outward, router.end[1]
        edge.begin_decay()
        edge.length_to = router.out_queue.current
        edge.primary = LinkEnd(("C", fresh), side, target)
        router.lose_primary()
        node.send("AcceptBypass", target, ("C", old), OPPOSITE[side], fresh=fresh, length=edge.length_to)

    def hear_accept_bypass(self, node: Node, sender: int, router: Router, fresh: int, length: int) -> None:
        edge, old = router.outward, router.outward.primary
        assert self.word(old) // 256 == sender + 1
        edge.begin_decay()
        edge.length_to, edge.length_from = router.out_queue.current, length
        edge.primary = LinkEnd(("C", fresh), old.side, sender)
        router.lose_primary()
        node.send("StopProxying", old.other, old.link, OPPOSITE[old.side], in_length=edge.length_to, out_length=length)

    def hear_stop_proxying(self, node: Node, sender: int, router: Router, in_length: int, out_length: int) -> None:
        inner = router.inward.decaying
        router.outward.length_to, router.outward.length_from = out_length, in_length
        router.inward.length_to, router.inward.length_from = in_length, out_length
        node.send("ProxyWillStop", inner.other, inner.link, OPPOSITE[inner.side], in_length=in_length)

    def hear_proxy_will_stop(self, node: Node, sender: int, router: Router, in_length: int) -> None:
        router.outward.length_from = in_length

    def hear_flush(self, node: Node, sender: int, router: Router) -> None:
        pass

    def is_idle(self, number: int) -> bool:
        node = self.nodes[number]
        has_mail = any(self.mailboxes[sender, number] for sender in range(len(self.nodes)))
        can_post = any(box and not self.mailboxes[number, receiver] for receiver, box in enumerate(node.outboxes))
        return not (has_mail or can_post or node.pending_closes or any(router.flagged for router in node.routers.values()))

    def settle(self, limit: int) -> bool:
        """Whether it settles."""
        acts = 0
        while True:
            before = acts
            for number in range(len(self.nodes)):
                if self.is_idle(number):
                    continue
                if acts == limit:
                    return False
                self.turn(number)
                acts += 1
            if acts == before:
                return True


# In the order of the table of docs/PROTOCOL.md, "Turns"
ROUTER_ACTS = [
    World.send_out, World.send_in, World.discard, World.finish_out, World.finish_in, World.leave, World.mark, World.wake, World.claim,
    World.lock, World.begin, World.retire, World.rest,
]
HEARD: dict[str, Callable[..., None]] = {
    "BypassPeer": World.hear_bypass_peer, "AcceptBypass": World.hear_accept_bypass, "StopProxying": World.hear_stop_proxying,
    "ProxyWillStop": World.hear_proxy_will_stop, "Flush": World.hear_flush,
}


# Scripts

def whole(digits: str) -> int | float:
    """A number without point and exponent: -0, and what is too long for any u64, is no whole number."""
    return int(digits) if digits != "-0" and len(digits) <= U64_DIGITS else fraction(digits)


def fraction(text: str) -> float:
    number = float(text)
    if math.isinf(number):
        raise ValueError(f"a number is too large: {text[:40]}")
    return number


def no_number(word: str) -> float:
    raise ValueError(f"{word} is no number")


def levels(text: str) -> int:
    """How deep the values of a JSON text are nested."""
    depth = deepest = 0
    for bracket in re.findall(r"[][{}]", re.sub(r'"(?:[^"\\]|\\.)*"', "", text)):
        depth += 1 if bracket in "[{" else -1
        deepest = max(deepest, depth)
    return deepest


def read_json(text: str) -> Any:
    """The value of a JSON text: a ValueError if it is none, or one that the rules don't take."""
    if levels(text) > MOST_LEVELS:
        raise ValueError(f"more than {MOST_LEVELS} levels deep")
    value = json.loads(text, parse_int=whole, parse_float=fraction, parse_constant=no_number)
    # (an escape is one of these, from left to right: a surrogate pair, half of one, any other)
    for escape in re.finditer(r"\\(?:u[dD][89abAB]..\\u[dD][c-fC-F]..|(?P<half>u[dD][89a-fA-F]..)|.)", text):
        if escape["half"]:
            raise ValueError(f"half of a surrogate pair: {escape[0]}")
    return value


def is_number(value: Any, least: int, most: int) -> bool:
    return type(value) is int and least <= value <= most


def is_name(value: Any) -> bool:
    return type(value) is str and re.fullmatch(r"[A-Za-z0-9_>]{1,16}", value) is not None


def is_command(command: Any, nodes: int, opened: set[str]) -> bool:
    """Whether a value is a command of a script of so many nodes, after opens of these names."""
    match command:
        case ["open", node, str(a), str(b)]:
            are_new = is_name(a) and is_name(b) and ">" not in a + b and a != b and not {a, b} & opened
            return is_number(node, 0, nodes - 1) and are_new
        case ["put", name, str()] | ["get", name] | ["close", name]:
            return is_name(name)
        case ["put", name, str(), list(names)]:
            return is_name(name) and all(map(is_name, names))
        case ["turn", node, turns]:
            return is_number(node, 0, nodes - 1) and is_number(turns, 1, 1000000)
        case ["settle", limit]:
            return is_number(limit, 0, 1000000)
        case ["show"]:
            return True
    return False


def first_fault(script: Any) -> int | None:
    """0 if a value isn't an object of nodes, words and commands, else the number of its first bad command, or none."""
    if type(script) is not dict or set(script) != {"nodes", "words", "commands"} or not is_number(script["nodes"], 1, 8):
        return 0
    nodes, commands = script["nodes"], script["commands"]
    if not is_number(script["words"], nodes * (nodes - 1) // 2, 4096) or type(commands) is not list:
        return 0
    opened: set[str] = set()
    for number, command in enumerate(commands, 1):
        if not is_command(command, nodes, opened):
            return number
        if command[0] == "open":
            opened.update(command[2:])
    return None


class Run:
    """A world with the names of its ends."""

    def __init__(self, nodes: int, words: int) -> None:
        self.world = World(nodes, words)
        self.ends: dict[str, End] = {}
        # The name that each end was opened by: in a log that may be opened again, and then names another end.
        self.titles: dict[End, str] = {}
        self.is_unsettled = False
        pairs = [(low, high) for low in range(nodes) for high in range(low + 1, nodes)]
        for pair, (low, high) in enumerate(pairs):
            self.bind((pair, "A"), f"{low}>{high}")
            self.bind((pair, "B"), f"{high}>{low}")

    def bind(self, end: End, name: str) -> None:
        self.ends[name], self.titles[end] = end, name

    def do(self, command: list) -> list[str]:
        """The lines of a command."""
        match command:
            case ["open", node, a, b]:
                return self.refusable(f"open {a} {b}", lambda: self.open(node, a, b))
            case ["put", name, data, *attached]:
                names = attached[0] if attached else []
                return self.refusable(f"put {name}", lambda: self.put(name, data.encode(), names))
            case ["get", name]:
                return self.refusable(f"get {name}", lambda: self.get(name))
            case ["close", name]:
                return self.refusable(f"close {name}", lambda: self.world.close(*self.place(name, [])[:2]))
            case ["turn", node, turns]:
                return self.turns(node, turns)
            case ["settle", limit]:
                settles = self.world.settle(limit)
                self.is_unsettled |= not settles
                return ["settled" if settles else "unsettled"]
            case _:
                return [" ".join(["words", *map(str, self.world.words)])]

    def refusable(self, beginning: str, call: Callable[[], object]) -> list[str]:
        try:
            return [f"{beginning} {call()}"]
        except Refused as refusal:
            return [f"{beginning} {refusal}"]

    def place(self, name: str, names: list[str]) -> tuple[Node, End, list[End]]:
        """The node whose callers hold a named end, the end, and those of further names."""
        if any(each not in self.ends for each in [name, *names]):
            raise Refused("UnknownName")
        node = self.world.holder_of(self.ends[name])
        if node is None:
            raise Refused("Away")
        return node, self.ends[name], [self.ends[each] for each in names]

    def open(self, node: int, a: str, b: str) -> str:
        for end, name in zip(self.world.open(node), (a, b)):
            self.bind(end, name)
        return "ok"

    def put(self, name: str, data: bytes, names: list[str]) -> int:
        node, at, ends = self.place(name, names)
        return self.world.put(node, at, data, ends)

    def get(self, name: str) -> str:
        number, item = self.world.get(*self.place(name, [])[:2])
        names = ",".join(self.titles[end] for end in item.ends)
        return f'{number} [{names}] "{item.data.decode()}"'

    def turns(self, node: int, turns: int) -> list[str]:
        lines: list[str] = []
        while len(lines) < turns and not (lines and lines[-1].endswith(": idle")):
            lines.append(f"n{node}: {self.world.turn(node)}")
        return lines


def transcript(script: Any) -> tuple[str, int]:
    """What is written for the value of a script, and the status."""
    fault = first_fault(script)
    if fault is not None:
        return f"refused BadShape {fault}\n", 2
    run = Run(script["nodes"], script["words"])
    lines = [line for command in script["commands"] for line in run.do(command)]
    return "".join(line + "\n" for line in lines), 4 if run.is_unsettled else 0


def answer(script: bytes) -> tuple[str, int, str]:
    """What is written for the bytes of a script, the status, and what is wrong if they are no JSON."""
    if len(script) > MOST_BYTES:
        return "refused TooLong\n", 2, f"more than {MOST_BYTES} bytes"
    try:
        value = read_json(script.decode())
    except ValueError as fault:
        return "refused NotJson\n", 2, f"this is no JSON: {fault}"
    return *transcript(value), ""


def main() -> int:
    asked.parser(__doc__).parse_args()
    text, status, fault = answer(sys.stdin.buffer.read(MOST_BYTES + 1))
    print(text, end="")
    if fault:
        print(fault, file=sys.stderr)
    return status


if __name__ == "__main__":
    sys.exit(main())
