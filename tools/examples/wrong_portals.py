"""A small implementation of portals with a fault: at the end of a bypass a parcel can overtake another. docs/JUDGE.md has it judged.

    python3 tools/examples/wrong_portals.py < SCRIPT > LOG

It runs a script (docs/SCRIPTS.md) and writes its calls as lines that ipcz_judge reads. It has routers, proxies and bypasses of its own, which are simpler than
those of docs/PROTOCOL.md: parcels aren't numbered on their way, one proxy of a pair is bypassed at a time, and no router is ever taken away. Of the script's
link words each pair takes one, and a bypass none.
"""
from __future__ import annotations

import collections
import json
import signal
import sys
from collections.abc import Callable
from typing import Any

Parcel = tuple[str, list[str]]  # bytes, and names of portals


class Refused(Exception):
    """A refusal, by its name."""


class Router:
    """What serves a portal on a node; a proxy, once it has a link inward. A link is the router at its other end. None as a parcel is the peer's close."""

    def __init__(self, portal: str, node: int, outward: Router | None = None, sent: int = 0, came: int = 0) -> None:
        self.portal, self.node, self.outward = portal, node, outward
        self.inward: Router | None = None
        self.old_link: Router | None = None  # the outward link that a bypass takes away,
        self.length: int | None = None  # and how many parcels the other side sends before it takes the new one
        self.sent, self.came, self.got = sent, came, came
        self.early: list[Parcel | None] = []  # what has come over the new link, and waits for the end of the old one
        self.waiting: collections.deque[Parcel | None] = collections.deque()
        self.is_closed = self.is_bypassed = False

    def old_link_is_empty(self) -> bool:
        # THE FAULT: `came` counts what has come over both links. It must be self.came - len(self.early)
        return self.length is not None and self.came >= self.length


class World:
    def __init__(self, nodes: int) -> None:
        self.nodes = range(nodes)
        self.mail: dict[tuple[int, int], collections.deque] = {(sender, to): collections.deque() for sender in self.nodes for to in self.nodes}
        self.passing: list[collections.deque[Callable[[], object]]] = [collections.deque() for _ in self.nodes]  # what the proxies of a node have yet to send on
        self.terminals: dict[str, Router] = {}
        self.peers: dict[str, str] = {}
        self.holders: dict[str, int | None] = {}
        self.old_links: collections.Counter[frozenset[str]] = collections.Counter()  # how many routers of a pair have one
        for low in self.nodes:
            for high in self.nodes[low + 1 :]:
                self.make_pair(f"{low}>{high}", low, f"{high}>{low}", high)

    def make_pair(self, first: str, node: int, second: str, other: int) -> None:
        one, two = self.terminals[first], self.terminals[second] = Router(first, node), Router(second, other)
        one.outward, two.outward = two, one
        self.peers |= {first: second, second: first}
        self.holders |= {first: node, second: other}

    # What callers do

    def put(self, at: str, data: str, portals: list[str]) -> int:
        router = self.terminals[at]
        if len(data.encode()) > 256 or len(portals) > 8:
            raise Refused("TooMany")
        if not all(" " <= letter <= "~" for letter in data):
            raise Refused("BadData")
        if at in portals:
            raise Refused("SelfAttach")
        if self.peers[at] in portals:
            raise Refused("PeerAttach")
        if len(set(portals)) < len(portals) or any(self.holders[each] != router.node for each in portals):
            raise Refused("Stranger")
        if None in router.waiting:
            raise Refused("PeerClosed")
        self.holders.update(dict.fromkeys(portals))
        return self.send_out(router, (data, portals))

    def get(self, at: str) -> tuple[int, Parcel]:
        router = self.terminals[at]
        if not router.waiting:
            raise Refused("Empty")
        parcel = router.waiting[0]
        if parcel is None:
            raise Refused("PeerClosed")
        router.waiting.popleft()
        router.got += 1
        self.holders.update(dict.fromkeys(parcel[1], router.node))
        return router.got - 1, parcel

    def close(self, at: str) -> int:
        router = self.terminals[at]
        router.is_closed, self.holders[at] = True, None
        for parcel in router.waiting:
            self.discard(parcel)
        return self.send_out(router, None)

    def discard(self, parcel: Parcel | None) -> None:
        for portal in parcel[1] if parcel else []:
            self.close(portal)

    # What routers do

    def send_out(self, router: Router, parcel: Parcel | None) -> int:
        self.send(router, router.outward, parcel)
        router.sent += 1
        return router.sent - 1

    def send(self, router: Router, to: Router, parcel: Parcel | None) -> None:
        """Sends a parcel on. Its portals move if it goes to another node; what waits in them follows."""
        moved = [self.terminals[portal] for portal in parcel[1]] if parcel and to.node != router.node else []
        for proxy in moved:
            proxy.inward = self.terminals[proxy.portal] = Router(proxy.portal, to.node, proxy, proxy.sent, proxy.got)
        self.post(router, to, "AcceptParcel", parcel)
        for proxy in moved:
            while proxy.waiting:
                self.send(proxy, proxy.inward, proxy.waiting.popleft())

    def post(self, router: Router, to: Router, message: str, value: Any) -> None:
        self.mail[router.node, to.node].append((router, to, message, value))

    def hear(self, sender: Router, router: Router, message: str, value: Any) -> None:
        if message == "AcceptParcel" and sender is router.inward:
            self.passing[router.node].append(lambda: self.send_out(router, value))
        elif message == "AcceptParcel":
            router.came += 1
            if router.old_link in (None, sender):
                self.take(router, value)
            else:
                router.early.append(value)
        elif message == "BypassPeer":
            router.old_link, router.outward, router.length = sender, value, None
            self.post(router, value, "AcceptBypassLink", router.sent)
        elif message == "AcceptBypassLink":
            router.old_link, router.outward, router.length = router.outward, sender, value
            self.post(router, router.old_link, "StopProxying", router.sent)
        elif message == "StopProxying":
            self.post(router, router.inward, "ProxyWillStop", value)
        elif message == "ProxyWillStop":
            router.length = value
        if router.old_link and router.old_link_is_empty():
            self.give_up_old_link(router)
        if router.inward:
            self.try_bypass(router)

    def take(self, router: Router, parcel: Parcel | None) -> None:
        if router.inward:
            self.passing[router.node].append(lambda: self.send(router, router.inward, parcel))
        elif router.is_closed:
            self.discard(parcel)
        else:
            router.waiting.append(parcel)

    def pair_of(self, router: Router) -> frozenset[str]:
        return frozenset({router.portal, self.peers[router.portal]})

    def try_bypass(self, proxy: Router) -> None:
        """Begins it if the other side of the pair is across the proxy's outward link, and no other proxy of the pair is being bypassed."""
        pair = self.pair_of(proxy)
        if not proxy.is_bypassed and proxy.outward.portal == self.peers[proxy.portal] and not self.old_links[pair]:
            proxy.is_bypassed, self.old_links[pair] = True, 2
            self.post(proxy, proxy.inward, "BypassPeer", proxy.outward)

    def give_up_old_link(self, router: Router) -> None:
        router.old_link = None
        self.old_links[self.pair_of(router)] -= 1
        early, router.early = router.early, []
        for parcel in early:
            self.take(router, parcel)

    def turn(self, node: int) -> bool:
        """A message is heard, that of the highest sender, or a parcel is sent on. Whether there was anything to do."""
        for sender in reversed(self.nodes):
            if self.mail[sender, node]:
                self.hear(*self.mail[sender, node].popleft())
                return True
        if self.passing[node]:
            self.passing[node].popleft()()
            return True
        return False


def call(world: World, op: str, at: str, data: str = "", portals: list[str] | None = None) -> dict[str, Any] | None:
    """Makes the call of a command, and gives its line. If a name isn't bound, or nobody holds the portal, there is no call."""
    portals = portals or []
    if any(each not in world.holders for each in [at, *portals]) or world.holders[at] is None:
        return None
    line = {"node": world.holders[at], "op": op, "at": at} | ({"bytes": data, "portals": portals} if op == "put" else {})
    try:
        if op == "get":
            line["n"], (line["bytes"], line["portals"]) = world.get(at)
        else:
            line["n"] = world.put(at, data, portals) if op == "put" else world.close(at)
    except Refused as refusal:
        line["refused"] = str(refusal)
    return line


def run(script: dict[str, Any]) -> list[dict[str, Any]]:
    """The log of a script."""
    world = World(script["nodes"])
    log = [{"nodes": script["nodes"], "profile": "printed"}]
    for op, *values in script["commands"]:
        match op, values:
            case "open", [node, _, _] if len(world.peers) == 2 * script["words"]:
                log.append({"node": node, "op": op, "refused": "NoWord"})
            case "open", [node, first, second]:
                world.make_pair(first, node, second, node)
                log.append({"node": node, "op": op, "first": first, "second": second})
            case "turn", [node, count]:
                all(world.turn(node) for _ in range(count))
            case "settle", [limit]:
                while limit > 0 and (acts := sum(map(world.turn, world.nodes))):
                    limit -= acts
            case ("put" | "get" | "close"), _:
                log += filter(None, [call(world, op, *values)])
    return log


if __name__ == "__main__":
    # A judge stops reading at the first line that it refuses, and this ends then without a word.
    signal.signal(signal.SIGPIPE, signal.SIG_DFL)
    for each in run(json.load(sys.stdin)):
        print(json.dumps(each))
