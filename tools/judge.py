"""Judges a log as ipcz_judge does, by the rules of docs/JUDGE.md in plain Python.

    python3 tools/judge.py < LOG

It was written from the rules, and not from the crates. What was put and got stands in whole lists, and which portals may be closed by their nodes is
found anew from these lists whenever it is asked.
"""
import contextlib
import copy
import sys
from typing import Any

import asked
import model

End = tuple[int, str]
WORDS = ("OutOfMemory", "Empty", "PeerClosed", "NoWord", "SelfAttach", "PeerAttach", "Stranger", "NumbersEnd", "BadData", "TooMany")


class NoLine(Exception):
    """What stands there is no line of a log."""


class Breach(Exception):
    """The rules don't allow this."""


def need(condition: bool) -> None:
    if not condition:
        raise Breach


def peer(end: End) -> End:
    return end[0], "B" if end[1] == "A" else "A"


class Books:
    def __init__(self, nodes: int, printed: bool) -> None:
        self.nodes, self.printed = nodes, printed
        self.pairs = 0
        self.names: dict[str, End] = {}
        self.holder: dict[End, int] = {}
        self.shut: set[End] = set()
        self.put: dict[End, list[tuple[bytes, list[End]]]] = {}
        self.got: dict[End, int] = {}
        for low in range(nodes):
            for high in range(low + 1, nodes):
                self.pair(low, high, f"{low}>{high}", f"{high}>{low}")

    def pair(self, first: int, second: int, name: str, other: str) -> None:
        for end, node, called in (((self.pairs, "A"), first, name), ((self.pairs, "B"), second, other)):
            self.names[called], self.holder[end], self.put[end], self.got[end] = end, node, [], 0
        self.pairs += 1

    def closed(self) -> set[End]:
        """The portals that callers closed, and all that nodes may have closed by now."""
        closed = set(self.shut)
        while True:
            waiting = {end for at in closed for _, ends in self.put[peer(at)][self.got[at]:] for end in ends}
            if waiting <= closed:
                return closed
            closed |= waiting

    def end(self, name: str) -> End:
        need(name in self.names)
        return self.names[name]

    def first_refusal(self, node: int, at: End, data: bytes, ends: list[End]) -> str | None:
        if self.holder.get(at) != node:
            return "Stranger"
        if len(data) > (256 if self.printed else 65536) or len(ends) > 8:
            return "TooMany"
        if self.printed and any(not 0x20 <= byte <= 0x7E for byte in data):
            return "BadData"
        if at in ends:
            return "SelfAttach"
        if peer(at) in ends:
            return "PeerAttach"
        if len(set(ends)) < len(ends) or any(self.holder.get(end) != node for end in ends):
            return "Stranger"
        return None

    def take(self, line: dict[str, Any]) -> None:
        match line["op"]:
            case "open":
                self.opened(line)
            case "put":
                self.puts(line)
            case "get":
                self.gets(line)
            case _:
                self.closes(line)

    def opened(self, line: dict[str, Any]) -> None:
        node, there = line["node"], line["node"] < self.nodes
        if line["refused"]:
            need(line["refused"] in (("NoWord", "NumbersEnd", "OutOfMemory") if there else ("Stranger",)))
            return
        first, second = line["first"], line["second"]
        need(there and first not in self.names and second not in self.names and first != second)
        self.pair(node, node, first, second)

    def puts(self, line: dict[str, Any]) -> None:
        node, at, ends, refused = line["node"], self.end(line["at"]), [self.end(name) for name in line["portals"]], line["refused"]
        first = self.first_refusal(node, at, line["bytes"], ends)
        if refused == "OutOfMemory":
            need(node < self.nodes)
        elif refused and first:
            need(refused == first)
        elif refused:
            need((refused == "PeerClosed" and peer(at) in self.closed()) or (refused == "NumbersEnd" and len(self.put[at]) >= 2**64 - 3))
        else:
            need(first is None and line["n"] == len(self.put[at]))
            self.put[at].append((line["bytes"], ends))
            for end in ends:
                del self.holder[end]

    def gets(self, line: dict[str, Any]) -> None:
        node, at, refused = line["node"], self.end(line["at"]), line["refused"]
        sent = self.put[peer(at)]
        if refused:
            holds = self.holder.get(at) == node
            is_over = peer(at) in self.closed() and self.got[at] == len(sent)
            need(refused == "Stranger" and not holds or refused == "Empty" and holds or refused == "PeerClosed" and holds and is_over)
            return
        need(self.holder.get(at) == node and line["n"] == self.got[at] and self.got[at] < len(sent))
        data, ends = sent[self.got[at]]
        need(data == line["bytes"] and len(ends) == len(line["portals"]))
        for name, end in zip(line["portals"], ends):
            need(self.names.setdefault(name, end) == end)
            self.holder[end] = node
        self.got[at] += 1

    def closes(self, line: dict[str, Any]) -> None:
        node, at, refused = line["node"], self.end(line["at"]), line["refused"]
        holds = self.holder.get(at) == node
        if refused:
            need(refused == "Stranger" and not holds or refused == "OutOfMemory" and holds)
            return
        need(holds and line["n"] == len(self.put[at]))
        self.shut.add(at)
        del self.holder[at]


def whole(value: Any, most: int) -> bool:
    return isinstance(value, int) and not isinstance(value, bool) and 0 <= value <= most


def read(text: bytes) -> dict[str, Any]:
    """The members of a line."""
    try:
        value = model.read_json(text.decode())
    except ValueError as fault:
        raise NoLine from fault
    if not isinstance(value, dict):
        raise NoLine
    return value


def header(text: bytes) -> Books:
    value = read(text)
    nodes = value.get("nodes")
    if not whole(nodes, 8) or nodes < 1:
        raise NoLine
    return Books(nodes, value.get("profile") == "printed")


def log_count(text: bytes) -> int | None:
    """How many logs there are, if the header says so: then only the order within each is known."""
    logs = read(text).get("logs")
    if not whole(logs, 2**64 - 1):
        return None
    if not 1 <= logs <= 64:
        raise NoLine
    return logs


def line_of(text: bytes) -> dict[str, Any]:
    """A line with all that it needs, or none."""
    value = read(text)
    op, refused = value.get("op"), value.get("refused")
    line: dict[str, Any] = {"op": op, "node": value.get("node"), "refused": refused if isinstance(refused, str) else None, "n": value.get("n")}
    is_answered = line["refused"] in WORDS if line["refused"] is not None else whole(line["n"], 2**64 - 1)
    if not whole(line["node"], 255) or op not in ("open", "put", "get", "close") or (op != "open" and not is_answered):
        raise NoLine
    if op == "open" and line["refused"] not in WORDS:
        line["refused"] = None
    texts = {"open": ["first", "second"] if not line["refused"] else [], "put": ["at", "bytes"], "get": ["at"], "close": ["at"]}[op]
    if op == "get" and not line["refused"]:
        texts = [*texts, "bytes"]
    for name in texts:
        line[name] = value.get(name)
        if not isinstance(line[name], str):
            raise NoLine
    if "bytes" in texts:
        line["bytes"] = line["bytes"].encode()
        line["portals"] = value.get("portals", [])
        if not isinstance(line["portals"], list) or any(not isinstance(name, str) for name in line["portals"]):
            raise NoLine
    return line


def rank(line: dict[str, Any]) -> int:
    """Which lines are tried first, where those of several logs may come next."""
    if line["refused"]:
        return 0
    return 3 if line["op"] == "close" else 2 if line["op"] == "put" and line["portals"] else 1


def stuck(books: Books, logs: list[list[tuple[int, dict[str, Any]]]]) -> int | None:
    """None if the lines of these logs, each with its number, are allowed in some order that keeps each log's own; and else the first line that isn't in the
    longest order of first lines that was found. That what may follow depends only on how far each log was read is taken for granted here."""
    dead: set[tuple[int, ...]] = set()
    longest, number = -1, 0

    def is_allowed(books: Books, at: tuple[int, ...]) -> bool:
        nonlocal longest, number
        nexts = sorted((rank(log[i][1]), name) for name, (log, i) in enumerate(zip(logs, at)) if i < len(log))
        if not nexts:
            return True
        if sum(at) > longest:
            longest, number = sum(at), min(logs[name][at[name]][0] for _, name in nexts)
        for _, name in nexts:
            after, further = copy.deepcopy(books), at[:name] + (at[name] + 1,) + at[name + 1 :]
            with contextlib.suppress(Breach):
                after.take(logs[name][at[name]][1])
                if further not in dead and is_allowed(after, further):
                    return True
        dead.add(at)
        return False

    return None if is_allowed(books, (0,) * len(logs)) else number


def judge_logs(books: Books, count: int, lines: list[bytes]) -> str:
    """The line that is written for so many logs."""
    logs: list[list[tuple[int, dict[str, Any]]]] = [[] for _ in range(count)]
    for number, text in enumerate(lines, 2):
        try:
            log = read(text).get("log")
            if not whole(log, count - 1):
                raise NoLine
            logs[log].append((number, line_of(text)))
        except NoLine:
            return f"line {number}: no line of a log"
    number = stuck(books, logs)
    return "allowed" if number is None else f"line {number}: refused in every order"


def verdict(log: bytes) -> str:
    """The line that is written for a log."""
    first, *lines = log.split(b"\n")
    if lines and not lines[-1]:
        lines.pop()
    number = 1
    try:
        books = header(first)
        if count := log_count(first):
            return judge_logs(books, count, lines)
        for number, text in enumerate(lines, 2):
            books.take(line_of(text))
    except NoLine:
        return f"line {number}: no line of a log"
    except Breach:
        return f"line {number}: refused"
    return "allowed"


def main() -> int:
    asked.parser(__doc__).parse_args()
    said = verdict(sys.stdin.buffer.read())
    print(said)
    return 0 if said == "allowed" else 2


if __name__ == "__main__":
    sys.exit(main())
