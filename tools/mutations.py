"""Mutations of a log with events (docs/JUDGE.md, "Events"), of which tools/try_logs.py has two judges judge the copies. Each kind is a function: its name is the
kind's, its sentence says what it changes, and beside it stands what is known of the verdict.

A kind takes a case, which has a log, another log, and what draws. It gives the text of the changed log, or none if the log has nothing that it could change. A text
may have bytes that are no UTF-8, which stand in it as Python's `surrogateescape` has them.

What may be allowed either means the same, or is another run that is possible, too: then the reason says how that can be.
"""
import json
import random
import re
from collections.abc import Callable
from dataclasses import dataclass
from typing import Any

import judge_events
import model

Entry = dict[str, Any]

# What is known of the verdict on what a kind makes: the first changed line never is allowed; or all always are, since it means the same; or else all may be, for a
# reason that is told.
NEVER, ALWAYS = "never", "always"
# The verbs of acts whose events have the same parts: a link and a word.
OF_A_WORD = ["mark", "wake", "lock", "wait", "refused", "unlock"]
MESSAGES = ["BypassPeer", "AcceptBypass", "StopProxying", "ProxyWillStop", "Flush", "item 0"]
REFUSALS = {
    "open": ["NoWord", "NumbersEnd", "OutOfMemory", "ok"],
    "put": [
        "UnknownName", "Away", "Stranger", "TooMany", "BadData", "SelfAttach", "PeerAttach", "PeerClosed", "NumbersEnd", "OutOfMemory", "Empty", "Raced", "Occupied",
        "Passed", "Forged",
    ],
    "get": ["UnknownName", "Away", "Stranger", "Empty", "PeerClosed"],
    "close": ["UnknownName", "Away", "Stranger", "OutOfMemory", "PeerClosed"],
}


def form(entry: Entry) -> str:
    """What a line tells, without numbers, links, names and data."""
    words = entry["event"].split(" ") if "event" in entry else [entry["call"][0], entry["answer"].split(" ")[-1]]
    return " ".join(word for word in words if word.isalpha())


def text_of(lines: list[str]) -> str:
    return "".join(line + "\n" for line in lines)


def is_act(entry: Entry) -> bool:
    return "event" in entry


def is_call(entry: Entry, *names: str) -> bool:
    """Whether a line is a call, of one of these names if some are given."""
    return "call" in entry and (not names or entry["call"][0] in names)


class Case:
    """A log, another one, and what draws what is changed, and how."""

    def __init__(self, draw: random.Random, log: list[Entry], other: list[Entry]) -> None:
        self.draw = draw
        self.entries: list[Entry] = json.loads(json.dumps(log))
        self.lines, self.others = ([json.dumps(entry) for entry in each] for each in (log, other))
        self.nodes: int = log[0]["nodes"]

    def line(self, is_meant: Callable[[Entry], object] = lambda entry: True) -> int | None:
        """The number of a line behind the header that is meant. What it tells is drawn first, so that lines of which there are few come as often as others."""
        meant = [at for at, entry in enumerate(self.entries) if at and is_meant(entry)]
        if not meant:
            return None
        drawn = self.draw.choice(sorted({form(self.entries[at]) for at in meant}))
        return self.draw.choice([at for at in meant if form(self.entries[at]) == drawn])

    def place(self) -> int:
        """A place somewhere behind the header."""
        return self.draw.randrange(1, len(self.lines) + 1)

    def put_in(self, at: int, *lines: str, instead_of: int = 0) -> str:
        """The log with some lines at a place, and without so many that stood there."""
        return text_of([*self.lines[:at], *lines, *self.lines[at + instead_of :]])

    def with_line(self, at: int | None, change: Callable[[str], str]) -> str | None:
        """The log with a line whose text is changed."""
        return None if at is None else self.put_in(at, change(self.lines[at]), instead_of=1)

    def with_entry(self, at: int | None, change: Callable[[Entry], Entry]) -> str | None:
        """The log with a line that is changed."""
        return self.with_line(at, lambda line: json.dumps(change(json.loads(line))))

    def in_member(self, member: str, pattern: str, change: Callable[[str], str]) -> str | None:
        """The log with an event or answer in which the group of a pattern is changed, where that is found."""
        at = self.line(lambda entry: member in entry and re.search(pattern, entry[member]))

        def changed(entry: Entry) -> Entry:
            text = entry[member]
            found = self.draw.choice(list(re.finditer(pattern, text)))
            return entry | {member: text[: found.start(1)] + change(found[1]) + text[found.end(1) :]}

        return self.with_entry(at, changed)

    def in_event(self, pattern: str, change: Callable[[str], str]) -> str | None:
        return self.in_member("event", pattern, change)

    def in_answer(self, pattern: str, change: Callable[[str], str]) -> str | None:
        return self.in_member("answer", pattern, change)

    def in_put(self, least: int, change: Callable[[list[Any]], list[Any]]) -> str | None:
        """The log with a put of at least so many portals in which its parts are changed."""
        at = self.line(lambda entry: is_call(entry, "put") and len(portals(entry["call"])) >= least)
        return self.with_entry(at, lambda entry: entry | {"call": change(entry["call"])})

    def in_portals(self, least: int, change: Callable[[list[str]], list[str]]) -> str | None:
        """The log with a put of at least so many portals, which has others now."""
        return self.in_put(least, lambda call: [*call[:3], change(portals(call))])

    def in_header(self, **members: object) -> str:
        return self.put_in(0, json.dumps(self.entries[0] | members), instead_of=1)

    def one_but(self, values: list[Any], value: Any) -> Any:
        """One of some values that isn't this one; or this one, if there is no other."""
        return self.draw.choice([each for each in values if each != value] or [value])

    def opened(self) -> list[str]:
        """The names that the log opens."""
        return [name for entry in self.entries if is_call(entry, "open") for name in entry["call"][2:]]

    def names(self) -> list[str]:
        """The names of portals that there are from the start, or that the log opens."""
        return [f"{one}>{other}" for one in range(self.nodes) for other in range(self.nodes) if one != other] + self.opened()

    def serials(self, node: int) -> list[int]:
        """The serials of routers that the log tells of on a node."""
        told = [re.match(r"r(\d+) ", entry["event"]) for entry in self.entries if is_act(entry) and entry["node"] == node]
        return sorted({int(found[1]) for found in told if found})


def portals(call: list[Any]) -> list[str]:
    """The portals of a put."""
    return call[3] if len(call) > 3 else []


Change = Callable[[Case], str | None]


@dataclass(frozen=True)
class Kind:
    name: str
    sentence: str
    allowed: str
    change: Change


KINDS: list[Kind] = []


def kind(allowed: str) -> Callable[[Change], Change]:
    """Adds a kind: never or always allowed, or else the reason why it may be."""

    def add(change: Change) -> Change:
        KINDS.append(Kind(change.__name__.replace("_", " "), str(change.__doc__), allowed, change))
        return change

    return add


# ---- Lines, and their order

BRINGS_NOTHING = "what is lost brought nothing that is needed behind it, as a rest, a show, a refused call"
COMMUTES = "nothing between the two places hangs on it"


@kind(BRINGS_NOTHING)
def line_lost(case: Case) -> str | None:
    """A line is left out."""
    at = case.line()
    return None if at is None else case.put_in(at, instead_of=1)


@kind(BRINGS_NOTHING)
def lines_lost(case: Case) -> str | None:
    """Two to five lines in a row are left out."""
    return case.put_in(case.place(), instead_of=case.draw.randrange(2, 6))


@kind("a rest, a show, a refused call and a get may come twice, and a put whose parcel nobody got")
def line_doubled(case: Case) -> str | None:
    """A line stands twice."""
    at = case.line()
    return None if at is None else case.put_in(at, case.lines[at])


def swapped(case: Case, are_meant: Callable[[Entry, Entry], bool]) -> str | None:
    """The log with two neighbours that are meant in the other order."""
    pairs = [at for at in range(1, len(case.lines) - 1) if are_meant(*case.entries[at : at + 2])]
    if not pairs:
        return None
    at = case.draw.choice(pairs)
    return case.put_in(at, case.lines[at + 1], case.lines[at], instead_of=2)


@kind("acts of two nodes come in either order, but a post before its look, and those that touch one word")
def acts_of_two_nodes_swapped(case: Case) -> str | None:
    """Two neighbouring acts of two nodes change places."""
    return swapped(case, lambda one, other: is_act(one) and is_act(other) and one["node"] != other["node"])


@kind("two routers act in either order where neither brings the other something")
def acts_of_a_node_swapped(case: Case) -> str | None:
    """Two neighbouring acts of one node change places."""
    return swapped(case, lambda one, other: is_act(one) and is_act(other) and one["node"] == other["node"])


@kind("a call and an act that has nothing to do with its portal come in either order")
def call_and_act_swapped(case: Case) -> str | None:
    """A call and the act beside it change places."""
    return swapped(case, lambda one, other: is_act(one) != is_act(other))


@kind("calls at different portals come in either order, and so do refused ones")
def calls_swapped(case: Case) -> str | None:
    """Two neighbouring calls change places."""
    return swapped(case, lambda one, other: is_call(one) and is_call(other))


@kind(COMMUTES)
def two_lines_exchanged(case: Case) -> str | None:
    """Two lines that stand anywhere change places."""
    if len(case.lines) < 3:
        return None
    low, high = sorted(case.draw.sample(range(1, len(case.lines)), 2))
    return text_of([*case.lines[:low], case.lines[high], *case.lines[low + 1 : high], case.lines[low], *case.lines[high + 1 :]])


def moved(case: Case, at: int, to: int) -> str:
    """The log with a line at another place among the others."""
    rest = case.lines[:at] + case.lines[at + 1 :]
    return text_of([*rest[:to], case.lines[at], *rest[to:]])


@kind(COMMUTES)
def moved_to_the_end(case: Case) -> str | None:
    """A line is moved to the end."""
    at = case.line()
    return None if at is None else moved(case, at, len(case.lines))


@kind(COMMUTES)
def moved_to_the_front(case: Case) -> str | None:
    """A line is moved to the front, behind the header."""
    at = case.line()
    return None if at is None else moved(case, at, 1)


@kind(COMMUTES)
def moved_on(case: Case) -> str | None:
    """A line is moved behind one of the next ten."""
    at = case.line()
    return None if at is None else moved(case, at, at + case.draw.randrange(1, 11))


@kind(ALWAYS)
def cut(case: Case) -> str | None:
    """The log ends early, behind some line: what has happened until then is a run."""
    return text_of(case.lines[: case.place()])


@kind(NEVER)
def cut_within_a_line(case: Case) -> str | None:
    """The log ends in the middle of a line."""
    at = case.draw.randrange(len(case.lines))
    return text_of(case.lines[:at]) + case.lines[at][: case.draw.randrange(1, len(case.lines[at]))]


OF_ANOTHER = "what stands there now is possible, too, and what it is in place of isn't needed"


@kind(OF_ANOTHER)
def line_of_another_log(case: Case) -> str | None:
    """A line of another log stands in place of one."""
    at = case.line()
    return None if at is None else case.put_in(at, case.draw.choice(case.others[1:]), instead_of=1)


@kind("what is put in is possible there, and brings nothing, as a rest, a show of the same words, a call that is refused")
def line_of_another_log_put_in(case: Case) -> str | None:
    """A line of another log is put in."""
    return case.put_in(case.place(), case.draw.choice(case.others[1:]))


@kind("the other's last lines are few, and possible there, as calls that are refused")
def end_of_another_log(case: Case) -> str | None:
    """From some place on the lines are those of another log."""
    return text_of([*case.lines[: case.place()], *case.others[case.draw.randrange(1, len(case.others)) :]])


@kind("a node that has nothing to do is idle")
def idle_put_in(case: Case) -> str | None:
    """Somewhere it is said that a node is idle."""
    return case.put_in(case.place(), json.dumps({"node": case.draw.randrange(case.nodes), "event": "idle"}))


@kind("a router that can do nothing else rests, flagged or not")
def rest_put_in(case: Case) -> str | None:
    """Somewhere it is said that a router rests."""
    at = case.line(lambda entry: re.match(r"r\d", entry.get("event", "")))
    if at is None:
        return None
    serial = case.entries[at]["event"].split(" ")[0]
    return case.put_in(case.place(), json.dumps({"node": case.entries[at]["node"], "event": f"{serial} rest"}))


@kind("only an idle node shows that its routers have rested")
def rest_lost(case: Case) -> str | None:
    """A rest is left out."""
    at = case.line(lambda entry: entry.get("event", "").endswith(" rest"))
    return None if at is None else case.put_in(at, instead_of=1)


@kind(NEVER)
def empty_line(case: Case) -> str | None:
    """An empty line, or one of blanks, is put in."""
    return case.put_in(case.place(), case.draw.choice(["", " ", "\t"]))


# ---- The numbers of parcels

NUMBER_IN_EVENT = r"(?:send out|send in|hand item|discard|retire) (\d+)"
NUMBER_IN_ANSWER = r"^(?:put|get|close) \S+ (\d+)"


def one_more(number: str) -> str:
    return str(int(number) + 1)


def one_less(number: str) -> str:
    return str(int(number) - 1)


@kind(NEVER)
def number_of_an_item_one_more(case: Case) -> str | None:
    """An item's number in an event is one more."""
    return case.in_event(NUMBER_IN_EVENT, one_more)


@kind(NEVER)
def number_of_an_item_one_less(case: Case) -> str | None:
    """An item's number in an event is one less."""
    return case.in_event(NUMBER_IN_EVENT, one_less)


@kind(NEVER)
def answered_number_one_more(case: Case) -> str | None:
    """The number that a put, a get or a close answers is one more."""
    return case.in_answer(NUMBER_IN_ANSWER, one_more)


@kind(NEVER)
def answered_number_one_less(case: Case) -> str | None:
    """The number that a put, a get or a close answers is one less."""
    return case.in_answer(NUMBER_IN_ANSWER, one_less)


@kind(NEVER)
def zero_in_front(case: Case) -> str | None:
    """A number of an event is written with a needless zero."""
    return case.in_event(r"(\d+)", lambda number: "0" + number)


# ---- Links and ends


@kind(NEVER)
def word_of_a_link(case: Case) -> str | None:
    """The number of a central link is one more, or one less."""
    return case.in_event(r" C(\d+)", case.draw.choice([one_more, one_less]))


@kind(NEVER)
def kind_of_a_link(case: Case) -> str | None:
    """A central link is written as a peripheral one, or the other way round."""
    return case.in_event(r" (C\d+|P\d+\.\d+)", lambda link: f"P0.{link[1:]}" if link[0] == "C" else f"C{link.partition('.')[2]}")


@kind(NEVER)
def maker_of_a_link(case: Case) -> str | None:
    """A peripheral link is one of another node."""
    return case.in_event(r" P(\d+)", lambda node: str(case.one_but(list(range(case.nodes + 1)), int(node))))


@kind(NEVER)
def serial_of_a_link(case: Case) -> str | None:
    """The serial of a peripheral link is one more, or one less."""
    return case.in_event(r" P\d+\.(\d+)", case.draw.choice([one_more, one_less]))


END = r"(?:close |moves |,)\d+([AB])"
PAIR = r"(?:close |moves |,)(\d+)[AB]"


@kind(NEVER)
def side_of_an_end(case: Case) -> str | None:
    """An end that moves or is closed has side A for B, or B for A."""
    return case.in_event(END, model.OPPOSITE.__getitem__)


@kind(NEVER)
def pair_of_an_end(case: Case) -> str | None:
    """An end that moves or is closed is one of another pair."""
    return case.in_event(PAIR, case.draw.choice([one_more, one_less]))


@kind(NEVER)
def moved_end_lost(case: Case) -> str | None:
    """Of the ends that an event moves one is lost."""
    return case.in_event(r"( moves \d+[AB]$|\d+[AB],|,\d+[AB]$)", lambda end: "")


@kind(NEVER)
def moved_end_doubled(case: Case) -> str | None:
    """Of the ends that an event moves one stands twice."""
    return case.in_event(r"(?:moves |,)(\d+[AB])", lambda end: f"{end},{end}")


@kind(NEVER)
def moved_ends_swapped(case: Case) -> str | None:
    """Two ends that an event moves change places."""
    return case.in_event(r"(\d+[AB],\d+[AB])", lambda ends: ",".join(reversed(ends.split(","))))


@kind(NEVER)
def end_moves_that_stays(case: Case) -> str | None:
    """A send that moves nothing is said to move an end."""
    return case.in_event(r"send (?:out|in) \d+ \S+()$", lambda nothing: f" moves {case.draw.randrange(9)}{case.draw.choice('AB')}")


# ---- Nodes and routers

NODE_OF_ACT = "another node may do the same there, as rest, be idle, or look for what the same node sent"


@kind(NODE_OF_ACT)
def node_of_an_act(case: Case) -> str | None:
    """An act is one of another node."""
    return case.with_entry(case.line(is_act), lambda entry: entry | {"node": case.one_but(list(range(case.nodes)), entry["node"])})


@kind(NEVER)
def node_that_is_not_there(case: Case) -> str | None:
    """An act is one of a node that there isn't."""
    return case.with_entry(case.line(is_act), lambda entry: entry | {"node": case.draw.choice([case.nodes, 255])})


@kind(NEVER)
def node_above_255(case: Case) -> str | None:
    """The number of a node has more than 8 bits."""
    return case.with_entry(case.line(is_act), lambda entry: entry | {"node": case.draw.choice([256, 2**32, 2**64 - 1, 2**64])})


@kind("a message may have come from the other node, too, and one may be posted to it")
def node_of_a_look_or_post(case: Case) -> str | None:
    """A node looks for what another one has sent, or posts to another one."""
    return case.in_event(r"^(?:look|post) (\d+)", lambda node: str(case.one_but([*range(case.nodes), 255, 256], int(node))))


@kind("another router may do just the same, as rest or leave")
def serial_of_a_router(case: Case) -> str | None:
    """An act is one of another router of its node."""
    at = case.line(lambda entry: re.match(r"r\d", entry.get("event", "")))

    def changed(entry: Entry) -> Entry:
        serial, _, told = entry["event"].partition(" ")
        return entry | {"event": f"r{case.one_but(case.serials(entry['node']), int(serial[1:]))} {told}"}

    return case.with_entry(at, changed)


@kind(NEVER)
def router_that_is_not_there(case: Case) -> str | None:
    """An act is one of a router that there isn't."""
    return case.in_event(r"^r(\d+) ", lambda serial: case.draw.choice(["999", "18446744073709551615", "18446744073709551616", "x", "", "-1"]))


# ---- Acts


@kind(NEVER)
def answer_of_a_try(case: Case) -> str | None:
    """A try for a lock has another of the three outcomes lock, wait and refused."""
    return case.in_event(r" (lock|wait|refused) ", lambda verb: case.one_but(["lock", "wait", "refused"], verb))


@kind(NEVER)
def act_on_a_word(case: Case) -> str | None:
    """A mark, a wake, a try for a lock or an unlock is another one of these."""
    return case.in_event(rf" ({'|'.join(OF_A_WORD)}) ", lambda verb: case.one_but(OF_A_WORD, verb))


@kind(NEVER)
def act_of_a_router(case: Case) -> str | None:
    """The verb of a router's act is that of another act, with all that stands behind it."""
    return case.in_event(rf"^r\d+ ({'|'.join(judge_events.VERBS)})\b", lambda verb: case.one_but(list(judge_events.VERBS), verb))


@kind("a node may look for what another has sent where it posted to that, and the other way round")
def act_of_a_node(case: Case) -> str | None:
    """The verb of a node's own act is that of another act, with all that stands behind it."""
    verbs = ["hand", "look", "post", "close", "idle"]
    return case.in_event(rf"^({'|'.join(verbs)})\b", lambda verb: case.one_but(verbs, verb))


@kind(NEVER)
def in_for_out(case: Case) -> str | None:
    """A send or a finish goes in for out, or out for in."""
    return case.in_event(r" (?:send|finish) (out|in) ", lambda way: "in" if way == "out" else "out")


@kind(NEVER)
def message_in_hand(case: Case) -> str | None:
    """The message that is handled is another one."""
    return case.in_event(r"hand (item \d+|\w+) ", lambda message: case.one_but(MESSAGES, message))


@kind(NEVER)
def outcome_put_behind(case: Case) -> str | None:
    """Behind an event stands that a message strayed or was dropped, or that a router left."""
    return case.in_event(r"(?<! dropped)(?<! leave)()$", lambda nothing: case.draw.choice([" stray", " dropped", " leave", " moves", " ", " 0"]))


@kind(NEVER)
def outcome_lost(case: Case) -> str | None:
    """That a router left with a discard isn't said, or the last word of another event is lost."""
    return case.in_event(r"^\S+( leave| .* \S+)$", lambda told: told.rpartition(" ")[0])


@kind(NEVER)
def word_after_an_act(case: Case) -> str | None:
    """A bit of the word that an act leaves behind is another one."""
    bits = [1 << number for number in range(15)]
    return case.in_event(rf" (?:{'|'.join(OF_A_WORD)}) \S+ (\d+)", lambda word: str(int(word) ^ case.draw.choice(bits)))


@kind(NEVER)
def claimed_word(case: Case) -> str | None:
    """A claim is of another word, or of none where there is one, or the other way round."""
    return case.in_event(r" claim (\S+)", lambda word: case.one_but(["0", "1", "NoWord", "4096", one_more(word) if word.isdigit() else "2"], word))


def unlocked(case: Case) -> tuple[int, str] | None:
    """The number of a line in which a router begins its bypass or retires, and a line in which it gives the lock back."""
    at = case.line(lambda entry: re.search(r" (begin|retire) ", entry.get("event", "")))
    if at is None:
        return None
    serial, *_, link = case.entries[at]["event"].split(" ")
    told = [re.match(rf"r\d+ (?:{'|'.join(OF_A_WORD)}) {re.escape(link)} (\d+)", entry.get("event", "")) for entry in case.entries[:at]]
    word = [int(found[1]) for found in told if found][-1] & (sum(model.STABLE.values()) + sum(model.WAITING.values()))
    return at, json.dumps({"node": case.entries[at]["node"], "event": f"{serial} unlock {link} {word}"})


@kind("the log tells nothing more of that bypass, or of the other end of that pair")
def unlock_for_a_begin(case: Case) -> str | None:
    """A router gives its lock back where it began its bypass, or retired."""
    found = unlocked(case)
    return None if found is None else case.put_in(*found, instead_of=1)


@kind(ALWAYS)
def unlock_at_the_end(case: Case) -> str | None:
    """A router gives its lock back where it began its bypass, or retired, and the log ends there: an unlock is possible wherever a begin or a retire is."""
    found = unlocked(case)
    return None if found is None else text_of([*case.lines[: found[0]], found[1]])


@kind(NEVER)
def rest_for_an_act(case: Case) -> str | None:
    """A router rests where it did something else."""
    return case.in_event(r"^r\d+ (.*(?<!rest))$", lambda told: "rest")


# ---- Calls


@kind(NEVER)
def portal_of_a_call(case: Case) -> str | None:
    """A call is made at another portal than its answer tells."""
    at = case.line(lambda entry: is_call(entry, "put", "get", "close"))
    return case.with_entry(at, lambda entry: entry | {"call": [entry["call"][0], case.one_but([*case.names(), "nobody"], entry["call"][1]), *entry["call"][2:]]})


@kind("the other portal answers the same, and what was done at it isn't seen")
def portal_of_a_call_and_answer(case: Case) -> str | None:
    """A call and its answer are of another portal."""
    at = case.line(lambda entry: is_call(entry, "put", "get", "close"))

    def changed(entry: Entry) -> Entry:
        (op, name, *parts), (_, _, *told) = entry["call"], entry["answer"].split(" ", 2)
        other = case.one_but([*case.names(), "nobody"], name)
        return {"call": [op, other, *parts], "answer": " ".join([op, other, *told])}

    return case.with_entry(at, changed)


@kind(ALWAYS)
def portal_renamed(case: Case) -> str | None:
    """A portal that is opened has another name, wherever it stands: names are the recorder's own."""
    opened = case.opened()
    if not opened:
        return None
    name = re.compile(rf"\b{case.draw.choice(opened)}\b(?! ?\\\")")
    return text_of([name.sub("renamed_portal_1", line) for line in case.lines])


@kind("neither pair is used behind it, or the open is refused")
def names_of_another_open(case: Case) -> str | None:
    """A pair is opened by the names of one that is there."""
    at, other = case.line(lambda entry: is_call(entry, "open")), case.line(lambda entry: is_call(entry, "open"))
    if at is None or other is None:
        return None
    one, two = case.entries[other]["call"][2:]
    return case.with_entry(at, lambda entry: {"call": [*entry["call"][:2], one, two], "answer": f"open {one} {two} {entry['answer'].split(' ')[-1]}"})


@kind("the open is refused, or its pair isn't used")
def node_of_an_open(case: Case) -> str | None:
    """A pair is opened on another node."""
    at = case.line(lambda entry: is_call(entry, "open"))
    return case.with_entry(at, lambda entry: entry | {"call": ["open", case.one_but(list(range(case.nodes)), entry["call"][1]), *entry["call"][2:]]})


UNSEEN = "the put is refused for another reason, or its parcel stays where it was put, and is neither moved nor got"


@kind(UNSEEN)
def portal_lost(case: Case) -> str | None:
    """Of the portals of a put one is lost."""
    return case.in_portals(1, lambda names: without(names, case.draw.randrange(len(names))))


@kind(UNSEEN)
def portals_swapped(case: Case) -> str | None:
    """The portals of a put stand in the other order."""
    return case.in_portals(2, lambda names: names[::-1])


@kind("the put is refused for a reason that comes before")
def portal_doubled(case: Case) -> str | None:
    """Of the portals of a put one stands twice."""
    return case.in_portals(1, lambda names: [*names, case.draw.choice(names)])


@kind(UNSEEN)
def portal_for_another(case: Case) -> str | None:
    """Of the portals of a put the first is another one."""
    return case.in_portals(1, lambda names: [case.one_but([*case.names(), "nobody"], names[0]), *names[1:]])


@kind(UNSEEN)
def portal_put_in(case: Case) -> str | None:
    """A put has one portal more."""
    return case.in_portals(0, lambda names: [*names, case.draw.choice([*case.names(), "nobody"])])


@kind("the put is refused for its own portal already, or for a reason that comes before")
def portal_of_its_own(case: Case) -> str | None:
    """A put carries its own portal."""
    return case.in_put(0, lambda call: [*call[:3], [*portals(call), call[1]]])


@kind("nobody got the parcel, or the put is refused")
def bytes_of_a_put(case: Case) -> str | None:
    """The bytes of a put are others."""
    return case.in_put(0, lambda call: [*call[:2], case.one_but(["a", "b", call[2] + "x", call[2][1:]], call[2]), *call[3:]])


@kind("nobody got the parcel, or the put is refused")
def bytes_lost(case: Case) -> str | None:
    """The bytes of a put are lost."""
    return case.in_put(0, lambda call: [*call[:2], "", *call[3:]])


@kind("the put is refused for the same reason, or one that comes before")
def bytes_that_no_parcel_has(case: Case) -> str | None:
    """A put has a byte or so many that no printed parcel has."""
    return case.in_put(0, lambda call: [*call[:2], case.draw.choice(["\t", "\x7f", "\u00e9", "x" * 257]), *call[3:]])


# ---- Answers


@kind(NEVER)
def got_bytes(case: Case) -> str | None:
    """A get answers other bytes."""
    return case.in_answer(r'^get \S+ \d+ \S+ "(.*)"$', lambda told: case.one_but(["", "a", told + "x", told[1:]], told))


@kind(NEVER)
def got_portal_lost(case: Case) -> str | None:
    """Of the portals that a get answers one is lost."""
    return case.in_answer(r"^get \S+ \d+ \[([^]]+)\]", lambda told: ",".join(without(told.split(","), case.draw.randrange(told.count(",") + 1))))


@kind(NEVER)
def got_portals_swapped(case: Case) -> str | None:
    """The portals that a get answers stand in the other order."""
    return case.in_answer(r"^get \S+ \d+ \[([^]]+,[^]]+)\]", lambda told: ",".join(told.split(",")[::-1]))


@kind(NEVER)
def got_portal_for_another(case: Case) -> str | None:
    """The first portal that a get answers is another one, or there is one where there is none."""
    return case.in_answer(r"^get \S+ \d+ \[([^],]*)", lambda told: case.one_but([*case.names(), "nobody"], told))


@kind(NEVER)
def refused_for_answered(case: Case) -> str | None:
    """A call that was done is said to be refused."""
    at = case.line(lambda entry: re.match(r"put \S+ \d|get \S+ \d|close \S+ \d|open \S+ \S+ ok", entry.get("answer", "")))
    return case.with_entry(at, lambda entry: entry | {"answer": refused(entry, case.draw.choice(REFUSALS[entry["call"][0]][:3]))})


@kind(NEVER)
def answered_for_refused(case: Case) -> str | None:
    """A call that was refused is said to be done."""
    at = case.line(lambda entry: re.match(r"(put|get|close|open) .*[a-z]$", entry.get("answer", "")) and not entry["answer"].endswith(" ok"))
    done = {"open": ["ok"], "put": ["0", "1"], "get": ['0 [] ""', '0 [] "a"', '1 [] "hello"'], "close": ["0", "1"]}
    return case.with_entry(at, lambda entry: entry | {"answer": refused(entry, case.draw.choice(done[entry["call"][0]]))})


@kind(NEVER)
def another_refusal(case: Case) -> str | None:
    """A call is refused for another reason."""
    at = case.line(lambda entry: re.match(r"(put|get|close|open) .*[a-z]$", entry.get("answer", "")) and not entry["answer"].endswith(" ok"))
    return case.with_entry(at, lambda entry: entry | {"answer": refused(entry, case.one_but(REFUSALS[entry["call"][0]], entry["answer"].split(" ")[-1]))})


def refused(entry: Entry, why: str) -> str:
    """The answer of a call that says this of it."""
    return " ".join([*entry["answer"].split(" ")[: 3 if entry["call"][0] == "open" else 2], why])


def without(values: list[str], at: int) -> list[str]:
    return values[:at] + values[at + 1 :]


@kind(NEVER)
def shown_word(case: Case) -> str | None:
    """One of the words that are shown is another one."""
    return case.in_answer(r"^words.* (\d+)", lambda word: str(int(word) ^ (1 << case.draw.randrange(15))))


@kind(NEVER)
def shown_word_lost(case: Case) -> str | None:
    """The last of the words that are shown is lost."""
    return case.in_answer(r"^words.*( \d+)$", lambda word: "")


@kind(NEVER)
def another_call(case: Case) -> str | None:
    """A get is a close, a close is a get, and a put is a get, with the answer as it was."""
    others = {"get": "close", "close": "get", "put": "get"}
    return case.with_entry(case.line(lambda entry: is_call(entry, *others)), lambda entry: entry | {"call": [others[entry["call"][0]], entry["call"][1]]})


@kind(NEVER)
def turn_or_settle(case: Case) -> str | None:
    """A call is a turn or a settle, which a script has and a log hasn't."""
    others = [(["turn", 0, 1], "n0: idle"), (["settle", 0], "settled"), (["settle", 0], "unsettled"), (["settle", 1000], "settled")]
    call, answer = case.draw.choice(others)
    return case.with_entry(case.line(is_call), lambda entry: {"call": call, "answer": answer})


@kind(NEVER)
def parts_of_a_call(case: Case) -> str | None:
    """A call has a part more, or one less than it needs, or one of another type."""

    def changed(entry: Entry) -> Entry:
        call = entry["call"]
        others = [[*call, 0], [*call, []], [], ["fly", *call[1:]], [None, *call[1:]], call[0], {call[0]: call[1:]}, [*call, "x", "y", "z"]]
        return entry | {"call": case.draw.choice([other for other in others if not model.is_command(other, case.nodes, set())])}

    return case.with_entry(case.line(is_call), changed)


@kind(NEVER)
def name_that_is_none(case: Case) -> str | None:
    """A name of a call is none: it is empty, too long, or has a letter that names don't have."""
    bad = ["", "x" * 17, "a b", "a-b", "\u00e9", "a\n", 7, None]
    at = case.line(lambda entry: is_call(entry, "open", "put", "get", "close"))
    return case.with_entry(at, lambda entry: entry | {"call": [*with_name(entry["call"], case.draw.choice(bad))]})


def with_name(call: list[Any], name: Any) -> list[Any]:
    """A call with another first name."""
    at = 2 if call[0] == "open" else 1
    return [*call[:at], name, *call[at + 1 :]]


@kind(NEVER)
def names_of_an_open(case: Case) -> str | None:
    """The names of an open are the same, or one of them is of the form of a first pair's."""
    at = case.line(lambda entry: is_call(entry, "open"))
    return case.with_entry(at, lambda entry: entry | {"call": with_name(entry["call"], case.draw.choice([entry["call"][3], "0>1", "a>"]))})


# ---- The header


@kind("none of what the log tells hangs on how many nodes there are")
def another_count_of_nodes(case: Case) -> str | None:
    """The header has one node more, or one less, with words enough."""
    nodes = case.draw.choice([number for number in (case.nodes - 1, case.nodes + 1) if 1 <= number <= 8])
    return case.in_header(nodes=nodes, words=max(case.entries[0]["words"], nodes * (nodes - 1) // 2))


@kind("a word more makes no difference where none was missing")
def more_words(case: Case) -> str | None:
    """The header has more words."""
    return case.in_header(words=min(4096, case.entries[0]["words"] + case.draw.choice([1, 1, 2, 4096])))


@kind("a word less makes no difference where it wasn't taken")
def fewer_words(case: Case) -> str | None:
    """The header has fewer words, and one for each first pair."""
    least, words = case.nodes * (case.nodes - 1) // 2, case.entries[0]["words"]
    return None if least == words else case.in_header(words=case.draw.randrange(least, words))


@kind(NEVER)
def too_few_or_many_words(case: Case) -> str | None:
    """The header has fewer words than first pairs, or more than 4,096."""
    least = case.nodes * (case.nodes - 1) // 2
    return case.in_header(words=case.draw.choice([4097, 2**64] + [least - 1] * (least > 0)))


@kind(NEVER)
def too_few_or_many_nodes(case: Case) -> str | None:
    """The header has no node, or more than eight."""
    return case.in_header(nodes=case.draw.choice([0, 9, 256, 2**64]), words=4096)


@kind(NEVER)
def no_number_in_the_header(case: Case) -> str | None:
    """A number of the header is a text, is missing in its place, or is written with a sign, a point or an exponent."""
    member = case.draw.choice(["nodes", "words"])
    bad = case.draw.choice(['"{}"', "null", "-{}", "{}.0", "{}e0", "[{}]", "true"])
    return case.with_line(0, lambda line: re.sub(rf'("{member}": )(\d+)', lambda found: found[1] + bad.format(found[2]), line))


@kind(NEVER)
def header_lost(case: Case) -> str | None:
    """The header is left out."""
    return text_of(case.lines[1:])


@kind(NEVER)
def header_doubled(case: Case) -> str | None:
    """The header stands once more among the other lines."""
    return case.put_in(case.place(), case.lines[0])


# ---- What a line is made of


@kind(NEVER)
def json_broken(case: Case) -> str | None:
    """A line loses its first or last bracket, its first quotation mark or its first colon."""
    at = case.draw.randrange(len(case.lines))
    lost = case.draw.choice(["{", "}", '"', ":"])
    return case.with_line(at, lambda line: line[:-1] if lost == "}" else line.replace(lost, "", 1))


@kind(NEVER)
def more_behind_a_line(case: Case) -> str | None:
    """Behind the value of a line stands something else."""
    return case.with_line(case.draw.randrange(len(case.lines)), lambda line: line + case.draw.choice(["}", ",", " 0", " {}", line, " // so", "\x00"]))


@kind(NEVER)
def no_object(case: Case) -> str | None:
    """A line is a list, a number, a text or null."""
    return case.with_line(case.draw.randrange(len(case.lines)), lambda line: case.draw.choice([f"[{line}]", "[]", "0", json.dumps(line), "null", "true"]))


@kind(NEVER)
def member_lost(case: Case) -> str | None:
    """A member of a line is missing."""
    at = case.draw.randrange(len(case.lines))
    lost = case.draw.choice(list(case.entries[at]))
    return case.with_entry(at, lambda entry: {member: value for member, value in entry.items() if member != lost})


@kind(NEVER)
def member_of_another_type(case: Case) -> str | None:
    """A member of a line is null, a number for a text, a text for a number, or in a list."""
    at = case.draw.randrange(len(case.lines))

    def changed(entry: Entry) -> Entry:
        member = case.draw.choice(list(entry))
        value = entry[member]
        return entry | {member: case.draw.choice([None, [value], {}, True, str(value) if isinstance(value, int) else 0])}

    return case.with_entry(at, changed)


@kind(NEVER)
def number_that_is_not_whole(case: Case) -> str | None:
    """The number of a node is written with a sign, a point or an exponent."""
    written = case.draw.choice(["-{}", "{}.0", "{}.5", "{}e0", "0{}", "+{}", "0x{}"])
    return case.with_line(case.line(is_act), lambda line: re.sub(r'(?<="node": )\d+', lambda found: written.format(found[0]), line))


@kind("the byte stands between two parts of a line, or in bytes or a name that nobody sees")
def byte_for_another(case: Case) -> str | None:
    """Some byte of the log is another one."""
    text = text_of(case.lines)
    at = case.draw.randrange(len(text))
    return text[:at] + chr(case.draw.randrange(128)) + text[at + 1 :]


@kind("the byte stood between two parts of a line, or in bytes or a name that nobody sees")
def byte_lost(case: Case) -> str | None:
    """Some byte of the log is lost."""
    text = text_of(case.lines)
    at = case.draw.randrange(len(text))
    return text[:at] + text[at + 1 :]


@kind(NEVER)
def no_utf8(case: Case) -> str | None:
    """A line has bytes that are no UTF-8."""
    bad = case.draw.choice([b"\xff", b"\xc0\x80", b"\xe2\x82", b"\xed\xa0\x80", b"\xf5\x80\x80\x80"]).decode(errors="surrogateescape")
    at = case.draw.randrange(len(case.lines))
    place = case.draw.randrange(len(case.lines[at]) + 1)
    return case.with_line(at, lambda line: line[:place] + bad + line[place:])


@kind(NEVER)
def half_a_pair(case: Case) -> str | None:
    """A text of a line has half of a surrogate pair."""
    return case.with_line(case.draw.randrange(len(case.lines)), lambda line: '{"at": "' + case.draw.choice([r"\ud800", r"\udc00", r"\ud800\u0041"]) + '", ' + line[1:])


@kind(NEVER)
def too_deep(case: Case) -> str | None:
    """A line has a member that is nested more than 127 levels deep with it."""
    return case.with_line(case.draw.randrange(len(case.lines)), lambda line: '{"at": ' + "[" * 127 + "]" * 127 + ", " + line[1:])


@kind(NEVER)
def byte_order_mark(case: Case) -> str | None:
    """The log begins with a byte order mark."""
    return "\ufeff" + text_of(case.lines)


# ---- What means the same


@kind(ALWAYS)
def member_put_in(case: Case) -> str | None:
    """A line has a member more, which is passed over."""
    others = ['"at": 1.5e3', '"thread": "\\ud83d\\ude00"', '"Event": "idle"', '"nothing": ' + "[" * 126 + "]" * 126, '"nodes ": 9, "": {}']
    return case.with_line(case.draw.randrange(len(case.lines)), lambda line: "{" + case.draw.choice(others) + ", " + line[1:])


@kind(ALWAYS)
def call_beside_an_act(case: Case) -> str | None:
    """An act has a call and an answer, too, which are passed over."""
    return case.with_entry(case.line(is_act), lambda entry: {"call": ["fly"], "answer": 3} | entry)


@kind("the call isn't needed, and the node is idle: the text of an event is what counts")
def act_beside_a_call(case: Case) -> str | None:
    """A call has the text of an event, too."""
    return case.with_entry(case.line(is_call), lambda entry: entry | {"node": case.draw.randrange(case.nodes), "event": "idle"})


@kind(ALWAYS)
def members_in_another_order(case: Case) -> str | None:
    """The members of a line stand in the other order."""
    return case.with_entry(case.draw.randrange(len(case.lines)), lambda entry: dict(reversed(entry.items())))


@kind(ALWAYS)
def member_before_the_true_one(case: Case) -> str | None:
    """A member stands twice, first a wrong one: the last one counts."""
    at = case.draw.randrange(len(case.lines))
    member = case.draw.choice(list(case.entries[at]))
    return case.with_line(at, lambda line: f'{{"{member}": {case.draw.choice(["0", "null", "[]"])}, {line[1:]}')


@kind(NEVER)
def member_behind_the_true_one(case: Case) -> str | None:
    """A member stands twice, last a wrong one: the last one counts."""
    at = case.draw.randrange(len(case.lines))
    member = case.draw.choice(list(case.entries[at]))
    return case.with_line(at, lambda line: f'{line[:-1]}, "{member}": {case.draw.choice(["-1", "null", "[]"])}}}')


@kind(ALWAYS)
def blanks(case: Case) -> str | None:
    """There are blanks, tabs and carriage returns before, in and behind the value of a line."""
    return case.with_line(case.draw.randrange(len(case.lines)), lambda line: f"\t \r{line[0]}  \t{line[1:-1]}\r \t{line[-1]}  \r")


@kind(ALWAYS)
def no_blanks(case: Case) -> str | None:
    """No line has a blank between its parts, as other writers of JSON have it."""
    return text_of([json.dumps(entry, separators=(",", ":")) for entry in case.entries])


@kind(ALWAYS)
def letters_as_escapes(case: Case) -> str | None:
    """In a line each letter of a member's name or a text is written as an escape."""
    texts = re.compile(r'"(?:[^"\\]|\\.)*"')

    def escaped(found: re.Match[str]) -> str:
        return '"' + re.sub(r"(\\u....|\\.)|([A-Za-z>])", lambda it: it[1] or f"\\u{ord(it[2]):04x}", found[0][1:-1]) + '"'

    return case.with_line(case.draw.randrange(len(case.lines)), lambda line: texts.sub(escaped, line))


@kind(ALWAYS)
def no_last_line_feed(case: Case) -> str | None:
    """The last line has no line feed behind it."""
    return text_of(case.lines)[:-1]


@kind(ALWAYS)
def carriage_returns(case: Case) -> str | None:
    """Each line ends with a carriage return and a line feed."""
    return text_of([line + "\r" for line in case.lines])
