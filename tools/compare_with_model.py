"""Draws scripts, runs each by the program and by tools/model.py, and prints which transcripts or statuses differ.

    python3 tools/compare_with_model.py PROGRAM [COUNT [FIRST]] [--counts] [--checker PROGRAM]

COUNT scripts are drawn from the seeds FIRST and up, 1,000 from 0 if nothing is said. Of eight, five have any calls and turns, one is
such a script but for one value, one but for some bytes, and one puts, settles and gets in rounds, and is run with the argument
`threads`, too. `--counts` prints how many lines of each form were compared. With `--checker` ipcz_check must say of each script what
the model says: that it is one, that it is no JSON, or which command is the first that is none.
"""
import collections
import json
import pathlib
import random
import re
import subprocess
import sys
from typing import Any

import asked
import model

ROUNDS = 7
SPOILED = 6
BROKEN = 5
DATA = ["", "a", "hello", ' "\\~', "x" * 256]
BAD_DATA = ["x" * 257, "\t", "\x7f", "\u00e9", "\u0000"]
SPOILS = [None, True, -1, 0, 9, 1.5, 1000001, 2**64, "", "a0", "0>1", "not a name", "a" * 17, [], ["x", 1], {}, ["fly"], ["show", 1], ["get"]]
PIECES = [
    b"[", b"]", b"{", b"}", b'"', b",", b":", b"0", b"-0", b"1.0", b"1e400", b"9" * 400, b"NaN", b"null", b"\\", rb"\ud800", rb"\u0041", b"\t", b"\n", b"\x00",
    b"\xe9", b"\xc3\xa9", b"\xef\xbb\xbf", b"[" * 130,
]


class Drawing:
    """A script that is drawn command by command. The model runs along, so that most calls are those that some caller could make."""

    def __init__(self, draw: random.Random, words: int | None = None, nodes: int | None = None) -> None:
        self.draw = draw
        self.nodes = nodes or draw.choice([1, 2, 2, 2, 2, 3, 3, 4, 8])
        pairs = self.nodes * (self.nodes - 1) // 2
        self.words = words or pairs + draw.choice([0, 1, 3, 6, 12, 40, 40, 40])
        self.run = model.Run(self.nodes, self.words)
        self.commands = []

    def script(self) -> dict[str, Any]:
        return {"nodes": self.nodes, "words": self.words, "commands": self.commands}

    def add(self, *command: object) -> None:
        self.commands.append(list(command))
        self.run.do(self.commands[-1])

    def held(self, node: model.Node) -> list[str]:
        return [name for name, end in self.run.ends.items() if end in node.held]

    def name(self) -> str:
        """Mostly of a portal that is held, else any name."""
        held = [name for node in self.run.world.nodes for name in self.held(node)]
        if held and self.draw.random() < 0.9:
            return self.draw.choice(held)
        return self.draw.choice([*self.run.ends, "nobody", "9>0"])

    def attached(self, at: str, count: int) -> list[str]:
        """Names of portals to attach at one: mostly of the others that are held at its node, except those of its own pair."""
        end = self.run.ends.get(at)
        node = end and self.run.world.holder_of(end)
        if not node or self.draw.random() < 0.1:
            return [self.name() for _ in range(count)]
        beside = [name for name in self.held(node) if self.run.ends[name][0] != end[0]]
        return self.draw.sample(beside, min(count, len(beside)))

    def open(self) -> None:
        opened = sum(command[0] == "open" for command in self.commands)
        self.add("open", self.draw.randrange(self.nodes), f"a{opened}", f"b{opened}")

    def put(self) -> None:
        at = self.name()
        data = self.draw.choice(BAD_DATA if self.draw.random() < 0.03 else DATA)
        count = self.draw.choice([0, 0, 1, 1, 1, 1, 2, 3, 8, 9])
        self.add("put", at, data, *([self.attached(at, count)] if count else []))

    def call(self) -> None:
        kind = self.draw.random()
        if kind < 0.12:
            self.open()
        elif kind < 0.2:
            self.add("close", self.name())
        elif kind < 0.5:
            self.add("get", self.name())
        else:
            self.put()

    def turns(self) -> None:
        kind = self.draw.random()
        if kind < 0.05:
            self.add("settle", self.draw.choice([0, 3, 20, 1000]))
        elif kind < 0.07:
            self.add("show")
        else:
            self.add("turn", self.draw.randrange(self.nodes), self.draw.choice([1, 1, 2, 4, 10, 30]))

    def get_all(self) -> None:
        """Settles, and then gets once at each portal."""
        self.add("settle", 2000)
        for name in list(self.run.ends):
            self.add("get", name)


def of_any_calls(draw: random.Random) -> dict[str, Any]:
    drawing = Drawing(draw)
    share = draw.choice([0.3, 0.5, 0.7])
    for _ in range(draw.choice([5, 20, 60, 150])):
        if draw.random() < share:
            drawing.turns()
        else:
            drawing.call()
    drawing.get_all()
    drawing.add("show")
    return drawing.script()


def of_rounds(draw: random.Random) -> dict[str, Any]:
    """In each round one portal travels at most, and then all is got: what is got doesn't hang on the order of turns."""
    drawing = Drawing(draw, words=4096)
    for _ in range(draw.choice([1, 3, 8])):
        drawing.open()
        at = drawing.name()
        drawing.add("put", at, "carries", drawing.attached(at, 1))
        for _ in range(draw.randrange(6)):
            drawing.add("put", drawing.name(), draw.choice(DATA))
        if draw.random() < 0.3:
            drawing.add("close", drawing.name())
        for _ in range(5):
            drawing.get_all()
    return drawing.script()


def spoiled(draw: random.Random) -> dict[str, Any]:
    """A script in which one command is there twice, or one value, at any depth, is another or is missing."""
    script = of_any_calls(draw)
    kind = draw.random()
    if kind < 0.3:
        script["commands"].append(draw.choice(script["commands"]))
        return script
    place = script
    while True:
        key = draw.choice(list(place) if type(place) is dict else range(len(place)))
        if type(place[key]) not in (dict, list) or not place[key] or draw.random() < 0.2:
            break
        place = place[key]
    if kind < 0.85:
        place[key] = draw.choice(SPOILS)
    else:
        del place[key]
    return script


def broken(draw: random.Random) -> bytes:
    """A script of which some bytes are others, are missing, stand twice, or have others before them."""
    text = bytearray(json.dumps(of_any_calls(draw)).encode())
    for _ in range(draw.choice([1, 1, 2])):
        at, end = sorted(draw.choices(range(len(text)), k=2))
        end = min(end, at + draw.choice([0, 1, 1, 2, 40]))
        text[at:end] = draw.choice([*PIECES, b"", bytes(text[at:end]) * 2])
    return bytes(text)


def drawn(seed: int) -> bytes:
    draw, kinds = random.Random(seed), {SPOILED: spoiled, ROUNDS: of_rounds}
    return broken(draw) if seed % 8 == BROKEN else json.dumps(kinds.get(seed % 8, of_any_calls)(draw)).encode()


def form(line: str) -> str:
    """What a line tells, without names, numbers and data."""
    first, *words = line.split(" ")
    if first.endswith(":"):
        return " ".join(["n:", *(word for word in words if word.isalpha())])
    return f"{first} {words[-1]}" if words and words[-1].isalpha() else first


def first_fault(checker: pathlib.Path, script: bytes) -> int | str | None:
    """The number of the first fault that the checker tells, 0 for the script itself; None if it calls it a script, and a text if it fails."""
    done = subprocess.run([checker], input=script, capture_output=True)
    if done.returncode == 0:
        return None
    found = re.match(rb"line \d+, column \d+: (?:command (\d+): )?.*; expected .*\n", done.stdout)
    return int(found[1] or 0) if found and done.returncode == 2 and done.stdout.isascii() else f"status {done.returncode}"


def model_fault(text: str) -> int | None:
    """Likewise by the model: what is no JSON is a fault of the script itself."""
    if text == "refused NotJson\n":
        return 0
    return int(text.split()[2]) if text.startswith("refused BadShape ") else None


def main() -> int:
    parser = asked.parser(__doc__)
    parser.add_argument("program", type=asked.program)
    parser.add_argument("count", type=int, nargs="?", default=1000)
    parser.add_argument("first", type=int, nargs="?", default=0)
    parser.add_argument("--counts", action="store_true", help="print how many lines of each form were compared")
    parser.add_argument("--checker", type=asked.program, metavar="PROGRAM", help="compare what ipcz_check says of the scripts, too")
    given = parser.parse_args()
    counts: collections.Counter[str] = collections.Counter()
    is_wrong = False
    for seed in range(given.first, given.first + given.count):
        script = drawn(seed)
        text, status, _ = model.answer(script)
        counts.update(form(line) for line in text.splitlines())
        if given.checker and first_fault(given.checker, script) != model_fault(text):
            is_wrong = True
            print(f"seed {seed}: the checker says {first_fault(given.checker, script)} and the model {model_fault(text)}")
        for arguments in [[], ["threads"]] if seed % 8 == ROUNDS else [[]]:
            done = subprocess.run([given.program, *arguments], input=script, capture_output=True)
            if (done.stdout, done.stderr, done.returncode) != (text.encode(), b"", status):
                is_wrong = True
                print(f"seed {seed}: the program writes otherwise than the model", *arguments)
    if given.counts:
        print(*(f"{number:8} {name}" for name, number in counts.most_common()), sep="\n")
    return int(is_wrong)


if __name__ == "__main__":
    sys.exit(main())
