"""Opens, moves and closes pairs over four nodes by a script, until each link word is claimed, and prints only what is wrong.

    python3 tools/soak.py PROGRAM [WORDS]     4,096 words if nothing is said

The program must answer each call as the rules say, also with the argument `threads`, and show the words that tools/model.py has, which runs
along. By the model no node may have another router at the end than those of its first pairs, which are open. One pair stays open meanwhile,
and its second portal goes from node to node; it is closed last.
"""
import collections
import json
import subprocess
import sys

import asked
import model

NODES = 4
ENOUGH = 1000000
# How many words are enough for a round.
ROUND = 16


class Soak:
    """The commands of a script, each with the line that it must write. The model runs along, and says how many words are claimed."""

    def __init__(self, words: int) -> None:
        self.words = words
        self.run = model.Run(NODES, words)
        self.commands: list[list] = []
        self.lines: list[str] = []
        self.sent: collections.Counter[tuple[int, int]] = collections.Counter()

    def ask(self, line: str, *command: object) -> None:
        self.commands.append(list(command))
        self.lines.append(line)
        if self.run.do(self.commands[-1]) != [line]:
            sys.exit(f"the model doesn't answer {line}")

    def settle(self) -> None:
        self.ask("settled", "settle", ENOUGH)

    def words_left(self) -> int:
        return self.words - len(self.run.world.words)

    def open(self, node: int, first: str, second: str) -> bool:
        """Whether a word was left for a pair."""
        is_open = self.words_left() > 0
        self.ask(f"open {first} {second} {'ok' if is_open else 'NoWord'}", "open", node, first, second)
        return is_open

    def move(self, name: str, here: int, there: int) -> int:
        """A portal goes from a node to another, if it isn't there; the node where it is then."""
        if here != there:
            number = self.sent[here, there]
            self.sent[here, there] += 1
            self.ask(f"put {here}>{there} {number}", "put", f"{here}>{there}", "m", [name])
            self.settle()
            self.ask(f'get {there}>{here} {number} [{name}] "m"', "get", f"{there}>{here}")
        return there

    def exchange(self, first: str, second: str, number: int) -> None:
        """A parcel each way, under one number."""
        for at, data in [(first, "there"), (second, "back")]:
            self.ask(f"put {at} {number}", "put", at, data)
        self.settle()
        for at, data in [(second, "there"), (first, "back")]:
            self.ask(f'get {at} {number} [] "{data}"', "get", at)

    def close(self, name: str, number: int) -> None:
        self.ask(f"close {name} {number}", "close", name)

    def hear(self, name: str) -> None:
        """A get tells that the peer was closed."""
        self.ask(f"get {name} PeerClosed", "get", name)

    def end(self, kind: int, node: int, first: str, second: str) -> None:
        """Closes both ends of a pair at which two parcels each were put."""
        match kind:
            case 0 | 4:
                self.close(first, 2)
                self.close(second, 2)
            case 1 | 5:
                self.close(first, 2)
                self.settle()
                self.hear(second)
                self.close(second, 2)
            case 2:
                self.ask(f"put {first} 2", "put", first, "late")
                self.close(second, 2)
                self.close(first, 3)
            case _:
                self.end_with_a_portal(node, first, second)
        self.settle()

    def end_with_a_portal(self, node: int, first: str, second: str) -> None:
        """The last parcel carries a portal, and nobody gets it."""
        kept, carried = f"{first}k", f"{first}c"
        if not self.open(node, kept, carried):
            self.close(first, 2)
            return self.close(second, 2)
        self.ask(f"put {first} 2", "put", first, "late", [carried])
        self.close(second, 2)
        self.settle()
        self.hear(kept)
        self.close(kept, 0)
        self.close(first, 3)

    def live(self, number: int) -> bool:
        """Opens a pair, moves its ends and closes them; whether there was a word for it. Where few words are left the first end stays: of
        two proxies without a word none can leave."""
        here, first, second = number % NODES, f"a{number}", f"b{number}"
        if not self.open(here, first, second):
            return False
        there = self.move(second, here, (here + 1) % NODES)
        self.exchange(first, second, 0)
        if self.words_left() >= ROUND:
            here = self.move(first, here, (here + 2) % NODES)
            self.move(second, there, number // 4 % NODES)
        self.exchange(first, second, 1)
        self.end(number % 7, here, first, second)
        return True

    def use_words(self) -> None:
        """Rounds until no word is left; then the pair is closed that stayed open meanwhile."""
        self.open(0, "x", "y")
        at, number = 0, 0
        while self.live(number):
            at = self.move("y", at, number % NODES)
            self.exchange("x", "y", number)
            number += 1
        self.close("x", number)
        self.close("y", number)
        self.settle()

    def routers(self) -> list[int]:
        return [len(node.routers) for node in self.run.world.nodes]

    def script(self, shows_words: bool) -> bytes:
        commands = [*self.commands, *([["show"]] if shows_words else [])]
        return json.dumps({"nodes": NODES, "words": self.words, "commands": commands}).encode()

    def transcript(self, shows_words: bool) -> bytes:
        lines = [*self.lines, *([" ".join(["words", *map(str, self.run.world.words)])] if shows_words else [])]
        return "".join(line + "\n" for line in lines).encode()


def main() -> None:
    parser = asked.parser(__doc__)
    parser.add_argument("program", type=asked.program)
    parser.add_argument("words", type=int, nargs="?", default=4096)
    given = parser.parse_args()
    soak = Soak(given.words)
    soak.use_words()
    if soak.routers() != [NODES - 1] * NODES:
        sys.exit(f"by the model the nodes have {soak.routers()} routers")
    for arguments in [], ["threads"]:
        # Which of two sinks retires is as their turns come: on threads that isn't always the same.
        shows_words = not arguments
        done = subprocess.run([given.program, *arguments], input=soak.script(shows_words), capture_output=True)
        if (done.returncode, done.stdout) != (0, soak.transcript(shows_words)):
            sys.exit(f"the program answers otherwise {' '.join(arguments)}")


if __name__ == "__main__":
    main()
