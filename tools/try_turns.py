"""Has the law of worlds refuse the turned definitions of `turn_definitions.py`.

    python3 tools/try_turns.py [NAME..]                      these, or all
    python3 tools/try_turns.py --third [--beside FOLDER]     a third of them; beside an `rt ci` here, as .ci/run does

Only the law is asked: the functions of `ipcz_world` that do nothing, with `ipcz_router` and `ipcz_node` as sources, over what one check of them as they
stand has kept. So it is shown that the law refuses the definition; whether the code follows it `turn_definitions.py` shows, which also says when a turn
counts as refused. A third is every third turn, from one on that the sources of these crates choose: so the same for the same sources, and most likely
another one once they have changed.

The libraries below those two crates are made by `rt lib`; with `--beside` they are those of the run that goes on, and what is as it must be is kept for
later runs on this machine, by the sums of all that it was made from.
"""
from __future__ import annotations

import argparse
import contextlib
import functools
import hashlib
import pathlib
import shutil
import signal
import sys
import tempfile
import threading
from concurrent.futures import ThreadPoolExecutor

import turn_definitions
import try_edits
from try_edits import KEPT, KIT, PARTS, PROCESSORS, TOP, USED, Beside
from turn_definitions import HARMLESS, LAW, TURNS

# The crates below the law that a turn may change, each after those that it uses.
TURNED = ("ipcz_router", "ipcz_node")
TOOLS = [pathlib.Path(it.__file__) for it in (turn_definitions, try_edits)] + [pathlib.Path(__file__)]


def laws() -> list[str]:
    """Returns the functions of the law's crate that do nothing."""
    found = try_edits.functions_of(TOP / "crates" / LAW)
    return sorted(it.name.partition("::")[2] for it in found if it.name and not it.owner and it.begin == it.end)


def command(room: pathlib.Path, over: pathlib.Path) -> list[str]:
    """Returns the command that asks the law in a room."""
    built = [it for it in try_edits.below(LAW) if it not in TURNED]
    found = [f"{KIT}/bin/rattle", "check", "--crate-name", LAW, "src/lib.rt", "--extern", f"std={KIT}/rlibs/std.rlib", "-L", f"dependency={KIT}/rlibs"]
    for it in built:
        found += ["-L", f"dependency={try_edits.library(it)}"]
        found += ["--extern", f"{it}={try_edits.library(it)}/{it}.rlib"] if it in USED[LAW] else []
    for it in TURNED:
        found += ["--lib", f"{it}:{','.join((*USED[it], 'std'))}={room}/{it}/src/lib.rt"]
    found += ["--antt-project", f"{KIT}/rattle/logic/antt-project.json", "--logic-built", f"{KIT}/logic_built"]
    return [*found, "--incremental", str(over), "--jobs", "1", *(word for it in laws() for word in ("--only", it))]


def make_room(room: pathlib.Path) -> None:
    """Copies what a turn may change."""
    for crate in (*TURNED, LAW):
        for part in PARTS:
            shutil.copytree(TOP / "crates" / crate / part, room / crate / part)


@functools.cache
def sum_of_sources() -> str:
    """Returns a sum of the crates that the law stands on."""
    return try_edits.sum_of(*(TOP / "crates" / it / part for it in (*try_edits.below(LAW), LAW) for part in PARTS))


def sum_of(name: str) -> str:
    """Returns a sum of what the verdict on a turn stands on."""
    own = [it.read_bytes() for it in (KIT / "KIT-ID", KIT / "WHAT", *TOOLS)]
    return hashlib.sha256(b" ".join((*own, sum_of_sources().encode(), name.encode()))).hexdigest()


class Law:
    """The law as it stands, of which turns are asked."""

    def __init__(self, folder: pathlib.Path, turns: threading.Semaphore, beside: Beside | None) -> None:
        self.folder, self.turns, self.beside, self.seconds, self.lock = folder, turns, beside, 0.0, threading.Lock()

    def ask(self, room: pathlib.Path, over: pathlib.Path) -> tuple[int, str]:
        """Asks the law in a room; once more, if it was killed, most likely for memory."""
        for is_last in (False, True):
            with self.turns:
                status, text, is_late, seconds = try_edits.ran(command(room, over), room / LAW)
            with self.lock:
                self.seconds += seconds
            if status != -signal.SIGKILL or is_late or is_last:
                break
        return status, text

    def stands(self) -> bool:
        """Asks the law as it stands, and keeps what that shows."""
        kept, earlier = self.folder / "kept", TOP / "crates" / LAW / "out/incremental"
        if earlier.is_dir() and not self.beside:
            try_edits.linked(earlier, kept)
        else:
            kept.mkdir()
        make_room(self.folder / "as it stands")
        status, text = self.ask(self.folder / "as it stands", kept)
        if status:
            last = text.strip().rpartition("\n")[2]
            print(f"turns: none was tried, since the law isn't proved as it stands: status {status}, {last[: try_edits.MOST_LETTERS]}")
        return status == 0

    def tried(self, name: str) -> str:
        """Makes a turn in a room of its own, and returns what the law says of it."""
        room, over = self.folder / name, self.folder / f"over {name}"
        make_room(room)
        turn_definitions.turn(str(room), TURNS[name])
        try_edits.linked(self.folder / "kept", over)
        status, text = self.ask(room, over)
        # (with another status rattle has judged nothing)
        said = turn_definitions.of_law(str(room), status == 0, text) if status in (0, 1) else f"NOT TRIED: its check ended with status {status}"
        for it in (room, over):
            shutil.rmtree(it, ignore_errors=True)
        return said

    def is_as_it_must_be(self, name: str) -> bool:
        """Tries a turn, if no earlier run has, tells what comes of it, and keeps it if it is as it must be."""
        place = KEPT / f"turn-{sum_of(name)}"
        with contextlib.suppress(OSError):
            print(f"{name}: {place.read_text()}", flush=True)
            return True
        said = self.tried(name)
        print(f"{name}: {said}", flush=True)
        is_well = said == "NOT REFUSED" if name in HARMLESS else said.startswith("refused")
        if is_well and self.beside and self.beside.are_its_own(TURNED[-1]):
            with contextlib.suppress(OSError):
                KEPT.mkdir(mode=0o700, parents=True, exist_ok=True)
                place.write_text(said)
        return is_well


def a_third() -> list[str]:
    """Returns every third turn, from one on that the sources of the law and below it choose."""
    return list(TURNS)[int(sum_of_sources(), 16) % 3 :: 3]


def failed(names: list[str], law: Law) -> list[str]:
    """Tries turns, and returns those that aren't as they must be."""
    if law.beside and not law.beside.awaits(TURNED[-1]):
        print("turns: none was tried, since a library below the law isn't proved")
        return names
    if not all((KEPT / f"turn-{sum_of(it)}").is_file() for it in names) and not law.stands():
        return names
    with ThreadPoolExecutor(PROCESSORS) as pool:
        return [name for name, is_well in zip(names, pool.map(law.is_as_it_must_be, names)) if not is_well]


def main() -> None:
    given = argparse.ArgumentParser(description=__doc__, formatter_class=argparse.RawDescriptionHelpFormatter)
    given.add_argument("names", nargs="*")
    given.add_argument("--third", action="store_true")
    given.add_argument("--beside", type=pathlib.Path)
    asked = given.parse_args()
    if lost := [it for it in asked.names if it not in TURNS]:
        given.error(f"there is no turn {lost[0]}")
    names = asked.names or (a_third() if asked.third else list(TURNS))
    beside = asked.beside and Beside(asked.beside)
    jobs = 1 if beside else PROCESSORS
    with tempfile.TemporaryDirectory(prefix="try-turns-") as folder:
        signal.signal(signal.SIGTERM, lambda *_: try_edits.end_all(folder))
        if not beside:
            try_edits.make_libraries(TURNED)
        law = Law(pathlib.Path(folder), threading.Semaphore(jobs), beside)
        with ThreadPoolExecutor(1) as pool:
            run = pool.submit(failed, names, law)
            # (once the other run has ended its processors are free)
            try_edits.lend(law.turns, PROCESSORS - jobs, lambda: run.done() or not beside or beside.has_ended())
            wrong = run.result()
    for name in wrong:
        print(f"FAILED: {name}")
    print(f"turns: {len(names) - len(wrong)} as they must be, {len(wrong)} failed, in {law.seconds:.0f} s of a processor")
    sys.exit(len(wrong) > 0)


if __name__ == "__main__":
    main()
