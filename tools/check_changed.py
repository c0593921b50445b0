"""Checks what has changed since a commit, and what stands on it, in minutes. This is not the gate.

    python3 tools/check_changed.py [COMMIT]    since where this branch left main, if nothing is said; fails if something is wrong

For each crate that has changed, and each above it, lowest first: its proof, its tests' proof, and its tests, over what earlier checks kept in the
folders `out`. A crate that has changed is laid out by `rt fmt` before, and behind all of them its edits are tried whose function has changed. All other edits
of these crates are compiled: one may name what has another type now.

What it doesn't show, and the gate does: nothing is proved from nothing, so whoever can write into the folders `out` is trusted; no edit is tried
of a function that hasn't changed, though a definition or a contract that it names may have; programs aren't run, nor is what the gate tries
beside `rt ci`; no contract is looked at for whether a call can meet it; Rattle's own compiler builds nothing.
"""
import pathlib
import subprocess
import sys
import threading
import time
from concurrent.futures import ThreadPoolExecutor

import asked
from try_edits import FOLDERS, PARTS, PROCESSORS, TOP, USED, below


def git(*words: str) -> list[str]:
    return subprocess.run(["git", *words], cwd=TOP, stdout=subprocess.PIPE, text=True, check=True).stdout.split()


def changed_since(commit: str) -> set[str]:
    """Returns the crates of which something that a check reads, or an edit, has changed."""
    files = {*git("diff", "--name-only", commit), *git("ls-files", "--others", "--exclude-standard")}
    if {"crates.txt", "HANDLES"} & files:
        return set(USED)
    parts = [it.split("/") for it in files]
    return {it[1] for it in parts if it[0] == "crates" and len(it) > 3 and it[2] in (*PARTS, *FOLDERS, "must-fail")} & set(USED)


class Checks:
    """The checks of crates, each once those below it have passed."""

    def __init__(self, crates: list[str], changed: set[str]) -> None:
        self.crates, self.changed, self.printing = crates, changed, threading.Lock()
        self.failed: list[str] = []
        self.done = {it: threading.Event() for it in crates}

    def call(self, name: str, *words: str, where: pathlib.Path = TOP) -> bool:
        ran = subprocess.run(words, cwd=where, stdout=subprocess.PIPE, stderr=subprocess.STDOUT, text=True, errors="replace")
        with self.printing:
            print(f"{name}: {' '.join(words)}: {'FAILED' if ran.returncode else 'ok'}", flush=True)
            if ran.returncode:
                print(ran.stdout, flush=True)
                self.failed.append(name)
        return not ran.returncode

    def check(self, name: str, turns: threading.Semaphore) -> None:
        used = [it for it in below(name) if it in self.done]
        for it in used:
            self.done[it].wait()
        try:
            if set(used) & set(self.failed):
                print(f"{name}: not checked, since a crate below it failed", flush=True)
                self.failed.append(name)
                return
            crate = TOP / "crates" / name
            has_tests = any("#[test]" in it.read_text() for it in (crate / "src").glob("**/*.rt"))
            with turns:
                if name not in self.changed or self.call(name, "rt", "fmt", where=crate):
                    if self.call(name, "rt", "check", "--jobs", "1", where=crate) and has_tests:
                        self.call(name, "rt", "test", "--jobs", "1", where=crate)
        finally:
            self.done[name].set()

    def run(self) -> None:
        turns = threading.Semaphore(PROCESSORS)
        with ThreadPoolExecutor(len(self.crates)) as pool:
            list(pool.map(lambda it: self.check(it, turns), self.crates))


def main() -> None:
    parser = asked.parser(__doc__)
    parser.add_argument("commit", nargs="?")
    began, commit = time.monotonic(), parser.parse_args().commit or git("merge-base", "HEAD", "main")[0]
    changed = changed_since(commit)
    crates = [it for it in USED if it in changed or changed & set(below(it))]
    if not crates:
        sys.exit(print("check_changed: no crate has changed"))
    checks = Checks(crates, changed)
    checks.run()
    well = [it for it in crates if it not in checks.failed and any((TOP / "crates" / it / kind).is_dir() for kind in FOLDERS)]
    if well:
        checks.call("edits", sys.executable, "tools/compile_edits.py", *well)
    if well := [it for it in well if it in changed]:
        checks.call("edits", sys.executable, "tools/try_edits.py", "--since", commit, *well)
    print(f"check_changed: {len(changed)} crates have changed, {len(crates)} were checked in {time.monotonic() - began:.0f} s; this is not the gate")
    sys.exit(f"FAILED: {' '.join(checks.failed)}" if checks.failed else 0)


if __name__ == "__main__":
    main()
