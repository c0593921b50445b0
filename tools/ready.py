"""Says in a second whether the machine has what .ci/run needs, and what will be left out since it isn't there.

    python3 tools/ready.py           fails if something is missing without which the gate can't pass
    python3 tools/ready.py --jobs    prints how many checks may run at a time: what .ci/run takes for RT_JOBS

It runs on Python 3.8, too, to say that this is too old.
"""
from __future__ import annotations

import argparse
import os
import pathlib
import shutil
import subprocess
import sys

KIT = "rattle-kit-13f logic dac8208d650f15bf"
# An earlier kit, by which all is proved too.
EARLIER_KIT = "rattle-kit-13b logic dac8208d650f15bf"
PYTHON = (3, 11)
# What a check may take, and how many at a time are of use.
GIGABYTES = 5
MOST_JOBS = 4
NEEDED = {
    "cc": "a compiler of C: tools/refuse_growth.py refuses memory by a library of its own, and the callers in C are built",
    "ar": "it joins the library for C with the kit's heap",
}
LEFT_OUT = {
    "c++": "the callers in C++",
    "cargo": "the callers in Rust",
    "go": "the callers in Go",
    "pkg-config": "the test of what pkg-config tells, and the callers in Go, which are built by it",
    "valgrind": "the runs of the callers in C and C++ under valgrind",
}


def kit() -> str | None:
    """The kit's line, or none if it can't be asked."""
    try:
        return subprocess.run(["rt", "version"], stdin=subprocess.DEVNULL, stdout=subprocess.PIPE, check=True).stdout.decode().strip()
    except (OSError, subprocess.CalledProcessError):
        return None


def gigabytes() -> float | None:
    """The memory of the machine, or of the group of processes if that has less; none if the system doesn't tell."""
    told = []
    try:
        lines = pathlib.Path("/proc/meminfo").read_text().splitlines()
        told += [int(line.split()[1]) * 1024 for line in lines if line.startswith("MemTotal:")]
        told.append(int(pathlib.Path("/sys/fs/cgroup/memory.max").read_text()))
    except (OSError, ValueError):
        pass
    return min(told) / 1e9 if told else None


def jobs() -> int:
    memory, processors = gigabytes(), len(os.sched_getaffinity(0))
    return max(1, min(MOST_JOBS, processors, MOST_JOBS if memory is None else int(memory // GIGABYTES)))


def faults() -> list[str]:
    """What is missing without which the gate can't pass."""
    found = []
    if sys.version_info < PYTHON:
        found.append(f"this is Python {sys.version.split()[0]}; the tools need {'.'.join(map(str, PYTHON))} or later")
    if kit() is None:
        found.append("rt, the kit's command, can't be run: put the kit's folder into PATH")
    return found + [f"{tool} isn't on the machine: {why}" for tool, why in NEEDED.items() if not shutil.which(tool)]


def remarks() -> list[str]:
    """What is otherwise than where the gate was last run, or left out."""
    said, memory, told = [], gigabytes(), kit()
    if told not in (None, KIT, EARLIER_KIT):
        said.append(f"the kit is {told}, and all was proved with {KIT}: proofs may fail")
    if memory is not None and memory < GIGABYTES:
        said.append(f"there are {memory:.0f} GB of memory, and a check takes up to {GIGABYTES}")
    return said + [f"left out: {what}, since the machine has no {tool}" for tool, what in LEFT_OUT.items() if not shutil.which(tool)]


def main() -> None:
    parser = argparse.ArgumentParser(description=__doc__, formatter_class=argparse.RawDescriptionHelpFormatter)
    parser.add_argument("--jobs", action="store_true", help="print how many checks may run at a time")
    if parser.parse_args().jobs:
        print(jobs())
        return
    missing = faults()
    for line in (*missing, *remarks()):
        print(f"ready: {line}")
    if missing:
        sys.exit(1)
    memory = gigabytes()
    print(f"ready: {jobs()} checks at a time, by {len(os.sched_getaffinity(0))} processors" + ("" if memory is None else f" and {memory:.0f} GB of memory"))


if __name__ == "__main__":
    main()
