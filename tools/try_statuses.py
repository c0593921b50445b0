"""Runs the three programs with arguments, scripts and devices that work or fail, and prints which run ended otherwise than it must.

    python3 tools/try_statuses.py

Of each run it compares the status and the bytes on standard output; nothing may come on standard error.
No contract can speak of what a system hands to a program, so what `main` makes of it is tried here.
"""
import os
import subprocess
import sys
from collections.abc import Callable

import asked

PAIR = '{"nodes":1,"words":1,"commands":[["open",0,"x","y"],["put","x","a"],["settle",%d]]}'
DONE = (PAIR % 100).encode()
AT_ITS_LIMIT = (PAIR % 1).encode()
PUT = b"open x y ok\nput x 0\n"
RUN_USAGE = b"usage: ipcz_run [--help] [threads] < SCRIPT\n"
RUN_HELP = RUN_USAGE + b"""
Reads a script from standard input, runs it, and writes to standard output what each command came to and what each node did. With
the word threads the settles run on threads, one for each node. Ends with status 0 if the script was run, 4 if it was and a settle
came to its limit, and 2 if it is no script; ipcz_check tells why it is none.
"""
CHECK_USAGE = b"usage: ipcz_check [--help] < SCRIPT\n"
EMPTY = b"line 1, column 1: the script is empty; expected an object with the members nodes, words and commands\n"
NO_OBJECT = b"line 1, column 1: the script is no object; expected one with the members nodes, words and commands\n"
TOO_LONG = b"line 1, column 1: the script is too long; expected at most 1048576 bytes\n"
DRAW_USAGE = b"usage: ipcz_draw [--help] [--used] [FROM TO] < TRANSCRIPT\n"


class Folder:
    """A standard input that can't be read."""


class Full:
    """A standard output that takes no byte."""


class Closed:
    """A standard input or output that isn't open."""


# the program, its arguments, its input, its output, the status, what it writes (None: whatever it is)
RUNS = [
    ("ipcz_run", [], DONE, bytes, 0, PUT + b"settled\n"),
    ("ipcz_run", [], AT_ITS_LIMIT, bytes, 4, PUT + b"unsettled\n"),
    ("ipcz_run", [], b"", bytes, 2, b"refused NotJson\n"),
    ("ipcz_run", [], DONE[:-1], bytes, 2, b"refused NotJson\n"),
    ("ipcz_run", [], b"[]", bytes, 2, b"refused BadShape 0\n"),
    ("ipcz_run", [], b" " * 1048577, bytes, 2, b"refused TooLong\n"),
    ("ipcz_run", ["threads"], DONE, bytes, 0, PUT + b"settled\n"),
    ("ipcz_run", ["threads"], AT_ITS_LIMIT, bytes, 4, PUT + b"unsettled\n"),
    ("ipcz_run", ["threads"], b"[]", bytes, 2, b"refused BadShape 0\n"),
    ("ipcz_run", ["threads"], Folder, bytes, 1, b""),
    ("ipcz_run", ["threads"], DONE, Full, 1, b""),
    ("ipcz_run", ["--help"], Folder, bytes, 0, RUN_HELP),
    ("ipcz_run", ["-h"], DONE, bytes, 0, RUN_HELP),
    ("ipcz_run", ["--help"], DONE, Full, 1, b""),
    ("ipcz_run", ["--help", "threads"], DONE, bytes, 2, RUN_USAGE),
    ("ipcz_run", ["threads", "threads"], DONE, bytes, 2, RUN_USAGE),
    ("ipcz_run", ["Threads"], DONE, bytes, 2, RUN_USAGE),
    ("ipcz_run", ["script.json"], DONE, bytes, 2, RUN_USAGE),
    ("ipcz_run", [""], DONE, bytes, 2, RUN_USAGE),
    ("ipcz_run", [b"\xff"], DONE, bytes, 2, RUN_USAGE),
    ("ipcz_run", ["one", "two"], DONE, bytes, 2, RUN_USAGE),
    ("ipcz_run", ["script.json"], Folder, bytes, 2, RUN_USAGE),
    ("ipcz_run", [], Folder, bytes, 1, b""),
    ("ipcz_run", [], DONE, Full, 1, b""),
    ("ipcz_run", [], b"[]", Full, 1, b""),
    ("ipcz_run", ["script.json"], DONE, Full, 1, b""),
    ("ipcz_run", [], Closed, bytes, 1, b""),
    ("ipcz_run", [], DONE, Closed, 1, b""),
    ("ipcz_check", [], DONE, bytes, 0, None),
    ("ipcz_check", [], b"[]", bytes, 2, NO_OBJECT),
    ("ipcz_check", [], b"", bytes, 2, EMPTY),
    ("ipcz_check", [], b" " * 1048576, bytes, 2, None),
    ("ipcz_check", [], b" " * 1048577, bytes, 2, TOO_LONG),
    ("ipcz_check", [], b"[" * 1000000, bytes, 2, None),
    ("ipcz_check", ["--help"], Folder, bytes, 0, None),
    ("ipcz_check", ["-h"], DONE, bytes, 0, None),
    ("ipcz_check", ["--help"], DONE, Full, 1, b""),
    ("ipcz_check", ["--help", "x"], DONE, bytes, 2, CHECK_USAGE),
    ("ipcz_check", ["script.json"], Folder, bytes, 2, CHECK_USAGE),
    ("ipcz_check", [b"\xff"], DONE, bytes, 2, CHECK_USAGE),
    ("ipcz_check", [], Folder, bytes, 1, b""),
    ("ipcz_check", [], DONE, Full, 1, b""),
    ("ipcz_check", [], b"[]", Full, 1, b""),
    ("ipcz_check", [], Closed, bytes, 1, b""),
    ("ipcz_check", [], DONE, Closed, 1, b""),
    ("ipcz_draw", [], PUT + b"settled\n", bytes, 0, None),
    ("ipcz_draw", [], b"", bytes, 0, None),
    ("ipcz_draw", [], b"words\nsettle\n", bytes, 2, b"refused line 2: not a line of a transcript\n"),
    ("ipcz_draw", ["--help"], Folder, bytes, 0, None),
    ("ipcz_draw", ["-h"], PUT, bytes, 0, None),
    ("ipcz_draw", ["--help"], PUT, Full, 1, b""),
    ("ipcz_draw", ["--help", "x"], PUT, bytes, 2, DRAW_USAGE),
    ("ipcz_draw", ["run.svg"], PUT, bytes, 2, DRAW_USAGE),
    ("ipcz_draw", ["--used"], PUT, bytes, 0, None),
    ("ipcz_draw", ["--used", "1", "2"], PUT, bytes, 0, None),
    ("ipcz_draw", ["--used", "2", "1"], PUT, bytes, 2, DRAW_USAGE),
    ("ipcz_draw", ["--used", "1"], PUT, bytes, 2, DRAW_USAGE),
    ("ipcz_draw", ["1", "2", "--used"], PUT, bytes, 2, DRAW_USAGE),
    ("ipcz_draw", ["--used", "--help"], PUT, bytes, 2, DRAW_USAGE),
    ("ipcz_draw", ["--used", "--used"], PUT, bytes, 2, DRAW_USAGE),
    ("ipcz_draw", ["1", "2"], PUT, bytes, 0, None),
    ("ipcz_draw", ["2", "2"], PUT, bytes, 0, None),
    ("ipcz_draw", ["2", "9"], PUT, bytes, 0, None),
    ("ipcz_draw", ["3", "9"], PUT, bytes, 0, None),
    ("ipcz_draw", ["1", "18446744073709551615"], PUT, bytes, 0, None),
    ("ipcz_draw", ["1", "18446744073709551616"], PUT, bytes, 2, DRAW_USAGE),
    ("ipcz_draw", ["2", "1"], PUT, bytes, 2, DRAW_USAGE),
    ("ipcz_draw", ["0", "1"], PUT, bytes, 2, DRAW_USAGE),
    ("ipcz_draw", ["1"], PUT, bytes, 2, DRAW_USAGE),
    ("ipcz_draw", ["1", "2", "3"], PUT, bytes, 2, DRAW_USAGE),
    ("ipcz_draw", ["01", "2"], PUT, bytes, 2, DRAW_USAGE),
    ("ipcz_draw", ["+1", "2"], PUT, bytes, 2, DRAW_USAGE),
    ("ipcz_draw", ["1", "-2"], PUT, bytes, 2, DRAW_USAGE),
    ("ipcz_draw", ["1", "end"], PUT, bytes, 2, DRAW_USAGE),
    ("ipcz_draw", ["", ""], PUT, bytes, 2, DRAW_USAGE),
    ("ipcz_draw", ["1", b"\xff"], PUT, bytes, 2, DRAW_USAGE),
    ("ipcz_draw", ["1", "2"], b"words\nsettle\nfly\n", bytes, 2, b"refused line 2: not a line of a transcript\n"),
    ("ipcz_draw", ["2", "1"], Folder, bytes, 2, DRAW_USAGE),
    ("ipcz_draw", ["1", "2"], Folder, bytes, 1, b""),
    ("ipcz_draw", ["1", "2"], PUT, Full, 1, b""),
    ("ipcz_draw", ["1"], PUT, Full, 1, b""),
    ("ipcz_draw", [], Folder, bytes, 1, b""),
    ("ipcz_draw", [], PUT, Full, 1, b""),
    ("ipcz_draw", [], PUT, Closed, 1, b""),
]


def close(number: int) -> Callable[[], None]:
    return lambda: os.close(number)


def run(program: str, arguments: list, given: bytes | type, taken: type) -> tuple[int, bytes, bytes]:
    """Returns the status, the bytes that were written, and those on standard error."""
    opened: list[int] = []
    names: dict = {}
    if given is Folder:
        opened.append(os.open("/", os.O_RDONLY))
        names["stdin"] = opened[-1]
    elif given is Closed:
        names["preexec_fn"] = close(0)
    else:
        names["input"] = given
    if taken is Full:
        opened.append(os.open("/dev/full", os.O_WRONLY))
        names["stdout"] = opened[-1]
    elif taken is Closed:
        names["preexec_fn"] = close(1)
    else:
        names["stdout"] = subprocess.PIPE
    done = subprocess.run([asked.built(program), *arguments], stderr=subprocess.PIPE, **names)
    for number in opened:
        os.close(number)
    return done.returncode, done.stdout or b"", done.stderr


def main() -> None:
    asked.parser(__doc__).parse_args()
    wrong = []
    for program, arguments, given, taken, status, written in RUNS:
        got = run(program, arguments, given, taken)
        if got[0] != status or got[2] or written not in (None, got[1]):
            said = given.__name__ if isinstance(given, type) else given[:60]
            wrong.append(f"{program} {arguments} < {said} > {taken.__name__}: status {got[0]} for {status}, {got[1][:80]}, {got[2][:80]}")
    if wrong:
        sys.exit("\n".join(wrong))


if __name__ == "__main__":
    main()
