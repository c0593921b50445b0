"""Runs scripts once for each growth of memory that they ask for, with that one refused.

    python3 tools/refuse_growth.py PROGRAM < SCRIPT       a line of how the runs ended
    python3 tools/refuse_growth.py PROGRAM FILE.rt ..     each script of a table of cases; prints only what is wrong
    python3 tools/refuse_growth.py PROGRAM FILE.json ..   the same of one script, of which a bypass or a retiring sink must grow
    python3 tools/refuse_growth.py JUDGE FILE ..          the same of a judge's program, of which each file is a log that wants memory
    python3 tools/refuse_growth.py --threads PROGRAM ..   the same with the argument `threads`; of a table, the scripts that are marked for it
    python3 tools/refuse_growth.py --drawn JUDGE FILE ..  the same of the judge of events, which runs each file as a script in a drawn order of acts
    python3 tools/refuse_growth.py --retries PROGRAM      of `ipcz_faults`, which makes each refused call again; prints only what is wrong
    python3 tools/refuse_growth.py --counts PROGRAM       the same, and how many growths each of its lines told of

Each run must end with status 3 and write nothing; or, if the growth was that of a bypass's first message or of Gone, end as ever and
write the same lines but for two more: after the lock it is given back, with the word as it was before, and got again. Or it ends as ever
if the growth could be done without.

A run of `ipcz_faults` must end as ever and write the same lines, but that just one of them tells of the growth: `, refused 1` of a
call that left all as it was, `, unlocked 1` of a lock that was given back and got again, or `, refused beside 1` of what stands
beside the calls. Each line must tell of calls that were refused, and those of a bypass that grows where it begins, and of a sink that
grows where it retires, of a lock that was given back.
"""
import collections
import os
import pathlib
import re
import subprocess
import sys
import tempfile

import asked

HERE = pathlib.Path(__file__).resolve().parent
# The line of a lock that is got, or that is given back, with its node, router, link and word.
LOCK = re.compile(r"(n\d): (r\d+) lock (C\d+) (\d+)\n")
UNLOCK = re.compile(r"(n\d): (r\d+) unlock (C\d+) (\d+)\n")
# The bits of a link word that a lock leaves as they were: which sides are stable, and which wait.
LEFT_BY_A_LOCK = 15
# The rows of `ipcz_faults` of which a bypass must grow where it begins, or a sink where it retires.
GROWING = ("a bypass that grows where it begins", "a sink that grows where it retires")
# How a line of `ipcz_faults` tells of one refused growth.
TELLINGS = ", refused 1", ", unlocked 1", ", refused beside 1"


def run(program: list, script: bytes, library: str, **names: str) -> tuple[int, bytes]:
    env = {**os.environ, "LD_PRELOAD": library, **names}
    done = subprocess.run(program, input=script, stdout=subprocess.PIPE, env=env)
    return done.returncode, done.stdout


def without_unlock(text: bytes) -> bytes | None:
    """Returns the transcript without a lock that was given back at once and got again, if it has just one."""
    lines = text.decode().splitlines(keepends=True)
    places = [i for i, line in enumerate(lines) if UNLOCK.fullmatch(line)]
    if len(places) != 1 or not 0 < places[0] < len(lines) - 2:
        return None
    before, unlock, again, begin = lines[places[0] - 1 : places[0] + 3]
    *asker, word = UNLOCK.fullmatch(unlock).groups()
    locked = LOCK.fullmatch(again)
    if again != before or not locked or [*locked.groups()][:3] != asker or int(word) != int(locked[4]) & LEFT_BY_A_LOCK:
        return None
    node, router, link = asker
    if not re.fullmatch(f"{node}: {router} (begin|retire \\d+) {link}\n", begin):
        return None
    return "".join(lines[: places[0]] + lines[places[0] + 2 :]).encode()


def ends_of(program: list, script: bytes, library: str, count: str) -> tuple[int, dict[str, int]]:
    """Returns how many runs ended in each of the ways that are right, and stops at one that is wrong."""
    status, text = run(program, script, library, GROWTHS=count)
    growths = int(open(count).read())
    ends = {"nothing written, status 3": 0, "as ever": 0, "with an unlock": 0}
    for number in range(1, growths + 1):
        got, written = run(program, script, library, REFUSE_GROWTH=str(number))
        if (got, written) == (3, b""):
            ends["nothing written, status 3"] += 1
        elif (got, written) == (status, text):
            ends["as ever"] += 1
        elif got == status and without_unlock(written) == text:
            ends["with an unlock"] += 1
        else:
            sys.exit(f"growth {number} of {growths}: status {got}, {len(written)} bytes written, of {script.decode()}")
    if not growths:
        sys.exit(f"no growth was seen of {script.decode()}")
    return growths, ends


def told_by(lines: list[str], written: list[str]) -> tuple[int, str] | None:
    """Returns the place of the one line that tells of a refused growth, and what it tells; none if the lines differ otherwise."""
    if len(written) != len(lines):
        return None
    others = [place for place, line in enumerate(lines) if written[place] != line]
    if len(others) != 1:
        return None
    [place] = others
    telling = written[place].removeprefix(lines[place])
    return (place, telling) if telling in TELLINGS else None


def try_retries(program: list, library: str, count: str, tells_counts: bool) -> None:
    """Runs the program that makes refused calls again, and stops at a run that is wrong."""
    status, text = run(program, b"", library, GROWTHS=count)
    lines, growths = text.decode().splitlines(), int(open(count).read())
    if status or not lines:
        sys.exit(f"status {status} without a refused growth: {text.decode()}")
    told = collections.Counter()
    for number in range(1, growths + 1):
        got, written = run(program, b"", library, REFUSE_GROWTH=str(number))
        telling = told_by(lines, written.decode().splitlines())
        if got or not telling:
            sys.exit(f"growth {number} of {growths}: status {got}\n{written.decode()}")
        told[telling] += 1
    for place, line in enumerate(lines):
        if not told[place, ", refused 1"]:
            sys.exit(f"no call was refused in {line}")
        if tells_counts:
            print(line + "".join(f"{telling[:-2]} {told[place, telling]}" for telling in TELLINGS if told[place, telling]))
    for row in GROWING:
        growing = [place for place, line in enumerate(lines) if line.startswith(row)]
        for place in growing:
            if not told[place, ", unlocked 1"]:
                sys.exit(f"no lock was given back in {lines[place]}")
        if not growing:
            sys.exit(f"no row is {row}")


def scripts_of(table: str, on_threads: bool) -> list[str]:
    """The script or the log of a file, or the scripts of a table of cases."""
    text = pathlib.Path(table).read_text()
    if not table.endswith(".rt"):
        return [text]
    cases = [case for case in text.split("Case {") if not on_threads or "on_threads: true" in case]
    return [script for case in cases for script in re.findall(r'script: r#"(.*?)"#', case, re.S)]


def end_wanted(table: str, drawn: bool) -> str | None:
    """The end that some run of a script of this file must have."""
    if table.endswith(".rt"):
        return None
    return "with an unlock" if table.endswith(".json") and not drawn else "nothing written, status 3"


def try_tables(program: list, tables: list[str], given, library: str, count: str) -> None:
    """Runs each script of these files, and stops at a run that is wrong."""
    for table in tables:
        scripts, wanted = scripts_of(table, given.threads), end_wanted(table, given.drawn)
        if not scripts:
            sys.exit(f"no script stands in {table}")
        for script in scripts:
            _, ends = ends_of(program, script.encode(), library, count)
            if wanted and not ends[wanted]:
                sys.exit(f"no run of {table} ended so: {wanted}")


def main() -> None:
    parser = asked.parser(__doc__)
    parser.add_argument("program", type=asked.program)
    parser.add_argument("tables", nargs="*", metavar="FILE")
    kinds = parser.add_mutually_exclusive_group()
    kinds.add_argument("--threads", action="store_true", help="run with the argument `threads`")
    kinds.add_argument("--drawn", action="store_true", help="run with the arguments `run --seed 7`")
    kinds.add_argument("--retries", action="store_true", help="the program makes each refused call again")
    kinds.add_argument("--counts", action="store_true", help="the same, and tell how many growths each line told of")
    given = parser.parse_args()
    words = ["threads"] if given.threads else ["run", "--seed", "7"] if given.drawn else []
    program = [given.program, *words]
    with tempfile.TemporaryDirectory() as room:
        library, count = f"{room}/refuse_growth.so", f"{room}/count"
        subprocess.run(["cc", "-O1", "-shared", "-fPIC", "-o", library, HERE / "data/refuse_growth.c", "-ldl"], check=True)
        if given.retries or given.counts:
            try_retries(program, library, count, given.counts)
        elif given.tables:
            try_tables(program, given.tables, given, library, count)
        else:
            growths, ends = ends_of(program, sys.stdin.buffer.read(), library, count)
            print(f"{growths} growths: " + ", ".join(f"{n} {end}" for end, n in ends.items()))


if __name__ == "__main__":
    main()
