"""What the library and `ipcz_run` take.

    python3 tools/benchmark.py library
    python3 tools/benchmark.py instructions
    python3 tools/benchmark.py compare OTHER
    python3 tools/benchmark.py threads
    python3 tools/benchmark.py peers
    python3 tools/benchmark.py crates/ipcz_run/out/ipcz_run [WORKLOAD ..]
    python3 tools/benchmark.py crates/ipcz_run/out/ipcz_run pairs
    python3 tools/benchmark.py crates/ipcz_run/out/ipcz_run waiting
    python3 tools/benchmark.py crates/ipcz_run/out/ipcz_run largest

`library` prints the number of each measure of `ipcz_bench`, the least of five runs. `instructions` counts them with valgrind's
callgrind, which a busy machine doesn't disturb: for one round, from a run of 2,000 rounds and one of 12,000, subtracted.
`compare` prints both, and the same of another build of `ipcz_bench` before: the runs of the two take turns.

`threads` prints those of `ipcz_bench_threads`: what a parcel takes on one thread through worlds, cells and a hub, in turn, and the
ratios; what it takes between two threads, and where these sleep while they have nothing to do; and what a wait of two seconds takes of
the processor. Each time is the least of 20 runs of 20,000 rounds, with the middle one. Where `chrt` may,
the runs have real-time priority, so that a busy machine gives them processors of their own for the moment that they take.

`peers` runs a parcel of ours, on one thread and between two, in turn with what other queues take for a message of as many bytes, with memory of its own
and without (`peers.py`), and prints the ratios and the conditions: 16 runs of 20,000 of each, the least and the middle one.

Each workload is made for a quarter, a half and the whole of 1,048,576 bytes, which is the longest script.
The table has the `user` time in milliseconds (the least of five runs if a run is short) and the peak
memory in MiB, as GNU time (/usr/bin/time) tells it; the factors are those from 1/4 to 1/2 and from 1/2
to 1. `lines` are those of the transcript. The status is the program's: 0, or 4 if a settle came to its
limit of 1,000,000 acts. Nothing is kept.

`pairs` compares what one parcel costs on one node, put, settled and got: if there is one pair, on the last of
4,000 pairs, and one on each of 1,000 pairs; the time of the opens is subtracted. `waiting` compares what one
parcel costs if 1, 10, 100 and 1,000 parcels wait before it. `largest` shows the scripts that take most memory.
"""
import argparse
import os
import resource
import subprocess
import sys
import tempfile
from collections.abc import Callable, Sequence

import asked
from peers import KINDS, command, peers

# The commands of the block with this number.
Block = Callable[[int], list[str]]

WHOLE = 1048576
SETTLE = '["settle",1000000]'


def script(nodes: int, words: int, before: list[str], block: Block, after: list[str], size: int) -> str:
    """A script of at most `size` bytes: as many blocks (block(i) is a list of commands) as fit."""
    commands = list(before)
    room = size - len('{"nodes":%d,"words":%d,"commands":[]}' % (nodes, words))
    room -= sum(len(c) + 1 for c in before) + sum(len(c) + 1 for c in after)
    i = 0
    while True:
        more = block(i)
        room -= sum(len(c) + 1 for c in more)
        if room < 0:
            break
        commands += more
        i += 1
    commands += after
    return '{"nodes":%d,"words":%d,"commands":[%s]}' % (nodes, words, ",".join(commands))


def one_pair(size: int) -> str:
    """put, settle, get in turn, on the first pair of two nodes."""
    return script(2, 1, [], lambda i: ['["put","0>1","a"]', SETTLE, '["get","1>0"]'], [], size)


def one_pair_at_once(size: int) -> str:
    """All puts, one settle, all gets, on the first pair of two nodes."""
    block = ['["put","0>1","a"]', '["get","1>0"]']
    both = len(block[0]) + len(block[1]) + 2
    n = (size - 100) // both
    commands = [block[0]] * n + [SETTLE] + [block[1]] * n
    return '{"nodes":2,"words":1,"commands":[%s]}' % ",".join(commands)


def first_pairs(size: int) -> str:
    """put, settle, get in turn, over the 28 first pairs of eight nodes."""
    pairs = [(i, j) for i in range(8) for j in range(i + 1, 8)]

    def block(i: int) -> list[str]:
        a, b = pairs[i % 28]
        return ['["put","%d>%d","a"]' % (a, b), SETTLE, '["get","%d>%d"]' % (b, a)]
    return script(8, 28, [], block, [], size)


def first_pairs_at_once(size: int) -> str:
    """A put on each of the 28 first pairs of eight nodes, a settle, a get on each, and again."""
    pairs = [(i, j) for i in range(8) for j in range(i + 1, 8)]
    block = ['["put","%d>%d","a"]' % p for p in pairs] + [SETTLE] + ['["get","%d>%d"]' % (b, a) for a, b in pairs]
    return script(8, 28, [], lambda i: block, [], size)


def there(i: int) -> tuple[str, str]:
    """The two names of the first pair, as a portal goes from node i % 2 to the other."""
    return ("0>1", "1>0") if i % 2 == 0 else ("1>0", "0>1")


def moves_with_parcels(words: int, size: int) -> str:
    """A portal to and fro between two nodes, with a parcel after each move.

    The data fills each move up to 265 bytes, so that the whole script makes fewer than 4,094 moves."""
    def block(i: int) -> list[str]:
        a, b = there(i)
        return ['["put","%s","%s",["y"]]' % (a, "m" * 90), SETTLE, '["get","%s"]' % b,
                '["put","x","%s"]' % ("d" * 81), SETTLE, '["get","y"]']
    return script(2, words, ['["open",0,"x","y"]'], block, [], size)


def to_and_fro(size: int) -> str:
    """A portal to and fro between two nodes, with a parcel after each move; words to spare."""
    return moves_with_parcels(4096, size)


def to_and_fro_dry(size: int) -> str:
    """A portal to and fro without a word to spare, so that each move leaves a proxy; one parcel at the end."""
    def block(i: int) -> list[str]:
        a, b = there(i)
        return ['["put","%s","m",["y"]]' % a, SETTLE, '["get","%s"]' % b]
    return script(2, 2, ['["open",0,"x","y"]'], block, ['["put","x","d"]', SETTLE, '["get","y"]'], size)


def to_and_fro_dry_parcels(size: int) -> str:
    """The same with a parcel after each move: each parcel passes all proxies."""
    return moves_with_parcels(2, size)


def chain(size: int) -> str:
    """A backlog waits at a portal that then makes eight moves round eight nodes; then settles."""
    moves = []
    for i in range(8):
        here, next_ = i, (i + 1) % 8
        moves += ['["put","%d>%d","m",["y"]]' % (here, next_), '["turn",%d,3]' % here, '["turn",%d,2]' % next_,
                  '["get","%d>%d"]' % (next_, here)]
    n = (size - 1400) // 27
    commands = (['["open",0,"x","y"]'] + ['["put","x",""]'] * n + [SETTLE] + moves + [SETTLE] * 4
                + ['["get","y"]'] * n)
    return '{"nodes":8,"words":4096,"commands":[%s]}' % ",".join(commands)


def turns(size: int) -> str:
    """A put and four turns, each a command that prints its line."""
    t = ['["turn",0,1]', '["turn",0,1]', '["turn",1,1]', '["turn",1,1]']
    return script(2, 1, [], lambda i: ['["put","0>1",""]'] + t, [], size)


def idle_turns(size: int) -> str:
    """Turns of an idle node."""
    return script(1, 0, [], lambda i: ['["turn",0,1]'], [], size)


def turns_at_once(size: int) -> str:
    """All puts, then one turn command that prints all of it."""
    return script(1, 1, ['["open",0,"x","y"]'], lambda i: ['["put","x",""]'], ['["turn",0,1000000]'], size)


def backlog(size: int) -> str:
    """Puts of no data on one pair of one node, then one settle."""
    return script(1, 1, ['["open",0,"x","y"]'], lambda i: ['["put","x",""]'], [SETTLE], size)


def backlog_over(size: int) -> str:
    """Puts of no data on the first pair of two nodes, then one settle."""
    return script(2, 1, [], lambda i: ['["put","0>1",""]'], [SETTLE], size)


def opens_in_turn(size: int) -> str:
    """open, put, settle, get on each of up to 4,096 pairs; the data fills the script up."""
    return script(1, 4096, [], lambda i: ['["open",0,"a%04d","b%04d"]' % (i, i), '["put","a%04d","%s"]' % (i, "d" * 173),
                                          SETTLE, '["get","b%04d"]' % i], [], size)


def opens_at_once(size: int) -> str:
    """All opens (up to 4,096), a put on each, one settle, a get on each; the data fills the script up."""
    n = size // 256
    commands = (['["open",0,"a%04d","b%04d"]' % (i, i) for i in range(n)]
                + ['["put","a%04d","%s"]' % (i, "d" * 190) for i in range(n)] + [SETTLE]
                + ['["get","b%04d"]' % i for i in range(n)])
    return '{"nodes":1,"words":4096,"commands":[%s]}' % ",".join(commands)


def circle(size: int) -> str:
    """Two parcels that carry each other's targets, without words: one settle of up to 1,000,000 acts."""
    limit = 1000000 * size // WHOLE
    return ('{"nodes":2,"words":3,"commands":[["open",0,"q","r"],["put","0>1","m",["q"]],["settle",1000],'
            '["get","1>0"],["put","0>1","1",["r"]],["put","q","2",["1>0"]],["settle",%d]]}' % limit)


WORKLOADS = [
    one_pair, one_pair_at_once, first_pairs, first_pairs_at_once,
    to_and_fro, to_and_fro_dry, to_and_fro_dry_parcels, chain,
    turns, idle_turns, turns_at_once, backlog, backlog_over, opens_in_turn, opens_at_once, circle,
]


def user_time(program: str, path: str) -> float:
    """The user time in milliseconds of one run."""
    before = resource.getrusage(resource.RUSAGE_CHILDREN).ru_utime
    with open(path) as source:
        subprocess.run([program], stdin=source, stdout=subprocess.DEVNULL)
    return (resource.getrusage(resource.RUSAGE_CHILDREN).ru_utime - before) * 1000


def peak_memory(program: str, path: str) -> tuple[float, int, int]:
    """(peak MiB, status, lines) of one run."""
    out = path + ".out"
    with open(path) as source, open(out, "w") as target:
        done = subprocess.run(["/usr/bin/time", "-q", "-f", "%M", program], stdin=source, stdout=target,
                              stderr=subprocess.PIPE, text=True)
    with open(out, "rb") as f:
        lines = f.read().count(b"\n")
    os.remove(out)
    return int(done.stderr.split()[-1]) / 1024, done.returncode, lines


def least(program: str, path: str) -> float:
    """The least user time of five runs, or of one that takes long."""
    first = user_time(program, path)
    return first if first > 3000 else min([first] + [user_time(program, path) for _ in range(4)])


def on_pairs(pairs: int, at: Sequence[int], rounds: int) -> str:
    """So many opens on one node, and then so many rounds of a put, a settle and a get for each of these pairs."""
    opens = ['["open",0,"a%04d","b%04d"]' % (i, i) for i in range(pairs)]
    block = ['["put","a%04d",""]' % i for i in at] + [SETTLE] + ['["get","b%04d"]' % i for i in at]
    return '{"nodes":1,"words":4096,"commands":[%s]}' % ",".join(opens + block * rounds)


def per_parcel(program: str, path: str, pairs: int, at: Sequence[int], rounds: int) -> float:
    """The microseconds of one parcel."""
    times = []
    for count in (0, rounds):
        with open(path, "w") as f:
            f.write(on_pairs(pairs, at, count))
        times.append(least(program, path))
    return (times[1] - times[0]) * 1000 / (rounds * len(at))


def waiting(before: int, rounds: int) -> str:
    """So many parcels put and settled, and then so many rounds of a put, a settle and a get."""
    commands = ['["put","0>1",""]'] * before + [SETTLE] + ['["put","0>1",""]', SETTLE, '["get","1>0"]'] * rounds
    return '{"nodes":2,"words":1,"commands":[%s]}' % ",".join(commands)


def compare_waiting(program: str) -> None:
    with tempfile.TemporaryDirectory() as folder:
        path, first = os.path.join(folder, "script"), None
        for before in (1, 10, 100, 1000):
            times = []
            for rounds in (0, 18000):
                with open(path, "w") as f:
                    f.write(waiting(before, rounds))
                times.append(least(program, path))
            cost = (times[1] - times[0]) * 1000 / 18000
            first = first or cost
            print("%5d waiting %6.2f microseconds a parcel, %4.2f times" % (before, cost, cost / first))


def compare_pairs(program: str) -> None:
    with tempfile.TemporaryDirectory() as folder:
        path = os.path.join(folder, "script")
        one = per_parcel(program, path, 1, [0], 14000)
        for title, cost in [
            ("one pair", one),
            ("the last of 4,000 pairs", per_parcel(program, path, 4000, [3999], 14000)),
            ("one on each of 1,000 pairs", per_parcel(program, path, 1000, range(1000), 25)),
        ]:
            print("%-28s %6.2f microseconds a parcel, %4.2f times" % (title, cost, cost / one))


CRATES = os.path.join(os.path.dirname(os.path.abspath(__file__)), "../crates")
BENCH = os.path.join(CRATES, "ipcz_bench/out/ipcz_bench")
BENCH_THREADS = os.path.join(CRATES, "ipcz_bench_threads/out/ipcz_bench_threads")
MEASURES = ["one_node", "two_nodes", "long_parcels", "last_pair", "each_pair", "each_moved_pair", "waiting_1", "waiting_10",
            "waiting_100", "waiting_1000", "act", "moves", "lives", "fresh_pairs", "used_pairs", "closed_pairs"]
# The last of them, which are of memory.
BYTES = MEASURES[-3:]


def measured(name: str) -> int:
    return int(subprocess.run([BENCH, name], stdout=subprocess.PIPE, check=True).stdout)


def show_library() -> None:
    for name in MEASURES:
        print("%-14s %8d" % (name, min(measured(name) for _ in range(5))), flush=True)


REAL_TIME = ["chrt", "-f", "10"]


def prefix() -> list[str]:
    """What gives a run real-time priority, if that may be had."""
    before = REAL_TIME if subprocess.run(REAL_TIME + ["true"], stderr=subprocess.DEVNULL).returncode == 0 else []
    print("with real-time priority" if before else "with the priority of other programs", flush=True)
    return before


def show_threads() -> None:
    before = prefix()
    alone = [("two_nodes", BENCH), ("cells", BENCH_THREADS), ("hub", BENCH_THREADS)]
    pairs = [(name, BENCH_THREADS) for name in ("cells_on_threads", "cells_streaming", "hub_on_threads", "hub_streaming", "round_trips",
                                                "hub_round_trips", "sleeping_round_trips", "hub_sleeping_round_trips")]
    times: list[list[int]] = [[] for _ in alone + pairs]
    for _ in range(20):
        for (name, program), found in zip(alone + pairs, times):
            run = subprocess.run(before + [program, name, "20000"], stdout=subprocess.PIPE, check=True)
            found.append(int(run.stdout))
    for (name, _), found in zip(alone + pairs, times):
        low, middle = min(found), sorted(found)[len(found) // 2]
        print("%-24s %6d ns (the middle one: %d), %4.2f of a world's time, %4.2f million a second"
              % (name, low, middle, low / min(times[0]), 1000 / low), flush=True)
    for name in ("late", "sleeping_late", "hub_late", "hub_sleeping_late"):
        spent = [processor_time([BENCH_THREADS, name, "2000"]) for _ in range(3)]
        print("%-24s %8.1f to %.1f ms of the processor for a byte that comes after two seconds" % (name, min(spent), max(spent)), flush=True)


def processor_time(command: list[str]) -> float:
    """What a run takes of the processor, in milliseconds."""
    before = resource.getrusage(resource.RUSAGE_CHILDREN)
    subprocess.run(command, stdout=subprocess.DEVNULL, check=True)
    after = resource.getrusage(resource.RUSAGE_CHILDREN)
    return 1000 * (after.ru_utime + after.ru_stime - before.ru_utime - before.ru_stime)


def counted(command: list[str]) -> int:
    """The instructions of a run."""
    with tempfile.TemporaryDirectory() as folder:
        done = subprocess.run(["valgrind", "--tool=callgrind", "--callgrind-out-file=" + os.path.join(folder, "out"), *command],
                              stdout=subprocess.DEVNULL, stderr=subprocess.PIPE, text=True, check=True)
    return int(done.stderr.split("Collected :")[1].split()[0])


def instructions(name: str, rounds: int, program: str = BENCH) -> int:
    return counted([program, name, str(rounds)])


# What of ours is measured beside other queues: on one thread, between two that poll, and there and back between these.
OURS = {"one": [("one_node", BENCH), ("two_nodes", BENCH), ("cells", BENCH_THREADS), ("hub", BENCH_THREADS)],
        "two": [(name, BENCH_THREADS) for name in ("cells_on_threads", "cells_streaming", "hub_on_threads", "hub_streaming")],
        "back": [("round_trips", BENCH_THREADS), ("hub_round_trips", BENCH_THREADS)]}
SAID = {"one": "one thread, put and got in turn", "two": "two threads that poll", "back": "there and back between two threads that poll"}


def in_turn(commands: dict[str, list]) -> dict[str, list[int]]:
    """What each command prints in 16 runs, in which they take turns, in order."""
    before, found = prefix(), {name: [] for name in commands}
    for _ in range(16):
        for name, one in commands.items():
            found[name].append(int(subprocess.run([*before, *one], stdout=subprocess.PIPE, check=True).stdout))
    return {name: sorted(times) for name, times in found.items()}


def show_peers() -> None:
    for program in (BENCH, BENCH_THREADS):
        if not os.path.exists(program):
            sys.exit(f"peers: {program} isn't built. `rt run` in its crate's folder builds it.")
    with tempfile.TemporaryDirectory() as folder:
        others, lost = peers(folder)
        if not others:
            sys.exit("peers: there is nothing to compare with: neither cargo nor a C compiler builds a queue here.")
        print("16 bytes; nanoseconds, the least and the middle of 16 runs of 20,000 of each, in turn; %d processors, load %.1f"
              % (os.cpu_count(), os.getloadavg()[0]))
        print("not built here: %s" % (", ".join(lost) or "none"))
        for measure, ours in OURS.items():
            print(f"{SAID[measure]}:", flush=True)
            commands = {f"{peer[0]}, {kind}": command(peer, kind, measure, 20000) for peer in others for kind in KINDS}
            commands |= {name: [program, name, "20000"] for name, program in ours}
            times = in_turn(commands)
            base = times.get("std, inline", times[next(iter(times))])
            for name, found in times.items():
                print("  %-28s %6d %6d  %5.2f times std's, inline" % (name, found[0], found[8], found[8] / base[8]), flush=True)


# The measures on one thread by cells and hubs.
ON_ONE_THREAD = ("cells", "hub", "cells_in_runs", "hub_in_runs", "hub_waits_1", "hub_waits_100", "hub_asks_1", "hub_asks_100")


def show_instructions() -> None:
    for name, program in [(name, BENCH) for name in MEASURES if name not in BYTES] + [(name, BENCH_THREADS) for name in ON_ONE_THREAD]:
        each = (instructions(name, 12000, program) - instructions(name, 2000, program)) / 10000
        print("%-14s %8d" % (name, round(each)), flush=True)


def show_compared(other: str) -> None:
    before = prefix()
    for name in MEASURES:
        counts = []
        if name not in BYTES:
            counts = [round((instructions(name, 12000, it) - instructions(name, 2000, it)) / 10000) for it in (other, BENCH)]
        times: list[list[int]] = [[], []]
        for _ in range(5):
            for found, program in zip(times, (other, BENCH)):
                found.append(int(subprocess.run(before + [program, name], stdout=subprocess.PIPE, check=True).stdout))
        print("%-14s instructions %16s   nanoseconds or bytes %8d %8d"
              % (name, " ".join("%8d" % it for it in counts), min(times[0]), min(times[1])), flush=True)


def nested(size: int) -> str:
    """A list of objects that are nested 124 deep, by members without a name: what takes most memory to read."""
    one = '{"":' * 124 + "1" + "}" * 124
    return '{"nodes":1,"words":0,"commands":[' + ",".join([one] * ((size - 40) // (len(one) + 1))) + "]}"


def shows(size: int) -> str:
    """Opens of all 4,096 words, and then only `show`: the longest transcript."""
    opens = ['["open",0,"a%x","b%x"]' % (i, i) for i in range(4096)]
    return '{"nodes":1,"words":4096,"commands":[' + ",".join(opens + ['["show"]'] * ((size - 110000) // 9)) + "]}"


def show_largest(program: str) -> None:
    with tempfile.TemporaryDirectory() as folder:
        path = os.path.join(folder, "script")
        for make in (nested, shows):
            text = make(WHOLE)
            with open(path, "w") as f:
                f.write(text)
            with open(path) as source:
                done = subprocess.run(["/usr/bin/time", "-q", "-f", "%M %U", program], stdin=source, stdout=subprocess.PIPE,
                                      stderr=subprocess.PIPE)
            peak, user = done.stderr.split()[-2:]
            print("%-8s %8d bytes, status %d, %10d bytes written, %4d MiB, %6.2f s user" % (
                make.__name__, len(text), done.returncode, len(done.stdout), int(peak) // 1024, float(user)), flush=True)


def show_workloads(program: str, wanted: list[str]) -> None:
    form = "%-22s %8s %7s %6s %9s %6s %7s %6s  %s"
    print(form % ("", "bytes", "lines", "status", "user ms", "factor", "MiB", "factor", ""))
    with tempfile.TemporaryDirectory() as folder:
        path = os.path.join(folder, "script")
        for make in WORKLOADS:
            name = make.__name__
            if wanted and name not in wanted:
                continue
            before: tuple[float, float] | None = None
            title = " ".join(make.__doc__.split("\n\n")[0].split())
            for part in (4, 2, 1):
                text = make(WHOLE // part)
                assert len(text) <= WHOLE // part
                with open(path, "w") as f:
                    f.write(text)
                peak, status, lines = peak_memory(program, path)
                user = least(program, path)
                more = ("", "") if before is None else ("%.1f" % (user / before[0]), "%.1f" % (peak / before[1]))
                print(form % (name, len(text), lines, status, "%.1f" % user, more[0], "%.1f" % peak, more[1], title),
                      flush=True)
                name, title, before = "", "", (user, peak)


# What takes no program, since it runs those of this repository, and what takes one and nothing else.
OF_OURS = {"library": show_library, "instructions": show_instructions, "threads": show_threads, "peers": show_peers}
OF_A_PROGRAM = {"largest": show_largest, "pairs": compare_pairs, "waiting": compare_waiting}


def main() -> None:
    parser = asked.parser(__doc__)
    parser.add_argument("what", help="library, instructions, compare, threads or peers; or the program ipcz_run")
    parser.add_argument("words", nargs="*", help="of compare, another build of ipcz_bench; of a program, what is to be shown of it")
    given = parser.parse_args()
    if given.what in OF_OURS and not given.words:
        asked.built("ipcz_bench_threads" if given.what == "threads" else "ipcz_bench")
        return OF_OURS[given.what]()
    if given.what == "compare" and len(given.words) == 1:
        return show_compared(str(asked.program(given.words[0])))
    try:
        program = str(asked.program(given.what))
    except argparse.ArgumentTypeError as fault:
        parser.error(str(fault))
    if len(given.words) == 1 and given.words[0] in OF_A_PROGRAM:
        return OF_A_PROGRAM[given.words[0]](program)
    show_workloads(program, given.words)


if __name__ == "__main__":
    main()
