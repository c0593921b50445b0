"""Makes the pages of docs/reference: each public call of worlds, cells, hubs and portals, of the promise, and of the headers for C.

    python3 tools/make_reference.py            compares the pages with what is there; prints what differs, and fails if something does
    python3 tools/make_reference.py --write    writes them

Of a call the page has its signature with what it requires, its doc comment, the refusals in their order, the names of its clauses, and a line of code
that calls it and is proved or run by the gate. All of it is read out of the sources, but for when a refusal of a call in Rattle is answered,
which tools/data/refusals.json says. A call that may be refused, of which neither that file nor its own comment says why, is a fault, and so is a name there
that no call has.
"""
from __future__ import annotations

import dataclasses
import difflib
import functools
import json
import pathlib
import re
import sys
import textwrap
from collections.abc import Iterator

import asked
from asked import TOP
from find_unused_imports import end_of_group
from list_statements import head_of

FOLDER = TOP / "docs/reference"
REFUSALS = TOP / "tools/data/refusals.json"
HEADER = TOP / "include/ipcz_portals.h"
LOOP = TOP / "include/ipcz_loop.h"
# Where a call is looked for that may stand as an example: what a reader may take over comes first.
CALLERS = ("ipcz_example", "ipcz_example_threads", "ipcz_promise_tests", "ipcz_world_tests", "ipcz_fabric_tests", "ipcz_faults", "ipcz_threads", "ipcz_bench", "ipcz_bench_threads", "ipcz_fabric")
C_CALLERS = ("hello.c", "travels.c", "own_nodes.c", "cells.c", "sleeping.c", "two_threads.c", "requests.c", "loop_hello.c", "loop_request.c", "loop_poll.c", "loop_stress.c", "loops.c")
FUNCTION = re.compile(r"^(?P<indent> *)pub fn (?P<name>\w+)", re.MULTILINE)
BLOCK = re.compile(r"^impl(?:<[^>]*>)? (?P<type>\w+)(?:<[^>]*>)? \{", re.MULTILINE)
C_CALL = re.compile(r"/\* (?P<comment>(?:(?!\*/).)*?)\*/\n(?P<head>(?:static inline |IPCZ_LOOP_API )?\w[\w *]*?\b(?P<name>ipcz_\w+)\([^;{]*\))(?: \{|;)", re.DOTALL)


@dataclasses.dataclass
class Section:
    """A part of a page: a type, or functions that belong to none, with the files that have its calls, and how callers write its receiver."""
    title: str
    about: str
    owner: str
    files: list[str]
    receiver: str
    # what stands before a call's name, if not its owner
    crate: str = ""

    def key(self, name: str) -> str:
        """The name of a call as pages and tools/data/refusals.json have it."""
        before = self.owner or self.crate
        return f"{before}::{name}" if before else name


@dataclasses.dataclass
class Page:
    name: str
    title: str
    about: str
    sections: list[Section]


CELL_FILES = [f"ipcz_cell/src/{it}.rt" for it in ("cell", "acts", "turns", "opens", "quiet", "waits", "holds", "sizes", "ending", "mail", "words")]
PAGES = [
    Page("PROMISE", "The promise", "A world by calls of which a caller has to believe one page only, [Promise.antt](../../crates/ipcz_promise/specs/Promise.antt). `ipcz_promise`.", [
        Section("Calls", "", "", ["ipcz_promise/src/calls.rt"], r"", "ipcz_promise"),
    ]),
    Page("WORLD", "A world", "All nodes behind one value, for one thread. `ipcz_world`, with the types of `ipcz_node` and `ipcz_base`.", [
        Section("World", "A step is `Step::Open(node)`, `Put { node, at, bytes, ends }`, `PutWide` with the same, `Get { node, at }`, `Close { node, at }` or `Turn(node)`. Its reply is `Reply::Opened(end, end)`, "
                "`Put(number)`, `Got(number, parcel)`, `Closed(number)`, `Turned(what happened)` or `Refused(why)`.", "World", ["ipcz_world/src/world.rt"], r"\bworld"),
    ]),
    Page("CELLS", "Cells", "A node for each thread, without locks, over one shared table. `ipcz_cell`. [THREADS.md](../THREADS.md) says how they are used.", [
        Section("Making a table, and ending it", "", "", ["ipcz_cell/src/making.rt", "ipcz_cell/src/ending.rt"], r""),
        Section("Blank", "A table that has no name yet.", "Blank", ["ipcz_cell/src/making.rt"], r"\bblank"),
        Section("NodeCell", "Calls and turns of a node come first; from `prepare` on stand the single steps of which a turn is made.", "NodeCell", CELL_FILES, r"\b(?:cell|zero|one|here|me|left|right|low|high)"),
        Section("Fabric", "The table's name, its bells, and what its cells share.", "Fabric", ["ipcz_cell/src/fabric.rt"], r"\bfabric"),
        Section("NodeSet", "The nodes that turns have touched. `ipcz_cell` has it from `ipcz_node`.", "NodeSet", ["ipcz_node/src/node_set.rt"], r"\btouched"),
    ]),
    Page("HUBS", "Hubs and portals", "Nodes that threads share, with a lock round each. `ipcz_fabric`. [THREADS.md](../THREADS.md) says how they are used.", [
        Section("Hub", "", "Hub", ["ipcz_fabric/src/hub.rt", "ipcz_fabric/src/selecting.rt", "ipcz_fabric/src/readiness.rt"], r"\bhub"),
        Section("Workers", "", "", ["ipcz_fabric/src/workers.rt"], r""),
        Section("Caller", "Who calls the nodes of a hub, where all calls are to have one order.", "Caller", ["ipcz_fabric/src/caller.rt", "ipcz_fabric/src/selecting.rt", "ipcz_fabric/src/workers.rt"], r"\bcaller"),
        Section("Portal", "", "Portal", ["ipcz_fabric/src/portal.rt", "ipcz_fabric/src/scoped.rt"], r"\b(?:at|portal|only|peer)"),
        Section("PortalSet", "The portals that a wait is at.", "PortalSet", ["ipcz_fabric/src/portal_set.rt"], r"\bset"),
        Section("ScopedPortal", "A portal that is closed when it is let go.", "ScopedPortal", ["ipcz_fabric/src/scoped.rt"], r"\bscoped"),
        Section("Portals", "The portals that a parcel brought.", "Portals", ["ipcz_fabric/src/portals.rt"], r"\bportals"),
    ]),
]


@functools.cache
def refusals() -> dict[str, dict]:
    return json.loads(REFUSALS.read_text())


def refusal_names() -> list[str]:
    return re.findall(r"^    (\w+) = \d+,$", (TOP / "crates/ipcz_base/src/refusal.rt").read_text(), re.MULTILINE)


def doc_above(text: str, start: int) -> str:
    """The doc comment above a place, as paragraphs."""
    lines = []
    for line in reversed(text[:start].splitlines()):
        if line.strip().startswith("///"):
            lines.append(line.strip().removeprefix("///").removeprefix(" "))
        elif not line.strip().startswith("#["):
            break
    paragraphs = "\n".join(reversed(lines)).split("\n\n")
    return re.sub(r"\[(`[^`]+`)\]", r"\1", "\n\n".join(" ".join(it.split("\n")) for it in paragraphs))


def statement_at(text: str, start: int) -> str:
    """The lines from the one of a call on to the one in which its brackets are closed, without the indent."""
    begin, at, depth = text.rfind("\n", 0, start) + 1, text.index("(", start), 0
    while True:
        depth += {"(": 1, ")": -1}.get(text[at], 0)
        at += 1
        if depth == 0:
            break
    return textwrap.dedent(text[begin:text.index("\n", at)])


def example(pattern: str, files: Iterator[pathlib.Path]) -> tuple[str, pathlib.Path] | None:
    """The first statement that makes a call, and its file."""
    for path in files:
        text = path.read_text()
        for found in re.finditer(pattern, text):
            line = text[text.rfind("\n", 0, found.start()) + 1:found.start()].strip()
            if not line.startswith(("//", "///", "use ", "pub fn", "fn ")):
                return statement_at(text, found.start()), path
    return None


def rattle_callers(below: str) -> Iterator[pathlib.Path]:
    """The files of the crates that use a crate, or are it."""
    used = dict(line.partition(":")[::2] for line in (TOP / "crates.txt").read_text().splitlines())
    for crate in CALLERS:
        if below in (crate, *used[crate].split()):
            yield from sorted((TOP / "crates" / crate / "src").glob("**/*.rt"))


def is_refusable(head: str) -> bool:
    result = head.partition("->")[2].split("\n")[0]
    return any(word in result for word in ("Refusal", "Refused", "Reply", "Missed"))


def when_refused(key: str) -> list[str]:
    """The lines on refusals of a call."""
    given = refusals()["calls"].get(key)
    if given is None:
        return []
    rows = given if isinstance(given, list) else refusals()["kinds"][given]
    return ["", "Refused, by the first of these that holds:" if len(rows) > 1 else "Refused:", "", *(f"- `{name}`: {why}" for name, why in rows)]


def call_lines(section: Section, path: pathlib.Path, text: str, found: re.Match[str]) -> list[str]:
    """What a page has of a call in Rattle."""
    head, _ = head_of(text, found.start())
    # (of the clauses only what is required stands in the signature: each ends where the next begins)
    kept, is_kept = [], True
    for line in (it.removeprefix(found["indent"]) for it in head.splitlines()):
        if re.match(r" +(requires|ensures)\b", line):
            is_kept = "requires" in line
        if is_kept:
            kept.append(line.rstrip())
    key = section.key(found["name"])
    lines = [f"### {key}", "", "```rust", *kept, "```", "", doc_above(text, found.start()), *when_refused(key)]
    called = rf"(?:{section.receiver}\.|\b{section.owner}(?:::<[^>]*>)?::)" if section.owner else r"(?<![\w.])"
    # (a call that waits is given the handle for that, by which it is told from another one of its name)
    handle = r"(?=\s*&?(?:self\.)?rt\b)" if re.search(r"\brt: &R\b", head) else ""
    pattern = rf"{called}{found['name']}(?:::<[^>]*>+)?\({handle}"
    if one := example(pattern, rattle_callers(path.relative_to(TOP / 'crates').parts[0])):
        lines += ["", f"As in [{one[1].relative_to(TOP / 'crates')}](../../{one[1].relative_to(TOP)}):", "", "```rust", one[0], "```"]
    shown = ", ".join(f"`{it}`" for it in dict.fromkeys(re.findall(r"ensures (\w+) \{", head)))
    lines += ["", f"Its contract{f', clauses {shown},' if shown else ''} is in [{path.relative_to(TOP / 'crates')}](../../{path.relative_to(TOP)})."]
    return [*lines, ""]


def calls_of(section: Section) -> Iterator[tuple[pathlib.Path, str, re.Match[str]]]:
    """The public calls of a section, in the order of the files."""
    for file in section.files:
        path = TOP / "crates" / file
        text = path.read_text()
        blocks = [(it["type"], it.end(), end_of_group(text, it.end() - 1)) for it in BLOCK.finditer(text)]
        for found in FUNCTION.finditer(text):
            owner = next((kind for kind, begin, end in blocks if begin < found.start() < end), "")
            if owner == section.owner and bool(found["indent"]) == bool(section.owner):
                yield path, text, found


def rattle_page(page: Page) -> str:
    lines = [f"# {page.title}", "", page.about, ""]
    for section in page.sections:
        lines += [f"## {section.title}", "", *([section.about, ""] if section.about else [])]
        for path, text, found in calls_of(section):
            lines += call_lines(section, path, text, found)
    return "\n".join(lines)


# ---- The header ----


def c_paragraphs(comment: str) -> str:
    """The text of a comment of the header; an argument, which stands indented beside what is said of it, is an item of a list."""
    blocks = [""]
    for line in comment.split("\n"):
        bare = line.strip().removeprefix("*")
        if found := re.match(r" {2,3}(\w[\w, ]*?) {2,}(\S.*)", bare):
            blocks.append(f"- `{found[1]}`: {found[2]}")
        elif not bare.strip() or blocks[-1].startswith("- ") and not bare.startswith("     "):
            blocks.append(bare.strip())
        else:
            blocks[-1] = f"{blocks[-1]} {bare.strip()}".strip()
    text = "\n\n".join(it for it in blocks if it)
    return re.sub(r"(\n- .*)\n(?=\n- )", r"\1", text)


def statuses() -> dict[str, str]:
    """When each status is answered, by the comments of the header."""
    return dict(re.findall(r"\b(IPCZ_\w+) = \d+,? */\* (.*?) \*/", HEADER.read_text()))


def c_calls(header: pathlib.Path) -> list[re.Match[str]]:
    """The calls of a header with a comment, but for those of its own."""
    return [it for it in C_CALL.finditer(header.read_text()) if not it["name"].endswith("_")]


def header_page(header: pathlib.Path, title: str, what: str) -> str:
    about = f"The calls of [{header.name}](../../include/{header.name}), {what} [C.md](../C.md) says how to build and link, and what stands round it."
    lines = [f"# {title}", "", about, ""]
    for found in c_calls(header):
        comment = found["comment"]
        told = [it for it in dict.fromkeys(re.findall(r"IPCZ_[A-Z_]+", comment)) if it in statuses()]
        head = found["head"].removeprefix("static inline ").removeprefix("IPCZ_LOOP_API ")
        lines += [f"### {found['name']}", "", "```c", head + ";", "```", "", c_paragraphs(comment)]
        if told:
            lines += ["", "Of the statuses named here:", "", *(f"- `{it}`: {statuses()[it]}" for it in told)]
        if one := example(rf"\b{found['name']}\(", (TOP / "callers/c" / it for it in C_CALLERS)):
            lines += ["", f"As in [{one[1].relative_to(TOP)}](../../{one[1].relative_to(TOP)}):", "", "```c", one[0], "```"]
        lines.append("")
    return "\n".join(lines)


def index_page() -> str:
    """Which page has what, and which calls answer each refusal."""
    lines = ["# Reference", "", "Each public call of worlds, cells, hubs and portals, of the promise, and of the header for C: what it does, when it is refused, and a line of code that calls it.",
             "These pages are made by `tools/make_reference.py` out of the sources, and the gate tests that they are what it makes.", "", "| page | calls |", "|---|---|"]
    for page in PAGES:
        names = [f"`{section.key(found['name'])}`" for section in page.sections for _, _, found in calls_of(section)]
        lines.append(f"| [{page.title}]({page.name}.md) | {', '.join(names)} |")
    in_c, of_loops = (", ".join(f"`{it['name']}`" for it in c_calls(header)) for header in (HEADER, LOOP))
    lines += [f"| [The header for C](HEADER.md) | {in_c} |", f"| [Loops, from C](LOOP.md) | {of_loops} |", "", "## Which calls answer which refusal", "", "| refusal | calls in Rattle |", "|---|---|"]
    for name in refusal_names():
        rows = {key: given if isinstance(given, list) else refusals()["kinds"][given] for key, given in refusals()["calls"].items()}
        calls = [f"`{key}`" for key, row in rows.items() if any(it == name for it, _ in row)]
        if calls:
            lines.append(f"| `{name}` | {', '.join(calls)} |")
    return "\n".join([*lines, ""])


def pages() -> dict[pathlib.Path, str]:
    made = {FOLDER / f"{page.name}.md": rattle_page(page) for page in PAGES}
    header = header_page(HEADER, "The header for C", "with what its comments say.")
    loop = header_page(LOOP, "Loops, from C", "with what its comments say: nodes that threads share, and calls that sleep. It isn't proved, but the archive below it is.")
    return made | {FOLDER / "HEADER.md": header, FOLDER / "LOOP.md": loop, FOLDER / "INDEX.md": index_page()}


def faults() -> list[str]:
    """What isn't as it must be: pages, and what tools/data/refusals.json says of calls."""
    found = []
    refusable, told, names = set[str](), set[str](), set(refusal_names())
    for page in PAGES:
        for section in page.sections:
            for _, text, it in calls_of(section):
                key = section.key(it["name"])
                if is_refusable(head_of(text, it.start())[0]):
                    refusable.add(key)
                    told.update({key} if set(re.findall(r"`(\w+)`", doc_above(text, it.start()))) & names else ())
    calls = refusals()["calls"]
    found += [f"{key} may be refused, and neither its comment nor refusals.json says why" for key in sorted(refusable - calls.keys() - told)]
    found += [f"refusals.json: there is no call {key} that may be refused" for key in sorted(calls.keys() - refusable)]
    rows = [*refusals()["kinds"].values(), *(it for it in calls.values() if isinstance(it, list))]
    found += [f"refusals.json: there is no refusal {name}" for row in rows for name, _ in row if name not in names]
    if not found:
        for path, text in pages().items():
            old = path.read_text() if path.is_file() else ""
            if old != text:
                found += difflib.unified_diff(old.splitlines(), text.splitlines(), str(path.relative_to(TOP)), "what is there", n=0, lineterm="")
    return found


def main() -> None:
    parser = asked.parser(__doc__)
    parser.add_argument("--write", action="store_true", help="write the pages")
    if parser.parse_args().write:
        FOLDER.mkdir(exist_ok=True)
        for path, text in pages().items():
            path.write_text(text)
    if found := faults():
        print(*found[:60], sep="\n")
        sys.exit("docs/reference isn't what is there: `python3 tools/make_reference.py --write` writes it")


if __name__ == "__main__":
    main()
