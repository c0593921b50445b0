"""Makes docs/theorem.html: the promise and the theorem, with every definition that they rest on, each name a link, and what is said of it beside it.

    python3 tools/make_theorem.py            compares the page with what is there, and fails if it is another
    python3 tools/make_theorem.py --write    writes it

The text is that of specs/: a comment stands at the left of the lines that follow it. The two pages are whole; of the other files there are the
definitions that the two reach, in the order in which they are reached.
"""
from __future__ import annotations

import dataclasses
import html
import pathlib
import re
import sys
import urllib.parse

import asked
from asked import TOP
from find_unused_imports import TOKEN, USE, without_comments
from list_statements import START, Key, closure, definitions, imports

PAGE = TOP / "docs/theorem.html"
ROOTS = {
    "The promise": ("ipcz_promise/specs/Promise.antt", "What a caller of the library may rely on: a plain machine, in which nodes, routes and messages don’t occur."),
    "The theorem": ("ipcz_world/specs/Theorem.antt", "What holds of the nodes inside, after any list of steps."),
}
SIGNS = [
    ("f x y", "the call f(x, y)"), ("A → B", "a function from A to B; of facts, “if A then B”"), ("(x : T) → P", "for each x of T, P"),
    ("(x : T) × P", "there is an x of T with P"), ("P × Q, P ⊎ Q", "P and Q, P or Q"), ("P → ⊥", "not P"), ("P ↔ Q", "each follows from the other"), ("≡", "is the same as"),
    ("ℕ", "the numbers 0, 1, 2, .."), ("[], x ∷ xs, xs ++ ys", "the empty list, x before xs, ys behind xs"), ("length, take n, map f, slice_get xs i", "how many; the first n; f of each; the one at place i, or None"),
    ("Some x, None", "a value, or none"), ("λ x. e", "the function that gives e for x"), ("record { f = v }, record a { f = v }", "a struct; a with another field"),
    ("cond c x y", "if c then x, else y"), ("abbrev pub N : T", "N is defined, and has the type T; lines that begin with N say what it is"), ("pub record N", "a struct, or a fact that holds if each of its lines does"),
    ("Type 0", "the type of types and of facts"),
]
STYLE = """
:root { --ground: #ffffff; --ink: #1f2328; --dim: #59636e; --line: #d1d9e0; --code: #f6f8fa; --link: #0a58b0; --lit: #fff3d6 }
@media (prefers-color-scheme: dark) { :root { --ground: #0d1117; --ink: #e6edf3; --dim: #9aa5b1; --line: #3d444d; --code: #151b23; --link: #79b8ff; --lit: #33270f } }
body { background: var(--ground); color: var(--ink); font: 15px/1.5 system-ui, sans-serif; margin: 2rem auto; max-width: 90rem; padding: 0 1rem }
h2 { border-top: 1px solid var(--line); padding-top: 1rem } h3 { font-size: 1rem; margin: 1.5rem 0 .3rem } a { color: var(--link); text-decoration: none } a:hover { text-decoration: underline }
.row { display: grid; grid-template-columns: minmax(14rem, 2fr) 5fr; gap: 1.2rem; border-top: 1px solid var(--line); padding: .4rem 0 }
.row p { margin: 0; color: var(--dim); font-size: .92rem } .alone { max-width: 60rem; padding: .4rem 0 } code { font: 13px ui-monospace, Menlo, Consolas, monospace } pre { margin: 0; background: var(--code); padding: .3rem .6rem; overflow-x: auto; white-space: pre-wrap; font: 13px/1.5 ui-monospace, Menlo, Consolas, monospace }
.row:target { background: var(--lit) } td { padding: .1rem 1.2rem .1rem 0; vertical-align: top } td:first-child { font-family: ui-monospace, Menlo, Consolas, monospace; white-space: nowrap }
@media (max-width: 50rem) { .row { grid-template-columns: 1fr } }
"""


@dataclasses.dataclass
class Row:
    """Some words and the lines of code behind them; the first row of a definition has its name."""
    owner: str
    is_first: bool
    words: list[str]
    code: list[str]


def module_of(path: pathlib.Path) -> str:
    crate, _, *rest = path.relative_to(TOP / "crates").with_suffix("").parts
    return ".".join(["Rattle", crate, "specs", *rest])


def rows_of(path: pathlib.Path) -> list[Row]:
    rows: list[Row] = []
    words: list[str] = []
    name = ""
    for line in path.read_text().splitlines():
        if line.startswith("use "):
            continue
        if line.lstrip().startswith("--"):
            words.append(line.strip().removeprefix("--").strip())
            continue
        if not line.strip():
            if words:
                rows.append(Row("", False, words, []))
                words = []
            continue
        found = START.match(line) if line[0] != " " else None
        begins = bool(found and found["name"] not in (name, "unfolding", "}"))
        name = found["name"] if begins else name
        if begins or words or not rows or not rows[-1].code:
            rows.append(Row(name, begins, words, []))
            words = []
        rows[-1].code.append(line)
    return [*rows, *([Row("", False, words, [])] if words else [])]


def place_of(key: Key) -> str:
    return urllib.parse.quote(".".join([key[0].removeprefix("Rattle.").replace(".specs.", "."), key[1]]), safe="")


def source_of_type(module: str) -> str | None:
    """The file of a type that a crate declares, as the page links it."""
    crate, _, rest = module.removeprefix("Rattle.").partition(".specs.declared.")
    parts = rest.removesuffix(".TheVariants").split(".")[:-1]
    path = pathlib.Path("crates", crate, "src", *parts).with_suffix(".rt")
    return f"../{path}" if rest and (TOP / path).is_file() else None


def said(words: list[str]) -> str:
    """The words of a comment, as paragraphs."""
    paragraphs = " ".join(word or "\n" for word in words).split("\n")
    marked = (re.sub("`([^`]*)`", r"<code>\1</code>", html.escape(it.strip())) for it in paragraphs if it.strip())
    return "".join(f"<p>{it}</p>" for it in marked)


class File:
    """A file of specs/, and what its names stand for."""

    def __init__(self, path: pathlib.Path) -> None:
        self.path, self.rows, self.module = path, rows_of(path), module_of(path)
        self.names, _ = imports(without_comments(path.read_text(), "--"), USE)
        self.names |= {row.owner: (self.module, row.owner) for row in self.rows if row.owner}

    def linked(self, line: str, owner: str, reached: set[Key]) -> str:
        """A line of code, with a link at each name that is defined on the page, or is a type of a crate."""
        parts, at = [], 0
        for found in TOKEN.finditer(line):
            key = None if found["field"] else self.names.get(found["word"])
            target = key and (f"#{place_of(key)}" if key in reached and found["word"] != owner else source_of_type(key[0]))
            parts.append(html.escape(line[at:found.start("word")]))
            word = html.escape(found["word"])
            parts.append(f'<a href="{target}">{word}</a>' if target else word)
            at = found.end("word")
        return "".join(parts) + html.escape(line[at:])

    def shown(self, rows: list[Row], reached: set[Key]) -> list[str]:
        lines = []
        for row in rows:
            anchor = f' id="{place_of((self.module, row.owner))}"' if row.is_first else ""
            code = "\n".join(self.linked(line, row.owner, reached) for line in row.code)
            lines.append(f'<div class="row"{anchor}><div>{said(row.words)}</div><pre>{code}</pre></div>' if code else f'<div class="alone">{said(row.words)}</div>')
        return lines


def in_order(roots: list[Key]) -> list[Key]:
    """What the roots reach, the nearest first."""
    seen, left = dict.fromkeys(roots), list(roots)
    while left:
        key = left.pop(0)
        new = [it for it in sorted(definitions()[key].uses) if it in definitions() and it not in seen]
        seen |= dict.fromkeys(new)
        left += new
    return list(seen)


def made() -> str:
    pages = {title: (File(TOP / "crates" / file), about) for title, (file, about) in ROOTS.items()}
    roots = [(file.module, row.owner) for file, _ in pages.values() for row in file.rows if row.is_first]
    keys = in_order(roots)
    reached = set(keys)
    assert reached == closure(roots)
    others: dict[pathlib.Path, list[Key]] = {}
    for key in keys:
        if definitions()[key].path not in [file.path for file, _ in pages.values()]:
            others.setdefault(definitions()[key].path, []).append(key)
    count = sum(len(definitions()[key].lines) for found in others.values() for key in found)
    lines = [
        '<!DOCTYPE html>', '<html lang="en"><head><meta charset="utf-8"><meta name="viewport" content="width=device-width">', f"<title>The promise and the theorem</title><style>{STYLE}</style></head><body>",
        "<h1>The promise and the theorem</h1>",
        f"<p>Two pages of definitions, whole, and below them the {sum(map(len, others.values()))} definitions that they rest on, {count} lines. Each name is a link to its definition; the words at the left are those of the "
        'sources. <a href="THEOREM.md">THEOREM.md</a> says what is claimed by them, and what isn’t. This page is made by <code>tools/make_theorem.py</code>, and the gate tests that it is what the sources say.</p>',
        "<h2>How to read it</h2><table>", *(f"<tr><td>{html.escape(sign)}</td><td>{html.escape(said)}</td></tr>" for sign, said in SIGNS), "</table>",
    ]
    for title, (file, about) in pages.items():
        lines += [f'<h2>{title}</h2><p>{about} <a href="../{file.path.relative_to(TOP)}">{file.path.name}</a></p>', *file.shown(file.rows, reached)]
    lines.append("<h2>What they rest on</h2>")
    for path, found in others.items():
        file, wanted = File(path), {name for _, name in found}
        lines += [f'<h3><a href="../{path.relative_to(TOP)}">{path.relative_to(TOP / "crates")}</a></h3>', *file.shown([row for row in file.rows if row.owner in wanted], reached)]
    return "\n".join([*lines, "</body></html>", ""])


def faults() -> list[str]:
    is_so = PAGE.is_file() and PAGE.read_text() == made()
    return [] if is_so else ["docs/theorem.html isn't what specs/ says: `python3 tools/make_theorem.py --write` writes it"]


def main() -> None:
    parser = asked.parser(__doc__)
    parser.add_argument("--write", action="store_true", help="write the page")
    if parser.parse_args().write:
        PAGE.write_text(made())
    if found := faults():
        sys.exit("\n".join(found))


if __name__ == "__main__":
    main()
