"""Finds definitions of specs/ that nobody names: no contract, no proof, and no definition that one of these reaches.

    python3 tools/find_unused_definitions.py               prints each such definition, and fails if there is one
    python3 tools/find_unused_definitions.py --by-proofs   prints those that proofs alone name, by file; fails never

A definition that proofs alone name promises nothing: it belongs beside them, in proofs/, so that who reads specs/ reads what is promised. A lemma that
stands in specs/ because a definition's own lemmas do is no fault.
"""
import re
import sys
from collections import defaultdict

import asked
from asked import TOP
from find_unused_imports import GHOST_USE, without_comments
from list_statements import Key, definitions, imports, named

IMPORT = re.compile(r"^[ \t]*(?:unfoldable )?(?:pub )?use (?P<path>[^{\n]*?)(?:\.\{(?P<names>[^}]*)\})?(?: as (?P<alias>\S+))?[ \t]*$", re.M)
UNFOLDED = re.compile(r"\b(?P<crate>crate|ipcz_\w+)::specs::(?P<path>[\w:]+)")
# What opens no definition, though it begins a line of specs/.
NO_NAME = re.compile(r"^(?:[^\w◌]*|mod|module|ruleset)$")


def named_by_contracts() -> set[Key]:
    """The definitions that clauses and attributes of src/ name; an import counts, since an unused one is found by another tool."""
    keys: set[Key] = set()
    for path in (TOP / "crates").glob("*/src/**/*.rt"):
        text, crate = without_comments(path.read_text(), "//"), path.relative_to(TOP / "crates").parts[0]
        names, modules = imports(text, GHOST_USE)
        keys |= set(names.values()) | named(text, names, modules)
        for found in UNFOLDED.finditer(text):
            *module, name = found["path"].split("::")
            keys.add((".".join(["Rattle", crate if found["crate"] == "crate" else found["crate"], "specs", *module]), name))
    return keys


def named_by_proofs() -> set[Key]:
    """The definitions that files of proofs/ import."""
    keys: set[Key] = set()
    for path in (TOP / "crates").glob("*/proofs/**/*.antt"):
        text = without_comments(path.read_text(), "--")
        names, modules = imports(text, IMPORT)
        keys |= set(names.values()) | named(text, names, modules)
    return keys


def reached(keys: set[Key]) -> set[Key]:
    """The definitions among these keys, and all that these name."""
    every, seen, left = definitions(), set(), list(keys)
    while left:
        key = left.pop()
        if key in every and key not in seen:
            seen.add(key)
            left += every[key].uses
    return seen


def show(keys: set[Key]) -> None:
    by_file = defaultdict(list)
    for key in sorted(keys):
        by_file[definitions()[key].path.relative_to(TOP)].append(key[1])
    for path, names in by_file.items():
        print(f"{path}: {', '.join(names)}")


def main() -> None:
    parser = asked.parser(__doc__)
    parser.add_argument("--by-proofs", action="store_true", help="print those that proofs alone name")
    given = parser.parse_args()
    every = {key for key in definitions() if not NO_NAME.match(key[1])}
    promised = reached(named_by_contracts())
    proved = reached(named_by_proofs())
    if given.by_proofs:
        show(every & proved - promised)
        return
    unused = every - promised - proved
    if unused:
        print("named by nobody:")
        show(unused)
        sys.exit(1)


if __name__ == "__main__":
    main()
