"""Writes the pages that are made of the sources anew: docs/statements.txt, docs/reference, docs/theorem.html, and the table of docs/SIZES.md.

    python3 tools/write_pages.py    after a change of a contract, a definition, a doc comment or the header

What it has changed `git diff` shows: a change of docs/statements.txt is a change of what is promised. docs/trusted.txt is made of built libraries, so
`python3 tools/trusted.py --write` writes it, after `rt ci`; and pictures `python3 tools/compare_pictures.py --store`.
"""
import pathlib
import subprocess
import sys

import asked

HERE = pathlib.Path(__file__).resolve().parent


def main() -> None:
    asked.parser(__doc__).parse_args()
    tools = ("list_statements", "make_reference", "make_theorem", "count_sizes")
    sys.exit(any([subprocess.run([sys.executable, HERE / f"{tool}.py", "--write"]).returncode for tool in tools]))


if __name__ == "__main__":
    main()
