"""Draws the transcript of each script of docs/pictures, and each transcript there, and prints which stored picture is another; nothing
if all are as stored. Those whose names end in `_used` are drawn with the option --used.

    python3 tools/compare_pictures.py            compares
    python3 tools/compare_pictures.py --store    stores the pictures anew (look at each of them then)
"""
import pathlib
import subprocess
import sys
from collections.abc import Iterator

import asked
from asked import TOP


def output_of(crate: str, given: bytes, *arguments: str) -> bytes:
    return subprocess.run([asked.built(crate), *arguments], input=given, stdout=subprocess.PIPE, check=True).stdout


def transcripts(folder: pathlib.Path) -> Iterator[tuple[pathlib.Path, bytes]]:
    """The transcripts of the scripts there, and those that stand there themselves, each with its file."""
    for script in sorted(folder.glob("*.json")):
        yield script, output_of("ipcz_run", script.read_bytes())
    for transcript in sorted(folder.glob("*.txt")):
        yield transcript, transcript.read_bytes()


def main() -> None:
    parser = asked.parser(__doc__)
    parser.add_argument("--store", action="store_true", help="store the pictures anew")
    stores = parser.parse_args().store
    found = list(transcripts(TOP / "docs/pictures"))
    if not found:
        sys.exit("no script stands in docs/pictures")
    others = []
    for file, transcript in found:
        drawn = output_of("ipcz_draw", transcript, *(["--used"] if file.stem.endswith("_used") else []))
        stored = file.with_suffix(".svg")
        if stores:
            stored.write_bytes(drawn)
        elif not stored.exists() or stored.read_bytes() != drawn:
            others.append(stored.name)
    if others:
        sys.exit("these pictures are other than stored: " + ", ".join(others))


if __name__ == "__main__":
    main()
