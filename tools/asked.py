"""What the tools ask of whoever calls them: their arguments, which `--help` tells, and programs that are built."""
import argparse
import pathlib
import sys

TOP = pathlib.Path(__file__).resolve().parent.parent


def parser(about: str | None) -> argparse.ArgumentParser:
    """A parser of arguments whose `--help` is the tool's own text."""
    return argparse.ArgumentParser(description=about, formatter_class=argparse.RawDescriptionHelpFormatter)


def program(given: str) -> pathlib.Path:
    """A program that is there, as an argument."""
    path = pathlib.Path(given).resolve()
    if not path.is_file():
        raise argparse.ArgumentTypeError(f"{given} isn't built: `.ci/run` builds it, or `rt run` in its crate's folder")
    return path


def built(crate: str) -> pathlib.Path:
    """The program of a crate; the tool ends if it isn't there."""
    path = TOP / "crates" / crate / "out" / crate
    if not path.is_file():
        sys.exit(f"{path.relative_to(TOP)} isn't built: `.ci/run` builds it, or `rt run` in crates/{crate}")
    return path
