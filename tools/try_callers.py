"""Builds and runs the callers of the static library, in C, C++, Rust, Go and Python, and prints what isn't as it must be.

    python3 tools/try_callers.py               over the archive that `rt lib` builds
    python3 tools/try_callers.py --after-ci    over the libraries that `rt ci` left here, as .ci/run does
    python3 tools/try_callers.py --all         fails if a compiler or valgrind isn't on the machine

The library is installed in a folder of its own by `tools/install_c.py`, this is moved and has a name with a space, and each caller is built
from there, by the flags that pkg-config tells; one in C by CMake, too, which finds the package. What a caller of `callers/c` and `callers/cpp` prints is compared with the file beside it that ends in `.out`. It runs again under
valgrind, which must find no error, and no memory that isn't freed, and one with a mutex under helgrind, which must find no race (it takes no
account of atomic steps, and only these order the calls on two cells). The tests of `callers/rust`, `callers/go` and `callers/python` are run, and so is what
stands in `callers/rust/examples` and `callers/python/examples`. A caller whose
compiler isn't on the machine is left out. The statuses of the header must be those of `Refusal`, the crate and CHANGELOG.md must have the header's version. (That the pages
show these callers word for word tools/test_tools.py tests.)
"""
import argparse
import os
import pathlib
import re
import shlex
import shutil
import subprocess
import sys
import tempfile

import install_c

TOP = pathlib.Path(__file__).resolve().parent.parent
CALLERS = TOP / "callers"
VALGRIND = ["valgrind", "--quiet", "--leak-check=full", "--show-leak-kinds=all", "--errors-for-leak-kinds=all", "--error-exitcode=99"]
HELGRIND = ["valgrind", "--quiet", "--tool=helgrind", "--error-exitcode=99"]
STRICT = ["-O2", "-Wall", "-Wextra", "-Wconversion", "-pedantic", "-Werror", "-pthread"]
CMAKE_LISTS = """cmake_minimum_required(VERSION 3.10)
project(hello C)
find_package(ipcz_portals {version} REQUIRED)
add_executable(hello "{source}")
target_link_libraries(hello ipcz::portals)
"""
MOST_SECONDS = 600
# Callers that are built and not run: what they print is times.
MEASURES = {"measure", "measure_cells", "measure_loop"}
# Flags of one caller, and of one language: the headers are read by pkg-config's -I, so that each warning of theirs fails.
FLAGS = {"no_memory": ["-Wl,--wrap=malloc,--wrap=realloc"], "loop_no_memory": ["-Wl,--wrap=malloc,--wrap=realloc"], "no_exceptions": ["-fno-exceptions"]}
STRICTER = {"cpp": ["-Wold-style-cast", "-Wzero-as-null-pointer-constant", "-Wshadow"]}


def tells_spaces() -> bool:
    """Whether pkg-config tells a path with a space as a shell wants it: pkgconf does, whose versions begin at 1."""
    told = shutil.which("pkg-config") and subprocess.run(["pkg-config", "--version"], stdout=subprocess.PIPE, text=True).stdout
    return not told or not told.startswith("0.")


class Callers:
    """The callers, over a library that is installed under a prefix: what was wrong, and what was left out."""

    def __init__(self, prefix: pathlib.Path) -> None:
        self.prefix = prefix
        self.wrong: list[str] = []
        self.lacking: set[str] = set()

    def has(self, tool: str) -> bool:
        """Whether a program is on the machine; if it isn't, what wants it is left out."""
        if shutil.which(tool):
            return True
        self.lacking.add(tool)
        return False

    def run(self, what: str, command: list[str], env: dict[str, str] | None = None, cwd: pathlib.Path | None = None) -> str | None:
        """What a command prints, or none if it fails."""
        try:
            done = subprocess.run(
                command, stdin=subprocess.DEVNULL, stdout=subprocess.PIPE, stderr=subprocess.STDOUT, text=True, errors="replace",
                env={**os.environ, **(env or {})}, cwd=cwd, timeout=MOST_SECONDS,
            )
        except subprocess.TimeoutExpired:
            self.wrong.append(f"{what} had not ended after {MOST_SECONDS} seconds")
            return None
        if done.returncode:
            self.wrong.append(f"{what} ended with status {done.returncode}:\n{done.stdout.strip()}")
            return None
        return done.stdout

    def flags(self) -> list[str]:
        """The flags that pkg-config tells; without it, the same."""
        told = ["-I", f"{self.prefix}/include", f"-L{self.prefix}/lib", "-lipcz_portals"]
        if not self.has("pkg-config"):
            return told
        text = self.run("pkg-config", ["pkg-config", "--cflags", "--libs", "ipcz_portals"], {"PKG_CONFIG_PATH": f"{self.prefix}/lib/pkgconfig"})
        return told if text is None else shlex.split(text)

    def compare(self, what: str, said: str | None, stored: pathlib.Path) -> None:
        if said is not None and said != stored.read_text():
            self.wrong.append(f"{what} printed this, which isn't what {stored.relative_to(TOP)} has:\n{said.strip()}")

    def compiled(self, compiler: str, standard: str, folder: str, ending: str) -> None:
        """Builds and runs each source of a folder beside which what it prints is stored."""
        if not self.has(compiler):
            return
        flags = self.flags()
        for source in sorted((CALLERS / folder).glob(f"*{ending}")):
            what, program, stored = str(source.relative_to(TOP)), self.prefix / f"{folder}-{source.stem}", source.with_suffix(".out")
            command = [compiler, f"-std={standard}", *STRICT, *STRICTER.get(folder, []), str(source), *flags, *FLAGS.get(source.stem, []), "-o", str(program)]
            if self.run(f"{what}: {compiler}", command) is None:
                continue
            if source.stem in MEASURES:
                continue
            if not stored.is_file():
                self.wrong.append(f"{what} has no stored output")
                continue
            self.compare(what, self.run(what, [str(program)]), stored)
            if self.has("valgrind"):
                self.compare(f"{what} under valgrind", self.run(f"{what} under valgrind", [*VALGRIND, str(program)]), stored)
                if "pthread_mutex_t" in source.read_text():
                    self.compare(f"{what} under helgrind", self.run(f"{what} under helgrind", [*HELGRIND, str(program)]), stored)

    def cmake(self) -> None:
        """Builds and runs a caller by CMake."""
        if not self.has("cmake") or not self.has("cc"):
            return
        folder = self.prefix / "by-cmake"
        folder.mkdir()
        (folder / "CMakeLists.txt").write_text(CMAKE_LISTS.format(version=install_c.version(), source=CALLERS / "c/hello.c"))
        if self.run("cmake", ["cmake", "-S", ".", "-B", "out", f"-DCMAKE_PREFIX_PATH={self.prefix}"], cwd=folder) is None:
            return
        if self.run("cmake --build", ["cmake", "--build", "out"], cwd=folder) is not None:
            self.compare("callers/c/hello.c by cmake", self.run("callers/c/hello.c by cmake", ["out/hello"], cwd=folder), CALLERS / "c/hello.out")

    def rust(self) -> None:
        """Runs the tests of the crate, over the archive that pkg-config tells of, if it is there; and what is said without an archive."""
        if not self.has("cargo"):
            return
        env = {"CARGO_TARGET_DIR": f"{self.prefix}/cargo", "RUSTFLAGS": "-D warnings"}
        folder = {"PKG_CONFIG_PATH": f"{self.prefix}/lib/pkgconfig"} if self.has("pkg-config") else {"IPCZ_LIB": f"{self.prefix}/lib"}
        self.run("callers/rust", ["cargo", "test", "--offline", "--quiet"], {**env, **folder}, CALLERS / "rust")
        for source in sorted((CALLERS / "rust/examples").glob("*.rs")):
            what = str(source.relative_to(TOP))
            command = ["cargo", "run", "--offline", "--quiet", "--example", source.stem]
            self.compare(what, self.run(what, command, {**env, **folder}, CALLERS / "rust"), source.with_suffix(".out"))
        nowhere = {**os.environ, **env, "IPCZ_LIB": f"{self.prefix}/nowhere"}
        done = subprocess.run(["cargo", "build", "--offline", "--quiet"], env=nowhere, cwd=CALLERS / "rust", capture_output=True, text=True)
        if done.returncode == 0 or "there is no libipcz_portals.a in" not in done.stderr:
            self.wrong.append(f"callers/rust without an archive ended with status {done.returncode}:\n{done.stderr.strip()}")

    def go(self) -> None:
        """Runs the tests of the module; cgo tests each pointer that it passes."""
        if not self.has("go") or not self.has("pkg-config"):
            return
        # (cgo takes no path with a space from pkg-config)
        prefix = self.prefix.resolve()
        env = {"PKG_CONFIG_PATH": f"{prefix}/lib/pkgconfig", "GOCACHE": f"{prefix}/go", "GOFLAGS": "-mod=readonly", "GODEBUG": "cgocheck=2"}
        self.run("callers/go", ["go", "test", "./..."], env, CALLERS / "go")
        self.run("callers/go", ["go", "vet", "./..."], env, CALLERS / "go")

    def python(self) -> None:
        """Runs the tests and the examples of callers/python over the shared library, and one test without it."""
        if not self.has("cc"):
            return
        folder = CALLERS / "python"
        env = {"PYTHONPATH": str(folder), "PYTHONDONTWRITEBYTECODE": "1", "IPCZ_LIBRARY": f"{self.prefix}/lib/{install_c.SHARED}"}
        self.run("callers/python", [sys.executable, "-X", "dev", "-m", "unittest", "test_ipcz_portals"], env, folder)
        for source in sorted((folder / "examples").glob("*.py")):
            what = str(source.relative_to(TOP))
            self.compare(what, self.run(what, [sys.executable, str(source)], env), source.with_suffix(".out"))
        done = subprocess.run([sys.executable, "-c", "import ipcz_portals"], env={**os.environ, **env, "IPCZ_LIBRARY": ""}, cwd=folder, capture_output=True, text=True)
        if done.returncode == 0 or "there is no libipcz_loop.so" not in done.stderr:
            self.wrong.append(f"callers/python without a library ended with status {done.returncode}:\n{done.stderr.strip()}")

    def uninstalled(self, prefix: pathlib.Path) -> None:
        """Takes away what was installed: nothing of it is left."""
        install_c.uninstall(prefix)
        left = [str(path.relative_to(prefix)) for folder in ("include", "lib", "share") for path in (prefix / folder).rglob("*ipcz*")]
        if left:
            self.wrong.append(f"install_c.py --uninstall leaves {', '.join(left)}")

    def statuses(self) -> None:
        """Compares the header's statuses and names with those of `Refusal`, and Python's with the header's."""
        header = (TOP / "include/ipcz_portals.h").read_text()
        refusals = dict(re.findall(r"^    (\w+) = (\d+),$", (TOP / "crates/ipcz_base/src/refusal.rt").read_text(), re.M))
        codes = dict(re.findall(r"\b(IPCZ_\w+) = (\d+)", header))
        names = {name: codes.get(code) for code, name in re.findall(r'case (IPCZ_\w+): return "(\w+)"', header)}
        if not refusals or refusals != {name: code for name, code in names.items() if code is not None and 0 < int(code) < 100}:
            self.wrong.append("the statuses of include/ipcz_portals.h aren't those of crates/ipcz_base/src/refusal.rt")
        # (three are between nodes, and no call answers them)
        answered = {name: codes[name] for name in re.findall(r"case (IPCZ_\w+): return", header) if not 12 <= int(codes[name]) <= 14}
        of_python = re.findall(r"^    (\w+) = (\d+)$", (CALLERS / "python/ipcz_portals.py").read_text(), re.M)
        if {f"IPCZ_{name}": code for name, code in of_python} != answered:
            self.wrong.append("the statuses of callers/python aren't those of include/ipcz_portals.h")

    def versions(self) -> None:
        """Compares the versions with that of the header."""
        version = install_c.version()
        numbers = [int(part) for part in version.split(".")]
        for path, line in {
            "include/ipcz_portals.h": f"#define IPCZ_VERSION_NUMBER {10000 * numbers[0] + 100 * numbers[1] + numbers[2]}\n",
            "callers/rust/Cargo.toml": f'version = "{version}"\n',
            "callers/python/ipcz_portals.py": f'__version__ = "{version}"\n',
            "CHANGELOG.md": f"## {version}\n",
        }.items():
            if f"\n{line}" not in (TOP / path).read_text():
                self.wrong.append(f"{path} has no line {line.strip()}, which the version of include/ipcz_portals.h wants")


def main() -> None:
    given = argparse.ArgumentParser(description=__doc__, formatter_class=argparse.RawDescriptionHelpFormatter)
    given.add_argument("--after-ci", action="store_true", help="build over the libraries that rt ci left")
    given.add_argument("--all", action="store_true", help="fail if a compiler or valgrind isn't on the machine")
    asked = given.parse_args()
    with tempfile.TemporaryDirectory(prefix="try-callers-") as room:
        first, callers = pathlib.Path(room, "first"), Callers(pathlib.Path(room, "moved here" if tells_spaces() else "moved_here"))
        try:
            install_c.install(first, asked.after_ci, bool(shutil.which("cc")))
        except install_c.Fault as fault:
            sys.exit(f"try_callers: {fault}")
        callers.prefix.symlink_to(first.rename(pathlib.Path(room, "moved")))
        callers.statuses()
        callers.versions()
        callers.compiled("cc", "gnu11", "c", ".c")
        callers.compiled("c++", "c++11", "cpp", ".cc")
        callers.cmake()
        callers.rust()
        callers.go()
        callers.python()
        callers.uninstalled(pathlib.Path(room, "moved"))
    if asked.all and callers.lacking:
        callers.wrong.append(f"left out, since the machine lacks it: {', '.join(sorted(callers.lacking))}")
    if callers.wrong:
        sys.exit("\n".join(callers.wrong))


if __name__ == "__main__":
    main()
