"""Puts the static library for C, its headers and files for pkg-config and CMake under a prefix.

    python3 tools/install_c.py PREFIX               builds the archive by `rt lib`, which first proves what isn't proved yet
    python3 tools/install_c.py --after-ci PREFIX    builds it over the libraries that `rt ci` left here, as .ci/run does
    python3 tools/install_c.py --shared PREFIX      puts `lib/libipcz_loop.so` there, too, for Python and other languages
    python3 tools/install_c.py --uninstall PREFIX   takes away what the others put there

Under the prefix then stand `lib/libipcz_portals.a`, which also has the kit's three functions for memory (over malloc, realloc and free),
`include/ipcz_portals.h`, `ipcz_loop.h` and the same two for C++ (`.hpp`), `lib/pkgconfig/ipcz_portals.pc`, `lib/cmake/ipcz_portals` and the licence. The
prefix may be moved later. If the environment has DESTDIR, all of it goes under that folder first, as packages are made. The shared library has the archive
and the functions of `ipcz_loop.h`, which `cc` compiles. A program is built with

    cc program.c $(PKG_CONFIG_PATH=PREFIX/lib/pkgconfig pkg-config --cflags --libs ipcz_portals)

or, with CMake, by find_package(ipcz_portals) and the target ipcz::portals. From nothing the proofs take some 33 minutes of a processor.

What `--after-ci` builds is kept for later runs on this machine, by the sums of all that it was made from.
"""
import argparse
import hashlib
import os
import pathlib
import re
import shutil
import subprocess
import sys
import tempfile

try:
    import try_edits
except (OSError, subprocess.CalledProcessError):
    sys.exit("install_c: rt, the kit's command, can't be run")

TOP = pathlib.Path(__file__).resolve().parent.parent
CRATE = TOP / "crates" / "ipcz_c"
KEPT = pathlib.Path(os.environ.get("XDG_CACHE_HOME") or pathlib.Path.home() / ".cache", "ipcz-archives")
# (the folder of the file itself is two below the prefix, wherever that is)
PKG_CONFIG = """# SPDX-License-Identifier: BSD-3-Clause
prefix=${{pcfiledir}}/../..
libdir=${{prefix}}/lib
includedir=${{prefix}}/include

Name: ipcz_portals
Description: Portals, and parcels between them, in one process; proved in Rattle
Version: {version}
Cflags: -I${{includedir}}
Libs: -L${{libdir}} -lipcz_portals
"""
CMAKE_CONFIG = """# SPDX-License-Identifier: BSD-3-Clause
get_filename_component(_ipcz "${{CMAKE_CURRENT_LIST_DIR}}/../../.." ABSOLUTE)
if(NOT TARGET ipcz::portals)
  add_library(ipcz::portals STATIC IMPORTED)
  set_target_properties(ipcz::portals PROPERTIES
    IMPORTED_LOCATION "${{_ipcz}}/lib/libipcz_portals.a" INTERFACE_INCLUDE_DIRECTORIES "${{_ipcz}}/include")
endif()
unset(_ipcz)
"""
# (before 1.0 each minor version may change calls)
CMAKE_VERSION = """# SPDX-License-Identifier: BSD-3-Clause
set(PACKAGE_VERSION "{version}")
string(REGEX MATCH "^[0-9]+[.][0-9]+" _ipcz_here "${{PACKAGE_VERSION}}")
string(REGEX MATCH "^[0-9]+[.][0-9]+" _ipcz_wanted "${{PACKAGE_FIND_VERSION}}")
if(_ipcz_here STREQUAL _ipcz_wanted AND NOT PACKAGE_VERSION VERSION_LESS PACKAGE_FIND_VERSION)
  set(PACKAGE_VERSION_COMPATIBLE TRUE)
endif()
if(PACKAGE_VERSION VERSION_EQUAL PACKAGE_FIND_VERSION)
  set(PACKAGE_VERSION_EXACT TRUE)
endif()
"""
INSTALLED = {
    "lib/pkgconfig/ipcz_portals.pc": PKG_CONFIG,
    "lib/cmake/ipcz_portals/ipcz_portalsConfig.cmake": CMAKE_CONFIG,
    "lib/cmake/ipcz_portals/ipcz_portalsConfigVersion.cmake": CMAKE_VERSION,
}


VERSION_C = """const char *ipcz_version(void);
const char *ipcz_version(void) {{ return "{version}"; }}
"""
# The shared library: its name, and what is compiled into it beside the archive. (Before 1.0 each minor version may change calls)
SHARED = "libipcz_loop.so"
SHARED_C = """#define IPCZ_LOOP_API __attribute__((visibility("default")))
#include "ipcz_loop.h"
"""
LICENCE = "share/licenses/ipcz_portals/LICENSE"


class Fault(Exception):
    """What keeps the library from being built or installed, in a sentence."""


def ran(command: list[str], why: str, **how: object) -> str:
    """What a command says, which must end well."""
    try:
        done = subprocess.run(command, stdin=subprocess.DEVNULL, stdout=subprocess.PIPE, stderr=subprocess.STDOUT, text=True, errors="replace", **how)
    except OSError as error:
        raise Fault(f"{why}: {command[0]} can't be run ({error.strerror})") from error
    if done.returncode:
        raise Fault(f"{done.stdout.strip()}\n{why}: {command[0]} ended with status {done.returncode}")
    return done.stdout


def built_by_rt() -> pathlib.Path:
    """The archive, as `rt lib` builds it, which says meanwhile what it does."""
    print("install_c: rt proves and builds the library; from nothing that takes some 33 minutes of a processor", file=sys.stderr)
    done = subprocess.run(["rt", "lib"], cwd=CRATE, stdin=subprocess.DEVNULL, stdout=sys.stderr)
    if done.returncode:
        raise Fault(f"the archive isn't built: rt ended with status {done.returncode}")
    return CRATE / "out" / "libipcz_c.a"


def built_after_ci() -> pathlib.Path:
    """The archive, over the libraries that `rt ci` left; or the one that is kept of the same files."""
    missing = [it for it in try_edits.below(CRATE.name) if not (try_edits.library(it) / f"{it}.rlib" / "format").is_file()]
    if missing:
        raise Fault(f"the archive isn't built: {', '.join(missing)} of the libraries below it isn't; run rt ci first")
    made_from = f"{try_edits.sum_below(CRATE)} {pathlib.Path(__file__).read_text()}"
    kept = KEPT / f"{hashlib.sha256(made_from.encode()).hexdigest()}.a"
    if not kept.is_file():
        KEPT.mkdir(mode=0o700, parents=True, exist_ok=True)
        new = KEPT / f"new-{os.getpid()}.a"
        checked = try_edits.words(CRATE.name)
        command = [checked[0], "build", *checked[2:], "--crate-type", "staticlib", "--toolchain", f"{try_edits.KIT}/toolchain", "-o", str(new)]
        ran(command, "the archive isn't built", cwd=CRATE)
        new.replace(kept)
    return kept


def joined(archive: pathlib.Path, to: pathlib.Path) -> None:
    """Writes an archive with all that a program links: the crate's, what the kit's heap calls of C, and the version."""
    with tempfile.TemporaryDirectory() as room:
        pathlib.Path(room, "version.c").write_text(VERSION_C.format(version=version()))
        ran(["cc", "-O2", "-fPIC", "-c", "version.c", "-o", "version.o"], "the version isn't compiled", cwd=room)
        shutil.copy(archive, pathlib.Path(room, "crate.a"))
        shutil.copy(try_edits.KIT / "c" / "liblibc_c.a", pathlib.Path(room, "heap.a"))
        script = pathlib.Path(room, "script")
        script.write_text("CREATE all.a\nADDLIB crate.a\nADDLIB heap.a\nADDMOD version.o\nSAVE\nEND\n")
        with script.open() as given:
            try:
                done = subprocess.run(["ar", "-M"], stdin=given, cwd=room, stdout=subprocess.PIPE, stderr=subprocess.STDOUT, text=True)
            except OSError as error:
                raise Fault(f"the archive can't be joined with the kit's: ar can't be run ({error.strerror})") from error
        if done.returncode:
            raise Fault(f"{done.stdout.strip()}\nthe archive can't be joined with the kit's")
        shutil.copy(pathlib.Path(room, "all.a"), to)


def version() -> str:
    """The version of the library, which stands in its header."""
    return re.search(r'^#define IPCZ_VERSION "(.*)"$', (TOP / "include/ipcz_portals.h").read_text(), re.M)[1]


def headers() -> list[pathlib.Path]:
    return sorted((TOP / "include").glob("ipcz_*.h*"))


def soname() -> str:
    return f"{SHARED}.{version().rpartition('.')[0]}"


def share(prefix: pathlib.Path) -> None:
    """Makes the shared library out of the archive under a prefix and the functions of `ipcz_loop.h`. It exports what begins with ipcz_."""
    with tempfile.TemporaryDirectory() as room:
        source, names, made = pathlib.Path(room, "loop.c"), pathlib.Path(room, "names"), pathlib.Path(room, "made.so")
        source.write_text(SHARED_C)
        names.write_text("{ global: ipcz_*; local: *; };\n")
        command = ["cc", "-std=gnu11", "-O2", "-fPIC", "-shared", "-pthread", f"-I{TOP / 'include'}", str(source), "-Wl,--whole-archive"]
        command += [str(prefix / "lib/libipcz_portals.a"), "-Wl,--no-whole-archive", f"-Wl,-soname,{soname()}", f"-Wl,--version-script,{names}", "-Wl,-z,defs"]
        ran([*command, "-o", str(made)], "the shared library isn't built")
        shutil.copy(made, prefix / "lib" / soname())
    link = prefix / "lib" / SHARED
    link.unlink(missing_ok=True)
    link.symlink_to(soname())


def staged(prefix: pathlib.Path) -> pathlib.Path:
    """Where the prefix stands for now: under DESTDIR, if there is one."""
    stage = os.environ.get("DESTDIR")
    return pathlib.Path(stage).resolve() / prefix.resolve().relative_to("/") if stage else prefix.resolve()


def install(prefix: pathlib.Path, after_ci: bool, shared: bool = False) -> None:
    """Puts the library under a prefix."""
    archive, prefix = built_after_ci() if after_ci else built_by_rt(), staged(prefix)
    try:
        for path in ("include/ipcz_portals.h", LICENCE, *INSTALLED):
            (prefix / path).parent.mkdir(parents=True, exist_ok=True)
        for header in headers():
            shutil.copy(header, prefix / "include")
        joined(archive, prefix / "lib" / "libipcz_portals.a")
        shutil.copy(TOP / "LICENSE", prefix / LICENCE)
        for path, text in INSTALLED.items():
            (prefix / path).write_text(text.format(version=version()))
        if shared:
            share(prefix)
    except OSError as error:
        raise Fault(f"nothing can be put under {prefix}: {error.strerror}") from error


def uninstall(prefix: pathlib.Path) -> None:
    """Takes away what `install` puts under a prefix, and the folders that are only the library's."""
    prefix = staged(prefix)
    files = [f"include/{header.name}" for header in headers()] + ["lib/libipcz_portals.a", f"lib/{SHARED}", f"lib/{soname()}", LICENCE, *INSTALLED]
    try:
        for path in files:
            (prefix / path).unlink(missing_ok=True)
        for folder in (LICENCE, *INSTALLED):
            if (prefix / folder).parent.name == "ipcz_portals" and (prefix / folder).parent.is_dir():
                (prefix / folder).parent.rmdir()
    except OSError as error:
        raise Fault(f"not all is taken away from {prefix}: {error.strerror}") from error


def main() -> None:
    given = argparse.ArgumentParser(description=__doc__, formatter_class=argparse.RawDescriptionHelpFormatter)
    given.add_argument("prefix", type=pathlib.Path)
    given.add_argument("--after-ci", action="store_true", help="build over the libraries that rt ci left")
    given.add_argument("--shared", action="store_true", help="make a shared library, too")
    given.add_argument("--uninstall", action="store_true", help="take away what was installed")
    asked = given.parse_args()
    try:
        if asked.uninstall:
            uninstall(asked.prefix)
        else:
            install(asked.prefix, asked.after_ci, asked.shared)
    except Fault as fault:
        sys.exit(f"install_c: {fault}")


if __name__ == "__main__":
    main()
