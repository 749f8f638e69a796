"""Proves and builds the static library of bindings/, bindings/out/libsimplex_audit.a, and of it the shared library.

The static library is that of crates/simplex_c, and with it the toolchain's C file by which it allocates. If the gate has just
built the libraries below, the compiler takes them as they are: `rt ci` leaves no stamp of them, so `rt lib` would prove each
again. On a terminal it says which crate it is at.

The shared library is linked from it. It shows the names that bindings/simplex_audit.map lists, and no others.
"""

import os
import pathlib
import re
import shutil
import subprocess
import sys
import tempfile

from .common import ROOT, below, crates
from .proving import prove

NAME = "simplex_c"
CRATE = ROOT / "crates" / NAME
ARCHIVE = ROOT / "bindings/out/libsimplex_audit.a"
SHARED = ARCHIVE.with_name("simplex_audit.so")
HEADER = ROOT / "bindings/simplex_audit.h"
NAMES = ROOT / "bindings/simplex_audit.map"
PROVED = re.compile(r"crate (\w+): ")


def commands(kit):
    """The commands to try in turn: that which builds it over the libraries of the gate, if these are as it leaves them, and
    that of `rt`."""
    built = {it: ROOT / f"crates/{it}/out/rlib" for it in crates() if it in below(NAME) - {NAME}}
    is_there = all((it / f"{name}.rlib").is_dir() and not (it / "stamp").exists() for name, it in built.items())
    if "BUILT" not in os.environ or not is_there:
        return [["rt", "lib"]]
    words = ["--crate-name", NAME, "--crate-type", "staticlib", "--backend", "llvm", "--links", f"{NAME}=", "--jobs", "2"]
    words += ["--antt-project", kit / "rattle/logic/antt-project.json", "--logic-built", kit / "logic_built"]
    words += ["--toolchain", kit / "toolchain", "--extern", f"std={kit}/rlibs/std.rlib", "-L", f"dependency={kit}/rlibs"]
    for name, folder in built.items():
        words += ["--extern", f"{name}={folder}/{name}.rlib", "-L", f"dependency={folder}"]
    return [[kit / "bin/rattle", "build", *words, "-o", f"out/lib{NAME}.a", "src/lib.rt"], ["rt", "lib"]]


def join(kit):
    """One archive of both. `ar` reads no path with a space, so that it is told names in a folder of links alone."""
    ARCHIVE.parent.mkdir(exist_ok=True)
    with tempfile.TemporaryDirectory() as at:
        for name, archive in (("one.a", CRATE / f"out/lib{NAME}.a"), ("other.a", kit / "c/liblibc_c.a")):
            os.symlink(archive, f"{at}/{name}")
        said = "CREATE both.a\nADDLIB one.a\nADDLIB other.a\nSAVE\nEND\n"
        subprocess.run(["ar", "-M"], input=said, text=True, cwd=at, check=True)
        shutil.move(f"{at}/both.a", ARCHIVE)


def soname():
    """The name by which programs ask for the shared library. Another version of the calls has another."""
    return f"libsimplex_audit.so.{re.search('#define SIMPLEX_VERSION ([0-9]+)u', HEADER.read_text())[1]}"


def share():
    """The archive as a shared library."""
    names = [f"-Wl,-soname,{soname()}", f"-Wl,--version-script,{NAMES}", "-Wl,-z,defs"]
    whole = ["-Wl,--whole-archive", ARCHIVE, "-Wl,--no-whole-archive"]
    subprocess.run(["cc", "-shared", "-o", SHARED, *names, *whole], check=True)


def main():
    page = subprocess.run(["rt", "doc"], capture_output=True, text=True, check=True).stdout.strip()
    kit = pathlib.Path(page).parent
    (CRATE / "out").mkdir(exist_ok=True)
    for command in commands(kit):
        status, said = prove(command, below(NAME), PROVED, cwd=CRATE)
        if status == 0:
            break
    else:
        sys.stderr.writelines(said[-20:])
        return status
    join(kit)
    share()
    for it in (ARCHIVE, SHARED):
        print(f"{it.relative_to(ROOT)}, {it.stat().st_size} bytes")
    return 0
