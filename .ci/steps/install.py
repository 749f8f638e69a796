"""`install [remove]`: copies what is built of the programs and of the library to PREFIX, or removes it from there.

The programs go to PREFIX/bin, as simplex-audit and so on, with links by the short names that are free. The header goes to
INCLUDEDIR, the static and the shared library to LIBDIR, and what pkg-config reads to LIBDIR/pkgconfig. PREFIX and the two
folders are variables of the environment. So is DESTDIR, which stands before each path that is written to, and in no file. Each
path is said.
"""

import os
import pathlib
import re
import shutil
import sys

from .common import ROOT, program, programs
from .library import ARCHIVE, HEADER, SHARED, soname

PREFIX = os.path.abspath(os.environ.get("PREFIX") or "/usr/local")
LIBDIR = os.path.abspath(os.environ.get("LIBDIR") or f"{PREFIX}/lib")
INCLUDEDIR = os.path.abspath(os.environ.get("INCLUDEDIR") or f"{PREFIX}/include")


def at(*parts):
    """A path under DESTDIR."""
    return pathlib.Path(os.environ.get("DESTDIR", "") + "/".join(parts))


def for_pkg_config():
    """What pkg-config reads. Folders within PREFIX are given by it, so that they can be moved with it."""
    within = re.compile(f"^{re.escape(PREFIX)}(?=/)")
    version = re.search(r"(?m)^## (\d\S*)", (ROOT / "CHANGELOG.md").read_text())[1]
    given = {"prefix": PREFIX, "version": version}
    given |= {name: within.sub("${prefix}", path) for name, path in (("libdir", LIBDIR), ("includedir", INCLUDEDIR))}
    return re.sub("@([a-z]+)@", lambda it: given[it[1]], (ROOT / "bindings/simplex_audit.pc.in").read_text())


def items():
    """What is installed: of each its path, what has to be built for it, and the file that is copied, the name that a link leads
    to, or the bytes."""
    for it in programs():
        name = f"simplex-{it.replace('_', '-')}"
        yield at(PREFIX, "bin", name), program(it), program(it)
        yield at(PREFIX, "bin", it), program(it), name
    yield at(INCLUDEDIR, HEADER.name), ARCHIVE, HEADER
    yield at(LIBDIR, ARCHIVE.name), ARCHIVE, ARCHIVE
    yield at(LIBDIR, soname()), SHARED, SHARED
    yield at(LIBDIR, "libsimplex_audit.so"), SHARED, soname()
    yield at(LIBDIR, "pkgconfig/simplex_audit.pc"), ARCHIVE, for_pkg_config().encode()


def put(path, given):
    """Makes a link or a file anew: a program that runs, or has loaded the old one, goes on with that."""
    path.parent.mkdir(parents=True, exist_ok=True)
    path.unlink(missing_ok=True)
    if isinstance(given, str):
        path.symlink_to(given)
        return
    path.write_bytes(given if isinstance(given, bytes) else given.read_bytes())
    path.chmod(0o755 if isinstance(given, pathlib.Path) and os.access(given, os.X_OK) else 0o644)


def is_ours(path, given):
    """Whether a file may be removed or made anew: a link only if it leads where ours does."""
    return not isinstance(given, str) or path.is_symlink() and os.readlink(path) == given


def is_free(path, given):
    """Whether nothing else has the name of a link; that of a program is looked for on the PATH as well."""
    of_program = isinstance(given, str) and path.parent == at(PREFIX, "bin")
    return is_ours(path, given) if os.path.lexists(path) else not (of_program and shutil.which(path.name))


def main(word=""):
    done = 0
    for path, built, given in items():
        if word == "remove":
            if not (os.path.lexists(path) and is_ours(path, given)):
                continue
            path.unlink()
        elif built.exists() and is_free(path, given):
            put(path, given)
        else:
            continue
        print(f"{path} -> {given}" if isinstance(given, str) else path)
        done += 1
    if not done and word != "remove":
        print("Nothing is built yet: make audit, make audit_stored, .., make inspect, or make library", file=sys.stderr)
        return 1
    return 0
