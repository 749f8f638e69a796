"""Installs the library and makes the packages of bindings/ as their users do, in temporary folders, and runs what they have.

- `make install` copies the header, both libraries and what pkg-config reads, and `make uninstall` removes them. The shared
  library shows the calls of the header alone, and needs the C library alone.
- bindings/c/audit.c compiles by pkg-config over the shared and over the static library, and runs.
- The Rust crate is checked and documented without the library, and its programs then say what they miss. It links what
  pkg-config finds. Clippy finds nothing, and `cargo package` warns of nothing.
- pip makes wheels of the Python package without a network: with the library, and of its archive of sources without. What is
  installed finds the library in each of its places. mypy finds nothing in the package, and an error in a wrong call.
- The tests of the Go package pass, and its program audits the sample.
- The examples of the packages' READMEs print what these show; that of the Rust crate is run by step `bindings`.

With LIBRARY set it takes the library that is built, and else has step `library` build it. What needs pkg-config, a static C
library, cargo, clippy, pip, mypy or go is left out if they are not found, and said to be.
"""

import os
import pathlib
import re
import shutil
import subprocess
import sys
import tempfile
import zipfile

from . import library
from .bindings import OUT, STRICT, compiles, copied, declared, example, found, left, names, succeeds
from .commands import blocks
from .common import ROOT, expect, fail, passed, run, say

LIBRARY_FILES = {
    "include/simplex_audit.h",
    "lib/libsimplex_audit.a",
    "lib/libsimplex_audit.so",
    f"lib/{library.soname()}",
    "lib/pkgconfig/simplex_audit.pc",
}
# The environment, without what leads elsewhere, and without what the make that runs the gate says to a make of this step.
ELSEWHERE = {"SIMPLEX_AUDIT_LIB", "LD_LIBRARY_PATH", "PYTHONPATH", "PREFIX", "LIBDIR", "INCLUDEDIR", "DESTDIR"}
AROUND = {
    name: value for name, value in os.environ.items() if name not in ELSEWHERE and not name.startswith(("MAKE", "MFLAGS"))
}


def around(**variables):
    return AROUND | {name: str(value) for name, value in variables.items()}


def holds(what, is_so, *said):
    """Counts what holds, and fails if it does not."""
    if not is_so:
        fail(f"does not hold: {what}", *said)
    passed.append(what)


def files(folder):
    """What stands in a folder, without folders."""
    return {str(it.relative_to(folder)) for it in folder.rglob("*") if not it.is_dir()}


def make(target, **places):
    succeeds("make", target, *(f"{name}={value}" for name, value in places.items()), env=AROUND)


def installed(work):
    """The folder to which all is installed. It is also installed to, and removed from, what DESTDIR and each folder say."""
    usr, stage = work / "usr", work / "stage"
    make("install", PREFIX=usr)
    at = {"PREFIX": "/opt/simplex", "DESTDIR": stage}
    make("install", **at)
    holds("under DESTDIR stand the same files", LIBRARY_FILES <= files(usr) == files(stage / "opt/simplex"), *files(stage))
    said = (stage / "opt/simplex/lib/pkgconfig/simplex_audit.pc").read_text()
    holds("DESTDIR is in no file", "prefix=/opt/simplex\n" in said and str(stage) not in said, said)
    make("install", **at)
    make("uninstall", **at)
    holds("nothing is left", not files(stage), *files(stage))
    at = {"PREFIX": stage, "LIBDIR": stage / "lib64", "INCLUDEDIR": stage / "headers"}
    make("install", **at)
    moved = {re.sub("^lib/", "lib64/", it.replace("include/", "headers/")) for it in files(usr)}
    holds("LIBDIR and INCLUDEDIR are honoured", files(stage) == moved, *files(stage))
    make("uninstall", **at)
    holds("nothing is left there", not files(stage), *files(stage))
    return usr


def needed(path, kind="NEEDED"):
    """The shared libraries that a file needs; or, as SONAME, its own name."""
    listed = subprocess.run(["readelf", "-d", path], capture_output=True, text=True, check=True).stdout
    return re.findall(rf"\({kind}\).*\[(.*)\]", listed)


def shown(usr):
    """What the shared library shows and needs."""
    shared = usr / "lib" / library.soname()
    listed = sorted(it[-1] for it in names("-D", "--defined-only", of=shared))
    holds("the shared library shows the calls of the header alone", listed == sorted(declared()), *listed)
    holds("it has the soname", needed(shared, "SONAME") == [shared.name])
    holds("it needs the C library alone", set(needed(shared)) <= {"libc.so.6"}, *needed(shared))


def pkg_config(usr, *words):
    asked = ["pkg-config", *words, "--cflags", "--libs", "simplex_audit"]
    return succeeds(*asked, env=around(PKG_CONFIG_PATH=usr / "lib/pkgconfig")).split()


def readme(package, language):
    """The first example in a language of a package's README, and the output below it."""
    page = f"bindings/{package}/README.md"
    return blocks(page, language)[0], blocks(page, "")[0]


def in_c(work, usr):
    """The programs in C, each over the shared and over the static library."""
    source, shown_source = work / "audit.c", work / "readme.c"
    source.write_text((ROOT / "bindings/c/audit.c").read_text().replace('"../simplex_audit.h"', "<simplex_audit.h>"))
    text, output = readme("c", "c")
    shown_source.write_text(text)
    ways = {"shared": [], "static": ["-static"]}
    if not found("static", compiles("int main(void) { return 0; }", "-static", "-o", work / "probe")[0]):
        del ways["static"]
    for way, flags in ways.items():
        linked = pkg_config(usr, *(["--static"] if flags else []))
        programs = [work / f"{it.stem}-{way}" for it in (source, shown_source)]
        for it, program in zip((source, shown_source), programs):
            succeeds("cc", *STRICT, "-O2", *flags, it, *linked, "-o", program)
            wanted = [] if flags else [library.soname()]
            holds(f"{program.name} needs {wanted}", [it for it in needed(program) if "simplex" in it] == wanted)
        environment = ["env", f"LD_LIBRARY_PATH={usr}/lib"] if not flags else []
        example(way, *environment, programs[0])
        expect([*environment, programs[1]], out=output.rstrip("\n"))


def rust(work, usr):
    """The Rust crate as a package."""
    crate, target = copied("rust", work), work / "target"
    flags = {"CARGO_TARGET_DIR": target, "RUSTFLAGS": "-D warnings", "RUSTDOCFLAGS": "-D warnings"}
    nowhere = around(**flags, SIMPLEX_AUDIT_LIB=work / "nowhere")
    for words in (["check", "--all-targets"], ["doc", "--no-deps"], ["build"]):
        succeeds("cargo", *words, "--offline", "--quiet", cwd=crate, env=nowhere)
    link = ["cargo", "build", "--offline", "--example", "audit"]
    without = subprocess.run(link, cwd=crate, env=nowhere, capture_output=True, text=True)
    said = without.returncode != 0 and "without libsimplex_audit.a no program links" in without.stderr
    holds("a program that misses the library says so", said, without.stderr)
    succeeds(*link, cwd=crate, env=around(**flags, PKG_CONFIG_PATH=usr / "lib/pkgconfig"))
    example("", target / "debug/examples/audit")
    given = around(**flags, SIMPLEX_AUDIT_LIB=OUT)
    if found("clippy", run(["cargo", "clippy", "--version"])[0] == 0):
        words = ["--offline", "--quiet", "--all-targets", "--", "-D", "warnings"]
        succeeds("cargo", "clippy", *words, cwd=crate, env=given)
    said = succeeds("cargo", "package", "--offline", "--allow-dirty", cwd=crate, env=given)
    holds("`cargo package` warns of nothing", "warning" not in said, said)
    listed = succeeds("cargo", "package", "--offline", "--allow-dirty", "--list", cwd=crate, env=given).split()
    holds("the package has its texts", {"LICENSE", "README.md", "build.rs", "src/lib.rs"} <= set(listed), *listed)


# what the backend of the Python package needs
BUILDS = """import pip
try: import tomllib
except ModuleNotFoundError: import tomli"""


def wheel(source, to, **variables):
    """A wheel as pip makes it of a folder or an archive, installed in a folder that is returned, and the wheel's name."""
    pip, alone = [sys.executable, "-m", "pip", "--disable-pip-version-check"], ["--no-deps", "--no-index"]
    succeeds(*pip, "wheel", source, *alone, "--no-build-isolation", "-w", to, env=around(**variables))
    (made,) = to.glob("*.whl")
    succeeds(*pip, "install", *alone, "--target", to / "site", made, env=AROUND)
    return to / "site", made


LOADED = """import sys, simplex_audit, simplex_monitor, simplex_shards
if sys.argv[1:]: simplex_audit.load(sys.argv[1])
simplex_audit.version()
print(simplex_audit._library._loaded._name)"""


def loads(site, wanted, *words, **variables):
    """The modules of a folder load this library."""
    said = succeeds(sys.executable, "-c", LOADED, *words, cwd=site, env=around(**variables))
    holds(f"{wanted} is loaded", said == f"{wanted}\n", said)


def python(work, usr):
    """The Python package."""
    package, soname = copied("python", work), library.soname()
    succeeds(sys.executable, "-c", "import backend; backend.build_sdist('..')", cwd=package, env=AROUND)
    (archive,) = work.glob("*.tar.gz")
    pure, made = wheel(archive, work / "pure")
    holds("a wheel without the library is for all platforms", made.name.endswith("-py3-none-any.whl"), made)
    site, made = wheel(package, work / "full", SIMPLEX_AUDIT_LIB=OUT)
    holds("a wheel with it is for one", "-py3-none-linux_" in made.name and f"simplex_audit/{soname}" in files(site), made)
    typed = {f"{it}/py.typed" for it in ("simplex_audit", "simplex_monitor", "simplex_shards")}
    holds("wheels have type hints", typed <= set(zipfile.ZipFile(made).namelist()))
    built, shared = OUT / "simplex_audit.so", usr / "lib" / soname
    loads(pure, shared, shared)
    loads(pure, built, SIMPLEX_AUDIT_LIB=OUT)
    loads(pure, shared, SIMPLEX_AUDIT_LIB=usr / "lib")
    loads(pure, shared, SIMPLEX_AUDIT_LIB=shared)
    loads(site, site / "simplex_audit" / soname)
    loads(pure, soname, LD_LIBRARY_PATH=usr / "lib")
    nowhere = {"SIMPLEX_AUDIT_LIB": work / "nowhere"}
    load = [sys.executable, "-c", LOADED]
    without = subprocess.run(load, cwd=pure, env=around(**nowhere), capture_output=True, text=True)
    holds("a call that misses the library says so", without.returncode and "OSError" in without.stderr, without.stderr)
    succeeds(sys.executable, "-m", "doctest", package / "README.md", cwd=site, env=AROUND)
    hints(work, package)


WRONG = """import simplex_audit as it
it.audit(it.Committees.every(64, 4), "a text")
it.leader(4, 1, 3, 10) + "a text"
"""


def hints(work, package):
    """The type hints, as mypy reads them."""
    mypy, wrong = ["mypy"] if shutil.which("mypy") else [sys.executable, "-m", "mypy"], work / "wrong.py"
    if found("mypy", run([*mypy, "--version"])[0] == 0):
        mypy.append(f"--cache-dir={work}/mypy")
        succeeds(*mypy, cwd=package, env=AROUND)
        wrong.write_text(WRONG)
        said = subprocess.run([*mypy, wrong], cwd=package, env=AROUND, capture_output=True, text=True).stdout
        holds("mypy finds what is wrong", "Found 2 errors" in said, said)


def go(work, usr):
    """The Go package, and a module that calls it."""
    package, caller = copied("go", work), work / "caller"
    env = around(PKG_CONFIG_PATH=usr / "lib/pkgconfig", LD_LIBRARY_PATH=usr / "lib")
    env |= {"GOCACHE": f"{work}/gocache", "GOPATH": f"{work}/gopath", "GOENV": "off", "GOFLAGS": "-mod=mod", "GOPROXY": "off"}
    for words in (["vet", "./..."], ["test", "./..."], ["build", "-o", work / "audit-go", "./audit"]):
        succeeds("go", *words, cwd=package, env=env)
    example("", "env", f"LD_LIBRARY_PATH={usr}/lib", work / "audit-go")
    text, output = readme("go", "go")
    caller.mkdir()
    (caller / "main.go").write_text(text)
    (caller / "go.mod").write_text("module caller\n\ngo 1.18\n\nrequire simplexaudit v0.0.0\nreplace simplexaudit => ../go\n")
    said = succeeds("go", "run", ".", cwd=caller, env=env)
    holds("the example in Go prints what is shown", said == output, said)


def main():
    if not os.environ.get("LIBRARY") and library.main():
        return 1
    with tempfile.TemporaryDirectory() as room:
        work = pathlib.Path(room)
        say("what is installed")
        usr = installed(work)
        shown(usr)
        pkg = found("pkg-config", shutil.which("pkg-config"))
        if pkg:
            in_c(work, usr)
        say("the Rust crate")
        if found("Rust", shutil.which("cargo") and run(["cargo", "--version"])[0] == 0):
            rust(work, usr)
        say("the Python package")
        if found("pip", run([sys.executable, "-c", BUILDS])[0] == 0):
            python(work, usr)
        say("the Go package")
        if pkg and found("go", shutil.which("go") and run(["go", "version"])[0] == 0):
            go(work, usr)
    if left:
        print(f"left out: {' '.join(left)}")
    print(f"{len(passed)} checks of what is installed and packaged pass")
    return 0
