"""Builds what stands over the static library in C, Rust and Python, and runs it.

- The header compiles as C99 and as C++, declares exactly the calls that the library has, and has compilers warn of NULL.
- The examples print the line of the sample, with the program's statuses; the equivocators among stubs of the release's
  activities; and the two of the Ed25519 demonstration, with how many signatures are verified if that is deferred.
- bindings/c/border.c holds, and it and the examples in C are run as they are, under AddressSanitizer and
  UndefinedBehaviorSanitizer, and under valgrind.
- The calls that list records and suspects hold no more than bench/places says, over streams of ten megabytes.
- The tests and the examples of the Rust crate and of the Python module pass, and those of the page for people.
- Audits in parts have the report of the whole, in threads, in processes that are killed, and on a cluster of Dask.
- Test vectors of crates/conformance have the same answer through the calls of the library (step `vectors_in_c`).

With LIBRARY set it takes the library that is built, and else has step `library` build it. A C compiler is needed. What needs
OpenSSL's header, sanitizers, valgrind, a C++ compiler, cargo or Dask is left out if they are not found, and said to be.
"""

import ctypes.util
import os
import pathlib
import re
import shutil
import subprocess
import sys
import tempfile

from . import library, live_nodes
from .common import ROOT, SAMPLE, arguments, expect, fail, passed, run, say

WORDS = arguments("audit")
LINE = (ROOT / "crates/audit/stdout").read_text().rstrip("\n")
USAGE = "usage: audit NAMESPACE KEY..."
OUT = ROOT / "bindings/out"
STRICT = ["-Wall", "-Wextra", "-pedantic", "-Werror"]
LINKED = [f"-L{OUT}", "-lsimplex_audit"]
SANITIZERS = ["-g", "-fsanitize=address,undefined", "-fno-sanitize-recover=all"]
VALGRIND = ["valgrind", "--quiet", "--error-exitcode=9", "--leak-check=full"]
WRAPPED = ["-Wl,--wrap=malloc,--wrap=realloc,--wrap=free", "-pthread"]
A, B, SIX, SEVEN = (it * 32 for it in ("aa", "bb", "06", "07"))
# Participant 0 notarized two payloads, participant 2 nullified and finalized.
DEMONSTRATION = f"""9 messages, 2 equivocators
3 10 0 conflicting-notarize 5 {A} 5 {B}
3 10 2 nullify-finalize 5 {A}
votes of participant 0 at bytes 0 and 408
votes of participant 2 at bytes 612 and 681
deferred: 0 of 4 signatures of an honest round verified
deferred: 7 of 13 signatures of both rounds verified"""
RELEASE = f"""14 messages
3 10 0 nullify-finalize 5 {SIX}
3 10 1 conflicting-notarize 5 {SIX} 5 {SEVEN}
3 10 2 conflicting-notarize 5 {SIX} 5 {SEVEN}
3 10 2 conflicting-finalize 5 {SIX} 5 {SEVEN}
3 10 split 3 2"""
# What bindings/python/dask_files.py prints, and under which Python: Dask may be a package of the system's alone.
ON_DASK = b"""2999 messages of 3 files, 1 with a fault
200 lines of evidence
on four workers the same
with 2 workers killed the same
"""
PYTHONS = [sys.executable, "/usr/bin/python3"]
# what is left out
left = []


def succeeds(*command, **how):
    """Runs a command, and fails unless it succeeds; returns what it writes."""
    done = subprocess.run(command, stdout=subprocess.PIPE, stderr=subprocess.STDOUT, text=True, cwd=how.pop("cwd", ROOT), **how)
    if done.returncode:
        fail(" ".join(map(str, command)), *done.stdout.splitlines()[-30:])
    passed.append(command)
    return done.stdout


def compiles(source, *flags):
    """Whether a text compiles as C, and what the compiler says."""
    status, _, said = run(["cc", "-x", "c", "-", *flags], source.encode())
    return status == 0, said.decode()


def found(what, is_there):
    """Whether something is there; else what needs it is left out."""
    left.extend([] if is_there else [what])
    return is_there


def names(*flags, of=OUT / "libsimplex_audit.a"):
    """What `nm` lists of a library, as words a line."""
    status, listed, said = run(["nm", *flags, of])
    return [line.split() for line in listed.decode().splitlines() if line] if status == 0 else fail(said.decode())


def declared():
    """The calls that the header declares."""
    return re.findall(r"(simplex_[a-z0-9_]*)\(", library.HEADER.read_text())


def header():
    """The header, and the names of the library."""
    succeeds("cc", *STRICT, "-fsyntax-only", "-std=c99", "-x", "c", library.HEADER)
    if found("C++", shutil.which("c++")):
        succeeds("c++", *STRICT, "-fsyntax-only", "-x", "c++", library.HEADER)
    null = '#include "bindings/simplex_audit.h"\nuint32_t f(void) { return simplex_leader(4, 1, 3, 10, NULL); }\n'
    done, said = compiles(null, f"-I{ROOT}", "-Wall", "-Werror", "-fsyntax-only")
    if done or "nonnull" not in said:
        fail("no compiler warning of NULL", said)
    defined = {it[2]: it[1] for it in names("-g", "--defined-only") if len(it) == 3}
    calls = {it for it, kind in defined.items() if kind == "T" and it.startswith("simplex_")}
    if sorted(calls) != sorted(declared()):
        fail("the calls of the library are not those of the header:", *sorted(calls ^ {*declared()}))
    if others := [it for it in defined if not it.startswith(("simplex_", "rattle_"))]:
        fail("names of the library that are neither simplex_ nor rattle_:", *others)
    memory = {"malloc", "realloc", "free", "memcpy", "memmove", "memset", "memcmp", "_GLOBAL_OFFSET_TABLE_"}
    if more := {it[1] for it in names("-u") if it[0] == "U"} - set(defined) - memory:
        fail("the library needs more than memory:", *more)
    passed.extend(["NULL", "calls", "names", "memory"])


def of_sample(*command):
    """The sample, as the program audits it."""
    two = SAMPLE.read_bytes()
    expect([*command, *WORDS], 0, LINE, stdin=two)
    expect([*command, *WORDS], 1, LINE, "audit: fault at byte 138", stdin=two + b"\xff")
    expect([*command, *WORDS], 1, "", "audit: fault at byte 69", stdin=two[:137])
    expect([*command, *WORDS], stdin=b"")
    expect([*command, "other", *WORDS[1:]], stdin=two)


def refuses(*command):
    """Arguments that are no namespace and keys of a committee."""
    expect([*command, WORDS[0], WORDS[1], WORDS[1]], 2, err=USAGE, stdin=SAMPLE)
    expect([*command, WORDS[0]], 2, err=USAGE, stdin=b"")


def in_c(work, source, tried, *flags):
    """Compiles a program in C with all warnings as errors, and tries it as it is, under the sanitizers and under valgrind."""
    cc = ["cc", "-std=gnu11", "-O2", *STRICT, ROOT / f"bindings/c/{source}.c", *LINKED, *flags]
    plain, sanitized = work / source, work / f"{source}-sanitized"
    succeeds(*cc, "-o", plain)
    tried("as it is", plain)
    if "sanitizers" not in left:
        succeeds(*cc, *SANITIZERS, "-o", sanitized)
        tried("under the sanitizers", sanitized)
    if "valgrind" not in left:
        tried("under valgrind", *VALGRIND, plain)


def example(_, *command):
    of_sample(*command)
    refuses(*command)


def border(to, *command):
    """What the contracts say of buffers and refusals. The limit on memory is for the program as it is: what watches it needs
    more."""
    with open(SAMPLE, "rb") as stdin:
        print(f"{to}: {succeeds(*command, *(['--limit'] if to == 'as it is' else []), stdin=stdin)}", end="")


def auditor(to, *command):
    """Random streams that an auditor of the library is fed, with failing allocations and restarts."""
    print(f"{to}: {succeeds(*command, '60' if to == 'under valgrind' else '3000')}", end="")


def demonstration(_, *command):
    expect(command, out=DEMONSTRATION)


def programs_in_c(work):
    """The programs in C. Returns the stream of the demonstration, if OpenSSL's header is there."""
    found("sanitizers", compiles("int main(void) { return 0; }", *SANITIZERS, "-o", work / "probe")[0])
    found("valgrind", shutil.which("valgrind"))
    in_c(work, "audit", example)
    in_c(work, "border", border, *WRAPPED)
    in_c(work, "auditor", auditor, *WRAPPED)
    in_c(work, "live", lambda _, *command: live_nodes.listens(work, *command))
    say("memory")
    succeeds(ROOT / "bench/places")
    if not found("ed25519", compiles("#include <openssl/evp.h>\n", "-fsyntax-only")[0]):
        return None
    in_c(work, "ed25519", demonstration, "-lcrypto")
    return run([work / "ed25519", "stream"])[1]


def shows(signed, *command):
    """The demonstration, and that the same votes and signatures come to the same stream as in C."""
    expect(command, out=DEMONSTRATION)
    if signed is not None:
        expect([*command, "stream"], out=signed)


def copied(package, work):
    """A copy of a package of bindings/ outside the repository, without what tools leave in it."""
    left = shutil.ignore_patterns("target", "Cargo.lock", "build", "*.egg-info", "__pycache__")
    return shutil.copytree(ROOT / "bindings" / package, work / package, ignore=left)


def rust(work, signed):
    """The Rust crate, built outside the repository."""
    crate, target = copied("rust", work), work / "target"
    env = os.environ | {"CARGO_TARGET_DIR": str(target), "SIMPLEX_AUDIT_LIB": str(OUT), "RUSTFLAGS": "-D warnings"}
    build = ["cargo", "build", "--offline", "--quiet"]
    examples = ["audit", "live", "release"] + ["ed25519"] * (signed is not None)
    for words in ([], *(["--example", it] for it in examples)):
        succeeds(*build, *words, cwd=crate, env=env)
    for words in (["--lib", "--tests"], ["--doc"]):
        succeeds("cargo", "test", "--offline", "--quiet", *words, cwd=crate, env=env)
    built = target / "debug/examples"
    example("", built / "audit")
    expect([built / "audit"], 2, err=USAGE)
    expect([built / "audit", *WORDS], 3, err="audit: read failed", stdin=work)
    expect([built / "release"], out=RELEASE)
    live_nodes.listens(work, built / "live")
    if signed is not None:
        shows(signed, built / "ed25519")


def python(work, signed):
    """The Python modules, and the page for people."""
    python3, folder = [sys.executable], ROOT / "bindings/python"
    for it in ("tests.py", "shard_tests.py", "monitor_tests.py", "report_tests.py"):
        succeeds(*python3, folder / it)
    of_sample(*python3, folder / "audit.py")
    live_nodes.listens(work, *python3, folder / "live.py")
    expect([*python3, folder / "audit.py", WORDS[0]], 2, err=USAGE)
    judges(work, *python3, folder / "evidence.py")
    if found("ed25519.py", ctypes.util.find_library("crypto")):
        shows(signed, *python3, folder / "ed25519.py")
    dask(folder / "dask_files.py")


def judges(work, *command):
    """One piece of evidence by itself: the sample's two notarizes behind one tag, as bytes and as digits; with a signature that
    is not valid, and with a byte more."""
    two, file = SAMPLE.read_bytes(), work / "evidence"
    evidence = b"\x07" + two[1:69] + two[70:]
    for given in (evidence, evidence.hex().encode() + b"\n"):
        file.write_bytes(given)
        expect([*command, file, *WORDS], out=LINE)
    file.write_bytes(evidence[:-1] + bytes([evidence[-1] ^ 1]))
    accused = " ".join(LINE.split(" ")[:4])
    expect([*command, file, *WORDS], 1, err=f"evidence: not proved: {accused}")
    for given in (evidence + b"\x00", two, b""):
        expect([*command, "-", *WORDS], 2, err="evidence: this is not exactly one evidence message", stdin=given)
    expect([*command, file], 2, err="usage: evidence.py FILE NAMESPACE KEY...")


def dask(script):
    """Files on a cluster of Dask. What its workers say as they are killed is not compared."""
    pythons = [it for it in PYTHONS if shutil.which(it) and run([it, "-c", "import distributed"])[0] == 0]
    if found("Dask", pythons):
        status, out, said = run([pythons[0], script])
        if (status, out) != (0, ON_DASK):
            fail(f"{script} ended with status {status}", out.decode(), *said.decode().splitlines()[-30:])
        passed.append(script)


def main():
    if not os.environ.get("LIBRARY") and library.main():
        return 1
    with tempfile.TemporaryDirectory() as room:
        work = pathlib.Path(room)
        say("the header and the programs in C")
        header()
        signed = programs_in_c(work)
        say("the Rust crate")
        # a `cargo` that leads to no toolchain is none
        if found("Rust", shutil.which("cargo") and run(["cargo", "--version"])[0] == 0):
            rust(work, signed)
        say("the Python module")
        python(work, signed)
    from . import vectors_in_c

    if vectors_in_c.main():
        return 1
    if left:
        print(f"left out: {' '.join(left)}")
    print(f"{len(passed) + 1} checks of bindings/ pass")
    return 0
