"""What steps share: where things stand, and how a program is built, run and judged."""

import contextlib
import importlib
import os
import pathlib
import re
import resource
import shlex
import subprocess
import sys
import tempfile

ROOT = pathlib.Path(__file__).resolve().parents[2]
SAMPLE = ROOT / "crates/audit/stdin"
# stands for a standard stream that is closed
CLOSED = object()
# what passed, for a step that counts
passed = []


def say(text):
    """Says where a step is, on a terminal alone."""
    if sys.stderr.isatty():
        print(text, file=sys.stderr)


def fail(*said):
    """Ends a step."""
    print(*said, sep="\n")
    sys.exit(1)


def pages():
    """The documents, in the order of their names, and those of packages."""
    return [page for path in ("*.md", "docs/*.md", "bench/*.md", "bindings/*/*.md") for page in sorted(ROOT.glob(path))]


def crates():
    """The crates of crates.txt, the lower first, each with those that it names."""
    lines = re.findall(r"(?m)^(\w+)[\w ]*:(.*)$", (ROOT / "crates.txt").read_text())
    return {name: rest.split() for name, rest in lines}


def below(name):
    """A crate of the repository and those that it rests on."""
    of = crates()
    return {name}.union(*(below(it) for it in of[name] if it in of))


def written(page, made, check, step):
    """Writes a page that is made from the sources, or says whether it is as they have it, and returns whether it is not."""
    stands = page.exists() and page.read_text() == made
    if check:
        name = page.relative_to(ROOT)
        print(f"{name} is {'' if stands else 'not '}as the sources have it, which `python3 .ci {step}` writes")
        return not stands
    page.write_text(made)
    return False


def program(name):
    return ROOT / f"crates/{name}/out/{name}"


def programs():
    """The programs for users, in the order of crates.txt."""
    return [it for it in crates() if (ROOT / f"crates/{it}/src/main.rt").exists() and it != "conformance"]


def arguments(name):
    """What `rt ci` runs a program with."""
    words = ROOT / f"crates/{name}/args"
    return words.read_text().splitlines() if words.exists() else []


def vectors():
    """The test vectors of crates/conformance, each with its answer."""
    asked, told = ((ROOT / "crates/conformance" / it).read_text().splitlines() for it in ("stdin", "stdout"))
    return zip(asked, told, strict=True)


def module(path):
    """A module from a file outside this package."""
    if str(path.parent) not in sys.path:
        sys.path.append(str(path.parent))
    return importlib.import_module(path.stem)


def build(*names, command="run"):
    """Proves and builds programs, or tests of crates, unless BUILT says that the gate has."""
    for name in () if os.environ.get("BUILT") else names:
        say(f"proving and building {name}")
        words = ["--", *arguments(name)] if command == "run" else []
        how = {"cwd": ROOT / "crates" / name, "stdin": subprocess.DEVNULL, "stderr": subprocess.STDOUT}
        ran = subprocess.run(["rt", command, *words], stdout=subprocess.PIPE, text=True, **how)
        if ran.returncode:
            fail(ran.stdout)


def tried(name):
    """Runs a program as it stands, unproved, as `rt ci` runs it; says why where it can't."""
    with open(ROOT / f"crates/{name}/stdin", "rb") as stdin:
        words = ["rt", "try", "--seconds", "600", "--", *arguments(name)]
        done = subprocess.run(words, cwd=ROOT / "crates" / name, stdin=stdin, capture_output=True)
    if done.returncode:
        print(*done.stderr.decode().splitlines()[-20:], sep="\n", file=sys.stderr)
        sys.exit(1)
    return done.stdout


def streams(*words):
    """What bench/streams.py writes."""
    return subprocess.run([ROOT / "bench/streams.py", *map(str, words)], capture_output=True, check=True).stdout


def damaged(stream):
    """A stream as it is, twice over, cut off, and with a fault within."""
    return stream, stream + stream, stream[:-3], stream[: len(stream) // 2] + b"\xff" + stream


def behind_a_fault(command, stream):
    """Runs a command, which may have a tenth of that memory, over a stream with a fault and a gibibyte behind it."""
    with tempfile.TemporaryFile() as large:
        large.write(stream + b"\xff")
        large.truncate(2**30)
        large.seek(0)
        return run(command, large, memory=100 * 2**20)


def run(command, stdin=b"", stdout=subprocess.PIPE, stderr=subprocess.PIPE, memory=None):
    """The status of a command, and what it writes to standard output and to standard error. Standard input is bytes, of which a
    file is made; or, as the other two can be, the path of a file, a file, a descriptor or CLOSED. The command may have so many
    bytes of memory."""
    given, closed = [stdin, stdout, stderr], []
    with contextlib.ExitStack() as opened:
        for at, it in enumerate(given):
            if isinstance(it, bytes):
                given[at] = opened.enter_context(tempfile.TemporaryFile())
                given[at].write(it)
                given[at].seek(0)
            elif isinstance(it, (str, os.PathLike)):
                given[at] = os.open(it, os.O_WRONLY if at else os.O_RDONLY)
                opened.callback(os.close, given[at])
            elif it is CLOSED:
                given[at] = None
                closed.append(at)

        def begin():
            for at in closed:
                os.close(at)
            if memory:
                resource.setrlimit(resource.RLIMIT_AS, (memory, memory))

        how = {"preexec_fn": begin} if closed or memory else {}
        done = subprocess.run(command, stdin=given[0], stdout=given[1], stderr=given[2], **how)
    return done.returncode, done.stdout or b"", done.stderr or b""


def expect(command, status=0, out="", err="", **how):
    """Runs a command, and fails unless it ends with this status and writes this to standard output and standard error: bytes,
    or lines without the end of the last one."""
    wanted = status, *(it if isinstance(it, bytes) else f"{it}\n".encode() if it else b"" for it in (out, err))
    got = run(command, **how)
    if got != wanted:
        both = zip(("status", "standard output", "standard error"), got, wanted)
        fail(shlex.join(map(str, command)), *(f"  {what}: {it}, to be {other}" for what, it, other in both if it != other))
    passed.append(command)
