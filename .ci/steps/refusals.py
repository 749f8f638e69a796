"""`refusals CRATE [LINES]`: runs a crate's tests, or a program, with each of its allocations refused in turn.

The first run has the first allocation refused, the next the second, and so on until none is. How a test runs says PROTOCOL, by
its name.

A program is run so on its stored run, or on as many first lines of it as there are allocations for in a minute. If one
is refused `audit` and `audit_stored` end with status 3 and `audit: out of memory` and write nothing; `inspect` and
`audit_split` end so after a beginning of their lines; any other program fails and has written a beginning of what is stored,
or writes all of it.
If none is, it writes what is stored. For `audit` the same is done with its key in groups, and then, for large allocations
alone, on a large stream.

`conformance` asks for 12,345 bytes right before each call that takes no memory, and for 54,321 right behind it. It is run once
on its whole stored run, with every allocation between these two refused, and has to write what is stored.
"""

import collections
import os
import pathlib
import re
import resource
import subprocess
import tempfile

from .common import ROOT, arguments, build, fail, program, say, streams

# How a test of the crates simplex_*_tests runs, and what it has to do: by its name, the first pattern that is all of it. The
# table of CONTRIBUTING.md has the names and what is asked in the same words.
PROTOCOL = [
    ("ample", r"ample", "it has to fail whichever one fails"),
    ("ample_N_allocations", r"ample_(\d+)_allocations", "the same, and they have to be N"),
    ("ample_..", r"ample.*", "skipped: run only with enough memory"),
    ("without_memory..", r"without_memory.*", "it asks for 12,345 bytes, and has to pass if that and all later ones fail"),
    ("any other, such as `refused`", r".*", "it has to pass whichever one fails"),
]
Run = collections.namedtuple("Run", "status out err refused")
# What an error and a failed assertion, which aborts, end with.
FAILURES = (101, -6)


class Refusing:
    """Runs commands with allocations refused by refuse.c. Each refusal comes as a byte on descriptor 9."""

    def __init__(self, room):
        self.room, self.library = pathlib.Path(room), f"{room}/refuse.so"
        source = pathlib.Path(__file__).with_name("refuse.c")
        subprocess.run(["cc", "-O2", "-Wall", "-Werror", "-shared", "-fPIC", "-o", self.library, source], check=True)
        os.dup2(os.open(f"{room}/refused", os.O_RDWR | os.O_CREAT), 9)
        resource.setrlimit(resource.RLIMIT_CORE, (0, 0))

    def run(self, command, stdin, **names):
        """A run of a command over a file, by these variables of refuse.c."""
        os.ftruncate(9, 0)
        os.lseek(9, 0, os.SEEK_SET)
        around = os.environ | {"LD_PRELOAD": self.library, **{name: str(it) for name, it in names.items()}}
        with open(stdin, "rb") as given:
            done = subprocess.run(command, stdin=given, capture_output=True, env=around, pass_fds=[9], cwd=self.room)
        return Run(done.returncode, done.stdout, done.stderr, os.fstat(9).st_size)

    def each(self, judge, command, stdin=os.devnull, **names):
        """Refuses each allocation of a command in turn, and judges each run: how many there are, and the run without one."""
        say(f"making allocations fail in turn: {command[0]} {command[1] if command[1:] else ''}")
        number = 1
        while (done := self.run(command, stdin, REFUSED=number, **names)).refused:
            if not judge(done):
                unfit(f"allocation {number}", command, done)
            number += 1
        return number - 1, done

    def every(self, command, stdin=os.devnull):
        """Refuses all allocations of a command from its signal on, or between two. It has to pass."""
        done = self.run(command, stdin, SIGNALS=1)
        if done.status or not done.refused:
            unfit("all allocations", command, done)
        return done


def unfit(what, command, done):
    fail(f"{what} of {' '.join(map(str, command))[:200]}: status {done.status}", done.out[:2000], done.err[:2000])


def tests(refusing, crate):
    """The tests of a crate by PROTOCOL."""
    build(crate, command="test")
    binary = ROOT / f"crates/{crate}/out/{crate}_tests"
    listed = subprocess.run([binary, "--list"], stdout=subprocess.PIPE, text=True, check=True).stdout
    count, without = 0, 0
    for test in re.findall(r"(?m)^(.*): test$", listed):
        name = test.rpartition("::")[2]
        kind, number = next((it, found) for it, pattern, _ in PROTOCOL if (found := re.fullmatch(pattern, name)))
        if kind == "ample_..":
            continue
        if kind == "without_memory..":
            refusing.every([binary, test])
            without += 1
            continue
        fails = kind.startswith("ample")
        found, done = refusing.each(lambda it: it.status in FAILURES if fails else it.status == 0, [binary, test])
        if done.status:
            unfit("no allocation", [binary, test], done)
        if number.groups() and found != int(number[1]):
            fail(f"{test} makes {found} allocations")
        count += found
    if not count:
        fail(f"{crate}: no allocation was refused")
    print(f"{crate}: {count} allocations of its tests refused in turn, and in {without} tests all from a signal on")


def judged(crate, stored):
    """What a program has to do with an allocation refused, by its name."""

    def stops_short(it):
        return stored == it.out if it.status == 0 else stored.startswith(it.out)

    def is_out_of_memory(it, name=crate):
        return it.status == 3 and it.err == f"{name}: out of memory\n".encode()

    if crate in ("audit", "audit_stored"):
        return lambda it: is_out_of_memory(it, "audit") and not it.out
    return (lambda it: is_out_of_memory(it) and stops_short(it)) if crate in ("inspect", "audit_split") else stops_short


def stored_run(refusing, crate, judge, stored, words, stdin, what):
    """Refuses each allocation of a run in turn. The last run, with none refused, writes what is stored."""
    count, done = refusing.each(judge, [program(crate), *words], stdin)
    # What audit_live says at its end is no complaint.
    complaints = re.sub(rb"(?m)^audit_live: \d+ messages read, .*\n", b"", done.err)
    if (*done[:2], complaints) != (0, stored, b"") or not count:
        unfit("no allocation", [program(crate), *words], done)
    print(f"{crate}: {count} allocations of its {what} refused in turn")


def whole_run(refusing, crate, stdin, stored):
    """Refuses all allocations of a run between its signals."""
    done = refusing.every([program(crate)], stdin)
    if done.out != stored or done.refused <= 10000:
        unfit("all allocations between signals", [program(crate)], done)
    print(f"{crate}: {done.refused} allocations refused where calls of its stored run take no memory")


def large_run(refusing, crate, judge):
    """Refuses each large allocation of a run on two certificates of 10,000 attestations."""
    stdin = refusing.room / "large"
    stdin.write_bytes(streams("fork", 10000, 1))
    command = [program(crate), *streams("keys", 10000, 1).decode().splitlines()]
    count, done = refusing.each(judge, command, stdin, LEAST=4096)
    if done.status or done.out.count(b"\n") != 10001 or done.err or not count:
        unfit("no allocation", command, done)
    print(f"{crate}: {count} allocations of its large run refused in turn")


def program_of(refusing, crate, first):
    """A program on its stored run."""
    build(crate)
    words, whole, stdin = arguments(crate), ROOT / f"crates/{crate}/stdin", refusing.room / "stdin"
    told = (ROOT / f"crates/{crate}/stdout").read_bytes()
    asked, stored = (b"".join(it.splitlines(True)[: first and int(first)]) for it in (whole.read_bytes(), told))
    stdin.write_bytes(asked)
    judge = judged(crate, stored)
    stored_run(refusing, crate, judge, stored, words, stdin, "stored run")
    if crate == "audit":
        groups = [words[0], "@0", words[1], "@1", words[1]]
        stored_run(refusing, crate, judge, stored, groups, stdin, "stored run with groups of keys")
        large_run(refusing, crate, judge)
    if crate == "conformance":
        whole_run(refusing, crate, whole, told)


def main(crate, first=None):
    source = ROOT / "crates" / crate / "src"
    with tempfile.TemporaryDirectory() as room:
        refusing = Refusing(room)
        if any("#[test]" in it.read_text() for it in source.rglob("*.rt")):
            tests(refusing, crate)
        if (source / "main.rt").exists():
            program_of(refusing, crate, first)
