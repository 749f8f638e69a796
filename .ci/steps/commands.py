"""Runs the commands of the documents as they stand there, and compares what they write with what the pages show.

A command stands in a block fenced as `console` behind `$ `, and what a line cannot hold behind `> `. Below it stands what it
writes to standard output, exactly, but that `...` stands for any text within a line, and alone on a line for any lines. What it
writes to standard error is not compared. It has to succeed.

The blocks of a page run in one shell, in a folder of its own that has links to what the repository has at its top. The programs
that the gate has built are on the PATH.

A block fenced as `sh` has commands that this step does not run, and ELSEWHERE says who does. A block that needs what is not
found here, by NEEDS, is left out, and said to be.

Within the text each `make ..` is a target that is there, and `make install` copies what is built. Bytes that docs/USING.md
explains one by one are a message, and the signature in them is the hash that it names.
"""

import concurrent.futures
import ctypes.util
import functools
import hashlib
import os
import pathlib
import re
import shlex
import shutil
import subprocess
import tempfile

from .common import ROOT, SAMPLE, arguments, crates, program, programs, run, say
from .common import pages as every_page
from .documents import FENCED

# Commands that are run by others, by how a line begins, and by whom.
ELSEWHERE = {
    "make test": "the gate itself",
    "make library": "step library",
    "sudo make install": "step packages, to a folder of its own",
    "sudo ldconfig": "a reader who installs for all users",
    "cc example.c": "step packages",
    "cc -static example.c": "step packages",
    "pip install ./bindings/python": "step packages, of the wheel that pip makes",
    "rt run < stdin": "`rt ci`, as both compilers build the program",
    # step documents runs `rt version`, and `make run` is run here for README.md
    "export PATH=": "a reader with a kit of one's own",
    "rt version": "step documents",
    "make run": "this step, in README.md",
    "python3 .ci mutants": "the gate",
    "bench/run": "a reader with `rustc` and some minutes",
    "bench/floods": "a reader with GNU time and some minutes",
    "bench/costs": "a reader with valgrind and some minutes",
    "bench/pieces": "a reader with valgrind and some minutes",
    "bench/shards": "a reader with `rustc`, the static library, two gigabytes of disk and some minutes",
    "bench/fuzz": "a reader with `rustc`, the static library and a minute",
    "bench/wrong": "a reader with `rustc`, the static library and half an hour",
    "bench/places": "step bindings",
    "bench/compactions": "a reader with `conformance` as `make test` builds it, and a minute",
    "bench/logs": "a reader with some minutes",
    "bench/listening": "a reader with GNU time, valgrind and an hour",
    "bench/alerts": "a reader with `audit_live` and `audit` as they are built, GNU time and some minutes",
    "bench/compacting": "a reader with GNU time and some minutes",
    "socat ": "a reader with socat",
    "tail -n +1 -F hex": "a reader with socat",
}
PUNCH = "it=$(mktemp) && echo > $it && fallocate --punch-hole --length 1 $it && rm $it"
# What blocks with these words need, and whether it is there.
NEEDS = {
    "cargo ": lambda: run(["bash", "-c", "cargo --version"])[0] == 0,
    "-lcrypto": lambda: pathlib.Path("/usr/include/openssl/evp.h").exists(),
    "python3 ed25519.py": lambda: ctypes.util.find_library("crypto"),
    "fallocate ": lambda: run(["bash", "-c", PUNCH])[0] == 0,
    "--example ed25519": lambda: pathlib.Path("/usr/include/openssl/evp.h").exists(),
}
COMMAND = re.compile(r"(?m)^\$ (.*\n(?:> .*\n)*)((?:(?!\$ ).*\n)*)")
MARK = "\n-- ended with status "


def blocks(page, language):
    """The blocks of a page in a language, without their indentation."""
    found = FENCED.findall((ROOT / page).read_text())
    return [re.sub(f"(?m)^{indent}", "", body) for indent, of, body in found if of == language]


def left_out(block):
    """What a block needs that is not here, if anything."""
    return [word for word, is_there in NEEDS.items() if word in block and not is_there()]


def surroundings(room):
    """The environment of a shell. The make that runs the gate says nothing to a make of the documents."""
    built = [str(program(it).parent) for it in crates() if os.access(program(it), os.X_OK)]
    around = {name: value for name, value in os.environ.items() if not name.startswith(("MAKE", "MFLAGS"))}
    return around | {"PATH": ":".join([*built, os.environ["PATH"]]), "CARGO_TARGET_DIR": f"{room}/target"}


def shell(script):
    """What a script writes in a folder with links to what the repository has at its top, and what it says."""
    with tempfile.TemporaryDirectory() as room:
        for name in ("bench", "bindings", "crates", ".ci", "Makefile"):
            os.symlink(ROOT / name, pathlib.Path(room) / name)
        how = {"cwd": room, "env": surroundings(room), "capture_output": True, "stdin": subprocess.DEVNULL}
        done = subprocess.run(["bash", "-uc", script], **how)
        return done.stdout.decode(errors="replace"), done.stderr.decode(errors="replace")


def fits(wanted, got):
    """Whether an output is the one that is shown."""
    pattern = re.escape(wanted)
    pattern = re.sub(r"(?m)^\\\.\\\.\\\.\\?\n", r"(?:.*\\n)*", pattern).replace(r"\.\.\.", ".*")
    return re.fullmatch(pattern, got) is not None


def tried(page):
    """Runs the commands of a page: how many, and how many do otherwise than it shows."""
    found = blocks(page, "console")
    out = [block for block in found if left_out(block)]
    for block in out:
        print(f"{page}: left out, without what it needs: {block.splitlines()[0]}")
    shown = [it for block in found if block not in out for it in COMMAND.findall(block)]
    say(f"{page}: {len(shown)} commands")
    written, said = shell("".join(re.sub(r"(?m)^> ", "", it) + f"printf '{MARK}%s\\n' $?\n" for it, _ in shown))
    ended = written.split(MARK)
    bad = 0
    for at, (command, wanted) in enumerate(shown):
        status = ended[at + 1].split("\n")[0] if ended[at + 1 :] else "none"
        got = (ended[at] if at == 0 else ended[at].partition("\n")[2]) if ended[at:] else ""
        if status != "0" or not fits(wanted, got):
            print(f"{page}: {command}  ended with status {status}, and wrote", got, "and not", wanted, said[-500:], sep="\n")
            bad += 1
    return len(shown), bad


def never_run(page):
    """The commands of a page that nobody runs."""
    listed = [line for block in blocks(page, "sh") for line in block.splitlines()]
    bad = [line for line in listed if not line.startswith(tuple(ELSEWHERE))]
    for line in bad:
        print(f"{page}: is never run: {line}")
    return len(bad), len(bad)


def installed(command):
    """Each program that is built is copied to PREFIX/bin with a link by its short name, both are said, and `audit` does there
    what it does here. Step `packages` installs the library."""
    here = [program(it) for it in programs()]
    with tempfile.TemporaryDirectory() as room:
        said, _ = shell(f"PATH={shlex.quote(os.environ['PATH'])} {command.replace(' PREFIX=..', '')} PREFIX={room}")
        lines, same = [], True
        for it in (it for it in here if os.access(it, os.X_OK)):
            to = pathlib.Path(room) / "bin" / f"simplex-{it.name.replace('_', '-')}"
            lines += [f"{to}"] + ([] if shutil.which(it.name) else [f"{to.with_name(it.name)} -> {to.name}"])
            same = same and os.access(to, os.X_OK) and to.read_bytes() == it.read_bytes()
        done = run([f"{room}/bin/simplex-audit", *arguments("audit")], SAMPLE)
        of_programs = [line for line in said.splitlines() if line.startswith(f"{room}/bin/")]
        return of_programs == lines and same and done == (0, (ROOT / "crates/audit/stdout").read_bytes(), b"")


def is_there(command):
    """The target is there, and so is what it runs. It is not run: the gate has done the same, or a block is this command."""
    said, _ = shell(f"{command} --dry-run && echo there")
    *lines, last = said.splitlines() or [""]
    words = [line.split()[0] for line in lines]
    return last == "there" and words and all(shutil.which(ROOT / it if "/" in it else it) for it in words)


def targets(pages):
    """The commands `make ..` within the text of the pages."""
    texts = [FENCED.sub("", (ROOT / page).read_text()) for page in pages]
    found = sorted({it for text in texts for it in re.findall(r"`(make [^`\n]*)`", text)})
    bad = [it for it in found if not (installed if it.startswith("make install") else is_there)(it)]
    for it in bad:
        print(f"`{it}` does not do what the pages say")
    return len(found), len(bad)


def explained():
    """The message that docs/USING.md explains byte by byte, and what its signature is the hash of."""
    parts = [re.findall(r"(?m) {2}((?:[0-9a-f]{2})+)$", block) for block in blocks("docs/USING.md", "")]
    notarize, hashed = (bytes.fromhex("".join(it)) for it in parts if it)
    wrong = [notarize != SAMPLE.read_bytes()[: len(notarize)], notarize[-32:] != hashlib.sha256(hashed).digest()]
    if any(wrong):
        print("docs/USING.md: bytes that are explained are not what it says")
    return len(wrong), sum(wrong)


def main():
    pages = [str(it.relative_to(ROOT)) for it in every_page()]
    with concurrent.futures.ThreadPoolExecutor() as pool:
        every = [pool.submit(tried, it) for it in pages]
        every += map(functools.partial(pool.submit, never_run), pages)
        every += [pool.submit(explained), pool.submit(targets, pages)]
        ran, bad = map(sum, zip(*(it.result() for it in every)))
    print(f"{ran - bad} of {ran} commands and examples of the documents do what their pages say")
    return bad > 0
