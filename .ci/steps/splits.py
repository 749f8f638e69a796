"""Compares the parts that `audit_split` writes with those of a reader of its own.

Of many streams, whole and damaged, alone and several at once, by many numbers of classes and seeds

- each part has the messages of its class, byte for byte, files in their order and messages in theirs;
- the line of each file has the number of its messages and the place of its fault;
- the lines of `audit` of all parts, sorted and merged as docs/SHARDS.md says, are those of `audit` of the joined files.

Then it is run with arguments, files and devices that are not as they should be, and over a large file with little memory.
"""

import pathlib
import resource
import shlex
import signal
import subprocess
import tempfile

from .common import build, damaged, expect, program, run, streams
from .decoder import decoded
from .inspects import with_verdicts

SPLIT = program("audit_split")
USAGE = "usage: audit_split [--signature 32|48|64|96] [--seed NUMBER] BOUND CLASSES PREFIX FILE..."
SHAPES = ("votes", "certificates", "all", "network", "shuffled", "forged", "fork")
MOST = 2**64 - 1
# The reports of parts as one: evidence by epoch, view, signer and kind, and then splits by epoch and view.
MERGED = """
ls PREFIX.* | xargs -P 4 -I PART sh -c 'AUDIT < PART > PART.report'
cat PREFIX.*.report | grep -v ' split ' | LC_ALL=C sort -t ' ' -k 1,1n -k 2,2n -k 3,3n -k 4.1,4.1 -k 4.13,4.13r
cat PREFIX.*.report | grep ' split ' | LC_ALL=C sort -t ' ' -k 1,1n -k 2,2n
true
"""


def mix(state):
    """A word of SplitMix64."""
    word = (state + 0x9E3779B97F4A7C15) & MOST
    word = ((word ^ word >> 30) * 0xBF58476D1CE4E5B9) & MOST
    word = ((word ^ word >> 27) * 0x94D049BB133111EB) & MOST
    return word ^ word >> 31


def cut(data, parts, bound, seed, signed):
    """Appends the messages of a stream to the parts of their classes: what is said of the stream, and where its fault is."""
    messages, fault = decoded(data, 32, bound, signed)
    for at, length, (_, (epoch, view), _) in messages:
        parts[mix(mix(seed ^ epoch) ^ view) % len(parts)] += data[at : at + length]
    return f"{len(messages)} fault {fault[0]}" if fault else str(len(messages)), fault[0] if fault else len(data)


class Folder:
    """A folder with the files of a run."""

    def __init__(self, path):
        self.path, self.prefix = pathlib.Path(path), f"{path}/part"

    def write(self, name, data):
        (self.path / name).write_bytes(data)
        return str(self.path / name)

    def parts(self, classes):
        return [pathlib.Path(f"{self.prefix}.{i}").read_bytes() for i in range(classes)]

    def names(self):
        return sorted(it.name for it in self.path.iterdir())

    def clear(self):
        for it in self.path.iterdir():
            it.unlink()


def compare(folder, data, bound, classes, seed=None, signature=None):
    """One run over these streams: where the messages of each end."""
    folder.clear()
    names = [folder.write(f"file{i}", it) for i, it in enumerate(data)]
    # Parts are written anew.
    folder.write("part.0", b"a part from before")
    wanted = [bytearray() for _ in range(classes)]
    said = [cut(it, wanted, bound, seed or 0, signature and signature + 1) for it in data]
    options = ["--signature", signature] if signature else []
    options += [] if seed is None else ["--seed", seed]
    command = [SPLIT, *map(str, [*options, bound, classes, folder.prefix, *names])]
    faults = any(" fault " in line for line, _ in said)
    expect(command, int(faults), "\n".join(f"{name} {line}" for name, (line, _) in zip(names, said)))
    assert folder.parts(classes) == wanted, "the parts"
    assert len(folder.names()) == len(data) + classes, "no other files"
    return [end for _, end in said]


def merged(folder, keys, joined):
    """The reports of the parts, merged, are the report of the joined files; how many lines it has."""
    status, lines, said = run([program("audit"), *keys], joined)
    assert (status, said) == (0, b""), said
    recipe = MERGED.replace("PREFIX", folder.prefix).replace("AUDIT", shlex.join([str(program("audit")), *keys]))
    got = subprocess.run(["sh", "-c", recipe], capture_output=True, check=True)
    assert (got.stdout, got.stderr) == (lines, b""), "the reports of the parts as one"
    return lines.count(b"\n")


def several(folder, keys, whole):
    """Files of every kind in one run; how many runs and lines."""
    files = [b"", whole["all"], whole["votes"][:-3], b"\xff", whole["all"][:5000] + b"\xff" + whole["all"], whole["fork"]]
    lines = 0
    for classes in (1, 2, 5, 64):
        ends = compare(folder, files, 7, classes, 11)
        lines += merged(folder, keys, b"".join(it[:end] for it, end in zip(files, ends)))
    return 4, lines


def refused(folder, stream):
    """Words, files and devices that are not as they should be; how many."""
    folder.clear()
    file, other = folder.write("file", stream), folder.write("other", stream[:-1])
    part = folder.prefix
    cuts = (
        "", "7", "7 4", f"7 4 {part}", f"0 4 {part} {file}", f"07 4 {part} {file}", f"4294967296 4 {part} {file}",
        f"7 0 {part} {file}", f"7 65537 {part} {file}", f"7 x {part} {file}", f"-7 4 {part} {file}", f"7 4.0 {part} {file}",
    )
    options = (
        "--seed", "--seed x", "--seed -1", "--seed 18446744073709551616", "--seed 01", "--signature", "--signature 33",
        "--signature 0", "--signature 048", "--seed 1 --signature 48", "--seed 1 --seed 1", "--Seed 1", "--verdicts 48",
    )
    for words in (*cuts, *(f"{it} 7 4 {part} {file}" for it in options[1:]), "--seed", "--signature"):
        expect([SPLIT, *words.split()], 2, err=USAGE)
    for name in ("part.0", "part.3"):
        named = folder.write(name, b"a file of the caller")
        expect([SPLIT, "7", "4", part, file, named], 2, err=f"audit_split: {named}: names a part")
        assert pathlib.Path(named).read_bytes() == b"a file of the caller", "what is refused stays"
        pathlib.Path(named).unlink()
    assert folder.names() == ["file", "other"], "nothing is touched"
    for name in ("part.4", "part.01", "part.", "part", "part.1x"):
        named = folder.write(name, stream)
        expect([SPLIT, "7", "4", part, named], 0, f"{named} {len(decoded(stream, 32, 7)[0])}")
        folder.clear()
    folder.write("file", stream)
    folder.write("other", stream[:-1])
    read = len(decoded(stream, 32, 7)[0])
    for name in (f"{folder.path}/none", str(folder.path), ""):
        expect([SPLIT, "7", "4", part, file, name, other], 3, f"{file} {read}", f"audit_split: {name}: read failed")
    for prefix in (f"{folder.path}/none/part", f"{file}/part"):
        expect([SPLIT, "7", "4", prefix, file], 3, err=f"audit_split: {prefix}.0: write failed")
    expect([SPLIT, "7", "4", part, file], 3, err="audit_split: write failed", stdout="/dev/full")
    return len(cuts) + len(options) + 14


def full(folder, stream):
    """A full disk: each part has a beginning of its messages."""

    def little():
        signal.signal(signal.SIGXFSZ, signal.SIG_IGN)
        resource.setrlimit(resource.RLIMIT_FSIZE, (1000, 1000))

    folder.clear()
    file, wanted = folder.write("file", stream), [bytearray() for _ in range(4)]
    cut(stream, wanted, 7, 0, None)
    done = subprocess.run([SPLIT, "7", "4", folder.prefix, file], preexec_fn=little, capture_output=True)
    told = [f"audit_split: {folder.prefix}.{i}: write failed\n".encode() for i in range(4)]
    assert (done.returncode, done.stdout) == (3, b"") and done.stderr in told, done.stderr
    parts = folder.parts(4)
    assert all(bytes(all_of).startswith(it) for it, all_of in zip(parts, wanted)) and max(map(len, parts)) == 1000
    return 1


def large(folder, stream):
    """A file of 64 MiB with half of that memory, and as many classes as there may be."""
    folder.clear()
    many = 2**26 // len(stream)
    file, read = folder.write("file", stream * many), len(decoded(stream, 32, 7)[0])
    got = run([SPLIT, "7", "3", folder.prefix, file], memory=2**25)
    assert got == (0, f"{file} {many * read}\n".encode(), b""), got
    wanted = [bytearray() for _ in range(3)]
    cut(stream, wanted, 7, 0, None)
    assert folder.parts(3) == [bytes(it) * many for it in wanted], "the parts of a large file"
    assert compare(folder, [stream], 7, 65536) == [len(stream)]
    folder.clear()
    return 2


def main():
    build("audit_split", "audit")
    keys = streams("keys", 7, 1).decode().splitlines()
    whole = {shape: streams(shape, 7, 12) for shape in SHAPES}
    count = lines = 0
    with tempfile.TemporaryDirectory() as room:
        folder = Folder(room)
        for place, stream in enumerate(whole.values()):
            for classes in (1, 2, 3, 16, 64):
                seed = (None, 0, 1, MOST)[(place + classes) % 4]
                for data in damaged(stream):
                    ends = compare(folder, [data], 7, classes, seed)
                    count += 1
                    if classes == 16:
                        lines += merged(folder, keys, data[: ends[0]])
        assert b"" in folder.parts(64), "a class without messages"
        for size in (48, 64, 96):
            data = b"".join(b"".join(with_verdicts(size, epoch)) for epoch in range(9))
            compare(folder, [data, data[:-1]], 2**32 - 1, 5, 3, size)
            count += 1
        runs, more = several(folder, keys, whole)
        count += runs + refused(folder, whole["all"]) + full(folder, whole["all"]) + large(folder, whole["votes"])
    print(f"{count} runs of audit_split as they should be; {lines + more} lines of reports of parts are those of the whole")
