"""Compares what `audit_compact` and `audit` say of many streams.

Of each stream

- `audit` has the same lines of what `audit_compact` writes as of the stream, and `audit_compact` writes it again;
- the exit status and the fault's place are those of `audit`;
- from a floor the lines are those of the rounds from there on;
- with any stream before and behind, what is written can stand for the stream.

What is kept of a piece of the stream comes before the next piece is read. Then it is run with arguments and devices that are
not as they should be.
"""

import os
import random
import select
import subprocess

from .common import behind_a_fault, build, damaged, expect, program, run, streams

COMPACT = program("audit_compact")
USAGE = "usage: audit_compact [--floor EPOCH VIEW] NAMESPACE KEY..."
# how many bytes are read before what is kept of them is written
PIECE = 65536
SHAPES = ("votes", "certificates", "all", "honest", "network", "shuffled", "forged", "unsigned")


def audit(words, stream):
    return run([program("audit"), *words], stream)


def compact(words, stream):
    return run([COMPACT, *words], stream)


def round_of(line):
    epoch, view = line.split()[:2]
    return int(epoch), int(view)


def compare(words, stream, others):
    """One stream by these committees: how long it is, and what is left of it."""
    status, lines, said = audit(words, stream)
    got, kept, complaint = compact(words, stream)
    assert (got, complaint.replace(b"audit_compact:", b"audit:")) == (status, said), (got, complaint, status, said)
    assert audit(words, kept) == (0, lines, b""), "the lines of what is kept"
    assert compact(words, kept) == (0, kept, b""), "what is kept, compacted again"
    whole = stream[: int(said.split()[-1])] if said else stream
    for before, behind in ((others, b""), (b"", others), (others, others)):
        both = (audit(words, before + it + behind) for it in (kept, whole))
        assert next(both) == next(both), "what is kept in place of the stream"
    rounds = sorted({round_of(line) for line in lines.splitlines()})
    for floor in rounds[:: max(1, len(rounds) // 3)]:
        got, part, _ = compact(["--floor", *map(str, floor), *words], stream)
        above = b"".join(line + b"\n" for line in lines.splitlines() if round_of(line) >= floor)
        assert got == status, "the status from a floor on"
        assert audit(words, part) == (0, above, b""), f"the lines from {floor} on"
    return len(stream), len(kept)


def in_pieces(keys, stream):
    """Has each piece compacted before the next one is written; returns how many pieces there were."""
    ends = range(PIECE, len(stream), PIECE)
    kept = b""
    with subprocess.Popen([COMPACT, *keys], stdin=subprocess.PIPE, stdout=subprocess.PIPE, stderr=subprocess.DEVNULL) as begun:
        for end in ends:
            wanted = compact(keys, stream[:end])[1]
            assert wanted.startswith(kept) and wanted != kept, "each piece has something to keep"
            begun.stdin.write(stream[end - PIECE : end])
            begun.stdin.flush()
            while len(kept) < len(wanted):
                assert select.select([begun.stdout], [], [], 20)[0], f"what is kept of the bytes before {end} comes in time"
                kept += os.read(begun.stdout.fileno(), PIECE)
            assert kept == wanted, f"what is kept of the bytes before {end}"
    return len(ends)


def refused(keys, stream):
    """Arguments and devices that are not as they should be; returns how many."""
    floors = ("", "0", "0 1", "0 01 KEYS", "-1 1 KEYS", "0 18446744073709551616 KEYS")
    bad = ["", *(f"--floor {it}" for it in floors), keys[0], "--Floor 0 1 KEYS", "KEYS key"]
    for words in bad:
        expect([COMPACT, *words.replace("KEYS", " ".join(keys)).split()], 2, err=USAGE, stdin=stream)
    for floor in (["0", "0"], ["0", "18446744073709551615"], ["18446744073709551615", "0"]):
        status, kept, said = compact(["--floor", *floor, *keys], stream)
        assert (status, said) == (0, b"") and (kept == b"") == (floor != ["0", "0"]), floor
    expect([COMPACT, *keys], 3, err="audit_compact: write failed", stdin=stream, stdout="/dev/full")
    expect([COMPACT, *keys], 3, err="audit_compact: read failed", stdin="/")
    # What stands behind a final fault is dropped.
    got = behind_a_fault([COMPACT, *keys], stream)
    assert got == (1, compact(keys, stream)[1], f"audit_compact: fault at byte {len(stream)}\n".encode()), got[2]
    return len(bad) + 6


def main():
    build("audit_compact", "audit")
    keys = streams("keys", 7, 1).decode().splitlines()
    whole = {shape: streams(shape, 7, 12) for shape in SHAPES}
    sizes = []
    for shape, stream in whole.items():
        other = whole[random.Random(shape).choice(SHAPES)]
        sizes += [compare(keys, it, other) for it in damaged(stream)]
    count = len(sizes) + refused(keys, whole["votes"])
    before, after = map(sum, zip(*sizes))
    pieces = in_pieces(keys, streams("votes", 7, 400))
    print(f"{count} runs of audit_compact as they should be; {before} bytes came down to {after}", end="; ")
    print(f"{pieces} pieces in their turn")
