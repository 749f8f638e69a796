"""`runs PROGRAM`: runs `audit` or `audit_stored` as a user would, and compares the exit status and all that it writes."""

import hashlib
import os
import pathlib
import subprocess
import tempfile

from .common import CLOSED, ROOT, SAMPLE, build, expect, fail, passed, program, run, say, streams
from .common import arguments as stored

USAGE, READ_FAILED, WRITE_FAILED = "usage: audit NAMESPACE KEY...", "audit: read failed", "audit: write failed"
ZEROS, LOW, HIGH = "0" * 64, "0" * 62 + "ab", "ff" + "0" * 60 + "ab"
MEMORY = 100_000 * 1024


def signature(name, key, message):
    """The signature of the participant with this key under the name."""
    return hashlib.sha256(bytes([len(name)]) + name.encode() + bytes.fromhex(key) + message).digest()


def proposal(epoch, payload):
    """A proposal of an epoch below 128, view 10 and parent 5, of a payload of a byte 32 times."""
    return bytes([epoch, 10, 5]) + bytes([payload]) * 32


def contradiction(namespace, key, signer):
    """Two notarizes in epoch 0 of one participant, with payloads of bytes 06 and 07."""
    proposals = [proposal(0, it) for it in (6, 7)]
    return b"".join(b"\0" + it + bytes([signer]) + signature(f"{namespace}_NOTARIZE", key, it) for it in proposals)


def split(epoch, *keys):
    """A nullification and a finalization that all these participants sign, numbered in this order."""
    here, proposed = bytes([epoch, 10]), proposal(epoch, 6)
    nullified, finalized = (
        b"".join(bytes([signer]) + signature(f"test_{name}", key, it) for signer, key in enumerate(keys))
        for name, it in (("NULLIFY", here), ("FINALIZE", proposed))
    )
    count = bytes([len(keys)])
    return b"\4" + here + count + nullified + b"\6" + proposed + count + finalized


def line(signer):
    """The line of that contradiction."""
    return f"0 10 {signer} conflicting-notarize 5 {'06' * 32} 5 {'07' * 32}"


def nullified(epoch, signer):
    """The line of the participant who signed both of a split."""
    return f"{epoch} 10 {signer} nullify-finalize 5 {'06' * 32}"


def fed(script, *words):
    """A pipe of what a script writes."""
    return subprocess.Popen(["bash", "-c", script, "-", *map(str, words)], stdout=subprocess.PIPE).stdout


# What arguments behind the namespace `test` stand for, and those that are no keys and no groups.
WORDS = {"E": "", "S": ZEROS[1:], "Z": ZEROS, "L": LOW, "U": LOW.upper(), "H": HIGH, "F": b"\xff", "Z0": ZEROS + "0"}
WORDS |= {"Z00": ZEROS + "00", "Sg": ZEROS[1:] + "g", "_Z": " " + ZEROS, "@_1": "@ 1", "@1_": "@1 "}
NO_KEYS = ["", "E", "S", "Z0", "Z00", "Z key", "key Z", "Sg", "_Z", "Z Z", "L Z U", "Z F"]
NO_GROUPS = """@0, @ Z, @00 Z, @01 Z, @-0 Z, @_1 Z, @1_ Z, @0x1 Z, @+1 Z, @18446744073709551616 Z, Z @0 Z, @0 @1 Z, @1 Z @1 Z,
@1 Z @0 Z, @10 Z @9 Z, @0 Z @1, @1 Z key, @1 Z @2 S, @1 Z @2 L U, @0 Z Z""".split(",")


def words(text):
    """The arguments under the namespace `test` that a text stands for."""
    return ["test", *(WORDS.get(it, it) for it in text.split())]


def streams_of_one(check, two, fault):
    """Streams of a committee of one participant: whole, with a fault, and with one far behind."""
    key = ["test", ZEROS]
    check(0, line(0), "", key, two)
    check(0, "", "", key, b"")
    check(0, line(0), "", key, fed('head -c 70 "$1" && sleep 0.1 && tail -c +71 "$1"', SAMPLE))
    check(1, "", "audit: fault at byte 0", key, b"\xff")
    check(1, line(0), "audit: fault at byte 138", key, fault)
    check(1, "", "audit: fault at byte 69", key, two[:137])
    check(1, line(0), "audit: fault at byte 138000", key, two * 1000 + fault[:1])
    check(1, line(0), "audit: fault at byte 138138", key, two * 1000 + fault)


def committees(check):
    """Namespaces, keys and groups."""
    two, low = contradiction("test", ZEROS, 0), contradiction("test", LOW, 1)
    # Any namespace is one.
    for namespace in ("", "a b", "--help"):
        check(0, line(0), "", [namespace, ZEROS], contradiction(namespace, ZEROS, 0))
    check(0, "", "", ["other", ZEROS], two)
    # A participant's number is the place of its key in ascending order, whatever the order and case of the arguments.
    check(0, line(1), "", ["test", ZEROS, LOW, HIGH], low)
    check(0, line(1), "", ["test", HIGH.upper(), LOW.upper(), ZEROS], low)
    check(0, line(2), "", ["test", HIGH, ZEROS, LOW.upper()], contradiction("test", HIGH, 2))
    check(0, "", "", ["test", HIGH, ZEROS, LOW], contradiction("test", HIGH, 0))
    # In groups each epoch has its committee, and other epochs have none.
    check(0, line(0), "", words("@0 Z"), two)
    check(0, line(1), "", words("@0 L Z @1 L"), low)
    check(0, "", "", words("@0 Z @1 L Z"), low)
    check(0, "", "", words("@1 Z @18446744073709551615 Z"), two)
    check(0, line(0), "", ["@0", "@0", ZEROS], contradiction("@0", ZEROS, 0))
    check(0, "", "", words("@9 Z L @10 Z @333 U"), two)
    # Where certificates contradict there is a line for the round, behind all others.
    one, both = split(0, ZEROS), split(1, ZEROS, LOW)
    of_one = f"{nullified(0, 0)}\n0 10 split 1 1"
    of_both = "\n".join([nullified(0, 0), nullified(1, 0), nullified(1, 1), "0 10 split 1 1", "1 10 split 2 1"])
    check(0, of_one, "", words("Z"), one)
    check(0, of_both, "", words("@0 Z @1 L Z"), both + one)
    check(0, nullified(1, 0), "", words("@0 L Z @1 Z"), both)
    check(1, of_one, "audit: fault at byte 107", words("Z"), one + b"\xff")


def devices(check, two, fault):
    """Standard streams that are closed, full, or no files."""
    key = ["test", ZEROS]
    for stdin in (CLOSED, "/"):
        check(3, "", READ_FAILED, key, stdin)
    reading, broken = os.pipe()
    os.close(reading)
    for stream, stdout in ((two, CLOSED), (fault, "/dev/full"), (two, broken)):
        check(3, "", WRITE_FAILED, key, stream, stdout=stdout)
    # Where there is nothing to write, nothing fails.
    check(0, "", "", key, b"", stdout=CLOSED)
    check(1, "", "audit: fault at byte 0", key, b"\xff", stdout="/dev/full")
    # What can't be said on standard error leaves the status.
    check(0, line(0), "", key, two, stderr=CLOSED)
    check(1, line(0), "", key, fault, stderr=CLOSED)
    check(1, line(0), "", key, fault, stderr="/dev/full")
    check(2, "", "", ["test"], two, stderr=CLOSED)
    check(3, "", "", key, "/", stderr="/dev/full")


def long(check, name, work, two, fault):
    """A stream that is longer than the memory is audited by `audit`, and not by `audit_stored`, which holds all of it. What
    stands behind a final fault is read and dropped by `audit`."""
    (work / "block").write_bytes(two * 1000)
    (work / "fault").write_bytes(fault)
    (work / "large").touch()
    os.truncate(work / "large", 2**30)
    again = fed('for _ in {1..1500}; do cat "$1" || exit; done', work / "block")
    beyond = fed('cat "$1" "$2"', work / "fault", work / "large")
    holds = (0, line(0), ""), (1, line(0), "audit: fault at byte 138")
    for wanted, stream in zip(holds if name == "audit" else [(3, "", "audit: out of memory")] * 2, (again, beyond)):
        check(*wanted, ["test", ZEROS], stream, memory=MEMORY)


def own_keys(check, name):
    """Under other keys the line of a stream is the same."""
    mine = ["harbour", *(hashlib.sha256(it.encode()).hexdigest() for it in ("anna", "bo", "cleo", "dan"))]
    given, own = ((streams("keys", 4, 10, *it).decode().splitlines(), streams("votes", 4, 10, *it)) for it in ([], mine))
    told = run([program(name), *given[0]], given[1])[1].decode().splitlines()
    if len(told) != 1 or not told[0].startswith("0 10 0 conflicting-notarize 9 "):
        fail(f"votes 4 10: {told}")
    check(0, told[0], "", *own)


def main(name="audit"):
    build(name)
    say(f"running {name} as its users do")
    two = contradiction("test", ZEROS, 0)
    fault = two + b"\xff" + two
    # The stored stream is the one that these functions make.
    if (ROOT / f"crates/{name}/stdin").read_bytes() != two or stored(name) != ["test", ZEROS]:
        fail(f"the stored run of {name} is another")

    def check(status, out, err, words, stdin, **how):
        expect([program(name), *words], status, out, err, stdin=stdin, **how)

    streams_of_one(check, two, fault)
    committees(check)
    own_keys(check, name)
    # Nothing is read if the arguments are wrong: standard input can't be.
    for it in ([], [b"\xff", ZEROS], *map(words, NO_KEYS + NO_GROUPS)):
        check(2, "", USAGE, it, CLOSED)
    devices(check, two, fault)
    with tempfile.TemporaryDirectory() as work:
        long(check, name, pathlib.Path(work), two, fault)
    print(f"{len(passed)} runs of {name} as they should be")
