"""Compares what `inspect` and `audit` say of many streams.

The streams are the sample, those of the test vectors `audit` and `feed` and the damaged messages of `cut`, written anew under
the plain scheme, messages of every kind, and these cut off or changed at many bytes. A decoder says what is in each. It agrees
with the stored answers of the test vectors, and then

- the lines of `inspect` are the decoder's messages and its fault, byte for byte, with committees and without;
- the exit status and the fault's place are those of `audit`;
- all lines are JSON by `python3 -m json.tool`, and objects by `jq` where it is found;
- each line has come before more of the stream is needed than the byte behind its message;
- the page for people takes the lines of both programs, and has each vote of the evidence in the first message that carries it.

Streams whose signatures the caller verified are shown so too. Then both are run where devices and arguments are not as they
should be, and `inspect` over a stream longer than its memory.
"""

import io
import json
import os
import random
import select
import shutil
import subprocess
import sys

from .common import ROOT, SAMPLE, build, expect, fail, module, program, run, say, vectors
from .decoder import Committees, Counted, decoded, judged, keys, plainly, shown, streams, transcribed

report_lines, report_page = (module(ROOT / f"bindings/python/{it}.py") for it in ("report_lines", "report_page"))
PIPES = {"stdin": subprocess.PIPE, "stdout": subprocess.PIPE}
USAGE = b"usage: inspect [NAMESPACE KEY...|--verdicts BYTES [PARTICIPANTS]]\n"
LETTERS = {"EndOfBuffer": "E", "InvalidVarint": "V", "InvalidBool": "B"}
# a stream whose signatures the caller verified: the kind of each message, its payload, and each signer with its verdict
VERDICTS = (
    # a valid vote, and one that contradicts it
    (0, b"a", {0: 1}),
    (0, b"b", {0: 1}),
    # votes with other verdicts than 01, and a vote of nobody
    (0, b"a", {1: 0}),
    (0, b"a", {2: 2}),
    (0, b"a", {4: 1}),
    # certificates
    (1, b"a", {0: 1, 1: 1, 3: 1}),
    (1, b"b", {0: 1, 1: 1, 2: 0}),
    (6, b"a", {0: 1, 1: 1}),
    # and one more vote of nobody, without a verdict
    (0, b"a", {300: 255}),
)


def reported(lines, text, messages, committees):
    """The page for people takes the lines of both programs, and finds each vote where it first stands and is valid."""
    report = report_lines.read_lines(io.BytesIO(lines))
    for (*place, signer, vote), found in report_lines.read_inspect(io.BytesIO(text), report).places.items():
        stand = (
            (at, one["signature"].hex())
            for at, _, (_, where, statements) in messages
            for said in statements
            if where == tuple(place) and (said["vote"], said.get("parent"), said.get("payload", b"").hex() or None) == vote
            for one in judged(where, said, committees)["signatures"]
            if one["signer"] == signer and one["valid"]
        )
        if found != next(stand, None):
            fail(f"the page has a vote of {signer} in {place} at {found}:", lines.decode())
    report_page.page(report)


def check(data, who):
    """Both programs say of a stream what the decoder does. Returns the lines of `inspect`."""
    committees, texts = Committees(who), b""
    for given in (committees, None):
        words = given.words() if given else []
        messages, fault = decoded(data, 32, given.bound if given else 2**32 - 1)
        text = "".join(line + "\n" for line in shown(messages, fault, data, given)).encode()
        said = f"inspect: fault at byte {fault[0]}\n".encode() if fault else b""
        got, wanted = run([program("inspect"), *words], data), (int(bool(fault)), text, said)
        if got != wanted:
            fail(f"inspect of {data.hex()} under {who if given else 'nothing'}:", *got, "to be", *wanted)
        texts += text
        if given:
            status, lines, other = run([program("audit"), *words], data)
            if (status, other.replace(b"audit:", b"inspect:")) != (got[0], got[2]):
                fail(f"audit of {data.hex()} under {who} ends otherwise:", status, other)
            reported(lines + other, text, messages, given)
    return texts


def with_verdicts(size, epoch):
    """The stream of VERDICTS, with signatures of so many bytes and a byte more."""
    for kind, payload, signed in VERDICTS:
        count = streams.number(len(signed)) if kind else b""
        listed = b"".join(streams.number(it) + bytes([it % 251]) * size + bytes([mark]) for it, mark in signed.items())
        yield bytes([kind]) + b"".join(map(streams.number, (epoch, 3, 2))) + payload * 32 + count + listed


def vouched():
    """Streams of verdicts are shown as the decoder reads them, with committees and without. Returns the lines of each run."""
    texts = []
    for size in (48, 64, 96):
        for who, epoch in (("4", 0), ("5:4,7:9", 5), ("5:4,7:9", 6), (None, 0)):
            data, given = b"".join(with_verdicts(size, epoch)) + b"\xff", Counted(who) if who else None
            messages, fault = decoded(data, 32, given.bound if given else 2**32 - 1, size + 1)
            if len(messages) != len(VERDICTS):
                fail(f"of the stream of verdicts {len(messages)} messages are read:", data.hex())
            texts.append("".join(line + "\n" for line in shown(messages, fault, data, given)).encode())
            command = [program("inspect"), "--verdicts", str(size), *(given.words() if given else [])]
            expect(command, 1, texts[-1], f"inspect: fault at byte {fault[0]}", stdin=data)
    return texts


def audited(line, answer, data, bound):
    """The stream of a vector `audit`, or that of the pieces of a vector `feed`: the decoder agrees with the answer."""
    messages, fault = decoded(data, 1, bound)
    parts = answer.split(" | ")[-1].split("; ")
    at = f"fault at {fault[0]}: {fault[1]}" if fault else None
    if parts[0] != f"read {len(messages)}" or (parts[-1] != at if fault else parts[-1].startswith("fault at")):
        fail(f"{line}: {answer}, to be {len(messages)} messages, {fault}")
    return [data]


def cut(line, answer, data, bound):
    """The damaged bytes of a vector `cut`: each prefix, and all of them with one bit flipped. The decoder agrees with its
    letters."""
    prefixes = [data[:at] for at in range(len(data))]
    flipped = [data[:at] + bytes([data[at] ^ 1 << bit]) + data[at + 1 :] for at in range(len(data)) for bit in range(8)]
    letters = " ".join("".join(letter(it, bound) for it in each) for each in (prefixes, flipped))
    if letters != answer:
        fail(f"{line}: {answer}, to be {letters}")
    return prefixes + flipped


def letter(data, bound):
    """What `cut` says of bytes: `r` where they begin with a message, or else which refusal."""
    messages, fault = decoded(data, 1, bound)
    name = fault[1] if fault else "EndOfBuffer"
    return "r" if messages else LETTERS.get(name, "I")


def of_vectors():
    """The streams of the test vectors `audit`, `feed` and `cut` under the plain scheme, each once, with their committees."""
    seen = set()
    for line, answer in vectors():
        form, *rest = line.split()
        if form in ("audit", "feed") and answer != "no row":
            who, made = rest[0], audited
        elif form == "cut" and rest[0] == "activity":
            who, made = rest[1], cut
            del rest[0]
        else:
            continue
        committees = Committees(who)
        for data in made(line, answer, bytes.fromhex("".join(rest[1:])), committees.bound):
            if (data, who) not in seen:
                seen.add((data, who))
                yield transcribed(data, committees.bound, plainly)[0], who


def damaged(data):
    """A stream cut off at every fifth byte, and with every third byte another one."""
    numbers = random.Random(1)
    yield from (data[:at] for at in range(0, len(data), 5))
    yield from (data[:at] + bytes([numbers.randrange(256)]) + data[at + 1 :] for at in range(0, len(data), 3))


def alike(words, **how):
    """Both programs end alike: by the same status, and by what they say but for their names."""
    one, other = (run([program(name), *words], **how) for name in ("inspect", "audit"))
    usage = b"usage: audit NAMESPACE KEY...\n", USAGE
    said = other[2].replace(*usage).replace(b"audit:", b"inspect:")
    if (one[0], one[2]) != (other[0], said) or one[0] < 2:
        fail(f"inspect {words} {how}:", *one, "to be", *other)


def are_objects(text):
    """Each line is a JSON object, whoever reads it."""
    number = text.count(b"\n")
    status, said, why = run([sys.executable, "-m", "json.tool", "--json-lines", "--compact"], text)
    if status or said.count(b"\n") != number:
        fail("not JSON:", why)
    if shutil.which("jq") and run(["jq", "--raw-output", "type"], text) != (0, b"object\n" * number, b""):
        fail("jq reads no lines of objects")


def refused():
    """Where arguments, reads or writes are refused, and how many such runs there are."""
    key = keys(1)[0]
    bad = (
        ["test"],
        ["test", ""],
        ["test", key[1:]],
        ["test", key, key],
        ["test", key, "x"],
        ["test", "@0"],
        ["test", "@01", key],
        ["test", "@1", key, "@1", key],
        ["test", key, "@0", key],
        ["test", b"\xff"],
        [b"\xff"],
    )
    for words in bad:
        alike(words)
    sizes, counts = ("", "32", "064", "65"), ("0", "04", "+4", "4 4", "4294967296", "x", "test", "--verdicts 64 4")
    groups = ("@1", "@1 0", "@1 4 4", "@01 4", "@1 4 @1 4", "@2 4 @1 4", "4 @1 4", "@1 @2 4")
    verdicts = [*sizes, *(f"64 {it}" for it in counts + groups)]
    for words in verdicts:
        expect([program("inspect"), "--verdicts", *words.split()], 2, err=USAGE, stdin=b"\xff")
    (reading, closed), (empty, filled) = os.pipe(), would_block()
    os.close(reading)
    for given in ("/", empty):
        alike(["test", key], stdin=given)
    for room in ("/dev/full", closed, filled):
        alike(["test", key], stdin=SAMPLE, stdout=room)
    return len(bad) + len(verdicts) + 5


def would_block():
    """The reading end of an empty pipe and the writing end of a full one. Their other ends stay open, and neither end waits."""
    (empty, _), (_, filled) = os.pipe(), os.pipe()
    for end in (empty, filled):
        os.set_blocking(end, False)
    try:
        while os.write(filled, bytes(4096)):
            pass
    except BlockingIOError:
        return empty, filled


def live(data):
    """A stream that comes a message at a time, with the first byte of the next: the line of each has come before more is
    sent."""
    messages, _ = decoded(data, 32, 2**32 - 1)
    inspect = subprocess.Popen([program("inspect")], **PIPES)
    sent = 0
    for (place, length, _), line in zip(messages, shown(messages, None, data, None)):
        os.write(inspect.stdin.fileno(), data[sent : place + length + 1])
        sent = place + length + 1
        told = select.select([inspect.stdout], [], [], 60)[0] and inspect.stdout.readline().decode()
        if told != line + "\n":
            fail(f"inspect of a stream that waits at {sent}:", told, "to be", line)
    inspect.stdin.close()
    if inspect.wait() or inspect.stdout.read() or sent < len(data):
        fail("inspect of a stream that waited:", inspect.returncode)


def long_stream():
    """A stream longer than the memory: all lines come, the last with the right offset."""
    count, limit = 800000, 100 * 2**20
    size = count * SAMPLE.stat().st_size
    fed = ["bash", "-c", 'yes "$0" | head -n "$1" | xargs -d "\\n" cat; printf "\\xff"', SAMPLE, str(count)]
    with subprocess.Popen(fed, stdout=subprocess.PIPE) as feeder, subprocess.Popen(["tail", "-n", "1"], **PIPES) as last:
        got = run([program("inspect")], feeder.stdout, last.stdin, memory=limit)
        line = json.loads(last.communicate()[0])
    want = {"offset": size, "fault": "Invalid consensus::simplex::Activity: Invalid type", "next": "ff"}
    if got != (1, b"", f"inspect: fault at byte {size}\n".encode()) or line != want or size <= limit:
        fail("inspect of a long stream:", *got, line)


def main():
    build("inspect", "audit")
    say("comparing inspect and audit over some 6,700 streams")
    every = b"".join(streams.every_kind(4, 10))
    tried = [(SAMPLE.read_bytes(), "1"), *of_vectors(), *((it, "4") for it in (every, *damaged(every)))]
    texts, counted = [check(*it) for it in tried], vouched()
    are_objects(b"".join(texts + counted))
    others = refused()
    live(every)
    long_stream()
    print(f"{len(tried)} streams, {len(counted)} runs with verdicts and {others} refusals: inspect shows what audit reads")
