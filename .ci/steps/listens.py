"""Compares what `audit_live` and `audit` say of many streams, and tries its state over restarts.

With a window that takes all rounds `audit_live` has the lines of evidence of `audit`, each once, and of each split round a line
whenever its count grew, the last one that of `audit`. The exit status and the fault's place are those of `audit`. With a narrow
window it has lines of the rounds that the window took. Each line comes while the input is open, after the bytes that complete
it.

With a state it is killed at random and begun again with the bytes from where the state says: no line is lost. The state is cut
at every byte, its disk is full, it is of other committees, and two programs want it.
"""

import collections
import os
import pathlib
import random
import resource
import select
import signal
import subprocess
import tempfile
import time

from .common import ROOT, build, expect, program, run, streams
from .inspects import with_verdicts

LIVE = program("audit_live")
WIDE = ["--retain", "18446744073709551615", "--ahead", "1000000"]
USAGE = (
    "usage: audit_live [--retain VIEWS] [--ahead VIEWS] [--keys FILE] [--state FILE] "
    "NAMESPACE KEY...|--verdicts BYTES PARTICIPANTS"
)
# What is said at once of a fault that stays.
DROPPED = ": what follows is dropped"
KILLS = 200


def live(words, stream=b"", **how):
    """The status, the lines and what stands on standard error, without what was read and recorded."""
    status, out, err = run([LIVE, *words], stream, **how)
    said = [line for line in err.decode().splitlines() if " messages read, " not in line and not line.endswith(DROPPED)]
    return status, out.decode().splitlines(), said


def audit(words, stream):
    status, out, err = run([program("audit"), *words], stream)
    return status, out.decode().splitlines(), err.decode().replace("audit:", "audit_live:").splitlines()


def parted(lines):
    """The lines of evidence, and of each split round its lines in their order."""
    evidence, splits = [], collections.defaultdict(list)
    for line in lines:
        epoch, view, kind, *_ = line.split()
        if kind == "split":
            splits[epoch, view].append(line)
        else:
            evidence.append(line)
    return evidence, splits


def same(told, lines):
    """Whether lines that came one after the other are those of an audit: the evidence each once, of a split the last."""
    evidence, splits = parted(lines)
    told_evidence, told_splits = parted(told)
    assert sorted(told_evidence) == sorted(evidence), "the evidence, each once"
    assert {spot: of[-1:] for spot, of in told_splits.items()} == splits, "the last line of each split round"
    for of in told_splits.values():
        counts = [int(line.split()[3]) for line in of]
        assert counts == sorted(set(counts)), "the count of a split round grows from line to line"


def compare(keys, stream):
    """One stream by these committees: how many lines of it `audit_live` has."""
    status, lines, said = audit(keys, stream)
    got, told, complaint = live([*WIDE, *keys], stream)
    assert (got, complaint) == (status, said), (got, complaint, status, said)
    same(told, lines)
    return len(told)


def come(pipe, lines):
    """Reads so many lines, which have to come while the program's input is open."""
    got = b""
    while got.count(b"\n") < lines:
        assert select.select([pipe], [], [], 20)[0], "no line came within 20 seconds"
        more = os.read(pipe.fileno(), 65536)
        assert more, "the output ended"
        got += more
    return got


def at_once():
    """Each line of the sample comes at once."""
    folder = ROOT / "crates/audit"
    words, sample = (folder / "args").read_text().split(), (folder / "stdin").read_bytes()
    said = (folder / "stdout").read_bytes()
    with subprocess.Popen([LIVE, *words], stdin=subprocess.PIPE, stdout=subprocess.PIPE, stderr=subprocess.DEVNULL) as begun:
        begun.stdin.write(sample)
        begun.stdin.flush()
        assert come(begun.stdout, said.count(b"\n")) == said, "the lines of the sample"
        begun.stdin.close()
        assert begun.wait() == 0 and begun.stdout.read() == b"", "nothing is told twice"


def fault_at_once(keys, stream):
    """A fault that stays is said while the input is open."""
    with subprocess.Popen([LIVE, *keys], stdin=subprocess.PIPE, stdout=subprocess.DEVNULL, stderr=subprocess.PIPE) as begun:
        begun.stdin.write(stream + b"\xff")
        begun.stdin.flush()
        assert come(begun.stderr, 1) == f"audit_live: fault at byte {len(stream)}{DROPPED}\n".encode()
        begun.kill()


def covers(state):
    status, out, err = run([LIVE, "--covers", state])
    assert (status, err) == (0, b""), err
    return int(out)


def restarted(keys, stream, folder, kills):
    """A stream that is heard over restarts, the program killed at random moments: no line is lost, and a line comes twice only
    behind a kill. How many lines came twice."""
    state, told, dice = folder / "killed", [], random.Random(kills)
    words = [LIVE, *WIDE, "--state", state, *keys]
    for _ in range(kills):
        place = covers(state) if state.exists() else 0
        with subprocess.Popen(words, stdin=subprocess.PIPE, stdout=subprocess.PIPE, stderr=subprocess.DEVNULL) as begun:
            end = min(len(stream), place + dice.randrange(1, max(2, 4 * len(stream) // kills)))
            begun.stdin.write(stream[place:end])
            begun.stdin.flush()
            time.sleep(dice.random() / 100)
            begun.send_signal(signal.SIGKILL)
            told += begun.stdout.read().decode().splitlines(keepends=True)
    told = [line[:-1] for line in told if line.endswith("\n")]
    status, rest, said = live(words[1:], stream[covers(state) if state.exists() else 0 :])
    assert (status, said) == (0, []), said
    once = list(dict.fromkeys(told + rest))
    same(once, audit(keys, stream)[1])
    assert covers(state) == len(stream), "the whole stream is covered"
    assert live(words[1:])[:2] == (0, []), "what a state has is not told again"
    return len(told + rest) - len(once)


def lines_first(keys, stream, folder):
    """While the output takes nothing, the state covers nothing of what completes a line. So a run after a kill tells all."""
    state = folder / "first"
    words = [*WIDE, "--state", state, *keys]
    reading, writing = os.pipe()
    os.set_blocking(writing, False)
    try:
        while os.write(writing, bytes(4096)):
            pass
    except BlockingIOError:
        os.set_blocking(writing, True)
    with subprocess.Popen([LIVE, *words], stdin=subprocess.PIPE, stdout=writing, stderr=subprocess.DEVNULL) as begun:
        begun.stdin.write(stream)
        begun.stdin.flush()
        time.sleep(1)
        place = covers(state)
        begun.kill()
    assert place == 0, "the state is behind the lines"
    os.close(reading)
    os.close(writing)
    same(live(words, stream)[1], audit(keys, stream)[1])


def cut(keys, stream, folder):
    """A state that is cut at every byte can be read, and from where it says nothing is lost."""
    state, whole = folder / "cut", folder / "whole"
    # The first run ends within a message, or behind one.
    for end in (len(stream) // 2, len(stream)):
        place = covers(whole) if whole.exists() else 0
        assert live([*WIDE, "--state", whole, *keys], stream[place:end])[0] <= (end < len(stream))
    bytes_of, lines, count = whole.read_bytes(), audit(keys, stream)[1], 0
    for size in range(len(bytes_of)):
        state.write_bytes(bytes_of[:size])
        place = covers(state)
        before = live([*WIDE, *keys], stream[:place])[1]
        status, told, said = live([*WIDE, "--state", state, *keys], stream[place:])
        assert (status, said) == (0, []), (size, said)
        same(list(dict.fromkeys(before + told)), lines)
        count += 1
    return count


def states(keys, stream, folder):
    """A state that is in use, of other committees, on a full disk or no state."""
    state = folder / "state"
    words = [*WIDE, "--state", state, *keys]
    with subprocess.Popen([LIVE, *words], stdin=subprocess.PIPE, stdout=subprocess.PIPE, stderr=subprocess.PIPE) as first:
        first.stdin.write(stream)
        first.stdin.flush()
        come(first.stdout, 1)
        in_use = ["audit_live: --state: another program has the state"]
        assert live(words, stream) == (3, [], in_use)
        first.kill()
    other = ["audit_live: --state: the file is of other committees, or no state", USAGE]
    for changed in (keys[:-1], [*keys[:-1], "ff" * 32], [*keys, "ff" * 32], ["other", *keys[1:]], [keys[0], "@0", *keys[1:]]):
        assert live([*WIDE, "--state", state, *changed], stream) == (2, [], other), changed
    # Committees of further epochs may be added behind.
    grows, groups = folder / "grows", [keys[0], "@0", *keys[1:]]
    told = live([*WIDE, "--state", grows, *groups], stream)[1]
    assert live([*WIDE, "--state", grows, *groups, "@1", keys[1]]) == (0, [], []) and told
    assert live([*WIDE, "--state", grows, *groups], stream) == (2, [], other)
    (folder / "no").write_bytes(b"simplex" * 100)
    assert live([*WIDE, "--state", folder / "no", *keys], stream) == (2, [], other)
    assert live(["--covers", folder / "no"]) == (2, [], other)
    assert (folder / "no").read_bytes() == b"simplex" * 100, "what is no state stays"
    unread = ["audit_live: --state: the state cannot be written"]
    assert live([*WIDE, "--state", folder / "none" / "state", *keys], stream) == (3, [], unread)

    def little():
        signal.signal(signal.SIGXFSZ, signal.SIG_IGN)
        resource.setrlimit(resource.RLIMIT_FSIZE, (1000, 1000))

    # The disk is full: the lines come all the same, and the state is one from before.
    full = folder / "full"
    assert live([*WIDE, "--state", full, *keys])[0] == 0
    how = {"stdin": subprocess.PIPE, "stdout": subprocess.PIPE, "stderr": subprocess.PIPE}
    with subprocess.Popen([LIVE, *WIDE, "--state", full, *keys], preexec_fn=little, **how) as begun:
        out, err = begun.communicate(stream)
    assert begun.returncode == 3 and b"--state: the state cannot be written" in err, err
    same(out.decode().splitlines(), audit(keys, stream)[1])
    place = covers(full)
    assert live([*WIDE, "--state", full, *keys], stream[place:])[0] == 0 and covers(full) == len(stream)
    return 15


def verdicts():
    """Lines of a stream whose signatures the caller verified: those whose verdict is 01 alone."""
    count = 0
    for size in (48, 64, 96):
        data = b"".join(with_verdicts(size, 0))
        for who in (["4"], ["@0", "4", "@7", "9"], ["@4", "4"]):
            lines = live([*WIDE, "--verdicts", str(size), *who], data)[1]
            accused = [f"0 3 {signer} conflicting-notarize" for signer in (0, 1) if who[0] != "@4"]
            assert [" ".join(it.split()[:4]) for it in lines] == accused, (who, lines)
            count += 1
    return count


def refused(keys, stream, folder):
    """Arguments that are not as they should be, each named; devices that fail; how many."""
    number = "an option has no number or no file behind it"
    order = "an option is unknown, stands twice, or stands behind one that comes later"
    size = "--verdicts: neither 48 nor 64 nor 96"
    none = "no committees: one is empty, a key stands in one twice, or the epochs do not rise"

    def word(place):
        return f"word {place} behind the options: neither @EPOCH nor a key, or behind --verdicts a number of participants"

    wrong = (
        ([], none), (["--retain"], number), (["--ahead"], number), (["--keys"], number), (["--state"], number),
        (["--covers"], number), (["--retain", "01", *keys], number), (["--retain", "-1", *keys], number),
        (["--ahead", "18446744073709551616", *keys], number), (["--ahead", "1", "--retain", "1", *keys], order),
        (["--Retain", "1", *keys], order), (["--retain", "1", "--retain", "1", *keys], order),
        (["--verdicts"], size), (["--verdicts", "65", "4"], size), (["--verdicts", "64", "0"], word(3)),
        (["--verdicts", "64", "@1", "4", "x"], word(5)), (["--verdicts", "64", "4", "4"], none), (["--verdicts", "64"], none),
        ([*keys, "key"], word(len(keys) + 1)), ([keys[0], "@x", *keys[1:]], word(2)), (["--retain", "1"], none),
        ([keys[0]], none), ([*keys, keys[1]], none), ([keys[0], "@2", keys[1], "@1", keys[2]], none), ([keys[0], "@1"], none),
    )
    for words, said in wrong:
        assert live(words, stream) == (2, [], [f"audit_live: {said}", USAGE]), (words, live(words, stream))
    file = folder / "keys"
    assert live(["--keys", file, keys[0]], stream) == (3, [], ["audit_live: --keys: the file cannot be read"])
    file.write_text("# the committee\n" + "\n".join(keys[1:]) + "\n")
    assert live([*WIDE, "--keys", file, keys[0]], stream) == live([*WIDE, *keys], stream), "keys in a file"
    file.write_text("@0 " + " ".join(keys[1:]) + "\n@7\n" + "\n".join(keys[1:]))
    assert live([*WIDE, "--keys", file, keys[0]], stream) == live([*WIDE, *keys], stream), "committees in a file"
    for word, text in (("--help", USAGE), ("--version", "audit_live ")):
        status, out, err = run([LIVE, word])
        assert status == 0 and out.decode().startswith(text) and err == b"", word
    expect([LIVE, *WIDE, *keys], 3, err="audit_live: write failed", stdin=stream, stdout="/dev/full")
    expect([LIVE, *keys], 3, err="audit_live: read failed", stdin="/")
    said = live([*WIDE, "another", *keys[1:]], stream * 20)[2]
    assert [line.startswith("audit_live: no vote that was taken is valid in ") for line in said] == [True], said
    # What stands behind a final fault is dropped.
    with tempfile.TemporaryFile() as large:
        large.write(stream + b"\xff")
        large.truncate(2**30)
        large.seek(0)
        got = live([*WIDE, *keys], large, memory=100 * 2**20)
    assert got == (1, live([*WIDE, *keys], stream)[1], [f"audit_live: fault at byte {len(stream)}"]), got[2]
    return len(wrong) + 9


def main():
    build("audit_live", "audit")
    keys = streams("keys", 7, 1).decode().splitlines()
    shapes = ("votes", "certificates", "all", "honest", "network", "shuffled", "forged", "unsigned", "fork")
    whole = {shape: streams(shape, 7, 12) for shape in shapes}
    count = lines = 0
    for stream in whole.values():
        for piece in (stream, stream + stream, stream[:-3], stream[: len(stream) // 2] + b"\xff" + stream):
            lines += compare(keys, piece)
            count += 1
    stream = whole["votes"]
    # A narrow window has lines of some rounds alone.
    narrow = live(["--ahead", "0", *keys], stream)[1]
    assert set(narrow) <= set(audit(keys, stream)[1]), "the lines of a narrow window"
    at_once()
    fault_at_once(keys, stream)
    count += verdicts()
    with tempfile.TemporaryDirectory() as folder:
        folder = pathlib.Path(folder)
        small = streams("keys", 4, 1).decode().splitlines(), streams("fork", 4, 1)
        count += refused(keys, stream, folder) + states(keys, stream, folder) + cut(*small, folder)
        lines_first(keys, stream, folder)
        twice = restarted(keys, streams("votes", 7, 400), folder, KILLS)
    print(f"{count + 5} runs of audit_live as they should be, with {lines} lines")
    print(f"{KILLS} kills lost none of them, {twice} came twice")
