#!/usr/bin/env python3
"""streams.py SHAPE PARTICIPANTS ROUNDS [NAMESPACE KEY...]: writes a stream of messages to standard output.

SHAPE is `votes` (a notarize of each participant in each round), `certificates` (a notarization of all participants in each
round), `fork` (two of them, which contradict) or `all` (messages of every kind: in each round a notarize of each participant
and a notarization, a certification, a nullify and a finalize of some and a finalization of all). In each tenth round, but for
`fork`, participant 0 votes for a second payload too, and where all kinds are there the round has a nullification and evidence
of each kind. `honest` is as `votes` without the second votes, and `forged` has one in each round, with a signature of zeros.
`descending` and `unordered` are as `honest`, with the signers of a round from the last to the first, or in a random order.

`network` is what three nodes send on, one after the other in each round. Each has in an order of its own a notarize of each
participant, the notarization by the first quorum of these, then a finalize of each and the finalization. `node` is what one of
them sends on. `shuffled` has the messages of `network` of all rounds in a random order, and a liar: in each round one
participant notarizes a second payload too. `wrapped` has for each participant and round a notarization that lists its notarize,
and zeros as the signature of every other participant.

The base of the namespaces is `bench`, and participant i has the key whose 32 bytes are the number i, the highest byte first,
unless a NAMESPACE and a KEY for each participant are given, of 64 hexadecimal digits: these are numbered in ascending order, as
`audit` does. With `keys` as the SHAPE the program's arguments are written instead, one a line.

Floods are SHAPEs too: `member` (participant 0 votes once in each round), `two` (and for a second payload), `five` (and with a
nullify and two finalizes), `unsigned` (a notarize of participant 0 in each round, whose signature is 32 zeros), `again` (the
first vote of `member`, so many times), `zeros` and `random` (1000 such bytes for each round), and `fault` (the first vote of
`member` and a byte that begins no message, and then the bytes of `zeros`).
"""
import hashlib
import os
import random
import sys

SHAPES = ("votes", "honest", "descending", "unordered", "forged", "certificates", "fork", "all", "node", "network", "shuffled",
          "wrapped")
FLOODS = ("member", "two", "five", "unsigned", "again", "zeros", "random", "fault")
NODES = 3
BASE, KEYS = b"bench", []
NOTARIZE, NULLIFY, FINALIZE = (BASE + suffix for suffix in (b"_NOTARIZE", b"_NULLIFY", b"_FINALIZE"))


def number(n):
    groups = bytearray()
    while n >= 128:
        groups.append(n % 128 + 128)
        n //= 128
    groups.append(n)
    return bytes(groups)


def take(namespace, keys):
    """Has the messages made under this base by participants with these keys."""
    global BASE, KEYS, NOTARIZE, NULLIFY, FINALIZE
    BASE, KEYS = namespace.encode(), sorted(bytes.fromhex(key) for key in keys)
    NOTARIZE, NULLIFY, FINALIZE = (BASE + suffix for suffix in (b"_NOTARIZE", b"_NULLIFY", b"_FINALIZE"))


def key(participant):
    return KEYS[participant] if KEYS else participant.to_bytes(32, "big")


def round_of(view):
    return number(0) + number(view)


def proposal(view, payload):
    return round_of(view) + number(view - 1) + hashlib.sha256(payload + number(view)).digest()


def attestation(name, participant, message):
    signature = hashlib.sha256(number(len(name)) + name + key(participant) + message).digest()
    return number(participant) + signature


def vote(name, participant, message):
    return message + attestation(name, participant, message)


def certificate(name, signers, message):
    return message + number(len(signers)) + b"".join(attestation(name, i, message) for i in signers)


def every_kind(participants, view):
    proposed, other, here = proposal(view, b"first"), proposal(view, b"second"), round_of(view)
    everybody = range(participants)
    for i in everybody:
        yield b"\x00" + vote(NOTARIZE, i, proposed)
    notarization = certificate(NOTARIZE, everybody, proposed)
    yield b"\x01" + notarization
    yield b"\x02" + notarization
    yield b"\x03" + vote(NULLIFY, view % participants, here)
    for i in everybody[::4]:
        yield b"\x05" + vote(FINALIZE, i, proposed)
    yield b"\x06" + certificate(FINALIZE, everybody, proposed)
    if view % 10 == 0:
        yield b"\x04" + certificate(NULLIFY, everybody, here)
        yield b"\x07" + vote(NOTARIZE, 0, proposed) + vote(NOTARIZE, 0, other)
        yield b"\x08" + vote(FINALIZE, 1, proposed) + vote(FINALIZE, 1, other)
        yield b"\x09" + vote(NULLIFY, 2, here) + vote(FINALIZE, 2, proposed)


def any_order(items, seed):
    """The items in a random order, the same for the same seed."""
    items = list(items)
    random.Random(seed).shuffle(items)
    return items


def sent_on(node, participants, view):
    """What a node has of a round: votes in the order in which it heard them, and certificates of these."""
    proposed, quorum = proposal(view, b"first"), participants - (participants - 1) // 3
    order = any_order(range(participants), NODES * view + node)
    for tag, name in ((0, NOTARIZE), (5, FINALIZE)):
        yield from (bytes([tag]) + vote(name, i, proposed) for i in order)
        yield bytes([tag + 1]) + certificate(name, sorted(order[:quorum]), proposed)


def wrapped(participants, view):
    """Of each participant's notarize a notarization that lists it, and an invalid signature of every other participant."""
    proposed, zeros = proposal(view, b"first"), bytes(32)
    junk = [number(i) + zeros for i in range(participants)]
    for i in range(participants):
        listed = [*junk[:i], attestation(NOTARIZE, i, proposed), *junk[i + 1 :]]
        yield b"\x01" + proposed + number(participants) + b"".join(listed)


def signers(shape, participants, view):
    """Who votes in a round, in order."""
    if shape == "unordered":
        return any_order(range(participants), view)
    return range(participants)[:: -1 if shape == "descending" else 1]


# shapes whose rounds have a function of their own
KINDS = {
    "all": every_kind,
    "node": lambda participants, view: sent_on(0, participants, view),
    "wrapped": wrapped,
}


def messages(shape, participants, view):
    if shape in KINDS:
        yield from KINDS[shape](participants, view)
        return
    proposed, second = proposal(view, b"first"), proposal(view, b"second")
    if shape in ("network", "shuffled"):
        for node in range(NODES):
            yield from sent_on(node, participants, view)
    elif shape in ("certificates", "fork"):
        yield b"\x01" + certificate(NOTARIZE, range(participants), proposed)
    else:
        yield from (b"\x00" + vote(NOTARIZE, i, proposed) for i in signers(shape, participants, view))
    if shape == "fork":
        yield b"\x01" + certificate(NOTARIZE, range(participants), second)
    elif shape == "forged":
        yield b"\x00" + second + number(0) + bytes(32)
    elif shape == "shuffled":
        yield b"\x00" + vote(NOTARIZE, view % participants, second)
    elif shape in ("votes", "certificates") and view % 10 == 0:
        yield b"\x00" + vote(NOTARIZE, 0, second)


def flood(shape, view):
    if shape == "zeros" or shape == "fault" and view > 1:
        return bytes(1000)
    if shape == "random":
        return random.Random(view).randbytes(1000)
    proposed, other, here = proposal(view, b"first"), proposal(view, b"second"), round_of(view)
    if shape == "unsigned":
        return b"\x00" + proposed + number(0) + bytes(32)
    if shape == "again":
        proposed = proposal(1, b"first")
    first = b"\x00" + vote(NOTARIZE, 0, proposed)
    if shape in ("member", "again"):
        return first
    if shape == "fault":
        return first + b"\xff" + bytes(1000)
    first += b"\x00" + vote(NOTARIZE, 0, other)
    if shape == "two":
        return first
    finalizes = b"".join(b"\x05" + vote(FINALIZE, 0, each) for each in (proposed, other))
    return first + b"\x03" + vote(NULLIFY, 0, here) + finalizes


def stream(shape, participants, rounds):
    """The pieces of a stream in order: its messages, or what a flood has of each round."""
    views = range(1, rounds + 1)
    if shape in FLOODS:
        return (flood(shape, view) for view in views)
    made = (message for view in views for message in messages(shape, participants, view))
    return any_order(made, rounds) if shape == "shuffled" else made


def main():
    if "--help" in sys.argv:
        print(__doc__)
        return
    given = len(sys.argv) - 5
    if len(sys.argv) < 4 or sys.argv[1] not in ("keys", *SHAPES, *FLOODS) or given >= 0 and given != int(sys.argv[2]):
        sys.exit(__doc__)
    shape, participants, rounds = sys.argv[1], int(sys.argv[2]), int(sys.argv[3])
    if given >= 0:
        take(sys.argv[4], sys.argv[5:])
    if shape == "keys":
        print(BASE.decode(), *(key(participant).hex() for participant in range(participants)), sep="\n")
        return
    for piece in stream(shape, participants, rounds):
        sys.stdout.buffer.write(piece)


if __name__ == "__main__":
    try:
        main()
        sys.stdout.flush()
    except BrokenPipeError:
        # whoever read the stream has enough of it
        os.dup2(os.open(os.devnull, os.O_WRONLY), sys.stdout.fileno())
        sys.exit(1)
