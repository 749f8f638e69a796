"""Sends votes to a node of bindings/ in batches, kills it now and then, and compares what it prints with what was signed."""

import contextlib
import random
import socket
import subprocess

from .common import fail, passed

PARTICIPANTS, VIEWS, SIGNATURE = 7, 40, 64


def vote(view, signer, payload):
    """A notarize of epoch 3 whose signature the sender found valid."""
    return bytes([0, 3, view, 0, *[payload] * 32, signer, *[0xEE] * SIGNATURE, 1])


def votes(chance):
    """Votes of some views in any order, with a liar in each third: his votes come far from each other, some after the rest."""
    all_of = [(chance.random(), vote(view, signer, 6)) for view in range(1, VIEWS) for signer in range(PARTICIPANTS)]
    liars = {(view, view % PARTICIPANTS) for view in range(1, VIEWS, 3)}
    all_of += [(2 * chance.random(), vote(view, signer, 7)) for view, signer in liars]
    return [one for _, one in sorted(all_of)], {f"3 {view} {signer} conflicting-notarize" for view, signer in liars}


def batches(chance, messages):
    """Whole messages, so that a batch can be sent again."""
    while messages:
        count = chance.randrange(1, 30)
        yield b"".join(messages[:count])
        messages = messages[count:]


@contextlib.contextmanager
def node(listener, command, state, lines):
    """A node that is connected. What it printed is noted, whether it ends or is killed."""
    words = [*command, str(listener.getsockname()[1]), str(state), str(PARTICIPANTS)]
    with subprocess.Popen(words, stdout=subprocess.PIPE, stderr=subprocess.PIPE, text=True) as process:
        sender, _ = listener.accept()
        sender.settimeout(30)
        with sender:
            yield process, sender
        out, said = process.communicate(timeout=30)
        lines += out.splitlines()
        if process.returncode not in (0, -9):
            fail(f"{command[0]} ended with status {process.returncode}", said)


def sends(process, sender, batch, is_killed):
    """Sends a batch, and returns whether the node stored it, as far as it said so."""
    sender.sendall(len(batch).to_bytes(4, "little") + batch)
    if is_killed:
        process.kill()
        return False
    return sender.recv(1) == b"\n"


def listens(work, *command):
    """A node is sent a stream, and killed at each fifth batch or so. A batch that it did not say it stored is sent again."""
    chance = random.Random(7)
    messages, liars = votes(chance)
    state, lines, waiting = work / "state", [], list(batches(chance, messages))
    state.unlink(missing_ok=True)
    with socket.create_server(("127.0.0.1", 0)) as listener:
        listener.settimeout(30)
        while waiting:
            with node(listener, command, state, lines) as (process, sender):
                while waiting and sends(process, sender, waiting[0], chance.random() < 0.2):
                    waiting.pop(0)
    told = {" ".join(line.split(" ")[:4]) for line in lines}
    if told != liars:
        fail(f"{' '.join(map(str, command))} told of others than signed twice:", *sorted(told ^ liars))
    passed.append(command)
