"""A node that listens to votes and is killed now and then:

    live.py PORT STATE PARTICIPANTS

It connects to PORT on this machine and reads batches: four bytes with the batch's length, the first the lowest, and the batch,
whole messages with signatures of 64 bytes and verdicts. A batch that comes again changes nothing. It prints a line for each
evidence that a batch completes. Then it stores what it holds in the file STATE, and sends a byte. Started again, it goes on
from STATE, and prints what is in it again.
"""
import os
import pathlib
import socket
import sys

from simplex_audit import Committees
from simplex_monitor import Monitor


def batches(stream):
    """What comes until the sender closes the connection."""
    while head := stream.read(4):
        yield stream.read(int.from_bytes(head, "little"))


def tell(evidence):
    for one in evidence:
        print(one.line, flush=True)


def main(port, state, participants):
    state, committees = pathlib.Path(state), Committees.every(64, int(participants))
    monitor = Monitor.resume(committees, state.read_bytes() if state.exists() else b"")
    tell(monitor.news())
    with socket.create_connection(("127.0.0.1", int(port))) as sender, sender.makefile("rb") as stream:
        for batch in batches(stream):
            tell(monitor.feed(batch))
            new = state.with_suffix(".new")
            new.write_bytes(monitor.held())
            os.replace(new, state)
            sender.sendall(b"\n")


if __name__ == "__main__":
    main(*sys.argv[1:])
