"""Compiles `audit` as it stands and runs it on the sample stream, without proving anything."""

import sys

from .common import say, tried


def main():
    say("compiling the program, unproved: about half a minute")
    print(tried("audit").decode(), end="")
    print("Nothing was proved: `make audit` proves and builds this program, `make test` proves everything.", file=sys.stderr)
