"""Answers the stored test vectors with `conformance` as it stands, without proving anything, and compares the answers."""

from .common import ROOT, say, tried
from .vectors import compared


def main():
    say("compiling the program, unproved, which then answers: about a minute")
    asked, told = ((ROOT / "crates/conformance" / it).read_text() for it in ("stdin", "stdout"))
    return compared(asked, told, tried("conformance").decode())
