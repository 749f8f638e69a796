"""`built PROGRAM`: proves and builds a program, and runs it on its sample stream."""

import re
import sys
import tempfile

from .common import ROOT, arguments, below
from .proving import prove

CRATE = re.compile(r"crate (\w+): ")


def main(name):
    folder = ROOT / "crates" / name
    with open(folder / "stdin", "rb") as stream, tempfile.TemporaryFile("w+") as told:
        words = ["rt", "run", "--", *arguments(name)]
        status, said = prove(words, below(name), CRATE, stdout=told, cwd=folder, stdin=stream)
        told.seek(0)
        print(told.read(), end="")
    if status:
        sys.stderr.writelines(said[-20:])
    return status
