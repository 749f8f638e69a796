"""`vectors VECTORS ANSWERS`: gives the built `conformance` the test vectors of a file, and compares its answers with another.

PROGRAM names another program. The first five vectors that it answers otherwise are shown, and how many are.
"""

import os
import pathlib
import subprocess

from .common import program


def compared(*texts):
    """Compares answers to test vectors: vectors, wanted answers and those of a program, a line each. Returns whether they
    differ."""
    vectors, wanted, got = (it.splitlines() for it in texts)
    every = [*zip(vectors, wanted, got)]
    bad = [it for it in every if it[1] != it[2]]
    for vector, answer, said in bad[:5]:
        print(vector, f"  wanted {answer}", f"  got    {said}", sep="\n")
    otherwise = f", {len(bad)} otherwise" if bad else ""
    print(f"{len(every) - len(bad)} test vectors answered as they should be{otherwise}")
    if not len(vectors) == len(wanted) == len(got):
        print(f"of {len(vectors)}, with {len(wanted)} wanted answers and {len(got)} answers")
        return True
    return bool(bad)


def main(vectors, answers):
    asked, told = (pathlib.Path(it).read_text() for it in (vectors, answers))
    command = [os.environ.get("PROGRAM") or program("conformance")]
    done = subprocess.run(command, input=asked, stdout=subprocess.PIPE, text=True)
    return compared(asked, told, done.stdout) or done.returncode
