"""`times CRATE [--test]`: says where the time of a crate's check goes, by function and by what is checked of it.

The libraries below the crate have to be built here, as `make test` does. A check keeps each module when it is done with it, so
the time between two of them is that of the second. Of a function, `Lts` are the steps of its code, with the layout of all that
it holds; `Tie`, `Layout`, `Reads` and `Kinds` are of its code, too; `Goals`, `Answers` and `Proof` are what has to be proved.
"""

import collections
import pathlib
import re
import subprocess
import tempfile

from .common import ROOT, fail
from .mutants import checking

MODULE = re.compile(r"Rattle-\w+-(?:proofs|specs)\.(.*)\.([A-Z]\w*)(?:[-\d]*)(?:\.decls)?$")


def spent(kept):
    """Of each module, its name and the seconds that its check took, from the files that a check kept."""
    files = sorted((it.stat().st_mtime_ns, it.stem) for it in pathlib.Path(kept).rglob("*.oantt"))
    return [(name, (end - begin) / 1e9) for (begin, _), (end, name) in zip(files, files[1:])]


def largest(times, count):
    """The largest of these times, a line each."""
    return [f"{seconds:7.1f} {name}" for name, seconds in times.most_common(count)]


def main(crate, *options):
    *words, source = checking(crate)
    with tempfile.TemporaryDirectory() as kept:
        command = [*words, "--incremental", kept, *options, source]
        done = subprocess.run(command, cwd=ROOT / "crates" / crate, capture_output=True, text=True, errors="replace")
        modules = spent(kept)
    if not modules:
        fail(f"{crate} was not checked", *done.stdout.splitlines()[-5:])
    functions, kinds = collections.Counter(), collections.Counter()
    for name, seconds in modules:
        found = MODULE.match(name)
        functions[found[1].replace(".", "::") if found else name] += seconds
        kinds[found[2] if found else "others"] += seconds
    print(f"{sum(kinds.values()):.0f} seconds in {len(modules)} modules", *largest(kinds, 8), "", sep="\n")
    print(*largest(functions, 30), sep="\n")
    return done.returncode
