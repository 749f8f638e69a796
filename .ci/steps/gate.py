"""Proves and tests everything, and then tries what was built as its users would.

First all mutants have to fit the code, linters have to find nothing, and the documents have to be as the sources have them;
which of their sentences are too long is said and no more. Then `rt ci` proves and builds, and the gate's mutants are tried. Of
what was built, the rest is tried side by side, beside the last mutants. The last line counts what passed and what failed.
"""

import concurrent.futures
import os
import re
import subprocess
import sys
import time

from . import documents, lint, mutants, sentences
from .common import ROOT, crates, fail, say
from .proving import prove

# Side by side, and what each says in this order: the words of a step each.
STEPS = [
    "library",
    "bindings",
    "packages",
    "commands",
    "runs audit",
    "runs audit_stored",
    "compacts",
    "splits",
    "listens",
    "inspects",
    "refusals audit",
    "refusals audit_stored",
    "refusals audit_compact",
    "refusals audit_live",
    "refusals audit_split",
    "refusals inspect",
    "refusals simplex_message_tests",
    "refusals simplex_audit_tests",
    "refusals simplex_places_tests",
    "refusals simplex_monitor_tests",
    "refusals simplex_shards_tests",
    "refusals simplex_program_tests",
    "refusals conformance 200",
]
# These call the library, and begin when it is built.
OVER_LIBRARY = {"bindings", "packages", "commands"}
DONE = re.compile(r"rt: (\w+)(?:'s tests)? (?:proved|is kept|are kept)")
FAILED = re.compile(r"(note: )?[^ ]+:[0-9:]+ (error|it is not proved)|.*(NOT (PROVED|REFUSED|TRIED)|FAILED)")


def proofs(trials):
    """Runs `rt ci` and, as soon as libraries are built, begins to try the gate's mutants."""
    status, said = prove(["rt", "ci"], crates(), DONE, shown=True, told=trials.begin, cwd=ROOT)
    said = [line.rstrip("\n") for line in said] or [""]
    if status or said[-1] != f"{len(crates())} passed, 0 failed":
        fail("What failed:", *filter(FAILED.match, said), said[-1])


def tried(trials):
    """How many mutants the prover refused, once it tried all."""
    found = trials.end()
    print(*(mutants.verdict(it, why) for it, why in found), sep="\n")
    missed = [mutants.verdict(it, why) for it, why in found if not mutants.is_right(it, why)]
    if missed or len(found) != len(mutants.edits(gate=True)):
        fail(f"{len(found)} mutants were tried", *missed)
    return sum(not it.means_the_same for it, _ in found)


def step(name, begin):
    """Runs a step: whether it passed, and what it says. It is said when it ended, and how."""
    command = [sys.executable, ROOT / ".ci", *name.split()]
    how = {"stdin": subprocess.DEVNULL, "stdout": subprocess.PIPE, "stderr": subprocess.STDOUT, "errors": "replace"}
    done = subprocess.run(command, env=os.environ | {"BUILT": "1", "LIBRARY": "1"}, **how)
    say(f"{'FAILED' if done.returncode else 'passed'} after {time.time() - begin:.0f} seconds: {name}")
    return done.returncode == 0, done.stdout


def side_by_side():
    """Runs all steps, prints what they say, and returns whether all passed."""
    say(f"{len(STEPS)} steps and the mutants that are left, side by side, which take some minutes")
    begin, passed = time.time(), []
    with concurrent.futures.ThreadPoolExecutor(len(STEPS)) as pool:
        library = pool.submit(step, "library", begin)

        def behind(name, begin):
            return step(name, begin) if library.result()[0] else (False, "")

        others = [pool.submit(behind if it in OVER_LIBRARY else step, it, begin) for it in STEPS if it != "library"]
        for it in [library, *others]:
            print(it.result()[1], end="")
            passed.append(it.result()[0])
    return all(passed)


def main():
    if mutants.main() or lint.main() or documents.main() or sentences.main("--counts"):
        return 1
    trials = mutants.Trials()
    with concurrent.futures.ThreadPoolExecutor(1) as pool:
        try:
            proofs(trials)
            refused = pool.submit(tried, trials)
            if not side_by_side():
                return 1
            print(f"{len(crates()) + refused.result()} passed, 0 failed")
        finally:
            trials.stop()
    return 0
