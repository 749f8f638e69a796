"""`mutants [CRATE ..]`: says whether all mutants fit the code, or has the prover try those of these crates.

A mutant is an edit of mutants/CRATE/, or of mutants/CRATE/gate/, which the gate tries. The prover must refuse the function that
it changes. CRATE/NAME stands for one mutant, `--all` for those of all crates. One check tries mutants of several functions at
once, and what was found is kept under `~/.cache`. mutants/refused.txt has the day when this step last saw each refused.

A check that is killed, as when memory runs out, is run once more. If it is killed again the step ends: its mutants are not
tried.

Two controls show that it is the mutants that are refused. A check of a crate's mutants has to prove a function, too, that is
as it stands: the shortest of those that other mutants of the crate change. If it calls one that is changed, it is checked
alone. An edit of mutants/CRATE/gate/same/ means the same as what it changes: tried beside mutants, it must not be refused.
"""

import concurrent.futures
import datetime
import functools
import hashlib
import os
import pathlib
import re
import shutil
import signal
import subprocess
import tempfile
import threading

from .common import ROOT, below, crates, fail
from .edits import batches, edits, together
from .functions import functions

LIST = ROOT / "mutants/refused.txt"
PARTS = ("src", "specs", "proofs")
# what was refused on this machine, under the sum of all that was read
KEPT = pathlib.Path(os.environ.get("XDG_CACHE_HOME") or pathlib.Path.home() / ".cache") / "simplex_mutants"
# what a check says at last if it proved all, where it finds an error, and a goal that nothing proves
PROVED = re.compile(r"only=(\d+) proved=\1$")
ERROR = re.compile(r"(?:\./)?(\S+)\.(?:antt|rt):\d+:\d+: (error: .*)")
GOAL = re.compile(r"note: (src/\S+):(\d+):\d+: (it is not proved .*)")
# that a text speaks of what is no longer there, or cannot be read
GONE = re.compile(r"error: .*(has no (field|`)|is no(t in scope| name)|was not admitted|operand is missing|cannot continue)")


def fit():
    """Says which mutants do not fit, and returns how many."""
    every = edits()
    bad = [(it, misfit) for it in every for texts, misfit in [it.applied({})] if texts is None]
    for it, misfit in bad:
        print(f"{it}: not once in its file: {misfit}")
    print(f"{len(every) - len(bad)} of {len(every)} edits fit the code, the gate tries {len(edits(gate=True))} of them")
    return len(bad)


@functools.cache
def kit():
    """The folder of the toolchain."""
    return pathlib.Path(subprocess.run(["rt", "doc"], stdout=subprocess.PIPE, text=True, check=True).stdout.strip()).parent


@functools.cache
def sum_of(crate):
    """A sum of all that a check of the crate reads, and of what tries its mutants."""
    files = [kit() / "KIT-ID", *(pathlib.Path(__file__).with_stem(it) for it in ("edits", "functions", "mutants"))]
    for it in sorted(below(crate)):
        files += [file for part in PARTS for file in sorted((ROOT / "crates" / it / part).rglob("*")) if file.is_file()]
    uses = [(it, crates()[it]) for it in sorted(below(crate))]
    sums = [(it.name, hashlib.sha256(it.read_bytes()).hexdigest()) for it in files]
    return hashlib.sha256(repr((uses, sums)).encode()).hexdigest()


def checking(crate):
    """The words that check a crate over the libraries that `rt` has built."""
    own = {it: ROOT / f"crates/{it}/out/rlib" for it in below(crate) - {crate}}
    words = [kit() / "bin/rattle", "check", "--crate-name", crate, "--links", f"{crate}=", "--jobs", "1"]
    for name in ["std", *crates()[crate]]:
        words += ["--extern", f"{name}={own.get(name, kit() / 'rlibs')}/{name}.rlib"]
    for folder in [*own.values(), kit() / "rlibs"]:
        words += ["-L", f"dependency={folder}"]
    words += ["--antt-project", kit() / "rattle/logic/antt-project.json", "--logic-built", kit() / "logic_built"]
    return [*words, next(it for it in ("src/lib.rt", "src/main.rt") if (ROOT / "crates" / crate / it).exists())]


class Trial:
    """Tries a crate's mutants, in a folder in which a check keeps what it proves of the functions that they leave alone."""

    def __init__(self, crate, room):
        self.crate, self.room, self.words, self.stood = crate, pathlib.Path(room), checking(crate), False

    def check(self, texts, names):
        """What a check of these functions says, or of all if none is named, with these texts in the place of the crate's."""
        place = self.room / "crate"
        for part in PARTS:
            if (ROOT / "crates" / self.crate / part).is_dir():
                shutil.copytree(ROOT / "crates" / self.crate / part, place / part)
        for path, text in texts.items():
            (place / path).write_text(text)
        only = [word for name in sorted(names) for word in ("--only", name)]
        how = {"stdin": subprocess.DEVNULL, "stdout": subprocess.PIPE, "stderr": subprocess.STDOUT, "errors": "replace"}
        # so that they are not all left for the end of the gate, nor keep `rt ci` long
        command = ["nice", "-n", "3", *self.words, "--incremental", self.room / "kept", *only]
        done = subprocess.run(command, cwd=place, **how)
        if done.returncode == -signal.SIGKILL:
            done = subprocess.run(command, cwd=place, **how)
        shutil.rmtree(place)
        if done.returncode == -signal.SIGKILL:
            fail(f"{self.crate}: NOT TRIED: its check was killed twice, most likely for memory: {' '.join(sorted(names))}")
        return done.stdout.splitlines()

    def control(self, mutants):
        """The shortest of the functions that mutants of the crate change and these leave alone, if there is one."""
        found = sorted((len(place.lines), place.name) for it in edits(self.crate) for place in it.places() if place)
        return {*[name for _, name in found if name not in changed(mutants)][:1]}

    def stands(self):
        """Whether the control was proved beside mutants, or is proved alone."""
        return self.stood or is_proved(self.check({}, self.control([])))

    def batch(self, mutants):
        """Tries mutants at once: yields each, with why the prover refuses it, or nothing where it does not. It says nothing of
        a function that calls one that is refused, so those of which it says nothing are tried once more."""
        texts, control = together(mutants), set() if self.stood else self.control(mutants)
        # one that changes no function is tried in a check of all
        said = self.check(texts, changed(mutants) and changed(mutants) | control)
        self.stood = self.stood or any(f"fn {self.crate}::{it}: proved" in said for it in control)
        reasons, left = refusals(said, texts), []
        for it in mutants:
            why = it.reason(reasons) or (self.alone(it, texts, said) if len(mutants) == 1 else "")
            if why or len(mutants) == 1:
                yield it, why
            else:
                left.append(it)
        for some in [left] if 0 < len(left) < len(mutants) else [[it] for it in left]:
            yield from self.batch(some)

    def alone(self, mutant, texts, said):
        """Why a mutant is refused that was tried alone, if no goal and no answer of its function says so."""
        if mutant.means_the_same:
            return "" if is_proved(said) else "it is not proved"
        return "" if mutant.turned()[1] else mutant.reason(refusals(self.check(texts, ()), texts))


def is_proved(said):
    """Whether a check proved all that it was to."""
    return any(PROVED.match(line) for line in said)


def changed(mutants):
    """The names of the functions that mutants change."""
    return set().union(*(it.turned()[0] for it in mutants))


def refusals(said, texts):
    """The functions that a check refuses, and why, if these files were changed. A goal that is gone is no reason."""
    turned = [(path, it) for path, text in texts.items() for it in functions(path, text)]
    found = []
    for line in said:
        goal, error = GOAL.match(line), ERROR.match(line)
        if goal:
            found += [(it.name, goal[3]) for path, it in turned if path == goal[1] and int(goal[2]) - 1 in it.lines]
        if error and not GONE.match(error[2]):
            parts = [it.removeprefix("+") for it in error[1].split("/")[1:-1] if it != "fn"]
            found.append(("::".join(parts), error[2]))
    return found


def tried(mutants):
    """Has the prover try mutants of one crate, unless it has refused them before: yields each, with why it is refused, or
    nothing where it is not."""
    crate, new = mutants[0].crate, []
    places = {str(it): KEPT / hashlib.sha256(f"{sum_of(crate)} {it.pairs}".encode()).hexdigest() for it in mutants}
    for it in mutants:
        if places[str(it)].exists():
            yield it, places[str(it)].read_text()
        else:
            new.append(it)
    KEPT.mkdir(parents=True, exist_ok=True)
    with tempfile.TemporaryDirectory() as room:
        trial = Trial(crate, room)
        found = [it for some in batches(new) for it in trial.batch(some)]
        # nothing is kept of checks that prove nothing
        if new and not trial.stands():
            fail(f"{crate}: what its mutants change is NOT PROVED as it stands")
    for it, why in found:
        if is_right(it, why):
            places[str(it)].write_text(why)
        yield it, why


def is_right(mutant, why):
    """Whether a mutant is refused, or an edit that means the same is not."""
    return bool(why) != mutant.means_the_same


def verdict(mutant, why):
    """What is to be said of a mutant that was tried."""
    if mutant.means_the_same:
        return f"{mutant}: {f'REFUSED, {why}' if why else 'not refused, and it means the same'}"
    return f"{mutant}: {f'refused, {why}' if why else 'NOT REFUSED'}"


class Trials:
    """Tries the mutants of the gate, crate by crate, as soon as the libraries below a crate are built: on half of the
    processors while `rt ci` has more than one crate left to prove, for its memory, and on four at most."""

    def __init__(self):
        self.left = {it.crate: below(it.crate) - {it.crate} for it in edits(gate=True)}
        self.most = min(4, len(os.sched_getaffinity(0)))
        self.pool, self.turns = concurrent.futures.ThreadPoolExecutor(self.most), threading.Semaphore(-(-self.most // 2))
        self.begun, self.built, self.is_late = {}, set(), False
        self.begin()

    def begin(self, *built):
        """Begins what can be tried now that these are built, too."""
        self.built.update(built)
        if not self.is_late and len(crates()) - len(self.built) < 2:
            self.is_late = True
            self.turns.release(self.most)
        for crate in [it for it, needs in self.left.items() if needs <= self.built]:
            del self.left[crate]
            self.begun[crate] = self.pool.submit(self.crate, crate)

    def crate(self, crate):
        with self.turns:
            found = [*tried(edits(crate, gate=True))]
        for it, why in found:
            if not is_right(it, why):
                print(verdict(it, why), flush=True)
        return found

    def end(self):
        """Each mutant, and why it is refused, once all were tried."""
        return [found for it in self.begun.values() for found in it.result()]

    def stop(self):
        """Begins no more."""
        self.pool.shutdown(wait=False, cancel_futures=True)


def note(refused):
    """Notes the day for these mutants, which were refused."""
    days = dict(line.split() for line in LIST.read_text().splitlines()) if LIST.exists() else {}
    today = datetime.datetime.now(datetime.timezone.utc).date().isoformat()
    days = {it: day for it, day in (days | dict.fromkeys(refused, today)).items() if it in set(map(str, edits()))}
    LIST.write_text("".join(f"{name} {day}\n" for name, day in sorted(days.items())))


def main(*names):
    """Each name is that of a crate, or of one mutant, as CRATE/NAME."""
    missed = 0
    for name in dict.fromkeys(it.crate for it in edits()) if names == ("--all",) else names:
        crate = name.partition("/")[0]
        if subprocess.run(["rt", "check"], cwd=ROOT / "crates" / crate, stdin=subprocess.DEVNULL).returncode:
            fail(f"{crate} is not proved as it stands")
        refused = []
        for it, why in tried([it for it in edits(crate) if name in (crate, str(it))] or fail(f"there is no mutant {name}")):
            print(verdict(it, why))
            refused += [str(it)] if why and is_right(it, why) else []
            missed += not is_right(it, why)
        note(refused)
    return min(missed if names else fit(), 1)
