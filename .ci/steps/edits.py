"""Edits of mutants/: what each changes, and which can be tried at once."""

import dataclasses
import re

from .common import ROOT
from .functions import functions

IMPORTS = re.compile(r"(use [^;]*; ?)+$")
ADDED = re.compile(r"\s*(pub )?fn ")


@dataclasses.dataclass
class Edit:
    """A mutant: its name, its crate, and the texts that it puts in place of others, as (path, old, new). Or an edit that means
    the same as what it changes, which the prover must not refuse."""

    name: str
    crate: str
    pairs: list
    means_the_same: bool = False

    def __str__(self):
        return f"{self.crate}/{self.name}"

    def text(self, path):
        return (ROOT / "crates" / self.crate / path).read_text()

    def applied(self, texts):
        """These texts of files, edited, with those of other files that it changes; or None, and what does not stand once."""
        texts = dict(texts)
        for path, old, new in self.pairs:
            if path not in texts:
                if not (ROOT / "crates" / self.crate / path).is_file():
                    return None, path
                texts[path] = self.text(path)
            if texts[path].count(old) != 1:
                return None, old
            texts[path] = texts[path].replace(old, new)
        return texts, ""

    def places(self):
        """The functions that it changes, and None if it changes what is none. Imports, and a function that it adds before the
        comment of another, count as nothing."""
        found = set()
        for path, old, new in self.pairs:
            is_behind = old.lstrip().startswith("///") and new.endswith(old.lstrip())
            if IMPORTS.match(old) and IMPORTS.match(new) or is_behind and ADDED.match(new):
                continue
            text = self.text(path)
            line = text.count("\n", 0, text.find(old)) if text.count(old) == 1 else None
            found.add(next((it for it in functions(path, text) if line in it.body), None))
        return found

    def turned(self):
        """The names of the functions that it changes, and whether it changes nothing else."""
        found = self.places()
        return {it.name for it in found - {None}}, None not in found

    def reason(self, refusals):
        """Why it is refused by these refusals of functions: by one of its functions, or by any if it changes what is none."""
        names, whole = self.turned()
        return next((why for place, why in refusals if not whole or any(f"::{it}::" in f"::{place}::" for it in names)), "")


def edit(file):
    """Reads a mutant: after `file:` come pairs of `old:` and `new:`, each text a line."""
    pairs, path, old = [], "", ""
    for line in file.read_text().splitlines():
        word, _, rest = line.partition(":")
        rest = rest.removeprefix(" ")
        if word == "file":
            path = rest.strip()
        elif word == "old":
            old = rest
        elif word == "new":
            pairs.append((path, old, rest))
    return Edit(file.stem, file.relative_to(ROOT / "mutants").parts[0], pairs, file.parent.name == "same")


def edits(crate="*", gate=False):
    """The mutants of a crate, or of all, and the edits that mean the same: those of the gate, or all."""
    places = ["gate/*.edit", "gate/same/*.edit"] + ([] if gate else ["*.edit"])
    return [edit(it) for place in places for it in sorted((ROOT / "mutants").glob(f"{crate}/{place}"))]


def together(mutants):
    """The files that mutants change, with all of their changes; or None where a text does not stand once."""
    texts = {}
    for it in mutants:
        texts, _ = it.applied(texts)
        if texts is None:
            return None
    return texts


def batches(mutants):
    """Lists of mutants that can be tried at once: each changes functions of its own, and nothing else. One that changes what is
    no function is tried alone."""
    alone, shared = [], []
    for it in mutants:
        names, whole = it.turned()
        fits = (some for some in shared if not any(names & other.turned()[0] for other in some) and together([*some, it]))
        some = next(fits, None) if whole else None
        if some:
            some.append(it)
        else:
            (shared if whole else alone).append([it])
    return [*shared, *alone]
