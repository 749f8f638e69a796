"""`clauses [check]`: writes docs/CLAUSES.md from the sources, or says whether it is as they have it.

The page has every public function with the clauses of its contract.
"""

import re

from .common import ROOT, crates, written

PAGE = ROOT / "docs/CLAUSES.md"
HEAD = """# Clauses

Every public function with the names of its clauses, by crate and by file of `crates/CRATE/src/`, without `.rt`; those of
callers, of tests and inside the detector are left out. Step `clauses` makes this page of the sources, the gate compares it.

- Behind a type or a trait stand its functions, behind a function its clauses. What a clause states stands in the file.
  `read_u64 and _u32` are `read_u64` and `read_u32`.
- Clauses are `ensures`, but those before a semicolon, which are `requires`. `_` is one without a name.
- A function without parentheses has an `ensures` without a name. Those without a clause are counted; they are still proved to
  be safe and to end.
- A function of a trait binds each impl. `<T as Trait>` has the clauses beyond the trait's. "Ghost" are members of a trait that
  are a meaning or a law.
- A file is public as a module, or by the module of its folder or the one behind it.
- A clause about a returned value says nothing after an allocation failure.
"""
FUNCTION = re.compile(r"( *)(pub )?(?:const |final |unsafe |extern \"C\" )*fn (\w+)")
CLAUSE = re.compile(r" *(requires|ensures)(?: (\w+))? \{")
GHOST = re.compile(r"    ghost (\w+): \{")
LEFT_OUT = re.compile(r"faulty_io|conformance|examples|.*_tests$")
# public for the crates of the detector alone
INSIDE = {
    "simplex_rules": {"certified_subjects", "pruning"},
    "simplex_ballots": {"apart", "round_votes"},
    "simplex_detector": {"round_map", "round_state"},
}


def header(lines, at):
    """The header of the item that begins there, up to its brace."""
    return " ".join(it.strip() for it in lines[at : next(n for n in range(at, len(lines)) if "{" in lines[n]) + 1])


def without_parameters(text):
    """A type or a trait without what stands in angle brackets."""
    while (shorter := re.sub(r"<[^<>]*>", "", text)) != text:
        text = shorter
    return text.strip()


def implemented(head):
    """The trait, if there is one, and the type of an `impl`."""
    plain = without_parameters(re.sub(r"\bwhere\b.*|\{.*", "", head).replace("->", ""))
    trait, _, of = plain.removeprefix("impl").rpartition(" for ")
    return trait.strip(), of.strip(" &").split("::")[-1]


def contract(lines, at, indent):
    """The clauses of the function that begins there, each its word and its name."""
    clauses, depth = [], 0
    for line in lines[at:]:
        if clause := CLAUSE.match(line):
            clauses.append((clause[1], clause[2]))
        body = re.match(rf" {{{indent}}}(?! )", line) and re.search(r"(?:^ *|\s)\{\}?$", line)
        depth += line.count("{") + line.count("(") - line.count("}") - line.count(")")
        if body or depth == 0 and line.endswith(";"):
            return clauses
    return clauses


def items(path):
    """What a file declares: its kind, the trait or impl around it, whether it is public, its name, its clauses."""
    lines, owner = path.read_text().splitlines(), None
    for at, line in enumerate(lines):
        if line.startswith("#[cfg(test)]"):
            return
        if re.match(r"(unsafe )?impl\b", line):
            owner = ("impl", *implemented(header(lines, at)))
        elif found := re.match(r"(pub )?trait (\w+)", line):
            owner = ("trait", found[2], bool(found[1]))
        elif found := re.match(r"(pub )?(?:struct|enum|union) (\w+)", line):
            yield "type", None, bool(found[1]), found[2], []
        elif line == "}":
            owner = None
        if (found := FUNCTION.match(line)) and len(found[1]) in (0, 4):
            inside = owner if found[1] else None
            yield "fn", inside, bool(found[2]), found[3], contract(lines, at, len(found[1]))
        elif (found := GHOST.match(line)) and owner and owner[0] == "trait":
            yield "ghost", owner, True, found[1], []


def modules(source):
    """The modules of a crate: of each its path, its file, and whether it is public."""
    roots = [it for it in ("lib.rt", "main.rt") if (source / it).exists()]
    found, left = {}, [("", source / roots[0], source, True)]
    while left:
        name, file, folder, public = left.pop(0)
        found[name] = (file, public)
        for word, child in re.findall(r"(?m)^(pub )?mod (\w+);", file.read_text()):
            path = f"{name}::{child}".lstrip(":")
            left.append((path, folder / f"{child}.rt", folder / child, public and bool(word)))
    return found


def exported(found):
    """Where a public module names what stands in a private one: of that module and name, the public module."""
    homes = {}
    for name, (file, public) in found.items():
        for path, names in re.findall(r"(?ms)^pub use ((?:\w+::)+)(\{[^}]*\}|\w+);", file.read_text() if public else ""):
            path = path.rstrip(":")
            near = path.removeprefix("crate::") if path.startswith("crate::") else f"{name}::{path}".lstrip(":")
            for it in re.findall(r"\w+", names):
                homes[near, it] = name
    return homes


def names(clauses):
    """The names of clauses in their order, conditions first, before a semicolon."""
    asked = [name or "_" for word, name in clauses if word == "requires"]
    said = [name for word, name in clauses if word == "ensures" and name]
    return ", ".join(asked) + ";" * bool(asked) + " " * bool(asked and said) + ", ".join(said)


def joined(members):
    """Names by `and`: of one that begins as the name before it up to that one's last `_`, only what is behind that."""
    shown = members[:1]
    for last, it in zip(members, members[1:]):
        stem = last.rpartition("_")[0]
        shown.append(it.removeprefix(stem) if stem and it.startswith(f"{stem}_") else it)
    return " and ".join(shown)


def gathered(functions):
    """The functions of an owner, each with its clauses, and those that have the same ones together."""
    alike = {}
    for member, shown in functions:
        alike.setdefault(shown, []).append(member)
    return ", ".join(f"{joined(of)} ({shown})" if shown else ", ".join(of) for shown, of in alike.items())


def described(entries):
    """What is listed of a file: each type or trait with its functions and its ghost members, and functions alone."""
    owners, ghosts, without = {}, {}, 0
    for kind, name, clauses in entries:
        owner, _, member = name.rpartition("::")
        if kind == "ghost":
            ghosts.setdefault(owner, []).append(member)
        elif clauses:
            owners.setdefault(owner, []).append((member, names(clauses)))
        else:
            without += 1
    spans = []
    for owner in dict.fromkeys([*owners, *ghosts]):
        parts = [gathered(owners.get(owner, [])), f"ghost {', '.join(ghosts[owner])}" if owner in ghosts else ""]
        spans.append(f"`{owner and f'{owner}: '}{'; '.join(filter(None, parts))}`")
    return " ".join(spans + ([f"without a clause {without}"] if without else []))


def of_traits():
    """The clauses with a name of each function of a trait, by the trait's name and the function's."""
    files = [file for crate in crates() for file in (ROOT / "crates" / crate / "src").rglob("*.rt")]
    every = [it for file in files for it in items(file)]
    return {
        (owner[1], name): {it for it in clauses if it[1]}
        for kind, owner, _, name, clauses in every
        if kind == "fn" and owner and owner[0] == "trait"
    }


def listed(found, bound):
    """The items of each public module, by the file in which they stand. `bound` has the clauses that traits have."""
    homes = exported(found)
    every = [(module, it) for module, (file, _) in found.items() for it in items(file)]

    def home(module, name):
        """The public module of a name that stands in this module, if there is one."""
        return module if found[module][1] else homes.get((module, name))

    types = {name: home(module, name) for module, (kind, _, public, name, _) in every if kind == "type" and public}
    sections = {name: {} for name, (_, public) in found.items() if public}
    for module, (kind, owner, public, name, clauses) in every:
        if kind == "type":
            continue
        if owner is None:
            place = home(module, name) if public else None
        elif owner[0] == "trait":
            place = home(module, owner[1]) if owner[2] else None
            name = f"{owner[1]}::{name}"
        else:
            trait, of = owner[1:]
            clauses = [it for it in clauses if it not in bound.get((trait, name), ())]
            place = types.get(of, home(module, of) if trait else None) if (clauses if trait else public) else None
            name = f"<{of} as {trait}>::{name}" if trait else f"{of}::{name}"
        if place is not None:
            sections[place].setdefault(found[module][0], []).append((kind, name, clauses))
    return {module: files for module, files in sections.items() if files}


def page():
    """The text of the page."""
    lines, bound = [HEAD], of_traits()
    for crate in crates():
        source = ROOT / "crates" / crate / "src"
        sections = {} if LEFT_OUT.match(crate) else listed(modules(source), bound)
        lines += [f"## {crate}\n"] if sections else []
        for module, files in sections.items():
            if module in INSIDE.get(crate, ()):
                continue
            for file, entries in files.items():
                path = file.relative_to(source).as_posix()
                folder, own = path.rpartition("/")[0], path.removesuffix(".rt")
                public = f" in `{module}`" if module and module.replace("::", "/") not in (folder, own) else ""
                lines.append(f"- {own}{public} {described(entries)}")
        lines += [""] if sections else []
    return "\n".join(lines).rstrip() + "\n"


def main(check=""):
    return written(PAGE, page(), check, "clauses")
