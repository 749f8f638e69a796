"""`trust [check|names]`: writes the tables of docs/TRUST.md from the sources, or says whether they are as these have them, or
prints them with the names of all definitions.

They count definitions and types: those that contracts cite, those that these cite, and so on down to the toolchain's own, with
their lines by crate, comments aside. The page's numbers of mutants are counted, too.
"""

import collections
import re

from .common import ROOT, crates, fail, written

PAGE = ROOT / "docs/TRUST.md"
# Of each table, in the order of the page, where the search begins: contracts of functions, traits with their laws, and ghost
# members that give types their meaning. What a table has is left out of those behind it.
TABLES = {
    "audit": {
        "simplex_audit/src/audit.rt": ["fn audit"],
        "simplex_audit/src/basis.rt": ["ghost basis"],
        "simplex_rules/src/rules.rt": ["ghost scheme"],
        "simplex_evidence/src/types/activity.rt": ["ghost is_value", "ghost fits", "ghost reading", "ghost encoding"],
        "simplex_base/src/codec/parts.rt": ["ghost is_value", "ghost fits", "ghost reading", "ghost encoding"],
    },
    "laws": {
        "simplex_base/src/codec.rt": ["trait Read", "trait Fixed"],
        "simplex_scheme/src/scheme.rt": [
            "trait CertificateScheme", "trait CertificateVerifier", "trait Scheme", "trait Listing",
        ],
    },
    "others": {
        "simplex_audit/src/audit.rt": ["fn audit_deferred"],
        "simplex_audit/src/auditor.rt": ["fn report", "fn rest"],
        "simplex_audit/src/run.rt": ["fn run"],
        "simplex_cli/src/command.rt": ["fn command"],
        "simplex_cli/src/start.rt": ["fn start"],
    },
    "monitor": {
        "simplex_monitor/src/input.rt": ["fn monitor_input"],
        "simplex_monitor/src/monitor.rt": ["fn evidence", "fn splits", "fn votes", "fn held", "fn shorten"],
        "simplex_live/src/live.rt": ["fn start_live"],
    },
    "plain": {
        "simplex_schemes/src/plain.rt": ["ghost keys", "ghost good", "ghost certified", "ghost listed"],
        "simplex_schemes/src/listed.rt": ["ghost is_value", "ghost fits", "ghost reading", "ghost encoding"],
    },
    "shards": {
        "simplex_shards/src/cut.rt": ["fn classes", "fn class_of", "fn range_of"],
        "simplex_shards/src/split.rt": ["fn split"],
        "simplex_shards/src/index.rt": ["fn row", "fn index"],
        "simplex_shards/src/pieces.rt": ["fn rows", "fn parts"],
        "simplex_shards/src/canonical.rt": ["fn canonical", "fn accuses_same"],
        "simplex_shards/src/ranges.rt": ["fn ranges", "fn ranges_are_parts"],
        "simplex_shards/src/classes.rt": ["fn class_ranges"],
        "simplex_shards/src/part.rt": ["fn audit_part"],
        "simplex_shards/src/merge.rt": ["fn merge"],
    },
    "handle": {
        "simplex_handle/src/calls.rt": ["fn new_vouched", "fn new_plain", "fn feed", "fn unverified", "fn prune", "fn report",
                                        "fn votes", "fn held", "fn news", "fn free"],
    },
}
# a relation that callers hand on and need not read
HANDED_ON = {"Stands", "StandsFrom"}
USE = re.compile(r"(?m)^ *(?:ghost |pub )*use Rattle\.(\w+)\.specs\.([\w.]+?)(?:\.\{([^}]*)\}| as (\w+))?;?$")
USE_OF_CODE = re.compile(r"(?ms)^(?:pub )?use (\w+)::([^;]*);")
DEFINITION = re.compile(r"( *)(?:(?:abbrev|pub|unfoldable|opaque|data|record) +)+([^\s:({]+)")


def crate_of(path):
    return path.relative_to(ROOT / "crates").parts[0]


class Source:
    """A file's text, what it imports, and, in `specs/`, its definitions, each its lines without comments."""

    def __init__(self, path):
        self.path, self.text = path, path.read_text()
        self.imports, self.definitions = {}, {}
        for crate, module, names, alias in USE.findall(self.text):
            for name in filter(None, re.split(r",\s*", names)):
                self.imports[name] = (crate, module, name)
            if alias:
                self.imports[alias] = (crate, module, None)
        self.code = dict.fromkeys(re.findall(r"(?m)^pub(?:\(crate\))? (?:struct|enum) (\w+)", self.text), crate_of(path))
        for crate, names in USE_OF_CODE.findall(self.text):
            self.code |= {name: crate_of(path) if crate == "crate" else crate for name in re.findall(r"\w+", names)}
        if path.suffix == ".antt":
            self.find_definitions()

    def find_definitions(self):
        """A definition goes on to the next at its depth, or to an empty line. In a `module _`, which may stand in another, it
        cites the parameters, too."""
        around, current = [], None
        for line in self.text.splitlines():
            depth = (len(line) - len(line.lstrip())) // 2
            found = DEFINITION.match(line)
            if line.lstrip().startswith("module _"):
                around, current = [*around[:depth], line], None
            elif found and depth <= len(around):
                around = around[:depth]
                current = self.definitions.setdefault(found[2], [*around])
                current.append(line)
            elif not line.strip() or depth <= len(around) and line.lstrip().startswith("--"):
                current = None
            elif current is not None and not line.lstrip().startswith("--"):
                current.append(line)

    def owner(self, name):
        """The definition of this name, or the one that has it as a case or a field."""
        if name in self.definitions:
            return name
        member = re.compile(rf"^ +(?:pub )?{re.escape(name)} :")
        return next((it for it, lines in self.definitions.items() if any(map(member.match, lines))), None)


class Cited:
    """What was cited so far: definitions, each with its number of lines, and types of the code."""

    def __init__(self):
        self.definitions, self.types, self.sources = {}, {}, {}
        self.declared = {}
        for path in sorted(ROOT.glob("crates/*/src/**/*.rt")):
            for kind in re.findall(r"(?m)^pub(?:\(crate\))? (?:struct|enum) (\w+)", path.read_text()):
                self.declared[crate_of(path), kind] = path

    def source(self, path):
        if path not in self.sources:
            self.sources[path] = Source(path) if path.exists() else None
        return self.sources[path]

    def cite(self, source, text):
        """Cites all that a text of this file names."""
        words = re.findall(r"[\w◌]+(?:\.\w+)?", text)
        infix = [it for it in source.imports if "◌" in it and set(it.split("◌")) - {""} <= set(text.split())]
        for word in sorted({*words, *infix}):
            name, _, member = word.partition(".")
            if name in source.imports:
                crate, module, given = source.imports[name]
                self.visit(crate, module, given or member)
            elif name in source.definitions:
                self.define(source, name)
            elif path := self.declared.get((source.code.get(name), name)):
                self.type(path, name)

    def type(self, path, kind):
        """Cites a type of the code, and what its fields and its view as a value name."""
        if (path, kind) not in self.types:
            lines = type_lines(self.source(path).text, kind)
            self.types[path, kind] = len(lines)
            self.cite(self.source(path), "\n".join(lines))

    def visit(self, crate, module, name):
        """Cites a name that is imported: of a type of the code, or of a definition. What the kit defines ends the search."""
        if not (ROOT / "crates" / crate).is_dir() or name in HANDED_ON:
            return
        # what the toolchain derives of a type of the code is cited as the type
        if module.startswith(("declared.", "contracts.")):
            *parts, kind = [it for it in module.split(".")[1:] if it != "TheVariants"]
            self.type(ROOT / "crates" / crate / "src" / ("/".join(parts) + ".rt"), kind)
            return
        source = self.source(ROOT / "crates" / crate / "specs" / (module.replace(".", "/") + ".antt"))
        owner = source and source.owner(name)
        if not owner:
            fail(f"no definition of {name} in {module} of {crate}")
        self.define(source, owner)

    def define(self, source, name):
        if (source.path, name) not in self.definitions:
            lines = source.definitions[name]
            self.definitions[source.path, name] = sum(not it.lstrip().startswith("module _") for it in lines)
            self.cite(source, "\n".join(lines))

    def cite_root(self, path, item):
        """Cites the contract of a function, a trait, or the ghost members of a name, of a file of code."""
        source = self.source(ROOT / "crates" / path)
        end = {"fn": r"^ *(?:\{\}?|.*\};)$", "trait": r"^\}$", "ghost": r"\};$"}[item.split()[0]]
        found = re.findall(rf"(?ms)^ *(?:pub )?{item}\b.*?{end}", source.text)
        if not found:
            fail(f"{path} has no {item}")
        for text in found:
            text = re.sub(r"(?s)\} = \{.*?\};", "};", text) if item.startswith("trait") else text
            self.cite(source, re.sub(r"(?m)^ *(//|ghost use).*$", "", text))


def type_lines(text, kind):
    """The lines of a type, and of how it is seen as a value, without comments and attributes."""
    found = re.findall(rf"(?ms)^(?:pub(?:\(crate\))? )?(?:struct|enum) {kind}\b(?:[^\n]*;$|.*?^\}}$)", text)
    found += re.findall(rf"(?ms)^impl(?:<[^\n]*>)? Model for {kind}\b.*?^\}}$", text)
    lines = [it.strip() for it in "\n".join(found).splitlines()]
    return [it for it in lines if it and not it.startswith(("//", "#[", "ghost use"))]


def table(cited, before, named):
    """The rows of a table, one for each crate: all that is cited and not in what was cited before. Definitions that are not
    named are counted."""
    order = [*crates()][::-1]
    lines, names, kinds = collections.Counter(), {}, {}
    for (path, name), count in cited.definitions.items():
        if (path, name) not in before:
            lines[crate_of(path)] += count
            names.setdefault(crate_of(path), {}).setdefault(path.stem, []).append(name)
    for (path, kind), count in sorted(cited.types.items()):
        if (path, kind) not in before:
            lines[crate_of(path)] += count
            kinds.setdefault(crate_of(path), []).append(kind)
    rows = ["| `simplex_..` | Lines | Definitions by file | Types |", "|---|---|---|---|"]
    for crate in filter(lines.get, order):
        files = names.get(crate, {})
        listed = {file: f": `{', '.join(of)}`" if named else f" {len(of)}" for file, of in files.items()}
        defined = ("; " if named else ", ").join(file + listed[file] for file in sorted(files))
        types = kinds.get(crate, [])
        types = f"`{', '.join(types)}`" if named and types else len(types) or ""
        rows.append(f"| {crate.removeprefix('simplex_')} | {lines[crate]} | {defined} | {types} |")
    every = [len(it) for files in names.values() for it in files.values()]
    total = f"{len(every)} files, {sum(every)} definitions"
    return "\n".join([*rows, f"| | {lines.total()} | {total} | {sum(map(len, kinds.values()))} types |"])


def tables(named):
    """The rows of each table, by its name."""
    cited = Cited()
    for name, roots in TABLES.items():
        before = {*cited.definitions, *cited.types}
        for path, items in roots.items():
            for item in items:
                cited.cite_root(path, item)
        yield name, table(cited, before, named)


def page(text):
    """The text of the page with its tables and its numbers as the sources have them."""
    for name, rows in tables(named=False):
        text, count = re.subn(rf"(?s)(<!-- {name} -->\n).*?(<!-- end -->)", lambda it: f"{it[1]}\n{rows}\n\n{it[2]}", text)
        if count != 1:
            fail(f"{PAGE.name} has no one table {name}")
    tried, left = len([*ROOT.glob("mutants/*/gate/*.edit")]), len([*ROOT.glob("mutants/*/*.edit")])
    text = re.sub(r"\d+(?=\s+mutants\s+in\s+`mutants/CRATE/gate/`)", str(tried), text)
    return re.sub(r"\d+(?=\s+in\s+`mutants/`)", str(left), text)


def main(word=""):
    if word == "names":
        print(*(f"{name}\n{rows}" for name, rows in tables(named=True)), sep="\n\n")
        return False
    return written(PAGE, page(PAGE.read_text()), word, "trust")
