"""Compares the documents with what they are made of and point to.

Each link leads to a file or a heading that is there, and one with a name as its text to a file that defines it. docs/CLAUSES.md
and the tables of docs/TRUST.md are as the sources have them, the plots and the tables of speed as bench/figures.csv has them,
and the code that README.md shows stands so in its file. The table of CONTRIBUTING.md on tests is that of step `refusals`. Each
place that gives the version, or that of the library's calls, gives the same one, and each that says what `rt version` prints
says what it prints here. No block is indented, and each that is fenced is of LANGUAGES.
"""

import re
import shutil
import subprocess
import textwrap

from . import clauses, trust
from .common import ROOT
from .common import pages as every_page
from .refusals import PROTOCOL

PAGES = every_page()
# a block without a language is text
LANGUAGES = {"", "console", "sh", "toml", "rust", "c", "python", "go", "antt", "mermaid"}
FENCED = re.compile(r"(?ms)^( *)```(\w*)\n(.*?)^ *```$")
LINK = re.compile(r"\[[^\]]*\]\(([^)\s]+)\)")
TARGET = re.compile(r"(?m)^\[([^\]]+)\]: (\S+)$")
NAMED = re.compile(r"\[`(\w+)`\]\(([^)\s]+\.(?:antt|rt))\)")
WORDS = r"abbrev|pub|pub\(crate\)|unfoldable|opaque|final|const|data|record|fn|struct|enum|trait|ghost|requires|ensures"
DEFINED = rf"(?m)^ *(?:(?:{WORDS}) +)+{{}}\b"


def text_of(page):
    """The text of a page, each link with where it leads: `[text](target)` for `[text][name]`."""
    targets = dict(TARGET.findall(page.read_text()))
    return re.sub(r"(\[[^\]]+\])\[(\w+)\]", lambda it: f"{it[1]}({targets.get(it[2], it[2])})", page.read_text())


def headings(page):
    """The anchors of a page's headings."""
    titles = re.sub(r"\[([^\]]*)\]\([^)]*\)", r"\1", "\n".join(re.findall(r"(?m)^#+ (.*)$", page.read_text()))).splitlines()
    return {re.sub(r"[^\w\- ]", "", title.lower()).replace(" ", "-") for title in titles}


def broken():
    """Says which links lead to nothing, and returns how many."""
    links = [(page, target) for page in PAGES for target in LINK.findall(text_of(page)) if "://" not in target]
    bad = 0
    for page, target in links:
        path, _, anchor = target.partition("#")
        to = (page.parent / path) if path else page
        if not to.exists() or anchor and to.suffix == ".md" and anchor not in headings(to):
            print(f"{page.relative_to(ROOT)}: a link to nothing: {target}")
            bad += 1
    print(f"{len(links) - bad} of {len(links)} links of the documents lead somewhere")
    return bad


def misnamed():
    """Says which links have a name that the file does not define, and returns how many."""
    links = [(page, name, page.parent / path) for page in PAGES for name, path in NAMED.findall(text_of(page))]
    bad = [it for it in links if it[2].exists() and not re.search(DEFINED.format(it[1]), it[2].read_text())]
    for page, name, path in bad:
        print(f"{page.relative_to(ROOT)}: {name} is not defined in {path.resolve().relative_to(ROOT)}")
    print(f"{len(links) - len(bad)} of {len(links)} links with a name lead to what defines it")
    return len(bad)


def unmade():
    """Says which of the pages and plots that are made of others are not as these have them, and returns how many."""
    plots = subprocess.run([ROOT / "bench/plot.py", "check"]).returncode != 0
    return clauses.main("check") + trust.main("check") + plots


def unfenced():
    """Says which blocks are indented, or fenced without a language of these, and returns how many."""
    bad = 0
    for page in PAGES:
        text = page.read_text()
        wrong = [f"a fence of {it[1]}" for it in FENCED.findall(text) if it[1] not in LANGUAGES]
        wrong += [f"indented: {it}" for it in re.findall(r"(?<=\n\n) {4}(\S.*)", FENCED.sub("", text))]
        for it in wrong:
            print(f"{page.relative_to(ROOT)}: {it}")
        bad += len(wrong)
    return bad


def misquoted():
    """Says whether the code that README.md shows stands otherwise in its file, and whether the table of CONTRIBUTING.md does,
    and returns how many do."""
    text = (ROOT / "crates/examples/src/accused.rt").read_text()
    code = [body for _, language, body in FENCED.findall((ROOT / "README.md").read_text()) if language == "rust"]
    bad = sum(textwrap.indent(it, "    ") not in text for it in code)
    print(f"README.md shows code {'other than' if bad or not code else 'as'} it stands in crates/examples/src/accused.rt")
    rows = "".join(f"| {name if ' ' in name else f'`{name}`'} | {asked} |\n" for name, _, asked in PROTOCOL)
    is_there = rows in (ROOT / "CONTRIBUTING.md").read_text()
    print(f"CONTRIBUTING.md has {'' if is_there else 'not '}the table of .ci/steps/refusals.py on tests")
    return bad + (not code) + (not is_there)


# what gives the version: the first of these in the file
VERSIONS = {
    "CHANGELOG.md": r"(?m)^## (\d\S*)",
    "README.md": r"Version (\d\S*\d)",
    "docs/BINDINGS.md": r"Version (\d\S*\d)",
    "bindings/rust/Cargo.toml": r'(?m)^version = "(.*)"$',
    "bindings/python/pyproject.toml": r'(?m)^version = "(.*)"$',
    "crates/simplex_live/src/texts.rt": r'"audit_live (\d\S*\d)\\n"',
}
# and what gives that of the library's calls
CALLS = {
    "crates/simplex_c/src/lib.rt": r"fn simplex_version\(\) -> u32\s+ensures \{ result ≡ (\d+) \}",
    "bindings/simplex_audit.h": r"#define SIMPLEX_VERSION (\d+)u",
    "bindings/python/simplex_audit/__init__.py": r"(?m)^_CALLS = (\d+)$",
    "README.md": r"calls of the\s+library:\s+version (\d+)",
    "docs/BINDINGS.md": r"calls of the\s+library:\s+version (\d+)",
}


def differing(places, what):
    """Says where one of these places gives another version than the first, or none, and returns in how many."""
    found = {path: next(iter(re.findall(given, (ROOT / path).read_text())), "none") for path, given in places.items()}
    wanted = next(iter(found.values()))
    bad = {path: version for path, version in found.items() if version != wanted or version == "none"}
    for path, version in bad.items():
        print(f"{path}: {what} is {version}, to be {wanted}")
    print(f"{len(found) - len(bad)} of {len(found)} places give {wanted} as {what}")
    return len(bad)


def unnamed_toolchain():
    """Says which of the pages that name the toolchain do not name the one that is here, and returns how many."""
    pages = ("README.md", "CONTRIBUTING.md", "docs/TRUST.md")
    if not shutil.which("rt"):
        print("no toolchain is here: rt is not on the PATH")
        return len(pages)
    said = subprocess.run(["rt", "version"], capture_output=True, text=True, check=True).stdout.strip()
    bad = [page for page in pages if not said or f"`{said}`" not in (ROOT / page).read_text()]
    for page in bad:
        print(f"{page}: `rt version` is {said}")
    print(f"{len(pages) - len(bad)} of {len(pages)} pages name the toolchain that is here, {said}")
    return len(bad)


def main():
    versions = differing(VERSIONS, "the version") + differing(CALLS, "the version of the calls")
    return any([broken(), misnamed(), unmade(), unfenced(), misquoted(), versions, unnamed_toolchain()])
