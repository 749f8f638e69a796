"""Runs the formatters and linters that are found over the scripts and the bindings, and says which.

What ruff, pyflakes, shellcheck, bash, clang-format or rustfmt finds fails the step; what black would change is said. All
scripts in Python are at least parsed.
"""

import ast
import subprocess

from .common import ROOT

STYLE = "{BasedOnStyle: Google, IndentWidth: 4, ColumnLimit: 128}"
ADVICE = {"black"}


def scripts():
    """The scripts of the repository: those in Python, and those in bash."""
    files = [it for path in (".ci/**/*", "bench/*", "bindings/python/**/*") for it in sorted(ROOT.glob(path)) if it.is_file()]
    heads = {it: it.open(errors="replace").readline().strip() for it in files}
    python = [it for it, head in heads.items() if it.suffix == ".py" or head.endswith(" python3")]
    return python, [it for it, head in heads.items() if head == "#!/usr/bin/env bash"]


def is_there(tool):
    """Whether a tool runs."""
    try:
        return subprocess.run([*tool.split(), "--version"], capture_output=True).returncode == 0
    except FileNotFoundError:
        return False


def main():
    python, bash = scripts()
    tools = {
        "ruff": ["check", "--quiet", "--isolated", "--no-cache", "--select", "F", *python],
        "pyflakes": python,
        "black": ["--quiet", "--check", "--line-length", "128", *(it for it in python if ".ci" in it.parts)],
        "shellcheck": bash,
        "bash": ["-c", 'for it; do bash -n "$it" || exit; done', "-", *bash],
        "clang-format": ["--dry-run", "--Werror", f"--style={STYLE}", ROOT / ".ci/steps/refuse.c"],
        "cargo fmt": ["--check", "--manifest-path", ROOT / "bindings/rust/Cargo.toml"],
    }
    for it in python:
        ast.parse(it.read_text(), it)
    ran = {tool: subprocess.run([*tool.split(), *words]).returncode for tool, words in tools.items() if is_there(tool)}
    print(f"linters and formatters: {', '.join(ran)}; not found: {', '.join(it for it in tools if it not in ran) or 'none'}")
    bad = [tool for tool, status in ran.items() if status]
    print(*(f"{tool} would change or mend something\n" for tool in bad), sep="", end="")
    return bool({*bad} - ADVICE)
