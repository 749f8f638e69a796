"""`python3 .ci STEP ..` runs a step of the gate, a module of steps/; without a step it says what each does."""

import ast
import importlib
import os
import pathlib
import sys

sys.dont_write_bytecode = True
os.environ["PYTHONDONTWRITEBYTECODE"] = "1"
sys.stdout.reconfigure(line_buffering=True)
STEPS = pathlib.Path(__file__).parent / "steps"


def main(name="", *words):
    texts = {it.stem: it.read_text() for it in sorted(STEPS.glob("*.py"))}
    steps = {name: ast.get_docstring(ast.parse(text)) for name, text in texts.items() if "\ndef main(" in text}
    if name in steps:
        return importlib.import_module(f"steps.{name}").main(*words)
    for it, doc in steps.items():
        print(f"{it:13} {doc.splitlines()[0]}")
    return 2


if __name__ == "__main__":
    sys.exit(main(*sys.argv[1:]))
