"""`sentences [PAGE ..]`: says what a reader of the documents has to read twice.

That are sentences of more than 30 words, cells of tables of more than 25, and "where" in place of "if" or "when". It prints a
count for each page and then the places, of these pages alone if there are some. `--counts` leaves the places out, and the pages
without one. The status is 0, and under `--strict` 1 if there is such a place. What is fenced (commands, output, pictures) does
not count, and what stands between backquotes is one word.
"""

import pathlib
import re

from .common import ROOT, pages

SENTENCE, CELL = 30, 25
# "where" means a place after these words, as in "says where it stands"
PLACE = "place|places|byte|offset|file|table|says?|said|shows?|states?|see|know|knows|and|or|to|from|of|over"
WHERE = re.compile(rf"\b(?:{PLACE}) where\b|\"where\"|(\bwhere\b)", re.IGNORECASE)
END = re.compile(r"""(?<=[.?!])["')]*\s+(?=["'(]*[A-Z0-9`])""")
# stands for a blank within a code span
JOINED = "\u2060"


def plain(text):
    """Text without marks, in as many lines: a code span is a word, and a link is what it shows."""
    text = re.sub(r"`[^`]*`", lambda span: re.sub(r"\s", JOINED, span[0]) + "\n" * span[0].count("\n"), text)
    return re.sub(r"!?\[([^\]]*)\](?:\([^)]*\)|\[\w+\])", r"\1", text).replace("*", "")


def paragraphs(page):
    """The paragraphs, list items and rows of a page outside code, each with the number of its first line."""
    found, fenced, begun = [], False, False
    for number, line in enumerate(page.read_text().splitlines(), 1):
        fence = line.lstrip().startswith("```")
        fenced ^= fence
        if fence or fenced or not line.strip() or re.match(r"#|\|--|\[\w+\]: ", line):
            begun = False
            continue
        if begun and not re.match(r"\||\s*(?:-|\d+\.) ", line):
            found[-1][1] += "\n" + line
        else:
            found.append([number, line])
        begun = True
    return found


def sentences(page):
    """Each sentence or cell with its line, and how many words it may have."""
    for number, text in paragraphs(page):
        if text.startswith("|"):
            yield from ((number, cell.strip(), CELL) for cell in re.split(r"(?<!\\)\|", plain(text))[1:-1])
        else:
            text, begin = plain(text), 0
            for end in [*END.finditer(text), None]:
                yield number + text.count("\n", 0, begin), " ".join(text[begin : end and end.start()].split()), SENTENCE
                begin = end and end.end()


def places(page):
    for number, text, most in sentences(page):
        words = sum(any(it.isalnum() for it in word) for word in text.split())
        if words > most:
            yield number, f"{words} words", text
        prose = re.sub(r"`[^`]*`", lambda span: "`" * len(span[0]), text)
        # a cell that begins so names a place
        found = [it.start() for it in WHERE.finditer(prose) if it[1] and (it.start() or most == SENTENCE)]
        yield from ((number, "where", text[max(0, at - 30) :]) for at in found)


def main(*words):
    options = {"--strict", "--counts"}.intersection(words)
    given = [pathlib.Path(it) for it in words if it not in options] or pages()
    listed = {str(page.resolve().relative_to(ROOT)): list(places(page)) for page in given}
    for page, found in listed.items():
        if found or "--counts" not in options:
            print(f"{len(found):4} {page}")
    for page, found in listed.items():
        for number, what, text in found if "--counts" not in options else []:
            print(f"{page}:{number}: {what}: {text[:90].replace(JOINED, ' ')}")
    return "--strict" in options and any(listed.values())
