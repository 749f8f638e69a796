#!/usr/bin/env python3
"""bench/plot.py: draws docs/speed.svg and docs/memory.svg of bench/figures.csv, the figures of a run of `bench/run`.

    bench/plot.py          writes both
    bench/plot.py check    says whether both, and the tables of bench/README.md and README.md, are as the figures have them
"""
import csv, pathlib, sys
from xml.sax.saxutils import escape

ROOT = pathlib.Path(__file__).resolve().parent.parent
FIGURES = ROOT / "bench/figures.csv"
PROGRAMS = [("audit", "#2b6cb0"), ("audit_stored", "#dd8a1c")]
# of each plot: its title, the columns of its bars, and the greatest ratio on its axis
PLOTS = {
    "speed": ("Processor time, as a ratio to an auditor by hand", ("time_audit", "time_stored"), 3),
    "memory": ("Memory, as a ratio to an auditor by hand", ("memory_audit", "memory_stored"), 3),
}
NOTE = "The same streams, each program at its least time and most memory of several turns: bench/README.md"
WIDTH, LEFT, RIGHT, TOP, ROW, BAR = 860, 300, 40, 92, 38, 13
STYLE = """text { font: 13px system-ui, -apple-system, "Segoe UI", Helvetica, Arial, sans-serif; fill: #1f2933 }
.title { font-size: 17px; font-weight: 600 } .faint { fill: #5f6b7a } .small { font-size: 12px }"""


def figures():
    with FIGURES.open(newline="") as file:
        return list(csv.DictReader(file))


def text(x, y, words, look="", anchor="start"):
    return f'<text x="{x:g}" y="{y:g}" class="{look}" text-anchor="{anchor}">{escape(words)}</text>'


def rectangle(x, y, width, height, colour):
    return f'<rect x="{x:g}" y="{y:g}" width="{width:.1f}" height="{height:g}" fill="{colour}"/>'


def line(x, top, bottom, colour, dashes=""):
    return f'<line x1="{x:g}" x2="{x:g}" y1="{top:g}" y2="{bottom:g}" stroke="{colour}" stroke-dasharray="{dashes}"/>'


def axis(greatest, bottom):
    """Faint lines at ratios, and a dark one at 1: the auditor by hand."""
    steps = 6
    for step in range(steps + 1):
        ratio = greatest * step / steps
        yield line(place(ratio, greatest), TOP, bottom, "#e3e8ee")
        yield text(place(ratio, greatest), bottom + 18, f"{ratio:g}", "small faint", "middle")
    yield line(place(1, greatest), TOP - 6, bottom, "#1f2933", "4 3")
    yield text(place(1, greatest), TOP - 12, "by hand", "small", "middle")


def place(ratio, greatest):
    return round(LEFT + (WIDTH - LEFT - RIGHT) * ratio / greatest, 1)


def bars(row, columns, greatest, y):
    """The stream's name and size, and a bar for each program with its ratio behind it."""
    shape = f"{row['stream']}, {int(row['participants']):,} × {int(row['rounds']):,}{', piped' if row['piped'] else ''}"
    yield text(LEFT - 82, y + 18, shape, anchor="end")
    yield text(LEFT - 12, y + 18, f"{row['megabytes']} MB", "small faint", "end")
    for (_, colour), column in zip(PROGRAMS, columns):
        end = place(float(row[column]), greatest)
        yield rectangle(LEFT, y, end - LEFT, BAR, colour)
        yield rectangle(end + 2, y, 33, BAR, "#ffffff")
        yield text(end + 5, y + BAR - 2, row[column], "small")
        y += BAR + 1


def drawn(name):
    """A plot as SVG."""
    title, columns, greatest = PLOTS[name]
    rows = figures()
    bottom = TOP + ROW * len(rows)
    height = bottom + 60
    size = f'viewBox="0 0 {WIDTH} {height}" width="{WIDTH}" height="{height}"'
    parts = [f'<svg xmlns="http://www.w3.org/2000/svg" {size} role="img">', f"<title>{title}</title>"]
    parts += [f"<style>{STYLE}</style>", rectangle(0, 0, WIDTH, height, "#ffffff")]
    parts += [text(20, 32, title, "title"), text(20, 54, "Shorter is better. Streams by participants × rounds.", "faint")]
    for x, (program, colour) in zip((20, 100), PROGRAMS):
        parts += [rectangle(x, 68, 12, 12, colour), text(x + 18, 79, program)]
    parts += axis(greatest, bottom)
    for at, row in enumerate(rows):
        parts += bars(row, columns, greatest, TOP + 6 + ROW * at)
    return "\n".join([*parts, text(20, height - 12, NOTE, "small faint"), "</svg>\n"])


def greater(rows):
    """The rows without those whose stream comes again with more rounds."""
    kinds = [(it["stream"], it["participants"], it["piped"]) for it in rows]
    return [row for at, row in enumerate(rows) if kinds[at] not in kinds[at + 1:]]


def row_of_bench(row):
    """A row of the table in bench/README.md."""
    stream = f"`{row['stream']} {row['participants']} {row['rounds']}`{', piped' if row['piped'] else ''}"
    columns = ("megabytes", "time_audit", "time_stored", "memory_audit", "memory_stored", "held")
    return f"| {' | '.join([stream, *(row[it] for it in columns)])} |"


def row_of_readme(row):
    """A row of the table in README.md, for the streams that it has."""
    stream = f"{row['summary']}, {float(row['megabytes']):.0f}"
    columns = ("time_audit", "time_stored", "memory_audit", "memory_stored")
    return f"| {' | '.join([stream, *(row[it] for it in columns)])} |"


def differing():
    """What is not as the figures have it. Of a stream in two sizes bench/README.md has the greater alone."""
    pages = {it: (ROOT / it).read_text() for it in ("bench/README.md", "README.md")}
    rows = figures()
    wanted = [("bench/README.md", row_of_bench(it)) for it in greater(rows)]
    wanted += [("README.md", row_of_readme(it)) for it in rows if it["summary"]]
    yield from (f"{page} has no row {row}" for page, row in wanted if row not in pages[page])
    for name in PLOTS:
        path = ROOT / f"docs/{name}.svg"
        if not path.exists() or path.read_text() != drawn(name):
            yield f"docs/{name}.svg is not as bench/figures.csv has it"
        without = [page for page, shown in pages.items() if f"docs/{name}.svg)" not in shown]
        yield from (f"{page} does not show docs/{name}.svg" for page in without)


if __name__ == "__main__":
    if sys.argv[1:] == ["check"]:
        bad = list(differing())
        print("\n".join(bad) or "both plots and the tables of speed are as bench/figures.csv has them")
        sys.exit(bool(bad))
    for name in PLOTS:
        (ROOT / f"docs/{name}.svg").write_text(drawn(name))
