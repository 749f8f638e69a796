#!/usr/bin/env python3
"""A page for people of what `audit` prints: who is accused and how often, when, each split, and the votes of each evidence.

    report.py -o PAGE [--lines FILE] [--inspect FILE] [NAMESPACE KEY...]
    report.py -o PAGE --stream FILE [--programs FOLDER] NAMESPACE KEY...

In the first form it reads the lines of `audit` from a file or from standard input. `audit: fault at byte P` may be their last
line. With the lines of `inspect` of the same stream under the same arguments, the page has the signatures and the byte offsets
of votes, and both certificates of each split. With the arguments of `audit` it shows keys, and counts by key. In the second
form it runs `audit` and `inspect` over a stream.

The page is one HTML file without scripts, which loads nothing. It is written under another name and renamed, so there is a
whole page or none. Status 0: it was written. 2: the arguments or a line are not in the format, or do not fit each other. 3: a
read, a write, an allocation or one of the programs failed. It needs Python 3.10 or later, and its standard library alone.
"""
import argparse
import contextlib
import os
import pathlib
import shutil
import subprocess
import sys
import tempfile

from report_lines import Certificate, Committees, Evidence, Fault, Inspected, Place, Refused, Report, Split, Vote
from report_lines import fault_of, read_inspect, read_lines
from report_page import LIMIT, page

__all__ = ["Certificate", "Committees", "Evidence", "Fault", "Inspected", "Place", "Refused", "Report", "Split", "Vote", "main",
           "page", "read_inspect", "read_lines", "write"]


def write(path, shown):
    """Writes a page whole or not at all: under another name, and then it is renamed."""
    path = os.path.realpath(path)
    if os.path.exists(path) and not os.path.isfile(path):
        raise OSError(f"{path} is no file")
    handle, other = tempfile.mkstemp(prefix=".report-", dir=os.path.dirname(path))
    try:
        with open(handle, "w", encoding="utf-8", newline="\n") as file:
            file.write(shown)
            file.flush()
            os.fsync(file.fileno())
        mask = os.umask(0)
        os.umask(mask)
        os.chmod(other, 0o666 & ~mask)
        os.replace(other, path)
    except BaseException:
        os.unlink(other)
        raise


def program(name, folder):
    """The path of `audit` or `inspect`, as `make install` names it or so: in a folder, in PATH, or as it is built here."""
    built = pathlib.Path(__file__).resolve().parent.parent.parent / "crates" / name / "out"
    names = (f"simplex-{name}", name)
    places = [folder] if folder else [os.environ.get("PATH"), str(built)]
    found = next((path for place in places for it in names if (path := shutil.which(it, path=place))), None)
    if not found:
        raise OSError(f"no program {name}: `make {name}` builds it; --programs names its folder")
    return found


@contextlib.contextmanager
def running(name, folder, stream, committees):
    """What one of the programs prints on the stream, and a call that waits for its end."""
    command = [program(name, folder), *committees.words]
    with open(stream, "rb") as file, tempfile.TemporaryFile() as said:
        with subprocess.Popen(command, stdin=file, stdout=subprocess.PIPE, stderr=said) as ran:
            yield ran.stdout, lambda: ended(name, ran, said)


def ended(name, ran, said):
    """What a program whose lines are read said on standard error. Its status has to be 0 or 1."""
    status = ran.wait()
    said.seek(0)
    words = said.read().decode(errors="replace").strip()
    if status not in (0, 1):
        raise OSError(f"{name} ended with status {status}: {words!a}")
    return words


def audited(stream, folder, committees):
    """The `Report` of a stream, by the program `audit`."""
    with running("audit", folder, stream, committees) as (lines, wait):
        report = read_lines(lines, "audit")
        words = wait()
    report.fault = fault_of(words)
    report.whole = not report.fault
    if words and report.whole:
        raise Refused(f"audit said on standard error: {words!a}")
    return report


def inspected_stream(stream, folder, committees, report):
    """The `Inspected` of a stream, by the program `inspect`."""
    with running("inspect", folder, stream, committees) as (lines, wait):
        found = read_inspect(lines, report, "inspect")
        wait()
    return found


def read(given, committees):
    """The report, and what `inspect` printed, by the arguments."""
    if given.stream:
        report = audited(given.stream, given.programs, committees)
        return report, inspected_stream(given.stream, given.programs, committees, report)
    with open(given.lines, "rb") if given.lines else contextlib.nullcontext(sys.stdin.buffer) as file:
        report = read_lines(file, given.lines or "standard input")
    if not given.inspect:
        return report, None
    with open(given.inspect, "rb") as file:
        return report, read_inspect(file, report, given.inspect)


def arguments(words):
    """The arguments, and the committees among them."""
    about, usage, *_ = __doc__.split("\n\n")
    parser = argparse.ArgumentParser(prog="report.py", description=about, usage=usage.strip().replace("    ", "       "),
                                     allow_abbrev=False)
    parser.add_argument("-o", "--out", metavar="PAGE", required=True, help="the file to write")
    parser.add_argument("--lines", metavar="FILE", help="the lines of audit; without it standard input")
    parser.add_argument("--inspect", metavar="FILE", help="the lines of inspect of the same stream under the same arguments")
    parser.add_argument("--stream", metavar="FILE", help="a stream to run audit and inspect on")
    parser.add_argument("--programs", metavar="FOLDER", help="where audit and inspect are")
    parser.add_argument("--limit", metavar="N", type=int, default=LIMIT, help=f"rows of a table at most; {LIMIT} without it")
    parser.add_argument("--title", metavar="TEXT", default="Who equivocated", help="the page's title")
    parser.add_argument("committees", metavar="NAMESPACE KEY...", nargs="*", help="the arguments of audit")
    given = parser.parse_args(words)
    if given.limit < 1:
        parser.error("--limit takes a number from 1 on")
    if given.stream and (given.lines or given.inspect or not given.committees):
        parser.error("--stream takes NAMESPACE KEY..., and neither --lines nor --inspect")
    return given, Committees(given.committees) if given.committees else None


def main(words=None):
    try:
        given, committees = arguments(words)
        report, inspected = read(given, committees)
        if committees:
            committees.fit(report)
        write(given.out, page(report, inspected, committees, given.limit, given.title))
    except Refused as refused:
        print(f"report: {refused}", file=sys.stderr)
        return 2
    except OSError as error:
        print(f"report: {error}", file=sys.stderr)
        return 3
    except MemoryError:
        print("report: out of memory", file=sys.stderr)
        return 3
    return 0


if __name__ == "__main__":
    sys.exit(main())
