"""Audits in parts: streams are cut by rounds into classes, each class is audited by itself, and the reports are merged. The
report is that of `simplex_audit.audit` over the whole stream. Over the module `simplex_audit`, which says what a call takes and
raises.

>>> from simplex_audit import Committees, Encoder, Vote, audit
>>> committees, stream = Committees.every(64, 4), Encoder(64)
>>> for view in range(1, 11):
...     for payload in (6, 7):
...         vote = Vote("notarize", 3, view, view - 1, bytes([payload] * 32))
...         stream.vote(vote, 2, bytes(64), lambda vote, signer, signature: True)
>>> shards = split(committees, stream.encoded(), classes=3, seed=2026)
>>> report = merge([audit(committees, part) for part in shards.parts], shards.fault)
>>> report == audit(committees, stream.encoded()), len(report.evidence)
(True, 10)

All parts of an audit are cut by one seed into as many classes. A sender who knows the seed can send rounds of one class alone,
so draw it anew, as by `secrets.randbits(64)`.
"""
from __future__ import annotations

import builtins
import concurrent.futures
import contextlib
import ctypes
import mmap
import os
import secrets
import shutil
import struct
import tempfile
from collections.abc import Callable, Iterable, Iterator
from typing import IO, TYPE_CHECKING, Any, NamedTuple

import simplex_audit
from simplex_audit import (Committees, Report, _borrowed, _checked, _filled, _KINDS_OF_EVIDENCE, _reading, _report, _Summary,
                           audit)

if TYPE_CHECKING:
    from _typeshed import ReadableBuffer

    Path = str | os.PathLike[str]

__all__ = ["Classes", "Index", "Range", "Row", "Shards", "audit_files", "audit_parallel", "audit_ranges", "class_of",
           "class_ranges", "index", "join", "merge", "ranges", "split"]


class Row(ctypes.Structure):
    """A message of a stream: the epoch and the view of its round, its offset and length in bytes, how many attestations it has,
    and the number of its kind, 0 to 9: the tag with which it is encoded."""

    _fields_ = [("epoch", ctypes.c_uint64), ("view", ctypes.c_uint64), ("place", ctypes.c_size_t), ("length", ctypes.c_size_t),
                ("attestations", ctypes.c_size_t), ("kind", ctypes.c_uint32)]


class Range(ctypes.Structure):
    """Bytes of a stream that stand together: the offset of the first, and how many there are."""

    _fields_ = [("place", ctypes.c_size_t), ("length", ctypes.c_size_t)]


def _declare() -> None:
    """Declares the types of each call, as the header has them."""
    u32, u64, size, out = ctypes.c_uint32, ctypes.c_uint64, ctypes.c_size_t, ctypes.POINTER
    data, text = [ctypes.c_void_p, size], [out(ctypes.c_char), size, out(_Summary)]
    calls: dict[str, list[Any]] = {
        "index": [u32, u32, *data, out(Row), size, out(_Summary)],
        "class_of": [u64, u64, u64, u32],
        "ranges": [*data, u64, u32, u32, out(Range), size, out(size)],
        "class_ranges": [u32, u32, *data, u64, out(Range), size, out(size), size, out(_Summary)],
        "audit_ranges": [u32, out(u64), size, out(u32), size, *data, *data, *text],
        "audit_ranges_plain": [*data, out(u64), size, out(u32), size, *data, *data, *data, *text],
    }
    simplex_audit._library.declare(calls)


_declare()


class Index(NamedTuple):
    """An array of a `Row` for each message of a stream, in order, and the offset of the fault or `None`."""

    rows: ctypes.Array[Row]
    fault: int | None


class Classes(NamedTuple):
    """For each class an array of its `Range`s, how many messages were read, and the offset of the fault or `None`."""

    ranges: list[ctypes.Array[Range]]
    read: int
    fault: int | None


class Shards(NamedTuple):
    """The bytes of each class, how many messages were read, and the offset of the stream's fault or `None`."""

    parts: list[bytes]
    read: int
    fault: int | None


def index(committees: Committees, stream: ReadableBuffer) -> Index:
    """The messages of a stream as rows. Nothing is verified. Of the committees it takes the size of signatures, and the number
    of participants of the greatest one, under which certificates are read. The rows are a `ctypes` array of 48 bytes each, and
    so a buffer, as `numpy.frombuffer` takes it."""
    summary = _Summary()
    with _borrowed(stream) as (at, length):
        most, read = _most_messages(committees, length), lambda it: it.read
        arguments = [*_reading(committees), at, length]
        rows = _filled(simplex_audit._library.simplex_index, arguments, Row, most, summary, read, committees=committees)
    return Index(rows, _fault(summary))


def _most_messages(committees: Committees, length: int) -> int:
    """The shortest message is a nullify: a byte each for its tag, epoch, view and signer, and the signature."""
    return length // (4 + committees._signature)


def _fault(summary: _Summary) -> int | None:
    return summary.fault_place if summary.faulted else None


def class_ranges(committees: Committees, stream: ReadableBuffer, seed: int, classes: int) -> Classes:
    """Where the messages of each class stand, in one reading of a stream: a `ctypes` array of ranges for each. Neighbours are
    joined. Nothing is verified. Of the committees it takes what `index` does.

    >>> from simplex_audit import Committees, Encoder, Vote
    >>> committees, stream = Committees.every(64, 4), Encoder(64)
    >>> for view in range(1, 11):
    ...     stream.vote(Vote("nullify", 3, view), 2, bytes(64), lambda vote, signer, signature: True)
    >>> found = class_ranges(committees, stream.encoded(), 2026, 3)
    >>> sum(audit_ranges(committees, stream.encoded(), ranges).read for ranges in found.ranges), found.read
    (10, 10)
    """
    seed, ends, summary = _checked(seed, 64, "a seed"), (ctypes.c_size_t * _number_of_classes(classes))(), _Summary()

    def call(*arguments: Any) -> Any:
        *others, buffer, room, written = arguments
        return simplex_audit._library.simplex_class_ranges(*others, buffer, room, ends, classes, written)

    with _borrowed(stream) as (at, length):
        arguments, most = [*_reading(committees), at, length, seed], _most_messages(committees, length)
        found = _filled(call, arguments, Range, most, summary, lambda it: it.length, committees=committees)
    each = zip([0, *ends], ends)
    ranges = [(Range * (end - begin)).from_buffer(found, begin * ctypes.sizeof(Range)) for begin, end in each]
    return Classes(ranges, summary.read, _fault(summary))


def class_of(epoch: int, view: int, seed: int, classes: int) -> int:
    """The class of a round, of so many.

    >>> class_of(5, 123456789, 0, 1000)
    466
    """
    numbers = _checked(epoch, 64, "an epoch"), _checked(view, 64, "a view"), _checked(seed, 64, "a seed")
    return simplex_audit._library.simplex_class_of(*numbers, _number_of_classes(classes))


def ranges(rows: ReadableBuffer, seed: int, classes: int, which: int) -> ctypes.Array[Range]:
    """Where the messages of one class stand, in the order of the rows, as a `ctypes` array of ranges. Neighbours are joined.
    The rows are those of `index`, or some of them in an array or another buffer."""
    cut = _checked(seed, 64, "a seed"), _number_of_classes(classes), _checked(which, 32, "a class")
    needed = ctypes.c_size_t()
    with _items(rows, Row) as (at, count):
        call, refusal = simplex_audit._library.simplex_ranges, "no such class, or no such rows"
        return _filled(call, [at, count, *cut], Range, count, needed, lambda it: it.value, refusal)


def _number_of_classes(classes: int) -> int:
    if classes < 1:
        raise ValueError("there is at least one class")
    return _checked(classes, 32, "a number of classes")


@contextlib.contextmanager
def _items(buffer: ReadableBuffer, of: Any) -> Iterator[tuple[int, int]]:
    """The address of the items of a buffer, and their number, while it is borrowed."""
    with _borrowed(buffer) as (at, length):
        if length % ctypes.sizeof(of):
            raise ValueError(f"a {of.__name__} has {ctypes.sizeof(of)} bytes")
        yield at, length // ctypes.sizeof(of)


def audit_ranges(committees: Committees, stream: ReadableBuffer, ranges: ReadableBuffer) -> Report:
    """The report of what stands in these ranges of a stream, one after another, read in place. A fault's offset counts the
    bytes of the ranges. `ValueError` if a range is not within the stream."""
    call, summary = getattr(simplex_audit._library, f"simplex_audit_ranges{committees._suffix}"), _Summary()
    with _borrowed(stream) as borrowed, _items(ranges, Range) as items:
        most = committees._most_text(sum(length for _, length in _pairs(ranges)))
        arguments, refusal = [*committees._given, *borrowed, *items], "a range is not within the stream"
        text = _filled(call, arguments, ctypes.c_char, most, summary, lambda it: it.length, refusal, committees)
    return _report(text.raw.decode(), summary)


def _pairs(ranges: ReadableBuffer) -> Iterator[tuple[Any, ...]]:
    """The place and the length of each range."""
    return struct.iter_unpack("@NN", ranges)


def split(committees: Committees, stream: ReadableBuffer, classes: int, seed: int) -> Shards:
    """For each class its messages, joined, in the order of the stream: a part. Its audit has no fault."""
    found = class_ranges(committees, stream, seed, classes)
    with memoryview(stream) as view, view.cast("B") as data:
        parts = [b"".join(_slices(data, ranges)) for ranges in found.ranges]
    return Shards(parts, found.read, found.fault)


def _slices(data: memoryview, ranges: ReadableBuffer) -> list[memoryview]:
    return [data[place : place + length] for place, length in _pairs(ranges)]


def join(parts: Iterable[Iterable[ReadableBuffer]]) -> list[bytes]:
    """The parts of several streams under one cut, each as a list by class, as one such list: those of a class one after
    another, in the order of the streams.

    >>> join([[b"a", b"b"], [b"", b"c"]])
    [b'a', b'bc']
    """
    return [b"".join(of_class) for of_class in zip(*parts, strict=True)]


def merge(reports: Iterable[Report], fault: int | None = None) -> Report:
    """The report of a stream, from the reports of all its classes in any order, and its fault."""
    reports = list(reports)
    evidence = [it for report in reports for it in report.evidence]
    evidence.sort(key=lambda it: (it.epoch, it.view, it.signer, _KINDS_OF_EVIDENCE.index(it.kind)))
    splits = sorted(it for report in reports for it in report.splits)
    lines = [it.line for it in evidence] + [f"{it.epoch} {it.view} split {it.named} {it.least}" for it in splits]
    return Report(sum(it.read for it in reports), evidence, splits, fault, "".join(f"{it}\n" for it in lines))


def audit_parallel(committees: Committees, stream: ReadableBuffer, threads: int) -> Report:
    """The report of a stream, audited in so many threads, which read the same bytes. It is read once for its `class_ranges`.
    The threads take class after class of its rounds, of four times as many, by a seed that is drawn anew. One round is never
    cut, so one thread audits all of it."""
    if threads < 1:
        raise ValueError("there is at least one thread")
    if threads == 1:
        return audit(committees, stream)
    found = class_ranges(committees, stream, secrets.randbits(64), 4 * threads)
    with concurrent.futures.ThreadPoolExecutor(threads) as pool:
        return merge(pool.map(lambda ranges: audit_ranges(committees, stream, ranges), found.ranges), found.fault)


def audit_files(
    committees: Committees,
    paths: Iterable[Path],
    classes: int,
    map: Callable[..., Iterable[Any]] = builtins.map,
    seed: int | None = None,
    folder: Path | None = None,
) -> tuple[Report, dict[Path, int | None]]:
    """The report of files, each a stream with a fault of its own, and for each path the offset of its fault or `None`. It is
    the report of the files up to their faults, one after another in this order.

    `map(function, tasks)` is what an engine gives: it returns the results in the order of the tasks, as `Pool.imap` and
    `Executor.map` do. It is called twice: to cut each file into parts, and to audit the parts of each class. Between processes
    go paths and reports, and no stream. A task is a function of files alone, so an engine may run it again, also beside itself.
    Start processes by `spawn`: the library may not be called in the forked child of a process with threads.

    The parts are written to a new folder within `folder`, which all workers have to see; without it, within the one for
    temporary files. It takes as many bytes as the files, and is removed at the end.

    >>> from simplex_audit import Committees
    >>> with tempfile.NamedTemporaryFile() as file:
    ...     _ = file.write(b"no message") and file.flush()
    ...     report, faults = audit_files(Committees.every(64, 4), [file.name], 8)
    ...     report.read, faults[file.name]
    (0, 0)
    """
    paths, seed = list(paths), secrets.randbits(64) if seed is None else _checked(seed, 64, "a seed")
    numbers = range(_number_of_classes(classes))
    with tempfile.TemporaryDirectory(dir=folder, ignore_cleanup_errors=True) as room:
        parts = [os.path.join(os.path.abspath(room), str(at)) for at in range(len(paths))]
        cuts = [(committees, os.path.abspath(path), seed, classes, to) for path, to in zip(paths, parts)]
        ends = list(map(_cut_file, cuts))
        audits = [(committees, [os.path.join(it, str(which)) for it in parts]) for which in numbers]
        report = merge(map(_audit_parts, audits))
    if len(ends) != len(paths) or report.read != sum(read for read, _ in ends):
        raise RuntimeError("parts have changed, or the map has lost or repeated a result")
    return report, {path: fault for path, (_, fault) in zip(paths, ends)}


# How many bytes of a file are read at a time, and then as many more as its next message needs.
_WINDOW = 1 << 26


def _cut_file(task: tuple[Committees, str, int, int, str]) -> tuple[int, int | None]:
    """Writes the parts of a file to a folder, which appears with all of them. Returns how many messages were read, and the
    fault."""
    committees, path, seed, classes, to = task
    own = tempfile.mkdtemp(dir=os.path.dirname(to))
    try:
        with open(path, "rb") as file, _mapping(file) as data:
            end = _write_parts(committees, data, seed, classes, own)
        try:
            os.rename(own, to)
        except OSError:
            # another run of this task has written the same
            if not os.path.isdir(to):
                raise
    finally:
        shutil.rmtree(own, ignore_errors=True)
    return end


@contextlib.contextmanager
def _mapping(file: IO[bytes]) -> Iterator[bytes | mmap.mmap]:
    """The bytes of a file, which are in memory only as they are read."""
    if os.fstat(file.fileno()).st_size == 0:
        yield b""
    else:
        with mmap.mmap(file.fileno(), 0, access=mmap.ACCESS_READ) as data:
            yield data


def _write_parts(
    committees: Committees, data: bytes | mmap.mmap, seed: int, classes: int, folder: str
) -> tuple[int, int | None]:
    """Appends the messages of a stream to the parts of their classes, a window at a time. A window whose last message is cut
    off has its fault there, so the next one begins with that message."""
    names = [os.path.join(folder, str(which)) for which in range(classes)]
    for name in names:
        open(name, "xb").close()
    at, room, read = 0, _WINDOW, 0
    while at < len(data):
        with memoryview(data)[at : at + room] as view:
            cut, is_last = class_ranges(committees, view, seed, classes), at + room >= len(data)
            for name, ranges in zip(names, cut.ranges):
                if found := _slices(view, ranges):
                    with open(name, "ab") as part:
                        part.writelines(found)
                del found
        read += cut.read
        if is_last:
            return read, None if cut.fault is None else at + cut.fault
        at, room = (at + room, _WINDOW) if cut.fault is None else (at + cut.fault, _WINDOW if cut.fault else 2 * room)
    return read, None


def _audit_parts(task: tuple[Committees, list[str]]) -> Report:
    """The report of the parts of one class, in the order of the files."""
    committees, names = task
    stream = bytearray()
    for name in names:
        with open(name, "rb") as part:
            stream += part.read()
    report = audit(committees, stream)
    if report.fault is not None:
        raise RuntimeError("parts have changed")
    return report
