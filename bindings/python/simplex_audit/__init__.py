"""The proved auditor of `simplex_messages`, by ctypes: it reads a stream of consensus messages and reports exactly the
participants who signed two contradictory votes. The caller verifies signatures by a library of its own.

>>> stream = Encoder(64)
>>> for payload in (bytes([6] * 32), bytes([7] * 32)):
...     stream.vote(Vote("notarize", 3, 10, 5, payload), 2, bytes(64), lambda vote, signer, signature: True)
>>> report = audit(Committees.every(64, 4), stream.encoded())
>>> [(one.view, one.signer, one.kind) for one in report.evidence], report.fault
([(10, 2, 'conflicting-notarize')], None)

The first call loads the shared library; `load` says from where. A call raises `CommitteesError`, which says why, if there are
no such committees, another `ValueError` if its numbers are invalid, and `MemoryError` if an allocation failed.

Streams, batches and stored evidence are bytes-like objects: `bytes`, `bytearray`, `memoryview`, `mmap.mmap`, `array.array`.
They are read where they are, not copied. During a call they cannot be resized or closed, and no other thread may write them. A
call raises `TypeError` for another object, and `BufferError` for a view with gaps, such as `memoryview(stream)[::2]`.

A call audits its stream once. Its buffer is reserved for the longest result that a stream of its length can have: for a report
with signatures of 64 bytes three times that length, of which only what is written takes memory. If so much cannot be reserved
the buffer is shorter, and a result that does not fit takes a second audit.
"""
from __future__ import annotations

import contextlib
import ctypes
import mmap
import os
import pathlib
from collections.abc import Callable, Iterable, Iterator, Mapping, Sequence
from typing import TYPE_CHECKING, Any, NamedTuple

if TYPE_CHECKING:
    from _typeshed import ReadableBuffer

    Verify = Callable[["Vote", int, bytes], object]
    Listed = Iterable[tuple[int, ReadableBuffer]]

__all__ = ["Accusation", "Attestation", "Committees", "CommitteesError", "Encoder", "Evidence", "Message", "Record",
           "Report", "SignedVote", "Split", "Vote", "admits", "admits_outbound", "audit", "audit_deferred",
           "issuance_floor", "leader", "load", "max_faults", "new_records", "quorum", "read_message", "records",
           "store", "verify_evidence", "version"]

# the version of the library's calls, and the shared library's name as it is installed
_CALLS = 2
_INSTALLED = f"libsimplex_audit.so.{_CALLS}"


class _Library:
    """The shared library, with its calls as attributes. It is loaded when the first of them is looked up."""

    def __init__(self) -> None:
        self._types: dict[str, list[Any]] = {}
        self._loaded: ctypes.CDLL | None = None

    def declare(self, calls: Mapping[str, list[Any]]) -> None:
        """Takes the types of the arguments of some calls, as the header has them. Each returns a number of 32 bits."""
        self._types.update((f"simplex_{name}", types) for name, types in calls.items())

    def load(self, loaded: ctypes.CDLL) -> None:
        if not hasattr(loaded, "simplex_version") or loaded.simplex_version() != _CALLS:
            raise OSError(f"{loaded._name} is no library of the auditor whose calls have version {_CALLS}")
        self._loaded = loaded

    def __getattr__(self, name: str) -> Any:
        if not name.startswith("simplex_"):
            raise AttributeError(name)
        if self._loaded is None:
            self.load(_found())
        call = getattr(self._loaded, name)
        call.argtypes, call.restype = self._types.get(name), ctypes.c_uint32
        setattr(self, name, call)
        return call


_library: Any = _Library()


def load(path: str | os.PathLike[str]) -> None:
    """Loads the shared library at this path, before any other call. Without it the first call loads the first of these:

    1. the one of the environment variable SIMPLEX_AUDIT_LIB, which holds its path or that of its folder;
    2. the one beside this module, as a wheel may have it, or in the repository `bindings/out/simplex_audit.so`;
    3. the one of the system, as `make install` and `ldconfig` provide it.

    Processes that are started by `spawn` load it again, so give them the variable. `OSError` if there is no such library, or
    its calls have another version; `RuntimeError` if one is loaded already."""
    if _library._loaded is not None:
        raise RuntimeError("the shared library is loaded already")
    _library.load(ctypes.CDLL(os.fspath(path)))


def _found() -> ctypes.CDLL:
    """The shared library, where `load` says that it is looked for."""
    folder, given = pathlib.Path(__file__).resolve().parent, os.environ.get("SIMPLEX_AUDIT_LIB")
    if given:
        places = [pathlib.Path(given, name) for name in ("simplex_audit.so", _INSTALLED)]
        return ctypes.CDLL(str(next(filter(pathlib.Path.exists, places), given)))
    places = [folder / _INSTALLED]
    if (folder.parent / "pyproject.toml").exists():
        places.append(folder.parents[1] / "out/simplex_audit.so")
    try:
        return ctypes.CDLL(str(next(filter(pathlib.Path.exists, places), _INSTALLED)))
    except OSError as error:
        raise OSError(f"{error}: set SIMPLEX_AUDIT_LIB to the folder of the shared library, or call load") from error


_WHOLE, _FAULT, _ARGUMENTS, _MEMORY, _SHORT = range(5)
_NO, _YES, _NONE = range(3)


class _Summary(ctypes.Structure):
    _fields_ = [(name, ctypes.c_size_t) for name in ("read", "evidence", "splits", "faulted", "fault_place", "length")]


class _AttestationPlace(ctypes.Structure):
    _fields_ = [("epoch", ctypes.c_uint64), ("view", ctypes.c_uint64), ("verdict_place", ctypes.c_size_t),
                ("subject_place", ctypes.c_size_t), ("subject_length", ctypes.c_size_t), ("signer", ctypes.c_uint32),
                ("kind", ctypes.c_uint32)]


class _VotePlace(ctypes.Structure):
    _fields_ = [("subject_place", ctypes.c_size_t), ("subject_length", ctypes.c_size_t), ("verdict_place", ctypes.c_size_t),
                ("signer", ctypes.c_uint32), ("kind", ctypes.c_uint32)]


class _Suspect(ctypes.Structure):
    _fields_ = [*_AttestationPlace._fields_, ("first", ctypes.c_size_t)]


class _Record(ctypes.Structure):
    _fields_ = [("epoch", ctypes.c_uint64), ("view", ctypes.c_uint64), ("first_place", ctypes.c_size_t),
                ("second_place", ctypes.c_size_t), ("first_vote", _VotePlace), ("second_vote", _VotePlace),
                ("signer", ctypes.c_uint32), ("kind", ctypes.c_uint32)]


class _Message(ctypes.Structure):
    _fields_ = [*((name, ctypes.c_uint64) for name in ("epoch", "view", "parent", "second_parent")),
                ("length", ctypes.c_size_t), ("attestations", ctypes.c_size_t), ("kind", ctypes.c_uint32)]


class _Accusation(ctypes.Structure):
    _fields_ = [("epoch", ctypes.c_uint64), ("view", ctypes.c_uint64), ("signer", ctypes.c_uint32), ("kind", ctypes.c_uint32),
                ("proved", ctypes.c_uint32)]


_KINDS = ("notarize", "nullify", "finalize")
_KINDS_OF_EVIDENCE = ("conflicting-notarize", "conflicting-finalize", "nullify-finalize")


def _declare() -> None:
    """Declares the types of each call of the library, as the header has them."""
    u32, u64, size, out = ctypes.c_uint32, ctypes.c_uint64, ctypes.c_size_t, ctypes.POINTER
    data, numbers = [ctypes.c_void_p, size], [out(u64), size, out(u32), size]
    buffer = [out(ctypes.c_char), size]
    window = [u32, u64, u64, u64]
    calls: dict[str, list[Any]] = {
        "version": [], "max_faults": [u32], "quorum": [u32], "admits": window, "admits_outbound": window,
        "issuance_floor": [u32, u64, u64, out(u64)],
        "leader": [u32, u32, u64, u64, out(u32)], "leader_shuffled": [*data, u32, u32, u64, u64, out(u32)],
        "signed_bytes": [*data, u32, u64, u64, u64, *data, *buffer, out(size)],
        "write_vote": [u32, u32, u64, u64, u64, *data, u32, *data, *buffer, out(size)],
        "write_certificate": [u32, u32, u64, u64, u64, *data, out(u32), size, *data, *buffer, out(size)],
        "read_message": [u32, u32, *data, out(_AttestationPlace), size, out(_Message)],
        "verify_evidence": [u32, *numbers, *data, out(_Accusation)],
        "refusal": [u32, *numbers], "refusal_plain": [*numbers, *data],
    }
    plain = [*data, *numbers, *data]
    calls |= {
        "verify_evidence_plain": [*plain, *data, out(_Accusation)],
        "audit_plain": [*plain, *data, *buffer, out(_Summary)],
        "store_plain": [*plain, *data, *data, *buffer, out(size)],
        "records_plain": [*plain, *data, out(_Record), size, out(_Summary)],
    }
    numbers = [u32, *numbers]
    calls |= {
        "audit": [*numbers, *data, *buffer, out(_Summary)],
        "records": [*numbers, *data, out(_Record), size, out(_Summary)],
        "suspects": [*numbers, *data, out(_Suspect), size, out(size)],
        "store": [*numbers, *data, *data, *buffer, out(size)],
    }
    _library.declare(calls)


_declare()


class _View(ctypes.Structure):
    """`Py_buffer`."""

    _fields_ = [("buf", ctypes.c_void_p), ("obj", ctypes.c_void_p), ("len", ctypes.c_ssize_t), ("itemsize", ctypes.c_ssize_t),
                ("readonly", ctypes.c_int), ("ndim", ctypes.c_int),
                *((name, ctypes.c_void_p) for name in ("format", "shape", "strides", "suboffsets", "internal"))]


_SIMPLE = 0  # PyBUF_SIMPLE: bytes without gaps, which need not be writable
_GET = ctypes.PYFUNCTYPE(ctypes.c_int, ctypes.py_object, ctypes.POINTER(_View), ctypes.c_int)
_RELEASE = ctypes.PYFUNCTYPE(None, ctypes.POINTER(_View))
_get_buffer = _GET(("PyObject_GetBuffer", ctypes.pythonapi))
_release_buffer = _RELEASE(("PyBuffer_Release", ctypes.pythonapi))


@contextlib.contextmanager
def _borrowed(data: ReadableBuffer) -> Iterator[tuple[int, int]]:
    """The address of a bytes-like object's bytes, which is never NULL, and their number, while it is borrowed."""
    view = _View()
    _get_buffer(data, ctypes.byref(view), _SIMPLE)
    try:
        yield view.buf or ctypes.addressof(view), view.len
    finally:
        _release_buffer(ctypes.byref(view))


def _mapped(of: Any, room: int) -> mmap.mmap:
    """Memory for this many items, at least one. What is not written takes none."""
    try:
        return mmap.mmap(-1, max(1, room) * ctypes.sizeof(of), flags=mmap.MAP_PRIVATE)
    except (OSError, OverflowError) as error:
        raise MemoryError from error


def _reserved(of: Any, most: int) -> tuple[mmap.mmap, int]:
    """Memory for this many items, or, if so much cannot be had, for half as many, and so on; and for how many."""
    while True:
        try:
            return _mapped(of, most), most
        except MemoryError:
            if most == 0:
                raise
            most //= 2


def _checked(number: int | None, bits: int, what: str) -> int:
    if number is None or not 0 <= number < 1 << bits:
        raise ValueError(f"{what} has to be from 0 to 2^{bits} - 1")
    return number


def _numbers(of: Any, bits: int, numbers: Iterable[int]) -> tuple[Any, int]:
    """An array, which is never NULL, and its length."""
    numbers = [_checked(number, bits, "each number") for number in numbers]
    return (of * max(1, len(numbers)))(*numbers), len(numbers)


def _refused(status: int, refusal: str, committees: Committees | None = None) -> None:
    """Raises what a status means. If the arguments are refused because of the committees, it says why."""
    if status == _ARGUMENTS:
        why = committees._refusal() if committees else None
        raise why or ValueError(refusal)
    if status == _MEMORY:
        raise MemoryError


def _filled(
    function: Any,
    arguments: Sequence[Any],
    of: Any,
    most: int,
    written: Any,
    needed: Callable[[Any], int],
    refusal: str = "no such arguments",
    committees: Committees | None = None,
) -> Any:
    """The items that a function of the library writes into a buffer, at most so many. It is called again only if so many could
    not be reserved."""
    buffer, room = _reserved(of, most)
    while True:
        status = function(*arguments, ctypes.byref(of.from_buffer(buffer)), room, ctypes.byref(written))
        if status != _SHORT:
            break
        room = needed(written)
        buffer = _mapped(of, room)
    _refused(status, refusal, committees)
    return (of * needed(written)).from_buffer(buffer)


# Why committees are refused, by the number of the cause, from 1 on.
_CAUSES = {
    "signature": "a signature has 48, 64 or 96 bytes",
    "no-committee": "there is no committee",
    "count": "there are not as many sizes as epochs",
    "epochs": "the epochs do not rise strictly",
    "empty": "a committee has no participant",
    "length": "the keys have not 32 bytes for each participant",
    "repeated": "a key stands twice in a committee",
}
_UNKNOWN = 8


class CommitteesError(ValueError):
    """There are no such committees. `cause` says why: the first of `signature`, `no-committee`, `count`, `epochs`, `empty`,
    `length` and `repeated` that holds."""

    def __init__(self, cause: str) -> None:
        super().__init__(cause)
        self.cause = cause

    def __str__(self) -> str:
        return _CAUSES[self.cause]


class Committees:
    """Which committee judges the messages of an epoch. A call raises `CommitteesError` if there are no such committees."""

    def __init__(
        self,
        size: int | None,
        epochs: Sequence[int],
        sizes: Sequence[int],
        name: bytes = b"",
        keys: bytes = b"",
    ) -> None:
        if size not in (None, 48, 64, 96):
            raise CommitteesError("signature")
        self._made, self._size = (size, epochs, sizes, name, keys), size
        numbers = [*_numbers(ctypes.c_uint64, 64, epochs), *_numbers(ctypes.c_uint32, 32, sizes)]
        # what each call is given, and that which says why it is refused
        self._given, self._judged = [size, *numbers], [size, *numbers]
        if size is None:
            self._judged = [*numbers, keys, len(keys)]
            self._given = [name, len(name), *self._judged]
        self._suffix, self._greatest = "_plain" if size is None else "", max(sizes, default=0)
        # the bytes of a signature, with its verdict if there is one
        self._signature = 32 if size is None else size + 1

    @staticmethod
    def every(size: int, participants: int) -> Committees:
        """One committee for every epoch, whose signatures have `size` bytes, 48, 64 or 96, and are verified by the caller."""
        return Committees(size, [], [participants])

    @staticmethod
    def listed(size: int, participants: Mapping[int, int]) -> Committees:
        """The committee of each epoch of a mapping from epochs to numbers of participants."""
        epochs = sorted(participants)
        return Committees(size, epochs, [participants[epoch] for epoch in epochs])

    @staticmethod
    def plain(namespace: ReadableBuffer, keys: Iterable[ReadableBuffer]) -> Committees:
        """One committee for every epoch, under the plain scheme, by its keys of 32 bytes in any order. A participant's number
        is the place of its key in ascending order."""
        return Committees._keyed(namespace, [], [keys])

    @staticmethod
    def plain_listed(namespace: ReadableBuffer, keys: Mapping[int, Iterable[ReadableBuffer]]) -> Committees:
        """The committee of each epoch of a mapping from epochs to keys, which are as for `plain`. A key may be in several.

        >>> committees = Committees.plain_listed(b"test", {3: [bytes(32)], 4: [bytes(32), bytes(32)]})
        >>> try:
        ...     audit(committees, b"")
        ... except CommitteesError as error:
        ...     print(error.cause, "-", error)
        repeated - a key stands twice in a committee
        """
        epochs = sorted(keys)
        return Committees._keyed(namespace, epochs, [keys[epoch] for epoch in epochs])

    @staticmethod
    def _keyed(namespace: ReadableBuffer, epochs: Sequence[int], keys: Iterable[Iterable[ReadableBuffer]]) -> Committees:
        listed = [[bytes(key) for key in each] for each in keys]
        if not all(len(key) == 32 for each in listed for key in each):
            raise ValueError("a key has 32 bytes")
        joined = b"".join(key for each in listed for key in each)
        return Committees(None, epochs, [len(each) for each in listed], bytes(namespace), joined)

    def __reduce__(self) -> tuple[type[Committees], tuple[Any, ...]]:
        return Committees, self._made

    def _refusal(self) -> Exception | None:
        """Why there are no such committees, if there are none."""
        cause = getattr(_library, f"simplex_refusal{self._suffix}")(*self._judged)
        if cause == _UNKNOWN:
            return MemoryError()
        return CommitteesError(list(_CAUSES)[cause - 1]) if cause else None

    def _most_votes(self, length: int) -> int:
        """How many votes a stream of this length has at most, each as often as a message carries it: a vote takes at least a
        byte for its signer, and its signature."""
        return length // (1 + self._signature)

    def _most_evidence(self, length: int) -> int:
        """How much evidence it has. Two votes of a signer in a round are one evidence at most, three are two, and five are all
        three kinds."""
        return 2 * self._most_votes(length) // 3

    def _most_text(self, length: int) -> int:
        """The bytes of its report: a line of evidence has at most 246, one of a split 70, and a split at least two votes."""
        return 246 * self._most_evidence(length) + 70 * (self._most_votes(length) // 2)

    def _most_messages(self, length: int) -> int:
        """The bytes of its evidence as messages: a tag and two votes, with proposals of at most 62 bytes and signers of 5."""
        return (1 + 2 * (62 + 5 + self._signature)) * self._most_evidence(length)

    def _fill(
        self,
        call: str,
        given: Sequence[ReadableBuffer],
        of: Any,
        most: Callable[[int], int],
        written: Any,
        needed: Callable[[Any], int],
    ) -> Any:
        """The items that a call writes into a buffer. `most` says how many they are at most, by the number of bytes that are
        given."""
        function = getattr(_library, f"simplex_{call}{self._suffix}")
        with contextlib.ExitStack() as stack:
            slices = [part for data in given for part in stack.enter_context(_borrowed(data))]
            arguments = [*self._given, *slices]
            return _filled(function, arguments, of, most(sum(slices[1::2])), written, needed, committees=self)

    def _store(self, stored: ReadableBuffer, batch: ReadableBuffer) -> bytes:
        """The evidence of what was stored and of a batch behind it, as messages."""
        size = ctypes.c_size_t()
        messages = self._fill("store", [stored, batch], ctypes.c_char, self._most_messages, size, lambda it: it.value)
        return bytes(messages.raw)

    def _suspects(self, stream: ReadableBuffer) -> Any:
        """The attestations of a stream that have to be verified."""
        return self._fill("suspects", [stream], _Suspect, self._most_votes, ctypes.c_size_t(), lambda it: it.value)


class Evidence(NamedTuple):
    """A participant who signed two contradictory votes in a round, their kind, and the report's line with both."""

    epoch: int
    view: int
    signer: int
    kind: str
    line: str


class Split(NamedTuple):
    """A round whose certificates contradict, how many the evidence accuses there, and f + 1, which is no more."""

    epoch: int
    view: int
    named: int
    least: int


class Report(NamedTuple):
    """How many messages were read, evidence and splits, the offset of the fault or `None`, and the lines of both."""

    read: int
    evidence: list[Evidence]
    splits: list[Split]
    fault: int | None
    text: str


def audit(committees: Committees, stream: ReadableBuffer) -> Report:
    """The report of a stream."""
    summary = _Summary()
    text = committees._fill("audit", [stream], ctypes.c_char, committees._most_text, summary, lambda it: it.length)
    return _report(text.raw.decode(), summary)


def _report(text: str, summary: _Summary) -> Report:
    lines = text.splitlines()
    evidence = [_evidence(line) for line in lines[: summary.evidence]]
    splits = [_split(line) for line in lines[summary.evidence :]]
    return Report(summary.read, evidence, splits, summary.fault_place if summary.faulted else None, text)


class SignedVote(NamedTuple):
    """A vote with its signature, whole: the vote, the number of its signer, the signature, the verdict behind it, 1, or `None`
    under the plain scheme, and the vote as a message with all of these, to be handed on. Behind each other both votes of an
    evidence are a stream whose report is this evidence."""

    vote: Vote
    signer: int
    signature: bytes
    verdict: int | None
    message: bytes


class Record(NamedTuple):
    """An evidence, the offsets of the first messages that carry its first and its second vote, and both votes. Such a message
    may hold other votes, and invalid ones."""

    epoch: int
    view: int
    signer: int
    kind: str
    first_place: int
    second_place: int
    first: SignedVote
    second: SignedVote


def records(committees: Committees, stream: ReadableBuffer) -> list[Record]:
    """The evidence of the stream's report as records, in the same order, with both votes and their places in the stream. The
    place of a vote is the offset of the first message that carries it: the vote on its own, a certificate that lists it, or
    evidence with it. Of a nullify and a finalize the nullify is the first.

    >>> stream, valid = Encoder(64), lambda vote, signer, signature: True
    >>> for signer, payload in ((1, 6), (2, 6), (2, 7)):
    ...     stream.vote(Vote("notarize", 3, 10, 5, bytes([payload] * 32)), signer, bytes([payload] * 64), valid)
    >>> committees = Committees.every(64, 4)
    >>> it, = records(committees, stream.encoded())
    >>> it[:6]
    (3, 10, 2, 'conflicting-notarize', 102, 204)
    >>> it.second.vote.parent, it.second.vote.payload[0], it.second.signer, it.second.signature[0], it.second.verdict
    (5, 7, 2, 7, 1)
    >>> audit(committees, it.first.message + it.second.message).text == audit(committees, stream.encoded()).text
    True
    """
    with _borrowed(stream), memoryview(stream) as view, view.cast("B") as data:
        found = committees._fill("records", [stream], _Record, committees._most_evidence, _Summary(), lambda it: it.evidence)
        return [
            Record(it.epoch, it.view, it.signer, _KINDS_OF_EVIDENCE[it.kind], it.first_place, it.second_place,
                   _signed_vote(committees, data, it.first_vote), _signed_vote(committees, data, it.second_vote))
            for it in found
        ]


def _signed_vote(committees: Committees, data: memoryview, place: _VotePlace) -> SignedVote:
    """The vote that stands there."""
    subject = bytes(data[place.subject_place : place.subject_place + place.subject_length])
    end, (size, _) = place.verdict_place + 1, _reading(committees)
    attested = bytes(data[end - committees._signature : end])
    vote = _vote(_KINDS[place.kind], subject, size)
    message = _vote_message(size, vote, place.signer, attested)
    return SignedVote(vote, place.signer, attested[:size], next(iter(attested[size:]), None), message)


def audit_deferred(committees: Committees, stream: ReadableBuffer, verify: Verify) -> Report:
    """The report of a stream whose signatures are not verified yet; its verdicts may be any bytes. Only the votes of suspects
    and the certificates of their rounds are verified, each vote once. A suspect is a signer of the committee, in a round where
    two votes that claim to be that signer's contradict; an honest stream has none. The report is that of `audit` with every
    signature verified. `verify` is as for an `Encoder`. The stream is copied, for the verdicts.

    >>> stream = Encoder(64)
    >>> for view, signer, payload in ((9, 0, 6), (9, 1, 6), (10, 2, 6), (10, 2, 7)):
    ...     stream.vote(Vote("notarize", 3, view, 5, bytes([payload] * 32)), signer, bytes(64))
    >>> verified = []
    >>> def verify(vote, signer, signature):
    ...     verified.append((vote.view, signer))
    ...     return True
    >>> len(audit_deferred(Committees.every(64, 4), stream.encoded(), verify).evidence), verified
    (1, [(10, 2), (10, 2)])
    """
    if committees._size is None:
        return audit(committees, stream)  # the plain scheme verifies its signatures itself
    suspects, verified, size = committees._suspects(stream), bytearray(stream), committees._size

    def verdict(it: Any, subject: bytes, signature: bytes) -> bool:
        return bool(verify(_vote(_KINDS[it.kind], subject, size), it.signer, signature))

    _write_verdicts(suspects, verified, size, verdict)
    return audit(committees, verified)


def _write_verdicts(listed: Any, data: bytearray, size: int, verdict: Callable[[Any, bytes, bytes], bool]) -> None:
    """Writes the verdicts of listed attestations: `verdict` is given each with its subject and its signature, those that are the
    same once."""
    for index, it in enumerate(listed):
        if it.first == index:
            subject = bytes(data[it.subject_place : it.subject_place + it.subject_length])
            data[it.verdict_place] = verdict(it, subject, bytes(data[it.verdict_place - size : it.verdict_place]))
        else:
            data[it.verdict_place] = data[listed[it.first].verdict_place]


def _vote(kind: str, subject: bytes, size: int) -> Vote:
    """The vote of this kind with this subject: the message of which it is, signer and signature being zeros, is read."""
    message, head, place = bytes([Encoder._VOTES[kind]]) + subject + bytes(2 + size), _Message(), _AttestationPlace()
    _library.simplex_read_message(size, 1, message, len(message), ctypes.byref(place), 1, ctypes.byref(head))
    proposal = () if kind == "nullify" else (head.parent, subject[-32:])
    return Vote(kind, head.epoch, head.view, *proposal)


def _evidence(line: str) -> Evidence:
    epoch, view, signer, kind, *_ = line.split(" ")
    return Evidence(int(epoch), int(view), int(signer), kind, line)


def _split(line: str) -> Split:
    epoch, view, _, named, least = line.split(" ")
    return Split(int(epoch), int(view), int(named), int(least))


def store(committees: Committees, stored: ReadableBuffer, batch: ReadableBuffer) -> bytes:
    """The evidence of what was stored and of a batch behind it, as messages. A batch has to hold every vote of its rounds.
    `ValueError` if what was stored has a fault: nothing behind that would be read.

    Each call reads all that was stored, twice. So n batches with an evidence each, stored one behind the other, take time in
    n^2. If no round comes in two batches, call `store(committees, b"", batch)` for each and append the results to each other:
    that reads each batch once.

    >>> committees, stored, valid = Committees.every(64, 4), b"", lambda vote, signer, signature: True
    >>> for view in (10, 11):
    ...     batch = Encoder(64)
    ...     for payload in (6, 7):
    ...         batch.vote(Vote("notarize", 3, view, 5, bytes([payload] * 32)), 2, bytes(64), valid)
    ...     stored += store(committees, b"", batch.encoded())
    >>> [(it.view, it.signer) for it in audit(committees, stored).evidence]
    [(10, 2), (11, 2)]
    """
    _check_stored(committees, stored)
    return committees._store(stored, batch)


def new_records(committees: Committees, stored: ReadableBuffer, batch: ReadableBuffer) -> list[Record]:
    """The new records of what was stored with a batch behind it: those with at least one place in the batch, at or above the
    length of what was stored in bytes. All other evidence was stored before. `ValueError` as for `store`. What was stored is
    audited by itself, and then with the batch, however short the batch is. Both are copied into one stream.

    >>> committees, stored, valid = Committees.every(64, 4), b"", lambda vote, signer, signature: True
    >>> for view in (10, 11):
    ...     batch = Encoder(64)
    ...     for payload in (6, 7):
    ...         batch.vote(Vote("notarize", 3, view, 5, bytes([payload] * 32)), 2, bytes(64), valid)
    ...     print([(it.view, it.signer) for it in new_records(committees, stored, batch.encoded())])
    ...     stored = store(committees, stored, batch.encoded())
    [(10, 2)]
    [(11, 2)]
    """
    _check_stored(committees, stored)
    with _borrowed(stored) as (_, length), _borrowed(batch):
        stream = b"".join((stored, batch))
    return [it for it in records(committees, stream) if max(it.first_place, it.second_place) >= length]


def _check_stored(committees: Committees, stored: ReadableBuffer) -> None:
    if audit(committees, stored).fault is not None:
        raise ValueError("what was stored is damaged")


class Accusation(NamedTuple):
    """Whom an evidence accuses, in which round and of what, and whether both of its votes are valid."""

    epoch: int
    view: int
    signer: int
    kind: str
    proved: bool


def verify_evidence(committees: Committees, message: ReadableBuffer) -> Accusation | None:
    """The accusation of one piece of evidence, such as `store` writes, judged by itself. It is proved where both votes are
    valid under the committee of their epoch: where an audit of this message alone accuses the signer. `None` if the bytes are
    not exactly one message that is evidence.

    >>> committees, stream = Committees.every(64, 4), Encoder(64)
    >>> for payload in (6, 7):
    ...     stream.vote(Vote("notarize", 3, 10, 5, bytes([payload] * 32)), 2, bytes(64), lambda vote, signer, signature: True)
    >>> evidence = store(committees, b"", stream.encoded())
    >>> verify_evidence(committees, evidence)
    Accusation(epoch=3, view=10, signer=2, kind='conflicting-notarize', proved=True)
    >>> verify_evidence(Committees.every(64, 2), evidence).proved, verify_evidence(committees, evidence[:-1])
    (False, None)
    """
    it = _Accusation()
    function = getattr(_library, f"simplex_verify_evidence{committees._suffix}")
    with _borrowed(message) as (address, length):
        status = function(*committees._given, address, length, ctypes.byref(it))
    _refused(status, "no such arguments", committees)
    if status == _FAULT:
        return None
    return Accusation(it.epoch, it.view, it.signer, _KINDS_OF_EVIDENCE[it.kind], bool(it.proved))


class Attestation(NamedTuple):
    """A vote of a message, the number of its signer, and where the signature stands, without the verdict."""

    vote: Vote
    signer: int
    signature: slice


class Message(NamedTuple):
    """A message: the epoch and the view of its round, the number of its kind, 0 to 9, which is the tag with which it is encoded,
    how many bytes it has, and its votes: one, two of evidence, and those that a certificate lists."""

    epoch: int
    view: int
    kind: int
    length: int
    attestations: list[Attestation]


# The first kind of messages that are evidence.
_FIRST_EVIDENCE = 7


def _reading(committees: Committees) -> tuple[int, int]:
    """The bytes of a signature, and the number of participants of the greatest committee."""
    return committees._size or 32, committees._greatest


def read_message(committees: Committees, data: ReadableBuffer) -> Message | None:
    """The message at the front of some bytes, or `None` if there is none. Nothing is verified. Of the committees it takes the
    size of signatures, and the number of participants of the greatest one.

    >>> committees, stream = Committees.every(64, 4), Encoder(64)
    >>> stream.certificate(Vote("finalize", 300, 10, 5, bytes(32)), [(1, bytes(64)), (3, bytes([9] * 64))])
    >>> message = read_message(committees, stream.encoded())
    >>> message.kind, message.epoch, message.length == len(stream.encoded())
    (6, 300, True)
    >>> last = message.attestations[1]
    >>> last.vote.parent, last.signer, stream.encoded()[last.signature] == bytes([9] * 64)
    (5, 3, True)
    """
    (signature, bound), head, call = _reading(committees), _Message(), _library.simplex_read_message
    with _borrowed(data) as (at, length), memoryview(data) as view, view.cast("B") as bytes_of:
        most, count = length // (1 + committees._signature), lambda it: it.attestations
        arguments = [signature, bound, at, length]
        places = _filled(call, arguments, _AttestationPlace, most, head, count, committees=committees)
        if head.length == 0:
            return None
        attestations = []
        for i, it in enumerate(places):
            vote = Vote(_KINDS[it.kind], it.epoch, it.view)
            if vote.kind != "nullify":
                end = it.subject_place + it.subject_length
                parent = head.second_parent if i == 1 and head.kind >= _FIRST_EVIDENCE else head.parent
                vote = vote._replace(parent=parent, payload=bytes(bytes_of[end - 32 : end]))
            end = it.verdict_place + (committees._size is None)
            attestations.append(Attestation(vote, it.signer, slice(end - signature, end)))
    return Message(head.epoch, head.view, head.kind, head.length, attestations)


class Vote(NamedTuple):
    """A vote: `notarize` or `finalize` with a parent's view and a payload of 32 bytes, or `nullify` without."""

    kind: str
    epoch: int
    view: int
    parent: int | None = None
    payload: bytes | None = None

    def message(self) -> bytes:
        """The encoding of the proposal, or of the round."""
        signed = self.signed_bytes(b"")
        return signed[1 + signed[0] :]

    def signed_bytes(self, base: bytes) -> bytes:
        """What a signature is over: the length of the namespace, the namespace, and the message."""
        base = bytes(base)
        return _written("signed_bytes", [base, len(base), *self._said()], _NUMBER + len(base) + _SUFFIX + _HEAD)

    def _said(self) -> list[Any]:
        """The vote as the library's calls take it."""
        if self.kind not in _KINDS:
            raise ValueError("no such kind of vote")
        parent, payload = (0, b"") if self.kind == "nullify" else (self.parent, bytes(self.payload or b""))
        if len(payload) != (0 if self.kind == "nullify" else 32):
            raise ValueError("a payload has 32 bytes")
        numbers = [_checked(number, 64, "a number") for number in (self.epoch, self.view, parent)]
        return [_KINDS.index(self.kind), *numbers, payload, len(payload)]


# The longest tag and subject of a message; the longest number, of a signer, and suffix of a namespace.
_HEAD, _NUMBER, _SIGNER, _SUFFIX = 63, 10, 5, 9


def _written(call: str, arguments: list[Any], most: int, refusal: str = "no such vote") -> bytes:
    """The bytes that a call writes, at most so many."""
    buffer, size = ctypes.create_string_buffer(most), ctypes.c_size_t()
    _refused(getattr(_library, f"simplex_{call}")(*arguments, buffer, most, ctypes.byref(size)), refusal)
    return buffer.raw[: size.value]


def _vote_message(size: int, vote: Vote, signer: int, attested: bytes) -> bytes:
    """A vote as a message, with its signature and what is behind that."""
    arguments = [size, *vote._said(), signer, attested, len(attested)]
    return _written("write_vote", arguments, _HEAD + _SIGNER + len(attested))


class Encoder:
    """Writes messages as a stream. Each signature is verified, and the verdict is written behind it. `verify(vote, signer,
    signature)` returns whether the signature on the vote is valid under this signer's key in the committee of the vote's epoch.
    Without `verify` nothing is verified, for `audit_deferred`."""

    _VOTES = {"notarize": 0, "nullify": 3, "finalize": 5}

    def __init__(self, size: int) -> None:
        self._size, self._bytes = size, bytearray()

    def vote(self, vote: Vote, signer: int, signature: ReadableBuffer, verify: Verify | None = None) -> None:
        """Appends a vote."""
        attested = self._attested(vote, signer, signature, verify)
        self._bytes += _vote_message(self._size, vote, _checked(signer, 32, "a signer"), attested)

    def certificate(self, vote: Vote, listed: Listed, verify: Verify | None = None) -> None:
        """Appends a certificate that lists these pairs of a signer and a signature, signers ascending."""
        self._list(vote, listed, verify)

    def certification(self, vote: Vote, listed: Listed, verify: Verify | None = None) -> None:
        """Appends a certification, a notarization that a node accepted: what `certificate` writes for a notarize, with a tag of
        its own. An audit counts it as a notarization.

        >>> stream = Encoder(64)
        >>> for payload, signers in ((6, (0, 1, 2)), (7, (1, 2, 3))):
        ...     vote = Vote("notarize", 3, 10, 5, bytes([payload] * 32))
        ...     stream.certification(vote, [(it, bytes(64)) for it in signers], lambda vote, signer, signature: True)
        >>> report = audit(Committees.every(64, 4), stream.encoded())
        >>> stream.encoded()[0], report.read, [it.signer for it in report.evidence], len(report.splits)
        (2, 2, [1, 2], 1)
        """
        if vote.kind != "notarize":
            raise ValueError("a certification is of a notarize")
        self._list(vote, listed, verify, kind=2)

    def _list(self, vote: Vote, listed: Listed, verify: Verify | None, kind: int | None = None) -> None:
        listed, said = list(listed), vote._said()
        signers, count = _numbers(ctypes.c_uint32, 32, [signer for signer, _ in listed])
        attested = b"".join(self._attested(vote, signer, signature, verify) for signer, signature in listed)
        kind = kind or self._VOTES[vote.kind] + 1
        arguments = [self._size, kind, *said[1:], signers, count, attested, len(attested)]
        most = _HEAD + _SIGNER * (1 + count) + len(attested)
        self._bytes += _written("write_certificate", arguments, most, "signers have to ascend, and there has to be one")

    def _attested(self, vote: Vote, signer: int, signature: ReadableBuffer, verify: Verify | None) -> bytes:
        """The signature, and behind it the verdict."""
        signature = bytes(signature)
        if len(signature) != self._size:
            raise ValueError(f"a signature has {self._size} bytes")
        return signature + bytes([bool(verify and verify(vote, signer, signature))])

    def encoded(self) -> bytes:
        """All that it wrote."""
        return bytes(self._bytes)


def version() -> int:
    """The version of the library's calls."""
    return _library.simplex_version()


def max_faults(n: int) -> int:
    """How many of n participants may lie: the greatest f with 3f + 1 <= n, and 0 where n is 0."""
    return _library.simplex_max_faults(_checked(n, 32, "a number of participants"))


def quorum(n: int) -> int:
    """How many of n participants are a quorum: n - f, and 0 where n is 0."""
    return _library.simplex_quorum(_checked(n, 32, "a number of participants"))


def _window(call: str, term_length: int, *views: int) -> bool:
    numbers = _checked(term_length, 32, "a term length"), *(_checked(it, 64, "a view") for it in views)
    status = getattr(_library, f"simplex_{call}")(*numbers)
    if status == _NONE:
        raise ValueError("terms have no views, or views are past 2^64 - 1")
    return status == _YES


def admits(term_length: int, optimistic_views: int, current: int, pending: int) -> bool:
    """Whether a node in view `current` takes votes of the view `pending`."""
    return _window("admits", term_length, optimistic_views, current, pending)


def admits_outbound(term_length: int, optimistic_views: int, current: int, pending: int) -> bool:
    """Whether a node in view `current` sends messages of the view `pending`."""
    return _window("admits_outbound", term_length, optimistic_views, current, pending)


def issuance_floor(term_length: int, optimistic_views: int, view: int) -> int | None:
    """The earliest view from which messages of a view may be issued, or `None` where no lookahead bounds it."""
    floor = ctypes.c_uint64()
    views = _checked(optimistic_views, 64, "a number of views"), _checked(view, 64, "a view")
    status = _library.simplex_issuance_floor(_checked(term_length, 32, "a term length"), *views, ctypes.byref(floor))
    if status == _NONE:
        raise ValueError("terms have no views")
    return floor.value if status == _YES else None


def leader(participants: int, term_length: int, epoch: int, view: int, seed: ReadableBuffer | None = None) -> int:
    """The number of the participant who leads a view of an epoch, in the order of the numbers or in the one that a seed
    determines."""
    number = ctypes.c_uint32()
    terms = _checked(participants, 32, "a number of participants"), _checked(term_length, 32, "a term length")
    place = _checked(epoch, 64, "an epoch"), _checked(view, 64, "a view")
    if seed is None:
        status = _library.simplex_leader(*terms, *place, ctypes.byref(number))
    else:
        seed = bytes(seed)
        status = _library.simplex_leader_shuffled(seed, len(seed), *terms, *place, ctypes.byref(number))
    _refused(status, "no participant, or terms have no views")
    return number.value
