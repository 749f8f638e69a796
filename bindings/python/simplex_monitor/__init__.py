"""An auditor for a node that runs for long, over the module `simplex_audit`, which says what a call takes and raises. It is fed
a stream as it comes and returns the evidence that each piece completes. It forgets nothing from its floor on.

>>> from simplex_audit import Committees, Encoder, Vote
>>> def vote(payload):
...     batch = Encoder(64)
...     vote = Vote("notarize", 3, 10, 5, bytes([payload] * 32))
...     batch.vote(vote, 2, bytes(64), lambda vote, signer, signature: True)
...     return batch.encoded()
>>> committees = Committees.every(64, 4)
>>> monitor = Monitor(committees)
>>> monitor.feed(vote(6))
[]
>>> with Monitor.resume(committees, monitor.held()) as again:
...     [(one.view, one.signer, one.kind) for one in again.feed(vote(7))], again.feed(vote(7))
([(10, 2, 'conflicting-notarize')], [])
"""
from __future__ import annotations

import ctypes
from typing import TYPE_CHECKING, Any, Callable

from simplex_audit import (Committees, Evidence, Report, Split, _borrowed, _checked, _evidence, _FAULT, _KINDS, _library,
                           _MEMORY, _refused, _report, _SHORT, _split, _Summary, _Suspect, _vote, _WHOLE, _write_verdicts)

if TYPE_CHECKING:
    from _typeshed import ReadableBuffer

    from simplex_audit import Verify

__all__ = ["Monitor"]


class _Auditor(ctypes.Structure):
    _fields_ = [("state", ctypes.c_void_p)]


def _declare() -> None:
    """Declares the types of each call, as the header has them."""
    u32, u64, size, out = ctypes.c_uint32, ctypes.c_uint64, ctypes.c_size_t, ctypes.POINTER
    data, auditor, buffer = [ctypes.c_void_p, size], out(_Auditor), [out(ctypes.c_char), size]
    calls: dict[str, list[Any]] = {
        "new": [u32, out(u64), size, out(u32), size, *data, auditor],
        "new_plain": [*data, out(u64), size, out(u32), size, *data, *data, auditor],
        "feed": [auditor, *data],
        "unverified": [auditor, *data, out(_Suspect), size, out(size), out(size)],
        "report": [auditor, *buffer, out(_Summary)],
        "news": [auditor, *buffer, out(size)],
        "prune": [auditor, u64, u64],
        "votes": [auditor, out(size)],
        "held": [auditor, *buffer, out(size)],
        "free": [auditor],
    }
    _library.declare({f"auditor_{name}": types for name, types in calls.items()})


_declare()


class Monitor:
    """What a node feeds its stream, in pieces cut anywhere. A feed takes the time that the new bytes need. A monitor is used by
    one thread at a time. It is freed when nothing names it any more, by `close`, or at the end of a `with`."""

    def __init__(self, committees: Committees, held: ReadableBuffer = b"") -> None:
        self._auditor, self._splits = _Auditor(), list[Split]()
        self._committees, self._unfed = committees, b""
        # valid votes that need not be verified again, by epoch, view and signer, at most as many as an auditor records
        self._verified: dict[tuple[int, int, int], set[tuple[int, bytes, bytes]]] = {}
        call = getattr(_library, f"simplex_auditor_new{committees._suffix}")
        with _borrowed(held) as part:
            status = call(*committees._given, *part, ctypes.byref(self._auditor))
        _refused(status, "no such arguments", committees)
        # of a stream with a fault nothing more is read; a last message that is cut off is none
        self._push(b"", "what was held is damaged")

    @classmethod
    def resume(cls, committees: Committees, held: ReadableBuffer) -> Monitor:
        """A monitor that goes on as the one that held these bytes. The evidence in them is returned again by the next `feed`.
        The floor is the first round: prune it to the floor of the other one. `ValueError` if the bytes have a fault, behind
        which nothing would be read."""
        return cls(committees, held)

    def feed(self, data: ReadableBuffer) -> list[Evidence]:
        """Feeds the next bytes of the stream, and returns the evidence that they complete, each once however the stream is cut.
        `ValueError` if the stream has a fault before these bytes. After an error nothing that was fed is lost."""
        if self._unfed:
            raise ValueError("a message that is not whole yet waits")
        self._push(data, "the stream has a fault before these bytes, or the monitor is closed")
        return self.news()

    def feed_unverified(self, data: ReadableBuffer, verify: Verify) -> list[Evidence]:
        """Feeds the next bytes of a stream whose signatures are not verified yet, as `feed` does; their verdicts may be any
        bytes. A vote is verified if its round is at the floor or above it and its signer is in the committee, and a valid one
        once: whoever sends it again, by itself or in a certificate, costs no verification. `verify` is as for an `Encoder`. The
        bytes of a message that is not whole yet wait for the next bytes, in `unfed`: they are not in what is held. `ValueError`
        also if bytes that were fed by `feed` end within a message.

        >>> from simplex_audit import Encoder, Vote
        >>> stream, vote = Encoder(64), Vote("notarize", 3, 10, 5, bytes(32))
        >>> for signer in range(3):
        ...     stream.vote(vote, signer, bytes([signer] * 64))
        >>> stream.certificate(vote, [(signer, bytes([signer] * 64)) for signer in range(3)])
        >>> verified = []
        >>> def verify(vote, signer, signature):
        ...     verified.append(signer)
        ...     return True
        >>> monitor = Monitor(Committees.every(64, 4))
        >>> monitor.feed_unverified(stream.encoded(), verify), monitor.votes(), verified
        ([], 3, [0, 1, 2])
        """
        size = self._committees._size
        if size is None:
            return self.feed(data)  # the plain scheme verifies its signatures itself
        with _borrowed(data) as part:
            unfed = bytearray(self._unfed + ctypes.string_at(*part))
        listed, whole = self._unverified(unfed)

        def verdict(it: Any, subject: bytes, signature: bytes) -> bool:
            votes, vote = self._verified.setdefault((it.epoch, it.view, it.signer), set()), (it.kind, subject, signature)
            valid = vote in votes or bool(verify(_vote(_KINDS[it.kind], subject, size), it.signer, signature))
            if valid and len(votes) < 5:
                votes.add(vote)
            return valid

        _write_verdicts(listed, unfed, size, verdict)
        self._push(unfed[:whole], "the stream has a fault before these bytes, or the monitor is closed")
        self._unfed = bytes(unfed[whole:])
        return self.news()

    def _unverified(self, data: bytearray) -> tuple[Any, int]:
        """What has to be verified of the messages at the front of some bytes, and how many bytes can be fed: all if there is a
        fault behind them."""
        room, needed, whole = 16, ctypes.c_size_t(), ctypes.c_size_t()
        while True:
            listed, call = (_Suspect * room)(), _library.simplex_auditor_unverified
            with _borrowed(data) as part:
                status = call(ctypes.byref(self._auditor), *part, listed, room, ctypes.byref(needed), ctypes.byref(whole))
            if status != _SHORT:
                break
            room = needed.value
        _refused(status, "what was fed ends within a message or with a fault, or the monitor is closed")
        return listed[: needed.value], len(data) if status == _FAULT else whole.value

    @property
    def unfed(self) -> bytes:
        """The bytes of a message that is not whole yet, of those that came by `feed_unverified`. They have to come again after a
        restart."""
        return self._unfed

    def _push(self, data: ReadableBuffer, refusal: str) -> None:
        with _borrowed(data) as part:
            status = _library.simplex_auditor_feed(ctypes.byref(self._auditor), *part)
        if status == _MEMORY:
            raise MemoryError
        if status != _WHOLE:
            raise ValueError(refusal)

    def news(self) -> list[Evidence]:
        """The evidence that arose and was not returned yet."""
        size = ctypes.c_size_t()
        lines = self._filled(_library.simplex_auditor_news, size, lambda: size.value).decode().splitlines()
        self._splits += [_split(line) for line in lines if line.split(" ")[2] == "split"]
        return [_evidence(line) for line in lines if line.split(" ")[2] != "split"]

    def take_splits(self) -> list[Split]:
        """The splits that arose with the evidence that was returned, and were not taken yet: a round again when more
        participants are accused there."""
        taken, self._splits = self._splits, []
        return taken

    def prune(self, epoch: int, view: int) -> None:
        """Gives up all rounds below one: what is known of them is dropped, and their messages are read and not judged. The
        floor never falls."""
        numbers = _checked(epoch, 64, "an epoch"), _checked(view, 64, "a view")
        _refused(_library.simplex_auditor_prune(ctypes.byref(self._auditor), *numbers), "the monitor is closed")
        self._verified = {it: votes for it, votes in self._verified.items() if it[:2] >= numbers}

    def report(self) -> Report:
        """The report of all that was fed, from the floor on. Messages and offsets are counted from what it was resumed from;
        after a `MemoryError` of `feed`, from what it held then."""
        summary = _Summary()
        text = self._filled(_library.simplex_auditor_report, summary, lambda: summary.length)
        return _report(text.decode(), summary)

    def votes(self) -> int:
        """How many valid votes are recorded, from the floor on."""
        votes = ctypes.c_size_t()
        _refused(_library.simplex_auditor_votes(ctypes.byref(self._auditor), ctypes.byref(votes)), "the monitor is closed")
        return votes.value

    def held(self) -> bytes:
        """Few messages that can stand for all that was fed, from the floor on, and the bytes after the last whole message, for
        `resume`."""
        size = ctypes.c_size_t()
        return self._filled(_library.simplex_auditor_held, size, lambda: size.value)

    def close(self) -> None:
        """Frees the monitor."""
        _library.simplex_auditor_free(ctypes.byref(self._auditor))

    def __enter__(self) -> Monitor:
        return self

    def __exit__(self, *_: object) -> None:
        self.close()

    def __del__(self) -> None:
        if hasattr(self, "_auditor"):
            _library.simplex_auditor_free(ctypes.byref(self._auditor))

    def _filled(self, call: Any, written: Any, needed: Callable[[], int]) -> bytes:
        """What a call puts into a buffer. It says how many bytes that are if they are more."""
        room = 1024
        while True:
            buffer = ctypes.create_string_buffer(room)
            status = call(ctypes.byref(self._auditor), buffer, room, ctypes.byref(written))
            if status != _SHORT:
                break
            room = needed()
        _refused(status, "the monitor is closed")
        return buffer.raw[: needed()]
