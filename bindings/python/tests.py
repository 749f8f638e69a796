"""Tests of the Python module."""
import array
import contextlib
import ctypes
import doctest
import hashlib
import mmap
import random
import tempfile
import unittest
import unittest.mock

import simplex_audit
from simplex_audit import (Committees, Encoder, Vote, audit, audit_deferred, new_records, read_message, records, store,
                           verify_evidence)


def valid(vote, signer, signature):
    return True


def two_votes(view, signer=2, size=64, verify=valid):
    stream = Encoder(size)
    for payload in (b"\6" * 32, b"\7" * 32):
        stream.vote(Vote("notarize", 3, view, 5, payload), signer, bytes(size), verify)
    return stream.encoded()


def plain_signature(vote, key):
    """Of the participant with this key, under the plain scheme with the base `test`."""
    signed = vote.signed_bytes(b"test")
    name = signed[: 1 + signed[0]]
    return hashlib.sha256(name + key + signed[len(name) :]).digest()


def plain_vote(vote):
    """A message with a vote of the participant whose key is 32 zero bytes."""
    return bytes([Encoder._VOTES[vote.kind]]) + vote.message() + b"\0" + plain_signature(vote, bytes(32))


def certificates(size, participants):
    """Committees, and a nullification and two finalizations that all of less than 128 participants sign; without a size under
    the plain scheme. No stream of this length has more evidence."""
    most = (1 << 64) - 1
    votes = [Vote("nullify", most, most), *(Vote("finalize", most, most, most, bytes([it] * 32)) for it in (6, 7))]
    if size:
        stream = Encoder(size)
        for vote in votes:
            stream.certificate(vote, [(it, bytes(size)) for it in range(participants)], valid)
        return Committees.every(size, participants), stream.encoded()
    keys, stream = [bytes([it] * 32) for it in range(participants)], b""
    for vote in votes:
        listed = b"".join(bytes([it]) + plain_signature(vote, key) for it, key in enumerate(keys))
        stream += bytes([Encoder._VOTES[vote.kind] + 1]) + vote.message() + bytes([participants]) + listed
    return Committees.plain(b"test", keys), stream


def contradictions():
    """Committees, and two notarizes that contradict as messages: with signatures of each size, and under the plain scheme."""
    for size in (48, 64, 96):
        votes = two_votes(10, size=size)
        yield Committees.every(size, 4), votes[: len(votes) // 2], votes[len(votes) // 2 :]
    votes = [plain_vote(Vote("notarize", 3, 10, 5, payload)) for payload in (b"\6" * 32, b"\7" * 32)]
    yield Committees.plain(b"test", [bytes(32)]), *votes
    yield Committees.plain_listed(b"test", {1: [b"\1" * 32], 3: [b"\1" * 32, bytes(32)]}), *votes


def buffers(data):
    """Bytes-like objects with these bytes, some that can be written and some that cannot."""
    yield data
    yield bytearray(data)
    yield memoryview(data)
    yield memoryview(bytearray(data))
    yield memoryview(bytearray(b"\xff" + data + b"\xff"))[1:-1]
    yield memoryview(b"\xff" + data + b"\xff")[1:-1]
    yield array.array("B", data)
    with tempfile.TemporaryFile() as file:
        file.write(data)
        file.flush()
        for access in (mmap.ACCESS_READ, mmap.ACCESS_WRITE, mmap.ACCESS_COPY):
            # it closes, so nothing holds it any longer
            with mmap.mmap(file.fileno(), len(data), access=access) as mapped:
                yield mapped


def address(data):
    """Where the bytes of a `bytearray` are."""
    return ctypes.addressof(ctypes.c_char.from_buffer(data))


@contextlib.contextmanager
def counted():
    """The names of the library's calls that are made meanwhile, in order."""
    library, calls = simplex_audit._library, []

    class Counting:
        def __getattr__(self, name):
            return lambda *arguments: calls.append(name) or getattr(library, name)(*arguments)

    with unittest.mock.patch.object(simplex_audit, "_library", Counting()):
        yield calls


class Tests(unittest.TestCase):
    def test_sizes(self):
        for size in (48, 64, 96):
            (found,) = audit(Committees.every(size, 4), two_votes(10, size=size)).evidence
            self.assertEqual((found.epoch, found.view, found.signer, found.kind), (3, 10, 2, "conflicting-notarize"))

    def test_what_is_not_verified_accuses_nobody(self):
        report = audit(Committees.every(64, 4), two_votes(10, verify=lambda vote, signer, signature: False))
        self.assertEqual((report.read, report.evidence), (2, []))
        self.assertEqual(audit(Committees.every(64, 2), two_votes(10)).evidence, [])
        self.assertEqual(audit(Committees.listed(64, {2: 4, 5: 4}), two_votes(10)).evidence, [])

    def test_a_fork_splits(self):
        stream = Encoder(64)
        for payload, signers in ((b"\6" * 32, (0, 1, 2)), (b"\7" * 32, (1, 2, 3))):
            stream.certificate(Vote("notarize", 3, 10, 5, payload), [(it, bytes(64)) for it in signers], valid)
        report = audit(Committees.listed(64, {3: 4}), stream.encoded())
        self.assertEqual([it.signer for it in report.evidence], [1, 2])
        self.assertEqual(report.splits, [(3, 10, 2, 2)])

    def test_what_is_signed_is_what_the_plain_scheme_verifies(self):
        for one, other in (("notarize", "notarize"), ("nullify", "finalize"), ("finalize", "finalize")):
            first = Vote(one, 3, 10) if one == "nullify" else Vote(one, 3, 10, 5, b"\6" * 32)
            votes = [first, Vote(other, 3, 10, 5, b"\7" * 32)]
            report = audit(Committees.plain(b"test", [bytes(32)]), b"".join(map(plain_vote, votes)))
            self.assertEqual((report.read, len(report.evidence)), (2, 1))

    def test_deferred(self):
        nullify, finalize = Vote("nullify", 300, 10), Vote("finalize", 300, 10, 1 << 40, b"\7" * 32)
        for size in (48, 64, 96):
            committees, asked, streams = Committees.listed(size, {7: 9, 300: 4}), [], []
            for verify in (None, valid):
                stream = Encoder(size)
                stream.certificate(Vote("finalize", 300, 9, 5, b"\6" * 32), [(0, b"\10" * size), (1, b"\10" * size)], verify)
                for vote in (nullify, finalize):
                    stream.certificate(vote, [(it, b"\11" * size) for it in range(3)], verify)
                streams.append(stream.encoded())

            def verify(*what):
                asked.append(what)
                return True

            report = audit_deferred(committees, streams[0], verify)
            self.assertEqual((report, len(report.splits)), (audit(committees, streams[1]), 1))
            self.assertEqual(asked, [(vote, it, b"\11" * size) for vote in (nullify, finalize) for it in range(3)])
            self.assertEqual(audit_deferred(committees, streams[1], lambda *what: False).text, "")
        committees = Committees.every(64, 4)
        self.assertEqual(audit_deferred(committees, two_votes(10, verify=None), valid), audit(committees, two_votes(10)))

    def test_places(self):
        for size in (48, 64, 96):
            committees, vote = Committees.every(size, 4), 38 + size
            votes = ((10, 1), (11, 2), (10, 2), (11, 2))
            stream = b"".join(two_votes(view, signer, size) for view, signer in votes)
            found = records(committees, stream)
            reported = [(it.epoch, it.view, it.signer, it.kind) for it in audit(committees, stream).evidence]
            self.assertEqual([it[:4] for it in found], reported)
            self.assertEqual([it[4:6] for it in found], [(0, vote), (4 * vote, 5 * vote), (2 * vote, 3 * vote)])
        self.assertEqual(records(Committees.plain(b"test", [bytes(32)]), b"\xff"), [])
        self.assertRaises(ValueError, records, Committees.every(64, 0), b"")
        many = records(Committees.every(64, 4), b"".join(two_votes(view) for view in range(1, 101)))
        self.assertEqual([it[4:6] for it in many], [(204 * it, 204 * it + 102) for it in range(100)])

    def test_records_hold_both_votes(self):
        """The first message that carries a vote also holds another vote of the signer, or votes of others, that are invalid."""
        for size in (48, 64, 96):
            committees, signed = Committees.every(size, 300), b"\t" * size
            vote, other = (Vote("notarize", 300, 10, 1 << 40, bytes([it] * 32)) for it in (6, 7))
            nullify, finalize = Vote("nullify", 300, 10), Vote("finalize", 300, 10, 5, bytes(32))

            def message(of, verdict, signer=200):
                stream = Encoder(size)
                stream.vote(of, signer, signed, lambda *what: verdict)
                return stream.encoded()

            def whole(of):
                return of, 200, signed, 1, message(of, True)

            pair = b"\7" + message(vote, True)[1:] + message(other, False)[1:]
            turned = b"\7" + message(other, False)[1:] + message(vote, True)[1:]
            for front in (pair, turned):
                (it,) = records(committees, front + message(other, True))
                self.assertEqual(it[:6], (300, 10, 200, "conflicting-notarize", 0, len(front)))
                self.assertEqual((tuple(it.first), tuple(it.second)), (whole(vote), whole(other)))
            listed = Encoder(size)
            listed.certificate(finalize, [(it, signed) for it in (127, 200, 299)], lambda vote, signer, _: signer == 200)
            stream = message(finalize, False) + listed.encoded() + message(nullify, True)
            (it,) = records(committees, stream)
            self.assertEqual(it[:4], (300, 10, 200, "nullify-finalize"))
            self.assertEqual(it[4:6], (len(stream) - len(message(nullify, True)), len(message(finalize, False))))
            self.assertEqual((tuple(it.first), tuple(it.second)), (whole(nullify), whole(finalize)))

    def test_the_votes_of_records_prove_it(self):
        for committees, first, second in contradictions():
            stream = first + second
            (it,), (line,) = records(committees, stream), audit(committees, stream).text.splitlines()
            self.assertEqual(audit(committees, it.first.message + it.second.message).text.splitlines(), [line])
            self.assertEqual({it.first.message, it.second.message}, {first, second})
            for one in (it.first, it.second):
                read = read_message(committees, one.message).attestations[0]
                self.assertEqual((one.vote, one.signer, one.signature), (read.vote, read.signer, one.message[read.signature]))
                self.assertEqual(one.verdict, None if committees._size is None else 1)

    def test_many_suspects(self):
        stream = b"".join(two_votes(view, verify=None) for view in range(1, 101))
        self.assertEqual(len(audit_deferred(Committees.every(64, 4), stream, valid).evidence), 100)

    def test_elements_of_more_than_a_byte(self):
        stream = two_votes(10)
        longer = array.array("H", stream + (b"" if len(stream) % 2 == 0 else b"\0"))
        self.assertEqual(len(audit(Committees.every(64, 4), longer).evidence), 1)

    def test_bytes_like_objects(self):
        committees, stream = Committees.every(64, 4), two_votes(10)
        stored = store(committees, b"", two_votes(9))
        for of in buffers(stream):
            self.assertEqual(audit(committees, of), audit(committees, stream))
            self.assertEqual(records(committees, of), records(committees, stream))
            self.assertEqual(store(committees, stored, of), store(committees, stored, stream))
            self.assertEqual(new_records(committees, stored, of), new_records(committees, stored, stream))
            self.assertEqual(audit_deferred(committees, of, valid), audit(committees, stream))
        for of in buffers(stored):
            self.assertEqual(store(committees, of, stream), store(committees, stored, stream))
            self.assertEqual(new_records(committees, of, stream), new_records(committees, stored, stream))
        for of in (bytearray(), memoryview(b""), array.array("B"), memoryview(bytearray(b"\xff"))[1:]):
            self.assertEqual(audit(committees, of), audit(committees, b""))
            self.assertEqual(store(committees, of, of), b"")

    def test_what_is_not_bytes_like(self):
        committees = Committees.every(64, 4)
        released = memoryview(b"")
        released.release()
        wrong = [(of, TypeError) for of in ("", [255], 9, None)]
        for of, error in (*wrong, (memoryview(bytes(9))[::2], BufferError), (released, ValueError)):
            for call in (
                lambda: audit(committees, of),
                lambda: audit_deferred(committees, of, valid),
                lambda: records(committees, of),
                lambda: store(committees, of, b""),
                lambda: store(committees, b"", of),
                lambda: new_records(committees, of, b""),
                lambda: new_records(committees, b"", of),
            ):
                self.assertRaises(error, call)

    def test_messages_are_read_as_they_were_written(self):
        chance = random.Random(5)
        notarize, nullify, finalize = (Vote("notarize", 3, 300, 5, bytes([6] * 32)), Vote("nullify", 3, 300),
                                       Vote("finalize", 3, 300, 7, bytes([8] * 32)))
        for size in (48, 64, 96):
            committees = Committees.every(size, 9)
            for vote, kind in ((notarize, 0), (nullify, 3), (finalize, 5)):
                alone, listed = Encoder(size), Encoder(size)
                signed = [(signer, chance.randbytes(size)) for signer in (0, 3, 8)]
                alone.vote(vote, *signed[1])
                listed.certificate(vote, signed)
                for stream, number, of in ((alone, kind, signed[1:2]), (listed, kind + 1, signed)):
                    data = stream.encoded()
                    message = read_message(committees, data + b"behind")
                    self.assertEqual(message[:4], (3, 300, number, len(data)))
                    self.assertEqual([(it.vote, it.signer, data[it.signature]) for it in message.attestations],
                                     [(vote, *it) for it in of])
                    self.assertIsNone(read_message(committees, data[:-1]))
            stored = store(committees, b"", two_votes(10) if size == 64 else b"")
            if stored:
                first, second = read_message(committees, stored).attestations
                self.assertEqual((first.vote.kind, second.vote.kind, first.signer), ("notarize", "notarize", second.signer))
                self.assertNotEqual(first.vote.payload, second.vote.payload)
        notarize = bytes([0, 0, 10, 5]) + bytes([6] * 32) + bytes([0]) + bytes([9] * 32)
        plain = read_message(Committees.plain(b"test", [bytes(32)]), notarize)
        self.assertEqual((plain.length, plain.attestations[0].signature), (69, slice(37, 69)))
        self.assertIsNone(read_message(Committees.every(64, 4), b""))
        self.assertRaises(ValueError, read_message, Committees.every(64, 0), b"")

    def test_streams_are_not_copied_and_not_held(self):
        committees, stream = Committees.every(64, 4), bytearray(two_votes(10))
        seen = []

        def call(*arguments):
            seen.append(arguments[5])
            # during the call the stream cannot be resized
            self.assertRaises(BufferError, stream.append, 0)
            return library.simplex_audit(*arguments)

        library = simplex_audit._library
        with unittest.mock.patch.object(simplex_audit, "_library", unittest.mock.Mock(simplex_audit=call)):
            self.assertEqual(len(audit(committees, stream).evidence), 1)
            self.assertEqual(len(audit(committees, memoryview(stream)[102:].toreadonly()).evidence), 0)
        self.assertEqual(seen, [address(stream), address(stream) + 102])
        # afterwards it can be, also after an error
        self.assertRaises(ValueError, audit, Committees.every(64, 0), stream)
        stream.append(0)
        self.assertEqual(audit(committees, stream).fault, len(stream) - 1)

    def test_one_call_for_a_stream(self):
        for size in (48, 64, 96, None):
            for n in (1, 2, 100):
                committees, stream = certificates(size, n)
                with counted() as calls:
                    report = audit(committees, stream)
                    self.assertEqual((len(report.evidence), len(report.splits)), (2 * n, 1))
                    self.assertEqual(len(records(committees, stream)), 2 * n)
                    stored = committees._store(b"", stream)
                    self.assertEqual(committees._store(stored, stream), stored)
                    if size:
                        self.assertEqual(len(committees._suspects(stream)), 3 * n)
                made = ["audit", "records", "store", "store"] + ["suspects"] * bool(size)
                # those of one vote of a record are besides
                of_stream = [it for it in calls if it not in ("simplex_read_message", "simplex_write_vote")]
                self.assertEqual(of_stream, [f"simplex_{it}{committees._suffix}" for it in made])
                # with many signers no more is reserved than twice what is needed
                text, messages = committees._most_text(len(stream)), committees._most_messages(len(stream))
                self.assertTrue(n < 100 or (text < 2 * len(report.text) and messages < 2 * len(stored)))

    def test_less_is_reserved_than_cannot_be(self):
        committees, stream = Committees.every(64, 4), b"".join(two_votes(view) for view in range(1, 101))
        report, real = audit(committees, stream), mmap.mmap
        refused = []

        def mapped(at, size, **how):
            # more than 8 kilobytes are refused the first times
            if size > 8192 and len(refused) < 3:
                refused.append(size)
                raise OSError
            return real(at, size, **how)

        with counted() as calls, unittest.mock.patch.object(mmap, "mmap", mapped):
            self.assertEqual(audit(committees, stream), report)
        self.assertEqual((refused, len(calls)), ([refused[0], refused[0] // 2, refused[0] // 4], 2))
        with unittest.mock.patch.object(mmap, "mmap", side_effect=OSError):
            self.assertRaises(MemoryError, audit, committees, stream)

    def test_a_long_report(self):
        stream = b"".join(two_votes(view) for view in range(1, 1001))
        report = audit(Committees.every(64, 4), stream)
        self.assertEqual([it.view for it in report.evidence], list(range(1, 1001)))
        self.assertGreater(len(report.text), 65536)
        self.assertEqual(audit(Committees.every(64, 4), store(Committees.every(64, 4), b"", stream)).evidence, report.evidence)

    def test_faults(self):
        for stream, fault in ((b"", None), (b"\xff", 0), (two_votes(10) + b"\0", len(two_votes(10)))):
            self.assertEqual(audit(Committees.every(64, 4), stream).fault, fault)

    def test_batches(self):
        committees = Committees.every(64, 4)
        stored = store(committees, store(committees, b"", two_votes(10)), two_votes(11, signer=1))
        self.assertEqual([(it.view, it.signer) for it in audit(committees, stored).evidence], [(10, 2), (11, 1)])

    def test_batches_of_their_own_rounds(self):
        committees, stored, appended = Committees.every(64, 4), b"", b""
        for view in (11, 10, 12):
            stored = store(committees, stored, two_votes(view))
            appended += store(committees, b"", two_votes(view))
        self.assertEqual(audit(committees, appended), audit(committees, stored))
        self.assertEqual([it.view for it in audit(committees, appended).evidence], [10, 11, 12])

    def test_65_536_participants(self):
        committees = Committees.every(64, 65536)
        for signer in (65534, 65535, 65536, 65537):
            report = audit(committees, two_votes(10, signer=signer))
            self.assertEqual((report.read, [it.signer for it in report.evidence]), (2, [signer] if signer < 65536 else []))
        self.assertEqual((simplex_audit.max_faults(65536), simplex_audit.quorum(65536)), (21845, 43691))
        order = sorted(range(65536), key=lambda it: (hashlib.sha256(b"seed" + it.to_bytes(4, "big")).digest(), it))
        for view in (1, 65535, 65536):
            self.assertEqual(simplex_audit.leader(65536, 1, 0, view), view % 65536)
            self.assertEqual(simplex_audit.leader(65536, 1, 0, view, seed=b"seed"), order[view % 65536])

    def test_what_was_stored_stays(self):
        for committees, one, other in contradictions():
            stored = store(committees, b"", one + other)
            self.assertEqual(len(audit(committees, stored).evidence), 1)
            # a batch that begins with no message, and one that has the same votes in the other order
            for batch in (b"\xff", other + one):
                self.assertEqual(store(committees, stored, batch), stored)

    def test_damaged_bytes_are_refused(self):
        for committees, one, other in contradictions():
            stored = store(committees, b"", one + other)
            for damaged in (b"\xff", stored[:-1], stored + b"\xff"):
                self.assertRaises(ValueError, store, committees, damaged, one + other)
                self.assertRaises(ValueError, new_records, committees, damaged, one + other)

    def test_new_records(self):
        committees = Committees.every(64, 4)
        finalize, other = (Vote("finalize", 3, 10, 5, payload) for payload in (b"\6" * 32, b"\7" * 32))
        nullify = Vote("nullify", 3, 10)

        def batch(*votes):
            stream = Encoder(64)
            for vote in votes:
                stream.vote(vote, 2, bytes(64), valid)
            return stream.encoded()

        for first, behind, kind in ((other, nullify, "nullify-finalize"), (nullify, other, "conflicting-finalize")):
            stored = store(committees, b"", batch(finalize, first))
            self.assertEqual(new_records(committees, stored, batch(first, finalize)), [])
            # one vote of the new evidence was stored, the other is in the batch
            (new,) = new_records(committees, stored, batch(behind))
            self.assertEqual((new.kind, sorted(it < len(stored) for it in new[4:6])), (kind, [False, True]))
        self.assertEqual(len(new_records(committees, stored, two_votes(11) + two_votes(12, signer=1))), 2)

    def test_evidence_by_itself(self):
        for committees, first, second in contradictions():
            evidence = store(committees, first, second)
            (wanted,) = audit(committees, evidence).evidence
            found = verify_evidence(committees, evidence)
            self.assertEqual(found, (wanted.epoch, wanted.view, wanted.signer, wanted.kind, True))
            for other in (first, evidence[1:], evidence[:-1], evidence + b"\0", b""):
                self.assertIsNone(verify_evidence(committees, other))
            if committees._size:
                # the verdict of the second vote
                self.assertFalse(verify_evidence(committees, evidence[:-1] + b"\0").proved)
            else:
                self.assertFalse(verify_evidence(Committees.plain(b"other", [bytes(32)]), evidence).proved)
        self.assertRaises(ValueError, verify_evidence, Committees.every(64, 0), b"")

    def test_numbers_of_votes(self):
        for number in (0, 127, 128, 300, (1 << 63), (1 << 64) - 1):
            vote = Vote("finalize", number, number, number, bytes(32))
            groups = number.bit_length() // 7 + (number.bit_length() % 7 > 0) or 1
            self.assertEqual(len(vote.message()), 3 * groups + 32)
            stream, seen = Encoder(48), []
            for payload in (bytes([6] * 32), bytes([7] * 32)):
                stream.vote(vote._replace(payload=payload), 1, bytes(48))
            audit_deferred(Committees.every(48, 4), stream.encoded(), lambda vote, signer, signature: seen.append(vote))
            self.assertEqual([it[:4] for it in seen], [vote[:4]] * 2)
        self.assertRaises(ValueError, Vote("nullify", 1 << 64, 0).message)
        self.assertRaises(ValueError, Vote("nullify", 0, -1).signed_bytes, b"")

    def test_keys_by_epoch(self):
        votes = b"".join(plain_vote(Vote("notarize", 3, 10, 5, payload)) for payload in (b"\6" * 32, b"\7" * 32))
        signer, other = [b"\1" * 32, bytes(32)], [b"\1" * 32]
        for keys, accused in (({3: signer, 4: other}, [(3, 0)]), ({3: other, 4: signer}, []), ({4: signer}, [])):
            report = audit(Committees.plain_listed(b"test", keys), votes)
            self.assertEqual([(it.epoch, it.signer) for it in report.evidence], accused)

    def test_committees_that_are_none(self):
        twice = [b"\1" * 32] * 2
        for made, cause in (
            (lambda: Committees.every(65, 4), "signature"),
            (lambda: Committees.listed(64, {}), "no-committee"),
            (lambda: Committees.plain_listed(b"test", {}), "no-committee"),
            (lambda: Committees(64, [], [4, 4]), "count"),
            (lambda: Committees(64, [1], [4, 4]), "count"),
            (lambda: Committees(None, [1, 2], [1], b"test", bytes(32)), "count"),
            (lambda: Committees(64, [1, 1], [4, 0]), "epochs"),
            (lambda: Committees(None, [2, 1], [1, 0], b"test", bytes(31)), "epochs"),
            (lambda: Committees.every(64, 0), "empty"),
            (lambda: Committees.listed(64, {1: 4, 2: 0}), "empty"),
            (lambda: Committees.plain(b"test", []), "empty"),
            (lambda: Committees.plain_listed(b"test", {1: twice, 2: []}), "empty"),
            (lambda: Committees(None, [1, 2], [2, 1], b"test", bytes(64)), "length"),
            (lambda: Committees(None, [], [1], b"test", bytes(33)), "length"),
            (lambda: Committees.plain(b"test", twice), "repeated"),
            (lambda: Committees.plain_listed(b"test", {1: [bytes(32)], 2: twice}), "repeated"),
        ):
            for call in (lambda: audit(made(), b""), lambda: verify_evidence(made(), b""), lambda: store(made(), b"", b"")):
                with self.assertRaises(simplex_audit.CommitteesError) as refused:
                    call()
                self.assertEqual(refused.exception.cause, cause)
                self.assertNotEqual(str(refused.exception), cause)

    def test_refusals(self):
        for refused in (
            lambda: Committees.every(64, 1 << 32),
            lambda: Committees.plain(b"test", [bytes(31)]),
            lambda: Encoder(64).vote(Vote("nullify", 3, 10), 0, bytes(63), valid),
            lambda: Encoder(64).vote(Vote("nullify", 3, 10), 1 << 32, bytes(64), valid),
            lambda: Encoder(64).certificate(Vote("nullify", 3, 10), [], valid),
            lambda: Encoder(64).certificate(Vote("nullify", 3, 10), [(1, bytes(64)), (0, bytes(64))], valid),
            lambda: Encoder(64).certification(Vote("finalize", 3, 10, 5, bytes(32)), [(0, bytes(64))], valid),
            lambda: Encoder(64).vote(Vote("notarise", 3, 10, 5, bytes(32)), 0, bytes(64), valid),
            lambda: Encoder(64).certificate(Vote("notarise", 3, 10, 5, bytes(32)), [(0, bytes(64))], valid),
            lambda: Encoder(65).vote(Vote("nullify", 3, 10), 0, bytes(65), valid),
            lambda: Encoder(64).vote(Vote("notarize", 3, 10, 5, bytes(31)), 0, bytes(64), valid),
            lambda: Encoder(64).vote(Vote("finalize", 3, 10, 5, bytes(106)), 0, bytes(64), valid),
            lambda: Encoder(64).vote(Vote("nullify", 3, 10), 0, array.array("I", bytes(256)), valid),
            lambda: store(Committees.every(64, 4), b"\xff", two_votes(10)),
            lambda: new_records(Committees.every(64, 4), b"\xff", two_votes(10)),
            lambda: simplex_audit.admits(0, 0, 10, 11),
            lambda: simplex_audit.leader(0, 1, 3, 10),
        ):
            self.assertRaises(ValueError, refused)

    def test_views(self):
        self.assertEqual((simplex_audit.max_faults(4), simplex_audit.quorum(4), simplex_audit.version()), (1, 3, 2))
        self.assertEqual([simplex_audit.admits(1, 0, 10, it) for it in (11, 14)], [True, False])
        self.assertTrue(simplex_audit.admits_outbound(1, 0, 10, 10))
        self.assertEqual(simplex_audit.leader(4, 1, 3, 10), 1)
        self.assertIn(simplex_audit.leader(4, 1, 3, 10, seed=b"seed"), range(4))
        self.assertIn(simplex_audit.issuance_floor(1, 0, 10), (None, *range(11)))


    def test_the_shared_library_is_loaded_once(self):
        simplex_audit.version()
        self.assertRaises(RuntimeError, simplex_audit.load, simplex_audit._library._loaded._name)
        # the process itself has no such calls
        self.assertRaises(OSError, simplex_audit._Library().load, ctypes.CDLL(None))
        self.assertRaises(AttributeError, getattr, simplex_audit._library, "simplex_no_such_call")


def load_tests(loader, tests, pattern):
    tests.addTests([doctest.DocTestSuite(simplex_audit), doctest.DocFileSuite("README.md")])
    return tests


if __name__ == "__main__":
    unittest.main()
