"""Tests of monitors: random streams, cut at random, with restarts at random, against an audit of the whole stream."""
import doctest
import itertools
import random
import unittest

import simplex_monitor
from simplex_audit import Committees, Encoder, Vote, admits, audit, read_message
from simplex_monitor import Monitor
from simplex_shards import index

PARTICIPANTS = 4
EVERY = Committees.every(64, PARTICIPANTS)


def valid(vote, signer, signature):
    return signature[0] == 1


def vote(chance, view=None):
    """A vote of some view."""
    view = chance.randrange(1, 6) if view is None else view
    kind = chance.choice(["notarize", "nullify", "finalize"])
    return Vote(kind, 3, view) if kind == "nullify" else Vote(kind, 3, view, 0, bytes([chance.randrange(3)] * 32))


def signature(chance):
    return bytes([chance.random() < 0.8] * 64)


def messages(chance, count):
    """A stream of votes and some certificates, each valid or not."""
    stream = Encoder(64)
    for _ in range(count):
        if chance.random() < 0.2:
            listed = [(signer, signature(chance)) for signer in sorted(chance.sample(range(PARTICIPANTS), 3))]
            stream.certificate(vote(chance), listed, valid)
        else:
            stream.vote(vote(chance), chance.randrange(PARTICIPANTS + 1), signature(chance), valid)
    return stream.encoded()


def cut(chance, stream):
    """The stream in pieces."""
    at = 0
    while at < len(stream):
        size = chance.randrange(1, 500)
        yield stream[at : at + size]
        at += size


def messages_in(committees, stream):
    """The places of the verdicts of each message of a stream."""
    at = 0
    while message := read_message(committees, stream[at:]):
        yield [at + it.signature.stop for it in message.attestations]
        at += message.length


class Monitors(unittest.TestCase):
    def test_of_whole_streams(self):
        for seed in range(150):
            chance = random.Random(seed)
            stream = messages(chance, chance.randrange(60))
            told, splits = [], []
            with Monitor(EVERY) as monitor:
                for piece in cut(chance, stream):
                    told += monitor.feed(piece)
                    splits += monitor.take_splits()
                whole = audit(EVERY, stream)
                self.assertEqual(sorted(told), sorted(whole.evidence))
                self.assertEqual({it[:2] for it in splits}, {it[:2] for it in whole.splits})
                self.assertEqual(monitor.report(), whole)
                self.assertEqual(monitor.news(), [])

    def test_restarts(self):
        for seed in range(150):
            chance = random.Random(seed)
            stream = messages(chance, chance.randrange(60))
            told, held = set(), b""
            for piece in cut(chance, stream):
                with Monitor.resume(EVERY, held) as monitor:
                    told |= set(monitor.feed(piece))
                    held = monitor.held()
            whole = audit(EVERY, stream)
            self.assertEqual(told, set(whole.evidence))
            self.assertEqual(audit(EVERY, held)[1:3], whole[1:3])

    def test_a_floor(self):
        chance = random.Random(1)
        stream = messages(chance, 300)
        floor = Monitor(EVERY)
        floor.prune(3, 3)
        told = floor.feed(stream)
        self.assertEqual(sorted(told), sorted(it for it in audit(EVERY, stream).evidence if it.view >= 3))
        floor.prune(3, 2)
        self.assertEqual(floor.feed(stream), [])
        size = len(floor.held())
        for _ in range(50):
            floor.feed(stream)
        self.assertEqual(len(floor.held()), size)
        floor.prune(4, 0)
        self.assertEqual((floor.held(), floor.votes()), (b"", 0))

    def test_a_flood(self):
        """A member votes in thousands of views, for two payloads each. A node that feeds what its window of views admits, and
        gives up the rounds behind, holds no more than a window has: five votes of each participant and round at most."""

        def votes(signers, views):
            stream = Encoder(64)
            for view, payload, signer in itertools.product(views, (6, 7), signers):
                stream.vote(Vote("notarize", 3, view, 0, bytes([payload] * 32)), signer, bytes([1] * 64), valid)
            return stream.encoded()

        def admitted(batch, current):
            rows = index(EVERY, batch).rows
            kept = [it for it in rows if it.view >= current and admits(10, 5, current, it.view)]
            return b"".join(batch[it.place : it.place + it.length] for it in kept)

        monitor, told, most = Monitor(EVERY), set(), 0
        for current in range(1, 150):
            flood = votes([0], [*range(current, 3 * current), 10**6 + current])
            for batch in (votes(range(1, PARTICIPANTS), [current]), flood):
                told |= {(it.view, it.signer) for it in monitor.feed(admitted(batch, current))}
            monitor.prune(3, current)
            most = max(most, len(monitor.held()))
        # no view is more than a term of ten and a look ahead of five views beyond
        self.assertLess(most, 5 * PARTICIPANTS * 20 * 110)
        self.assertLessEqual({(view, signer) for view in range(1, 150) for signer in range(PARTICIPANTS)}, told)
        self.assertLess(max(told)[0], 170)

    def test_late_and_repeated_votes(self):
        def one(payload):
            stream = Encoder(64)
            stream.vote(Vote("finalize", 3, 2, 1, bytes([payload] * 32)), 1, bytes([1] * 64), valid)
            return stream.encoded()

        monitor = Monitor(EVERY)
        self.assertEqual([monitor.feed(one(it)) for it in (6, 6)], [[], []])
        for seed in range(5):
            monitor.feed(messages(random.Random(seed), 50))
        late = [it for it in monitor.feed(one(7)) if (it.view, it.signer, it.kind) == (2, 1, "conflicting-finalize")]
        found = [it for it in monitor.report().evidence if (it.view, it.signer, it.kind) == (2, 1, "conflicting-finalize")]
        self.assertLessEqual(len(late), 1)
        self.assertEqual(len(found), 1)
        self.assertEqual(monitor.feed(one(7)), [])
        self.assertEqual(monitor.votes(), monitor.votes())

    def test_each_vote_is_verified_once(self):
        """Votes from three nodes, each log with certificates that list them, in pieces cut anywhere."""
        stream, verified = Encoder(64), []
        for view, signers in itertools.product(range(1, 11), [range(PARTICIPANTS)] * 3):
            one, signed = Vote("finalize", 3, view, view - 1, bytes(32)), [(signer, bytes([signer] * 64)) for signer in signers]
            for signer, signature in signed:
                stream.vote(one, signer, signature)
            stream.certificate(one, signed)

        def verify(vote, signer, signature):
            verified.append((vote.view, signer))
            return True

        monitor = Monitor(EVERY)
        for piece in cut(random.Random(1), stream.encoded()):
            self.assertEqual(monitor.feed_unverified(piece, verify), [])
        self.assertEqual(sorted(verified), [(view, signer) for view in range(1, 11) for signer in range(PARTICIPANTS)])
        self.assertEqual((monitor.unfed, monitor.votes()), (b"", 10 * PARTICIPANTS))
        monitor.prune(4, 0)
        monitor.feed_unverified(stream.encoded(), verify)
        self.assertEqual(len(verified), 10 * PARTICIPANTS)

    def test_deferred_pieces(self):
        for seed in range(150):
            chance = random.Random(seed)
            stream, told, monitor = messages(chance, chance.randrange(60)), [], Monitor(EVERY)
            other = bytearray(stream)
            for it in messages_in(EVERY, stream):
                for place in it:
                    other[place] ^= 1
            for piece in cut(chance, bytes(other)):
                told += monitor.feed_unverified(piece, valid)
            self.assertEqual(sorted(told), sorted(audit(EVERY, stream).evidence))
            self.assertEqual(monitor.report(), audit(EVERY, stream))

    def test_deferred_pieces_begin_with_a_message(self):
        stream = messages(random.Random(3), 10)
        monitor = Monitor(EVERY)
        monitor.feed(stream[:9])
        self.assertRaises(ValueError, monitor.feed_unverified, stream[9:], valid)
        monitor = Monitor(EVERY)
        monitor.feed_unverified(stream[:9], valid)
        self.assertEqual(monitor.unfed, stream[:9])
        self.assertRaises(ValueError, monitor.feed, stream[9:])
        monitor.feed_unverified(stream[9:], valid)
        self.assertEqual(monitor.feed_unverified(b"\xff", valid), [])
        self.assertRaises(ValueError, monitor.feed_unverified, b"", valid)
        self.assertEqual(monitor.report().fault, len(stream))

    def test_faults(self):
        monitor = Monitor(EVERY)
        self.assertEqual(monitor.feed(b"\xff"), [])
        self.assertRaises(ValueError, monitor.feed, b"\xff")
        self.assertEqual(monitor.report().fault, 0)
        self.assertRaises(ValueError, Monitor.resume, EVERY, b"\xff")
        monitor.close()
        for call in (lambda: monitor.feed(b""), monitor.news, monitor.held, monitor.report, monitor.votes):
            self.assertRaises(ValueError, call)
        self.assertRaises(ValueError, monitor.prune, 1, 1 << 64)

    def test_the_plain_scheme(self):
        with Monitor(Committees.plain(b"test", [bytes([it] * 32) for it in range(4)])) as monitor:
            self.assertEqual((monitor.feed(b""), monitor.votes(), monitor.held()), ([], 0, b""))


def load_tests(loader, tests, pattern):
    tests.addTests(doctest.DocTestSuite(simplex_monitor))
    return tests


if __name__ == "__main__":
    unittest.main()
