"""Tests of audits in parts: in threads, over files, and by engines that lose workers or run a task twice."""
import collections
import concurrent.futures
import ctypes
import doctest
import functools
import hashlib
import itertools
import multiprocessing
import os
import pathlib
import pickle
import random
import signal
import tempfile
import unittest
import unittest.mock

import simplex_audit
import simplex_shards
from simplex_audit import Committees, Encoder, Vote, audit
from simplex_shards import (Range, Row, audit_files, audit_parallel, audit_ranges, class_of, class_ranges, index, join, merge,
                            ranges, split)
from tests import certificates, plain_vote, valid

PARTICIPANTS = 7
# No process is forked from one with threads: the library forbids that.
SPAWN = multiprocessing.get_context("spawn")


def log(size, node, epochs=(4, 3), views=range(1, 21)):
    """What a node has of some rounds, each with a liar: votes in an order of the node's, a certificate, and in each fifth round
    two that contradict it and each other."""
    stream = Encoder(size)
    for view, epoch in itertools.product(views, epochs):
        notarize, other, last = (Vote("notarize", epoch, view, view - 1, bytes([it] * 32)) for it in (6, 7, 8))
        finalize, nullify = Vote("finalize", epoch, view, view - 1, bytes([6] * 32)), Vote("nullify", epoch, view)
        listed = [(signer, bytes([view, signer] * (size // 2))) for signer in range(PARTICIPANTS)]
        for signer, signature in listed[node:] + listed[:node]:
            votes = [notarize] + [other, nullify] * (signer == view % PARTICIPANTS)
            for vote in votes[:: -1 if node == 2 else 1]:
                stream.vote(vote, signer, signature, valid)
        stream.certificate(finalize, listed[:5], valid)
        if view % 5 == 0:
            stream.certification(last, listed[1:], valid)
            stream.certificate(notarize, listed[:6], valid)
    return stream.encoded()


@functools.cache
def logs(size=64):
    """Files of several nodes: of the same rounds in several orders, one that ends within a message, one with damage within, an
    empty one, one that begins with no message, and one of rounds that no other has."""
    nodes = [log(size, node) for node in range(3)]
    third = len(nodes[0]) // 3
    damaged = nodes[0][:third] + b"\xff" * 400 + nodes[0][third + 400 :]
    return [nodes[0], nodes[1][:-3], b"", damaged, b"\xff" + nodes[1], nodes[2], log(size, 1, [3], range(90, 95))]


def committees(size=64):
    """One for every epoch, one for each of some, and one too small for the certificates."""
    yield Committees.every(size, PARTICIPANTS)
    yield Committees.listed(size, {2: 1, 3: 4, 4: PARTICIPANTS})
    yield Committees.every(size, 3)


def streams():
    """Committees, each with streams."""
    for size in (48, 64, 96):
        for who in committees(size):
            yield from ((who, it) for it in [*logs(size), b"".join(logs(size)[::5])])
    for size in (64, None):
        yield certificates(size, 9)
    vote, one, other = plain_vote(Vote("notarize", 3, 10, 5, bytes([6] * 32))), bytes(32), bytes([1] * 32)
    for plain in (Committees.plain(b"test", [one]), Committees.plain_listed(b"test", {1: [other], 3: [other, one]})):
        yield from ((plain, it) for it in (vote, vote + plain_vote(Vote("nullify", 3, 10)) + vote[:-1]))


def of_files(who, streams):
    """The report of streams up to their faults, one after another, and the faults."""
    faults = [audit(who, it).fault for it in streams]
    whole = b"".join(it[:fault] for it, fault in zip(streams, faults))
    return audit(who, whole), faults


class Files:
    """Streams as files of a folder that is removed."""

    def __init__(self, streams):
        self._folder, self._streams = tempfile.TemporaryDirectory(), streams

    def __enter__(self):
        folder = pathlib.Path(self._folder.__enter__())
        paths = [folder / f"{at}.log" for at in range(len(self._streams))]
        for path, stream in zip(paths, self._streams):
            path.write_bytes(stream)
        return paths

    def __exit__(self, *error):
        self._folder.__exit__(*error)


class Dies:
    """A function of tasks whose first run of all is killed: once it has written parts, and before they are there, or else once
    it has its result."""

    def __init__(self, function, marker):
        self._function, self._marker = function, marker

    def __call__(self, task):
        try:
            open(self._marker, "xb").close()
        except FileExistsError:
            return self._function(task)
        with unittest.mock.patch.object(os, "rename", lambda *_: os.kill(os.getpid(), signal.SIGKILL)):
            self._function(task)
        os.kill(os.getpid(), signal.SIGKILL)


def run_again(function, tasks):
    """A map over processes that runs the tasks again whose process was killed, and how often a pool broke."""
    tasks, results, broken = list(tasks), {}, 0
    while len(results) < len(tasks):
        with concurrent.futures.ProcessPoolExecutor(4, SPAWN) as pool:
            futures = {at: pool.submit(function, task) for at, task in enumerate(tasks) if at not in results}
            for at, future in futures.items():
                try:
                    results[at] = future.result()
                except concurrent.futures.process.BrokenProcessPool:
                    broken += 1
    return [results[at] for at in range(len(tasks))], broken


class Tests(unittest.TestCase):
    def test_the_streams_have_what_is_tried(self):
        reports = [audit(*it) for it in streams()]
        for has in (lambda it: it.fault is not None, lambda it: it.splits, lambda it: not it.read):
            self.assertGreater(sum(map(bool, map(has, reports))), 3)
        self.assertEqual(len({it.kind for report in reports for it in report.evidence}), 3)

    def test_rows(self):
        stream = Encoder(64)
        stream.certificate(Vote("nullify", 300, 10), [(it, bytes(64)) for it in range(3)], valid)
        first = len(stream.encoded())
        stream.vote(Vote("notarize", 1, (1 << 64) - 1, 5, bytes(32)), 5, bytes(64), valid)
        data, who = stream.encoded(), Committees.every(64, PARTICIPANTS)
        table = index(who, data + b"\xff")
        found = [[getattr(it, name) for name, _ in Row._fields_] for it in table.rows]
        self.assertEqual(found, [[300, 10, 0, first, 3, 4], [1, (1 << 64) - 1, first, len(data) - first, 1, 0]])
        self.assertEqual((table.fault, index(who, data).fault, ctypes.sizeof(Row)), (len(data), None, 48))
        # a certificate with a signer outside every committee is no message
        self.assertEqual((len(index(Committees.every(64, 2), data).rows), index(Committees.every(64, 2), data).fault), (0, 0))

    def test_as_many_rows_as_there_can_be(self):
        for size in (48, 64, 96):
            stream = Encoder(size)
            for view in range(100):
                stream.vote(Vote("nullify", 0, view), 0, bytes(size), valid)
            with unittest.mock.patch.object(simplex_audit, "_mapped", wraps=simplex_audit._mapped) as mapped:
                self.assertEqual(len(index(Committees.every(size, 4), stream.encoded()).rows), 100)
            mapped.assert_called_once_with(Row, 100)

    def test_ranges(self):
        for who, stream in streams():
            rows, fault = index(who, stream)
            for classes in (1, 2, 64):
                wanted = [[] for _ in range(classes)]
                for it in rows:
                    of_class = wanted[class_of(it.epoch, it.view, 7, classes)]
                    # neighbours are joined
                    place = of_class.pop()[0] if of_class and of_class[-1][1] == it.place else it.place
                    of_class.append((place, it.place + it.length))
                found = [ranges(rows, 7, classes, which) for which in range(classes)]
                self.assertEqual([[(it.place, it.place + it.length) for it in each] for each in found], wanted)
                # and so in one reading
                once = class_ranges(who, stream, 7, classes)
                self.assertEqual([*map(bytes, once.ranges)], [*map(bytes, found)])
                self.assertEqual((once.read, once.fault), (len(rows), fault))

    def test_merged_reports_are_that_of_the_stream(self):
        for who, stream in streams():
            report, table = audit(who, stream), index(who, stream)
            for classes in (1, 2, 16, 64):
                shards = split(who, stream, classes, seed=classes << 57)
                self.assertEqual((shards.read, shards.fault), (report.read, report.fault))
                every = [ranges(table.rows, classes << 57, classes, which) for which in range(classes)]
                of_parts = [audit(who, it) for it in shards.parts]
                self.assertEqual([audit_ranges(who, stream, it) for it in every], of_parts)
                # a class without messages is one of them, and their order does not matter
                self.assertTrue(classes < 64 or any(it.read == 0 for it in of_parts))
                random.Random(classes).shuffle(of_parts)
                self.assertEqual(merge(of_parts, shards.fault), report)

    def test_threads(self):
        for who, stream in streams():
            for threads in (1, 2, 3, 8):
                self.assertEqual(audit_parallel(who, stream, threads), audit(who, stream))

    def test_an_error_in_a_thread_is_raised(self):
        real, calls = simplex_shards.audit_ranges, itertools.count()

        def fails(*arguments):
            if next(calls) == 5:
                raise MemoryError
            return real(*arguments)

        with unittest.mock.patch.object(simplex_shards, "audit_ranges", fails):
            self.assertRaises(MemoryError, audit_parallel, Committees.every(64, PARTICIPANTS), logs()[0], 3)

    def test_joined_parts_of_streams(self):
        for who in committees():
            report, _ = of_files(who, logs())
            for classes in range(1, 65):
                parts = join(split(who, it, classes, seed=1).parts for it in logs())
                self.assertEqual(merge(audit(who, it) for it in parts), report)

    def test_late_files(self):
        # classes of five views each, and reports stored under the SHA-256 of the parts
        who, stored, audits = Committees.listed(64, {3: 4, 4: PARTICIPANTS}), {}, []
        early = [log(64, 0), log(64, 1, [3], range(15, 25))]
        late = log(64, 2, [4], range(7, 12))

        def report_of(streams):
            parts = collections.defaultdict(bytes)
            for stream in streams:
                for it in index(who, stream).rows:
                    parts[it.epoch, it.view // 5] += stream[it.place : it.place + it.length]
            hashes = {hashlib.sha256(part).digest(): part for part in parts.values()}
            audits.append(len(hashes.keys() - stored.keys()))
            stored.update({it: audit(who, hashes[it]) for it in hashes.keys() - stored.keys()})
            return merge(stored[it] for it in hashes)

        for streams in (early, [*early, late], [late, *early]):
            self.assertEqual(report_of(streams), of_files(who, streams)[0])
        # ten parts at first; the late file touches two of them, and so does its place
        self.assertEqual(audits, [10, 2, 2])

    def test_refusals(self):
        who, stream = Committees.every(64, PARTICIPANTS), logs()[0]
        rows, beyond = index(who, stream).rows, Row(1, 1, (1 << 64) - 1, 1, 1, 0)
        for refused in (
            lambda: index(Committees.every(64, 0), stream),
            lambda: index(Committees.plain(b"test", []), stream),
            lambda: class_of(0, 0, 0, 0),
            lambda: class_of(0, 0, 1 << 64, 1),
            lambda: ranges(rows, 0, 0, 0),
            lambda: ranges(rows, 0, 1 << 32, 0),
            lambda: ranges(rows, 0, 3, 3),
            lambda: ranges((Row * 1)(beyond), 0, 1, 0),
            lambda: ranges(bytes(47), 0, 1, 0),
            lambda: class_ranges(who, stream, 0, 0),
            lambda: class_ranges(who, stream, 1 << 64, 1),
            lambda: class_ranges(Committees.every(64, 0), stream, 0, 1),
            lambda: audit_ranges(who, stream, (Range * 1)(Range(len(stream), 1))),
            lambda: audit_ranges(who, stream, (Range * 1)(Range((1 << 64) - 1, 2))),
            lambda: audit_ranges(Committees.every(64, 0), stream, (Range * 0)()),
            lambda: split(who, stream, 0, 0),
            lambda: join([[b""], [b"", b""]]),
            lambda: audit_parallel(who, stream, 0),
            lambda: audit_files(who, [], 0),
            lambda: audit_files(who, [], 1, seed=-1),
        ):
            self.assertRaises(ValueError, refused)
        # ranges that cut a message have a fault, whose offset counts their bytes
        cut = (Range * 2)(Range(rows[1].place, rows[1].length), Range(0, 3))
        self.assertEqual(audit_ranges(who, stream, cut)[::3], (1, rows[1].length))

    def test_committees_are_pickled(self):
        for who, stream in streams():
            self.assertEqual(audit(pickle.loads(pickle.dumps(who)), stream), audit(who, stream))


class FileTests(unittest.TestCase):
    def check(self, who, streams, classes=8, **how):
        """That files have the report of their whole messages; returns it."""
        report, faults = of_files(who, streams)
        with Files(streams) as paths:
            self.assertEqual(audit_files(who, paths, classes, **how), (report, dict(zip(paths, faults))))
        return report

    def test_files(self):
        for who in committees():
            for classes in (1, 2, 8, 64):
                self.check(who, logs(), classes)
        report = self.check(Committees.every(64, PARTICIPANTS), logs())
        self.assertTrue(report.evidence and report.splits)
        self.check(Committees.every(48, PARTICIPANTS), logs(48))
        plain, stream = certificates(None, 9)
        self.check(plain, [stream, stream[:-1]])
        for streams in ([], [b""], [b"", b"\xff", b""]):
            self.check(Committees.every(64, PARTICIPANTS), streams, 3)

    def test_the_order_of_files_decides_which_votes_are_cited(self):
        who, orders = Committees.every(64, PARTICIPANTS), (logs(), logs()[::-1])
        one, other = (self.check(who, it) for it in orders)
        self.assertTrue(one.text != other.text)
        self.assertEqual([it[:4] for it in one.evidence], [it[:4] for it in other.evidence])
        self.assertEqual(one.splits, other.splits)

    def test_windows(self):
        who = Committees.every(64, PARTICIPANTS)
        for window in (1, 100, 500, 5000, 1 << 20):
            with unittest.mock.patch.object(simplex_shards, "_WINDOW", window):
                self.check(who, [it[-10_000:] for it in logs()] + [it[:10_000] for it in logs()], 3)

    def test_processes(self):
        for who in (Committees.every(64, PARTICIPANTS), Committees.listed(64, {3: 4, 4: PARTICIPANTS})):
            with SPAWN.Pool(2) as pool:
                self.check(who, logs(), map=pool.imap)
            with concurrent.futures.ProcessPoolExecutor(2, SPAWN) as pool:
                self.check(who, logs(), map=pool.map)

    def test_a_worker_is_killed(self):
        for stage in ("_cut_file", "_audit_parts"):
            broken = []

            def dying(function, tasks):
                kills = function.__name__ == stage
                results, count = run_again(Dies(function, f"{folder}/killed") if kills else function, tasks)
                broken.append(count)
                return results

            with tempfile.TemporaryDirectory() as folder:
                self.check(Committees.every(64, PARTICIPANTS), logs(), map=dying)
                self.assertEqual(os.listdir(folder), ["killed"])
            self.assertEqual([it > 0 for it in broken], [stage == "_cut_file", stage == "_audit_parts"])

    def test_a_worker_answers_twice(self):
        # each task three times: one after another, and two side by side
        def thrice(function, tasks):
            for task in tasks:
                with concurrent.futures.ThreadPoolExecutor(2) as pool:
                    first, *others = function(task), *pool.map(function, [task, task])
                self.assertEqual(others, [first, first])
                yield first

        self.check(Committees.every(64, PARTICIPANTS), logs(), map=thrice)

    def test_a_map_that_loses_or_repeats_a_result(self):
        def wrong(stage, change):
            def changed(function, tasks):
                results = list(map(function, tasks))
                return change(results) if function.__name__ == stage else results

            return changed

        for stage in ("_cut_file", "_audit_parts"):
            for change in (lambda it: it[1:], lambda it: it[:1] + it):
                with Files(logs()) as paths:
                    who = Committees.every(64, PARTICIPANTS)
                    self.assertRaises(RuntimeError, audit_files, who, paths, 2, wrong(stage, change))

    def test_a_worker_answers_when_all_is_over(self):
        late = []

        def remembered(function, tasks):
            for task in tasks:
                late.append((function, task))
                yield function(task)

        self.check(Committees.every(64, PARTICIPANTS), logs(), map=remembered)
        for function, task in late:
            self.assertRaises(FileNotFoundError, function, task)

    def test_no_stream_goes_between_processes(self):
        sizes = []

        def measured(function, tasks):
            for task in tasks:
                result = function(pickle.loads(pickle.dumps(task)))
                sizes.extend(len(pickle.dumps(it)) for it in (task, result))
                yield result

        honest = [b"".join(log(64, node, [view]) for view in (3, 4)) for node in range(3)]
        self.check(Committees.listed(64, {9: PARTICIPANTS}), honest, 4, map=measured)
        self.assertLess(max(sizes), 1000)

    def test_nothing_stays(self):
        with tempfile.TemporaryDirectory() as folder:
            self.check(Committees.every(64, PARTICIPANTS), logs(), folder=folder)
            self.assertEqual(os.listdir(folder), [])
            with Files([b""]) as paths:
                missing, who = [*paths, f"{folder}/none"], Committees.every(64, 4)
                self.assertRaises(FileNotFoundError, audit_files, who, missing, 2, folder=folder)
            self.assertEqual(os.listdir(folder), [])

    def test_parts_that_change(self):
        def changing(change):
            def changed(function, tasks):
                for task in tasks:
                    if function.__name__ == "_audit_parts":
                        change(next(it for it in task[1] if os.path.getsize(it)))
                    yield function(task)

            return changed

        stream = Encoder(64)
        stream.vote(Vote("nullify", 3, 1), 0, bytes(64), valid)
        one, who = len(stream.encoded()), Committees.every(64, 4)
        # a part is cut off between messages, within one, or lost
        for left in (one, one + 1, 0):
            with Files([stream.encoded() * 10]) as paths:
                change = changing(lambda it: os.truncate(it, left))
                self.assertRaises(RuntimeError, audit_files, who, paths, 1, change)


def load_tests(loader, tests, pattern):
    tests.addTests(doctest.DocTestSuite(simplex_shards))
    return tests


if __name__ == "__main__":
    unittest.main()
