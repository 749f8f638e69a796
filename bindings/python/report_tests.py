"""Tests of the page of a report."""
import contextlib
import hashlib
import html.parser
import io
import json
import os
import pathlib
import re
import stat
import tempfile
import unittest
import unittest.mock

import report
import report_page
from report import Committees, Evidence, Refused, Vote, page, read_inspect, read_lines
from report_lines import CERTIFICATES
from report_page import Bars, accused, plot, runs

ROOT = pathlib.Path(__file__).resolve().parent.parent.parent
SIX, SEVEN = "06" * 32, "07" * 32
NOTARIZES = f"conflicting-notarize 5 {SIX} 5 {SEVEN}"
FINALIZES = f"conflicting-finalize 5 {SIX} 6 {SIX}"
FINALIZE = f"nullify-finalize 5 {SIX}"
KEYS = [f"{it:064x}" for it in range(4)]


def lines(*found):
    return "".join(it + "\n" for it in found).encode()


def read(*found):
    return read_lines(io.BytesIO(lines(*found)))


def statement(vote, parent, payload, signers, mark="aa"):
    """A statement of valid signatures: the mark, and the signer in a byte."""
    subject = {} if vote == "nullify" else {"parent": parent, "payload": payload}
    listed = [{"signer": it, "signature": f"{mark}{it:02x}", "valid": True} for it in signers]
    return {"vote": vote, **subject, "signatures": listed}


def shown(*messages, fault=None):
    """The lines of `inspect` for messages of 100 bytes, each a kind, an epoch, a view and statements."""
    found = []
    for at, (kind, epoch, view, *statements) in enumerate(messages):
        if kind in CERTIFICATES:
            statements = [{**it, "valid": it.get("valid", True)} for it in statements]
        found.append({"offset": 100 * at, "length": 100, "kind": kind, "epoch": epoch, "view": view, "statements": statements})
    if fault:
        found.append({"offset": 100 * len(messages), "fault": fault, "next": "ff00"})
    return lines(*(json.dumps(it, separators=(",", ":")) for it in found))


def inspected(of, *messages, **how):
    return read_inspect(io.BytesIO(shown(*messages, **how)), of)


def votes(vote, signer, *subjects, view=10, mark="aa"):
    """Messages of votes of a signer for these parents and payloads."""
    return [(vote, 0, view, statement(vote, *subject, [signer], mark)) for subject in subjects]


def fork(vote, kind):
    """Two certificates of a round for different payloads, by participants 0 to 2 and 1 to 3."""
    return [(kind, 0, 10, statement(vote, 5, payload, signers)) for payload, signers in ((SIX, (0, 1, 2)), (SEVEN, (1, 2, 3)))]


class Shown(html.parser.HTMLParser):
    """What a page shows: its text, its elements, and that each is closed."""

    def __init__(self, of):
        super().__init__()
        self.open, self.elements, self.shown = [], [], []
        self.feed(of)
        self.close()
        assert not self.open, self.open

    def handle_starttag(self, tag, attributes):
        self.elements.append((tag, dict(attributes)))
        if tag not in ("meta", "br"):
            self.open.append(tag)

    def handle_startendtag(self, tag, attributes):
        self.elements.append((tag, dict(attributes)))

    def handle_endtag(self, tag):
        assert self.open and self.open.pop() == tag, tag

    def handle_data(self, data):
        if self.open[-1:] != ["style"]:
            self.shown.append(data)

    @property
    def text(self):
        return " ".join(" ".join(self.shown).split())

    def of(self, tag):
        return [attributes for name, attributes in self.elements if name == tag]


def run(*words, given=b""):
    """The status of the program, and what it said on standard error."""
    said = io.StringIO()
    with contextlib.redirect_stderr(said), unittest.mock.patch("sys.stdin", io.TextIOWrapper(io.BytesIO(given))):
        try:
            status = report.main(list(words))
        except SystemExit as ended:
            status = ended.code
    return status, said.getvalue()


class Tests(unittest.TestCase):
    def contains(self, found, *texts):
        for it in texts:
            self.assertIn(it, found)

    def test_each_kind_of_evidence(self):
        of = read(f"0 10 0 {NOTARIZES}", f"0 10 1 {FINALIZES}", f"0 10 2 {FINALIZE}")
        notarizes = Vote("notarize", 5, SIX), Vote("notarize", 5, SEVEN)
        self.assertEqual(of.evidence[0], Evidence(0, 10, 0, "conflicting-notarize", *notarizes))
        self.assertEqual(of.evidence[1][4:], (Vote("finalize", 5, SIX), Vote("finalize", 6, SIX)))
        self.assertEqual(of.evidence[2][4:], (Vote("nullify"), Vote("finalize", 5, SIX)))
        found = Shown(page(of)).text
        self.contains(found, "3 accused participants", "3 evidence", "1 round with evidence", "0 splits", SIX, SEVEN)
        for signer, name in enumerate(report_page.NAMES.values()):
            self.contains(found, f"View 10, participant {signer}: {name}")
        # of the notarizes the payloads are shaded, of the finalizes the parents
        self.assertEqual(sum(it.get("class") == "other" for it in Shown(page(of)).of("td")), 4)
        printed = lines(f"0 10 0 {NOTARIZES}", f"0 10 1 {FINALIZES}", f"0 10 2 {FINALIZE}")
        self.contains(found, hashlib.sha256(printed).hexdigest())
        self.contains(found, "do not say whether the stream was read to its end", "With the lines of inspect signatures")

    def test_signatures_and_offsets(self):
        of = read(f"0 10 0 {NOTARIZES}", f"0 10 1 {FINALIZES}", f"0 10 2 {FINALIZE}")
        forged = statement("notarize", 5, SIX, [0], "ff")
        forged["signatures"][0] |= {"valid": False, "why": "signature does not verify"}
        whole = inspected(
            of, ("notarize", 0, 10, forged), *votes("notarize", 0, (5, SEVEN), (5, SIX), (5, SIX), mark="bb"),
            ("conflicting-finalize", 0, 10, statement("finalize", 5, SIX, [1]), statement("finalize", 6, SIX, [1], "cc")),
            ("nullify-finalize", 0, 10, statement("nullify", None, None, [2]), statement("finalize", 5, SIX, [2], "dd")),
            ("notarization", 0, 11, statement("notarize", 5, SIX, [0, 1])))
        places = [whole.places[(0, 10, one.signer, vote)] for one in of.evidence for vote in one[4:]]
        # a vote stands where it is valid first, and that is not where a forged one stands, nor where it comes again
        self.assertEqual(places, [(200, "bb00"), (100, "bb00"), (400, "aa01"), (400, "cc01"), (500, "aa02"), (500, "dd02")])
        self.assertEqual((whole.messages, of.whole, of.fault), (7, True, None))
        found = Shown(page(of, whole)).text
        self.contains(found, "7 messages read", "At byte 200 100", "Signature bb00 bb00", "At byte 400 400")
        self.contains(found, "Signature aa02 dd02", "The stream was read to its end.")

    def test_splits(self):
        accuse = [f"0 10 {signer} {{}}".format for signer in (1, 2)]
        for vote, kind, evidence in (("notarize", "certification", NOTARIZES), ("finalize", "finalization", FINALIZES)):
            evidence = evidence.replace(f"6 {SIX}", f"5 {SEVEN}")
            of = read(*(it(evidence) for it in accuse), "0 10 split 2 2")
            whole = inspected(of, *fork(vote, kind) * 2)
            self.assertEqual([it.offset for it in whole.certificates[0, 10]], [0, 100])
            found = Shown(page(of, whole))
            self.contains(found.text, "2 participants are accused in this round ( named ). At least 2 had to be ( least )")
            self.contains(found.text, "3 0 1–2", "3 1–2 3", "In both: 2 participants", f"Kind {kind} {kind}", "1 round split.")
            self.assertEqual(sum(it.get("class") == "chip both" for it in found.of("span")), 2)
            self.assertEqual("Two proposals are finalized" in found.text, vote == "finalize")
            self.assertNotIn("Two proposals are finalized", page(of))
        of = read(*(it(FINALIZE) for it in accuse), "0 10 split 2 2")
        both = [("nullification", 0, 10, statement("nullify", None, None, (0, 1, 2))), fork("finalize", "finalization")[0]]
        both[1][3]["signatures"] = statement("finalize", 5, SIX, (1, 2, 3))["signatures"]
        self.contains(Shown(page(of, inspected(of, *both))).text, "Kind nullification finalization", "Parent none 5")

    def test_two_epochs(self):
        of = read(*(f"{place} {FINALIZE}" for place in ("0 10 0", "0 11 0", "0 11 1", "7 3 0")))
        self.assertEqual([(it.numbers, it.kinds.total()) for it in accused(of)], [({0: 0}, 2), ({0: 1}, 1), ({7: 0}, 1)])
        found = Shown(page(of))
        self.contains(found.text, "3 accused participants", "2 epochs with evidence")
        self.contains(found.text, "0 in epoch 0 2 2 2 10, 11", "0 in epoch 7 1 1 1 3")
        self.contains(found.text, "Numbers of different epochs may be of different participants")
        self.assertEqual(len(found.of("svg")), 2)
        # by their keys they are joined: participant 1 of epoch 0 is participant 0 of epoch 7
        committees = Committees(["base", "@0", *KEYS[:3], "@7", *KEYS[1:]])
        people = accused(of, committees)
        self.assertEqual([(it.key, it.numbers) for it in people], [(KEYS[0], {0: 0}), (KEYS[1], {0: 1, 7: 0})])
        found = Shown(page(of, None, committees)).text
        self.contains(found, "1 in epoch 0, 0 in epoch 7", KEYS[1], "Namespace: base", "epoch 0: 11; epoch 7: 3")
        self.assertNotIn("Numbers of different epochs", found)
        self.assertEqual(len(accused(of, Committees(["base", *KEYS]))), 2)

    def test_nobody_is_accused(self):
        found = Shown(page(read())).text
        self.contains(found, "Nobody is accused.", "0 accused participants", "0 evidence")
        whole = inspected(read(), *votes("notarize", 0, (5, SIX)))
        self.contains(Shown(page(read(), whole)).text, "1 message read")

    def test_faults(self):
        of = read(f"0 10 2 {FINALIZE}", "audit: fault at byte 200")
        self.contains(Shown(page(of)).text, "The stream has a fault at byte 200.")
        messages = (*votes("nullify", 2, (None, None)), *votes("finalize", 2, (5, SIX)))
        whole = inspected(of, *messages, fault="Invalid consensus::simplex::Activity: Invalid type")
        self.contains(Shown(page(of, whole)).text, "Activity: Invalid type . The bytes there: ff00", "2 messages read")
        self.assertRaisesRegex(Refused, "byte None, and by audit at byte 200", inspected, of, *messages)
        self.assertRaisesRegex(Refused, "byte 200, and by audit at byte 201", inspected,
                               read(f"0 10 2 {FINALIZE}", "audit: fault at byte 201"), *messages, fault="EndOfBuffer")

    def test_malformed_lines(self):
        good = f"0 10 1 {FINALIZE}"
        for bad, why in (
            ("", "neither evidence"),
            ("hello", "neither evidence"),
            (f" {good}", "neither evidence"),
            (f"{good} ", "6 words"),
            (good.replace("0 10", "0  10"), "neither evidence"),
            (f"0 11 1 nullify-notarize 5 {SIX}", "neither evidence"),
            (f"0 11 1 {FINALIZE}\r", "PAYLOAD"),
            (f"0 11 1 {FINALIZE[:-1]}", "PAYLOAD"),
            (f"0 11 1 {FINALIZE[:-64]}", "PAYLOAD"),
            (f"0 11 1 nullify-finalize 5 {'AA' * 32}", "PAYLOAD"),
            (f"0 011 1 {FINALIZE}", "VIEW"),
            (f"+0 11 1 {FINALIZE}", "EPOCH"),
            (f"0 {1 << 64} 1 {FINALIZE}", "VIEW"),
            (f"0 {'9' * 5000} 1 {FINALIZE}", "VIEW"),
            (f"0 11 {1 << 32} {FINALIZE}", "SIGNER"),
            (f"0 ١١ 1 {FINALIZE}", "not text"),
            (f"0 11 1 {FINALIZES} 5 {SIX}", "8 words, not 10"),
            (f"0 11 1 conflicting-notarize 5 {SIX} 5 {SIX}", "do not contradict"),
            (good, "above it"),
            (f"0 9 1 {FINALIZE}", "above it"),
            (f"0 10 1 {NOTARIZES}", "above it"),
            ("0 10 split 2 2", "ACCUSED is 2"),
            ("0 11 split 1 1", "accuse 0"),
            ("0 10 split 1 0", "LEAST"),
            ("0 10 split 1 2", "LEAST"),
            ("0 10 split 1", "5 words"),
            ("audit: fault at byte x", "P has to"),
        ):
            with self.assertRaisesRegex(Refused, f"lines, line 2: .*{why}"):
                read(good, bad)
        self.assertRaisesRegex(Refused, "line 3: .*above it", read, good, "0 10 split 1 1", f"0 11 1 {FINALIZE}")
        self.assertRaisesRegex(Refused, "line 2: .*above it", read, *["audit: fault at byte 0"] * 2)
        self.assertRaisesRegex(Refused, "line 2: it was cut off", read_lines, io.BytesIO(lines(good) + good.encode()))
        self.assertEqual(len(read(good, f"{(1 << 64) - 1} {(1 << 64) - 1} {(1 << 32) - 1} {FINALIZE}").evidence), 2)

    def test_malformed_lines_of_inspect(self):
        of, good = read(), shown(*votes("notarize", 0, (5, SIX))).decode()
        for old, new, why in (
            ("{", "[" * 100_000, "not JSON"),
            ("}", "", "not JSON"),
            ('"offset":0', '"offset":1', "byte 0"),
            ('"length":100', '"length":0', "byte"),
            ('"view":10', '"view":1e1', "view"),
            ('"view":10', '"view":true', "view"),
            ('"view":10', '"view":NaN', "view"),
            ('"view":10', '"view":10,"view":10', "twice"),
            ('"view":10', '"view":10,"more":1', "fields"),
            ('"kind":"notarize"', '"kind":"notarise"', "no such kind"),
            ('"kind":"notarize"', '"kind":[]', "kind has to be text"),
            ('"kind":"notarize"', '"kind":"nullify"', "fields"),
            ('"kind":"notarize"', '"kind":"nullify-finalize"', "2 statements"),
            ('"kind":"notarize"', '"kind":"finalize"', "other statements"),
            (',"valid":true', "", "run inspect with the namespace"),
            ('"valid":true', '"valid":1', "fields"),
            ('"valid":true', '"valid":false', "fields"),
            (f'"{SIX}"', '"0"', "payload"),
            (f'"{SIX}"', "6", "payload has to be text"),
            ('"signature":"aa00"', '"signature":"<b>"', "signature"),
            ('"signer":0', f'"signer":{1 << 32}', "signer"),
            ("]}]", ',{"signer":1,"signature":"aa01","valid":true}]}]', "other statements"),
        ):
            self.assertIn(old, good)
            with self.assertRaisesRegex(Refused, f"inspect, line 1: .*{why}"):
                read_inspect(io.BytesIO(good.replace(old, new, 1).encode()), of)
        for bad in (good.encode() + b"\xff\n", good.encode() + b"[]\n", good.encode() * 2, good.encode() + b'{"fault":1}\n'):
            self.assertRaisesRegex(Refused, "inspect, line 2: ", read_inspect, io.BytesIO(bad), of)
        after = shown(*votes("notarize", 0, (5, SIX)), fault="EndOfBuffer")
        self.assertRaisesRegex(Refused, "line 3: a line after", read_inspect, io.BytesIO(after + after), of)
        self.assertRaisesRegex(Refused, "line 1: it was cut off", read_inspect, io.BytesIO(good.encode()[:-1]), of)

    def test_lines_of_another_stream(self):
        of = read(f"0 10 0 {NOTARIZES}")
        self.assertRaisesRegex(Refused, "no valid notarize of participant 0", inspected, of, *votes("notarize", 0, (5, SIX)))
        other = votes("notarize", 0, (5, SIX), (5, SEVEN), view=11)
        self.assertRaisesRegex(Refused, "no valid notarize", inspected, of, *other)
        of = read(*(f"0 10 {signer} {NOTARIZES}" for signer in (1, 2)), "0 10 split 2 2")
        valid, weak = fork("notarize", "notarization"), fork("notarize", "notarization")
        weak[1][3].update(valid=False, why="fewer signatures than a quorum")
        self.assertRaisesRegex(Refused, "no two certificates", inspected, of, *weak)
        self.assertEqual(inspected(of, *weak, *valid).certificates[0, 10][1].offset, 300)
        # participant 2 signed both, and is not accused
        of = read(*(f"0 10 {signer} {NOTARIZES}" for signer in (1, 3)), "0 10 split 2 2")
        third = votes("notarize", 3, (5, SIX))
        self.assertRaisesRegex(Refused, "no two certificates", inspected, of, *valid, *third)

    def test_committees(self):
        of = read(*(f"3 10 {signer} {NOTARIZES}" for signer in (2, 3)), "3 10 split 2 2")
        for words in (["base", *KEYS], ["base", "@3", *KEYS], ["", "@0", KEYS[0], "@3", *reversed(KEYS)]):
            Committees(words).fit(of)
            self.assertEqual(Committees(words).keys(3), KEYS)
        self.assertEqual(Committees(["base", "AB" * 32]).keys(3), ["ab" * 32])
        self.assertRaises(Refused, Committees(["base", *KEYS[:3]]).fit, read(f"3 10 3 {NOTARIZES}"))
        for words in (["base", *KEYS[:3]], ["base", "@2", *KEYS], ["base", *KEYS, *(f"{it:064x}" for it in range(9, 15))]):
            self.assertRaises(Refused, Committees(words).fit, of)
        one, other = KEYS[:2]
        for keys in ([], ["@3"], [one, "@3", other], ["@03", one], [one[1:]], [one, one], ["@3", one, "@3", other],
                     ["@3", one, "@2", other], ["@3", "@4", one], ["@3", one, "@4"], [f"@{1 << 64}", one], ["@", one]):
            self.assertRaises(Refused, Committees, ["base", *keys])

    def test_everything_is_escaped(self):
        nasty = "</title><script>alert(1)</script>\"'&\u202e\x1b\ud800"
        whole = inspected(read(), *votes("notarize", 0, (5, SIX)), fault=nasty)
        of = read()
        of.fault = whole.fault
        made = page(of, whole, Committees([nasty, *KEYS]), title=nasty)
        made.encode()
        self.assertEqual(Shown(made).of("script"), [])
        self.assertEqual(made.count("&lt;script&gt;alert(1)&lt;/script&gt;&quot;&#x27;&amp;\\u{202e}\\u{1b}\\u{d800}"), 4)

    def test_nothing_is_loaded(self):
        of = read(*(f"0 10 {signer} {NOTARIZES}" for signer in (1, 2)), "0 10 split 2 2")
        found = Shown(page(of, inspected(of, *fork("notarize", "notarization"))))
        self.assertFalse({name for name, _ in found.elements} & {"script", "link", "img", "iframe", "object", "base", "form"})
        for _, attributes in found.elements:
            self.assertFalse({it for it in attributes if it.startswith("on") or it in ("src", "srcset", "style")})
            self.assertTrue(attributes.get("href", "#").startswith("#"))
        self.assertNotRegex(page(of), r"url\(|@import|https?:")

    def test_10_000_lines(self):
        of = read(*(f"{at // 5000} {at % 5000} {at % 97} {NOTARIZES}" for at in range(10_000)),
                  *(f"{at // 5000} {at % 5000} split 1 1" for at in range(10_000)))
        found = Shown(page(of))
        self.contains(found.text, "Shown are the first 1,000 of 10,000 evidence; 9,000 are left out.")
        self.contains(found.text, "Shown are the first 100 of 10,000 splits; 9,900 are left out.")
        self.assertEqual(len(found.of("details")), 1000)
        self.assertLess(len(page(of)), 1_500_000)
        self.assertEqual(page(of, limit=10_000).count("<details"), 10_000)
        many = read(*(f"{at} 10 0 {FINALIZE}" for at in range(2000)))
        found = Shown(page(many))
        self.contains(found.text, "first 1,000 of 2,000 participants", "first 25 of 2,000 epochs")
        self.assertEqual(len(found.of("svg")), 25)

    def test_long_payloads_and_many_signers(self):
        of = read(f"0 10 0 nullify-finalize 5 {'06' * 65535}")
        self.contains(Shown(page(of)).text, "(the first 256 of 65,535 bytes)")
        self.assertLess(len(page(of)), 20_000)
        chips = runs(range(0, 2000, 2), set())
        self.assertEqual((chips.count("<span"), chips.endswith(" and 800 more")), (200, True))
        self.assertEqual(Shown(runs([0, 1, 2, 3, 5], {1, 2})).text, "0 1–2 3 5")

    def test_plots(self):
        most = (1 << 64) - 1
        for views in ([0], [10], [0, most], [most], range(96), range(97), range(1000, 9999), [1 << 63, most - 1, most]):
            of = read(*(f"0 {view} 0 {FINALIZE}" for view in views), f"0 {views[-1]} split 1 1")
            bars = Bars(of.evidence, of.splits)
            self.assertEqual(sum(it.total() for it in bars.kinds.values()), len(views))
            self.assertEqual((sum(bars.splits.values()), max(bars.kinds)), (1, max(bars.splits)))
            self.assertTrue(0 <= min(bars.kinds) and max(bars.kinds) < bars.bins <= report_page.MOST_BARS + 1)
            svg = plot(0, of.evidence, of.splits)
            Shown(svg)
            for each in ("x", "x1", "x2", "y", "y1", "y2"):
                places = [float(it[each]) for _, it in Shown(svg).elements if each in it]
                self.assertTrue(all(0 <= it <= (report_page.WIDE if "x" in each else report_page.HIGH) for it in places))

    def test_the_stored_answers_of_audits(self):
        asked, stored = ((ROOT / "crates/conformance" / it).read_text().splitlines() for it in ("stdin", "stdout"))
        answers = {said for vector, said in zip(asked, stored) if vector.startswith("audit ") and said.startswith("read ")}
        for said in answers:
            parts = [re.sub(r"^fault at (\d+): .*", r"audit: fault at byte \1", it) for it in said.split("; ")[1:]]
            of = read(*parts)
            self.assertEqual(len(of.evidence) + len(of.splits) + bool(of.fault), len(parts))
            self.assertEqual(page(of).count("<details"), len(of.evidence))
        self.assertGreater(len(answers), 100)


class Program(unittest.TestCase):
    def setUp(self):
        room = tempfile.TemporaryDirectory()
        self.addCleanup(room.cleanup)
        self.room = pathlib.Path(room.name)
        self.page = self.room / "page.html"
        self.messages = shown(*votes("nullify", 1, (None, None)), *votes("finalize", 1, (5, SIX)))

    def file(self, name, data, mode=0o644):
        (self.room / name).write_bytes(data)
        os.chmod(self.room / name, mode)
        return str(self.room / name)

    def programs(self, audit, inspect, status=0, said=""):
        """Programs that write these lines if they are given the arguments `base KEY` and the stream `stream`."""
        for name, data in (("audit", audit), ("inspect", inspect)):
            self.file(name + ".out", data)
            self.file(name, f"""#!/bin/sh
[ "$*" = "base {KEYS[0]} {KEYS[1]}" ] && [ "$(cat)" = stream ] || exit 2
cat {self.room}/{name}.out
printf '%s' '{said}' >&2
exit {status}
""".encode(), 0o755)
        return ["--programs", str(self.room), "--stream", self.file("stream", b"stream"), "base", *KEYS[:2]]

    def test_a_page_is_written_whole_or_not_at_all(self):
        self.assertEqual(run("-o", str(self.page), given=lines(f"0 10 1 {FINALIZE}")), (0, ""))
        before, there = self.page.read_text(), sorted(os.listdir(self.room))
        self.assertIn("1</b>accused participant<", before)
        status, said = run("-o", str(self.page), given=lines(f"0 10 1 {FINALIZE}", "no line"))
        why = "neither evidence, nor a split, nor a fault: 'no line'"
        self.assertEqual((status, said), (2, f"report: standard input, line 2: {why}\n"))
        with unittest.mock.patch("os.replace", side_effect=OSError("no")):
            self.assertEqual(run("-o", str(self.page)), (3, "report: no\n"))
        self.assertEqual((self.page.read_text(), sorted(os.listdir(self.room))), (before, there))
        mask = os.umask(0o027)
        self.addCleanup(os.umask, mask)
        self.assertEqual(run("-o", str(self.page))[0], 0)
        self.assertEqual(stat.S_IMODE(self.page.stat().st_mode), 0o640)
        os.mkfifo(self.room / "fifo")
        self.assertEqual([run("-o", str(self.room / it))[0] for it in (".", "no/page", "fifo")], [3] * 3)
        self.assertTrue(stat.S_ISFIFO(os.stat(self.room / "fifo").st_mode))

    def test_files(self):
        of, messages = self.file("lines", lines(f"0 10 1 {FINALIZE}")), self.file("messages", self.messages)
        words = ["--lines", of, "--inspect", messages, "--title", "A & B", "--", "base", *KEYS]
        self.assertEqual(run("-o", str(self.page), *words), (0, ""))
        self.assertIn("<h1>A &amp; B</h1>", self.page.read_text())
        self.assertEqual(run("-o", str(self.page), "--lines", str(self.room / "none"))[0], 3)
        bad = self.file("bad", self.messages + b"{}\n")
        status, said = run("-o", str(self.page), "--lines", of, "--inspect", bad)
        self.assertEqual((status, said.startswith(f"report: {bad}, line 3: ")), (2, True))

    def test_arguments(self):
        to = ["-o", str(self.page)]
        stream = [*to, "--stream", "stream"]
        for words in ([], ["-o"], [*to, "base"], [*to, "base", "key"], [*to, "--limit", "0"], stream,
                      [*stream, "--lines", "lines", "base", KEYS[0]], [*stream, "--inspect", "lines", "base", KEYS[0]]):
            self.assertEqual(run(*words)[0], 2)
        status, said = run(*to, "base", *KEYS[:3], given=lines(f"0 10 3 {FINALIZE}"))
        self.assertEqual((status, said), (2, "report: participant 3 of epoch 0 is accused, and not in these committees\n"))
        self.assertFalse(self.page.exists())

    def test_a_stream(self):
        words = self.programs(lines(f"0 10 1 {FINALIZE}"), self.messages)
        self.assertEqual(run("-o", str(self.page), *words), (0, ""))
        for it in ("The stream was read to its end.", KEYS[1], "aa01"):
            self.assertIn(it, self.page.read_text())
        fault = shown(*votes("nullify", 1, (None, None)), *votes("finalize", 1, (5, SIX)), fault="EndOfBuffer")
        words = self.programs(lines(f"0 10 1 {FINALIZE}"), fault, 1, "audit: fault at byte 200\n")
        self.assertEqual(run("-o", str(self.page), *words), (0, ""))
        self.assertIn("fault at byte 200", self.page.read_text())
        self.assertEqual(run("-o", str(self.page), *self.programs(b"", fault))[0], 2)

    def test_programs_that_fail(self):
        words = self.programs(b"", b"", 3, "audit: out of memory\n")
        self.assertEqual(run("-o", str(self.page), *words), (3, "report: audit ended with status 3: 'audit: out of memory'\n"))
        self.assertEqual(run("-o", str(self.page), *words[:-1], KEYS[2])[0], 3)
        self.assertEqual(run("-o", str(self.page), *self.programs(b"", b"", 1, "other"))[0], 2)
        # more than a pipe holds after a line that is refused
        self.assertEqual(run("-o", str(self.page), *self.programs(b"no line\n" * 100_000, b""))[0], 2)
        os.remove(self.room / "inspect")
        self.assertEqual(run("-o", str(self.page), *words[:1], "/nowhere", *words[2:])[0], 3)
        self.assertFalse(self.page.exists())


if __name__ == "__main__":
    unittest.main()
