"""A report as a page: HTML without scripts, which loads nothing. Every text from outside is escaped."""
import collections
import html
import itertools
import re

from report_lines import KINDS

LIMIT = 1000  # rows of a table, unless another limit is given
MOST_DIGITS = 512  # of a payload or a signature
MOST_RUNS = 200  # of the signers of a certificate
MOST_BARS = 96  # of a plot

NAMES = {"conflicting-notarize": "two notarizes", "conflicting-finalize": "two finalizes",
         "nullify-finalize": "a nullify and a finalize"}
NOBODY = """<p><strong>Nobody is accused.</strong> That says that nobody of these committees is accused in this stream, and no
more. Under a wrong namespace or with other keys no vote verifies.</p>"""
APART = '<p class="soft">Numbers of different epochs may be of different participants, so each epoch counts apart.</p>'
UNKNOWN = """<p class="soft">These lines do not say whether the stream was read to its end. The exit status of
<code>audit</code> says it.</p>"""
WHO = "<p>A participant’s number is the place of its key among the keys of the epoch’s committee, ascending, from 0 on.</p>"
SPLITS = """<p>A split is a round with two valid certificates that contradict. <i>Named</i> is how many participants evidence
accuses in the round. <i>Least</i> is f + 1, with f the fault bound of the committee: f of n participants may lie, with n at
least 3f + 1. Each certificate has at least n − f signers, so at least f + 1 participants signed both.</p>"""
TWO_FINALIZED = """<p class="bad"><strong>Two proposals are finalized.</strong> Stop acting on what was finalized from this
round on until the nodes agree.</p>"""
EVIDENCE = """<p>Both votes are valid votes of one participant in one round, and they contradict. The first is its earliest
valid vote of that kind in the stream; the second is its earliest for another proposal. Beside a nullify stands its earliest
finalize. What differs between two proposals is shaded.</p>"""
READING = """<dl>
<dt>Evidence</dt><dd>Two valid votes of one participant in one round that contradict: two notarizes or two finalizes of
different proposals, or a nullify and a finalize. Each participant, round and kind counts once.</dd>
<dt>Round</dt><dd>A view of an epoch. Votes of different rounds are never compared. A notarize and a nullify do not
contradict.</dd>
<dt>Parent</dt><dd>The view of the proposal on which a proposal is built. A nullify names no proposal.</dd>
<dt>Byte</dt><dd>The offset in the stream, from 0 on, of the first message that carries the vote: the vote on its own, a
certificate that lists it, or evidence with it.</dd>
<dt>What it does not say</dt><dd>Up to f equivocators in a round are tolerated: they alone cannot make two certificates
contradict. A participant that is not accused may have equivocated in votes that are not in this stream.</dd>
<dt>What to do</dt><dd>Find both votes in what you stored, and verify them by the network’s own signatures. Look for a key in
use on two machines, and for a lost or restored journal.</dd></dl>"""
STYLE = """
:root { color-scheme: light dark; --page: #f9f9f7; --card: #fff; --ink: #0b0b0b; --soft: #52514e; --line: #dedcd6;
  --mark: #e8e6df; --a: #2a78d6; --b: #eb6834; --c: #1baf7a; --bad: #c62828; --bad-soft: #fdeceb; }
@media screen and (prefers-color-scheme: dark) { :root { --page: #0d0d0d; --card: #1a1a19; --ink: #fff; --soft: #c3c2b7;
  --line: #383835; --mark: #2c2c2a; --a: #3987e5; --b: #d95926; --c: #199e70; --bad: #ff7b74; --bad-soft: #3a1d1b; } }
* { box-sizing: border-box; }
body { margin: 0 auto; max-width: 68rem; padding: 1.5rem 1rem 4rem; background: var(--page); color: var(--ink);
  font: 1rem/1.5 system-ui, -apple-system, "Segoe UI", Roboto, "DejaVu Sans", sans-serif; }
h1 { font-size: 1.7rem; line-height: 1.2; margin: 0 0 .25rem; overflow-wrap: anywhere; }
h2 { font-size: 1.2rem; margin: 0 0 .5rem; }
h3 { font-size: 1rem; margin: 1.25rem 0 .5rem; }
p { margin: .25rem 0 .75rem; max-width: 46rem; }
nav { margin: .75rem 0 0; font-size: .9rem; }
nav a { margin-right: 1rem; color: var(--soft); }
section, .tile { background: var(--card); border: 1px solid var(--line); border-radius: 8px; }
section { padding: 1rem 1.15rem; margin-top: 1rem; }
.soft, dt, th, figcaption { color: var(--soft); }
.soft, figcaption { font-size: .875rem; }
.tiles { display: grid; gap: .75rem; grid-template-columns: repeat(auto-fit, minmax(8.5rem, 1fr)); margin: 1rem 0; }
.tile { padding: .6rem .9rem; }
.tile b { display: block; font-size: 1.6rem; line-height: 1.25; overflow-wrap: anywhere; }
.tile.bad { border-color: var(--bad); }
.bad b, .bad strong { color: var(--bad); }
p.bad { background: var(--bad-soft); border-left: 4px solid var(--bad); padding: .6rem .9rem; max-width: none; }
.scroll { overflow-x: auto; }
table { border-collapse: collapse; font-size: .9rem; font-variant-numeric: tabular-nums; }
th { font-weight: 600; text-align: left; }
th, td { padding: .35rem .7rem; border-bottom: 1px solid var(--line); vertical-align: top; }
thead th { border-bottom: 2px solid var(--line); vertical-align: bottom; }
tr > :first-child { padding-left: 0; }
.who tbody th { white-space: nowrap; }
.n { text-align: right; }
.who { width: 100%; }
.views { min-width: 17rem; }
.above td { border-bottom: 0; }
td.of { padding: 0 .7rem .4rem 1.4rem; color: var(--soft); white-space: nowrap; }
.pair { width: 100%; table-layout: fixed; }
.pair th:first-child { width: 5.2rem; }
.pair td { overflow-wrap: anywhere; }
.pair .other { background: var(--mark); }
code { font: .82rem/1.45 ui-monospace, SFMono-Regular, Menlo, Consolas, "DejaVu Sans Mono", monospace;
  overflow-wrap: anywhere; }
details { border-top: 1px solid var(--line); }
details > :not(summary) { margin: 0 0 .75rem; }
summary { padding: .35rem 0; cursor: pointer; }
.key { display: inline-block; width: .7rem; height: .7rem; border-radius: 2px; margin-right: .35rem; }
.legend span { margin-right: 1.1rem; white-space: nowrap; }
.k0 { background: var(--a); fill: var(--a); } .k1 { background: var(--b); fill: var(--b); }
.k2 { background: var(--c); fill: var(--c); } .split { fill: var(--bad); color: var(--bad); font-style: normal; }
figure { margin: 1rem 0 1.5rem; }
svg { display: block; width: 100%; min-width: 36rem; height: auto; }
svg text { font-size: 11px; fill: var(--soft); font-variant-numeric: tabular-nums; }
svg .grid { stroke: var(--line); stroke-width: 1; }
svg .mark { stroke: var(--bad); stroke-width: 1; stroke-dasharray: 2 3; }
.chip { display: inline-block; border: 1px solid var(--line); border-radius: 4px; padding: 0 .35rem; margin: 0 .2rem .2rem 0; }
.chip.both { background: var(--bad-soft); border-color: var(--bad); color: var(--bad); font-weight: 700; }
dl { margin: 0; max-width: 46rem; } dt { font-weight: 600; margin-top: .6rem; } dd { margin: 0; }
footer { margin-top: 1.5rem; }
@media print { :root { color-scheme: light; --page: #fff; font-size: 11px; } nav { display: none; }
  .scroll { overflow: visible; } .views { min-width: 0; }
  article, figure, tr { break-inside: avoid; } h2, h3, summary { break-after: avoid; }
  * { print-color-adjust: exact; -webkit-print-color-adjust: exact; } }
"""


def text(found):
    """Some text as HTML. What cannot be printed, or turns the direction of writing, is shown by its number."""
    shown = (each if each.isprintable() else f"\\u{{{ord(each):x}}}" for each in str(found))
    return html.escape("".join(shown))


def count(n, one, many=None):
    return f"{n:,} {one if n == 1 else many or one + 's'}"


def cut(found, limit, what):
    """The first of these, and a sentence with how many are left out."""
    if len(found) <= limit:
        return found, ""
    left = len(found) - limit
    return found[:limit], (f'<p class="soft">Shown are the first {limit:,} of {len(found):,} {what}; {left:,} are left out. '
                           "The option <code>--limit</code> raises the limit.</p>")


def code(found):
    """Hexadecimal digits, as many as a page takes."""
    more = f" .. (the first {MOST_DIGITS // 2} of {len(found) // 2:,} bytes)" if len(found) > MOST_DIGITS else ""
    return f"<code>{found[:MOST_DIGITS]}</code>{more}"


def section(name, title, *parts):
    return f'<section id="{name}"><h2>{title}</h2>\n' + "\n".join(part for part in parts if part) + "</section>\n"


def side_by_side(heads, rows):
    """A table of two columns. Each row is a name, both cells, and whether they are shaded."""
    head = "".join(f"<th>{each}</th>" for each in ("", *heads))
    body = ""
    for name, left, right, shaded in rows:
        kind = ' class="other"' if shaded else ""
        body += f"<tr><th>{name}</th><td{kind}>{left}</td><td{kind}>{right}</td></tr>"
    return f'<table class="pair"><thead><tr>{head}</tr></thead><tbody>{body}</tbody></table>'


def subjects(one, other):
    """The rows of two subjects. What differs between two proposals is shaded."""
    none, same = '<span class="soft">none</span>', one.vote == other.vote
    parents = ((none if each.parent is None else each.parent) for each in (one, other))
    payloads = ((none if each.payload is None else code(each.payload)) for each in (one, other))
    return [("Parent", *parents, same and one.parent != other.parent),
            ("Payload", *payloads, same and one.payload != other.payload)]


def tiles(report, people, inspected):
    """What was found in numbers."""
    found = [(len(people), "accused participant", "accused participants"), (len(report.evidence), "evidence", "evidence"),
             (len(report.accused), "round with evidence", "rounds with evidence"),
             (len({epoch for epoch, _ in report.accused}), "epoch with evidence", "epochs with evidence"),
             (len(report.splits), "split", "splits")]
    if inspected:
        found.append((inspected.messages, "message read", "messages read"))
    shown = ""
    for n, one, many in found:
        bad = " bad" if n and one == "split" else ""
        shown += f'<div class="tile{bad}"><b>{n:,}</b>{one if n == 1 else many}</div>'
    return f'<div class="tiles">{shown}</div>'


def summary(report, people, inspected):
    """What was found in a few words and numbers."""
    said = ""
    if not report.evidence:
        said += NOBODY
    if report.splits:
        said += (f'<p class="bad"><strong>{count(len(report.splits), "round")} split.</strong> Two valid certificates of such '
                 "a round contradict, so more participants equivocated there than the consensus tolerates.</p>")
    if any(not one.key and one.numbers.keys() != people[0].numbers.keys() for one in people):
        said += APART
    return tiles(report, people, inspected) + said + stop(report)


def stop(report):
    """Whether the stream was read whole."""
    fault = report.fault
    if fault:
        why = f" The refusal is <code>{text(fault.why)}</code>. The bytes there: {code(fault.next)}." if fault.why else ""
        return (f'<p class="bad"><strong>The stream has a fault at byte {fault.place}.</strong> At that offset no message '
                f"begins. Bytes from there on were not audited.{why}</p>")
    return '<p class="soft">The stream was read to its end.</p>' if report.whole else UNKNOWN


class Accused:
    """A participant: its number in each epoch in which it is accused, its key if it is known, and its evidence."""

    def __init__(self, key):
        self.key, self.numbers, self.kinds, self.rounds = key, {}, collections.Counter(), {}

    def add(self, one):
        self.numbers[one.epoch] = one.signer
        self.kinds[one.kind] += 1
        self.rounds[one[:2]] = None

    def order(self):
        """By the number of evidence, and then by the first epoch and number."""
        return -self.kinds.total(), *next(iter(self.numbers.items()))


def accused(report, committees=None):
    """Each accused participant, those with the most evidence first. Without committees the numbers of two epochs are those of
    two participants."""
    found = {}
    for one in report.evidence:
        key = committees.keys(one.epoch)[one.signer] if committees else None
        found.setdefault(key or (one.epoch, one.signer), Accused(key)).add(one)
    return sorted(found.values(), key=Accused.order)


def views_of(one, most=8):
    """The rounds in which a participant is accused: some, and how many more."""
    parts = []
    for epoch, places in itertools.groupby(itertools.islice(one.rounds, most), key=lambda place: place[0]):
        views = ", ".join(str(view) for _, view in places)
        parts.append(f"epoch {epoch}: {views}" if one.key else views)
    more = len(one.rounds) - most
    return "; ".join(parts) + (f" and {more:,} more" if more > 0 else "")


def numbers_of(one, most=3):
    """A participant's number, with the epochs if it has several numbers or no key."""
    if one.key and len(set(one.numbers.values())) == 1:
        return str(next(iter(one.numbers.values())))
    parts = [f"{signer} in epoch {epoch}" for epoch, signer in itertools.islice(one.numbers.items(), most)]
    more = len(one.numbers) - most
    return ", ".join(parts) + (f" and {more:,} more" if more > 0 else "")


def who(people, limit):
    """The accused participants, those with the most evidence first."""
    if not people:
        return ""
    heads = ["<th>Participant</th>", '<th class="n">Evidence</th>',
             *(f'<th class="n"><span class="key k{at}"></span>{NAMES[kind]}</th>' for at, kind in enumerate(KINDS)),
             '<th class="n">Rounds</th>', "<th>Views</th>"]
    rows, left = [], cut(people, limit, "participants")
    for one in left[0]:
        key = f'<tr><td class="of" colspan="{len(heads) - 1}">key <code>{one.key}</code></td></tr>' if one.key else ""
        cells = [f'<th{" rowspan=2" if key else ""}>{numbers_of(one)}</th>', f'<td class="n"><b>{one.kinds.total():,}</b></td>',
                 *(f'<td class="n">{one.kinds[kind]:,}</td>' if one.kinds[kind] else "<td></td>" for kind in KINDS),
                 f'<td class="n">{len(one.rounds):,}</td>', f'<td class="views">{views_of(one)}</td>']
        rows.append(f'<tr{" class=above" if key else ""}>{"".join(cells)}</tr>{key}')
    table = f'<thead><tr>{"".join(heads)}</tr></thead><tbody>{"".join(rows)}</tbody>'
    return section("who", "Who", WHO, f'<div class="scroll"><table class="who">{table}</table></div>', left[1])


# Plots.


def nice(least):
    """The smallest of 1, 2, 5, 10, 20, .. that is no less."""
    power = 1
    while True:
        for each in (power, 2 * power, 5 * power):
            if each >= least:
                return each
        power *= 10


class Bars:
    """The views of an epoch in bins of equal width: the evidence by kind, and the splits, of each that has any."""

    def __init__(self, evidence, splits):
        views = [one.view for one in (*evidence, *splits)]
        self.width = nice(-(-(max(views) - min(views) + 1) // MOST_BARS))
        self.start = min(views) // self.width * self.width
        self.bins = max(8, (max(views) - self.start) // self.width + 1)
        self.kinds, self.splits = collections.defaultdict(collections.Counter), collections.Counter()
        for one in evidence:
            self.kinds[(one.view - self.start) // self.width][one.kind] += 1
        for one in splits:
            self.splits[(one.view - self.start) // self.width] += 1
        most = max((kinds.total() for kinds in self.kinds.values()), default=1)
        self.tick = nice(-(-most // 5))
        self.top = -(-most // self.tick) * self.tick

    def name(self, at):
        first = self.start + at * self.width
        return f"View {first}" if self.width == 1 else f"Views {first} to {min(first + self.width, 1 << 64) - 1}"


LEFT, RIGHT, TOP, BOTTOM, WIDE, HIGH = 50, 18, 22, 22, 760, 200


def bar(bars, at, x, wide):
    """The bar of a bin, a part for each kind."""
    kinds = bars.kinds[at]
    parts = ", ".join(f"{NAMES[kind]} {kinds[kind]:,}" for kind in KINDS if kinds[kind])
    found, y = [f"<g><title>{bars.name(at)}: {parts}</title>"], float(HIGH - BOTTOM)
    for which, kind in enumerate(KINDS):
        if kinds[kind]:
            high = max(1.5, (HIGH - TOP - BOTTOM) * kinds[kind] / bars.top)
            y -= high
            gap = 1.5 if high > 4 else 0
            found.append(f'<rect class="k{which}" x="{x - wide / 2:.1f}" y="{max(0, y + gap):.1f}" width="{wide:.1f}" '
                         f'height="{high - gap:.1f}" rx="1.5"/>')
    return "".join(found) + "</g>"


def upright(bars):
    """The lines and the numbers of evidence."""
    found = []
    for tick in range(0, bars.top + 1, bars.tick):
        y = HIGH - BOTTOM - (HIGH - TOP - BOTTOM) * tick / bars.top
        found.append(f'<line class="grid" x1="{LEFT - 6}" x2="{WIDE - RIGHT + 6}" y1="{y:.1f}" y2="{y:.1f}"/>'
                     f'<text x="{LEFT - 12}" y="{y + 4:.1f}" text-anchor="end">{tick:,}</text>')
    return "".join(found)


def along(bars, centre):
    """The numbers of views, as many as there is room for."""
    longest = 7 * len(str(bars.start + bars.bins * bars.width)) + 24
    every = bars.width * nice(-(-longest * bars.bins // (WIDE - LEFT - RIGHT)))
    found, free = [], 0
    for view in range(-(-bars.start // every) * every, min(bars.start + bars.bins * bars.width, 1 << 64), every):
        x = max(centre[(view - bars.start) // bars.width], longest / 2)
        if free <= x - longest / 2 and x + longest / 2 <= WIDE + 12:
            found.append(f'<text x="{x:.1f}" y="{HIGH - 5}" text-anchor="middle">{view}</text>')
            free = x + longest / 2
    return "".join(found)


def plot(epoch, evidence, splits):
    """The evidence of an epoch over its views, splits marked."""
    bars = Bars(evidence, splits)
    step = (WIDE - LEFT - RIGHT) / bars.bins
    centre = [LEFT + (at + 0.5) * step for at in range(bars.bins)]
    found = [upright(bars), along(bars, centre)]
    for at, number_of in sorted(bars.splits.items()):
        x = centre[at]
        found.append(f'<g><title>{bars.name(at)}: {count(number_of, "split")}</title>'
                     f'<line class="mark" x1="{x:.1f}" x2="{x:.1f}" y1="{TOP - 4}" y2="{HIGH - BOTTOM}"/>'
                     f'<path class="split" d="M{x:.1f} 3l6 7l-6 7l-6 -7z"/></g>')
    found += [bar(bars, at, centre[at], min(24, max(2, step - 2))) for at in sorted(bars.kinds)]
    each = "each bar is a view" if bars.width == 1 else f"each bar is {bars.width:,} views"
    said = f"Epoch {epoch}: {len(evidence):,} evidence, {count(len(splits), 'split')}; {each}"
    return (f'<figure><figcaption>{said}</figcaption><div class="scroll"><svg viewBox="0 0 {WIDE} {HIGH}" role="img" '
            f'aria-label="{said}">{"".join(found)}</svg></div></figure>')


def when(report, limit):
    """A plot for each epoch."""
    epochs = collections.defaultdict(lambda: ([], []))
    for one in report.evidence:
        epochs[one.epoch][0].append(one)
    for one in report.splits:
        epochs[one.epoch][1].append(one)
    if not epochs:
        return ""
    some, left = cut(sorted(epochs), max(1, limit // 40), "epochs")
    legend = "".join(f'<span><i class="key k{at}"></i>{NAMES[kind]}</span>' for at, kind in enumerate(KINDS))
    return section("when", "When", '<p>The number of evidence over the views of each epoch.</p>',
                   f'<p class="legend soft">{legend}<span><i class="split">◆</i> a split</span></p>',
                   *(plot(epoch, *epochs[epoch]) for epoch in some), left)


# Splits and evidence.


def runs(signers, both):
    """Signers as chips, neighbours together, those in both certificates marked."""
    found = []
    for signer in signers:
        mark = signer in both
        if found and found[-1][1] == signer - 1 and found[-1][2] == mark:
            found[-1][1] = signer
        else:
            found.append([signer, signer, mark])
    chips = [f'<span class="chip{" both" * mark}">{first if first == last else f"{first}–{last}"}</span>'
             for first, last, mark in found[:MOST_RUNS]]
    return " ".join(chips) + (f" and {len(found) - MOST_RUNS:,} more" if len(found) > MOST_RUNS else "")


def certificates_of(one, other):
    """Both certificates of a split side by side."""
    both = set(one.signers) & set(other.signers)
    rows = [("Kind", one.kind, other.kind, False), *subjects(one.subject, other.subject),
            ("At byte", one.offset, other.offset, False),
            ("Signers", *(f"{len(each.signers):,}<br>{runs(each.signers, both)}" for each in (one, other)), False)]
    return (side_by_side(("First certificate", "Second certificate"), rows) +
            f'<p>In both: {count(len(both), "participant")}, marked. Evidence accuses each.</p>')


def split_shown(split, inspected):
    """A split, with its certificates if they are known."""
    found = f"<h3>Epoch {split.epoch}, view {split.view}</h3>"
    found += f"<p>{count(split.named, 'participant is', 'participants are')} accused in this round (<i>named</i>). "
    found += f"At least {split.least:,} had to be (<i>least</i>).</p>"
    if inspected:
        certificates = inspected.certificates[split[:2]]
        if {one.subject.vote for one in certificates} == {"finalize"}:
            found += TWO_FINALIZED
        found += certificates_of(*certificates)
    return f"<article>{found}</article>"


def hint(inspected, what):
    """What stands on the page if the lines of `inspect` are given."""
    return "" if inspected else f'<p class="soft">With the lines of <code>inspect</code> {what} stand here.</p>'


def splits(report, inspected, limit):
    """The splits."""
    if not report.splits:
        return ""
    some, left = cut(report.splits, max(1, limit // 10), "splits")
    shown = [split_shown(one, inspected) for one in some]
    return section("splits", "Splits", SPLITS, hint(inspected, "both certificates"), *shown, left)


def evidence_shown(one, inspected, opened):
    """Both votes of an evidence, side by side."""
    rows = [("Vote", one.first.vote, one.second.vote, False), *subjects(one.first, one.second)]
    if inspected:
        places = [inspected.places[(*one[:3], vote)] for vote in (one.first, one.second)]
        rows.append(("Signature", *(code(each.signature) for each in places), False))
        rows.append(("At byte", *(each.offset for each in places), False))
    key = f'<span class="key k{list(KINDS).index(one.kind)}"></span>'
    head = f"{key}View {one.view}, participant {one.signer}: {NAMES[one.kind]}"
    votes = side_by_side(("First vote", "Second vote"), rows)
    return f'<details{" open" * opened}><summary>{head}</summary>{votes}</details>'


def evidence(report, inspected, limit):
    """Each evidence, by epochs."""
    if not report.evidence:
        return ""
    some, left = cut(report.evidence, limit, "evidence")
    opened, parts = len(some) <= 12, []
    for epoch, of in itertools.groupby(some, key=lambda one: one.epoch):
        parts.append(f"<h3>Epoch {epoch}</h3>")
        parts += [evidence_shown(one, inspected, opened) for one in of]
    return section("evidence", "Evidence", EVIDENCE, hint(inspected, "signatures and byte offsets"), *parts, left)


def page(report, inspected=None, committees=None, limit=LIMIT, title="Who equivocated"):
    """The page of a report as text: HTML without scripts, which loads nothing. Of each table it has this many rows at most."""
    people = accused(report, committees)
    parts = who(people, limit) + when(report, limit) + splits(report, inspected, limit) + evidence(report, inspected, limit)
    parts += section("reading", "How to read this page", READING)
    heads = re.findall('(?m)^<section id="(.*?)"><h2>(.*?)</h2>', parts)
    links = "".join(f'<a href="#{name}">{of}</a>' for name, of in heads)
    lines, digest = count(len(report.evidence) + len(report.splits), "line"), report.digest.hexdigest()
    base = f" Namespace: <code>{text(committees.words[0])}</code>." if committees else ""
    return f"""<!DOCTYPE html>
<html lang="en"><head><meta charset="utf-8"><meta name="viewport" content="width=device-width, initial-scale=1">
<meta http-equiv="Content-Security-Policy" content="default-src 'none'; style-src 'unsafe-inline'">
<title>{text(title)}</title><style>{STYLE}</style></head><body>
<header><h1>{text(title)}</h1><nav>{links}</nav></header>
{summary(report, people, inspected)}
{parts}<footer class="soft">Made from {lines} of <code>audit</code>, whose SHA-256 is <code>{digest}</code>.{base}
</footer></body></html>
"""
