"""The lines of `audit` and of `inspect`, read strictly: what is not in their format is refused, with its line."""
import collections
import contextlib
import hashlib
import json
import re
from typing import NamedTuple, Optional

# the kinds of evidence in their order, and the votes of each
KINDS = {"conflicting-notarize": ("notarize", "notarize"), "conflicting-finalize": ("finalize", "finalize"),
         "nullify-finalize": ("nullify", "finalize")}
# the other kinds of messages: those of a vote, and those of a certificate
VOTES = ("notarize", "nullify", "finalize")
CERTIFICATES = {"notarization": "notarize", "certification": "notarize", "nullification": "nullify", "finalization": "finalize"}
STATEMENTS = KINDS | {vote: (vote,) for vote in VOTES} | {kind: (vote,) for kind, vote in CERTIFICATES.items()}


class Refused(ValueError):
    """A line is not in its format, or does not fit the others."""


class Vote(NamedTuple):
    """A subject: what is voted for. A nullify has neither a parent nor a payload."""

    vote: str
    parent: Optional[int] = None
    payload: Optional[str] = None


class Evidence(NamedTuple):
    epoch: int
    view: int
    signer: int
    kind: str
    first: Vote
    second: Vote


class Split(NamedTuple):
    """How many participants evidence accuses in the round, and f + 1, which is no more."""

    epoch: int
    view: int
    named: int
    least: int


class Fault(NamedTuple):
    """The byte at which no message begins; by `inspect` also why, and the bytes there."""

    place: int
    why: Optional[str] = None
    next: Optional[str] = None


class Place(NamedTuple):
    """The offset of the first message that carries a vote, and the vote's signature."""

    offset: int
    signature: str


class Certificate(NamedTuple):
    offset: int
    kind: str
    subject: Vote
    signers: tuple


class Report:
    """What `audit` printed. `whole` says whether the stream was read to its end, or is None if that is not known."""

    def __init__(self):
        self.evidence, self.splits, self.fault, self.whole = [], [], None, None
        self.accused = collections.defaultdict(set)
        self.digest = hashlib.sha256()


class Inspected:
    """What `inspect` printed of a report's stream: how many messages, the `Place` of each vote of the evidence, and the two
    certificates of each split."""

    def __init__(self, report):
        self.messages, self.end, self.fault = 0, 0, None
        self.places = {(*one[:3], vote): None for one in report.evidence for vote in one[4:]}
        self.certificates = {one[:2]: None for one in report.splits}
        self.first = {one[:2]: [] for one in report.splits}
        self.rounds = set(report.accused)


# Reading the lines of `audit`.


def refuse(what):
    raise Refused(what)


def quoted(text, most=40):
    """Some text of an input within a refusal."""
    return ascii(text if len(text) <= most else text[:most] + "..")


def number(word, bits, what):
    if not re.fullmatch("0|[1-9][0-9]{0,19}", word) or int(word) >> bits:
        refuse(f"{what} has to be a number from 0 to 2^{bits} - 1: {quoted(word)}")
    return int(word)


def digits(word, what):
    if not re.fullmatch("(?:[0-9a-f]{2})+", word):
        refuse(f"{what} has to be lower-case hexadecimal digits, two for each byte: {quoted(word)}")
    return word


def evidence_of(words):
    """An evidence by the words of its line."""
    *place, kind = words[:4]
    proposals = words[4:]
    nullify = kind == "nullify-finalize"
    if len(proposals) != (2 if nullify else 4):
        refuse(f"a line with {kind} has {6 if nullify else 8} words, not {len(words)}")
    subjects = [(number(parent, 64, "PARENT"), digits(payload, "PAYLOAD")) for parent, payload in
                zip(proposals[::2], proposals[1::2])]
    if subjects[1:] and subjects[0] == subjects[1]:
        refuse("both votes are for the same proposal, so they do not contradict")
    votes = [Vote(vote, *subject) for vote, subject in zip(KINDS[kind], [()] + subjects if nullify else subjects)]
    return Evidence(*(number(*each) for each in zip(place, (64, 64, 32), ("EPOCH", "VIEW", "SIGNER"))), kind, *votes)


def split_of(words, accused):
    """A split by the words of its line, in a round in which so many are accused."""
    if len(words) != 5:
        refuse(f"a line with split has 5 words, not {len(words)}")
    split = Split(*(number(word, 64, what) for word, what in zip(words[:2], ("EPOCH", "VIEW"))),
                  *(number(word, 32, what) for word, what in zip(words[3:], ("ACCUSED", "LEAST"))))
    there = len(accused.get(split[:2], ()))
    if split.named != there:
        refuse(f"ACCUSED is {split.named}, and the lines before accuse {there} in that round")
    if not 1 <= split.least <= split.named:
        refuse(f"LEAST is {split.least}, and has to be from 1 to ACCUSED, {split.named}")
    return split


def fault_of(text):
    """The fault that a message on standard error is of, or None."""
    found = re.fullmatch("audit: fault at byte (.*)", text)
    return Fault(number(found[1], 64, "P")) if found else None


def line_of(text, report):
    """Adds a line to a report, and returns what orders it."""
    report.fault = fault_of(text)
    if report.fault:
        report.whole = False
        return (2,)
    words = text.split(" ")
    if words[3:] and words[3] in KINDS:
        one = evidence_of(words)
        report.evidence.append(one)
        report.accused[one[:2]].add(one.signer)
        return 0, *one[:3], list(KINDS).index(one.kind)
    if words[2:] and words[2] == "split":
        report.splits.append(split_of(words, report.accused))
        return 1, *report.splits[-1][:2]
    return refuse(f"neither evidence, nor a split, nor a fault: {quoted(text)}")


def texts(file, name):
    """The lines of a file, each with its number and without its end."""
    for at, raw in enumerate(file, 1):
        if not raw.endswith(b"\n"):
            refuse(f"{name}, line {at}: it was cut off: it does not end with a line feed")
        yield at, raw[:-1]


@contextlib.contextmanager
def line(name, at):
    """A refusal within it says which line it is of."""
    try:
        yield
    except UnicodeDecodeError:
        refuse(f"{name}, line {at}: not text")
    except Refused as refused:
        refuse(f"{name}, line {at}: {refused}")


def read_lines(file, name="lines"):
    """The `Report` of the lines of `audit`, in a file that is open for bytes. Raises `Refused` for a line that is not in the
    format, or does not come after the one above it."""
    report, last = Report(), ()
    for at, raw in texts(file, name):
        with line(name, at):
            order = line_of(raw.decode("ascii"), report)
            if order <= last:
                refuse("it has to stand before the line above it: evidence and then splits, by round, signer and kind")
        last = order
        report.digest.update(raw + b"\n")
    return report


# Reading the lines of `inspect`.


def unique(pairs):
    """The fields of an object, which has each once."""
    found = dict(pairs)
    return found if len(found) == len(pairs) else refuse("a field stands twice")


def parsed(raw):
    """The JSON object of a line."""
    try:
        found = json.loads(raw.decode(), object_pairs_hook=unique)
    except Refused:
        raise
    except (ValueError, RecursionError):
        refuse(f"not JSON: {quoted(raw.decode(errors='replace'))}")
    return found if isinstance(found, dict) else refuse("not a JSON object")


def fields(found, *names):
    """The values of these fields, and there is no other."""
    if not isinstance(found, dict) or set(found) != set(names):
        there = ", ".join(map(str, found))[:120] if isinstance(found, dict) else type(found).__name__
        refuse(f"the fields have to be {', '.join(names)}, not {there!a}")
    return [found[name] for name in names]


def whole(found, bits, what):
    if type(found) is not int or found < 0 or found >> bits:
        refuse(f"{what} has to be a number from 0 to 2^{bits} - 1")
    return found


def word(found, what):
    return found if isinstance(found, str) else refuse(f"{what} has to be text")


def judged(found, *names):
    """The values of these fields, and whether it is valid."""
    if isinstance(found, dict) and "valid" not in found:
        refuse("it does not say what is valid: run inspect with the namespace and the keys of the audit")
    valid = isinstance(found, dict) and found["valid"]
    *values, _ = fields(found, *names, "valid") if valid is True else fields(found, *names, "valid", "why")[:-1]
    return [*values, valid if isinstance(valid, bool) else refuse("valid has to be true or false")]


def statement_of(found, kind, vote):
    """The subject of a statement, its attestations, each a signer, a signature and whether it is valid, and for a certificate
    whether it is valid."""
    names = ["vote", *(["parent", "payload"] if vote != "nullify" else []), "signatures"]
    said, *subject, listed, valid = judged(found, *names) if kind in CERTIFICATES else [*fields(found, *names), False]
    if said != vote or not isinstance(listed, list) or kind not in CERTIFICATES and len(listed) != 1:
        refuse(f"a {kind} has other statements")
    if subject:
        subject = whole(subject[0], 64, "parent"), digits(word(subject[1], "payload"), "payload")
    attestations = [judged(one, "signer", "signature") for one in listed]
    for signer, signature, _ in attestations:
        whole(signer, 32, "signer")
        digits(word(signature, "signature"), "signature")
    return Vote(vote, *subject), attestations, valid


def contradict(one, other):
    """Whether certificates of these subjects of one round contradict."""
    if one.vote == other.vote:
        return one != other
    return {one.vote, other.vote} == {"nullify", "finalize"}


def certified(inspected, place, certificate):
    """Adds a valid certificate of a round. The first that contradicts an earlier one makes the pair."""
    if place not in inspected.first or inspected.certificates[place]:
        return
    for one in inspected.first[place]:
        if contradict(one.subject, certificate.subject):
            inspected.certificates[place] = (one, certificate)
            return
    if all(one.subject != certificate.subject for one in inspected.first[place]):
        inspected.first[place].append(certificate)


def message_of(found, inspected):
    """Adds a message."""
    offset, length, kind, *place, statements = fields(found, "offset", "length", "kind", "epoch", "view", "statements")
    place = tuple(whole(one, 64, what) for one, what in zip(place, ("epoch", "view")))
    if whole(offset, 64, "offset") != inspected.end or whole(length, 64, "length") == 0:
        refuse(f"the message has to begin at byte {inspected.end}, and to have a byte")
    votes = STATEMENTS.get(word(kind, "kind")) or refuse(f"there is no such kind: {quoted(kind)}")
    if not isinstance(statements, list) or len(statements) != len(votes):
        refuse(f"a {kind} has {len(votes)} statements")
    for said, vote in zip(statements, votes):
        subject, attestations, valid = statement_of(said, kind, vote)
        for signer, signature, good in attestations if place in inspected.rounds else ():
            key = (*place, signer, subject)
            if good and key in inspected.places and not inspected.places[key]:
                inspected.places[key] = Place(offset, signature)
        if valid:
            certified(inspected, place, Certificate(offset, kind, subject, tuple(one[0] for one in attestations)))
    inspected.messages, inspected.end = inspected.messages + 1, offset + length


def read_inspect(file, report, name="inspect"):
    """The `Inspected` of the lines of `inspect` of a report's stream. The fault there becomes the report's. Raises `Refused`
    for a line that is not in the format, and for lines of another stream or under other committees."""
    inspected = Inspected(report)
    for at, raw in texts(file, name):
        with line(name, at):
            found = parsed(raw)
            if inspected.fault:
                refuse("a line after that of the fault")
            if "fault" not in found:
                message_of(found, inspected)
                continue
            place, why, following = fields(found, "offset", "fault", "next")
            if whole(place, 64, "offset") != inspected.end:
                refuse(f"the fault has to be at byte {inspected.end}")
            inspected.fault = Fault(place, word(why, "fault"), digits(word(following, "next"), "next"))
    fit_inspect(inspected, report, name)
    report.fault, report.whole = inspected.fault, not inspected.fault
    return inspected


def fit_inspect(inspected, report, name):
    """Refuses lines of `inspect` that are not of the report's stream and committees."""
    other = "the lines are of another stream, or of other committees"
    for (epoch, view, signer, vote), place in inspected.places.items():
        if not place:
            refuse(f"{name}: in epoch {epoch}, view {view} no valid {vote.vote} of participant {signer} as accused: {other}")
    for split in report.splits:
        pair = inspected.certificates[split[:2]]
        both = set(pair[0].signers) & set(pair[1].signers) if pair else set()
        if len(both) < split.least or not both <= report.accused[split[:2]]:
            refuse(f"{name}: no two certificates in epoch {split.epoch}, view {split.view} as in the split: {other}")
    places = [one.fault.place if one.fault else None for one in (report, inspected)]
    if report.whole is not None and places[0] != places[1]:
        refuse(f"{name}: the fault is at byte {places[1]}, and by audit at byte {places[0]}: {other}")


# Committees.


class Committees:
    """The arguments of `audit`: one committee for every epoch, or one for each of some epochs. Raises `Refused` for others."""

    def __init__(self, words):
        self.words, self.of = list(words), {}
        epoch = None
        for given in self.words[1:]:
            if given.startswith("@"):
                epoch = self.next_epoch(given[1:])
                self.of[epoch] = []
            elif re.fullmatch("[0-9a-fA-F]{64}", given):
                self.of.setdefault(epoch, []).append(given.lower())
            else:
                refuse(f"neither @EPOCH nor a KEY of 64 hexadecimal digits: {quoted(given)}")
        if not self.of:
            refuse("there has to be a KEY")
        for epoch, keys in self.of.items():
            keys.sort()
            if not keys or len(set(keys)) < len(keys):
                refuse("each committee has a KEY, and none twice")

    def next_epoch(self, given):
        epoch = number(given, 64, "EPOCH")
        if None in self.of or self.of and epoch <= max(self.of):
            refuse(f"@{epoch} stands after a KEY without an epoch, or after an epoch that is not below it")
        return epoch

    def keys(self, epoch):
        """The keys of the committee of an epoch, ascending; none if it has no committee."""
        return self.of.get(None) or self.of.get(epoch, [])

    def fit(self, report):
        """Refuses a report that is not of these committees."""
        for one in report.evidence:
            if one.signer >= len(self.keys(one.epoch)):
                refuse(f"participant {one.signer} of epoch {one.epoch} is accused, and not in these committees")
        for one in report.splits:
            if one.least != (len(self.keys(one.epoch)) - 1) // 3 + 1:
                refuse(f"LEAST is {one.least} in epoch {one.epoch}, view {one.view}, and not f + 1 of these committees")
