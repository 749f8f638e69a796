#!/usr/bin/env python3
"""vectors.py VECTORS ANSWERS [WORKED]: writes vectors of `sign`, `assemble`, `many`, `subject`, `derive`, `decode`, `cut`, plain `verify`,
`batch`, `resolve`, `hear`, `follow`, `store`, `prune`, `listen`, `compact` and `audit`, and their answers, as docs/CONFORMANCE.md has them. With
WORKED, a file of vectors, there are also vectors of `cut` of the messages in those, and of `feed` of their streams in pieces. It is a
model of its own: it reads and signs by what docs/FORMAT.md says.
"""
import hashlib
import sys

KINDS = ("notarize", "nullify", "finalize")
FIRST_ROUND = (0, 0)


class Refused(Exception):
    pass


def number(n):
    groups = bytearray()
    while n >= 128:
        groups.append(n % 128 + 128)
        n //= 128
    return bytes(groups) + bytes([n])


class Reader:
    """Reads values from the front of some bytes."""

    def __init__(self, data, plain, bound):
        self.data, self.bound, self.size = data, bound, 32 if plain else 1

    def fixed(self, size):
        if len(self.data) < size:
            raise Refused("EndOfBuffer")
        taken, self.data = self.data[:size], self.data[size:]
        return taken

    def number(self, bits):
        value, most = 0, (bits + 6) // 7
        for place in range(most):
            if place == len(self.data):
                raise Refused("EndOfBuffer")
            byte = self.data[place]
            value += (byte & 127) << (7 * place)
            if place == most - 1 and byte >= 1 << (bits - 7 * place):
                raise Refused("InvalidVarint")
            if byte < 128:
                if byte == 0 and place > 0:
                    raise Refused("InvalidVarint")
                self.data = self.data[place + 1 :]
                return value
        raise Refused("InvalidVarint")

    def round(self):
        return self.number(64), self.number(64)

    def proposal(self):
        return self.round(), self.number(64), self.fixed(self.size)

    def subject(self, kind):
        return self.round() if kind == "nullify" else self.proposal()

    def attestation(self):
        return self.number(32), self.fixed(self.size)

    def vote(self, kind):
        return self.subject(kind), self.attestation()

    def listed(self):
        count = self.number(32)
        if not 1 <= count <= self.bound:
            raise Refused("Invalid simplex_messages::Listed: count out of range")
        listed = []
        for _ in range(count):
            one = self.attestation()
            if one[0] >= self.bound or listed and listed[-1][0] >= one[0]:
                raise Refused("Invalid simplex_messages::Listed: signers out of order or range")
            listed.append(one)
        return listed

    def certificate(self, kind):
        return self.subject(kind), self.listed()

    def tag(self, of, tags):
        tag = self.fixed(1)[0]
        if tag >= tags:
            raise Refused(f"Invalid consensus::simplex::{of}: Invalid type")
        return tag

    def evidence(self, first_kind, second_kind, of, why):
        first, second = self.vote(first_kind), self.vote(second_kind)
        rounds = [s if k == "nullify" else s[0] for k, s in ((first_kind, first[0]), (second_kind, second[0]))]
        same = first_kind == second_kind and first[0] == second[0]
        if first[1][0] != second[1][0] or rounds[0] != rounds[1] or same:
            raise Refused(f"Invalid consensus::simplex::{of}: {why}")
        return first, second

    def kind(self, kind):
        """The value of a kind of `read`."""
        cases = {
            "notarization": "notarize",
            "nullification": "nullify",
            "finalization": "finalize",
        }
        if kind == "view" or kind == "epoch":
            return self.number(64)
        if kind == "participant":
            return self.number(32)
        if kind == "context":
            return self.round(), self.fixed(32), self.number(64), self.fixed(32)
        if kind in ("round", "proposal", "attestation", "listed"):
            return getattr(self, kind)()
        if kind in KINDS:
            return self.vote(kind)
        if kind in cases:
            return self.certificate(cases[kind])
        if kind == "vote":
            return self.vote(KINDS[self.tag("Vote", 3)])
        if kind == "certificate":
            return self.certificate(KINDS[self.tag("Certificate", 3)])
        if kind == "conflicting-notarize":
            return self.evidence("notarize", "notarize", "ConflictingNotarize", "invalid conflicting notarize")
        if kind == "conflicting-finalize":
            return self.evidence("finalize", "finalize", "ConflictingFinalize", "invalid conflicting finalize")
        if kind == "nullify-finalize":
            return self.evidence("nullify", "finalize", "NullifyFinalize", "mismatched signatures")
        members = ("notarize", "notarization", "", "nullify", "nullification", "finalize", "finalization")
        if kind == "artifact":
            tag = self.tag("Artifact", 7)
            if tag == 2:
                at, truth = self.round(), self.fixed(1)[0]
                if truth > 1:
                    raise Refused("InvalidBool")
                return at, truth
            return self.kind(members[tag])
        tag = self.tag("Activity", 10)
        if tag == 2:
            return self.kind("notarization")
        return self.kind((members + ("conflicting-notarize", "conflicting-finalize", "nullify-finalize"))[tag])


def spelled_subject(kind, subject):
    if kind == "nullify":
        return number(subject[0]) + number(subject[1])
    (epoch, view), parent, payload = subject
    return number(epoch) + number(view) + number(parent) + payload


def name(base, kind):
    return base + b"_" + kind.upper().encode()


def signature(base, signer, kind, message, first=0):
    """The marked signature where the base is None, and else the plain one by the key `first + signer`."""
    if base is None:
        return b"\xaa"
    names = name(base, kind)
    key = (first + signer).to_bytes(32, "big")
    return hashlib.sha256(number(len(names)) + names + key + message).digest()


def vote(base, signer, kind, message, first=0):
    return message + number(signer) + signature(base, signer, kind, message, first)


def certificate(base, signers, kind, message, first=0):
    listed = b"".join(number(i) + signature(base, i, kind, message, first) for i in signers)
    return message + number(len(signers)) + listed


def is_good(base, n, kind, subject, attestation, first=0):
    signer, given = attestation
    return signer < n and given == signature(base, signer, kind, spelled_subject(kind, subject), first)


def quorum(n):
    return n - (n - 1) // 3


def is_certified(base, n, kind, subject, listed, first=0):
    return len(listed) >= quorum(n) and all(is_good(base, n, kind, subject, one, first) for one in listed)


def decode(kind, bound, data):
    reader = Reader(data, kind.startswith("plain-"), bound)
    try:
        reader.kind(kind.removeprefix("plain-"))
    except Refused as refused:
        return str(refused)
    if reader.data:
        return "ExtraData"
    return f"size {len(data)}, {data.hex()}"


def letter(kind, bound, data):
    reader = Reader(data, kind.startswith("plain-"), bound)
    try:
        reader.kind(kind.removeprefix("plain-"))
        return "r"
    except Refused as refused:
        answer = str(refused)
        return {"EndOfBuffer": "E", "InvalidVarint": "V", "InvalidBool": "B"}.get(answer, "I")


def cut(kind, bound, data):
    fronts = "".join(letter(kind, bound, data[:end]) for end in range(len(data)))
    turned = ""
    for place in range(len(data)):
        for bit in range(8):
            changed = bytearray(data)
            changed[place] ^= 1 << bit
            turned += letter(kind, bound, bytes(changed))
    return fronts + " " + turned


def assemble(base, n, call, data):
    kind = {"notarizes": "notarize", "nullifies": "nullify", "finalizes": "finalize"}[call.split("_")[-1]]
    reader, votes = Reader(data, base is not None, n), []
    try:
        while reader.data:
            votes.append(reader.vote(kind))
    except Refused as refused:
        return str(refused)
    signers = [attestation[0] for _, attestation in votes]
    if not votes or len(set(signers)) < len(signers) or max(signers) >= n or any(s != votes[0][0] for s, _ in votes):
        return "no assembly"
    if len(votes) < quorum(n):
        return f"InsufficientAttestations {quorum(n)} {len(votes)}"
    listed = sorted(attestation for _, attestation in votes)
    parts = b"".join(number(signer) + given for signer, given in listed)
    return (spelled_subject(kind, votes[0][0]) + number(len(votes)) + parts).hex()


def many(base, n, data):
    reader, found = Reader(data, base is not None, n), []
    try:
        while reader.data:
            kind = KINDS[reader.tag("Certificate", 3)]
            found.append((kind, is_certified(base, n, kind, *reader.certificate(kind))))
    except Refused as refused:
        return str(refused)
    words = {"notarize": "notarizations", "nullify": "nullifications", "finalize": "finalizations"}
    return "; ".join(" ".join([words[one]] + [str(good).lower() for kind, good in found if kind == one]) for one in KINDS)


def read_all(kind, n, data):
    """The value of a kind of the marked scheme that is all of the bytes."""
    reader = Reader(data, False, n)
    value = reader.kind(kind)
    if reader.data:
        raise Refused("ExtraData")
    return value


def batch(n, proposal, votes):
    try:
        wanted = read_all("proposal", n, proposal)
    except Refused as refused:
        return str(refused)
    kept, said = {}, []
    for data in votes:
        try:
            subject, (signer, given) = read_all("notarize", n, data)
        except Refused as refused:
            said.append(str(refused))
            continue
        if subject == wanted and is_good(None, n, "notarize", subject, (signer, given)):
            kept.setdefault(signer, given)
        if len(kept) < quorum(n):
            said.append(f"{len(kept)} kept")
        else:
            said.append(certificate(None, sorted(kept), "notarize", proposal).hex())
    return " | ".join(said)


def resolve(n, data):
    reader, said = Reader(data, False, n), "kept"
    try:
        while reader.data:
            subject, listed = reader.certificate("notarize")
            if is_certified(None, n, "notarize", subject, listed):
                said += " " + spelled_subject("notarize", subject).hex()
    except Refused as refused:
        return str(refused)
    return said


def line(kind, first, second):
    """The line of an evidence that two votes make."""
    proposals = [first[0]] if kind != "nullify-finalize" else []
    proposals.append(second[0])
    (epoch, view), signer = second[0][0], second[1][0]
    votes = "".join(f" {parent} {payload.hex()}" for _, parent, payload in proposals)
    return f"{epoch} {view} {signer} {kind}{votes}"


def follow(n, finalizations):
    latest, said = None, []
    for data in finalizations:
        try:
            subject, listed = read_all("finalization", n, data)
        except Refused as refused:
            said.append(str(refused))
            continue
        if not is_certified(None, n, "finalize", subject, listed):
            said.append("refused")
        elif latest is None or subject[0] > latest[0][0]:
            latest = subject, listed
            said.append("taken")
        elif subject[0] == latest[0][0] and subject != latest[0]:
            both = [(one, other) for one in latest[1] for other in listed if one[0] == other[0]]
            lines = [line("conflicting-finalize", (latest[0], one), (subject, other)) for one, other in both]
            said.append("; ".join(["fork"] + lines))
        else:
            said.append("known")
    return " | ".join(said)


def message_of(reader):
    """The votes of the message at the front, each with its kind, and its certificate with its kind and subject, if it has one."""
    tag = reader.tag("Activity", 10)
    kinds = ("notarize", "notarize", "notarize", "nullify", "nullify", "finalize", "finalize")
    if tag in (1, 2, 4, 6):
        subject, listed = reader.certificate(kinds[tag])
        return [(kinds[tag], (subject, one)) for one in listed], (kinds[tag], subject, listed)
    if tag < 7:
        return [(kinds[tag], reader.vote(kinds[tag]))], None
    first, second = {7: ("notarize", "notarize"), 8: ("finalize", "finalize"), 9: ("nullify", "finalize")}[tag]
    pair = reader.kind(("conflicting-notarize", "conflicting-finalize", "nullify-finalize")[tag - 7])
    return list(zip((first, second), pair)), None


def members(who):
    """The number of participants of each epoch's committee."""
    if ":" not in who:
        return lambda epoch: int(who)
    sizes = dict(map(int, one.split(":")) for one in who.split(","))
    return lambda epoch: sizes.get(epoch, 0)


def bound_of(who):
    return max(int(one.split(":")[-1]) for one in who.split(","))


def read_encoded(bound, stream):
    """The messages of a stream, each with its bytes before it, the bytes behind them, and why those are no message, if there are
    any."""
    reader, found = Reader(stream, False, bound), []
    while reader.data:
        rest = reader.data
        try:
            message = message_of(reader)
        except Refused as refused:
            return found, rest, str(refused)
        found.append((rest[: len(rest) - len(reader.data)], message))
    return found, b"", None


def read_messages(who, stream):
    """The same without their bytes."""
    found, rest, fault = read_encoded(bound_of(who), stream)
    return [message for _, message in found], rest, fault


def messages_in(bound, stream):
    """The messages at the front of a stream, as bytes."""
    return [data for data, _ in read_encoded(bound, stream)[0]]


def round_of(kind, subject):
    return subject if kind == "nullify" else subject[0]


def record(kept, who, votes, base=None):
    """Keeps of some votes each good one that is the earliest of its round, signer and kind or the earliest there with another
    proposal. Returns these."""
    news = []
    for kind, (subject, one) in votes:
        at = round_of(kind, subject)
        if not is_good(base, members(who)(at[0]), kind, subject, one):
            continue
        found = kept.setdefault((at, one[0]), {}).setdefault(kind, [])
        if len(found) < 2 and all(subject != other for other, _ in found):
            found.append((subject, one))
            news.append((kind, (subject, one)))
    return news


def keep(who, messages):
    """Of each round, signer and kind the earliest good vote and the earliest with another proposal."""
    kept = {}
    for votes, _ in messages:
        record(kept, who, votes)
    return kept


def count_from(floor, kept):
    """How many votes are kept of the rounds from a floor on."""
    return sum(len(found) for (at, _), kinds in kept.items() for found in kinds.values() if at >= floor)


def evidence_of(kept):
    """The evidence of the votes that are kept, in order: the round, the tag, the kind, and both votes with their kinds."""
    for (at, _), votes in sorted(kept.items()):
        notarizes, nullifies, finalizes = (votes.get(kind, []) for kind in KINDS)
        for tag, kind, kinds, pair in (
            (7, "conflicting-notarize", ("notarize", "notarize"), notarizes),
            (8, "conflicting-finalize", ("finalize", "finalize"), finalizes),
            (9, "nullify-finalize", ("nullify", "finalize"), nullifies[:1] + finalizes[:1] if nullifies else []),
        ):
            if len(pair) == 2:
                yield at, tag, kind, list(zip(kinds, pair))


def evidence_lines(evidence):
    return [line(kind, *(one for _, one in votes)) for _, _, kind, votes in evidence]


def certified_by(who, certificate, base=None):
    """The kind and the subject that a certificate certifies, if it does."""
    if certificate is None:
        return None
    kind, subject, listed = certificate
    n = members(who)(round_of(kind, subject)[0])
    return (kind, subject) if is_certified(base, n, kind, subject, listed) else None


def contradict(one, other):
    """Whether two certified subjects do, each with its kind."""
    kinds = {one[0], other[0]}
    of_one_kind = len(kinds) == 1 and kinds != {"nullify"} and one[1] != other[1]
    return round_of(*one) == round_of(*other) and (of_one_kind or kinds == {"nullify", "finalize"})


def split_lines(who, messages, evidence, floor):
    certified = {certified_by(who, certificate) for _, certificate in messages} - {None}
    rounds = {round_of(*one) for one in certified for other in certified if contradict(one, other)}
    for at in sorted(at for at in rounds if at >= floor):
        named = {votes[0][1][1][0] for place, _, _, votes in evidence if place == at}
        n = members(who)(at[0])
        yield f"{at[0]} {at[1]} split {len(named)} {n - quorum(n) + 1}"


def fault_words(stream, rest, fault):
    return [f"fault at {len(stream) - len(rest)}: {fault}"] if fault else []


def audited(who, stream, floor):
    """How many votes are kept of the rounds from a floor on, and the report of these rounds."""
    messages, rest, fault = read_messages(who, stream)
    kept = keep(who, messages)
    evidence = [one for one in evidence_of(kept) if one[0] >= floor]
    lines = [*evidence_lines(evidence), *split_lines(who, messages, evidence, floor)]
    report = "; ".join([f"read {len(messages)}", *lines, *fault_words(stream, rest, fault)])
    return count_from(floor, kept), report


def audit(who, stream):
    return audited(who, stream, FIRST_ROUND)[1]


def prune(who, floor, pieces):
    return "votes {}; {}".format(*audited(who, b"".join(pieces), floor))


def arising(who, messages, floor):
    """The lines of the evidence and of the splits of some messages, from a floor on."""
    evidence = [one for one in evidence_of(keep(who, messages)) if one[0] >= floor]
    return list(evidence_lines(evidence)), list(split_lines(who, messages, evidence, floor))


def listen(who, floor, pieces):
    """What arises in each piece, message by message: the lines that the messages up to it have and those before it have not."""
    said, before, read, stream = ["told"], ([], []), 0, b""
    for piece in pieces:
        stream += piece
        messages = read_messages(who, stream)[0]
        told = ([], [])
        for count in range(read + 1, len(messages) + 1):
            lines = arising(who, messages[:count], floor)
            for known, now, new in zip(before, lines, told):
                new += [line for line in now if line not in known]
            before = lines
        read = len(messages)
        said.append("".join(f"; {line}" for line in (*told[0], *told[1])))
    return " |".join(said)


def certify(certified, who, certificate, base=None):
    """Whether what a certificate certifies is the first of its kind in its round or splits the round, where none did before."""
    one = certified_by(who, certificate, base)
    if one is None:
        return False
    before = certified.setdefault(round_of(*one), [])
    is_split = any(contradict(first, second) for first in before for second in before)
    is_first = all(kind != one[0] for kind, _ in before)
    before.append(one)
    return not is_split and (is_first or any(contradict(one, other) for other in before))


def vote_alone(kind, vote):
    """A vote as a message of its own."""
    subject, (signer, given) = vote
    return bytes([{"notarize": 0, "nullify": 3, "finalize": 5}[kind]]) + spelled_subject(kind, subject) + number(signer) + given


def left_of(who, messages, base=None):
    """Of each message, given with its bytes, the messages that are left when it comes. A certificate of which no subject is new leaves its
    votes that are kept, each as a message of its own. Any other message is left whole, if what it certifies is new or one of
    its votes is kept."""
    kept, certified = {}, {}
    for data, (votes, certificate) in messages:
        votes_kept = record(kept, who, votes, base)
        if certify(certified, who, certificate, base):
            yield [data]
        elif certificate is not None:
            yield [vote_alone(kind, vote) for kind, vote in votes_kept]
        else:
            yield [data] if votes_kept else []


def compact(who, floor, stream):
    """What is left of the messages of a stream, of the rounds from a floor on."""
    found, rest, fault = read_encoded(bound_of(who), stream)
    left = b""
    for (_, (votes, _)), messages in zip(found, left_of(who, found)):
        kind, (subject, _) = votes[0]
        left += b"".join(messages) if round_of(kind, subject) >= floor else b""
    return "; ".join([left.hex(), f"read {len(found)}", *fault_words(stream, rest, fault)])


def feed(who, pieces):
    said = []
    for last in range(1, len(pieces) + 1):
        front = b"".join(pieces[:last])
        messages, rest, _ = read_messages(who, front)
        votes = count_from(FIRST_ROUND, keep(who, messages))
        said.append(f"fed {len(front)}, rest {len(rest)}, votes {votes}")
    return " | ".join([*said, audit(who, b"".join(pieces))])


def store(who, pieces):
    evidence = list(evidence_of(keep(who, read_messages(who, b"".join(pieces))[0])))
    stored = b""
    for _, tag, _, votes in evidence:
        stored += bytes([tag])
        for kind, (subject, (signer, given)) in votes:
            stored += spelled_subject(kind, subject) + number(signer) + given
    return "; ".join([stored.hex(), *evidence_lines(evidence)])


def term_end(length, view):
    return (view + length - 1) // length * length


def is_in_reach(length, ahead, view, other):
    end = term_end(length, view)
    return other <= max(view, min(view + ahead, end)) or other == end + 1 <= view + ahead + 1


def is_taken(length, ahead, current, view):
    start = term_end(length, current) + 1
    own, later = min(start - 1, current + 2 * ahead + 1), start + min(max(ahead, 1), length) + 1
    return view <= max(current + 1, own) or start <= view <= later


def hear(finalized, current, retention, length, ahead, certified, view):
    if term_end(length, current) + length + 2 >= 2**64 or certified + 1 >= 2**64:
        return "past the end"
    takes = view > 0 and finalized <= view + retention and is_taken(length, ahead, current, view)
    casts = is_in_reach(length, ahead, certified + 1, view)
    words = [str(one).lower() for one in (takes, casts, takes or not casts)]
    return "takes {}, casts {}, heard {}".format(*words)


def verify(base, n, data, first=0):
    reader = Reader(data, base is not None, n)
    try:
        tag = reader.tag("Activity", 10)
        kinds = ("notarize", "notarize", "notarize", "nullify", "nullify", "finalize", "finalize")
        if tag in (1, 2, 4, 6):
            good = is_certified(base, n, kinds[tag], *reader.certificate(kinds[tag]), first)
        elif tag < 7:
            good = is_good(base, n, kinds[tag], *reader.vote(kinds[tag]), first)
        else:
            word = ("conflicting-notarize", "conflicting-finalize", "nullify-finalize")[tag - 7]
            pair = (("notarize",) * 2, ("finalize",) * 2, ("nullify", "finalize"))[tag - 7]
            good = all(is_good(base, n, kind, *one, first) for kind, one in zip(pair, reader.kind(word)))
    except Refused as refused:
        return str(refused)
    verified = tag in (1, 2, 4, 6)
    return f"verified {str(verified).lower()}, verify {str(good).lower()}"


def sign(base, me, kind, data):
    reader = Reader(data, base is not None, 0)
    try:
        reader.subject(kind)
    except Refused as refused:
        return str(refused)
    if reader.data:
        return "ExtraData"
    return "nobody signs" if me is None else vote(base, me, kind, data).hex()


def vectors_of_names():
    for base in (b"test", b"", b"\x00\xff"):
        names = " ".join((base + b"_" + word).hex() for word in (b"NOTARIZE", b"NULLIFY", b"FINALIZE", b"SEED"))
        yield f"derive {base.hex()}".strip(), names
    for kind, data in (("notarize", "000a0506"), ("nullify", "cd020a"), ("finalize", "000a0506")):
        yield f"subject {kind} 74657374 {data}", f"{name(b'test', kind).hex()} {data}"
    yield "subject nullify 74657374 cd020a00", "ExtraData"
    yield "subject notarize 74657374 000a05", "EndOfBuffer"
    yield "subject nobody 74657374 000a05", "no row"


def scheme_word(base, n, me=None):
    return ("" if base is None else base.hex() + ":") + str(n) + ("" if me is None else f"/{me}")


def subjects(base, view=10):
    payload = b"\x06" if base is None else b"\x06" * 32
    proposal = number(0) + number(view) + number(5) + payload
    return {"notarize": proposal, "nullify": proposal[: 1 + len(number(view))], "finalize": proposal}


def vectors_of_signing(base):
    for kind, message in subjects(base).items():
        for me in (0, 3, None):
            yield f"sign {scheme_word(base, 4, me)} {kind} {message.hex()}", sign(base, me, kind, message)
        short, long = message[:-1], message + b"\x00"
        yield f"sign {scheme_word(base, 4, 1)} {kind} {short.hex()}", sign(base, 1, kind, short)
        yield f"sign {scheme_word(base, 4, 1)} {kind} {long.hex()}", "ExtraData"
    yield f"sign {scheme_word(base, 4, 4)} nullify 000a", "no row"
    yield f"sign {scheme_word(base, 0)} nullify 000a", "no row"
    yield f"sign {scheme_word(base, 4, 1)} nobody 000a", "no row"


def vectors_of_the_first_view(base):
    """What is signed in view 0 is valid there, and by the plain scheme not in view 1."""
    for tag, kind in ((b"\x00", "notarize"), (b"\x03", "nullify"), (b"\x05", "finalize")):
        here, there = subjects(base, 0)[kind], subjects(base, 1)[kind]
        yield f"sign {scheme_word(base, 4, 1)} {kind} {here.hex()}", sign(base, 1, kind, here)
        signed = vote(base, 1, kind, here)
        for data in (signed, *(() if base is None else (there + signed[len(here) :],))):
            yield f"verify {scheme_word(base, 4)} {(tag + data).hex()}", verify(base, 4, tag + data)


def vectors_of_assembling(base):
    calls = {"notarize": "notarizes", "nullify": "nullifies", "finalize": "finalizes"}
    for kind, message in subjects(base).items():
        other = subjects(base, 11)[kind]
        good = [vote(base, i, kind, message) for i in range(5)]
        lists = [[3, 0, 2], [0, 1], [0, 1, 1], [0, 1, 4], [], [2, 1, 0, 3]]
        for owned in ("", "owned_"):
            call = f"from_{owned}{calls[kind]}"
            word = f"assemble {scheme_word(base, 4)} {call}"
            for signers in lists:
                data = b"".join(good[i] for i in signers)
                yield f"{word} {data.hex()}".strip(), assemble(base, 4, call, data)
            data = good[0] + vote(base, 1, kind, other) + good[2]
            yield f"{word} {data.hex()}", assemble(base, 4, call, data)
            yield f"{word} {good[0][:-1].hex()}", "EndOfBuffer"
    yield f"assemble {scheme_word(base, 4)} from_nobody 000a00aa", "no row"


def vectors_of_many(base):
    word = f"many {scheme_word(base, 4)}"
    here, there = subjects(base), subjects(base, 11)
    made = {kind: bytes([KINDS.index(kind)]) + certificate(base, (0, 1, 2), kind, here[kind]) for kind in KINDS}
    few = b"\x00" + certificate(base, (0, 1), "notarize", here["notarize"])
    # A certificate of another round and of another kind than its signers signed.
    moved = b"\x01" + there["nullify"] + made["nullify"][1 + len(here["nullify"]) :]
    turned = b"\x02" + made["notarize"][1:]
    bad = made["finalize"][:-1] + b"\x00"
    for data in (
        b"",
        made["notarize"],
        few + made["nullify"] + few,
        made["notarize"] + made["nullify"] + made["finalize"],
        few + made["notarize"] + made["nullify"] + bad + made["finalize"] + moved + turned,
        few,
        bad,
        moved,
        turned,
        made["notarize"] + b"\x03",
    ):
        yield f"{word} {data.hex()}".strip(), many(base, 4, data)


def vectors_of_verifying(base):
    word = f"verify {scheme_word(base, 4)}"
    here, there = subjects(base), subjects(base, 11)
    loose = {kind: vote(base, 1, kind, here[kind]) for kind in KINDS}
    tags = {"notarize": 0, "nullify": 3, "finalize": 5}
    for kind, tag in tags.items():
        yield from ((f"{word} {(bytes([tag]) + loose[kind]).hex()}", verify(base, 4, bytes([tag]) + loose[kind])),)
    other = b"\x00" + vote(base, 1, "notarize", there["notarize"])[:-1] + b"\x01"
    listed = {kind: certificate(base, (0, 1, 2), kind, here[kind]) for kind in KINDS}
    second = vote(base, 1, "notarize", here["notarize"][:2] + b"\x04" + here["notarize"][3:])
    second_finalize = vote(base, 1, "finalize", here["notarize"][:2] + b"\x04" + here["notarize"][3:])
    for data in (
        other,
        b"\x00" + loose["finalize"],
        b"\x05" + loose["notarize"],
        b"\x00" + vote(base, 4, "notarize", here["notarize"]),
        b"\x00" + here["notarize"] + b"\x02" + signature(base, 1, "notarize", here["notarize"]),
        b"\x01" + listed["notarize"],
        b"\x02" + listed["notarize"],
        b"\x04" + listed["nullify"],
        b"\x06" + listed["finalize"],
        b"\x06" + listed["notarize"],
        b"\x01" + here["notarize"][:2] + b"\x06" + listed["notarize"][3:],
        b"\x04\x01" + listed["nullify"][1:],
        b"\x07" + loose["notarize"] + second,
        b"\x08" + loose["finalize"] + second_finalize,
        b"\x08" + loose["finalize"] + second,
        b"\x09" + loose["nullify"] + loose["finalize"],
        b"\x09" + loose["nullify"] + loose["notarize"],
        b"\x07" + loose["notarize"] + loose["notarize"],
    ):
        yield f"{word} {data.hex()}", verify(base, 4, data)
        if base is not None:
            # The same keys under another base.
            yield f"verify {scheme_word(base + b's', 4)} {data.hex()}", verify(base + b"s", 4, data)


def messages(base, first):
    """A message of each tag, signed under the base by the keys from `first` on."""
    here = subjects(base)
    second = here["notarize"][:2] + b"\x04" + here["notarize"][3:]
    votes = {kind: vote(base, 1, kind, here[kind], first) for kind in KINDS}
    seconds = {kind: vote(base, 1, kind, second, first) for kind in ("notarize", "finalize")}
    listed = {kind: certificate(base, (0, 1, 2), kind, here[kind], first) for kind in KINDS}
    yield b"\x00" + votes["notarize"]
    yield b"\x01" + listed["notarize"]
    yield b"\x02" + listed["notarize"]
    yield b"\x03" + votes["nullify"]
    yield b"\x04" + listed["nullify"]
    yield b"\x05" + votes["finalize"]
    yield b"\x06" + listed["finalize"]
    yield b"\x07" + votes["notarize"] + seconds["notarize"]
    yield b"\x08" + votes["finalize"] + seconds["finalize"]
    yield b"\x09" + votes["nullify"] + votes["finalize"]


def vectors_of_strangers():
    """Each message, valid where it was signed, asked there and of another base or of other keys."""
    places = ((b"test", 0), (b"tests", 0), (b"test", 4))
    for base, first in places:
        for data in messages(base, first):
            for there, keys in places:
                numbers = "4" if keys == 0 else f"{keys}+4"
                yield f"verify {there.hex()}:{numbers} {data.hex()}", verify(there, 4, data, keys)
    here = subjects(b"test")["nullify"]
    yield f"sign 74657374:4+4/1 nullify {here.hex()}", vote(b"test", 1, "nullify", here, 4).hex()
    for word in ("4+0", "+4", "4+", "4294967295+1", "1+2+3", "4+4/4"):
        yield f"sign 74657374:{word} nullify 000a", "no row"
    yield "sign 74657374:4294967294+1/0 nullify 000a", vote(b"test", 0, "nullify", b"\x00\x0a", 2**32 - 2).hex()


def values(base):
    """A value of each kind of `read` that has one."""
    here = subjects(base)
    votes = {kind: vote(base, 1, kind, here[kind]) for kind in KINDS}
    lists = {kind: certificate(base, (1, 3), kind, here[kind]) for kind in KINDS}
    second = here["notarize"][:2] + b"\x04" + here["notarize"][3:]
    kinds = {
        "proposal": here["notarize"],
        "attestation": votes["nullify"][2:],
        "listed": lists["nullify"][2:],
        **votes,
        "notarization": lists["notarize"],
        "nullification": lists["nullify"],
        "finalization": lists["finalize"],
        "vote": b"\x02" + votes["finalize"],
        "certificate": b"\x01" + lists["nullify"],
        "artifact": b"\x02\x00\x0a\x01",
        "conflicting-notarize": votes["notarize"] + vote(base, 1, "notarize", second),
        "conflicting-finalize": votes["finalize"] + vote(base, 1, "finalize", second),
        "nullify-finalize": votes["nullify"] + votes["finalize"],
        "activity": b"\x09" + votes["nullify"] + votes["finalize"],
    }
    prefix = "" if base is None else "plain-"
    return {prefix + kind: data for kind, data in kinds.items()}


def vectors_of_reading():
    plain, marked = values(b"test"), values(None)
    alone = {
        "epoch": number(333),
        "view": number(2**64 - 1),
        "participant": number(2**32 - 1),
        "round": b"\xcd\x02\x0a",
        "context": b"\x00\x0a" + b"\x01" * 32 + b"\x05" + b"\x02" * 32,
    }
    everything = {**alone, **marked, **plain}
    for kind, data in everything.items():
        yield f"decode {kind} 4 {data.hex()}", decode(kind, 4, data)
        yield f"read {kind} 4 {data.hex()}07", decode(kind, 4, data) + ", left 1"
    for kind, data in everything.items():
        yield f"decode {kind} 4 {data.hex()}07", decode(kind, 4, data + b"\x07")
        yield f"decode {kind} 4 {data[:-1].hex()}".strip(), decode(kind, 4, data[:-1])
    for kind, data in everything.items():
        yield f"cut {kind} 4 {data.hex()}", cut(kind, 4, data)
    for kind in ("artifact", "activity", "certificate", "plain-vote"):
        for tag in range(11):
            data = bytes([tag]) + values(b"test" if "-" in kind else None)["plain-vote" if "-" in kind else "vote"][1:]
            yield f"cut {kind} 4 {data.hex()}", cut(kind, 4, data)


def vectors_of_batching():
    here = b"\x00\x0a\x05\x06"
    good = [vote(None, i, "notarize", here) for i in range(4)]
    bad, other = good[3][:-1] + b"\x00", vote(None, 3, "notarize", b"\x00\x0a\x05\x07")
    outside = vote(None, 4, "notarize", here)
    for n, proposal, votes in (
        (4, here, good),
        (4, here, [good[2], good[2], good[0], good[0], good[3], good[1]]),
        (4, here, [bad, good[3], other, good[0], outside, good[1]]),
        (4, here, [other, bad, good[0], good[1]]),
        (4, here, [good[0] + b"\x07", good[0][:-1], good[0]]),
        (1, here, [good[1], good[0]]),
        (4, here, []),
        (4, here[:-1], [good[0]]),
        (4, here + b"\x00", [good[0]]),
    ):
        words = " ".join(data.hex() for data in [proposal, *votes])
        yield f"batch {n} {words}", batch(n, proposal, votes)


def vectors_of_resolving():
    here, there = b"\x00\x0a\x05\x06", b"\x00\x0b\x0a\x07"
    good, more = (certificate(None, range(3), "notarize", one) for one in (here, there))
    few, bad = certificate(None, range(2), "notarize", there), good[:-1] + b"\x00"
    for n, data in (
        (4, bad + good + few + more + bad),
        (4, good + good),
        (4, few + bad),
        (4, b""),
        (4, good + more[:-1]),
        (7, good + certificate(None, range(5), "notarize", there)),
    ):
        yield f"resolve {n} {data.hex()}".strip(), resolve(n, data)


def vectors_of_following():
    def of(view, payload, signers=(0, 1, 2)):
        return certificate(None, signers, "finalize", b"\x00" + number(view) + b"\x05" + payload)

    taken, later, fork = of(10, b"\x06"), of(300, b"\x06"), of(10, b"\x07", (1, 2, 3))
    few, bad = of(11, b"\x06", (0, 1)), taken[:-1] + b"\x00"
    parent = b"\x00\x0a\x04" + taken[3:]
    for n, finalizations in (
        (4, [taken, taken, later, taken]),
        (4, [taken, of(10, b"\x06", (1, 2, 3)), fork, later, fork]),
        (4, [few, bad, taken, few, bad]),
        (4, [fork, taken, parent]),
        (4, [taken + b"\x00", taken[:-1], taken]),
        (7, [taken, of(10, b"\x06", range(5)), of(10, b"\x07", (0, 2, 4, 5, 6))]),
        (1, [of(1, b"\x06", (0,)), of(1, b"\x07", (0,))]),
        (4, []),
    ):
        yield f"follow {n} {' '.join(data.hex() for data in finalizations)}".strip(), follow(n, finalizations)


def vectors_of_storing():
    def loose(signer, kind, subject):
        return bytes([{"notarize": 0, "nullify": 3, "finalize": 5}[kind]]) + vote(None, signer, kind, subject)

    here, there, at = b"\x00\x0a\x05\x06", b"\x00\x0a\x05\x07", b"\x00\x0a"
    both = loose(1, "notarize", here) + loose(1, "notarize", there)
    final = loose(2, "finalize", here) + loose(2, "nullify", at) + loose(2, "finalize", there)
    early = loose(3, "notarize", b"\x00\x03\x02\x06") + loose(3, "notarize", b"\x00\x03\x01\x06")
    first = b"\x06" + certificate(None, (0, 1, 2), "finalize", here)
    second = b"\x06" + certificate(None, (1, 2, 3), "finalize", there)
    shown = b"\x07" + vote(None, 1, "notarize", here) + vote(None, 1, "notarize", there)
    for n, pieces in (
        (4, [both]),
        (4, [both[:3], both[3:9], both[9:]]),
        (4, [final, both, early]),
        (4, [first + second]),
        (4, [first, loose(0, "nullify", at), second]),
        (4, [shown, shown]),
        (4, [loose(1, "notarize", here), loose(1, "notarize", here), loose(0, "notarize", there)]),
        (4, [loose(1, "notarize", here) + both[-6:-1] + b"\x00"]),
        (4, [both, b"\x0a", final]),
        (4, []),
    ):
        yield f"store {n} {' '.join(data.hex() for data in pieces)}".strip(), store(str(n), pieces)


def round_messages(epoch, view):
    """Messages of a round: votes of the first three of four, a certificate of each kind by them or by the last three, and by name
    those that change something or nothing of a report."""
    at = number(epoch) + number(view)
    here, there, third = (at + b"\x05" + payload for payload in (b"\x06", b"\x07", b"\x08"))
    first, last = (0, 1, 2), (1, 2, 3)
    return {
        "votes": b"".join(b"\x00" + vote(None, i, "notarize", here) for i in first),
        "bad": b"\x00" + vote(None, 3, "notarize", here)[:-1] + b"\xbb",
        "outside": b"\x00" + vote(None, 9, "notarize", here),
        "second": b"\x00" + vote(None, 2, "notarize", there),
        "third": b"\x00" + vote(None, 2, "notarize", third),
        "nullify": b"\x03" + vote(None, 1, "nullify", at),
        "finalize": b"\x05" + vote(None, 1, "finalize", here),
        "evidence": b"\x08" + vote(None, 3, "finalize", here) + vote(None, 3, "finalize", there),
        "notarization": b"\x01" + certificate(None, first, "notarize", here),
        "certification": b"\x02" + certificate(None, last, "notarize", here),
        "other": b"\x01" + certificate(None, last, "notarize", there),
        "few": b"\x01" + certificate(None, (0, 3), "notarize", here),
        "junk": b"\x06" + here + b"\x04\x00\xbb\x01\xbb\x02\xaa\x03\xbb",
        "nullification": b"\x04" + certificate(None, last, "nullify", at),
        "finalization": b"\x06" + certificate(None, first, "finalize", here),
    }


def streams_of_rounds():
    """Streams of several rounds in pieces, each with its committees and with floors around its rounds."""
    low, high, far = round_messages(0, 9), round_messages(0, 300), round_messages(1, 2)
    names = ("votes", "bad", "notarization", "second", "third", "certification", "nullify", "finalize", "junk", "other", "evidence")
    all_of = [[low[name], high[name], far[name]] for name in (*names, "outside", "few", "nullification", "finalization")]
    floors = [(0, 0), (0, 9), (0, 10), (0, 300), (0, 301), (1, 0), (1, 2), (1, 3), (2, 0), (2**64 - 1, 2**64 - 1)]
    for who in ("4", "0:4,1:4", "1:4", "0:4,1:7"):
        yield who, floors, [b"".join(of_name) for of_name in all_of]
    for one, other in (("notarization", "other"), ("other", "certification"), ("nullification", "finalization")):
        for messages in ([low[one], low[other]], [low[other], high[other], low[one], high[one], low["votes"]]):
            yield "4", floors[:5], messages
    for name in ("few", "junk", "bad", "outside", "third", "evidence"):
        yield "4", floors[1:3], [low[name] + low[name], low["notarization"], low[name]]
    for end in (b"\x00", b"\x0a", high["votes"][:5]):
        yield "4", floors[:3], [low["votes"], low["second"] + end]
    yield "4", floors[:2], []
    whole = low["votes"] + high["second"]
    yield "4", floors[2:3], [whole[:4], whole[4:11], whole[11:]]


def vectors_of_floors():
    """Reports and compactions from a floor of rounds on. What a compaction leaves is compacted again."""
    for who, floors, pieces in streams_of_rounds():
        for floor in floors:
            words = f"{who} {floor[0]} {floor[1]}"
            yield f"prune {words} {' '.join(data.hex() for data in pieces)}".strip(), prune(who, floor, pieces)
            yield f"listen {words} {' '.join(data.hex() for data in pieces)}".strip(), listen(who, floor, pieces)
            stream = b"".join(pieces)
            for _ in range(2):
                answer = compact(who, floor, stream)
                yield f"compact {words} {stream.hex()}".strip(), answer
                stream = bytes.fromhex(answer.split(";")[0])
    for words in ("4 0", "4 0 -1", "4 0 18446744073709551616", "0 0 0", "1:4,0:4 0 0", "4 0 0 0"):
        yield f"prune {words}", "no row"
        yield f"listen {words}", "no row"
        yield f"compact {words}", "no row"


def vectors_of_hearing():
    numbers = [
        (8, 10, 2, length, ahead, certified, view)
        for length, ahead in ((1, 0), (5, 0), (5, 2), (20, 2))
        for certified, view in ((9, 10), (9, 11), (9, 13), (10, 11), (10, 13), (12, 16), (14, 16))
    ]
    most = 2**64 - 1
    numbers += [
        (8, 10, 2, 20, 2, 4, 5),
        (8, 10, 2, 20, 2, 5, 6),
        (8, 10, 2, 20, 2, 0, 0),
        (8, most - 4, 2, 1, 0, most - 5, most - 4),
        (8, most - 2, 2, 1, 0, most - 5, most - 4),
        (8, 10, 2, 20, 2, most, 11),
        (8, 10, 2, 20, 2, most - 1, most),
    ]
    for one in numbers:
        yield f"hear {' '.join(map(str, one))}", hear(*one)


def vectors_of_cuts(worked):
    """A vector of `cut` for each value that a vector of `read` reads, and for each message of a vector of `audit`, `feed` or `verify`."""
    for vector in worked:
        form, *words = vector.split()
        if form == "read":
            kind, bound, data = words[0], int(words[1]), bytes.fromhex("".join(words[2:]))
            reader = Reader(data, kind.startswith("plain-"), bound)
            try:
                reader.kind(kind.removeprefix("plain-"))
            except Refused:
                continue
            values = [(kind, bound, data[: len(data) - len(reader.data)])]
        elif form in ("audit", "feed") or form == "verify" and ":" not in words[0]:
            bound = max(int(one.split(":")[-1]) for one in words[0].split(","))
            values = [("activity", bound, one) for one in messages_in(bound, bytes.fromhex("".join(words[1:])))]
        else:
            continue
        for kind, bound, data in values:
            yield f"cut {kind} {bound} {data.hex()}", cut(kind, bound, data)


def vectors_of_streams():
    """Streams of a committee of four that stop at a tag, alone or behind a message, or are cut off."""
    vote = "00000a050601aa"
    tags = [f"{tag:02x}" for tag in range(256)]
    behind = [f"{vote}{tag}{rest}" for tag in tags[10:] for rest in ("00", "000a01aa", vote)]
    whole = "01000a05060300aa01aa02aa01000a05070301aa02aa03aa"
    for stream in tags + behind + [whole[: 2 * end] for end in range(len(whole) // 2)]:
        yield f"audit 4 {stream}".strip(), audit("4", bytes.fromhex(stream))


def vectors_of_pieces(worked):
    """A vector of `feed` for each vector of `audit` with a committee: a byte a piece, and cut in two at each byte."""
    for vector in worked:
        form, *words = vector.split()
        if form != "audit" or bound_of(words[0]) == 0:
            continue
        who, stream = words[0], bytes.fromhex("".join(words[1:]))
        cuts = [(stream[:end], stream[end:]) for end in range(1, len(stream))]
        for pieces in [[bytes([byte]) for byte in stream], *cuts]:
            yield f"feed {who} {' '.join(piece.hex() for piece in pieces)}".strip(), feed(who, pieces)


def vectors():
    yield from vectors_of_names()
    for base in (None, b"test"):
        yield from vectors_of_signing(base)
        yield from vectors_of_the_first_view(base)
        yield from vectors_of_assembling(base)
        yield from vectors_of_many(base)
        yield from vectors_of_verifying(base)
    yield from vectors_of_strangers()
    yield from vectors_of_reading()
    yield from vectors_of_batching()
    yield from vectors_of_resolving()
    yield from vectors_of_following()
    yield from vectors_of_storing()
    yield from vectors_of_floors()
    yield from vectors_of_hearing()
    yield from vectors_of_streams()
    if len(sys.argv) > 3:
        with open(sys.argv[3]) as worked:
            worked = worked.read().splitlines()
        yield from vectors_of_cuts(worked)
        yield from vectors_of_pieces(worked)


def main():
    seen = set()
    with open(sys.argv[1], "w") as questions, open(sys.argv[2], "w") as answers:
        for vector, answer in vectors():
            if vector not in seen:
                seen.add(vector)
                questions.write(vector + "\n")
                answers.write(answer + "\n")


if __name__ == "__main__":
    main()
