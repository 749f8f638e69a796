"""Puts test vectors to the static library as it is built, and compares with the stored answers what its exports return.

The Python module calls them by `ctypes`.

The stream of a vector of `audit`, `feed` or `store` is written anew with payloads of 32 bytes, and with signatures of 48, 64
and 96 bytes and verdicts, and under the plain scheme. Then

- `simplex_audit_..` returns the number of messages, the lines and the fault's offset of the answer;
- `simplex_records_..` returns the same evidence, with the offsets of the first messages that carry its votes, and the two
  votes at their offsets alone have its line as their report;
- what `simplex_suspects_..` lists is verified, in a stream without verdicts, and an audit of that says the same;
- what `simplex_store_..` writes has the same evidence; of a vector of `store` it is the stored messages of the answer;
- where the answer is that a vector has no committees, the exports refuse them.

Vectors of `admits`, `outbound`, `floor` and `leader` are put to the exports of these. Each vector of these forms is compared,
and fewer than there are as of now are a failure.
"""

from .common import ROOT, fail, module, vectors
from .decoder import EVIDENCE, Committees, plainly, transcribed
from .decoder import streams as model

if not (ROOT / "bindings/out/simplex_audit.so").exists():
    fail("There is no bindings/out/simplex_audit.so yet: make library")
c = module(ROOT / "bindings/python/simplex_audit")
LEAST = {"audit": 1303, "feed": 2127, "store": 10, "admits": 219, "outbound": 117, "floor": 105, "leader": 318}
STREAMS = ("audit", "feed", "store")
SIZES = (48, 64, 96)
VALID = b"\xaa"


def vouched(size, verified=True):
    """How signatures are written for a caller that verifies them, with verdicts or before it has verified any."""
    return lambda place, said, signer, mark: mark * size + bytes([verified and mark == VALID])


def committees(who):
    """The committees of a vector, each with how its stream is written: for each size of signatures, and under the plain
    scheme."""
    listed = [tuple(map(int, pair.split(":"))) for pair in who.split(",")] if ":" in who else []
    epochs, sizes = [epoch for epoch, _ in listed], [size for _, size in listed] or [int(who)]
    for size in SIZES:
        yield c.Committees(size, epochs, sizes), size, vouched(size)
    keys = b"".join(model.key(i) for many in sizes for i in range(many))
    yield c.Committees(None, epochs, sizes, b"test", keys), None, plainly


def longer(line):
    """A line of an answer with payloads of 32 bytes: those of evidence are its last word, and the one two words before it."""
    words = line.split()
    if words[2] != "split":
        words[5::2] = [word * 32 for word in words[5::2]]
    return " ".join(words)


def places(line, messages):
    """Where the votes of a line of evidence stand: the offsets of the first messages that carry them."""
    epoch, view, signer, kind, *proposals = line.split()
    by = {"signer": int(signer), "signature": VALID}
    for vote in next(votes for name, *votes in EVIDENCE.values() if name == kind):
        said = {"vote": vote}
        if vote != "nullify":
            parent, payload, *proposals = proposals
            said |= {"parent": int(parent), "payload": bytes.fromhex(payload)}
        here = [(at, statements) for at, (_, place, statements) in messages if place == (int(epoch), int(view))]
        yield next(at for at, statements in here if carries(statements, said, by))


def carries(statements, said, by):
    """Whether statements of a message have a vote, by its words and its signer and signature."""
    return any({**it, **said} == it and by in it["signatures"] for it in statements)


def refused(call):
    """Whether a call says that its arguments are invalid."""
    try:
        call()
    except ValueError:
        return True
    return False


def audits(who, data, answer):
    """What differs from the answer to an audit."""
    read, *lines = answer.split("; ")
    fault = lines.pop() if lines and lines[-1].startswith("fault at ") else None
    lines = [longer(line) for line in lines]
    evidence = [line for line in lines if line.split()[2] != "split"]
    bound = Committees(who).bound
    for under, size, sign in committees(who):
        stream, messages, stop = transcribed(data, bound, sign)
        if (read, fault) != (f"read {len(messages)}", stop and f"fault at {stop[1]}: {stop[2]}"):
            return f"the decoder reads {len(messages)} messages, and {stop}"
        report = c.audit(under, stream)
        splits = [f"{it.epoch} {it.view} split {it.named} {it.least}" for it in report.splits]
        told = (report.read, report.fault, [it.line for it in report.evidence] + splits, report.text.splitlines())
        if told != (len(messages), stop and stop[0], lines, lines):
            return f"simplex_audit_..: {told}"
        records = c.records(under, stream)
        found = [(str(it.epoch), str(it.view), str(it.signer), *it[3:6]) for it in records]
        if found != [(*line.split()[:4], *places(line, messages)) for line in evidence]:
            return f"simplex_records_..: {found}"
        proved = [c.audit(under, it.first.message + it.second.message).text for it in records]
        if proved != [line + "\n" for line in evidence]:
            return f"the votes of simplex_records_..: {proved}"
        stored = c.audit(under, c.store(under, b"", stream))
        if (stored.read, stored.evidence, stored.fault) != (len(evidence), report.evidence, None):
            return f"simplex_store_..: {stored}"
        if size:
            unverified = transcribed(data, bound, vouched(size, False))[0]
            deferred = c.audit_deferred(under, unverified, lambda vote, signer, signature: signature == VALID * size)
            if deferred != report:
                return f"simplex_suspects_..: {deferred}"
    return None


def no_committees(who, data):
    """What differs, of a vector whose answer is that its committees are none: the exports refuse them."""
    for under, size, _ in committees(who):
        calls = [lambda: c.audit(under, data), lambda: c.records(under, data)]
        calls.append(lambda: under._store(b"", data))
        if size:
            calls.append(lambda: under._suspects(data))
        if not all(map(refused, calls)):
            return "the committees are not refused"
    return None


def stores(who, data, answer):
    """What differs from the answer to a store: its messages are written anew as well, and a split is in no answer."""
    messages, *lines = answer.split("; ")
    bound = Committees(who).bound
    for under, _, sign in committees(who):
        stream, stored = (transcribed(it, bound, sign)[0] for it in (data, bytes.fromhex(messages)))
        got = c.store(under, b"", stream)
        if got != stored or [it.line for it in c.audit(under, got).evidence] != [longer(line) for line in lines]:
            return f"simplex_store_..: {got.hex()}, to be {stored.hex()}"
    return None


def streams(form, rest, answer):
    """What differs, of a vector with a stream: its first word is WHO, and its bytes are the words behind it, joined."""
    who, data = rest[0], bytes.fromhex("".join(rest[1:]))
    if answer == "no row":
        return no_committees(who, data)
    if form == "store":
        return stores(who, data, answer)
    return audits(who, data, answer.split(" | ")[-1])


def numbers(form, rest, answer):
    """What differs, of a vector of numbers."""
    try:
        if form == "leader":
            participants, seed, *terms = rest
            got = c.leader(int(participants), *map(int, terms), seed=None if seed == "-" else bytes.fromhex(seed))
        else:
            got = {"admits": c.admits, "outbound": c.admits_outbound, "floor": c.issuance_floor}[form](*map(int, rest))
    except ValueError:
        got = "past the end"
    said = "none" if got is None else str(got).lower()
    return None if said == answer else f"{said}, to be {answer}"


def main():
    there, same = dict.fromkeys(LEAST, 0), dict.fromkeys(LEAST, 0)
    for line, answer in vectors():
        form, *rest = line.split() or [""]
        if form not in LEAST:
            continue
        there[form] += 1
        wrong = streams(form, rest, answer) if form in STREAMS else numbers(form, rest, answer)
        if wrong:
            print(f"{line}: {wrong}")
            continue
        same[form] += 1
    print(", ".join(f"{same[form]} of {there[form]} vectors of {form}" for form in LEAST), "have the same answer through C")
    return same != there or any(same[form] < LEAST[form] for form in LEAST)
