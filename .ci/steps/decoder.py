"""A decoder of streams, by which steps judge programs: what messages are in one, what is valid in them, and its fault."""

import json

from .common import ROOT, module

streams = module(ROOT / "bench/streams.py")
streams.take("test", [])
KINDS = ("notarize", "notarization", "certification", "nullify", "nullification", "finalize", "finalization")
EVIDENCE = {
    7: ("conflicting-notarize", "notarize", "notarize"),
    8: ("conflicting-finalize", "finalize", "finalize"),
    9: ("nullify-finalize", "nullify", "finalize"),
}
SUBJECT = {"notarization": "notarize", "certification": "notarize", "nullification": "nullify", "finalization": "finalize"}
REFUSED = {
    7: "ConflictingNotarize: invalid conflicting notarize",
    8: "ConflictingFinalize: invalid conflicting finalize",
    9: "NullifyFinalize: mismatched signatures",
}


class Refused(Exception):
    """A refusal, by its name."""


class Reader:
    """Reads the parts of messages with payloads and signatures of so many bytes each, or other signatures."""

    def __init__(self, data, at, size, bound, signed=None):
        self.data, self.at, self.size, self.bound, self.signed = data, at, size, bound, signed or size

    def take(self, count):
        if len(self.data) - self.at < count:
            raise Refused("EndOfBuffer")
        self.at += count
        return self.data[self.at - count : self.at]

    def number(self, bits=64):
        value = place = 0
        while True:
            byte = self.take(1)[0]
            value |= byte % 128 << place
            place += 7
            if value >> bits or (place >= bits and byte >= 128) or (byte == 0 and place > 7):
                raise Refused("InvalidVarint")
            if byte < 128:
                return value

    def statement(self, vote):
        epoch, view = self.number(), self.number()
        said = {"vote": vote}
        if vote != "nullify":
            said |= {"parent": self.number(), "payload": self.payload()}
        return (epoch, view), said

    def payload(self):
        return self.take(self.size)

    def attestation(self):
        signer = self.number(32)
        return {"signer": signer, "signature": self.signature(signer)}

    def signature(self, signer):
        return self.take(self.signed)

    def vote(self, vote):
        place, said = self.statement(vote)
        return place, said | {"signatures": [self.attestation()]}

    def certificate(self, vote):
        place, said = self.statement(vote)
        count, listed = self.number(32), []
        if not 1 <= count <= self.bound:
            raise Refused("Invalid simplex_messages::Listed: count out of range")
        for _ in range(count):
            listed.append(self.attestation())
            if listed[-1]["signer"] >= self.bound or listed[1:] and listed[-2]["signer"] >= listed[-1]["signer"]:
                raise Refused("Invalid simplex_messages::Listed: signers out of order or range")
        return place, said | {"signatures": listed}

    def message(self):
        """Its kind, its round and its statements."""
        tag = self.take(1)[0]
        if tag in EVIDENCE:
            kind, *votes = EVIDENCE[tag]
            (place, one), (other, two) = (self.vote(vote) for vote in votes)
            signers = one["signatures"][0]["signer"], two["signatures"][0]["signer"]
            same = tag != 9 and (one["parent"], one["payload"]) == (two["parent"], two["payload"])
            if place != other or signers[0] != signers[1] or same:
                raise Refused("Invalid consensus::simplex::" + REFUSED[tag])
            return kind, place, [one, two]
        if tag >= len(KINDS):
            raise Refused("Invalid consensus::simplex::Activity: Invalid type")
        kind = KINDS[tag]
        place, said = self.certificate(SUBJECT[kind]) if kind in SUBJECT else self.vote(kind)
        return kind, place, [said]


def decoded(data, size, bound, signed=None):
    """The messages of a stream, each with its offset and length, and the fault: its place and its name, or nothing."""
    messages, at = [], 0
    while at < len(data):
        reader = Reader(data, at, size, bound, signed)
        try:
            message = reader.message()
        except Refused as refusal:
            return messages, (at, str(refusal))
        messages.append((at, reader.at - at, message))
        at = reader.at
    return messages, None


class Committees:
    """How many participants judge an epoch; participant i has the key of the number i, of the base `test`."""

    def __init__(self, who):
        self.every = None if ":" in who else int(who)
        self.of = {} if self.every else dict(tuple(map(int, pair.split(":"))) for pair in who.split(","))
        self.bound = self.every or max(self.of.values())

    def size(self, epoch):
        return self.every or self.of.get(epoch, 0)

    def words(self):
        if self.every:
            return ["test", *keys(self.every)]
        return ["test", *(word for epoch, size in sorted(self.of.items()) for word in (f"@{epoch}", *keys(size)))]

    def takes(self, place, said, one):
        """Whether the signature of a participant is valid."""
        return one["signature"] == signature(place, said, one["signer"])


class Counted(Committees):
    """Committees by their numbers of participants, for signatures that end in the caller's verdict."""

    def words(self):
        if self.every:
            return [str(self.every)]
        return [word for epoch, size in sorted(self.of.items()) for word in (f"@{epoch}", str(size))]

    def takes(self, place, said, one):
        return one["signature"][-1] == 1


def keys(count):
    return [streams.key(i).hex() for i in range(count)]


def signed(place, said):
    """The name and the message that are signed."""
    message = streams.number(place[0]) + streams.number(place[1])
    if said["vote"] != "nullify":
        message += streams.number(said["parent"]) + said["payload"]
    return streams.BASE + b"_" + said["vote"].upper().encode(), message


def signature(place, said, signer):
    name, message = signed(place, said)
    return streams.attestation(name, signer, message)[-32:]


def verdict(valid, *reasons):
    return {"valid": True} if valid else {"valid": False, "why": next(why for when, why in reasons if when)}


def judged(place, said, committees):
    """A statement with what is valid in it."""
    size = committees.size(place[0])
    listed = [
        one | verdict(
            one["signer"] < size and committees.takes(place, said, one),
            (size == 0, "no committee for the epoch"),
            (one["signer"] < size, "signature does not verify"),
            (True, "signer outside the committee"),
        )
        for one in said["signatures"]
    ]
    return said | {"signatures": listed}


def shown(messages, fault, data, committees):
    """The lines of `inspect`."""
    for at, length, (kind, place, statements) in messages:
        if committees:
            size = committees.size(place[0])
            quorum = size - (size - 1) // 3 if size else 0
            statements = [judged(place, said, committees) for said in statements]
            if kind in SUBJECT:
                listed = statements[0]["signatures"]
                few = len(listed) < quorum
                statements[0] |= verdict(
                    size > 0 and not few and all(one["valid"] for one in listed),
                    (size == 0, "no committee for the epoch"),
                    (few, "fewer signatures than a quorum"),
                    (True, "a listed signature is not valid"),
                )
        head = {"offset": at, "length": length, "kind": kind, "epoch": place[0], "view": place[1]}
        yield json.dumps(head | {"statements": statements}, separators=(",", ":"), default=bytes.hex)
    if fault:
        at, name = fault
        yield json.dumps({"offset": at, "fault": name, "next": data[at : at + 16].hex()}, separators=(",", ":"))


class Transcriber(Reader):
    """Reads messages of marked committees, and writes them with payloads of 32 bytes and other signatures: `sign(place, said,
    signer, mark)` gives that of a vote. What is refused is written so too, up to where it is refused."""

    def __init__(self, data, bound, sign):
        super().__init__(data, 0, 1, bound)
        self.sign, self.written, self.now = sign, bytearray(), None

    def take(self, count):
        taken = super().take(count)
        self.written += taken
        return taken

    def payload(self):
        payload = super().take(1) * 32
        self.written += payload
        return payload

    def statement(self, vote):
        self.now = super().statement(vote)
        return self.now

    def signature(self, signer):
        mark = super().take(1)
        self.written += self.sign(*self.now, signer, mark)
        return mark


def transcribed(data, bound, sign):
    """A stream of marked committees written anew, its messages, each with its offset there, and the fault: its offset there,
    its offset in the stream as it was, and its name, or nothing."""
    writer, messages = Transcriber(data, bound, sign), []
    while writer.at < len(data):
        at, start = writer.at, len(writer.written)
        try:
            messages.append((start, writer.message()))
        except Refused as refusal:
            return bytes(writer.written) + data[writer.at :], messages, (start, at, str(refusal))
    return bytes(writer.written), messages, None


def plainly(place, said, signer, mark):
    """The signature of the plain scheme, where the mark is that of a valid one."""
    return signature(place, said, signer) if mark == b"\xaa" else mark * 32
