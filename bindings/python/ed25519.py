"""Four participants sign votes by Ed25519 of OpenSSL's libcrypto. One notarizes two payloads, one nullifies a round and
finalizes in it, and one forges a vote of another. The caller verifies each vote, writes the stream with its verdicts, and asks
who equivocated. Then it defers verification: of the same votes behind an honest round it verifies only those of suspects. With
an argument the program prints the first stream, and nothing else."""
import ctypes
import ctypes.util
import sys

from simplex_audit import Committees, Encoder, Vote, audit, audit_deferred, records

ED25519 = 1087
_crypto = ctypes.CDLL(ctypes.util.find_library("crypto"))
_data, _size, _any = ctypes.c_char_p, ctypes.c_size_t, ctypes.c_void_p
for _name, _types, _answer in (
    ("EVP_PKEY_new_raw_private_key", [ctypes.c_int, _any, _data, _size], _any),
    ("EVP_PKEY_new_raw_public_key", [ctypes.c_int, _any, _data, _size], _any),
    ("EVP_PKEY_get_raw_public_key", [_any, _data, ctypes.POINTER(_size)], ctypes.c_int),
    ("EVP_PKEY_free", [_any], None),
    ("EVP_MD_CTX_new", [], _any),
    ("EVP_MD_CTX_free", [_any], None),
    ("EVP_DigestSignInit", [_any] * 5, ctypes.c_int),
    ("EVP_DigestSign", [_any, _data, ctypes.POINTER(_size), _data, _size], ctypes.c_int),
    ("EVP_DigestVerifyInit", [_any] * 5, ctypes.c_int),
    ("EVP_DigestVerify", [_any, _data, _size, _data, _size], ctypes.c_int),
):
    _call = getattr(_crypto, _name)
    _call.argtypes, _call.restype = _types, _answer


def public_key(secret):
    key, size = ctypes.create_string_buffer(32), ctypes.c_size_t(32)
    pair = _crypto.EVP_PKEY_new_raw_private_key(ED25519, None, secret, 32)
    assert _crypto.EVP_PKEY_get_raw_public_key(pair, key, ctypes.byref(size)) == 1
    _crypto.EVP_PKEY_free(pair)
    return key.raw


def sign(secret, message):
    signature, size = ctypes.create_string_buffer(64), ctypes.c_size_t(64)
    pair, context = _crypto.EVP_PKEY_new_raw_private_key(ED25519, None, secret, 32), _crypto.EVP_MD_CTX_new()
    assert _crypto.EVP_DigestSignInit(context, None, None, None, pair) == 1
    assert _crypto.EVP_DigestSign(context, signature, ctypes.byref(size), message, len(message)) == 1
    _crypto.EVP_MD_CTX_free(context)
    _crypto.EVP_PKEY_free(pair)
    return signature.raw


def verifies(key, message, signature):
    public, context = _crypto.EVP_PKEY_new_raw_public_key(ED25519, None, key, 32), _crypto.EVP_MD_CTX_new()
    started = _crypto.EVP_DigestVerifyInit(context, None, None, None, public) == 1
    verified = started and _crypto.EVP_DigestVerify(context, signature, 64, message, len(message)) == 1
    _crypto.EVP_MD_CTX_free(context)
    _crypto.EVP_PKEY_free(public)
    return verified


def main():
    base = b"demo"
    secrets = [bytes([i, 42]) + bytes(30) for i in range(4)]
    keys = [public_key(secret) for secret in secrets]

    def verify(vote, signer, signature):
        return signer < len(keys) and verifies(keys[signer], vote.signed_bytes(base), signature)

    one, other = (3, 10, 5, b"\xaa" * 32), (3, 10, 5, b"\xbb" * 32)
    # each vote, its signer, and whose secret key signs it
    votes = [(Vote("notarize", *one), i, i) for i in range(4)]
    votes += [
        (Vote("notarize", *other), 0, 0),  # participant 0 votes for another payload
        (Vote("notarize", *other), 3, 1),  # participant 1 forges a vote of participant 3
        (Vote("nullify", 3, 10), 2, 2),  # participant 2 nullifies the round
        (Vote("finalize", *one), 2, 2),  # and finalizes in it
        (Vote("finalize", *one), 1, 1),
    ]

    def write(stream, votes, verify=None):
        for vote, signer, by in votes:
            stream.vote(vote, signer, sign(secrets[by], vote.signed_bytes(base)), verify)

    committees, stream = Committees.listed(64, {3: len(keys)}), Encoder(64)
    write(stream, votes, verify)
    if sys.argv[1:]:
        sys.stdout.buffer.write(stream.encoded())
        return
    report = audit(committees, stream.encoded())
    print(f"{report.read} messages, {len({one.signer for one in report.evidence})} equivocators")
    print(report.text, end="")
    for one in records(committees, stream.encoded()):
        print(f"votes of participant {one.signer} at bytes {one.first_place} and {one.second_place}")
        # whoever is shown the two votes can verify them
        assert all(verify(it.vote, it.signer, it.signature) for it in (one.first, one.second))

    # the same votes behind an honest round, with nothing verified yet
    verified = []

    def deferred(vote, signer, signature):
        verified.append(vote)
        return verify(vote, signer, signature)

    stream = Encoder(64)
    write(stream, [(Vote("notarize", 3, 9, 5, b"\xaa" * 32), i, i) for i in range(4)])
    honest = audit_deferred(committees, stream.encoded(), deferred)
    print(f"deferred: {len(verified)} of {honest.read} signatures of an honest round verified")
    write(stream, votes)
    both = audit_deferred(committees, stream.encoded(), deferred)
    assert both.text == report.text
    print(f"deferred: {len(verified)} of {both.read} signatures of both rounds verified")


if __name__ == "__main__":
    main()
