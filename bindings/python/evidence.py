"""Judges one piece of evidence by itself, under the plain scheme: `evidence.py FILE NAMESPACE KEY...`

FILE holds one evidence message, such as a ledger stores: its bytes, or these as hexadecimal digits. `-` is standard input. Each
key has 64 hexadecimal digits. Nothing else is needed to check it: FILE, the namespace and the keys are what a third party gets.

If the evidence is proved it prints the line of a report, as `audit` does: epoch, view, signer, kind, and for each proposal its
parent and payload. The status is 0 if it is proved; 1 if one of its signatures is not valid, which it says; and 2 if FILE is no
evidence or the arguments are invalid.
"""
import os
import re
import sys

from simplex_audit import Committees, audit, verify_evidence

NO_EVIDENCE = "evidence: this is not exactly one evidence message"


def read(path):
    """The bytes of a file, or what its digits say."""
    with open(sys.stdin.fileno() if path == "-" else path, "rb") as file:
        data = file.read()
    return bytes.fromhex(data.decode()) if re.fullmatch(rb"[0-9a-fA-F\s]+", data) else data


def main(words):
    try:
        path, namespace, *keys = words
        committees, message = Committees.plain(os.fsencode(namespace), map(bytes.fromhex, keys)), read(path)
    except (OSError, ValueError) as error:
        usage = "usage: evidence.py FILE NAMESPACE KEY..."
        print(f"evidence: {error}" if isinstance(error, OSError) else usage, file=sys.stderr)
        return 2
    it = verify_evidence(committees, message)
    if it is None:
        print(NO_EVIDENCE, file=sys.stderr)
        return 2
    if not it.proved:
        print(f"evidence: not proved: {it.epoch} {it.view} {it.signer} {it.kind}", file=sys.stderr)
        return 1
    print(audit(committees, message).text, end="")
    return 0


if __name__ == "__main__":
    sys.exit(main(sys.argv[1:]))
