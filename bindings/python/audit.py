"""Audits standard input under the plain scheme: `audit.py NAMESPACE KEY... < STREAM`. Each key has 64 hexadecimal digits."""
import os
import re
import sys

from simplex_audit import Committees, audit


def main():
    words = sys.argv[1:]
    try:
        if not all(re.fullmatch("[0-9a-fA-F]{64}", word) for word in words[1:]):
            raise ValueError("a key has 64 hexadecimal digits")
        committees = Committees.plain(os.fsencode(words[0]), map(bytes.fromhex, words[1:]))
        report = audit(committees, sys.stdin.buffer.read())
    except (IndexError, ValueError):
        print("usage: audit NAMESPACE KEY...", file=sys.stderr)
        return 2
    except OSError:
        print("audit: read failed", file=sys.stderr)
        return 3
    except MemoryError:
        print("audit: out of memory", file=sys.stderr)
        return 3
    print(report.text, end="")
    if report.fault is not None:
        print(f"audit: fault at byte {report.fault}", file=sys.stderr)
        return 1
    return 0


if __name__ == "__main__":
    sys.exit(main())
