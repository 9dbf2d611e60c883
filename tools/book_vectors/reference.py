#!/usr/bin/env python3
"""The book of paths again, written from docs/RULES.md in another language and by other means
(a dictionary, integers from bytes): reads lines from standard input and prints what pathbook has to print.
It shares nothing with the crates, so that its output can be held against theirs."""
import re
import sys

HEX = re.compile(rb"(?:[0-9A-Fa-f]{2})+")


def decode(letter):
    """('put', train, section, enter, leave), ('withdrawal', train, section), or None for a spoilt letter."""
    number = lambda a, b: int.from_bytes(letter[a:b], "big")
    if len(letter) == 15 and letter[0] == 1:
        fields = ("put", number(1, 5), number(5, 7), number(7, 11), number(11, 15))
        if not fields[3] < fields[4] <= 172_799:
            return None
    elif len(letter) == 7 and letter[0] == 2:
        fields = ("withdrawal", number(1, 5), number(5, 7))
    else:
        return None
    return fields if fields[1] in range(1, 1_000_000) and fields[2] in range(1, 10_000) else None


def main():
    paths, spoilt, printed = {}, 0, 0
    for line in sys.stdin.buffer.read().split(b"\n"):
        line = line.strip(b" \t\r\f\n")
        if not line or line.startswith(b"#"):
            continue
        printed += 1
        if line == b"-":
            letter = b""
        elif HEX.fullmatch(line):
            letter = bytes.fromhex(line.decode())
        else:
            print(printed, "error hex")
            continue
        if not 1 <= len(letter) <= 48:
            print(printed, "refused")
            continue
        change = decode(letter)
        if change is None:
            spoilt = min(spoilt + 1, 2**63 - 1)
            print(printed, "spoilt")
        elif change[0] == "withdrawal":
            paths.pop(change[1:], None)
            print(printed, "withdrawal train=%d section=%d" % change[1:])
        elif change[1:3] not in paths and len(paths) == 32:
            print(printed, "refused")
        else:
            paths[change[1:3]] = change[3:]
            print(printed, "put train=%d section=%d enter=%d leave=%d" % change[1:])
    print("spoilt", spoilt)
    for pair in sorted(paths):
        print("path", *pair, *paths[pair])


main()
