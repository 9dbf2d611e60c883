#!/usr/bin/env python3
"""Writes the input of the program book_vectors: every edge of every range, damaged and odd lines,
and a long mixed day over few trains and sections. The same each time."""
import random
import sys

out = sys.stdout.buffer
rng = random.Random(20261117)


def put(train, section, enter, leave):
    return b"\x01" + train.to_bytes(4, "big") + section.to_bytes(2, "big") + enter.to_bytes(4, "big") + leave.to_bytes(4, "big")


def withdrawal(train, section):
    return b"\x02" + train.to_bytes(4, "big") + section.to_bytes(2, "big")


def line(letter, upper=True):
    text = letter.hex() if letter else "-"
    out.write((text.upper() if upper else text).encode() + b"\n")


def raw(data):
    out.write(data + b"\n")


TRAINS = [0, 1, 2, 255, 256, 65_535, 65_536, 999_998, 999_999, 1_000_000, 2**24, 2**32 - 1]
SECTIONS = [0, 1, 2, 255, 256, 9_998, 9_999, 10_000, 65_535]
TIMES = [0, 1, 255, 256, 65_536, 172_797, 172_798, 172_799, 172_800, 2**24, 2**32 - 1]

# each value at its edges, the others in range; then withdrawn again, so that the book never fills
for train in TRAINS:
    line(put(train, 5, 10, 20))
    line(withdrawal(train, 5), upper=False)
for section in SECTIONS:
    line(put(5, section, 10, 20), upper=False)
    line(withdrawal(5, section))
for enter in TIMES:
    for leave in TIMES:
        line(put(5, 10, enter, leave))
line(withdrawal(5, 10))
for train in TRAINS:
    for section in SECTIONS:
        line(withdrawal(train, section))

# every kind at every length around its own, and the longest letters
for kind in [0, 1, 2, 3, 255]:
    for size in [1, 2, 6, 7, 8, 14, 15, 16, 47, 48, 49]:
        line((bytes([kind]) + put(7, 7, 7, 8)[1:] + bytes(48))[:size])
line(b"")
line(bytes(1000))

# lines that are no hex, and lines that print nothing
for text in [b"0", b"012", b"0G", b"g0", b"0x01", b"01 02", b"--", b"- -", b"+1", b"01-", b"\xff\xfe", b"\xc3\xa9",
             b"\x00", b"01\x00", b"@0", b"`0", b"/0", b":0", b"0@", b"0`", b"0/", b"0:", b"[0", b"{0", b"text"]:
    raw(text)
for text in [b"", b"   ", b"\t", b"\r", b"# a comment", b"#0102", b"  # indented"]:
    raw(text)
raw(b"  0200000005000A  ")
raw(b"0200000005000a\r")
raw(b"\t-\t")

# 31, 32 and 33 paths, in an order that is not theirs; then replacing, withdrawing and adding in a full book
pairs = [(train, section) for train in (3, 1, 2) for section in (9, 300, 4, 77, 5, 6, 1000, 8, 1, 2, 3)]
for train, section in pairs:
    line(put(train, section, train, section + 10))
line(put(*pairs[4], 0, 1))
line(put(9, 9, 0, 1))
line(withdrawal(9, 9))
line(put(9, 9, 0, 1))
line(withdrawal(*pairs[7]))
line(put(9, 9, 0, 1))
line(put(*pairs[7], 0, 1))
line(withdrawal(9, 9))
line(put(*pairs[7], 2, 3))
line(bytes([9]))

# a long mixed day
for _ in range(2_500):
    train, section = rng.randint(1, 7), rng.randint(1, 7)
    choice = rng.random()
    if choice < 0.6:
        enter = rng.randint(0, 172_799)
        line(put(train, section, enter, enter + rng.randint(0, 5_000)), rng.random() < 0.5)
    elif choice < 0.85:
        line(withdrawal(train, section), rng.random() < 0.5)
    else:
        line(bytes(rng.randrange(256) for _ in range(rng.randint(1, 20))))
