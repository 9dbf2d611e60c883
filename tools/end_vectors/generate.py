#!/usr/bin/env python3
"""Writes the input of the program end_vectors: every call in every state of the planner's end, every form, of its own
and of another sequence, in every state of both ends, the edges of windows, credits, gaps, limits and settings, and
long mixed runs in which frames are lost, repeated and reordered. The same each time."""
import random
import sys

from reference import Ends, M, element, fault, ident, last

NEW = "n 7 60 1000 1"
rng = random.Random(7)
lines = []


def say(*calls):
    lines.extend(calls)


def after(prefix, *calls):
    """These calls on new ends, after others of which nothing is printed."""
    say("." + NEW, *("." + c for c in prefix), *calls)


def receipt(n, ranges=(), final=False, credit=8):
    body = "".join(f'<wsrm:AcknowledgementRange Upper="{u}" Lower="{l}"/>' for l, u in ranges) or "<wsrm:None/>"
    return element("SequenceAcknowledgement",
                   ident(n) + body + ("<wsrm:Final/>" if final else "") + element("Credit", credit, "tp"))


def response(n, name, ranges=(), credit=8):
    return receipt(n, ranges, True, credit) + element(name, ident(n))


def letter(n, number, text="41"):
    return element("Sequence", ident(n) + element("MessageNumber", number)) + element("Letter", text, "tp")


def frames(n):
    yield "<wsrm:CreateSequence/>"
    yield element("CreateSequenceResponse", ident(n))
    for number in (1, 2, 8, 9, M):
        yield letter(n, number)
    yield element("AckRequested", ident(n))
    for ranges in ((), ((1, 1),), ((1, 2),), ((2, 2),), ((1, 1), (3, 3)), ((1, M),), ((5, 9),)):
        yield receipt(n, ranges)
        yield receipt(n, ranges, True, 20)
        yield response(n, "CloseSequenceResponse", ranges)
        yield response(n, "TerminateSequenceResponse", ranges, 3)
    for m in (0, 1, 2, M):
        yield element("CloseSequence", ident(n) + last(m))
        yield element("TerminateSequence", ident(n) + last(m))
    for name in ("UnknownSequence", "SequenceTerminated", "SequenceClosed"):
        yield fault(name, n)
    yield fault("CreateSequenceRefused")
    yield element("AckRequested", ident(n))[:-1]
    yield ""


CREATED = ["o", "h " + element("CreateSequenceResponse", ident(7)), "w 41", "w 4242", "s 100"]
PLANNER = [[], ["o"], CREATED, CREATED + ["c"]]
PLANNER.append(PLANNER[3] + ["h " + response(7, "CloseSequenceResponse", ((1, 1),))])
PLANNER.append(PLANNER[4] + ["f"])
PLANNER.append(PLANNER[5] + ["h " + response(7, "TerminateSequenceResponse", ((1, 2),))])
OFFICE = [[], ["r <wsrm:CreateSequence/>", "r " + letter(7, 1), "r " + letter(7, 3), "d"]]
OFFICE.append(OFFICE[1] + ["r " + element("CloseSequence", ident(7) + last(3))])
OFFICE.append(OFFICE[2] + ["r " + element("TerminateSequence", ident(7) + last(5))])

# every call and every frame in every state
for prefix in PLANNER:
    for call in ["o", "a", "c", "f", "w 41", "w -", "w " + "41" * 48, "w " + "41" * 49, "p 5 10 0 100", "p 0 10 0 100", "s 160"]:
        after(prefix, call)
    for n in (7, 8):
        for frame in frames(n):
            after(prefix, "h " + frame)
for prefix in OFFICE:
    for n in (7, 8):
        for frame in frames(n):
            after(prefix, "r " + frame, "d")
say("n 7 60 1000 0", "r <wsrm:CreateSequence/>", "r " + letter(7, 1), "n 7 60 1000 1", "r <wsrm:CreateSequence/>", "r <wsrm:CreateSequence/>")

# settings and drafts at their bounds
for identifier in (0, 1, 2**32 - 1, 2**32):
    for gap in (0, 1, 86_400, 86_401):
        for limit in (0, 1, M, M + 1):
            say(f"n {identifier} {gap} {limit} 1")
for train in (0, 1, 999_999, 1_000_000):
    for section in (0, 1, 9_999, 10_000, 70_000):
        after(CREATED, f"p {train} {section} 0 1")
for enter, leave in ((0, 0), (0, 1), (0, 172_799), (0, 172_800), (172_798, 172_799), (172_799, 172_799), (5, 4)):
    after(CREATED, f"p 1 1 {enter} {leave}")

# the window, the limit, the credit, the gap
say(NEW, *CREATED[:2], *["w 41"] * 9, "p 5 10 0 100", "h " + receipt(7, ((2, 8),)), "w 41", "h " + receipt(7, ((1, 1),)), "w 41")
say("n 7 60 1 1", *CREATED[:2], "w 41", "w 41", "p 5 10 0 100")
say(NEW, *CREATED[:2], *["w 41"] * 8, *["s 0"] * 9, "h " + receipt(7, ((1, 1),), credit=8), "w 41", "s 60", "s 59",
    "h " + receipt(7, (), credit=9), "s 60", "h " + receipt(7, (), credit=5), "s 60")
say(NEW, *CREATED[:2], "w 41", "s 100", "s 159", "s 90", "s 160", "s 0", f"s {2**64 - 1}", f"s {2**64 - 1}", "s 200")
say(NEW, "r <wsrm:CreateSequence/>", *("r " + letter(7, n) for n in (8, 9, 1, 3, 5, 7, 2, 2, 4, 6)), *["d"] * 9,
    *("r " + letter(7, n, "4243") for n in (16, 17, 9)), "d", "d", "r " + element("CloseSequence", ident(7) + last(9)),
    "r " + element("TerminateSequence", ident(7) + last(3)), "r <wsrm:CreateSequence/>")

# long runs over links that lose, repeat and reorder
for run in range(60):
    ends, out, back, clock = Ends(), [], [], 0
    say(NEW)
    for _ in range(90):
        clock += rng.choice((0, 1, 30, 61))
        call = rng.choice(["o", "a", "c" if rng.random() < 0.1 else "a", "f"] + [f"s {clock}"] * 5 + ["w 4142"] * 3
                          + ["p 5 10 0 100", "d", "d", "d"] + ["h"] * 6 + ["r"] * 6)
        if call in "hr":
            link = back if call == "h" else out
            if not link:
                continue
            k = rng.randrange(len(link))
            call += " " + link[k]
            if rng.random() < 0.7:
                del link[k]
        say(call)
        answer = ends.call(call.encode())
        text = answer[answer.index("<"):] if "<" in answer else ""
        if text and rng.random() < 0.85:
            (back if call[0] == "r" else out).append(text)

sys.stdout.write("\n".join(lines) + "\n")
