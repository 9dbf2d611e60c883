#!/usr/bin/env python3
"""Writes the vectors of crates/frame_vectors: its stdin, one frame a line, and its stdout, what the second reader says.

In a line a byte stands for itself, but `\\`, the blank and every byte that is not printable ASCII are `\\xHH`.
Nothing here is left to chance: two runs give the same files.
"""
import pathlib
import sys

from reader import M, inside, pieces, read

ID = b"<wsrm:Identifier>urn:path:%s</wsrm:Identifier>"
BIG = (b"1", b"9223372036854775807", b"9223372036854775808", b"18446744073709551615",
       b"18446744073709551616", b"99999999999999999999999")
ODD = (b"0", b"00", b"01", b"007", b"+1", b"-1", b" 1", b"1 ", b"1.0", b"0x1", b"1a", b"a", b"")
IDS = (b"1", b"4294967295", b"4294967296", b"4294967297") + BIG[1:] + ODD


def span(lower, upper):
    return b'<wsrm:AcknowledgementRange Upper="%s" Lower="%s"/>' % (str(upper).encode(), str(lower).encode())


def receipt(body=b"<wsrm:None/>", final=b"", credit=b"8", name=b"7"):
    return inside(b"SequenceAcknowledgement", ID % name + body + final + b"<tp:Credit>" + credit + b"</tp:Credit>")


def letter(text=b"41FF", n=b"1", name=b"7"):
    return inside(b"Sequence", ID % name + inside(b"MessageNumber", n)) + b"<tp:Letter>" + text + b"</tp:Letter>"


def ending(element, last=None, name=b"7"):
    return inside(element, ID % name + (inside(b"LastMsgNumber", last) if last is not None else b""))


def answer(element, body=b"<wsrm:None/>", final=b"<wsrm:Final/>", name=b"7", again=b"7"):
    return receipt(body, final, b"8", name) + inside(element, ID % again)


def fault(code, detail=b"7"):
    inner = inside(b"FaultCode", b"wsrm:" + code)
    return inside(b"SequenceFault", inner + (inside(b"Detail", ID % detail) if detail is not None else b""))


FINAL = b"<wsrm:Final/>"
TWO = span(1, 2) + span(4, 4)
CLOSED, ENDED = b"CloseSequenceResponse", b"TerminateSequenceResponse"
LARGEST = b"".join(span(M - 9 + 2 * k, M - 9 + 2 * k) for k in range(5))

# one frame of each form
FORMS = [
    b"<wsrm:CreateSequence/>",
    inside(b"CreateSequenceResponse", ID % b"7"),
    letter(),
    inside(b"AckRequested", ID % b"7"),
    receipt(TWO, b"", b"10"),
    ending(b"CloseSequence", b"3"),
    answer(CLOSED),
    ending(b"TerminateSequence", b"3"),
    answer(ENDED, TWO),
    fault(b"SequenceClosed"),
    fault(b"CreateSequenceRefused", None),
]


def whole():
    yield b""
    yield from FORMS
    yield receipt()
    yield receipt(b"<wsrm:None/>", FINAL)
    yield ending(b"CloseSequence")
    yield ending(b"TerminateSequence")
    for code in (b"UnknownSequence", b"SequenceTerminated", b"SequenceClosed"):
        yield fault(code)
        yield fault(code, None)
        yield fault(code, b"4294967295")
    yield fault(b"CreateSequenceRefused")
    for code in (b"Unknown", b"unknownSequence", b"SequenceClosed ", b"", b"UnknownSequence2"):
        yield fault(code)


def cut_short():
    for frame in FORMS:
        for k in range(len(frame)):
            yield frame[:k]


def damaged():
    for k, frame in enumerate((FORMS[1], FORMS[2], FORMS[4], FORMS[10])):
        for i, b in enumerate(frame):
            for c in ((b + 1) % 256, (60, 62, 47, 32)[(i + k) % 4]):
                if c != b:
                    yield frame[:i] + bytes([c]) + frame[i + 1:]
            yield frame[:i] + frame[i + 1:]


def rearranged():
    for frame in FORMS:
        cut = pieces(frame)
        for i in range(len(cut)):
            yield b"".join(cut[:i] + cut[i + 1:])
            yield b"".join(cut[:i] + [cut[i]] + cut[i:])
            yield b"".join(cut[:i] + cut[i + 1:i + 2] + cut[i:i + 1] + cut[i + 2:])
    for a in FORMS:
        for b in FORMS:
            yield a + b


def bounds():
    for n in IDS:
        yield inside(b"CreateSequenceResponse", ID % n)
        yield letter(name=n)
        yield receipt(TWO, name=n)
        yield answer(CLOSED, name=n, again=n)
        yield ending(b"CloseSequence", name=n)
        yield fault(b"UnknownSequence", n)
    for n in BIG + ODD:
        yield letter(n=n)
        yield receipt(credit=n)
        yield ending(b"CloseSequence", n)
        yield ending(b"TerminateSequence", n)
        yield receipt(b'<wsrm:AcknowledgementRange Upper="%s" Lower="1"/>' % n)
        yield receipt(b'<wsrm:AcknowledgementRange Upper="9223372036854775807" Lower="%s"/>' % n)
    for text in (b"urn:path:", b"urn:path7", b"URN:path:7", b"urn:path: 7", b"7", b"urn:path:7:"):
        yield inside(b"AckRequested", inside(b"Identifier", text))


def ranged():
    five = b"".join(span(2 * k + 1, 2 * k + 1) for k in range(5))
    bodies = [five, five + span(11, 11), five + five, span(1, 1) + span(2, 2), span(1, 2) + span(3, 4), span(1, 2) + span(2, 4),
              span(4, 4) + span(1, 2), span(2, 1), span(1, 1) + span(1, 1), span(0, 1), span(1, M), span(1, M) + span(1, 2),
              span(M, M), span(M - 1, M + 1), span(1, 2) + b"<wsrm:None/>", b"<wsrm:None/>" + span(1, 2),
              b"<wsrm:None/><wsrm:None/>", b"", LARGEST, span(1, 3) + span(6, 9) + span(11, 20), span(5, 5) + span(7, 6)]
    for body in bodies:
        for final in (b"", FINAL, FINAL + FINAL):
            yield receipt(body, final)
        for element in (CLOSED, ENDED):
            yield answer(element, body)
            yield answer(element, body, b"")
    for tag in (b'<wsrm:AcknowledgementRange Lower="1" Upper="2"/>', b"<wsrm:AcknowledgementRange Upper='2' Lower='1'/>",
                b'<wsrm:AcknowledgementRange  Upper="2" Lower="1"/>', b'<wsrm:AcknowledgementRange Upper="2" Lower="1" />',
                b'<wsrm:AcknowledgementRange Upper="2"Lower="1"/>', b'<wsrm:AcknowledgementRange Upper="2" Lower="1">',
                b'<wsrm:AcknowledgementRange Upper="2"/>', b'<wsrm:AcknowledgementRange Upper=2 Lower=1/>',
                b'<wsrm:acknowledgementRange Upper="2" Lower="1"/>', b'</wsrm:AcknowledgementRange Upper="2" Lower="1"/>',
                b'<wsrm:AcknowledgementRange Upper="2" Lower="1"/ >', b'<wsrm:AcknowledgementRange Upper="" Lower=""/>'):
        yield receipt(tag)
        yield receipt(span(1, 2) + tag)


def answered():
    for element in (CLOSED, ENDED):
        for again in (b"7", b"8", b"70", b"07", b"4294967296", b""):
            yield answer(element, again=again)
        yield answer(element, LARGEST, name=b"4294967295", again=b"4294967295")
        yield answer(element) + inside(element, ID % b"7")
        yield receipt(final=FINAL) + inside(element, ID % b"7" + ID % b"7")
        yield receipt(final=FINAL) + inside(element, b"")
    yield answer(CLOSED) + inside(ENDED, ID % b"7")
    yield receipt(final=FINAL) + inside(b"CreateSequenceResponse", ID % b"7")
    yield receipt(LARGEST, FINAL, b"9223372036854775807", b"4294967295") + inside(ENDED, ID % b"4294967295")


def letters():
    for n in (1, 2, 47, 48, 49, 50, 96, 97):
        yield letter(b"0A" * n)
        yield letter(b"0A" * n + b"0")
    for text in (b"", b"0", b"0a", b"af", b"G0", b"0G", b" 00", b"00 ", b"0 0", b"0x00", b"FFff", b"41:FF", b"00" * 48 + b" ",
                 b"/0", b":0", b"@A", b"AZ"):
        yield letter(text)
    for b in range(256):
        yield letter(b"%02X" % b)


def between():
    for frame in (FORMS[0], FORMS[1], FORMS[2], FORMS[6], FORMS[9]):
        cut = pieces(frame)
        for i in range(len(cut) + 1):
            for text in (b" ", b"\n", b"x", b"<!-- -->", b"<", b">", b"\x00", b"\xff"):
                yield b"".join(cut[:i]) + text + b"".join(cut[i:])


def escaped(frame):
    return "".join(chr(b) if 33 <= b <= 126 and b != 92 else f"\\x{b:02X}" for b in frame)


def main():
    home = pathlib.Path(__file__).resolve().parents[2] / "crates" / "frame_vectors"
    seen, frames = set(), []
    for group in (whole, cut_short, damaged, rearranged, bounds, ranged, answered, letters, between):
        for frame in group():
            if frame not in seen:
                seen.add(frame)
                frames.append(frame)
    (home / "stdin").write_text("".join(escaped(f) + "\n" for f in frames))
    (home / "stdout").write_text("".join(read(f) + "\n" for f in frames))
    print(f"{len(frames)} vectors", file=sys.stderr)


if __name__ == "__main__":
    main()
