"""A second reader of frames, made apart from the proved one: it shares no code, no table and no method with it.

A whole frame is recognised by one regular expression for each form, with the bounds checked on the numbers caught.
The place of a refusal is found by asking, of ever longer runs of pieces, whether some completion is a whole frame.
"""
import re

M = 2**63 - 1
IDENTIFIER = rb"<wsrm:Identifier>urn:path:([1-9][0-9]*)</wsrm:Identifier>"
LAST = rb"(?:<wsrm:LastMsgNumber>([1-9][0-9]*)</wsrm:LastMsgNumber>)?"
RANGE = rb'<wsrm:AcknowledgementRange Upper="[1-9][0-9]*" Lower="[1-9][0-9]*"/>'
RECEIPT = (
    rb"<wsrm:SequenceAcknowledgement>" + IDENTIFIER
    + rb"(<wsrm:None/>|(?:" + RANGE + rb"){1,5})(<wsrm:Final/>)?"
    + rb"<tp:Credit>([1-9][0-9]*)</tp:Credit></wsrm:SequenceAcknowledgement>"
)
FAULT = (
    rb"<wsrm:SequenceFault><wsrm:FaultCode>wsrm:"
    rb"(UnknownSequence|SequenceTerminated|SequenceClosed)"
    rb"</wsrm:FaultCode><wsrm:Detail>" + IDENTIFIER + rb"</wsrm:Detail></wsrm:SequenceFault>"
)
REFUSED = (
    rb"<wsrm:SequenceFault><wsrm:FaultCode>wsrm:CreateSequenceRefused</wsrm:FaultCode></wsrm:SequenceFault>"
)


def inside(name, inner):
    return b"<wsrm:" + name + b">" + inner + b"</wsrm:" + name + b">"


def identifier(digits):
    return 1 <= int(digits) <= 2**32 - 1


def number(digits):
    return 1 <= int(digits) <= M


def ranges(text):
    """The ranges as (lower, upper), or None where they are out of order or out of bounds."""
    found = [(int(l), int(u)) for u, l in re.findall(rb'Upper="([0-9]+)" Lower="([0-9]+)"', text)]
    low = 1
    for lower, upper in found:
        if not (low <= lower <= upper <= M):
            return None
        low = upper + 2
    return found


def receipt(match):
    """What the four groups of a receipt say, or None."""
    name, body, final, credit = match
    held = ranges(body)
    if not identifier(name) or held is None or not number(credit):
        return None
    shown = ",".join(f"{l}-{u}" for l, u in held) or "none"
    return f"id={int(name)} ranges={shown} final={'yes' if final else 'no'} credit={int(credit)}"


def recognise(frame):
    """The line that a whole frame is shown as, or None."""
    if frame == b"<wsrm:CreateSequence/>":
        return "frame 1"
    for form, name in ((2, b"CreateSequenceResponse"), (4, b"AckRequested")):
        m = re.fullmatch(inside(name, IDENTIFIER), frame)
        if m and identifier(m[1]):
            return f"frame {form} id={int(m[1])}"
    m = re.fullmatch(
        inside(b"Sequence", IDENTIFIER + inside(b"MessageNumber", rb"([1-9][0-9]*)"))
        + rb"<tp:Letter>((?:[0-9A-F]{2}){1,48})</tp:Letter>",
        frame,
    )
    if m and identifier(m[1]) and number(m[2]):
        return f"frame 3 id={int(m[1])} n={int(m[2])} letter={m[3].decode()}"
    m = re.fullmatch(RECEIPT, frame)
    if m and receipt(m.groups()):
        return f"frame 5 {receipt(m.groups())}"
    for form, name in ((6, b"CloseSequence"), (8, b"TerminateSequence")):
        m = re.fullmatch(inside(name, IDENTIFIER + LAST), frame)
        if m and identifier(m[1]) and (m[2] is None or number(m[2])):
            return f"frame {form} id={int(m[1])} last={int(m[2] or 0)}"
    for form, name in ((7, b"CloseSequenceResponse"), (9, b"TerminateSequenceResponse")):
        m = re.fullmatch(RECEIPT + inside(name, IDENTIFIER), frame)
        if m and m[3] and m[1] == m[5] and receipt(m.groups()[:4]):
            return f"frame {form} {receipt(m.groups()[:4])}"
    m = re.fullmatch(FAULT, frame)
    if m and identifier(m[2]):
        return f"frame 10 {m[1].decode()} id={int(m[2])}"
    if re.fullmatch(REFUSED, frame):
        return "frame 10 CreateSequenceRefused"
    return None


def pieces(frame):
    """A tag from `<` through the next `>` or the end, or the text up to the next `<`."""
    return re.findall(rb"<[^>]*>?|[^<]+", frame)


def skeletons(name):
    """One frame of every outline, all with this identifier: what a begun frame may be completed to."""
    i = b"<wsrm:Identifier>urn:path:" + name + b"</wsrm:Identifier>"
    last = b"<wsrm:LastMsgNumber>1</wsrm:LastMsgNumber>"
    yield b"<wsrm:CreateSequence/>"
    yield inside(b"CreateSequenceResponse", i)
    yield inside(b"Sequence", i + inside(b"MessageNumber", b"1")) + b"<tp:Letter>00</tp:Letter>"
    yield inside(b"AckRequested", i)
    for element in (b"CloseSequence", b"TerminateSequence"):
        yield inside(element, i)
        yield inside(element, i + last)
    for count in range(6):
        body = b"".join(
            b'<wsrm:AcknowledgementRange Upper="%d" Lower="%d"/>' % (2 * k + 1, 2 * k + 1) for k in range(count)
        )
        for final in (b"", b"<wsrm:Final/>"):
            head = inside(
                b"SequenceAcknowledgement", i + (body or b"<wsrm:None/>") + final + b"<tp:Credit>1</tp:Credit>"
            )
            yield head
            if final:
                yield head + inside(b"CloseSequenceResponse", i)
                yield head + inside(b"TerminateSequenceResponse", i)
    for fault in (b"UnknownSequence", b"SequenceTerminated", b"SequenceClosed"):
        yield inside(b"SequenceFault", inside(b"FaultCode", b"wsrm:" + fault) + inside(b"Detail", i))
    yield inside(b"SequenceFault", inside(b"FaultCode", b"wsrm:CreateSequenceRefused"))


def begins(run):
    """Whether some whole frame begins with these pieces: some outline's tail completes them to one."""
    text = b"".join(run)
    named = re.search(rb"urn:path:([0-9]+)", text)
    for outline in skeletons(named[1] if named else b"7"):
        tail = pieces(outline)[len(run):]
        whole = text + b"".join(tail)
        if pieces(whole)[: len(run)] == run and recognise(whole):
            return True
    return False


def read(frame):
    """The line that the proved reader is to print."""
    line = recognise(frame)
    if line:
        return line
    cut = pieces(frame)
    place = 0
    for k, piece in enumerate(cut):
        if not begins(cut[: k + 1]):
            return f"refused 6 reader {place}"
        place += len(piece)
    return f"refused 6 reader {place}"
