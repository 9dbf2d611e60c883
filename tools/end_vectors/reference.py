#!/usr/bin/env python3
"""The two ends again, written from docs/RULES.md in another language and by other means (sets of numbers, dictionaries):
reads the calls of crates/end_vectors/stdin from standard input and prints what end_vectors has to print.
It shares nothing with the crates; frames are read by the second reader of tools/frame_vectors."""
import os
import re
import sys

sys.path.insert(0, os.path.join(os.path.dirname(os.path.abspath(__file__)), "..", "frame_vectors"))
import reader  # noqa: E402

M = 2**63 - 1


def element(name, inner, prefix="wsrm"):
    return f"<{prefix}:{name}>{inner}</{prefix}:{name}>"


def ident(n):
    return element("Identifier", f"urn:path:{n}")


def last(n):
    return element("LastMsgNumber", n) if n else ""


def fault(name, n=None):
    detail = "" if n is None else element("Detail", ident(n))
    return element("SequenceFault", element("FaultCode", "wsrm:" + name) + detail)


def parse(text):
    """A frame as (form, fields), or the place of its refusal."""
    line = reader.read(text)
    words = line.split()
    if words[0] == "refused":
        return None, int(words[-1])
    fields = dict(w.split("=", 1) for w in words[2:] if "=" in w)
    fields["name"] = words[2] if words[1] == "10" else ""
    return int(words[1]), fields


def spans(text):
    return [] if text == "none" else [tuple(map(int, r.split("-"))) for r in text.split(",")]


class Planner:
    STATES = ["None", "Creating", "Created", "Closing", "Closed", "Terminating", "Ended"]

    def __init__(self, gap, limit):
        self.state, self.gap, self.limit = "None", gap, limit
        self.held, self.credit, self.letters, self.sent, self.receipts = None, 0, {}, {}, set()

    @property
    def highest(self):
        return len(self.letters)

    @property
    def lowest(self):
        b = 1
        while b in self.receipts:
            b += 1
        return b

    def frame_call(self, states, then, text):
        if self.state not in states:
            return "refused 2 " + self.state
        self.state = then or self.state
        return text()

    def open(self):
        return self.frame_call(("None", "Creating"), "Creating", lambda: "<wsrm:CreateSequence/>")

    def ask(self):
        return self.frame_call(("Created",), None, lambda: element("AckRequested", ident(self.held)))

    def close(self):
        return self.frame_call(("Created", "Closing"), "Closing",
                               lambda: element("CloseSequence", ident(self.held) + last(self.highest)))

    def finish(self):
        return self.frame_call(("Closed", "Terminating"), "Terminating",
                               lambda: element("TerminateSequence", ident(self.held) + last(self.highest)))

    def write(self, letter):
        if self.state != "Created":
            return "refused 2 " + self.state
        if not 1 <= len(letter) <= 48:
            return "refused 1"
        if self.highest == self.limit:
            return "refused 3"
        if self.highest + 1 > self.lowest + 7:
            return f"refused 4 {self.lowest}"
        self.letters[self.highest + 1] = letter
        return str(self.highest)

    def send(self, clock):
        if self.state != "Created":
            return "refused 2 " + self.state
        for n in sorted(self.letters):
            at = self.sent.get(n)
            if n not in self.receipts and n <= self.credit and (at is None or at <= clock and clock - at >= self.gap):
                self.sent[n] = clock
                return (f"{n} " + element("Sequence", ident(self.held) + element("MessageNumber", n))
                        + element("Letter", self.letters[n].hex().upper(), "tp"))
        return "nothing"

    def hear(self, text):
        form, fields = parse(text)
        if form is None:
            return f"refused 6 {fields}"
        answer = f"form {form}"
        name = fields["name"]
        if form in (1, 3, 4, 6, 8):
            return answer
        if form == 2:
            if self.state == "Creating":
                self.state, self.held, self.credit = "Created", int(fields["id"]), 8
            return answer
        if name == "CreateSequenceRefused":
            if self.state == "Creating":
                self.state = "None"
            return answer
        if self.held != int(fields["id"]):
            return f"refused 7 {fields['id']}"
        if form == 10:
            if name == "SequenceClosed":
                if self.state in ("Created", "Closing"):
                    self.state = "Closed"
            elif self.state in ("Created", "Closing", "Closed", "Terminating"):
                self.state = "Ended"
            return answer
        ranges = spans(fields["ranges"])
        for _, upper in ranges:
            if upper > self.highest:
                return f"refused 8 {upper}"
        for lower, upper in ranges:
            self.receipts.update(range(lower, upper + 1))
        self.credit = max(self.credit, int(fields["credit"]))
        if form == 7 and self.state == "Closing":
            self.state = "Closed"
        if form == 9 and self.state == "Terminating":
            self.state = "Ended"
        return answer

    def kept(self):
        b = self.lowest
        marks = "".join("1" if b + k in self.receipts else "0" for k in range(8))
        return f"{self.state} N={self.highest} b={b} credit={self.credit} receipts={marks}"


class Office:
    def __init__(self, identifier, admits):
        self.identifier, self.admits = identifier, admits
        self.state, self.delivered, self.accepted, self.last = "None", 0, {}, 0

    def receipt(self):
        runs, numbers = [], sorted(self.accepted)
        for n in numbers:
            if runs and runs[-1][1] == n - 1:
                runs[-1][1] = n
            else:
                runs.append([n, n])
        body = "".join(f'<wsrm:AcknowledgementRange Upper="{u}" Lower="{l}"/>' for l, u in runs) or "<wsrm:None/>"
        final = "" if self.state == "Created" else "<wsrm:Final/>"
        credit = element("Credit", min(self.delivered + 8, M), "tp")
        return element("SequenceAcknowledgement", ident(self.identifier) + body + final + credit)

    def read(self, text):
        form, fields = parse(text)
        if form is None:
            return f"refused 6 {fields}"
        reply = self.reply(form, fields)
        return f"form {form}" + (" " + reply if reply else "")

    def reply(self, form, fields):
        if form in (2, 5, 7, 9, 10):
            return None
        if form == 1:
            if self.state == "None" and self.admits:
                self.state = "Created"
            if self.state == "Created":
                return element("CreateSequenceResponse", ident(self.identifier))
            return fault("CreateSequenceRefused")
        n = int(fields["id"])
        if self.state == "None" or n != self.identifier:
            return fault("UnknownSequence", n)
        if self.state == "Terminated" and form != 8:
            return fault("SequenceTerminated", n)
        if form == 3:
            if self.state == "Closed":
                return fault("SequenceClosed", n)
            number = int(fields["n"])
            if self.delivered < number <= self.delivered + 8:
                self.accepted.setdefault(number, bytes.fromhex(fields["letter"]))
            return self.receipt()
        if form == 4:
            return self.receipt()
        if self.state == "Created":
            self.last = int(fields["last"])
        if form == 6:
            self.state = "Closed"
            return self.receipt() + element("CloseSequenceResponse", ident(self.identifier))
        self.state = "Terminated"
        return self.receipt() + element("TerminateSequenceResponse", ident(self.identifier))

    def deliver(self):
        letter = self.accepted.get(self.delivered + 1)
        if letter is None:
            return "nothing"
        self.delivered += 1
        return f"{self.delivered} of {len(letter)} bytes"

    def kept(self):
        d = self.delivered
        marks = "".join("1" if d + k in self.accepted else "0" for k in range(1, 9))
        whole = self.state in ("Closed", "Terminated") and all(n in self.accepted for n in range(1, self.last + 1))
        return f"{self.state} d={d} accepted={marks} last={self.last} whole={str(whole).lower()}"


class Ends:
    def __init__(self, identifier=7, gap=60, limit=1000, admits=True):
        self.planner, self.office = Planner(gap, limit), Office(identifier, admits)

    def call(self, line):
        word, _, rest = line.partition(b" ")
        words = rest.split()
        kind = chr(word[0])
        if kind == "n":
            identifier, gap, limit, admits = map(int, words)
            if not 1 <= identifier <= 2**32 - 1:
                return "refused 11"
            if not 1 <= gap <= 86_400 or not 1 <= limit <= M:
                return "refused 12"
            self.__init__(identifier, gap, limit, admits == 1)
            return "made"
        if kind == "w":
            return self.planner.write(b"" if rest == b"-" else bytes.fromhex(rest.decode()))
        if kind == "p":
            train, section, enter, leave = map(int, words)
            if not (1 <= train <= 999_999 and 1 <= section <= 9_999 and 0 <= enter < leave <= 172_799):
                return "refused 13"
            return self.planner.write(b"\x01" + train.to_bytes(4, "big") + section.to_bytes(2, "big")
                                      + enter.to_bytes(4, "big") + leave.to_bytes(4, "big"))
        if kind == "s":
            return self.planner.send(int(rest))
        if kind in "hr":
            return (self.planner.hear if kind == "h" else self.office.read)(rest)
        return {"o": self.planner.open, "a": self.planner.ask, "c": self.planner.close, "f": self.planner.finish,
                "d": self.office.deliver}[kind]()


def main():
    ends = Ends()
    for line in sys.stdin.buffer.read().split(b"\n")[:-1]:
        if line.startswith(b"."):
            ends.call(line[1:])
            continue
        answer = ends.call(line)
        print(f"{answer} | {ends.planner.kept()} {ends.office.kept()}")


if __name__ == "__main__":
    main()
