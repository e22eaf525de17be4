"""The second program's replay of a recorded shift: document 02's order 2 over the model's rules.

It is written from the papers and docs/trace.md alone, without a look at the library, and is to be read against that page.
`Replay` makes the calls of a trace, `replay` gives the lines.
"""

from dataclasses import dataclass

from model import REFUSED_HANDLE, Answer, Body, File, Handle, Rules, Type, signed

OPEN, SET, SEEK, READ, WRITE, CHECK = range(1, 7)  # the tags
TAGS = (OPEN, SET, SEEK, READ, WRITE, CHECK)
FILE_LENGTH = 32_768
READ_BUFFER = 32_768
NOT_THERE = 25  # the answer of a check whose bytes do not stand there
HEADER = 3

# Why a record ends the replay
CUT_HEADER, CUT_BODY, UNKNOWN = "header cut short", "body cut short", "unknown tag"
SHORT, LONG, BEGIN, OFFSET = "body too short", "body too long", "begin above 1", "offset in an access at the pointer"


@dataclass(frozen=True)
class Step:
    """A record that was replayed, with the handle and the file that it found."""

    place: int
    tag: int
    body: Body
    handle: Handle
    file: File
    answer: Answer
    line: str


@dataclass(frozen=True)
class Stop:
    """The end of a replay at a record that cannot be replayed."""

    place: int
    tag: int
    reason: str
    line: str


class Replay:
    def __init__(self, rules):
        self.rules = rules
        self.handle, self.file = self.first_handle(), self.first_file()
        self.records = {OPEN: self.open, SET: self.set, SEEK: self.seek, READ: self.read, WRITE: self.write, CHECK: self.check}

    def first_handle(self):
        return REFUSED_HANDLE

    def first_file(self):
        return File(bytes(FILE_LENGTH), 0)

    # Bodies. A number that a body lacks counts as 0, so a body too short for its numbers is shorter than the length asked for.

    def wanted_length(self, tag, body):
        """The length of a good body with these numbers, whatever the size of the numbers."""
        if tag == OPEN:
            return 8
        if tag == SET:
            return 64 + 8 * sum(body.numbers(4, 4)) + body.number(0)
        if tag == SEEK:
            return 16
        if tag == READ:
            return 24
        if tag == WRITE:
            return 32 + body.number(3)
        return 16 + body.number(1)

    def begin_fault(self, body):
        begin, offset = body.number(0), body.signed(1)
        if begin not in (0, 1):
            return BEGIN
        if begin == 0 and offset != 0:
            return OFFSET
        return None

    def body_fault(self, tag, body):
        """Why this body is bad, or None."""
        length = self.wanted_length(tag, body)
        if len(body.data) != length:
            return SHORT if len(body.data) < length else LONG
        return self.begin_fault(body) if tag in (READ, WRITE) else None

    # The records: each makes its call and returns the answer

    def open(self, body):
        return self.rules.open(body.number(0))

    def lists(self, body):
        """The four lists of a set, and the number of 8-byte numbers before the representation."""
        lists, first = [], 8
        for count in body.numbers(4, 4):
            lists.append(body.numbers(first, count))
            first += count
        return lists, first

    def set(self, body):
        (widths, displacements, filetype_widths, filetype_displacements), first = self.lists(body)
        etype = Type(widths, tuple(map(signed, displacements)), body.signed(2))
        filetype = Type(filetype_widths, tuple(map(signed, filetype_displacements)), body.signed(3))
        return self.rules.set(self.handle, body.signed(1), etype, filetype, body.after(first))

    def seek(self, body):
        return self.rules.seek(self.handle, self.file, body.signed(0), body.number(1))

    def at_pointer(self, body):
        return body.number(0) == 0

    def read_buffer(self):
        return bytearray(READ_BUFFER)

    def read(self, body):
        buffer, count = self.read_buffer(), body.number(2)
        if self.at_pointer(body):
            return self.rules.read_here(self.handle, self.file, count, buffer)
        return self.rules.read_at(self.handle, self.file, body.signed(1), count, buffer)

    def write_buffer(self, body):
        return body.after(4)

    def write(self, body):
        buffer, count = self.write_buffer(body), body.number(2)
        if self.at_pointer(body):
            return self.rules.write_here(self.handle, self.file, count, buffer)
        return self.rules.write_at(self.handle, self.file, body.signed(1), count, buffer)

    def stands(self, place, data):
        """True if these bytes stand in the file from this place on. The size plays no part."""
        stop = place + len(data)
        return stop <= len(self.file.data) and self.file.data[place:stop] == data

    def check(self, body):
        """No call: the handle stays, whatever it is."""
        return Answer(self.handle, 0 if self.stands(body.number(0), body.after(2)) else NOT_THERE)

    # The lines

    def line(self, number, answer):
        """The line of a record, made after the handle and the file are what the record leaves."""
        return f"{number} {answer.refusal} {answer.count} {self.handle.pointer} {self.file.size}"

    def keep(self, answer):
        self.handle = answer.handle
        if answer.file is not None:
            self.file = answer.file

    def step(self, number, place, tag, body):
        handle, file = self.handle, self.file
        answer = self.records[tag](body)
        self.keep(answer)
        return Step(place, tag, body, handle, file, answer, self.line(number, answer))

    # The trace

    def body_length(self, trace, place):
        return int.from_bytes(trace[place + 1:place + HEADER], "little")

    def cut_fault(self, trace, place):
        if place + HEADER > len(trace):
            return CUT_HEADER
        if place + HEADER + self.body_length(trace, place) > len(trace):
            return CUT_BODY
        return None

    def body(self, trace, place):
        first = place + HEADER
        return Body(trace[first:first + self.body_length(trace, place)])

    def fault(self, trace, place):
        """Why the record at this place ends the replay, or None."""
        tag = trace[place]
        cut = self.cut_fault(trace, place)
        if cut:
            return cut
        return UNKNOWN if tag not in TAGS else self.body_fault(tag, self.body(trace, place))

    def stop_line(self, number, trace, place):
        return f"stop {place}"

    def steps(self, trace):
        """A Step for each record that is replayed, and a Stop at one that ends the replay."""
        place, number = 0, 1
        while place < len(trace):
            reason = self.fault(trace, place)
            if reason:
                yield Stop(place, trace[place], reason, self.stop_line(number, trace, place))
                return
            body = self.body(trace, place)
            yield self.step(number, place, trace[place], body)
            place, number = place + HEADER + len(body.data), number + 1


def replay(trace, rules=Rules):
    """The lines that the trace prints under these rules."""
    return [step.line for step in Replay(rules()).steps(trace)]
