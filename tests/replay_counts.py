"""What `replay` counts of the generated traces: answers by record, situations, and why traces end."""

from collections import Counter

from model import Rules
from old_rule import is_interlaced
from replayer import (BEGIN, CHECK, CUT_BODY, CUT_HEADER, FILE_LENGTH, LONG, OFFSET, OPEN, READ, SEEK, SET, SHORT, UNKNOWN, WRITE, Stop)
from trace_records import LONGEST_BODY

ACCESS = (0, 1, 11, 12, 13)
ANSWERS = {"open": (0, 16), "set view": (0, 1, 2, 3, 4, 5, 6, 7, 17, 18, 19, 9, 10), "seek": (0, 1, 12, 15),
           "read at the pointer": ACCESS, "read at an offset": ACCESS,
           "write at the pointer": ACCESS + (14,), "write at an offset": ACCESS + (14,), "check": (0, 25)}
NAMES = {OPEN: "open", SET: "set view", SEEK: "seek", READ: "read", WRITE: "write", CHECK: "check"}
SITUATIONS = (
    "opens that name no mode", "opens that replace an open handle", "refused opens that replace an open handle",
    "refused opens with the pointer above 0",
    "sets with a list of more than 300 numbers", "sets with lists of unequal lengths", "sets granted with the pointer above 0",
    "sets refused with the pointer above 0", "sets with the longest body",
    "seeks granted by a negative offset", "seeks from the end granted",
    "short reads", "reads that move nothing of what was asked", "reads of as many etypes as the buffer holds", "reads of one more, refused",
    "granted reads at an offset with the pointer above 0", "granted writes at an offset with the pointer above 0",
    "growing writes", "growing writes with a gap", "writes that end at 32,768", "writes refused one past it",
    "writes granted with a longer buffer", "writes refused one byte short", "writes refused without a buffer",
    "writes with the longest body", "granted accesses of count 0", "accesses of a count above 2^32",
    "granted accesses through interlaced views", "short reads through interlaced views", "growing writes through interlaced views",
    "granted writes whose highest byte is none of the last etype's",
    "checks 0 below the size", "checks 0 across the size", "checks 0 past the size", "checks 0 that end at 32,768",
    "checks 0 of no bytes at 32,768", "checks 0 of the whole file", "checks 0 with a handle of mode 0",
    "checks 25 by one byte", "checks 25 past the size", "checks 25 that end at 32,769", "checks 25 of no bytes past 32,768",
    "checks 25 whose end is 2^64 or more", "checks 25 with the longest body", "checks 25 with a handle of mode 0")
STOPS = ([(None, CUT_HEADER), (None, CUT_BODY), (None, UNKNOWN)] + [(tag, reason) for tag in NAMES for reason in (SHORT, LONG)]
         + [(tag, reason) for tag in (READ, WRITE) for reason in (BEGIN, OFFSET)])
LEAST_RECORDS, LEAST_ANSWER, LEAST_SITUATION, LEAST_STOP = 20_000, 20, 20, 10


def record_name(step):
    if step.tag not in (READ, WRITE):
        return NAMES[step.tag]
    return f"{NAMES[step.tag]} at {'an offset' if step.body.number(0) else 'the pointer'}"


def holding(*pairs):
    return [name for name, holds in pairs if holds]


def open_situations(step):
    held, refused = step.handle.mode != 0, step.answer.refusal != 0
    return holding(("opens that name no mode", step.body.number(0) == 0),
                   ("opens that replace an open handle", held and not refused),
                   ("refused opens that replace an open handle", held and refused),
                   ("refused opens with the pointer above 0", refused and step.handle.pointer > 0))


def set_situations(step):
    a, b, c, d = step.body.numbers(4, 4)
    refused, moved = step.answer.refusal != 0, step.handle.pointer > 0
    return holding(("sets with a list of more than 300 numbers", max(a, b, c, d) > 300),
                   ("sets with lists of unequal lengths", a != b or c != d),
                   ("sets granted with the pointer above 0", moved and not refused),
                   ("sets refused with the pointer above 0", moved and refused),
                   ("sets with the longest body", len(step.body.data) == LONGEST_BODY))


def seek_situations(step):
    granted = step.answer.refusal == 0
    return holding(("seeks granted by a negative offset", granted and step.body.signed(0) < 0),
                   ("seeks from the end granted", granted and step.body.number(1) == 2))


def access_situations(step):
    explicit, count, granted = step.body.number(0) == 1, step.body.number(2), step.answer.refusal == 0
    name = f"granted {NAMES[step.tag]}s at an offset with the pointer above 0"
    return holding((name, explicit and granted and step.handle.pointer > 0), ("granted accesses of count 0", granted and count == 0),
                   ("accesses of a count above 2^32", count > 2**32),
                   ("granted accesses through interlaced views", granted and step.answer.count > 0 and is_interlaced(step.handle)))


def read_situations(step):
    count, answer = step.body.number(2), step.answer
    most = FILE_LENGTH // Rules().etype_size(step.handle.view)
    return access_situations(step) + holding(
        ("short reads", answer.refusal == 0 and answer.count < count),
        ("short reads through interlaced views", answer.refusal == 0 and answer.count < count and is_interlaced(step.handle)),
        ("reads that move nothing of what was asked", answer.refusal == 0 and answer.count == 0 < count),
        ("reads of as many etypes as the buffer holds", answer.refusal == 0 and count == most),
        ("reads of one more, refused", answer.refusal == 13 and count == most + 1))


def write_places(step):
    """The file bytes of a write that passed the checks 1 to 13."""
    if step.answer.refusal not in (0, 14):
        return []
    offset = step.body.signed(1) if step.body.number(0) else step.handle.pointer
    return Rules().mapped(step.handle.view, offset, step.body.number(2))


def write_situations(step):
    count, n, refusal = step.body.number(2), step.body.number(3), step.answer.refusal
    wanted, places = count * Rules().etype_size(step.handle.view), write_places(step)
    stop, last = max(places, default=-1) + 1, max(places[-Rules().etype_size(step.handle.view):], default=-1) + 1
    grown = refusal == 0 and stop > step.file.size
    return access_situations(step) + holding(
        ("growing writes", grown), ("growing writes through interlaced views", grown and is_interlaced(step.handle)),
        ("granted writes whose highest byte is none of the last etype's", refusal == 0 and last < stop),
        ("growing writes with a gap", grown and stop - step.file.size > sum(place >= step.file.size for place in set(places))),
        ("writes that end at 32,768", refusal == 0 and stop == FILE_LENGTH),
        ("writes refused one past it", refusal == 14 and stop == FILE_LENGTH + 1),
        ("writes granted with a longer buffer", refusal == 0 and n > wanted),
        ("writes refused one byte short", refusal == 13 and n == wanted - 1),
        ("writes refused without a buffer", refusal == 13 and n == 0),
        ("writes with the longest body", len(step.body.data) == LONGEST_BODY))


def one_byte_differs(file, place, data):
    there = file.data[place:place + len(data)]
    return len(there) == len(data) and sum(a != b for a, b in zip(there, data)) == 1


def check_situations(step):
    place, n, size = *step.body.numbers(0, 2), step.file.size
    stop, there = place + n, step.answer.refusal == 0
    if there:
        return holding(("checks 0 below the size", n > 0 and stop <= size), ("checks 0 across the size", place < size < stop),
                       ("checks 0 past the size", n > 0 and place >= size),
                       ("checks 0 that end at 32,768", n > 0 and stop == FILE_LENGTH),
                       ("checks 0 of no bytes at 32,768", n == 0 and place == FILE_LENGTH),
                       ("checks 0 of the whole file", n == FILE_LENGTH),
                       ("checks 0 with a handle of mode 0", step.handle.mode == 0))
    return holding(("checks 25 by one byte", one_byte_differs(step.file, place, step.body.after(2))),
                   ("checks 25 past the size", size <= place and stop <= FILE_LENGTH),
                   ("checks 25 that end at 32,769", stop == FILE_LENGTH + 1),
                   ("checks 25 of no bytes past 32,768", n == 0), ("checks 25 whose end is 2^64 or more", stop >= 2**64),
                   ("checks 25 with the longest body", len(step.body.data) == LONGEST_BODY),
                   ("checks 25 with a handle of mode 0", step.handle.mode == 0))


MAKERS = {OPEN: open_situations, SET: set_situations, SEEK: seek_situations, READ: read_situations, WRITE: write_situations,
          CHECK: check_situations}


class Counts:
    def __init__(self):
        self.answers, self.situations, self.stops = Counter(), Counter(), Counter()

    def add(self, steps):
        for step in steps:
            if isinstance(step, Stop):
                tagged = step.reason not in (CUT_HEADER, CUT_BODY, UNKNOWN)
                self.stops[step.tag if tagged else None, step.reason] += 1
            else:
                self.answers[record_name(step), step.answer.refusal] += 1
                self.situations.update(MAKERS[step.tag](step))

    def merge(self, other):
        self.answers.update(other.answers)
        self.situations.update(other.situations)
        self.stops.update(other.stops)

    def records(self):
        return sum(self.answers.values())

    def calls(self):
        return sum(number for (name, _), number in self.answers.items() if name != "check")

    def granted(self):
        return sum(number for (name, refusal), number in self.answers.items() if name != "check" and refusal == 0)

    def print(self):
        print(f"records {self.records()}; calls {self.calls()}, granted {self.granted()}, refused {self.calls() - self.granted()}")
        for name, answers in ANSWERS.items():
            print(f"{name}: " + ", ".join(f"{answer}: {self.answers[name, answer]}" for answer in answers))
        for situation in SITUATIONS:
            print(f"{situation}: {self.situations[situation]}")

    def print_stops(self):
        for tag, reason in STOPS:
            print(f"stop, {NAMES[tag] + ': ' if tag else ''}{reason}: {self.stops[tag, reason]}")

    def faults(self):
        """The minima that are not met."""
        if self.records() < LEAST_RECORDS:
            yield f"fewer than {LEAST_RECORDS} records"
        if 3 * self.granted() < self.calls():
            yield "fewer than a third of the calls are granted"
        for name, answers in ANSWERS.items():
            yield from (f"{name}: fewer than {LEAST_ANSWER} of answer {answer}" for answer in answers
                        if self.answers[name, answer] < LEAST_ANSWER)
        yield from (f"{situation}: fewer than {LEAST_SITUATION}" for situation in SITUATIONS
                    if self.situations[situation] < LEAST_SITUATION)

    def stop_faults(self):
        yield from (f"stop, tag {tag}, {reason}: fewer than {LEAST_STOP}" for tag, reason in STOPS if self.stops[tag, reason] < LEAST_STOP)

    def wrong(self):
        """Answers that a record does not have."""
        yield from (f"{name}: answer {answer} is none of this record's" for name, answer in self.answers if answer not in ANSWERS[name])
