"""Misreadings of document 02's order 2 and of docs/trace.md, each as a wrong copy of the replayer.

`mutants` shows that the rows of the fixed traces see them.
"""

from dataclasses import replace

from model import REFUSED_HANDLE, Answer, Body, File, Rules, signed
from replayer import (BEGIN, CHECK, CUT_BODY, CUT_HEADER, FILE_LENGTH, HEADER, LONG, NOT_THERE, OFFSET, OPEN, READ, READ_BUFFER, SEEK, SET,
                      SHORT, UNKNOWN, WRITE, Replay)

NAMES = {OPEN: "open", SET: "set view", SEEK: "seek", READ: "read", WRITE: "write", CHECK: "check"}


# The handle and the file

class OldHandleKept(Replay):
    """a refused open leaves the old handle"""

    def open(self, body):
        answer = super().open(body)
        return replace(answer, handle=self.handle) if answer.refusal else answer


class FirstHandleKept(Replay):
    """an open leaves a handle that is open already"""

    def open(self, body):
        answer = super().open(body)
        return replace(answer, handle=self.handle) if self.handle.mode else answer


class ViewKept(Replay):
    """an open changes the mode and puts the pointer to 0, but leaves the view"""

    def open(self, body):
        answer = super().open(body)
        return answer if answer.refusal else replace(answer, handle=replace(answer.handle, view=self.handle.view))


class PointerKept(Replay):
    """an open leaves the pointer"""

    def open(self, body):
        answer = super().open(body)
        return replace(answer, handle=replace(answer.handle, pointer=self.handle.pointer))


class OpenAtFirst(Replay):
    """the first handle is one of mode 3"""

    def first_handle(self):
        return replace(REFUSED_HANDLE, mode=3)


class NewFileAtOpen(Replay):
    """an open begins with an empty file"""

    def open(self, body):
        return replace(super().open(body), file=self.first_file())


class SizeAtOpen(Replay):
    """an open puts the size to 0 and leaves the bytes"""

    def open(self, body):
        return replace(super().open(body), file=replace(self.file, size=0))


class UnnamedModeRefused(Replay):
    """an open with mode 0 gives a handle of mode 0"""

    def open(self, body):
        return Answer(REFUSED_HANDLE) if body.number(0) == 0 else super().open(body)


class UnnamedModeReads(Replay):
    """an open with mode 0 gets mode 1, before order 5"""

    def open(self, body):
        return self.rules.open(body.number(0) or 1)


class SizeAtFirst(Replay):
    """the size at first is 32,768"""

    def first_file(self):
        return replace(super().first_file(), size=FILE_LENGTH)


class FilledAtFirst(Replay):
    """the bytes at first are 255"""

    def first_file(self):
        return File(b"\xff" * FILE_LENGTH, 0)


class HandleDropped(Replay):
    """the handle of an access is dropped, so that the pointer stays"""

    def keep(self, answer):
        handle = self.handle
        super().keep(answer)
        if answer.count:
            self.handle = handle


class FileDropped(Replay):
    """the bytes of a write are dropped, its size kept"""

    def keep(self, answer):
        data = self.file.data
        super().keep(answer)
        self.file = replace(self.file, data=data)


def file_of(length):
    def first_file(self):
        return File(bytes(length), 0)

    return type("FileOf", (Replay,), {"first_file": first_file, "__doc__": f"a file of {length} bytes"})


# Reads, writes and seeks

def read_buffer_of(length):
    def read_buffer(self):
        return bytearray(length)

    return type("ReadBufferOf", (Replay,), {"read_buffer": read_buffer, "__doc__": f"a read lends {length} bytes"})


class ReadBufferOfTheSize(Replay):
    """a read lends as many bytes as the file's size"""

    def read_buffer(self):
        return bytearray(self.file.size)


class PaddedWriteBuffer(Replay):
    """a write's buffer is filled up to 32,768 bytes"""

    def write_buffer(self, body):
        return super().write_buffer(body).ljust(READ_BUFFER, b"\0")


class LongWriteBuffer(Replay):
    """a write's buffer has at most 32,768 bytes, and a longer one is a refusal 13"""

    def write(self, body):
        return Answer(self.handle, 13) if body.number(3) > READ_BUFFER else super().write(body)


class WriteOfTheBuffer(Replay):
    """a write moves as many etypes as the buffer has, whatever its count"""

    def write(self, body):
        size = self.rules.etype_size(self.handle.view)
        fitting = body.number(3) // size
        return super().write(Body(body.data[:16] + fitting.to_bytes(8, "little") + body.data[24:]))


class AtThePointer(Replay):
    """begin is passed over: every access is at the pointer"""

    def at_pointer(self, body):
        return True


class AtAnOffset(Replay):
    """begin is passed over: every access is at the offset"""

    def at_pointer(self, body):
        return False


class BeginSwapped(Replay):
    """begin 0 is an explicit offset, 1 the pointer"""

    def at_pointer(self, body):
        return not super().at_pointer(body)


class ExplicitMoves(Replay):
    """an access at an explicit offset moves the pointer behind what it moved"""

    def keep(self, answer):
        before = self.handle
        super().keep(answer)
        if answer.count and before.pointer == self.handle.pointer:
            self.handle = replace(self.handle, pointer=before.pointer + answer.count)


class ReadAddsTheCount(Replay):
    """a read at the pointer raises it by the count asked for"""

    def read(self, body):
        answer = super().read(body)
        if answer.refusal or not self.at_pointer(body):
            return answer
        return replace(answer, handle=replace(answer.handle, pointer=self.handle.pointer + body.number(2)))


class UnsignedSeek(Replay):
    """the offset of a seek is unsigned"""

    def seek(self, body):
        return self.rules.seek(self.handle, self.file, body.number(0), body.number(1))


class WhencesSwapped(Replay):
    """whence 0 adds to the pointer, whence 1 sets"""

    def seek(self, body):
        whence = body.number(1)
        return self.rules.seek(self.handle, self.file, body.signed(0), {0: 1, 1: 0}.get(whence, whence))


class WhenceFirst(Replay):
    """a seek's whence stands before its offset"""

    def seek(self, body):
        return self.rules.seek(self.handle, self.file, body.signed(1), body.number(0))


class EndIsTheSize(Replay):
    """a seek from the end adds to the size in bytes"""

    def seek(self, body):
        if body.number(1) != 2:
            return super().seek(body)
        return self.rules.seek(self.handle, self.file, body.signed(0) + self.file.size, 0)


class CountFirst(Replay):
    """an access's count stands before its offset"""

    def read(self, body):
        if self.at_pointer(body):
            return super().read(body)
        return self.rules.read_at(self.handle, self.file, body.signed(2), body.number(1), self.read_buffer())


# Sets

class ExtentsSwapped(Replay):
    """the filetype's extent stands before the etype's"""

    def set(self, body):
        data = body.data
        return super().set(Body(data[:16] + data[24:32] + data[16:24] + data[32:]))


class RepresentationCut(Replay):
    """the representation is cut to six bytes"""

    def set(self, body):
        _, first = self.lists(body)
        return super().set(Body(body.data[:8 * first + 6]))


class AlwaysNative(Replay):
    """the representation is not looked at"""

    def set(self, body):
        _, first = self.lists(body)
        return super().set(Body(body.data[:8 * first] + b"native"))


class ListsCut(Replay):
    """the lists of a set are cut to what a view can hold"""

    def lists(self, body):
        lists, first = super().lists(body)
        return [one[:most] for one, most in zip(lists, (8, 8, 256, 256))], first


class ListsOfOneLength(Replay):
    """both lists of a type are as long as the shorter one"""

    def lists(self, body):
        (a, b, c, d), first = super().lists(body)
        return [a[:len(b)], b[:len(a)], c[:len(d)], d[:len(c)]], first


class DisplacementsFirst(Replay):
    """a type's displacements stand before its widths"""

    def lists(self, body):
        (a, b, c, d), first = super().lists(body)
        return [b, a, d, c], first


class PointerAfterARefusedSet(Replay):
    """a refused set puts the pointer to 0"""

    def set(self, body):
        answer = super().set(body)
        return replace(answer, handle=replace(answer.handle, pointer=0)) if answer.refusal else answer


class PointerAfterASet(Replay):
    """a granted set leaves the pointer"""

    def set(self, body):
        answer = super().set(body)
        return replace(answer, handle=replace(answer.handle, pointer=self.handle.pointer))


# Checks

class PastTheFile(Replay):
    """a check asks only for those of its bytes that lie in the file"""

    def stands(self, place, data):
        return data.startswith(self.file.data[place:place + len(data)])


class WithinTheSize(Replay):
    """a check is 25 past the size"""

    def stands(self, place, data):
        return place + len(data) <= self.file.size and super().stands(place, data)


class UpToTheSize(Replay):
    """a check compares up to the size only"""

    def stands(self, place, data):
        inside = max(0, self.file.size - place)
        return place + len(data) <= FILE_LENGTH and super().stands(place, data[:inside])


class EndRefused(Replay):
    """a check that ends at 32,768 is 25"""

    def stands(self, place, data):
        return place + len(data) < FILE_LENGTH and super().stands(place, data)


class EmptyRefused(Replay):
    """an empty range at 32,768 is 25"""

    def stands(self, place, data):
        return place < FILE_LENGTH and super().stands(place, data)


class EmptyAlways(Replay):
    """an empty range is 0 wherever it lies"""

    def stands(self, place, data):
        return not data or super().stands(place, data)


class EmptyNever(Replay):
    """an empty range is 25"""

    def stands(self, place, data):
        return bool(data) and super().stands(place, data)


class OneMore(Replay):
    """a range may end at 32,769"""

    def stands(self, place, data):
        return place + len(data) <= FILE_LENGTH + 1 and self.file.data[place:place + len(data)] == data[:max(0, FILE_LENGTH - place)]


class WrappingRange(Replay):
    """place + length wraps modulo 2^64, and the file is compared from its first byte on"""

    def stands(self, place, data):
        stop = (place + len(data)) % 2**64
        if stop < place:
            return data.endswith(self.file.data[:stop])
        return super().stands(place, data)


class WrappingEmpty(Replay):
    """a range whose end wraps to 0 is empty"""

    def stands(self, place, data):
        return (place + len(data)) % 2**64 == 0 or super().stands(place, data)


class Place32(Replay):
    """the place of a check has 32 bits"""

    def stands(self, place, data):
        return super().stands(place % 2**32, data)


class Place16(Replay):
    """the place of a check has 16 bits"""

    def stands(self, place, data):
        return super().stands(place % 2**16, data)


class SignedPlace(Replay):
    """the place of a check is signed, and one below 0 counts from the end"""

    def stands(self, place, data):
        place = signed(place)
        return super().stands(place + FILE_LENGTH if place < 0 else place, data)


class SoundHandleAsked(Replay):
    """a check needs a sound handle, else it is 1"""

    def check(self, body):
        return super().check(body) if self.rules.handle_allowed(self.handle) else Answer(self.handle, 1)


class ReadingAsked(Replay):
    """a check needs a handle that allows reading, else it is 25"""

    def check(self, body):
        return super().check(body) if self.handle.mode in (1, 3) else Answer(self.handle, NOT_THERE)


class ThroughTheView(Replay):
    """the place of a check is an offset of the view"""

    def stands(self, place, data):
        return super().stands(self.rules.place(self.handle.view, place), data)


class AlwaysThere(Replay):
    """a check is always 0"""

    def stands(self, place, data):
        return True


class NeverThere(Replay):
    """a check is always 25"""

    def stands(self, place, data):
        return False


class FirstByteOnly(Replay):
    """a check compares its first byte only"""

    def stands(self, place, data):
        return super().stands(place, data) or (place + len(data) <= FILE_LENGTH and super().stands(place, data[:1]))


class AllButTheLast(Replay):
    """a check leaves out its last byte"""

    def stands(self, place, data):
        return place + len(data) <= FILE_LENGTH and super().stands(place, data[:-1])


class CheckOfTheSum(Replay):
    """a check compares the sum of the bytes"""

    def stands(self, place, data):
        return place + len(data) <= FILE_LENGTH and sum(self.file.data[place:place + len(data)]) == sum(data)


class CountOfACheck(Replay):
    """the count of a check is the number of its bytes"""

    def check(self, body):
        return replace(super().check(body), count=body.number(1))


class CountOfAGoodCheck(Replay):
    """the count of a check that is 0 is the number of its bytes"""

    def check(self, body):
        answer = super().check(body)
        return answer if answer.refusal else replace(answer, count=body.number(1))


class CheckMoves(Replay):
    """a check puts the pointer to 0"""

    def check(self, body):
        return replace(super().check(body), handle=replace(self.handle, pointer=0))


class CheckEnds(Replay):
    """a check that is 25 ends the replay"""

    def steps(self, trace):
        for step in super().steps(trace):
            yield step
            if getattr(step, "answer", None) and step.answer.refusal == NOT_THERE:
                return


# The lines

class PointerBefore(Replay):
    """the line has the pointer from before the record"""

    def step(self, number, place, tag, body):
        self.before = self.handle.pointer
        return super().step(number, place, tag, body)

    def line(self, number, answer):
        return f"{number} {answer.refusal} {answer.count} {self.before} {self.file.size}"


class SizeBefore(Replay):
    """the line has the size from before the record"""

    def step(self, number, place, tag, body):
        self.before = self.file.size
        return super().step(number, place, tag, body)

    def line(self, number, answer):
        return f"{number} {answer.refusal} {answer.count} {self.handle.pointer} {self.before}"


class NothingForRefusals(Replay):
    """a refusal's line has 0 for pointer and size"""

    def line(self, number, answer):
        return f"{number} {answer.refusal} 0 0 0" if answer.refusal else super().line(number, answer)


class NoPointerForRefusals(Replay):
    """a refusal's line has 0 for the pointer"""

    def line(self, number, answer):
        return f"{number} {answer.refusal} 0 0 {self.file.size}" if answer.refusal else super().line(number, answer)


class NoPointerForChecks(Replay):
    """a check's line has 0 for pointer and size"""

    def step(self, number, place, tag, body):
        step = super().step(number, place, tag, body)
        return replace(step, line=f"{number} {step.answer.refusal} 0 0 0") if tag == CHECK else step


class PointerBeforeSize(Replay):
    """size and pointer are swapped in the line"""

    def line(self, number, answer):
        return f"{number} {answer.refusal} {answer.count} {self.file.size} {self.handle.pointer}"


class LengthForSize(Replay):
    """the line has the file's length for its size"""

    def line(self, number, answer):
        return f"{number} {answer.refusal} {answer.count} {self.handle.pointer} {len(self.file.data)}"


class PlaceForPointer(Replay):
    """the line has the byte place of the pointer"""

    def line(self, number, answer):
        place = self.rules.place(self.handle.view, self.handle.pointer)
        return f"{number} {answer.refusal} {answer.count} {place} {self.file.size}"


class CountAsked(Replay):
    """an access has the count asked for, moved or not"""

    def step(self, number, place, tag, body):
        step = super().step(number, place, tag, body)
        if tag not in (READ, WRITE):
            return step
        return replace(step, line=self.line(number, replace(step.answer, count=body.number(2))))


class CountOfBytes(Replay):
    """the count is that of the bytes moved"""

    def line(self, number, answer):
        size = self.rules.etype_size(self.handle.view)
        return super().line(number, replace(answer, count=answer.count * size))


class FromZero(Replay):
    """records are numbered from 0"""

    def line(self, number, answer):
        return super().line(number - 1, answer)


class Renumbering(Replay):
    """A copy that counts records of its own; `counts` says which."""

    def counts(self, answer):
        return True

    def line(self, number, answer):
        self.number = getattr(self, "number", 0) + self.counts(answer)
        return super().line(self.number, answer)


class RefusedNotNumbered(Renumbering):
    """refused records are not numbered"""

    def counts(self, answer):
        return answer.refusal == 0


class ChecksNotNumbered(Replay):
    """checks are not numbered"""

    def step(self, number, place, tag, body):
        self.checks = getattr(self, "checks", 0) + (tag == CHECK)
        return super().step(number - self.checks, place, tag, body)


class NumberedFromTheOpen(Replay):
    """numbers begin anew at each open"""

    def step(self, number, place, tag, body):
        self.first = number if tag == OPEN else getattr(self, "first", 1)
        return super().step(number - self.first + 1, place, tag, body)


class PlaceForNumber(Replay):
    """the line has the record's place for its number"""

    def step(self, number, place, tag, body):
        return super().step(place, place, tag, body)


class TrailingSpace(Replay):
    """a line ends with a space"""

    def line(self, number, answer):
        return super().line(number, answer) + " "


class WithTheTag(Replay):
    """a line begins with the tag"""

    def step(self, number, place, tag, body):
        step = super().step(number, place, tag, body)
        return replace(step, line=f"{tag} {step.line}")


# Where a replay ends

class NextPlace(Replay):
    """stop names the place after the record"""

    def stop_line(self, number, trace, place):
        return f"stop {place + HEADER + self.body_length(trace, place)}"


class BodyPlace(Replay):
    """stop names the place of the body"""

    def stop_line(self, number, trace, place):
        return f"stop {place + HEADER}"


class PlaceFromOne(Replay):
    """places are counted from 1"""

    def stop_line(self, number, trace, place):
        return f"stop {place + 1}"


class StopNumber(Replay):
    """stop names the record's number"""

    def stop_line(self, number, trace, place):
        return f"stop {number}"


class NumberedStop(Replay):
    """the stop line begins with a number"""

    def stop_line(self, number, trace, place):
        return f"{number} stop {place}"


class LastPlace(Replay):
    """stop names the place of the last good record"""

    def step(self, number, place, tag, body):
        self.last = place
        return super().step(number, place, tag, body)

    def stop_line(self, number, trace, place):
        return f"stop {getattr(self, 'last', 0)}"


class EndOfTrace(Replay):
    """stop names the length of the trace"""

    def stop_line(self, number, trace, place):
        return f"stop {len(trace)}"


class StopAtTheEnd(Replay):
    """a trace that ends after a whole record has a stop line too"""

    def steps(self, trace):
        last = None
        for last in super().steps(trace):
            yield last
        if last is None or not last.line.startswith("stop"):
            yield replace(last, line=f"stop {len(trace)}") if last else type("Line", (), {"line": "stop 0"})


def ends_silently(*reasons):
    def steps(self, trace):
        return [step for step in Replay.steps(self, trace) if getattr(step, "reason", None) not in reasons]

    return type("EndsSilently", (Replay,), {"steps": steps, "__doc__": f"no line where the replay ends for: {', '.join(reasons)}"})


class UnknownSkipped(Replay):
    """a record of unknown tag is passed over and has no line"""

    def steps(self, trace):
        place, kept = 0, b""
        while place < len(trace):
            following = place + HEADER + self.body_length(trace, place)
            if self.fault(trace, place) != UNKNOWN:
                kept += trace[place:following]
            place = following
        return super().steps(kept)


def tags_passed(name, tags):
    """A copy that takes records of these tags as good; they do nothing and have a line."""

    def fault(self, trace, place):
        found = Replay.fault(self, trace, place)
        return None if found == UNKNOWN and trace[place] in tags else found

    def step(self, number, place, tag, body):
        return Replay.step(self, number, place, tag if tag in self.records else CHECK, body)

    return type("TagsPassed", (Replay,), {"fault": fault, "step": step, "__doc__": f"{name} are good"})


class TagMasked(Replay):
    """only the low three bits of a tag count"""

    def fault(self, trace, place):
        return super().fault(trace[:place] + bytes([trace[place] % 8]) + trace[place + 1:], place)

    def step(self, number, place, tag, body):
        return super().step(number, place, tag % 8, body)


class CutReplayed(Replay):
    """a record whose body is cut short is replayed with 0 for what it lacks"""

    def cut_fault(self, trace, place):
        return CUT_HEADER if place + HEADER > len(trace) else None

    def body(self, trace, place):
        return Body(super().body(trace, place).data.ljust(self.body_length(trace, place), b"\0"))


class CutHeaderTaken(Replay):
    """a header cut short is taken with 0 for what it lacks"""

    def cut_fault(self, trace, place):
        return None if place + HEADER > len(trace) else super().cut_fault(trace, place)

    def wanted_length(self, tag, body):
        return 0 if not body.data else super().wanted_length(tag, body)


class LengthOfAll(Replay):
    """the length of a field counts its header"""

    def body_length(self, trace, place):
        return max(0, super().body_length(trace, place) - HEADER)


class HighByteFirst(Replay):
    """the length of a field stands high byte first"""

    def body_length(self, trace, place):
        return int.from_bytes(trace[place + 1:place + HEADER], "big")


class LowLengthByte(Replay):
    """the length of a field has one byte"""

    def body_length(self, trace, place):
        return int.from_bytes(trace[place + 1:place + 2], "little")


class BodyHighByteFirst(Replay):
    """the numbers of a body stand high byte first"""

    def body(self, trace, place):
        data = super().body(trace, place).data
        return Body(b"".join(data[i:i + 8][::-1] for i in range(0, len(data), 8)))


class LengthsWrap(Replay):
    """the length of a set is a sum modulo 2^64"""

    def wanted_length(self, tag, body):
        return super().wanted_length(tag, body) % 2**64

    def lists(self, body):
        if sum(body.numbers(4, 4)) > len(body.data):
            return [(1,), (0,), (1,), (0,)], len(body.data) // 8
        return super().lists(body)


def taken(tag, reason):
    """A copy that takes bodies of this tag as good though they are bad for this reason. What a body lacks is 0; lists end with it."""

    def body_fault(self, one, body):
        found = Replay.body_fault(self, one, body)
        return None if one == tag and found == reason else found

    def lists(self, body):
        short = Body(body.data)
        counts = [min(count, len(body.data)) for count in body.numbers(4, 4)]
        lists, first = [], 8
        for count in counts:
            lists.append(short.numbers(first, count))
            first += count
        return lists, first

    doc = f"{NAMES[tag]}: a body is good in spite of: {reason}"
    return type("Taken", (Replay,), {"body_fault": body_fault, "lists": lists, "__doc__": doc})


def number_masked(bits):
    def begin_fault(self, body):
        begin, offset = body.number(0) % 2**bits, body.number(1) % 2**bits
        return BEGIN if begin > 1 else OFFSET if begin == 0 and offset else None

    return type("Masked", (Replay,), {"begin_fault": begin_fault, "__doc__": f"begin and offset are tested in their low {bits} bits"})


def renumbered(tag, refusal, other):
    """Another number for a refusal of one record."""

    def step(self, number, place, one, body):
        found = Replay.step(self, number, place, one, body)
        if one != tag or found.answer.refusal != refusal:
            return found
        return replace(found, line=self.line(number, replace(found.answer, refusal=other)))

    return type("Renumbered", (Replay,), {"step": step, "__doc__": f"{NAMES[tag]}: answer {other} for {refusal}"})


BAD_BODIES = ([(tag, reason) for tag in NAMES for reason in (SHORT, LONG)]
              + [(tag, reason) for tag in (READ, WRITE) for reason in (BEGIN, OFFSET)])
ANSWERS = {OPEN: (16,), SET: (1, 2, 3, 4, 5, 6, 7, 9, 10, 17, 18, 19), SEEK: (1, 12, 15), READ: (1, 11, 12, 13),
           WRITE: (1, 11, 12, 13, 14), CHECK: (25,)}

REPLAY_MISREADINGS = (
    OldHandleKept, FirstHandleKept, ViewKept, PointerKept, OpenAtFirst, NewFileAtOpen, SizeAtOpen, UnnamedModeRefused, UnnamedModeReads,
    SizeAtFirst, FilledAtFirst, HandleDropped, FileDropped, *map(file_of, (4096, 32_767, 32_769, 65_536)),
    *map(read_buffer_of, (4096, 32_767, 32_769, 65_536)), ReadBufferOfTheSize, PaddedWriteBuffer, LongWriteBuffer, WriteOfTheBuffer,
    AtThePointer, AtAnOffset, BeginSwapped, ExplicitMoves, ReadAddsTheCount, UnsignedSeek, WhencesSwapped, WhenceFirst,
    EndIsTheSize, CountFirst, ExtentsSwapped, RepresentationCut, AlwaysNative, ListsCut, ListsOfOneLength, DisplacementsFirst,
    PointerAfterARefusedSet, PointerAfterASet, PastTheFile, WithinTheSize, UpToTheSize, EndRefused, EmptyRefused, EmptyAlways, EmptyNever,
    OneMore, WrappingRange, WrappingEmpty, Place32, Place16, SignedPlace, SoundHandleAsked, ReadingAsked, ThroughTheView, AlwaysThere,
    NeverThere, FirstByteOnly, AllButTheLast, CheckOfTheSum, CountOfACheck, CountOfAGoodCheck, CheckMoves, CheckEnds, PointerBefore,
    SizeBefore, NothingForRefusals, NoPointerForRefusals, NoPointerForChecks, PointerBeforeSize, LengthForSize, PlaceForPointer, CountAsked,
    CountOfBytes, FromZero, RefusedNotNumbered, ChecksNotNumbered, NumberedFromTheOpen, PlaceForNumber, TrailingSpace, WithTheTag,
    NextPlace, BodyPlace, PlaceFromOne, StopNumber, NumberedStop, LastPlace, EndOfTrace, StopAtTheEnd,
    *map(ends_silently, (CUT_HEADER, CUT_BODY, UNKNOWN, SHORT, LONG, BEGIN, OFFSET)), UnknownSkipped,
    tags_passed("records of tag 0", (0,)), tags_passed("records of tag 7", (7,)),
    tags_passed("records of the tags 128 to 255", range(128, 256)), tags_passed("records of unknown tag", range(256)), TagMasked,
    CutReplayed, CutHeaderTaken, LengthOfAll, HighByteFirst, LowLengthByte, BodyHighByteFirst, LengthsWrap,
    *(taken(tag, reason) for tag, reason in BAD_BODIES), *map(number_masked, (8, 32, 63)),
    *(renumbered(tag, refusal, refusal + 1) for tag, refusals in ANSWERS.items() for refusal in refusals))


def lines(error, trace):
    """The lines of a wrong copy. Where it fails, there are no more lines."""
    found = []
    try:
        for step in error(Rules()).steps(trace):
            found.append(step.line)
    except (ArithmeticError, LookupError):
        pass
    return found
