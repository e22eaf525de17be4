"""The generated traces: `generate(seed)` gives one of some 100 to 250 records, `damaged(trace)` many wrong copies of a small one.

The generator replays along, so that it can aim accesses and checks at the view, pointer and file that they will find.
"""

from dataclasses import replace
from random import Random

from generator import DAMAGES, Damage, Shapes
from model import OFFSETS, Body, Rules
from replayer import FILE_LENGTH, Replay
from scripts import ALL_ONES, LARGEST, SMALLEST, Request, Shape, field, record, words
from trace_records import (LONGEST_BODY, LONGEST_CHECK, LONGEST_WRITE, check, open_file, read_at, read_here, seek, set_view, write_at,
                           write_here)

RECORDS = (100, 250)
MOST_LISTED = 8_183  # numbers in the lists of a set whose body is as long as a body can be
BAD_MODES = (4, 5, 7, 2**32, 2**32 + 1, 2**63, ALL_ONES)
BAD_WHENCES = (3, 4, 256, 2**32, ALL_ONES)
UNKNOWN_TAGS = (0, 7, 8, 32, 35, 64, 127, 128, 200, 255)
LIST_NAMES = ("etype_widths", "etype_displacements", "filetype_widths", "filetype_displacements")


class Generator:
    def __init__(self, seed):
        self.rng = Random(f"trace {seed}")
        self.shapes, self.damage = Shapes(self.rng), Damage(self.rng)
        self.replay = Replay(Rules())
        self.records = []
        self.least = self.rng.randint(*RECORDS)
        self.full_early = self.chance(0.1)  # else only the last part of the trace writes up to the file's end

    def emit(self, one):
        self.replay.step(0, 0, one[0], Body(one[3:]))
        self.records.append(one)

    def chance(self, part):
        return self.rng.random() < part

    def rules(self):
        return self.replay.rules

    def view(self):
        return self.replay.handle.view

    def size(self):
        return self.replay.file.size

    def content(self):
        return self.replay.file.data

    def is_sound(self):
        return self.rules().handle_allowed(self.replay.handle)

    def may_fill(self):
        return self.full_early or len(self.records) > 0.8 * self.least

    # Handles and views

    def open(self):
        if self.chance(0.12):
            return self.emit(open_file(self.rng.choice(BAD_MODES)))
        self.emit(open_file(self.rng.choice((0, 1, 1, 2, 2, 3, 3, 3, 3, 3, 3))))

    def shape(self):
        shape = self.shapes.shape(self.replay.handle.mode != 1 or self.chance(0.3))
        if self.chance(0.25):  # near the size, so that writes grow the file and reads are short
            shape = replace(shape, displacement=max(0, self.size() - self.rng.randrange(60)))
        return shape

    def sound_set(self):
        self.emit(set_view(self.shape()))

    def damaged_set(self):
        request = self.damage.damaged(self.shape().request(), self.rng.choice(DAMAGES))
        if self.chance(0.3):
            request = self.damage.damaged(request, self.rng.choice(DAMAGES))
        self.emit(set_view(request))

    def long_lists(self):
        """Lists that are longer than any view's, of equal or of unequal lengths; seldom as long as a body can hold."""
        total = MOST_LISTED if self.chance(0.25) else self.rng.choice((258, 301, 600, 1200, 2500))
        cuts = sorted(self.rng.randint(0, total) for _ in range(3))
        lengths = [b - a for a, b in zip((0, *cuts), (*cuts, total))]
        if self.chance(0.4):
            lengths = [1, 1, total // 2 - 1, total // 2 - 1]
        lists = {name: (self.rng.choice((0, 1, 4, ALL_ONES)),) * length for name, length in zip(LIST_NAMES, lengths)}
        representation = b"native!" if total == MOST_LISTED else b"native"
        self.emit(set_view(Request(0, 4, 4, representation=representation, **lists)))

    def long_representation(self):
        request = self.shape().request()
        room = LONGEST_BODY - 64 - 8 * 2 * (len(request.etype_widths) + len(request.filetype_widths))
        self.emit(set_view(replace(request, representation=(b"native" * 11_000)[:self.rng.choice((300, 5_000, room))])))

    def set(self):
        part = self.rng.random()
        if part < 0.5:
            self.sound_set()
        elif part < 0.94:
            self.damaged_set()
        elif part < 0.98:
            self.long_lists()
        else:
            self.long_representation()

    # Calls

    def file_end(self):
        """The end of file where the handle is sound, else a small number."""
        return self.rules().end_of_file(self.view(), self.size()) if self.is_sound() else self.rng.randrange(10)

    def seek(self):
        whence = self.rng.choice((0, 1, 2, 0, 1, 2, 0, 1, 2, self.rng.choice(BAD_WHENCES)))
        stop = self.file_end()
        base = (0, self.replay.handle.pointer, stop)[whence] if whence < 3 else 0
        near = max(0, stop - self.rng.randrange(5))
        target = self.rng.choice((near, near, near, near, 0, 0, self.rng.randrange(12), -1, OFFSETS, OFFSETS + 1))
        self.emit(seek(self.rng.choice((LARGEST, SMALLEST)) if self.chance(0.05) else target - base, whence))

    def near_seek(self):
        """A seek that the next access at the pointer can use."""
        self.emit(seek(max(0, self.file_end() - self.rng.randrange(8)), 0))

    def etype_size(self):
        return self.rules().etype_size(self.view()) if self.is_sound() else 4

    def count(self):
        small = self.rng.randrange(20)
        return self.rng.choice((0, 1, 1, 2, 2, 3, 4, 5, 9, small, small, self.rng.randrange(300)))

    def count_at(self, offset, part):
        """A count, in this part of the cases one at the limit of check 12."""
        if self.chance(part):
            left = OFFSETS - max(offset, 0)
            return self.rng.choice((left, left + 1, 2**63, ALL_ONES)) % 2**64
        return self.count()

    def read_count(self, offset):
        """Seldom as many as the lent 32,768 bytes hold, or one more."""
        if self.chance(0.06):
            return FILE_LENGTH // self.etype_size() + self.rng.choice((0, 1))
        return self.count_at(offset, 0.05)

    def read_offset(self):
        stop = self.file_end()
        near = max(0, stop - self.rng.randrange(12))
        small = self.rng.randrange(min(stop, 50) + 1)
        limit = self.rng.choice((-1, SMALLEST, LARGEST, OFFSETS - 1, OFFSETS))
        return self.rng.choice((0, 0, near, near, near, small, small, small, stop, limit))

    def read_at(self):
        offset = self.read_offset()
        self.emit(read_at(offset, self.read_count(offset)))

    def read_here(self):
        if self.chance(0.5):
            self.near_seek()
        self.emit(read_here(self.read_count(self.replay.handle.pointer)))

    def data(self, count):
        """A buffer for this many etypes: exact, longer, or too short; seldom the longest."""
        if self.chance(0.005):
            return self.rng.randbytes(LONGEST_WRITE)
        exact = min(count * self.etype_size(), 6_000)
        length = max(0, exact + self.rng.choice((0, 0, 0, 0, 0, 1, 5, 40, -1, -exact if self.chance(0.3) else 0)))
        return self.rng.choice((self.rng.randbytes(length), bytes([self.rng.randrange(256)]) * length))

    def write_offset(self, count):
        """An offset near the end of file, late in the trace one from which this many etypes end near the file's length."""
        if not self.is_sound() or self.chance(0.08):
            return self.rng.choice((0, 1, 5, -1, SMALLEST, LARGEST, OFFSETS - 1, OFFSETS))
        if self.may_fill() and self.chance(0.3):
            room = self.rules().end_of_file(self.view(), FILE_LENGTH)
            return max(0, room - count + self.rng.choice((-2, -1, 0, 0, 1)))
        near = max(0, self.file_end() + self.rng.choice((-6, -3, -2, -1, 0, 0, 1, 4)))
        return self.rng.choice((0, near, near, near, near, self.rng.randrange(50)))

    def write_at(self):
        offset = self.write_offset(self.count())
        count = self.count_at(offset, 0.04)
        self.emit(write_at(offset, count, self.data(count)))
        self.after_write(offset, count)

    def write_here(self):
        count = self.count()
        if self.chance(0.6):
            self.emit(seek(max(0, self.write_offset(count)), 0))
        offset = self.replay.handle.pointer
        count = self.count_at(offset, 0.04) if self.chance(0.2) else count
        self.emit(write_here(count, self.data(count)))
        self.after_write(offset, count)

    def after_write(self, offset, count):
        if self.chance(0.25):
            self.emit(read_at(min(offset, LARGEST), count))
        if self.chance(0.4):
            self.check()

    def exact_write(self):
        """A write that ends at the file's last byte, or one past it."""
        shape, offset, count = self.shape(), self.rng.choice((0, 1, 2, 7)), self.rng.choice((1, 1, 2, 3, 5))
        if not (self.is_sound() and self.replay.handle.mode != 1):
            return self.write_at()
        self.emit(set_view(replace(shape, displacement=0)))
        stop = max(self.rules().mapped(self.view(), offset, count), default=0) + 1
        if not 0 < stop < FILE_LENGTH:
            return self.write_at()
        self.emit(set_view(replace(shape, displacement=FILE_LENGTH - stop + self.rng.choice((0, 1, 1)))))
        self.emit(write_at(offset, count, self.rng.randbytes(count * self.etype_size())))
        self.emit(check(FILE_LENGTH - 20, self.content()[FILE_LENGTH - 20:]))

    # Checks

    def check(self):
        makers = (self.check_range, self.check_range, self.check_range, self.check_range, self.check_wrong_byte, self.check_wrong_byte,
                  self.check_across_size, self.check_past_size, self.check_at_end, self.check_past_end, self.check_empty, self.check_far)
        self.rng.choice(makers)()

    def range(self):
        """A place and a length in the file, mostly below the size."""
        place = self.rng.randrange(self.size() + 1)
        return place, self.rng.choice((0, 1, 1, 2, 5, self.rng.randrange(60))) % (FILE_LENGTH - place + 1)

    def check_range(self):
        if self.chance(0.05):
            return self.check_long()
        place, length = self.range()
        self.emit(check(place, self.content()[place:place + length]))

    def check_wrong_byte(self):
        """Bytes of which one differs, the first, the last or any."""
        place, length = self.range()
        data = bytearray(self.content()[place:place + length])
        if data:
            data[self.rng.choice((0, -1, self.rng.randrange(length)))] ^= self.rng.choice((1, 128, self.rng.randint(1, 255)))
        self.emit(check(place, bytes(data)))

    def check_across_size(self):
        place = max(0, self.size() - self.rng.randrange(9))
        self.emit(check(place, self.content()[place:self.size() + self.rng.randrange(1, 9)]))

    def check_past_size(self):
        """Past the size stand zeros; sometimes the check asks for something else."""
        place = self.rng.randint(self.size(), FILE_LENGTH)
        data = bytearray(min(self.rng.randrange(1, 30), FILE_LENGTH - place))
        if data and self.chance(0.3):
            data[-1] = 1
        self.emit(check(place, bytes(data)))

    def check_at_end(self):
        place = FILE_LENGTH - self.rng.choice((1, 1, 2, 5, 40))
        self.emit(check(place, self.content()[place:]))

    def check_past_end(self):
        """One byte past the file's end, or more; up to the end the bytes are those of the file."""
        place = FILE_LENGTH - self.rng.choice((0, 0, 1, 2, 40))
        self.emit(check(place, self.content()[place:] + bytes(self.rng.choice((1, 1, 2, 30)))))

    def check_empty(self):
        end = FILE_LENGTH
        self.emit(check(self.rng.choice((0, end - 1, end, end, end + 1, end + 1, 2**63, ALL_ONES)), b""))

    def check_far(self):
        """Places so far that place + length passes 2^64, or looks small in fewer bits."""
        length = self.rng.choice((1, 2, 8, 50))
        place = self.rng.choice((2**64 - length, 2**64 - 1, 2**64 - length + self.rng.randrange(length), 2**63, 2**32, 2**16))
        self.emit(check(place, self.rng.choice((bytes(length), self.content()[:length]))))

    def check_long(self):
        """The whole file, one byte more, or the longest body."""
        length = self.rng.choice((FILE_LENGTH, FILE_LENGTH + 1, LONGEST_CHECK))
        self.emit(check(0, self.content() + bytes(length - FILE_LENGTH)))

    # Traces

    def call(self):
        calls = (self.seek, self.read_at, self.read_at, self.read_here, self.read_here, self.check, self.check, self.check)
        writes = (self.write_at, self.write_at, self.write_at, self.write_here, self.write_here, self.write_here)
        can = self.is_sound() and self.replay.handle.mode != 1
        if self.may_fill() and self.chance(0.1):
            return self.exact_write()
        self.rng.choice(writes if self.chance(0.5 if can else 0.2) else calls)()

    def episode(self):
        """An open, sets and some calls."""
        self.open()
        for _ in range(self.rng.choice((0, 1, 1, 2))):
            self.set()
        if self.is_sound() and self.chance(0.7):
            self.sound_set()
        for _ in range(self.rng.randint(5, 18) if self.is_sound() else self.rng.randint(2, 5)):
            if self.chance(0.08):
                self.set()
            self.call()

    def tail(self):
        """What stands after the last good record: mostly something that ends the replay."""
        whole = self.rng.choice(self.records[-20:])
        tails = (lambda: b"", lambda: whole[:self.rng.randint(1, 2)], lambda: whole[:self.rng.randint(3, len(whole) - 1)],
                 lambda: field(self.rng.choice(UNKNOWN_TAGS), self.rng.randbytes(self.rng.choice((0, 8, 16, 300)))) + whole,
                 lambda: bad_length(whole, self.rng) + whole, lambda: bad_numbers(self.rng) + whole,
                 lambda: bad_numbers(self.rng) + whole)
        return self.rng.choice(tails)()

    def trace(self):
        if self.chance(0.2):  # before any open
            for _ in range(4):
                self.call()
        while len(self.records) < self.least:
            self.episode()
        return b"".join(self.records) + self.tail()


def bad_length(whole, rng):
    """A record with some bytes less or more in its body, the header with them."""
    tag, body = whole[0], whole[3:]
    fewer = body[:-rng.choice((1, 1, 8, len(body)))]
    more = (body + rng.randbytes(rng.choice((1, 1, 8))))[:LONGEST_BODY]
    return field(tag, rng.choice((fewer, more)))


def bad_numbers(rng):
    """A bad body of the right length for its numbers' places: an access's begin or offset, or a length that no body has."""
    huge = rng.choice((ALL_ONES, 2**63, 2**61, 2**32))
    return rng.choice((
        record(4, rng.choice((2, 3, 256, 2**32, ALL_ONES)), rng.choice((0, 1)), 1),
        record(5, rng.choice((2, 3, 257, 2**32 + 1, ALL_ONES)), rng.choice((0, 1)), 1, 1, tail=b"x"),
        record(4, 0, rng.choice((1, -1, 2**32, SMALLEST)), 1),
        record(5, 0, rng.choice((1, -1, 2**32, SMALLEST)), 1, 1, tail=b"x"),
        record(5, 1, 0, 1, huge, tail=b"x"),
        record(6, 0, huge, tail=b"x"),
        record(2, huge, 0, 1, 1, 0, 0, 0, 0),
        record(2, 0, 0, 1, 1, 2**61, 0, 0, 0),
        record(2, 2**64 - 8, 0, 1, 1, 1, 0, 0, 0),
        record(2, 0, 0, 1, 1, 2**63, 2**63, 0, 0),
    ))


def generate(seed):
    return Generator(seed).trace()


def small_traces():
    """Two traces with a good record of each kind, for `damaged`."""
    slots = set_view(Shape((4, 1), (0, 4), 8, (0,), 8))
    yield b"".join((open_file(3), slots, write_here(1, b"\x11\x22\x33\x44S"), write_at(2, 1, b"12345"), seek(-1, 2), read_here(2),
                    read_at(0, 3), check(16, b"1234")))
    yield b"".join((open_file(0), write_at(300, 1, b"C"), set_view(words((4,), 12)), seek(3, 0), write_here(0, b""), read_here(1),
                    check(32_767, b"\0"), open_file(4), read_at(0, 1)))


def resized(trace):
    """Copies in which one record's body has some bytes less or more, the header with them."""
    place = 0
    while place < len(trace):
        following = place + 3 + int.from_bytes(trace[place + 1:place + 3], "little")
        body = trace[place + 3:following]
        for length in sorted({0} | {max(0, len(body) + by) for by in (-9, -8, -2, -1, 1, 2, 8, 9)}):
            if length != len(body):
                yield trace[:place] + field(trace[place], (body + bytes(9))[:length]) + trace[following:]
        place = following


def damaged(trace):
    """Copies with one byte changed, each to a few values, with a body of another length, and the trace cut at every length."""
    yield from resized(trace)
    for place, byte in enumerate(trace):
        for other in sorted({byte ^ 1, byte ^ 128, (byte + 1) % 256, 0, 255} - {byte}):
            yield trace[:place] + bytes([other]) + trace[place + 1:]
    for length in range(len(trace)):
        yield trace[:length]
