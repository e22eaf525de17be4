"""The fixed traces: a long shift and small ones, each row a record with the line that the papers and docs/trace.md say of it.

The lines are stated without the model; `faults` compares them with the model's. The shift is the data of crates/replay.
"""

from dataclasses import dataclass, replace

from interlaced import P12, bytes_at
from model import file_bytes
from replayer import Replay, Rules
from scripts import ALL_ONES, LARGEST, SMALLEST, Request, Shape, field, in_a_row, record, words
from trace_records import (LONGEST_CHECK, LONGEST_WRITE, check, in_words, open_file, read_at, read_here, seek, set_view, write_at,
                           write_here)

FILE = 32_768  # bytes of the replayed file, and of a read's buffer
BYTES = Shape((1,), (0,), 1, (0,), 1)  # the default view
FIRST = words((4,), 12, 100)  # P1
SLOTS = Shape((4, 1), (0, 4), 8, (0, 16), 24)  # P8: slots at 0, 16, 24, 40, 48, 64 and so on, 5 bytes each
MEGA = 1_048_576


@dataclass(frozen=True)
class Row:
    section: str
    record: bytes
    line: str


class Trace:
    """Rows with their lines. Pointer and size are stated where a record changes them, else they are those of the row before."""

    def __init__(self, name):
        self.name, self.section, self.rows, self.pointer, self.size = name, name, [], 0, 0

    def add(self, one, answer=0, count=0, pointer=None, size=None):
        self.pointer = self.pointer if pointer is None else pointer
        self.size = self.size if size is None else size
        self.rows.append(Row(self.section, one, f"{len(self.rows) + 1} {answer} {count} {self.pointer} {self.size}"))

    def refused(self, answer, *records):
        for one in records:
            self.add(one, answer)

    def stop(self, one, rest=b""):
        """The record that ends the replay, and what stands after it."""
        self.rows.append(Row(self.section, one + rest, f"stop {len(self.data())}"))

    def open(self, mode):
        self.add(open_file(mode), pointer=0)

    def set(self, request):
        self.add(set_view(request), pointer=0)

    def data(self):
        return b"".join(row.record for row in self.rows)

    def lines(self):
        return [row.line for row in self.rows]


def every_call():
    """A record of each call, all of them good."""
    return (set_view(BYTES), seek(0, 0), seek(5, 3), read_here(0), read_here(1), read_at(-1, 1), read_at(0, 0), write_here(1, b"x"),
            write_here(0, b""), write_at(0, 1, b""), write_at(40_000, 1, b"x"))


# The shift. The size only grows, so each section begins with the size that the one before left.

def before_any_open(s):
    s.section = "before any open"
    s.add(check(0, b""))
    s.add(check(0, bytes(5)))
    s.refused(25, check(0, b"\1"))
    s.add(check(0, bytes(FILE)))
    s.refused(1, *every_call())
    s.refused(16, open_file(4), open_file(5), open_file(2**32), open_file(2**32 + 1), open_file(ALL_ONES))
    s.refused(1, *every_call())


def p9(s):
    s.section = "P9"
    s.open(3)
    s.set(words((4,), 12))
    s.add(read_at(0, 1), count=0)
    s.add(write_at(0, 2, b"AAAABBBB"), count=2, size=20)
    s.add(check(0, bytes(4) + b"AAAA" + bytes(8) + b"BBBB"))
    s.add(check(20, bytes(100)))
    s.add(read_at(0, 3), count=2)
    s.add(read_here(3), count=2, pointer=2)
    s.add(read_here(3), count=0)


def p8(s):
    """Slots with a lot and a state; the size is 20."""
    s.section = "P8"
    s.open(3)
    s.set(SLOTS)
    s.add(write_at(1, 1, b"LOT1S"), count=1, size=21)
    s.add(check(16, b"LOT1S"))
    s.add(check(21, bytes(3)))
    s.add(write_at(2, 2, b"LOT2SLOT3S"), count=2, size=45)
    s.add(check(21, bytes(3) + b"LOT2S" + bytes(11) + b"LOT3S"))
    s.add(seek(4, 0), pointer=4)
    s.add(write_here(1, b"LOT4S"), count=1, pointer=5, size=53)
    s.add(check(45, bytes(3) + b"LOT4S"))
    s.add(read_here(1), count=0)
    s.add(read_at(0, 9), count=5)
    s.add(write_at(1, 1, b"LOT1C"), count=1)  # cancelled
    s.add(check(16, b"LOT1C"))
    s.refused(25, check(16, b"LOT1S"))
    s.add(seek(0, 2), pointer=5)
    s.add(seek(-1, 1), pointer=4)
    s.add(read_here(2), count=1, pointer=5)


def p1_to_p3(s):
    """A byte view grows the file from 53 bytes to the sizes of the figures, P1's view looks at it."""
    s.section = "P1 to P3"
    s.open(3)
    s.add(write_at(103, 1, b"x"), count=1, size=104)
    s.add(check(53, bytes(50) + b"x"))
    for size, end in ((104, 0), (116, 1), (117, 2)):
        s.set(BYTES)
        s.add(write_at(size - 1, 1, b"x"), count=1, size=size)
        s.set(FIRST)
        s.add(seek(0, 2), pointer=end)
    for size, moved in ((119, 1), (120, 2)):
        s.set(BYTES)
        s.add(write_at(size - 1, 1, b"x"), count=1, size=size)
        s.set(FIRST)
        s.add(read_at(0, 3), count=moved)
    s.add(write_at(2, 1, b"WORD"), count=1, size=132)
    s.add(check(120, bytes(8) + b"WORD"))


def p4_to_p7(s):
    """The size is 132. P6 and P7 lie at 124, so that the file has 8 bytes of theirs."""
    s.section = "P4 to P7"
    s.open(3)
    s.add(seek(9, 0), pointer=9)
    s.refused(9, set_view(words((2,), 12)))
    s.refused(10, *map(set_view, (words((0, 2), 6), words((0, 4), 4), words((0, 8), 4))))
    s.add(read_here(1), count=1, pointer=10)  # the default view stands
    s.open(1)
    s.set(words((0, 2), 6))
    s.set(words((0, 4), 4, 124))
    s.add(seek(0, 2), pointer=3)
    s.add(read_at(0, 5), count=3)
    s.set(words((0, 8), 4, 124))
    s.add(seek(0, 2), pointer=3)
    s.add(read_at(0, 3), count=1)
    s.add(read_at(2, 2), count=1)


def p12(s):
    """The size is 132. P12 lies at 60: the bytes 60, 63, 62, 65 and so on."""
    s.section = "P12"
    s.open(3)
    s.add(seek(9, 0), pointer=9)
    s.refused(10, *map(set_view, (bytes_at((0, 2), 2), bytes_at((0, 4), 2))))
    s.set(replace(P12, displacement=60))
    s.add(write_at(0, 3, b"ABC"), count=3)
    s.add(check(60, b"A\0CB\0"))
    s.add(write_here(2, b"DE"), count=2, pointer=2)
    s.add(check(60, b"D\0CE\0"))
    s.add(read_here(3), count=3, pointer=5)
    s.add(seek(0, 2), pointer=71)  # offset 70 begins at 130, 71 at 133
    s.add(read_at(69, 3), count=2)
    s.open(2)
    s.set(replace(P12, displacement=60))
    s.add(write_at(2, 2, b"FG"), count=2)
    s.add(check(60, b"D\0FE\0G\0"))
    s.open(1)
    s.set(P12)
    s.set(bytes_at((0, 2), 2))


def p10_and_p11(s):
    s.section = "P10, P11"
    s.open(3)
    s.add(seek(5, 0), pointer=5)
    s.refused(12, seek(-6, 1), seek(-1, 0), seek(2**32 + 1, 0), seek(2**32 - 4, 1), seek(-133, 2), seek(2**32 - 131, 2))
    s.refused(12, *(seek(offset, whence) for offset in (LARGEST, SMALLEST) for whence in (0, 1, 2)))
    s.refused(15, seek(0, 3), seek(0, 2**32), seek(0, 256), seek(0, ALL_ONES), seek(-6, 3))
    s.add(seek(-5, 1), pointer=0)
    s.add(seek(-132, 2), pointer=0)
    s.add(seek(3, 2), pointer=135)
    s.add(seek(2**32, 0), pointer=2**32)
    s.add(read_here(0))
    s.add(write_here(0, b""))
    s.refused(12, read_here(1), write_here(1, b"x"), read_here(ALL_ONES), write_here(ALL_ONES, b"x"))
    s.add(seek(-(2**32), 1), pointer=0)
    s.add(read_at(2**32 - 1, 1))
    s.add(read_at(2**32, 0))
    s.add(write_at(2**32, 0, b"x"))
    s.refused(12, read_at(2**32 - 1, 2), read_at(2**32, 1), read_at(-1, 1), read_at(-1, 0), read_at(SMALLEST, 0), read_at(LARGEST, 0),
              read_at(1, ALL_ONES), read_at(0, 2**32 + 1), write_at(2**32 - 1, 2, b"xy"), write_at(-1, 1, b"x"), write_at(1, ALL_ONES, b""))
    s.refused(14, write_at(2**32 - 1, 1, b"x"))


def modes(s):
    s.section = "modes"
    s.open(1)
    s.refused(11, write_here(1, b"x"), write_at(0, 0, b""), write_at(-1, 1, b"x"))
    s.add(read_at(0, 3), count=3)
    s.add(read_here(4), count=4, pointer=4)
    s.open(2)
    s.refused(11, read_here(1), read_at(0, 0), read_at(-1, 1))
    s.add(write_here(2, b"mm"), count=2, pointer=2)
    s.add(check(0, b"mm\0\0AAAA"))
    s.section = "open that names no mode"
    s.open(0)
    s.add(write_here(2, bytes(2)), count=2, pointer=2)
    s.add(read_here(4), count=4, pointer=6)
    s.add(check(0, bytes(4) + b"AAAA"))


def refused_sets(s):
    """Each refusal of a set, with the default view and pointer 7 staying."""
    word, pair = words((0, 4), 8).request(), in_a_row(2, 2).request()
    s.section = "refused sets"
    s.open(3)
    s.add(seek(7, 0), pointer=7)
    for name in (b"", b"nativ", b"native\0", b"NATIVE", b"external32", bytes(6)):
        s.refused(2, set_view(replace(word, representation=name)))
    for displacement in (-1, 2**40 + 1, LARGEST, SMALLEST):
        s.refused(3, set_view(replace(word, displacement=displacement)))
    s.refused(4, *(set_view(replace(pair, **{name: getattr(pair, name)[:-1]})) for name in (
        "etype_widths", "etype_displacements", "filetype_widths", "filetype_displacements")))
    s.refused(4, set_view(replace(pair, etype_widths=(), etype_displacements=())), set_view(in_a_row(9, 1)), set_view(in_a_row(1, 65)),
              set_view(replace(pair, filetype_widths=(), filetype_displacements=())), set_view(in_a_row(1, 900)))
    for extent in (0, -1, MEGA + 1, SMALLEST):
        s.refused(5, set_view(replace(word, etype_extent=extent)), set_view(replace(word, filetype_extent=extent)))
    s.refused(6, *(set_view(replace(word, etype_widths=(width,))) for width in (0, 3, 16, ALL_ONES)))
    s.refused(6, *(set_view(replace(word, filetype_displacements=(0, d))) for d in (-1, MEGA - 3, SMALLEST)))
    s.refused(7, set_view(replace(word, filetype_displacements=(4, 0))), set_view(replace(pair, etype_displacements=(1, 0))))
    s.refused(17, set_view(replace(pair, filetype_widths=(1,) * 3, filetype_displacements=(0, 1, 2))))
    s.refused(18, set_view(replace(word, filetype_widths=(4, 2))), set_view(replace(pair, filetype_displacements=(0, 1, 2, 4))))
    s.refused(19, set_view(replace(word, etype_displacements=(1,))))
    s.refused(9, set_view(replace(word, filetype_extent=9)))
    s.refused(10, set_view(replace(word, filetype_extent=7)))
    s.add(read_here(1), count=1, pointer=8)
    s.section = "sets at the limits"
    s.set(replace(word, displacement=2**40))
    s.add(seek(0, 2), pointer=0)
    s.refused(14, write_at(0, 1, b"WORD"), write_here(1, b"WORD"))
    s.set(in_a_row(8, 32))
    s.add(seek(0, 2), pointer=17)  # 16 etypes of 8 bytes lie below 132, and one begins there
    s.add(read_at(0, 20), count=16)


def handles(s):
    """A handle is replaced at each open: its pointer and its view are new ones. The file stays."""
    s.section = "a handle for each open"
    s.open(3)
    s.set(SLOTS)
    s.add(seek(3, 0), pointer=3)
    s.open(3)
    s.add(read_here(30), count=30, pointer=30)
    s.open(1)
    s.refused(11, write_here(1, b"x"))
    s.set(SLOTS)
    s.add(read_here(3), count=3, pointer=3)
    s.add(open_file(4), 16, pointer=0)
    s.refused(1, *every_call())
    s.add(check(16, b"LOT1C"))
    s.refused(25, check(16, b"LOT1S"))
    s.refused(1, seek(0, 0))
    s.open(2)
    s.add(write_at(16, 1, b"K"), count=1)
    s.add(check(16, b"KOT1C"))
    s.refused(11, read_at(0, 1))
    s.add(open_file(ALL_ONES), 16, pointer=0)
    s.refused(1, write_at(0, 1, b"x"))
    s.open(3)
    s.add(write_at(16, 1, b"L"), count=1)
    s.add(check(16, b"LOT1C"))


def accesses(s):
    """Counts and buffers that fit or not, and explicit accesses that leave the pointer. The size is 132."""
    s.section = "accesses"
    s.open(3)
    s.add(seek(9, 0), pointer=9)
    s.add(read_at(0, FILE), count=132)
    s.add(read_at(131, 2), count=1)
    s.add(read_at(132, 2), count=0)
    s.refused(13, read_at(0, FILE + 1), read_here(FILE + 1), read_at(0, 2**32), read_at(132, FILE + 1))
    s.refused(13, write_at(0, 2, b"x"), write_at(0, 1, b""), write_here(1, b""), write_here(5, b"1234"), write_at(0, 2**32, b"x"),
              write_at(FILE, 2, b"x"))
    s.refused(14, write_at(FILE, 1, b"x"), write_at(FILE - 1, 2, b"xy"), write_at(0, FILE + 1, bytes(FILE + 1)))
    s.add(write_at(4, 1, b"AND MORE"), count=1)
    s.add(check(4, b"AAAA"))
    s.add(write_at(4, 0, b"ZZZZ"))
    s.add(write_at(4, 4, b"ABCD"), count=4)
    s.add(check(3, b"\0ABCD\0"))
    s.add(write_here(3, b"EFG"), count=3, pointer=12)
    s.add(check(8, b"\0EFG\0"))
    s.add(read_here(2), count=2, pointer=14)
    s.add(read_here(0))
    s.add(read_here(200), count=118, pointer=132)
    s.set(words((0,), 4))
    s.add(read_at(0, 8192), count=33)
    s.refused(13, read_at(0, 8193), read_here(8193))
    s.set(SLOTS)
    s.add(read_at(0, 6553), count=11)  # 6,553 slots of 5 bytes; the eleventh ends at 125
    s.refused(13, read_at(0, 6554), write_at(0, 2, b"LOT5SLOT6"), write_here(1, b"LOT5"))
    s.add(write_here(1, b"LOT0S"), count=1, pointer=1)
    s.add(check(0, b"LOT0SBCD\0EFG"))


def checks(s):
    """Every edge of a check; the size is 132, and `WORD` ends there."""
    s.section = "checks"
    s.add(check(128, b"WORD"))
    s.refused(25, *(check(128, other) for other in (b"XORD", b"WORE", b"WARD", b"word", b"DROW", b"\0\0\0\0")))
    s.refused(25, check(127, b"WORD"), check(129, b"WORD"))
    s.add(check(128, b"WORD" + bytes(4)))
    s.refused(25, check(128, b"WORD\0\0\0\1"))
    s.add(check(132, bytes(9)))
    s.refused(25, check(132, b"\0\1"), check(131, b"\0"))
    s.add(check(FILE - 1, b"\0"))
    s.add(check(FILE - 5, bytes(5)))
    s.refused(25, check(FILE - 1, b"\1"), check(FILE - 1, bytes(2)), check(FILE - 5, bytes(6)), check(FILE, b"\0"), check(FILE + 1, b"\0"))
    for place in (0, 131, 132, FILE - 1, FILE):
        s.add(check(place, b""))
    s.refused(25, *(check(place, b"") for place in (FILE + 1, 2**16, 2**32, 2**63, 2**64 - FILE, ALL_ONES)))
    s.refused(25, *(check(2**64 - length, bytes(length)) for length in (1, 2, 8, 40)))  # the sum is 2^64
    s.refused(25, check(ALL_ONES, b"\0L"), check(2**64 - 4, bytes(4) + b"LOT0"), check(2**64 - 4, bytes(8)), check(2**64 - 200, bytes(300)))
    s.refused(25, check(2**16 + 200, b"\0"), check(2**32, b"L"), check(2**32 + 200, b"\0"), check(2**63 + 200, b"\0"))
    s.refused(25, check(20_000, bytes(LONGEST_CHECK)))
    s.refused(25, check(200, bytes(FILE - 199)))
    s.add(check(200, bytes(FILE - 200)))


def the_last_byte(s):
    """P9 at the end of the file: one byte too far, and exactly at the end."""
    s.section = "P9 at the end of the file"
    s.set(words((4,), 12, FILE - 19))
    s.refused(14, write_at(0, 2, b"LASTWORD"))
    s.set(words((4,), 12, FILE - 20))
    s.add(write_here(2, b"LASTWORD"), count=2, pointer=2, size=FILE)
    s.add(check(132, bytes(FILE - 16 - 132)))
    s.add(check(FILE - 16, b"LAST" + bytes(8) + b"WORD"))
    s.refused(25, check(FILE - 4, b"WORD\0"))
    s.add(check(FILE, b""))
    s.refused(25, check(FILE + 1, b""))
    s.refused(14, write_here(1, b"MORE"))
    s.add(seek(0, 2), pointer=2)


def long_bodies(s):
    s.section = "long bodies"
    data = file_bytes(LONGEST_WRITE, 90)
    lists = [(1,) * 2_046, (0,) * 2_046, (1,) * 2_046, (0,) * 2_045]  # 8,183 numbers
    s.refused(4, set_view(Request(0, 1, 1, *lists)))
    s.open(3)
    s.add(seek(1, 0), pointer=1)
    s.refused(14, write_here(FILE, data[:FILE]))
    s.add(seek(0, 0), pointer=0)
    s.add(write_here(FILE, data), count=FILE, pointer=FILE)
    s.add(check(0, data[:FILE]))
    s.refused(25, check(0, data[:FILE] + data[FILE:FILE + 1]), check(1, data[:FILE - 1]))
    s.add(read_at(0, FILE), count=FILE)
    s.refused(13, read_at(0, FILE + 1))
    s.add(read_here(1), count=0)
    s.add(seek(-1, 2), pointer=FILE - 1)
    s.add(read_here(2), count=1, pointer=FILE)


SECTIONS = (before_any_open, p9, p8, p1_to_p3, p4_to_p7, p12, p10_and_p11, modes, refused_sets, handles, accesses, checks,
            the_last_byte, long_bodies)


def shift():
    s = Trace("shift")
    for section in SECTIONS:
        section(s)
    s.section = "the end"
    s.stop(record(5, 0, 1, 1, 1, tail=b"x"), open_file(3))
    return s


# Small traces

def started(name):
    """A trace that begins with an open and a seek."""
    s = Trace(name)
    s.open(3)
    s.add(seek(7, 0), pointer=7)
    return s


def stopped(name, one, rest=None):
    """A trace that this record ends; good records stand after it, unless it is cut short."""
    s = started(name)
    s.stop(one, open_file(3) + seek(1, 0) if rest is None else rest)
    return s


def cut(one):
    """The record cut in its header, after it, and in its body."""
    for length in sorted({1, 2, 3, 4, len(one) // 2, len(one) - 1}):
        yield stopped(f"tag {one[0]} cut to {length} of {len(one)} bytes", one[:length], b"")


def cut_records():
    good = (open_file(3), set_view(SLOTS), seek(1, 0), read_here(1), read_at(0, 1), write_here(1, b"x"), write_at(0, 1, b"x"),
            check(0, b"\0"))
    for one in good + (check(0, bytes(LONGEST_CHECK)), field(9, bytes(30))):
        yield from cut(one)
    yield stopped("a length of 65,535 and no body", b"\1\xff\xff", b"")


def unknown_tags():
    for tag in (0, 7, 8, 16, 31, 32, 35, 64, 127, 128, 129, 134, 254, 255):
        for length in (0, 8):
            yield stopped(f"tag {tag} with {length} bytes", field(tag, (3).to_bytes(8, "little")[:length]))


def bad_lengths():
    good = {"open": open_file(3), "set": set_view(SLOTS), "seek": seek(1, 0), "read": read_here(1), "read at": read_at(0, 1),
            "write": write_here(1, b"xy"), "write at": write_at(0, 1, b"xy"), "check": check(0, bytes(2))}
    for name, one in good.items():
        body = one[3:]
        for length in sorted({0, 1, 7, 8, 15, 16, 24, 31, 32, len(body) - 8, len(body) - 1} - {len(body)}):
            if 0 <= length < len(body):
                yield stopped(f"{name} of {length} bytes, not {len(body)}", field(one[0], body[:length]))
        for more in (1, 8):
            yield stopped(f"{name} of {len(body) + more} bytes, not {len(body)}", field(one[0], body + bytes(more)))


def bad_counts():
    """Lengths in a body that do not fit it; in the last ones only the sum in 64 bits would."""
    for n in (0, 1, 3, 258, 2**32 + 2, 2**63, ALL_ONES):
        yield stopped(f"a write that says {n} and has 2 bytes", record(5, 1, 0, 1, n, tail=b"xy"))
        yield stopped(f"a check that says {n} and has 2 bytes", record(6, 0, n, tail=bytes(2)))
    for index in (0, 4, 5, 6, 7):
        for by in (1, -1, 2**32, 2**61, 2**63):
            numbers = [6, 0, 1, 1, 1, 1, 1, 1, 1, 0, 1, 0]
            numbers[index] += by
            yield stopped(f"a set whose number {index} is {numbers[index]}", record(2, *numbers, tail=b"native"))
    for numbers in ((0, 0, 1, 1, 2**61, 0, 0, 0), (0, 0, 1, 1, 2**60, 2**60, 0, 0), (0, 0, 1, 1, 0, 0, 2**63, 2**63),
                    (2**64 - 8, 0, 1, 1, 1, 0, 0, 0), (2**64 - 16, 0, 1, 1, 0, 1, 0, 1)):
        yield stopped(f"a set whose length is a sum past 2^64: {numbers[0]}; {numbers[4:]}", record(2, *numbers))


def bad_begins():
    for begin in (2, 3, 255, 256, 257, 2**32, 2**32 + 1, 2**63, ALL_ONES):
        for offset in (0, 1):
            yield stopped(f"a read that begins by {begin}, offset {offset}", record(4, begin, offset, 1))
            yield stopped(f"a write that begins by {begin}, offset {offset}", record(5, begin, offset, 1, 1, tail=b"x"))
    for offset in (1, -1, 7, 256, 2**32, 2**56, LARGEST, SMALLEST):
        yield stopped(f"a read at the pointer with offset {offset}", record(4, 0, offset, 1))
        yield stopped(f"a write at the pointer with offset {offset}", record(5, 0, offset, 1, 1, tail=b"x"))


def whole_traces():
    """Traces that end after a whole record, so that no line says `stop`."""
    yield Trace("an empty trace")
    s = Trace("one open with mode 3")
    s.rows.append(Row(s.section, open_file(3), "1 0 0 0 0"))  # as document 02 has it
    yield s
    yield started("an open and a seek")
    s = Trace("the longest representation")
    s.open(3)
    s.refused(2, set_view(replace(words((0,), 4).request(), representation=b"n" * (65_535 - 64 - 32))))
    yield s
    s = Trace("the longest lists and a representation of 7 bytes")
    s.open(3)
    s.refused(2, set_view(Request(0, 1, 1, (1,) * 8_180, (0,), (1,), (0,), b"native!")))
    yield s
    s = Trace("the longest write, of nothing")
    s.open(3)
    s.add(write_at(0, 0, bytes(LONGEST_WRITE)))
    s.refused(14, write_at(0, LONGEST_WRITE, bytes(LONGEST_WRITE)))
    s.refused(13, write_at(0, LONGEST_WRITE + 1, bytes(LONGEST_WRITE)))
    yield s


def p12_traces():
    """P12's view: the highest byte of a write is not always its last one."""
    s = Trace("P12")
    s.open(3)
    s.set(P12)
    s.add(write_here(3, b"ABC"), count=3, pointer=3, size=4)
    s.add(check(0, b"A\0CB\0"))
    s.add(read_at(0, 4), count=3)
    s.add(write_here(1, b"D"), count=1, pointer=4, size=6)
    s.add(check(0, b"A\0CB\0D\0"))
    s.add(read_here(2), count=1, pointer=5)  # byte 4; byte 7 is past the size
    s.add(seek(0, 2), pointer=5)  # offset 4 begins at 4, offset 5 at 7
    s.add(write_at(1, 2, b"bc"), count=2)
    s.add(check(0, b"A\0cb\0D\0"))
    yield s
    s = Trace("P12, read short before a byte that is in the file")
    s.open(3)
    s.add(write_at(0, 3, b"xyz"), count=3, size=3)
    s.set(P12)
    s.add(read_at(0, 3), count=1)
    s.add(read_here(3), count=1, pointer=1)
    s.add(read_here(2), count=0)
    s.add(seek(-1, 2), pointer=2)
    s.add(read_here(2), count=1, pointer=3)
    yield s
    for more, answer in [(0, 0), (1, 14)]:
        s = Trace(f"P12 at the end of the file, {more} bytes further on")
        s.open(3)
        s.set(replace(P12, displacement=FILE - 4 + more))
        s.add(write_at(0, 3, b"ABC"), answer, count=0 if answer else 3, size=0 if answer else FILE)
        s.add(write_here(2, b"DE"), answer, count=0 if answer else 2, pointer=0 if answer else 2)
        s.add(check(FILE - 4, bytes(4) if answer else b"D\0CE"))
        yield s


def interlaced_traces():
    """Views whose tiles interlace."""
    yield from p12_traces()
    s = Trace("words at 0 and 12, F = 8")
    s.open(2)
    s.set(words((0, 12), 8))
    s.add(write_at(1, 2, b"ONE.TWO."), count=2, size=16)
    s.add(check(0, bytes(8) + b"TWO.ONE."))
    s.add(write_here(4, b"ZEROone.two.FOUR"), count=4, pointer=4, size=24)
    s.add(check(0, b"ZERO" + bytes(4) + b"two.one." + bytes(4) + b"FOUR"))
    yield s
    s = Trace("an etype of two entries that interlaces with itself")
    s.open(3)
    s.set(Shape((1, 1), (0, 3), 1, (0,), 2))
    s.add(write_here(3, b"AaBbCc"), count=3, pointer=3, size=8)
    s.add(check(0, b"A\0BaCb\0c"))
    s.add(read_at(0, 4), count=3)
    s.refused(10, set_view(Shape((1, 2), (0, 3), 1, (0,), 2)), set_view(Shape((1, 1), (0, 4), 1, (0,), 2)))
    yield s


def records_across(border, before):
    """A trace in which a record begins this many bytes before a place that is a multiple of 64 KiB; the file is all 0 up to there."""
    s = Trace(f"a record that begins {before} bytes before byte {border}")
    s.open(3)
    left = border - before - len(s.data())
    while left:
        length = min(left, 30_000) if left > 30_019 or left <= 30_000 else left - 19  # of a record; the last one has at least 19
        s.add(check(0, bytes(length - 19)))
        left -= length
    s.add(write_at(2, 1, b"x"), count=1, size=3)
    s.add(check(0, b"\0\0x"))
    s.add(read_here(2), count=2, pointer=2)
    s.refused(25, check(0, b"x"))
    s.stop(field(7, b""))
    return s


def pieces():
    for border in (65_536, 131_072, 196_608):
        for before in (0, 1, 2, 3, 4, 20, 35, 36, 37, 38):
            yield records_across(border, before)


def small():
    for some in (whole_traces, interlaced_traces, cut_records, unknown_tags, bad_lengths, bad_counts, bad_begins, pieces):
        yield from some()


def traces():
    return [shift(), *small()]


def wrong(trace, lines):
    """The rows whose line is another one, with that line; a line after the last row has no row."""
    given = list(lines)
    for row, line in zip(trace.rows, given + ["(no line)"] * len(trace.rows)):
        if row.line != line:
            yield row, line
    for line in given[len(trace.rows):]:
        yield Row(trace.name, b"", "(no line)"), line


def faults():
    """Where the model's lines differ from what the rows state."""
    return [f"{trace.name}: {row.section}: {in_words(row.record)}: {line}, expected {row.line}"
            for trace in traces() for row, line in wrong(trace, (step.line for step in Replay(Rules()).steps(trace.data())))]
