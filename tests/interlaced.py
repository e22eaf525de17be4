"""Views whose tiles interlace, by document 02's order 3: rows of the fixed script.

A view is accepted for writing if no two different data bytes of the filetype have places that differ by a multiple of F. Each accepted
view here stands with the file bytes of its first offsets, each refused one with the entry that it names. They are written by hand, or
follow from the numbers of the view; the model has no part in them.
"""

from dataclasses import replace
from math import gcd

from entries import FILETYPE
from model import checksum
from script_rows import READ_ONLY, WRITE_ONLY, every_call, handle_sum, made
from scripts import (ALL_ONES, Request, Shape, end, file_record, forged, give_back, new_file, place, read_at, read_here, reverse,
                     seek, words, write_at, write_here)

P12 = Shape((1,), (0,), 1, (0, 3), 2)
OLD, DATA = 33, 90  # the seeds of the files and of the buffers


def bytes_at(origins, filetype_extent, displacement=0):
    """A view whose etype is one byte."""
    return Shape((1,), (0,), 1, tuple(origins), filetype_extent, displacement)


def entries_at(widths, displacements, filetype_extent, origins=(0,)):
    """A view whose etype has these entries and the extent 1, so that every hole is allowed."""
    return Shape(tuple(widths), tuple(displacements), 1, tuple(origins), filetype_extent)


def from_each(begins, length):
    """The file bytes of etypes that begin at these bytes and lie in one piece."""
    return [range(begin, begin + length) for begin in begins]


# Accepted views, each with the file bytes of its first offsets, up to the end of a tile

ACCEPTED = (
    ("P12", P12, from_each((0, 3, 2, 5, 4, 7, 6, 9), 1)),
    ("P12 at byte 5", replace(P12, displacement=5), from_each((5, 8, 7, 10, 9, 12), 1)),
    ("words at 0 and 12, F = 8", words((0, 12), 8), from_each((0, 12, 8, 20, 16, 28), 4)),
    ("words at 8 and 20, F = 8", words((8, 20), 8), from_each((8, 20, 16, 28), 4)),
    ("words at 0 and 13, F = 9", entries_at((4,), (0,), 9, (0, 13)), from_each((0, 13, 9, 22, 18, 31), 4)),
    ("width 8 at 0 and 24, F = 16", Shape((8,), (0,), 8, (0, 24), 16), from_each((0, 24, 16, 40), 8)),
    ("bytes at 0, 4 and 8, F = 3", bytes_at((0, 4, 8), 3), from_each((0, 4, 8, 3, 7, 11, 6, 10, 14), 1)),
    ("bytes at 0, 5 and 10, F = 3, D = 4", bytes_at((0, 5, 10), 3, 4), from_each((4, 9, 14, 7, 12, 17, 10, 15, 20), 1)),
    ("bytes at 0, 5, 10 and 15, F = 4", bytes_at((0, 5, 10, 15), 4), from_each((0, 5, 10, 15, 4, 9, 14, 19, 8, 13, 18, 23), 1)),
    ("bytes at 0 and 41, F = 2", bytes_at((0, 41), 2), from_each((0, 41, 2, 43, 4, 45), 1)),
    ("bytes at 0, 1 and 8, F = 5", bytes_at((0, 1, 8), 5), from_each((0, 1, 8, 5, 6, 13, 10, 11, 18), 1)),
    ("widths 1, 2, F = 6", Shape((1, 2), (0, 1), 3, (0, 9), 6), from_each((0, 9, 6, 15, 12, 21), 3)),
    ("P8's etype, F = 16", Shape((4, 1), (0, 4), 8, (0, 24), 16), from_each((0, 24, 16, 40), 5)),
    ("an etype that interlaces with itself, F = 2", entries_at((1, 1), (0, 3), 2), [[0, 3], [2, 5], [4, 7], [6, 9]]),
    ("three entries, K = 1, F = 7", entries_at((2, 4, 1), (0, 9, 20), 7),
     [[0, 1, 9, 10, 11, 12, 20], [7, 8, 16, 17, 18, 19, 27], [14, 15, 23, 24, 25, 26, 34]]),
    ("three entries, F = 10, D = 2", Shape((2, 1, 1), (1, 5, 13), 5, (0, 15), 10, 2),
     [[3, 4, 7, 15], [18, 19, 22, 30], [13, 14, 17, 25], [28, 29, 32, 40]]),
    ("three entries, every byte used, F = 10", Shape((2, 1, 2), (1, 5, 13), 15, (0, 15), 10),
     [[1, 2, 5, 13, 14], [16, 17, 20, 28, 29], [11, 12, 15, 23, 24], [26, 27, 30, 38, 39]]),
    ("two entries, K = 3, F = 9", entries_at((1, 2), (0, 4), 9, (0, 12, 24)),
     [[0, 4, 5], [12, 16, 17], [24, 28, 29], [9, 13, 14], [21, 25, 26], [33, 37, 38]]),
)


def first_of_next(shape, etypes, first=None):
    """The lowest byte of the tile after these etypes: no later etype has a byte, or with `first` 0 a begin, below it."""
    first = shape.displacements[0] if first is None else first
    return shape.displacement + len(etypes) // len(shape.origins) * shape.filetype_extent + shape.origins[0] + first


def accepted_views(s):
    """The set in each mode, the places, the lookups of every byte up to the next tile, and the view given back."""
    for name, shape, etypes in ACCEPTED:
        s.section = f"interlaced: {name}"
        n, k = len(shape.widths), len(shape.origins)
        for mode in (1, 2, 3):
            s.open(0, mode)
            s.set(0, shape, pointer=0, view=handle_sum(mode, shape))
        s.places(0, [one[0] - shape.displacements[0] for one in etypes])
        s.owners(0, first_of_next(shape, etypes) - 1, etypes)
        s.add(give_back(0, (n, n, n * k, n * k)), a=shape.displacement, b=n, c=shape.etype_extent, d=n * k, e=shape.filetype_extent)


# Writes

def end_of(etypes):
    """The end of the highest byte of these etypes."""
    return max(max(one) for one in etypes) + 1


def written(size, length, etypes):
    """The size and the bytes of such a file after a write of these etypes."""
    content, stop, places = bytearray(made(OLD, length)), end_of(etypes), [byte for one in etypes for byte in one]
    content[size:stop] = bytes(max(0, stop - size))
    for byte, data in zip(places, made(DATA, len(places))):
        content[byte] = data
    return max(size, stop), content


def write_and_read(s, etypes, offset, count, size, length, at_pointer=False):
    """A write of these etypes from this offset on to a new file, and the read of what it wrote."""
    data = count * len(etypes[0])
    after, content = written(size, length, etypes[offset:offset + count])
    s.add(new_file(0, length, size, OLD))
    if at_pointer:
        s.add(seek(0, 0, offset, 0), pointer=offset)
        s.add(write_here(0, 0, count, data), count=count, pointer=offset + count, size0=after, sum0=checksum(content))
    else:
        s.write(write_at(0, 0, offset, count, data), count, after, content)
    s.add(read_at(0, 0, offset, count, data + 1, 7), count=count, lent1=checksum(made(DATA, data) + b"\x07"))


def writes(s):
    """The length is the end of the highest byte, one less and more; the size is 0, in the middle of the write, and past it."""
    for name, shape, etypes in ACCEPTED:
        s.section = f"interlaced: writes, {name}"
        s.open(0, 3)
        s.set(0, shape)
        for offset, count in [(0, 3), (1, 2), (2, len(etypes) - 2)]:
            stop, size = end_of(etypes[offset:offset + count]), count * sum(shape.widths)
            write_and_read(s, etypes, offset, count, 0, stop)
            s.add(new_file(0, stop - 1, stop // 3, OLD))
            s.add(write_at(0, 0, offset, count, size), 14, count=0, size0=stop // 3, sum0=checksum(made(OLD, stop - 1)))
            write_and_read(s, etypes, offset, count, stop // 2, stop + 4, at_pointer=True)
        write_and_read(s, etypes, 0, 2, stop + 3, stop + 5)


def p12_written(s):
    """Three bytes at 0: the file bytes 0, 3 and 2."""
    s.section = "interlaced: P12 written"
    s.open(0, 3)
    s.set(0, P12)
    one, two, three = made(DATA, 3)
    s.add(new_file(0, 3, 0, OLD))
    s.add(write_at(0, 0, 0, 3, 3), 14, count=0, size0=0, sum0=checksum(made(OLD, 3)))
    s.add(write_here(0, 0, 3, 3), 14, count=0, pointer=0)
    s.add(new_file(0, 4, 0, OLD))
    s.write(write_at(0, 0, 0, 3, 3), 3, 4, bytes((one, 0, three, two)))
    s.add(read_at(0, 0, 0, 3, 3), count=3, lent1=checksum((one, two, three)))
    s.add(read_at(0, 0, 0, 4, 4, 1), count=3, lent1=checksum((one, two, three, 1)))
    s.add(new_file(0, 6, 0, OLD))
    s.add(write_here(0, 0, 3, 3), count=3, pointer=3, size0=4, sum0=checksum(bytes((one, 0, three, two)) + made(OLD, 6)[4:]))
    s.add(write_here(0, 0, 1, 1, 7), count=1, pointer=4, size0=6, sum0=checksum(bytes((one, 0, three, two, 0, 7))))
    s.add(read_here(0, 0, 1, 1), count=1, pointer=5, lent1=checksum((0,)))
    for length, refusal in [(3, 14), (4, 0)]:  # the offsets 1 and 2 have the bytes 3 and 2
        s.add(new_file(0, length, 1, OLD))
        s.add(write_at(0, 0, 1, 2, 2), refusal, count=0 if refusal else 2, size0=1 if refusal else 4)
    s.section = "interlaced: P12 read"
    s.add(new_file(0, 8, 3, OLD))  # the bytes 0 and 2 lie below the size, 3 does not
    s.set(0, P12)
    first, second = made(OLD, 1), made(OLD, 3)[2:]
    for offset, count, moved, data in [(0, 3, 1, first), (0, 1, 1, first), (1, 2, 0, b""), (2, 1, 1, second), (2, 2, 1, second),
                                       (3, 2, 0, b"")]:
        s.add(read_at(0, 0, offset, count, 4, 7), count=moved, pointer=0, lent1=checksum(data.ljust(4, b"\x07")))
    s.add(read_here(0, 0, 3, 4, 7), count=1, pointer=1, lent1=checksum(first.ljust(4, b"\x07")))
    s.add(read_here(0, 0, 2, 4, 7), count=0, pointer=1)
    s.add(seek(0, 0, -1, 2), pointer=2)  # the end is 3: offset 2 begins below the size
    s.add(read_here(0, 0, 2, 4, 7), count=1, pointer=3, lent1=checksum(second.ljust(4, b"\x07")))
    s.section = "interlaced: P12 over its own bytes"
    s.add(new_file(0, 8, 8, OLD))
    content = bytearray(made(OLD, 8))
    for seed, (offset, places) in enumerate([(0, (0, 3, 2)), (1, (3, 2, 5)), (2, (2, 5)), (1, (3,))], 50):
        for byte, data in zip(places, made(seed, len(places))):
            content[byte] = data
        s.write(write_at(0, 0, offset, len(places), len(places), seed), len(places), 8, content)


# Sizes: ends of file, reads that stop short, seeks from the end

def fitting(etypes, size):
    """How many of these etypes, from the first on, lie below the size."""
    short = [index for index, one in enumerate(etypes) if max(one) >= size]
    return short[0] if short else len(etypes)


def last_begin(shape, etypes, size):
    """One past the last of these etypes that begins below the size."""
    begins = [one[0] - shape.displacements[0] for one in etypes]
    return max((offset + 1 for offset, begin in enumerate(begins) if begin < size), default=0)


def sizes(s):
    """Of every other view, sizes at each begin and end of an etype up to the begin of the next tile. The bytes past the size are there,
    but are not read."""
    content = made(OLD, 60)
    for name, shape, etypes in ACCEPTED[::2]:
        s.section = f"interlaced: sizes, {name}"
        s.add(new_file(0, 60, 60, OLD))
        s.open(0, 3)
        s.set(0, shape)
        last = first_of_next(shape, etypes, 0)
        edges = {edge for one in etypes for edge in (one[0], one[0] + 1, one[-1], one[-1] + 1) if edge <= last}
        for index, size in enumerate(sorted(edges | {0, last})):
            stop = last_begin(shape, etypes, size)
            s.add(file_record(0, size))
            s.add(end(0, 0), a=stop)
            offset = index % 3
            moved = fitting(etypes[offset:], size)
            data = bytes(content[byte] for one in etypes[offset:offset + moved] for byte in one)
            asked = len(etypes) - offset
            s.add(read_at(0, 0, offset, asked, asked * len(etypes[0]), 7), count=moved,
                  lent1=checksum(data.ljust(asked * len(etypes[0]), b"\x07")))
            s.add(seek(0, 0, -stop, 2), pointer=0)
        s.add(seek(0, 0, 0, 2), pointer=stop)
        s.add(seek(0, 0, -stop - 1, 2), 12, pointer=stop)
        s.add(seek(0, 0, 1 - stop, 2), pointer=1)
        moved = fitting(etypes[1:], last)
        s.add(read_here(0, 0, len(etypes) - 1, 60), count=moved, pointer=1 + moved)


# Views whose bytes clash

def clashing_groups():
    """Of `clashing`, the views with several entries in the etype."""
    yield "widths 1, 2, F = 6: the last byte", entries_at((1, 2), (0, 1), 6, (0, 10)), 3
    yield "widths 1, 2, F = 5", Shape((1, 2), (0, 1), 3, (0, 9), 5), 3
    yield "P8's etype, F = 17: the last byte", Shape((4, 1), (0, 4), 8, (0, 64), 17), 3
    yield "three entries, the third one byte wider", entries_at((2, 4, 2), (0, 9, 20), 7), 2
    yield "three entries, K = 2, the last one alone", entries_at((2, 1, 1), (1, 5, 19), 10, (0, 22)), 5
    yield "two entries, K = 3, the third group", entries_at((1, 1), (0, 4), 9, (0, 10, 18)), 4
    yield "two entries, K = 3, the last of the second group", entries_at((1, 1), (0, 4), 9, (0, 14, 20)), 3


def clashing():
    """Each with the first entry that has a byte clashing with itself or an earlier entry."""
    yield "entries 0 and 2, F = 2", bytes_at((0, 2), 2), 1
    yield "entries 0 and 4, F = 2", bytes_at((0, 4), 2), 1
    yield "entries 0 and 200, F = 2", bytes_at((0, 200), 2), 1
    yield "words at 0, 4, 8 and 12, F = 8", words((0, 4, 8, 12), 8), 2
    yield "equal displacements", bytes_at((3, 3), 5), 1
    yield "equal displacements, the second and the third", bytes_at((0, 4, 4), 7), 2
    yield "equal displacements in the etype", entries_at((1, 2, 4), (0, 9, 9), 8), 2
    # bytes of one entry
    for w, f in [(2, 1), (4, 1), (4, 2), (4, 3), (8, 1), (8, 3), (8, 4), (8, 7)]:
        yield f"width {w}, F = {f}", entries_at((w,), (0,), f), 0
        yield f"widths 1, {w}, F = {f}", entries_at((1, w), (0, 8 * f + 1), f), 1
    yield "two words, F = 3", words((0, 4), 3), 0
    yield "width 4, E = 8, F = 3", Shape((4,), (0,), 8, (0,), 3), 0
    yield "the last one with itself, the second with the first", entries_at((1, 1, 4), (0, 2, 4), 2), 1
    yield "width 8 after two bytes, F = 7", entries_at((1, 1, 8), (0, 8, 16), 7), 2
    # entries that are no neighbours
    yield "the last with the first alone", bytes_at((0, 4, 9), 3), 2
    yield "the last with the first alone, 5 entries", bytes_at((0, 6, 12, 18, 25), 5), 4
    yield "the last with the second alone", bytes_at((0, 6, 12, 18, 26), 5), 4
    yield "the third with the first alone", bytes_at((0, 5, 8, 15), 4), 2
    yield "the third with the first, the fourth with the second", bytes_at((0, 5, 8, 13), 4), 2
    # bytes in the middle, over a tile's end, and one alone
    yield "a byte with the middle of an earlier entry", entries_at((8, 1), (0, 15), 11), 1
    yield "the middle of an entry with an earlier byte", entries_at((1, 8), (4, 13), 11), 1
    yield "words at 0 and 6, F = 8", entries_at((4,), (0,), 8, (0, 6)), 1
    yield "words at 0 and 14, F = 8", entries_at((4,), (0,), 8, (0, 14)), 1
    yield "P12, one byte wider", entries_at((1, 2), (0, 3), 2), 1
    yield "words at 0 and 13, F = 8: the last byte", entries_at((4,), (0,), 8, (0, 13)), 1
    yield "words at 0 and 12, F = 9: the first byte", entries_at((4,), (0,), 9, (0, 12)), 1
    yield "width 8 at 0 and 25, F = 16: the last byte", entries_at((8,), (0,), 16, (0, 25)), 1
    yield "width 8 at 0 and 23, F = 16: the first byte", entries_at((8,), (0,), 16, (0, 23)), 1
    yield from clashing_groups()


def clashing_views(s):
    for mode in (1, 2, 3):
        s.open(0, mode)
        s.add(seek(0, 0, 7, 0), pointer=7)
        for name, shape, entry in clashing():
            s.section = f"interlaced: clash, mode {mode}: {name}"
            if mode == 1:
                s.set(0, shape, pointer=0)
            else:
                s.set(0, shape, 10, FILETYPE, entry, pointer=7)


def multiples(s):
    """K bytes at 0, m, 2m and so on with F = K: the remainders repeat after K / gcd(K, m) entries, so that this entry is the first that
    clashes. Where K and m have no factor in common no bytes clash; the last byte without an etype is then (K - 1)(m - 1) - 1."""
    s.section = "interlaced: K bytes, m apart, F = K"
    s.open(0, 3)
    for k in range(2, 11):
        for m in (*range(2, 10), 11, 13):
            shape, repeat = bytes_at(range(0, k * m, m), k), k // gcd(k, m)
            if repeat < k:
                s.set(0, shape, 10, FILETYPE, repeat)
                continue
            s.set(0, shape)
            write_and_read(s, from_each(shape.origins, 1), 0, k, m, (k - 1) * m + 1)
            s.add(end(0, 0), a=max((k - 1 - i) * m // k * k + i for i in range(k)) + 1)
            s.add(reverse(0, (k - 1) * (m - 1) - 1), a=0)
            s.add(reverse(0, (k - 1) * (m - 1)), a=1)


# Many entries

def many_entries():
    """Views of the most entries that interlace: name, shape, and the way from an etype to the next in a tile."""
    yield "64 bytes, 65 apart, F = 64", bytes_at(range(0, 64 * 65, 65), 64), 65
    yield "64 of width 8, 520 apart, F = 512", Shape((8,), (0,), 8, tuple(range(0, 64 * 520, 520)), 512), 520
    yield "256 entries, K = 64, F = 256", Shape((1,) * 4, (0, 1, 2, 3), 4, tuple(range(0, 64 * 260, 260)), 256), 260
    yield "256 entries, K = 32, F = 256", Shape((1,) * 8, tuple(range(8)), 8, tuple(range(0, 32 * 264, 264)), 256), 264
    yield "255 entries, K = 51, F = 300", Shape((1,) * 5, tuple(range(5)), 1, tuple(range(0, 51 * 305, 305)), 300), 305


def many(s):
    """Accesses over the tile's end. Then the last group moves: its last byte alone clashes, with the first of all; its first byte, with the
    group before; and by two tiles, so that none does."""
    for name, shape, step in many_entries():
        s.section = f"interlaced: {name}"
        k, n, f, size = len(shape.origins), len(shape.widths), shape.filetype_extent, sum(shape.widths)
        etypes = from_each([tile * f + i * step for tile in (0, 1) for i in range(k)], size)
        s.open(0, 3)
        s.set(0, shape)
        for offset in (0, 1, k // 2, k - 1, k, 2 * k - 1):
            s.add(place(0, offset), a=etypes[offset][0])
            for index in sorted({0, size - 1}):
                s.owner(0, etypes[offset][index], (offset, index))
        for byte in (size, f - 1, 2 * f - 1):  # the bytes of such places lie further on
            s.owner(0, byte)
        for offset, count in [(0, k), (k // 2, k), (k - 1, 2), (k - 2, 1)]:
            write_and_read(s, etypes, offset, count, 0, end_of(etypes[offset:offset + count]))
        others, last = shape.origins[:-1], shape.origins[-1]
        up = -(last + size - 1) % f
        s.set(0, replace(shape, etype_extent=1, origins=others + (last + up,)), 10, FILETYPE, n * k - 1)
        s.set(0, replace(shape, etype_extent=1, origins=others + (last + f - 1,)), 10, FILETYPE, n * (k - 1))
        s.set(0, replace(shape, etype_extent=1, origins=others + (last + 2 * f,)))
        s.add(place(0, k - 1), a=last + 2 * f)


# Check 1

def forged_handles(s):
    """Accepted views are a handle's like any other; one whose bytes clash is one for reading alone."""
    s.add(new_file(0, 120, 100, OLD))
    for name, shape, _ in ACCEPTED[::3]:
        for mode, access in [(1, READ_ONLY), (2, WRITE_ONLY), (3, (0,) * 5)]:
            s.section = f"interlaced: forged, {name}, mode {mode}"
            s.add(forged(1, mode, 1, shape, fill=ALL_ONES), pointer=1)
            every_call(s, 1, 0, access=access)
    rows = {name: shape for name, shape, _ in clashing()}
    chosen = ["entries 0 and 2, F = 2", "entries 0 and 4, F = 2", "width 8, F = 7", "width 4, E = 8, F = 3", "equal displacements",
              "the last with the first alone", "words at 0 and 6, F = 8", "a byte with the middle of an earlier entry",
              "P8's etype, F = 17: the last byte"]
    for name in chosen:
        for mode, refusal, access in [(1, 0, READ_ONLY), (2, 1, ()), (3, 1, ())]:
            s.section = f"interlaced: forged, {name}, mode {mode}"
            s.add(forged(1, mode, 1, rows[name], fill=ALL_ONES), pointer=1)
            every_call(s, 1, 0, refusal, access)


# Orders of checks, limits

def wide_enough(s):
    """One entry, of which no two bytes clash: F is its width or more."""
    s.section = "interlaced: one entry, F at least its width"
    for mode in (2, 3):
        s.open(0, mode)
        for w, f in [(1, 1), (2, 2), (2, 3), (2, 7), (4, 4), (4, 7), (8, 8), (8, 9)]:
            s.set(0, entries_at((w,), (5,), f))
            s.add(place(0, 2), a=2 * f)


def other_rules(s):
    """7 and 9 stand as they were, though no bytes clash; both come before 10."""
    s.section = "interlaced: 7 and 9"
    for mode in (1, 2, 3):
        s.open(0, mode)
        s.add(seek(0, 0, 7, 0), pointer=7)
        for origins, f in [((1, 0), 2), ((3, 0), 2), ((2, 0), 2), ((0, 8, 4), 3), ((0, 4, 2), 3)]:
            s.set(0, bytes_at(origins, f), 7, FILETYPE, 2 if len(origins) == 3 else 1, pointer=7)
        s.set(0, Request(0, 1, 2, (1, 1), (3, 0), (1, 1), (3, 0)), 7, 1, 1, pointer=7)
        s.set(0, Shape((4, 4), (0, 8), 4, (0, 4), 16), 7, FILETYPE, 2, pointer=7)
        s.set(0, words((0, 17), 12), 9, FILETYPE, 1, pointer=7)  # a hole of 13; the bytes 5 to 8 modulo 12
        s.set(0, words((0, 12, 25), 14), 9, FILETYPE, 2, pointer=7)
        s.set(0, words((0, 17), 8), 9, FILETYPE, 1, pointer=7)  # and a clash
        s.set(0, Shape((2,), (0,), 2, (0, 5), 3), 9, FILETYPE, 1, pointer=7)


def last_offsets(s):
    """The largest offsets: places that fall, and bytes that only offset 2^32 or a later one has."""
    last = 2**32 - 1
    s.section = "interlaced: the last offsets, P12"
    s.open(0, 3)
    s.set(0, P12)
    for offset, byte in [(last - 2, last), (last - 1, last - 1), (last, last + 2)]:
        s.add(place(0, offset), a=byte)
        s.owner(0, byte, (offset, 0))
    s.add(place(0, 2**32), 12)
    for byte in (1, last + 1, last + 3, last + 4, 2**40, 2**63 + 1, ALL_ONES - 1, ALL_ONES):
        s.owner(0, byte)
    s.section = "interlaced: the last offsets, bytes at 0, 4 and 8, F = 3"
    s.set(0, bytes_at((0, 4, 8), 3, 2**40))
    for offset, byte in [(last, last), (last - 1, last + 5), (last - 2, last + 1)]:
        s.add(place(0, offset), a=2**40 + byte)
        s.owner(0, 2**40 + byte, (offset, 0))
    for byte in (-1, 1, 2, 5, last + 3, last + 4, last + 8):
        s.owner(0, 2**40 + byte)
    s.section = "interlaced: the largest numbers"
    s.set(0, bytes_at((0, 2**20 - 1), 2, 2**40))
    for offset, byte in [(0, 0), (1, 2**20 - 1), (2, 2), (last, last - 1 + 2**20 - 1), (last - 1, last - 1)]:
        s.add(place(0, offset), a=2**40 + byte)
        s.owner(0, 2**40 + byte, (offset, 0))
    for byte in (1, 2**20 - 3, last + 2**20 - 1 + 1, last + 1):
        s.owner(0, 2**40 + byte)


INTERLACED = (accepted_views, p12_written, writes, sizes, clashing_views, multiples, many, forged_handles, wide_enough, other_rules,
              last_offsets)
