"""The fixed script: document 01's figures, its six errors, both ends of each limit in every call that tests it, the orders of checks,
the types and entries that refused sets name by document 02's order 1, the views whose tiles interlace by its order 3, and the types built
from recipes by its order 4.

Each row states a record with what the two documents say of its line; `faults` compares that with the model's lines.
"""

from dataclasses import replace

from entries import ETYPE, FILETYPE, MEGA, NAMED, changed, spread
from interlaced import INTERLACED, P12
from model import Body, checksum, run
from recipe_rows import RECIPES
from script_rows import BYTES, NAMING, READ_ONLY, RECIPE, SET, SET_FROM_RECIPES, WRITE_ONLY, Script, every_call, handle_sum, made
from scripts import (ALL_ONES, LARGEST, LINE, SMALLEST, Request, Shape, decode, end, field, file_record, forged, give_back, in_a_row,
                     new_file, one_changed, open_handle, place, read_at, read_here, record, reverse, seek, words, write_at, write_here)

FIRST = words((4,), 12, 100)  # P1
LOOSE = Shape((4, 1), (0, 4), 8, (0, 16), 24)  # P8
PARTS = Shape((2, 1, 4), (1, 4, 6), 12, (0, 12), 36, 2)  # bytes 3, 4, 6, 8 to 11, and 12 further on
GOOD_WIDTHS = (1, 2, 4, 8)
BAD_WIDTHS = (0, 3, 5, 6, 7, 9, 10, 11, 12, 13, 14, 15, 16, 17, 32, 64, 256, 2**31, 2**32, 2**32 + 1, 2**32 + 4, 2**63, ALL_ONES)
MOST_INSTANCES = {1: 64, 2: 64, 3: 64, 4: 64, 5: 51, 6: 42, 7: 36, 8: 32}  # by the etype's entries: at most 64, and 256 entries in all


def bad_names():
    """What is not `native`: its beginnings, what is longer, and each single byte of it changed."""
    name = b"native"
    beginnings = [name[:length] for length in range(6)]
    longer = [name + more for more in (b"\0", b" ", b"e", b"32", name)] + [b"\0" + name, b" " + name, b"nnative"]
    changed = [name[:i] + bytes([other]) + name[i + 1:] for i, byte in enumerate(name)
               for other in (byte ^ 0x20, byte + 1, byte - 1, byte ^ 0x80, 0)]
    return beginnings + longer + changed + [b"NATIVE", b"evitan", b"\0" * 6, b"internal", b"external32"]


# Document 01's figures

def p1_to_p3(s):
    s.section = "P1 to P3"
    s.add(new_file(0, 200, 104, 1))
    s.open(0, 1)
    s.set(0, FIRST)
    s.places(0, [104, 116, 128, 140])
    s.ends(0, 0, [(0, 0), (104, 0), (105, 1), (116, 1), (117, 2), (128, 2), (129, 3)])
    for size, moved in [(107, 0), (108, 1), (118, 1), (119, 1), (120, 2), (131, 2), (132, 3)]:
        s.add(file_record(0, size))
        s.add(read_at(0, 0, 0, 3, 16), count=moved, pointer=0)


def for_writing(mode, entry):
    """What a set of bytes that clash states in this mode: refusal 10 with the filetype's entry, and nothing for reading."""
    return () if mode == 1 else (10, FILETYPE, entry)


def p4_and_p5(s):
    s.section = "P4, P5"
    for mode in (1, 2, 3):
        s.open(0, mode)
        s.set(0, words((2,), 12), 9, FILETYPE, 0)
        s.set(0, words((0, 2), 6), *for_writing(mode, 1))
        s.add(place(0, 1), a=2 if mode == 1 else 1)


def p6_and_p7(s):
    s.section = "P6, P7"
    for mode in (1, 2, 3):
        s.open(0, mode)
        s.set(0, words((0, 4), 4), *for_writing(mode, 1))
    s.open(1, 1)
    s.add(new_file(1, 64, 8, 3))
    s.set(1, words((0, 4), 4))
    s.places(1, [0, 4, 4, 8, 8])
    s.ends(1, 1, [(4, 1), (5, 3), (8, 3), (9, 5)])
    s.set(1, words((0, 8), 4))
    s.places(1, [0, 8, 4, 12])
    s.ends(1, 1, [(4, 1), (5, 3), (8, 3), (9, 5)])
    s.add(file_record(1, 8))
    s.add(read_at(1, 1, 0, 3, 12), count=1)
    s.add(read_at(1, 1, 2, 3, 12), count=1)
    s.set(1, words((0, 8, 16), 4))
    s.ends(1, 1, [(5, 4), (8, 4), (9, 7), (13, 10), (17, 13), (33, 25)])
    s.add(seek(1, 1, 0, 2), pointer=25)


def p6_for_writing(s):
    s.section = "P6 for writing"
    shape = words((0, 4), 4)
    s.add(new_file(0, 24, 10, 2))
    for mode, refusal in [(2, 1), (3, 1), (1, 11)]:
        s.add(forged(0, mode, 0, shape))
        s.add(write_at(0, 0, 0, 4, 16), refusal, size0=10, sum0=checksum(made(2, 24)))
        s.add(write_here(0, 0, 4, 16), refusal, pointer=0)
        s.add(reverse(0, 4), refusal)
    s.open(0, 3)
    s.set(0, shape, 10, FILETYPE, 1)
    s.write(write_at(0, 0, 4, 4, 16), 4, 10, made(2, 24)[:4] + made(90, 4) + made(2, 24)[8:])  # the default view stays


def p8(s):
    s.section = "P8"
    s.add(new_file(0, 60, 60, 5))
    for mode in (2, 3):
        s.open(2, mode)
        s.set(2, LOOSE)
        s.places(2, [0, 16, 24, 40])
        s.owner(2, 20, (1, 4))
        s.owner(2, 21)
        s.owner(2, 24, (2, 0))
    s.owners(2, 63, [range(byte, byte + 5) for byte in (0, 16, 24, 40, 48)])
    s.add(read_at(2, 0, 0, 3, 15), count=3)
    s.add(read_at(2, 0, 1, 2, 16), count=2)


def p9(s):
    s.section = "P9"
    s.open(2, 3)
    s.set(2, words((4,), 12))
    s.places(2, [4, 16])
    data = made(90, 8)
    s.add(new_file(0, 20, 0, 5))
    s.write(write_at(2, 0, 0, 2, 8), 2, 20, bytes(4) + data[:4] + bytes(8) + data[4:])
    s.add(read_at(2, 0, 0, 2, 8), count=2, lent1=checksum(data))
    s.add(new_file(0, 19, 0, 5))
    s.add(write_at(2, 0, 0, 2, 8), 14, count=0, size0=0, sum0=checksum(made(5, 19)), lent1=checksum(data))
    s.write(write_at(2, 0, 0, 1, 8), 1, 8, bytes(4) + data[:4] + made(5, 19)[8:])


def p10(s):
    s.section = "P10"
    s.add(new_file(0, 0, 0, 0))
    s.open(0, 3)
    s.add(seek(0, 0, 5, 0), pointer=5)
    s.add(seek(0, 0, -6, 1), 12, pointer=5)
    for offset in (LARGEST, SMALLEST):
        for whence in (0, 1, 2):
            s.add(seek(0, 0, offset, whence), 12, pointer=5)
    s.add(seek(0, 0, -5, 1), pointer=0)


def p11_and_p12(s):
    s.section = "P11, P12"
    s.add(new_file(0, 40, 40, 0))
    s.open(0, 3)
    s.add(read_at(0, 0, 2**32 - 1, 1, 8), count=0)
    s.add(read_at(0, 0, 2**32 - 1, 2, 8), 12)
    s.add(read_at(0, 0, 2**32, 0, 8), count=0)
    s.add(read_at(0, 0, 2**32, 1, 8), 12)
    s.add(write_at(0, 0, 2**32 - 1, 1, 8), 14)
    s.add(write_at(0, 0, 2**32 - 1, 2, 8), 12)
    s.write(write_at(0, 0, 2**32, 0, 8), 0, 40, made(0, 40))
    s.add(write_at(0, 0, 2**32, 1, 8), 12)
    for mode in (1, 2, 3):
        s.open(0, mode)
        s.set(0, P12)
        s.places(0, [0, 3, 2, 5, 4, 7])


# The six errors of document 01

def six_errors(s):
    s.section = "six errors"
    s.add(new_file(0, 80, 30, 9))
    s.add(forged(0, 3, 0, words((0, 4), 4)))
    s.add(place(0, 0), 1)  # overlap with the next tile
    s.open(0, 1)
    s.set(0, words((4,), 12))
    s.add(place(0, 2), a=28)  # the tile step
    s.add(end(0, 0), a=3)
    s.set(0, words((0, 20, 40), 4))
    s.add(end(0, 0), a=22)  # places that fall
    s.set(0, words((4,), 12))
    s.add(read_at(0, 0, 2, 1, 4), count=0)  # a word that is half in the file
    s.add(seek(0, 0, 7, 0), pointer=7)
    s.set(0, words((2,), 12), 9, FILETYPE, 0, pointer=7)  # the pointer after a refused set
    s.add(seek(0, 0, 1, 1), pointer=8)
    s.set(0, LOOSE)
    s.add(read_at(0, 0, 0, 2, 10), count=2)  # S = 5, E = 8
    s.set(0, Shape((4, 4), (0, 2), 3, (0,), 3))
    s.add(read_at(0, 0, 1, 2, 15), 13)  # S = 8, E = 3
    s.add(read_at(0, 0, 1, 2, 16), count=2)


# Open

def opens(s):
    s.section = "open"
    s.add(new_file(0, 20, 20, 2))
    for mode in (1, 2, 3):
        s.open(3, mode)
        s.add(read_at(3, 0, 0, 1, 1), 11 if mode == 2 else 0)
        s.add(write_at(3, 0, 0, 1, 1), 11 if mode == 1 else 0)
        s.add(write_here(3, 0, 1, 1), 11 if mode == 1 else 0)
        s.add(reverse(3, 0), 11 if mode == 1 else 0)
    s.section = "open that names no mode"
    s.open(3, 0)
    s.add(read_at(3, 0, 3, 2, 2), count=2)
    s.add(write_at(3, 0, 3, 2, 2), count=2)
    s.owner(3, 7, (7, 0))
    s.set(3, words((0, 2), 6), 10, FILETYPE, 1)
    for mode in (4, 5, 6, 7, 8, 2**32, 2**32 + 1, 2**32 + 3, 2**63, ALL_ONES):
        s.section = f"refused open, mode {mode}"
        s.add(open_handle(3, mode), 16, pointer=0, view=handle_sum(0, BYTES))
        s.add(place(3, 0), 1)
    every_call(s, 3, 0, 1)
    s.open(3, 1)
    s.add(seek(3, 0, 6, 0), pointer=6)
    s.add(open_handle(3, 4), 16, pointer=0, view=handle_sum(0, BYTES))
    s.add(place(3, 0), 1)
    s.section = "the handle after a set"
    for mode in (1, 2, 3):
        for shape in (PARTS, in_a_row(8, 32), in_a_row(1, 64), LOOSE):
            s.open(3, mode)
            s.set(3, shape, pointer=0, view=handle_sum(mode, shape))


# The limits in set

def mode_and_pointer(s, mode, pointer):
    s.open(1, mode)
    s.add(seek(1, 0, pointer, 0), pointer=pointer)


def refused_sets(s, requests, refusal, kind=0, entry=0):
    """Sets that are refused with this number and all name this type and this entry."""
    for request in requests:
        s.set(1, request, refusal, kind, entry, pointer=7)


def granted_sets(s, requests):
    for request in requests:
        s.set(1, request, pointer=0)


def bytewise(n, entries):
    """An etype of n bytes in a row, and a filetype of this many entries in a row."""
    extent = max(n, 1)
    return Request(0, extent, max(entries, 1), (1,) * n, tuple(range(n)), (1,) * entries, tuple(range(entries)))


def set_widths(s):
    s.section = "set: widths"
    mode_and_pointer(s, 3, 7)
    word = words((0,), 4).request()
    refused_sets(s, [Shape((w,), (0,), 8, (0,), 8) for w in BAD_WIDTHS], 6, ETYPE, 0)
    refused_sets(s, [replace(word, etype_widths=(w,)) for w in BAD_WIDTHS], 6, ETYPE, 0)
    refused_sets(s, [replace(word, filetype_widths=(w,)) for w in BAD_WIDTHS], 6, FILETYPE, 0)
    refused_sets(s, [replace(word, etype_widths=(w,)) for w in (1, 2, 8)], 18, FILETYPE, 0)
    refused_sets(s, [replace(word, filetype_widths=(w,)) for w in (1, 2, 8)], 18, FILETYPE, 0)
    refused_sets(s, [Shape((1, 2, 3), (0, 1, 3), 6, (0, 6), 12)], 6, ETYPE, 2)
    for index in range(8):
        refused_sets(s, [Shape(one_changed((8,) * 8, index, 6), tuple(range(0, 64, 8)), 64, (0,), 64)], 6, ETYPE, index)
    granted_sets(s, [Shape((w,), (0,), w, (0,), w) for w in GOOD_WIDTHS])
    granted_sets(s, [Shape((1, 2, 4, 8), (0, 1, 3, 7), 15, (0, 15), 30)])


def set_counts(s):
    s.section = "set: entry counts"
    mode_and_pointer(s, 3, 7)
    refused = [(0, 1), (0, 0), (9, 9), (9, 18), (9, 256), (10, 10), (16, 16), (16, 256)] + [(n, 0) for n in range(1, 9)]
    refused += [(1, 65), (1, 128), (1, 256), (2, 129), (2, 130), (3, 193), (3, 195), (4, 257), (4, 260), (5, 257), (5, 260)]
    refused += [(6, 257), (6, 258), (7, 257), (7, 259), (8, 257), (8, 264), (8, 300)]
    refused_sets(s, [bytewise(n, entries) for n, entries in refused], 4)
    refused_sets(s, [bytewise(n, entries) for n, entries in [(2, 127), (3, 191), (4, 255), (5, 256), (6, 256), (7, 256), (8, 255)]], 17)
    pairs = bytewise(2, 4)
    refused_sets(s, [replace(pairs, etype_widths=(1,)), replace(pairs, etype_displacements=(0,)),
                     replace(pairs, etype_widths=(1, 1, 1)), replace(pairs, filetype_widths=(1,) * 3),
                     replace(pairs, filetype_displacements=(0, 1, 2)), replace(pairs, filetype_displacements=(0, 1, 2, 3, 4)),
                     replace(pairs, etype_displacements=()), replace(pairs, filetype_widths=())], 4)
    granted_sets(s, [bytewise(n, n * most) for n, most in MOST_INSTANCES.items()])
    granted_sets(s, [bytewise(n, n) for n in MOST_INSTANCES])


def set_entry_displacements(s):
    s.section = "set: entry displacements"
    mode_and_pointer(s, 3, 7)
    bad = [-1, -4, MEGA - 3, MEGA, LARGEST, LARGEST - 3, LARGEST - 4, SMALLEST]
    word, eight = words((0,), 4).request(), Shape((1,) * 8, tuple(range(8)), 8, (0, 8), 16).request()
    refused_sets(s, [Shape((4,), (d,), 4, (0,), 4) for d in bad], 6, ETYPE, 0)
    refused_sets(s, [replace(word, filetype_displacements=(d,)) for d in bad], 6, FILETYPE, 0)
    refused_sets(s, [replace(word, etype_displacements=(d,)) for d in bad], 6, ETYPE, 0)
    refused_sets(s, [Shape((w,), (MEGA - w + 1,), 8, (0,), 8) for w in (1, 2, 8)], 6, ETYPE, 0)
    refused_sets(s, [Shape((w,), (0,), 1, (MEGA - w + 1,), 8) for w in GOOD_WIDTHS], 6, FILETYPE, 0)
    refused_sets(s, [replace(eight, etype_displacements=tuple(range(7)) + (MEGA,))], 6, ETYPE, 7)
    refused_sets(s, [replace(eight, filetype_displacements=tuple(range(15)) + (MEGA,))], 6, FILETYPE, 15)
    granted_sets(s, [Shape((w,), (MEGA - w,), w, (0,), w) for w in GOOD_WIDTHS])
    granted_sets(s, [Shape((w,), (0,), w, (MEGA - w,), w) for w in GOOD_WIDTHS])
    granted_sets(s, [Shape((4,), (MEGA - 12,), 4, (0, 8), 12)])


def set_extents(s):
    s.section = "set: extents"
    mode_and_pointer(s, 3, 7)
    bad = [0, -1, MEGA + 1, 2 * MEGA, 2**32 + 1, LARGEST, SMALLEST]
    refused_sets(s, [replace(BYTES, etype_extent=e) for e in bad], 5)
    refused_sets(s, [replace(BYTES, filetype_extent=f) for f in bad], 5)
    granted_sets(s, [BYTES, replace(BYTES, etype_extent=MEGA), replace(BYTES, filetype_extent=MEGA),
                     replace(BYTES, etype_extent=MEGA, filetype_extent=MEGA)])


def set_view_displacements(s):
    s.section = "set: view displacements"
    mode_and_pointer(s, 3, 7)
    refused_sets(s, [words((0,), 4, d) for d in (-1, 2**40 + 1, 2**41, LARGEST, SMALLEST)], 3)
    granted_sets(s, [words((0,), 4, d) for d in (0, 1, 2**39 + 1, 2**40 - 1, 2**40)])
    s.add(place(1, 2**32 - 1), a=2**40 + (2**32 - 1) * 4)


def set_representations(s):
    s.section = "set: representations"
    mode_and_pointer(s, 3, 7)
    word = words((0,), 4).request()
    refused_sets(s, [replace(word, representation=name) for name in bad_names()], 2)
    granted_sets(s, [word])


def set_order(s):
    s.section = "set: ordered"
    for mode in (3, 1):
        mode_and_pointer(s, mode, 7)
        refused_sets(s, [Shape((4, 4), (4, 0), 8, (0,), 8)], 7, ETYPE, 1)  # both
        refused_sets(s, [words((4, 0), 8)], 7, FILETYPE, 1)
        refused_sets(s, [Shape((4, 4), (0, 8), 4, (0, 4), 16), words((0, 8, 7), 12)], 7, FILETYPE, 2)
        refused_sets(s, [Request(0, 8, 8, (4, 4), (4, 0), (4, 4), (0, 4)), Request(0, 4, 4, (4, 4), (1, 0), (4,), (0,))], 7, ETYPE, 1)
        refused_sets(s, [Request(0, 3, 3, (1,) * 3, (0, 2, 1), (1,) * 3, (0, 1, 2))], 7, ETYPE, 2)
        refused_sets(s, [Request(0, 8, 8, (1,) * 8, (0, 1, 2, 3, 4, 5, 7, 6), (1,) * 8, tuple(range(8)))], 7, ETYPE, 7)
    granted_sets(s, [Shape((4, 2), (3, 3), 4, (0, 0), 4), words((4, 4, 8), 12)])
    s.add(read_at(1, 0, 0, 3, 12), count=3)


def set_built(s):
    s.section = "set: built of the etype"
    mode_and_pointer(s, 1, 7)
    good = Shape((4, 2), (0, 4), 6, (0, 6), 12).request()
    refused_sets(s, [replace(good, filetype_displacements=d) for d in [(0, 4, 6, 11), (0, 4, 6, 9)]], 18, FILETYPE, 3)
    refused_sets(s, [replace(good, filetype_displacements=(0, 5, 6, 10))], 18, FILETYPE, 1)
    for entry, widths in [(2, (4, 2, 2, 4)), (0, (2, 2, 4, 2)), (3, (4, 2, 4, 1))]:
        refused_sets(s, [replace(good, filetype_widths=widths)], 18, FILETYPE, entry)
    refused_sets(s, [replace(good, filetype_widths=(4, 2, 4), filetype_displacements=(0, 4, 6))], 17)
    refused_sets(s, [replace(words((0,), 4).request(), etype_displacements=(4,))], 19, FILETYPE, 0)
    refused_sets(s, [Request(0, 4, 16, (4, 4), (0, 8), (4,) * 4, (0, 4, 8, 12))], 18, FILETYPE, 1)
    refused_sets(s, [Request(0, 4, 4, (4,), (4,), (4, 4), (3, 4))], 19, FILETYPE, 0)
    granted_sets(s, [good, replace(good, filetype_displacements=(0, 4, 4, 8), filetype_extent=10), Shape((4,), (3,), 4, (0, 8), 12)])


def set_holes(s):
    s.section = "set: holes"
    mode_and_pointer(s, 1, 7)
    refused_sets(s, [words((p,), 12) for p in (1, 3, 5)] + [Shape((4,), (3,), 8, (1,), 8)], 9, FILETYPE, 0)
    refused_sets(s, [words((0, p), 12) for p in (5, 7)] + [words((0, 4), f) for f in (9, 11, 13)], 9, FILETYPE, 1)
    refused_sets(s, [Shape((8,), (0,), 6, (0, 8), 14)], 9, FILETYPE, 1)
    refused_sets(s, [words((0, 2, 7), 12)], 9, FILETYPE, 2)
    granted_sets(s, [words((0, 4), f) for f in (1, 7, 8, 12)])
    granted_sets(s, [Shape((4,), (3,), 8, (0,), 8), words((4,), 4), words((8,), 12), words((0, 1, 3), 7), words((0, 8), 16),
                     Shape((8,), (0,), 6, (0, 6, 18), 30)])


def set_overlaps(s):
    s.section = "set: overlap"
    bad = [(words((0, 3), 7), 1), (words((4, 4), 8), 1), (words((0, 4), 7), 1), (words((4, 8), 7), 1), (words((0,), 3), 0),
           (words((4,), 1), 0), (Shape((4, 4), (0, 3), 8, (0,), 8), 1), (Shape((4, 1), (0, 4), 4, (0, 4), 12), 2),
           (Shape((8,), (0,), 4, (0, 4), 12), 1)]  # each with the entry that it names
    good = [words((4,), 4), words((4, 8), 8), words((0, 4), 8), Shape((4, 1), (2, 6), 5, (0, 5), 10),
            Shape((2, 2), (0, 2), 2, (0, 4), 8), Shape((1,), (7,), 9, (0,), 1)]
    for mode in (2, 3):
        mode_and_pointer(s, mode, 7)
        for shape, entry in bad:
            refused_sets(s, [shape], 10, FILETYPE, entry)
    granted_sets(s, good)
    mode_and_pointer(s, 1, 7)
    granted_sets(s, [shape for shape, _ in bad])


def set_limits(s):
    s.add(new_file(0, 100, 100, 4))
    for part in (set_widths, set_counts, set_entry_displacements, set_extents, set_view_displacements, set_representations,
                 set_order, set_built, set_holes, set_overlaps):
        part(s)


def set_pairs(s):
    """Two faults at once: the smaller number is given."""
    s.section = "set: order of checks"
    mode_and_pointer(s, 3, 7)
    word = words((0,), 4).request()
    unordered = Request(0, 4, 8, (4, 2), (4, 0), (4, 2), (4, 0))
    s.set(1, replace(word, representation=b"x", displacement=-1), 2, pointer=7)
    s.set(1, replace(word, displacement=-1, etype_widths=()), 3, pointer=7)
    s.set(1, replace(word, filetype_widths=(), filetype_displacements=(), etype_extent=0), 4, pointer=7)
    s.set(1, replace(word, etype_widths=(4, 4), filetype_extent=0), 4, pointer=7)
    s.set(1, replace(word, filetype_extent=0, etype_widths=(3,)), 5, pointer=7)
    s.set(1, replace(word, etype_extent=0, filetype_displacements=(-1,)), 5, pointer=7)
    s.set(1, replace(unordered, filetype_widths=(4, 3)), 6, FILETYPE, 1, pointer=7)
    s.set(1, replace(unordered, filetype_displacements=(0, MEGA)), 6, FILETYPE, 1, pointer=7)
    s.set(1, replace(unordered, filetype_widths=(4, 4)), 7, ETYPE, 1, pointer=7)
    s.set(1, Request(0, 4, 8, (4,), (0,), (4, 2), (4, 0)), 7, FILETYPE, 1, pointer=7)
    s.set(1, Request(0, 4, 12, (4,), (0,), (4, 2), (2, 6)), 18, FILETYPE, 1, pointer=7)
    s.set(1, Request(0, 4, 4, (4,), (0,), (4, 2), (0, 2)), 18, FILETYPE, 1, pointer=7)
    s.set(1, words((0, 2), 12), 9, FILETYPE, 1, pointer=7)
    s.set(1, words((2,), 1), 9, FILETYPE, 0, pointer=7)
    s.set(1, words((4, 0), 4), 7, FILETYPE, 1, pointer=7)
    everything = Request(-1, 0, 0, (3,), (-1, 0), (), (5, 2), b"")
    s.set(1, everything, 2, pointer=7)
    s.add(forged(1, 4, 7, words((0,), 4)))
    s.set(1, everything, 1, pointer=7)
    s.set(1, replace(word, representation=b"nativ"), 1, pointer=7)


# Which type and entry a refused set names

def which_entry(s):
    """Then what names none: 2 to 5 with faults of entries behind them, and a set that is granted after refused ones."""
    for number, named, modes in NAMED:
        for mode in modes:
            s.section = f"set: which entry, {number}, mode {mode}"
            mode_and_pointer(s, mode, 7)
            for request, refusal, kind, entry in named():
                s.set(1, request, refusal, kind, entry, pointer=7)
    s.section = "set: which entry, none"
    bad = changed(spread(2, 3).request(), etype_widths={1: 3}, filetype_widths={4: 3}, filetype_displacements={5: 1})
    rows = [(2, {"representation": b"nativE"}), (3, {"displacement": -1}), (4, {"etype_widths": (3, 3, 3)}), (4, {"filetype_widths": (3,)}),
            (4, {"filetype_displacements": (5, 4)}), (5, {"etype_extent": 0}), (5, {"filetype_extent": 0})]
    for refusal, fields in rows:
        s.set(1, replace(bad, **fields), refusal, pointer=7)
    s.set(1, bad, 6, ETYPE, 1, pointer=7)
    s.set(1, spread(2, 3), pointer=0)


def set_does_not_look_at_the_file(s):
    s.section = "calls that do not look at the file"
    s.add(file_record(0, 101))
    s.add(file_record(1, ALL_ONES))
    s.open(1, 3)
    s.set(1, FIRST)
    s.add(place(1, 2), a=128)
    s.owner(1, 105, (0, 1))
    s.add(give_back(1, (1, 1, 1, 1)), a=100, b=1, c=4, d=1, e=12)


# Check 1 by forged handles

NEXT_FAR = (0, 0, 0, 14, 0)  # the etype at offset 0 lies in the file, that at offset 1 does not
ALL_FAR = (0, 0, 14, 14, 0)


def granted_forgeries():
    """Handles at the limits that keep the rules: name, mode, pointer, shape and the refusals of `every_call`."""
    yield "smallest numbers", 1, 0, BYTES, READ_ONLY
    yield from ((f"mode {mode}", mode, 1, FIRST, access) for mode, access in [(1, READ_ONLY), (2, WRITE_ONLY), (3, (0,) * 5)])
    yield from ((f"largest pointer, mode {mode}", mode, 2**32, FIRST, access) for mode, access in [(1, READ_ONLY), (2, WRITE_ONLY)])
    yield "largest pointer and view displacement", 3, 2**32, replace(BYTES, displacement=2**40), (0,) * 5
    yield "largest view displacement", 3, 1, replace(FIRST, displacement=2**40), ALL_FAR
    yield from ((f"{n} entries, {k} instances", 3, 1, in_a_row(n, k), (0,) * 5) for n, k in MOST_INSTANCES.items())
    yield "4 entries, 64 instances, mode 2", 2, 1, in_a_row(4, 64), WRITE_ONLY
    yield "1 entry, 64 instances, overlap, mode 1", 1, 1, Shape((8,), (0,), 8, tuple(range(64)), 1), READ_ONLY
    yield from ((f"width {w}", 3, 1, Shape((w,), (0,), w, (0,), w), (0,) * 5) for w in GOOD_WIDTHS)
    yield "largest etype displacement, extents", 3, 1, Shape((1, 2), (0, MEGA - 2), MEGA, (0,), MEGA), ALL_FAR
    yield from ((f"largest etype displacement, width {w}", 3, 1, Shape((w,), (MEGA - w,), w, (0,), w), ALL_FAR) for w in GOOD_WIDTHS)
    yield "largest origin, two instances", 3, 1, Shape((8,), (0,), 8, (0, MEGA - 8), MEGA), NEXT_FAR
    yield from ((f"largest origin, width {w}", 3, 1, Shape((w,), (0,), w, (MEGA - w,), w), ALL_FAR) for w in GOOD_WIDTHS)
    yield "largest etype extent", 3, 1, replace(BYTES, etype_extent=MEGA), (0,) * 5
    yield "largest filetype extent", 3, 1, replace(BYTES, filetype_extent=MEGA), NEXT_FAR
    yield "largest extents", 3, 1, replace(BYTES, etype_extent=MEGA, filetype_extent=MEGA), NEXT_FAR
    yield "equal displacements", 1, 1, Shape((4, 2), (3, 3), 4, (0, 0), 4), READ_ONLY
    yield "entries and tiles that touch", 3, 1, words((4, 8), 8), (0,) * 5
    yield "holes of E", 3, 1, words((4, 12), 20), (0,) * 5


def forged_granted(s):
    s.add(new_file(0, 600, 580, 6))
    for name, mode, pointer, shape, access in granted_forgeries():
        s.section = f"forged, granted: {name}"
        n, k = len(shape.widths), len(shape.origins)
        s.add(forged(0, mode, pointer, shape), pointer=pointer)
        s.add(give_back(0, (n, n, n * k, n * k)), a=shape.displacement, b=n, c=shape.etype_extent, d=n * k, e=shape.filetype_extent)
        s.add(place(0, k - 1), a=shape.displacement + shape.origins[-1])
        every_call(s, 0, 0, access=access, count=0 if pointer == 2**32 else 1)


def forged_refused(s):
    for forgeries in (numbers_past_the_limits, entries_past_the_limits, views_that_break_a_rule):
        for name, forgery in forgeries():
            s.section = f"forged, refused: {name}"
            s.add(forgery)
            every_call(s, 0, 0, 1)


def damaged(name, mode=3, pointer=3, shape=FIRST, **counts):
    return name, forged(0, mode, pointer, shape, **counts)


EIGHT, FOUR = in_a_row(8, 1), in_a_row(4, 1)
PAST_EXTENTS = (0, MEGA + 1, 2 * MEGA, 2**32 + 1, ALL_ONES)


def numbers_past_the_limits():
    """Handles in slot 0 that break one limit each: of the mode, the pointer, the displacement, the counts, the extents."""
    yield from (damaged(f"mode {mode}", mode=mode) for mode in (0, 4, 5, 6, 7, 2**32 + 1, ALL_ONES))
    yield from (damaged(f"pointer {pointer}", pointer=pointer) for pointer in (2**32 + 1, 2**33, 2**63, ALL_ONES))
    yield from (damaged(f"view displacement {d}", shape=replace(FIRST, displacement=d)) for d in (2**40 + 1, 2**41, 2**63, ALL_ONES))
    yield from (damaged(f"{n} entries", shape=EIGHT, entries=n) for n in (0, 9, 10, 16, 2**32 + 1, ALL_ONES))
    for n, most in MOST_INSTANCES.items():
        shape = replace(in_a_row(n, 64), filetype_extent=65 * n)
        yield from (damaged(f"{n} times {k} entries", shape=shape, instances=k) for k in sorted({0, most + 1, 65}))
    yield from (damaged(f"{k} instances", shape=BYTES, instances=k) for k in (128, 2**32 + 1, ALL_ONES))
    yield damaged("8 times 2^61 entries", shape=EIGHT, instances=2**61)
    yield damaged("4 times 2^62 + 1 entries", shape=FOUR, instances=2**62 + 1)
    yield from (damaged(f"etype extent {e}", shape=replace(BYTES, etype_extent=e)) for e in PAST_EXTENTS)
    yield from (damaged(f"filetype extent {f}", mode=1, shape=replace(BYTES, filetype_extent=f)) for f in PAST_EXTENTS)


def entries_past_the_limits():
    """Handles in slot 0 with one width or displacement that is not allowed."""
    eight = Shape((8,) * 8, tuple(range(0, 64, 8)), 64, (0,), 64)
    yield from (damaged(f"width {w}", shape=Shape((w,), (0,), 8, (0,), 256)) for w in BAD_WIDTHS)
    yield from (damaged(f"width 6 in place {i}", shape=replace(eight, widths=one_changed(eight.widths, i, 6))) for i in range(8))
    yield from (damaged(f"etype displacement, width {w}", shape=Shape((w,), (MEGA - w + 1,), 8, (0,), 8)) for w in GOOD_WIDTHS)
    yield from (damaged(f"origin, width {w}", shape=Shape((w,), (0,), 1, (MEGA - w + 1,), 8)) for w in GOOD_WIDTHS)
    yield damaged("origin and etype displacement", shape=Shape((4,), (4,), 1, (MEGA - 7,), 4))
    yield damaged("last origin", shape=replace(BYTES, origins=tuple(range(63)) + (MEGA,), filetype_extent=MEGA))
    yield from (damaged(f"etype displacement {d}", shape=Shape((4,), (d,), 4, (0,), 4)) for d in (MEGA, 2**63, 2**64 - 4))
    yield from (damaged(f"origin {p}", shape=Shape((4,), (4,), 1, (p,), 4)) for p in (MEGA, 2**63, 2**64 - 4))


def views_that_break_a_rule():
    for mode in (1, 2, 3):  # no bytes clash
        yield damaged(f"filetype not ordered, mode {mode}", mode=mode, shape=Shape((4, 4), (0, 8), 4, (0, 4), 16))
        yield damaged(f"origins not ordered, mode {mode}", mode=mode, shape=replace(BYTES, origins=(1, 0), filetype_extent=2))
        yield damaged(f"etype not ordered, mode {mode}", mode=mode, shape=Shape((1, 1), (1, 0), 1, (0,), 2))
    yield damaged("first hole", mode=1, shape=words((1,), 12))
    yield damaged("last hole", mode=1, shape=words((0,), 5))
    yield damaged("inner hole", mode=1, shape=words((0, 5), 9))
    for mode in (2, 3):
        yield damaged(f"overlap in a tile, mode {mode}", mode=mode, shape=words((0, 3), 7))
        yield damaged(f"overlap with the next tile, mode {mode}", mode=mode, shape=words((0, 4), 7))
        yield damaged(f"overlap in the etype, mode {mode}", mode=mode, shape=Shape((4, 4), (0, 3), 8, (0,), 8))


def garbage(s):
    """What unused places hold plays no part; a set clears them."""
    s.add(new_file(0, 200, 180, 8))
    for fill, mode, shape in [(1, 3, FIRST), (2**63, 1, words((0, 8), 4)), (ALL_ONES, 3, LOOSE)]:
        s.section = f"unused places hold {fill}"
        s.add(forged(2, mode, 1, shape, fill=fill), pointer=1)
        every_call(s, 2, 0, access=READ_ONLY if mode == 1 else (0,) * 5)
    s.section = "unused places and overlap"
    s.add(forged(2, 3, 0, words((0, 4), 8), fill=2))
    s.add(place(2, 3), a=12)
    s.set(2, words((0, 4), 7), 10, FILETYPE, 1)
    s.add(give_back(2, (1, 1, 2, 2)), a=0, b=1, c=4, d=2, e=8)


def files_that_break_limits(s):
    """Length 2^40 + 1 cannot be had: the script's files have at most 65,536 bytes."""
    s.open(1, 3)
    sizes = [(0, 1), (20, 21), (20, 40), (65536, 65537), (65536, 2**40), (65536, 2**40 + 1), (65536, 2**63), (65536, ALL_ONES)]
    for length, size in sizes:
        s.section = f"size {size}, length {length}"
        s.add(new_file(1, length, size, 0))
        s.add(end(1, 1), 1)
        for whence in (0, 1, 2, 3):
            s.add(seek(1, 1, 0, whence), 1)
        for count in (0, 1):
            for call in (read_at, write_at):
                s.add(call(1, 1, 0, count, count), 1)
            for call in (read_here, write_here):
                s.add(call(1, 1, count, count), 1)
    s.section = "a lookup past the file"
    s.owner(1, 21, (21, 0))


def files_at_the_limits(s):
    s.open(1, 3)
    for length in (0, 1, 20, 65536):
        s.section = f"size and length {length}"
        s.add(new_file(1, length, length, 0))
        s.add(end(1, 1), a=length)
        for offset, whence in [(0, 0), (0, 1), (0, 2)]:
            s.add(seek(1, 1, offset, whence), pointer=length if whence == 2 else 0)
        s.add(read_here(1, 1, 1, 1), count=0)
        s.add(read_at(1, 1, max(length - 2, 0), 4, 4), count=min(length, 2))
        s.add(write_at(1, 1, length, 1, 1), 14, pointer=length)
        s.add(write_here(1, 1, 1, 1), 14, pointer=length)
        s.add(write_at(1, 1, length, 0, 0), count=0, pointer=length, size1=length)
        s.add(write_here(1, 1, 0, 0), count=0, pointer=length, size1=length)


# Place, end and seek

def place_offsets(s):
    s.section = "place: offsets"
    s.open(0, 1)
    s.set(0, Shape((4, 1), (3, 9), 5, (5, 20, 35), 55, 2**40))
    for offset in (-1, 2**32, 2**32 + 1, LARGEST, SMALLEST):
        s.add(place(0, offset), 12, a=0)
    for offset in (0, 1, 2, 3, 4, 5, 6, 2**31, 2**32 - 2, 2**32 - 1):
        s.add(place(0, offset), a=2**40 + offset // 3 * 55 + (5, 20, 35)[offset % 3])
    s.set(0, Shape((1,), (0,), 1, (MEGA - 1,), MEGA, 2**40))
    s.add(place(0, 2**32 - 1), a=2**40 + 2**52 - 1)


def largest_views():
    """Views of the largest displacement and filetype extent with the largest origin, and the bytes of the etype at the last offset."""
    last = 2**40 + 2**52  # one past the last tile's last byte, where a tile has one instance
    yield "width 1", Shape((1,), (0,), 1, (MEGA - 1,), MEGA, 2**40), last - 1, [last - 1]
    yield "width 8", Shape((8,), (0,), 8, (MEGA - 8,), MEGA, 2**40), last - 8, range(last - 8, last)
    yield "a late entry", Shape((1, 8), (0, MEGA - 8), MEGA, (0,), MEGA, 2**40), last - MEGA, [last - MEGA, *range(last - 8, last)]
    two = 2**40 + 2**51
    yield "two instances", Shape((1,), (0,), 1, (MEGA - 2, MEGA - 1), MEGA, 2**40), two - 1, [two - 1]
    many = 2**40 + 2**46
    yield "64 instances", Shape((1,), (0,), 1, tuple(range(MEGA - 64, MEGA)), MEGA, 2**40), many - 1, [many - 1]


def the_largest_views(s):
    """The place at the largest offset, and the lookups of its bytes, of those one tile further on and of the last 64-bit bytes."""
    s.add(new_file(0, 40, 40, 28))
    for name, shape, begin, data in largest_views():
        for mode, forgery in [(1, False), (3, False), (1, True), (2, True)]:
            s.section = f"the largest view: {name}, {'forged' if forgery else 'set'} in mode {mode}"
            if forgery:
                s.add(forged(0, mode, 2**32, shape, fill=ALL_ONES))
            else:
                s.open(0, mode)
                s.set(0, shape)
            s.add(place(0, 0), a=2**40 + shape.origins[0])
            s.add(place(0, 2**32 - 1), a=begin)
            for offset in (-1, 2**32):
                s.add(place(0, offset), 12)
            s.add(end(0, 0), a=0)
            if mode == 1:
                s.add(reverse(0, ALL_ONES), 11)
                s.add(read_at(0, 0, 2**32 - 1, 1, 16), count=0)
                continue
            s.add(write_at(0, 0, 2**32 - 1, 1, 16), 14)
            for index, byte in enumerate(data):
                s.owner(0, byte, (2**32 - 1, index))
                s.owner(0, byte + MEGA)
            for byte in (0, 2**40 - 1, 2**63, 2**64 - MEGA, *range(2**64 - 8, 2**64)):
                s.owner(0, byte)


def offsets_at_the_limits(s):
    """Each call that takes an offset, or begins at the pointer, on both sides of the limits; three instances in a tile."""
    last, shape = 2**32 - 1, Shape((2,), (0,), 2, (0, 2, 4), 6)
    s.add(new_file(0, 40, 30, 29))
    for pointer in (0, last, 2**32):
        s.section = f"offsets at the limits, pointer {pointer}"
        s.add(forged(0, 3, pointer, shape), pointer=pointer)
        for offset, refusal in [(-1, 12), (0, 0), (last, 0), (2**32, 12), (2**32 + 1, 12), (2**33, 12)]:
            s.add(place(0, offset), refusal, a=0 if refusal else offset // 3 * 6 + offset % 3 * 2)
        for offset, count, refusal in [(-1, 0, 12), (-1, 1, 12), (0, 0, 0), (last - 1, 2, 0), (last - 1, 3, 12), (last, 0, 0), (last, 1, 0),
                                       (last, 2, 12), (2**32, 0, 0), (2**32, 1, 12), (2**32 + 1, 0, 12), (2**33, 0, 12)]:
            s.add(read_at(0, 0, offset, count, 8), refusal, count=0, pointer=pointer)
            s.add(write_at(0, 0, offset, count, 8), refusal or (14 if count else 0), count=0, pointer=pointer)
        room = 2**32 - pointer
        for count, refusal in [(room + 1, 12), (2 * room + 1, 12), (room, 13 if room > 1 else 0)]:
            s.add(read_here(0, 0, count, 2), refusal, count=0, pointer=pointer)
            s.add(write_here(0, 0, count, 2), 14 if count == 1 and not refusal else refusal, count=0, pointer=pointer)
        s.add(seek(0, 0, room, 1), pointer=2**32)
        s.add(seek(0, 0, 1, 1), 12, pointer=2**32)
        s.add(seek(0, 0, -2**32, 1), pointer=0)
        s.add(seek(0, 0, -1, 1), 12, pointer=0)


def ends_of_file(s):
    s.section = "end of file"
    s.add(new_file(0, 100, 0, 0))
    s.open(0, 1)
    s.ends(0, 0, [(0, 0), (1, 1), (100, 100)])
    s.set(0, Shape((4,), (3,), 8, (0,), 8))  # begins by the origin, not by the first data byte
    s.ends(0, 0, [(1, 1), (8, 1), (9, 2)])
    s.add(read_at(0, 0, 0, 2, 8), count=1)
    s.set(0, Shape((1,), (0,), 1, tuple(range(64)), 1))
    s.ends(0, 0, [(2, 65), (100, 64 * 99 + 1)])
    s.set(0, words((0,), 4, 101))
    s.ends(0, 0, [(100, 0)])


def seeks(s):
    s.section = "seek"
    s.add(new_file(0, 60, 41, 0))
    s.open(0, 2)
    s.set(0, words((4,), 8, 5))  # places 9, 17, 25, 33: end 4
    s.add(end(0, 0), a=4)
    refused = {0: (-1, 2**32 + 1), 1: (-8, 2**32 - 6), 2: (-5, 2**32 - 3)}
    granted = {0: (0, 2**32, 7), 1: (-7, 2**32, -2**32, 7), 2: (-4, 2**32 - 4, 0)}
    s.add(seek(0, 0, 7, 0), pointer=7)
    for whence, offsets in refused.items():
        for offset in offsets + (LARGEST, SMALLEST):
            s.add(seek(0, 0, offset, whence), 12, pointer=7)
    for whence in (3, 4, 5, 2**32, 2**32 + 1, 2**63, ALL_ONES):
        s.add(seek(0, 0, 0, whence), 15, pointer=7)
        s.add(seek(0, 0, SMALLEST, whence), 15, pointer=7)
    for whence, offsets in granted.items():
        for offset in offsets:
            s.add(seek(0, 0, offset, whence))
    s.add(seek(0, 0, 0, 1), pointer=4)
    s.add(seek(0, 0, 2**32, 0), pointer=2**32)
    s.add(seek(0, 0, 1, 1), 12, pointer=2**32)
    s.add(seek(0, 0, LARGEST, 1), 12, pointer=2**32)
    s.add(seek(0, 0, SMALLEST, 1), 12, pointer=2**32)


# Reads

def reads_at_an_offset(s):
    s.section = "read at an offset"
    s.add(new_file(0, 90, 70, 11))
    s.open(0, 1)
    s.set(0, words((0, 8), 16, 3))  # places 3, 11, 19, 27, 35, 43, 51, 59, 67
    s.add(seek(0, 0, 2, 0), pointer=2)
    for offset in (-1, SMALLEST, LARGEST, 2**32 + 1):
        s.add(read_at(0, 0, offset, 0, 8), 12, pointer=2)
    for offset, count in [(0, ALL_ONES), (1, ALL_ONES), (2**32, ALL_ONES), (-1, 1), (0, 2**32 + 1), (1, 2**32), (2**32 - 1, 2), (2**32, 1)]:
        s.add(read_at(0, 0, offset, count, 4096), 12, count=0, pointer=2)
    for offset, count in [(0, 2**32), (2**32 - 1025, 1025), (0, 1025), (0, 2**30)]:
        s.add(read_at(0, 0, offset, count, 4096), 13, count=0, pointer=2)
    for offset, count, length, moved in [(0, 0, 0, 0), (2**32, 0, 0, 0), (2**32 - 1, 1, 4, 0), (2**32 - 1024, 1024, 4096, 0),
                                         (0, 1, 4, 1), (0, 9, 36, 8), (7, 1, 5, 1), (8, 1, 4, 0), (1, 3, 20, 3), (0, 1024, 4096, 8)]:
        s.add(read_at(0, 0, offset, count, length), count=moved, pointer=2)
    for count in (1, 2, 9):
        s.add(read_at(0, 0, 0, count, 4 * count - 1), 13, pointer=2)
    s.add(read_at(0, 0, 100, 1, 3), 13, pointer=2)


def read_sizes(s):
    """A word in part below the size, the size below the length, the data in packed order."""
    s.section = "read: sizes"
    s.add(new_file(0, 90, 90, 12))
    s.open(0, 3)
    s.set(0, PARTS)
    for size, moved in [(3, 0), (7, 0), (11, 0), (12, 1), (23, 1), (24, 2), (47, 2), (48, 3), (59, 3), (60, 4)]:
        s.add(file_record(0, size))
        s.add(read_at(0, 0, 0, 4, 30, 5), count=moved)
    s.open(0, 1)
    s.set(0, Shape((4, 4), (0, 2), 6, (0, 3), 7))  # overlapping data
    s.add(read_at(0, 0, 0, 5, 40), count=5)
    s.set(0, Shape((8,), (0,), 2, (0, 2), 4))  # E below S
    s.add(file_record(0, 13))
    s.add(read_at(0, 0, 0, 5, 40), count=3)
    s.set(0, Shape((1,), (0,), 8, (0, 8), 16))  # E above S
    s.add(read_at(0, 0, 0, 5, 5), count=2)
    s.set(0, words((0, 8), 4))  # a later word fits, the next one does not
    s.add(file_record(0, 11))
    s.add(read_at(0, 0, 0, 3, 12), count=1)


def reaching_etypes():
    """Views from byte 5 on whose etype has an earlier entry that reaches past the last: the begins, the bytes from a begin on, and the
    entry that a set for writing names: the first with a byte that clashes with itself or an earlier entry."""
    long_first = [0, 1, 2, 3, 4, 5, 6, 7, 2]
    yield "widths 8, 1 at 0, 2", Shape((8, 1), (0, 2), 8, (0, 8), 16, 5), (5, 13, 21, 29), long_first, 1
    yield "widths 8, 1 at 0, 2, E = 3", Shape((8, 1), (0, 2), 3, (0, 3), 6, 5), (5, 8, 11, 14), long_first, 0
    yield "widths 1, 4, 2 at 1, 2, 2", Shape((1, 4, 2), (1, 2, 2), 6, (0, 6), 18, 5), (5, 11, 23, 29), [1, 2, 3, 4, 5, 2, 3], 2


def reads_past_the_last_entry(s):
    """Such an etype is in the file where all its bytes are; the sizes lie on both sides of that and of the last entry's end. It can be set
    for reading only."""
    content = made(30, 60)
    for name, shape, begins, data, clashing in reaching_etypes():
        for forgery in (False, True):
            s.section = f"read: {name}, {'forged' if forgery else 'set'}"
            s.add(new_file(0, 60, 60, 30))
            s.open(0, 1)
            if forgery:
                s.add(forged(0, 1, 0, shape))
            else:
                s.set(0, shape)
            s.places(0, begins)
            s.ends(0, 0, [(begin + more, offset + more) for offset, begin in enumerate(begins[:3]) for more in (0, 1)])
            ends = [begin + max(data) + 1 for begin in begins[:3]]
            last_ends = [begin + data[-1] + 1 for begin in begins[:3]]
            for size in sorted({stop - less for stop in ends + last_ends for less in (0, 1)}):
                moved = sum(stop <= size for stop in ends)
                packed = bytes(content[begin + byte] for begin in begins[:moved] for byte in data)
                buffer = checksum(packed.ljust(30, b"\x07"))
                s.add(file_record(0, size))
                s.add(read_at(0, 0, 0, 3, 30, 7), count=moved, pointer=0, lent1=buffer)
                s.add(read_here(0, 0, 3, 30, 7), count=moved, pointer=moved, lent1=buffer)
                s.add(seek(0, 0, 0, 0), pointer=0)
        for mode in (2, 3):
            s.open(0, mode)
            s.set(0, shape, 10, FILETYPE, clashing)
            s.add(forged(0, mode, 0, shape))
            every_call(s, 0, 0, 1)


def reads_at_the_pointer(s):
    s.section = "read at the pointer"
    s.add(new_file(0, 90, 70, 13))
    s.open(0, 3)
    s.set(0, words((0, 8), 16, 3))
    s.add(read_here(0, 0, 3, 12), count=3, pointer=3)
    s.add(read_here(0, 0, 3, 11), 13, count=0, pointer=3)
    s.add(read_here(0, 0, 0, 0), count=0, pointer=3)
    s.add(read_at(0, 0, 0, 1, 4), count=1, pointer=3)
    s.add(read_here(0, 0, 3, 14), count=3, pointer=6)
    s.add(read_here(0, 0, 3, 14), count=2, pointer=8)
    s.add(read_here(0, 0, 3, 14), count=0, pointer=8)
    s.add(seek(0, 0, -1, 2), pointer=8)
    for count in (2**32 - 7, ALL_ONES):
        s.add(read_here(0, 0, count, 14), 12, pointer=8)
    s.add(read_here(0, 0, 2**32 - 8, 4096), 13, pointer=8)
    s.add(seek(0, 0, 2**32 - 1, 0))
    s.add(read_here(0, 0, 1, 4), count=0, pointer=2**32 - 1)
    s.add(read_here(0, 0, 2, 8), 12, pointer=2**32 - 1)
    s.add(seek(0, 0, 2**32, 0))
    s.add(read_here(0, 0, 0, 4), count=0, pointer=2**32)
    s.add(read_here(0, 0, 1, 4), 12, pointer=2**32)
    s.add(read_here(0, 0, ALL_ONES, 4), 12, pointer=2**32)


def two_handles_on_one_file(s):
    s.section = "two handles on one file"
    s.add(new_file(1, 40, 40, 14))
    s.open(0, 1)
    s.open(1, 3)
    s.set(0, words((0,), 8))
    s.set(1, words((4,), 8))
    for slot, moved in [(0, 2), (1, 2), (0, 4), (1, 4), (0, 5), (1, 5)]:
        s.add(read_here(slot, 1, 2, 8), pointer=moved)


# Writes

def writes_at_an_offset(s):
    s.section = "write at an offset"
    s.add(new_file(0, 71, 40, 31))
    s.open(0, 2)
    s.set(0, words((0, 8), 16, 3))  # places 3, 11, 19, 27, 35, 43, 51, 59, 67
    s.add(seek(0, 0, 2, 0), pointer=2)
    for offset in (-1, SMALLEST, LARGEST, 2**32 + 1):
        s.add(write_at(0, 0, offset, 0, 8), 12, pointer=2)
    for offset, count in [(0, ALL_ONES), (1, ALL_ONES), (2**32, ALL_ONES), (-1, 1), (0, 2**32 + 1), (1, 2**32), (2**32 - 1, 2), (2**32, 1)]:
        s.add(write_at(0, 0, offset, count, 4096), 12, count=0, pointer=2)
    for offset, count in [(0, 2**32), (2**32 - 1025, 1025), (0, 1025), (0, 2**30), (0, 2**30 + 1), (1, 2**32 - 1)]:
        s.add(write_at(0, 0, offset, count, 4096), 13, count=0, pointer=2)
    for offset, count in [(2**32 - 1, 1), (2**32 - 1024, 1024), (0, 1024), (9, 1), (0, 10), (8, 2)]:
        s.add(write_at(0, 0, offset, count, 4096), 14, count=0, pointer=2)
    for count in (1, 2, 9):
        s.add(write_at(0, 0, 0, count, 4 * count - 1), 13, pointer=2)
    for offset in (0, 5, 9, 2**32 - 1, 2**32):
        s.write(write_at(0, 0, offset, 0, 0), 0, 40, made(31, 71))
    s.add(write_at(0, 0, 1, 3, 20), count=3, pointer=2, size0=40)
    s.add(write_at(0, 0, 0, 9, 36), count=9, pointer=2, size0=71)
    s.add(write_at(0, 0, 9, 0, 0), count=0, pointer=2, size0=71)


def write_growth(s):
    """The default view. The bytes past the size are stale, not 0."""
    s.section = "write: growth"
    s.add(new_file(0, 30, 5, 17))
    s.open(0, 3)
    content = bytearray(made(17, 30))
    for seed, (offset, count, size, gap) in enumerate([(1, 3, 5, 0), (4, 1, 5, 0), (4, 2, 6, 0), (6, 1, 7, 0), (10, 2, 12, 3)], 50):
        content[offset - gap:offset + count] = bytes(gap) + made(seed, count)
        s.write(write_at(0, 0, offset, count, count, seed), count, size, content)
        s.add(read_at(0, 0, offset, count, count + 3, 9), count=count, lent1=checksum(made(seed, count) + b"\x09" * 3))
    for offset, count in [(30, 1), (29, 2), (0, 31)]:
        s.add(write_at(0, 0, offset, count, 40), 14, size0=12, sum0=checksum(content))
    s.write(write_at(0, 0, 30, 0, 4), 0, 12, content)
    content[12:] = bytes(17) + made(90, 1)
    s.write(write_at(0, 0, 29, 1, 1), 1, 30, content)
    s.write(write_at(0, 0, 0, 30, 30, 61), 30, 30, made(61, 30))
    s.write(write_at(0, 0, 2, 0, 0), 0, 30, made(61, 30))


def write_long_gap(s):
    s.section = "write: the longest file and buffer"
    s.add(new_file(0, 65536, 1, 18))
    s.open(0, 2)
    s.add(write_at(0, 0, 65536 - 4095, 4096, 4096), 14, size0=1)
    content = made(18, 1) + bytes(65536 - 4097) + made(90, 4096)
    s.write(write_at(0, 0, 65536 - 4096, 4096, 4096), 4096, 65536, content)
    s.add(file_record(0, 0))
    s.write(write_at(0, 0, 1, 1, 1, 77), 1, 2, b"\0" + made(77, 1) + content[2:])  # bytes past the new size stay


def write_gaps(s):
    """P8's view at byte 2: the offsets have the bytes 2 to 6, 18 to 22, 26 to 30, 42 to 46."""
    s.section = "write: gaps"
    s.open(0, 3)
    s.set(0, replace(LOOSE, displacement=2))
    old, data = made(21, 60), made(90, 15)
    for size in (0, 1, 2, 4, 7, 12, 18, 20, 23, 24, 26, 30, 31, 33, 60):
        content = bytearray(old)
        content[size:31] = bytes(max(0, 31 - size))
        for byte, first in [(2, 0), (18, 5), (26, 10)]:
            content[byte:byte + 5] = data[first:first + 5]
        s.add(new_file(0, 60, size, 21))
        s.write(write_at(0, 0, 0, 3, 16), 3, max(size, 31), content)
        s.add(read_at(0, 0, 0, 3, 16, 7), count=3, lent1=checksum(data + b"\x07"))
    s.add(new_file(0, 60, 10, 21))
    s.write(write_at(0, 0, 3, 1, 5), 1, 47, old[:10] + bytes(32) + data[:5] + old[47:])


def write_lengths(s):
    """Writes that end at the length and one past it. They go by the data, not by E, F or a gap after the data."""
    shapes = [("P8's view", LOOSE, 1, 2, 29), ("data after gaps", PARTS, 2, 2, 60),
              ("E below S", Shape((2, 2), (0, 2), 2, (0, 4), 8), 1, 2, 12),
              ("F = 1", Shape((1,), (7,), 9, (0,), 1, 5), 3, 4, 19), ("width 8", Shape((8,), (0,), 8, (8, 24), 40), 2, 1, 56)]
    s.open(0, 3)
    for name, shape, offset, count, length in shapes:
        s.section = f"write: lengths, {name}"
        s.set(0, shape)
        data = count * sum(shape.widths)
        s.add(new_file(0, length - 1, 3, 22))
        s.add(write_at(0, 0, offset, count, data), 14, size0=3, sum0=checksum(made(22, length - 1)))
        s.add(write_at(0, 0, offset, 0, 0), count=0, size0=3)
        s.add(new_file(0, length, 3, 22))
        s.add(write_at(0, 0, offset, count + 1, data + 16), 14, size0=3, sum0=checksum(made(22, length)))
        s.add(write_at(0, 0, offset, count, data), count=count, size0=length)
        s.add(read_at(0, 0, offset, count, data), count=count, lent1=checksum(made(90, data)))


def write_orders(s):
    """The data in packed order: E above and below S, gaps in the etype, a first displacement above 0."""
    s.section = "write: places of the data"
    old, data = made(23, 60), made(90, 16)
    s.open(0, 3)
    rows = [(PARTS, 0, 2, 24, [3, 4, 6, 8, 9, 10, 11, 15, 16, 18, 20, 21, 22, 23]),
            (Shape((2, 2), (0, 2), 2, (0, 4), 8), 1, 3, 16, [4, 5, 6, 7, 8, 9, 10, 11, 12, 13, 14, 15]),
            (Shape((1,), (7,), 9, (0,), 1, 5), 2, 3, 17, [14, 15, 16]),
            (Shape((1,), (0,), 8, (0, 8), 16), 0, 3, 17, [0, 8, 16]),
            (Shape((1, 4), (2, 3), 7, (7, 14), 28), 0, 3, 42, [9, 10, 11, 12, 13, 16, 17, 18, 19, 20, 37, 38, 39, 40, 41])]
    for shape, offset, count, stop, places in rows:
        s.set(0, shape)
        for size in (60, 8):
            content = bytearray(old)
            content[size:stop] = bytes(max(0, stop - size))
            for index, byte in enumerate(places):
                content[byte] = data[index]
            s.add(new_file(0, 60, size, 23))
            s.write(write_at(0, 0, offset, count, 16), count, max(size, stop), content)


def two_writes(s):
    s.section = "two writes"
    old, one, two = made(24, 24), made(1, 8), made(200, 8)
    s.open(0, 3)
    s.set(0, words((0,), 8))
    s.add(new_file(0, 24, 24, 24))
    s.write(write_at(0, 0, 0, 2, 8, 1), 2, 24, one[:4] + old[4:8] + one[4:] + old[12:])
    s.write(write_at(0, 0, 1, 2, 8, 200), 2, 24, one[:4] + old[4:8] + two[:4] + old[12:16] + two[4:] + old[20:])
    s.add(read_at(0, 0, 0, 3, 12), count=3, lent1=checksum(one[:4] + two))
    s.write(write_at(0, 0, 0, 2, 8, 200), 2, 24, two[:4] + old[4:8] + two[4:] + old[12:16] + two[4:] + old[20:])
    s.write(write_at(0, 0, 0, 2, 8, 1), 2, 24, one[:4] + old[4:8] + one[4:] + old[12:16] + two[4:] + old[20:])


def writes_at_the_pointer(s):
    s.section = "write at the pointer"
    s.add(new_file(0, 71, 0, 25))
    s.open(0, 3)
    s.set(0, words((0, 8), 16, 3))  # places 3, 11, 19, 27, 35, 43, 51, 59, 67
    data, old = made(90, 12), made(25, 71)
    s.add(write_here(0, 0, 3, 11), 13, count=0, pointer=0)
    s.add(write_here(0, 0, 3, 12), count=3, pointer=3, size0=23,
          sum0=checksum(bytes(3) + data[:4] + bytes(4) + data[4:8] + bytes(4) + data[8:] + old[23:]))
    s.add(read_here(0, 0, 1, 4), count=0, pointer=3)
    s.add(write_at(0, 0, 0, 2, 8), count=2, pointer=3)
    s.add(write_here(0, 0, 0, 0), count=0, pointer=3, size0=23)
    s.add(write_here(0, 0, 2, 14, 3), count=2, pointer=5, size0=39)
    s.add(read_at(0, 0, 3, 2, 8), count=2, pointer=5, lent1=checksum(made(3, 8)))
    s.add(write_here(0, 0, 5, 20), 14, count=0, pointer=5, size0=39)
    s.add(write_here(0, 0, 4, 16), count=4, pointer=9, size0=71)
    s.add(write_here(0, 0, 1, 4), 14, pointer=9)
    s.add(write_here(0, 0, 0, 0), count=0, pointer=9, size0=71)
    for count in (2**32 - 8, ALL_ONES):
        s.add(write_here(0, 0, count, 14), 12, pointer=9)
    s.add(write_here(0, 0, 2**32 - 9, 4096), 13, pointer=9)
    s.add(seek(0, 0, 2**32 - 1, 0))
    s.add(write_here(0, 0, 1, 4), 14, pointer=2**32 - 1)
    s.add(write_here(0, 0, 2, 8), 12, pointer=2**32 - 1)
    s.add(seek(0, 0, 2**32, 0))
    s.add(write_here(0, 0, 0, 4), count=0, pointer=2**32, size0=71)
    for count in (1, ALL_ONES):
        s.add(write_here(0, 0, count, 4), 12, pointer=2**32)
    s.add(seek(0, 0, -1, 2), pointer=8)
    s.add(write_here(0, 0, 1, 4), count=1, pointer=9, size0=71)


def writes_by_mode(s):
    """Through the default view, and through P1's types. Of each the size after a write, and the pairs of some bytes."""
    views = [(BYTES, 9, {0: (0, 0), 4: (4, 0), 8: (8, 0), 2**64 - 1: None}),
             (words((4,), 12), 32, {0: None, 4: (0, 0), 8: None, 31: (2, 3), 2**64 - 1: None})]
    for mode in (1, 2, 3):
        s.section = f"write and reverse lookup: mode {mode}"
        s.add(new_file(0, 40, 9, 26))
        s.open(0, mode)
        for shape, size, pairs in views:
            if shape != BYTES:
                s.set(0, shape)
            refusal, size = (11, 9) if mode == 1 else (0, size)
            s.add(write_at(0, 0, 1, 2, 8), refusal, size0=size)
            s.add(write_here(0, 0, 1, 8), refusal, pointer=0 if mode == 1 else 1, size0=size)
            s.add(write_at(0, 0, 1, 0, 0), refusal, size0=size)
            for byte, pair in pairs.items():
                a, b, c = (1, *pair) if pair and not refusal else (0, 0, 0)
                s.add(reverse(0, byte), refusal, a=a, b=b, c=c)


def writes_by_one_handle(s):
    """A write through one view of a file, read through other views and handles."""
    s.section = "writes by one handle, reads by another"
    old, data = made(14, 40), made(90, 8)
    s.add(new_file(1, 40, 8, 14))
    s.open(0, 1)
    s.open(1, 2)
    s.open(2, 3)
    s.set(0, words((0,), 8))
    s.set(1, words((4,), 8))
    s.add(write_here(1, 1, 2, 8), count=2, pointer=2, size1=16)  # bytes 4 to 7 and 12 to 15
    s.add(read_here(0, 1, 4, 16), count=2, pointer=2)
    s.add(read_at(2, 1, 0, 20, 20, 0), count=16, lent1=checksum(old[:4] + data[:4] + bytes(4) + data[4:] + bytes(4)))
    s.add(write_at(2, 1, 0, 4, 4, 5), count=4, size1=16)
    s.add(read_at(0, 1, 0, 2, 8), count=2, lent1=checksum(made(5, 4) + bytes(4)))
    s.add(end(1, 1), a=2)
    s.add(write_at(1, 1, 4, 1, 4), count=1, size1=40)
    s.add(read_here(0, 1, 4, 16), count=3, pointer=5)
    s.add(seek(2, 1, 0, 2), pointer=40)


# Reverse lookups

def lookups_of_every_byte(s):
    """Every byte of small files and some past their ends, by the file bytes of each offset."""
    rows = [("the default view", BYTES, 9, [[byte] for byte in range(10)]),
            ("P1's types at byte 2", words((4,), 12, 2), 33, [range(6, 10), range(18, 22), range(30, 34)]),
            ("a word at 4, F = 4", words((4,), 4), 15, [range(4, 8), range(8, 12), range(12, 16)]),
            ("F = 1", Shape((1,), (7,), 9, (0,), 1, 5), 15, [[12], [13], [14], [15]]),
            ("data after gaps", PARTS, 62, [[3, 4, 6, 8, 9, 10, 11], [15, 16, 18, 20, 21, 22, 23],
                                            [39, 40, 42, 44, 45, 46, 47], [51, 52, 54, 56, 57, 58, 59]]),
            ("E below S", Shape((2, 2), (0, 2), 2, (0, 4), 8, 1), 17, [range(1, 5), range(5, 9), range(9, 13), range(13, 17), [17]]),
            ("E below the reach", Shape((1, 2), (1, 4), 3, (0, 6), 12), 26, [[1, 4, 5], [7, 10, 11], [13, 16, 17], [19, 22, 23], [25]])]
    s.open(0, 2)
    s.add(new_file(0, 20, 7, 27))
    for name, shape, last, etypes in rows:
        s.section = f"reverse lookup: {name}"
        s.set(0, shape)
        s.owners(0, last, etypes)


def lookups_at_the_limits(s):
    s.section = "reverse lookup: the last offset"
    last = 2**32 - 1
    s.open(0, 3)
    s.owner(0, last, (last, 0))
    for byte in (2**32, 2**32 + 1, 2**40, 2**63, ALL_ONES):
        s.owner(0, byte)
    s.set(0, words((0, 8, 16), 24, 2**40))  # the last offset is the first of its tile
    begin = 2**40 + last // 3 * 24
    for index in range(4):
        s.owner(0, begin + index, (last, index))
    for byte in (begin - 1, begin + 4, begin + 8, begin + 11, begin + 16, begin + 19, begin + 24, begin + 2**40, ALL_ONES):
        s.owner(0, byte)
    s.owner(0, begin - 8, (last - 1, 0))
    s.owner(0, begin - 13, (last - 2, 3))
    for byte in (0, 1, 8, 2**40 - 1, 2**40 - 16, 2**40 - 24):
        s.owner(0, byte)
    s.section = "reverse lookup: the furthest byte"
    s.set(0, Shape((1,), (0,), 1, (MEGA - 1,), MEGA, 2**40))
    s.owner(0, 2**40 + 2**52 - 1, (last, 0))
    s.owner(0, 2**40 + MEGA - 1, (0, 0))
    for byte in (2**40, 2**40 - 1, 2**40 + MEGA - 2, 2**40 + MEGA, 2**40 + 2**52, 2**40 + 2**52 + MEGA - 1, ALL_ONES):
        s.owner(0, byte)
    s.section = "reverse lookup: the shortest and the longest tile"
    s.set(0, Shape((1,), (7,), 9, (0,), 1, 5))
    for byte, pair in [(11, None), (12, (0, 0)), (12 + last, (last, 0)), (13 + last, None)]:
        s.owner(0, byte, pair)
    s.set(0, Shape((8, 8), (0, MEGA - 8), MEGA, (0,), MEGA))
    for byte, pair in [(7, (0, 7)), (8, None), (MEGA - 9, None), (MEGA - 8, (0, 8)), (MEGA - 1, (0, 15)), (MEGA, (1, 0))]:
        s.owner(0, byte, pair)


# Giving back

def giving_back(s):
    shapes = [("P1", 3, FIRST), ("P8", 2, LOOSE), ("overlap", 1, Shape((4, 4), (0, 2), 6, (0, 3), 7)),
              ("256 entries", 3, Shape((1,) * 4, tuple(range(4)), 4, tuple(range(0, 256, 4)), 256))]
    for name, mode, shape in shapes:
        s.section = f"giving back: {name}"
        s.add(forged(3, mode, 9, shape, fill=77))
        n, entries = len(shape.widths), len(shape.widths) * len(shape.origins)
        exact = (n, n, entries, entries)
        for short in range(4):
            s.add(give_back(3, [length - (i == short) for i, length in enumerate(exact)], 5), 13, a=0, b=0, c=0, d=0, e=0, pointer=9)
        answer = dict(a=shape.displacement, b=n, c=shape.etype_extent, d=entries, e=shape.filetype_extent, pointer=9)
        s.add(give_back(3, exact, 5), **answer)
        s.add(give_back(3, [length + 1 for length in exact], 2**31 + 5), **answer)
        s.add(give_back(3, (300, 301, 300, ALL_ONES), ALL_ONES), **answer)
    s.section = "giving back: after a set"
    s.open(3, 3)
    s.add(give_back(3, (1, 1, 1, 1)), a=0, b=1, c=1, d=1, e=1)
    s.set(3, LOOSE)
    s.add(give_back(3, (2, 2, 4, 4)), a=0, b=2, c=8, d=4, e=24)
    s.set(3, words((2,), 12), 9, FILETYPE, 0)
    s.add(give_back(3, (3, 3, 5, 5), 6), a=0, b=2, c=8, d=4, e=24)
    s.add(give_back(3, (0, 0, 0, 0)), 13)


# Orders of checks, two faults at once

def pairs(s):
    s.section = "orders of checks"
    s.add(new_file(0, 20, 20, 15))
    s.add(new_file(1, 20, 21, 15))
    s.open(0, 2)
    s.open(1, 3)
    s.add(forged(2, 4, 0, words((0,), 4)))
    s.add(place(2, -1), 1)
    s.add(give_back(2, (0, 0, 0, 0)), 1)
    s.add(seek(2, 0, 0, 3), 1)
    s.add(seek(1, 1, 0, 3), 1)
    s.add(seek(1, 1, -1, 0), 1)
    s.add(seek(1, 0, -1, 3), 15)
    s.add(read_at(0, 1, 0, 1, 1), 1)  # 1 and 11
    s.add(read_here(0, 1, 1, 1), 1)
    s.add(read_at(0, 0, -1, 1, 1), 11)  # 11 and 12
    s.add(read_here(0, 0, ALL_ONES, 1), 11)
    s.add(read_at(0, 0, 0, 1, 0), 11)  # 11 and 13
    s.add(read_at(1, 0, -1, 1, 0), 12)  # 12 and 13
    s.add(read_here(1, 0, 2**32 + 1, 0), 12)
    s.add(read_at(1, 1, -1, 1, 0), 1)
    s.add(read_at(2, 0, -1, 1, 0), 1)
    s.add(read_here(2, 0, 1, 0), 1)
    s.add(read_at(0, 0, 0, 0, 0), 11)
    s.add(read_here(0, 0, 0, 0), 11)


def write_pairs(s):
    """Slot 0 has mode 1, slot 1 mode 3, slot 2 a broken handle, slot 3 one of mode 1. File 1 breaks its limits."""
    s.section = "orders of checks: write, reverse lookup"
    s.add(new_file(0, 20, 10, 15))
    s.add(new_file(1, 20, 21, 15))
    s.open(0, 1)
    s.open(1, 3)
    s.add(forged(2, 3, 0, words((0, 4), 4)))
    s.add(forged(3, 1, 2**32 + 1, BYTES))
    far = 2**32 - 1  # 14 applies at this offset, and 12 with count 2
    rows = [(1, [(2, 0, 0, 1, 8), (0, 1, 0, 1, 8), (2, 0, -1, 1, 8), (1, 1, -1, 1, 8), (1, 1, 0, 9, 8), (1, 1, far, 1, 8),
                 (3, 1, far, 2, 0)]),
            (11, [(0, 0, 0, 0, 0), (0, 0, -1, 1, 8), (0, 0, 0, 9, 8), (0, 0, far, 1, 8), (0, 0, far, 2, 0)]),
            (12, [(1, 0, -1, 1, 0), (1, 0, far, 2, 1), (1, 0, far, 2, 8)]),
            (13, [(1, 0, far, 1, 0), (1, 0, 0, 21, 20), (1, 0, 20, 1, 0)]),
            (14, [(1, 0, far, 1, 1), (1, 0, 0, 21, 21), (1, 0, 20, 1, 1)])]
    for refusal, calls in rows:
        for slot, file, offset, count, length in calls:
            s.add(write_at(slot, file, offset, count, length), refusal, count=0, size0=10, sum0=checksum(made(15, 20)))
    rows = [(1, [(2, 0, 1, 8), (0, 1, 1, 8), (1, 1, ALL_ONES, 8), (1, 1, 9, 8), (3, 0, 1, 8)]),
            (11, [(0, 0, 0, 0), (0, 0, ALL_ONES, 8), (0, 0, 9, 8), (0, 0, 21, 21)]),
            (12, [(1, 0, 2**32 + 1, 0), (1, 0, ALL_ONES, 8)]), (13, [(1, 0, 21, 20)]), (14, [(1, 0, 21, 21)])]
    for refusal, calls in rows:
        for slot, file, count, length in calls:
            s.add(write_here(slot, file, count, length), refusal, count=0, pointer=2**32 + 1 if slot == 3 else 0)
    for slot, refusal in [(2, 1), (3, 1), (0, 11), (1, 0)]:
        s.add(reverse(slot, 0), refusal, a=0 if refusal else 1)
        s.add(reverse(slot, ALL_ONES), refusal, a=0)


# The script's own rules

def bodies(s):
    s.section = "bodies, slots and lengths"
    s.add(new_file(2, 70000, 70000, 256 + 9), size0=70000)
    s.add(new_file(ALL_ONES, 300, 299, 3), size1=299)
    s.add(record(33, 0, 7, 8, 9), size0=7)
    s.add(record(33), size0=0)
    s.add(field(33, b"\0" * 8 + b"\x05"), size0=5)
    s.add(open_handle(5, 1))
    s.add(record(38, 1, 9), a=9)
    s.add(record(38, ALL_ONES - 2, 9, 4, 4), a=9)
    s.add(record(38, 1), a=0)
    s.add(field(38, b"\x01"), a=0)
    s.add(read_at(1, 5, 0, 4096, 5000), count=299)
    s.add(read_at(1, 1, 0, 4097, 5000), 13)
    s.add(field(41, b""), 11)
    s.add(record(36, 1), 2)
    s.add(record(36, 1, 0, 1, 1, 1, 1, 1, 1, 1, 0, 1, 0, tail=b"native"))
    s.add(record(36, 1, 0, 1, 1, ALL_ONES, 1, 1, 1), 2)
    lists = [1] * 300 + [0] + [1] + [0]
    s.add(record(36, 1, 0, 1, 1, 301, 1, 1, 1, *lists, tail=b"native"), 4)
    s.add(field(37, b"\x01"), 13)
    s.add(field(39, b""), a=5)
    s.add(field(40, b"\x01"), pointer=0)
    s.add(field(42, b"\x01"), count=0)
    s.add(field(43, b""), count=0)
    s.add(field(44, b"\x01"), 11)
    s.add(field(45, b"\x01"), 11)
    s.add(open_handle(7, 3))
    s.add(write_at(3, 3, 0, 4096, 5000), 14)
    s.add(write_at(7, 0, 100, 4096, ALL_ONES, ALL_ONES), count=4096, size0=4196, lent1=checksum(made(255, 4096)))
    s.add(write_at(3, 0, 0, 4097, 5000), 13)
    s.add(write_here(ALL_ONES, 2, 1, 1, 256 + 6), count=1, pointer=1, lent1=checksum(made(6, 1)))
    s.add(record(44, 3, 1), count=0, pointer=1)
    s.add(record(43, 3, 1, 299, 1, 1), count=1, size1=300, lent1=checksum(b"\0"))  # seed 0
    s.add(reverse(11, 6), a=1, b=6, c=0)
    s.add(record(45, 3), a=1, b=0, c=0)
    s.add(field(45, b"\x03" + b"\0" * 7 + b"\x05\x01"), a=1, b=261, c=0)
    s.add(field(35, b"\x02" + b"\0" * 7 + b"\x02"), pointer=0)
    s.add(read_at(2, 1, 0, 1, 1), 11)


SECTIONS = (p1_to_p3, p4_and_p5, p6_and_p7, p6_for_writing, p8, p9, p10, p11_and_p12, six_errors, opens, set_limits, set_pairs,
            which_entry, set_does_not_look_at_the_file, files_that_break_limits, files_at_the_limits, forged_granted, forged_refused,
            garbage, place_offsets, the_largest_views, offsets_at_the_limits, ends_of_file, seeks, reads_at_an_offset, read_sizes,
            reads_past_the_last_entry, reads_at_the_pointer, two_handles_on_one_file, writes_at_an_offset, write_growth, write_long_gap,
            write_gaps, write_lengths, write_orders, two_writes, writes_at_the_pointer, writes_by_mode, writes_by_one_handle,
            lookups_of_every_byte, lookups_at_the_limits, giving_back, *INTERLACED, *RECIPES, write_pairs, pairs, bodies)
CUT = record(38, 1, 0)[:-1]  # the last record lacks a byte


def rows(sections=SECTIONS):
    s = Script()
    for section in sections:
        section(s)
    return s.rows


def script():
    return b"".join(row.record for row in rows()) + CUT


OTHERS = ("count", "a", "b", "c", "d", "e")
FILES = ("size0", "sum0", "size1", "sum1")
NO_FILES = {"size0": 0, "sum0": checksum(b""), "size1": 0, "sum1": checksum(b"")}
REFUSED_OPEN = {"pointer": 0, "view": handle_sum(0, BYTES)}  # what each slot has at first


def stays(before, handle, numbers):
    """What a line must have whatever its row states; `before` is the line before, `handle` what the slot has.

    A refusal has no other number and leaves the handle; a set or a recipe, granted or refused, has none but those that its row states. Only
    a granted write changes a file, only open and a granted set the mode and the view, and only these, seeks and the accesses at the
    pointer the pointer. A recipe has no handle."""
    tag, refused = numbers["tag"], numbers["refusal"] != 0
    kept = {name: 0 for name in OTHERS if name not in NAMING.get(tag, ())} if refused or tag in NAMING else {}
    if tag not in (32, 33) and (refused or tag not in (43, 44)):
        kept |= {name: before[name] for name in FILES}
    if tag == RECIPE:
        return kept | {"pointer": 0, "view": 0, "lent3": 0, "lent4": 0}
    if tag == SET_FROM_RECIPES:
        kept |= {f"lent{i}": 0 for i in range(1, 5)}
    if tag > 35 and (refused or tag not in (SET, SET_FROM_RECIPES)):
        kept["view"] = handle["view"]
    if tag > 35 and (refused or tag not in (SET, 40, 42, 44, SET_FROM_RECIPES)):
        kept["pointer"] = handle["pointer"]
    return kept


def row_faults(row, before, handle, numbers):
    expected = row.expected | stays(before, handle, numbers)
    return [f"{name} is {numbers[name]}, expected {value}" for name, value in expected.items() if numbers[name] != value]


def wrong(rows, lines):
    """The rows that these lines do not keep, each with its line's numbers and the faults."""
    before, handles = NO_FILES, [REFUSED_OPEN] * 4
    for row, line in zip(rows, lines):
        numbers, slot = dict(zip(LINE, map(int, line.split()))), Body(row.record[3:]).number(0) % 4
        found = row_faults(row, before, handles[slot], numbers)
        if found:
            yield row, numbers, found
        before = numbers
        if numbers["tag"] not in (32, 33, RECIPE):
            handles[slot] = numbers


def faults():
    """Where the model's lines differ from what the rows state."""
    return [f"{row.section}: {decode(row.record[0], row.record[3:])}: {fault}"
            for row, _, found in wrong(rows(), run(script())) for fault in found]
