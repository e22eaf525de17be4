"""Types from recipes, by document 02's order 4: rows of the fixed script.

Each recipe stands with its typemap and extent, or with its refusal and the number of the step at fault. They are written by hand, from
docs/recipes.md and the standard's words; the model has no part in them.
"""

from dataclasses import replace

from entries import ETYPE, FILETYPE, MEGA
from model import checksum
from script_rows import SET_FROM_RECIPES, handle_sum, made
from scripts import (ALL_ONES, LARGEST, SMALLEST, Recipe, Shape, earlier, give_back, new_file, open_handle, place, read_at, recipe,
                     record, reverse, seek, set_from_recipes, width, words, write_at)

FILL = 77
R = Recipe()
W1, W2, W4, W8 = (width(w) for w in (1, 2, 4, 8))
UNKNOWN_KINDS = (0, 6, 7, 255, 2**32 + 1, 2**63 + 2, ALL_ONES)
UNKNOWN_SOURCES = (0, 3, 2**32 + 1, 2**32 + 2, ALL_ONES)
BAD_WIDTHS = (0, 3, 5, 6, 7, 9, 10, 12, 16, 32, 64, 2**32 + 4, 2**63 + 1, ALL_ONES)


def at(w, *places):
    """Entries of one width at these places."""
    return [(w, d) for d in places]


def granted(s, new, entries, extent, after=(1, 2)):
    """A recipe with this result; `after` is by how much the lent lists are longer than it."""
    lengths = [len(entries) + more for more in after]
    widths, displacements = [w for w, _ in entries] + [FILL] * after[0], [d for _, d in entries] + [FILL] * after[1]
    s.add(recipe(new, lengths, FILL), a=len(entries), b=extent, c=0, d=0, lent1=checksum(widths), lent2=checksum(displacements))


def refused(s, new, refusal, step=0, lengths=(256, 257)):
    """A recipe with this refusal, by this step; None for 26."""
    named = (0, 0) if step is None else (1, step)
    s.add(recipe(new, lengths, FILL), refusal, a=0, b=0, c=named[0], d=named[1], lent1=checksum([FILL] * lengths[0]),
          lent2=checksum([FILL] * lengths[1]))


# The constructors

def contiguous_and_vector(s):
    s.section = "recipe: contiguous"
    for w in (1, 2, 4, 8):
        granted(s, R.contiguous(1, width(w)), at(w, 0), w)
        granted(s, R.contiguous(3, width(w)), at(w, 0, w, 2 * w), 3 * w)
    granted(s, R.contiguous(2, W4).contiguous(3), at(4, 0, 4, 8, 12, 16, 20), 24)
    s.section = "recipe: vector"
    granted(s, R.vector(3, 2, 4, W2), at(2, 0, 2, 8, 10, 16, 18), 20)
    granted(s, R.vector(2, 3, 3, W1), at(1, 0, 1, 2, 3, 4, 5), 6)
    granted(s, R.vector(2, 3, 5, W1), at(1, 0, 1, 2, 5, 6, 7), 8)
    granted(s, R.vector(3, 1, 2, W4), at(4, 0, 8, 16), 20)
    granted(s, R.vector(2, 2, 1, W4), at(4, 0, 4, 4, 8), 12)
    granted(s, R.vector(3, 1, 0, W4), at(4, 0, 0, 0), 4)
    granted(s, R.vector(2, 2, 0, W8), at(8, 0, 8, 0, 8), 16)
    granted(s, R.vector(1, 3, 9, W2), at(2, 0, 2, 4), 6)
    granted(s, R.vector(2, 1, 3, W1).vector(2, 2, 3), at(1, 0, 3, 4, 7, 12, 15, 16, 19), 20)
    granted(s, R.vector(2, 1, 2, W4).contiguous(2), at(4, 0, 8, 12, 20), 24)
    s.section = "recipe: vector, one block"
    for stride in (SMALLEST, SMALLEST + 1, -1, 0, 1, LARGEST, 2**62, -(2**62)):
        granted(s, R.vector(1, 2, stride, W8), at(8, 0, 8), 16)
        granted(s, R.vector(1, 1, stride, W1), at(1, 0), 1)
    s.section = "recipe: vector, the stride below 0"
    up = R.indexed([(1, 4)], W4)  # width 4 at 16
    granted(s, up.vector(3, 1, -2), at(4, 16, 8, 0), 20)
    granted(s, up.vector(3, 2, -2), at(4, 16, 20, 8, 12, 0, 4), 24)
    granted(s, up.vector(2, 2, -4), at(4, 16, 20, 0, 4), 24)
    granted(s, up.vector(5, 1, -1), at(4, 16, 12, 8, 4, 0), 20)
    granted(s, up.vector(2, 3, -4).contiguous(2), at(4, 16, 20, 24, 0, 4, 8, 44, 48, 52, 28, 32, 36), 56)
    refused(s, up.vector(2, 1, -2), 32, 1)
    refused(s, up.vector(6, 1, -1), 31, 1)
    granted(s, R.indexed([(2, 3)], W1).vector(2, 2, -1).resized(9), at(1, 3, 4, 5, 6, 1, 2, 3, 4), 9)


def indexed_and_resized(s):
    s.section = "recipe: indexed"
    granted(s, R.indexed([(1, 0)], W8), at(8, 0), 8)
    granted(s, R.indexed([(2, 3), (1, 0), (3, 7)], W2), at(2, 6, 8, 0, 14, 16, 18), 20)
    granted(s, R.indexed([(2, 0), (2, 1)], W4), at(4, 0, 4, 4, 8), 12)
    granted(s, R.indexed([(1, 5), (1, 5), (1, 0)], W1), at(1, 5, 5, 0), 6)
    granted(s, R.indexed([(1, 3), (1, 2), (1, 1), (1, 0)], W4), at(4, 12, 8, 4, 0), 16)
    granted(s, R.indexed([(1, 0), (2, 4)], W1).indexed([(2, 1), (1, 0)]), at(1, 6, 10, 11, 12, 16, 17, 0, 4, 5), 18)
    granted(s, R.indexed([(1, 2), (1, 0)], W2).vector(2, 1, 3), at(2, 4, 0, 22, 18), 24)
    s.section = "recipe: indexed, a block below 0"
    granted(s, R.indexed([(1, 2)], W4).indexed([(1, -2), (1, 3)]), at(4, 0, 20), 24)
    granted(s, R.indexed([(1, 2)], W4).indexed([(3, -2)]), at(4, 0, 4, 8), 12)
    refused(s, R.indexed([(1, 2)], W4).indexed([(1, -3), (1, -2)]), 31, 1)
    s.section = "recipe: indexed, lower bound above 0"
    apart = R.indexed([(1, 2), (1, 5)], W4)  # 8 and 20, extent 16
    granted(s, apart.resized(40), at(4, 8, 20), 40)
    granted(s, apart.contiguous(2).resized(40), at(4, 8, 20, 24, 36), 40)
    granted(s, apart.vector(2, 1, 2).resized(1), at(4, 8, 20, 40, 52), 1)
    granted(s, R.indexed([(1, 8), (1, 11)], W4).indexed([(1, -2), (1, 0)]), at(4, 0, 12, 32, 44), 48)
    s.section = "recipe: resized"
    for extent in (1, 2, 7, 8, 9, 1000, MEGA):
        granted(s, R.resized(extent, W8), at(8, 0), extent)
    granted(s, R.vector(2, 1, 3, W1).resized(2), at(1, 0, 3), 2)
    granted(s, R.vector(2, 1, 3, W1).resized(100), at(1, 0, 3), 100)


def subarrays(s):
    s.section = "recipe: subarray"
    granted(s, R.subarray([(5, 2, 1)], W4), at(4, 4, 8), 20)
    granted(s, R.subarray([(1, 1, 0)], W8), at(8, 0), 8)
    granted(s, R.subarray([(4, 4, 0)], W1), at(1, 0, 1, 2, 3), 4)
    granted(s, R.subarray([(4, 1, 3)], W2), at(2, 6), 8)
    granted(s, R.subarray([(3, 2, 1), (4, 2, 1)], W2), at(2, 10, 12, 18, 20), 24)
    granted(s, R.subarray([(2, 1, 1), (3, 3, 0)], W1), at(1, 3, 4, 5), 6)
    granted(s, R.subarray([(3, 3, 0), (2, 1, 1)], W1), at(1, 1, 3, 5), 6)
    granted(s, R.subarray([(2, 2, 0), (3, 3, 0)], W8), at(8, 0, 8, 16, 24, 32, 40), 48)
    granted(s, R.subarray([(2, 1, 1), (3, 2, 0), (4, 2, 2)], W1), at(1, 14, 15, 18, 19), 24)
    granted(s, R.subarray([(4, 2, 1), (3, 2, 1), (2, 1, 0)], W1), at(1, 8, 10, 14, 16), 24)
    granted(s, R.subarray([(2, 2, 0), (2, 1, 1), (3, 1, 2), (2, 2, 0)], W1), at(1, 10, 11, 22, 23), 24)
    granted(s, R.subarray([(2, 1, 1), (3, 1, 1), (4, 1, 1), (5, 1, 1)], W2), at(2, 172), 240)  # ((1*3 + 1)*4 + 1)*5 + 1 = 86
    s.section = "recipe: subarray, of other steps and below them"
    granted(s, R.vector(2, 1, 2, W2).subarray([(3, 2, 1)]), at(2, 6, 10, 12, 16), 18)
    granted(s, R.subarray([(4, 1, 1)], W2).contiguous(2), at(2, 2, 10), 16)
    granted(s, R.subarray([(4, 2, 2)], W1).vector(2, 1, 2), at(1, 2, 3, 10, 11), 12)
    granted(s, R.subarray([(2, 1, 1)], W4).indexed([(1, 2), (1, 0)]), at(4, 20, 4), 24)
    granted(s, R.subarray([(3, 1, 2)], W1).subarray([(3, 1, 2)]), at(1, 8), 9)
    granted(s, R.subarray([(2, 1, 1), (2, 1, 0)], W1).subarray([(2, 2, 0), (3, 1, 1)]), at(1, 6, 18), 24)
    granted(s, R.subarray([(9, 2, 3)], W2).resized(5), at(2, 6, 8), 5)
    s.section = "recipe: subarray, lower bounds below it"
    up = R.indexed([(1, 2)], W4)  # width 4 at 8, extent 4
    granted(s, up.subarray([(5, 2, 1)]), at(4, 12, 16), 20)
    granted(s, up.subarray([(1, 1, 0)]), at(4, 8), 4)
    granted(s, up.subarray([(2, 1, 1), (3, 2, 1)]), at(4, 24, 28), 24)
    granted(s, up.subarray([(2, 1, 1)]).subarray([(2, 1, 1)]), at(4, 20), 16)


def markers(s):
    s.section = "recipe: markers of a resized type"
    four = R.resized(4, W1)
    granted(s, four.contiguous(3), at(1, 0, 4, 8), 12)
    granted(s, four.vector(2, 2, 3), at(1, 0, 4, 12, 16), 20)
    granted(s, four.indexed([(1, 3), (2, 0)]), at(1, 12, 0, 4), 16)
    granted(s, four.subarray([(3, 2, 1)]), at(1, 4, 8), 12)
    granted(s, four.contiguous(2).vector(2, 1, 2).contiguous(1), at(1, 0, 4, 16, 20), 24)
    short = R.resized(2, W8)
    granted(s, short.contiguous(3), at(8, 0, 2, 4), 6)
    granted(s, short.vector(2, 1, 5), at(8, 0, 10), 12)
    granted(s, short.indexed([(1, 4), (1, 0)]), at(8, 8, 0), 10)
    granted(s, short.subarray([(3, 1, 2)]), at(8, 4), 6)
    s.section = "recipe: markers, lower bounds"
    high = R.indexed([(1, 2)], W4).resized(12)  # width 4 at 8, from 0 to 12
    granted(s, high, at(4, 8), 12)
    granted(s, high.contiguous(2), at(4, 8, 20), 24)
    granted(s, high.vector(2, 1, 2), at(4, 8, 32), 36)
    refused(s, high.indexed([(1, 1)]), 32, 2)
    granted(s, high.indexed([(1, 1)]).indexed([(1, -1)]), at(4, 8), 12)
    granted(s, high.indexed([(1, 1)]).resized(3), at(4, 20), 3)
    granted(s, high.indexed([(1, 1)]).subarray([(1, 1, 0)]), at(4, 20), 12)
    granted(s, high.indexed([(1, 1)]).subarray([(2, 1, 1)]), at(4, 32), 24)
    granted(s, high.indexed([(1, 1), (1, 0)]), at(4, 20, 8), 24)
    refused(s, R.indexed([(1, 2)], W4).resized(4).indexed([(1, -2)]), 32, 2)  # the data at 0, the bound at -8
    refused(s, R.resized(4, W1).indexed([(1, 1)]), 32, 1)
    granted(s, R.resized(4, W1).indexed([(1, 1)]).subarray([(2, 1, 0)]), at(1, 4), 8)


def markers_below_zero(s):
    s.section = "recipe: a lower bound below 0 before the last step"
    base = R.indexed([(1, 2)], W4).resized(4)  # width 4 at 8, from 0 to 4
    down = base.indexed([(1, -2)])  # at 0, from -8 to -4
    granted(s, down.indexed([(1, 2)]), at(4, 8), 4)
    granted(s, down.indexed([(1, 2), (1, 3)]), at(4, 8, 12), 8)
    granted(s, down.indexed([(1, 4), (1, 2)]), at(4, 16, 8), 12)
    granted(s, down.resized(9), at(4, 0), 9)
    granted(s, down.subarray([(3, 1, 1)]), at(4, 4), 12)
    granted(s, down.subarray([(1, 1, 0)]), at(4, 0), 4)
    granted(s, down.subarray([(2, 2, 0), (2, 1, 1)]), at(4, 4, 12), 16)
    refused(s, down.contiguous(2), 32, 3)
    refused(s, down.contiguous(3), 32, 3)  # from -8 to 4, the data from 0 on
    both = base.vector(2, 1, -2)  # 8 and 0, from -8 to 4
    refused(s, both, 32, 2)
    granted(s, both.contiguous(2).resized(24), at(4, 8, 0, 20, 12), 24)
    granted(s, both.vector(2, 1, 2).resized(24), at(4, 8, 0, 32, 24), 24)
    granted(s, both.subarray([(2, 1, 1), (2, 2, 0)]), at(4, 32, 24, 44, 36), 48)
    granted(s, both.resized(2).contiguous(2), at(4, 8, 0, 10, 2), 4)
    granted(s, both.contiguous(1, W2), at(2, 0), 2)  # nothing is built of it
    s.section = "recipe: markers win over the data"
    granted(s, R.vector(2, 1, 3, W2).resized(3).contiguous(3), at(2, 0, 6, 3, 9, 6, 12), 9)
    granted(s, R.resized(3, W1).resized(5).contiguous(2), at(1, 0, 5), 10)
    granted(s, R.resized(5, W1).resized(3).contiguous(2), at(1, 0, 3), 6)
    granted(s, R.resized(100, W1).resized(1), at(1, 0), 1)
    granted(s, R.resized(100, W1).subarray([(3, 1, 1)]).resized(7).contiguous(2), at(1, 100, 107), 14)
    granted(s, R.resized(100, W1).contiguous(2).resized(3).contiguous(2), at(1, 0, 100, 3, 103), 6)
    granted(s, R.subarray([(3, 1, 1)], W1).contiguous(2).subarray([(2, 2, 0)]), at(1, 1, 4, 7, 10), 12)
    s.section = "recipe: past the extent, falling, sharing bytes"
    granted(s, R.indexed([(1, 9), (1, 9), (1, 0), (1, 4)], W4).resized(1), at(4, 36, 36, 0, 16), 1)


# Which steps

def naming(s):
    s.section = "recipe: which step is named"
    granted(s, R.contiguous(2, W4).resized(100).contiguous(3, earlier(0)), at(4, 0, 4, 8, 12, 16, 20), 24)
    granted(s, R.contiguous(2, W4).resized(100).contiguous(2, earlier(1)), at(4, 0, 4, 100, 104), 200)
    granted(s, R.contiguous(2, W4).resized(100, W2).vector(2, 1, 3, earlier(0)).contiguous(2, earlier(1)), at(2, 0, 100), 200)
    granted(s, R.contiguous(200, W8).contiguous(1, W1), at(1, 0), 1)
    granted(s, R.contiguous(3, W1).contiguous(2).resized(9, earlier(0)).contiguous(2), at(1, 0, 1, 2, 9, 10, 11), 18)
    s.section = "recipe: number of steps"
    for count in (1, 2, 31, 32):
        granted(s, Recipe(chain(count).steps), at(2, 0), 2)
    for count in (0, 33, 34, 64, 65, 166):
        refused(s, Recipe(chain(count).steps), 26, None)
    for count in (0, 33):
        refused(s, Recipe(chain(count).steps, (1, 0, 0)), 26, None)
    halves = R.contiguous(2, W1)
    for _ in range(7):
        halves = halves.contiguous(2)
    granted(s, halves, at(1, *range(256)), 256)
    for _ in range(24):
        halves = halves.contiguous(1)
    granted(s, halves, at(1, *range(256)), 256)
    refused(s, halves.contiguous(1), 26, None)
    s.section = "recipe: no whole number of steps"
    for numbers in (1, 2, 3, 4, 5, 7, 8, 9, 10, 11, 13, 6 * 31 + 1, 6 * 32 - 1, 6 * 32 + 1, 6 * 33 - 1, 1000):
        refused(s, Recipe((chain(167).steps)[:numbers]), 26, None)


def chain(count):
    """So many steps, each one copy of the one before; the first is of width 2."""
    new = R.contiguous(1, W2) if count else R
    while len(new) < count:
        new = new.contiguous(1)
    return new


def every_kind(of, new=R):
    """A recipe with one more step of each kind, built of this."""
    return (new.contiguous(1, of), new.vector(1, 1, 0, of), new.indexed([(1, 0)], of), new.subarray([(1, 1, 0)], of), new.resized(1, of))


def refusal_27(s):
    s.section = "recipe: 27 by the kind"
    for kind in UNKNOWN_KINDS:
        refused(s, R.step(kind, W4, 1, 1, 1), 27)
        refused(s, R.contiguous(2, W4).step(kind, earlier(0), 1, 1, 1), 27, 1)
    s.section = "recipe: 27 by the source"
    for source in UNKNOWN_SOURCES:
        for new in every_kind((source, 1)):
            refused(s, new, 27)
        refused(s, R.contiguous(2, W4).contiguous(1, (source, 0)), 27, 1)
    s.section = "recipe: 27 by the width"
    for w in BAD_WIDTHS:
        refused(s, R.contiguous(1, width(w)), 27)
        refused(s, R.contiguous(1, W8).resized(4, width(w)), 27, 1)
    for kinds in zip(*(every_kind(width(w)) for w in (0, 3, 16))):
        for new in kinds:
            refused(s, new, 27)
    for w in (1, 2, 4, 8):
        for new, extent in zip(every_kind(width(w)), (w, w, w, w, 1)):
            granted(s, new, at(w, 0), extent)
    s.section = "recipe: 27 by the name"
    for name in (0, 1, 2, 2**32, 2**63, ALL_ONES):
        for new in every_kind(earlier(name)):
            refused(s, new, 27)
    two = R.contiguous(2, W1).contiguous(1)
    for name, entries in [(0, 2), (1, 2)]:
        for new, extent in zip(every_kind(earlier(name), two), (2, 2, 2, 2, 1)):
            granted(s, new, at(1, *range(entries)), extent)
    for name in (2, 3, 4, 2**32, 2**32 + 1, 2**64 - 2, ALL_ONES):
        for new in every_kind(earlier(name), two):
            refused(s, new, 27, 2)
    refused(s, two.contiguous(1, earlier(3)).contiguous(1, W1), 27, 2)  # a later one that is good
    granted(s, chain(31).contiguous(1, earlier(30)), at(2, 0), 2)
    refused(s, chain(31).contiguous(1, earlier(31)), 27, 31)


# Counts of 0

def refusal_28(s):
    s.section = "recipe: 28"
    refused(s, R.contiguous(0, W1), 28)
    for count, length in [(0, 1), (1, 0), (0, 0), (5, 0), (0, 5), (ALL_ONES, 0), (0, ALL_ONES)]:
        refused(s, R.vector(count, length, 1, W4), 28)
    refused(s, R.indexed([], W4), 28)
    for blocks in ([(0, 0)], [(0, 4)], [(1, 0), (0, 4)], [(0, 4), (1, 0)], [(1, 0), (0, 4), (1, 8)], [(1, 0)] * 7 + [(0, 0)]):
        refused(s, R.indexed(blocks, W4), 28)
        refused(s, R.contiguous(1, W2).indexed(blocks), 28, 1)
    for dimensions in ([(1, 0, 0)], [(0, 0, 0)], [(4, 2, 0), (4, 0, 0)], [(4, 0, 1), (4, 2, 0)], [(2, 1, 0), (2, 0, 2), (2, 1, 0)],
                       [(2, 1, 0)] * 3 + [(2, 0, 0)]):
        refused(s, R.subarray(dimensions, W4), 28)
        refused(s, R.contiguous(1, W2).subarray(dimensions), 28, 1)
    s.section = "recipe: 28, blocks and dimensions past the end of the items"
    one, three = (2, 1, 0), (2, 1, 0, 3, 5, 0, 1, 0, 0)
    for blocks in (2, 3, 4, 5, 256, 257, 2**32, 2**32 + 1, 2**63, ALL_ONES):
        for kind in (3, 4):
            refused(s, Recipe((kind, 1, 4, 0, blocks, 0), one), 28)
    for first, blocks in [(0, 4), (1, 3), (2, 2), (3, 1), (4, 1), (3, ALL_ONES), (333, 1), (2**32, 1), (2**63, 1), (ALL_ONES, 1),
                          (ALL_ONES, 2), (ALL_ONES - 1, 5), (ALL_ONES, ALL_ONES)]:
        refused(s, Recipe((3, 1, 4, first, blocks, 0), three), 28)
    for first in ((2**64 + 2) // 3, (2**65 + 1) // 3):  # three times as much is 2 and 1, modulo 2^64
        refused(s, Recipe((3, 1, 4, first, 1, 0), (1, 1, 1, 0, 0, 0)), 28)
        refused(s, Recipe((4, 1, 4, first, 1, 0), (1, 1, 1, 1, 0, 0)), 28)
    granted(s, Recipe((3, 1, 4, 0, 3, 0), three), at(4, 4, 8, 20, 24, 28, 0), 32)
    granted(s, Recipe((3, 1, 4, 2, 1, 0), three), at(4, 0), 4)
    granted(s, Recipe((3, 1, 2, 1, 2, 0), three), at(2, 10, 12, 14, 0), 16)
    for blocks in (1, ALL_ONES):
        for kind in (3, 4):
            refused(s, Recipe((kind, 1, 4, 0, blocks, 0)), 28)


def partial_items(s):
    s.section = "recipe: an item of which a part is there"
    index, sub = (3, 1, 4, 1, 1, 0), (4, 1, 4, 1, 1, 0)
    item = (5, 5, 5)
    refused(s, Recipe(index, item), 28)
    granted(s, Recipe(index, item + (2,)), at(4, 0, 4), 8)  # the displacement is 0
    refused(s, Recipe(index, item + (2, 1)), 32)
    granted(s, Recipe(index, item + (2, 0)), at(4, 0, 4), 8)
    refused(s, Recipe(sub, item), 28)
    refused(s, Recipe(sub, item + (3,)), 28)
    granted(s, Recipe(sub, item + (3, 2)), at(4, 0, 4), 12)  # the start is 0
    granted(s, Recipe(sub, item + (3, 2, 1)), at(4, 4, 8), 12)
    refused(s, Recipe((4, 1, 4, 0, 2, 0), (2, 1, 1, 3)), 28)
    granted(s, Recipe((4, 1, 4, 0, 2, 0), (2, 1, 1, 3, 1)), at(4, 12), 24)
    s.section = "recipe: items used by several steps, and in other places"
    items = (9, 9, 9, 2, 1, 0, 3, 2, 1, 9)
    new = Recipe((3, 1, 1, 1, 1, 0, 3, 2, 0, 1, 2, 0, 4, 1, 2, 1, 2, 0), items)  # at 1 and 2; (2 at 1, 3 at 2); 1 of 2, 2 of 3 from 1 on
    granted(s, new, at(2, 2, 4), 12)
    refused(s, Recipe(new.steps[:12], items), 32, 1)
    granted(s, Recipe(new.steps[:12] + (5, 2, 1, 20, 0, 0), items), at(1, 3, 4, 5, 6, 5, 6, 7, 8, 9, 10), 20)
    s.section = "recipe: numbers that are not looked at"
    for junk in (1, 0, 2**63, ALL_ONES):
        granted(s, Recipe((1, 1, 4, 2, junk, junk)), at(4, 0, 4), 8)
        granted(s, Recipe((3, 1, 4, 0, 2, junk), (1, 0, junk, 1, 3, junk)), at(4, 0, 12), 16)
        granted(s, Recipe((4, 1, 4, 0, 1, junk), (3, 2, 1)), at(4, 4, 8), 12)
        granted(s, Recipe((5, 1, 4, 9, junk, junk)), at(4, 0), 9)
        granted(s, Recipe((2, 1, 4, 2, 1, 2), (junk, junk)), at(4, 0, 8), 12)


# Subarrays that are none

def refusal_29(s):
    s.section = "recipe: 29 by the dimensions"
    refused(s, R.subarray([], W4), 29)
    refused(s, R.contiguous(2, W1).subarray([]), 29, 1)
    one = (2, 1, 1)
    granted(s, R.subarray([one] * 4, W1), at(1, 15), 16)
    for dimensions in (5, 6, 8, 83, 333):
        refused(s, R.subarray([one] * dimensions, W1), 29)
    for place_of_0 in (0, 3, 4):
        refused(s, R.subarray([one] * place_of_0 + [(2, 0, 1)] + [one] * (4 - place_of_0), W1), 28)
    refused(s, Recipe((4, 1, 1, 0, ALL_ONES, 0), one * 5), 28)
    s.section = "recipe: 29 by a place outside the array"
    for bad in ((0, 1, 0), (1, 2, 0), (4, 1, 4), (4, 2, 3), (4, 5, 0), (4, 4, 1), (4, 1, -1), (4, 4, -1), (4, 1, SMALLEST), (4, 1, LARGEST),
                (ALL_ONES, 1, -1), (0, ALL_ONES, 1), (0, ALL_ONES, 0), (1, ALL_ONES, 2), (ALL_ONES, 2**63 + 1, LARGEST), (4, ALL_ONES, 3),
                (ALL_ONES, ALL_ONES, 1), (0, 1, -1), (0, 2, LARGEST), (2**63, 2, LARGEST)):
        refused(s, R.subarray([bad], W4), 29)
        for others in (1, 2, 3):
            refused(s, R.subarray([bad] + [one] * others, W4), 29)
            refused(s, R.subarray([one] * others + [bad], W4), 29)
    s.section = "recipe: 29, the last places inside"
    for size, subsize, start in [(4, 1, 3), (4, 2, 2), (4, 4, 0), (1, 1, 0), (256, 256, 0), (MEGA, 1, MEGA - 1)]:
        granted(s, R.subarray([(size, subsize, start)], W1), at(1, *range(start, start + subsize)), size)
        granted(s, R.subarray([(1, 1, 0), (size, subsize, start)], W1), at(1, *range(start, start + subsize)), size)
    for inside in ((2**63, 1, LARGEST), (ALL_ONES, 1, LARGEST), (2**63 + 1, 2, LARGEST), (ALL_ONES, 1, 0), (2**63, 1, 0)):
        refused(s, R.subarray([inside], W4), 31)
    refused(s, R.subarray([(ALL_ONES, ALL_ONES, 0)], W4), 30)
    refused(s, R.subarray([(ALL_ONES, 2**63, LARGEST)], W4), 30)


# More than 256 entries

def refusal_30(s):
    s.section = "recipe: 30, 256 entries"
    for new in (R.contiguous(256, W1), R.vector(16, 16, 16, W1), R.vector(256, 1, 1, W1), R.vector(1, 256, 7, W1),
                R.indexed([(128, 0), (128, 128)], W1), R.indexed([(1, i) for i in range(256)], W1), R.subarray([(256, 256, 0)], W1),
                R.subarray([(16, 16, 0), (16, 16, 0)], W1), R.subarray([(4, 4, 0)] * 4, W1), R.contiguous(128, W1).vector(2, 1, 1),
                R.contiguous(4, W1).indexed([(32, 0), (32, 32)]), R.contiguous(2, W1).subarray([(8, 8, 0), (16, 16, 0)]),
                R.contiguous(256, W1).resized(256), R.contiguous(256, W1).contiguous(1), R.contiguous(255, W1).contiguous(256, W1)):
        granted(s, new, at(1, *range(256)), 256)
    granted(s, R.contiguous(255, W1), at(1, *range(255)), 255)
    granted(s, R.resized(2, W1).contiguous(256), at(1, *range(0, 512, 2)), 512)  # markers are no entries
    granted(s, R.resized(2, W1).contiguous(128).indexed([(1, 1), (1, 0)]), at(1, *range(256, 512, 2), *range(0, 256, 2)), 512)
    granted(s, R.contiguous(256, W8), at(8, *range(0, 2048, 8)), 2048)
    s.section = "recipe: 30, more than 256 entries"
    half, third = R.contiguous(128, W1), R.contiguous(3, W2)
    for new in (R.contiguous(257, W1), R.contiguous(258, W8), R.vector(257, 1, 1, W1), R.vector(1, 257, 1, W1), R.vector(129, 2, 2, W1),
                R.vector(2, 129, 2, W1), R.indexed([(128, 0), (129, 0)], W1), R.indexed([(1, 0)] * 257, W1), R.indexed([(257, 0)], W1),
                R.subarray([(257, 257, 0)], W1), R.subarray([(16, 16, 0), (17, 17, 0)], W1), R.subarray([(4, 4, 0)] * 3 + [(5, 5, 0)], W1)):
        refused(s, new, 30)
    for new in (half.contiguous(3), half.vector(3, 1, 1), half.vector(1, 3, 1), half.indexed([(2, 0), (1, 2)]), half.subarray([(3, 3, 0)]),
                half.subarray([(2, 2, 0), (2, 2, 0)]), third.contiguous(86), third.vector(43, 2, 2), third.indexed([(85, 0), (1, 85)]),
                third.subarray([(43, 43, 0), (2, 2, 0)])):
        refused(s, new, 30, 1)
    granted(s, third.contiguous(85), at(2, *range(0, 510, 2)), 510)
    refused(s, half.contiguous(2).contiguous(2).contiguous(1, W1), 30, 2)


def counts_that_wrap(s):
    s.section = "recipe: 30, numbers that wrap"
    for count in (2**32, 2**63, ALL_ONES, 2**32 + 1, 2**64 - 256):
        refused(s, R.contiguous(count, W1), 30)
        refused(s, R.contiguous(256, W1).contiguous(count), 30, 1)
        refused(s, R.vector(count, 1, 0, W1), 30)
        refused(s, R.vector(1, count, 0, W1), 30)
        refused(s, R.indexed([(count, 0)], W1), 30)
        refused(s, R.subarray([(ALL_ONES, count, 0)], W1), 30)
    for one, two in [(2**32, 2**32), (2**63, 2), (2, 2**63), (ALL_ONES, ALL_ONES), (2**32 + 1, 2**32), (2**33, 2**31), (ALL_ONES, 2)]:
        refused(s, R.vector(one, two, 0, W1), 30)
        refused(s, R.vector(one, two, SMALLEST, W8), 30)
        refused(s, R.subarray([(ALL_ONES, one, 0), (ALL_ONES, two, 0)], W1), 30)
        refused(s, R.subarray([(one, one, 0), (1, 1, 0), (two, two, 0)], W1), 30)
    for blocks in ([2**63, 2**63], [ALL_ONES, 2], [1, ALL_ONES], [2**63, 2**63, 5], [2**62] * 4, [ALL_ONES, ALL_ONES, 3]):
        refused(s, R.indexed([(length, 0) for length in blocks], W1), 30)
    for entries, count in [(2, 2**63), (4, 2**62), (256, 2**56), (2, 2**63 + 1), (3, 0x5555555555555556)]:
        refused(s, R.contiguous(entries, W1).contiguous(count), 30, 1)
        refused(s, R.contiguous(entries, W1).vector(count, 1, 0), 30, 1)
        refused(s, R.contiguous(entries, W1).indexed([(count, 0)]), 30, 1)
        refused(s, R.contiguous(entries, W1).subarray([(count, count, 0)]), 30, 1)


# Displacements and extents outside document 01's limits

def ends_at_the_limit(s):
    s.section = "recipe: 31 by the end of an entry"
    for w in (1, 2, 4, 8):
        last = MEGA // w - 1
        granted(s, R.indexed([(1, 0), (1, last)], width(w)), at(w, 0, MEGA - w), MEGA)
        refused(s, R.indexed([(1, 0), (1, last + 1)], width(w)), 31)
        refused(s, R.indexed([(1, last + 1)], width(w)), 31)
        refused(s, R.indexed([(2, last)], width(w)), 31)
        refused(s, R.indexed([(1, last)], width(w)), 32)
        granted(s, R.indexed([(1, last)], width(w)).resized(w), at(w, MEGA - w), w)
        bytewise = R.resized(1, width(w))
        granted(s, bytewise.indexed([(1, 0), (1, MEGA - w)]), at(w, 0, MEGA - w), MEGA - w + 1)
        refused(s, bytewise.indexed([(1, 0), (1, MEGA - w + 1)]), 31, 1)
        granted(s, bytewise.vector(2, 1, MEGA - w), at(w, 0, MEGA - w), MEGA - w + 1)
        refused(s, bytewise.vector(2, 1, MEGA - w + 1), 31, 1)
        granted(s, bytewise.subarray([(MEGA, 1, MEGA - w)]), at(w, MEGA - w), MEGA)
        if w > 1:
            refused(s, bytewise.subarray([(MEGA, 1, MEGA - w + 1)]), 31, 1)
        granted(s, R.vector(2, 1, last, width(w)), at(w, 0, MEGA - w), MEGA)
        refused(s, R.vector(2, 1, last + 1, width(w)), 31)
    s.section = "recipe: 31 by an entry below 0"
    for new in (R.vector(2, 1, -1, W1), R.vector(3, 2, -1, W4), R.indexed([(1, -1)], W1), R.indexed([(1, 0), (1, -1)], W8),
                R.indexed([(2, -1)], W2), R.indexed([(1, SMALLEST)], W1), R.vector(2, 1, SMALLEST, W1)):
        refused(s, new, 31)
        refused(s, new.indexed([(1, 5)]), 31)  # though all would lie above 0 again
        refused(s, new.resized(100), 31)
        refused(s, new.subarray([(9, 1, 8)]), 31)
        refused(s, new.contiguous(1, W1), 31)
    one_up = R.indexed([(1, 1)], W1)
    granted(s, one_up.indexed([(1, -1)]), at(1, 0), 1)
    refused(s, one_up.indexed([(1, -2)]), 31, 1)
    granted(s, one_up.vector(2, 1, -1), at(1, 1, 0), 2)
    refused(s, one_up.vector(3, 1, -1), 31, 1)
    refused(s, one_up.vector(2, 1, -2), 31, 1)


def extents_at_the_limit(s):
    s.section = "recipe: 31 by the extent"
    for extent in (0, -1, -4, MEGA + 1, 2**32, 2**32 + 1, LARGEST, SMALLEST, SMALLEST + 1):
        refused(s, R.resized(extent, W4), 31)
        refused(s, R.contiguous(2, W1).resized(extent).resized(2), 31, 1)
    granted(s, R.resized(MEGA, W4).resized(4), at(4, 0), 4)
    granted(s, R.resized(MEGA // 2, W1).contiguous(2), at(1, 0, MEGA // 2), MEGA)
    refused(s, R.resized(MEGA // 2 + 1, W1).contiguous(2), 31, 1)
    granted(s, R.resized(MEGA // 4, W1).vector(2, 1, 3), at(1, 0, 3 * MEGA // 4), MEGA)
    refused(s, R.resized(MEGA // 4 + 1, W1).vector(2, 1, 3), 31, 1)
    granted(s, R.resized(MEGA // 4, W1).indexed([(1, 3), (1, 0)]), at(1, 3 * MEGA // 4, 0), MEGA)
    refused(s, R.resized(MEGA // 4 + 1, W1).indexed([(1, 3), (1, 0)]), 31, 1)
    wide = R.indexed([(1, MEGA // 2)], W1).resized(MEGA // 2)
    granted(s, wide.indexed([(1, -1)]).resized(1), at(1, 0), 1)
    granted(s, wide.vector(2, 1, -1).resized(1), at(1, MEGA // 2, 0), 1)  # from -MEGA/2 to MEGA/2
    refused(s, R.indexed([(1, MEGA // 2 + 1)], W1).resized(MEGA // 2 + 1).vector(2, 1, -1).resized(1), 31, 2)
    s.section = "recipe: 31 by a subarray's sizes"
    for dimensions in ([(MEGA, 1, 0)], [(1024, 1, 0), (1024, 1, 0)], [(1, 1, 0), (MEGA, 1, 0)], [(MEGA, 1, 0), (1, 1, 0)],
                       [(32, 1, 0)] * 4):
        granted(s, R.subarray(dimensions, W1), at(1, 0), MEGA)
        refused(s, R.subarray(dimensions, W2), 31)
    for dimensions in ([(MEGA + 1, 1, 0)], [(1024, 1, 0), (1025, 1, 0)], [(32, 1, 0)] * 3 + [(33, 1, 0)], [(2**32, 1, 0)],
                       [(2**32, 1, 0), (2**32, 1, 0)], [(2**16, 1, 0)] * 4, [(2**63, 1, 0), (2, 1, 0)], [(2, 1, 0), (2**63, 1, 0)],
                       [(ALL_ONES, 1, 0), (ALL_ONES, 1, 0)], [(2**32, 1, 0), (1, 1, 0), (2**32, 1, 0)], [(2**63 + 1, 1, 0), (2, 1, 0)],
                       [(ALL_ONES, 1, 0)], [(2**63, 1, 0)], [(2**32 + 1, 1, 0)], [(ALL_ONES, 1, 0)] * 4):
        refused(s, R.subarray(dimensions, W1), 31)
        refused(s, R.contiguous(2, W1).subarray(dimensions), 31, 1)
        refused(s, R.contiguous(2, W1).subarray(dimensions).resized(8), 31, 1)
    for w, size in [(2, 2**63), (2, 2**63 + 1), (4, 2**62 + 1), (8, 2**61 + 1)]:
        refused(s, R.subarray([(size, 1, 0)], width(w)), 31)
        refused(s, R.subarray([(size, 1, size - 1)], width(w)) if size - 1 <= LARGEST else R.subarray([(size, 1, LARGEST)], width(w)), 31)


def products_that_wrap(s):
    s.section = "recipe: 31, products that wrap"
    for w, by in [(2, 2**63 - 1), (2, 2**62), (4, 2**62), (8, 2**61), (8, 2**61 + 1), (4, 2**62 + 1), (8, 2**62), (1, LARGEST),
                  (8, LARGEST)]:
        for sign in (1, -1):
            refused(s, R.vector(2, 1, sign * by, width(w)), 31)
            refused(s, R.vector(3, 2, sign * by, width(w)), 31)
            refused(s, R.indexed([(1, 0), (1, sign * by)], width(w)), 31)
            refused(s, R.indexed([(1, sign * by)], width(w)), 31)
            refused(s, R.contiguous(3, width(w)).indexed([(2, sign * by)]), 31, 1)
        refused(s, R.subarray([(ALL_ONES, 1, by)], width(w)), 31)
    for w in (1, 2, 4, 8):
        refused(s, R.vector(2, 1, SMALLEST, width(w)), 31)
        refused(s, R.vector(2, 2, SMALLEST, width(w)), 31)
        refused(s, R.vector(3, 1, SMALLEST, width(w)), 31)
        refused(s, R.indexed([(1, 0), (1, SMALLEST)], width(w)), 31)
        refused(s, R.indexed([(1, LARGEST)], width(w)), 31)
        refused(s, R.indexed([(2, LARGEST)], width(w)), 31)  # the second one would be at -2^63
    most = R.resized(MEGA, W1)
    for by in (2**44, 2**43, -(2**44), 2**60, SMALLEST, 2**44 + 1):  # times 2^20
        refused(s, most.vector(2, 1, by), 31, 1)
        refused(s, most.indexed([(1, 0), (1, by)]), 31, 1)
    refused(s, most.subarray([(2**44, 1, 0)]), 31, 1)
    refused(s, most.subarray([(2**44 + 1, 1, 2**44)]), 31, 1)
    refused(s, most.subarray([(2**22, 1, 0), (2**22, 1, 0)]), 31, 1)
    refused(s, R.vector(2**6, 1, 2**58, W1), 31)
    refused(s, R.vector(256, 1, 2**56, W1), 31)


# The last step

def refusal_32(s):
    s.section = "recipe: 32"
    for new in (R.indexed([(1, 1)], W1), R.indexed([(3, 7), (1, 4)], W8), R.contiguous(2, W1).indexed([(1, 1)]),
                R.indexed([(1, 1)], W1).contiguous(2), R.indexed([(1, 1)], W1).vector(2, 1, 4), R.indexed([(1, 5)], W4).vector(5, 1, -1),
                R.subarray([(2, 1, 1)], W4).indexed([(2, 1)]), R.resized(2, W8).indexed([(1, 1)]),
                R.indexed([(1, 1)], W1).resized(1).indexed([(1, -1)]), R.resized(9, W1).vector(2, 1, 1).indexed([(1, 2), (1, 1)])):
        refused(s, new, 32, len(new) - 1)
        step = len(new)
        granted(s, new.contiguous(2, W4), at(4, 0, 4), 8)  # not the last one any more
        refused(s, new.contiguous(2, W4).contiguous(1, earlier(step - 1)), 32, step + 1)
    s.section = "recipe: 32, the limits of the bound"
    refused(s, R.resized(1, W1).indexed([(1, MEGA - 1)]), 32, 1)
    high = R.indexed([(1, MEGA - 1)], W1).resized(1)
    refused(s, high.indexed([(1, -1)]), 32, 2)
    refused(s, high.indexed([(1, 1 - MEGA)]), 32, 2)
    granted(s, high.indexed([(1, 1 - MEGA)]).indexed([(1, MEGA - 1)]), at(1, MEGA - 1), 1)
    granted(s, high.indexed([(1, 1 - MEGA)]).resized(MEGA), at(1, 0), MEGA)


def refusal_33(s):
    s.section = "recipe: 33"
    cases = [(R.contiguous(1, W4), at(4, 0), 4), (R.contiguous(2, W4), at(4, 0, 4), 8),
             (R.vector(3, 2, 4, W1), at(1, 0, 1, 4, 5, 8, 9), 10), (R.contiguous(5, W1).contiguous(2, W4), at(4, 0, 4), 8),
             (R.contiguous(256, W1), at(1, *range(256)), 256)]
    for new, entries, extent in cases:
        n, last = len(entries), len(new) - 1
        for lengths in ((n - 1, n), (n, n - 1), (n - 1, n - 1), (0, n), (n, 0), (0, 0), (n - 1, 300), (300, n - 1)):
            refused(s, new, 33, last, lengths)
        for after in ((0, 0), (0, 1), (1, 0), (2, 3), (300 - n, 299 - n)):
            granted(s, new, entries, extent, after)
    for entries in (3, 4):
        refused(s, R.contiguous(entries, W4).contiguous(2), 33, 1, (entries, 300))


# The order of the checks

def pairs_in_a_step(s):
    """Two refusals at once in one step: the one with the lower number is given."""
    s.section = "recipe: two refusals in one step"
    bad = width(3)
    rows = [(27, R.contiguous(0, bad)), (27, R.vector(1, 0, 0, bad)), (27, R.indexed([], bad)), (27, R.step(0, W4, 0)),
            (27, R.subarray([(2, 0, 0)], bad)), (27, R.subarray([], bad)), (27, R.subarray([(1, 1, 1)], bad)),
            (27, R.contiguous(300, bad)), (27, R.resized(0, bad)), (27, R.indexed([(1, -1)], bad)), (27, R.resized(0, earlier(0))),
            (27, R.contiguous(0, earlier(0))), (27, R.indexed([(1, 1)], bad)), (27, R.step(6, W4, 300)),
            (27, R.contiguous(257, earlier(5))),
            (28, R.subarray([(2, 0, -1)], W4)), (28, R.subarray([(2, 1, -1), (2, 0, 0)], W4)), (28, R.subarray([(0, 0, 5)], W4)),
            (28, R.subarray([(2, 1, 0)] * 4 + [(2, 0, 0)], W4)), (28, R.subarray([(2, 0, 0)] * 5, W4)),
            (28, R.subarray([(1, 2, 0), (1, 0, 0)], W4)),
            (28, R.indexed([(300, 0), (0, 0)], W4)), (28, R.indexed([(ALL_ONES, 0), (0, 0)], W4)), (28, R.vector(300, 0, 1, W4)),
            (28, R.vector(0, 300, 1, W4)), (28, R.subarray([(300, 300, 0), (1, 0, 0)], W4)), (28, R.indexed([(1, -1), (0, 0)], W4)),
            (28, R.indexed([(0, 0), (1, MEGA)], W4)), (28, R.vector(2, 0, -1, W4)), (28, R.subarray([(MEGA + 1, 0, 0)], W4)),
            (28, R.indexed([(1, 1), (0, 1)], W4)),
            (29, R.subarray([(200, 300, 0)], W4)), (29, R.subarray([(4, 4, 0)] * 5, W4)), (29, R.subarray([(300, 300, -1)], W4)),
            (29, R.subarray([(300, 300, 0), (1, 1, 1)], W4)), (29, R.subarray([(4, 1, -1)], W4)), (29, R.subarray([(MEGA + 1, 1, -1)], W4)),
            (29, R.subarray([(MEGA, 1, MEGA)], W1)), (29, R.subarray([(MEGA + 1, 1, 0), (1, 1, 1)], W4)),
            (29, R.subarray([(MEGA + 1, 1, 0)] * 5, W4)),
            (30, R.indexed([(300, -5)], W4)), (30, R.vector(257, 1, -1, W4)), (30, R.subarray([(2**21, 257, 0)], W1)),
            (30, R.indexed([(200, 0), (57, MEGA)], W1)), (30, R.vector(129, 2, MEGA, W1)), (30, R.contiguous(MEGA + 1, W1)),
            (30, R.indexed([(257, 1)], W1)), (30, R.vector(257, 1, SMALLEST, W1)),
            (31, R.indexed([(1, MEGA)], W1)), (31, R.indexed([(1, -1)], W1)), (31, R.indexed([(1, 1), (1, MEGA)], W1)),
            (31, R.resized(0, W1))]
    for refusal, new in rows:
        refused(s, new, refusal)
        refused(s, new, refusal, 0, (0, 0))  # with 33
        shifted = Recipe(R.contiguous(1, W1).steps + named_later(new.steps), new.items)
        refused(s, shifted, refusal, 1)
    s.section = "recipe: 31, 32 and 33 in the last step"
    base = R.indexed([(1, 2)], W4).resized(4)
    refused(s, base.indexed([(1, -3)]), 31, 2)
    refused(s, R.indexed([(1, MEGA // 2)], W1).resized(MEGA).indexed([(1, 1)]), 31, 2)
    for new in (R.indexed([(1, 1)], W4), base.indexed([(1, -2)]), R.resized(4, W1).indexed([(1, 1)])):
        for lengths in ((0, 0), (0, 1), (1, 0)):
            refused(s, new, 32, len(new) - 1, lengths)


def named_later(steps):
    """The numbers of one step, to be the second one: a name of itself or a later one stays so."""
    kind, source, name, *rest = steps
    return (kind, source, name + (source == 2), *rest)


LATE = ((27, R.contiguous(1, width(3))), (27, R.contiguous(1, earlier(40))), (27, R.step(9, W4, 1)), (28, R.contiguous(0, W4)),
        (28, R.vector(1, 0, 1, W4)), (28, R.indexed([], W4)), (28, R.subarray([(1, 0, 0)], W4)), (29, R.subarray([], W4)),
        (29, R.subarray([(1, 1, 1)], W4)), (30, R.contiguous(257, W4)), (30, R.vector(ALL_ONES, ALL_ONES, 0, W4)),
        (31, R.resized(0, W4)), (31, R.indexed([(1, -1)], W4)), (31, R.indexed([(1, MEGA)], W4)))


def joined(recipes):
    """One recipe of the steps of several, each of one step of a width and of its own items."""
    steps, items = (), ()
    for new in recipes:
        kind, source, name, a, *rest = new.steps
        steps += (kind, source, name, a + len(items) // 3 * (kind in (3, 4)), *rest)
        items += new.items
    return Recipe(steps, items)


def pairs_of_steps(s):
    """Two bad steps: the earlier one is at fault, whatever its number. Each bad step is so although no later one names it."""
    s.section = "recipe: two bad steps"
    good, low = R.contiguous(2, W4), R.indexed([(1, 1)], W4)
    for refusal, new in LATE:
        for _, later in LATE:
            refused(s, joined([new, later]), refusal)
        refused(s, joined([good, new, LATE[0][1], good]), refusal, 1)
        refused(s, joined([new, good]), refusal)
        refused(s, joined([good, good, new, good]), refusal, 2)
        refused(s, joined([good, low, new]), refusal, 2)
        refused(s, joined([good, new, low]), refusal, 1)
        refused(s, joined([good, new, good]), refusal, 1, (0, 0))
        refused(s, joined([good] * 31 + [new]), refusal, 31)
        refused(s, joined([new] * 32), refusal, 0)
        refused(s, joined([new] * 33), 26, None)
        refused(s, Recipe(joined([new, good]).steps[:-1], new.items), 26, None)


# The record's own rules

def bodies(s):
    s.section = "recipe: bodies"
    none = checksum([])
    s.add(record(46), 26, a=0, b=0, c=0, d=0, lent1=none, lent2=none)
    s.add(record(46, 5, 6, 3), 26, lent1=checksum([3] * 5), lent2=checksum([3] * 6))
    lists = {"lent1": checksum([4, 9]), "lent2": checksum([0, 9])}
    s.add(record(46, 2, 2, 2**31 + 9, 6, 0, 1, 1, 4, 1), a=1, b=4, **lists)  # b and c are not there
    s.add(record(46, 2, 2, 2**63 + 9, 6, 0, 1, 1, 4, 1, 0, 0, 7, 7, 7), a=1, b=4, **lists)  # more than is counted
    s.add(record(46, 2, 2, 9, 6, 0, 1, 1, 4), 28, c=1, d=0, lent1=checksum([9, 9]), lent2=checksum([9, 9]))
    s.add(record(46, 2, 2, 9, 6, 0), 27, c=1, d=0)
    s.add(record(46, 2, 2, 9, 12, 0, 1, 1, 4, 1, 0, 0), 27, c=1, d=1)
    s.add(record(46, 2, 2, 9, 6, 3, 3, 1, 4, 0, 1, 0, 1), a=1, b=4, **lists)  # an item of which two numbers are not there
    s.add(record(46, 2, 2, 9, 6, 2, 4, 1, 4, 0, 1, 0, 1, 1), a=1, b=4, **lists)
    s.add(record(46, 2, 2, 9, 6, 1, 4, 1, 4, 0, 1, 0, 1, 1, 0), 28, c=1, d=0)  # one number of the item is counted
    s.add(record(46, 2, 2, 9, 6, ALL_ONES, 3, 1, 4, 0, 1, 0, 1), a=1, b=4, **lists)
    s.add(record(46, 2, 2, 9, 1001, 0, *chain(32).steps), 26)
    s.add(record(46, 2, 2, 9, ALL_ONES, 0, *chain(32).steps), 26)
    s.add(record(46, 2, 2, 9, 198, 0, *chain(32).steps), 26)
    s.section = "recipe: the lengths of the lent lists"
    for length in (300, 301, 2**32, ALL_ONES):
        s.add(recipe(R.contiguous(2, W4), (length, length), ALL_ONES), a=2, b=8, c=0, d=0,
              lent1=checksum([4, 4] + [2**31 - 1] * 298), lent2=checksum([0, 4] + [2**31 - 1] * 298))
        s.add(recipe(R.contiguous(0, W4), (length, length), 8), 28, c=1, d=0, lent1=checksum([8] * 300), lent2=checksum([8] * 300))
    s.section = "recipe: 1,000 numbers of items"
    items = (1, 0, 0) * 332 + (2, 0, 0) + (3, 5, 5)
    for count, blocks, refusal in [(999, 2, 28), (1000, 2, 0), (1001, 2, 0), (1002, 2, 0), (ALL_ONES, 2, 0), (1002, 3, 28)]:
        s.add(record(46, 9, 9, 0, 6, count, 3, 1, 4, 332, blocks, 0, *items), refusal, a=0 if refusal else 5, b=0 if refusal else 12,
              c=int(refusal > 0), lent1=checksum([0] * 9 if refusal else [4] * 5 + [0] * 4),
              lent2=checksum([0] * 9 if refusal else [0, 4, 0, 4, 8] + [0] * 4))  # the displacement of item 333 is past the end
    s.section = "recipe: the slots stay"
    for slot in range(4):
        s.open(slot, 1 + slot % 3)
        s.add(seek(slot, 0, 7, 0))
        s.add(record(46, slot, 1, 0, 6, 0, *R.contiguous(1, W4).steps), 0 if slot else 33, a=int(slot > 0), b=4 * (slot > 0),
              c=int(slot == 0))
        s.add(seek(slot, 0, 0, 1), pointer=7, view=handle_sum(1 + slot % 3, Shape((1,), (0,), 1, (0,), 1)))


# Sets from recipes

WORD = R.contiguous(1, W4)
PAIR = R.vector(2, 1, 2, W2).resized(8)  # the widths 2, 2 at 0, 4
PAIR_SHAPE = Shape((2, 2), (0, 4), 8, (0,), 8)


def set_granted(s, slot, mode, etype, filetype, shape):
    """The set, the view, and the view given back."""
    s.open(slot, mode)
    s.add(seek(slot, 0, 5, 0))
    s.add(set_from_recipes(slot, shape.displacement, etype, filetype), a=0, b=0, pointer=0, view=handle_sum(mode, shape))
    request = shape.request()
    lists = (request.etype_widths, request.etype_displacements, request.filetype_widths, request.filetype_displacements)
    lent = {f"lent{i}": checksum(one + (FILL,)) for i, one in enumerate(lists, 1)}
    s.add(give_back(slot, [len(one) + 1 for one in lists], FILL), a=shape.displacement, b=len(shape.widths), c=shape.etype_extent,
          d=len(request.filetype_widths), e=shape.filetype_extent, **lent)


GRANTED_SETS = (
    ("P1", WORD, R.subarray([(3, 1, 1)], W4), words((4,), 12, 100), [104, 116, 128]),
    ("P1 with items in both recipes", R.indexed([(1, 0)], W4), R.subarray([(3, 1, 1)], W4), words((4,), 12), [4, 16, 28]),
    ("P12", R.contiguous(1, W1), R.indexed([(1, 0), (1, 3)], W1).resized(2), Shape((1,), (0,), 1, (0, 3), 2), [0, 3, 2, 5]),
    ("2 of 3 rows, 2 of 4 columns", WORD, R.subarray([(3, 2, 1), (4, 2, 1)], W4), words((20, 24, 36, 40), 48), [20, 24, 36, 40, 68]),
    ("a column", WORD, R.subarray([(3, 3, 0), (4, 1, 2)], W4), words((8, 24, 40), 48, 7), [15, 31, 47, 63]),
    ("a vector of words", WORD, R.vector(3, 2, 4, W4), words((0, 4, 16, 20, 32, 36), 40), [0, 4, 16, 20, 32, 36, 40]),
    ("a vector of words, resized", WORD, R.vector(3, 2, 4, W4).resized(48), words((0, 4, 16, 20, 32, 36), 48), [0, 4, 16, 20, 32, 36, 48]),
    ("pairs", PAIR, PAIR.contiguous(3), replace(PAIR_SHAPE, origins=(0, 8, 16), filetype_extent=24), [0, 8, 16, 24]),
    ("pairs, apart", PAIR, PAIR.vector(2, 1, 3), replace(PAIR_SHAPE, origins=(0, 24), filetype_extent=32), [0, 24, 32]),
    ("pairs in a subarray", PAIR, PAIR.subarray([(2, 1, 1), (3, 2, 1)]), replace(PAIR_SHAPE, origins=(32, 40), filetype_extent=48),
     [32, 40, 80]),
    ("64 pairs", PAIR, PAIR.contiguous(64), replace(PAIR_SHAPE, origins=tuple(range(0, 512, 8)), filetype_extent=512), [0, 8, 16]),
    ("256 entries", R.contiguous(4, W1), R.contiguous(256, W1),
     Shape((1,) * 4, (0, 1, 2, 3), 4, tuple(range(0, 256, 4)), 256), [0, 4, 8]),
)


def sets_granted(s):
    for name, etype, filetype, shape, places in GRANTED_SETS:
        s.section = f"set from recipes: {name}"
        for slot, mode in ((0, 1), (1, 2), (2, 3)):
            set_granted(s, slot, mode, etype, filetype, shape)
        s.places(2, places)
    s.section = "set from recipes: reads and writes"
    content = made(9, 60)
    s.add(new_file(0, 60, 60, 9))
    set_granted(s, 2, 3, WORD, R.subarray([(3, 2, 1), (4, 2, 1)], W4), words((20, 24, 36, 40), 48))
    data = content[20:28] + content[36:44]
    s.add(read_at(2, 0, 0, 4, 17, 3), count=4, lent1=checksum(data + b"\x03"))
    s.write(write_at(2, 0, 2, 2, 8), 2, 60, content[:36] + made(90, 8) + content[44:])
    s.owner(2, 41, (3, 1))
    s.owner(2, 35)
    s.add(place(2, 4), a=68)
    s.section = "set from recipes: for reading alone"
    s.open(1, 1)
    s.add(set_from_recipes(1, 0, WORD, R.vector(2, 2, 1, W4)), pointer=0, view=handle_sum(1, words((0, 4, 4, 8), 12)))
    s.places(1, [0, 4, 4, 8, 12])


def sets_refused(s):
    s.section = "set from recipes: the etype's recipe, then the filetype's"
    s.open(0, 3)
    s.add(seek(0, 0, 7, 0), pointer=7)
    stays = {"pointer": 7, "view": handle_sum(3, Shape((1,), (0,), 1, (0,), 1))}
    bad = LATE + ((26, R), (32, R.indexed([(1, 1)], W4)))
    for refusal, new in bad:
        s.add(set_from_recipes(0, 0, new, WORD), refusal, **stays)
        s.add(set_from_recipes(0, 0, WORD, new), refusal, **stays)
        s.add(set_from_recipes(0, -1, WORD, new, b"nativ"), refusal, **stays)  # with 2 and 3
        for other, later in ((26, R), (27, R.contiguous(1, width(3))), (32, R.indexed([(1, 1)], W4))):
            s.add(set_from_recipes(0, 0, new, later), refusal, **stays)
            s.add(set_from_recipes(0, 0, later, new), other, **stays)
    s.section = "set from recipes: the set's own refusals"
    for refusal, kind, entry, etype, filetype, displacement, name in own_refusals():
        s.add(set_from_recipes(0, displacement, etype, filetype, name), refusal, a=kind, b=entry, **stays)
    s.section = "set from recipes: check 1 comes after both recipes"
    s.add(open_handle(1, 9), 16)
    s.add(set_from_recipes(1, 0, WORD, WORD), 1, a=0, b=0)
    s.add(set_from_recipes(1, -1, WORD, R.indexed([(1, 1), (1, 0)], W4), b""), 1, a=0, b=0)
    s.add(set_from_recipes(1, 0, R, WORD), 26)
    s.add(set_from_recipes(1, 0, WORD, R.resized(0, W4)), 31)
    s.add(set_from_recipes(4, 0, WORD, WORD), pointer=0, view=handle_sum(3, words((0,), 4)))  # slot 0
    s.add(set_from_recipes(ALL_ONES, 0, R, WORD), 26)


def own_refusals():
    """Refusal, type, entry, and the set: etype, filetype, displacement and representation."""
    native, three = b"native", R.contiguous(3, W4)
    yield 2, 0, 0, WORD, WORD, 0, b"nativ"
    yield 2, 0, 0, WORD, WORD, 0, b"native\0"
    yield 2, 0, 0, WORD, R.indexed([(1, 1), (1, 0)], W4), -1, b""
    yield 3, 0, 0, WORD, WORD, -1, native
    yield 3, 0, 0, WORD, WORD, 2**40 + 1, native
    yield 4, 0, 0, R.contiguous(9, W1), R.contiguous(9, W1), 0, native
    yield 4, 0, 0, WORD, R.contiguous(65, W4), 0, native
    yield 4, 0, 0, R.contiguous(256, W4), R.contiguous(256, W4), 0, native
    yield 7, ETYPE, 1, R.indexed([(1, 1), (1, 0)], W4), R.indexed([(1, 1), (1, 0)], W4), 0, native
    yield 7, FILETYPE, 2, WORD, R.indexed([(2, 1), (1, 0)], W4), 0, native
    yield 17, 0, 0, PAIR, R.contiguous(3, W2), 0, native
    yield 18, FILETYPE, 0, WORD, R.contiguous(2, W8), 0, native
    yield 18, FILETYPE, 1, PAIR, R.contiguous(2, W2), 0, native
    yield 18, FILETYPE, 3, PAIR, R.indexed([(1, 0), (1, 2), (2, 4)], W2), 0, native
    yield 19, FILETYPE, 0, R.subarray([(2, 1, 1)], W4), three, 0, native
    yield 9, FILETYPE, 0, WORD, R.resized(2, W4).subarray([(6, 1, 1)]), 0, native  # P4
    yield 9, FILETYPE, 1, WORD, R.resized(1, W4).indexed([(1, 0), (1, 9)]).resized(16), 0, native
    yield 9, FILETYPE, 0, WORD, WORD.resized(7), 0, native
    yield 10, FILETYPE, 1, WORD, R.resized(2, W4).contiguous(2).resized(6), 0, native  # P5
    yield 10, FILETYPE, 1, WORD, R.contiguous(2, W4).resized(4), 0, native  # P6
    yield 10, FILETYPE, 2, WORD, R.vector(2, 2, 1, W4), 0, native
    yield 10, FILETYPE, 0, WORD, WORD.resized(2), 0, native
    yield 10, FILETYPE, 1, PAIR.resized(1), R.vector(2, 1, 2, W2).resized(4), 0, native


def set_bodies(s):
    s.section = "set from recipes: bodies"
    s.open(3, 3)
    s.add(record(SET_FROM_RECIPES), 26)
    s.add(record(SET_FROM_RECIPES, 3), 26)
    word = WORD.steps
    s.add(record(SET_FROM_RECIPES, 3, 0, 6, 0, 6, 0, *word, *word, tail=b"native"), pointer=0, view=handle_sum(3, words((0,), 4)))
    s.add(record(SET_FROM_RECIPES, 3, 0, 6, 0, 6, 0, *word, *word), 2)
    s.add(record(SET_FROM_RECIPES, 3, 0, 6, 0, 6, 0, *word), 27)  # the filetype's step is all 0
    s.add(record(SET_FROM_RECIPES, 3, 0, 6, 0, 6, 0, *word, 1, 1, 4, 2), 2)
    s.add(record(SET_FROM_RECIPES, 3, 0, 6, 0, 6, 3, *word, 3, 1, 4, 0, 1, 0, 2), 2)
    two = {"pointer": 0, "view": handle_sum(3, words((0, 4), 8))}
    items = (1, 0, 0) * 333
    for count in (1000, 1001, 1002, ALL_ONES):  # the filetype's steps stand right after 1,000 numbers
        s.add(record(SET_FROM_RECIPES, 3, 0, 6, count, 6, 0, 3, 1, 4, 332, 1, 0, *items, 1, 1, 1, 4, 2, 0, 0, tail=b"native"), **two)
        s.add(record(SET_FROM_RECIPES, 3, 0, 6, 0, 6, count, *word, 3, 1, 4, 331, 3, 0, *items, 2, tail=b"native"), 10, a=FILETYPE, b=1)
    s.add(record(SET_FROM_RECIPES, 3, 0, 6, 0, 6, 1000, *word, 1, 1, 4, 2, 0, 0, *items, 7, tail=b"native"), **two)
    s.add(reverse(3, 5), a=1, b=1, c=1)
    s.add(record(SET_FROM_RECIPES, 3, 0, 1001, 0, 6, 0, *chain(166).steps, *word, tail=b"native"), 26)


RECIPES = (contiguous_and_vector, indexed_and_resized, subarrays, markers, markers_below_zero, naming, refusal_27, refusal_28,
           partial_items, refusal_29, refusal_30, counts_that_wrap, ends_at_the_limit, extents_at_the_limit, products_that_wrap, refusal_32,
           refusal_33, pairs_in_a_step, pairs_of_steps, bodies, sets_granted, sets_refused, set_bodies)
