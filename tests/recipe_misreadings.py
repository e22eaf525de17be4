"""Misreadings of document 02's order 4, each as a wrong copy of the model. `mutants` shows that the rows of the fixed script see them.

Each class has the refusals of a recipe that its rows state, 0 for a granted one: of each there must be a row whose line the misreading
makes wrong. A class about sets from recipes has the calls by tag.
"""

from dataclasses import replace
from itertools import product as every_place

from model import Answer, Rules
from recipes import (CONTIGUOUS, EARLIER, INDEXED, ITEM_NUMBERS, LOWER, MARKERS, RESIZED, STEP_NUMBERS, SUBARRAY, UPPER, VECTOR, WIDTH,
                     Flat, making, product, signed)

RECIPE, SET_FROM_RECIPES = 46, 47
A_MILLION = 1_048_576


def wrapped(number):
    """As a signed number of 64 bits."""
    return signed(number % 2**64)


def recipe_rows(*refusals):
    return {(RECIPE, refusal) for refusal in refusals}


# The constructors

class StrideInBytes(Rules):
    """vector: the stride is in bytes"""

    seen_by = recipe_rows(0)

    def vector(self, typemap, count, length, stride):
        block = self.contiguous(typemap, length)
        return [pair for i in range(count) for pair in self.shifted(block, i * stride)]


class DisplacementsInBytes(Rules):
    """indexed: the displacements are in bytes"""

    seen_by = recipe_rows(0)

    def indexed(self, typemap, blocks):
        return [pair for length, place in blocks for pair in self.shifted(self.contiguous(typemap, length), place)]


class ElementsAtTheStride(Rules):
    """vector: the elements of a block are a stride apart, the blocks side by side"""

    seen_by = recipe_rows(0)

    def vector(self, typemap, count, length, stride):
        return self.copies_at(typemap, [i + j * stride for i in range(count) for j in range(length)])


class CountAndLength(Rules):
    """vector: count and block length changed over"""

    seen_by = recipe_rows(0)

    def vector(self, typemap, count, length, stride):
        return super().vector(typemap, length, count, stride)


class StrideFromTheEnd(Rules):
    """vector: the stride begins at the end of a block"""

    seen_by = recipe_rows(0)

    def vector(self, typemap, count, length, stride):
        return super().vector(typemap, count, length, stride + length)


class StrideFromOneBlock(Rules):
    """vector: the block lies one stride up, the first one too"""

    seen_by = recipe_rows(0)

    def vector(self, typemap, count, length, stride):
        return self.copies_at(typemap, [place for i in range(count) for place in self.block((i + 1) * stride, length)])


class BlocksInTurn(Rules):
    """vector: first the first elements of all blocks, then the second ones"""

    seen_by = recipe_rows(0)

    def vector(self, typemap, count, length, stride):
        return self.copies_at(typemap, [i * stride + j for j in range(length) for i in range(count)])


class StrideUnsigned(Rules):
    """vector: the stride is unsigned"""

    seen_by = recipe_rows(0)

    def vector(self, typemap, count, length, stride):
        return super().vector(typemap, count, length, stride % 2**64)


class StrideForOneBlock(Rules):
    """vector: the stride is judged with one block too"""

    seen_by = recipe_rows(0)

    def is_within(self, typemap):
        return super().is_within(typemap) and not self.far

    def typemap(self, step, source):
        self.far = step.kind == VECTOR and abs(signed(step.c)) * self.extent(source) > A_MILLION
        return super().typemap(step, source)


class BlocksSorted(Rules):
    """indexed: the blocks in order of their displacements"""

    seen_by = recipe_rows(0)

    def indexed(self, typemap, blocks):
        return super().indexed(typemap, sorted(blocks, key=lambda block: block[1]))


class BlocksOneAfterTheOther(Rules):
    """indexed: a displacement counts from the end of the block before"""

    seen_by = recipe_rows(0)

    def indexed(self, typemap, blocks):
        places, first = [], 0
        for length, displacement in blocks:
            places += self.block(first + displacement, length)
            first += displacement + length
        return self.copies_at(typemap, places)


class OneOfABlock(Rules):
    """indexed: one copy for each block"""

    seen_by = recipe_rows(0)

    def indexed(self, typemap, blocks):
        return super().indexed(typemap, [(1, displacement) for _, displacement in blocks])


class SizeForExtent(Rules):
    """copies lie as far apart as the type has data bytes"""

    seen_by = recipe_rows(0)

    def copies_at(self, typemap, places):
        size = sum(width for width, _ in self.data(typemap))
        return [pair for place in places for pair in self.shifted(typemap, place * size)]


class SpanForExtent(Rules):
    """copies lie as far apart as the data reach, whatever the markers say"""

    seen_by = recipe_rows(0)

    def copies_at(self, typemap, places):
        data = self.data(typemap)
        return [pair for place in places for pair in self.shifted(typemap, place * self.extent(data))]


class UpperBoundForExtent(Rules):
    """copies lie as far apart as the upper bound is from 0"""

    seen_by = recipe_rows(0)

    def copies_at(self, typemap, places):
        return [pair for place in places for pair in self.shifted(typemap, place * self.upper_bound(typemap))]


class FromTheLowerBound(Rules):
    """copies are moved so that the first one's lower bound is at 0"""

    seen_by = recipe_rows(0, 32)

    def copies_at(self, typemap, places):
        return super().copies_at(self.shifted(typemap, -self.lower_bound(typemap)), places)


class EntriesSorted(Rules):
    """the result in order of the displacements"""

    seen_by = recipe_rows(0)

    def data(self, typemap):
        return sorted(super().data(typemap), key=lambda pair: pair[1])


class EntriesOnce(Rules):
    """entries that are equal are written once"""

    seen_by = recipe_rows(0)

    def data(self, typemap):
        return list(dict.fromkeys(super().data(typemap)))


class EntriesJoined(Rules):
    """two entries of width 4 side by side become one of width 8"""

    seen_by = recipe_rows(0)

    def filled(self, typemap, widths, displacements):
        joined = []
        for width, d in self.data(typemap):
            if joined and width == 4 and joined[-1] == (4, d - 4):
                joined[-1] = (8, d - 4)
            else:
                joined.append((width, d))
        bounds = [(LOWER, self.lower_bound(typemap)), (UPPER, self.upper_bound(typemap))]
        return super().filled(joined + bounds, widths, displacements)


# Subarrays

class FortranOrder(Rules):
    """subarray: the first dimension runs fastest"""

    seen_by = recipe_rows(0)

    def subarray(self, typemap, dimensions):
        return super().subarray(typemap, dimensions[::-1])


class ColumnsFirst(Rules):
    """subarray: in C order, but written with the first dimension running fastest"""

    seen_by = recipe_rows(0)

    def subarray(self, typemap, dimensions):
        steps = [product(size for size, _, _ in dimensions[i + 1:]) for i in range(len(dimensions))]
        ranges = [range(start, start + subsize) for _, subsize, start in dimensions[::-1]]
        places = [sum(i * step for i, step in zip(index[::-1], steps)) for index in every_place(*ranges)]
        return self.bounded(self.copies_at(typemap, places), steps[0] * dimensions[0][0] * self.extent(typemap))


class SubarrayWithoutSizes(Rules):
    """subarray: no markers are set, so the extent is that of the data"""

    seen_by = recipe_rows(0)

    def subarray(self, typemap, dimensions):
        return self.data(super().subarray(typemap, dimensions))


class SubarrayToTheEnd(Rules):
    """subarray: the extent reaches to the end of the data"""

    seen_by = recipe_rows(0)

    def subarray(self, typemap, dimensions):
        data = self.data(super().subarray(typemap, dimensions))
        return self.bounded(data, self.upper_bound(data))


class SubarrayOfSubsizes(Rules):
    """subarray: the extent is that of the subsizes"""

    seen_by = recipe_rows(0)

    def subarray(self, typemap, dimensions):
        made = super().subarray(typemap, dimensions)
        return self.bounded(made, product(subsize for _, subsize, _ in dimensions) * self.extent(typemap))


class RowsOfSubsizes(Rules):
    """subarray: rows lie as far apart as the subsizes say"""

    seen_by = recipe_rows(0)

    def subarray(self, typemap, dimensions):
        upper = product(size for size, _, _ in dimensions) * self.extent(typemap)
        return self.bounded(super().subarray(typemap, [(subsize, subsize, start) for _, subsize, start in dimensions]), upper)


class StartLeftOut(Rules):
    """subarray: the starts are left out"""

    seen_by = recipe_rows(0)

    def subarray(self, typemap, dimensions):
        return super().subarray(typemap, [(size, subsize, 0) for size, subsize, _ in dimensions])


class StartsFromOne(Rules):
    """subarray: the starts are counted from 1"""

    seen_by = recipe_rows(0, 29)

    def is_inside(self, size, subsize, start):
        return super().is_inside(size, subsize, start - 1)

    def subarray(self, typemap, dimensions):
        return super().subarray(typemap, [(size, subsize, start - 1) for size, subsize, start in dimensions])


class LowerAtTheStart(Rules):
    """subarray: the lower bound is that of the data"""

    seen_by = recipe_rows(0)

    def subarray(self, typemap, dimensions):
        made = super().subarray(typemap, dimensions)
        return [(LOWER, self.lower_bound(self.data(made)))] + [pair for pair in made if pair[0] != LOWER]


class SubarrayFromTheLowerBound(Rules):
    """subarray: the data of a type with lower bound 8 move down by 8"""

    seen_by = recipe_rows(0)

    def subarray(self, typemap, dimensions):
        return super().subarray(self.shifted(typemap, -self.lower_bound(typemap)), dimensions)


class SubarrayBoundsFromThere(Rules):
    """subarray: its markers lie from the lower bound of the type on"""

    seen_by = recipe_rows(0)

    def subarray(self, typemap, dimensions):
        low = self.lower_bound(typemap)
        return [(kind, d + low) if kind in MARKERS else (kind, d) for kind, d in super().subarray(typemap, dimensions)]


class SubarrayKeepsMarkers(Rules):
    """subarray: the markers below it are kept"""

    seen_by = recipe_rows(0)

    def subarray(self, typemap, dimensions):
        size, subsize, start = dimensions[-1]
        made = [(LOWER, 0), *self.copies_at(typemap, self.block(start, subsize)), (UPPER, size * self.extent(typemap))]
        return self.subarray(made, dimensions[:-1]) if dimensions[:-1] else made


class FirstDimensionsAlone(Rules):
    """subarray: of four dimensions three are taken"""

    seen_by = recipe_rows(0)

    def subarray(self, typemap, dimensions):
        return super().subarray(typemap, dimensions[-3:])


# Resized and markers

class ResizedKeepsMarkers(Rules):
    """resized: the markers below it are kept"""

    seen_by = recipe_rows(0)

    def resized(self, typemap, extent):
        return [(LOWER, 0), *typemap, (UPPER, extent)]


class ResizedKeepsUpper(Rules):
    """resized: the upper markers below it are kept"""

    seen_by = recipe_rows(0)

    def resized(self, typemap, extent):
        return super().resized(typemap, extent) + [pair for pair in typemap if pair[0] == UPPER]


class ResizedKeepsLower(Rules):
    """resized: the lower bound stays"""

    seen_by = recipe_rows(0)

    def resized(self, typemap, extent):
        low = self.lower_bound(typemap)
        return [(LOWER, low), *self.data(typemap), (UPPER, low + extent)]


class ResizedMovesDown(Rules):
    """resized: the data move so that their lower bound is at 0"""

    seen_by = recipe_rows(0)

    def resized(self, typemap, extent):
        return super().resized(self.shifted(typemap, -self.lower_bound(typemap)), extent)


class NeverShorter(Rules):
    """resized: the extent is never below the end of the data"""

    seen_by = recipe_rows(0)

    def resized(self, typemap, extent):
        return super().resized(typemap, max(extent, self.upper_bound(self.data(typemap))))


class ResizedCutsData(Rules):
    """resized: entries past the extent are left out"""

    seen_by = recipe_rows(0)

    def resized(self, typemap, extent):
        return self.bounded([pair for pair in typemap if pair[1] < extent] or typemap, extent)


class MarkersOfOneStep(Rules):
    """markers hold for the next step alone: its own bounds are those of its data"""

    seen_by = recipe_rows(0)

    def copies_at(self, typemap, places):
        return self.data(super().copies_at(typemap, places))


class NoMarkers(Rules):
    """bounds by the data alone"""

    seen_by = recipe_rows(0)

    def markers(self, typemap, which):
        return []


class LowerIsZero(Rules):
    """every lower bound is 0"""

    seen_by = recipe_rows(0, 32)

    def lower_bound(self, typemap):
        return 0


class LowerOfTheData(Rules):
    """the lower bound is the least displacement though there are markers"""

    seen_by = recipe_rows(0, 32)

    def lower_bound(self, typemap):
        return min(d for _, d in self.data(typemap))


class UpperOfTheData(Rules):
    """the upper bound is the greatest end though there are markers"""

    seen_by = recipe_rows(0)

    def upper_bound(self, typemap):
        return max(d + width for width, d in self.data(typemap))


class HighestOfAll(Rules):
    """the upper bound is the greatest of markers and ends"""

    seen_by = recipe_rows(0)

    def upper_bound(self, typemap):
        return max([d + width for width, d in self.data(typemap)] + self.markers(typemap, UPPER))


class FirstLower(Rules):
    """the lower bound is the first marker, or the first entry"""

    seen_by = recipe_rows(0)

    def lower_bound(self, typemap):
        return (self.markers(typemap, LOWER) or [d for _, d in self.data(typemap)])[0]


class LastUpper(Rules):
    """the upper bound is the last marker, or the last entry's end"""

    seen_by = recipe_rows(0)

    def upper_bound(self, typemap):
        return (self.markers(typemap, UPPER) or [d + width for width, d in self.data(typemap)])[-1]


class GreatestLower(Rules):
    """the lower bound is the greatest lower marker"""

    seen_by = recipe_rows(0, 32)

    def lower_bound(self, typemap):
        return max(self.markers(typemap, LOWER), default=super().lower_bound(typemap))


class EndOfTheHighestEntry(Rules):
    """without markers the upper bound is the greatest displacement"""

    seen_by = recipe_rows(0)

    def upper_bound(self, typemap):
        return max(self.markers(typemap, UPPER) or [d + (len(self.data(typemap)) == 1) * width for width, d in self.data(typemap)])


class Padded(Rules):
    """an extent is padded to a multiple of the width"""

    seen_by = recipe_rows(0)

    def extent(self, typemap):
        width = max(width for width, _ in self.data(typemap))
        return -(-super().extent(typemap) // width) * width


class PaddedToEight(Rules):
    """an extent is padded to a multiple of 8"""

    seen_by = recipe_rows(0)

    def extent(self, typemap):
        return -(-super().extent(typemap) // 8) * 8


# 26 and 27

class PartOfAStepLeftOut(Rules):
    """26: numbers after the last whole step are not looked at"""

    seen_by = recipe_rows(26)

    def is_of_steps(self, steps):
        return super().is_of_steps(steps[:len(steps) // STEP_NUMBERS * STEP_NUMBERS])


class PartOfAStepIsOne(Rules):
    """26: a part of a step is a step whose other numbers are 0"""

    seen_by = recipe_rows(26)

    def flatten(self, steps, items, widths, displacements):
        return super().flatten(tuple(steps) + (0,) * (-len(steps) % STEP_NUMBERS), items, widths, displacements)


class MoreSteps(Rules):
    """26: 33 steps are allowed"""

    seen_by = recipe_rows(26)
    most_steps = 33


class FewerSteps(Rules):
    """26: 31 steps are the most"""

    seen_by = recipe_rows(0, 27)
    most_steps = 31


class AnySteps(Rules):
    """26: steps after the 32nd are not looked at"""

    seen_by = recipe_rows(26)

    def flatten(self, steps, items, widths, displacements):
        return super().flatten(steps[:32 * STEP_NUMBERS], items, widths, displacements)


class NumberOfStepsLast(Rules):
    """26 after the steps' own refusals"""

    seen_by = recipe_rows(26)

    def flatten(self, steps, items, widths, displacements):
        if len(steps) >= STEP_NUMBERS:
            whole = min(len(steps) // STEP_NUMBERS, 32) * STEP_NUMBERS
            flat = super().flatten(steps[:whole], items, widths[:], displacements[:])
            if 27 <= flat.refusal <= 31:
                return flat
        return super().flatten(steps, items, widths, displacements)


class StepOf26(Rules):
    """26 names step 0"""

    seen_by = recipe_rows(26)

    def flatten(self, steps, items, widths, displacements):
        flat = super().flatten(steps, items, widths, displacements)
        return replace(flat, step=0) if flat.refusal == 26 else flat


class OwnNumber(Rules):
    """27: a step may name itself, which stands for the one before"""

    seen_by = recipe_rows(27)

    def names_nothing(self, step):
        return super().names_nothing(step) and not (step.kind <= RESIZED and step.source == EARLIER and step.name == step.number)

    def source(self, step, typemaps):
        return super().source(step, typemaps + [typemaps[-1] if typemaps else self.basic(1)])


class LaterNumber(Rules):
    """27: a step may name a later one, which stands for a byte"""

    seen_by = recipe_rows(27)

    def names_nothing(self, step):
        return super().names_nothing(step) and not (step.kind <= RESIZED and step.source == EARLIER and step.name > step.number)

    def source(self, step, typemaps):
        return self.basic(1) if step.source == EARLIER and step.name > step.number else super().source(step, typemaps)


class CountedFromOne(Rules):
    """27: steps are counted from 1"""

    seen_by = recipe_rows(0, 27)

    def judged_step(self, step, typemaps):
        named = step.name - 1 if step.name > 0 else step.number
        return super().judged_step(replace(step, name=named) if step.source == EARLIER else step, typemaps)


class CountedBack(Rules):
    """27: a name is how many steps to go back"""

    seen_by = recipe_rows(0, 27)

    def judged_step(self, step, typemaps):
        back = step.number - step.name if step.source == EARLIER and 0 < step.name <= step.number else step.number
        return super().judged_step(replace(step, name=back) if step.source == EARLIER else step, typemaps)


class TheStepBefore(Rules):
    """27: a step is built of the one before, whatever the number"""

    seen_by = recipe_rows(0)

    def source(self, step, typemaps):
        return typemaps[-1] if step.source == EARLIER else super().source(step, typemaps)


class NamesOf32Bits(Rules):
    """27: kinds, sources, names and widths by their low 32 bits"""

    seen_by = recipe_rows(27)

    def judged_step(self, step, typemaps):
        low = {field: getattr(step, field) % 2**32 for field in ("kind", "source", "name")}
        return super().judged_step(replace(step, **low), typemaps)


class AnyWidth(Rules):
    """27: any width from 1 to 8"""

    seen_by = recipe_rows(27)
    basic_widths = tuple(range(1, 9))


class Width16(Rules):
    """27: 16 is a width too"""

    seen_by = recipe_rows(27)
    basic_widths = (1, 2, 4, 8, 16)


class NoWidth8(Rules):
    """27: 8 is no width"""

    seen_by = recipe_rows(0)
    basic_widths = (1, 2, 4)


class AnyKind(Rules):
    """27: an unknown kind makes a type of one copy"""

    seen_by = recipe_rows(27)

    def names_nothing(self, step):
        return super().names_nothing(replace(step, kind=CONTIGUOUS))

    def typemap(self, step, source):
        return super().typemap(step, source) if 1 <= step.kind <= RESIZED else source


class OtherSourceIsWidth(Rules):
    """27: every source but 2 is a width"""

    seen_by = recipe_rows(27)

    def judged_step(self, step, typemaps):
        return super().judged_step(replace(step, source=step.source if step.source == EARLIER else WIDTH), typemaps)


class OtherSourceIsStep(Rules):
    """27: every source but 1 is a step"""

    seen_by = recipe_rows(27)

    def judged_step(self, step, typemaps):
        return super().judged_step(replace(step, source=step.source if step.source == WIDTH else EARLIER), typemaps)


# 28

class EmptyIsAllowed(Rules):
    """a type may have no entries; the base of the classes below"""

    def lower_bound(self, typemap):
        return super().lower_bound(typemap) if typemap else 0

    def upper_bound(self, typemap):
        return super().upper_bound(typemap) if typemap else 0


class ZeroIsNothing(EmptyIsAllowed):
    """28: a count of 0 makes a type without entries, which has no extent"""

    seen_by = recipe_rows(28)

    def has_zero(self, step):
        return max(step.a, step.b) > 1000 and super().has_zero(step)

    def subarray(self, typemap, dimensions):
        return super().subarray(typemap, dimensions) if all(subsize for _, subsize, _ in dimensions) else []


class NoBlocksAllowed(EmptyIsAllowed):
    """28: an indexed step without blocks is not of 0"""

    seen_by = recipe_rows(28)

    def counts(self, step):
        return (count for count in ([] if step.kind == INDEXED and step.b == 0 else super().counts(step)))


class EmptyBlocks(EmptyIsAllowed):
    """28: a block of length 0 has no copies"""

    seen_by = recipe_rows(28)

    def counts(self, step):
        return [step.b] if step.kind == INDEXED and step.b < 1000 else super().counts(step)


class FirstCount(Rules):
    """28: the first block or dimension alone is looked at"""

    seen_by = recipe_rows(28)

    def counts(self, step):
        if step.kind in (INDEXED, SUBARRAY) and 1 <= step.b < 1000:
            return list(super().counts(step))[:2 if step.kind == INDEXED else 1]
        return super().counts(step)

    def has_too_many(self, step, source):
        return self.copies(step) == 0 or super().has_too_many(step, source)


class CountOfAVector(EmptyIsAllowed):
    """28: a vector's block length is not looked at"""

    seen_by = recipe_rows(28)

    def counts(self, step):
        return [step.a] if step.kind == VECTOR and step.a < 1000 else super().counts(step)


class SizeOfZero(Rules):
    """28: a size of 0 is a count of 0"""

    seen_by = recipe_rows(29)

    def has_zero(self, step):
        found = super().has_zero(step)
        return found or step.kind == SUBARRAY and step.b < 1000 and any(size == 0 for size, _, _ in step.dimensions())


class NoDimensionIsZero(Rules):
    """28: no dimension is a count of 0"""

    seen_by = recipe_rows(29)

    def has_zero(self, step):
        return super().has_zero(step) or step.kind == SUBARRAY and step.b == 0


class NoBlocksIs29(Rules):
    """28: an indexed step without blocks is 29"""

    seen_by = recipe_rows(28)

    def counts(self, step):
        return (count for count in ([] if step.kind == INDEXED and step.b == 0 else super().counts(step)))

    def is_no_subarray(self, step):
        return super().is_no_subarray(step) or step.kind == INDEXED and step.b == 0


class MissingItemsAre29(Rules):
    """28: blocks and dimensions past the end of the items are 29"""

    seen_by = recipe_rows(28)

    def judged_step(self, step, typemaps):
        past = step.kind in (INDEXED, SUBARRAY) and step.b and ITEM_NUMBERS * (step.a + step.b - 1) >= len(step.items)
        return (29, None) if past and not self.names_nothing(step) else super().judged_step(step, typemaps)


class MissingItemsAre27(Rules):
    """28: blocks and dimensions past the end of the items are 27"""

    seen_by = recipe_rows(28)

    def names_nothing(self, step):
        past = step.kind in (INDEXED, SUBARRAY) and step.b and ITEM_NUMBERS * (step.a + step.b - 1) >= len(step.items)
        return past or super().names_nothing(step)


class WholeItemsOnly(Rules):
    """28: an item of which a part is missing is none"""

    seen_by = recipe_rows(0)

    def judged_step(self, step, typemaps):
        whole = len(step.items) // ITEM_NUMBERS * ITEM_NUMBERS
        return super().judged_step(replace(step, items=step.items[:whole]), typemaps)


class MissingIsOne(Rules):
    """28: a number that is missing is 1"""

    seen_by = recipe_rows(28)

    def judged_step(self, step, typemaps):
        missing = max(0, ITEM_NUMBERS * (step.a + step.b) - len(step.items)) if step.kind in (INDEXED, SUBARRAY) else 0
        return super().judged_step(replace(step, items=step.items + (1,) * min(missing, 1000)), typemaps)


class ItemsWrap(Rules):
    """28: the place of an item wraps at 2^64"""

    seen_by = recipe_rows(28)

    def judged_step(self, step, typemaps):
        first = ITEM_NUMBERS * step.a % 2**64
        if step.kind in (INDEXED, SUBARRAY) and step.a >= 2**60 and step.b == 1:
            step = replace(step, a=0, items=step.items[first:first + ITEM_NUMBERS])
        return super().judged_step(step, typemaps)


class ItemsInNumbers(Rules):
    """a first item is counted in numbers"""

    seen_by = recipe_rows(0)

    def judged_step(self, step, typemaps):
        if step.kind in (INDEXED, SUBARRAY) and step.a < 1000:
            step = replace(step, a=0, items=step.items[step.a:])
        return super().judged_step(step, typemaps)


class ItemsInTurn(Rules):
    """the items are used up in turn, whatever the first one's number"""

    seen_by = recipe_rows(0)

    def judged_step(self, step, typemaps):
        if step.number == 0:
            self.used = 0
        if step.kind in (INDEXED, SUBARRAY):
            step, self.used = replace(step, a=self.used), self.used + step.b
        return super().judged_step(step, typemaps)


# 29

class Inside(Rules):
    """another test of a dimension; the base of the classes below"""

    seen_by = recipe_rows(29)

    def has_too_many(self, step, source):
        return self.copies(step) > 10_000 or super().has_too_many(step, source)


class SumWraps(Inside):
    """29: start + subsize wraps at 2^64"""

    def is_inside(self, size, subsize, start):
        return start >= 0 and (start + subsize) % 2**64 <= size


class StartUnsigned(Inside):
    """29: the start is unsigned, and the sum wraps"""

    def is_inside(self, size, subsize, start):
        return (start + subsize) % 2**64 <= size


class SumSigned(Inside):
    """29: start + subsize is signed, and the sum wraps"""

    def is_inside(self, size, subsize, start):
        return start >= 0 and wrapped(start + subsize) <= size


class StartBelowZero(Inside):
    """29: a start below 0 is not looked at"""

    def is_inside(self, size, subsize, start):
        return start + subsize <= size


class StartAlone(Inside):
    """29: the start lies below the size, whatever the subsize"""

    def is_inside(self, size, subsize, start):
        return 0 <= start < size


class SubsizeAlone(Inside):
    """29: the subsize is at most the size, whatever the start"""

    def is_inside(self, size, subsize, start):
        return start >= 0 and subsize <= size


class OneMore(Inside):
    """29: start + subsize may be one above the size"""

    def is_inside(self, size, subsize, start):
        return start >= 0 and start + subsize <= size + 1


class OneLess(Inside):
    """29: start + subsize is below the size"""

    seen_by = recipe_rows(0)

    def is_inside(self, size, subsize, start):
        return start >= 0 and start + subsize < size


class FirstDimensionTested(Inside):
    """29: the first dimension alone is looked at"""

    def is_no_subarray(self, step):
        return super().is_no_subarray(replace(step, b=1) if 1 <= step.b <= 4 else step)


class LastDimensionTested(Inside):
    """29: the last dimension alone is looked at"""

    def is_no_subarray(self, step):
        return super().is_no_subarray(replace(step, a=step.a + step.b - 1, b=1) if 1 <= step.b <= 4 else step)


class FiveDimensions(Rules):
    """29: five dimensions are allowed"""

    seen_by = recipe_rows(29)
    most_dimensions = 5


class ThreeDimensions(Rules):
    """29: three dimensions are the most"""

    seen_by = recipe_rows(0)
    most_dimensions = 3


class NoDimension(Rules):
    """29: no dimension is one copy"""

    seen_by = recipe_rows(29)

    def is_no_subarray(self, step):
        return step.b != 0 and super().is_no_subarray(step)

    def subarray(self, typemap, dimensions):
        return super().subarray(typemap, dimensions or [(1, 1, 0)])


# 30

class Entries257(Rules):
    """30: 257 entries are allowed"""

    seen_by = recipe_rows(30)
    most_entries = 257


class Entries255(Rules):
    """30: 255 entries are the most"""

    seen_by = recipe_rows(0)
    most_entries = 255


class CopiesAlone(Rules):
    """30: copies are counted, not entries"""

    seen_by = recipe_rows(30)

    def has_too_many(self, step, source):
        return self.copies(step) > self.most_entries or self.copies(step) * len(source) > 10_000


class BytesForEntries(Rules):
    """30: data bytes are counted"""

    seen_by = recipe_rows(0)

    def has_too_many(self, step, source):
        return self.copies(step) * sum(width for width, _ in self.data(source)) > self.most_entries


class LastStepOf256(Rules):
    """30: for the last step alone"""

    seen_by = recipe_rows(30)

    def flatten(self, steps, items, widths, displacements):
        self.last = len(steps) // STEP_NUMBERS - 1
        return super().flatten(steps, items, widths, displacements)

    def has_too_many(self, step, source):
        most = self.most_entries if step.number == self.last else 5000
        return self.copies(step) * len(self.data(source)) > most


class SizesForSubsizes(Rules):
    """30: the elements of the array are counted, not those of the subarray"""

    seen_by = recipe_rows(0)

    def copies(self, step):
        return product(size for size, _, _ in step.dimensions()) if step.kind == SUBARRAY else super().copies(step)


class MarkersCounted(Rules):
    """30: markers are counted too"""

    seen_by = recipe_rows(0)

    def has_too_many(self, step, source):
        return self.copies(step) * len(source) > self.most_entries


class CountsWrap(Rules):
    """counts that wrap; the base of the classes below. What is too much for 256 places is then one copy."""

    seen_by = recipe_rows(30)

    def wrong(self, step):
        return self.copies(step) % 2**64

    def has_too_many(self, step, source):
        return self.wrong(step) * len(self.data(source)) > self.most_entries

    def typemap(self, step, source):
        return source if self.copies(step) > 10_000 else super().typemap(step, source)


class ProductWraps(CountsWrap):
    """30: count times block length wraps at 2^64"""

    def wrong(self, step):
        return self.copies(step) % 2**64 if step.kind == VECTOR else self.copies(step)


class SumOfLengthsWraps(CountsWrap):
    """30: the sum of the block lengths wraps at 2^64"""

    def wrong(self, step):
        return self.copies(step) % 2**64 if step.kind == INDEXED else self.copies(step)


class SubsizesWrap(CountsWrap):
    """30: the product of the subsizes wraps at 2^64"""

    def wrong(self, step):
        return self.copies(step) % 2**64 if step.kind == SUBARRAY else self.copies(step)


class CopiesWrap(CountsWrap):
    """30: copies times entries wrap at 2^64"""

    def has_too_many(self, step, source):
        return self.copies(step) * len(self.data(source)) % 2**64 > self.most_entries


class CountsOf32Bits(CountsWrap):
    """30: counts by their low 32 bits"""

    def wrong(self, step):
        return self.copies(step) % 2**32


# 31

class Limits(Rules):
    """another test of the limits; the base of the classes below"""

    seen_by = recipe_rows(31)


class BelowZero(Limits):
    """31: an entry below 0 is not looked at"""

    def is_within(self, typemap):
        return super().is_within([(kind, abs(d) if abs(d) < 1000 and kind not in MARKERS else d) for kind, d in typemap])


class BeginsForEnds(Limits):
    """31: an entry begins below 1,048,576, wherever it ends"""

    def is_within(self, typemap):
        return (all(0 <= d < A_MILLION for _, d in self.data(typemap)) and 1 <= self.extent(typemap) <= self.most_extent)


class OneByteMore(Limits):
    """31: an entry may end one byte later"""

    most_end = A_MILLION + 1


class OneByteLess(Limits):
    """31: an entry ends one byte earlier"""

    seen_by = recipe_rows(0)
    most_end = A_MILLION - 1


class ExtentOneMore(Limits):
    """31: an extent may be 1,048,577"""

    most_extent = A_MILLION + 1


class ExtentOneLess(Limits):
    """31: an extent is at most 1,048,575"""

    seen_by = recipe_rows(0)
    most_extent = A_MILLION - 1


class ExtentOfZero(Limits):
    """31: an extent of 0 is allowed"""

    def is_within(self, typemap):
        return super().is_within(typemap) or self.extent(typemap) == 0


class EntriesAlone(Limits):
    """31: extents are not looked at"""

    def is_within(self, typemap):
        return all(d >= 0 and d + width <= self.most_end for width, d in self.data(typemap))


class ExtentAlone(Limits):
    """31: displacements are not looked at"""

    def is_within(self, typemap):
        return 1 <= self.extent(typemap) <= self.most_extent


class UpperBoundForTheExtent(Limits):
    """31: the upper bound is limited, not the extent"""

    def is_within(self, typemap):
        return (all(d >= 0 and d + width <= self.most_end for width, d in self.data(typemap))
                and 1 <= self.upper_bound(typemap) <= self.most_extent)


class UpperBoundToo(Limits):
    """31: an upper bound below 1 is refused"""

    seen_by = recipe_rows(0)

    def is_within(self, typemap):
        return super().is_within(typemap) and self.upper_bound(typemap) >= 1


class LowerBoundsToo(Limits):
    """31: a lower bound below 0 is refused"""

    seen_by = recipe_rows(0, 32)

    def is_within(self, typemap):
        return super().is_within(typemap) and self.lower_bound(typemap) >= 0


class FirstEntryTested(Limits):
    """31: the first entry's displacement alone is looked at"""

    def is_within(self, typemap):
        return super().is_within(self.data(typemap)[:1]) and 1 <= self.extent(typemap) <= self.most_extent


class LastEntryTested(Limits):
    """31: the last entry's displacement alone is looked at"""

    def is_within(self, typemap):
        return super().is_within(self.data(typemap)[-1:]) and 1 <= self.extent(typemap) <= self.most_extent


class InsideTheExtent(Limits):
    """31: entries past the extent are refused"""

    seen_by = recipe_rows(0)

    def is_within(self, typemap):
        return super().is_within(typemap) and max(d + width for width, d in self.data(typemap)) <= self.upper_bound(typemap)


class LimitsOfTheLast(Limits):
    """31: for the last step alone"""

    def flatten(self, steps, items, widths, displacements):
        self.left = len(steps) // STEP_NUMBERS
        return super().flatten(steps, items, widths, displacements)

    def is_within(self, typemap):
        self.left -= 1
        return self.left > 0 or super().is_within(typemap)


class PlacesWrap(Limits):
    """31: displacements wrap at 2^64"""

    def shifted(self, typemap, by):
        return [(kind, wrapped(d + by)) for kind, d in typemap]


class SizesWrap(Limits):
    """31: the product of the sizes wraps at 2^64"""

    def bounded(self, typemap, upper):
        return super().bounded(typemap, upper % 2**64)


class SharingRefused(Limits):
    """31: entries that share bytes are refused"""

    seen_by = recipe_rows(0)

    def is_within(self, typemap):
        places = [d + i for width, d in self.data(typemap) for i in range(width)]
        return super().is_within(typemap) and len(set(places)) == len(places)


class FallingRefused(Limits):
    """31: entries that fall are refused"""

    seen_by = recipe_rows(0)

    def is_within(self, typemap):
        places = [d for _, d in self.data(typemap)]
        return super().is_within(typemap) and places == sorted(places)


# 32 and 33

class NoLowerBound(Rules):
    """32: the last lower bound is not looked at"""

    seen_by = recipe_rows(32)

    def last_refusal(self, typemap, widths, displacements):
        return 33 if min(len(widths), len(displacements)) < len(self.data(typemap)) else 0


class BelowZeroAllowed(NoLowerBound):
    """32: a last lower bound below 0 is allowed"""

    seen_by = recipe_rows(32)

    def last_refusal(self, typemap, widths, displacements):
        return 32 if self.lower_bound(typemap) > 0 else super().last_refusal(typemap, widths, displacements)


class AboveZeroAllowed(NoLowerBound):
    """32: a last lower bound above 0 is allowed"""

    seen_by = recipe_rows(32)

    def last_refusal(self, typemap, widths, displacements):
        return 32 if self.lower_bound(typemap) < 0 else super().last_refusal(typemap, widths, displacements)


class EveryLowerBound(Rules):
    """32: for every step"""

    seen_by = recipe_rows(0)

    def judged_step(self, step, typemaps):
        refusal, typemap = super().judged_step(step, typemaps)
        return (32 if refusal == 0 and self.lower_bound(typemap) != 0 else refusal), typemap


class LeastDisplacementZero(Rules):
    """32: if the least displacement is not 0"""

    seen_by = recipe_rows(0)

    def last_refusal(self, typemap, widths, displacements):
        refusal = super().last_refusal(typemap, widths, displacements)
        return 32 if min(d for _, d in self.data(typemap)) != 0 else refusal


class WidthsAlone(Rules):
    """33: the list of displacements is not looked at"""

    seen_by = recipe_rows(33)

    def last_refusal(self, typemap, widths, displacements):
        displacements += [0] * (len(self.data(typemap)) - len(displacements))
        return super().last_refusal(typemap, widths, displacements)


class DisplacementsAlone(Rules):
    """33: the list of widths is not looked at"""

    seen_by = recipe_rows(33)

    def last_refusal(self, typemap, widths, displacements):
        widths += [0] * (len(self.data(typemap)) - len(widths))
        return super().last_refusal(typemap, widths, displacements)


class JustLongEnough(Rules):
    """33: a list that is just long enough is refused"""

    seen_by = recipe_rows(0)

    def last_refusal(self, typemap, widths, displacements):
        return super().last_refusal(typemap, widths[1:], displacements[1:])


class ListsOf256(Rules):
    """33: lists of fewer than 256 are refused"""

    seen_by = recipe_rows(0)

    def last_refusal(self, typemap, widths, displacements):
        return super().last_refusal(typemap, widths, displacements) or (33 if min(len(widths), len(displacements)) < 256 else 0)


class ListsOfEveryStep(Rules):
    """33: the lists are as long as the longest step"""

    seen_by = recipe_rows(0)

    def flatten(self, steps, items, widths, displacements):
        self.most = 0
        return super().flatten(steps, items, widths, displacements)

    def judged_step(self, step, typemaps):
        refusal, typemap = super().judged_step(step, typemaps)
        self.most = max(self.most, len(self.data(typemap))) if refusal == 0 else self.most
        return refusal, typemap

    def last_refusal(self, typemap, widths, displacements):
        refusal = super().last_refusal(typemap, widths, displacements)
        return refusal or (33 if min(len(widths), len(displacements)) < self.most else 0)


# The order of the checks

class Swapped(Rules):
    """two checks in the other order; the base of the classes below"""

    first = 0

    def applies(self, refusal, step, typemaps):
        """Whether the check of this refusal fails in this step, whatever comes before."""
        source = self.basic(1) if self.names_nothing(step) else self.source(step, typemaps)
        if refusal in (28, 29):
            return (self.has_zero if refusal == 28 else self.is_no_subarray)(step)
        if refusal == 30:
            return self.has_too_many(step, source) if step.b < 1000 else super().has_too_many(step, source)
        return self.copies(step) < 10_000 and not self.is_within(self.typemap(step, source))

    def judged_step(self, step, typemaps):
        refusal, typemap = super().judged_step(step, typemaps)
        return (self.first, None) if refusal == self.first - 1 and self.applies(self.first, step, typemaps) else (refusal, typemap)


class Swapped27And28(Swapped):
    """28 before 27"""

    seen_by = recipe_rows(27)
    first = 28


class Swapped28And29(Swapped):
    """29 before 28"""

    seen_by = recipe_rows(28)
    first = 29


class Swapped29And30(Swapped):
    """30 before 29"""

    seen_by = recipe_rows(29)
    first = 30


class Swapped30And31(Swapped):
    """31 before 30"""

    seen_by = recipe_rows(30)
    first = 31


class Swapped31And32(Rules):
    """32 before 31, in the last step"""

    seen_by = recipe_rows(31)

    def flatten(self, steps, items, widths, displacements):
        self.last = len(steps) // STEP_NUMBERS - 1
        return super().flatten(steps, items, widths, displacements)

    def judged_step(self, step, typemaps):
        refusal, typemap = super().judged_step(step, typemaps)
        return (32 if refusal == 31 and step.number == self.last and self.lower_bound(typemap) != 0 else refusal), typemap


class Swapped32And33(Rules):
    """33 before 32"""

    seen_by = recipe_rows(32)

    def last_refusal(self, typemap, widths, displacements):
        refusal = super().last_refusal(typemap, widths, displacements)
        return 33 if min(len(widths), len(displacements)) < len(self.data(typemap)) else refusal


class DimensionsFirst(Rules):
    """29 for the number of dimensions before 28"""

    seen_by = recipe_rows(28)

    def judged_step(self, step, typemaps):
        dimensions = step.kind == SUBARRAY and step.b > self.most_dimensions
        return (29, None) if dimensions and not self.names_nothing(step) else super().judged_step(step, typemaps)


class DimensionByDimension(Rules):
    """28 and 29 dimension by dimension"""

    seen_by = recipe_rows(28)

    def judged_step(self, step, typemaps):
        refusal, typemap = super().judged_step(step, typemaps)
        if refusal == 28 and step.kind == SUBARRAY and step.b <= 4:
            for size, subsize, start in step.dimensions():
                if subsize == 0:
                    break
                if not self.is_inside(size, subsize, start):
                    return 29, None
        return refusal, typemap


class ListsFirst(Rules):
    """33 before everything in the last step, for lists of length 0"""

    seen_by = recipe_rows(27, 28, 29, 30, 31, 32)

    def flatten(self, steps, items, widths, displacements):
        flat = super().flatten(steps, items, widths, displacements)
        last = flat.step is not None and flat.step == len(steps) // STEP_NUMBERS - 1
        return replace(flat, refusal=33) if last and not (widths and displacements) else flat


class EveryFault(Rules):
    """all steps are judged, a bad one standing for a byte; the base of the classes below"""

    def chosen(self, faults):
        return faults[0]

    def flatten(self, steps, items, widths, displacements):
        flat, faults, typemaps = super().flatten(steps, items, widths, displacements), [], []
        if not 27 <= flat.refusal <= 31:
            return flat
        for number in range(len(steps) // STEP_NUMBERS):
            refusal, typemap = self.judged_step(making(steps, items, number), typemaps)
            typemaps.append(self.basic(1) if refusal else typemap)
            faults += [(refusal, number)] if refusal else []
        return Flat(self.chosen(faults)[0], step=self.chosen(faults)[1])


class LastBadStep(EveryFault):
    """the last bad step is given"""

    seen_by = recipe_rows(27, 28, 29, 30, 31)

    def chosen(self, faults):
        return faults[-1]


class LowestNumber(EveryFault):
    """the lowest refusal of all steps is given"""

    seen_by = recipe_rows(28, 29, 30, 31)

    def chosen(self, faults):
        return min(faults)


class HighestNumber(EveryFault):
    """the highest refusal of all steps is given"""

    seen_by = recipe_rows(27, 28, 29, 30)

    def chosen(self, faults):
        return max(faults)


class NamesFirst(EveryFault):
    """27 of any step comes first"""

    seen_by = recipe_rows(28, 29, 30, 31)

    def chosen(self, faults):
        return min([fault for fault in faults if fault[0] == 27] or faults, key=lambda fault: fault[1])


class TypemapsLast(EveryFault):
    """31 of any step comes after all the others"""

    seen_by = recipe_rows(31)

    def chosen(self, faults):
        return min([fault for fault in faults if fault[0] < 31] or faults, key=lambda fault: fault[1])


class UnnamedLeftOut(Rules):
    """steps that the last one is not built of are not judged"""

    seen_by = recipe_rows(27, 28, 29, 30, 31)

    def flatten(self, steps, items, widths, displacements):
        self.used, number = set(), len(steps) // STEP_NUMBERS - 1
        while number >= 0 and number not in self.used:
            self.used.add(number)
            step = making(steps, items, number)
            number = step.name if step.source == EARLIER and step.name < number else -1
        return super().flatten(steps, items, widths, displacements)

    def judged_step(self, step, typemaps):
        refusal, typemap = super().judged_step(step, typemaps)
        return (refusal, typemap) if step.number in self.used else (0, typemap or self.basic(1))


# What is answered and written

class StepsFromOne(Rules):
    """the step at fault is counted from 1"""

    seen_by = recipe_rows(27, 28, 29, 30, 31, 32, 33)

    def flatten(self, steps, items, widths, displacements):
        flat = super().flatten(steps, items, widths, displacements)
        return flat if flat.step is None else replace(flat, step=flat.step + 1)


class NoStepOfTheResult(Rules):
    """32 and 33 name no step"""

    seen_by = recipe_rows(32, 33)

    def flatten(self, steps, items, widths, displacements):
        flat = super().flatten(steps, items, widths, displacements)
        return replace(flat, step=None) if flat.refusal in (32, 33) else flat


class NumbersInARefusal(Rules):
    """32 and 33 answer the entry count and the extent"""

    seen_by = recipe_rows(32, 33)

    def last_refusal(self, typemap, widths, displacements):
        self.result = len(self.data(typemap)), self.extent(typemap)
        return super().last_refusal(typemap, widths, displacements)

    def flatten(self, steps, items, widths, displacements):
        flat = super().flatten(steps, items, widths, displacements)
        return replace(flat, entries=self.result[0], extent=self.result[1]) if flat.refusal in (32, 33) else flat


class WritesAndRefuses(Rules):
    """what fits is written, then 32 or 33 is given"""

    seen_by = recipe_rows(32, 33)

    def last_refusal(self, typemap, widths, displacements):
        for index, (width, d) in enumerate(self.data(typemap)[:min(len(widths), len(displacements))]):
            widths[index], displacements[index] = width, d
        return super().last_refusal(typemap, widths, displacements)


class WritesTheWidths(Rules):
    """33: the widths are written, though the displacements do not fit"""

    seen_by = recipe_rows(33)

    def last_refusal(self, typemap, widths, displacements):
        refusal = super().last_refusal(typemap, widths, displacements)
        if refusal == 33 and len(widths) >= len(self.data(typemap)):
            widths[:len(self.data(typemap))] = [width for width, _ in self.data(typemap)]
        return refusal


class WritesEachStep(Rules):
    """each good step is written into the lists, so that a refusal leaves the one before"""

    seen_by = recipe_rows(27, 28, 29, 30, 31)

    def flatten(self, steps, items, widths, displacements):
        self.lent = widths, displacements
        return super().flatten(steps, items, widths, displacements)

    def judged_step(self, step, typemaps):
        refusal, typemap = super().judged_step(step, typemaps)
        if refusal == 0 and min(map(len, self.lent)) >= len(self.data(typemap)):
            self.filled(typemap, *self.lent)
        return refusal, typemap


class RestCleared(Rules):
    """what lies after the result becomes 0"""

    seen_by = recipe_rows(0)

    def filled(self, typemap, widths, displacements):
        flat = super().filled(typemap, widths, displacements)
        for lent in (widths, displacements):
            lent[flat.entries:] = [0] * (len(lent) - flat.entries)
        return flat


class UpperBoundAnswered(Rules):
    """the end of the data is answered for the extent"""

    seen_by = recipe_rows(0)

    def filled(self, typemap, widths, displacements):
        flat = super().filled(typemap, widths, displacements)
        return replace(flat, extent=max(d + width for width, d in self.data(typemap)))


# Sets from recipes

class FiletypeFirst(Rules):
    """a set from recipes: the filetype's recipe first"""

    seen_by = {(SET_FROM_RECIPES, refusal) for refusal in range(26, 33)}

    def set_from_recipes(self, handle, displacement, etype, filetype, representation):
        flat = self.flatten(*filetype, [0] * 256, [0] * 256)
        if flat.refusal:
            return Answer(handle, flat.refusal)
        return super().set_from_recipes(handle, displacement, etype, filetype, representation)


class HandleFirst(Rules):
    """a set from recipes: check 1 before the recipes"""

    seen_by = {(SET_FROM_RECIPES, 26), (SET_FROM_RECIPES, 31)}

    def set_from_recipes(self, handle, displacement, etype, filetype, representation):
        if not self.handle_allowed(handle):
            return Answer(handle, 1)
        return super().set_from_recipes(handle, displacement, etype, filetype, representation)


class NameFirst(Rules):
    """a set from recipes: check 2 before the recipes"""

    seen_by = {(SET_FROM_RECIPES, 31)}

    def set_from_recipes(self, handle, displacement, etype, filetype, representation):
        if representation != b"native" and self.handle_allowed(handle):
            return Answer(handle, 2)
        return super().set_from_recipes(handle, displacement, etype, filetype, representation)


class StepForTheEntry(Rules):
    """a set from recipes: a refused recipe names its type and its step"""

    seen_by = {(SET_FROM_RECIPES, refusal) for refusal in range(26, 33)}

    def set_from_recipes(self, handle, displacement, etype, filetype, representation):
        for kind, recipe in ((1, etype), (2, filetype)):
            flat = self.flatten(*recipe, [0] * 256, [0] * 256)
            if flat.refusal:
                return Answer(handle, flat.refusal, numbers=(kind, flat.step or 0))
        return super().set_from_recipes(handle, displacement, etype, filetype, representation)


class SameRecipe(Rules):
    """a set from recipes: the etype's items for the filetype too"""

    seen_by = {(SET_FROM_RECIPES, 0)}

    def set_from_recipes(self, handle, displacement, etype, filetype, representation):
        return super().set_from_recipes(handle, displacement, etype, (filetype[0], etype[1] or filetype[1]), representation)


class BuiltOfTheEtype(Rules):
    """a set from recipes: the filetype's basic widths are the etype"""

    seen_by = {(SET_FROM_RECIPES, 0)}

    def set_from_recipes(self, handle, displacement, etype, filetype, representation):
        before = len(etype[0]) // STEP_NUMBERS
        steps, items = list(etype[0]), tuple(etype[1])
        for number in range(len(filetype[0]) // STEP_NUMBERS):
            step = making(*filetype, number)
            name = before - 1 if step.source == WIDTH else step.name + before
            first = step.a + len(items) // ITEM_NUMBERS if step.kind in (INDEXED, SUBARRAY) else step.a
            steps += [step.kind, EARLIER, name, first, step.b, step.c]
        return super().set_from_recipes(handle, displacement, etype, (tuple(steps), items + tuple(filetype[1])), representation)


RECIPE_MISREADINGS = tuple(found for found in list(globals().values())
                           if isinstance(found, type) and issubclass(found, Rules) and hasattr(found, "seen_by")
                           and found not in (Inside, CountsWrap, Limits))
