"""Document 02's order 4 in plain Python: recipes and their typemaps, by docs/recipes.md and chapter 4 of MPI-3.1.

A typemap is a list of pairs, a kind and a displacement, in order of construction. The kind is the width of a basic type, or LOWER or UPPER
for the standard's lb_marker and ub_marker. Each constructor is the standard's own definition, written out; numbers have no end.
"""

from dataclasses import dataclass

LOWER, UPPER = MARKERS = -1, -2
CONTIGUOUS, VECTOR, INDEXED, SUBARRAY, RESIZED = 1, 2, 3, 4, 5  # kinds of steps
WIDTH, EARLIER = 1, 2  # sources
STEP_NUMBERS, ITEM_NUMBERS = 6, 3


def signed(number):
    return number - 2**64 if number >= 2**63 else number


@dataclass(frozen=True)
class Flat:
    """The answer of a recipe: the result's entry count and extent, or a refusal with the number of the step at fault, if there is one."""

    refusal: int = 0
    entries: int = 0
    extent: int = 0
    step: int = None

    def numbers(self):
        """The line's numbers of a recipe."""
        return (self.entries, self.extent) + ((0, 0) if self.step is None else (1, self.step))


@dataclass(frozen=True)
class Making:
    """One step of a recipe: its number and its six numbers, with the recipe's items."""

    number: int
    kind: int
    source: int
    name: int
    a: int
    b: int
    c: int
    items: tuple

    def item(self, number):
        """The three numbers of this item; those that are looked for past the end are 0."""
        first = ITEM_NUMBERS * number
        return tuple(self.items[i] if i < len(self.items) else 0 for i in range(first, first + ITEM_NUMBERS))

    def own_items(self):
        """The blocks of an indexed step, or the dimensions of a subarray, one after the other: there may be 2^64 - 1 of them."""
        return (self.item(self.a + i) for i in range(self.b))

    def blocks(self):
        return [(length, signed(displacement)) for length, displacement, _ in self.own_items()]

    def dimensions(self):
        return [(size, subsize, signed(start)) for size, subsize, start in self.own_items()]


def making(steps, items, number):
    first = STEP_NUMBERS * number
    return Making(number, *steps[first:first + STEP_NUMBERS], tuple(items))


def product(numbers):
    made = 1
    for number in numbers:
        made *= number
    return made


class Recipes:
    """Order 4. The lent lists are changed in place."""

    basic_widths = (1, 2, 4, 8)
    most_steps, most_dimensions, most_entries = 32, 4, 256
    most_end, most_extent = 1_048_576, 1_048_576  # of an entry, and of a type

    # Bounds

    def data(self, typemap):
        return [(kind, d) for kind, d in typemap if kind not in MARKERS]

    def markers(self, typemap, which):
        return [d for kind, d in typemap if kind == which]

    def lower_bound(self, typemap):
        return min(self.markers(typemap, LOWER) or [d for _, d in self.data(typemap)])

    def upper_bound(self, typemap):
        return max(self.markers(typemap, UPPER) or [d + width for width, d in self.data(typemap)])

    def extent(self, typemap):
        return self.upper_bound(typemap) - self.lower_bound(typemap)

    # Constructors

    def basic(self, width):
        return [(width, 0)]

    def shifted(self, typemap, by):
        return [(kind, d + by) for kind, d in typemap]

    def copies_at(self, typemap, places):
        """A copy at each of these places, counted in extents."""
        extent = self.extent(typemap)
        return [pair for place in places for pair in self.shifted(typemap, place * extent)]

    def block(self, first, length):
        """The places of a block."""
        return range(first, first + length)

    def contiguous(self, typemap, count):
        return self.copies_at(typemap, self.block(0, count))

    def vector(self, typemap, count, length, stride):
        return self.copies_at(typemap, [place for i in range(count) for place in self.block(i * stride, length)])

    def indexed(self, typemap, blocks):
        return self.copies_at(typemap, [place for length, displacement in blocks for place in self.block(displacement, length)])

    def bounded(self, typemap, upper):
        """The data alone, between a lower marker at 0 and this upper one."""
        return [(LOWER, 0), *self.data(typemap), (UPPER, upper)]

    def subarray(self, typemap, dimensions):
        """The standard's recursion for MPI_ORDER_C: the last dimension, then the other ones over the result."""
        size, subsize, start = dimensions[-1]
        made = self.bounded(self.copies_at(typemap, self.block(start, subsize)), size * self.extent(typemap))
        return self.subarray(made, dimensions[:-1]) if dimensions[:-1] else made

    def resized(self, typemap, extent):
        return self.bounded(typemap, extent)

    def typemap(self, step, source):
        """The typemap of this step; `source` is that of what it names."""
        if step.kind == CONTIGUOUS:
            return self.contiguous(source, step.a)
        if step.kind == VECTOR:
            return self.vector(source, step.a, step.b, signed(step.c))
        if step.kind == INDEXED:
            return self.indexed(source, step.blocks())
        if step.kind == SUBARRAY:
            return self.subarray(source, step.dimensions())
        return self.resized(source, signed(step.a))

    # Refusals

    def is_of_steps(self, steps):
        count, rest = divmod(len(steps), STEP_NUMBERS)
        return rest == 0 and 1 <= count <= self.most_steps

    def names_nothing(self, step):
        """27"""
        if step.kind not in (CONTIGUOUS, VECTOR, INDEXED, SUBARRAY, RESIZED):
            return True
        basic = step.source == WIDTH and step.name in self.basic_widths
        earlier = step.source == EARLIER and step.name < step.number
        return not (basic or earlier)

    def counts(self, step):
        """The counts, block lengths and subsizes of a step."""
        if step.kind in (CONTIGUOUS, VECTOR):
            yield step.a
        if step.kind in (VECTOR, INDEXED):
            yield step.b
        if step.kind == INDEXED:
            yield from (length for length, _, _ in step.own_items())
        if step.kind == SUBARRAY:
            yield from (subsize for _, subsize, _ in step.own_items())

    def has_zero(self, step):
        """28"""
        return any(count == 0 for count in self.counts(step))

    def is_inside(self, size, subsize, start):
        return start >= 0 and start + subsize <= size

    def is_no_subarray(self, step):
        """29"""
        if step.kind != SUBARRAY:
            return False
        return not (1 <= step.b <= self.most_dimensions and all(self.is_inside(*dimension) for dimension in step.dimensions()))

    def copies(self, step):
        """How many copies of what it names a step has."""
        if step.kind == CONTIGUOUS:
            return step.a
        if step.kind == VECTOR:
            return step.a * step.b
        if step.kind == INDEXED:
            return sum(length for length, _ in step.blocks())
        if step.kind == SUBARRAY:
            return product(subsize for _, subsize, _ in step.dimensions())
        return 1

    def has_too_many(self, step, source):
        """30"""
        return self.copies(step) * len(self.data(source)) > self.most_entries

    def is_within(self, typemap):
        """Not 31"""
        entries = all(d >= 0 and d + width <= self.most_end for width, d in self.data(typemap))
        return entries and 1 <= self.extent(typemap) <= self.most_extent

    def source(self, step, typemaps):
        return self.basic(step.name) if step.source == WIDTH else typemaps[step.name]

    def judged_step(self, step, typemaps):
        """The refusal of this step, or 0, and its typemap; `typemaps` are those of the earlier steps."""
        for refusal, applies in ((27, self.names_nothing), (28, self.has_zero), (29, self.is_no_subarray)):
            if applies(step):
                return refusal, None
        source = self.source(step, typemaps)
        if self.has_too_many(step, source):
            return 30, None
        typemap = self.typemap(step, source)
        return (0 if self.is_within(typemap) else 31), typemap

    def last_refusal(self, typemap, widths, displacements):
        """32, 33 or 0, for the last step's typemap and the lent lists."""
        if self.lower_bound(typemap) != 0:
            return 32
        return 33 if min(len(widths), len(displacements)) < len(self.data(typemap)) else 0

    def flatten(self, steps, items, widths, displacements):
        if not self.is_of_steps(steps):
            return Flat(26)
        typemaps = []
        for number in range(len(steps) // STEP_NUMBERS):
            refusal, typemap = self.judged_step(making(steps, items, number), typemaps)
            if refusal:
                return Flat(refusal, step=number)
            typemaps.append(typemap)
        refusal = self.last_refusal(typemaps[-1], widths, displacements)
        return Flat(refusal, step=number) if refusal else self.filled(typemaps[-1], widths, displacements)

    def filled(self, typemap, widths, displacements):
        """Writes the result into the lent lists; what lies after it stays."""
        entries = self.data(typemap)
        for index, (width, displacement) in enumerate(entries):
            widths[index], displacements[index] = width, displacement
        return Flat(0, len(entries), self.extent(typemap))
