"""The generated scripts of order 4: `generate(seed)` gives one script of some 450 recipes, good and bad ones, and sets from recipes.

The generator runs the model's own steps along, so that it can aim the next step at the typemap that it will find. The answer may still be
another one than it aims at.
"""

from random import Random

from model import Body, Driver, Rules
from recipes import Recipes, making
from scripts import (ALL_ONES, LARGEST, SMALLEST, Recipe, earlier, end, give_back, new_file, open_handle, place, read_at, read_here, recipe,
                     reverse, set_from_recipes, width, write_at)

MEGA = 1_048_576
RECIPE_COUNT, EVERY = 450, 30  # recipes of a script, and a set from recipes after so many of them
DEPTHS = (1, 1, 1, 1, 2, 2, 2, 2, 2, 3, 3, 3, 3, 3, 4, 4, 4, 4, 5, 5, 5, 6, 6, 7, 8, 9, 10, 12, 16, 31, 32)
PREFIXES = (0, 0, 0, 0, 0, 1, 1, 1, 2, 2, 3, 3, 4, 5, 6, 8, 15, 31)  # good steps before a bad one
BAD_WIDTHS = (0, 3, 5, 6, 7, 9, 16, 2**32 + 1, 2**63, ALL_ONES)
HUGE = (257, 300, 2**31, 2**32, 2**32 + 1, 2**61, 2**62, 2**63 - 1, 2**63, 2**63 + 1, 2**64 - 2, ALL_ONES)
REFUSALS = (26, 27, 27, 28, 28, 28, 29, 29, 29, 30, 30, 30, 31, 31, 31, 31, 31, 32, 32, 33, 33)


class Growing:
    """A recipe that grows by good steps; the typemaps of its steps are at hand."""

    def __init__(self, rng):
        self.rng, self.rules = rng, Recipes()
        self.new, self.typemaps = Recipe(), []

    def tried(self, new):
        """Takes this recipe, of one step more, if the step is good."""
        number = len(new) - 1
        steps, items = tuple(x % 2**64 for x in new.steps), tuple(x % 2**64 for x in new.items)
        refusal, typemap = self.rules.judged_step(making(steps, items, number), self.typemaps)
        if refusal:
            return False
        self.new = new
        self.typemaps.append(typemap)
        return True

    def source(self):
        """What the next step is built of, with its typemap: mostly the last step."""
        part = self.rng.random()
        if not self.typemaps or part < 0.08:
            w = self.rng.choice((1, 1, 2, 4, 8))
            return width(w), self.rules.basic(w)
        number = len(self.typemaps) - 1 if part < 0.85 else self.rng.randrange(len(self.typemaps))
        return earlier(number), self.typemaps[number]

    def grow(self):
        """One more step, a copy of the last one if nothing else is good."""
        if self.rng.random() < 0.08 and len(self.new) < 28 and self.fall():
            return
        for _ in range(6):
            of, typemap = self.source()
            makers = (self.contiguous, self.vector, self.vector, self.indexed, self.indexed, self.subarray, self.subarray, self.resized)
            if self.tried(self.rng.choice(makers)(of, typemap)):
                return
        of, _ = self.source()
        if not self.tried(self.new.contiguous(1, of)):
            self.tried(self.new.contiguous(1, width(1)))

    def fall(self):
        """The data move up, mostly between the markers of a shorter type, and then down again: the last block, or all of them."""
        of, typemap = self.source()
        up, down = self.rng.choice((2, 3, 4, 6)), self.rng.choice((1, 2))
        if len(self.rules.data(typemap)) > 60 or not self.tried(self.new.indexed([(1, up)], of)):
            return False
        extent = self.rules.extent(self.typemaps[-1])
        if self.rng.random() < 0.7:
            self.tried(self.new.resized(self.rng.choice((extent, max(1, extent // 2), extent + 1))))
        count = self.rng.choice((2, 2, 3))
        last = self.rng.choice((self.new.vector(count, self.rng.choice((1, 1, 2)), -down), self.new.indexed([(1, -down)]),
                                self.new.vector(2, 1, -up), self.new.indexed([(1, -down), (1, 0)])))
        return self.tried(last)

    def room(self, typemap):
        """How many copies there may be, and how far down data can move, in extents."""
        entries, extent = self.rules.data(typemap), self.rules.extent(typemap)
        return 256 // len(entries), min(d for _, d in entries) // extent

    def few(self, most):
        """A number of copies: mostly small, sometimes the most that there may be."""
        part = self.rng.random()
        if part < 0.004:
            return most
        if most < 20 and part < 0.9:
            return 1
        return min(most, self.rng.choice((1, 1, 2, 2, 3, 4, 5)))

    def contiguous(self, of, typemap):
        return self.new.contiguous(self.few(self.room(typemap)[0]), of)

    def vector(self, of, typemap):
        most, down = self.room(typemap)
        count = self.few(most)
        length = self.few(max(1, most // count))
        if count == 1 and self.rng.random() < 0.5:
            return self.new.vector(1, length, self.rng.choice((SMALLEST, LARGEST, -1, 0, 1, 2**62)), of)
        if down and self.rng.random() < 0.7:
            return self.new.vector(count, length, -self.rng.randint(1, max(1, down // max(1, count - 1))), of)
        far = (MEGA // self.rules.extent(typemap) - length) // max(1, count - 1)
        near = self.rng.randint(0, 9)
        return self.new.vector(count, length, self.rng.choice((0, 1, 2, 3, length, length + 1, length + 2, near, far)), of)

    def indexed(self, of, typemap):
        most, down = self.room(typemap)
        if self.rng.random() < 0.08 and self.new.next_item():
            return self.shared(of)
        blocks = []
        for _ in range(self.rng.choice((1, 1, 2, 2, 3, 4, 5))):
            length = self.few(max(1, min(most, 8)))
            low = -min(down, 9)
            blocks.append((length, self.rng.choice((low, 0, length, self.rng.randint(low, 9), self.rng.randint(low, 30)))))
        if self.rng.random() < 0.03:
            blocks.append((1, MEGA // self.rules.extent(typemap) - 1))
        return self.new.indexed(blocks, of)

    def shared(self, of):
        """An indexed step or a subarray of items that are there already."""
        first = self.rng.randrange(self.new.next_item())
        return self.new.step(self.rng.choice((3, 3, 4)), of, first, self.rng.randint(1, min(4, self.new.next_item() - first)))

    def subarray(self, of, typemap):
        most, dimensions = self.room(typemap)[0], []
        for _ in range(self.rng.choice((1, 1, 2, 2, 2, 3, 3, 4))):
            subsize = self.few(max(1, most))
            most //= subsize
            start = self.rng.choice((0, 0, 1, 2, 3))
            dimensions.append((start + subsize + self.rng.choice((0, 0, 0, 1, 2, 4)), subsize, start))
        if self.rng.random() < 0.03:
            dimensions = [(MEGA // self.rules.extent(typemap), 1, self.rng.choice((0, 1)))]
        return self.new.subarray(dimensions, of)

    def resized(self, of, typemap):
        extent, end_of = self.rules.extent(typemap), max(d + w for w, d in self.rules.data(typemap))
        return self.new.resized(self.rng.choice((extent, extent + 1, end_of, end_of + 3, max(1, extent // 2), 1, 2, 4,
                                                 self.rng.randint(1, 40), self.rng.choice((MEGA, MEGA - 1, 4096)))), of)

    def settle(self):
        """Gives the last step the lower bound 0, if it has another one."""
        low, extent = self.rules.lower_bound(self.typemaps[-1]), self.rules.extent(self.typemaps[-1])
        if low == 0:
            return
        if low % extent == 0 and self.tried(self.new.indexed([(1, -low // extent)])):
            return
        of = earlier(len(self.typemaps) - 1)
        part = self.rng.random()
        if part < 0.5 and len(self.rules.data(self.typemaps[-1])) <= 128:
            self.tried(self.subarray(of, self.typemaps[-1])) or self.tried(self.new.resized(extent))
        else:
            self.tried(self.resized(of, self.typemaps[-1]))

    def good(self, depth):
        while len(self.new) < max(1, depth - 1):
            self.grow()
        if self.rules.lower_bound(self.typemaps[-1]) != 0:
            self.settle()
        elif depth > 1:
            self.grow()
            if self.rules.lower_bound(self.typemaps[-1]) != 0 and len(self.new) < 32:
                self.settle()
        return self.new

    def filled_up(self):
        """Makes 256 entries of the last step, where its entries allow it."""
        n = len(self.rules.data(self.typemaps[-1]))
        if 256 % n == 0 and len(self.new) < 32:
            self.tried(self.rng.choice((self.new.contiguous(256 // n), self.new.vector(256 // n, 1, self.rng.choice((1, 2))),
                                        self.new.subarray([(256 // n, 256 // n, 0)]))))
        return self.new


class Spoiling:
    """Steps that aim at a refusal. A method for each number; each gives the recipe with one step more."""

    def __init__(self, rng, growing):
        self.rng, self.growing, self.new = rng, growing, growing.new

    def step(self, refusal):
        of, typemap = self.growing.source()
        return getattr(self, f"refusal_{refusal}")(of, typemap)

    def any_step(self, of):
        """A step of any kind, with small numbers; some of them may be bad too."""
        few, strides = (0, 1, 1, 2, 3, 300), (-1, 0, 1, 2, MEGA)
        return self.rng.choice((lambda: self.new.contiguous(self.rng.choice(few), of),
                                lambda: self.new.vector(self.rng.choice(few), self.rng.choice(few), self.rng.choice(strides), of),
                                lambda: self.new.indexed([(self.rng.choice(few), self.rng.choice((-1, 0, 1, MEGA)))], of),
                                lambda: self.new.subarray([(2, 1, self.rng.choice((-1, 0, 1, 2)))] * self.rng.choice((0, 1, 2, 4, 5)), of),
                                lambda: self.new.resized(self.rng.choice((0, 1, 5, -1, MEGA + 1)), of)))()

    def refusal_27(self, of, _typemap):
        own = len(self.new)
        part = self.rng.random()
        if part < 0.2:
            return self.new.step(self.rng.choice((0, 6, 7, 2**32 + 1, ALL_ONES)), of, self.rng.choice((0, 1, 2)), 1, 1)
        bad = (width(self.rng.choice(BAD_WIDTHS)), earlier(own), earlier(own + 1),
               earlier(self.rng.choice((own, own + 2, 2**32, ALL_ONES))),
               (self.rng.choice((0, 3, 2**32 + 1, ALL_ONES)), self.rng.choice((0, 1, 4))))
        return self.any_step(self.rng.choice(bad))

    def refusal_28(self, of, _typemap):
        any_of, huge = self.rng.choice((1, 2, 3)), self.rng.choice(HUGE)
        first = self.rng.choice((self.new.next_item(), self.new.next_item() + 1, 333, 2**32, 2**63, ALL_ONES))
        blocks = [(self.rng.choice((1, 2, 300)), self.rng.choice((0, 3, -1))) for _ in range(self.rng.choice((0, 1, 2)))]
        dimensions = [(4, self.rng.choice((1, 2, 5)), self.rng.choice((0, 1, -1))) for _ in range(self.rng.choice((0, 1, 2, 3, 4)))]
        return self.rng.choice((
            self.new.contiguous(0, of), self.new.vector(0, any_of, 1, of), self.new.vector(any_of, 0, -1, of), self.new.indexed([], of),
            self.new.vector(huge, 0, 1, of), self.new.indexed(self.mixed(blocks, (0, self.rng.choice((0, 5)))), of),
            self.new.subarray(self.mixed(dimensions, (self.rng.choice((0, 4)), 0, 0)), of), self.new.step(3, of, first, any_of),
            self.new.step(4, of, first, any_of), self.new.step(self.rng.choice((3, 4)), of, 0, huge)))

    def mixed(self, items, bad):
        where = self.rng.randint(0, len(items))
        return items[:where] + [bad] + items[where:]

    def refusal_29(self, of, _typemap):
        size = self.rng.choice((1, 2, 4, 5))
        bad = self.rng.choice(((size, size + 1, 0), (size, 1, size), (size, 1, -1), (0, 1, 0), (size, ALL_ONES, 1), (size, size, 1),
                               (size, 1, LARGEST), (size, 1, SMALLEST), (ALL_ONES, 2**63 + 1, LARGEST), (size, 300, 0)))
        good = [(4, self.rng.choice((1, 2, 4)), 0) for _ in range(self.rng.choice((0, 1, 2, 3)))]
        five = [(4, self.rng.choice((1, 2, 4)), 0) for _ in range(self.rng.choice((5, 6, 9)))]
        return self.new.subarray(self.rng.choice(([], self.mixed(good, bad), self.mixed(good, bad), self.mixed(good, bad), five)), of)

    def refusal_30(self, of, typemap):
        most, huge, other = 256 // len(self.growing.rules.data(typemap)), self.rng.choice(HUGE), self.rng.choice(HUGE)
        over, place_of = self.rng.choice((most + 1, most + 1, most + 2, 2 * most + 1)), self.rng.choice((0, 1, -1, MEGA, SMALLEST))
        half = over // 2
        return self.rng.choice((
            self.new.contiguous(over, of), self.new.contiguous(huge, of), self.new.vector(over, 1, place_of, of),
            self.new.vector(1, over, place_of, of), self.new.vector(huge, other, place_of, of), self.new.vector(half + 1, 2, 2, of),
            self.new.indexed([(over, place_of)], of), self.new.indexed([(half + 1, 0), (over - half, place_of)], of),
            self.new.indexed([(huge, 0), (other, 0)], of), self.new.subarray([(over, over, 0)], of),
            self.new.subarray([(huge, huge, 0), (other, other, 0)], of), self.new.subarray([(half + 2, half + 1, 0), (2, 2, 0)], of)))

    def refusal_31(self, of, typemap):
        rules = self.growing.rules
        extent, low = rules.extent(typemap), min(d for _, d in rules.data(typemap))
        past, below = -(-(MEGA - low) // extent), -(low // extent) - 1
        by = self.rng.choice((past, past, below, below, 2**62, 2**61, -(2**61), LARGEST, SMALLEST, 2**64 // extent % 2**63, 2**44))
        size = self.rng.choice((MEGA // extent + 1, MEGA // extent + 1, 2**32, 2**63, ALL_ONES, 2**44))
        return self.rng.choice((
            self.new.vector(2, 1, by, of), self.new.vector(1 + self.rng.choice((1, 2)), 1, by, of), self.new.indexed([(1, by)], of),
            self.new.indexed([(1, 0), (1, by)], of), self.new.subarray([(size, 1, 0)], of),
            self.new.subarray([(2, 1, 0), (size, 1, 0)], of),
            self.new.subarray([(2**32, 1, 1), (2**32, 1, 0)], of), self.new.subarray([(ALL_ONES, 1, abs(by) % 2**63)], of),
            self.new.resized(self.rng.choice((0, -1, MEGA + 1, LARGEST, SMALLEST)), of)))


class Wild:
    """Recipes of any numbers."""

    def __init__(self, rng):
        self.rng = rng

    def number(self):
        return self.rng.choice((0, 1, 1, 1, 2, 2, 3, 4, 8, self.rng.randrange(9), self.rng.choice(HUGE), self.rng.getrandbits(64)))

    def recipe(self):
        steps = []
        for number in range(self.rng.choice((1, 1, 2, 3, 5))):
            source = self.rng.choice((1, 1, 2, self.number())) if number else 1
            name = self.rng.choice((1, 2, 4, 8)) if source == 1 else max(0, number - self.rng.choice((1, 1, 2, 0)))
            steps += [self.rng.choice((1, 2, 3, 4, 5)), source, name, self.number(), self.number(), self.number()]
        return Recipe(tuple(steps), tuple(self.number() for _ in range(self.rng.choice((0, 3, 6, 9, 10, 11)))))


class Maker:
    """Recipes with the lengths of their lent lists."""

    def __init__(self, rng):
        self.rng = rng

    def grown(self, depth):
        growing = Growing(self.rng)
        growing.good(depth)
        return growing

    def good(self):
        growing = self.grown(self.rng.choice(DEPTHS))
        if self.rng.random() < 0.08:
            growing.filled_up()
        new = growing.new
        if len(new) < 31 and self.rng.random() < 0.1:
            new = new.contiguous(self.rng.choice((1, 2, 3)), width(self.rng.choice((1, 2, 4, 8))))  # the others are not named
        return new, self.long_enough(len(growing.rules.data(growing.typemaps[-1])))

    def long_enough(self, entries):
        return [entries + self.rng.choice((0, 0, 0, 1, 2, 7, 300)) for _ in range(2)]

    def bad(self, refusal):
        if refusal == 26:
            return self.bad_number(), (256, 256)
        growing = self.grown(self.rng.choice(DEPTHS[:24]))
        if refusal == 32:
            if len(growing.new) < 28 and self.rng.random() < 0.6:
                growing.fall()
            elif len(growing.new) < 32:
                growing.tried(growing.new.indexed([(1, self.rng.choice((1, 2, 3)))]))
            return growing.new, self.rng.choice(((256, 256), (256, 256), (0, 0)))
        if refusal == 33:
            n = len(growing.rules.data(growing.typemaps[-1]))
            return growing.new, self.rng.choice(((n - 1, n), (n, n - 1), (n - 1, n - 1), (0, 300), (300, n - 1)))
        return self.spoilt(refusal), self.rng.choice(((256, 256), (256, 300), (0, 1)))

    def spoilt(self, refusal):
        """Good steps, a bad one, and sometimes more steps, bad ones too."""
        growing = Growing(self.rng)
        for _ in range(self.rng.choice(PREFIXES)):
            growing.grow()
        new = Spoiling(self.rng, growing).step(refusal)
        for _ in range(self.rng.choice((0, 0, 0, 1, 2, 5))):
            growing.new = new
            later = Spoiling(self.rng, growing)
            new = later.any_step(later.growing.source()[0]) if self.rng.random() < 0.5 else new.contiguous(1, width(2))
        return new

    def bad_number(self):
        """No step, more than 32, or a part of a step."""
        new = self.grown(self.rng.choice((1, 2, 3, 31, 32))).new
        part = self.rng.random()
        if part < 0.25:
            return Recipe((), new.items)
        if part < 0.6:
            while len(new) < self.rng.choice((33, 33, 34, 40)):
                new = new.contiguous(1) if self.rng.random() < 0.9 else new.contiguous(0)
            return new
        some = self.rng.randint(1, 5)
        return Recipe(new.steps[:-some] if self.rng.random() < 0.5 else new.steps + (1,) * some, new.items)

    def recipe(self):
        part = self.rng.random()
        if part < 0.58:
            return self.good()
        if part < 0.93:
            return self.bad(self.rng.choice(REFUSALS))
        return Wild(self.rng).recipe(), (256, 256)


class Generator:
    def __init__(self, seed):
        self.rng = Random(f"recipes {seed}")
        self.maker, self.driver, self.records = Maker(self.rng), Driver(Rules()), []

    def emit(self, record):
        self.records.append(record)

    def make_set(self, record):
        """A set is run along, so that calls can be aimed at its view."""
        self.driver.step(0, record[0], Body(record[3:]))
        self.records.append(record)

    def recipe(self):
        new, lengths = self.maker.recipe()
        record = recipe(new, [max(0, length) for length in lengths], self.rng.getrandbits(self.rng.choice((8, 31, 33, 64))))
        if self.rng.random() < 0.02:
            record = self.cut(record)
        self.emit(record)

    def cut(self, record):
        """The record with some numbers less at its body's end."""
        body = record[3:len(record) - 8 * self.rng.randint(1, 6)]
        return record[:1] + len(body).to_bytes(2, "little") + body

    # Sets from recipes

    def etype(self):
        """A small etype in order."""
        w = width(self.rng.choice((1, 2, 4, 8)))
        new = self.rng.choice((Recipe().contiguous(1, w), Recipe().contiguous(self.rng.choice((1, 2, 3, 8)), w),
                               Recipe().vector(2, self.rng.choice((1, 2)), 3, w), Recipe().subarray([(3, self.rng.choice((1, 2)), 1)], w),
                               Recipe().indexed([(1, 0), (2, 3)], w)))
        return new.resized(self.rng.choice((8, 12, 16, 32))) if self.rng.random() < 0.3 else new

    def filetype(self, etype):
        """The etype's recipe and steps that make copies of it, in order; sometimes with a tile of another length."""
        few = self.rng.choice((1, 2, 3, 4))
        new = self.rng.choice((etype.contiguous(few), etype.vector(few, self.rng.choice((1, 2)), self.rng.choice((2, 3, 5))),
                               etype.subarray([(few + 1, few, 1)]), etype.subarray([(3, 2, 1), (4, 2, self.rng.choice((0, 1, 2)))]),
                               etype.subarray([(2, 1, 1), (2, 2, 0), (3, 1, 2)]),
                               etype.indexed([(1, 0), (2, self.rng.choice((1, 2, 4)))])))
        part = self.rng.random()
        if part < 0.15:
            return new.resized(self.rng.choice((4, 16, 24, 48, 64, 96, 128)))
        return new.subarray([(3, 1, 1)]) if part < 0.3 else new

    def own_fault(self, etype):
        """A filetype or an etype that the set itself refuses, or nearly."""
        w, word = width(self.rng.choice((1, 2, 4, 8))), Recipe().contiguous(1, width(4))
        few = self.rng.choice((2, 3, 5))
        return self.rng.choice((
            (word, word.resized(self.rng.choice((5, 6, 7)))), (word, Recipe().resized(few, width(4)).subarray([(6, 1, 1)])),
            (etype, etype.indexed([(1, 2), (1, 1), (1, 0)])), (etype, Recipe().contiguous(few, w)),
            (etype, etype.resized(1).contiguous(few)), (etype, Recipe().resized(1, w).indexed([(1, 0), (1, few)])),
            (Recipe().contiguous(9, w), etype), (etype, etype.contiguous(65)),
            (Recipe().subarray([(3, 1, 1)], w), Recipe().contiguous(few, w)), (etype, etype.vector(2, 2, 1)),
            (Recipe().contiguous(2, w), Recipe().contiguous(3, w)), (Recipe().indexed([(1, 1), (1, 0)], w), etype),
            (etype, etype.resized(self.rng.choice((3, 5, 7)))), (Recipe().contiguous(2, w), Recipe().vector(2, 1, 2, w))))

    def set(self, slot):
        etype = self.etype()
        pair = (etype, self.filetype(etype))
        part = self.rng.random()
        if part < 0.3:
            pair = self.own_fault(etype)
        elif part < 0.55:
            bad = self.maker.bad(self.rng.choice([refusal for refusal in REFUSALS if refusal != 33]))[0]
            pair = self.rng.choice(((bad, pair[1]), (pair[0], bad), (pair[0], bad), (bad, self.maker.bad(27)[0])))
        displacement = self.rng.choice((0, 0, 0, 3, 20, 100, 2**40, -1 if part < 0.1 else 0, 2**40 + 1 if part < 0.1 else 0))
        name = self.rng.choice((b"native", b"nativ", b"native\0", b"")) if part > 0.95 else b"native"
        self.make_set(set_from_recipes(slot, displacement, *pair, name))

    def calls(self, slot):
        """Calls that show the view."""
        handle = self.driver.slots[slot]
        n, k = handle.view.entries, handle.view.entries * handle.view.instances
        self.emit(give_back(slot, (n, n + 1, k, k + 1), self.rng.getrandbits(9)))
        for offset in (0, 1, self.rng.randrange(30)):
            self.emit(place(slot, offset))
        length = self.rng.randrange(40, 400)
        self.emit(new_file(0, length, self.rng.randint(0, length), self.rng.randrange(256)))
        self.emit(end(slot, 0))
        count = self.rng.choice((1, 2, 5))
        for make in (write_at, read_at):
            self.emit(make(slot, 0, self.rng.randrange(4), count, 64 * count))
        self.emit(read_here(slot, 0, count, 64 * count))
        self.emit(reverse(slot, self.rng.randrange(60)))

    def episode(self):
        slot = self.rng.randrange(4)
        if self.rng.random() < 0.9:
            self.make_set(open_handle(slot, self.rng.choice((1, 1, 2, 3, 3))))
        for _ in range(self.rng.choice((1, 1, 2))):
            self.set(slot)
        self.calls(slot)

    def script(self):
        for number in range(RECIPE_COUNT):
            self.recipe()
            if number % EVERY == 0:
                self.episode()
        return b"".join(self.records)


def generate(seed):
    return Generator(seed).script()
