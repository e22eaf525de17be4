"""What `run` counts of recipes: how many of the tags 46 and 47 there were, their answers, and the situations of GRANTED and REFUSED.

A situation is a name and a test on a `Look`: a recipe with the typemaps of its steps, up to the first one at fault.
"""

from collections import Counter
from functools import cached_property

from model import recipe_record
from recipes import (CONTIGUOUS, EARLIER, INDEXED, LOWER, RESIZED, STEP_NUMBERS, SUBARRAY, VECTOR, WIDTH, Recipes, making, signed)

RECIPE, SET_FROM_RECIPES = 46, 47
RULES = Recipes()
MEGA = 1_048_576
KINDS = {CONTIGUOUS: "contiguous", VECTOR: "vector", INDEXED: "indexed", SUBARRAY: "subarray", RESIZED: "resized"}
RECIPE_REFUSALS = tuple(range(26, 34))
OWN_REFUSALS = (1, 2, 3, 4, 7, 17, 18, 19, 9, 10)  # of the set itself; 5 and 6 cannot be, as 31 comes before them
LEAST_RECIPES, LEAST_GRANTED, LEAST_SETS, LEAST_SITUATION, LEAST_OWN = 20_000, 0.45, 300, 40, 5


class Look:
    """A recipe of a script and what the model says of it."""

    def __init__(self, step):
        self.record, self.refusal = recipe_record(step.body), step.answer.refusal
        self.entry_count, self.extent, self.is_faulty, self.faulty = step.answer.numbers
        self.steps = [making(self.record.steps, self.record.items, n) for n in range(len(self.record.steps) // STEP_NUMBERS)]
        self.lengths = (len(self.record.widths), len(self.record.displacements))

    @cached_property
    def typemaps(self):
        """Those of the steps before the one at fault, and its own if it has one."""
        made, stop = [], self.faulty + 1 if self.is_faulty else len(self.steps)
        for step in self.steps[:stop]:
            made.append(RULES.judged_step(step, made)[1])
        return made

    @cached_property
    def chain(self):
        """The numbers of the steps that the last one is built of, the last one first."""
        numbers = [len(self.steps) - 1]
        while self.steps[numbers[-1]].source == EARLIER and self.steps[numbers[-1]].name < numbers[-1]:
            numbers.append(self.steps[numbers[-1]].name)
        return numbers

    @property
    def used(self):
        return [self.steps[number] for number in self.chain]

    @property
    def last(self):
        return self.typemaps[-1]

    @property
    def bad(self):
        """The step at fault."""
        return self.steps[self.faulty]

    @property
    def source(self):
        """The typemap of what the step at fault is built of."""
        return RULES.source(self.bad, self.typemaps)

    def any_used(self, kind, test):
        return any(step.kind == kind and test(step) for step in self.used)

    def over(self, kind, test):
        """True if a step of this kind that the last one is built of is built of a typemap that keeps this test."""
        return any(step.kind == kind and test(RULES.source(step, self.typemaps)) for step in self.used)

    @cached_property
    def earlier_bounds(self):
        return [RULES.lower_bound(self.typemaps[number]) for number in self.chain[1:]]

    def unnamed(self):
        return len(set(self.chain)) < len(self.steps)


def has_markers(typemap):
    return any(kind == LOWER for kind, _ in typemap)


def data_bounds(typemap):
    data = RULES.data(typemap)
    return min(d for _, d in data), max(d + w for w, d in data)


def markers_differ(typemap):
    return (RULES.lower_bound(typemap), RULES.upper_bound(typemap)) != data_bounds(typemap)


def falls(numbers):
    return any(following < before for before, following in zip(numbers, numbers[1:]))


def shares_bytes(look):
    places = [d + i for w, d in RULES.data(look.last) for i in range(w)]
    return len(set(places)) < len(places)


def items_twice(look):
    used = [range(step.a, step.a + step.b) for step in look.used if step.kind in (INDEXED, SUBARRAY)]
    return any(one.start < other.stop and other.start < one.stop for i, one in enumerate(used) for other in used[:i])


GRANTED = (
    *((f"{name}, in what the last step is built of", lambda look, kind=kind: look.any_used(kind, lambda step: True))
      for kind, name in KINDS.items()),
    ("a stride below 0, several blocks", lambda look: look.any_used(VECTOR, lambda step: step.a > 1 and signed(step.c) < 0)),
    ("a stride of 0, several blocks", lambda look: look.any_used(VECTOR, lambda step: step.a > 1 and step.c == 0)),
    ("one block and a stride of 2^63 - 1 or -2^63",
     lambda look: look.any_used(VECTOR, lambda step: step.a == 1 and step.c in (2**63 - 1, 2**63))),
    ("an indexed block below 0", lambda look: look.any_used(INDEXED, lambda step: any(d < 0 for _, d in step.blocks()))),
    ("indexed blocks that fall", lambda look: look.any_used(INDEXED, lambda step: falls([d for _, d in step.blocks()]))),
    *((f"a subarray of {n} dimensions", lambda look, n=n: look.any_used(SUBARRAY, lambda step: step.b == n)) for n in (1, 2, 3, 4)),
    ("a lower bound below 0 before the last step", lambda look: any(low < 0 for low in look.earlier_bounds)),
    ("a lower bound above 0 before the last step", lambda look: any(low > 0 for low in look.earlier_bounds)),
    ("markers that are not the data's bounds, in the last step", lambda look: markers_differ(look.last)),
    *((f"{name} of a type with markers", lambda look, kind=kind: look.over(kind, has_markers)) for kind, name in KINDS.items()),
    *((f"{KINDS[kind]} of a type with a lower bound that is not 0", lambda look, kind=kind: look.over(kind, RULES.lower_bound))
      for kind in (SUBARRAY, RESIZED)),
    ("8 or more steps one upon the other", lambda look: len(look.chain) >= 8),
    ("32 steps", lambda look: len(look.steps) == 32),
    ("a step that the last one is not built of", Look.unnamed),
    ("a step built of another one than the one before", lambda look: any(a - b > 1 for a, b in zip(look.chain, look.chain[1:]))),
    ("items that two steps use", items_twice),
    ("256 entries", lambda look: look.entry_count == 256),
    ("entries that fall", lambda look: falls([d for _, d in RULES.data(look.last)])),
    ("entries that share bytes", shares_bytes),
    ("data past the extent", lambda look: data_bounds(look.last)[1] > look.extent),
    ("an extent of 1,048,576 in some step", lambda look: any(RULES.extent(one) == MEGA for one in look.typemaps)),
    ("an entry that ends at 1,048,576 in some step", lambda look: any(data_bounds(one)[1] == MEGA for one in look.typemaps)),
    ("lists just long enough", lambda look: look.lengths == (look.entry_count, look.entry_count)),
    ("a list longer than the result", lambda look: max(look.lengths) > look.entry_count),
)


def is_past_the_end(step):
    """True if an item of this step is not in the list."""
    return step.kind in (INDEXED, SUBARRAY) and step.b > 0 and 3 * (step.a + step.b - 1) >= len(step.items)


def zero_in(look, kind, test):
    return look.refusal == 28 and look.bad.kind == kind and test(look.bad)


def outside(look, test):
    """29 by a dimension for which this holds."""
    return look.refusal == 29 and 1 <= look.bad.b <= 4 and any(test(*dimension) for dimension in look.bad.dimensions())


def limits(look, test):
    """31, with a test on the least displacement, the greatest end and the extent."""
    return look.refusal == 31 and test(*data_bounds(look.last), RULES.extent(look.last))


def bad_name(look, test):
    return look.refusal == 27 and look.bad.kind in KINDS and test(look.bad)


REFUSED = (
    ("26, no step", lambda look: look.refusal == 26 and not look.record.steps),
    ("26, more than 32 steps", lambda look: look.refusal == 26 and len(look.record.steps) >= 33 * STEP_NUMBERS),
    ("26, a part of a step", lambda look: look.refusal == 26 and len(look.record.steps) % STEP_NUMBERS > 0),
    ("27, the kind", lambda look: look.refusal == 27 and look.bad.kind not in KINDS),
    ("27, the source", lambda look: bad_name(look, lambda step: step.source not in (WIDTH, EARLIER))),
    ("27, the width", lambda look: bad_name(look, lambda step: step.source == WIDTH)),
    ("27, the step's own number", lambda look: bad_name(look, lambda step: step.source == EARLIER and step.name == step.number)),
    ("27, a later number", lambda look: bad_name(look, lambda step: step.source == EARLIER and step.name > step.number)),
    ("28, contiguous", lambda look: zero_in(look, CONTIGUOUS, lambda step: True)),
    ("28, a vector's count", lambda look: zero_in(look, VECTOR, lambda step: step.a == 0)),
    ("28, a vector's block length alone", lambda look: zero_in(look, VECTOR, lambda step: step.a > 0)),
    ("28, no blocks", lambda look: zero_in(look, INDEXED, lambda step: step.b == 0)),
    ("28, a block length", lambda look: zero_in(look, INDEXED, lambda step: step.b > 0 and not is_past_the_end(step))),
    ("28, a subsize", lambda look: zero_in(look, SUBARRAY, lambda step: not is_past_the_end(step))),
    ("28, blocks past the end of the items", lambda look: zero_in(look, INDEXED, is_past_the_end)),
    ("28, dimensions past the end of the items", lambda look: zero_in(look, SUBARRAY, is_past_the_end)),
    ("28 and 29 in one step", lambda look: look.refusal == 28 and RULES.is_no_subarray(look.bad)),
    ("29, no dimension", lambda look: look.refusal == 29 and look.bad.b == 0),
    ("29, more than 4 dimensions", lambda look: look.refusal == 29 and look.bad.b > 4),
    ("29, a start below 0", lambda look: outside(look, lambda size, subsize, start: start < 0)),
    ("29, past the size", lambda look: outside(look, lambda size, subsize, start: start >= 0 and start + subsize > size)),
    ("29 and 30 in one step", lambda look: look.refusal == 29 and RULES.copies(look.bad) > 256),
    *((f"30, {KINDS[kind]}", lambda look, kind=kind: look.refusal == 30 and look.bad.kind == kind)
      for kind in (CONTIGUOUS, VECTOR, INDEXED, SUBARRAY)),
    ("30, 2^64 entries or more", lambda look: look.refusal == 30 and RULES.copies(look.bad) * len(RULES.data(look.source)) >= 2**64),
    ("30, at most 300 entries", lambda look: look.refusal == 30 and RULES.copies(look.bad) * len(RULES.data(look.source)) <= 300),
    ("31, an entry below 0", lambda look: limits(look, lambda low, stop, extent: low < 0)),
    ("31, an entry's end", lambda look: limits(look, lambda low, stop, extent: stop > MEGA)),
    ("31, an extent below 1 alone", lambda look: limits(look, lambda low, stop, extent: low >= 0 and stop <= MEGA and extent < 1)),
    ("31, an extent above 1,048,576 alone", lambda look: limits(look, lambda low, stop, extent: low >= 0 and stop <= MEGA < extent)),
    ("31, by numbers of 2^63 and more", lambda look: limits(look, lambda low, stop, extent: max(-low, stop, extent) >= 2**63)),
    ("31, the last lower bound not 0 too",
     lambda look: look.refusal == 31 and look.faulty == len(look.steps) - 1 and RULES.lower_bound(look.last) != 0),
    ("32, below 0", lambda look: look.refusal == 32 and RULES.lower_bound(look.last) < 0),
    ("32, above 0", lambda look: look.refusal == 32 and RULES.lower_bound(look.last) > 0),
    ("32, the lists too short too", lambda look: look.refusal == 32 and min(look.lengths) < len(RULES.data(look.last))),
    ("33, the widths alone", lambda look: look.refusal == 33 and look.lengths[0] < len(RULES.data(look.last)) <= look.lengths[1]),
    ("33, the displacements alone", lambda look: look.refusal == 33 and look.lengths[1] < len(RULES.data(look.last)) <= look.lengths[0]),
    ("33, too short by one", lambda look: look.refusal == 33 and min(look.lengths) == len(RULES.data(look.last)) - 1),
    ("a step after the first at fault", lambda look: look.faulty > 0),
    ("a step from number 8 on at fault", lambda look: look.faulty >= 8),
    ("a step at fault that the last one is not built of", lambda look: look.is_faulty and look.faulty not in look.chain),
)


class RecipeCounts:
    """What the recipes of the scripts were, and the sets from recipes."""

    def __init__(self):
        self.answers, self.situations = Counter(), Counter()

    def add_script(self, steps):
        for step in steps:
            if getattr(step, "tag", 0) in (RECIPE, SET_FROM_RECIPES):
                self.answers[step.tag, step.answer.refusal] += 1
            if getattr(step, "tag", 0) == RECIPE:
                look = Look(step)
                table = REFUSED if look.refusal else GRANTED
                self.situations.update(name for name, holds in table if holds(look))

    def number(self, tag):
        return sum(number for (of, _), number in self.answers.items() if of == tag)

    def print(self):
        recipes, granted, sets = self.number(RECIPE), self.answers[RECIPE, 0], self.number(SET_FROM_RECIPES)
        shown = ", ".join(f"{refusal}: {self.answers[RECIPE, refusal]}" for refusal in RECIPE_REFUSALS)
        print(f"recipes {recipes}: granted {granted}; refused {shown}")
        shown = ", ".join(f"{refusal}: {self.answers[SET_FROM_RECIPES, refusal]}" for refusal in RECIPE_REFUSALS[:-1] + OWN_REFUSALS)
        print(f"sets from recipes {sets}: granted {self.answers[SET_FROM_RECIPES, 0]}; refused {shown}")
        for title, table in (("recipes granted", GRANTED), ("recipes refused", REFUSED)):
            for name, _ in table:
                print(f"{title}, {name}: {self.situations[name]}")

    def faults(self):
        """The minima that are not met."""
        recipes = self.number(RECIPE)
        if recipes < LEAST_RECIPES:
            yield f"fewer than {LEAST_RECIPES} recipes"
        if self.answers[RECIPE, 0] < LEAST_GRANTED * recipes:
            yield f"less than {LEAST_GRANTED:.0%} of the recipes are granted"
        if self.number(SET_FROM_RECIPES) < LEAST_SETS:
            yield f"fewer than {LEAST_SETS} sets from recipes"
        for refusal in RECIPE_REFUSALS:
            if self.answers[RECIPE, refusal] < 10 * LEAST_SITUATION:
                yield f"recipes: fewer than {10 * LEAST_SITUATION} of refusal {refusal}"
        for refusal in (0,) + RECIPE_REFUSALS[:-1] + OWN_REFUSALS:
            if self.answers[SET_FROM_RECIPES, refusal] < LEAST_OWN:
                yield f"sets from recipes: fewer than {LEAST_OWN} of refusal {refusal}"
        for name, _ in GRANTED + REFUSED:
            if self.situations[name] < LEAST_SITUATION:
                yield f"recipes, {name}: fewer than {LEAST_SITUATION}"

    def wrong(self):
        """What no run may have."""
        for tag, refusal in self.answers:
            allowed = RECIPE_REFUSALS if tag == RECIPE else RECIPE_REFUSALS[:-1] + OWN_REFUSALS
            if refusal not in (0,) + allowed:
                yield f"tag {tag}: refusal {refusal} is none of this record's"
