"""What refused sets name: `situations(step)` gives the names of those of SITUATIONS that a set of a script is in.

The model's checks give all the faults of a rule; a situation says which of them is named and what else stands in the view.
"""

from model import ETYPE, FILETYPE, WIDTHS, WRITING, Fault, Rules, set_record
from old_rule import named_entries

NAMES = {ETYPE: "etype", FILETYPE: "filetype"}
RULES = ((6, ETYPE), (6, FILETYPE), (7, ETYPE), (7, FILETYPE), (9, FILETYPE), (10, FILETYPE), (18, FILETYPE))
PARTS = ("first", "middle", "last")
PLACES = {(refusal, kind, part): f"{refusal}, {NAMES[kind]}, {part} entry" for refusal, kind in RULES for part in PARTS}
SEVERAL = {refusal: f"{refusal}, several entries of the type break it" for refusal in (6, 7, 9, 10, 18)}
BOTH = {refusal: f"{refusal}, both types break it" for refusal in (6, 7)}
LOWER = {refusal: f"{refusal}, both types break it, the filetype at a lower entry" for refusal in (6, 7)}
BY_WIDTH = {refusal: f"{refusal} by a width" for refusal in (6, 18)}
BY_DISPLACEMENT = {refusal: f"{refusal} by a displacement alone" for refusal in (6, 18)}
WIDTH_LATER = {refusal: f"{refusal} by a displacement alone, a later entry by its width" for refusal in (6, 18)}
BELOW_TOO, DIFFERS_LATER = "18, an origin below 0 in the same group", "19, a later group differs"
HOLES = {"first": "9, n > 1, the hole at 0", "middle": "9, n > 1, a hole in the middle", "last": "9, n > 1, the final hole"}
OWN, NEIGHBOUR, FARTHER = "10, bytes of one entry", "10, with the entry before alone", "10, with entries before that one alone"
SAME, ONE_TILE, TILES = "10, by places that are equal", "10, by a difference of F alone", "10, by differences of 2F or more alone"
ONE_BYTE, LAST_BYTE = "10, by one byte alone", "10, by the last byte of the filetype alone"
OTHER_PLACE, NOT_TEN = "10, where order 1 named another entry", "7 for writing, where no bytes clash"
CLASHES = (OWN, NEIGHBOUR, FARTHER, SAME, ONE_TILE, TILES, ONE_BYTE, LAST_BYTE, OTHER_PLACE)
SITUATIONS = (*PLACES.values(), *SEVERAL.values(), *BOTH.values(), *LOWER.values(), *BY_WIDTH.values(), *BY_DISPLACEMENT.values(),
              *WIDTH_LATER.values(), BELOW_TOO, DIFFERS_LATER, *HOLES.values(), *CLASHES, NOT_TEN)


def every_fault(refusal, etype, filetype):
    """All faults that the check of this refusal finds, in its order."""
    rules = Rules()
    checks = {6: rules.entry_faults, 7: rules.order_faults, 9: rules.hole_faults, 10: rules.clash_faults, 18: rules.built_faults,
              19: rules.built_faults}
    return list(checks[refusal](etype, filetype))


def part(named, entries):
    """Whether the first, a middle or the last entry is named, of those that this refusal can name among so many entries."""
    last = entries - 1
    first = 1 if named.refusal == 7 else 0
    return "first" if named.entry == first else "last" if named.entry == last else "middle"


def both_types(named, faults):
    """6 and 7: both types break the rule."""
    others = [fault.entry for fault in faults if fault.type != named.type]
    if others:
        yield BOTH[named.refusal]
    if others and min(others) < named.entry:
        yield LOWER[named.refusal]


def width_or_displacement(named, etype, filetype):
    """6 and 18: what is wrong with the entry that is named, and whether a later one has a wrong width."""
    n, widths = len(etype.widths), (etype if named.type == ETYPE else filetype).widths
    wrong = [w not in WIDTHS if named.refusal == 6 else w != etype.widths[entry % n] for entry, w in enumerate(widths)]
    if wrong[named.entry]:
        yield BY_WIDTH[named.refusal]
        return
    yield BY_DISPLACEMENT[named.refusal]
    if any(wrong[named.entry:]):
        yield WIDTH_LATER[named.refusal]


def groups(named, faults, n):
    """18 and 19 in one view."""
    group = named.entry // n
    if named.refusal == 18 and any(fault.refusal == 19 and fault.entry // n == group for fault in faults):
        yield BELOW_TOO
    if named.refusal == 19 and any(fault.refusal == 18 and fault.entry // n > group for fault in faults):
        yield DIFFERS_LATER


def clashes(named, filetype):
    """10: the bytes of the entry that is named, each with the bytes before it that it clashes with, as an entry and a difference."""
    w, d = filetype.entries()[named.entry]
    earlier = enumerate(filetype.entries()[:named.entry])
    before = [(entry, place) for entry, (width, first) in earlier for place in range(first, first + width)]
    for place in range(d, d + w):
        yield [(entry, place - other) for entry, other in before if (place - other) % filetype.extent == 0]
        before.append((named.entry, place))


def clash_situations(named, filetype):
    bytes_of_entry = list(clashes(named, filetype))
    pairs = [pair for found in bytes_of_entry for pair in found]
    entries, differences = {entry for entry, _ in pairs}, {difference for _, difference in pairs}
    alone, last, old = len(pairs) == 1, named.entry == len(filetype.widths) - 1, named_entries(filetype)
    holds = (named.entry in entries, entries == {named.entry - 1}, max(entries) < named.entry - 1, 0 in differences,
             differences == {filetype.extent}, min(differences) > filetype.extent, alone, alone and last and bool(bytes_of_entry[-1]),
             bool(old) and old[0] != named.entry)
    return [name for name, does in zip(CLASHES, holds) if does]


def situations(step):
    """Names of SITUATIONS for a set that is refused with a type and an entry; none for any other."""
    if step.answer.refusal == 0 or step.answer.numbers[0] == 0:
        return []
    named, new = Fault(step.answer.refusal, *step.answer.numbers), set_record(step.body)
    n, faults = len(new.etype.widths), every_fault(named.refusal, new.etype, new.filetype)
    found = [*groups(named, faults, n)]
    if named.refusal == 19:
        return found
    where = part(named, len(new.etype.widths if named.type == ETYPE else new.filetype.widths))
    found.append(PLACES[named.refusal, named.type, where])
    if sum((fault.refusal, fault.type) == (named.refusal, named.type) for fault in faults) > 1:
        found.append(SEVERAL[named.refusal])
    if named.refusal in (6, 7):
        found += both_types(named, faults)
    if named.refusal in (6, 18):
        found += width_or_displacement(named, new.etype, new.filetype)
    if named.refusal == 9 and n > 1:
        found.append(HOLES[where])
    if named.refusal == 10:
        found += clash_situations(named, new.filetype)
    if named.refusal == 7 and step.answer.handle.mode in WRITING and not list(Rules().clashing_entries(new.etype, new.filetype)):
        found.append(NOT_TEN)
    return found
