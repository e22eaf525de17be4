"""The generated scripts: `generate(seed)` gives one script of about 560 records, rich in boundary cases.

The generator runs the model along, so that it can aim calls at the view, pointer and file that they will find.
"""

from dataclasses import replace
from random import Random

from fixed import bad_names
from model import OFFSETS, Body, Driver, Rules
from scripts import (ALL_ONES, LARGEST, SMALLEST, Shape, end, field, file_record, forged, give_back, new_file, open_handle, place, read_at,
                     read_here, record, reverse, seek, set_view, write_at, write_here)

MEGA = 1_048_576
RECORDS = (480, 620)
DAMAGES = (2, 3, 4, 5, 6, 6, 7, 7, 7, 9, 9, 10, 10, 10, 10, 10, 17, 18, 18, 19)  # the refusals that a damaged set aims at
ETYPE_ENTRIES, MANY_ENTRIES = (1, 1, 1, 2, 2, 2, 3, 3, 4, 5, 8), (3, 4, 5, 8)
ONE_OR_BOTH = (("etype",), ("filetype",), ("filetype",), ("etype", "filetype"))  # the types that a damage breaks
BAD_WIDTHS = (0, 3, 5, 6, 7, 9, 16, 2**32 + 1, ALL_ONES)
BAD_EXTENTS = (0, -1, MEGA + 1, LARGEST, SMALLEST)
BAD_REPRESENTATIONS = tuple(bad_names())


INTERLACED = 0.45  # the part of the views for writing whose tiles are to interlace


class Shapes:
    """Views that keep the rules, for reading only or for writing too."""

    def __init__(self, rng):
        self.rng, self.interlacing = rng, Interlacing(rng)

    def etype(self, writing, entries):
        n = self.rng.choice(entries)
        displacement, widths, displacements = self.rng.choice((0, 0, 0, 0, 1, 2, 3, 8)), [], []
        for _ in range(n):
            width = self.rng.choice((1, 2, 4, 8))
            widths.append(width)
            displacements.append(displacement)
            step = width + self.rng.choice((0, 0, 0, 1, 2, 5))
            displacement += step if writing else self.rng.choice((step, step, width - 1, 0))
        return tuple(widths), tuple(displacements)

    def etype_extent(self, widths, displacements):
        reach = displacements[-1] + widths[-1]
        size = sum(widths)
        return max(1, self.rng.choice((size, size, reach, reach, reach + 1, reach + 3, reach - 1, size - 1, 1, 2, 4)))

    def origins(self, least, extent, n):
        """Origins at least this far apart, with holes of whole extents only."""
        count = self.rng.choice((1, 1, 2, 2, 2, 3, 3, 4, 5, 7, 64))
        origins = [extent * self.rng.choice((0, 0, 0, 0, 1, 1, 2, 5))]
        while len(origins) < min(count, 256 // n):
            below = self.rng.randrange(extent)  # nearer than the extent: no hole
            steps = [extent, extent, 2 * extent, 3 * extent, below, least]
            steps = [s for s in steps if s >= least and (s <= extent or s % extent == 0)]
            origins.append(origins[-1] + (self.rng.choice(steps) if steps else -(-least // extent) * extent))
        return tuple(origins)

    def filetype_extent(self, least, last, extent):
        """A filetype extent of at least this, with a last hole of whole extents or none; `last` is the last origin."""
        whole = last + extent
        extents = [whole, whole, whole + extent, whole + 2 * extent, self.rng.randint(1, whole), least, extent, 1]
        extents = [f for f in extents if f >= least and (f <= whole or (f - whole) % extent == 0)]
        return self.rng.choice(extents) if extents else whole + -(-(least - whole) // extent) * extent

    def displacement(self):
        return self.rng.choice((0, 0, 0, 0, 1, 3, 20, 100, self.rng.randrange(200), 2**40))

    def shape(self, writing, entries=ETYPE_ENTRIES):
        """A view whose etype has one of these numbers of entries."""
        if writing and self.rng.random() < INTERLACED:
            return replace(self.interlacing.shape(entries), displacement=self.displacement())
        widths, displacements = self.etype(writing, entries)
        extent = self.etype_extent(widths, displacements)
        span = displacements[-1] + (widths[-1] if writing else 0) - displacements[0]
        origins = self.origins(span, extent, len(widths))
        least = max(1, origins[-1] - origins[0] + span if writing else 1)
        return Shape(widths, displacements, extent, origins, self.filetype_extent(least, origins[-1], extent), self.displacement())


class Interlacing:
    """Views for writing whose tiles interlace: F is below the way from the first byte to the last, and no two bytes clash."""

    def __init__(self, rng):
        self.rng = rng

    def shape(self, entries):
        """Tries until one interlaces; at last bytes with K and m as in interlaced.py's `multiples`."""
        for _ in range(6):
            shape = self.tried(self.rng.choice(entries))
            if shape:
                return shape
        k = self.rng.choice((2, 3, 5))
        return Shape((1,), (0,), 1, tuple(range(0, k * (k + 1), k + 1)), k)

    def tried(self, n):
        """An etype of n entries and some instances of it, each where its bytes are free modulo F; None if the tiles do not interlace."""
        widths = tuple(self.rng.choice((1, 1, 2, 4, 8)) for _ in range(n))
        size, wanted = sum(widths), min(self.rng.choice((1, 2, 2, 2, 3, 3, 4, 5, 7, 64)), 256 // n)
        f = size * wanted + self.rng.choice((0, 0, 0, 1, 2, 5, size))
        displacements = self.etype(widths, f)
        reach = displacements[-1] + widths[-1]
        extent = self.rng.choice((1, 1, 2, size, size, size, reach, f))
        origins = self.origins(widths, displacements, extent, f, wanted) if displacements else ()
        hole = f - origins[-1] - extent if origins else 1
        if not origins or hole > 0 and hole % extent or origins[-1] - origins[0] + reach - displacements[0] <= f:
            return None
        return Shape(widths, displacements, extent, origins, f)

    def remainders(self, widths, displacements, origin, f):
        return {(origin + d + index) % f for w, d in zip(widths, displacements) for index in range(w)}

    def etype(self, widths, f):
        """Displacements that rise and whose bytes do not clash: most lie end to end, some one or two tiles further on."""
        displacements, end, used = [], self.rng.choice((0, 0, 0, 1, 2, 8)), set()
        for w in widths:
            steps = self.rng.choice(((0,), (0,), (0, 1, 2), (f, f + 1, 0), range(f, 3 * f)))
            free = [end + by for by in steps if used.isdisjoint(self.remainders((w,), (end + by,), 0, f))]
            free = free or [end + by for by in range(f) if used.isdisjoint(self.remainders((w,), (end + by,), 0, f))] or [end]
            displacements.append(self.rng.choice(free[:8]))
            used |= self.remainders((w,), displacements[-1:], 0, f)
            end = displacements[-1] + w
        return tuple(displacements)

    def origins(self, widths, displacements, extent, f, wanted):
        """Up to so many origins, with holes of whole extents only; many lie more than a tile after the one before."""
        first, least = extent * self.rng.choice((0, 0, 0, 0, 1, 2)), displacements[-1] + widths[-1] - displacements[0]
        origins, used = [first], self.remainders(widths, displacements, first, f)
        if len(used) < sum(widths):
            return ()
        while len(origins) < wanted:
            far = -(-f // extent) * extent * self.rng.choice((0, 1, 1, 2))
            steps = [far + by for by in (*range(extent, 12 * extent + 1, extent), self.rng.randrange(extent + 1), f // extent * extent)]
            steps = [by for by in steps if by >= least and (by <= extent or by % extent == 0)]
            free = [by for by in steps if used.isdisjoint(self.remainders(widths, displacements, origins[-1] + by, f))]
            if not free:
                break
            origins.append(origins[-1] + self.rng.choice(free[:4]))
            used |= self.remainders(widths, displacements, origins[-1], f)
        return tuple(origins)


class Damage:
    """Sets that break one rule by little. A method for each refusal number; the answer may still be another one."""

    def __init__(self, rng):
        self.rng = rng

    def damaged(self, request, number):
        return getattr(self, f"refusal_{number}")(request)

    def change(self, request, name, index, number):
        """One element of a list of the request becomes this number."""
        numbers = list(getattr(request, name))
        if numbers:
            numbers[index % len(numbers)] = number
        return replace(request, **{name: tuple(numbers)})

    def refusal_2(self, request):
        return replace(request, representation=self.rng.choice(BAD_REPRESENTATIONS))

    def refusal_3(self, request):
        return replace(request, displacement=self.rng.choice((-1, 2**40 + 1, LARGEST, SMALLEST)))

    def refusal_4(self, request):
        kind = self.rng.choice(("etype", "filetype"))
        names = [f"{kind}_widths", f"{kind}_displacements"]
        one = self.rng.choice(names)
        change = self.rng.choice(("drop", "add", "none", "many"))
        if change == "drop":
            return replace(request, **{one: getattr(request, one)[:-1]})
        if change == "add":
            return replace(request, **{one: getattr(request, one) + (1,)})
        if change == "none":
            return replace(request, **{name: () for name in names})
        most = 9 if kind == "etype" else min(257, 64 * len(request.etype_widths) + 1)
        return replace(request, **{name: (getattr(request, name) * most)[:most] for name in names})

    def refusal_5(self, request):
        return replace(request, **{self.rng.choice(("etype_extent", "filetype_extent")): self.rng.choice(BAD_EXTENTS)})

    def entry(self, numbers, first=0):
        """An entry of this list, from this one on: often the first or the last."""
        last = max(len(numbers) - 1, first)
        inner = self.rng.randint(first, last)
        return self.rng.choice((first, last, inner, inner))

    def refusal_6(self, request):
        for kind in self.rng.choice(ONE_OR_BOTH):
            request = self.bad_entry(request, kind)
        return request

    def bad_entry(self, request, kind):
        """A width or a displacement that is not allowed; sometimes a displacement, and a width in a later entry."""
        widths = getattr(request, f"{kind}_widths") or (1,)
        entry, part = self.entry(widths), self.rng.random()
        if part < 0.4:
            return self.change(request, f"{kind}_widths", entry, self.rng.choice(BAD_WIDTHS))
        bad = (-1, MEGA - widths[entry] + 1, MEGA, LARGEST, LARGEST - widths[entry] + 1, SMALLEST)
        request = self.change(request, f"{kind}_displacements", entry, self.rng.choice(bad))
        if part < 0.8 or entry + 1 >= len(widths):
            return request
        return self.change(request, f"{kind}_widths", self.entry(widths, entry + 1), self.rng.choice(BAD_WIDTHS))

    def refusal_7(self, request):
        for kind in self.rng.choice(ONE_OR_BOTH):
            for _ in range(self.rng.choice((1, 1, 1, 2))):
                request = self.unordered(request, f"{kind}_displacements")
        return request

    def unordered(self, request, name):
        """An entry that begins one byte before the one before it: it moves down, or that one up."""
        numbers = getattr(request, name)
        if len(numbers) < 2:
            return request
        entry = self.entry(numbers, 1)
        if numbers[entry - 1] > 0 and self.rng.random() < 0.5:
            return self.change(request, name, entry, numbers[entry - 1] - 1)
        return self.change(request, name, entry - 1, min(numbers[entry], MEGA) + 1)

    def refusal_9(self, request):
        """The tile's end, or a group and all later ones, move by a byte or nearly an extent."""
        n, numbers = max(len(request.etype_widths), 1), request.filetype_displacements
        by = self.rng.choice((1, 1, max(request.etype_extent, 2) - 1))
        if self.rng.random() < 0.35 and len(numbers) >= n and request.etype_displacements:
            end = numbers[-n] - request.etype_displacements[0] + request.etype_extent
            return replace(request, filetype_extent=max(end, request.filetype_extent) + by)
        first = n * self.entry(numbers[::n])
        return replace(request, filetype_displacements=numbers[:first] + tuple(d + by for d in numbers[first:]))

    def refusal_10(self, request):
        return self.rng.choice((self.near_tiles, self.near_tiles, self.short_tile, self.near_groups, self.near_groups, self.near_entries,
                                self.wider, self.late_group, self.late_group, self.late_entry))(request)

    def short_tile(self, request):
        """A tile that is shorter than one of the entries."""
        width = self.rng.choice(request.filetype_widths or (2,))
        return replace(request, filetype_extent=max(1, min(width, 8) - self.rng.choice((1, 1, 2, 5))))

    def late_group(self, request):
        """A group and all later ones move so that one of its bytes lies a few tiles after an earlier one."""
        n, numbers, widths, f = len(request.etype_widths), request.filetype_displacements, request.filetype_widths, request.filetype_extent
        if not n or len(numbers) != len(widths) or len(numbers) < 2 * n or f < 1:
            return request
        first = n * self.entry(numbers[::n], 1)
        if not n <= first < len(numbers):
            return request
        by = self.clash_step(numbers, widths, f, range(first, min(first + n, len(numbers))), first)
        return replace(request, filetype_displacements=numbers[:first] + tuple(d + by for d in numbers[first:]))

    def late_entry(self, request):
        """The same of an entry of the etype, in each group."""
        n, numbers, f = len(request.etype_widths), request.etype_displacements, request.filetype_extent
        if n < 2 or len(numbers) != n or len(request.filetype_displacements) % n or f < 1:
            return request
        first = self.entry(numbers, 1)
        by = self.clash_step(numbers, request.etype_widths, f, [first], first)
        moved = tuple(d + by * (i % n >= first) for i, d in enumerate(request.filetype_displacements))
        if len(moved) > n:  # the groups keep their distance
            moved = tuple(d + by * (i // n) for i, d in enumerate(moved))
        return replace(request, etype_displacements=numbers[:first] + tuple(d + by for d in numbers[first:]), filetype_displacements=moved)

    def clash_step(self, numbers, widths, f, entries, before):
        """By how much one of these entries must move up for its first or last byte to clash with one before the entry `before`."""
        entry, other = self.rng.choice(entries), self.rng.randrange(before)
        own = numbers[entry] + self.rng.choice((0, max(widths[entry], 1) - 1))
        return (numbers[other] + self.rng.randrange(min(max(widths[other], 1), 16)) - own) % f

    def wider(self, request):
        """An entry of the etype becomes twice as wide, in each group."""
        n = len(request.etype_widths)
        if not n or len(request.filetype_widths) % n:
            return request
        entry = self.entry(request.etype_widths)
        widths = request.etype_widths[:entry] + (request.etype_widths[entry] * 2,) + request.etype_widths[entry + 1:]
        return replace(request, etype_widths=widths, filetype_widths=widths * (len(request.filetype_widths) // n))

    def near_tiles(self, request):
        numbers, widths = request.filetype_displacements or (0,), request.filetype_widths or (1,)
        span = numbers[-1] + widths[-1] - numbers[0]
        f = request.filetype_extent
        return replace(request, filetype_extent=max(1, self.rng.choice((span - 1, span - 1, span - 2, 1, f - 1, f - 1, f + 1, f // 2))))

    def near_groups(self, request):
        """A group begins before the one before it ends; it and all later ones move."""
        n, numbers = max(len(request.etype_widths), 1), request.filetype_displacements
        first = n * self.entry(numbers[::n], 1)
        if not n <= first < min(len(numbers), len(request.filetype_widths)):
            return request
        by = numbers[first] - numbers[first - 1] - request.filetype_widths[first - 1] + 1
        return replace(request, filetype_displacements=numbers[:first] + tuple(max(0, d - by) for d in numbers[first:]))

    def near_entries(self, request):
        """An entry of the etype begins before the one before it ends, and so it is in each group."""
        etype, n = request.etype_displacements, len(request.etype_widths)
        if n < 2 or len(etype) != n:
            return request
        first = self.entry(etype, 1)
        by = etype[first] - etype[first - 1] - request.etype_widths[first - 1] + 1
        return replace(request, etype_displacements=etype[:first] + tuple(max(0, d - by) for d in etype[first:]),
                       filetype_displacements=tuple(max(0, d - by) if i % n >= first else d
                                                    for i, d in enumerate(request.filetype_displacements)))

    def refusal_17(self, request):
        """The last group is not whole. An etype of one entry gets another one at the same place."""
        n, numbers = len(request.etype_widths), request.filetype_displacements
        if n == 1:
            request = replace(request, etype_widths=request.etype_widths * 2, etype_displacements=request.etype_displacements * 2)
        left = max(1, len(numbers) - self.rng.randint(1, max(n - 1, 1)))
        return replace(request, filetype_widths=request.filetype_widths[:left], filetype_displacements=numbers[:left])

    def refusal_18(self, request):
        part = self.rng.random()
        if part < 0.1:
            return replace(request, etype_widths=tuple(self.rng.choice((1, 2, 4, 8)) for _ in request.etype_widths))
        request = self.differing(request, 0, len(request.filetype_widths))
        return self.differing(request, 0, len(request.filetype_widths)) if part < 0.3 else request

    def differing(self, request, first, stop):
        """An entry of the filetype, from the first to before the stop, gets another width or moves up by a byte."""
        numbers = request.filetype_displacements[:stop]
        if first >= len(numbers) or stop > len(request.filetype_widths):
            return request
        entry = self.entry(numbers, first)
        if self.rng.random() < 0.5:
            widths = [width for width in (1, 2, 4, 8) if width != request.filetype_widths[entry]]
            return self.change(request, "filetype_widths", entry, self.rng.choice(widths))
        return self.change(request, "filetype_displacements", entry, numbers[entry] + 1)

    def refusal_19(self, request):
        """The etype moves up past the filetype's first entry; sometimes an entry of the first group differs too, or a later one."""
        n, etype, filetype = len(request.etype_widths), request.etype_displacements or (0,), request.filetype_displacements or (0,)
        by = max(0, filetype[0] - etype[0]) + self.rng.choice((1, 1, 2, 9))
        request = replace(request, etype_displacements=tuple(d + by for d in request.etype_displacements))
        part = self.rng.random()
        if part < 0.3:
            return self.differing(request, 0, n)
        return self.differing(request, n, len(filetype)) if part < 0.6 else request


class Forgery:
    """A forged handle's record; `damage` puts one fault into it, or nearly one."""

    def __init__(self, rng, mode, pointer, shape):
        self.rng, self.mode, self.pointer, self.shape, self.counts = rng, mode, pointer, shape, {}

    def damage(self):
        faults = (self.bad_mode, self.bad_pointer, self.bad_displacement, self.bad_count, self.bad_extent, self.bad_width,
                  self.bad_entry, self.bad_origin, self.bad_tile)
        self.rng.choice(faults)()

    def change(self, **fields):
        self.shape = replace(self.shape, **fields)

    def one_changed(self, numbers, number):
        index = self.rng.randrange(len(numbers))
        return numbers[:index] + (number,) + numbers[index + 1:]

    def bad_mode(self):
        self.mode = self.rng.choice((0, 4, 2**32 + 1, ALL_ONES))

    def bad_pointer(self):
        self.pointer = self.rng.choice((OFFSETS + 1, 2**63, ALL_ONES))

    def bad_displacement(self):
        self.change(displacement=self.rng.choice((2**40 + 1, ALL_ONES)))

    def bad_count(self):
        self.counts = {self.rng.choice(("entries", "instances")): self.rng.choice((0, 9, 65, 2**62 + 1, ALL_ONES))}

    def bad_extent(self):
        self.change(**{self.rng.choice(("etype_extent", "filetype_extent")): self.rng.choice((0, MEGA + 1, ALL_ONES))})

    def bad_width(self):
        self.change(widths=self.one_changed(self.shape.widths, self.rng.choice(BAD_WIDTHS)))

    def bad_entry(self):
        number = self.rng.choice((0, 5, MEGA, 2**63, 2**64 - 4))
        self.change(displacements=self.one_changed(self.shape.displacements, number))

    def bad_origin(self):
        number = self.rng.choice((0, 1, self.shape.origins[-1] + 1, MEGA, 2**64 - 8))
        self.change(origins=self.one_changed(self.shape.origins, number))

    def bad_tile(self):
        self.change(filetype_extent=max(1, self.shape.filetype_extent + self.rng.choice((-1, 1))))


class Generator:
    def __init__(self, seed):
        self.rng = Random(seed)
        self.shapes, self.damage = Shapes(self.rng), Damage(self.rng)
        self.driver = Driver(Rules())
        self.records = []

    def emit(self, record):
        self.driver.step(0, record[0], Body(record[3:]))
        self.records.append(record)

    def chance(self, part):
        return self.rng.random() < part

    # Handles

    def mode(self):
        return self.rng.choice((1, 1, 1, 2, 2, 3, 3, 3, 3))

    def open(self, slot):
        if self.chance(0.04):
            self.unnamed_mode(slot)
        if self.chance(0.12):
            self.emit(open_handle(slot, self.rng.choice((4, 5, 7, 2**32 + 1, ALL_ONES))))
        else:
            self.emit(open_handle(slot, self.mode()))

    def unnamed_mode(self, slot):
        """An open that names no mode, with a read; the handle is not used further."""
        self.emit(open_handle(slot, 0))
        self.emit(read_at(slot, 0, 0, 2, 2))

    def shape(self, mode, entries=ETYPE_ENTRIES):
        return self.shapes.shape(mode in (2, 3) or self.chance(0.3), entries)

    def set(self, slot):
        """A sound set half of the time; else one with a fault, or with two, of one rule or of any."""
        if self.chance(0.5):
            return self.sound_set(slot)
        entries, number = self.rng.choice((ETYPE_ENTRIES, MANY_ENTRIES)), self.rng.choice(DAMAGES)
        request = self.damage.damaged(self.shape(self.driver.slots[slot].mode, entries).request(), number)
        if self.chance(0.35):
            request = self.damage.damaged(request, self.rng.choice((number, self.rng.choice(DAMAGES))))
        self.emit(set_view(slot, request))

    def sound_set(self, slot):
        self.emit(set_view(slot, self.shape(self.driver.slots[slot].mode).request()))

    def pointer(self):
        return self.rng.choice((0, 0, 1, 2, 3, self.rng.randrange(20), OFFSETS - 1, OFFSETS))

    def fill(self):
        return self.rng.choice((0, 1, 3, 2**40 + 1, 2**63, ALL_ONES, self.rng.getrandbits(64)))

    def forge(self, slot):
        mode = self.mode()
        self.emit(forged(slot, mode, self.pointer(), self.shape(mode), fill=self.fill()))

    def forge_damaged(self, slot):
        mode = self.mode()
        forgery = Forgery(self.rng, mode, self.pointer(), self.shape(mode))
        forgery.damage()
        self.emit(forged(slot, forgery.mode, forgery.pointer, forgery.shape, fill=self.fill(), **forgery.counts))

    # Files

    def interesting_size(self, view):
        """A size at the begin or in the data of an etype, when such a byte is near enough."""
        usable = 1 <= view.instances <= 64 and 1 <= view.entries <= 8 and view.displacement < 2**16
        if not usable or self.chance(0.1):
            return self.rng.choice((0, 1, self.rng.randrange(300)))
        offset = self.rng.randrange(3 * view.instances + 6)
        begin = self.driver.rules.place(view, offset)
        entry = self.rng.randrange(view.entries)
        first = begin + view.displacements[entry]
        last = begin + view.displacements[view.entries - 1] + view.widths[view.entries - 1]
        return self.rng.choice((begin, begin + 1, first, first + 1, first + view.widths[entry] // 2, last - 1, last, last + 1))

    def file(self, slot, file):
        size = self.interesting_size(self.driver.slots[slot].view) % 20_000
        length = size + self.rng.choice((0, 0, 1, 3, 20, 100))
        if self.chance(0.06):
            length = max(0, size - 1)
        self.emit(new_file(file, length, size, self.rng.randrange(256)))

    def new_size(self, slot, file):
        length = len(self.driver.files[file].data)
        size = self.interesting_size(self.driver.slots[slot].view)
        if self.chance(0.2):
            size = self.rng.choice((length + 1, length, ALL_ONES, 2**40 + 1))
        elif size > length:
            size = self.rng.randint(0, length)
        self.emit(file_record(file, size))

    # Calls

    def is_sound(self, slot):
        return self.driver.rules.handle_allowed(self.driver.slots[slot])

    def file_end(self, slot, file):
        """The end of file where the handle is sound, else a small number."""
        if self.is_sound(slot):
            return self.driver.rules.end_of_file(self.driver.slots[slot].view, self.driver.files[file].size)
        return self.rng.randrange(10)

    def give_back(self, slot, _file):
        view = self.driver.slots[slot].view
        n, k = min(view.entries, 8), min(view.instances, 64)
        lengths = [n, n, min(n * k, 299), min(n * k, 299)]
        if self.chance(0.35):
            index = self.rng.randrange(4)
            lengths[index] = max(0, lengths[index] - 1)
        else:
            lengths = [length + self.rng.choice((0, 0, 0, 1, 7)) for length in lengths]
        self.emit(give_back(slot, lengths, self.rng.getrandbits(33)))

    def place(self, slot, _file):
        near = self.rng.randrange(40)
        offset = self.rng.choice((near, near, near, OFFSETS - 1, OFFSETS, -1, self.rng.randrange(OFFSETS), LARGEST, SMALLEST))
        self.emit(place(slot, offset))

    def end(self, slot, file):
        self.emit(end(slot, file))

    def seek(self, slot, file):
        whence = self.rng.choice((0, 1, 2, 0, 1, 2, 0, 1, 2, self.rng.choice((3, 4, ALL_ONES))))
        handle, stop = self.driver.slots[slot], self.file_end(slot, file)
        base = (0, handle.pointer, stop)[whence] if whence < 3 else 0
        near = max(0, stop - self.rng.randrange(5))
        target = self.rng.choice((near, near, near, 0, 0, self.rng.randrange(12), -1, OFFSETS, OFFSETS - 1, OFFSETS + 1))
        offset = self.rng.choice((LARGEST, SMALLEST)) if self.chance(0.06) else target - base
        self.emit(seek(slot, file, offset if SMALLEST <= offset <= LARGEST else 0, whence))

    def count(self):
        return self.rng.choice((0, 1, 1, 2, 2, 3, 4, 5, 9, self.rng.randrange(20)))

    def buffer(self, slot, count):
        view = self.driver.slots[slot].view
        size = sum(view.widths[: view.entries]) if self.is_sound(slot) else 4
        exact = min(count * size, 4096)
        return max(0, exact + self.rng.choice((0, 0, 0, 0, 1, 5, -1)))

    def read_offset(self, slot, file):
        stop = self.file_end(slot, file)
        near = max(0, stop - self.rng.randrange(12))
        small = self.rng.randrange(min(stop, 50) + 1)
        limit = self.rng.choice((-1, SMALLEST, LARGEST, OFFSETS - 1, OFFSETS))
        return self.rng.choice((0, 0, near, near, near, small, small, small, stop, limit))

    def count_at(self, offset, count, part):
        """This count, or in this part of the cases one at the limit of check 12."""
        if self.chance(part):
            left = OFFSETS - max(offset, 0)
            return self.rng.choice((left, left + 1, ALL_ONES)) % 2**64
        return count

    def read_at(self, slot, file):
        offset = self.read_offset(slot, file)
        count = self.count_at(offset, self.count(), 0.05)
        self.emit(read_at(slot, file, offset, count, self.buffer(slot, count), self.rng.randrange(256)))

    def read_here(self, slot, file):
        if self.chance(0.4):
            self.emit(seek(slot, file, self.rng.randrange(4), 0))
        count = self.count_at(self.driver.slots[slot].pointer, self.count(), 0.08)
        self.emit(read_here(slot, file, count, self.buffer(slot, count), self.rng.randrange(256)))

    def write_offset(self, slot, file, count):
        """An offset from which this many etypes end before, near or after the file's length, or one at a limit."""
        if not self.is_sound(slot) or self.chance(0.1):
            return self.rng.choice((0, 1, 5, -1, SMALLEST, LARGEST, OFFSETS - 1, OFFSETS))
        room = self.driver.rules.end_of_file(self.driver.slots[slot].view, len(self.driver.files[file].data))
        last = max(0, room - count)
        near = max(0, last + self.rng.choice((-3, -2, -1, -1, 0, 0, 1)))
        return self.rng.choice((0, near, near, near, self.rng.randrange(min(last, 50) + 1), self.file_end(slot, file)))

    def read_back(self, slot, file, offset, count):
        """Mostly the read of what was just written, seldom where the mode does not allow it."""
        if self.chance(0.2 if self.driver.slots[slot].mode == 2 else 0.8):
            self.emit(read_at(slot, file, offset, count, self.buffer(slot, count), self.rng.randrange(256)))

    def write_here_from(self, slot, file, count):
        """A write at the pointer, then mostly the read of what it wrote."""
        offset = self.driver.slots[slot].pointer
        self.emit(write_here(slot, file, count, self.buffer(slot, count), self.rng.getrandbits(9)))
        self.read_back(slot, file, min(offset, LARGEST), count)

    def write_at(self, slot, file):
        count = self.count()
        offset = self.write_offset(slot, file, count)
        count = self.count_at(offset, count, 0.05)
        self.emit(write_at(slot, file, offset, count, self.buffer(slot, count), self.rng.getrandbits(9)))
        self.read_back(slot, file, offset, count)

    def write_here(self, slot, file):
        count = self.count()
        if self.chance(0.6):
            self.emit(seek(slot, file, max(0, self.write_offset(slot, file, count)), 0))
        self.write_here_from(slot, file, self.count_at(self.driver.slots[slot].pointer, count, 0.08))

    def write_end(self, slot, offset, count):
        """The end of the highest byte of this write, 0 where the handle is not sound."""
        if not self.is_sound(slot):
            return 0
        return max(self.driver.rules.mapped(self.driver.slots[slot].view, offset, count)) + 1

    def exact_write(self, slot, file):
        """A write to a file whose length is the write's end or near it; the bytes past the size are stale."""
        offset, count = self.rng.choice((0, 0, 1, 2, 3, 7)), self.rng.choice((1, 1, 2, 2, 3, 5))
        stop = self.write_end(slot, offset, count)
        if stop > 20_000:
            return self.write_at(slot, file)
        length = max(0, stop + self.rng.choice((0, 0, 0, -1, -1, 1, 12)))
        size = self.rng.choice((0, length, self.rng.randint(0, length), self.rng.randint(0, length)))
        self.emit(new_file(file, length, size, self.rng.randrange(256)))
        if self.chance(0.4):
            self.emit(seek(slot, file, offset, 0))
            return self.write_here_from(slot, file, count)
        self.emit(write_at(slot, file, offset, count, self.buffer(slot, count), self.rng.getrandbits(9)))
        self.read_back(slot, file, offset, count)

    # Reverse lookups

    def byte(self, slot):
        """A file byte at or beside the data of an etype, beside the view's displacement, or at a limit."""
        if not self.is_sound(slot) or self.chance(0.15):
            return self.rng.choice((0, 1, self.rng.randrange(300), 2**32, 2**40, 2**63, ALL_ONES, self.rng.getrandbits(64)))
        view, near = self.driver.slots[slot].view, self.rng.randrange(40)
        offset = self.rng.choice((near, near, near, 0, OFFSETS - 1, OFFSETS - 2, OFFSETS, OFFSETS + 1, self.rng.randrange(OFFSETS)))
        data = self.rng.choice(self.driver.rules.data_places(view, offset)) + self.rng.choice((0, 0, 0, -1, 1))
        return max(0, self.rng.choice((data, data, data, data, data, view.displacement, view.displacement - 1)))

    def reverse(self, slot, _file):
        self.emit(reverse(slot, self.byte(slot)))

    def every_byte(self, slot, file):
        """A small file, and lookups of each of its bytes and some past them; of a view that lies further on, of its first bytes."""
        length = self.rng.randint(3, 24)
        self.emit(new_file(file, length, self.rng.randint(0, length), self.rng.randrange(256)))
        first = 0
        if self.is_sound(slot):
            data = self.driver.rules.data_places(self.driver.slots[slot].view, 0)[0]
            first = data - 3 if data > length else 0
        for byte in range(first, first + length + 4):
            self.emit(reverse(slot, byte))

    # Scripts

    def new_handle(self, slot):
        if self.chance(0.15):
            self.forge_damaged(slot)
        elif self.chance(0.25):
            self.forge(slot)
        else:
            self.open(slot)
            for _ in range(self.rng.choice((0, 1, 2, 3))):
                self.set(slot)
            if self.chance(0.7):
                self.sound_set(slot)

    def call(self, slot, file):
        """A call. The writes and lookups of a handle that does not allow them are fewer."""
        both = (self.give_back, self.place, self.end, self.seek, self.seek, self.read_at, self.read_at, self.read_here, self.read_here)
        writing = (self.write_at, self.write_at, self.write_here, self.write_here, self.exact_write, self.exact_write, self.reverse,
                   self.reverse)
        can = self.is_sound(slot) and self.driver.slots[slot].mode != 1
        self.rng.choice(writing if self.chance(0.5 if can else 0.2) else both)(slot, file)

    def episode(self):
        """A handle, a file and some calls, a few of them by other handles."""
        slot, file = self.rng.randrange(4), self.rng.randrange(2)
        self.new_handle(slot)
        self.file(slot, file)
        for _ in range(self.rng.randint(4, 14) if self.is_sound(slot) else self.rng.randint(3, 7)):
            if self.chance(0.12):
                self.new_size(slot, file)
            elif self.chance(0.08):
                self.set(slot)
            self.call(self.rng.randrange(4) if self.chance(0.1) else slot, file)
        if self.chance(0.12 if self.is_sound(slot) and self.driver.slots[slot].mode != 1 else 0.02):
            self.every_byte(slot, file)

    def tail(self):
        """What stands after the last whole record."""
        cut = record(38, 1, 2)
        return self.rng.choice((b"", b"", cut[:1], cut[:2], cut[:3], cut[:-1], field(31, b""), field(48, b"\0" * 8), b"\x01\0\0", b"\xff"))

    def script(self):
        least = self.rng.randint(*RECORDS)
        while len(self.records) < least:
            self.episode()
        return b"".join(self.records) + self.tail()


def generate(seed):
    return Generator(seed).script()
