"""Misreadings of document 02's order 3, each as a wrong copy of the model. `mutants` shows that the rows of the fixed script see them.

Each class has the calls, by tag, and the refusals that its rows state, 0 for a granted call: of each there must be a row whose line the
misreading makes wrong.
"""

from dataclasses import replace

import old_rule
from model import FILETYPE, READING, WRITING, Answer, Fault, Rules

SET, END, SEEK, READ_AT, READ_HERE, WRITE_AT, WRITE_HERE, REVERSE = 36, 39, 40, 41, 42, 43, 44, 45
CHECK_1 = {(tag, 1) for tag in range(36, 46)}  # a view that a misreading accepts is one that a forged handle has
GRANTED = {(tag, 0) for tag in range(36, 46)}  # and the other way round
ACCEPTS, REFUSES = CHECK_1 | {(SET, 10)}, GRANTED


# Which bytes clash

class Clashes(Rules):
    """two bytes clash by another test; the base of the classes below"""

    def do_clash(self, etype, filetype, one, other):
        """`one` is a byte of a later entry than `other`, or a later byte of the same entry; both as entry, index and place."""
        return (one[2] - other[2]) % filetype.extent == 0

    def clashing_entries(self, etype, filetype):
        before = []
        for entry, (w, d) in enumerate(filetype.entries()):
            own = [(entry, index, d + index) for index in range(w)]
            found = False
            for one in own:
                found = found or any(self.do_clash(etype, filetype, one, other) for other in before)
                before.append(one)
            if found:
                yield entry


class OwnBytesApart(Clashes):
    """bytes of one entry are not compared with each other"""

    seen_by = ACCEPTS

    def do_clash(self, etype, filetype, one, other):
        return one[0] != other[0] and super().do_clash(etype, filetype, one, other)


class ZeroLeftOut(Clashes):
    """a difference of zero is none"""

    seen_by = ACCEPTS

    def do_clash(self, etype, filetype, one, other):
        return one[2] != other[2] and super().do_clash(etype, filetype, one, other)


class NeighboursOnly(Clashes):
    """an entry is compared with itself and the one before alone"""

    seen_by = ACCEPTS

    def do_clash(self, etype, filetype, one, other):
        return one[0] - other[0] <= 1 and super().do_clash(etype, filetype, one, other)


class NeighboursAround(Clashes):
    """an entry is compared with itself and the one before, the last one with the first too"""

    seen_by = {(SET, 10)}

    def do_clash(self, etype, filetype, one, other):
        around = one[0] == len(filetype.widths) - 1 and other[0] == 0
        return (one[0] - other[0] <= 1 or around) and super().do_clash(etype, filetype, one, other)


class ExactlyF(Clashes):
    """places that differ by 0 or by F clash, not those that differ by 2F or more"""

    seen_by = ACCEPTS

    def do_clash(self, etype, filetype, one, other):
        return one[2] - other[2] in (0, filetype.extent)


class TwoTiles(Clashes):
    """places that differ by 0, F or 2F clash, not those that differ by more"""

    seen_by = {(SET, 10)}

    def do_clash(self, etype, filetype, one, other):
        return one[2] - other[2] in (0, filetype.extent, 2 * filetype.extent)


class BeginsOnly(Clashes):
    """only the first bytes of two entries are compared"""

    seen_by = ACCEPTS

    def do_clash(self, etype, filetype, one, other):
        return one[1] == other[1] == 0 and super().do_clash(etype, filetype, one, other)


class BeginsAndEnds(Clashes):
    """of two entries only the first and the last bytes are compared"""

    seen_by = ACCEPTS

    def do_clash(self, etype, filetype, one, other):
        edges = all(index in (0, filetype.widths[entry] - 1) for entry, index, _ in (one, other))
        return edges and super().do_clash(etype, filetype, one, other)


class BeginInAnEntry(Clashes):
    """the first byte of an entry is compared with all earlier bytes, its other bytes are not"""

    seen_by = ACCEPTS

    def do_clash(self, etype, filetype, one, other):
        return one[1] == 0 and super().do_clash(etype, filetype, one, other)


class NoWrap(Clashes):
    """entries that lie over a tile's end are compared up to the end only, and from there on past it"""

    seen_by = ACCEPTS

    def do_clash(self, etype, filetype, one, other):
        def reduced(entry, index):
            return filetype.displacements[entry] % filetype.extent + index

        return reduced(*one[:2]) == reduced(*other[:2])


class OneEtype(Clashes):
    """only bytes of one instance are compared"""

    seen_by = ACCEPTS

    def do_clash(self, etype, filetype, one, other):
        n = len(etype.widths)
        return one[0] // n == other[0] // n and super().do_clash(etype, filetype, one, other)


class OriginsOnly(Rules):
    """only the origins of the instances are compared"""

    seen_by = ACCEPTS

    def clashing_entries(self, etype, filetype):
        earlier = set()
        for group, origin in enumerate(self.origins(etype, filetype)):
            if origin % filetype.extent in earlier:
                yield group * len(etype.widths)
            earlier.add(origin % filetype.extent)


class EtypeExtent(Rules):
    """E for F"""

    seen_by = ACCEPTS | REFUSES

    def clash_step(self, etype, filetype):
        return etype.extent


class Span(Rules):
    """the way from the filetype's first byte to its end for F"""

    seen_by = ACCEPTS

    def clash_step(self, etype, filetype):
        return max(d + w for w, d in filetype.entries()) - filetype.displacements[0]


class EndForF(Rules):
    """the end of the filetype's last entry for F"""

    seen_by = ACCEPTS

    def clash_step(self, etype, filetype):
        return filetype.displacements[-1] + filetype.widths[-1]


# The old rule, and where the new one holds

class OldRule(Rules):
    """the old rule is kept: P12 is refused"""

    seen_by = REFUSES

    def clashing_entries(self, etype, filetype):
        return old_rule.named_entries(filetype)


class OldTiles(Rules):
    """the old rule of tiles is kept beside the new one"""

    seen_by = REFUSES

    def clashing_entries(self, etype, filetype):
        yield from super().clashing_entries(etype, filetype)
        if old_rule.tiles_overlap(filetype):
            yield len(filetype.widths) - 1


class OldRuleInCheckOne(Rules):
    """check 1 keeps the old rule"""

    seen_by = GRANTED

    def handle_allowed(self, handle):
        return super().handle_allowed(handle) and not old_rule.is_interlaced(handle)


class OldRuleInSet(Rules):
    """a set keeps the old rule, check 1 has the new one"""

    seen_by = {(SET, 0)}

    def set(self, handle, displacement, etype, filetype, representation):
        answer = super().set(handle, displacement, etype, filetype, representation)
        if answer.refusal or not old_rule.is_interlaced(answer.handle):
            return answer
        return Answer(handle, 10, numbers=(FILETYPE, old_rule.named_entries(filetype)[0]))


class NoRuleInCheckOne(Rules):
    """check 1 asks for no rule for writing"""

    seen_by = CHECK_1

    def handle_allowed(self, handle):
        return super().handle_allowed(handle) or handle.mode in WRITING and super().handle_allowed(replace(handle, mode=1))


class ModeOneToo(Rules):
    """the new rule for reading too"""

    seen_by = {(tag, 0) for tag in (36, 37, 38, 39, 40, 41, 42)}

    def view_fault(self, mode, *given):
        return super().view_fault(3, *given)


class ModeTwoLeftOut(Rules):
    """the rule in mode 3 alone"""

    seen_by = ACCEPTS

    def view_fault(self, mode, *given):
        return super().view_fault(1 if mode == 2 else mode, *given)


class OrderDropped(Rules):
    """7 is not asked for writing, as places no longer rise"""

    seen_by = CHECK_1 | {(SET, 7)}

    def view_fault(self, mode, displacement, etype, filetype):
        fault = super().view_fault(mode, displacement, etype, filetype)
        if fault is None or fault.refusal != 7 or mode not in WRITING:
            return fault
        found = [*self.built_faults(etype, filetype), *self.hole_faults(etype, filetype), *self.clash_faults(etype, filetype)]
        return found[0] if found else None


class OrderIsTen(Rules):
    """a filetype that is not ordered gets 10 for writing"""

    seen_by = {(SET, 7)}

    def view_fault(self, mode, *given):
        fault = super().view_fault(mode, *given)
        unordered = fault is not None and (fault.refusal, fault.type) == (7, FILETYPE)
        return replace(fault, refusal=10) if unordered and mode in WRITING else fault


class HolesDropped(Rules):
    """9 is not asked where tiles interlace"""

    seen_by = {(SET, 9)}

    def hole_faults(self, etype, filetype):
        return [] if old_rule.tiles_overlap(filetype) else super().hole_faults(etype, filetype)


# Which entry is named

class Named(Rules):
    """10 names another entry; the base of the classes below"""

    def named(self, etype, filetype, clashing):
        return clashing[0]

    def clash_faults(self, etype, filetype):
        clashing = list(self.clashing_entries(etype, filetype))
        return [Fault(10, FILETYPE, self.named(etype, filetype, clashing))] if clashing else []


class LastClash(Named):
    """10 names the last entry that clashes"""

    seen_by = {(SET, 10)}

    def named(self, etype, filetype, clashing):
        return clashing[-1]


class LastEntry(Named):
    """10 names the last entry of the filetype"""

    seen_by = {(SET, 10)}

    def named(self, etype, filetype, clashing):
        return len(filetype.widths) - 1


class OldPlaces(Named):
    """10 names the entries of order 1: of neighbours that overlap the later one, else the last of all"""

    seen_by = {(SET, 10)}

    def named(self, etype, filetype, clashing):
        return (old_rule.overlapping_neighbours(filetype) + [len(filetype.widths) - 1])[0]


class EarlierOfTheTwo(Named):
    """10 names, of the entry that clashes first and the one it clashes with, the earlier"""

    seen_by = {(SET, 10)}

    def named(self, etype, filetype, clashing):
        found = self.remainders(etype, filetype)
        return next(entry for entry, own in enumerate(found) if set(own) & set(found[clashing[0]]))


class ClashesWithALater(Named):
    """10 names the first entry that has a byte clashing with itself or a later one"""

    seen_by = {(SET, 10)}

    def named(self, etype, filetype, clashing):
        found = self.remainders(etype, filetype)
        return next(entry for entry, own in enumerate(found)
                    if len(set(own)) < len(own) or set(own) & {one for rest in found[entry + 1:] for one in rest})


class OthersFirst(Named):
    """10 names an entry that clashes with an earlier one before one that clashes with itself"""

    seen_by = {(SET, 10)}

    def named(self, etype, filetype, clashing):
        found = self.remainders(etype, filetype)
        others = [entry for entry in clashing if set(found[entry]) & {one for rest in found[:entry] for one in rest}]
        return (others or clashing)[0]


class OwnFirst(Named):
    """10 names an entry that clashes with itself before one that clashes with an earlier one"""

    seen_by = {(SET, 10)}

    def named(self, etype, filetype, clashing):
        own = [entry for entry, one in enumerate(self.remainders(etype, filetype)) if len(set(one)) < len(one)]
        return (own or clashing)[0]


class InstanceNamed(Named):
    """10 names the number of the instance"""

    seen_by = {(SET, 10)}

    def named(self, etype, filetype, clashing):
        return clashing[0] // len(etype.widths)


class FirstOfTheGroup(Named):
    """10 names the first entry of the group"""

    seen_by = {(SET, 10)}

    def named(self, etype, filetype, clashing):
        return clashing[0] - clashing[0] % len(etype.widths)


# The highest byte of a write

class SizeOfTheLastEtype(Rules):
    """the new size is the end of the last etype's data"""

    seen_by = {(WRITE_AT, 0), (WRITE_HERE, 0)}

    def write_at(self, handle, file, offset, count, buffer):
        answer = super().write_at(handle, file, offset, count, buffer)
        if answer.refusal or count == 0:
            return answer
        stop = max(self.data_places(handle.view, offset + count - 1)) + 1
        return replace(answer, file=replace(answer.file, size=max(file.size, stop)))


class SizeOfTheFirstEtype(Rules):
    """the new size is the end of the first or of the last etype's data"""

    seen_by = {(WRITE_AT, 0)}

    def write_at(self, handle, file, offset, count, buffer):
        answer = super().write_at(handle, file, offset, count, buffer)
        if answer.refusal or count == 0:
            return answer
        ends = [max(self.data_places(handle.view, o)) + 1 for o in (offset, offset + count - 1)]
        return replace(answer, file=replace(answer.file, size=max(file.size, *ends)))


class SizeOfTheLastByte(Rules):
    """the new size is the end of the last data byte, also of a write that does not end highest"""

    seen_by = {(WRITE_AT, 0), (WRITE_HERE, 0)}

    def new_size(self, file, places):
        return max([file.size] + [place + 1 for place in places[-1:]])


class PastLength(Rules):
    """check 14 by another byte than the highest; the base of the classes below. What would lie past the file is not stored."""

    def judged(self, view, offset, count):
        return self.mapped(view, offset, count)

    def write_at(self, handle, file, offset, count, buffer):
        answer = super().write_at(handle, file, offset, count, buffer)
        if answer.refusal != 14 or any(place >= len(file.data) for place in self.judged(handle.view, offset, count)):
            return answer
        return Answer(handle, count=count, file=self.written(file, self.mapped(handle.view, offset, count), buffer))


class LastEtypeFor14(PastLength):
    """check 14 by the last etype"""

    seen_by = {(WRITE_AT, 14), (WRITE_HERE, 14)}

    def judged(self, view, offset, count):
        return self.data_places(view, offset + count - 1)


class FirstAndLastEtypeFor14(PastLength):
    """check 14 by the first and the last etype"""

    seen_by = {(WRITE_AT, 14)}

    def judged(self, view, offset, count):
        return self.data_places(view, offset) + self.data_places(view, offset + count - 1)


class TileEndFor14(Rules):
    """check 14 by the last entry of the last etype's tile, also where the write does not reach it"""

    seen_by = {(WRITE_AT, 0), (WRITE_HERE, 0)}

    def write_at(self, handle, file, offset, count, buffer):
        answer = super().write_at(handle, file, offset, count, buffer)
        if answer.refusal or count == 0:
            return answer
        k = handle.view.instances
        highest = max(self.data_places(handle.view, (offset + count - 1) // k * k + k - 1))
        return Answer(handle, 14) if highest >= len(file.data) else answer


class GapsAsItGoes(Rules):
    """a write that clears, past the old size, what lies between the end of each etype and the begin of the next"""

    seen_by = {(WRITE_AT, 0)}

    def write_at(self, handle, file, offset, count, buffer):
        answer = super().write_at(handle, file, offset, count, buffer)
        if answer.refusal or count < 2:
            return answer
        data = bytearray(answer.file.data)
        etypes = [self.data_places(handle.view, o) for o in range(offset, offset + count)]
        size, stop = self.etype_size(handle.view), file.size
        for index, places in enumerate(etypes):
            for byte in range(max(stop, file.size), min(places)):
                data[byte] = 0
            for place, byte in zip(places, buffer[index * size:]):
                data[place] = byte
            stop = max(places) + 1
        return replace(answer, file=replace(answer.file, data=bytes(data)))


class GapUpToTheLastEtype(Rules):
    """a write that clears up to the begin of its last etype only"""

    seen_by = {(WRITE_AT, 0)}

    def cleared(self, file, size, places):
        return range(file.size, places[-1] if places else 0)


# Lookups, ends and reads

class OwnTile(Rules):
    """a reverse lookup that searches the tile of the byte alone"""

    seen_by = {(REVERSE, 0)}

    def tiles(self, tile):
        return (tile,)

    def pairs(self, view, byte):
        tiles = self.tiles((byte - view.displacement) // view.filetype_extent)
        return [(offset, index) for offset, index in super().pairs(view, byte) if offset // view.instances in tiles]


class TwoTilesOfALookup(OwnTile):
    """a reverse lookup that searches the tile of the byte and the one before"""

    def tiles(self, tile):
        return tile, tile - 1


class LookupAmongRising(Rules):
    """a reverse lookup that takes the last instance whose begin modulo F is not past the byte's"""

    seen_by = {(REVERSE, 0)}

    def pairs(self, view, byte):
        rest = (byte - view.displacement) % view.filetype_extent
        below = [instance for instance, origin in enumerate(view.used_origins()) if origin <= rest]
        return [pair for pair in super().pairs(view, byte) if below and pair[0] % view.instances == below[-1]]


class Rising(Rules):
    """what holds where places rise, in views accepted for writing; the base of the classes below"""

    def is_for_writing(self, view):
        return self.view_fault(3, view.displacement, view.etype(), view.filetype()) is None

    def number_below(self, view, size):
        return sum(-(-max(0, size - view.displacement - origin) // view.filetype_extent) for origin in view.used_origins())

    def first_past(self, view, size):
        offset = 0
        while self.place(view, offset) < size:
            offset += 1
        return offset

    def other_end(self, view, size):
        return super().end_of_file(view, size)

    def end_of_file(self, view, size):
        return self.other_end(view, size) if self.is_for_writing(view) else super().end_of_file(view, size)


class BisectingForWriting(Rising):
    """the end of file of a view accepted for writing by bisecting"""

    seen_by = {(END, 0), (SEEK, 0)}

    def other_end(self, view, size):
        low, high = 0, 2**47 - 1
        while low < high:
            middle = (low + high) // 2
            low, high = (middle + 1, high) if self.place(view, middle) < size else (low, middle)
        return low


class FirstPast(Rising):
    """the end of file of a view accepted for writing is the first offset that does not begin below the size"""

    seen_by = {(END, 0), (SEEK, 0)}

    def other_end(self, view, size):
        return self.first_past(view, size)


class NumberBelow(Rising):
    """the end of file of a view accepted for writing is the number of etypes that begin below the size"""

    seen_by = {(END, 0), (SEEK, 0)}

    def other_end(self, view, size):
        return self.number_below(view, size)


class ReadByAnother(Rules):
    """a read that moves another number of etypes; the base of the classes below"""

    def moved(self, file, etypes):
        return len(etypes)

    def read_at(self, handle, file, offset, count, buffer):
        if self.access_refusal(handle, file, READING, offset, count, buffer):
            return super().read_at(handle, file, offset, count, buffer)
        etypes = [self.data_places(handle.view, o) for o in range(offset, offset + min(count, len(buffer)))]
        moved = self.moved(file, etypes)
        places = [place for one in etypes[:moved] for place in one]
        buffer[:len(places)] = [file.data[place] if place < len(file.data) else 0 for place in places]
        return Answer(handle, count=moved)


class ReadUpToTheLastFitting(ReadByAnother):
    """a read that moves all etypes up to the last one that lies below the size"""

    seen_by = {(READ_AT, 0), (READ_HERE, 0)}

    def moved(self, file, etypes):
        return max((index + 1 for index, places in enumerate(etypes) if self.in_file(file, places)), default=0)


class ReadTheNumberFitting(ReadByAnother):
    """a read that moves as many etypes as lie below the size"""

    seen_by = {(READ_AT, 0), (READ_HERE, 0)}

    def moved(self, file, etypes):
        return sum(self.in_file(file, places) for places in etypes)


class ReadAllIfTheLastFits(ReadByAnother):
    """a read that moves all etypes if the last one lies below the size"""

    seen_by = {(READ_AT, 0), (READ_HERE, 0)}

    def moved(self, file, etypes):
        short = [index for index, places in enumerate(etypes) if not self.in_file(file, places)]
        return len(etypes) if not short or self.in_file(file, etypes[-1]) else short[0]


INTERLACED_MISREADINGS = tuple(found for found in list(globals().values())
                               if isinstance(found, type) and issubclass(found, Rules) and hasattr(found, "seen_by"))
