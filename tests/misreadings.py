"""Misreadings of document 02's order 1, each as a wrong copy of the model. `mutants` shows that the rows of the fixed script see them.

Each class has the refusals that its rows state: of each there must be a row whose line the misreading makes wrong.
"""

from dataclasses import replace

from model import ETYPE, FILETYPE, LAST_BYTE, WIDTHS, Fault, Rules, Type

NAMING = {6, 7, 9, 10, 18, 19}  # the refusals that name a type and an entry


# 6 and 7

class WidthsFirst(Rules):
    """6: all widths of a type before any displacement"""

    seen_by = {6}

    def entry_faults(self, etype, filetype):
        widths = {ETYPE: etype.widths, FILETYPE: filetype.widths}
        return sorted(super().entry_faults(etype, filetype), key=lambda fault: (fault.type, widths[fault.type][fault.entry] in WIDTHS))


class DisplacementsFirst(Rules):
    """6: all displacements of a type before any width"""

    seen_by = {6}

    def entry_faults(self, etype, filetype):
        widths = {ETYPE: etype.widths, FILETYPE: filetype.widths}
        return sorted(super().entry_faults(etype, filetype), key=lambda fault: (fault.type, widths[fault.type][fault.entry] not in WIDTHS))


class FiletypeNamedFor6(Rules):
    """6: the filetype is named though both types break it"""

    seen_by = {6}

    def entry_faults(self, etype, filetype):
        return sorted(super().entry_faults(etype, filetype), key=lambda fault: -fault.type)


class FiletypeNamedFor7(Rules):
    """7: the filetype is named though both types break it"""

    seen_by = {7}

    def order_faults(self, etype, filetype):
        return sorted(super().order_faults(etype, filetype), key=lambda fault: -fault.type)


class LowerEntryFor6(Rules):
    """6: of both types the one with the lower entry is named"""

    seen_by = {6}

    def entry_faults(self, etype, filetype):
        return sorted(super().entry_faults(etype, filetype), key=lambda fault: fault.entry)


class LowerEntryFor7(Rules):
    """7: of both types the one with the lower entry is named"""

    seen_by = {7}

    def order_faults(self, etype, filetype):
        return sorted(super().order_faults(etype, filetype), key=lambda fault: fault.entry)


class TypeByType(Rules):
    """6 and 7 of the etype before 6 of the filetype"""

    seen_by = {6}

    def entry_faults(self, etype, filetype):
        found = [*super().entry_faults(etype, filetype), *super().order_faults(etype, filetype)]
        return sorted(found, key=lambda fault: fault.type)


class EarlierFor7(Rules):
    """7: the earlier of the two entries"""

    seen_by = {7}

    def order_faults(self, etype, filetype):
        return [replace(fault, entry=fault.entry - 1) for fault in super().order_faults(etype, filetype)]


# 17 to 19

class Eight(Rules):
    """8 still given for 17, 18 and 19"""

    seen_by = {17, 18, 19}

    def built_faults(self, etype, filetype):
        return [replace(fault, refusal=8) for fault in super().built_faults(etype, filetype)]


class EightAlone(Rules):
    """8 still given for 17, 18 and 19, with no type and no entry"""

    seen_by = {17, 18, 19}

    def built_faults(self, etype, filetype):
        return [Fault(8) for _ in super().built_faults(etype, filetype)]


class SeventeenNamesTheLast(Rules):
    """17 names the last entry of the filetype"""

    seen_by = {17}

    def built_faults(self, etype, filetype):
        for fault in super().built_faults(etype, filetype):
            yield Fault(17, FILETYPE, len(filetype.widths) - 1) if fault.refusal == 17 else fault


class SeventeenNamesTheGroup(Rules):
    """17 names the first entry of the group that is not whole"""

    seen_by = {17}

    def built_faults(self, etype, filetype):
        n, entries = len(etype.widths), len(filetype.widths)
        for fault in super().built_faults(etype, filetype):
            yield Fault(17, FILETYPE, entries - entries % n) if fault.refusal == 17 else fault


class SeventeenNamesTheType(Rules):
    """17 names the filetype"""

    seen_by = {17}

    def built_faults(self, etype, filetype):
        for fault in super().built_faults(etype, filetype):
            yield Fault(17, FILETYPE) if fault.refusal == 17 else fault


class CountAfterTheGroups(Rules):
    """17 after 18 and 19 of the whole groups"""

    seen_by = {17}

    def built_faults(self, etype, filetype):
        whole = len(filetype.widths) - len(filetype.widths) % len(etype.widths)
        yield from super().built_faults(etype, Type(filetype.widths[:whole], filetype.displacements[:whole], filetype.extent))
        if whole != len(filetype.widths):
            yield Fault(17)


class CountWithTheCounts(Rules):
    """17 right after 4"""

    seen_by = {5, 6, 7}

    def view_fault(self, mode, displacement, etype, filetype):
        fault = super().view_fault(mode, displacement, etype, filetype)
        late = fault is not None and fault.refusal in (5, 6, 7)
        return Fault(17) if late and len(filetype.widths) % len(etype.widths) != 0 else fault


class BelowFirst(Rules):
    """19 before 18 in a group"""

    seen_by = {18}

    def built_faults(self, etype, filetype):
        n = len(etype.widths)
        return sorted(super().built_faults(etype, filetype), key=lambda fault: (fault.entry // n, -fault.refusal))


class AllGroupsFor18(Rules):
    """18 of all groups before 19 of any"""

    seen_by = {19}

    def built_faults(self, etype, filetype):
        return sorted(super().built_faults(etype, filetype), key=lambda fault: fault.refusal)


class AllGroupsFor19(Rules):
    """19 of all groups before 18 of any"""

    seen_by = {18}

    def built_faults(self, etype, filetype):
        return sorted(super().built_faults(etype, filetype), key=lambda fault: -fault.refusal)


class ShiftCut(Rules):
    """an origin below 0 taken for 0, so that its group differs"""

    seen_by = {19}

    def origins(self, etype, filetype):
        return tuple(max(0, origin) for origin in super().origins(etype, filetype))


class ShiftsOfOneGroup(Rules):
    """18 by the shifts as this class takes them; the base of the two below"""

    def taken(self, shift):
        return shift

    def built_faults(self, etype, filetype):
        n, origins = len(etype.widths), self.origins(etype, filetype)
        for fault in super().built_faults(etype, filetype):
            index, group = fault.entry % n, fault.entry // n
            shift = filetype.displacements[fault.entry] - etype.displacements[index]
            same = filetype.widths[fault.entry] == etype.widths[index] and self.taken(shift) == self.taken(origins[group])
            if not (fault.refusal == 18 and same):
                yield fault


class EachShiftCut(ShiftsOfOneGroup):
    """18: shifts below 0 taken for 0, each by itself"""

    seen_by = {18}

    def taken(self, shift):
        return max(0, shift)


class ShiftWithoutSign(ShiftsOfOneGroup):
    """18: shifts compared without their signs"""

    seen_by = {18}

    def taken(self, shift):
        return abs(shift)


class FirstOfTheGroupFor18(Rules):
    """18: the group's first entry for the one that differs"""

    seen_by = {18}

    def built_faults(self, etype, filetype):
        n = len(etype.widths)
        return [replace(fault, entry=fault.entry - fault.entry % n) for fault in super().built_faults(etype, filetype)]


class EntryOfTheEtypeFor18(Rules):
    """18: the number of the entry in its group"""

    seen_by = {18}

    def built_faults(self, etype, filetype):
        n = len(etype.widths)
        return [replace(fault, entry=fault.entry % n) for fault in super().built_faults(etype, filetype)]


class WidthsOfAGroupFirst(Rules):
    """18: all widths of a group before any of its displacements"""

    seen_by = {18}

    def built_faults(self, etype, filetype):
        n = len(etype.widths)

        def turn(fault):
            same_width = filetype.widths[fault.entry] == etype.widths[fault.entry % n]
            return fault.entry // n, fault.refusal, same_width

        return sorted(super().built_faults(etype, filetype), key=turn)


class WidthsOfAllGroupsFirst(Rules):
    """18: all widths of the filetype before any displacement"""

    seen_by = {18}

    def built_faults(self, etype, filetype):
        n = len(etype.widths)

        def turn(fault):
            return fault.refusal == 18 and filetype.widths[fault.entry] == etype.widths[fault.entry % n]

        return sorted(super().built_faults(etype, filetype), key=turn)


class BelowAfterTheHoles(Rules):
    """19 after 9"""

    seen_by = {19}

    def built_faults(self, etype, filetype):
        found = list(super().built_faults(etype, filetype))
        if found and found[0].refusal == 19:
            return [*super().hole_faults(etype, filetype), *found]
        return found


# 9

class InstanceFor9(Rules):
    """9: the hole before instance i names entry i, not i·n"""

    seen_by = {9}

    def holes(self, n, origins, etype_extent, filetype_extent):
        found = super().holes(n, origins, etype_extent, filetype_extent)
        return [(hole, entry // n if entry % n == 0 else entry) for hole, entry in found]


class EntryBeforeTheHole(Rules):
    """9: a hole names the last entry of the group before it"""

    seen_by = {9}

    def holes(self, n, origins, etype_extent, filetype_extent):
        found = super().holes(n, origins, etype_extent, filetype_extent)
        return [(hole, max(0, entry - 1) if entry % n == 0 else entry) for hole, entry in found]


class FinalHole(Rules):
    """a final hole names another entry; the base of the three below"""

    def final_entry(self, n, instances):
        return n * instances - 1

    def holes(self, n, origins, etype_extent, filetype_extent):
        found = super().holes(n, origins, etype_extent, filetype_extent)
        if filetype_extent - origins[-1] - etype_extent > 0:
            found[-1] = found[-1][0], self.final_entry(n, len(origins))
        return found


class LastGroupFor9(FinalHole):
    """9: a final hole names the first entry of the last group"""

    seen_by = {9}

    def final_entry(self, n, instances):
        return n * (instances - 1)


class PastTheLastFor9(FinalHole):
    """9: a final hole names the entry after the last"""

    seen_by = {9}

    def final_entry(self, n, instances):
        return n * instances


class FirstEntryFor9(FinalHole):
    """9: a final hole names entry 0, the first one of the next tile"""

    seen_by = {9}

    def final_entry(self, n, instances):
        return 0


# All

class LastFault(Rules):
    """the last entry that breaks the rule, not the first"""

    seen_by = {6, 7, 9, 10, 18}

    def last(self, faults):
        found = list(faults)
        return [fault for fault in found if (fault.refusal, fault.type) == (found[0].refusal, found[0].type)][-1:]

    def entry_faults(self, etype, filetype):
        return self.last(super().entry_faults(etype, filetype))

    def order_faults(self, etype, filetype):
        return self.last(super().order_faults(etype, filetype))

    def built_faults(self, etype, filetype):
        return self.last(super().built_faults(etype, filetype))

    def hole_faults(self, etype, filetype):
        return self.last(super().hole_faults(etype, filetype))

    def clash_faults(self, etype, filetype):
        return self.last(super().clash_faults(etype, filetype))


class EntriesFromOne(Rules):
    """entries counted from 1"""

    seen_by = NAMING

    def view_fault(self, *given):
        fault = super().view_fault(*given)
        return replace(fault, entry=fault.entry + 1) if fault and fault.type else fault


class TypesFromZero(Rules):
    """the etype told as 0, the filetype as 1"""

    seen_by = NAMING

    def view_fault(self, *given):
        fault = super().view_fault(*given)
        return replace(fault, type=fault.type - 1) if fault and fault.type else fault


class TypeNotTold(Rules):
    """an entry without its type"""

    seen_by = NAMING

    def view_fault(self, *given):
        fault = super().view_fault(*given)
        return replace(fault, type=0) if fault else fault


class EntryNotTold(Rules):
    """a type without its entry"""

    seen_by = NAMING - {19}  # 19 names entry 0 alone

    def view_fault(self, *given):
        fault = super().view_fault(*given)
        return replace(fault, entry=0) if fault else fault


class EtypeForTheFiletype(Rules):
    """9, 10, 18 and 19 name the etype"""

    seen_by = {9, 10, 18, 19}

    def view_fault(self, *given):
        fault = super().view_fault(*given)
        return replace(fault, type=ETYPE) if fault and fault.refusal in self.seen_by else fault


class TypeOfCountsAndExtents(Rules):
    """4 and 5 name the type"""

    seen_by = {4, 5}

    def view_fault(self, mode, displacement, etype, filetype):
        fault = super().view_fault(mode, displacement, etype, filetype)
        if fault is None or fault.refusal not in (4, 5):
            return fault
        good = len(etype.widths) == len(etype.displacements) if fault.refusal == 4 else 1 <= etype.extent <= LAST_BYTE
        return replace(fault, type=FILETYPE if good else ETYPE)


class CheckOneNames(Rules):
    """a set refused with 1 names what its handle's own view breaks"""

    seen_by = {1}

    def set(self, handle, *given):
        answer, view = super().set(handle, *given), handle.view
        if answer.refusal != 1 or not self.counts_allowed(view.entries, view.entries * view.instances):
            return answer
        fault = self.view_fault(handle.mode, view.displacement, view.etype(), view.filetype())
        return replace(answer, numbers=(fault.type, fault.entry)) if fault else answer


MISREADINGS = tuple(found for found in list(globals().values())
                    if isinstance(found, type) and issubclass(found, Rules) and hasattr(found, "seen_by"))
