"""Sets that name a type and an entry, by document 02's orders 1 and 3: rows of the fixed script, each with refusal, type and entry.

What they state is written here by hand; the model has no part in it.
"""

from dataclasses import replace

from scripts import Request, Shape, in_a_row, one_changed, words

MEGA = 1_048_576
ETYPE, FILETYPE = 1, 2  # how a set's line names a type


def spread(n, instances):
    """This many instances in a row of an etype of n bytes at 2, 4 and so on. The filetype's entry i is at 2i + 2."""
    return Shape((1,) * n, tuple(range(2, 2 * n + 2, 2)), 2 * n, tuple(range(0, 2 * n * instances, 2 * n)), 2 * n * instances)


def changed(request, **lists):
    """The request with other numbers in some of its lists, each given by its entry."""
    for name, numbers in lists.items():
        for entry, number in numbers.items():
            request = replace(request, **{name: one_changed(getattr(request, name), entry, number)})
    return request


def named_for_6():
    """Each entry by its width and by its displacement; one type, and both; several entries."""
    eight, most, bytes_64 = spread(8, 3).request(), spread(8, 32).request(), spread(1, 64).request()
    bad = {"widths": (3, 0), "displacements": (-1, MEGA)}
    for request, kind, name, entries in [(eight, ETYPE, "etype", range(8)), (eight, FILETYPE, "filetype", (0, 1, 7, 8, 12, 22, 23)),
                                         (most, FILETYPE, "filetype", (128, 255)), (bytes_64, FILETYPE, "filetype", (0, 31, 63))]:
        for entry in entries:
            for which, numbers in bad.items():
                yield from ((changed(request, **{f"{name}_{which}": {entry: number}}), 6, kind, entry) for number in numbers)
    for etype_entry, filetype_entry in [(0, 0), (5, 2), (7, 0), (0, 23), (3, 3)]:
        for etype_list, filetype_list in [("widths", "widths"), ("displacements", "widths"), ("widths", "displacements")]:
            yield changed(eight, **{f"etype_{etype_list}": {etype_entry: bad[etype_list][0]},
                                    f"filetype_{filetype_list}": {filetype_entry: bad[filetype_list][0]}}), 6, ETYPE, etype_entry
    for kind, name in [(ETYPE, "etype"), (FILETYPE, "filetype")]:
        widths, displacements = f"{name}_widths", f"{name}_displacements"
        yield changed(eight, **{displacements: {0: -1}, widths: {1: 3}}), 6, kind, 0
        yield changed(eight, **{displacements: {1: -1}, widths: {0: 3}}), 6, kind, 0
        yield changed(eight, **{displacements: {4: MEGA}, widths: {6: 3, 7: 3}}), 6, kind, 4
        yield changed(eight, **{displacements: {6: MEGA, 7: MEGA}, widths: {4: 3}}), 6, kind, 4
        yield changed(eight, **{widths: {2: 3, 5: 0, 7: 16}}), 6, kind, 2
        yield changed(eight, **{displacements: {1: -1, 2: -2, 7: MEGA}}), 6, kind, 1
        yield replace(eight, **{widths: (3,) * len(getattr(eight, widths))}), 6, kind, 0


def named_for_7():
    """An entry begins one byte before the one before it; one type, and both; several entries."""
    eight, most, bytes_64 = spread(8, 3).request(), spread(8, 32).request(), spread(1, 64).request()
    for request, kind, name, entries in [(eight, ETYPE, "etype", range(1, 8)), (eight, FILETYPE, "filetype", (1, 2, 7, 8, 9, 12, 22, 23)),
                                         (most, FILETYPE, "filetype", (128, 255)), (bytes_64, FILETYPE, "filetype", (1, 31, 63))]:
        yield from ((changed(request, **{f"{name}_displacements": {entry: 2 * entry - 1}}), 7, kind, entry) for entry in entries)
    for etype_entry, filetype_entry in [(1, 1), (5, 2), (7, 1), (1, 23), (3, 3)]:
        yield changed(eight, etype_displacements={etype_entry: 2 * etype_entry - 1},
                      filetype_displacements={filetype_entry: 2 * filetype_entry - 1}), 7, ETYPE, etype_entry
    for kind, name in [(ETYPE, "etype_displacements"), (FILETYPE, "filetype_displacements")]:
        yield changed(eight, **{name: {2: 3, 5: 9, 7: 13}}), 7, kind, 2
        yield changed(eight, **{name: {3: 5, 4: 6, 5: 7}}), 7, kind, 3  # 5, 6 and 7 are below 6 and 8, but in order
        yield replace(eight, **{name: getattr(eight, name)[::-1]}), 7, kind, 1
    yield replace(eight, etype_displacements=eight.etype_displacements[::-1],
                  filetype_displacements=eight.filetype_displacements[::-1]), 7, ETYPE, 1


def cut_to(request, entries):
    """The request with the first entries of its filetype alone."""
    return replace(request, filetype_widths=request.filetype_widths[:entries],
                   filetype_displacements=request.filetype_displacements[:entries])


def named_for_17():
    """A group that is not whole. No type and no entry is named, whatever else is wrong with the groups, the holes or the overlap."""
    for n in range(2, 9):
        yield from ((cut_to(spread(n, 3).request(), entries), 17, 0, 0) for entries in sorted({1, n - 1, n + 1, 2 * n - 1, 3 * n - 1}))
    seven = cut_to(spread(2, 4).request(), 7)
    for lists in [{"filetype_widths": {0: 2}}, {"filetype_widths": {3: 2}}, {"filetype_widths": {6: 2}},
                  {"filetype_displacements": {1: 5}}, {"filetype_displacements": {0: 0, 1: 2}}, {"filetype_displacements": {0: 1}},
                  {"filetype_displacements": {5: 13, 6: 15}}, {"filetype_displacements": {2: 4}}]:
        yield changed(seven, **lists), 17, 0, 0
    yield replace(seven, filetype_extent=1), 17, 0, 0
    yield replace(seven, filetype_extent=17), 17, 0, 0
    yield replace(seven, filetype_extent=0), 5, 0, 0
    yield changed(seven, filetype_widths={6: 3}), 6, FILETYPE, 6
    yield changed(seven, etype_displacements={1: -1}), 6, ETYPE, 1
    yield changed(seven, filetype_displacements={6: 11}), 7, FILETYPE, 6
    yield changed(seven, etype_displacements={1: 1}), 7, ETYPE, 1


def named_for_18():
    """Each entry by its width, and by a shift that is not that of its group's first entry; several entries."""
    eight, most, bytes_64 = spread(8, 3).request(), spread(8, 32).request(), spread(1, 64).request()
    for request, entries in [(eight, (0, 1, 7, 8, 9, 12, 16, 22, 23)), (most, (0, 128, 255)), (bytes_64, (0, 31, 63))]:
        yield from ((changed(request, filetype_widths={entry: 2}), 18, FILETYPE, entry) for entry in entries)
    for request, entries in [(eight, (1, 4, 7, 9, 12, 22, 23)), (most, (1, 129, 255))]:
        for entry in entries:
            yield from ((changed(request, filetype_displacements={entry: 2 * entry + 2 + by}), 18, FILETYPE, entry) for by in (1, -1))
    for first in (0, 8, 16):  # a group's first entry moves, so the next one has another shift
        yield from ((changed(eight, filetype_displacements={first: 2 * first + 2 + by}), 18, FILETYPE, first + 1) for by in (1, 2))
    yield changed(eight, filetype_displacements={8: 17}), 18, FILETYPE, 9
    for entry in (0, 3, 7):  # the etype changes, so every group differs
        yield changed(eight, etype_widths={entry: 2}), 18, FILETYPE, entry
        yield changed(eight, etype_displacements={entry: 2 * entry + 3}), 18, FILETYPE, max(entry, 1)
    yield changed(eight, filetype_widths={9: 2, 12: 2, 20: 4}), 18, FILETYPE, 9
    yield changed(eight, filetype_displacements={2: 7, 4: 11, 23: 49}), 18, FILETYPE, 2
    for width, displacement, first in [(2, 4, 2), (4, 2, 2), (0, 2, 0), (8, 1, 1), (4, 9, 4), (23, 20, 20), (9, 10, 9), (10, 9, 9)]:
        yield (changed(eight, filetype_widths={width: 2}, filetype_displacements={displacement: 2 * displacement + 3}),
               18, FILETYPE, first)
    yield changed(eight, filetype_widths={1: 2}, filetype_displacements={8: 19}), 18, FILETYPE, 1
    yield changed(replace(eight, filetype_extent=1), filetype_widths={12: 2}), 18, FILETYPE, 12  # and an overlap with the next tile
    yield changed(replace(eight, filetype_extent=49), filetype_widths={12: 2}), 18, FILETYPE, 12  # and a final hole


def named_for_19():
    """An origin below 0, alone and with groups that differ. Shifts are signed."""
    for etype_at, filetype_at in [(1, 0), (4, 2), (MEGA - 1, 0), (MEGA - 1, MEGA - 2)]:
        yield Request(0, 4, 4, (1,), (etype_at,), (1,), (filetype_at,)), 19, FILETYPE, 0
        yield Request(0, 4, 4, (1,), (etype_at,), (2,), (filetype_at,)), 18, FILETYPE, 0
    two = Request(0, 8, 16, (4, 4), (4, 8), (4,) * 4, (2, 6, 10, 14))
    yield two, 19, FILETYPE, 0
    yield cut_to(two, 2), 19, FILETYPE, 0
    yield replace(two, filetype_displacements=(3, 7, 12, 16)), 19, FILETYPE, 0
    yield Request(0, 2, 8, (1, 1), (9, 11), (1,) * 4, (2, 4, 5, 7)), 19, FILETYPE, 0  # both origins
    yield changed(two, filetype_widths={2: 2}), 19, FILETYPE, 0
    yield changed(two, filetype_widths={3: 2}), 19, FILETYPE, 0
    yield changed(two, filetype_displacements={3: 15}), 19, FILETYPE, 0
    yield changed(two, filetype_displacements={2: 11}), 19, FILETYPE, 0
    yield changed(two, filetype_widths={0: 2}), 18, FILETYPE, 0
    yield changed(two, filetype_widths={1: 2}), 18, FILETYPE, 1
    yield changed(two, filetype_displacements={0: 3}), 18, FILETYPE, 1  # shifts -1 and -2
    yield changed(two, filetype_displacements={1: 10}), 18, FILETYPE, 1  # shifts -2 and 2
    yield changed(two, filetype_displacements={0: 4}), 18, FILETYPE, 1  # shifts 0 and -2
    yield changed(two, filetype_displacements={1: 8}), 18, FILETYPE, 1  # shifts -2 and 0
    yield changed(two, filetype_widths={1: 2, 2: 2}), 18, FILETYPE, 1
    good = replace(two, filetype_displacements=(4, 8, 12, 16))
    yield changed(good, filetype_widths={2: 2}), 18, FILETYPE, 2
    yield changed(good, filetype_displacements={3: 17}), 18, FILETYPE, 3
    yield replace(good, filetype_displacements=(3, 7, 12, 16)), 19, FILETYPE, 0
    yield Request(0, 4, 8, (4,), (4,), (4, 4), (2, 9)), 19, FILETYPE, 0  # and a hole of 3
    yield Request(0, 4, 1, (4,), (4,), (4, 4), (2, 3)), 19, FILETYPE, 0  # and overlaps
    yield Request(0, 4, 8, (4,), (4,), (4, 4), (3, 2)), 7, FILETYPE, 1


def moved(shape, group, by):
    """The groups from this one on and the tile's end move; group K is the tile's end alone."""
    return replace(shape, origins=tuple(p + by * (i >= group) for i, p in enumerate(shape.origins)),
                   filetype_extent=shape.filetype_extent + by)


def named_for_9():
    """A hole of one byte more before each group, or at the tile's end; several holes."""
    for n, instances, groups in [(1, 1, (0,)), (1, 64, (0, 1, 31, 63)), (2, 3, (0, 1, 2)), (3, 1, (0,)), (4, 64, (0, 1, 32, 63)),
                                 (8, 3, (0, 1, 2)), (8, 32, (16, 31))]:
        shape = spread(n, instances)
        yield from ((moved(shape, group, 1), 9, FILETYPE, group * n) for group in groups)
        yield from ((moved(shape, instances, by), 9, FILETYPE, instances * n - 1) for by in (1, 2 * n - 1, 2 * n + 1))
    for n in (1, 2, 5):
        shape = spread(n, 6)
        for groups, entry in [((1, 3), n), ((0, 6), 0), ((3, 6), 3 * n), ((5, 6), 5 * n), (range(7), 0), ((2, 3, 4, 6), 2 * n)]:
            several = shape
            for group in groups:
                several = moved(several, group, 1)
            yield several, 9, FILETYPE, entry
        yield moved(moved(shape, 2, 2 * n), 4, 2 * n + 1), 9, FILETYPE, 4 * n  # a hole of E before
        yield moved(moved(shape, 0, 2 * n), 6, 1), 9, FILETYPE, 6 * n - 1
        yield moved(moved(shape, 2, -1), 4, 1), 9, FILETYPE, 4 * n  # groups nearer than E before
        yield moved(moved(shape, 2, -1), 6, 1), 9, FILETYPE, 6 * n - 1
        yield replace(moved(shape, 3, 1), filetype_extent=1), 9, FILETYPE, 3 * n  # and an overlap with the next tile


def named_for_10():
    """Bytes that clash in one tile, of two groups and of one group, and with the next tile; several entries. The first entry is named that
    has a byte clashing with itself or an earlier entry. `interlaced.py` has more of them."""
    for n, instances, groups in [(1, 2, (1,)), (1, 64, (1, 31, 63)), (2, 3, (1, 2)), (4, 64, (1, 32, 63)), (8, 3, (1, 2))]:
        shape = in_a_row(n, instances)
        yield from ((moved(shape, group, -1), 10, FILETYPE, group * n) for group in groups)
        yield moved(shape, instances, -1), 10, FILETYPE, instances * n - 1
        yield replace(shape, filetype_extent=1), 10, FILETYPE, 1
    yield from ((words((p,), 3), 10, FILETYPE, 0) for p in (0, 4))
    for n in (2, 8):
        yield moved(in_a_row(n, 1), 1, -1), 10, FILETYPE, n - 1
    for entry in (1, 4, 7):  # entries of one etype, so in each group
        near = tuple(i - (i >= entry) for i in range(8))
        for instances in (1, 3):
            shape = replace(in_a_row(8, instances), displacements=near)
            yield shape, 10, FILETYPE, entry
            yield replace(shape, filetype_extent=7), 10, FILETYPE, entry
            yield replace(shape, filetype_extent=1), 10, FILETYPE, 1
    for n in (1, 2, 5):
        shape = in_a_row(n, 6)
        yield moved(moved(shape, 1, -1), 3, -1), 10, FILETYPE, n
        yield moved(moved(shape, 3, -1), 6, -1), 10, FILETYPE, 3 * n
        yield replace(moved(shape, 4, -1), filetype_extent=4 * n), 10, FILETYPE, 4 * n
        yield replace(moved(shape, 4, -1), filetype_extent=3 * n), 10, FILETYPE, 3 * n  # the next tile before the neighbours
        yield replace(moved(shape, 4, -1), filetype_extent=1), 10, FILETYPE, 1
        yield moved(moved(moved(shape, 2, -1), 4, -1), 6, -1), 10, FILETYPE, 2 * n
    yield replace(in_a_row(5, 6), displacements=(3, 4, 5, 6, 7), filetype_extent=29), 10, FILETYPE, 29


NAMED = ((6, named_for_6, (3,)), (7, named_for_7, (3,)), (17, named_for_17, (3,)), (18, named_for_18, (3,)), (19, named_for_19, (1, 3)),
         (9, named_for_9, (1, 3)), (10, named_for_10, (2, 3)))
