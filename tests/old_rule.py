"""The rule for writing as it was before document 02's order 3: for counts, and for the misreadings that keep it."""

from functools import lru_cache

from model import WRITING


def overlapping_neighbours(filetype):
    """The entries that begin before the one before them ends."""
    entries = filetype.entries()
    return [entry for entry, ((w, d), (_, following)) in enumerate(zip(entries, entries[1:]), 1) if d + w > following]


def tiles_overlap(filetype):
    """True if the last entry ends after the first one of the next tile begins."""
    return filetype.displacements[-1] + filetype.widths[-1] > filetype.displacements[0] + filetype.extent


def named_entries(filetype):
    """The entries that the old rule named with 10: of neighbours the later one, for tiles the last of all."""
    return overlapping_neighbours(filetype) + [len(filetype.widths) - 1] * tiles_overlap(filetype)


@lru_cache(maxsize=256)
def is_refused(view):
    return bool(named_entries(view.filetype()))


def is_interlaced(handle):
    """True if the old rule refused the view of this handle, which keeps check 1, for writing."""
    return handle.mode in WRITING and is_refused(handle.view)
