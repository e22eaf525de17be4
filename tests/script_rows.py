"""What the rows of the fixed script are made with: each is a record with what the papers say of its line."""

from dataclasses import dataclass

from model import checksum, file_bytes
from scripts import (Shape, end, file_record, fill_up, give_back, open_handle, place, read_at, read_here, reverse, seek, set_view, words,
                     write_at, write_here)

SET, RECIPE, SET_FROM_RECIPES = 36, 46, 47  # tags
NAMING = {SET: ("a", "b"), SET_FROM_RECIPES: ("a", "b"), RECIPE: ("a", "b", "c", "d")}  # what every row of such a record states
BYTES = Shape((1,), (0,), 1, (0,), 1)  # the default view


def made(seed, count):
    """The first bytes of a file, or of a write's buffer, of this seed."""
    return file_bytes(count, seed)


def handle_sum(mode, shape):
    """The line's checksum of a handle of this mode and view, with 0 in the unused places."""
    return checksum((mode, shape.displacement, len(shape.widths), *fill_up(shape.widths, 8, 0), *fill_up(shape.displacements, 8, 0),
                     shape.etype_extent, len(shape.origins), *fill_up(shape.origins, 64, 0), shape.filetype_extent))


@dataclass(frozen=True)
class Row:
    section: str
    record: bytes
    expected: dict  # numbers of the line by name


class Script:
    def __init__(self):
        self.rows, self.section = [], ""

    def add(self, record, refusal=0, **expected):
        """A row of a set states the type and the entry that it names, one of a recipe the entry count, the extent and the step at fault;
        each is 0 unless it is given."""
        named = {name: 0 for name in NAMING.get(record[0], ())}
        self.rows.append(Row(self.section, record, {"refusal": refusal, **named, **expected}))

    def open(self, slot, mode):
        self.add(open_handle(slot, mode), pointer=0, view=handle_sum(mode or 3, BYTES))

    def set(self, slot, request, refusal=0, kind=0, entry=0, **expected):
        """A set that names this type and entry, if it is refused and names any."""
        if isinstance(request, Shape):
            request = request.request()
        self.add(set_view(slot, request), refusal, a=kind, b=entry, **expected)

    def places(self, slot, expected):
        for offset, byte in enumerate(expected):
            self.add(place(slot, offset), a=byte)

    def ends(self, slot, file, expected):
        for size, offset in expected:
            self.add(file_record(file, size))
            self.add(end(slot, file), a=offset)

    def owner(self, slot, byte, pair=None):
        """The lookup of a byte that has this pair of offset and index, or none."""
        a, b, c = (1, *pair) if pair else (0, 0, 0)
        self.add(reverse(slot, byte), count=0, a=a, b=b, c=c)

    def owners(self, slot, last, etypes):
        """Lookups of the bytes 0 to last. `etypes` has the file bytes of the offsets 0, 1 and so on; the other bytes have no pair."""
        pairs = {byte: (offset, index) for offset, places in enumerate(etypes) for index, byte in enumerate(places)}
        for byte in range(last + 1):
            self.owner(slot, byte, pairs.get(byte))

    def write(self, record, moved, size, content):
        """A granted write to file 0, with the file's size and all its bytes after it."""
        self.add(record, count=moved, size0=size, sum0=checksum(content))


READ_ONLY, WRITE_ONLY = (0, 0, 11, 11, 11), (11, 11, 0, 0, 0)


def every_call(s, slot, file, refusal=0, access=(0,) * 5, count=1):
    """Each call that tests the handle, the set last. `access` has the refusals of both reads, both writes and the reverse lookup."""
    if refusal:
        access = (refusal,) * 5
    s.add(give_back(slot, (9, 8, 256, 257), 11), refusal)
    s.add(place(slot, 1), refusal)
    s.add(end(slot, file), refusal)
    s.add(seek(slot, file, 0, 1), refusal)
    s.add(read_at(slot, file, 0, count, 64), access[0])
    s.add(read_here(slot, file, count, 64), access[1])
    s.add(write_at(slot, file, 0, count, 64), access[2])
    s.add(write_here(slot, file, count, 64), access[3])
    s.add(reverse(slot, 1), access[4])
    s.set(slot, words((4,), 12), refusal)
