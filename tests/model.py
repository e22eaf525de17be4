"""The second program: document 01's rules with document 02's orders 1, 3 and 4 in plain Python, and the lines of docs/conformance.md.

It is written from these papers alone, without a look at the library, and is to be read against them:
it is slow wherever that is plainer. `Rules` holds document 01 with these orders, order 4 by recipes.py, `Driver` the script, `run` makes
the lines.
"""

from dataclasses import dataclass, replace
from functools import lru_cache

from recipes import Recipes, signed

ETYPE_PLACES = 8
ORIGIN_PLACES = 64
WIDTHS = (1, 2, 4, 8)
MOST_ENTRIES = 256
LAST_BYTE = 1_048_576
MOST_DISPLACEMENT = 2**40
MOST_LENGTH = 2**40
OFFSETS = 2**32  # offsets are 0 to OFFSETS - 1, pointers 0 to OFFSETS
READING, WRITING = (1, 3), (2, 3)  # the modes that allow each
ETYPE, FILETYPE = 1, 2  # the numbers of the types that a refusal names; 0 where it names none


@dataclass(frozen=True)
class Type:
    widths: tuple
    displacements: tuple
    extent: int

    def entries(self):
        return list(zip(self.widths, self.displacements))


@dataclass(frozen=True)
class View:
    """A view as the handle's record holds it, unused places included."""

    displacement: int
    entries: int
    widths: tuple
    displacements: tuple
    etype_extent: int
    instances: int
    origins: tuple
    filetype_extent: int

    def etype(self):
        n = self.entries
        return Type(self.widths[:n], self.displacements[:n], self.etype_extent)

    def used_origins(self):
        return self.origins[: self.instances]

    def filetype(self):
        etype, origins = self.etype(), self.used_origins()
        shifted = tuple(p + d for p in origins for d in etype.displacements)
        return Type(etype.widths * len(origins), shifted, self.filetype_extent)


@dataclass(frozen=True)
class Handle:
    mode: int
    pointer: int
    view: View


@dataclass(frozen=True)
class File:
    data: bytes
    size: int


@dataclass(frozen=True)
class Fault:
    """A refusal of a set, with the type that it names and the number of the entry, counted from 0; both 0 where it names none."""

    refusal: int
    type: int = 0
    entry: int = 0


@dataclass(frozen=True)
class Answer:
    handle: Handle  # None for a recipe, which has none
    refusal: int = 0
    count: int = 0
    numbers: tuple = ()
    file: File = None  # the file after a granted write; else the file stays


def padded(numbers, places):
    return tuple(numbers) + (0,) * (places - len(numbers))


def view_of(displacement, etype, filetype, origins):
    """The record of an accepted view, with 0 in the unused places."""
    return View(displacement, len(etype.widths), padded(etype.widths, ETYPE_PLACES), padded(etype.displacements, ETYPE_PLACES),
                etype.extent, len(origins), padded(origins, ORIGIN_PLACES), filetype.extent)


BYTE = Type((1,), (0,), 1)
DEFAULT_VIEW = view_of(0, BYTE, BYTE, (0,))
REFUSED_HANDLE = Handle(0, 0, DEFAULT_VIEW)


class Rules(Recipes):
    """Document 01 with the orders 1, 3 and 4. A handle comes in and goes back as a value; lent lists and buffers are changed in place."""

    # When a view is accepted. Of a rule that a list of entries can break there is a method that gives all the faults in the order in
    # which they are to be found; a set is refused with the first one.

    def counts_allowed(self, etype_entries, filetype_entries):
        return (1 <= etype_entries <= ETYPE_PLACES
                and 1 <= filetype_entries <= MOST_ENTRIES and filetype_entries <= 64 * etype_entries)

    def entry_allowed(self, width, displacement):
        return width in WIDTHS and displacement >= 0 and displacement + width <= LAST_BYTE

    def entry_faults(self, etype, filetype):
        """6, entry by entry, so that an entry's displacement comes before the next one's width. The etype comes first."""
        for kind, t in ((ETYPE, etype), (FILETYPE, filetype)):
            for entry, (w, d) in enumerate(t.entries()):
                if not self.entry_allowed(w, d):
                    yield Fault(6, kind, entry)

    def order_faults(self, etype, filetype):
        """7. Of the two entries that are not ordered the later one is named. The etype comes first."""
        for kind, t in ((ETYPE, etype), (FILETYPE, filetype)):
            for entry, (before, following) in enumerate(zip(t.displacements, t.displacements[1:]), 1):
                if following < before:
                    yield Fault(7, kind, entry)

    def origins(self, etype, filetype):
        """Of each group the shift of its first entry, a signed number. If the filetype is built of the etype, these are p(0) to p(K-1)."""
        n = len(etype.widths)
        return tuple(filetype.displacements[first] - etype.displacements[0] for first in range(0, len(filetype.widths), n))

    def built_faults(self, etype, filetype):
        """17, which names no entry. Then group by group 18, of each entry that differs in width or shift, and 19, of the first entry."""
        n = len(etype.widths)
        if len(filetype.widths) % n != 0:
            yield Fault(17)
            return
        for group, origin in enumerate(self.origins(etype, filetype)):
            first = group * n
            for index in range(n):
                same_width = filetype.widths[first + index] == etype.widths[index]
                same_shift = filetype.displacements[first + index] == etype.displacements[index] + origin
                if not (same_width and same_shift):
                    yield Fault(18, FILETYPE, first + index)
            if origin < 0:
                yield Fault(19, FILETYPE, first)

    def holes(self, n, origins, etype_extent, filetype_extent):
        """The holes, each with the entry that it names: the first one of the group after it, for the final hole the last of all."""
        between = [(origins[i] - origins[i - 1] - etype_extent, i * n) for i in range(1, len(origins))]
        final = (filetype_extent - origins[-1] - etype_extent, len(origins) * n - 1)
        return [(origins[0], 0)] + [(hole, entry) for hole, entry in between + [final] if hole > 0]

    def hole_faults(self, etype, filetype):
        """9."""
        origins = self.origins(etype, filetype)
        for hole, entry in self.holes(len(etype.widths), origins, etype.extent, filetype.extent):
            if hole % etype.extent != 0:
                yield Fault(9, FILETYPE, entry)

    def clash_step(self, etype, filetype):
        """Two different data bytes clash if their places differ by a multiple of this, zero included."""
        return filetype.extent

    def remainders(self, etype, filetype):
        """Of each entry of the filetype the places of its bytes modulo F: two bytes with the same remainder clash."""
        step = self.clash_step(etype, filetype)
        return [[place % step for place in range(d, d + w)] for w, d in filetype.entries()]

    def clashing_entries(self, etype, filetype):
        """The entries that have a byte clashing with another byte of the entry or with a byte of an earlier entry."""
        earlier = set()
        for entry, own in enumerate(self.remainders(etype, filetype)):
            if len(set(own)) < len(own) or not earlier.isdisjoint(own):
                yield entry
            earlier.update(own)

    def clash_faults(self, etype, filetype):
        """10."""
        for entry in self.clashing_entries(etype, filetype):
            yield Fault(10, FILETYPE, entry)

    def view_fault(self, mode, displacement, etype, filetype):
        """The first fault by the checks 3 to 7, 17 to 19, 9 and 10 in this order, or None."""
        types = (etype, filetype)
        if not 0 <= displacement <= MOST_DISPLACEMENT:
            return Fault(3)
        if any(len(t.widths) != len(t.displacements) for t in types):
            return Fault(4)
        if not self.counts_allowed(len(etype.widths), len(filetype.widths)):
            return Fault(4)
        if not all(1 <= t.extent <= LAST_BYTE for t in types):
            return Fault(5)
        checks = [self.entry_faults, self.order_faults, self.built_faults, self.hole_faults]
        if mode in WRITING:
            checks.append(self.clash_faults)
        for check in checks:
            for fault in check(etype, filetype):
                return fault
        return None

    # Check 1

    def handle_allowed(self, handle):
        view = handle.view
        return (1 <= handle.mode <= 3 and 0 <= handle.pointer <= OFFSETS
                and self.counts_allowed(view.entries, view.entries * view.instances)
                and self.view_fault(handle.mode, view.displacement, view.etype(), view.filetype()) is None)

    def file_allowed(self, file):
        return len(file.data) <= MOST_LENGTH and file.size <= len(file.data)

    # Where an offset lies

    def tile_step(self, view):
        return view.filetype_extent

    def place(self, view, offset):
        tile, instance = divmod(offset, view.instances)
        return view.displacement + tile * self.tile_step(view) + view.origins[instance]

    def data_places(self, view, offset):
        """The file bytes of the etype at this offset, in the order of its packed data."""
        begin = self.place(view, offset)
        return [begin + d + index for w, d in view.etype().entries() for index in range(w)]

    def etype_size(self, view):
        return sum(view.etype().widths)

    def pairs(self, view, byte):
        """The pairs of offset and index that map to this file byte, by a try of every data byte of a tile."""
        entries, found = view.etype().entries(), []
        for instance, origin in enumerate(view.used_origins()):
            places = [origin + d + index for w, d in entries for index in range(w)]
            for index, place in enumerate(places):
                tile, rest = divmod(byte - view.displacement - place, self.tile_step(view))
                offset = tile * view.instances + instance
                if rest == 0 and 0 <= offset < OFFSETS:
                    found.append((offset, index))
        return found

    def end_of_instance(self, view, instance, size):
        """One past the last offset of this instance that begins below the size, 0 if none does."""
        room = size - view.displacement - view.origins[instance]
        if room <= 0:
            return 0
        tile = (room - 1) // self.tile_step(view)
        return tile * view.instances + instance + 1

    def end_of_file(self, view, size):
        return max(self.end_of_instance(view, i, size) for i in range(view.instances))

    # The calls

    def open(self, mode):
        if mode > 3:
            return Answer(REFUSED_HANDLE, 16)
        return Answer(Handle(3 if mode == 0 else mode, 0, DEFAULT_VIEW))

    def after_refused_set(self, handle):
        return handle

    def set(self, handle, displacement, etype, filetype, representation):
        """The numbers of a refused set's answer are the type and the entry that it names."""
        if not self.handle_allowed(handle):
            fault = Fault(1)
        elif representation != b"native":
            fault = Fault(2)
        else:
            fault = self.view_fault(handle.mode, displacement, etype, filetype)
        if fault is not None:
            return Answer(self.after_refused_set(handle), fault.refusal, numbers=(fault.type, fault.entry))
        view = view_of(displacement, etype, filetype, self.origins(etype, filetype))
        return Answer(replace(handle, pointer=0, view=view))

    def set_from_recipes(self, handle, displacement, etype, filetype, representation):
        """A recipe is its steps and its items. The first refusal of the three calls is given."""
        types = []
        for steps, items in (etype, filetype):
            widths, displacements = [0] * MOST_ENTRIES, [0] * MOST_ENTRIES
            flat = self.flatten(steps, items, widths, displacements)
            if flat.refusal:
                return Answer(handle, flat.refusal)
            types.append(Type(tuple(widths[:flat.entries]), tuple(displacements[:flat.entries]), flat.extent))
        return self.set(handle, displacement, *types, representation)

    def give_back(self, handle, lists):
        if not self.handle_allowed(handle):
            return Answer(handle, 1)
        view, etype, filetype = handle.view, handle.view.etype(), handle.view.filetype()
        wanted = (etype.widths, etype.displacements, filetype.widths, filetype.displacements)
        if any(len(lent) < len(want) for lent, want in zip(lists, wanted)):
            return Answer(handle, 13)
        for lent, want in zip(lists, wanted):
            lent[: len(want)] = want
        numbers = (view.displacement, len(etype.widths), etype.extent, len(filetype.widths), filetype.extent)
        return Answer(handle, numbers=numbers)

    def place_query(self, handle, offset):
        if not self.handle_allowed(handle):
            return Answer(handle, 1)
        if not 0 <= offset < OFFSETS:
            return Answer(handle, 12)
        return Answer(handle, numbers=(self.place(handle.view, offset),))

    def reverse(self, handle, byte):
        """The numbers 1, offset and index, or 0, 0, 0 for none. A view accepted for writing has at most one pair."""
        if not self.handle_allowed(handle):
            return Answer(handle, 1)
        if handle.mode not in WRITING:
            return Answer(handle, 11)
        found = self.pairs(handle.view, byte)
        return Answer(handle, numbers=(1, *found[0]) if found else (0, 0, 0))

    def end_query(self, handle, file):
        if not (self.handle_allowed(handle) and self.file_allowed(file)):
            return Answer(handle, 1)
        return Answer(handle, numbers=(self.end_of_file(handle.view, file.size),))

    def seek(self, handle, file, offset, whence):
        if not (self.handle_allowed(handle) and self.file_allowed(file)):
            return Answer(handle, 1)
        if whence not in (0, 1, 2):
            return Answer(handle, 15)
        target = (0, handle.pointer, self.end_of_file(handle.view, file.size))[whence] + offset
        if not 0 <= target <= OFFSETS:
            return Answer(handle, 12)
        return Answer(replace(handle, pointer=target))

    def access_refusal(self, handle, file, modes, offset, count, buffer):
        """The first of the refusals that a read and a write share, or 0; `modes` are those that allow the access."""
        if not (self.handle_allowed(handle) and self.file_allowed(file)):
            return 1
        if handle.mode not in modes:
            return 11
        if offset < 0 or offset + count > OFFSETS:
            return 12
        if len(buffer) < count * self.etype_size(handle.view):
            return 13
        return 0

    def in_file(self, file, places):
        return all(place < file.size for place in places)

    def read_at(self, handle, file, offset, count, buffer):
        refusal = self.access_refusal(handle, file, READING, offset, count, buffer)
        if refusal:
            return Answer(handle, refusal)
        size, moved = self.etype_size(handle.view), 0
        while moved < count:
            places = self.data_places(handle.view, offset + moved)
            if not self.in_file(file, places):
                break
            for index, place in enumerate(places):
                buffer[moved * size + index] = file.data[place]
            moved += 1
        return Answer(handle, count=moved)

    def read_here(self, handle, file, count, buffer):
        answer = self.read_at(handle, file, handle.pointer, count, buffer)
        return replace(answer, handle=replace(handle, pointer=handle.pointer + answer.count))

    def mapped(self, view, offset, count):
        """The file bytes of a write, in the order of its counted data. Check 13 comes before, so there are few."""
        return [place for o in range(offset, offset + count) for place in self.data_places(view, o)]

    def past_length(self, file, places):
        return any(place >= len(file.data) for place in places)

    def new_size(self, file, places):
        """The larger of the old size and the end of the highest byte written, where there is one."""
        return max([file.size] + [place + 1 for place in places])

    def cleared(self, file, size, places):
        """Where bytes that the write doesn't map become 0: between the old and the new size."""
        return range(file.size, size)

    def written(self, file, places, buffer):
        """The file after a write: each byte of it is mapped and gets its data, or becomes 0, or stays."""
        size, data = self.new_size(file, places), dict(zip(places, buffer))
        cleared = self.cleared(file, size, places)
        changed = [data[i] if i in data else 0 if i in cleared else byte for i, byte in enumerate(file.data)]
        return File(bytes(changed), size)

    def write_at(self, handle, file, offset, count, buffer):
        refusal = self.access_refusal(handle, file, WRITING, offset, count, buffer)
        if refusal:
            return Answer(handle, refusal)
        places = self.mapped(handle.view, offset, count)
        if self.past_length(file, places):
            return Answer(handle, 14)
        return Answer(handle, count=count, file=self.written(file, places, buffer))

    def write_here(self, handle, file, count, buffer):
        answer = self.write_at(handle, file, handle.pointer, count, buffer)
        return replace(answer, handle=replace(handle, pointer=handle.pointer + answer.count))


# The script

SLOTS, FILES = 4, 2
LONGEST_LIST, LONGEST_BUFFER, LONGEST_FILE, LONGEST_RECIPE = 300, 4096, 65536, 1000
MOST_RECORDS = 1_000_000
CHECKSUM_MODULUS = 4_294_967_291
CALLS = range(35, 46)  # those of document 01


class Body:
    """A record's body: numbers of 8 bytes, low byte first; bytes that it lacks count as 0."""

    def __init__(self, data):
        self.data = data

    def number(self, index):
        return int.from_bytes(self.data[8 * index:8 * index + 8], "little")

    def signed(self, index):
        return signed(self.number(index))

    def numbers(self, first, count):
        return tuple(self.number(first + i) for i in range(count))

    def after(self, count):
        return self.data[8 * count:]


def checksum(numbers):
    s = 7
    for x in numbers:
        counted = 2**63 - 1 - x if x < 0 else x
        s = (s * 65_599 + counted % CHECKSUM_MODULUS + 1) % CHECKSUM_MODULUS
    return s


@lru_cache(maxsize=1024)
def file_checksum(data):
    return checksum(data)


@lru_cache(maxsize=1024)
def file_bytes(length, seed):
    return bytes((seed + 7 * i + i // 256) % 256 for i in range(length))


@lru_cache(maxsize=1024)
def handle_checksum(handle):
    view = handle.view
    return checksum((handle.mode, view.displacement, view.entries) + view.widths + view.displacements
                    + (view.etype_extent, view.instances) + view.origins + (view.filetype_extent,))


@dataclass(frozen=True)
class SetRecord:
    """The body of a set."""

    displacement: int
    etype: Type
    filetype: Type
    representation: bytes


def counted_lists(body, first, number, longest):
    """So many lists, whose counts stand in a row from this number on, and after the counts the lists; and what number follows them."""
    lists, following = [], first + number
    for count in body.numbers(first, number):
        lists.append(body.numbers(following, min(count, longest)))
        following += len(lists[-1])
    return lists, following


def set_record(body):
    lists, first = counted_lists(body, 4, 4, LONGEST_LIST)
    etype = Type(lists[0], tuple(map(signed, lists[1])), body.signed(2))
    filetype = Type(lists[2], tuple(map(signed, lists[3])), body.signed(3))
    return SetRecord(body.signed(1), etype, filetype, body.after(first))


@dataclass(frozen=True)
class RecipeRecord:
    """The body of a recipe, the lent lists made."""

    steps: tuple
    items: tuple
    widths: list
    displacements: list


def recipe_record(body):
    fill = body.number(2) % 2**31
    lent = [[fill] * min(length, LONGEST_LIST) for length in body.numbers(0, 2)]
    lists, _ = counted_lists(body, 3, 2, LONGEST_RECIPE)
    return RecipeRecord(*lists, *lent)


@dataclass(frozen=True)
class RecipesRecord:
    """The body of a set from recipes; of each recipe the steps and the items."""

    displacement: int
    etype: tuple
    filetype: tuple
    representation: bytes


def recipes_record(body):
    lists, first = counted_lists(body, 2, 4, LONGEST_RECIPE)
    return RecipesRecord(body.signed(1), tuple(lists[:2]), tuple(lists[2:]), body.after(first))


@dataclass(frozen=True)
class Step:
    """One record that was run: its byte place in the script, the files before it, its answer (None for the file records), its line."""

    place: int
    tag: int
    body: Body
    files: tuple
    answer: Answer
    line: str


@dataclass(frozen=True)
class Stop:
    """The end of a run at a record that is cut short or of another tag."""

    place: int

    @property
    def line(self):
        return f"stop {self.place}"


def is_cut(script, place):
    header = script[place:place + 3]
    return len(header) < 3 or place + 3 + int.from_bytes(header[1:], "little") > len(script)


class Driver:
    """The slots and files that a script works on. Each record's method returns its answer and what it was lent."""

    def __init__(self, rules):
        self.rules = rules
        self.slots = [REFUSED_HANDLE] * SLOTS
        self.files = [File(b"", 0)] * FILES
        self.records = {32: self.new_file, 33: self.file_record, 34: self.forged_handle, 35: self.open, 36: self.set,
                        37: self.give_back, 38: self.place, 39: self.end, 40: self.seek, 41: self.read_at, 42: self.read_here,
                        43: self.write_at, 44: self.write_here, 45: self.reverse, 46: self.recipe, 47: self.set_from_recipes}

    def handle(self, body):
        return self.slots[body.number(0) % SLOTS]

    def file(self, body):
        return self.files[body.number(1) % FILES]

    def new_file(self, body):
        file, length, size, seed = body.numbers(0, 4)
        self.files[file % FILES] = File(file_bytes(min(length, LONGEST_FILE), seed % 256), size)
        return None, []

    def file_record(self, body):
        file, size = body.numbers(0, 2)
        self.files[file % FILES] = replace(self.files[file % FILES], size=size)
        return None, []

    def forged_handle(self, body):
        view = View(body.number(3), body.number(4), body.numbers(5, 8), body.numbers(13, 8), body.number(21),
                    body.number(22), body.numbers(23, 64), body.number(87))
        return Answer(Handle(body.number(1), body.number(2), view)), []

    def open(self, body):
        return self.rules.open(body.number(1)), []

    def set(self, body):
        new = set_record(body)
        answer = self.rules.set(self.handle(body), new.displacement, new.etype, new.filetype, new.representation)
        return answer, [new.etype.widths, new.etype.displacements, new.filetype.widths, new.filetype.displacements]

    def give_back(self, body):
        fill = body.number(5) % 2**31
        lists = [[fill] * min(length, LONGEST_LIST) for length in body.numbers(1, 4)]
        return self.rules.give_back(self.handle(body), lists), lists

    def place(self, body):
        return self.rules.place_query(self.handle(body), body.signed(1)), []

    def end(self, body):
        return self.rules.end_query(self.handle(body), self.file(body)), []

    def seek(self, body):
        return self.rules.seek(self.handle(body), self.file(body), body.signed(2), body.number(3)), []

    def buffer(self, length, fill):
        return [fill % 256] * min(length, LONGEST_BUFFER)

    def read_at(self, body):
        buffer = self.buffer(body.number(4), body.number(5))
        return self.rules.read_at(self.handle(body), self.file(body), body.signed(2), body.number(3), buffer), [buffer]

    def read_here(self, body):
        buffer = self.buffer(body.number(3), body.number(4))
        return self.rules.read_here(self.handle(body), self.file(body), body.number(2), buffer), [buffer]

    def data(self, length, seed):
        return file_bytes(min(length, LONGEST_BUFFER), seed % 256)

    def write_at(self, body):
        buffer = self.data(body.number(4), body.number(5))
        return self.rules.write_at(self.handle(body), self.file(body), body.signed(2), body.number(3), buffer), [buffer]

    def write_here(self, body):
        buffer = self.data(body.number(3), body.number(4))
        return self.rules.write_here(self.handle(body), self.file(body), body.number(2), buffer), [buffer]

    def reverse(self, body):
        return self.rules.reverse(self.handle(body), body.number(1)), []

    def recipe(self, body):
        new = recipe_record(body)
        flat = self.rules.flatten(new.steps, new.items, new.widths, new.displacements)
        return Answer(None, flat.refusal, numbers=flat.numbers()), [new.widths, new.displacements]

    def set_from_recipes(self, body):
        new = recipes_record(body)
        return self.rules.set_from_recipes(self.handle(body), new.displacement, new.etype, new.filetype, new.representation), []

    def line(self, tag, answer, lent):
        if answer is None:
            numbers = [tag] + [0] * 9
        else:
            handle = answer.handle
            pointer, view = (handle.pointer, handle_checksum(handle)) if handle else (0, 0)
            numbers = [tag, answer.refusal, answer.count, *padded(answer.numbers, 5), pointer, view]
        for file in self.files:
            numbers += [file.size, file_checksum(file.data)]
        return " ".join(map(str, (*numbers, *padded([checksum(one) for one in lent], 4))))

    def step(self, place, tag, body):
        files = tuple(self.files)
        answer, lent = self.records[tag](body)
        if answer is not None and answer.handle is not None:
            self.slots[body.number(0) % SLOTS] = answer.handle
        if answer is not None and answer.file is not None:
            self.files[body.number(1) % FILES] = answer.file
        return Step(place, tag, body, files, answer, self.line(tag, answer, lent))

    def steps(self, script):
        """A Step for each record that is taken, and a Stop at one that is cut short or of another tag."""
        place = taken = 0
        while place < len(script) and taken < MOST_RECORDS:
            tag = script[place]
            if is_cut(script, place) or tag not in self.records:
                yield Stop(place)
                return
            following = place + 3 + int.from_bytes(script[place + 1:place + 3], "little")
            yield self.step(place, tag, Body(script[place + 3:following]))
            place, taken = following, taken + 1


def run(script, rules=Rules):
    """The lines that the script prints under these rules."""
    return [step.line for step in Driver(rules()).steps(script)]
