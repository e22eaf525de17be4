"""Scripts in the format of docs/conformance.md: a builder for each record, and a decoder for messages."""

from dataclasses import dataclass

from model import Body, recipe_record, recipes_record, set_record
from recipes import (CONTIGUOUS, EARLIER, INDEXED, ITEM_NUMBERS, RESIZED, STEP_NUMBERS, SUBARRAY, VECTOR, WIDTH, making, signed)

LARGEST, SMALLEST = 2**63 - 1, -2**63  # signed numbers
ALL_ONES = 2**64 - 1  # the largest unsigned number


@dataclass(frozen=True)
class Request:
    """What a set is given, whatever its numbers."""

    displacement: int
    etype_extent: int
    filetype_extent: int
    etype_widths: tuple
    etype_displacements: tuple
    filetype_widths: tuple
    filetype_displacements: tuple
    representation: bytes = b"native"


@dataclass(frozen=True)
class Shape:
    """A view by its etype and the origins of its instances."""

    widths: tuple
    displacements: tuple
    etype_extent: int
    origins: tuple
    filetype_extent: int
    displacement: int = 0

    def request(self):
        shifted = tuple(p + d for p in self.origins for d in self.displacements)
        return Request(self.displacement, self.etype_extent, self.filetype_extent,
                       self.widths, self.displacements, self.widths * len(self.origins), shifted)


def words(origins, filetype_extent, displacement=0):
    """A view whose etype is document 01's word."""
    return Shape((4,), (0,), 4, tuple(origins), filetype_extent, displacement)


def in_a_row(n, instances):
    """This many instances of an etype of n bytes, each right after the one before."""
    return Shape((1,) * n, tuple(range(n)), n, tuple(range(0, n * instances, n)), n * instances)


@dataclass(frozen=True)
class Recipe:
    """A recipe as a list of steps, each of kind, source, name, a, b and c, and a list of items; or any numbers at all.

    Each constructor below gives the recipe with one step more, and its items. It is built of `of`: a width as (WIDTH, 4), a step as
    (EARLIER, 0), or the last step so far, if it is not given."""

    steps: tuple = ()  # numbers
    items: tuple = ()

    def __len__(self):
        return len(self.steps) // STEP_NUMBERS

    def step(self, kind, of, a, b=0, c=0, items=()):
        source, name = of or (EARLIER, len(self) - 1)
        return Recipe(self.steps + (kind, source, name, a, b, c), self.items + tuple(x for item in items for x in item))

    def next_item(self):
        return len(self.items) // ITEM_NUMBERS

    def contiguous(self, count, of=None):
        return self.step(CONTIGUOUS, of, count)

    def vector(self, count, length, stride, of=None):
        return self.step(VECTOR, of, count, length, stride)

    def indexed(self, blocks, of=None):
        """Blocks of length and displacement."""
        return self.step(INDEXED, of, self.next_item(), len(blocks), 0, [(length, place, 0) for length, place in blocks])

    def subarray(self, dimensions, of=None):
        """Dimensions of size, subsize and start."""
        return self.step(SUBARRAY, of, self.next_item(), len(dimensions), 0, dimensions)

    def resized(self, extent, of=None):
        return self.step(RESIZED, of, extent)


def width(w):
    """A basic width that a step is built of."""
    return WIDTH, w


def earlier(number):
    """An earlier step that a step is built of."""
    return EARLIER, number


def one_changed(numbers, index, number):
    """These numbers with another one at this index."""
    return numbers[:index] + (number,) + numbers[index + 1:]


def field(tag, body):
    return bytes([tag]) + len(body).to_bytes(2, "little") + body


def record(tag, *numbers, tail=b""):
    return field(tag, b"".join((x % 2**64).to_bytes(8, "little") for x in numbers) + tail)


def new_file(file, length, size, seed):
    return record(32, file, length, size, seed)


def file_record(file, size):
    return record(33, file, size)


def forged(slot, mode, pointer, shape, entries=None, instances=None, fill=0):
    """A handle with this shape's record. The counts are the shape's unless given; `fill` stands in the unused places."""
    widths = fill_up(shape.widths, 8, fill)
    displacements = fill_up(shape.displacements, 8, fill)
    origins = fill_up(shape.origins, 64, fill)
    n = len(shape.widths) if entries is None else entries
    k = len(shape.origins) if instances is None else instances
    return record(34, slot, mode, pointer, shape.displacement, n, *widths, *displacements, shape.etype_extent,
                  k, *origins, shape.filetype_extent)


def fill_up(numbers, places, fill):
    return tuple(numbers) + (fill,) * (places - len(numbers))


def open_handle(slot, mode):
    return record(35, slot, mode)


def set_view(slot, request):
    lists = (request.etype_widths, request.etype_displacements, request.filetype_widths, request.filetype_displacements)
    return record(36, slot, request.displacement, request.etype_extent, request.filetype_extent,
                  *map(len, lists), *(x for one in lists for x in one), tail=request.representation)


def give_back(slot, lengths, fill=0):
    return record(37, slot, *lengths, fill)


def place(slot, offset):
    return record(38, slot, offset)


def end(slot, file):
    return record(39, slot, file)


def seek(slot, file, offset, whence):
    return record(40, slot, file, offset, whence)


def read_at(slot, file, offset, count, length, fill=170):
    return record(41, slot, file, offset, count, length, fill)


def read_here(slot, file, count, length, fill=170):
    return record(42, slot, file, count, length, fill)


def write_at(slot, file, offset, count, length, seed=90):
    return record(43, slot, file, offset, count, length, seed)


def write_here(slot, file, count, length, seed=90):
    return record(44, slot, file, count, length, seed)


def reverse(slot, byte):
    return record(45, slot, byte)


def recipe(new, lengths, fill=0):
    return record(46, *lengths, fill, len(new.steps), len(new.items), *new.steps, *new.items)


def set_from_recipes(slot, displacement, etype, filetype, representation=b"native"):
    lists = (etype.steps, etype.items, filetype.steps, filetype.items)
    return record(47, slot, displacement, *map(len, lists), *(x for one in lists for x in one), tail=representation)


NAMES = {
    32: ("file", "file length size seed"),
    33: ("file record", "file size"),
    34: ("forged handle", ""),
    35: ("open", "slot mode"),
    36: ("set", ""),
    37: ("giving back", "slot length1 length2 length3 length4 fill"),
    38: ("place", "slot offset*"),
    39: ("end", "slot file"),
    40: ("seek", "slot file offset* whence"),
    41: ("read at an offset", "slot file offset* count buffer fill"),
    42: ("read at the pointer", "slot file count buffer fill"),
    43: ("write at an offset", "slot file offset* count buffer seed"),
    44: ("write at the pointer", "slot file count buffer seed"),
    45: ("reverse lookup", "slot byte"),
    46: ("recipe", ""),
    47: ("set from recipes", ""),
}
LINE = ("tag refusal count a b c d e pointer view size0 sum0 size1 sum1 lent1 lent2 lent3 lent4").split()


def decode(tag, data):
    """The record in words."""
    body, (name, fields) = Body(data), NAMES[tag]
    whole = {34: decode_forged, 36: decode_set, 46: decode_recipe, 47: decode_recipes}
    if tag in whole:
        return f"{name}: {whole[tag](body)}"
    shown = [f"{one.rstrip('*')} {body.signed(i) if one.endswith('*') else body.number(i)}" for i, one in enumerate(fields.split())]
    return f"{name}: {', '.join(shown)}"


def decode_forged(body):
    n, k = min(body.number(4), 8), min(body.number(22), 64)
    return (f"slot {body.number(0)}, mode {body.number(1)}, pointer {body.number(2)}, displacement {body.number(3)}, "
            f"etype entries {body.number(4)}: widths {list(body.numbers(5, n))} at {list(body.numbers(13, n))}, "
            f"extent {body.number(21)}, instances {body.number(22)}: origins {list(body.numbers(23, k))}, extent {body.number(87)}")


def decode_set(body):
    new = set_record(body)
    types = [f"{list(t.widths)} at {list(t.displacements)}, extent {t.extent}" for t in (new.etype, new.filetype)]
    return (f"slot {body.number(0)}, displacement {new.displacement}, etype {types[0]}, filetype {types[1]}, "
            f"representation {new.representation!r}")


MEANINGS = {46: {"a": "entries", "b": "extent", "c": "is a step at fault", "d": "step at fault"},
            47: {"a": "type named", "b": "entry named"}}
MEANINGS[36] = MEANINGS[47]


def in_words(tag, name):
    """What this number of a line is called in messages."""
    meaning = MEANINGS.get(tag, {}).get(name)
    return f"{name} ({meaning})" if meaning else name


SHOWN_ITEMS = 12  # of one step, in messages


def decode_step(step):
    if step.source == WIDTH:
        of = f"width {step.name}"
    else:
        of = f"step {step.name}" if step.source == EARLIER else f"source {step.source}, name {step.name}"
    items = [step.item(step.a + i) for i in range(min(step.b, SHOWN_ITEMS))]
    more = f" and {step.b - SHOWN_ITEMS} more" if step.b > SHOWN_ITEMS else ""
    blocks = ", ".join(f"{length} at {signed(place)}" for length, place, _ in items) + more
    dimensions = ", ".join(f"{subsize} of {size} from {signed(start)}" for size, subsize, start in items) + more
    words = {CONTIGUOUS: f"contiguous, {step.a}", VECTOR: f"vector, {step.a} blocks of {step.b}, stride {signed(step.c)}",
             INDEXED: f"indexed, {step.b} blocks from item {step.a} on: {blocks}",
             SUBARRAY: f"subarray, {step.b} dimensions from item {step.a} on: {dimensions}",
             RESIZED: f"resized, extent {signed(step.a)}"}
    return f"({step.number}) {words.get(step.kind, f'kind {step.kind}')} of {of}"


def decode_steps(steps, items):
    whole, rest = divmod(len(steps), STEP_NUMBERS)
    shown = [decode_step(making(steps, items, number)) for number in range(whole)]
    part = [f"{rest} numbers of a step"] if rest else []
    return "; ".join(shown + part) or "no step"


def decode_recipe(body):
    new = recipe_record(body)
    return (f"lists of {len(new.widths)} and {len(new.displacements)}, fill {body.number(2) % 2**31}, "
            f"{len(new.steps)} numbers of steps, {len(new.items)} of items: {decode_steps(new.steps, new.items)}")


def decode_recipes(body):
    new = recipes_record(body)
    return (f"slot {body.number(0)}, displacement {new.displacement}, etype [{decode_steps(*new.etype)}], "
            f"filetype [{decode_steps(*new.filetype)}], representation {new.representation!r}")
