"""Long traces, around the ends of what the program holds at a time: a list of 1,024 lines and a window of 131,072 trace bytes."""

from random import Random

from scripts import Request, field, record
from trace_records import LONGEST_BODY, LONGEST_CHECK, LONGEST_WRITE, check, open_file, read_at, read_here, seek, set_view, write_at, write_here

LINES, WINDOW = 1_024, 131_072
NUMBERS = (LINES - 1, LINES, LINES + 1, 2 * LINES, 2 * LINES + 1)
OPEN_BYTES = len(open_file(3))
AFTER_WINDOW = 12_000  # so many opens are longer than a window

# How a trace ends after its good records; behind a bad record stands a good one
ENDS = {"whole": b"", "bad body": record(1, 3, tail=b"x") + open_file(3), "unknown tag": field(7, b"") + open_file(3),
        "header cut short": open_file(3)[:2], "body cut short": open_file(3)[:-1]}


def opens(number):
    """Opens with each mode in turn, 4 too, which is refused."""
    return b"".join(open_file(i % 5) for i in range(number))


def mixed(number, seed):
    """Small records of many lengths. Few are writes, as these take the second program long."""
    rng = Random(f"long {seed}")
    rare = (lambda: open_file(rng.choice((0, 0, 1, 2, 3, 4))), lambda: write_here(rng.randrange(5), rng.randbytes(4)),
            lambda: write_at(rng.randrange(90), 2, rng.randbytes(2)))
    often = (lambda: seek(rng.randrange(40), rng.randrange(4)), lambda: read_here(rng.randrange(9)),
             lambda: read_at(rng.randrange(40), rng.randrange(9)), lambda: check(rng.randrange(90), bytes(rng.randrange(20))))
    return open_file(3) + b"".join(rng.choice(rare + often * 5)() for _ in range(number - 1))


def around_lists():
    """As many records as the list has lines, one less, one more, and twice that."""
    for number in NUMBERS:
        for end, data in ENDS.items():
            yield f"{number} opens, {end}", opens(number) + data
            yield f"{number} mixed records, {end}", mixed(number, number) + data


def across_windows():
    """Records across the window's end: of opens at each of their bytes, of mixed ones wherever it comes, in many windows."""
    ends = list(ENDS.items())
    for more in range(OPEN_BYTES):
        end, data = ends[more % len(ends)]
        yield f"a check of {more} bytes and {AFTER_WINDOW} opens, {end}", check(0, bytes(more)) + opens(AFTER_WINDOW) + data
    for number, end in ((12_345, "whole"), (30_000, "body cut short")):
        yield f"{number} mixed records, {end}", mixed(number, number) + ENDS[end]


def longest():
    """A record of each kind that has bytes or lists, with the longest body, and one of unknown tag."""
    yield write_at(0, 0, bytes(LONGEST_WRITE))
    yield check(0, bytes(LONGEST_CHECK))
    yield set_view(Request(0, 1, 1, (1,), (0,), (1,), (0,), b"n" * (LONGEST_BODY - 64 - 32)))
    yield field(7, bytes(LONGEST_BODY))


def longest_cut():
    """The longest records, the last one without its last byte: it stands first, in the middle of a window, or in the next one."""
    before = {"nothing": b"", "an open": open_file(3), "the longest check": check(0, bytes(LONGEST_CHECK)),
              "three longest checks": check(0, bytes(LONGEST_CHECK)) * 3, "1024 opens": opens(LINES)}
    for one in longest():
        for name, data in before.items():
            yield f"after {name} the longest record of tag {one[0]}, cut by one byte", data + one[:-1]


def traces():
    """Names and traces."""
    for some in (around_lists, across_windows, longest_cut):
        yield from some()
