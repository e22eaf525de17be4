"""Records of a trace by docs/trace.md: a builder for each, and bin/trace's own two functions for texts and messages."""

import sys
from importlib.machinery import SourceFileLoader
from importlib.util import module_from_spec, spec_from_loader
from pathlib import Path

from scripts import Shape, record

ROOT = Path(__file__).resolve().parent.parent
LONGEST_BODY = 65_535
LONGEST_WRITE, LONGEST_CHECK = LONGEST_BODY - 32, LONGEST_BODY - 16  # the bytes of the longest buffer and of the longest range


def open_file(mode):
    return record(1, mode)


def set_view(request):
    if isinstance(request, Shape):
        request = request.request()
    lists = (request.etype_widths, request.etype_displacements, request.filetype_widths, request.filetype_displacements)
    return record(2, len(request.representation), request.displacement, request.etype_extent, request.filetype_extent,
                  *map(len, lists), *(x for one in lists for x in one), tail=request.representation)


def seek(offset, whence):
    return record(3, offset, whence)


def read_here(count):
    return record(4, 0, 0, count)


def read_at(offset, count):
    return record(4, 1, offset, count)


def write_here(count, data):
    return record(5, 0, 0, count, len(data), tail=data)


def write_at(offset, count, data):
    return record(5, 1, offset, count, len(data), tail=data)


def check(place, data):
    return record(6, place, len(data), tail=data)


def load_trace_program():
    """bin/trace as a module: its `assemble` and `show` are functions of a text and of a trace."""
    loader = SourceFileLoader("trace_program", str(ROOT / "bin" / "trace"))
    module = module_from_spec(spec_from_loader(loader.name, loader))
    sys.modules[loader.name] = module
    loader.exec_module(module)
    return module


PROGRAM = load_trace_program()


def in_words(data, most=200):
    """The lines of bin/trace for these records, the long ones cut."""
    lines = PROGRAM.show(data).splitlines()
    return "; ".join(line if len(line) <= most else line[:most] + " ..." for line in lines)
