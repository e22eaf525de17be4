"""Odd pieces and errors for the program `replay`: a trace in a FIFO, wrong use, outputs and reads that fail. `replay` runs them.

Each function yields the name of what was tried, and what is wrong, or nothing.
"""

import fcntl
import os
import shutil
import subprocess
import tempfile
import termios
from bisect import bisect_right
from itertools import cycle
from pathlib import Path
from threading import Thread

import fixed_trace
from long_traces import ENDS, LINES, WINDOW, longest, mixed
from model import Rules
from replayer import Replay, Step
from trace_records import open_file
from trace_texts import is_one_line

CUT = ENDS["body cut short"]
SMALL_PIECES = ((1,), (2,), (3,), (7,), (1, 2, 7), (10, 1))
LARGE_PIECES = ((4_096,), (65_537,), (1, 2, 7, 4_096, 65_537), (WINDOW - 1, 1), (65_536, 1, 65_535))

# Loaded before the C library. Descriptors up to 2 are the standard ones.
SHIM = """
#include <errno.h>
#include <stdlib.h>
#include <sys/syscall.h>
#include <unistd.h>

static int reads;

ssize_t read(int fd, void *buffer, size_t count)
{
    const char *fails = getenv("FAILING_READ"), *interrupted = getenv("INTERRUPTED_READS");
    if (fd > 2) {
        reads++;
        if (fails && atoi(fails) == reads) {
            errno = EIO;
            return -1;
        }
        if (interrupted && reads % 2 == 1) {
            errno = EINTR;
            return -1;
        }
    }
    return syscall(SYS_read, fd, buffer, count);
}
"""


class Expected:
    """A trace that ends whole or cut short, and what the second program says of it."""

    def __init__(self, name, trace):
        self.name, self.trace = name, trace
        steps = list(Replay(Rules()).steps(trace))
        self.lines = [step.line for step in steps]
        self.ends = [step.place + 3 + len(step.body.data) for step in steps if isinstance(step, Step)]  # of whole records

    def output(self, number=None):
        """The first lines, so many of them, or all."""
        return "".join(line + "\n" for line in self.lines[:number]).encode()

    def read_before(self):
        """How many bytes were read before each read, up to the one that finds the end: each fills what the window has free."""
        total, amounts = 0, [0]
        while total < len(self.trace):
            whole = bisect_right(self.ends, total)
            total = min(len(self.trace), (self.ends[whole - 1] if whole else 0) + WINDOW)
            amounts.append(total)
        return amounts


def small_records():
    return Expected("small records", mixed(300, "pieces") + CUT)


def many_records():
    return Expected("many records", mixed(12 * LINES, "pieces") + CUT)


def long_records():
    return Expected("long records", open_file(3) + b"".join(list(longest())[:3]) * 2 + CUT)


def shift():
    return Expected("the fixed shift", b"".join(row.record for row in fixed_trace.shift().rows[:-1]) + CUT)


def said(status, output, error):
    return f"status {status}, {len(output)} bytes of output that end with {output[-60:]!r}, error {error[-200:]!r}"


def whole_fault(done, expected):
    """What is wrong with a run that is to print the whole output and no error."""
    well = (done.returncode, done.stdout, done.stderr) == (0, expected.output(), b"")
    return "" if well else said(done.returncode, done.stdout, done.stderr)


def error_fault(done, name, output=b""):
    """What is wrong with a run that is to print this and then one error that names a file or stream. The program's status is always 0."""
    line = is_one_line(done.stderr) and done.stderr.startswith(b"replay: " + name)
    return "" if line and (done.returncode, done.stdout) == (0, output) else said(done.returncode, done.stdout, done.stderr)


# Pieces

def unread(fifo):
    return int.from_bytes(fcntl.ioctl(fifo, termios.FIONREAD, bytes(4)), "little")


def feed(process, name, trace, sizes):
    """Writes the trace in pieces of these sizes in turn, each after the one before was read."""
    with open(name, "wb", buffering=0) as fifo:
        place, turns = 0, cycle(sizes)
        while place < len(trace) and process.poll() is None:
            place += fifo.write(trace[place:place + next(turns)])
            while unread(fifo) and process.poll() is None:
                os.sched_yield()


def fed(program, folder, trace, sizes):
    process = subprocess.Popen([program, "fifo"], cwd=folder, stdout=subprocess.PIPE, stderr=subprocess.PIPE)
    Thread(target=feed, args=(process, folder / "fifo", trace, sizes), daemon=True).start()
    try:
        output, error = process.communicate(timeout=60)
    finally:
        process.kill()
    return subprocess.CompletedProcess(process.args, process.returncode, output, error)


def pieces(program, folder):
    os.mkfifo(folder / "fifo")
    for expected, pieces_of in ((small_records(), SMALL_PIECES), (many_records(), LARGE_PIECES), (long_records(), LARGE_PIECES)):
        for sizes in pieces_of:
            yield f"{expected.name} in pieces of {sizes}", whole_fault(fed(program, folder, expected.trace, sizes), expected)


# Wrong use, and outputs that fail

def wrong_use(program, folder):
    (folder / "a").write_bytes(open_file(3))
    (folder / "folder").mkdir()
    far = "n" * 5_000
    for arguments, name in (((), b"usage: "), (("a", "a"), b"usage: "), (("nothing",), b"nothing: "), (("folder",), b"folder: "),
                            (("",), b": "), (("a/b",), b"a/b: "), ((far,), b"the trace's name: ")):
        done = subprocess.run([program, *arguments], cwd=folder, capture_output=True, timeout=60)
        yield f"the arguments {[one[:20] for one in arguments]}", error_fault(done, name)


def failing_outputs(program, folder):
    for name, trace in (("one open", open_file(3)), ("a stop alone", CUT), ("many records", mixed(5 * LINES, "output") + CUT)):
        (folder / "trace").write_bytes(trace)
        for output in (">/dev/full", ">&-"):
            done = subprocess.run(f"'{program}' trace {output}", shell=True, cwd=folder, capture_output=True, timeout=60)
            yield f"{name} {output}", error_fault(done, b"standard output: ")


# Reads that fail

def compile_fault(folder):
    """Makes the shim; what went wrong, or nothing."""
    (folder / "shim.c").write_text(SHIM, encoding="ascii")
    done = subprocess.run(["gcc", "-shared", "-fPIC", "-o", "shim.so", "shim.c"], cwd=folder, capture_output=True, text=True, timeout=60)
    return done.stderr if done.returncode else ""


def with_shim(program, folder, **settings):
    return subprocess.run([program, "trace"], cwd=folder, env={**os.environ, "LD_PRELOAD": str(folder / "shim.so"), **settings},
                          stdin=subprocess.DEVNULL, capture_output=True, timeout=60)


def failing_reads_of(expected, program, folder):
    """EIO at each read, at the one that finds the end too: then no `stop`, as the trace may go on. EINTR at every other read."""
    (folder / "trace").write_bytes(expected.trace)
    read_before = expected.read_before()
    for number, amount in enumerate(read_before, 1):
        lines = expected.output(bisect_right(expected.ends, amount))
        done = with_shim(program, folder, FAILING_READ=str(number))
        yield f"{expected.name}, EIO at read {number}", error_fault(done, b"trace: ", lines)
    done = with_shim(program, folder, FAILING_READ=str(len(read_before) + 1))
    yield f"{expected.name}, EIO after the last read", whole_fault(done, expected)
    yield f"{expected.name}, EINTR at every other read", whole_fault(with_shim(program, folder, INTERRUPTED_READS="1"), expected)


def failing_reads(program, folder):
    if not shutil.which("gcc"):
        print("reads that fail: left out, as there is no gcc")
        return
    fault = compile_fault(folder)
    if fault:
        yield "the shim for failing reads", fault
        return
    for expected in (small_records(), many_records(), long_records(), shift()):
        yield from failing_reads_of(expected, program, folder)


def results(program):
    for some in (pieces, wrong_use, failing_outputs, failing_reads):
        with tempfile.TemporaryDirectory() as name:
            yield from some(program, Path(name))
