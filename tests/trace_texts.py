"""Tests of bin/trace: texts with their traces, texts that are refused, and the command's own errors. `replay` runs them."""

import subprocess
import tempfile
from pathlib import Path
from random import Random

from scripts import ALL_ONES, LARGEST, SMALLEST, Request, Shape, field, record
from trace_records import PROGRAM, ROOT, check, open_file, read_at, read_here, seek, set_view, write_at, write_here

TRACE = ROOT / "bin" / "trace"
SHIFTS = sorted((ROOT / "docs" / "traces").glob("*.txt"))
SLOTS = Shape((4, 1), (0, 4), 8, (0, 16), 24)  # P8
ODD = Request(SMALLEST, -1, LARGEST, (), (-1, 0), (ALL_ONES,), (), b"")

# A text and the bytes that it describes
GOOD = (
    ("", b""),
    ("# only words\n\n   \n", b""),
    ("open 3", open_file(3)),
    ("  open   3   # a comment\n", open_file(3)),
    ("open 3\r\nopen 0\r\n", open_file(3) + open_file(0)),
    (f"open {ALL_ONES}", open_file(ALL_ONES)),
    ("set 0 etype 4,1 at 0,4 extent 8 filetype 4,1,4,1 at 0,4,16,20 extent 24", set_view(SLOTS)),
    (f"set {SMALLEST} etype - at -1,0 extent -1 filetype {ALL_ONES} at - extent {LARGEST} as -", set_view(ODD)),
    ('set 0 etype 1 at 0 extent 1 filetype 1 at 0 extent 1 as "nat" 0x00*2 "ive"',
     set_view(Request(0, 1, 1, (1,), (0,), (1,), (0,), b"nat\0\0ive"))),
    ("seek 5 from start\nseek -5 from pointer\nseek 0 from end\nseek 1 from 3", seek(5, 0) + seek(-5, 1) + seek(0, 2) + seek(1, 3)),
    ("seek 5 from 0\nseek 5 from 1\nseek 5 from 2", seek(5, 0) + seek(5, 1) + seek(5, 2)),
    (f"read 7\nread {ALL_ONES} at -1\nread 0 at 0", read_here(7) + read_at(-1, ALL_ONES) + read_at(0, 0)),
    ('write 1 "A#B" # comment\nwrite 2 at -3 -', write_here(1, b"A#B") + write_at(-3, 2, b"")),
    ('check 9 "a\\"b\\\\c\\n\\x00\\xfF" 0xAb0c', check(9, b'a"b\\c\n\0\xff\xab\x0c')),
    (f"check {ALL_ONES} -", check(ALL_ONES, b"")),
    ("write 0 0x00*65503", write_here(0, bytes(65_503))),
    ("check 0 0x00*65519", check(0, bytes(65_519))),
    ("record 255 -\nrecord 0 0x01 0x02*3", field(255, b"") + field(0, b"\1\2\2\2")),
    ("record 4 0x02*24\nend 0x0108", field(4, b"\2" * 24) + b"\1\x08"),
    ("end 0x06ffff 0x00*65534\n# nothing else\n", b"\6\xff\xff" + bytes(65_534)),
    ("end 0x0000", bytes(2)), ("end 0x000100", b"\0\1\0"), ("end 0xff0002 0x00*511", b"\xff\0\2" + bytes(511)),
)

# A trace and its lines
SHOWN = (
    (b"", ""),
    (open_file(3), "open 3\n"),
    (set_view(SLOTS), "set 0 etype 4,1 at 0,4 extent 8 filetype 4,1,4,1 at 0,4,16,20 extent 24\n"),
    (set_view(ODD), f"set {SMALLEST} etype - at -1,0 extent -1 filetype {ALL_ONES} at - extent {LARGEST} as -\n"),
    (seek(-1, 0) + seek(0, 1) + seek(0, 2) + seek(0, 3), "seek -1 from start\nseek 0 from pointer\nseek 0 from end\nseek 0 from 3\n"),
    (read_here(2) + read_at(0, 2), "read 2\nread 2 at 0\n"),
    (write_here(1, b"LOT7") + write_at(-1, 1, b""), 'write 1 "LOT7"\nwrite 1 at -1 -\n'),
    (check(0, b"LOT" + bytes(7) + b"\0" + b"==" * 4 + b"abcd\1"), 'check 0 0x4c4f54 0x00*8 0x3d*8 "abcd" 0x01\n'),
    (check(0, b'a"\\b'), 'check 0 "a\\"\\\\b"\n'),
    (check(0, b"abcd\ne"), 'check 0 "abcd" 0x0a65\n'),
    (field(7, b"") + field(1, b"\3"), "record 7 -\nrecord 1 0x03\n"),
    (record(4, 0, 1, 1), "record 4 0x00*8 0x01000000000000000100000000000000\n"),
    (record(4, 2, 0, 1), "record 4 0x02 0x00*15 0x0100000000000000\n"),
    (b"\1", "end 0x01\n"), (b"\1\x08\0\3", "end 0x01080003\n"),
)

BIG = 2**64
# A text that is refused, the line that is named, and what the message says
BAD = (
    ("opne 3", 1, "`opne` is no record"), ("open 3\n\n# x\nshut 3", 4, "`shut` is no record"), ('"open" 3', 1, "is no record"),
    ("Open 3", 1, "`Open` is no record"), ("open", 1, "the mode is missing"), ("open # 3", 1, "the mode is missing"),
    ("open 3 4", 1, "`4` stands after the end"), ("open 0x3", 1, "not a decimal number"), ("open three", 1, "not a decimal number"),
    ("open +3", 1, "not a decimal number"), ("open 3,", 1, "not a decimal number"), ("open -1", 1, "outside 0 to 18446744073709551615"),
    ("open -0", 1, "outside 0 to"), (f"open {BIG}", 1, "outside 0 to 18446744073709551615"), ("open 1" + "0" * 5000, 1, "outside"),
    ('open "3"', 1, "not a decimal number"), ("open \xb2", 1, "not a decimal number"),
    (f"seek {2**63} from start", 1, "outside -9223372036854775808 to 9223372036854775807"),
    (f"seek {-2**63 - 1} from start", 1, "outside -9223372036854775808"), ("seek 1", 1, "`from` is missing"),
    ("seek 1 of end", 1, "`of` stands where `from` is due"), ("seek 1 from", 1, "the whence is missing"),
    ("seek 1 from begin", 1, "the whence is `begin`"), ("seek 1 from -1", 1, "outside 0 to"), ("seek 1 from end 3", 1, "after the end"),
    ("read", 1, "the count is missing"), ("read -1", 1, "outside 0 to"), ("read 1 of 3", 1, "`of` stands after the end"),
    ("read 1 at", 1, "the offset is missing"), ("read 1 at 2 3", 1, "`3` stands after the end"),
    (f"read 1 at {2**63}", 1, "outside -9223372036854775808"), ("write 1", 1, "BYTES (or `-` for none) is missing"),
    ("write 1 at 2", 1, "BYTES (or `-` for none) is missing"), ("write at 2 -", 1, "not a decimal number"),
    ("write 1 at 0 lot", 1, "`lot` is not bytes"), ("write 1 0x", 1, "`0x` is not bytes"), ("write 1 0x123", 1, "`0x123` is not bytes"),
    ("write 1 0xgg", 1, "`0xgg` is not bytes"), ("write 1 0X00", 1, "`0X00` is not bytes"), ("write 1 00", 1, "`00` is not bytes"),
    ("write 1 0x0001*3", 1, "`0x0001*3` is not bytes"), ("write 1 0x00*", 1, "`0x00*` is not bytes"),
    ("write 1 0x00*-1", 1, "`0x00*-1` is not bytes"), ("write 1 - 0x00", 1, "`0x00` stands after the end"),
    ("write 1 0x00 -", 1, "`-` is not bytes"), ("write 1 0x00*65504", 1, "65536 bytes"), ("write 1 0x00*65536", 1, "outside 0 to 65535"),
    ("write 1 0x00*" + "9" * 6000, 1, "outside 0 to 65535"), ("open 3\nwrite 1 at 0 0x00*40000 0x00*30000", 2, "70032 bytes"),
    ("check 0", 1, "BYTES (or `-` for none) is missing"), ("check -1 -", 1, "outside 0 to"), ("check 0 0x00*65520", 1, "65536 bytes"),
    ('check 0 "abc', 1, "quotes are not closed"), ('check 0 "abc\\', 1, "quotes are not closed"),
    ('check 0 "abc\\"', 1, "quotes are not closed"),
    ('check 0 "a\\tb"', 1, "in quotes stands \\t"), ('check 0 "a\\x0"', 1, "in quotes stands \\x"),
    ('check 0 "a\\x0g"', 1, "in quotes stands \\x"), ('check 0 "\xe9"', 1, "write \\xe9"), ('check 0 "a\tb"', 1, "write \\x09"),
    ('check 0 "ab"0x00', 1, "no space between"), ('check 0 0x00"ab"', 1, "no space between"), ('check 0 "ab""cd"', 1, "no space between"),
    ("record", 1, "the tag is missing"), ("record 256 -", 1, "outside 0 to 255"), ("record -1 -", 1, "outside 0 to 255"),
    ("record 1", 1, "BYTES (or `-` for none) is missing"), ("record 1 0x00*65535 0x00", 1, "65536 bytes"),
    ("end", 1, "`end` has no bytes"), ("end -", 1, "`end` has no bytes"), ("open 3\nend 0x00*0", 2, "`end` has no bytes"),
    ("end 0x01\nopen 3", 2, "after `end` on line 1"), ("open 3\nend 0x01\n\n# x\nend 0x01", 5, "after `end` on line 2"),
    ("end 0x01*65538", 1, "outside 0 to 65537"), ("end 0x01\n?", 2, "after `end` on line 1"), ("end lot", 1, "`lot` is not bytes"),
    ("end 0x00*3", 1, "a whole record of 3 bytes"), ("open 3\n\nend 0x010800 0x03 0x00*7", 3, "a whole record of 11 bytes"),
    ("end 0x010800 0x03 0x00*7 0x01", 1, "a whole record of 11 bytes"), ('end 0xff0400 "LOT7"', 1, "a whole record of 7 bytes"),
    ("end 0x01*65537", 1, "a whole record of 260 bytes"), ("end 0x06ffff 0x00*65535", 1, "a whole record of 65538 bytes"),
    ("end 0x06ffff 0x00*65535 0x01", 1, "a whole record of 65538 bytes"),
    ("set", 1, "the displacement is missing"), ("set 0", 1, "`etype` is missing"), ("set 0 etype", 1, "the list of widths is missing"),
    ("set 0 4 at 0", 1, "`4` stands where `etype` is due"), ("set 0 etype 4", 1, "`at` is missing"),
    ("set 0 etype 4 at", 1, "the list of displacements is missing"), ("set 0 etype 4 at 0", 1, "`extent` is missing"),
    ("set 0 etype 4 at 0 extent", 1, "the extent is missing"), ("set 0 etype 4 at 0 extent 4", 1, "`filetype` is missing"),
    ("set 0 etype 4, at 0 extent 4", 1, "the width is ``, not a decimal number"),
    ("set 0 etype 4 ,1 at 0", 1, "`,1` stands where `at` is due"), ("set 0 etype -1 at 0", 1, "the width is -1, outside"),
    (f"set 0 etype 4 at {2**63}", 1, "the displacement is 9223372036854775808, outside"),
    ('set 0 etype "4" at 0', 1, "not a decimal number"),
    ("set 0 etype 4 at 0 extent 4 filetype 4 at 0 extent 4 like", 1, "`like` stands after the end"),
    ("set 0 etype 4 at 0 extent 4 filetype 4 at 0 extent 4 as", 1, "BYTES (or `-` for none) is missing"),
    ("set 0 etype 4 at 0 extent 4 filetype 4 at 0 extent 4 as native", 1, "`native` is not bytes"),
    (f"set 0 etype {','.join('1' * 8200)} at 0 extent 4 filetype 4 at 0 extent 4", 1, "and a record's length field holds at most 65535"),
)


def round_trip_fault(trace):
    """What is wrong with bin/trace's two ways for these bytes, or None."""
    text = PROGRAM.show(trace)
    if PROGRAM.assemble(text) != trace:
        return "assemble does not make the same bytes of what show prints"
    if PROGRAM.show(PROGRAM.assemble(text)) != text:
        return "show does not print the same text again"
    return None


def end_fault(trace):
    """What is wrong with bin/trace's `end` of these bytes, or None: it is good if `show` prints them as one `end`, else refused."""
    shown = PROGRAM.show(trace)
    try:
        data = PROGRAM.assemble(f"end 0x{trace.hex()}")
    except PROGRAM.Fault:
        data = None
    return None if data == (trace if shown.startswith("end ") else None) else "as an `end`, good and refused are mixed up"


def random_traces(number):
    """Random bytes, some with low tags and short lengths so that whole records stand in them."""
    rng = Random("texts")
    for _ in range(number):
        data = bytearray(rng.randbytes(rng.choice((1, 2, 3, 4, 10, 60, 300))))
        if rng.random() < 0.7:
            data = bytearray(rng.choice((0, 1, 1, 2, 3, 32, 65, 65, 92, 34, 35, 10)) if rng.random() < 0.8 else byte for byte in data)
        yield bytes(data)
    for tag in range(1, 7):
        for _ in range(number // 20):
            yield field(tag, rng.randbytes(rng.choice((8, 16, 24, 32, 40, 70)))) + field(tag, bytes(rng.choice((8, 16, 24, 32, 64))))
    alphabet = b'ab "\\#\0\xff\x7f~ -'
    for _ in range(number // 5):
        yield check(0, b"".join(bytes([rng.choice(alphabet)]) * rng.choice((1, 1, 1, 2, 3, 7, 8, 9)) for _ in range(12)))


def function_faults():
    for text, data in GOOD:
        if PROGRAM.assemble(text) != data:
            yield f"assemble: {text[:60]!r} makes other bytes"
    for data, text in SHOWN:
        if PROGRAM.show(data) != text:
            yield f"show: {PROGRAM.show(data)!r}, expected {text!r}"
        if PROGRAM.assemble(text) != data:
            yield f"assemble: {text!r} makes other bytes"
    for trace in random_traces(3_000):
        fault = round_trip_fault(trace) or end_fault(trace)
        if fault:
            yield f"{trace.hex()}: {fault}"
    for name in SHIFTS:
        trace = PROGRAM.assemble(name.read_text(encoding="ascii"))
        shown = PROGRAM.show(trace)
        if PROGRAM.assemble(shown) != trace or PROGRAM.show(PROGRAM.assemble(shown)) != shown:
            yield f"{name.name}: not the same after show and assemble"


def run(folder, *arguments, given=b""):
    return subprocess.run([TRACE, *arguments], cwd=folder, input=given, capture_output=True, timeout=60)


def is_one_line(data):
    return data.endswith(b"\n") and data.count(b"\n") == 1


def bad_text_fault(folder, text, line, message):
    """A refused text: status 1, one line that names file and line, and no trace made or changed."""
    (folder / "bad.txt").write_bytes(text.encode("latin-1"))
    (folder / "old").write_bytes(b"as it was")
    for target in ("new", "old"):
        done = run(folder, "assemble", "bad.txt", target)
        error = done.stderr.decode("utf-8", "replace")
        if done.returncode != 1 or done.stdout or not is_one_line(done.stderr):
            return f"status {done.returncode}, output {done.stdout!r}, {error!r}"
        if not error.startswith(f"bin/trace: bad.txt:{line}: ") or message not in error:
            return f"line {line} and {message!r} are due: {error!r}"
    if (folder / "new").exists() or (folder / "old").read_bytes() != b"as it was":
        return "a trace was written"
    return None


def command_faults(folder):
    """The command with files, with standard input and output, and wrongly used."""
    trace = open_file(3) + seek(1, 0)
    (folder / "a.txt").write_text("open 3\nseek 1 from start\n", encoding="ascii")
    done = run(folder, "assemble", "a.txt", "a.trace")
    if (done.returncode, done.stdout, done.stderr) != (0, b"", b"") or (folder / "a.trace").read_bytes() != trace:
        yield "assemble with two files"
    text = (folder / "a.txt").read_bytes()
    for arguments, given, output in ((("show", "a.trace"), b"", text), (("show", "-"), trace, text), (("assemble", "-", "-"), text, trace),
                                     (("assemble", "a.txt", "-"), b"", trace), (("show", "-"), b"", b"")):
        done = run(folder, *arguments, given=given)
        if (done.returncode, done.stdout, done.stderr) != (0, output, b""):
            yield f"{' '.join(arguments)}: status {done.returncode}, {done.stdout!r}, {done.stderr!r}"
    (folder / "bad.txt").write_text("open", encoding="ascii")
    (folder / "folder").mkdir()
    for arguments, given in ((("show", "nothing"), b""), (("show", "folder"), b""), (("assemble", "nothing", "b"), b""),
                             (("assemble", "folder", "b"), b""), (("assemble", "a.txt", "folder"), b""),
                             (("assemble", "a.txt", "a.txt"), b""), (("assemble", "a.txt", "nowhere/b"), b""),
                             (("assemble", "-", "b"), b"open")):
        done = run(folder, *arguments, given=given)
        if done.returncode != 1 or done.stdout or not is_one_line(done.stderr) or (folder / "b").exists():
            yield f"{' '.join(arguments)}: status {done.returncode}, {done.stdout!r}, {done.stderr!r}"
    if (folder / "a.txt").read_bytes() != text:
        yield "the text was overwritten"
    for arguments in ((), ("show",), ("assemble", "a.txt"), ("show", "a.trace", "b"), ("shew", "a.trace"), ("assemble", "a", "b", "c")):
        done = run(folder, *arguments)
        if done.returncode != 2 or done.stdout or b"bin/trace assemble TEXT TRACE" not in done.stderr:
            yield f"wrong use {' '.join(arguments)}: status {done.returncode}"
    done = run(folder, "--help")
    if done.returncode != 0 or done.stderr or b"bin/trace assemble TEXT TRACE" not in done.stdout:
        yield "--help"


# A command with a standard stream that cannot be used, and the stream that its one line on standard error names
CLOSED = (
    ("show a.trace >&-", "standard output"), ("assemble a.txt - >&-", "standard output"), ("--help >&-", "standard output"),
    ("show - <&-", "standard input"), ("assemble - b <&-", "standard input"), ("assemble - - <&- >&-", "standard input"),
    ("show a.trace >/dev/full", "standard output"), ("show long >/dev/full", "standard output"), ("--help >/dev/full", "standard output"),
)


def closed_stream_faults(folder):
    """One line and status 1. A stream that is not needed may be closed; with no standard error the status is still 1."""
    for words, stream in CLOSED + (("show nothing 2>&-", None), ("show - <&- 2>&-", None)):
        done = subprocess.run(f"'{TRACE}' {words}", shell=True, cwd=folder, capture_output=True, timeout=60)
        said = is_one_line(done.stderr) and done.stderr.startswith(f"bin/trace: {stream}".encode()) if stream else not done.stderr
        if done.returncode != 1 or done.stdout or not said or (folder / "b").exists():
            yield f"{words}: status {done.returncode}, {done.stdout!r}, {done.stderr!r}"
    done = subprocess.run(f"'{TRACE}' assemble a.txt b <&- >&-", shell=True, cwd=folder, capture_output=True, timeout=60)
    if done.returncode != 0 or done.stderr or (folder / "b").read_bytes() != (folder / "a.trace").read_bytes():
        yield f"assemble with two files and closed streams: status {done.returncode}, {done.stderr!r}"


def closed_pipe_faults(folder):
    (folder / "long").write_bytes(open_file(3) * 5_957 + check(0, b"abcd" * 8_000))
    done = subprocess.run(f"'{TRACE}' show long | head -n 1", shell=True, cwd=folder, capture_output=True, timeout=60)
    if (done.stdout, done.stderr) != (b"open 3\n", b""):
        yield f"a closed pipe: {done.stdout[:80]!r}, {done.stderr!r}"


def faults():
    yield from function_faults()
    with tempfile.TemporaryDirectory() as name:
        folder = Path(name)
        for text, line, message in BAD:
            fault = bad_text_fault(folder, text, line, message)
            if fault:
                yield f"{text[:60]!r}: {fault}"
        yield from command_faults(folder)
        yield from closed_pipe_faults(folder)
        yield from closed_stream_faults(folder)
