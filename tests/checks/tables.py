"""Tables of lines that are larger than such tables could be once: rows of one unit, names, and names that are ends of one text.

What is wanted of each is the row at the program's entry, and which names there are: DWARF 5, section 6.2.
"""

import os
import sys

from checks.programs import LOOP, Section, plain

sys.path.append(os.path.join(os.path.dirname(os.path.realpath(__file__)), "..", "..", "bench"))

from line_tables import AHEAD, END, SAME, START, row_of, unit  # noqa: E402

ENTRY = 0x10074
ROWS, NAMES, ENDS = 4_194_303, 13_108, 2_000_000


def number(value):
    """A number of variable length."""
    low = value & 127
    return bytes([low]) if value < 128 else bytes([low | 128]) + number(value >> 7)


def line_after(rows):
    """The line of the last of so many rows: each special opcode that the tables have takes 5 from it, and the first begins at 1."""
    return (1 - 5 * rows) % 2**32


def with_files(places, files):
    """A unit whose files have their names at these places of .debug_line_str, and a row at the entry of each of some of the files."""
    table = b"\0\0\1\1\x1f" + number(len(places)) + b"".join(place.to_bytes(4, "little") for place in places)
    return unit(5, table, START + b"".join(b"\4" + number(file) + SAME for file in files) + AHEAD + END)


def inserted(number, file, line, location):
    """The answer to a breakpoint at the entry, of which this file and line are told."""
    told = 'number="%d",type="breakpoint",disp="keep",enabled="y",addr="0x%08x",file="%s",line="%d",times="0"' % (number, ENTRY, file, line)
    return '^done,bkpt={%s,original-location="%s"}' % (told, location)


def check_table(rig, name, sections, asked):
    """Whether breakpoints at these locations have these answers in a program with such sections."""
    rig.put("program", plain(LOOP, b"", [Section(*it) for it in sections]))
    lines = "".join("-break-insert %s\n" % location for location, _ in asked)
    status, output = rig.run(["--workers", "0", "program"], lines.encode())
    answers = [line for line in output.decode().splitlines() if line.startswith("^")]
    rig.row(name, (status, answers), (0, [answer for _, answer in asked]))


def check_tables(rig):
    """Runs the debugger over a table that is past each of the old limits."""
    entry, line, last = "*0x%x" % ENTRY, "a.c:1", line_after(ROWS)
    asked = [(entry, inserted(1, "a.c", last, entry)), (line, inserted(2, "a.c", last, line))]
    check_table(rig, "rows of one unit", [(b".debug_line", row_of(ROWS))], asked)

    names = [b"%020d\0" % k for k in range(NAMES)]
    table = with_files(range(0, 21 * NAMES, 21), range(NAMES))
    one, none = "%020d:1" % 0, "%020d:1" % NAMES
    asked = [(one, inserted(1, "%020d" % (NAMES - 1), line_after(NAMES), one)), (none, '^error,msg="No line 1 in file %020d"' % NAMES)]
    check_table(rig, "names", [(b".debug_line", table), (b".debug_line_str", b"".join(names))], asked)

    table = with_files(range(ENDS), [ENDS - 40, ENDS - 1])
    one, none = "a" * 40 + ":1", "a" * 41 + ":1"
    asked = [(one, inserted(1, "a", line_after(2), one)), (none, '^error,msg="No line 1 in file %s"' % ("a" * 41))]
    check_table(rig, "names that are ends of one text", [(b".debug_line", table), (b".debug_line_str", b"a" * ENDS + b"\0")], asked)
