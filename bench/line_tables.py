"""Line tables of one file, made to be large: DWARF 5, section 6.2."""

import os
import struct
import sys

sys.dont_write_bytecode = True
sys.path.insert(0, os.path.join(os.path.dirname(os.path.realpath(__file__)), "..", "tests"))

from checks.programs import TEXT_AT, TEXT_BASE  # noqa: E402

# How many rows a large table has.
ROWS = 4_194_304
STANDARD_LENGTHS = bytes([0, 1, 1, 1, 1, 0, 0, 0, 1])
# Instructions of 255 bytes and special opcodes from 10 on, each for one instruction more: 255 is 62,475 bytes, and so is
# DW_LNS_const_add_pc.
COMMON = struct.pack("<BBBbBB", 255, 1, 1, -5, 1, 10) + STANDARD_LENGTHS
START = b"\0\5\2" + struct.pack("<I", TEXT_BASE + TEXT_AT)
SAME, FAR, AHEAD, END = b"\x0a", b"\xff", b"\x08", b"\0\1\1"
# A sequence of one row at 124,950, in text, and its end behind it.
ONE = AHEAD + FAR + AHEAD + END


def unit(version, header, program):
    """A unit of that version, with what the header has behind the counts of the operands."""
    sizes = b"\4\0" if version == 5 else b""
    body = struct.pack("<H", version) + sizes + struct.pack("<I", len(COMMON + header)) + COMMON + header + program
    return struct.pack("<I", len(body)) + body


def of_file(program):
    """A unit of the file a.c."""
    return unit(4, b"\0a.c\0\0\0\0\0", program)


def row_of(count):
    """A unit of one sequence of rows of one byte each."""
    return of_file(START + SAME * count + AHEAD + END)
