"""Sections of debugging information that chance makes: near enough to the standard to be read for a while, and odd in places.

Each maker takes the dice and a function `place` that gives an address, mostly one of text.
"""

import struct

from fuzz.mutants import WORDS

ADDRESSES = (0, 4, 0x10000, 0xFFFFFFFC)
FILE_FORMS = (0x08, 0x1F, 0x0E, 0x0F, 0x0B, 0x05, 0x06, 0x07, 0x1E, 0x09, 0x33)


def uleb(number):
    """A number as ULEB128."""
    made = bytearray()
    while True:
        byte, number = number & 0x7F, number >> 7
        made.append(byte | (0x80 if number else 0))
        if not number:
            return bytes(made)


def sleb(number):
    """A number as SLEB128."""
    made = bytearray()
    while True:
        byte, number = number & 0x7F, number >> 7
        if number == (-1 if byte & 0x40 else 0):
            return bytes([*made, byte])
        made.append(byte | 0x80)


def any_uleb(dice):
    """A number that may be large, longer than it need be, or too wide."""
    number = dice.choice((dice.randrange(8), dice.randrange(8), dice.randrange(300), dice.choice(WORDS), dice.getrandbits(64)))
    if dice.randrange(30):
        return uleb(number)
    return bytes(it | 0x80 for it in uleb(number)) + b"\x80" * dice.randrange(12) + b"\0"


def any_sleb(dice):
    """The same with a sign."""
    number = dice.choice((dice.randrange(-4, 4), dice.randrange(-4, 4), dice.randrange(-200, 200), dice.getrandbits(64) - (1 << 63)))
    return sleb(number) if dice.randrange(30) else b"\xff" * dice.randrange(12) + b"\x7f"


def usual(dice, value, *others):
    """A value, and now and then another one."""
    return value if dice.randrange(12) else dice.choice(others or WORDS)


def counted(content, size=4):
    """Bytes behind the number of them."""
    return (len(content) % (1 << 8 * size)).to_bytes(size, "little") + content


def line_operation(dice, place):
    """One operation of a line number program."""
    kind = dice.randrange(12)
    if kind < 5:
        return bytes([dice.randrange(256)])
    if kind < 7:
        return b"\0\5\2" + struct.pack("<I", place())
    if kind == 7:
        return b"\0\1\1"
    if kind == 8:
        content = bytes([usual(dice, 3, 4, 0, 0x80)]) + b"name.c\0" + any_uleb(dice) * 3
        return b"\0" + uleb(usual(dice, len(content), 0, 1, 200)) + content
    if kind == 9:
        return b"\x03" + any_sleb(dice)
    return bytes([dice.choice((2, 4, 5, 9, 12))]) + any_uleb(dice)


def file_tables(dice, version):
    """The directories and files of a header."""
    if version < 5:
        files = b"".join(b"file%d.c\0" % it + any_uleb(dice) * 3 for it in range(dice.randrange(4)))
        return b"folder\0" * dice.randrange(3) + b"\0" + files + b"\0"
    made = b""
    for _ in range(2):
        forms = [(usual(dice, 1, 2, 3, 4, 5), dice.choice(FILE_FORMS)) for _ in range(dice.randrange(3))]
        count = dice.randrange(4)
        made += bytes([len(forms)]) + b"".join(uleb(it) + uleb(form) for it, form in forms) + uleb(usual(dice, count))
        made += b"".join(form_value(dice, form, lambda: 0) for _ in range(count) for _, form in forms)
    return made


def line_unit(dice, place):
    """One unit of `.debug_line`."""
    version = usual(dice, dice.choice((2, 3, 4, 5)), 0, 1, 6, 0xFFFF)
    base = usual(dice, dice.choice((10, 13)), 0, 1, 4, 255)
    rest = bytes([usual(dice, 1, 0, 2, 4, 255)]) + (b"\1" if version >= 4 else b"")
    rest += bytes([dice.randrange(2), dice.choice((0xFB, 0xF6, 0, 0x80))])
    rest += bytes([usual(dice, 14, 0, 1, 255), base]) + bytes((0, 1, 1, 1, 1, 0, 0, 0, 1, 0, 0, 1) + (1,) * 243)[: max(0, base - 1)]
    rest += file_tables(dice, version)
    operations = b"".join(line_operation(dice, place) for _ in range(dice.choice((0, 5, 20, 80)))) + usual(dice, b"\0\1\1", b"")
    sizes = usual(dice, b"\4\0", b"\x08\0", b"\4\1") if version == 5 else b""
    body = struct.pack("<H", version) + sizes + struct.pack("<I", usual(dice, len(rest))) + rest + operations
    return struct.pack("<I", usual(dice, len(body), 0, len(body) - 1, len(body) + 9, 0xFFFFFFFF)) + body


def lines(dice, place):
    """The three sections of line tables."""
    units = b"".join(line_unit(dice, place) for _ in range(dice.choice((1, 1, 2, 5))))
    texts = {".debug_line_str": b"a.c\0bc.c\0" * dice.randrange(3), ".debug_str": b"x\0name\0"[: dice.choice((7, 7, 6, 0))]}
    return {".debug_line": units, **texts}


def frame_operation(dice, place):
    """One operation of a call frame program."""
    kind = dice.randrange(10)
    if kind < 2:
        return bytes([0x40 | dice.randrange(64)])
    if kind < 4:
        return bytes([0x80 | dice.randrange(40)]) + any_uleb(dice)
    if kind == 4:
        return bytes([0xC0 | dice.randrange(64)])
    if kind == 5:
        return dice.choice((b"\x0a", b"\x0b", b"\x0a" * 9, b"\x0a\x0b" * 30))
    if kind == 6:
        return b"\x01" + struct.pack("<I", place())
    if kind == 7:
        return dice.choice((b"\x0c", b"\x05", b"\x09", b"\x14")) + any_uleb(dice) * 2
    if kind == 8:
        return dice.choice((b"\x12", b"\x11", b"\x15")) + any_uleb(dice) + any_sleb(dice)
    return bytes([dice.randrange(64)]) + any_uleb(dice) * dice.randrange(3)


def frames(dice, place):
    """The section `.debug_frame`."""
    made, starts = b"", [0]
    for _ in range(dice.choice((2, 3, 8, 30))):
        operations = b"".join(frame_operation(dice, place) for _ in range(dice.choice((0, 3, 10, 60))))
        if not made or dice.randrange(4) == 0:
            starts.append(len(made))
            version = usual(dice, dice.choice((1, 3, 4)), 0, 2, 5, 255)
            head = b"\xff\xff\xff\xff" + bytes([version]) + usual(dice, b"\0", b"zR\0", b"eh\0")
            head += (b"\4\0" if version == 4 else b"") + any_uleb(dice) + any_sleb(dice)
            content = head + usual(dice, b"\1", b"\5", b"\x21", b"\xff") + b"\x0c\2\0" + operations
        else:
            reference = usual(dice, dice.choice(starts))
            content = struct.pack("<III", reference, place(), usual(dice, dice.randrange(64) * 4)) + operations
        made += counted(content) if dice.randrange(20) else struct.pack("<I", dice.choice(WORDS)) + content
    return {".debug_frame": made}


TAGS = (0x11, 0x2E, 0x05, 0x34, 0x0B, 0x0F, 0x16, 0x24, 0x26, 0x35, 0x1D, 0x13)
NAMES = (0x01, 0x02, 0x03, 0x0B, 0x11, 0x12, 0x31, 0x3E, 0x40, 0x49, 0x55)
FORMS = (0x01, *range(0x03, 0x1A), 0x20)
FITTING = {0x02: (0x0A, 0x18, 0x17), 0x03: (0x08, 0x0E), 0x11: (0x01,), 0x12: (0x01, 0x06), 0x40: (0x0A, 0x18)}
FITTING.update({0x49: (0x13, 0x11), 0x0B: (0x0B,), 0x3E: (0x0B,)})
# How many bytes a form has that is a number of a fixed width.
WIDTHS = {0x05: 2, 0x06: 4, 0x07: 8, 0x0B: 1, 0x0C: 1, 0x0E: 4, 0x10: 4, 0x11: 1, 0x12: 2, 0x13: 4, 0x14: 8, 0x17: 4, 0x1E: 16, 0x1F: 4, 0x20: 8}


def location(dice, place):
    """An expression of one operation, mostly."""
    register = dice.randrange(32)
    fixed = b"\x03" + struct.pack("<I", place())
    offset = dice.choice((b"\x91", bytes([0x70 + register]))) + any_sleb(dice)
    one = dice.choice((fixed, offset, offset, bytes([0x50 + register]), b"\x9c"))
    return usual(dice, one, b"", one + b"\x9f", dice.randbytes(3))


def form_value(dice, form, place):
    """A value of a form, mostly."""
    if form == 0x01:
        return struct.pack("<I", place())
    if form == 0x08:
        return dice.choice((b"k", b"sum", b"total", b"a", b"\xff\"")) + b"\0"
    if form in (0x03, 0x04, 0x09, 0x0A, 0x18):
        content = location(dice, place)
        return uleb(len(content)) + content if form in (0x09, 0x18) else counted(content, {0x0A: 1, 0x03: 2, 0x04: 4}[form])
    if form in WIDTHS:
        number = usual(dice, dice.randrange(96))
        return (number % (1 << 8 * WIDTHS[form])).to_bytes(WIDTHS[form], "little")
    return b"" if form == 0x19 else any_sleb(dice) if form == 0x0D else any_uleb(dice)


def info_unit(dice, place, table):
    """One unit of `.debug_info` over a table of declarations."""
    content, open_entries = b"", 0
    for _ in range(dice.choice((3, 10, 40))):
        if open_entries and dice.randrange(3) == 0:
            content, open_entries = content + b"\0", open_entries - 1
            continue
        code = dice.choice(list(table)) if dice.randrange(40) else dice.randrange(200)
        content += uleb(code)
        _, children, attributes = table.get(code, (0, 0, ()))
        content += b"".join(form_value(dice, form, place) for _, form in attributes)
        open_entries += children
    content += b"\0" * open_entries
    head = struct.pack("<HI", usual(dice, dice.choice((2, 3, 4)), 0, 1, 5, 0xFFFF), usual(dice, 0)) + bytes([usual(dice, 4, 0, 8)])
    body = head + content
    return struct.pack("<I", usual(dice, len(body), len(body) - 1, len(body) + 5, 0xFFFFFFFF)) + body


def variables(dice, place):
    """The three sections of variables."""
    table, section = {}, b""
    for code in range(1, dice.choice((4, 9, 20))):
        names = dice.sample(NAMES, dice.randrange(6))
        attributes = [(it, dice.choice(FITTING.get(it, FORMS)) if dice.randrange(8) else dice.choice(FORMS)) for it in names]
        table[code] = (usual(dice, TAGS[(code - 1) % len(TAGS)], *TAGS), usual(dice, int(code in (1, 2, 5)), 0, 1), attributes)
        tag, children, attributes = table[code]
        pairs = b"".join(uleb(it) + uleb(form) for it, form in attributes)
        section += uleb(code) + uleb(tag) + bytes([children]) + pairs + b"\0\0"
    units = b"".join(info_unit(dice, place, table) for _ in range(dice.choice((1, 1, 2, 4))))
    texts = b"k\0sum\0total\0"[: dice.choice((12, 12, 11, 0))]
    return {".debug_info": units, ".debug_abbrev": section + usual(dice, b"\0", b""), ".debug_str": texts}
