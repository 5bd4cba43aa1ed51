"""Programs for the debugger, made of words, bytes and sections, so that few binaries stand in the repository."""

import struct

TEXT_BASE = 0x00010000
TEXT_AT = 116
DATA_BASE = 0x00020000

EXIT = [0x05D00893, 0x00000513, 0x00000073]
LOOP = [0x0000006F]

PROGBITS, SYMTAB, STRTAB = 1, 2, 3
FUNCTION, OBJECT = 0x12, 0x11


class Section:
    """A section of debugging information or of symbols, which no segment loads."""

    def __init__(self, name, content, kind=PROGBITS, link=0, info=0, alignment=1, entry=0):
        self.name, self.content = name, content
        self.kind, self.link, self.info, self.alignment, self.entry = kind, link, info, alignment, entry


def header(table_at, count):
    """The ELF header of a file with so many section headers at that place, of which the last is that of the names."""
    ident = b"\x7fELF\x01\x01\x01" + bytes(9)
    fields = (2, 243, 1, TEXT_BASE + TEXT_AT, 52, table_at, 0, 52, 32, 2, 40, count, count - 1)
    return ident + struct.pack("<HHIIIIIHHHHHH", *fields)


def segments(text_size, data_size):
    """The two program headers: text with the headers before it, and data."""
    end = TEXT_AT + text_size
    rows = [
        (1, 0, TEXT_BASE, TEXT_BASE, end, end, 5, 4),
        (1, end, DATA_BASE, DATA_BASE, data_size, data_size, 6, 1),
    ]
    return b"".join(struct.pack("<8I", *row) for row in rows)


def section_headers(text_size, data_size, more, names):
    """The section headers: none, text, data, more of them and the names."""
    data_at = TEXT_AT + text_size
    rows = [
        (0,) * 10,
        (names.index(b".text"), 1, 6, TEXT_BASE + TEXT_AT, TEXT_AT, text_size, 0, 0, 4, 0),
        (names.index(b".data"), 1, 3, DATA_BASE, data_at, data_size, 0, 0, 1, 0),
    ]
    at = data_at + data_size
    for it in [*more, Section(b".shstrtab", names, STRTAB)]:
        place = names.index(it.name + b"\0")
        rows.append((place, it.kind, 0, 0, at, len(it.content), it.link, it.info, it.alignment, it.entry))
        at += len(it.content)
    return b"".join(struct.pack("<10I", *row) for row in rows)


def plain(words, data=b"", more=()):
    """A file of these words, with text at 0x00010074, these bytes at 0x00020000, and more sections."""
    text = struct.pack("<%dI" % len(words), *words)
    names = b"\0.text\0.data\0" + b"".join(it.name + b"\0" for it in more) + b".shstrtab\0"
    body = text + data + b"".join(it.content for it in more) + names
    table = section_headers(len(text), len(data), more, names)
    return header(TEXT_AT + len(body), 4 + len(more)) + segments(len(text), len(data)) + body + table


# `_start` and then `work`, which adds 1 to `count` as often as `limit` says.
COUNTING = """
    00020737 00472583 010000ef 05d00893 00000513 00000073
    ff010113 00112623 00020637 00100693 00d6252f fff58593 fe059ce3 00c12083 01010113 00008067
"""

# Rows of count.c: 0x1008c line 10, 0x10094 line 11, 0x1009c line 12, 0x100a0 line 13, 0x100a8 line 14, end 0x100b4.
COUNTING_LINES = """
    38 00 00 00 04 00 1f 00 00 00 01 01 01 fb 0e 0d 00 01 01 01 01 00 00 00 01 00 00 01 00 63 6f 75 6e 74 2e 63 00 00 00
    00 00 00 05 02 8c 00 01 00 03 09 01 83 83 4b 83 02 0c 00 01 01
"""


def entry(*parts):
    """An entry of `.debug_frame`: the length of its bytes, and they."""
    content = b"".join(parts)
    return struct.pack("<I", len(content)) + content


def counting_frames(pairs):
    """The frames of `work`. So many times its programs remember a state and restore it where that changes nothing."""
    idle = bytes.fromhex("0a 0b") * pairs
    cie = entry(bytes.fromhex("ff ff ff ff 03 00 01 7c 01 0c 02 00"), idle)
    pushed, popped, left = (bytes.fromhex(it) for it in ("44 0e 10 44 81 01", "58 c1", "44 0e 00 00"))
    return cie + entry(struct.pack("<III", 0, 0x1008C, 40), pushed, idle, popped, idle, left)


def counting(number, pairs=0):
    """A program whose harts each add 1 to a counter so often, with its symbols, lines and frames."""
    symbols = [(1, 0x10074, 24, FUNCTION, 1), (8, 0x1008C, 40, FUNCTION, 1)]
    symbols += [(13, 0x20000, 4, OBJECT, 2), (19, 0x20004, 4, OBJECT, 2)]
    table = bytes(16) + b"".join(struct.pack("<IIIBBH", *it[:4], 0, it[4]) for it in symbols)
    more = [
        Section(b".symtab", table, SYMTAB, link=4, info=1, alignment=4, entry=16),
        Section(b".strtab", b"\0_start\0work\0count\0limit\0", STRTAB),
        Section(b".debug_line", bytes.fromhex(COUNTING_LINES)),
        Section(b".debug_frame", counting_frames(pairs)),
    ]
    return plain([int(word, 16) for word in COUNTING.split()], struct.pack("<II", 0, number), more)


def read_program(text):
    """The file that a `program` text describes.

    Its lines have words of eight hexadecimal digits and then bytes of two; `section NAME` and bytes make a section;
    `counting N` alone is the program of `counting`; `cut N` keeps the first N bytes of the file, `set PLACE XX` puts a
    byte, and `#` begins a comment.
    """
    words, data, more, edits, whole = [], [], [], [], None
    for line in text.splitlines():
        tokens = line.split("#")[0].split()
        if not tokens:
            continue
        if tokens[0] in ("cut", "set"):
            edits.append(tokens)
        elif tokens[0] == "section":
            more.append(Section(tokens[1].encode(), bytes.fromhex("".join(tokens[2:]))))
        elif tokens[0] == "counting":
            whole = counting(int(tokens[1]))
        else:
            words += [int(token, 16) for token in tokens if len(token) == 8]
            data += [int(token, 16) for token in tokens if len(token) == 2]
            if any(len(token) not in (8, 2) for token in tokens):
                raise ValueError("neither words nor bytes: " + line)
    return edited(bytearray(whole or plain(words, bytes(data), more)), edits)


def edited(made, edits):
    """The bytes after `cut` and `set`."""
    for edit in edits:
        if edit[0] == "cut":
            del made[int(edit[1]) :]
        else:
            made[int(edit[1])] = int(edit[2], 16)
    return bytes(made)
