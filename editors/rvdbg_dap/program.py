"""A program's file: its symbols, as `docs/FORMATS.md` counts them, its lines (DWARF 2 to 5), and its source."""

import bisect
import collections
import contextlib
import functools
import os
import struct
import time

LONGEST_SEARCH = 1.0
NOWHERE = "%s isn't found in these folders, nor below them:\n\n%s\n\nThe launch argument `sourcePath` names others.\n"
SYMTAB, TEXT_FLAGS, FUNCTION, LARGEST = 2, 6, 2, 1 << 25
# Forms of DWARF: texts, which stand there or in a section, and numbers by their form of `struct`.
STRING, BLOCK, UDATA, TEXTS = 0x08, 0x09, 0x0F, {0x1F: ".debug_line_str", 0x0E: ".debug_str"}
DATA = {0x0B: "B", 0x05: "H", 0x06: "I", 0x07: "Q", 0x1E: "16s"}
UNREADABLE = (struct.error, ValueError, LookupError, StopIteration, ZeroDivisionError)
# A row: the address, the file with its folders, the line, and whether a statement begins there.
Row = collections.namedtuple("Row", "address path line is_stmt")


def text_at(content, at):
    return content[at : content.index(b"\0", at)].decode("utf-8", "surrogateescape")


def units(content):
    at = 0
    while at + 4 <= len(content):
        begins, at = at + 4, at + 4 + int.from_bytes(content[at : at + 4], "little")
        yield content[begins:at]


def tail(one, other):
    """How many names two paths have in common at their ends."""
    return len(os.path.commonprefix([one.split("/")[::-1], other.split("/")[::-1]]))


class Unit:
    """A unit of the line tables: its files, and its rows' program with how many operands each operation has."""

    def __init__(self, content, sections):
        self.content, self.at, self.sections = content, 0, sections
        (version,) = self.take("H")
        self.first = int(version < 5)
        (length,) = self.take("I" if version < 5 else "xxI")
        begins = self.at + length
        self.step, is_stmt, self.base, self.range, count = self.take("BBbBB" if version < 4 else "BxBbBB")
        self.is_stmt, self.counts = is_stmt > 0, (0, *self.take("%dB" % (count - 1)))
        self.files, self.at = [os.path.normpath(os.path.join(*it)) for it in self.named()], begins

    def take(self, form):
        found = struct.unpack_from("<" + form, self.content, self.at)
        self.at += struct.calcsize("<" + form)
        return found

    def leb(self, is_signed=False):
        """A number of variable length, DWARF 5, section 7.6."""
        found = [*self.take("B")]
        while found[-1] & 0x80:
            found += self.take("B")
        value = sum((byte & 0x7F) << 7 * at for at, byte in enumerate(found))
        return value - (1 << 7 * len(found)) if is_signed and found[-1] & 0x40 else value

    def text(self):
        begins, self.at = self.at, self.content.index(b"\0", self.at) + 1
        return text_at(self.content, begins)

    def named(self):
        """The folders and the name of each file. Folder 0 is the compiler's, of which only version 5 tells."""
        if self.first:
            folders = ["", *iter(self.text, "")]
            rows = [(name, self.leb(), self.leb(), self.leb()) for name in iter(self.text, "")]
            return [(folders[at], name) for name, at, _, _ in rows]
        folders = [it.get(1, "") for it in self.entries()]
        return [(folders[0], folders[it.get(2, 0)], it.get(1, "")) for it in self.entries()]

    def entries(self):
        forms = [(self.leb(), self.leb()) for _ in range(*self.take("B"))]
        return [{kind: self.value(form) for kind, form in forms} for _ in range(self.leb())]

    def value(self, form):
        if form in TEXTS:
            return text_at(self.sections[TEXTS[form]], *self.take("I"))
        if form in (STRING, UDATA):
            return self.text() if form == STRING else self.leb()
        return self.take("%ds" % self.leb() if form == BLOCK else DATA[form])[0]

    def sequences(self):
        """The rows of each sequence and the address behind them: DWARF 5, section 6.2.5."""
        rows, start = [], (0, 1, 1, self.is_stmt)
        address, file, line, is_stmt = start
        while self.at < len(self.content):
            (code,) = self.take("B")
            special = code - len(self.counts)
            if special >= 0:
                address, line = address + special // self.range * self.step, line + self.base + special % self.range
            elif code == 0:
                ends, (kind,) = self.leb() + self.at, self.take("B")
                (address,) = self.take("I") if kind == 2 else (address,)
                self.at = ends
                if kind == 1:
                    yield rows, address
                    rows, (address, file, line, is_stmt) = [], start
            elif code == 9:
                address += self.take("H")[0]
            else:
                operand, *_ = [self.leb(code == 3) for _ in range(self.counts[code])] + [0]
                address += {2: operand, 8: (255 - len(self.counts)) // self.range}.get(code, 0) * self.step
                line, file = line + operand * (code == 3), operand if code == 4 else file
                is_stmt = is_stmt != (code == 6)
            if code == 1 or special >= 0:
                rows.append(Row(address, self.files[file - self.first], line, is_stmt))


class Program:
    """What is read of a file. What can't be read isn't there: the debugger says what is wrong with it."""

    def __init__(self, path):
        self.path, self.sections, self.texts, self.symbols, self.functions, self.units = path, {}, [], {}, [], []
        with contextlib.suppress(OSError, *UNREADABLE), open(path, "rb") as file:
            self.read(file.read(LARGEST))
        for content in units(self.sections.get(".debug_line", b"")):
            with contextlib.suppress(*UNREADABLE):
                self.units.append(Unit(content, self.sections))
        self.files = {it for unit in self.units for it in unit.files}
        # Whether variables may be there that the debugger doesn't read: in units of DWARF 5.
        versions = [int.from_bytes(it[:2], "little") for it in units(self.sections.get(".debug_info", b""))]
        self.has_unread = max(versions, default=0) > 4
        self.lacks = "its variables in the form of DWARF 5, which isn't read" if self.has_unread else ""
        self.lacks = self.lacks if self.units else "no table of lines"

    def read(self, whole):
        """Reads the sections, System V gABI 4.4, and those of the first table of symbols that count."""
        at, count, last = struct.unpack_from("<I12xHH", whole, 32)
        rows = [struct.unpack_from("<10I", whole, at + 40 * number) for number in range(count)]
        for name, _, flags, address, place, size, *_ in rows:
            self.sections.setdefault(text_at(whole, rows[last][4] + name), whole[place : place + size])
            self.texts += [range(address, address + size)] if flags & TEXT_FLAGS == TEXT_FLAGS else []
        _, _, _, _, place, size, names, *_ = next(it for it in rows if it[1] == SYMTAB)
        strings = whole[rows[names][4] :]
        for name, address, size, info, _, section in struct.iter_unpack("<IIIBBH", whole[place : place + size]):
            name, kind = text_at(strings, name), info & 15
            if kind <= FUNCTION and section and name and name[0] != "$":
                self.symbols.setdefault(name, set()).add((address, size))
                self.functions += [(address, name, size)] if kind == FUNCTION else []
        self.functions.sort()

    def is_text(self, address):
        return any(address in it for it in self.texts)

    def near(self, address):
        at = bisect.bisect(self.functions, (address, "\U0010ffff")) - 1
        begins, name, size = self.functions[at] if at >= 0 else (0, "", 1)
        return "%s+%d" % (name, address - begins) if name and (size == 0 or address - begins < size) else ""

    @functools.cached_property
    def sequences(self):
        """All rows, in sequences in text, each with the address behind it. They are read where they are asked for."""
        found = []
        for unit in self.units:
            with contextlib.suppress(*UNREADABLE):
                found += [it for it in unit.sequences() if it[0] and self.is_text(it[0][0].address)]
        return found

    def row(self, address):
        for rows, ends in self.sequences:
            if rows[0].address <= address < ends:
                behind = bisect.bisect(rows, (address + 1,))
                there = rows[bisect.bisect(rows, (rows[behind - 1].address,)) : behind]
                return ([it for it in there if it.is_stmt] or there)[-1]

    def address(self, files, line):
        """The least address of the least line from this one on with a statement in one of these files, or None."""
        rows = [it for rows, _ in self.sequences for it in rows if it.is_stmt and it.path in files and it.line >= line]
        return min(((it.line, it.address) for it in rows), default=(0, None))[1]

    def closest(self, path):
        """Of the files with the last name of a path those whose folders have most in common with its own."""
        most = max((tail(it, path) for it in self.files), default=0)
        return {it for it in self.files if most and tail(it, path) == most}


def shown(name):
    """A name as the editor can be told it: what isn't UTF-8 in it is replaced."""
    return name.encode("utf-8", "surrogateescape").decode("utf-8", "replace")


class Sources:
    """Where files are: those that the editor named, then those in the folders, then what stands below them."""

    def __init__(self, program=None, folders=(), told=(), missing=()):
        self.program, self.folders, self.told, self.missing, self.found = program, folders, [*told], [*missing], {}

    def tell(self, path):
        self.told = [path] + [it for it in self.told if it != path]
        self.found.clear()

    def location(self, place):
        """Where a breakpoint at PATH:LINE goes: FILE:LINE, or an address where several files have that last name."""
        path, line = place.rsplit(":", 1)
        base, program = os.path.basename(path), self.program
        like, near = {it for it in program.files if shown(os.path.basename(it)) == base}, program.closest(path)
        address = program.address(near, int(line)) if near != like else None
        file = min(map(os.path.basename, like), default=base)
        return "%s:%d" % (file, int(line)) if address is None else "*0x%08x" % address

    def path(self, name):
        """The path of a file that the program's tables name, or None; of several the nearest to the program."""
        if name not in self.found:
            base = os.path.basename(name)
            near = [it for it in self.told if os.path.basename(it) == base]
            near += [os.path.join(it, name) for it in self.folders]
            near = [it for it in near if os.path.isfile(it) and self.is_like(it, name)]
            far = [] if near else [it for it in self.below.get(base, []) if self.is_like(it, name)]
            far.sort(key=lambda it: (-tail(it, name), -len(os.path.commonpath([it, self.program.path]))))
            self.found[name] = next(map(os.path.normpath, near + far), None)
        return self.found[name]

    def is_like(self, path, name):
        """Whether no other file of the program's has more folders in common with the path than this one."""
        return name not in self.program.files or name in (self.program.closest(path) or {name})

    @functools.cached_property
    def below(self):
        """The files below the folders by their last names, the upper ones first: what is found within a second."""
        ahead, found, ends = [*self.folders], {}, time.monotonic() + LONGEST_SEARCH
        for folder in ahead:
            with contextlib.suppress(OSError):
                for it in sorted(os.scandir(folder), key=lambda it: it.name):
                    if not it.is_dir(follow_symlinks=False):
                        found.setdefault(it.name, []).append(it.path)
                    elif not it.name.startswith("."):
                        ahead.append(it.path)
            if time.monotonic() > ends:
                break
        return found

    def source(self, name, address):
        """What the editor is told of an address's file. One that isn't found, or can't be named, has a number."""
        like = self.program.closest(os.path.basename(name))
        row = self.program.row(address) if len(like) > 1 else None
        name = row.path if row and row.path in like else min(like, default=name)
        path = self.path(name)
        if path and shown(path) == path:
            return {"name": os.path.basename(path), "path": path}
        self.missing += [name] if name not in self.missing else []
        told = {"name": shown(os.path.basename(name)), "sourceReference": 1 + self.missing.index(name)}
        return dict(told, presentationHint="deemphasize")

    def text(self, reference):
        """The text of a file whose name can't be told, or one in the place of a file that isn't found."""
        name = self.missing[reference - 1]
        if self.path(name):
            with open(self.path(name), encoding="utf-8", errors="replace") as file:
                return file.read()
        return NOWHERE % (shown(name), "\n".join("    " + it for it in self.folders))
