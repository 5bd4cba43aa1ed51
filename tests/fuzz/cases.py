"""Cases: a program's bytes, lines of input and the words of the command line, made by chance from what the repository has."""

import functools
import os
import re
import struct

from checks.programs import counting, plain, read_program
from fuzz import sections
from fuzz.mutants import WORDS, Dice, mutant

PROGRAMS = ("tests/programs/euclid-dwarf-4", "tests/programs/euclid-dwarf-5", "tests/programs/locks")
EXAMPLES = ("examples/lock/lock", "examples/mine/mine")
BUDGET = 20_000
ENTRY = struct.Struct("<10I")


class Case:
    """What one run gets."""

    def __init__(self, file, lines, words):
        self.file, self.lines, self.words = file, lines, words


class Seeds:
    """The files and lines that mutants are made from."""

    def __init__(self, top):
        folder = os.path.join(top, "tests", "programs", "variables")
        paths = [os.path.join(top, it) for it in PROGRAMS + EXAMPLES] + [os.path.join(folder, it) for it in sorted(os.listdir(folder))]
        self.files = [read(path) for path in paths] + [counting(3), plain([0x6F])]
        sessions = os.path.join(top, "tests", "sessions")
        names = sorted(os.listdir(sessions))
        texts = stored(sessions, names, "program")
        self.files = [it for it in self.files + [read_program(text.decode()) for text in texts] if is_whole(it)]
        self.with_part = {name: [it for it in self.files if part(it, name)] for name in (".debug_line", ".debug_frame", ".debug_info")}
        self.inputs = [it for it in stored(sessions, names, "input") if len(it) < 20_000]
        self.lines = sorted({line for text in self.inputs for line in text.split(b"\n") if len(line) < 300})
        self.words = sorted({word for line in self.lines for word in line.split()})


def stored(folder, names, part):
    """That file of the stored sessions that have it."""
    paths = [os.path.join(folder, name, part) for name in names]
    return [read(path) for path in paths if os.path.exists(path)]


def read(path):
    """A file's bytes."""
    with open(path, "rb") as file:
        return file.read()


def is_whole(file):
    """Whether all sections of a file have names."""
    try:
        return bool([section_name(file, header) for header in headers(file)])
    except (ValueError, IndexError, struct.error):
        return False


@functools.lru_cache(256)
def headers(file):
    """The places of the section headers of a file, which is well formed."""
    at, _, _, _, _, size, count, _ = struct.unpack_from("<IIHHHHHH", file, 32)
    return [at + size * number for number in range(count)]


def section_name(file, header):
    """The name of a section."""
    names = ENTRY.unpack_from(file, headers(file)[struct.unpack_from("<H", file, 50)[0]])
    begin = names[4] + ENTRY.unpack_from(file, header)[0]
    return file[begin : file.index(b"\0", begin)].decode()


@functools.lru_cache(256)
def part(file, name):
    """A section's header and bytes, or None."""
    for header in headers(file):
        if section_name(file, header) == name:
            fields = ENTRY.unpack_from(file, header)
            return header, file[fields[4] : fields[4] + fields[5]]
    return None


def with_section(file, name, content):
    """The file with other bytes in a section. It has to have one of that name."""
    found = part(file, name)
    if found is None:
        return file
    made = bytearray(file + content)
    struct.pack_into("<II", made, found[0] + 16, len(file), len(content))
    return bytes(made)


def text_span(file):
    """Where the text of a file begins and ends."""
    found = part(file, ".text")
    fields = ENTRY.unpack_from(file, found[0])
    return fields[3], fields[3] + fields[5]


def words(dice):
    """The words of the command line, without the file."""
    made = ["--workers", str(dice.choice((0, 0, 0, 0, 0, 0, 1, 2))), "--budget", str(BUDGET)]
    if dice.randrange(2):
        made += ["--harts", str(16 if dice.randrange(32) == 0 else dice.choice((1, 2, 3)))]
    if dice.randrange(2):
        made += ["--slots", str(dice.choice((0, 1, 2, 16, 512)))]
    if dice.randrange(4) == 0:
        made += ["--slice", str(dice.choice((0, 1, 16, 1024)))]
    return made


def visit(dice, file):
    """Lines that look at all that a file tells: its symbols, lines, frames and variables, at some places of its text."""
    begin, end = text_span(file) if part(file, ".text") else (0x10074, 0x10100)
    names = (b"main", b"run", b"work", b"shadows", b"add", b"_start")
    files = (b"variables.c:40", b"euclid.c:10", b"count.c:12", b"name.c:1", b"file0.c:0", b"lock.c:18", b"a.c:1", b"bc.c:2")
    lines = [b"-break-insert -t *0x%x" % (begin + 4 * dice.randrange(max(1, (end - begin) // 4))) for _ in range(3)]
    lines += [b"-break-insert " + dice.choice(names), b"-break-insert " + dice.choice(files), b"-thread-info"]
    for _ in range(dice.choice((1, 2, 4))):
        lines += [dice.choice((b"-exec-continue", b"-exec-step", b"-exec-next", b"-exec-finish", b"-exec-continue --all")), b"-exec-wait"]
        lines += [b"-stack-list-frames", b"-stack-list-variables --all-values"]
        lines += [b"-data-evaluate-expression " + dice.choice((b"k", b"sum", b"total + 1", b"{int} &total"))]
    return b"\n".join(lines + [b"-break-list"]) + b"\n"


def elf(dice, seeds):
    """A mutant of a file: of fields of its headers and symbols, or of any bytes."""
    file = dice.choice(seeds.files)
    lines = visit(dice, file)
    made = bytearray(file)
    kind = dice.randrange(4)
    if kind == 0:
        return Case(mutant(dice, file), lines, words(dice))
    fields = [(at, 2) for at in range(16, 20, 2)] + [(at, 4) for at in range(20, 40, 4)] + [(at, 2) for at in range(40, 52, 2)]
    tables = [fields, [(52 + at, 4) for at in range(0, 96, 4)], [(at + field, 4) for at in headers(file) for field in range(0, 40, 4)]]
    symbols = part(file, ".symtab")
    if symbols:
        begin = ENTRY.unpack_from(file, symbols[0])[4]
        tables.append([(begin + at, 4) for at in range(0, len(symbols[1]) - 3, 4)])
    for _ in range(dice.choice((1, 1, 2, 3, 6))):
        at, size = dice.choice(dice.choice(tables))
        old = int.from_bytes(made[at : at + size], "little")
        new = dice.choice((dice.choice(WORDS), old + dice.choice((-4, -1, 1, 4, 0x1000)), len(file), dice.getrandbits(32)))
        made[at : at + size] = (new % (1 << 8 * size)).to_bytes(size, "little")
    return Case(bytes(made[: len(file)]), lines, words(dice))


def of_sections(maker, names):
    """A kind: sections of a file that are mutants of its own, or made by chance."""

    def made(dice, seeds):
        file = dice.choice(seeds.with_part[names[0]])
        begin, end = text_span(file)
        lines = visit(dice, file)
        place = lambda: dice.choice((begin + 4 * dice.randrange((end - begin) // 4 + 1),) * 9 + sections.ADDRESSES)
        parts = maker(dice, place) if dice.randrange(2) else {name: part(file, name)[1] for name in names if part(file, name)}
        for name in parts:
            is_mutant = dice.randrange(2) or name == names[0] and dice.randrange(2)
            file = with_section(file, name, mutant(dice, parts[name]) if is_mutant else parts[name])
        return Case(file, lines, words(dice))

    return made


def some_line(dice, seeds):
    """A line: a stored one, words of stored ones, a mutant of one, or bytes of chance."""
    kind = dice.randrange(8)
    if kind < 2:
        return dice.choice(seeds.lines)
    if kind < 5:
        return b" ".join(odd_word(dice, dice.choice(seeds.words)) for _ in range(dice.choice((1, 2, 3, 4, 6, 40))))
    if kind < 7:
        return mutant(dice, dice.choice(seeds.lines))
    return dice.randbytes(dice.choice((1, 4, 30, 300, 4096, 5000)))


def odd_word(dice, word):
    """A word, and now and then an odd one in its place."""
    if dice.randrange(5):
        return word
    number = dice.choice((*WORDS, 1 << 32, 1 << 64, 10**18, 10**19))
    texts = (b'"' + word + b'"', b'"' + word, b"--", b"-", b'"\\777\\"', b"(" * dice.choice((1, 32, 33, 200)), b"-" * 60, word * 40)
    return dice.choice((b"%d" % number, b"0x%x" % number, *texts))


def session(dice, seeds):
    """Lines of chance over a file that stays as it is."""
    if dice.randrange(4) == 0:
        text = mutant(dice, dice.choice(seeds.inputs))
    else:
        token = lambda: dice.choice((b"", b"", b"", b"7", b"%d" % dice.getrandbits(70)))
        end = lambda: dice.choice((b"\n", b"\n", b"\n", b"\r\n", b""))
        text = b"".join(token() + some_line(dice, seeds) + end() for _ in range(dice.choice((1, 5, 30, 100))))
    return Case(dice.choice(seeds.files), text, words(dice))


KINDS = {
    "elf": elf,
    "lines": of_sections(sections.lines, (".debug_line", ".debug_line_str", ".debug_str")),
    "frames": of_sections(sections.frames, (".debug_frame",)),
    "variables": of_sections(sections.variables, (".debug_info", ".debug_abbrev", ".debug_str")),
    "input": session,
}


def case(seeds, kind, seed, number):
    """The case of a number, which is the same each time."""
    return KINDS[kind](Dice("%s %d %d" % (kind, seed, number)), seeds)


CHECKED = re.compile(rb"check (accepted \d+|rejected (Long|Line|Order|End|Unlawful|Differs) at \d+)\n")


def log_mutant(dice, log):
    """A transcript, of which lines are gone, doubled, moved or mutants."""
    lines = log.split(b"\n")
    for _ in range(dice.choice((1, 1, 2, 4))):
        at = dice.randrange(len(lines))
        one, other = lines[at], dice.choice(lines)
        lines[at : at + 1] = dice.choice(([], [one, one], [mutant(dice, one)], [other], [one, other]))
        lines = lines or [b""]
    return b"\n".join(lines)
