#!/usr/bin/env python3
"""Writes the last part of crates/test_files/stdin and stdout anew: the sections of program.c as gcc and clang write them, and
the variables at some addresses as readelf tells them. What stands before that part is written by hand, and stays."""
import os
import re
import subprocess
import tempfile

HERE = os.path.dirname(os.path.abspath(__file__))
SCRIPT = os.path.join(HERE, "../../crates/test_files")
PART = "# Sections that compilers wrote of tests/variables/program.c, and what readelf tells of them.\n"
FLAGS = "-march=rv32ima -mabi=ilp32 -ffreestanding -nostdlib -g -Wl,-Ttext=0x10074".split() + [f"-fdebug-prefix-map={HERE}=/"]
COMPILERS = {
    "gcc": ["riscv64-unknown-elf-gcc"],
    "clang": ["clang", "--target=riscv32", "-fuse-ld=lld"],
}
SECTIONS = (("info", ".debug_info"), ("abbrevs", ".debug_abbrev"), ("strs", ".debug_str"))
SIGNED, UNSIGNED = (5, 6), (2, 7, 8)
MODIFIERS = ("typedef", "const_type", "volatile_type")


def run(*words):
    return subprocess.run(words, check=True, capture_output=True, cwd=HERE).stdout.decode()


class Entry:
    """An entry of readelf's list, with what it prints of each attribute."""

    def __init__(self, level, offset, abbreviation, tag, above):
        self.level, self.offset, self.abbreviation, self.tag, self.above = level, offset, abbreviation, tag, above
        self.attributes = {}


def entries_of(path):
    entries, open_entries = [], []
    for line in run("readelf", "--debug-dump=info", path).splitlines():
        head = re.match(r" <([0-9a-f]+)><([0-9a-f]+)>: Abbrev Number: (\d+)(?: \(DW_TAG_(\w+)\))?", line)
        attribute = re.match(r"    <[0-9a-f]+>   DW_AT_(\w+) *: (.*)$", line)
        if head and head[4]:
            level = int(head[1], 16)
            del open_entries[level:]
            above = open_entries[-1] if open_entries else None
            entries.append(Entry(level, int(head[2], 16), int(head[3]), head[4], above))
            open_entries.append(entries[-1])
        elif attribute and entries:
            entries[-1].attributes.setdefault(attribute[1], attribute[2].strip())
    return entries


def lengths_of(path):
    """The numbers of abbreviations whose DW_AT_high_pc is a length."""
    number, lengths = None, set()
    for line in run("readelf", "--debug-dump=abbrev", path).splitlines():
        head = re.match(r" +(\d+) +DW_TAG_", line)
        number = int(head[1]) if head else number
        if "DW_AT_high_pc" in line and "DW_FORM_addr" not in line:
            lengths.add(number)
    return lengths


class Program:
    def __init__(self, path):
        self.entries, self.lengths = entries_of(path), lengths_of(path)
        self.by_offset = {entry.offset: entry for entry in self.entries}

    def range_of(self, entry):
        low, high = (entry.attributes.get(name) for name in ("low_pc", "high_pc"))
        if low is None or high is None:
            return None
        low, high = int(low, 16), int(high, 16)
        return (low, low + high if entry.abbreviation in self.lengths else high)

    def covers(self, entry, pc):
        span = self.range_of(entry)
        return span is not None and span[0] <= pc < span[1]

    def kind_of(self, entry):
        for _ in range(18):
            of = re.fullmatch(r"<0x([0-9a-f]+)>", entry.attributes.get("type", ""))
            if of is None:
                return "other"
            entry = self.by_offset[int(of[1], 16)]
            if entry.tag not in MODIFIERS:
                break
        if entry.tag == "pointer_type":
            return "pointer"
        if entry.tag != "base_type":
            return "other"
        size, encoding = (int(entry.attributes[name].split()[0]) for name in ("byte_size", "encoding"))
        word = "signed" if encoding in SIGNED else "unsigned" if encoding in UNSIGNED else None
        return f"{word}{size}" if word and size in (1, 2, 4) else "other"

    def line_of(self, entry, base, listed):
        name = entry.attributes["name"].split("): ")[-1]
        marks = (" argument" if entry.tag == "formal_parameter" else "") + (" listed" if listed else "")
        return f"{name} {self.kind_of(entry)} {place_of(entry, base)} {base}{marks}"

    def is_seen(self, entry, function, pc):
        above = entry.above
        while above is not None and above is not function:
            if above.tag != "lexical_block" or not self.covers(above, pc):
                return False
            above = above.above
        return above is function

    def variables_at(self, pc):
        function = next((e for e in self.entries if e.tag == "subprogram" and self.covers(e, pc)), None)
        if function is None:
            return "nothing"
        base = base_of(function)
        named = [e for e in self.entries if "name" in e.attributes and e.tag in ("variable", "formal_parameter")]
        own = sorted((e for e in named if self.is_seen(e, function, pc)), key=lambda e: -e.level)
        unit = [e for e in named if e.tag == "variable" and e.level == 1 and place_of(e, base).startswith("at")]
        lines = [self.line_of(e, base, True) for e in own] + [self.line_of(e, base, False) for e in unit]
        return "; ".join(lines) or "nothing"

    def places(self):
        """The first and the last instruction of each function and block, and the place behind it."""
        spans = [self.range_of(e) for e in self.entries if e.tag in ("subprogram", "lexical_block")]
        return sorted({pc for span in spans if span for pc in (span[0], span[1] - 4, span[1])})


def operation_of(entry, name):
    """The operation of an expression as readelf prints it, of which there may be several."""
    found = re.search(r"byte block: .*\t\((.*)\)$", entry.attributes.get(name, ""))
    return found[1] if found else ""


def base_of(function):
    text = operation_of(function, "frame_base")
    own = re.fullmatch(r"DW_OP_reg(\d+)(?: \(\w+\))?", text)
    plus = re.fullmatch(r"DW_OP_breg(\d+)(?: \(\w+\))?: (-?\d+)", text)
    if own:
        return f"x{own[1]}"
    if plus:
        return f"x{plus[1]}{int(plus[2]):+}"
    return "cfa" if text == "DW_OP_call_frame_cfa" else "other"


def place_of(entry, base):
    text = operation_of(entry, "location")
    fixed = re.fullmatch(r"DW_OP_addr: ([0-9a-f]+)", text)
    frame = re.fullmatch(r"DW_OP_fbreg: (-?\d+)", text)
    register = re.fullmatch(r"DW_OP_reg(\d+)(?: \(\w+\))?", text)
    if fixed:
        return f"at0x{int(fixed[1], 16):x}"
    if frame:
        return "absent" if base == "other" else f"frame{int(frame[1]):+}"
    return f"x{register[1]}" if register else "absent"


def section(path, name):
    with tempfile.NamedTemporaryFile() as out:
        run("llvm-objcopy", f"--dump-section={name}={out.name}", path, "/dev/null")
        with open(out.name, "rb") as file:
            return file.read()


def rows_of(title, path):
    """The lines of input for a program, each with what is answered."""
    rows = [(f"# {title}", None)]
    for word, name in SECTIONS:
        content = section(path, name)
        rows.append((f"{word} {content.hex()}", f"{word}: {len(content)} bytes"))
    rows.append(("read", "read: no faults"))
    program = Program(path)
    for pc in program.places():
        rows.append((f"at 0x{pc:x}", f"at 0x{pc:x}: {program.variables_at(pc)}"))
    return rows


def all_rows():
    rows = []
    with tempfile.TemporaryDirectory() as folder:
        for compiler, words in COMPILERS.items():
            version = run(words[0], "--version").splitlines()[0]
            for level in ("O0", "O2"):
                for dwarf in (2, 3, 4):
                    path = os.path.join(folder, "program")
                    run(*words, *FLAGS, f"-gdwarf-{dwarf}", f"-{level}", "-o", path, "program.c")
                    rows += rows_of(f"{version}: -{level} -gdwarf-{dwarf}", path)
    return rows


def put(name, lines):
    path = os.path.join(SCRIPT, name)
    with open(path) as file:
        front = file.read().split(PART)[0]
    with open(path, "w") as file:
        file.write(front + PART + "".join(line + "\n" for line in lines))


def main():
    rows = all_rows()
    put("stdin", [line for line, _ in rows])
    put("stdout", [line if answer is None else answer for line, answer in rows])


if __name__ == "__main__":
    main()
