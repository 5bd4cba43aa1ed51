"""Files that are no program: one for each kind of fault, and the line that says which it is and where."""

from checks.programs import EXIT, plain, read_program

# What is other than in a program that exits, and what is said of it. The header of its text section stands at 191.
FAULTS = [
    ("cut 51", "Short at 51"),
    ("set 0 00", "Magic at 0"),
    ("set 4 02", "Class at 4"),
    ("set 5 02", "Order at 5"),
    ("set 16 03", "Kind at 16"),
    ("set 18 3e", "Machine at 18"),
    ("set 36 01", "Flags at 36"),
    ("set 42 1f", "Segment at 42"),
    ("set 46 29", "Section at 46"),
    ("set 203 76", "Text at 191"),
    ("set 24 76", "Entry at 24"),
]
MOST = 33_554_432


def check_refused(rig, file, fault):
    """Whether a file is refused, for this fault."""
    rig.put("program", file)
    answer = '^error,msg="Not an accepted ELF file: %s"\n' % fault
    rig.row("file refused: " + fault, rig.run(["program"], b""), (2, answer.encode()))


def check_files(rig):
    """Runs the debugger over a file with each fault."""
    exit_words = " ".join("%08x" % word for word in EXIT)
    for edit, fault in FAULTS:
        check_refused(rig, read_program("%s\n%s\n" % (exit_words, edit)), fault)
    check_refused(rig, plain(EXIT).ljust(MOST + 1, b"\0"), "Large at %d" % MOST)
