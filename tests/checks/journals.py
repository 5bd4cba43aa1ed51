"""Journals that may be those of a session, and others: each is written as a log, and given to the checker behind no records.

An entry is a line of a log without its `#`, but for `did`, behind which the line stands as it is, `set N`, which sets a register of hart 0
to 9, and `byte`, which writes the byte 0x31. A journal that is lawful is refused all the same, for the records that aren't there.
"""

from checks.programs import plain
from checks.rig import OPENING

# addi a0,zero,1; addi a0,a0,1; and an exit with a0.
PROGRAM = plain([0x00100513, 0x00150513, 0x05D00893, 0x00000073], bytes(4))

# Journals of a session with a budget of 9.
LAWFUL = """
did -break-insert *0x10078;did -exec-continue;ran 0 1;stopped 0 break 1 none;did -exec-wait;did -exec-continue;ran 0 3;left 0 2
did -exec-continue;ran 0 2
did -break-insert *0x10078;did -exec-continue;ran 0 1;stopped 0 break 1 none
did -break-insert -i 1 *0x10078;did -exec-continue;ran 0 1;counted 0;ran 0 1
did -exec-continue;ran 0 1;did -exec-interrupt;stopped 0 interrupted
did -exec-continue;ran 0 1;did 7-gdb-exit
did -gdb-exit x;did -exec-continue;ran 0 1
did -exec-step-instruction;ran 0 1;stopped 0 stepped
did -exec-step-instruction;ran 0 1;stopped 0 stepped;did -exec-continue;ran 0 2
did -exec-step-instruction;did -exec-interrupt;stopped 0 interrupted;did -exec-continue;ran 0 2
did -break-insert *0x10078;did -exec-step-instruction;ran 0 1;stopped 0 break 1 none;did -exec-continue;ran 0 2
did -break-insert -i 1 *0x10078;did -exec-step-instruction;ran 0 1;stopped 0 stepped;did -exec-continue;ran 0 2
did -break-insert *0x10078;did -exec-continue;ran 0 1;stopped 0 break 1 none;did -gdb-set $a0=9;set 10;did -exec-continue;ran 0 3;left 0 10
did -data-write-memory-bytes 0xEFFFFFFF 31;byte 0xEFFFFFFF;did -exec-continue;ran 0 2
"""

# Journals of which the last entry may not come.
UNLAWFUL = """
# No instruction, neighbours of one hart, a stopped hart, no such hart.
did -exec-continue;ran 0 0
did -exec-continue;ran 0 1;ran 0 1
ran 0 1
did -exec-continue;ran 1 1
# Past a breakpoint, a stop as a count, a stop by another number, a stop where none is due.
did -break-insert *0x10078;did -exec-continue;ran 0 2
did -break-insert *0x10078;did -exec-continue;ran 0 1;counted 0
did -break-insert *0x10078;did -exec-continue;ran 0 1;stopped 0 break 2 none
did -exec-continue;ran 0 1;stopped 0 break 1 none
# No trap, no exit, another code, no interrupt that was asked.
did -exec-continue;stopped 0 fault 6
did -exec-continue;left 0 2
did -exec-continue;ran 0 4;left 0 3
did -exec-continue;ran 0 1;stopped 0 interrupted
# A wait while a hart runs; a line after the line that ended the session, and an instruction, a stop and an exit.
did -exec-continue;did -exec-wait
did -exec-continue;did 7-gdb-exit;ran 0 1
did 7-gdb-exit;did 7-gdb-exit
did -break-insert *0x10078;did -exec-continue;ran 0 1;did 7-gdb-exit;stopped 0 break 1 none
did -exec-continue;did 7-gdb-exit;left 0 2
# A step past its end, where it begins, where none was asked for, as the end of a function.
did -exec-step-instruction;ran 0 2
did -exec-step-instruction;stopped 0 stepped
did -exec-continue;ran 0 1;stopped 0 stepped
did -exec-step-instruction;ran 0 1;stopped 0 finished
# The end of a step where a breakpoint stops, only counted, by an interrupt, twice.
did -break-insert *0x10078;did -exec-step-instruction;ran 0 1;stopped 0 stepped
did -break-insert -i 1 *0x10078;did -exec-step-instruction;ran 0 1;counted 0
did -exec-step-instruction;ran 0 1;did -exec-interrupt;stopped 0 interrupted
did -exec-step-instruction;ran 0 1;stopped 0 stepped;stopped 0 stepped
# A stop by a watch that nobody set, and a register and a byte that no line asked to be written.
did -exec-continue;ran 0 1;stopped 0 watch 1 0 1
set 10
byte 0x20000
# A write that isn't made, of another register, of another value, twice, at another address, of a hart that runs.
did -gdb-set $a0=9;did -exec-continue
did -gdb-set $a0=9;set 11
did -gdb-set $a0=8;set 10
did -gdb-set $a0=9;set 10;set 10
did -data-write-memory-bytes 0xEFFFFFFF 31;byte 0xEFFFFFFE
did -exec-continue;did -gdb-set $a0=9;set 10
"""


def log_line(entry):
    """The line of an entry."""
    word, _, rest = entry.partition(" ")
    if word == "did":
        return "#did " + rest.encode().hex()
    if word == "set":
        return "#set 0 %s 9" % rest
    if word == "byte":
        return "#bytes %d 31" % int(rest, 16)
    return "#" + entry


def log_of(entries, budget):
    """The log of a session with these entries."""
    lines = ["#settings 1 0 0 %d 0" % budget, *map(log_line, entries), "#end %d" % len(entries)]
    return "\n".join(lines).encode() + b"\n"


def check_journal(rig, journal, fault, budget=9):
    """Whether a journal is refused for that."""
    text = OPENING + log_of(journal.split(";"), budget)
    rig.row("journal: " + journal, rig.run(["--check", "program"], text), (8, b"check rejected %s\n" % fault.encode()))


def check_journals(rig):
    """All of them, and the one without an entry."""
    rig.put("program", PROGRAM)
    rig.row("journal without an entry", rig.run(["--check", "program"], OPENING + log_of([], 9)), (0, b"check accepted 0\n"))
    for journal in LAWFUL.strip().splitlines():
        check_journal(rig, journal, "Differs at %d" % len(OPENING))
    for journal in UNLAWFUL.strip().splitlines():
        if not journal.startswith("#"):
            check_journal(rig, journal, "Unlawful at %d" % len(journal.split(";")))
    after_the_budget = "did -exec-continue;ran 0 2;did -thread-list-ids"
    check_journal(rig, after_the_budget, "Unlawful at 3", budget=2)
    check_journal(rig, after_the_budget, "Differs at %d" % len(OPENING), budget=3)
