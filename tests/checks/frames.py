"""Frames whose rules stand in long programs: they are those of the same programs without the operations that change nothing."""

from checks.programs import counting

# Where the counting program is stopped, with the line: before its first row, in it, behind it, and behind the register's restore.
PLACES = [(0x1008C, 10), (0x10094, 11), (0x1009C, 12), (0x100AC, 14)]
PAIRS = 20_000


def conversation():
    """A stop at each place with a list of its frames, and what has to be answered."""
    lines, answers = [], ['=thread-created,id="1",group-id="i1"', "(gdb)"]
    for number, (address, line) in enumerate(PLACES, 1):
        frame = 'addr="0x%08x",func="work",args=[],file="count.c",line="%d"' % (address, line)
        lines += ["-break-insert -t *0x%x" % address, "-exec-continue", "-exec-wait", "-stack-list-frames"]
        answers += [
            '^done,bkpt={number="%d",type="breakpoint",disp="del",enabled="y",addr="0x%08x",func="work",file="count.c",line="%d",'
            'times="0",original-location="*0x%x"}' % (number, address, line, address),
            "(gdb)",
            "^running",
            '*running,thread-id="1"',
            "(gdb)",
            '*stopped,reason="breakpoint-hit",disp="del",bkptno="%d",frame={%s},thread-id="1",stopped-threads=["1"]' % (number, frame),
            "^done",
            "(gdb)",
            '^done,stack=[frame={level="0",%s},frame={level="1",addr="0x00010080",func="_start",args=[]}]' % frame,
            "(gdb)",
        ]
    return "\n".join(lines).encode() + b"\n", "\n".join(answers).encode() + b"\n"


def check_frames(rig):
    """Asks for the frames by short programs, and by programs of 80,000 bytes for the same rules."""
    text, wanted = conversation()
    for name, pairs in (("frames of short programs", 0), ("frames of long programs", PAIRS)):
        rig.put("program", counting(3, pairs))
        rig.row(name, rig.run(["--workers", "0", "program"], text), (0, wanted))
