"""Harts executed by several threads: with locks, while breakpoints come and go, and with a watch on what all of them add to."""

import os
import re

from checks.programs import EXIT, plain
from checks.rig import Talk

RUNS = 20

# 200 rounds of four harts, and 200 times 1 + 2 + 3 + 4.
COUNTS = b'@"00000320\\n"\n@"00000320\\n"\n@"000007d0\\n"\n'


def check_run(rig, number, workers):
    """One run: breakpoints that never hold are set and deleted at the functions under the locks until all harts are gone."""
    with Talk(rig, ["--harts", "4", "--workers", str(workers), "--budget", "1000000000", "locks"]) as talk:
        talk.say(b"-exec-continue --all\n")
        for k in range(1, 31):
            talk.say(b'-break-insert -c "1 == 2" %s\n' % (b"under_lock", b"under_ticket")[k % 2])
            if k % 3 == 0:
                talk.say(b"-break-delete %d\n-break-delete %d\n" % (k - 1, k))
        talk.say(b"-exec-wait\n-gdb-exit\n")
        said = talk.rest()
        lines = b"".join(re.findall(rb'@".*"\n', said))
        rig.row("locks under %d workers, run %d" % (workers, number), (lines, talk.status()), (COUNTS, 0))


# Each hart adds 1 to the word at 0x20000 three times, each time behind a loop of 200 instructions.
ADDING = [0x00020637, 0x00100593, 0x00300693, 0x06400713, 0xFFF70713, 0xFE071EE3, 0x00B6252F, 0xFFF68693, 0xFE0696E3, *EXIT]
CHANGE = rb'reason="watchpoint-trigger",wpt={number="1",exp="{int} 0x20000"},value={old="(\d+)",new="(\d+)"},.*thread-id="(\d)"'


def check_watch(rig, number, workers):
    """One run: each of four harts is stopped by its own changes, and each change is told once."""
    with Talk(rig, ["--harts", "4", "--workers", str(workers), "adding"]) as talk:
        talk.say(b"-break-watch {int} 0x20000\n" + 4 * b"-exec-continue --all\n-exec-wait\n" + b"-gdb-exit\n")
        found = [tuple(int(it) for it in change) for change in re.findall(CHANGE, talk.rest())]
        changes = sorted((old, new) for old, new, _ in found)
        threads = sorted(thread for _, _, thread in found)
        wanted = ([(k, k + 1) for k in range(12)], sorted(3 * [1, 2, 3, 4]), 0)
        rig.row("a watch under %d workers, run %d" % (workers, number), (changes, threads, talk.status()), wanted)


def check_workers(rig, top, workers=4, runs=RUNS):
    """So many runs of the program of tests/programs, and of one with a watch."""
    with open(os.path.join(top, "programs", "locks"), "rb") as file:
        rig.put("locks", file.read())
    rig.put("adding", plain(ADDING, bytes(4)))
    for number in range(1, runs + 1):
        rig.guarded("locks", lambda: check_run(rig, number, workers))
        rig.guarded("watch", lambda: check_watch(rig, number, workers))
