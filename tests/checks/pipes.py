"""The program in a conversation: its input stays open while its harts run."""

import time

from checks.descriptors import CONTINUE
from checks.programs import EXIT, LOOP, plain
from checks.rig import OPENING, RUNNING, Talk

# A hart that writes `hi` again and again: write(1, 0x20000, 3), and back to where a0 is set.
WRITER = [0x04000893, 0x00100513, 0x000205B7, 0x00300613, 0x00000073, 0xFF1FF06F]

INTERRUPTED = (
    b'*stopped,reason="signal-received",signal-name="SIGINT",signal-meaning="Interrupt",'
    b'frame={addr="0x00010074",args=[]},thread-id="1",stopped-threads=["1"]\n'
)


def check_interrupt(rig, words):
    """A loop is interrupted, and the session is ended while the pipe stays open."""
    with Talk(rig, [*words, "loop"]) as talk:
        talk.say(CONTINUE)
        rig.row("interrupt: running", talk.hear(RUNNING), True)
        time.sleep(0.2)
        talk.say(b"-exec-interrupt\n")
        rig.row("interrupt: stopped", talk.hear(INTERRUPTED), True)
        talk.say(b"7-gdb-exit\n")
        wanted = OPENING + RUNNING + b"^done\n(gdb)\n" + INTERRUPTED + b"7^exit\n"
        rig.row("interrupt: all that was written", talk.rest(), wanted)
        rig.row("interrupt: status with the pipe open", talk.status(), 0)


def check_exit(rig, words):
    """A session is ended while a hart runs; what stands behind is not done."""
    with Talk(rig, [*words, "loop"]) as talk:
        talk.say(CONTINUE)
        talk.hear(RUNNING)
        talk.say(b"-gdb-exit\n-thread-list-ids\n")
        rig.row("exit while a hart runs", (talk.rest(), talk.status()), (OPENING + RUNNING + b"^exit\n", 0))
    rig.row("exit without a line end", rig.run([*words, "exit"], b"-gdb-exit"), (0, OPENING + b"^exit\n"))


def check_silence(rig, words):
    """A hart goes on while the pipe is open and silent, and comes to the budget."""
    with Talk(rig, [*words, "--budget", "20000", "writer"]) as talk:
        talk.say(CONTINUE)
        rig.row("silence: lines come", talk.hear(b'@"hi\\n"\n', 20), True)
        rig.row("silence: the budget", (talk.rest().count(b"@"), talk.status()), (20000 // 5, 3))


def check_answers_while_running(rig, words):
    """Lines are answered one by one while a hart runs."""
    with Talk(rig, [*words, "loop"]) as talk:
        talk.say(CONTINUE)
        talk.hear(RUNNING)
        for number in range(1, 6):
            talk.say(b"%d-thread-list-ids\n" % number)
            rig.row("answer %d while a hart runs" % number, talk.hear(b"%d^done" % number), True)
            time.sleep(0.02)


def check_pipes(rig, words=()):
    """All of them, with these words before each file's."""
    rig.put("exit", plain(EXIT))
    rig.put("loop", plain(LOOP))
    rig.put("writer", plain(WRITER, b"hi\n"))
    for check in (check_interrupt, check_exit, check_silence, check_answers_while_running):
        rig.guarded(check.__name__, lambda: check(rig, words))
