"""What the system may do at the edge: short writes, no thread to be had, workers by their number, little stack, a FILE that is the input."""

import fcntl
import os
import resource
import shutil
import signal
import time

from checks.programs import EXIT, LOOP, plain
from checks.rig import EXITED, OPENING, PATIENCE, RUNNING, Talk

CONTINUE = b"-exec-continue\n"
NOBODY = 65534
STACK = 96 * 1024
LINE = 4096
HISTORY = 4_194_304

# What stands before a word, of each command where it takes one, and where it takes none. A blank follows but behind a sign.
WORD_FRONTS = b"""-
-break-insert
-break-insert *
-break-insert -c
-break-insert -i
-break-insert -p
-break-watch
-break-delete
-break-enable
-break-disable
-break-condition
-break-condition 1
-break-after
-break-after 1
-break-list
-exec-continue --thread
-exec-interrupt --thread
-exec-step --thread
-exec-next --thread
-exec-finish --thread
-exec-step-instruction --thread
-exec-next-instruction --thread
-exec-wait
-thread-info
-thread-list-ids
-thread-select
-stack-list-frames --thread
-stack-info-depth --thread
-stack-info-frame --thread
-stack-list-variables
-stack-list-variables --thread
-data-evaluate-expression
-data-evaluate-expression --thread
-data-list-register-names
-data-list-register-values
-data-list-register-values x
-data-read-memory-bytes
-data-read-memory-bytes 0
-data-write-memory-bytes
-data-write-memory-bytes 0
-data-write-memory-bytes 0 00
-gdb-set
-gdb-set $
-gdb-set $a0=
-gdb-show
-gdb-exit"""


def check_short_writes(rig):
    """A file that may not grow beyond a size takes the first part of a piece; what is left can't be written, which is status 6."""
    whole = OPENING + RUNNING + EXITED
    for most in (1, 7, len(OPENING), len(OPENING) + 3, len(whole) - 1):

        def limits():
            signal.signal(signal.SIGXFSZ, signal.SIG_IGN)
            resource.setrlimit(resource.RLIMIT_FSIZE, (most, most))

        path = os.path.join(rig.folder, "grown")
        with open(path, "wb") as file:
            status, _ = rig.run(["--workers", "0", "exit"], CONTINUE, stdout=file, preexec_fn=limits)
        with open(path, "rb") as file:
            rig.row("a file of at most %d bytes" % most, (file.read(), status), (whole[:most], 6))


def check_slow_pipe(rig):
    """A pipe of one page takes an output of many pages bit by bit, and nothing of it is lost."""
    count = 4_000
    reply = b'^done,thread-ids={thread-id="1"},current-thread-id="1",number-of-threads="1"\n(gdb)\n'
    with Talk(rig, ["--workers", "0", "exit"]) as talk:
        fcntl.fcntl(talk.process.stdout, fcntl.F_SETPIPE_SZ, 4096)
        talk.say(b"-thread-list-ids\n" * 1_000)
        heard = talk.hear(reply, 1_000)
        for _ in range(3):
            talk.say(b"-thread-list-ids\n" * 1_000)
        talk.process.stdin.close()
        talk.process.stdin = None
        rig.row("a pipe of one page: output", (heard, talk.rest() == OPENING + reply * count), (True, True))
        rig.row("a pipe of one page: status", talk.status(), 0)


def threads_of(process):
    """How many threads a process has."""
    return len(os.listdir("/proc/%d/task" % process.pid))


def alone():
    """A process that can make no thread. The system's limit doesn't hold for the administrator, who becomes somebody else."""
    resource.setrlimit(resource.RLIMIT_NPROC, (1, 1))
    if os.geteuid() == 0:
        os.setuid(NOBODY)


def check_without_threads(rig):
    """Where there is no thread to be had, input is read where it is polled, and whoever runs the program does the workers' work."""
    os.chmod(rig.folder, 0o755)
    mine = os.path.join(rig.folder, "rvdbg_program")
    shutil.copy(rig.program, mine)
    for workers in ("0", "2"):
        name = "no threads, %s workers" % workers
        with Talk(rig, ["--workers", workers, "exit"], program=mine, preexec_fn=alone) as talk:
            heard = talk.hear(OPENING)
            rig.row(name + ": the opening, and one thread", (heard, threads_of(talk.process)), (True, 1))
            talk.say(CONTINUE)
            talk.process.stdin.close()
            talk.process.stdin = None
            rig.row(name + ": the rest", (talk.rest(), talk.status()), (OPENING + RUNNING + EXITED, 0))


def check_threads(rig):
    """There are as many workers as were asked for, and one thread that reads."""
    for workers in (0, 1, 2, 5, 16):
        with Talk(rig, ["--workers", str(workers), "--budget", "1000000000000", "loop"]) as talk:
            talk.hear(OPENING)
            talk.say(CONTINUE)
            heard, wanted = talk.hear(RUNNING), 1 + max(workers, 1)
            ends = time.monotonic() + PATIENCE
            while threads_of(talk.process) != wanted and time.monotonic() < ends:
                time.sleep(0.01)
            rig.row("threads of %d workers" % workers, (heard, threads_of(talk.process)), (True, wanted))


def little_stack():
    """A process that has this much stack."""
    resource.setrlimit(resource.RLIMIT_STACK, (STACK, STACK))


def check_stack(rig):
    """A line of 2,000 words takes no stack for each of them."""
    many = b" ".join([b"1"] * 2_000)
    for command in (b"-data-evaluate-expression ", b"-break-delete ", b"-data-list-register-values x ", b"-thread-info "):
        status, output = rig.run(["--workers", "0", "exit"], command + many + b"\n", preexec_fn=little_stack)
        rig.row("2,000 words of %s" % command.decode().strip(), (status, output.count(b"(gdb)\n")), (0, 2))


def check_long_words(rig):
    """A word that fills its line takes no stack for each of its bytes: one of letters, of zeros, of `:`, of `-`, a number in hexadecimal,
    a line of a file, and C strings of blanks and of octal escapes."""
    for front in WORD_FRONTS.split(b"\n"):
        front += b"" if front[-1:] in b"-*$=" else b" "
        room = LINE - len(front) - 2
        words = [byte * room for byte in (b"a", b"0", b":", b"-")] + [before + b"0" * (room - 2) for before in (b"0x", b"a:")]
        words += [b'"%s"' % (part * (room // len(part))) for part in (b" ", b"\\012")]
        lines = b"".join(front + word + b"\n" for word in words)
        status, output = rig.run(["--workers", "0", "exit"], lines, preexec_fn=little_stack)
        rig.row("long words of %s" % front.decode().strip(), (status, output.count(b"(gdb)\n")), (0, 1 + len(words)))


def check_full_history(rig):
    """As many empty lines as the history has entries are done, each with its prompt, and fill it."""
    status, output = rig.run(["--workers", "0", "exit"], b"\n" * HISTORY)
    rig.row("%d empty lines" % HISTORY, (status, output == OPENING + b"(gdb)\n" * HISTORY), (4, True))


def check_file_is_input(rig):
    """The file may be standard input itself: the program takes it whole, and the input has ended then."""
    program = plain(EXIT)
    found = {rig.run(["--workers", "0", "/dev/stdin"], program) for _ in range(50)}
    rig.row("the file is standard input", found, {(0, OPENING)})


def check_edge(rig):
    """All of them."""
    rig.put("exit", plain(EXIT))
    rig.put("loop", plain(LOOP))
    checks = (check_short_writes, check_slow_pipe, check_without_threads, check_threads, check_stack, check_long_words)
    for check in (*checks, check_full_history, check_file_is_input):
        rig.guarded(check.__name__, lambda: check(rig))
