"""The program over descriptors of the system: files, folders, pipes, closed ones, and ones that fail."""

import fcntl
import os
import random
import resource
import signal
import subprocess
import threading
import time

from checks.programs import EXIT, LOOP, plain
from checks.rig import EXITED, OPENING, RUNNING, USAGE, Talk

CONTINUE = b"-exec-continue\n"
SHORT = b'^error,msg="Not an accepted ELF file: Short at 51"\n'


def check_statuses(rig):
    """Each status that can be had at will, and what is written with it."""
    loop = ["--workers", "0", "--budget", "1000", "loop"]
    rows = [
        ("done", ["--workers", "0", "exit"], CONTINUE, 0, OPENING + RUNNING + EXITED),
        ("no words", [], b"", 1, USAGE),
        ("a word that isn't UTF-8", ["--workers", "0", b"exit\xff"], b"", 1, USAGE),
        ("a cut file", ["--workers", "0", "short"], b"", 2, SHORT),
        ("the budget", loop, CONTINUE, 3, OPENING + RUNNING),
        ("a missing file", ["--workers", "0", "missing"], b"", 5, b""),
        ("a file with an empty name", ["--workers", "0", ""], b"", 5, b""),
        ("a folder as the file", ["--workers", "0", "."], b"", 5, b""),
    ]
    for name, words, input, status, output in rows:
        rig.row(name, rig.run(words, input), (status, output))


def check_long_input(rig):
    """The greatest number of entries ends a session."""
    status, output = rig.run(["--workers", "0", "exit"], b"\n" * 4_194_304)
    rig.row("4,194,304 empty lines: status", status, 4)
    rig.row("4,194,304 empty lines: output", output == OPENING + b"(gdb)\n" * 4_194_304, True)


def check_memory(rig):
    """Where memory is short the program ends with 7, or does all that it does with more; it never does half of it."""
    whole = (0, OPENING + RUNNING + EXITED)
    found = [with_memory(rig, megabytes) for megabytes in range(3, 40)]
    # (below some size the system can't load the program at all, which is 127)
    rig.row("short memory: statuses", sorted({status for status, _ in found} - {0, 7, 127}), [])
    os.truncate(os.path.join(rig.folder, rig.put("large", b"")), 30 << 20)
    rig.row("a file of 30 MB in 24 MB", with_memory(rig, 24, "large"), (7, b""))
    rig.row("short memory: whole where it ends with 0", all(it == whole for it in found if it[0] == 0), True)


def with_memory(rig, megabytes, file="exit"):
    """A short session in a process that may have so much memory."""
    bytes = megabytes << 20
    limits = lambda: resource.setrlimit(resource.RLIMIT_AS, (bytes, bytes))
    return rig.run(["--workers", "0", file], CONTINUE, preexec_fn=limits, stderr=subprocess.DEVNULL)


def check_input_that_fails(rig):
    """A folder, a descriptor that is open for writing alone, and a closed one can't be read."""
    words = ["--workers", "0", "exit"]
    folder = os.open(rig.folder, os.O_RDONLY)
    sink = os.open(os.devnull, os.O_WRONLY)
    rig.row("a folder as the input", rig.run(words, stdin=folder), (5, OPENING))
    rig.row("input that is open for writing", rig.run(words, stdin=sink), (5, OPENING))
    rig.row("closed input", rig.run(words, stdin=None, preexec_fn=closes(0)), (5, OPENING))
    rig.row("closed input, refused words", rig.run([], stdin=None, preexec_fn=closes(0)), (1, USAGE))
    os.close(folder)
    os.close(sink)


def closes(*numbers):
    """What closes these descriptors of a new process."""

    def close():
        for number in numbers:
            os.close(number)

    return close


def check_output_that_fails(rig):
    """A full device, a closed descriptor, one that is open for reading alone, and a pipe that nobody reads."""
    words = ["--workers", "0", "exit"]
    full = os.open("/dev/full", os.O_WRONLY)
    source = os.open(os.devnull, os.O_RDONLY)
    ends = [
        ("a full device", rig.run(words, CONTINUE, stdout=full)[0]),
        ("output that is open for reading", rig.run(words, CONTINUE, stdout=source)[0]),
        ("closed output", rig.run(words, CONTINUE, stdout=None, preexec_fn=closes(1))[0]),
        ("closed input and output", rig.run(words, stdin=None, stdout=None, preexec_fn=closes(0, 1))[0]),
        ("all closed", rig.run(words, stdin=None, stdout=None, preexec_fn=closes(0, 1, 2))[0]),
    ]
    for name, status in ends:
        rig.row(name, status, 6)
    os.close(full)
    os.close(source)
    with Talk(rig, words) as talk:
        rig.row("a pipe that loses its reader: the opening", talk.hear(OPENING), True)
        talk.process.stdout.close()
        talk.process.stdout = None
        talk.say(b"-thread-list-ids\n")
        rig.row("a pipe that loses its reader: status", talk.status(), 6)


def check_single_bytes(rig):
    """Input that comes byte by byte, with pauses."""
    with Talk(rig, ["--workers", "0", "exit"]) as talk:
        for place, byte in enumerate(CONTINUE):
            talk.say(bytes([byte]))
            time.sleep(0.05 if place % 5 == 0 else 0)
        talk.process.stdin.close()
        talk.process.stdin = None
        rig.row("single bytes", (talk.rest(), talk.status()), (OPENING + RUNNING + EXITED, 0))


def check_large_input(rig):
    """Thousands of lines, written in random pieces: each is answered once, in its order."""
    count, dice = 5_000, random.Random(7)
    lines = b"".join(b"%d-thread-list-ids\n" % number for number in range(1, count + 1))
    reply = b'%d^done,thread-ids={thread-id="1"},current-thread-id="1",number-of-threads="1"\n(gdb)\n'
    wanted = OPENING + b"".join(reply % number for number in range(1, count + 1))
    with Talk(rig, ["--workers", "0", "exit"]) as talk:
        threading.Thread(target=write_in_pieces, args=(talk.process.stdin, lines, dice), daemon=True).start()
        rig.row("%d lines in pieces: output" % count, talk.rest() == wanted, True)
        rig.row("%d lines in pieces: status" % count, talk.status(), 0)
        talk.process.stdin = None


def write_in_pieces(pipe, bytes, dice):
    """Writes all of it, in pieces of random lengths, and closes the pipe."""
    at = 0
    with pipe:
        while at < len(bytes):
            at += pipe.write(bytes[at : at + dice.choice([1, 7, 100, 4096, 4097, 70_000])])


def never_waits(descriptor):
    """Has reads and writes of what is open there answer at once."""
    fcntl.fcntl(descriptor, fcntl.F_SETFL, fcntl.fcntl(descriptor, fcntl.F_GETFL) | os.O_NONBLOCK)


def check_not_ready(rig):
    """Descriptors that aren't ready and don't wait are tried again, without taking a processor."""
    from_us, their_input = os.pipe()[::-1]
    their_output = os.pipe()
    never_waits(their_input)
    never_waits(their_output[1])
    count = 3_000
    reply = b'^done,thread-ids={thread-id="1"},current-thread-id="1",number-of-threads="1"\n(gdb)\n'
    with Talk(rig, ["--workers", "0", "exit"], stdin=their_input, stdout=their_output[1]) as talk:
        os.close(their_input)
        os.close(their_output[1])
        time.sleep(1)
        used = processor_time(talk.process.pid)
        os.write(from_us, b"-thread-list-ids\n" * count)
        os.close(from_us)
        time.sleep(0.3)
        heard = read_all(their_output[0])
        rig.row("descriptors that don't wait: output", heard == OPENING + reply * count, True)
        rig.row("descriptors that don't wait: status", talk.status(), 0)
        rig.row("descriptors that don't wait: at rest", used < 0.4, True)
    os.close(their_output[0])


def read_all(descriptor):
    """Reads to the end."""
    pieces = []
    while True:
        piece = os.read(descriptor, 65536)
        if not piece:
            return b"".join(pieces)
        pieces.append(piece)


def processor_time(number):
    """How many seconds of processor time a process has taken."""
    with open("/proc/%d/stat" % number) as file:
        fields = file.read().rpartition(")")[2].split()
    return (int(fields[11]) + int(fields[12])) / os.sysconf("SC_CLK_TCK")


def check_stop_signals(rig):
    """A program that is stopped and continued while it waits for input, and while its hart runs, goes on."""
    with Talk(rig, ["--workers", "0", "--budget", "3000000", "loop"]) as talk:
        rig.row("stop signals: the opening", talk.hear(OPENING), True)
        for text in (b"-thread-list-ids\n", CONTINUE):
            talk.process.send_signal(signal.SIGSTOP)
            talk.say(text)
            time.sleep(0.1)
            talk.process.send_signal(signal.SIGCONT)
        talk.hear(RUNNING)
        talk.process.send_signal(signal.SIGSTOP)
        time.sleep(0.1)
        talk.process.send_signal(signal.SIGCONT)
        rig.row("stop signals: status", talk.status(), 3)


def check_descriptors(rig):
    """All of them."""
    rig.put("exit", plain(EXIT))
    rig.put("loop", plain(LOOP))
    rig.put("short", plain(EXIT)[:51])
    for check in (
        check_statuses,
        check_long_input,
        check_memory,
        check_input_that_fails,
        check_output_that_fails,
        check_single_bytes,
        check_large_input,
        check_not_ready,
        check_stop_signals,
    ):
        rig.guarded(check.__name__, lambda: check(rig))
