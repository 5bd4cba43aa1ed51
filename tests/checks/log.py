"""Logs of sessions, and their checker: what `--log` writes behind a session's records is a log, of the lines that were done; it changes
nothing before it, and `--check` accepts it. What is changed in it is refused, for the cause that a reader of its own finds.
"""

import os
import random
import re

from checks.journals import check_journals
from checks.log_faults import MOST, fault_of
from checks.programs import EXIT, counting, plain
from checks.rig import EXITED, OPENING, RUNNING, Talk
from checks.sessions import content, euclid, programs, session_names

CONTINUE = b"-exec-continue\n"
LOG = b"#settings 1 0 16 100000000 256\n#did 2d657865632d636f6e74696e7565\n#ran 0 3\n#left 0 0\n#end 3\n"
WHOLE = OPENING + RUNNING + EXITED + LOG
LOGGED = (0, 3, 4, 5)
DAMAGES = 300
RUNS = 5


def checked(rig, text, name="exit"):
    """The status and the line of a check of a text, for a program."""
    return rig.run(["--check", name], text)


def accepted(text):
    """What a check answers that accepts a text."""
    return 0, b"check accepted %s\n" % re.search(rb"#end (\d+)\n\Z", text).group(1)


def rejected(fault):
    """What a check answers that rejects a text."""
    return 8, b"check rejected %s\n" % fault.encode()


def told(rig, text, name):
    """Whether a text ends in a log without a fault, and is accepted for a program."""
    return fault_of(text) or (checked(rig, text, name) == accepted(text) and "a log") or "a log that isn't accepted"


def lines_done(text):
    """The lines that a log has as done."""
    return [bytes.fromhex(it.decode()) for it in re.findall(rb"^#did ?([0-9a-f]*)\n", text, re.MULTILINE)]


def lines_of(input):
    """The lines of an input, as docs/FORMATS.md has them."""
    lines = input.split(b"\n")
    whole, last = lines[:-1], lines[-1]
    return [line[:-1] if line.endswith(b"\r") else line for line in whole] + ([last] if last else [])


def check_stored(rig, folder, name, file):
    """A stored session with a log: its records are those that are stored, and its log has the lines that were done."""
    words = content(folder, "args", b"--workers\n0\nFILE").decode().splitlines()
    input, wanted = content(folder, "input", b""), int(content(folder, "status", b"0"))
    rig.put("program", file)
    status, text = rig.run(["--log", *("program" if word == "FILE" else word for word in words)], input)
    said = text[: text.rfind(b"#settings ")]
    rig.row("log of %s: its session" % name, (status, said), (wanted, content(folder, "output", b"")))
    done = lines_done(text[len(said) :])
    rig.row("log of %s" % name, (told(rig, text, "program"), done == lines_of(input)[: len(done)]), ("a log", True))


def check_all_stored(rig, top):
    """Those stored sessions that end with a log, but for those that have one anyway."""
    for name in session_names(top):
        folder = os.path.join(top, "sessions", name)
        words = content(folder, "args", b"FILE").decode().splitlines()
        if int(content(folder, "status", b"0")) not in LOGGED or "FILE" not in words or "--log" in words:
            continue
        for end, file in programs(folder, os.path.join(top, "programs"), euclid(top)):
            rig.guarded("log of " + name + end, lambda: check_stored(rig, folder, name + end, file))


def check_workers_log(rig, number):
    """Four workers, with breakpoints, a watchpoint, interrupts, steps and a write that come and go."""
    with Talk(rig, ["--harts", "4", "--workers", "4", "--budget", "200000000", "--log", "locks"]) as talk:
        talk.say(b"-break-watch {int} &locked\n-break-disable 1\n-exec-continue --all\n")
        for k in range(2, 20):
            talk.say(b'-break-insert -c "1 == 2" %s\n' % (b"under_lock", b"under_ticket")[k % 2])
            talk.say((b"-break-enable 1\n", b"-break-disable 1\n", b"-exec-interrupt --thread 2\n", b"-exec-continue --all\n")[k % 4])
            talk.say(b"-data-read-memory-bytes &locked 4\n" if k % 3 else b"-break-delete %d\n" % k)
        talk.say(b"-exec-interrupt --all\n-exec-wait\n-exec-step --thread 1\n-exec-wait\n-gdb-set --thread 1 $t6=7\n-gdb-exit\n")
        text, status = talk.rest(), talk.status()
    rig.row("log of four workers, run %d" % number, (status, told(rig, text, "locks")), (0, "a log"))


def check_cuts(rig):
    """Sessions that a limit or a fault ends have a log too; refused words and files have none."""
    status, text = rig.run(["--workers", "0", "--budget", "30", "--log", "counting"], b"-exec-continue\n")
    rig.row("log at the budget", (status, told(rig, text, "counting"), text.endswith(b"#ran 0 30\n#end 2\n")), (3, "a log", True))
    folder = os.open(rig.folder, os.O_RDONLY)
    status, text = rig.run(["--workers", "0", "--log", "exit"], stdin=folder)
    os.close(folder)
    rig.row("log where the input can't be read", (status, told(rig, text, "exit"), text.endswith(b"#end 0\n")), (5, "a log", True))
    for words in (["--log", "--gen", "3"], ["--log", "--log", "exit"], ["--log"], ["--log", "text"], ["--log", "missing"]):
        status, text = rig.run(words)
        rig.row("no log of " + " ".join(words), (status in (1, 2, 5), b"#settings" in text), (True, False))


def check_rows(rig):
    """A log as it is written, and one change each."""
    rig.row("log: as it is written", rig.run(["--workers", "0", "--log", "exit"], CONTINUE), (0, WHOLE))
    rig.row("check: as it is written", checked(rig, WHOLE), (0, b"check accepted 3\n"))
    for what, old, new, fault in (
        ("an instruction fewer", b"#ran 0 3", b"#ran 0 2", "Unlawful at 3"),
        ("an instruction more", b"#ran 0 3", b"#ran 0 4", "Unlawful at 2"),
        ("two entries of one run", b"#ran 0 3\n#left 0 0\n#end 3", b"#ran 0 1\n#ran 0 2\n#left 0 0\n#end 4", "Unlawful at 3"),
        ("no instruction", b"#ran 0 3", b"#ran 0 0", "Unlawful at 2"),
        ("a hart that isn't there", b"#ran 0 3", b"#ran 1 3", "Unlawful at 2"),
        ("another exit code", b"#left 0 0", b"#left 0 1", "Unlawful at 3"),
        ("a prompt fewer", b"(gdb)\n", b"", "Differs at 37"),
        ("a word more", b"^running", b"^running,x", "Differs at %d" % (len(OPENING) + 8)),
        ("no end", b"#end 3\n", b"", "End at 12"),
        ("another end", b"#end 3", b"#end 2", "End at 12"),
        ("no line end", b"#end 3\n", b"#end 3", "Line at 12"),
        ("a leading zero", b"#ran 0 3", b"#ran 0 03", "Line at 10"),
        ("a blank more", b"#ran 0 3", b"#ran 0 3 ", "Line at 10"),
        ("a setting out of its range", b"#settings 1", b"#settings 17", "Line at 8"),
        ("a number of 33 bits", b"#left 0 0", b"#left 0 4294967296", "Line at 11"),
        ("upper-case digits", b"6f6e", b"6F6E", "Line at 9"),
        ("no cause of that number", b"#left 0 0", b"#stopped 0 fault 9", "Line at 11"),
        ("a line behind the end", b"#end 3\n", b"#end 3\n(gdb)\n", "Order at 13"),
        ("settings twice", b"#left 0 0\n", LOG.split(b"\n")[0] + b"\n", "Order at 11"),
        ("an entry before the settings", b"#settings 1 0 16 100000000 256\n", b"", "Order at 8"),
    ):
        rig.row("check: " + what, checked(rig, WHOLE.replace(old, new, 1)), rejected(fault))
    rig.row("check: nothing", checked(rig, b""), rejected("End at 1"))
    rig.row("check: of another program", checked(rig, WHOLE, "other")[0], 8)
    rig.row("check: of no program", checked(rig, WHOLE, "text")[0], 2)
    rig.row("check: of no file", checked(rig, WHOLE, "missing"), (5, b""))
    rig.row("check: with an option", rig.run(["--check", "exit", "--workers", "0"], WHOLE)[0], 1)


def check_long(rig):
    """The most bytes are read."""
    text = (b"x" * 63 + b"\n") * (MOST // 64)
    rig.row("check: as long as can be", checked(rig, text), rejected("End at %d" % (MOST // 64 + 1)))


def damaged(dice, text):
    """A text with a byte, a number, a line, or the order of two lines changed."""
    lines = text.splitlines(keepends=True)
    at, to = dice.randrange(len(lines)), dice.randrange(len(lines))
    kind = dice.randrange(5)
    if kind == 0:
        at = dice.randrange(len(text))
        return text[:at] + bytes([dice.randrange(256)]) + text[at + 1 :]
    if kind == 1:
        del lines[at]
    elif kind == 2:
        lines.insert(at, lines[to])
    elif kind == 3:
        lines[at], lines[to] = lines[to], lines[at]
    else:
        lines[at] = re.sub(rb"\d+", lambda _: b"%d" % dice.choice((0, 1, 2, 3, 15, 16, 64, 1 << 32)), lines[at], count=1)
    return b"".join(lines)


def expected(text, changed):
    """What a check of a changed text answers, where the change alone tells it; else None."""
    fault = fault_of(changed)
    if fault or changed == text:
        return fault or "accepted"
    before, after = text.index(b"#settings "), changed.index(b"#settings ")
    if changed[after:] != text[before:]:
        return None
    return "Differs at %d" % len(os.path.commonprefix([text[:before], changed[:after]]))


def check_damages(rig, number=DAMAGES, seed=1):
    """Damaged logs end with 0 or 8, for the cause that is expected; where the journal alone changed, with one of the two."""
    dice = random.Random(seed)
    lines = b"-break-insert -i 2 gcd\n-exec-continue --all\n-exec-wait\n-thread-info\n-break-watch {int} &divisions\n-exec-step\n-exec-wait\n"
    status, text = rig.run(["--workers", "0", "--harts", "2", "--log", "euclid"], lines + b"-exec-continue --all\n-exec-wait\n")
    rig.row("log: what is damaged", (status, told(rig, text, "euclid")), (0, "a log"))
    for place in range(number):
        changed = damaged(dice, text)
        wanted, (status, line) = expected(text, changed), checked(rig, changed, "euclid")
        if wanted is None:
            fits = status == 0 and line.startswith(b"check accepted ") or status == 8 and re.fullmatch(rb"check rejected (Unlawful|Differs) at \d+\n", line)
            rig.row("damaged log %d" % place, bool(fits), True)
        elif wanted == "accepted":
            rig.row("damaged log %d" % place, status, 0)
        else:
            rig.row("damaged log %d" % place, (status, line), rejected(wanted))


def check_log(rig, top):
    """All of them."""
    rig.put("exit", plain(EXIT))
    rig.put("other", plain([0x00000013, *EXIT]))
    rig.put("euclid", euclid(top))
    rig.put("text", b"no program\n")
    rig.put("counting", counting(100))
    with open(os.path.join(top, "programs", "locks"), "rb") as file:
        rig.put("locks", file.read())
    rig.guarded("log: rows", lambda: check_rows(rig))
    rig.guarded("log: long", lambda: check_long(rig))
    rig.guarded("log: journals", lambda: check_journals(rig))
    check_all_stored(rig, top)
    rig.guarded("log: damages", lambda: check_damages(rig))
    rig.guarded("log: cuts", lambda: check_cuts(rig))
    for number in range(1, RUNS + 1):
        rig.guarded("log: workers", lambda: check_workers_log(rig, number))
