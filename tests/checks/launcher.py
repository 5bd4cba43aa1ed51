"""The start script over the built program: what it says beside it, on standard error, and that it changes nothing of it.

It is run in a clone of its own, in which the program is known to be built: `builds.py` has what happens where it isn't.
"""

import os
import pty
import resource
import shutil
import signal
import struct
import subprocess
import tempfile

from checks.clones import Clone, written
from checks.programs import EXIT, LOOP, Section, plain
from checks.rig import BUILT_AT, EXITED, OPENING, PATIENCE, RUNNING, USAGE

CONTINUE = b"-exec-continue\n"
LONG = "1000000000000"
MORE = "; rvdbg --help says more\n"

# Refused words, and what is wrong with them.
WORDS = (
    ("--harts 17 exit", "--harts takes a number from 1 to 16, and 17 isn't"),
    ("--harts=0 exit", "--harts takes a number from 1 to 16, and 0 isn't"),
    ("--workers 17 exit", "--workers takes a number from 0 to 16, and 17 isn't"),
    ("--slots 513 exit", "--slots takes a number from 0 to 512, and 513 isn't"),
    ("--budget 0 exit", "--budget takes a number from 1 to 1000000000000, and 0 isn't"),
    ("--budget 99999999999999999999 exit", "--budget takes a number from 1 to 1000000000000, and 99999999999999999999 isn't"),
    ("--slice=+01025 exit", "--slice takes a number from 0 to 1024, and +01025 isn't"),
    ("--gen 0", "--gen takes a number from 1 to 1000000, and 0 isn't"),
    ("--harts two exit", "--harts takes a number from 1 to 16, not 'two'"),
    ("--harts= exit", "--harts takes a number from 1 to 16, not ''"),
    ("exit --harts", "--harts wants a value behind it"),
    ("--harts --workers 0 exit", "--harts wants a value behind it"),
    ("--harts 2 --harts=2 exit", "--harts is there twice"),
    ("--log --log exit", "--log is there twice"),
    ("--log=1 exit", "--log has no value"),
    ("-nx exit", "there is no option '-nx'"),
    ("-h", "there is no option '-h'"),
    ("--interpreter=mi2 exit", "there is no option '--interpreter=mi2'"),
    ("--help exit", "--help stands alone"),
    ("--version --build", "--version stands alone"),
    ("exit exit", "there is one FILE, and 'exit' is a second"),
    ("-- exit --log", "there is one FILE, and '--log' is a second"),
    ("--workers 0", "FILE is missing"),
    ("--", "FILE is missing"),
    ("--check exit --log", "--check FILE stands alone"),
    ("--check exit exit", "--check FILE stands alone"),
    ("--gen 1 --harts 2", "--gen and --harts don't go together"),
    ("--gen 1 --log", "--gen and --log don't go together"),
    ("--gen 1 exit", "--gen makes its own program, and takes no FILE"),
)

# Faults of files: which byte is put where, and what the fault means.
FAULTS = (
    (0, 0, "it is no ELF file"),
    (4, 2, "it is a 64-bit file: -march=rv32ima -mabi=ilp32 make one of 32 bits"),
    (5, 2, "it is big-endian"),
    (16, 3, "it has no fixed addresses, or isn't linked: link it with -static, without -shared, -pie, -r and -c"),
    (18, 3, "it isn't for RISC-V"),
    (36, 1, "it has compressed instructions, or is for RV32E: leave 'c' and 'e' out of -march, for the libraries too"),
    (42, 1, "its segments are faulty, overlap, or end above 0xE0000000"),
    (46, 1, "its sections are faulty, or compressed: leave out -gz"),
    (24, 1, "its entry isn't in text: start code defines _start"),
)


class Launcher(Clone):
    """A clone in which the program under test is known to be built."""

    def __init__(self, rig, top, folder):
        super().__init__(top, folder)
        written(self.path(*BUILT_AT), "")
        shutil.copy(rig.program, self.path(*BUILT_AT))
        self.run(script="tools/record")
        self.run(self.run(script="tools/record")[1].decode().strip(), script="tools/record")
        for name, words in (("exit", EXIT), ("loop", LOOP)):
            self.put(name, plain(words))

    def put(self, name, content):
        """Writes a file into the clone."""
        with open(self.path(name), "wb") as file:
            file.write(content)

    def settings(self, has_kit=True, **more):
        """The environment; the bound of memory is that of the tests' own."""
        given = {name: os.environ[name] for name in ("RVDBG_MEMORY",) if name in os.environ}
        return dict(super().settings(has_kit, **given), **more)

    def session(self, words, input=b""):
        """The status, the output and what stands on standard error."""
        process = self.start(*words.split())
        output, error = process.communicate(input, timeout=PATIENCE)
        return process.returncode, output, error.decode()


def check_usage(rig, clone):
    """Without a word and for --help it answers as the program does, and says more."""
    for words in ("", "--help"):
        status, output, error = clone.session(words)
        told = [it in error for it in ("the program is built: ", "--slots N     scratch slots", ": 0 to 512, else 16", "--check FILE", "--log", "8 log rejected")]
        rig.row("launcher: [%s]" % words, (status, output, told), (1, USAGE, [True] * 6))
    status, output, error = clone.session("--version")
    rig.row("launcher: --version", (status, output, "its checksum: " in error, "the sources' checksum: " in error), (0, b"", True, True))
    rig.row("the program: --help", rig.run(["--help"]), (1, USAGE))


def check_words(rig, clone):
    """What is wrong with the words stands on standard error; all else is the program's."""
    for words, said in WORDS:
        rig.row("launcher: %s" % words, clone.session(words), (1, USAGE, "rvdbg: " + said + MORE))
        rig.row("the program: %s" % words, rig.run(words.split()), (1, USAGE))
    process = clone.start("\udcff")
    output, error = process.communicate(timeout=PATIENCE)
    rig.row("launcher: a word that isn't UTF-8", (process.returncode, output, error), (1, USAGE, b"rvdbg: words have to be UTF-8" + MORE.encode()))


def check_unreadable(rig, clone):
    """A FILE that can't be read is named; status and output are the program's."""
    rows = [
        ("missing", "rvdbg: cannot read 'missing': no such file\n"),
        ("--workers 0 --harts=2 missing", "rvdbg: cannot read 'missing': no such file\n"),
        ("--workers 0 -- -missing", "rvdbg: cannot read '-missing': no such file\n"),
        ("--check missing", "rvdbg: cannot read 'missing': no such file\n"),
        (".", "rvdbg: cannot read '.': it is a folder\n"),
    ]
    for words, error in rows:
        rig.row("launcher: %s" % words, clone.session(words), (5, b"", error))


def check_refused(rig, clone):
    """What the fault of a refused file means."""
    for place, value, means in FAULTS:
        content = bytearray(plain(EXIT))
        content[place] = value
        clone.put("refused", content)
        status, output, error = clone.session("refused")
        said = "rvdbg: 'refused' is refused: %s. examples/runtime shows how a program is made\n" % means
        rig.row("launcher: byte %d is %d" % (place, value), (status, output.startswith(b"^error,"), error), (2, True, said))


def check_ends(rig, clone):
    """Why a session ended."""
    used = (
        "rvdbg: the budget of 1000 instructions is used up: --budget sets another, up to 1000000000000.\n"
        "rvdbg: (if it waited in -exec-wait: that isn't answered while a hart runs; where harts wait for each other, tools/rvdbg-script waits for the next stop)\n"
    )
    for words in ("--budget 1000 loop", "loop --budget=1000"):
        rig.row("launcher: " + words, clone.session(words, CONTINUE), (3, OPENING + RUNNING, used))
    status, _, error = clone.session("--check exit", b"#settings\n")
    rig.row("launcher: a log that is none", (status, error), (8, "rvdbg: the input isn't a session of this FILE with its log, or not all of it\n"))


def check_link(rig, clone):
    """It works when it is called by a symbolic link, from a folder on the path too, and then says nothing of itself."""
    links = clone.path("links")
    os.makedirs(links)
    os.symlink("../rvdbg", os.path.join(links, "rvdbg"))
    wanted = (0, OPENING + RUNNING + EXITED, b"")
    for name, script, path in (("by a symbolic link", os.path.join(links, "rvdbg"), ""), ("from the path", "rvdbg", links + ":")):
        settings = clone.settings()
        settings["PATH"] = path + settings["PATH"]
        words = ["sh", "-c", script + " --workers 0 exit"]
        ran = subprocess.run(words, cwd=clone.folder, env=settings, input=CONTINUE, stdout=subprocess.PIPE, stderr=subprocess.PIPE, timeout=PATIENCE)
        rig.row(name, (ran.returncode, ran.stdout, ran.stderr), wanted)


def check_signals(rig, clone):
    """A signal that ends the script ends the session, and the script by that signal."""
    for number in (signal.SIGHUP, signal.SIGINT, signal.SIGQUIT, signal.SIGTERM, signal.SIGKILL):
        process = clone.start("--workers", "0", "--budget", LONG, "loop")
        process.stdin.write(CONTINUE)
        process.stdin.flush()
        lines = [process.stdout.readline() for _ in range(5)]
        process.send_signal(number)
        # (the output ends once no process has it any more)
        rest, error = process.communicate(timeout=PATIENCE)
        rig.row("launcher: signal %d" % number, (process.returncode, b"".join(lines) + rest, error), (-number, OPENING + RUNNING, b""))


def check_closed(rig, clone):
    """With a standard input that is closed it is as the program itself."""
    found = subprocess.run(["sh", "-c", "./rvdbg --workers 0 exit <&-"], cwd=clone.folder, env=clone.settings(), stdout=subprocess.PIPE, timeout=PATIENCE)
    own = subprocess.run(["sh", "-c", "%s --workers 0 exit <&-" % clone.path(*BUILT_AT)], cwd=clone.folder, stdout=subprocess.PIPE, timeout=PATIENCE)
    rig.row("launcher: a closed input", (found.returncode, found.stdout), (own.returncode, own.stdout))


def seen(clone, *words):
    """What somebody at a terminal sees of standard error."""
    terminal, end = pty.openpty()
    pipes = dict(stdin=subprocess.DEVNULL, stdout=subprocess.DEVNULL, stderr=end)
    subprocess.run([clone.path("rvdbg"), *words], cwd=clone.folder, env=clone.settings(), timeout=PATIENCE, **pipes)
    os.write(end, b"THE END\n")
    text = b""
    while not text.endswith(b"THE END\r\n"):
        text += os.read(terminal, 4096)
    os.close(terminal)
    os.close(end)
    return text[: -len(b"THE END\r\n")].decode()


def check_variables(rig, clone):
    """At a terminal it is said where variables are in a form that isn't read."""
    told = "rvdbg: the variables of 'new' are in the form of DWARF 5, which isn't read: -gdwarf-4 makes one that is\r\n"
    clone.put("new", plain(EXIT, more=[Section(b".debug_info", b""), Section(b".debug_line_str", b"")]))
    clone.put("old", plain(EXIT, more=[Section(b".debug_info", b"")]))
    rig.row("variables of DWARF 5, DWARF 4, none", [seen(clone, it) for it in ("new", "old", "exit")], [told, "", ""])
    rig.row("variables of DWARF 5: no terminal", clone.session("new"), (0, OPENING, ""))


def check_memory(rig, clone):
    """The first bound of memory that is too small for a program of 15 MiB ends the session with status 7, and with whole lines."""
    content = bytearray(plain(EXIT))
    struct.pack_into("<I", content, 104, 15 << 20)
    clone.put("large", content)
    if "RVDBG_MEMORY" in os.environ:
        return
    bound, status, output, error = 4000, 0, b"", ""
    while status == 0 and bound > 10:
        bound = bound * 4 // 5
        status, output, error = clone.run("--workers", "0", "large", RVDBG_MEMORY=str(bound))
    whole = output == b"" or OPENING.startswith(output) and output.endswith(b"\n")
    said = "rvdbg: memory ran out: RVDBG_MEMORY=MEGABYTES in the environment sets another bound, 0 none\n"
    rig.row("launcher: a bound of %d MB" % bound, (status, whole, error), (7, True, said))


def check_stand_in(rig, clone):
    """What only a program that is a script shows: the other statuses, the bound of memory, a signal of its own."""
    os.remove(clone.path(*BUILT_AT))
    clone.run("--build")
    rows = (
        ("4", 4, "rvdbg: the history is full, with 4194304 stops, counted arrivals, exits, lines and writes, or 64 MiB of input: begin a new session\n"),
        ("5 0", 5, "rvdbg: standard input or '0' couldn't be read to its end\n"),
        ("6", 6, "rvdbg: standard output couldn't be written: its reader has gone, or there is no room\n"),
        ("7", 7, "rvdbg: memory ran out: RVDBG_MEMORY=MEGABYTES in the environment sets another bound, 0 none\n"),
        ("signal SEGV", -signal.SIGSEGV, "rvdbg: the program was ended by the signal SEGV\n"),
    )
    for words, status, error in rows:
        rig.row("stand-in: " + words, clone.session(words), (status, b"", error))
    rig.row("a bound of memory", clone.run("limit", RVDBG_MEMORY="2000"), (0, b"2000000\n", ""))
    rig.row("no bound of memory", clone.run("limit", RVDBG_MEMORY="0"), (0, b"unlimited\n", ""))
    status, output, _ = clone.run("limit", RVDBG_MEMORY="")
    rig.row("what is free, or 4 GB", (status, int(output) >= 4 * 1024 * 1024), (0, True))
    given = subprocess.run(
        [clone.path("rvdbg"), "limit"],
        env=clone.settings(RVDBG_MEMORY="2000"),
        stdout=subprocess.PIPE,
        preexec_fn=lambda: resource.setrlimit(resource.RLIMIT_AS, (1 << 30, 1 << 30)),
    )
    rig.row("a bound that was set before stays", given.stdout, b"1048576\n")


def check_launcher(rig, top):
    """All of them, in one clone."""
    with tempfile.TemporaryDirectory(prefix="rvdbg-launcher-") as folder:
        clone = Launcher(rig, top, folder)
        checks = (check_usage, check_words, check_unreadable, check_refused, check_ends, check_link, check_signals, check_closed)
        for check in (*checks, check_variables, check_memory, check_stand_in):
            rig.guarded(check.__name__, lambda: check(rig, clone))
