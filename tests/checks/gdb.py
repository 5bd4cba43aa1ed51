"""Sessions of GDB over the bridge `editors/rvdbg-gdb`: what GDB printed is stored in `tests/gdb`.

`tests/gdb/NAME` has `commands`, `words` of the bridge behind `--rvdbg PROGRAM`, where there are some, and for each program that it
is for what was printed, as `PROGRAM.output`. A line of `commands` that begins with `#wait` waits until what the expression behind it
fits was printed since the last command; GDB is started anew for each program. `tests/checks/gdb.py store PROGRAM [NAME..]` stores them
anew. Debian's gdb-multiarch 13.1 printed what is stored. Where it isn't installed the sessions are passed over.
"""

import os
import re
import select
import shutil
import subprocess
import sys
import tempfile
import time

if __name__ == "__main__":
    sys.dont_write_bytecode = True
    sys.path.insert(0, os.path.dirname(os.path.dirname(os.path.realpath(__file__))))

from checks.rig import Rig  # noqa: E402

TOP = os.path.dirname(os.path.dirname(os.path.dirname(os.path.realpath(__file__))))
BRIDGE = os.path.join(TOP, "editors", "rvdbg-gdb")
HERE = os.path.join(TOP, "tests", "gdb")
PROGRAMS = os.path.join(HERE, "programs")
GDB = "gdb-multiarch"
# GDB's prompts: that of its command line, and that for the commands of a breakpoint.
PROMPTED = re.compile(rb"\(gdb\) |\A>\Z")
SETTINGS = [
    *("set pagination off", "set confirm off", "set width 0", "set style enabled off", "set print thread-events off"),
    # (in seconds, for machines that are busy)
    "set remotetimeout 120",
]
PATIENCE = 120.0


class Gdb:
    """GDB, to which lines are given one by one; `heard` is what it printed for the last one, `told` all of it."""

    def __init__(self, words):
        settings = [word for it in SETTINGS for word in ("-iex", it)]
        pipes = dict(stdin=subprocess.PIPE, stdout=subprocess.PIPE, stderr=subprocess.STDOUT, bufsize=0)
        environment = dict(os.environ, LC_ALL="C.UTF-8", TERM="dumb")
        self.process = subprocess.Popen([GDB, "-nx", "-q", *settings, *words], cwd=PROGRAMS, env=environment, **pipes)
        self.heard, self.told = b"", []
        self.wait(PROMPTED)

    def __enter__(self):
        return self

    def __exit__(self, *_):
        if self.process.poll() is None:
            self.process.kill()
        self.process.wait()
        for pipe in (self.process.stdin, self.process.stdout):
            pipe.close()

    def wait(self, text):
        """Reads until what this expression fits is printed."""
        ends = time.monotonic() + PATIENCE
        while not re.search(text, self.heard):
            if not select.select([self.process.stdout], [], [], max(0.0, ends - time.monotonic()))[0]:
                raise OSError("%r isn't printed, but %r" % (text, self.heard))
            piece = os.read(self.process.stdout.fileno(), 65536)
            if not piece:
                raise OSError("GDB has ended, after %r" % self.heard)
            self.heard += piece

    def keep(self):
        """Keeps what was heard."""
        self.told.append(PROMPTED.sub(b"", self.heard))
        self.heard = b""

    def do(self, line):
        """Does a line of a session."""
        if line.startswith("#wait "):
            self.wait(line[6:].encode())
            return
        self.keep()
        self.told.append(b"(gdb) %s\n" % line.encode())
        self.process.stdin.write(line.encode() + b"\n")
        self.wait(PROMPTED)

    def end(self):
        """Ends GDB, and gives its status and all that was printed."""
        self.keep()
        self.process.stdin.write(b"quit\n")
        self.heard = self.process.stdout.read()
        self.keep()
        return self.process.wait(PATIENCE), b"".join(self.told)


def lines(*path):
    """The lines of a file of a session; none where it isn't there."""
    path = os.path.join(HERE, *path)
    if not os.path.exists(path):
        return []
    with open(path, encoding="ascii") as file:
        return file.read().splitlines()


def session(rig, name, program):
    """Does a session over a program, and gives what GDB printed. Paths of this machine aren't part of it."""
    words = [BRIDGE, "--rvdbg", rig.program, *" ".join(lines(name, "words")).split(), program]
    with Gdb([program]) as gdb:
        for line in lines(name, "commands"):
            gdb.do(line.replace("BRIDGE", " ".join(words)).replace("FOLDER", rig.folder))
        status, told = gdb.end()
    for path, short in ((" ".join(words).encode(), b"BRIDGE"), (rig.folder.encode(), b"FOLDER")):
        told = told.replace(path, short)
    return b"status %d\n" % status + told


def programs(name):
    """The programs of a session."""
    return sorted(it[:-7] for it in os.listdir(os.path.join(HERE, name)) if it.endswith(".output"))


def names():
    """The sessions."""
    return sorted(it for it in os.listdir(HERE) if os.path.exists(os.path.join(HERE, it, "commands")))


def check_session(rig, name, program):
    """Does a session over a program, and compares what was printed."""
    with open(os.path.join(HERE, name, program + ".output"), "rb") as file:
        rig.row("gdb, %s of %s" % (name, program), session(rig, name, program), file.read())


def check_gdb(rig):
    """All of them, where GDB is there."""
    if not shutil.which(GDB):
        print("outside: %s isn't installed: the sessions of tests/gdb are passed over" % GDB)
        return
    for name in names():
        for program in programs(name):
            rig.guarded("gdb, %s of %s" % (name, program), lambda: check_session(rig, name, program))


def store(rig, chosen):
    """Stores what is printed now."""
    for name in chosen or names():
        for program in programs(name):
            with open(os.path.join(HERE, name, program + ".output"), "wb") as file:
                file.write(session(rig, name, program))


def main():
    """Runs the sessions over the program that is named, or stores what they print."""
    is_stored = sys.argv[1:2] == ["store"]
    program, *chosen = sys.argv[2:] if is_stored else sys.argv[1:]
    with tempfile.TemporaryDirectory(prefix="rvdbg-gdb-") as folder:
        rig = Rig(os.path.abspath(program), None, folder)
        store(rig, chosen) if is_stored else check_gdb(rig)
    print("outside: %d passed, %d failed" % (rig.passed, rig.failed))
    return 1 if rig.failed else 0


if __name__ == "__main__":
    sys.exit(main())
