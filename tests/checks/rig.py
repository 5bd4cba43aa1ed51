"""What the checks stand on: the program under test, its files, and a count of what was found."""

import difflib
import os
import select
import signal
import subprocess
import time

# A guard against what never ends: on a busy machine a check may take its time.
PATIENCE = 120.0
TOP = os.path.dirname(os.path.dirname(os.path.dirname(os.path.realpath(__file__))))
# The program where it is built, by the folders from the clone's top on, and its path in this clone.
BUILT_AT = ("crates", "dbg_program", "out", "dbg_program")
BUILT = os.path.join(TOP, *BUILT_AT)

OPENING = b'=thread-created,id="1",group-id="i1"\n(gdb)\n'
RUNNING = b'^running\n*running,thread-id="1"\n(gdb)\n'
EXITED = b'=thread-exited,id="1",group-id="i1"\n*stopped,reason="exited-normally"\n'
USAGE = b'^error,msg="usage: rvdbg [--harts N] [--workers N] [--slots N] [--budget N] [--slice N] FILE"\n'


class Rig:
    """The program, the folder that it is run in, how many rows passed and failed, and what is told beside."""

    def __init__(self, program, launcher, folder):
        self.program, self.launcher, self.folder = program, launcher, folder
        self.passed, self.failed, self.notes = 0, 0, []

    def put(self, name, content):
        """Writes a file into the folder, and gives its name."""
        with open(os.path.join(self.folder, name), "wb") as file:
            file.write(content)
        return name

    def row(self, name, found, wanted):
        """Counts a row, and shows where it differs if it failed."""
        if found == wanted:
            self.passed += 1
            return
        self.failed += 1
        print("outside: FAILED: " + name)
        print("\n".join("  " + line for line in difference(found, wanted)), flush=True)

    def guarded(self, name, check):
        """Does a check; one that breaks off is a row that failed."""
        try:
            check()
        except (OSError, subprocess.SubprocessError, TypeError, KeyError, IndexError, ValueError, AttributeError) as error:
            self.row(name, repr(error), "no error")

    def run(self, words, input=b"", **how):
        """Runs the program to its end, and gives its status and what it wrote."""
        how.setdefault("stdout", subprocess.PIPE)
        if "stdin" not in how:
            how["input"] = input
        ran = subprocess.run([self.program, *words], cwd=self.folder, timeout=PATIENCE, **how)
        return ran.returncode, ran.stdout


def difference(found, wanted):
    """A unified diff from what is wanted to what was found."""
    return list(difflib.unified_diff(lines_of(wanted), lines_of(found), "wanted", "found", lineterm="", n=2))


def lines_of(value):
    """A value as lines: text by its own, a pair or a list by those of its items, anything else in one."""
    if isinstance(value, (tuple, list)):
        return [line for item in value for line in lines_of(item)]
    if not isinstance(value, bytes):
        return [repr(value)]
    lines = value.decode("ascii", "backslashreplace").split("\n")
    return lines[:-1] if lines[-1] == "" else lines[:-1] + [lines[-1] + " (no line end)"]


class Talk:
    """The program with its input held open, so that it can be spoken with."""

    def __init__(self, rig, words, program=None, **how):
        how.setdefault("stdin", subprocess.PIPE)
        how.setdefault("stdout", subprocess.PIPE)
        self.process = subprocess.Popen([program or rig.program, *words], cwd=rig.folder, bufsize=0, **how)
        self.heard = bytearray()

    def __enter__(self):
        return self

    def __exit__(self, *_):
        if self.process.poll() is None:
            self.process.send_signal(signal.SIGKILL)
        for pipe in (self.process.stdin, self.process.stdout):
            if pipe:
                pipe.close()
        self.process.wait()

    def say(self, text):
        """Writes to the program's input."""
        self.process.stdin.write(text)

    def more(self, ends):
        """Reads a piece of the output, and says whether one came before that time."""
        left = ends - time.monotonic()
        if left <= 0 or not select.select([self.process.stdout], [], [], left)[0]:
            return False
        piece = os.read(self.process.stdout.fileno(), 65536)
        self.heard += piece
        return len(piece) > 0

    def hear(self, text, count=1):
        """Reads until the text was written so often, and says whether it came in time."""
        ends, found, at = time.monotonic() + PATIENCE, 0, 0
        while found < count:
            place = self.heard.find(text, at)
            if place >= 0:
                found, at = found + 1, place + len(text)
                continue
            at = max(at, len(self.heard) - len(text) + 1)
            if not self.more(ends):
                return False
        return True

    def rest(self):
        """Reads to the end of the output, and gives all of it."""
        ends = time.monotonic() + PATIENCE
        while self.more(ends):
            pass
        return bytes(self.heard)

    def status(self):
        """The exit status, or None where the program doesn't end; its input stays open meanwhile."""
        try:
            return self.process.wait(PATIENCE)
        except subprocess.TimeoutExpired:
            return None
