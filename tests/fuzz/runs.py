"""Runs of the program on cases, and what is odd in them."""

import functools
import os
import re
import resource
import tempfile

from fuzz.cases import CHECKED, Seeds, case, log_mutant
from fuzz.mutants import Dice
from fuzz.starter import Starter

SECONDS = 10.0
# What a session takes over a program of 16,777,216 mapped bytes, whatever else there is; and then 20 times what it is given.
FLOOR = 96 << 20
FACTOR = 20
STATUSES = (0, 1, 2, 3, 4)
HEAD = re.compile(rb"[0-9]{0,18}\^[A-Za-z0-9_-]+|[*=][A-Za-z0-9_-]+")
TEXT = re.compile(rb'"(?:[ !#-\[\]-~]|\\["\\nrt]|\\[0-3][0-7][0-7])*"')
NAME = re.compile(rb"([A-Za-z0-9_-]+)=")


class Run:
    """What came of a run: its status (below 0 a signal's), its output, seconds and the greatest memory in bytes."""

    def __init__(self, status, output, seconds, memory):
        self.status, self.output, self.seconds, self.memory = status, output, seconds, memory


def run(starter, words, lines, folder):
    """Runs a program in a folder over lines of input. After twice the time that it may take it is killed."""
    put(folder, "input", lines)
    status, seconds, memory = starter.run(words, folder, 2 * SECONDS)
    with open(os.path.join(folder, "output"), "rb") as file:
        return Run(status, file.read(), 2 * SECONDS if seconds is None else seconds, memory)


def put(folder, name, content):
    """Writes a file."""
    with open(os.path.join(folder, name), "wb") as file:
        file.write(content)


def is_value(text, at, depth=0):
    """The place behind a value of the grammar, or -1."""
    found = TEXT.match(text, at)
    if found:
        return found.end()
    if depth == 16 or text[at : at + 1] not in (b"{", b"["):
        return -1
    ends = b"}" if text[at : at + 1] == b"{" else b"]"
    at += 1
    if text[at : at + 1] == ends:
        return at + 1
    fields = ends == b"}" or NAME.match(text, at) is not None
    while True:
        if fields:
            found = NAME.match(text, at)
            at = found.end() if found else -1
        at = is_value(text, at, depth + 1) if at >= 0 else -1
        if at < 0 or text[at : at + 1] != b",":
            return at + 1 if at >= 0 and text[at : at + 1] == ends else -1
        at += 1


@functools.lru_cache(4096)
def is_line(line):
    """Whether a line of output is one of the grammar of FORMATS."""
    if line == b"(gdb)":
        return True
    if line[:1] in (b"@", b"&"):
        return TEXT.fullmatch(line, 1) is not None
    found = HEAD.match(line)
    at = found.end() if found else -1
    while 0 <= at < len(line):
        found = NAME.match(line, at + 1) if line[at : at + 1] == b"," else None
        at = is_value(line, found.end()) if found else -1
    return at == len(line)


def oddities(done, given):
    """What is odd in a run that was given so many bytes."""
    if done.status not in STATUSES:
        yield "status %d" % done.status if done.status >= 0 else "killed by signal %d" % -done.status
    if done.seconds > SECONDS:
        yield "%.1f s" % done.seconds
    if done.memory > FLOOR + FACTOR * given:
        yield "%d MB of memory for %d bytes" % (done.memory >> 20, given)
    lines = done.output.split(b"\n")
    if lines.pop():
        yield "the output doesn't end with a line"
    bad = next((line for line in lines if not is_line(line)), None) if len(done.output) < 1 << 20 else None
    if bad is not None:
        yield "no line of the grammar: %.200r" % bad


class Runner:
    """The program, the seeds and a folder of its own."""

    def __init__(self, program, top, seed, keep, folder):
        self.program, self.seeds, self.seed, self.keep = os.path.abspath(program), Seeds(top), seed, keep
        self.folder, self.starter = tempfile.mkdtemp(dir=folder), Starter()

    def run(self, words, lines):
        """Runs the program with these words over lines of input."""
        return run(self.starter, [self.program, *words], lines, self.folder)

    def one(self, kind, number):
        """Does one case, keeps it where it is odd, and gives what is odd."""
        if kind == "log":
            return self.log(number)
        folder, made = self.folder, case(self.seeds, kind, self.seed, number)
        file = os.path.join(folder, "program")
        put(folder, "program", made.file)
        done = self.run([*made.words, file], made.lines)
        return self.kept(kind, number, made, list(oddities(done, len(made.file) + len(made.lines))), done)

    def log(self, number):
        """A session's log is accepted by the checker, and a mutant of it is accepted or rejected."""
        folder, made = self.folder, case(self.seeds, "input", self.seed, number)
        file = os.path.join(folder, "program")
        put(folder, "program", made.file)
        done = self.run(["--log", *made.words, file], made.lines)
        odd = [] if done.status in STATUSES else ["--log: status %d" % done.status]
        if done.status in (0, 3, 4):
            checked = self.run(["--check", file], done.output)
            odd += [] if checked.output.startswith(b"check accepted") and checked.status == 0 else ["its own log: %.100r" % checked.output]
        text = log_mutant(Dice("mutant %d %d" % (self.seed, number)), done.output)
        checked = self.run(["--check", file], text)
        if done.status in (0, 3, 4) and (checked.status not in (0, 8) or not CHECKED.fullmatch(checked.output)):
            odd.append("a mutant of its log: status %d, %.100r" % (checked.status, checked.output))
        odd += [it for it in oddities(checked, len(made.file) + len(text)) if "memory" in it or " s" in it[-2:]]
        made.lines = text
        return self.kept("log", number, made, odd, done)

    def kept(self, kind, number, made, odd, done):
        """What is odd, with the place where the case was kept."""
        if odd and self.keep:
            place = os.path.join(self.keep, "%s-%d-%d" % (kind, self.seed, number))
            os.makedirs(place, exist_ok=True)
            put(place, "program", made.file)
            put(place, "input", made.lines)
            put(place, "args", "".join(word + "\n" for word in [*made.words, "FILE"]).encode())
            odd = ["%s (kept in %s)" % (it, place) for it in odd]
        return done.status, ["%s %d: %s" % (kind, number, it) for it in odd]


def limit_memory():
    """A run that asks for more than this is refused it: a mutant isn't to take the machine down."""
    resource.setrlimit(resource.RLIMIT_AS, (4 << 30, resource.getrlimit(resource.RLIMIT_AS)[1]))
