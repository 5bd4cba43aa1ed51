"""The debugger's side: its harts, which GDB calls threads, how they go on and why they stop."""

import collections
import contextlib
import re

from rvdbg_dap.mi import Debugger, Refused, need, record, stream
from rvdbg_gdb.points import BREAKPOINT, WATCH, Points
from rvdbg_gdb.ranges import edges

# The registers by their numbers (the psABI's), and the signals' numbers in the protocol (GDB's signals.def).
NAMES = "zero ra sp gp tp t0 t1 t2 fp s1 a0 a1 a2 a3 a4 a5 a6 a7 s2 s3 s4 s5 s6 s7 s8 s9 s10 s11 t3 t4 t5 t6 pc".split()
PC = NAMES.index("pc")
# What has a thread go on.
GO = {"c": "-exec-continue --thread %d", "s": "-exec-step-instruction --thread %d"}
PATIENCE, MOST_EDGES, LONGEST_READ, LONGEST_WRITE, LONGEST_UNSAID = 60.0, 8, 4096, 1024, 1 << 20
SIGNALS = {"SIGINT": 2, "SIGILL": 4, "SIGTRAP": 5, "SIGBUS": 10, "SIGSEGV": 11}
SIGINT, SIGTRAP = SIGNALS["SIGINT"], SIGNALS["SIGTRAP"]
STATUSES = {
    3: "the budget of instructions is used up: --budget sets it",
    4: "the history is full, with 4,194,304 stops, commands and writes, or 64 MiB of commands",
    7: "memory ran out",
}

# Why a thread has stopped, with the signal that GDB is told and the address that it is about. Other kinds are those of
# breakpoints; MONITOR is one of `monitor break`.
MONITOR, SIGNAL, INTERRUPT, STEP, EXIT = "monitor", "signal", "interrupt", "step", "exit"
Stop = collections.namedtuple("Stop", "kind signal at")


class Thread:
    """A hart. `action` is how it went on last: by `c`, or by `s` and over which range; `ends` breakpoints at its ends.

    `asked` is the signal that is told where it stops because somebody wants that: 2 for Ctrl-C, 0 otherwise.
    """

    def __init__(self, number):
        self.number, self.name, self.is_running = number, "hart %d" % (number - 1), False
        self.asked, self.action, self.ends = None, ("c", 0, 0), []

    def is_within(self, pc):
        """Whether it is in the range that it is to leave."""
        return self.action[1] <= pc < self.action[2]


class Engine:
    """The debugger with one program. `untold` are the stops that GDB hasn't been told, by thread and in their order.

    `current` is the number of the thread that GDB looks at, `monitored` what `monitor break` has set, `unsaid` what was
    written for GDB's console, and isn't there yet.
    """

    def __init__(self, words, inbox, copy):
        self.threads, self.untold, self.monitored, self.current = {}, {}, {}, 1
        self.is_open = self.is_over = self.tells_exits = False
        self.exit_code, self.said = None, ""
        self.unsaid, self.points = b"", Points(self.ask)
        self.debugger = Debugger(words, inbox, copy)

    def write(self, content):
        self.unsaid = (self.unsaid + content)[-LONGEST_UNSAID:]

    def say(self, text):
        self.write(text.encode("utf-8", "replace") + b"\n")

    def reply(self, line):
        """Has the debugger do a line, and gives its result."""
        need(not self.is_over, "the debugger has ended")
        result, running = self.debugger.do(line, PATIENCE)
        for number in running:
            self.threads[number].is_running = True
        return result

    def ask(self, line):
        """The same where the result isn't an error."""
        result = self.reply(line)
        need(result.name != "error", "%s", result.fields.get("msg", result.text))
        return result

    # What it says by itself.

    def take_said(self, lines):
        for line in lines:
            self.said = line.decode("utf-8", "replace")
            self.write(line + b"\n")

    def take_lines(self, lines):
        for line in lines:
            if line.startswith((b"@", b"&", b"~")):
                self.write(stream(line))
            elif line.startswith(b"(gdb)"):
                self.is_open = True
            elif line.startswith((b"*", b"=", b"^")):
                self.happened(record(line))

    def take_ended(self):
        """It has ended: with the budget, because it refused something, or as it was told to."""
        self.is_over, status = True, self.debugger.status()
        if self.is_open and status != 0 and not self.debugger.is_closing:
            self.say("rvdbg: " + STATUSES.get(status, "the debugger ended with status %s" % status))

    def happened(self, told):
        """What a record says."""
        fields = told.fields
        if told.name == "error":
            self.said = fields["msg"]
        elif told.name == "thread-created":
            self.threads[int(fields["id"])] = Thread(int(fields["id"]))
        elif told.name == "thread-exited":
            thread = self.threads.pop(int(fields["id"]))
            self.untold.pop(thread, None)
            if self.tells_exits:
                self.untold[thread] = Stop(EXIT, 0, 0)
            self.points.delete(thread.ends)
        elif told.name == "stopped" and fields["reason"].startswith("exited"):
            self.exit_code = int(fields.get("exit-code", "0"), 8)
        elif told.name == "stopped":
            self.stopped(self.threads[int(fields["thread-id"])], fields, int(fields["frame"]["addr"], 16))

    def stopped(self, thread, fields, pc):
        """A thread has stopped: for good, or within a range that it hasn't left."""
        reason, number, is_mine = fields["reason"], fields.get("bkptno"), self.points.has(BREAKPOINT, pc)
        ends, thread.ends, thread.is_running = thread.ends, [], False
        self.points.delete(ends)
        if reason == "signal-received":
            signal = SIGNALS[fields["signal-name"]]
            stop = Stop(INTERRUPT, thread.asked or 0, pc) if signal == SIGINT else Stop(SIGNAL, signal, pc)
        elif reason == "watchpoint-trigger":
            stop = Stop(WATCH, SIGTRAP, int(re.search("0x([0-9a-fA-F]+)", fields["wpt"]["exp"])[1], 16))
        elif number in self.monitored and not is_mine:
            self.say("Breakpoint %s of the debugger: %s" % (number, self.monitored[number]))
            stop = Stop(MONITOR, 0, pc)
        elif is_mine or reason == "breakpoint-hit" and number not in ends:
            stop = Stop(BREAKPOINT, SIGTRAP, pc)
        elif not thread.is_within(pc):
            stop = Stop(STEP, SIGTRAP, pc)
        elif thread.asked is not None:
            stop = Stop(INTERRUPT, thread.asked, pc)
        else:
            return self.walk_on(thread, pc)
        self.untold[thread] = stop

    def is_stale(self, stop):
        """Whether a stop is one for a breakpoint or a watch that GDB doesn't have any more."""
        return stop.kind in (BREAKPOINT, WATCH) and not self.points.has(stop.kind, stop.at)

    # How threads go on.

    def thread(self, number=None):
        """The thread of that number, or the one that GDB looks at."""
        number = self.current if number is None else number
        need(number in self.threads, "there is no thread %s", number)
        return self.threads[number]

    def running(self):
        return [it for it in self.threads.values() if it.is_running]

    def resume(self, threads, action):
        """Threads go on alike; where all of them do, at once."""
        self.points.settle()
        for thread in threads:
            thread.action, thread.asked = action, None
        if action[0] == "c" and len(threads) == len(self.threads):
            self.ask("-exec-continue --all")
            return
        for thread in threads:
            pc = self.registers(thread, [PC])[0] if action[2] else 0
            if thread.is_within(pc):
                self.walk_on(thread, pc)
            else:
                self.ask(GO[action[0]] % thread.number)

    def walk_on(self, thread, pc):
        """A thread runs to where it leaves a range: up to breakpoints of its own, or by one instruction.

        By instructions it goes where a watch stands, which a breakpoint at the same arrival would hide.
        """
        _, start, end = thread.action
        places, is_watching = {pc}, any(kind == WATCH for kind, _, _ in self.points.wanted)
        if end - start <= LONGEST_READ and start % 4 == end % 4 == 0 and not is_watching:
            places = edges(bytes.fromhex(self.read(start, end - start)), start)
        if pc not in places and len(places) <= MOST_EDGES:
            lines = ["-break-insert -p %d *0x%x" % (thread.number, it) for it in sorted(places)]
            with contextlib.suppress(Refused):
                thread.ends = self.points.make(lines)
        self.ask(GO["c" if thread.ends else "s"] % thread.number)

    def interrupt(self, thread, signal):
        """A thread is to stop. Where it has done so already, its stop is on its way."""
        thread.asked = signal if thread.asked is None else thread.asked
        if thread.is_running:
            self.reply("-exec-interrupt --thread %d" % thread.number)

    # What it holds.

    def registers(self, thread, numbers):
        words = thread.number, " ".join(map(str, numbers))
        rows = self.ask("-data-list-register-values --thread %d x %s" % words).fields["register-values"]
        return [int(row["value"], 16) for row in rows]

    def write_register(self, thread, number, value):
        self.ask("-gdb-set --thread %d $%s=0x%x" % (thread.number, NAMES[number], value))

    def read(self, address, count):
        """The bytes from an address on, as many as can be read, in hexadecimal digits."""
        result = self.reply("-data-read-memory-bytes 0x%x %d" % (address, count))
        if result.name != "error":
            return result.fields["memory"][0]["contents"]
        unread = re.search("address 0x([0-9a-f]+)", result.fields["msg"])
        return self.read(address, int(unread[1], 16) - address) if unread and int(unread[1], 16) > address else ""

    def write_memory(self, address, content):
        """Writes bytes, a piece after the other."""
        for at in range(0, len(content), LONGEST_WRITE):
            self.ask("-data-write-memory-bytes 0x%x %s" % (address + at, content[at : at + LONGEST_WRITE].hex()))
