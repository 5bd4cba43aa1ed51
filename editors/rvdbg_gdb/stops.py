"""How stops are told: in all-stop mode one after the other while nothing runs, in non-stop mode each for its thread."""

import struct

from rvdbg_gdb.engine import EXIT, INTERRUPT, NAMES, PC, SIGTRAP, STEP, Stop
from rvdbg_gdb.points import BREAKPOINT, WATCH

# What GDB asks for first at each stop: told with the stop, it isn't asked for.
FIRST = [NAMES.index(it) for it in ("pc", "sp", "fp", "ra")]
# What a packet is answered by whose answer comes later.
LATER = object()


class Stops:
    """`is_waiting` says that GDB takes a stop, `is_opening` that its connection doesn't stand yet, and
    `tells_breakpoints` that it has said by `swbreak` that it wants to be told of them.

    In all-stop mode it takes one after `resumed` have gone on. In non-stop mode it takes one by one, and asks for the
    next: `sent` is the thread whose stop is on its way, for which what lets all threads go on isn't meant.
    """

    def __init__(self, engine, close):
        self.engine, self.close, self.resumed, self.sent = engine, close, [], None
        self.is_non_stop = self.is_waiting = self.is_opening = self.has_ended = self.tells_breakpoints = False

    def reply(self, thread, stop):
        """A stop reply. Where a watch has fired behind a breakpoint, which can be of no other thread, that is told."""
        if stop.kind == EXIT:
            return "w00;%x" % thread.number
        kind, at, fired = stop.kind, stop.at, self.engine.points.fired()
        others = [it for it in self.engine.untold.values() if it.kind in (BREAKPOINT, WATCH)]
        if kind == BREAKPOINT and fired is not None and not others and not self.engine.running():
            kind, at = WATCH, fired
        why = {BREAKPOINT: "swbreak:;" * self.tells_breakpoints, WATCH: "watch:%x;" % at}.get(kind, "")
        values = zip(FIRST, self.engine.registers(thread, FIRST))
        first = "".join("%x:%s;" % (number, struct.pack("<I", value).hex()) for number, value in values)
        return "T%02xthread:%x;%s%s" % (stop.signal, thread.number, why, first)

    def end(self):
        """What is told where nothing can run any more: the exit code, or that the debugger has ended; else None."""
        is_gone = not self.engine.threads and self.engine.exit_code is not None
        if not is_gone and not self.engine.is_over:
            return None
        self.has_ended = True
        self.close()
        return "W%02x" % (self.engine.exit_code & 255) if is_gone else "X09"

    def why(self):
        """Answers why it stands, in non-stop mode of one thread: of the others GDB is told once its connection stands.

        GDB 13 breaks off by an assertion of its own where it hears of several while it connects.
        """
        first, *others = list(self.engine.threads.values()) or [None]
        if first is None or not self.is_non_stop:
            return self.reply(first, Stop(STEP, SIGTRAP, 0)) if first else self.end() or "OK"
        self.is_opening, self.is_waiting, self.sent = True, False, first
        self.engine.untold.update({it: Stop(INTERRUPT, 0, 0) for it in others})
        return self.reply(first, Stop(INTERRUPT, 0, 0))

    def go(self, groups):
        """Threads go on. One whose stop GDB hasn't heard of stands: it hears of it now, in all-stop mode before any."""
        untold, self.resumed = self.engine.untold, [it for _, threads in groups for it in threads]
        if not self.is_non_stop:
            for thread in [it for it in self.resumed if it in untold and self.engine.is_stale(untold[it])]:
                del untold[thread]
            groups = [] if any(it in untold for it in self.resumed) else groups
        for action, threads in groups:
            there = [it for it in threads if not it.is_running and it not in untold and it is not self.sent]
            self.engine.resume(there, action)
        self.is_opening, self.is_waiting = False, self.is_waiting or not self.is_non_stop
        return None if self.is_non_stop else LATER

    def next(self):
        """What is to be told now, or None. In all-stop mode a stop is told once nothing runs.

        Of what else has stopped by then a breakpoint, a watch or a trap is told when its thread is to go on; of a step
        or an interrupt nothing is told.
        """
        if not self.is_waiting or self.is_opening:
            return None
        engine, is_all_stop, running = self.engine, not self.is_non_stop, self.engine.running()
        ready = [it for it in engine.untold if self.is_non_stop or it in self.resumed]
        if is_all_stop and running and not engine.is_over:
            for thread in [it for it in running if ready and it.asked is None]:
                engine.interrupt(thread, 0)
            return None
        for thread in ready if not engine.is_over else ():
            stop = self.as_it_stands(thread, engine.untold.pop(thread))
            if stop:
                text = self.reply(thread, stop)
                self.sent = thread if self.is_non_stop else None
                if is_all_stop:
                    engine.current = thread.number
                    engine.untold = {it: why for it, why in engine.untold.items() if why.kind not in (STEP, INTERRUPT)}
                return text
        return self.end() or ("N" if is_all_stop and engine.threads and not engine.running() else None)

    def as_it_stands(self, thread, stop):
        """A stop. Where its breakpoint is gone it is what GDB waits for, or nothing: the thread goes on as it did."""
        if not (self.is_non_stop and self.engine.is_stale(stop)):
            return stop
        if thread.asked is not None:
            return Stop(INTERRUPT, thread.asked, stop.at)
        if thread.action[0] == "s" and not thread.is_within(*self.engine.registers(thread, [PC])):
            return Stop(STEP, SIGTRAP, stop.at)
        self.engine.resume([thread], thread.action)
        return None

    def taken(self):
        """In non-stop mode GDB has taken a stop: gives it the next one."""
        self.sent, self.is_waiting = None, not self.has_ended
        text = self.next()
        self.is_waiting = self.is_waiting and text is None
        return text or "OK"
