"""What is between GDB and the debugger: packets are answered, and what happens is told."""

import contextlib
import os
import queue
import re
import select
import struct

from rvdbg_dap.mi import Refused, need
from rvdbg_gdb.engine import LONGEST_READ, NAMES, SIGINT
from rvdbg_gdb.monitor import monitor
from rvdbg_gdb.packets import framed, numbers, unescaped, window
from rvdbg_gdb.points import BREAKPOINT, WATCH, Points
from rvdbg_gdb.stops import LATER, Stops

MALFORMED = (ValueError, TypeError, LookupError, OverflowError, struct.error)
FEATURES = (
    "PacketSize=4000;QStartNoAckMode+;QNonStop+;QThreadEvents+;qXfer:features:read+;qXfer:threads:read+;"
    "vContSupported+;swbreak+;no-resumed+"
)
TYPES = {"ra": "code_ptr", "pc": "code_ptr", "sp": "data_ptr", "gp": "data_ptr", "tp": "data_ptr", "fp": "data_ptr"}
DESCRIPTION = (
    '<?xml version="1.0"?><!DOCTYPE target SYSTEM "gdb-target.dtd"><target version="1.0"><architecture>riscv:rv32'
    '</architecture><osabi>none</osabi><feature name="org.gnu.gdb.riscv.cpu">%s</feature></target>'
) % "".join('<reg name="%s" bitsize="32" type="%s"/>' % (it, TYPES.get(it, "int")) for it in NAMES)
WORD, WORDS, SP = struct.Struct("<I"), struct.Struct("<%dI" % len(NAMES)), NAMES.index("sp")
# What GDB writes below the stack before it has the program call a function (riscv_push_dummy_code of riscv-tdep.c).
NOP, BELOW = bytes.fromhex("13000000"), 64
EVERYONE, KINDS = ("", "-1", "0"), {"c": "c", "C": "c", "s": "s", "S": "s", "r": "s"}
# How long GDB has to be silent until its connection stands, and how long the end of a log may take, in seconds.
LULL, LONG = 0.1, 600.0
LONGEST_TEXT = 4096


class Server:
    """A session. `take_..` are what GDB says, `on_..` answer its packets: by "OK" where they give nothing.

    `written` are the registers that GDB has written one after the other, `is_calling` says that it prepares a call.
    """

    def __init__(self, client, engine, log):
        self.client, self.engine, self.log, self.stops = client, engine, log, Stops(engine, self.close)
        self.is_done, self.written, self.is_calling = False, [], False

    def run(self):
        """Does what comes, in its order, until GDB goes."""
        self.client.is_served.set()
        while not self.is_done:
            for act in (self.take, self.tell):
                try:
                    act()
                except Refused as refusal:
                    self.engine.say("rvdbg: %s" % refusal)
            self.flush()
        self.flush(1.0)

    def take(self):
        """Takes what comes next."""
        try:
            origin, kind, *rest = self.client.inbox.get(timeout=LULL if self.stops.is_opening else None)
            getattr(self if origin is self.client else self.engine, "take_" + kind)(*rest)
        except queue.Empty:
            self.stops.is_opening = False

    def tell(self):
        """Tells how threads have stopped, behind what was written until then."""
        text = self.stops.next()
        self.flush()
        if text:
            self.stops.is_waiting = False
            self.client.write(framed("Stop:" + text, b"%")) if self.stops.is_non_stop else self.client.send(text)

    def flush(self, patience=0.0):
        """Puts what was written into GDB's console, which in all-stop mode takes it while GDB waits for a stop.

        In non-stop mode it takes none: there it goes to standard error, which GDB shows where it has started the
        bridge, and reads beside the packets alone. So it is written as far as it is read.
        """
        engine, is_aside = self.engine, self.is_done or self.stops.is_non_stop
        with contextlib.suppress(OSError):
            while engine.unsaid and (is_aside or self.stops.is_waiting):
                piece = engine.unsaid[:LONGEST_TEXT]
                if not is_aside:
                    self.client.send("O" + piece.hex())
                elif select.select([], [2], [], patience)[1]:
                    piece = piece[: os.write(2, piece)]
                else:
                    return
                engine.unsaid = engine.unsaid[len(piece) :]

    def close(self):
        """Ends the debugger, once, and tells what the check of its log has said."""
        if not self.engine.debugger.is_closing:
            self.engine.debugger.stop(self.log.path is not None and not self.engine.is_over, LONG)
            if self.log.path:
                self.engine.say("rvdbg: " + self.log.verdict())

    def take_packet(self, text):
        """Answers a packet. One that isn't known has the empty answer."""
        prefix = next(it for it in PREFIXES if text.startswith(it))
        self.written = self.written if prefix == "P" else []
        try:
            answer = PACKETS[prefix](self, text[len(prefix) :])
        except Refused as refusal:
            answer = "E." + re.sub("[#$}*]", "", str(refusal))
        except MALFORMED:
            answer = "E01"
        if answer is not LATER:
            self.client.send("OK" if answer is None else answer)

    def take_interrupt(self):
        """Ctrl-C stops the thread that GDB looks at, or another one that runs."""
        running = self.engine.running()
        if running:
            self.engine.interrupt(max(running, key=lambda it: it.number == self.engine.current), SIGINT)

    def take_gone(self):
        """GDB has gone."""
        self.is_done = True
        self.close()

    # The session and its threads.

    def on_supported(self, text):
        """What the bridge can. Of breakpoints it tells a GDB that knows how."""
        self.stops.tells_breakpoints = "swbreak+" in text
        return FEATURES

    def on_no_acknowledgement(self, _):
        self.client.is_acknowledging = False

    def on_non_stop(self, text):
        self.stops.is_non_stop = self.stops.is_waiting = {"0": False, "1": True}[text]

    def on_monitor(self, text):
        line = bytes.fromhex(text).decode("utf-8", "surrogateescape")
        return monitor(self.engine, self.log, line).encode("utf-8", "surrogateescape").hex() or "OK"

    def on_select(self, text):
        """`g` and a thread: what follows is about it. Which one goes on stands in `vCont`."""
        if text[:1] == "g" and text[1:] not in EVERYONE:
            self.engine.current = self.engine.thread(*numbers(text[1:])).number

    def on_threads(self, _):
        return "m" + ",".join("%x" % it for it in self.engine.threads) if self.engine.threads else "l"

    def on_thread_document(self, text):
        rows = ['<thread id="%x" name="%s"/>' % (it.number, it.name) for it in self.engine.threads.values()]
        return window("<threads>%s</threads>" % "".join(rows), text)

    def on_thread_events(self, text):
        """GDB waits for threads that it stops: where one exits meanwhile it has to hear of that."""
        self.engine.tells_exits = {"0": False, "1": True}[text]

    # Registers, memory and breakpoints.

    def registers(self, *which):
        """Registers of the thread that GDB looks at, or all of them."""
        return self.engine.registers(self.engine.thread(), which)

    def on_write_registers(self, text):
        """Writes those that differ: `zero` and `pc` can't be written."""
        for number, (old, new) in enumerate(zip(self.registers(), WORDS.unpack(bytes.fromhex(text)))):
            if old != new:
                self.engine.write_register(self.engine.thread(), number, new)

    def on_write_register(self, text):
        """`NUMBER=VALUE`. GDB writes `pc` last, also for a `return`: where that is refused, the others are put back."""
        name, value = text.split("=")
        thread, (number,), (value,) = self.engine.thread(), numbers(name), WORD.unpack(bytes.fromhex(value))
        (old,), is_calling, self.is_calling = self.registers(number), self.is_calling, False
        need(not is_calling, "no function of the program can be called, since pc can't be written")
        try:
            self.engine.write_register(thread, number, value)
        except Refused:
            for change in reversed(self.written):
                self.engine.write_register(*change)
            raise
        self.written.append((thread, number, old))

    def on_read(self, text):
        """Memory, as much as can be read of it."""
        address, length = numbers(text)
        return self.engine.read(address, min(length, LONGEST_READ)) or "E14"

    def on_write(self, text, decoded):
        """`ADDRESS,LENGTH:` and the bytes."""
        place, _, content = text.partition(":")
        (address, length), whole = numbers(place), decoded(content)
        if len(whole) != length:
            raise ValueError("another length")
        self.engine.write_memory(address, whole)
        self.is_calling |= whole == NOP and 0 < self.registers(SP)[0] - address <= BELOW

    def on_point(self, text, change, kind):
        """Sets or takes away a breakpoint or a watch: `,ADDRESS,LENGTH`."""
        address, length = numbers(text[1:])
        change(self.engine.points, kind, address, length)
        if self.engine.running():
            self.engine.points.settle()

    # Running.

    def on_go(self, text):
        """`vCont`: of several actions for a thread the first one counts."""
        left, groups, halted, self.is_calling = list(self.engine.threads.values()), [], [], False
        for part in text.split(";")[1:]:
            action, _, who = part.partition(":")
            meant = left if who in EVERYONE else [self.engine.thread(*numbers(who))]
            chosen, left = [it for it in left if it in meant], [it for it in left if it not in meant]
            start, end = numbers(action[1:]) if action[0] == "r" else (0, 0)
            if action == "t":
                halted += chosen
            else:
                groups.append(((KINDS[action[0]], start, end), chosen))
        for thread in halted:
            self.engine.interrupt(thread, 0)
        return self.stops.go(groups) if groups or not halted else None


# What packets begin with, and what answers them: the longest beginning counts.
PACKETS = {
    "qSupported": Server.on_supported,
    "QStartNoAckMode": Server.on_no_acknowledgement,
    "QNonStop:": Server.on_non_stop,
    "QThreadEvents:": Server.on_thread_events,
    "qXfer:features:read:target.xml:": lambda server, text: window(DESCRIPTION, text),
    "qXfer:threads:read::": Server.on_thread_document,
    "qfThreadInfo": Server.on_threads,
    "qsThreadInfo": lambda server, text: "l",
    "qThreadExtraInfo,": lambda server, text: server.engine.thread(*numbers(text)).name.encode().hex(),
    "qAttached": lambda server, text: "0",
    "qSymbol": lambda server, text: None,
    "qRcmd,": Server.on_monitor,
    "qC": lambda server, text: "" if text else "QC%x" % server.engine.current,
    "?": lambda server, text: server.stops.why(),
    "H": Server.on_select,
    "T": lambda server, text: server.engine.thread(*numbers(text)) and None,
    "g": lambda server, text: WORDS.pack(*server.registers()).hex(),
    "G": Server.on_write_registers,
    "p": lambda server, text: WORD.pack(*server.registers(*numbers(text))).hex(),
    "P": Server.on_write_register,
    "m": Server.on_read,
    "M": lambda server, text: server.on_write(text, bytes.fromhex),
    "X": lambda server, text: server.on_write(text, unescaped),
    "Z0": lambda server, text: server.on_point(text, Points.insert, BREAKPOINT),
    "z0": lambda server, text: server.on_point(text, Points.remove, BREAKPOINT),
    "Z2": lambda server, text: server.on_point(text, Points.insert, WATCH),
    "z2": lambda server, text: server.on_point(text, Points.remove, WATCH),
    "vCont?": lambda server, text: "vCont;c;C;s;S;t;r",
    "vCont": Server.on_go,
    "vCtrlC": lambda server, text: server.take_interrupt(),
    "vStopped": lambda server, text: server.stops.taken() if server.stops.is_non_stop else "E01",
    "vKill": lambda server, text: server.take_gone(),
    "D": lambda server, text: server.take_gone(),
    "k": lambda server, text: server.take_gone() or LATER,
    "": lambda server, text: "",
}
PREFIXES = sorted(PACKETS, key=len, reverse=True)
