"""The commands that GDB passes on by `monitor`."""

import re

from rvdbg_dap.mi import Refused, c_string, need

HELP = """monitor break LOCATION [if EXPR]: a breakpoint of the debugger, which judges EXPR at the speed of the program.
  LOCATION is *ADDRESS, FILE:LINE or a function; EXPR is over registers, memory and symbols, \
as {int} &count == 3 && $a0 > 1.
monitor delete N: takes it away.
monitor breakpoints: lists them, with how often they were come to.
monitor log FILE: at the end the session is stored there, and checked.
"""


def set_break(engine, text):
    found = re.fullmatch(r"(\S+)(?:\s+if\b\s*(.+))?", text)
    need(found, "monitor break LOCATION [if EXPR]")
    condition = "-c %s " % c_string(found[2]) if found[2] else ""
    made = engine.ask("-break-insert %s-- %s" % (condition, c_string(found[1]))).fields["bkpt"]
    engine.monitored[made["number"]] = text
    place = ", %s, line %s" % (made["file"], made["line"]) if "line" in made else ""
    return "Breakpoint %s of the debugger at %s%s\n" % (made["number"], made["addr"], place)


def monitor(engine, log, line):
    """Does a line, and gives the text that GDB shows. What is wrong is such a text, too."""
    command, _, text = (it.strip() for it in line.strip().partition(" "))
    try:
        if command == "break":
            return set_break(engine, text)
        if command == "delete":
            need(text in engine.monitored, "there is no breakpoint %s of the debugger", text)
            engine.points.delete([text])
            return "Breakpoint %s of the debugger is deleted: %s\n" % (text, engine.monitored.pop(text))
        if command == "breakpoints":
            times = {it["number"]: it["times"] for it in engine.points.rows()}
            rows = ["%s: %s, come to %s times\n" % (it, text, times[it]) for it, text in engine.monitored.items()]
            return "".join(rows) or "There are none.\n"
        if command == "log":
            need(text, "monitor log FILE")
            log.want(text)
            return "At its end the session is stored in %s, and checked.\n" % log.path
    except Refused as refusal:
        return "%s\n" % refusal
    return HELP if command == "help" else "There is no such command: %s\n%s" % (command, HELP)
