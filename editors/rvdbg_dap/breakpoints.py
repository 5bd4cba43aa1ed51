"""Breakpoints and watches: those that the editor wants and those of the console, and their numbers in the debugger."""

import contextlib
import re
from functools import partialmethod

from rvdbg_dap.engine import Engine, place
from rvdbg_dap.mi import Refused, c_string, need
from rvdbg_dap.values import bare_names, replaced

# N and >= N mean from the N-th arrival on, > N behind it, == N only at it.
HITS = re.compile(r"\s*(>=|>|==|)\s*(\d{1,9})\s*")
CONSOLE = "console"


class Breakpoint:
    """One of them, in a group: `place` is a location, a file with its line, or a watch's expression."""

    def __init__(self, identity, group, place, wanted):
        self.identity, self.group, self.place, self.source = identity, group, place, wanted.get("source")
        keys = ("condition", "hitCondition", "logMessage", "accessType")
        self.condition, self.hits, self.log, self.access = [wanted.get(it) or "" for it in keys]
        self.words, self.is_once = (place, self.condition, self.hits, self.log, self.access), "==" in self.hits
        self.clear("no program is loaded")

    def clear(self, why):
        """It isn't in the debugger. `is_judged` says that the adapter judges, and `early` for which threads alone."""
        self.number, self.state, self.early, self.said = None, ("y", None), set(), set()
        self.is_spent, self.is_looked_at, self.is_judged = False, False, bool(bare_names(self.condition))
        self.told = {"id": self.identity, "verified": False, "message": why}

    def command(self, place):
        """The line that sets it. What is wrong with a condition beside its names is found by zeros in their places."""
        if self.group == "data":
            is_plain = self.access in ("", "write") and not self.condition and not self.hits
            need(is_plain, "a watch is of writes, and has neither a condition nor a count")
            return "-break-watch " + c_string(place)
        more = "-d " if self.is_judged else "-t " if self.is_once else ""
        zeros = {name: "0" * len(name) for _, name in bare_names(self.condition)}
        more += "-c %s " % c_string(replaced(self.condition, zeros)) if self.condition else ""
        if self.hits:
            found = HITS.fullmatch(self.hits)
            count = int(found[2]) - (found[1] != ">") if found else -1
            need(count >= 0, "a hit condition is N, >= N, > N or == N, not %s", self.hits)
            more += "-i %d " % count
        return "-break-insert " + more + c_string(place)


class Breakpoints(Engine):
    """All of them. The editor replaces a group as a whole: a file's, functions', instructions' and watches."""

    def point(self, number):
        return next((it for it in self.points if number is not None and it.number == number), None)

    def replace_points(self, group, place_of, arguments):
        """Makes what the editor wants a group. Those that are there keep their counts."""
        rows, now = [dict(it, source=arguments.get("source")) for it in arguments.get("breakpoints") or []], []
        for new in [Breakpoint(next(self.identities), group, place_of(it), it) for it in rows]:
            known = [it for it in self.points if it.group in (group, CONSOLE) and it not in now]
            like = [it for it in known if it.words == new.words]
            now.append(min(like, key=lambda it: it.group == CONSOLE, default=new))
            now[-1].group, now[-1].source = group, new.source
        for it in [it for it in self.points if it.group == group and it not in now]:
            self.delete_point(it)
        self.points = [it for it in self.points if it.group != group] + now
        for it in now:
            if self.is_open and it.number is None and not it.is_spent:
                self.insert_point(it)
        return {"breakpoints": [it.told for it in now]}

    def delete_point(self, it):
        """Takes one out of the debugger, if it's there. One that goes on by itself may have stopped a thread."""
        if self.is_open and it.number is not None:
            self.dropped.update([it.number] if it.log or it.is_judged else [])
            with contextlib.suppress(Refused):
                self.ask("-break-delete " + it.number)

    def insert_point(self, it):
        try:
            made = self.ask(it.command(self.sources.location(it.place) if it.source else it.place))
            row = made.get("wpt") or made["bkpt"]
            for line in ("-break-condition ", "-break-enable ") if it.is_judged else ():
                self.ask(line + row["number"])
            self.set_point(it, row if not it.is_judged else dict(row, enabled="y", cond=None))
        except Refused as refusal:
            it.clear(str(refusal))

    def set_point(self, it, row):
        it.number, it.state = row["number"], (row.get("enabled", "y"), row.get("cond"))
        it.told = {"id": it.identity, "verified": True}
        if "file" in row:
            source = it.source or self.sources.source(row["file"], int(row["addr"], 16))
            it.told.update(line=int(row["line"]), source=source)
        if "addr" in row:
            it.told["instructionReference"] = row["addr"]
        if it.condition and it.hits:
            it.told["message"] = "arrivals are counted whether the condition holds or not"

    def insert_points(self):
        self.dropped = set()
        self.remove_points([it for it in self.points if it.group == CONSOLE])
        for it in self.points:
            self.insert_point(it)
            self.event("breakpoint", reason="changed", breakpoint=it.told)

    def remove_points(self, gone):
        for it in gone:
            self.points.remove(it)
            self.event("breakpoint", reason="removed", breakpoint=it.told)

    def spend_point(self, it):
        """One that was for one stop has made it."""
        self.delete_point(it)
        it.number, it.is_spent, it.told["message"] = None, True, "it has made its one stop"
        if it.group == CONSOLE:
            self.remove_points([it])
        else:
            self.event("breakpoint", reason="changed", breakpoint=it.told)

    def agree(self):
        """Behind a line of the console: what came, went or changed in the debugger is told to the editor."""
        rows = {it["number"]: it for it in self.ask("-break-list")["BreakpointTable"]["body"]}
        self.remove_points([it for it in self.points if it.number not in (None, *rows)])
        for number, row in rows.items():
            it, state = self.point(number), (row["enabled"], row.get("cond"))
            if it is None:
                it = Breakpoint(next(self.identities), CONSOLE, row.get("original-location") or row["what"], {})
                self.points.append(it)
            elif it.state == state:
                continue
            reason, it.is_judged = "changed" if it.number else "new", it.is_judged and state[1] is None
            self.set_point(it, row)
            if "path" in it.told.get("source", {}) and it.group == CONSOLE:
                it.words = ("%s:%d" % (it.told["source"]["path"], it.told["line"]), *it.words[1:])
            if state != ("y", None):
                is_on = state[0] == "y"
                it.told.update(verified=is_on, message="on if %s" % state[1] if is_on else "off by the console")
            self.event("breakpoint", reason=reason, breakpoint=it.told)

    def on_set_breakpoints(self, arguments):
        path = arguments["source"].get("path") or arguments["source"]["name"]
        self.sources.tell(path)
        arguments.setdefault("breakpoints", [{"line": it} for it in arguments.get("lines") or ()])
        return self.replace_points("source " + path, lambda it: "%s:%d" % (path, it["line"]), arguments)

    def on_set_exception_breakpoints(self, _):
        """Every trap stops its thread; there is nothing to choose."""

    on_set_function_breakpoints = partialmethod(replace_points, "function", lambda it: it["name"])
    on_set_instruction_breakpoints = partialmethod(replace_points, "instruction", lambda it: "*0x%08x" % place(it))
    on_set_data_breakpoints = partialmethod(replace_points, "data", lambda it: it["dataId"])
