"""Threads: how they go on, take steps and stop, what the editor is told of it, and the console, which does so too."""

import contextlib
import functools
import re

from rvdbg_dap.breakpoints import Breakpoints
from rvdbg_dap.mi import Refused, c_string, need
from rvdbg_dap.values import Values

REASONS = {"breakpoint-hit": "breakpoint", "watchpoint-trigger": "data breakpoint", "signal-received": "exception"}
KINDS = {"function": "function breakpoint", "instruction": "instruction breakpoint"}
LOGGED = re.compile(r"\{((?:[^{}]|\{[^{}]*\})+)\}")
WRITTEN = re.compile(r"-data-write-memory-bytes\s+(?:--\s+)?(\S+)\s+\"?([0-9A-Fa-f]+)\"?\s*(\d*)")
ELSEWHERE = re.compile(r"-(data-(eval|list-register-val)|stack-(list-var|info-frame)|gdb-set\s+\$)(?!.*--thread)")
OUTER = "the frame that is shown is an outer one, of which this isn't known: show the innermost, or say --thread %d"


class Threads(Breakpoints, Values):
    def stopped(self, thread, fields):
        """A thread has stopped. One that a log point or a condition stopped for the adapter alone goes on."""
        thread.is_running, thread.trap, self.last = False, None, thread
        number = fields.get("bkptno") or fields.get("wpt", {}).get("number")
        hit, (reason, told) = self.point(number), self.reason(thread, fields)
        is_passed = hit and (hit.is_judged or thread.identity in hit.early) and not self.holds(hit, thread)
        is_quiet = is_passed or hit and hit.log or number in self.dropped
        if hit and not is_passed:
            reason, told["hitBreakpointIds"] = KINDS.get(hit.group, reason), [hit.identity]
            if hit.log:
                self.log(hit, thread)
            if hit.is_once or fields.get("disp") == "del":
                self.spend_point(hit)
        if is_quiet and hit:
            reason = "pause" if thread.is_wanted else "step"
        if thread.is_stepping or thread.is_wanted or not is_quiet or not self.go_on([thread]):
            self.tell_stop(thread, reason, **told)

    def reason(self, thread, fields):
        reason, text = REASONS.get(fields["reason"], "step"), None
        if reason == "data breakpoint":
            text = "%s was %s, is %s" % (fields["wpt"]["exp"], fields["value"]["old"], fields["value"]["new"])
        elif reason == "exception":
            name, meaning = fields["signal-name"], fields["signal-meaning"]
            reason = "pause" if name == "SIGINT" else reason
            if reason == "exception" and "frame" in fields:
                with contextlib.suppress(Refused):
                    pc, registers = int(fields["frame"]["addr"], 16), dict(self.registers(thread))
                    found = self.instruction_at(pc)
                    meaning += ": " + (found.trap(registers) if found else "there is no instruction at 0x%08x" % pc)
            thread.trap, text = (name, meaning), "%s: %s" % (name, meaning)
        return reason, {"text": text, "description": text} if text else {}

    def value_at(self, point, thread, text):
        """The value of a breakpoint's expression. What its names stand for is said once."""
        value, notes = self.value(thread, text)
        for it in {*notes} - point.said:
            self.say("breakpoint %s has %s" % (point.number, it))
        point.said.update(notes)
        return value

    def holds(self, point, thread):
        """Whether a condition holds. One that has no value stops its thread, as it does where the debugger judges."""
        point.early.discard(thread.identity)
        try:
            value = self.value_at(point, thread, point.condition)
            if not point.is_looked_at:
                self.hand_over(point, thread)
            need(value[0] != "<", "it has %s", value)
            return int(value) != 0
        except Refused as refusal:
            self.say("Error in testing condition for breakpoint %s: %s" % (point.number, refusal))
            return True

    def hand_over(self, point, thread):
        """Has the debugger judge a condition, where it can. The adapter still judges for threads that stand there."""
        point.is_looked_at = True
        with contextlib.suppress(Refused):
            condition = self.in_core(thread, point.condition)
            self.ask("-break-condition %s %s" % (point.number, c_string(condition)))
            point.is_judged, point.state = False, (point.state[0], condition)
            stand = {int(it["id"]) for it in self.ask("-thread-info")["threads"] if it["state"] == "stopped"}
            point.early = {it for it in stand & {*self.threads} if self.threads[it].is_running}

    def log(self, point, thread):
        said = LOGGED.split(point.log)
        for at in range(1, len(said), 2):
            try:
                said[at] = self.value_at(point, thread, said[at])
            except Refused as refusal:
                said[at] = "<%s>" % refusal
        self.say("".join(said), **{key: point.told[key] for key in ("source", "line") if key in point.told})

    def tell_stop(self, thread, reason, **told):
        """The editor is to show a thread as stopped. The first of those that are `awaited` takes the view."""
        thread.is_stepping = thread.is_wanted = False
        if thread.identity in self.awaited or len(self.standing()) == 1:
            self.awaited = set()
        else:
            told["preserveFocusHint"] = True
        self.event("stopped", reason=reason, threadId=thread.identity, **told)

    def begin(self):
        self.awaited = set(self.threads)
        if self.launch.stops:
            for thread in self.threads.values():
                self.tell_stop(thread, "entry")
        else:
            self.ask("-exec-continue --all")

    def on_threads(self, _):
        return {"threads": [{"id": it, "name": "hart %d" % (it - 1)} for it in sorted(self.threads)]}

    def on_exception_info(self, arguments):
        name, meaning = self.thread(arguments["threadId"]).trap or ("none", "this thread stands at no trap")
        return {"exceptionId": name, "description": meaning, "breakMode": "always"}

    def go_on(self, threads):
        answers = [self.reply("-exec-continue --thread %d" % it.identity) for it in threads]
        return [it for _, running in answers for it in running]

    def on_continue(self, arguments):
        thread = self.thread(arguments["threadId"])
        is_single = bool(arguments.get("singleThread", "continue" in self.launch.alone))
        standing = [it for it in self.standing() if it is thread or not is_single]
        need(standing, "Thread %d is running", thread.identity)
        self.awaited = {it.identity for it in standing}
        self.ask("-exec-continue --all") if len(standing) == len(self.threads) else self.go_on(standing)
        return {"allThreadsContinued": not is_single}

    def step(self, line, instruction, arguments):
        """One thread takes a step, by line or by instruction. Others that stand go on, unless it is to be alone."""
        thread, others = self.thread(arguments["threadId"]), self.standing()
        need(thread in others, "Thread %d is running", thread.identity)
        line = instruction if arguments.get("granularity") == "instruction" else line
        self.ask("%s --thread %d" % (line, thread.identity))
        thread.is_stepping, self.awaited = True, {thread.identity}
        is_single = arguments.get("singleThread", "step" in self.launch.alone)
        for it in self.go_on([it for it in others if it is not thread and not is_single]):
            self.event("continued", threadId=it, allThreadsContinued=False)

    on_next = functools.partialmethod(step, "-exec-next", "-exec-next-instruction")
    on_step_in = functools.partialmethod(step, "-exec-step", "-exec-step-instruction")
    on_step_out = functools.partialmethod(step, "-exec-finish", "-exec-finish")

    def on_pause(self, arguments):
        """Stops a thread. One that has just been stopped for the adapter alone will be told as stopped."""
        number = arguments.get("threadId")
        threads = [self.thread(number)] if number else [*self.threads.values()]
        self.awaited = {it.identity for it in threads}
        result, _ = self.reply("-exec-interrupt " + ("--thread %d" % number if number else "--all"))
        if result.name == "error":
            need(threads[0].is_running, "%s", result.fields["msg"])
            threads[0].is_wanted = True

    def on_evaluate(self, arguments):
        """An expression, or a line of MI for the thread that is shown, of which is told what it has changed."""
        line, frame = arguments["expression"].rstrip(), arguments.get("frameId")
        if arguments.get("context") != "repl" or not re.match("-[a-z]", line):
            return self.evaluate(line, frame)
        thread, level = self.framed(frame) if frame else (self.last, 0)
        need(not level or not ELSEWHERE.match(line), OUTER, thread and thread.identity)
        is_one = "\n" not in line and not line.startswith("-exec-wait")
        need(is_one, "a line of MI is one line, and not -exec-wait, which would hold what the editor asks for")
        if thread and thread.identity in self.threads:
            self.reply("-thread-select %d" % thread.identity)
        result, running = self.reply(line)
        for it in running:
            self.threads[it].is_stepping = not line.startswith("-exec-continue")
            self.event("continued", threadId=it, allThreadsContinued=False)
        self.awaited = set(running) or self.awaited
        written, is_done = WRITTEN.match(line), result.name == "done"
        if is_done and line.startswith("-break-"):
            self.agree()
        elif is_done and written:
            self.written(int(written[1], 0), int(written[3] or len(written[2]) // 2))
        elif is_done and line.startswith("-gdb-set"):
            self.event("invalidated", areas=["variables"])
        return {"result": result.text, "variablesReference": 0}
