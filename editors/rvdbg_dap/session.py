"""A session and its launch: what the editor asks for is done by lines to the debugger, and what happens is told."""

import difflib
import itertools
import os
import queue
import re
import signal
import subprocess
import sys
import time

from rvdbg_dap.engine import Thread
from rvdbg_dap.mi import Debugger, Refused, need, record, stream
from rvdbg_dap.program import Program, Sources
from rvdbg_dap.threads import Threads

CLONE = os.path.dirname(os.path.dirname(os.path.dirname(os.path.realpath(__file__))))
# The least and the greatest of each number, and what it is where it isn't given.
NUMBERS = {"harts": (1, 16, 1), "workers": (0, 16, 0), "budget": (1, 10**12, 10**12)}
NUMBERS.update(slots=(0, 512, 16), slice=(0, 1024, 256))
KNOWN = {*NUMBERS, "program", "stopOnEntry", "sourcePath", "rvdbg", "log", "singleThread"}
ALONE = {"never": (), "step": ("step",), "always": ("step", "continue")}
# What editors put beside them for themselves.
EDITORS = set("name type request cwd env noDebug presentation preLaunchTask postDebugTask debugServer".split())
EDITORS |= {"internalConsoleOptions", "serverReadyAction", "suppressMultipleSessionWarning"}
PATIENCE, LOG_PATIENCE = 10.0, 20.0
MALFORMED = (LookupError, TypeError, ValueError, AttributeError, ArithmeticError)
CAPABILITIES = (
    "ConfigurationDoneRequest FunctionBreakpoints ConditionalBreakpoints HitConditionalBreakpoints LogPoints "
    "DataBreakpoints DataBreakpointBytes InstructionBreakpoints EvaluateForHovers SetVariable SetExpression "
    "ExceptionInfoRequest RestartRequest TerminateRequest DelayedStackTraceLoading ReadMemoryRequest "
    "WriteMemoryRequest DisassembleRequest SteppingGranularity SingleThreadExecutionRequests"
)
BUILT = re.compile(r"rvdbg: (?:proving and building|\S+, (\d+) of (\d+))")
ENDS = {3: "the budget of instructions is used up; the launch argument `budget` sets it"}


def full(path):
    return os.path.abspath(os.path.expanduser(path))


class Launch:
    """A launch whose arguments are looked at before anything is started or ended. `unknown` is said of the others."""

    def __init__(self, arguments):
        self.arguments, program, log = arguments, arguments.get("program"), arguments.get("log")
        need(program, "the launch argument `program` is missing: the file that is to be debugged")
        self.program, self.log = full(program), full(log) if log else None
        need(os.path.isfile(self.program), "there is no file %s", self.program)
        need(self.log != self.program, "the log can't be the program itself")
        self.rvdbg = full(arguments.get("rvdbg") or os.path.join(CLONE, "rvdbg"))
        need(os.access(self.rvdbg, os.X_OK), "%s doesn't start: it isn't there, or no program", self.rvdbg)
        self.words = [self.rvdbg]
        for name, (least, greatest, default) in NUMBERS.items():
            number = str(arguments.get(name, default))
            is_fine = re.fullmatch("[0-9]{1,13}", number) and least <= int(number) <= greatest
            need(is_fine, "%s is a number from %d to %d, not %.50s", name, least, greatest, number)
            self.words.append("--%s=%s" % (name, number))
        self.words += ["--log"] * bool(log) + ["--", self.program]
        alone = arguments.get("singleThread", "never")
        need(alone in ALONE, "singleThread is one of %s, not %.50s", ", ".join(ALONE), alone)
        self.alone, self.stops = ALONE[alone], bool(arguments.get("stopOnEntry"))
        folders = arguments.get("sourcePath") or [os.path.dirname(self.program), os.getcwd()]
        self.folders = [full(it) for it in ([folders] if isinstance(folders, str) else folders)]
        others = [it for it in arguments if it not in KNOWN | EDITORS and not it.startswith(("__", "dap-"))]
        like = {it: ": is `%s` meant?" % near for it in others for near in difflib.get_close_matches(it, KNOWN, 1)}
        self.unknown = ["there is no launch argument `%s`%s" % (it, like.get(it, "")) for it in others]

    def verdict(self):
        picture = os.path.splitext(self.log)[0] + ".svg"
        try:
            said = self.fed(self.rvdbg, "--check", self.program).decode("utf-8", "replace").strip()
            drawn = self.fed(sys.executable, os.path.join(CLONE, "examples", "timeline", "timeline.py"))
            with open(picture, "wb") as file:
                file.write(drawn)
        except OSError as error:
            return "%s: %s" % (error.filename, error.strerror)
        return "%s: %s; its picture is %s" % (self.log, said or "the check takes more than ten seconds", picture)

    def fed(self, *words):
        """Has a command read the log, and gives what it writes: not for long, nor behind an adapter that is killed."""
        words = ["timeout", "-k", "1", "10", *words]
        with open(self.log, "rb") as log:
            return subprocess.run(words, stdin=log, stdout=subprocess.PIPE, stderr=subprocess.DEVNULL).stdout


class Session(Threads):
    """What an editor and a debugger have in common. `on_..` are the editor's requests, `take_..` what else comes."""

    def __init__(self):
        self.inbox, self.opening, self.progress, self.said = queue.Queue(), None, None, ""
        self.is_configured = self.is_done = False
        super().__init__(self.inbox)

    def run(self):
        """Does what comes, in its order, until the editor goes, and gives the status to exit with."""
        signal.signal(signal.SIGTERM, lambda *_: sys.exit(1))
        try:
            while not self.is_done:
                origin, kind, *rest = self.inbox.get()
                self.deadline = time.monotonic() + PATIENCE
                if kind == "gone":
                    break
                if origin in (self.client, self.debugger):
                    self.attempt(getattr(self, "take_" + kind), *rest)
        except (BrokenPipeError, KeyboardInterrupt):
            pass
        finally:
            if self.debugger:
                self.debugger.stop(self.is_open)
        return int(not self.is_done)

    def attempt(self, do, *words):
        """Does something with what has come, or says why not."""
        try:
            do(*words)
        except Refused as refusal:
            self.say(str(refusal))
        except MALFORMED as error:
            self.say("what came isn't understood: %.200r (%.200r)" % (words, error))

    def take_message(self, message, fault):
        """Does a request, and answers it. What it brings about is told behind the answer."""
        command, is_request = message.get("command"), message.get("type") == "request"
        if not is_request or not isinstance(command, str) or type(message.get("seq")) is not int:
            return self.say(fault or "a message is no request: %.200s" % message)
        name = "on_" + re.sub("[A-Z]", lambda it: "_" + it[0].lower(), command)
        self.request = message
        try:
            need(not fault, fault)
            need(hasattr(self, name), "the request %.100s isn't served", command)
            body = getattr(self, name)(dict(message.get("arguments") or {}))
            if self.opening is not message:
                self.client.answer(message, body)
        except Refused as refusal:
            self.client.answer(message, error=str(refusal))
        except MALFORMED as error:
            self.client.answer(message, error="the arguments of %s aren't understood: %.200r" % (command, error))
        self.request, after, self.after = None, self.after, []
        for event in after:
            self.client.send(event)

    def on_initialize(self, arguments):
        is_fine = arguments.get("linesStartAt1") is not False and arguments.get("pathFormat", "path") == "path"
        need(is_fine, "lines are counted from 1 here, and files have paths")
        self.hears = arguments
        return dict({"supports" + it: True for it in CAPABILITIES.split()}, exceptionBreakpointFilters=[])

    def on_launch(self, arguments):
        need(not self.debugger, "a session is open already")
        self.start(Launch(arguments))

    def start(self, launch):
        """Starts the debugger of a launch, which is answered once that has accepted the program."""
        for it in launch.unknown:
            self.say(it)
        self.program = Program(launch.program)
        self.sources = Sources(self.program, launch.folders, self.sources.told, self.sources.missing)
        try:
            log = open(launch.log, "wb") if launch.log else None
            self.debugger = Debugger(launch.words, self.inbox, log)
        except OSError as error:
            if self.request["command"] == "restart":
                self.event("terminated")
            raise Refused("%s: %s" % (error.filename, error.strerror)) from error
        self.launch, self.opening = launch, self.request

    def on_restart(self, arguments):
        """A new session with the same breakpoints. One that can't begin leaves the old one as it is."""
        launch = Launch(arguments.get("arguments") or self.launch.arguments)
        self.close("the session begins anew")
        self.is_configured = True
        self.start(launch)

    def opened(self):
        is_first, self.is_open = self.opening["command"] == "launch", True
        self.answer_opening()
        if self.program.lacks:
            self.say("%s has %s: build it with -gdwarf-4" % (self.program.path, self.program.lacks))
        self.insert_points()
        if is_first:
            self.event("initialized")
        if self.is_configured:
            self.begin()

    def on_configuration_done(self, _):
        is_first, self.is_configured = not self.is_configured, True
        if self.is_open and is_first:
            self.begin()

    def on_terminate(self, _):
        self.close("the session is over")
        self.event("terminated")

    def on_disconnect(self, _):
        """Ends the session. The editor isn't told any more that threads leave: it would ask for the others."""
        self.threads.clear()
        self.close("the session is over")
        self.is_done = True

    def close(self, why):
        if self.debugger:
            self.debugger.stop(self.is_open, LOG_PATIENCE if self.launch.log else 1.0)
        for identity in self.threads:
            self.event("thread", reason="exited", threadId=identity)
        for it in self.points:
            it.clear(why)
        if self.is_open and self.launch.log:
            self.say(self.launch.verdict())
        self.threads.clear()
        self.debugger, self.last, self.said = None, None, ""
        self.is_configured = self.is_open = False
        self.answer_opening(error=why)

    def answer_opening(self, **answer):
        if self.progress:
            self.event("progressEnd", progressId=self.progress)
        request, self.opening, self.progress = self.opening, None, None
        if request:
            self.client.answer(request, **answer)

    def take_said(self, lines):
        """What the debugger says beside its records: how far it is built, or why it isn't."""
        for line in lines:
            self.said = line.decode("utf-8", "replace")
            self.say(self.said)
            if self.opening and (built := BUILT.match(self.said)):
                if self.progress is None:
                    self.progress = "build-%d" % self.opening["seq"]
                    self.event("progressStart", progressId=self.progress, title="Building rvdbg", cancellable=False)
                share = {"percentage": 100 * int(built[1]) // max(1, int(built[2]))} if built[1] else {}
                self.event("progressUpdate", progressId=self.progress, message=self.said, **share)

    def take_lines(self, lines):
        """What happened by itself, and what the program wrote, which is put together."""
        for is_output, group in itertools.groupby(lines, lambda it: it.startswith(b"@")):
            if is_output:
                self.event("output", category="stdout", output=self.debugger.decode(b"".join(map(stream, group))))
            for line in group:
                self.attempt(self.take_line, line)

    def take_line(self, line):
        """A record, or a text of the debugger; the first prompt says that it has accepted the program."""
        if line.startswith((b"&", b"~")):
            return self.say(stream(line).decode("utf-8", "replace").rstrip("\n"))
        if line.rstrip() == b"(gdb)":
            return self.opened() if self.opening else None
        _, name, fields, _ = record(line)
        if name == "error" and self.opening:
            self.said = fields["msg"]
        elif name == "thread-created":
            self.threads[int(fields["id"])] = Thread(int(fields["id"]))
            self.event("thread", reason="started", threadId=int(fields["id"]))
        elif name == "thread-exited" and self.threads.pop(int(fields["id"]), None):
            self.event("thread", reason="exited", threadId=int(fields["id"]))
        elif name == "stopped" and fields.get("reason", "").startswith("exited"):
            self.event("exited", exitCode=int(fields.get("exit-code", "0"), 8))
            self.debugger.process.stdin.close()
        elif name == "stopped":
            self.stopped(self.threads[int(fields["thread-id"])], fields)

    def take_ended(self):
        """The debugger has ended: with the program, with its budget, or because it refused something."""
        is_launch, status = self.opening and self.opening["command"] == "launch", self.debugger.status()
        why = ENDS.get(status, "the debugger ended with status %s" % status)
        if self.is_open and status != 0:
            self.say(why, "stderr")
        self.close((not self.is_open and self.said) or why)
        if not is_launch:
            self.event("terminated")
