"""An editor for the checks of the debug adapter: it asks, keeps what it is told, and holds each message against the protocol."""

import json
import os
import re
import select
import subprocess
import sys
import time

from checks.dap_schema import answer_faults, event_faults
from checks.rig import PATIENCE

TOP = os.path.dirname(os.path.dirname(os.path.dirname(os.path.realpath(__file__))))
ADAPTER = os.path.join(TOP, "editors", "rvdbg-dap")
LOCK = os.path.join(TOP, "examples", "lock")
SOURCE = os.path.join(LOCK, "lock.c")
PROGRAMS = os.path.join(TOP, "tests", "programs", "editors")
VALUES = os.path.join(PROGRAMS, "values.c")
sys.path.insert(0, os.path.dirname(ADAPTER))


class Editor:
    """An editor: it asks, and keeps the events. `faults` has what the protocol doesn't allow."""

    def __init__(self, words=(ADAPTER,), **how):
        pipes = dict(stdin=subprocess.PIPE, stdout=subprocess.PIPE, stderr=subprocess.PIPE, bufsize=0)
        self.process = subprocess.Popen([sys.executable, *words], cwd=TOP, **pipes, **how)
        self.heard, self.asked, self.answers, self.events, self.faults, self.seq, self.told = b"", {}, {}, [], [], 0, 0

    def __enter__(self):
        return self

    def __exit__(self, *_):
        if self.process.poll() is None:
            self.process.kill()
        self.process.wait()
        for pipe in (self.process.stdin, self.process.stdout, self.process.stderr):
            pipe.close()

    def write(self, text):
        self.process.stdin.write(text)

    def send(self, command, **arguments):
        """Sends a request, and gives its number."""
        self.seq += 1
        self.asked[self.seq] = command
        body = json.dumps({"seq": self.seq, "type": "request", "command": command, "arguments": arguments}).encode()
        self.write(b"Content-Length: %d\r\n\r\n%s" % (len(body), body))
        return self.seq

    def ask(self, command, **arguments):
        """Sends a request, and gives the body of its answer, or the text of its error."""
        number = self.send(command, **arguments)
        if not self.until(lambda: number in self.answers):
            raise OSError("no answer to " + command)
        answer = self.answers[number]
        return answer.get("body") if answer["success"] else answer["message"]

    def until(self, is_done, patience=PATIENCE):
        """Hears until something is so, and says whether it came to be."""
        ends = time.monotonic() + patience
        while not is_done():
            left = ends - time.monotonic()
            if left <= 0 or not select.select([self.process.stdout], [], [], left)[0]:
                return False
            piece = os.read(self.process.stdout.fileno(), 65536)
            if not piece:
                return is_done()
            self.heard += piece
            while self.take():
                pass
        return True

    def take(self):
        """Takes one message of what was heard."""
        head = re.match(rb"Content-Length: (\d+)\r\n\r\n", self.heard)
        if head is None or len(self.heard) < head.end() + int(head[1]):
            return False
        message = json.loads(self.heard[head.end() : head.end() + int(head[1])].decode("ascii"))
        self.heard = self.heard[head.end() + int(head[1]) :]
        self.told += 1
        found = [] if message.get("seq") == self.told else ["numbers don't rise"]
        if message.get("type") == "event":
            found += event_faults(message) + ["all threads stopped"] * ("allThreadsStopped" in message["body"])
            self.events.append((message["event"], message["body"]))
        else:
            number = message.get("request_seq")
            found += answer_faults(message, self.asked.get(number)) + ["a second answer"] * (number in self.answers)
            self.answers[number] = message
        self.faults += [(it, message) for it in found]
        return True

    def event(self, name, patience=PATIENCE, **fields):
        """The next event of that name with these fields, which is waited for and taken; None where it doesn't come."""

        def find():
            return next((it for it in self.events if it[0] == name and all(it[1].get(key) == value for key, value in fields.items())), None)

        if not self.until(lambda: find() is not None, patience):
            return None
        found = find()
        self.events.remove(found)
        return found[1]

    def printed(self, category):
        """All output of a category so far."""
        return "".join(body["output"] for name, body in self.events if name == "output" and body["category"] == category)

    def open(self, rig, program, debugger=None, **arguments):
        """Begins a session, up to where breakpoints are set."""
        kinds = dict(supportsProgressReporting=True, supportsInvalidatedEvent=True, supportsMemoryEvent=True)
        self.ask("initialize", adapterID="rvdbg", **kinds)
        launched = self.ask("launch", program=program, rvdbg=debugger or rig.program, **arguments)
        return launched or self.event("initialized") is not None

    def come_to(self, rig, program, *breakpoints, source=VALUES, **arguments):
        """Begins a session that stops at the first of these breakpoints, and gives the numbers of the thread's frames."""
        self.open(rig, program, **arguments)
        self.ask("setBreakpoints", source={"path": source}, breakpoints=list(breakpoints))
        self.ask("configurationDone")
        thread = (self.event("stopped") or {"threadId": 1})["threadId"]
        return [it["id"] for it in self.ask("stackTrace", threadId=thread)["stackFrames"]]

    def value(self, expression, frame=None, context="hover"):
        """What an expression is shown as, or why it isn't."""
        answer = self.ask("evaluate", expression=expression, context=context, **({"frameId": frame} if frame else {}))
        return answer["result"] if isinstance(answer, dict) else answer

    def end(self, rig, name):
        """Ends a session, and says whether all that was heard had its form."""
        self.ask("disconnect")
        rig.row(name + ": the end", self.process.wait(PATIENCE), 0)
        rig.row(name + ": forms", self.faults, [])
        rig.row(name + ": errors", self.process.stderr.read().decode(), "")


def lines(*numbers, **more):
    """The arguments that set breakpoints at lines of lock.c."""
    return dict(source={"path": SOURCE}, breakpoints=[dict(line=it, **more) for it in numbers])


def top(editor, thread):
    """The innermost frame of a thread: its function, its line, and whether its file is found."""
    frame = editor.ask("stackTrace", threadId=thread, levels=1)["stackFrames"][0]
    return frame["name"], frame["line"], frame.get("source", {}).get("path") == SOURCE
