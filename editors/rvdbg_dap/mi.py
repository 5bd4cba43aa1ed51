"""The debugger's side: lines of GDB's machine interface, and the process that does and writes them."""

import codecs
import collections
import contextlib
import json
import os
import re
import signal
import subprocess
import threading
import time
import types

STREAM = re.compile(rb'[@&~]"((?:[^"\\]|\\.)*)"')
RECORD = re.compile(rb"\d*([\^*=])([A-Za-z0-9_-]+)(?:,|$)")
TOKEN = re.compile(rb'"((?:[^"\\]|\\.)*)"|([A-Za-z0-9_-]+)=|(.)')
ESCAPE = re.compile(rb"\\([0-7]{1,3}|.)")
ESCAPED = {b"n": b"\n", b"r": b"\r", b"t": b"\t"}
ODD = re.compile(rb"[^ !#-\[\]-~]")
# A result (`^`), or what happened by itself (`*`, `=`), its class, and its fields as dicts, lists and texts.
Record = collections.namedtuple("Record", "kind name fields text")


class Refused(Exception):
    """What the debugger or the adapter doesn't do, and why."""


def need(is_so, text, *words):
    if not is_so:
        raise Refused(text % words)


def c_string(text):
    return '"%s"' % ODD.sub(lambda it: b"\\%03o" % it[0][0], text.encode("utf-8", "surrogateescape")).decode()


def bytes_of(text):
    return ESCAPE.sub(lambda it: bytes((int(it[1], 8) & 255,)) if it[1].isdigit() else ESCAPED.get(it[1], it[1]), text)


def stream(line):
    """The bytes of a line of output, or the line itself where it isn't well formed."""
    found = STREAM.fullmatch(line)
    return bytes_of(found[1]) if found else line


def record(line):
    """A line as a record, by way of JSON: names of a list's elements are left out."""
    head = RECORD.match(line)
    if head is None:
        raise ValueError("it is no record")
    made, brackets = "{", "{"
    for token in TOKEN.finditer(line, head.end()):
        text, name, mark = token.groups()
        if text is not None:
            made += json.dumps(bytes_of(text).decode("utf-8", "surrogateescape"))
        elif name is not None:
            made += '"%s":' % name.decode() if brackets[-1:] == "{" else ""
        else:
            made += mark.decode()
            brackets = brackets[:-1] if mark in b"}]" else brackets + made[-1] if mark in b"{[" else brackets
    kind, name = head[1].decode(), head[2].decode()
    return Record(kind, name, json.loads(made + "}"), line.lstrip(b"0123456789").decode("utf-8", "replace"))


# What is started isn't to run on for hours where its starter is killed, nor is what it started: this shell is told the
# group, and ends it where its input ends without one more line. A build gets a few seconds to clear up.
WATCHER = """
read -r group || exit
read -r _ && exit
kill -s TERM -- "-$group"
for _ in 1 2 3 4; do sleep 1; kill -s 0 -- "-$group" || exit; done
kill -s KILL -- "-$group"
"""


class Debugger:
    """The process. Answers go to who waits for them, all else to the inbox, and all of it to the file `copy`."""

    def __init__(self, words, inbox, copy=None):
        pipe, null, how = subprocess.PIPE, subprocess.DEVNULL, dict(bufsize=0, start_new_session=True)
        self.watcher = subprocess.Popen(["/bin/sh", "-c", WATCHER], stdin=pipe, stdout=null, stderr=null, **how)
        self.process = subprocess.Popen(words, stdin=pipe, stdout=pipe, stderr=pipe, **how)
        os.write(self.watcher.stdin.fileno(), b"%d\n" % self.process.pid)
        self.inbox, self.copy, self.waiting, self.token = inbox, copy, None, 0
        self.has_ended = self.is_closing = False
        self.decode = codecs.getincrementaldecoder("utf-8")("replace").decode
        self.errors = threading.Thread(target=self.read, args=(self.process.stderr, "said"), daemon=True)
        self.lines = threading.Thread(target=self.read, args=(self.process.stdout, "lines"), daemon=True)
        for it in (self.errors, self.lines):
            it.start()

    def read(self, pipe, kind):
        """Reads lines to the end. Where the inbox is full it waits, but not while an answer is waited for."""
        rest, piece = b"", b" "
        while piece:
            piece = os.read(pipe.fileno(), 65536)
            if self.copy and kind == "lines":
                with contextlib.suppress(OSError):
                    self.copy.write(piece) if piece else self.copy.close()
            *lines, rest = (rest + (piece or b"\n")).split(b"\n")
            self.inbox.put((self, kind, [it for it in lines if it and it[:1] != b"#" and not self.answered(it)]))
            while self.inbox.qsize() > 16 and self.waiting is None and not self.is_closing:
                time.sleep(0.002)
        if kind == "lines":
            self.errors.join(1.0)
            self.inbox.put((self, "ended"))
            self.has_ended, waiting = True, self.waiting
            if waiting:
                waiting.over.set()

    def answered(self, line):
        """Keeps a line of the answer that is waited for: its result, which threads go on by it, and the prompt."""
        answer = self.waiting
        if answer is None or not line.startswith((b"*running,", b"(gdb)") if answer.lines else (b"^", answer.token)):
            return False
        answer.lines.append(line)
        if line.startswith(b"(gdb)") or line.lstrip(b"0123456789") == b"^exit":
            self.waiting = None
            answer.over.set()
        return True

    def do(self, command, seconds):
        """Does a line, and gives its result and the numbers of the threads that go on by it."""
        self.token += 1
        answer = types.SimpleNamespace(token=b"%d^" % self.token, lines=[], over=threading.Event())
        self.waiting = answer
        try:
            line = b"%d%s\n" % (self.token, command.encode("utf-8", "surrogateescape"))
            os.write(self.process.stdin.fileno(), line)
            need(self.has_ended or answer.over.wait(seconds), "%.100s: the debugger doesn't answer in time", command)
            need(self.waiting is None, "the debugger has ended")
            running = [record(it).fields for it in answer.lines if it.startswith(b"*running,")]
            return record(answer.lines[0]), [int(it["thread-id"]) for it in running]
        except (OSError, ValueError, KeyError) as error:
            raise Refused("%.100s: the debugger's answer isn't understood (%s)" % (command, error)) from error
        finally:
            self.waiting = None

    def status(self, seconds=2.0):
        with contextlib.suppress(subprocess.TimeoutExpired):
            return self.process.wait(seconds)

    def stop(self, is_asked, seconds=1.0):
        """Ends the process and what it started: by its own command where it listens in time, else by signals."""
        self.is_closing = True
        with contextlib.suppress(OSError, ValueError):
            os.write(self.process.stdin.fileno(), b"-gdb-exit\n" if is_asked else b"")
            self.process.stdin.close()
        self.status(seconds if is_asked else 0.0)
        for number in (signal.SIGTERM, signal.SIGKILL):
            if self.process.poll() is None:
                os.killpg(self.process.pid, number)
                self.status(5.0)
        self.lines.join(seconds)
        self.watcher.communicate(b"ended\n")
