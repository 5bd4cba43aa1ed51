"""A client that speaks the remote protocol with `editors/rvdbg-gdb` itself, without GDB."""

import os
import re
import select
import socket
import subprocess
import sys

from checks.rig import PATIENCE

TOP = os.path.dirname(os.path.dirname(os.path.dirname(os.path.realpath(__file__))))
BRIDGE = os.path.join(TOP, "editors", "rvdbg-gdb")
PROGRAMS = os.path.join(TOP, "tests", "gdb", "programs")
PACKET = re.compile(rb"([$%])([^#]*)#([0-9a-f]{2})", re.DOTALL)


def framed(text):
    """The bytes of a packet."""
    body = text.encode("latin-1")
    return b"$%s#%02x" % (body, sum(body) & 255)


class Remote:
    """A client: `stops` are the notifications that came, `console` is what was told meanwhile, `faults` what the protocol forbids."""

    def __init__(self, rig, *words, debugger=None):
        pipes = dict(stdin=subprocess.PIPE, stdout=subprocess.PIPE, stderr=subprocess.PIPE, bufsize=0)
        words = [sys.executable, BRIDGE, "--rvdbg", debugger or rig.program, *words]
        self.process = subprocess.Popen(words, cwd=PROGRAMS, **pipes)
        self.reads, self.writes, self.socket = self.process.stdout.fileno(), self.process.stdin.fileno(), None
        self.heard, self.stops, self.console, self.faults = b"", [], b"", []

    def open(self):
        """Begins a session in which packets aren't acknowledged."""
        self.ask("qSupported:swbreak+;no-resumed+")
        self.ask("QStartNoAckMode")
        self.write(b"+")
        return self

    def connect(self):
        """Connects to the port that the bridge names."""
        line = self.process.stderr.readline()
        self.socket = socket.create_connection(("127.0.0.1", int(line.split()[-1])))
        self.reads = self.writes = self.socket.fileno()
        return self

    def __enter__(self):
        return self

    def __exit__(self, *_):
        if self.process.poll() is None:
            self.process.kill()
        self.process.wait()
        for pipe in (self.process.stdin, self.process.stdout, self.process.stderr, self.socket):
            if pipe:
                pipe.close()

    def write(self, content):
        while content:
            content = content[os.write(self.writes, content) :]

    def more(self, patience=PATIENCE):
        """Reads a piece, and says whether one came in time."""
        if not select.select([self.reads], [], [], patience)[0]:
            return False
        piece = os.read(self.reads, 65536)
        self.heard += piece
        return len(piece) > 0

    def packet(self):
        """The next packet with its mark. What the program wrote is put aside."""
        while True:
            found = PACKET.search(self.heard)
            if found is None:
                if not self.more():
                    raise OSError("no packet comes, but %r" % self.heard)
                continue
            self.heard = self.heard[found.end() :]
            mark, body, check = found.groups()
            self.faults += [] if sum(body) & 255 == int(check, 16) else [body]
            if mark == b"$" and body[:1] == b"O" and body != b"OK":
                self.console += bytes.fromhex(body[1:].decode())
            else:
                return mark, body.decode("latin-1")

    def answer(self):
        """The next answer; notifications before it are kept."""
        mark, body = self.packet()
        while mark == b"%":
            self.stops.append(body)
            mark, body = self.packet()
        return body

    def ask(self, text):
        """Sends a packet, and gives its answer."""
        self.write(framed(text))
        return self.answer()

    def notified(self):
        """The stops that are told in non-stop mode: the next one, and what else has come by then."""
        while not self.stops:
            mark, body = self.packet()
            self.stops += [body] if mark == b"%" else []
            self.faults += [] if mark == b"%" else [body]
        found = [self.stops.pop(0)[5:]]
        while found[-1] != "OK":
            found.append(self.ask("vStopped"))
        return found[:-1]

    def memory(self):
        """How many kilobytes of memory the bridge has."""
        with open("/proc/%d/status" % self.process.pid, encoding="ascii") as file:
            return int(re.search(r"VmRSS:\s+(\d+)", file.read())[1])
