"""The command line, how a session is opened over a pipe or a socket, and its log."""

import argparse
import os
import queue
import re
import shutil
import signal
import socket
import subprocess
import sys
import tempfile

from rvdbg_dap.mi import Refused, need
from rvdbg_gdb.engine import Engine
from rvdbg_gdb.packets import Client
from rvdbg_gdb.server import LONG, Server

CLONE = os.path.dirname(os.path.dirname(os.path.dirname(os.path.realpath(__file__))))
USE = """Between GDB and rvdbg. In GDB: target remote | %(prog)s [--harts N] FILE"""
NUMBERS = {"harts": 1, "workers": 0, "slots": 16, "budget": 10**12, "slice": 256}
UNBUILT = "the debugger isn't built yet. %s FILE </dev/null builds it, which takes 20 to 55 minutes"
ADVICE = '. README.md says what a file has to be, under "A program of your own": above all no compressed instructions'
# A longer output isn't checked (docs/FORMATS.md, "Checking a log").
LONGEST_LOG = 64 << 20


def words():
    parser = argparse.ArgumentParser(prog="rvdbg-gdb", description=USE, allow_abbrev=False)
    for name, default in NUMBERS.items():
        parser.add_argument("--" + name, metavar="N", type=int, default=default, help="as of rvdbg, else %(default)s")
    parser.add_argument("--port", metavar="N", type=int, help="wait for GDB at this TCP port of this machine; 0: any")
    parser.add_argument("--log", metavar="FILE", help="store the session in FILE at its end, and check it")
    parser.add_argument("--rvdbg", metavar="PROGRAM", default=os.path.join(CLONE, "rvdbg"), help="the debugger")
    parser.add_argument("program", metavar="FILE", help="the program: an ELF32 executable for RISC-V")
    return parser.parse_args()


class Log:
    """The output of a session, in a file without a name, and the path where it is to be stored at the end, if any."""

    def __init__(self, asked):
        self.check, self.program = [asked.rvdbg, "--check=" + asked.program], asked.program
        self.path, self.file = None, tempfile.TemporaryFile()

    def write(self, piece):
        if self.file.tell() <= LONGEST_LOG:
            self.file.write(piece)

    def close(self):
        """The output has ended."""

    def want(self, path):
        """The file is empty until then, so that what an earlier session left isn't taken for this one's."""
        path = os.path.abspath(os.path.expanduser(path))
        need(os.path.realpath(path) != os.path.realpath(self.program), "the log can't be the program itself")
        try:
            open(path, "wb").close()
        except OSError as error:
            raise Refused("%s can't be written" % path) from error
        self.path = path

    def verdict(self):
        """Stores the session, which is over, and gives what its check says."""
        if self.file.tell() > LONGEST_LOG:
            return "the output has more than 64 MiB, which isn't checked"
        try:
            self.file.seek(0)
            with open(self.path, "w+b") as stored:
                shutil.copyfileobj(self.file, stored)
                stored.seek(0)
                ran = subprocess.run(self.check, stdin=stored, stdout=subprocess.PIPE, timeout=LONG)
        except (OSError, subprocess.SubprocessError) as error:
            return "no log: %r" % error
        said = ran.stdout.decode("utf-8", "replace").strip()
        return "%s: %s" % (self.path, said or "the check ended with status %d" % ran.returncode)


def opened(asked, inbox, log):
    """A debugger that has accepted the program."""
    need(os.path.isfile(asked.program), "there is no file %s", asked.program)
    need(os.access(asked.rvdbg, os.X_OK), "%s doesn't start: it isn't there, or no program", asked.rvdbg)
    if asked.log:
        log.want(asked.log)
    options = ["--%s=%d" % (it, getattr(asked, it)) for it in NUMBERS]
    engine = Engine([asked.rvdbg, *options, "--log", "--", asked.program], inbox, log)
    while not engine.is_open and not engine.is_over and "proving and building" not in engine.said:
        _, kind, *rest = inbox.get()
        getattr(engine, "take_" + kind)(*rest)
    if not engine.is_open:
        engine.debugger.stop(False)
        need(engine.is_over, UNBUILT, asked.rvdbg)
        said = re.sub("^rvdbg: ", "", engine.said) or "the debugger ended with status %s" % engine.debugger.status()
        raise Refused(said + ADVICE * said.startswith("Not an accepted ELF file"))
    return engine


def accepted(port):
    """A connection of one GDB of this machine. Any other one is refused from then on."""
    try:
        listening = socket.create_server(("127.0.0.1", port), backlog=1)
    except OSError as error:
        raise Refused("port %d: %s" % (port, os.strerror(error.errno))) from error
    with listening:
        print("Listening on port %d" % listening.getsockname()[1], file=sys.stderr, flush=True)
        connection, _ = listening.accept()
    connection.setsockopt(socket.IPPROTO_TCP, socket.TCP_NODELAY, 1)
    return connection


def main():
    """Serves one GDB."""
    for number in (signal.SIGINT, signal.SIGTERM):
        signal.signal(number, lambda *_: sys.exit(1))
    asked, inbox, client, engine = words(), queue.Queue(), None, None
    if asked.port is None:
        # Standard output is GDB's alone: what else is written goes to standard error.
        client = Client(inbox, 0, os.dup(1))
        os.dup2(2, 1)
    try:
        log = Log(asked)
        engine = opened(asked, inbox, log)
        if client is None:
            connection = accepted(asked.port)
            client = Client(inbox, connection.fileno(), connection.fileno())
        Server(client, engine, log).run()
    except (Refused, OSError, OverflowError) as error:
        sys.exit("rvdbg: %s" % error)
    finally:
        if engine and not engine.debugger.is_closing:
            engine.debugger.stop(False)
