#!/usr/bin/env python3
"""A front end: it stops each of two threads three times at a line, and prints what it found there as a table.

    examples/front-end/front_end.py [the debugger and its words]

It gives the session a budget, since the default one ends it within a second of running; files are named without their folders; and
where fewer stops come than it wants, the last line says so.
"""
import os
import re
import subprocess
import sys

WORDS = ["./rvdbg", "--harts", "2", "--budget", "1000000000000", "examples/lock/lock"]
FIELD = re.compile(r'([a-z-]+)="((?:[^"\\]|\\.)*)"')


class Debugger:
    def __init__(self, words):
        self.process = subprocess.Popen(words, stdin=subprocess.PIPE, stdout=subprocess.PIPE, text=True, bufsize=1)
        self.stops, self.running = [], set()
        self.read("(gdb)")

    def read(self, *ends):
        """Reads to a line that begins with one of these, keeps the stops on the way, and gives the fields of an answer."""
        answer = {}
        for line in self.process.stdout:
            fields = dict(FIELD.findall(line))
            if line.startswith("^"):
                answer = fields
            elif line.startswith("*running"):
                self.running.add(fields["thread-id"])
            elif line.startswith("*stopped") and "thread-id" in fields:
                self.running.discard(fields["thread-id"])
                self.stops.append(fields)
            elif line.startswith("=thread-exited"):
                self.running.discard(fields["id"])
            if "msg" in answer:
                sys.exit("front end: the debugger answers: " + answer["msg"])
            if line.startswith(ends):
                return answer
        sys.exit("front end: the debugger has ended with status %d" % self.process.wait())

    def ask(self, command):
        """Does a command, and gives the fields of its answer."""
        self.process.stdin.write(command + "\n")
        return self.read("(gdb)", "^exit")

    def stop(self):
        """The next stop, which is waited for as long as a thread runs; None where none does."""
        while not self.stops and self.running:
            self.read("*stopped", "=thread-exited")
        return self.stops.pop(0) if self.stops else None


def location(path, line):
    """FILE:LINE of a path: the debugger knows files by their names alone."""
    return "%s:%d" % (os.path.basename(path), line)


def main():
    debugger, rows = Debugger(sys.argv[1:] or WORDS), []
    debugger.ask("-break-insert " + location("examples/lock/lock.c", 18))
    debugger.ask("-exec-continue --all")
    while len(rows) < 6:
        stop = debugger.stop()
        if stop is None:
            sys.exit("front end: only %d of 6 stops came, and no thread runs any more" % len(rows))
        thread, number = stop["thread-id"], 1 + sum(row[0] == stop["thread-id"] for row in rows)
        value = debugger.ask("-data-evaluate-expression --thread %s $a0" % thread)["value"]
        rows.append((thread, number, stop["func"], stop["file"] + ":" + stop["line"], value))
        if number < 3:
            debugger.ask("-exec-continue --thread " + thread)
    debugger.ask("-gdb-exit")
    print("thread stop function line      a0")
    for row in sorted(rows):
        print("%-6s %-4d %-8s %-9s %s" % row)


if __name__ == "__main__":
    main()
