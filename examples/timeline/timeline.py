#!/usr/bin/env python3
"""Draws a session as a picture: a lane for each hart, with its runs, stops and exits, and the lines of its user above them.

    ./rvdbg --log --workers 0 --harts 4 examples/lock/lock <examples/lock/session.mi | examples/timeline/timeline.py >lock.svg
    examples/timeline/timeline.py [--from ENTRY] [--to ENTRY] <OUTPUT >PICTURE

It reads a session's output with its log, the lines that begin with `#` behind its records ("The log of a session" in docs/FORMATS.md).
From left to right are the entries of the journal in their order. What repeats is drawn once, with how often it comes. A picture has at
most two megabytes: of a long session its beginning and its end are drawn, and what is left out between is counted; --from and --to draw
the entries from one to another, counted from 1.
"""

import argparse
import collections
import re
import sys

sys.dont_write_bytecode = True

from picture import Column, drawn  # noqa: E402

OTHERS = re.compile(rb"\n#(?:did|stopped|left|set|bytes)\b[^\n]*")
KINDS = ("ran", "counted", "stopped", "left", "did", "set", "bytes")
STOPPED = re.compile(rb"\n\*stopped,[^\n]*")
PLACE = re.compile(rb'(?:func="((?:[^"\\]|\\.)*)",args=\[\])?(?:,file="((?:[^"\\]|\\.)*)",line="(\d+)")?\},thread-id="\d+"')

# At each end of a long session so many entries other than runs and counted arrivals are read, in so many bytes at the end. Runs of so many
# lengths are added up between two of them; a program that takes turns has 16,400.
MOST, TAIL, MOST_LENGTHS = 2_000, 2 << 20, 50_000
BLOCK = 1 << 20


class Log:
    """A session's output: the bytes, where the log begins, and where its entries begin and end."""

    def __init__(self, data):
        self.data = b"\n" + data
        self.start = self.data.find(b"\n#settings ")
        self.end = self.data.rfind(b"\n#end ")
        if self.start < 0 or self.end < self.start:
            sys.exit("timeline: no log: the session needs --log, and an end with status 0, 3, 4 or 5")
        self.harts = int(self.data[self.start + 11 : self.start + 14].split()[0])
        self.first = self.data.index(b"\n#", self.start + 1)

    def count(self, start, end):
        """How many entries begin in a part."""
        return self.data.count(b"\n", start, end)

    def place_of(self, entry):
        """Where an entry begins, counted from 1; the end where there are fewer."""
        left, at = entry - 1, self.first
        while at < self.end:
            block = self.data.count(b"\n", at, min(at + BLOCK, self.end))
            if block > left:
                break
            left, at = left - block, at + BLOCK
        at = self.data.find(b"\n", at, self.end)
        for _ in range(left):
            if at < 0:
                break
            at = self.data.find(b"\n", at + 1, self.end)
        return at if at >= 0 else self.end


def added(log, start, end, columns, number):
    """Adds a column for the runs and counted arrivals of a part. What has too many lengths is left out from there on."""
    lines, at = collections.Counter(), start
    while at < end and len(lines) < MOST_LENGTHS:
        stop = min(at + BLOCK, end)
        stop = end if stop == end else log.data.index(b"\n", stop, end + 1)
        lines.update(log.data[at + 1 : stop].split(b"\n"))
        at = stop
    runs, arrivals = collections.Counter(), collections.Counter()
    for line, times in lines.items():
        words = line.split()
        if words and words[0] == b"#ran":
            runs[int(words[1])] += int(words[2]) * times
        elif words:
            arrivals[int(words[1])] += times
    if runs or arrivals:
        columns.append(Column("ran", number, runs=dict(runs), arrivals=dict(arrivals)))
    if at < end:
        columns.append(left_out(log, at, end, number + log.count(start, at)))


def left_out(log, start, end, number):
    """A column that says what a part has, which isn't drawn."""
    counts = [(kind, log.data.count(b"\n#%s" % kind.encode(), start, end)) for kind in KINDS]
    return Column("left out", number, count=log.count(start, end), text=", ".join("%d %s" % (it[1], it[0]) for it in counts if it[1]))


def event(line, number, places):
    """An entry other than a run or an arrival as a column."""
    words = line.decode("ascii", "replace").split(" ")
    kind = words[0][1:]
    if kind == "did":
        return Column(kind, number, text=bytes.fromhex("".join(words[1:])).decode("ascii", "replace"))
    if kind == "bytes":
        return Column(kind, number, text="memory at 0x%08x" % int(words[1]))
    if kind == "set":
        return Column(kind, number, hart=int(words[1]), text="register x%s" % words[2])
    if kind == "left":
        return Column(kind, number, hart=int(words[1]), text="exit %s" % words[2])
    hart = int(words[1])
    found = places[hart].popleft() if places.get(hart) else ""
    return Column(kind, number, hart=hart, reason=words[2], point=words[3] if len(words) > 3 else "", text=found)


def columns_of(log, start, end, places):
    """The columns of a part, its beginning as far as so many entries other than runs, and whether that is all."""
    columns, at, number = [], start, 1 + log.count(log.first, start)
    for found, match in enumerate(OTHERS.finditer(log.data, start, end)):
        if found == MOST:
            return columns, match.start()
        added(log, at, match.start(), columns, number)
        number += log.count(at, match.start())
        columns.append(event(match[0][1:], number, places))
        number, at = number + 1, match.end()
    added(log, at, end, columns, number)
    return columns, end


def all_columns(log, start, end):
    """The columns of a part. Of a long session those of its beginning and of its end, and between them one of what is left out."""
    stops = stops_in(log)
    columns, at = columns_of(log, start, end, places_of(log, start, stops))
    if at == end:
        return columns
    cut = log.data.index(b"\n", max(at, end - TAIL))
    late = [it.start() for it in OTHERS.finditer(log.data, cut, end)][-MOST:] or [cut]
    if late[0] > at:
        columns.append(left_out(log, at, late[0], 1 + log.count(log.first, at)))
    return columns + columns_of(log, late[0], end, places_of(log, late[0], stops))[0]


def stops_in(log):
    """The records of stops by harts, each as where it begins and ends. The program's end is none."""
    found = collections.defaultdict(list)
    for match in STOPPED.finditer(log.data, 0, log.start):
        at = log.data.rfind(b'thread-id="', match.start(), match.end())
        if at >= 0:
            found[int(log.data[at + 11 : log.data.index(b'"', at + 11)]) - 1].append(match.span())
    return found


def places_of(log, start, stops):
    """For each hart where its stops from an entry on were: the records of a hart's stops are in the order of its entries."""
    places = {}
    for hart, spans in stops.items():
        skipped = log.data.count(b"\n#stopped %d " % hart, log.start, start)
        places[hart] = collections.deque(place(log.data[it[0] : it[1]]) for it in spans[skipped : skipped + MOST])
    return places


def place(line):
    """FILE:LINE of a record, or the function, or the address."""
    found = PLACE.search(line)
    if found and found[2]:
        return "%s:%s" % (found[2].decode("utf-8", "replace"), found[3].decode())
    address = re.search(rb'addr="(0x[0-9a-f]+)"', line)
    return found[1].decode("utf-8", "replace") if found and found[1] else address[1].decode() if address else ""


def main():
    """Reads a session's output, and writes the picture of its log."""
    parser = argparse.ArgumentParser(description=__doc__, formatter_class=argparse.RawDescriptionHelpFormatter)
    parser.add_argument("--from", metavar="ENTRY", dest="first", type=int, default=1, help="the first entry that is drawn, from 1")
    parser.add_argument("--to", metavar="ENTRY", dest="last", type=int, default=1 << 62, help="the last one")
    words = parser.parse_args()
    if not 1 <= words.first <= words.last:
        sys.exit("timeline: --from is at least 1, and at most --to")
    log = Log(sys.stdin.buffer.read())
    start = log.place_of(words.first)
    end = log.place_of(words.last + 1)
    sys.stdout.write(drawn(log.harts, all_columns(log, start, end)))


if __name__ == "__main__":
    main()
