#!/usr/bin/env python3
"""Draws a session's records as text: a line a record, a column a thread. (examples/timeline draws the log of a session.)

    ./rvdbg --workers 0 --harts 4 examples/lock/lock <examples/lock/session.mi | examples/lock/columns.py
"""

import re
import sys

FORM = re.compile(r'(=thread-created|=thread-exited|\*running|\*stopped)\b.*?(?:thread-id|id)="(\d+)"')
STATES = {"=thread-created": "o", "=thread-exited": "x", "*running": "|", "*stopped": "o"}


def told(line):
    """What stands behind a line of the picture: why something stopped, or what the program wrote."""
    reason = re.search(r'reason="([^"]*)"', line)
    place = re.search(r'func="([^"]*)".*line="([^"]*)"', line)
    if reason:
        return reason[1] + (" in %s, line %s" % (place[1], place[2]) if place else "")
    return line[1:] if line.startswith("@") else ""


def main():
    """Reads records, and draws: o stopped, | running, x exited."""
    threads = {}
    for line in sys.stdin.read().splitlines():
        moved = FORM.match(line)
        if moved:
            threads[int(moved[2])] = STATES[moved[1]]
        if moved and moved[1] != "=thread-created" or line.startswith(("@", "*stopped")):
            print("  ".join(threads[number] for number in sorted(threads)), told(line), sep="   ")
            threads = {number: state if state != "x" else " " for number, state in threads.items()}


if __name__ == "__main__":
    main()
