"""Starts the runs of a fuzzer, from a process that stays small: what the system says of a child's memory has its parent's in it.

As a program it reads a line for each run, [words, folder, seconds]: the program and its words; the folder where the files `input` and `output`
stand; and after how many seconds it is killed. It answers [status, seconds of the processor or null where it was killed, bytes of memory].
"""

import json
import os
import select
import sys


def started(words, folder):
    """The number of the program's process."""
    actions = [
        (os.POSIX_SPAWN_OPEN, 0, os.path.join(folder, "input"), os.O_RDONLY, 0),
        (os.POSIX_SPAWN_OPEN, 1, os.path.join(folder, "output"), os.O_WRONLY | os.O_CREAT | os.O_TRUNC, 0o600),
        (os.POSIX_SPAWN_OPEN, 2, os.devnull, os.O_WRONLY, 0),
    ]
    return os.posix_spawn(words[0], words, {}, file_actions=actions)


def ended(child, seconds):
    """How a process ended, which has so many seconds."""
    handle = os.pidfd_open(child)
    has_ended = select.select([handle], [], [], seconds)[0]
    os.close(handle)
    if not has_ended:
        os.kill(child, 9)
    _, status, usage = os.wait4(child, 0)
    return os.waitstatus_to_exitcode(status), usage.ru_utime + usage.ru_stime if has_ended else None, usage.ru_maxrss << 10


class Starter:
    """A process of this file, until it is closed."""

    def __init__(self):
        # (what runs as a program is to load no more than it needs)
        import subprocess

        words = [sys.executable, "-I", "-S", "-B", os.path.abspath(__file__)]
        self.process = subprocess.Popen(words, stdin=subprocess.PIPE, stdout=subprocess.PIPE)

    def run(self, words, folder, seconds):
        """How the program ended."""
        self.process.stdin.write(json.dumps([words, folder, seconds]).encode() + b"\n")
        self.process.stdin.flush()
        return json.loads(self.process.stdout.readline())

    def close(self):
        """Ends it."""
        self.process.stdin.close()
        self.process.wait()
        self.process.stdout.close()


if __name__ == "__main__":
    for asked in sys.stdin:
        words, folder, seconds = json.loads(asked)
        print(json.dumps(ended(started(words, folder), seconds)), flush=True)
