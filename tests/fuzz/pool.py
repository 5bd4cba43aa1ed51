"""Many cases, side by side, until their number or the time is used up."""

import collections
import multiprocessing
import os
import tempfile
import time

from fuzz.cases import KINDS
from fuzz.runs import Runner, limit_memory, run
from fuzz.starter import Starter

BATCH = 50
# Files in memory, where the system has a place for them.
PLACE = "/dev/shm" if os.access("/dev/shm", os.W_OK) else None
RUNNER = None


def kinds_of(program, top):
    """The kinds that the program can have: logs where it knows --check."""
    starter = Starter()
    with tempfile.TemporaryDirectory() as folder:
        done = run(starter, [os.path.abspath(program), "--check", os.path.join(top, "examples", "mine", "mine")], b"", folder)
        knows = done.output.startswith(b"check ")
    starter.close()
    return [*KINDS, *(["log"] if knows else [])]


def begin(*words):
    """The runner of a process."""
    global RUNNER
    limit_memory()
    RUNNER = Runner(*words)


def batch(work):
    """Some cases of a kind: how many had each status, and what was odd."""
    kind, first, count = work
    found = [RUNNER.one(kind, number) for number in range(first, first + count)]
    return collections.Counter(status for status, _ in found), [it for _, odd in found for it in odd]


def batches(kinds, cases, seconds):
    """The work, kind by kind in turn, until the cases or the time are used up."""
    ends, first = time.monotonic() + seconds, 0
    while time.monotonic() < ends and (cases is None or first * len(kinds) < cases):
        for kind in kinds:
            yield kind, first, BATCH
        first += BATCH


def fuzz(program, top, kinds, cases=None, seconds=60.0, seed=1, jobs=1, keep=None, tell=None):
    """Runs cases, and gives how many had each status, and what was odd."""
    statuses, odd = collections.Counter(), []
    with tempfile.TemporaryDirectory(prefix="rvdbg-fuzz-", dir=PLACE) as folder:
        with multiprocessing.get_context("fork").Pool(jobs, begin, (program, top, seed, keep, folder)) as pool:
            for counts, found in paced(pool, batches(kinds, cases, seconds), jobs):
                statuses += counts
                odd += found
                if found and tell:
                    tell(found)
    return statuses, odd


def paced(pool, works, jobs):
    """The results of the work, of which no more is handed out than is done soon: the time is looked at when it is handed out."""
    waiting = collections.deque()
    for work in works:
        waiting.append(pool.apply_async(batch, (work,)))
        if len(waiting) > jobs:
            yield waiting.popleft().get()
    while waiting:
        yield waiting.popleft().get()
