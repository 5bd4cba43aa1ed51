"""What measurements of the built debugger stand on."""

import os
import re
import resource
import subprocess

HERE = os.path.dirname(os.path.realpath(__file__))
RVDBG = os.path.join(HERE, "..", "crates", "dbg_program", "out", "dbg_program")
RUNS = 5


def seconds(words, text=b"", written=subprocess.PIPE, runs=RUNS):
    """The least processor time of a command over some runs, and what the last wrote to both outputs."""
    best = None
    for _ in range(runs):
        before = resource.getrusage(resource.RUSAGE_CHILDREN)
        done = subprocess.run(words, input=text, stdout=written, stderr=written)
        after = resource.getrusage(resource.RUSAGE_CHILDREN)
        took = after.ru_utime - before.ru_utime + after.ru_stime - before.ru_stime
        best = took if best is None else min(best, took)
    return best, done.stdout, done.stderr


def begun(file):
    """The greatest resident set of a session that has begun, in bytes."""
    process = subprocess.Popen([RVDBG, "--workers", "0", file], stdin=subprocess.PIPE, stdout=subprocess.PIPE)
    while process.stdout.readline() != b"(gdb)\n":
        pass
    with open("/proc/%d/status" % process.pid) as status:
        peak = [line for line in status if line.startswith("VmHWM")][0]
    process.communicate()
    return int(peak.split()[1]) * 1024


def host_instructions(words, lines, folder, workers=0):
    """The host's instructions of a whole session, by callgrind."""
    out = os.path.join(folder, "callgrind")
    words = ["valgrind", "--tool=callgrind", "--callgrind-out-file=" + out, RVDBG, "--workers", str(workers), *words]
    done = subprocess.run(words, input=lines, stdout=subprocess.PIPE, stderr=subprocess.PIPE)
    return int(re.search(rb"Collected : (\d+)", done.stderr).group(1))
