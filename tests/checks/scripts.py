"""`tools/rvdbg-script`: lines that wait for a stop, for a thread's, and for the end, and a limit of time."""

import os
import re
import subprocess
import sys

from checks.programs import EXIT, LOOP, plain
from checks.rig import EXITED, OPENING, PATIENCE, RUNNING

STOPPED = re.compile(rb'\*stopped,reason="([a-z-]+)".*thread-id="([0-9]+)"')


def scripted(rig, top, lines, *words, limit=PATIENCE):
    """The status, the output and the last line on standard error of a script."""
    script = os.path.join(top, "tools", "rvdbg-script")
    command = [sys.executable, script, "--limit", str(limit), "--rvdbg", rig.program, "-", *words]
    ran = subprocess.run(command, cwd=rig.folder, input=lines.encode(), stdout=subprocess.PIPE, stderr=subprocess.PIPE, timeout=2 * PATIENCE)
    return ran.returncode, ran.stdout, ran.stderr.decode().splitlines()[-1:]


def check_waits(rig, top):
    """A script goes on once there is what it waits for, and comes to its end."""
    lock = os.path.join(top, "examples", "lock")
    with open(os.path.join(lock, "spin.mi"), encoding="utf-8") as file:
        lines = file.read()
    for words in (["--workers", "0", "--harts", "2"], ["--workers", "2", "--harts", "4"]):
        status, output, error = scripted(rig, top, lines, *words, os.path.join(lock, "lock"))
        rig.row("spin.mi: %s" % words, (status, STOPPED.findall(output), error), (0, [(b"breakpoint-hit", b"2")], []))
        rig.row("spin.mi: %s: the end" % words, b'*stopped,reason="exited-normally"' in output, True)
    each = "-break-insert lock.c:18\n-exec-continue --all\nwait-stop\nwait-stop\n-break-delete 1\n-exec-continue --all\nwait-exit\n"
    status, output, error = scripted(rig, top, each, "--workers", "0", "--harts", "2", os.path.join(lock, "lock"))
    stops = sorted(STOPPED.findall(output))
    rig.row("two waits for two stops", (status, stops, error), (0, [(b"breakpoint-hit", b"1"), (b"breakpoint-hit", b"2")], []))


def check_ends(rig, top):
    """How a script ends: by itself, by its last line, by the debugger, by the limit."""
    rig.put("exit", plain(EXIT))
    rig.put("loop", plain(LOOP))
    typed = OPENING + b"-exec-continue\n" + RUNNING
    rows = (
        ("an end of its own", "# passed over\n\n-exec-continue\nwait-exit\n", ["exit"], 0, typed + EXITED + b"-gdb-exit\n^exit\n", []),
        ("-gdb-exit", "-exec-continue\nwait-exit\n-gdb-exit\n-thread-info\n", ["exit"], 0, typed + EXITED + b"-gdb-exit\n^exit\n", []),
        ("harts run at the end", "-exec-continue\n", ["--budget", "1000000000000", "loop"], 0, typed + b"-gdb-exit\n^exit\n", []),
        ("the budget", "-exec-continue\nwait-stop\n", ["--budget", "1000", "loop"], 3, typed, []),
        ("no thread runs", "wait-stop\n", ["exit"], 124, OPENING, ["rvdbg-script: line 1, wait-stop: no thread runs"]),
        ("no thread runs to its end", "wait-exit\n", ["exit"], 124, OPENING, ["rvdbg-script: line 1, wait-exit: no thread runs"]),
        ("a thread that stands", "wait-stop 1\n", ["exit"], 0, OPENING + b"-gdb-exit\n^exit\n", []),
    )
    for name, lines, words, *wanted in rows:
        rig.row("a script: " + name, scripted(rig, top, lines, "--workers", "0", *words), tuple(wanted))
    words = ["--workers", "0", "--budget", "1000000000000", "loop"]
    found = scripted(rig, top, "-exec-continue\nwait-stop\n", *words, limit=1)
    rig.row("a script: the limit", found, (124, typed, ["rvdbg-script: line 2, wait-stop: 1 seconds have passed"]))


def check_links(rig, top):
    """The tools work by links from another folder."""
    links = os.path.join(rig.folder, "tool-links")
    os.makedirs(links)
    for name, words in (("editors/rvdbg-dap", []), ("tools/rvdbg-script", ["--rvdbg", rig.program, "-", "exit"])):
        link = os.path.join(links, os.path.basename(name))
        os.symlink(os.path.join(top, name), link)
        ran = subprocess.run([link, *words], cwd=rig.folder, stdin=subprocess.DEVNULL, stdout=subprocess.PIPE, stderr=subprocess.PIPE, timeout=PATIENCE)
        rig.row("%s by a link" % name, (ran.stdout, ran.stderr), (OPENING + b"-gdb-exit\n^exit\n" if words else b"", b""))


def check_scripts(rig, top):
    """All of them."""
    rig.guarded("waits", lambda: check_waits(rig, top))
    rig.guarded("ends", lambda: check_ends(rig, top))
    rig.guarded("links", lambda: check_links(rig, top))
