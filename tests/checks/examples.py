"""What the documents and the examples show: each command is run again, and each answer compared (what else documents name: `documents.py`).

- A block of README.md or docs/ that begins with ```mi is a session: `$ ./rvdbg WORDS`, and then lines, of which those that begin with
  `-`, with or without a token, are the input and the others the output.
- The lines of a block ```sh that call a compiler are run where it is installed, beside the repository's `examples`; what they make has to
  come to a stop at the line of its source for which the document has `-break-insert FILE:LINE`. Those of TUTORIAL.md that call `./rvdbg` or
  Python are run one after the other, and what they print stands in its text. The others aren't run.
- `examples/NAME/session.mi` is the input of a session, `session.out` its output, and `args` the words, one a line. `columns.out` is what
  `columns.py` draws of it, `examples/timeline/lock.svg` the picture of its log, and `examples/front-end/table.out` what the front end prints.
"""

import os
import re
import shlex
import shutil
import subprocess
import sys

from checks.documents import BLOCK, SHELL, bytes_of, check_named, documents

TYPED = re.compile(r"[0-9]*-")


def placed(words, top):
    """The words, with names of the repository's files from its top on."""
    return [os.path.join(top, word) if "/" in word else word for word in words]


def check_sessions_shown(rig, top, name, text):
    """The sessions of a document. A program that stands in no folder is that of the example of the same name; a generated run has none."""
    for number, (words, shown) in enumerate(BLOCK.findall(text), 1):
        lines = shown.splitlines(keepends=True)
        typed = "".join(line for line in lines if TYPED.match(line))
        answered = "".join(line for line in lines if not TYPED.match(line))
        *options, program = words.split()
        if "/" not in program and "--gen" not in options:
            program = "examples/%s/%s" % (program, program)
        found = rig.run(placed([*options, program], top), typed.encode())
        rig.row("session %d of %s" % (number, name), found, (0, answered.encode()))


def check_compilers(rig, top, name, text):
    """The calls of compilers in a document, each of which makes a program that stops where the document's sessions stop."""
    place = os.path.join(rig.folder, "compiled")
    for line in [line for block in SHELL.findall(text) for line in block.splitlines()]:
        words = shlex.split(line)
        wanted = words[:1] + ["ld.lld"] * ("-fuse-ld=lld" in words)
        if "-o" not in words:
            continue
        if missing := [it for it in wanted if not shutil.which(it)]:
            print("outside: not run: `%s` of %s: %s isn't installed" % (line, name, missing[0]), flush=True)
            continue
        made, source = words[words.index("-o") + 1], next(it for it in words if it.endswith(".c"))
        shutil.rmtree(place, ignore_errors=True)
        os.makedirs(place)
        os.symlink(os.path.join(top, "examples"), os.path.join(place, "examples"))
        shutil.copy(os.path.join(top, "examples", made, source), place)
        subprocess.run(words, cwd=place, check=True, timeout=60)
        number = re.search(r"-break-insert .*\b%s:([0-9]+)" % re.escape(source), text).group(1)
        asked = "-break-insert %s:%s\n-exec-continue\n-exec-wait\n-gdb-exit\n" % (source, number)
        status, output = rig.run(["--workers", "0", os.path.join(place, made)], asked.encode())
        stop = b'*stopped,reason="breakpoint-hit"'
        lines = [it for it in output.splitlines() if it.startswith(stop) and b'file="%s",line="%s"' % (source.encode(), number.encode()) in it]
        rig.row("%s of %s: status and stops" % (words[0], name), (status, len(lines)), (0, 1))


def check_shell(rig, top, text):
    """The lines of shell of the tutorial, in a folder of their own; what they print has to stand there as code."""
    place = os.path.join(rig.folder, "shell")
    os.makedirs(place)
    os.symlink(os.path.join(top, "examples"), os.path.join(place, "examples"))
    os.symlink(rig.program, os.path.join(place, "rvdbg"))
    for line in [line for block in SHELL.findall(text) for line in block.splitlines() if line.startswith(("./rvdbg", "python3"))]:
        done = subprocess.run(["sh", "-c", line], cwd=place, stdout=subprocess.PIPE, timeout=60)
        told = done.stdout.decode().splitlines()
        rig.row("`%s`" % line, (done.returncode, [it for it in told if "`%s`" % it not in text]), (0, []))


def printed(words, top, input=b""):
    """What a program prints."""
    return subprocess.run(placed(words, top), input=input, stdout=subprocess.PIPE, timeout=60, check=True).stdout


def check_folders(rig, top):
    """The sessions of the examples, the pictures and the front end."""
    for name in ("counter", "euclid", "lock", "mine"):
        folder = os.path.join(top, "examples", name)
        words = bytes_of(folder, "args").decode().split("\n")[:-1]
        found = rig.run(placed(words, top), bytes_of(folder, "session.mi"))
        rig.row("example " + name, found, (0, bytes_of(folder, "session.out")))
    drawn = printed([sys.executable, "examples/lock/columns.py"], top, bytes_of(top, "examples/lock/session.out"))
    rig.row("columns of examples/lock", drawn, bytes_of(top, "examples/lock/columns.out"))
    words = bytes_of(top, "examples/lock/args").decode().split("\n")[:-1]
    status, log = rig.run(["--log", *placed(words, top)], bytes_of(top, "examples/lock/session.mi"))
    drawn = printed([sys.executable, "examples/timeline/timeline.py"], top, log)
    rig.row("picture of the log of examples/lock", (status, drawn), (0, bytes_of(top, "examples/timeline/lock.svg")))
    words = ["examples/front-end/front_end.py", rig.program, "--harts", "2", "examples/lock/lock"]
    rig.row("front end", printed([sys.executable, *words], top), bytes_of(top, "examples/front-end/table.out"))


def check_examples(rig, top):
    """The documents and the examples."""
    for name, text in documents(top):
        rig.guarded("sessions of " + name, lambda: check_sessions_shown(rig, top, name, text))
        rig.guarded("compilers of " + name, lambda: check_compilers(rig, top, name, text))
    check_named(rig, top)
    rig.guarded("shell of the tutorial", lambda: check_shell(rig, top, bytes_of(top, "docs", "TUTORIAL.md").decode()))
    rig.guarded("examples", lambda: check_folders(rig, top))
