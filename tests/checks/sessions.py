"""Stored sessions: each is a folder with the words, the input, the output and the status of one run.

- `args`: the words, one a line; without it `--workers 0 FILE`. The word `FILE` is the session's program.
- `program`: that program, as words, bytes and sections (`programs.py`); without it the program of examples/euclid.
- `elf`: in place of it files of `tests/programs`, one a line; the session is run on each of them.
- `input`, `output`: the bytes; without `input` there are none.
- `status`: the exit status; without it 0.
"""

import os

from checks.programs import read_program


def content(folder, name, otherwise):
    """A file's bytes, or others where it isn't there."""
    path = os.path.join(folder, name)
    if not os.path.exists(path):
        return otherwise
    with open(path, "rb") as file:
        return file.read()


def programs(folder, top, euclid):
    """What the session is run on: the end of its name and the file's bytes, once or for each of several files."""
    text = content(folder, "program", None)
    if text is not None:
        return [("", read_program(text.decode()))]
    names = content(folder, "elf", b"").decode().split()
    return [(" on " + name, content(top, name, None)) for name in names] or [("", euclid)]


def run_session(rig, folder, file):
    """Runs the session of a folder on a program's bytes, and gives its status and what it wrote."""
    words = content(folder, "args", b"--workers 0 FILE".replace(b" ", b"\n")).decode().splitlines()
    rig.put("program", file)
    return rig.run(["program" if word == "FILE" else word for word in words], content(folder, "input", b""))


def check_session(rig, folder, name, file):
    """Runs one stored session on a program, and compares all of it."""
    wanted = int(content(folder, "status", b"0")), content(folder, "output", b"")
    rig.row("session " + name, run_session(rig, folder, file), wanted)


def session_names(top):
    """The stored sessions, in the order of their names."""
    folder = os.path.join(top, "sessions")
    return sorted(name for name in os.listdir(folder) if os.path.isdir(os.path.join(folder, name)))


def euclid(top):
    """The program of examples/euclid."""
    return content(os.path.join(os.path.dirname(top), "crates", "dbg_program", "data"), "euclid", None)


def check_sessions(rig, top, names):
    """Runs the named ones of the stored sessions."""
    for name in names:
        folder = os.path.join(top, "sessions", name)
        for end, file in programs(folder, os.path.join(top, "programs"), euclid(top)):
            rig.guarded(name + end, lambda: check_session(rig, folder, name + end, file))
