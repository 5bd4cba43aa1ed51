"""The records that the stored sessions put: each line that differs, once, in the order of its bytes. The lines of logs are left out.

They stand in `crates/test_texts/data/lines`, where a row of `test_texts` reads each as a tree and writes it again.
`tests/store-lines` makes that file anew.
"""

import os

STORED = os.path.join("crates", "test_texts", "data", "lines")
ANSWERS = os.path.join("crates", "test_texts", "stdout")


def is_record_session(folder):
    """Whether a session puts lines of the interface: one of a generated program puts its summary in place of them."""
    try:
        with open(os.path.join(folder, "args"), encoding="utf-8") as file:
            return "--gen" not in file.read()
    except FileNotFoundError:
        return True


def session_lines(sessions):
    """The lines of all stored sessions, as bytes."""
    lines = set()
    for name in sorted(os.listdir(sessions)):
        output = os.path.join(sessions, name, "output")
        if os.path.exists(output) and is_record_session(os.path.join(sessions, name)):
            with open(output, "rb") as file:
                lines.update(line for line in file.read().splitlines(keepends=True) if not line.startswith(b"#"))
    return b"".join(sorted(lines))


def check_lines(rig, top):
    """Whether the stored lines are those of the stored sessions."""
    with open(os.path.join(top, STORED), "rb") as file:
        stored = file.read().splitlines()
    rig.row("stored lines (tests/store-lines makes them anew)", stored, session_lines(os.path.join(top, "tests", "sessions")).splitlines())
