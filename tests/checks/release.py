"""The release: where it says that it is of these sources, it is what was built of them."""

import hashlib
import os
import re
import shutil
import subprocess

from checks.rig import BUILT


def sums_in(folder):
    """What the sums in a folder say: the checksum of the sources, the kit and the checksum of the program; none where there are no sums."""
    try:
        with open(os.path.join(folder, "SHA256SUMS"), encoding="utf-8") as file:
            text = file.read()
    except OSError:
        return None
    found = [re.search(it, text, re.MULTILINE) for it in (r"^# sources (.*)$", r"^# kit (.*)$", r"^([0-9a-f]{64})  \S+$")]
    return [it and it[1] for it in found]


def digest(path):
    """The checksum of a file."""
    with open(path, "rb") as file:
        return hashlib.sha256(file.read()).hexdigest()


def printed(*words):
    """What a command prints, without the end of the line."""
    return subprocess.run(words, stdout=subprocess.PIPE, check=True, universal_newlines=True).stdout.strip()


def check_release(rig, top):
    """Compares the release with the program that was built. What keeps them from being compared is told at the end."""
    released, built = sums_in(os.path.join(top, "release")), sums_in(os.path.dirname(BUILT))
    sources = printed(os.path.join(top, "tools", "record"))
    if released is None:
        rig.notes.append("there is no release")
    elif released[0] != sources:
        rig.notes.append("the release is behind: it is of other sources than these")
    elif shutil.which("rt") and released[1] != printed("rt", "version"):
        rig.notes.append("the release is behind: it was built by %s" % released[1])
    elif os.path.realpath(rig.program) != os.path.realpath(BUILT) or built is None or built[0] != sources:
        rig.notes.append("the release is of these sources, and no program that was built of them is here to compare it with")
    else:
        rig.row("the release is what was built", digest(rig.program), released[2])
        rig.notes.append("the release is of these sources")
    if released:
        rig.row("the release is that of its sums", digest(os.path.join(top, "release", "rvdbg-x86_64-linux")), released[2])
