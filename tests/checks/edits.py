"""The must-fail edits that stand beside the gate: each still applies to its crate's sources."""

import glob
import os


def applied(crate, edit):
    """What hinders an edit's lines from being applied, or None. Pairs apply to what the earlier ones made."""
    texts, path, old, pairs = {}, None, None, 0
    with open(edit, encoding="utf-8") as file:
        lines = file.read().split("\n")
    for line in lines:
        if line.startswith("file: "):
            path = line[len("file: "):]
            if path not in texts:
                with open(os.path.join(crate, path), encoding="utf-8") as file:
                    texts[path] = file.read()
        elif line.startswith("old: "):
            old = line[len("old: "):]
        elif line.startswith("new:"):
            found = texts[path].count(old)
            if found != 1:
                return "a text to be replaced stands in %s %d times" % (path, found)
            texts[path] = texts[path].replace(old, line[len("new:"):].removeprefix(" "))
            pairs += 1
    return None if pairs else "it replaces nothing"


def check_edits(rig, top):
    """Applies each edit of tests/edits to the sources, in memory."""
    left = []
    for edit in sorted(glob.glob(os.path.join(top, "tests", "edits", "*", "*.edit"))):
        crate = os.path.join(top, "crates", os.path.basename(os.path.dirname(edit)))
        why = applied(crate, edit)
        if why:
            left.append("%s: %s" % (os.path.relpath(edit, top), why))
    rig.row("the edits of tests/edits apply", left, [])
