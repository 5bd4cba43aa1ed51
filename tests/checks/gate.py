"""`bench/gate`: the chain that decided when a run ended."""

import os
import subprocess
import sys

from checks.rig import PATIENCE

sys.path.append(os.path.join(os.path.dirname(os.path.realpath(__file__)), "..", "..", "bench"))

from chain import chain, chain_lines, libraries  # noqa: E402

LIST = """# Lowest first.
bottom:
left: bottom hex
right may_wait=2: bottom
side: bottom
top: left right
"""
BELOW = {"bottom": [], "left": ["bottom", "hex"], "right": ["bottom"], "side": ["bottom"], "top": ["left", "right"]}
TIMES = {"bottom": (1, 11), "left": (12, 20), "right": (20.5, 50), "side": (12, 49), "top": (50.5, 60)}
ROWS = """| Chain | began | ended | seconds | waited before | waited within |
|---|---|---|---|---|---|
| `bottom` | 1 | 11 | 10 | 1 | 0 |
| `right` | 20 | 50 | 30 | 10 | 3 |
| `top` | 50 | 60 | 10 | 0 | 0 |"""


def check_gate(rig, top):
    """The libraries are read, the chain goes by the library that ended last, and a run of nothing has none."""
    rig.row("bench/gate: the libraries", libraries(LIST), BELOW)
    rig.row("bench/gate: the chain", chain_lines(BELOW, TIMES, {"bottom": 0, "right": 3, "top": 0}), ROWS.split("\n"))
    rig.row("bench/gate: a part of the crates", chain(BELOW, {it: TIMES[it] for it in ("left", "top")}), ["left", "top"])
    ran = subprocess.run([os.path.join(top, "bench", "gate"), "false"], stdout=subprocess.PIPE, timeout=PATIENCE)
    lines = ran.stdout.decode().splitlines()
    rig.row("bench/gate: nothing is proved", (ran.returncode, lines[-3:-1], lines[-1][-8:]), (1, ROWS.split("\n")[:2], "status 1"))
