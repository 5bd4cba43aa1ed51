"""A minute of fuzzing: whatever comes, the program ends with a status of the table, in time, and writes lines of the grammar."""

import os
import tempfile

from fuzz.pool import fuzz, kinds_of

SECONDS = 60.0


def check_fuzz(rig, top):
    """Cases of all kinds, as many as fit; which they are is the same each time. An odd one is kept, and where is said."""
    kinds = kinds_of(rig.program, top)
    keep = os.path.join(tempfile.gettempdir(), "rvdbg-fuzz")
    statuses, odd = fuzz(rig.program, top, kinds, seconds=SECONDS, jobs=os.cpu_count(), keep=keep)
    print("outside: fuzz: %d cases of %s" % (sum(statuses.values()), ", ".join(kinds)), flush=True)
    rig.row("fuzz: odd cases", odd, [])
