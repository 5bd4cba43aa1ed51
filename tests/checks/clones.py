"""A clone of its own for the start script, with two small crates, and scripts in the place of the program and of the kit."""

import os
import shutil
import subprocess
import time

from checks.rig import PATIENCE, USAGE

# In the program's place: it ends with a status or by a signal, or tells its bound of memory; anything else is refused words.
PROGRAM = """#!/bin/sh
case $1 in
[0-9]) exit "$1" ;;
limit) ulimit -v ;;
signal) kill -s "$2" $$ ;;
sleep) echo asleep && exec sleep 60 ;;
*) printf '%%s\\n' '%s' && exit 1 ;;
esac
""" % USAGE.decode().strip()

# In the kit's place: it says how far it is, and puts `program` of its folder where the kit puts what it has built. The file that `meanwhile`
# names is changed while it does; it doesn't end while there is a file `hold`.
KIT = """#!/bin/sh
here=$(dirname "$0")
case $1 in
version) echo the kit of the tests && exit ;;
ci) place=crates/dbg_program/out ;;
*) place=out ;;
esac
echo "$1" >>"$here/runs"
[ ! -e "$here/meanwhile" ] || echo "// more" >>"$(cat "$here/meanwhile")"
echo "rt: low is kept: an earlier run proved it"
while [ -e "$here/hold" ]; do sleep 0.05; done
echo "rt: dbg_program proved"
mkdir -p $place && cp "$here/program" $place/dbg_program
"""


def written(path, text, mode=0o644):
    """Writes a file, and gives its path."""
    os.makedirs(os.path.dirname(path), exist_ok=True)
    with open(path, "w", encoding="utf-8") as file:
        file.write(text)
    os.chmod(path, mode)
    return path


class Clone:
    """A clone in which nothing is built, and a folder with the kit."""

    def __init__(self, top, folder):
        self.folder, self.bin = os.path.join(folder, "clone"), os.path.join(folder, "kit")
        shutil.copytree(os.path.join(top, "tools"), self.path("tools"))
        shutil.copy(os.path.join(top, "rvdbg"), self.folder)
        written(self.path("0"), "a FILE that can be read\n")
        written(self.path("HANDLES"), "Handles allowed: none.\n")
        written(self.path("crates.txt"), "low:\nother:\ndbg_program: low\n")
        for name in ("low", "other", "dbg_program"):
            written(self.path("crates", name, "src", "lib.rt"), "// %s\n" % name)
        written(os.path.join(self.bin, "rt"), KIT, 0o755)
        written(os.path.join(self.bin, "program"), PROGRAM, 0o755)
        shutil.copytree(os.path.join(top, ".ci"), self.path(".ci"))
        written(self.path("tests", "outside"), "#!/bin/sh\n", 0o755)

    def path(self, *names):
        """A file of the clone."""
        return os.path.join(self.folder, *names)

    def hold(self):
        """From now on the kit doesn't end what it builds."""
        written(os.path.join(self.bin, "hold"), "")

    def let_go(self):
        """Now it does."""
        os.remove(os.path.join(self.bin, "hold"))

    def runs(self):
        """What the kit was asked to do since this was asked last."""
        path = os.path.join(self.bin, "runs")
        if not os.path.exists(path):
            return []
        with open(path, encoding="utf-8") as file:
            lines = file.read().split()
        os.remove(path)
        return lines

    def began(self):
        """Waits until the kit has begun, and says whether it has."""
        ends = time.monotonic() + PATIENCE
        while not os.path.exists(os.path.join(self.bin, "runs")) and time.monotonic() < ends:
            time.sleep(0.01)
        return os.path.exists(os.path.join(self.bin, "runs"))

    def settings(self, has_kit=True, **more):
        """The environment: the kit's folder is on the path, or there is none."""
        known = {"PATH": (self.bin + ":" if has_kit else "") + "/usr/bin:/bin", "RVDBG_TICK": "0.2"}
        return dict(known, **more)

    def start(self, *words, script="rvdbg", has_kit=True, **more):
        """Starts the script, or another of the clone's."""
        pipes = dict(stdin=subprocess.PIPE, stdout=subprocess.PIPE, stderr=subprocess.PIPE)
        return subprocess.Popen([self.path(script), *words], cwd=self.folder, env=self.settings(has_kit, **more), **pipes)

    def run(self, *words, **how):
        """The status, the output and what stands on standard error."""
        process = self.start(*words, **how)
        output, error = process.communicate(timeout=PATIENCE)
        return process.returncode, output, error.decode()

    def change(self, text, *names):
        """Changes a file of the clone."""
        with open(self.path(*names), "a", encoding="utf-8") as file:
            file.write(text)
