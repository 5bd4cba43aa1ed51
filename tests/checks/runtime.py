"""`examples/runtime`: what it brings links and works by either compiler, where that is installed, also optimized."""

import os
import shutil
import subprocess

from checks.scripts import scripted

# Arrays, a struct that is copied, pieces that overlap, a division of 64 bits, and the least number.
OWN = """
#include "runtime.h"
struct cell { int key; struct cell *left; char colour; int more[10]; };
static struct cell pool[3];
static long long big = 0x1122334455667788ll;
static char text[] = "abcdefgh";
int main(int hart) {
    int z[64] = {0};
    struct cell one = {1, 0, 'x', {1, 2, 3}}, other;
    other = one;
    pool[1] = other;
    memmove(text + 2, text, 4);
    print(text);
    memmove(text, text + 2, 4);
    print(text);
    print(memcmp(&one, &pool[1], sizeof one) == 0 && memcmp("ab", "ac", 2) < 0 ? " equal " : " not equal ");
    memset(z, 1, sizeof z);
    print_number(z[63] + pool[1].more[2]);
    print(" ");
    print_number((int)(big / (hart + 7)));
    print(" ");
    print_number(-2147483647 - 1);
    return 0;
}
"""
WRITTEN = b"ababcdghabcdcdgh equal 16843012 204682661 -2147483648"

# One hart stands at a breakpoint, the others come to the barrier and spin there.
TEAM = """-break-insert -t -p 2 acquire
-exec-continue --all
wait-stop 2
-thread-info
-exec-continue --thread 2
wait-exit
"""


def output_of(records):
    """What the program wrote."""
    return b"".join(it[2:-1] for it in records.splitlines() if it.startswith(b"@")).replace(b"\\n", b"\n")


def check_compiler(rig, top, name, level):
    """The programs by one compiler."""
    place = os.path.join(rig.folder, "runtime-%s%s" % (name, level))
    runtime = os.path.join(top, "examples", "runtime")
    os.makedirs(place)
    shutil.copy(os.path.join(runtime, "team.c"), place)
    with open(os.path.join(place, "own.c"), "w", encoding="utf-8") as file:
        file.write(OWN)
    words = ["make", "-s", "-f", os.path.join(runtime, "Makefile"), "COMPILER=" + name, "LEVEL=" + level, "own", "team"]
    made = subprocess.run(words, cwd=place, stdout=subprocess.PIPE, stderr=subprocess.STDOUT, timeout=60)
    rig.row("runtime by %s %s: make" % (name, level), (made.returncode, b"undefined" in made.stdout), (0, False))
    status, output, error = scripted(rig, top, "-exec-continue\nwait-exit\n", "--workers", "0", os.path.join(place, "own"))
    rig.row("runtime by %s %s: own" % (name, level), (status, output_of(output), error), (0, WRITTEN, []))
    words = ["--workers", "0", "--harts", "4", "--budget", "100000000000", os.path.join(place, "team")]
    status, output, error = scripted(rig, top, TEAM, *words)
    lines = output_of(output).splitlines()
    wanted = [b"hart 0 is done", b"hart 1 is done", b"hart 2 is done", b"hart 3 is done"]
    rig.row("runtime by %s %s: team" % (name, level), (status, sorted(lines[:-1]), lines[-1:], error), (0, wanted, [b"85344"], []))
    rig.row("runtime by %s %s: a stop beside the others" % (name, level), output.count(b'state="running"'), 3)


def check_runtime(rig, top):
    """By gcc and by clang with gcc's library."""
    has_gcc = shutil.which("riscv64-unknown-elf-gcc") and shutil.which("make")
    for name, is_there in (("gcc", has_gcc), ("clang", has_gcc and shutil.which("clang") and shutil.which("ld.lld"))):
        for level in ("-O0", "-O2") if is_there else ():
            rig.guarded(name, lambda: check_compiler(rig, top, name, level))
