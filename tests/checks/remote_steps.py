"""Random sessions over `editors/rvdbg-gdb`: the same steps are done over MI alone, beside it, and each stop is compared.

So are all registers and the memory that the program writes. Alone, `tests/checks/remote_steps.py PROGRAM` does what the gate does, and
with `all` behind it 100 random sessions and 10,000 stops.
"""

import os
import random
import re
import sys
import tempfile
import time

if __name__ == "__main__":
    sys.dont_write_bytecode = True
    sys.path.insert(0, os.path.dirname(os.path.dirname(os.path.realpath(__file__))))

from checks.remote_client import PROGRAMS, Remote, framed  # noqa: E402
from checks.rig import PATIENCE, Rig, Talk  # noqa: E402


class Alone(Talk):
    """The debugger alone, by lines of MI: `breakpoints` and `watches` are numbers by their places, `times` how often watches stopped."""

    def __init__(self, rig, *words):
        super().__init__(rig, ["--budget", "1000000000", *words])
        self.breakpoints, self.watches, self.times = {}, {}, 0
        self.hear(b"(gdb)\n")

    def do(self, line, ends=b"(gdb)\n"):
        """Does a line, and gives what is written up to its prompt."""
        self.heard.clear()
        self.say(line.encode() + b"\n")
        if not self.hear(ends):
            raise OSError("%s isn't answered, but by %r" % (line, bytes(self.heard)))
        return bytes(self.heard)

    def go(self, line, thread):
        """A thread goes on up to its next stop: its reason and its pc, or None where it exits."""
        number = b'"%d"' % thread
        stopped = re.compile(rb'\*stopped,reason="([a-z-]+)",.*addr="(0x[0-9a-f]+)".*thread-id=%s|=thread-exited,id=%s' % (number, number))
        self.do("%s --thread %d" % (line, thread))
        while not stopped.search(self.heard) or self.heard[-1:] != b"\n":
            if not self.more(time.monotonic() + PATIENCE):
                raise OSError("no stop after %s" % line)
        found = stopped.search(self.heard)
        return (found[1].decode(), int(found[2], 16)) if found[1] else None

    def registers(self, thread):
        """All registers of a thread, as the protocol writes them."""
        values = re.findall(rb'value="0x([0-9a-f]{8})"', self.do("-data-list-register-values --thread %d x" % thread))
        return "".join(bytes.fromhex(it.decode())[::-1].hex() for it in values)

    def resumed(self, thread, action):
        """A thread goes on as `vCont` says it, by the debugger's lines. Gives the signal, why, and whether a watch is hidden."""
        if action == "c":
            stop = self.go("-exec-continue", thread)
        else:
            start, end = (int(it, 16) for it in action[1:].split(",")) if action[0] == "r" else (0, 0)
            stop = self.go("-exec-step-instruction", thread)
            while stop and stop[0] == "end-stepping-range" and start <= stop[1] < end and stop[1] not in self.breakpoints:
                stop = self.go("-exec-step-instruction", thread)
        if stop is None:
            return None
        why = "swbreak" if stop[1] in self.breakpoints else ""
        return {"watchpoint-trigger": ("T05", "watch"), "signal-received": ("T0b", "")}.get(stop[0], ("T05", why)), self.hides()

    def hides(self):
        """Whether a watch has fired that wasn't told, since a breakpoint stood at the same arrival."""
        times = [int(it) for it in re.findall(rb'type="watchpoint",.*?times="(\d+)"', self.do("-break-list"))]
        before, self.times = self.times, sum(times)
        return self.times > before


def change(dice, remote, alone, text, data):
    """Sets or takes away a breakpoint or a watch on both sides, or writes; gives what differs."""
    kind, at = dice.choice("ZZzWM"), dice.choice(text)
    if kind == "Z":
        found = remote.ask("Z0,%x,4" % at)
        made = re.search(rb'number="(\d+)"', alone.do("-break-insert *0x%x" % at)) if at not in alone.breakpoints else None
        alone.breakpoints.update({at: made[1].decode()} if made else {})
        return [] if (found == "OK") == (at in alone.breakpoints) else [(kind, at, found)]
    if kind == "z" and alone.breakpoints:
        at = dice.choice(sorted(alone.breakpoints))
        alone.do("-break-delete " + alone.breakpoints.pop(at))
        return [] if remote.ask("z0,%x,4" % at) == "OK" else [(kind, at)]
    at, size = data + 4 * dice.randint(0, 7), dice.choice([1, 2, 4, 8])
    if kind == "W" and (at, size) not in alone.watches:
        if alone.watches:
            old = alone.watches.popitem()
            alone.do("-break-delete " + old[1])
            alone.times = 0
            remote.ask("z2,%x,%x" % old[0])
        parts = ["{%s} 0x%x" % ({1: "char", 2: "short"}.get(size, "int"), at)] + (["{int} 0x%x" % (at + 4)] if size == 8 else [])
        numbers = [re.search(rb'number="(\d+)"', alone.do("-break-watch " + it))[1].decode() for it in parts]
        alone.watches[at, size] = " ".join(numbers)
        return [] if remote.ask("Z2,%x,%x" % (at, size)) == "OK" else [(kind, at, size)]
    content = bytes(dice.randrange(256) for _ in range(size)).hex()
    alone.do("-data-write-memory-bytes 0x%x %s" % (at, content))
    return [] if remote.ask("M%x,%x:%s" % (at, size, content)) == "OK" else [("M", at)]


def compared(remote, alone, thread, stop, text, is_single):
    """What differs between a stop that was told and one of the debugger alone: why, where, the registers, those told with it.

    Of a watch and a breakpoint GDB is told of the watch; where several threads have run on it may be the breakpoint.
    """
    remote.ask("Hg%x" % thread)
    found, wanted, ((signal, why), is_hidden) = remote.ask("g"), alone.registers(thread), stop
    told = dict(re.findall(r"\b([0-9a-f]{1,2}):([0-9a-f]{8});", text))
    ways = {why} if not is_hidden else {"watch"} if is_single else {"watch", why}
    is_told = any(text.startswith("%sthread:%x;%s" % (signal, thread, it)) for it in ways)
    first = all(wanted[8 * int(number, 16) :][:8] == value for number, value in told.items()) and set(told) == {"20", "2", "8", "1"}
    return [] if is_told and first and found == wanted else [(thread, stop, text, found, wanted)]


def step(dice, remote, alone, live, is_non_stop):
    """One step of a session on both sides: some threads go on, each up to its stop. Gives what differs."""
    chosen = sorted(dice.sample(sorted(live), dice.randint(1, len(live)) if is_non_stop else 1))
    actions, wanted = {}, {}
    for thread in chosen:
        pc = int.from_bytes(bytes.fromhex(alone.registers(thread)[-8:]), "little")
        actions[thread] = dice.choice(["c", "s", "s", "r%x,%x" % (pc - 4 * dice.randint(0, 3), pc + 4 * dice.randint(0, 12))])
    for thread in chosen:
        wanted[thread] = alone.resumed(thread, actions[thread])
        live -= set() if wanted[thread] else {thread}
    stopping = [it for it in chosen if wanted[it]]
    remote.write(framed("vCont" + "".join(";%s:%x" % (actions[it], it) for it in chosen)))
    found = [remote.answer()]
    if is_non_stop:
        count, found = len(stopping) + (not live), [] if found == ["OK"] else found
        while len(found) < count:
            found += remote.notified()
    wrong = []
    for thread in stopping:
        text = next((it for it in found if "thread:%x;" % thread in it), "")
        wrong += compared(remote, alone, thread, wanted[thread], text, len(chosen) == 1)
    if not live:
        return wrong + ([] if found[-1][:1] == "W" else [found])
    for thread in set(chosen) - set(stopping):
        ends = time.monotonic() + PATIENCE
        while remote.ask("T%x" % thread) == "OK" and time.monotonic() < ends:
            time.sleep(0.002)
        wrong += [] if is_non_stop or found == ["N"] else [found]
    return wrong


def check_random(rig, name, seed):
    """A random session."""
    dice = random.Random(seed)
    words = ["--harts", str(dice.randint(1, 4)), "alone-%s" % dice.choice(["gcc-O0", "gcc-O2", "clang-O0", "clang-O2"])]
    is_non_stop, count, wrong = dice.random() < 0.5, 0, []
    with Remote(rig, *words).open() as remote, Alone(rig, "--workers", "0", *words[:2], os.path.join(PROGRAMS, words[2])) as alone:
        remote.ask("QNonStop:%d" % is_non_stop)
        remote.ask("?")
        while is_non_stop and remote.ask("vStopped") != "OK":
            pass
        live = set(range(1, 1 + int(words[1])))
        if is_non_stop and len(live) > 1:
            remote.notified()
        data, main_ = (int(re.search(rb'value="(\d+)"', alone.do("-data-evaluate-expression &" + it))[1]) for it in ("rows", "main"))
        text = [data, main_ + 2, *range(main_ - 240, main_ + 320, 4)]
        while live and count < 40 and not wrong:
            count += 1
            wrong += change(dice, remote, alone, text, data)
            wrong += step(dice, remote, alone, live, is_non_stop)
            if live:
                memory = re.search(rb'contents="([0-9a-f]+)"', alone.do("-data-read-memory-bytes 0x%x 128" % data))[1].decode()
                wrong += [] if remote.ask("m%x,80" % data) == memory else ["memory"]
        rig.row("%s of %d, %s%s" % (name, seed, " ".join(words), " non-stop" * is_non_stop), (wrong, remote.faults), ([], []))
    return count


def check_memory(rig, name, count):
    """Memory doesn't grow with the stops; how long a step takes is printed."""
    with Remote(rig, "ring-gcc-O0").open() as remote:
        remote.ask("?")
        times, sizes = [], []
        for number in range(count):
            begun = time.perf_counter()
            remote.ask("vCont;s:1")
            times.append(time.perf_counter() - begun)
            if number % 100 == 0:
                sizes.append(remote.memory())
        early = len(sizes) // 5
        print("outside: %d steps: %.2f ms each; %d KB early, %d KB late" % (count, 1e3 * sorted(times)[count // 2], sizes[early], sizes[-1]))
        rig.row(name + ": memory stays", sizes[-1] - sizes[early] < 1024, True)


def check_remote_steps(rig, sessions=6, stops=1000):
    """All of them."""
    counts = []
    for seed in range(sessions):
        rig.guarded("seed %d" % seed, lambda: counts.append(check_random(rig, "remote, random session", seed)))
    print("outside: %d steps in %d random sessions" % (sum(counts), sessions))
    rig.guarded("memory", lambda: check_memory(rig, "remote", stops))


def main():
    """Runs them over the program that is named."""
    with tempfile.TemporaryDirectory(prefix="rvdbg-remote-") as folder:
        rig = Rig(os.path.abspath(sys.argv[1]), None, folder)
        check_remote_steps(rig, *([100, 10000] if sys.argv[2:] == ["all"] else []))
    print("outside: %d passed, %d failed" % (rig.passed, rig.failed))
    return 1 if rig.failed else 0


if __name__ == "__main__":
    sys.exit(main())
