"""A client that speaks the remote protocol with `editors/rvdbg-gdb` itself, without GDB: its packets, its stops and its ends.

In some conversations a script stands in the debugger's place (PEER). Alone, `tests/checks/remote.py PROGRAM` does the same.
"""

import os
import re
import socket
import subprocess
import sys
import tempfile
import time

if __name__ == "__main__":
    sys.dont_write_bytecode = True
    sys.path.insert(0, os.path.dirname(os.path.dirname(os.path.realpath(__file__))))

from checks.programs import LOOP, plain  # noqa: E402
from checks.remote_client import PROGRAMS, Remote, framed  # noqa: E402
from checks.rig import PATIENCE, Rig  # noqa: E402

# A debugger that is a script. `both`: two threads stop at one breakpoint at once, when they are to go on; `unbuilt` and `building` aren't
# there yet; `cut` ends with status 3 when a thread is to go on.
PEER = r'''
import os, re, sys
kind = os.environ["PEER"]
def put(*lines):
    os.write(1, "".join(it + "\n" for it in lines).encode())
if kind == "unbuilt":
    print("rvdbg: the program isn't built yet, and rt isn't found", file=sys.stderr, flush=True)
    sys.exit(127)
if kind == "building":
    print("rvdbg: proving and building dbg_program", file=sys.stderr, flush=True)
    sys.stdin.read()
put('=thread-created,id="1",group-id="i1"', '=thread-created,id="2",group-id="i1"', "(gdb)")
count = 0
for line in sys.stdin:
    token, _, command = line.strip().partition("-")
    threads = ["1", "2"] if "--all" in command else re.findall("--thread ([0-9]+)", command)
    if command.startswith("break-insert"):
        count += 1
        put(token + '^done,bkpt={number="%d",addr="0x00010074"}' % count, "(gdb)")
    elif command.startswith("data-list-register-values"):
        rows = ['{number="%s",value="0x0000000%d"}' % (it, int(threads[0])) for it in command.split(" x ")[1].split()]
        put(token + "^done,register-values=[%s]" % ",".join(rows), "(gdb)")
    elif command.startswith("exec-interrupt"):
        put(token + '^error,msg="Thread %s is not running"' % threads[0], "(gdb)")
    elif command.startswith("exec-"):
        sys.exit(3) if kind == "cut" else put(token + "^running", *['*running,thread-id="%s"' % it for it in threads], "(gdb)")
        why = 'breakpoint-hit",disp="keep",bkptno="1' if "continue" in command else "end-stepping-range"
        put(*['*stopped,reason="%s",frame={addr="0x00010074"},thread-id="%s",stopped-threads=["%s"]' % (why, it, it) for it in threads])
    else:
        put(token + "^done", "(gdb)")
'''


def peer(rig, kind):
    """A debugger that behaves so."""
    path = os.path.join(rig.folder, "peer-of-gdb-" + kind)
    with open(path, "w", encoding="utf-8") as file:
        file.write("#!%s\nimport os\nos.environ['PEER'] = %r\n%s" % (sys.executable, kind, PEER))
    os.chmod(path, 0o755)
    return path


def check_acknowledgements(rig, name):
    """A packet is acknowledged before it is answered; a bad one is asked for again, and an answer is given again."""
    with Remote(rig, "fault-gcc-O0") as remote:
        remote.write(b"junk$qC#0")
        remote.write(b"0++\0$lost" + framed("qC"))
        while b"#" not in remote.heard[:-2]:
            remote.more()
        rig.row(name + ": the sign before the answer", remote.heard, b"-+" + framed("QC1"))
        first = remote.packet()
        remote.write(b"-")
        rig.row(name + ": again", remote.packet(), first)
        rig.row(name + ": no more signs", (remote.open().ask("qC"), remote.heard), ("QC1", b""))


MALFORMED = (
    "m m1 m,4 mzz,4 m-1,4 m10074,4,4 M0 M0,4:00 M20000,1:zz X0,2:a P P001 P021=00000000 Pff=00000000 P001=000000 P020=00000000 P0=01000000 "
    "p p99 p1,2 G G12 Z0 Z0,zz,4 Z0,11,4 Z2,0 Z2,10074,4 z0 vCont;x vCont;s:77 vCont;r1:1 vCont;r5:1 vCont;:1 Hgzz Hg77 Hg1,2 T T99 T99,2 "
    "Tx qRcmd,zz qRcmd,f "
    "QNonStop:2 vStopped qXfer:features:read:target.xml:0 qXfer:threads:read::zz,1 qThreadExtraInfo,9"
).split()
UNKNOWN = (
    "QNonStop Z1,10074,4 Z3,0,4 Z4,0,4 Zff,0,4 vRun vFile:open qXfer:libraries:read::0,1 ! R qTStatus qCRC:0,4 QPassSignals:e i b \x7f \x80"
).split()


def check_packets(rig, name):
    """Malformed packets have an error, unknown ones the empty answer, and the session goes on; memory is read up to where it ends."""
    with Remote(rig, "--harts", "2", "fault-gcc-O0").open() as remote:
        remote.ask("?")
        rig.row(name + ": malformed", [it for it in MALFORMED if not remote.ask(it).startswith("E")], [])
        rig.row(name + ": unknown", [it for it in UNKNOWN if remote.ask(it) != ""], [])
        remote.write(framed("m" + "0" * 70000 + ",4"))
        rig.row(name + ": a long one", remote.answer()[:1] in ("E", "0"), True)
        rig.row(name + ": threads", (remote.ask("qfThreadInfo"), remote.ask("qsThreadInfo")), ("m1,2", "l"))
        whole, at = "", 0
        while whole[:1] != "l":
            whole = remote.ask("qXfer:features:read:target.xml:%x,40" % at)
            at += len(whole) - 1
        rig.row(name + ": the description in parts", whole.endswith("</target>"), True)
        rig.row(name + ": to the end of a stack", (len(remote.ask("meffffff0,40")), remote.ask("mf0000000,4")), (32, "E14"))
        found = [remote.ask(it) for it in ("Mefffff00,4:01020304", "Xefffff02,2:}\3}]", "mefffff00,4", "M10074,4:00000000", "X0,0:")]
        rig.row(name + ": writes", found, ["OK", "OK", "0102237d", "E.Cannot write memory at address 0x00010074", "OK"])
        whole = remote.ask("g")
        written = whole[:248] + "0a0b0c0d" + whole[256:]
        rig.row(name + ": registers", (remote.ask("G" + written), remote.ask("g"), remote.ask("p1f")), ("OK", written, "0a0b0c0d"))
        rig.row(name + ": forms", remote.faults, [])


def check_pending(rig, name):
    """Two threads stop at once: the second stop is told when its thread is to go on, but not for a breakpoint that is gone."""
    both = peer(rig, "both")
    for last, wanted in ((["Z0,10074,4"], "T05thread:2;swbreak:"), ([], "T05thread:1;swbreak:")):
        with Remote(rig, "--harts=2", "fault-gcc-O0", debugger=both).open() as remote:
            found = [remote.ask(it)[:20] for it in ["?", "Z0,10074,4", "vCont;c", "z0,10074,4", "vCont;s:1", *last, "vCont;c"]]
            rig.row("%s: %s" % (name, wanted), (found[2], found[4], found[-1]), ("T05thread:1;swbreak:", "T05thread:1;20:01000", wanted))
    with Remote(rig, "--harts=2", "fault-gcc-O0", debugger=both).open() as remote:
        found = [remote.ask(it)[:14] for it in ("qSupported:no-resumed+", "Z0,10074,4", "vCont;c")]
        rig.row(name + ": a client without `swbreak`", found[1:], ["OK", "T05thread:1;20"])
    with Remote(rig, "--harts=2", "fault-gcc-O0", debugger=both).open() as remote:
        remote.ask("QNonStop:1")
        rig.row(name + ": one at first", (remote.ask("?")[:13], remote.ask("vStopped")), ("T00thread:1;2", "OK"))
        rig.row(name + ": the other later", [it[:11] for it in remote.notified()], ["T00thread:2"])
        remote.ask("Z0,10074,4")
        remote.ask("vCont;c")
        rig.row(name + ": each one", [it[:20] for it in remote.notified()], ["T05thread:1;swbreak:", "T05thread:2;swbreak:"])
        remote.ask("vCont;c")
        first = remote.packet()
        found = [remote.ask(it)[:11] for it in ("vCont;c", "z0,10074,4", "vCont;t:2", "vStopped", "vStopped")]
        rig.row(name + ": one that was to stop", (first[1][:25], found), ("Stop:T05thread:1;swbreak:", ["OK", "OK", "OK", "T00thread:2", "OK"]))


def check_ends(rig, name):
    """The exit code, Ctrl-C, the budget, what isn't built or not accepted, a log, and a client that goes."""
    with Remote(rig, "alone-gcc-O0").open() as remote:
        rig.row(name + ": a code", (remote.ask("vCont;c"), remote.ask("qfThreadInfo"), remote.ask("?")), ("W69", "l", "W69"))
    with Remote(rig, "--harts", "2", "alone-gcc-O0").open() as remote:
        for asked in ("QNonStop:1", "QThreadEvents:1", "?", "vStopped"):
            remote.ask(asked)
        found = remote.notified()[1:]
        remote.ask("vCont;c")
        while not found or found[-1][:1] != "W":
            found += [it for it in remote.notified() if it[:1] != "T"]
        rig.row(name + ": of each thread", sorted(it.split(";")[-1] for it in found[:2]), ["1", "2"])
    rig.put("gdb-loop", plain(LOOP))
    loop = os.path.join(rig.folder, "gdb-loop")
    with Remote(rig, loop).open() as remote:
        remote.write(framed("vCont;c") + b"\x03")
        rig.row(name + ": Ctrl-C", remote.answer()[:11], "T02thread:1")
        children = children_of(remote.process.pid)
        remote.process.stdin.close()
        rig.row(name + ": a client that goes", (remote.process.wait(PATIENCE), any_lives(children)), (0, False))
    with Remote(rig, "--budget", "1000", loop).open() as remote:
        rig.row(name + ": the budget", (remote.ask("vCont;c"), b"--budget sets it" in remote.console), ("X09", True))
    with Remote(rig, loop, debugger=peer(rig, "cut")).open() as remote:
        remote.ask("QNonStop:1")
        remote.ask("vCont;c:1")
        said = b"rvdbg: the budget of instructions is used up: --budget sets it\n"
        rig.row(name + ": in non-stop mode", (remote.notified(), remote.process.stderr.readline()), (["X09"], said))
    for words, debugger, text in (
        (["/nowhere"], None, b"there is no file"),
        ([sys.executable], None, b"Not an accepted ELF file"),
        ([loop], peer(rig, "unbuilt"), b"rt isn't found"),
        ([loop], peer(rig, "building"), b"builds it, which takes"),
        ([loop], "/nowhere", b"doesn't start"),
        (["--log", "/nowhere/log", loop], None, b"can't be written"),
        (["--log", loop, loop], None, b"the log can't be the program itself"),
        (["--hearts", "2", loop], None, b"usage"),
    ):
        with Remote(rig, *words, debugger=debugger) as remote:
            rig.row("%s: %s" % (name, text.decode()), (text in remote.process.stderr.read(), remote.process.wait(PATIENCE) > 0), (True, True))


def children_of(pid):
    """The processes that one has started."""
    with open("/proc/%d/task/%d/children" % (pid, pid), encoding="ascii") as file:
        return file.read().split()


def any_lives(pids):
    """Whether one of these still runs, a while later."""
    ends = time.monotonic() + 5.0
    while any(os.path.exists("/proc/%s" % it) for it in pids) and time.monotonic() < ends:
        time.sleep(0.02)
    return any(os.path.exists("/proc/%s" % it) for it in pids)


def check_ports(rig, name):
    """Over TCP: two bridges at once, each with one client; a second client is refused, and one that goes ends its bridge."""
    first, second = (Remote(rig, "--port", "0", it).connect().open() for it in ("fault-gcc-O0", "alone-gcc-O0"))
    with first, second:
        port = first.socket.getpeername()[1]
        try:
            socket.create_connection(("127.0.0.1", port)).close()
            rig.row(name + ": a second client", "connected", "refused")
        except ConnectionRefusedError as error:
            rig.row(name + ": a second client", type(error), ConnectionRefusedError)
        rig.row(name + ": two at once", (second.ask("vCont;c"), first.ask("vCont;c")[:11]), ("W69", "T0bthread:1"))
        with socket.socket() as other:
            other.bind(("127.0.0.1", 0))
            other.listen(1)
            with Remote(rig, "--port", str(other.getsockname()[1]), "fault-gcc-O0") as third:
                said = b"rvdbg: port %d: Address already in use\n" % other.getsockname()[1]
                rig.row(name + ": a port that is taken", third.process.stderr.read(), said)
        first.socket.close()
        second.ask("D")
        rig.row(name + ": ends", (first.process.wait(PATIENCE), second.process.wait(PATIENCE)), (0, 0))


def check_logs(rig, name):
    """The session of a client that goes is stored and checked. What its file had before is gone from the start."""
    log = os.path.join(rig.folder, rig.put("gdb.log", b"an earlier session"))
    with Remote(rig, "--log", log, "fault-gcc-O0").open() as remote:
        remote.ask("vCont;c")
        rig.row(name + ": empty until then", os.path.getsize(log), 0)
        remote.process.stdin.close()
        said = remote.process.stderr.read().decode()
        is_accepted = re.fullmatch("rvdbg: %s: check accepted [0-9]+\n" % re.escape(log), said) is not None
        rig.row(name + ": a log", (is_accepted, remote.process.wait(PATIENCE)), (True, 0))


def check_remote(rig):
    """All of them."""
    for check in (check_acknowledgements, check_packets, check_pending, check_ends, check_ports, check_logs):
        rig.guarded(check.__name__, lambda: check(rig, "remote, " + check.__name__[6:]))


def main():
    """Runs them over the program that is named."""
    with tempfile.TemporaryDirectory(prefix="rvdbg-remote-") as folder:
        rig = Rig(os.path.abspath(sys.argv[1]), None, folder)
        check_remote(rig)
    print("outside: %d passed, %d failed" % (rig.passed, rig.failed))
    return 1 if rig.failed else 0


if __name__ == "__main__":
    sys.exit(main())
