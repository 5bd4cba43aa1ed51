"""The debug adapter where it once was wrong: the console, restarts, killed builds, names of files. Each check has the steps of one fault."""

import base64
import os
import shutil
import signal
import time

from checks.dap_editor import PROGRAMS, VALUES, Editor
from checks.dap_random import any_lives, children
from checks.rig import PATIENCE

VALUES_4 = os.path.join(PROGRAMS, "values-4")


def check_console_breakpoints(rig, name):
    """What lines of MI do to breakpoints is told, and what they took away is set anew."""
    with Editor() as editor:
        (frame, *_) = editor.come_to(rig, VALUES_4, {"line": 48})
        rows = [{"line": 48}, {"line": 50}]
        first, second = editor.ask("setBreakpoints", source={"path": VALUES}, breakpoints=rows)["breakpoints"]
        editor.value("-break-delete 2", frame, "repl")
        gone = editor.event("breakpoint", reason="removed")["breakpoint"]["id"]
        told = editor.ask("setBreakpoints", source={"path": VALUES}, breakpoints=rows)["breakpoints"]
        rig.row(name + ": one that is deleted", (gone, told[0], told[1]["verified"], told[1]["id"] != gone), (second["id"], first, True, True))
        rig.row(name + ": is there again", 'nr_rows="2"' in editor.value("-break-list", frame, "repl"), True)
        editor.value("-break-disable 1", frame, "repl")
        off = editor.event("breakpoint", reason="changed")["breakpoint"]
        rig.row(name + ": one that is off", (off["id"], off["verified"], off["message"]), (first["id"], False, "off by the console"))
        editor.value("-break-enable 1", frame, "repl")
        rig.row(name + ": and on", editor.event("breakpoint", reason="changed")["breakpoint"]["verified"], True)
        editor.value("-break-insert values.c:29", frame, "repl")
        new = editor.event("breakpoint", reason="new")["breakpoint"]
        rig.row(name + ": a new one", (new["line"], new["source"]["path"], new["verified"]), (29, VALUES, True))
        told = editor.ask("setBreakpoints", source={"path": VALUES}, breakpoints=[*rows, {"line": 29}])["breakpoints"]
        rig.row(name + ": which the editor takes over", (told[2]["id"], 'nr_rows="3"' in editor.value("-break-list", frame, "repl")), (new["id"], True))
        editor.value("-break-watch {int} &turns", frame, "repl")
        watch = editor.event("breakpoint", reason="new")["breakpoint"]["id"]
        told = editor.ask("setBreakpoints", source={"path": VALUES}, lines=[48, 29])["breakpoints"]
        rig.row(name + ": by their lines alone", [(it["id"], it["line"]) for it in told], [(first["id"], 48), (new["id"], 29)])
        editor.ask("setBreakpoints", source={"path": VALUES}, breakpoints=[])
        editor.ask("continue", threadId=1)
        rig.row(name + ": its watch stops", editor.event("stopped", reason="data breakpoint")["hitBreakpointIds"], [watch])
        editor.end(rig, name)


def check_console_values(rig, name):
    """What lines of MI write is told, so that views and memory are read again."""
    with Editor() as editor:
        (frame, *_) = editor.come_to(rig, VALUES_4, {"line": 48})
        editor.value("-gdb-set $t0=7", frame, "repl")
        rig.row(name + ": a register", editor.event("invalidated"), {"areas": ["variables"]})
        at = editor.value("&turns", frame).split("(")[1][:10]
        editor.value("-data-write-memory-bytes %s 01020304" % at, frame, "repl")
        rig.row(name + ": memory", editor.event("memory"), {"memoryReference": at, "offset": 0, "count": 4})
        rig.row(name + ": of which views are made", editor.event("invalidated"), {"areas": ["variables"]})
        editor.value("-data-write-memory-bytes 0 01", frame, "repl")
        rig.row(name + ": nothing was written", editor.event("memory", 0.1), None)
        editor.end(rig, name)


def check_restart_refused(rig, name):
    """A restart that can't begin leaves the session as it is."""
    with Editor() as editor:
        (frame, *_) = editor.come_to(rig, VALUES_4, {"line": 48})
        told = editor.ask("restart", arguments={"program": "/nonexistent", "rvdbg": rig.program})
        rig.row(name + ": why", told, "there is no file /nonexistent")
        rig.row(name + ": it lives", (editor.ask("threads")["threads"], editor.value("$zero", frame)), ([{"id": 1, "name": "hart 0"}], "0 (0x00000000)"))
        told = editor.ask("restart", arguments={"program": VALUES_4, "rvdbg": "/nonexistent"})
        rig.row(name + ": no debugger", (told, editor.value("$zero", frame)), ("/nonexistent doesn't start: it isn't there, or no program", "0 (0x00000000)"))
        rig.row(name + ": one that begins", editor.ask("restart"), None)
        rig.row(name + ": stops again", editor.event("stopped", reason="breakpoint") is not None, True)
        editor.end(rig, name)


def check_register_names(rig, name):
    """A register is set by either of its names, before registers were listed."""
    with Editor() as editor:
        (frame, *_) = editor.come_to(rig, VALUES_4, {"line": 48})
        before = editor.value("$fp", frame)
        for text, value in (("s0", "0x10"), ("fp", "0x20"), ("x8", "0x30")):
            told = editor.ask("setVariable", variablesReference=10000 + frame, name=text, value=value)
            rig.row("%s: %s" % (name, text), (told["value"], editor.value("$fp", frame)), ("0x000000%s" % value[2:], "%d (0x000000%s)" % (int(value, 0), value[2:])))
        told = editor.ask("setVariable", variablesReference=10000 + frame, name="t0=1\n-gdb-exit\n", value="1")
        rig.row(name + ": no line behind it", (told, editor.value("$t0", frame)), ("t0=1\n-gdb-exit\n is no register", "0 (0x00000000)"))
        rig.row(name + ": another", editor.ask("setVariable", variablesReference=10000 + frame, name="f0", value="1"), "Unsupported setting")
        told = editor.ask("setExpression", expression="$s0", value=before.split()[0], frameId=frame)
        rig.row(name + ": as an expression", told["value"] in before, True)
        rig.row(name + ": a global", editor.ask("setExpression", expression="level", value="-7", frameId=frame), {"value": "-7 (0xfffffff9)"})
        rig.row(name + ": by its type", editor.ask("setExpression", expression="{short} &level", value="-9", frameId=frame), {"value": "-9 (0xfffffff7)"})
        rig.row(name + ": what has none", editor.ask("setExpression", expression="1 + 2", value="1", frameId=frame)[:19], "only {type} and an ")
        editor.end(rig, name)


def check_killed(rig, name):
    """An adapter that is killed while the debugger is built takes with it what the build has started."""
    with Editor() as editor:
        pids = os.path.join(rig.folder, "killed-pids")
        script = rig.put("killed-build", b"#!/bin/sh\necho rvdbg: proving and building >&2\nsleep 600 &\necho $! >%s\nwait\n" % pids.encode())
        os.chmod(os.path.join(rig.folder, script), 0o755)
        editor.ask("initialize")
        editor.send("launch", program="examples/lock/lock", rvdbg=os.path.join(rig.folder, script))
        rig.row(name + ": it builds", editor.until(lambda: os.path.exists(pids) and os.path.getsize(pids) > 1, 5.0) or os.path.getsize(pids) > 1, True)
        with open(pids, encoding="ascii") as file:
            found = children(editor.process.pid) + [int(file.read())]
        editor.process.send_signal(signal.SIGKILL)
        editor.process.wait(PATIENCE)
        rig.row(name + ": nothing is left", (len(found), any_lives(found)), (3, False))


def check_odd_names(rig, name):
    """A file whose name isn't UTF-8 is told by a name that is, with its text, and breakpoints are set in it."""
    folder = os.path.join(rig.folder, "odd-names")
    os.makedirs(folder)
    shutil.copy(VALUES, os.fsencode(folder) + b"/valu\xe9.c")
    with open(VALUES_4, "rb") as file:
        rig.put("odd-names/program", file.read().replace(b"\0values.c\0", b"\0valu\xe9s.c"[:6] + b".c\0\0"))
    with Editor() as editor:
        editor.open(rig, os.path.join(folder, "program"), stopOnEntry=False)
        editor.ask("setFunctionBreakpoints", breakpoints=[{"name": "factorial"}])
        editor.ask("configurationDone")
        editor.event("stopped")
        source = editor.ask("stackTrace", threadId=1)["stackFrames"][0]["source"]
        rig.row(name + ": its name", (source["name"], "path" in source), ("valu\ufffd.c", False))
        text = editor.ask("source", sourceReference=source["sourceReference"])["content"]
        rig.row(name + ": its text", text.startswith("/* What an editor is shown"), True)
        told = editor.ask("setBreakpoints", source=source, breakpoints=[{"line": 18}])["breakpoints"][0]
        rig.row(name + ": a breakpoint in it", (told["verified"], told.get("line")), (True, 18))
        editor.end(rig, name)


def check_folders(rig, name):
    """Of two files of one name each stops in its own."""
    for version in (4, 5):
        with Editor() as editor:
            paths = [os.path.join(PROGRAMS, it, "util.c") for it in "ab"]
            editor.open(rig, os.path.join(PROGRAMS, "folders-%d" % version))
            for path in reversed(paths):
                (told,) = editor.ask("setBreakpoints", source={"path": path}, breakpoints=[{"line": 4}])["breakpoints"]
                rig.row("%s: %s of %d" % (name, path[-8:], version), (told["verified"], told["line"], told["source"]["path"]), (True, 4, path))
            editor.ask("configurationDone")
            for path in paths:
                editor.event("stopped")
                frame = editor.ask("stackTrace", threadId=1)["stackFrames"][0]
                rig.row("%s: a stop in %s" % (name, path[-8:]), (frame["name"], frame["line"], frame["source"]["path"]), ("util_" + path[-8], 4, path))
                editor.ask("continue", threadId=1)
            editor.end(rig, "%s of %d" % (name, version))


def check_small_faults(rig, name):
    """What isn't read is told by its true number, odd messages are no requests, and the end is quiet."""
    with Editor() as editor:
        (frame, *_) = editor.come_to(rig, VALUES_4, {"line": 48})
        read = editor.ask("readMemory", memoryReference="0xEFFF0000", count=2000000)
        rig.row(name + ": unreadable", (len(base64.b64decode(read["data"])), read["unreadableBytes"]), (65536, 2000000 - 65536))
        for body in (b'{"seq": true, "type": "request", "command": "threads"}', b'{"seq": 1.5, "type": "request", "command": "threads"}'):
            editor.write(b"Content-Length: %d\r\n\r\n%s" % (len(body), body))
        editor.asked[77] = "threads"
        body = b'{"seq": 77, "type": "request", "command": "threads", "arguments": [1]}'
        editor.write(b"Content-Length: %d\r\n\r\n%s" % (len(body), body))
        rig.row(name + ": arguments", editor.until(lambda: 77 in editor.answers) and editor.answers[77]["success"], False)
        rig.row(name + ": no requests", editor.printed("console").count("no request"), 2)
        editor.ask("disconnect")
        rig.row(name + ": a quiet end", (editor.event("thread", 0.1, reason="exited"), editor.process.wait(PATIENCE), editor.faults), (None, 0, []))


def check_large_messages(rig, name):
    """A message of 8 MB that comes in small pieces is answered."""
    with Editor() as editor:
        editor.asked[1] = "evaluate"
        body = b'{"seq": 1, "type": "request", "command": "evaluate", "arguments": {"expression": "%s"}}' % (b"}" * (8 << 20))
        editor.write(b"Content-Length: %d\r\n\r\n" % len(body))
        for at in range(0, len(body), 4096):
            editor.write(body[at : at + 4096])
        rig.row(name + ": is answered", editor.until(lambda: 1 in editor.answers), True)
        editor.seq = 1
        editor.end(rig, name)


def check_growth(rig, name):
    """The time for a message grows with its size, and not with its square."""
    from rvdbg_dap.engine import Framing

    def seconds(size):
        begun, framing = time.process_time(), Framing()
        whole = b'Content-Length: %d\r\n\r\n{"a": "%s"}' % (size + 9, b"}" * size)
        found = [it for at in range(0, len(whole), 4096) for it in framing.add(whole[at : at + 4096])]
        rig.row("%s: a message of %d" % (name, size), [it[0] for it in found], ["message"])
        return time.process_time() - begun

    small, large = (min(seconds(it << 20) for _ in range(3)) for it in (1, 8))
    rig.row(name + ": eight times as much takes less than thirty times as long", large < 30 * small, True)


BUG_CHECKS = [
    check_console_breakpoints,
    check_console_values,
    check_restart_refused,
    check_register_names,
    check_killed,
    check_odd_names,
    check_folders,
    check_small_faults,
    check_large_messages,
]
