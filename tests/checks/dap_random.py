"""The debug adapter over what is no message, over editors that go, and in random conversations."""

import os
import random
import signal
import time

from checks.dap_editor import SOURCE, Editor
from checks.rig import PATIENCE


def check_hostile(rig, name):
    """What is no message is passed over and told; what comes out of order is answered; an editor that goes leaves nothing behind."""
    request = b'{"seq": %d, "type": "request", "command": "threads"}'
    with Editor() as editor:
        editor.asked = {it: "threads" for it in range(1, 9)}
        for text in (
            b"Content-Length: 9\r\n\r\n" + request % 1,
            b"Content-Length: 5000\r\n\r\n" + request % 2,
            b"Content-Length: 4\r\n\r\n{]}}",
            b"Content-Length: 2\r\n\r\n[]Content-Length: -1\r\n\r\nGET / HTTP/1.1\r\n\r\n",
            b"Content-Length: 99999999999999\r\n\r\n" + request % 3,
            b"content-length:%d\r\nContent-Type: x\r\n\r\n%s" % (len(request % 4), request % 4),
            b'Content-Length: 2\r\n\r\n{}Content-Length: 30\r\n\r\n{"type": "request", "seq": "x"}',
            b"Content-Length: %d\n\n%s" % (len(request % 5), request % 5),
            b"Content-Length: 20002\r\n\r\n" + 20000 * b"[" + b"{}",
            b"Content-Length: %d\r\n\r\n%s" % (len(request % 6), request % 6),
        ):
            editor.write(text)
        rig.row(name + ": the messages among it", editor.until(lambda: {2, 4, 5, 6} <= set(editor.answers)), True)
        rig.row(name + ": one that is too long", editor.answers.get(1, {}).get("success"), False)
        editor.seq = 8
        for command in ("stackTrace", "continue", "pause", "configurationDone", "setBreakpoints", "nothing", "__init__", "restart", "terminate", "next"):
            rig.row("%s: %s out of order" % (name, command), isinstance(editor.ask(command, threadId=1), (str, dict, type(None))), True)
        editor.write(b"Content-Length: 10")
        editor.process.stdin.close()
        rig.row(name + ": half a header", editor.process.wait(PATIENCE), 1)
        editor.faults.clear()
    for end in (signal.SIGKILL, signal.SIGTERM, None):
        with Editor() as editor:
            editor.open(rig, os.path.join(rig.folder, "dap-loop"))
            editor.ask("configurationDone")
            child = children(editor.process.pid)
            editor.process.send_signal(end) if end else editor.process.stdin.close()
            editor.process.wait(PATIENCE)
            rig.row("%s: nothing is left, %s" % (name, end), (len(child), any_lives(child)), (2, False))


def children(pid):
    """The processes that one has started."""
    with open("/proc/%d/task/%d/children" % (pid, pid), encoding="ascii") as file:
        return [int(it) for it in file.read().split()]


def any_lives(pids):
    """Whether one of these still runs, a while later."""
    ends = time.monotonic() + 5.0
    while time.monotonic() < ends:
        if not any(os.path.exists("/proc/%d/cmdline" % it) and open("/proc/%d/cmdline" % it, "rb").read() for it in pids):
            return False
        time.sleep(0.02)
    return True


TEXTS = ["$a0", "sum", "1 / 0", "{int} &sum", "sum + number == 3", "ready", "add", "-thread-info", "-break-list", "-nothing", "\n", '"', "x" * 300]
TEXTS += ["-" + "x" * 5000, "\u00e4", "\udce9", "-break-insert lock.c:19", "-break-delete 1 2", "-break-disable 1", "-gdb-set $t0=1", "-break-watch {int} &sum"]


def requests(dice):
    """A random request: mostly as an editor would make it, sometimes not."""
    thread, line, at = dice.randint(1, 3), dice.randint(1, 50), "0x%x" % dice.choice([0x10150, 0x10000, 0x111A0, 0xEFFFFFF0, 0, 0xFFFFFFFF])
    frame, single = thread * 100 + dice.choice([0, 0, 1, 63]), dice.random() < 0.5
    text = dice.choice(TEXTS)
    points = [dict(line=dice.randint(-1, 50), **dice.choice([{}, {"condition": text}, {"hitCondition": "2"}, {"logMessage": "{%s}" % text}])) for _ in range(dice.randint(0, 3))]
    return dice.choice([
        ("setBreakpoints", dict(source={"path": SOURCE}, breakpoints=points)),
        ("setFunctionBreakpoints", dict(breakpoints=[{"name": dice.choice(["add", "release", "x y", "*", ""])}])),
        ("setInstructionBreakpoints", dict(breakpoints=[{"instructionReference": at, "offset": dice.choice([0, 4, -1])}])),
        ("setDataBreakpoints", dict(breakpoints=[{"dataId": dice.choice(["{int} &sum", "{char} &lock", text])}])),
        ("dataBreakpointInfo", dict(name=text)),
        ("threads", {}),
        ("stackTrace", dict(threadId=thread, startFrame=dice.randint(-1, 4), levels=dice.randint(0, 3))),
        ("scopes", dict(frameId=frame)),
        ("variables", dict(variablesReference=dice.choice([1, 10, 25, 43, 9999]) * 10000 + frame)),
        ("setVariable", dict(variablesReference=10000 + frame, name=dice.choice(["t0", "pc", "x"]), value=dice.choice(["1", "-1", "0x", text]))),
        ("evaluate", dict(expression=text, frameId=frame, context=dice.choice(["repl", "watch", "hover"]))),
        ("readMemory", dict(memoryReference=at, count=dice.choice([0, 4, 5000, -1]), offset=dice.choice([0, -8]))),
        ("setExpression", dict(expression=text, value=dice.choice(["1", "$a0", text]), frameId=frame)),
        ("disassemble", dict(memoryReference=at, offset=dice.choice([0, 2]), instructionOffset=dice.randint(-9, 9), instructionCount=dice.choice([0, 7, -1, 1 << 20]))),
        ("exceptionInfo", dict(threadId=thread)),
        ("evaluate", dict(expression=text, context="repl")),
        ("writeMemory", dict(memoryReference=at, data=dice.choice(["AAAA", "", "?"]))),
        ("continue", dict(threadId=thread, singleThread=single)),
        (dice.choice(["next", "stepIn", "stepOut"]), dict(threadId=thread, singleThread=single, granularity=dice.choice(["line", "instruction"]))),
        ("pause", dict(threadId=dice.randint(0, 3))),
        (dice.choice(["configurationDone", "restart", "terminate", "launch", "nothing", "source", "initialize"]), {}),
        (dice.choice(["setBreakpoints", "stackTrace", "variables", "evaluate", "launch", "restart"]), {dice.choice(["threadId", "source", "arguments"]): dice.choice([None, [], {}, "x", 1])}),
    ])


def check_random(rig, name, seed):
    """A random conversation: each request is answered in its time, by messages that have their forms, and the end comes."""
    dice, slowest = random.Random(seed), 0.0
    with Editor() as editor:
        more = dict(slots=dice.choice([0, 1, 16]), budget=dice.choice([500, 10**12]), stopOnEntry=dice.random() < 0.5)
        more.update(singleThread=dice.choice(["never", "step", "always"]), harts=2, log=os.path.join(rig.folder, "random.log") if dice.random() < 0.2 else None)
        editor.open(rig, "examples/lock/lock", **more)
        for _ in range(40):
            command, arguments = requests(dice)
            begun, number = time.monotonic(), editor.send(command, **arguments)
            if dice.random() < 0.7:
                if not editor.until(lambda: number in editor.answers):
                    raise OSError("no answer to %s %s" % (command, arguments))
                slowest = max(slowest, time.monotonic() - begun)
        editor.ask("disconnect")
        found = (editor.process.wait(PATIENCE), sorted(set(editor.asked) - set(editor.answers)), editor.faults[:2], editor.process.stderr.read().decode())
        rig.row("%s of %d" % (name, seed), found, (0, [], [], ""))
    return slowest
