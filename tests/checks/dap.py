"""The debug adapter, `editors/rvdbg-dap`: an editor that checks the form of each message talks with it.

Conversations are over `examples/lock` and small programs. In some of them a script stands in the debugger's place (PEER). Alone,
`tests/checks/dap.py PROGRAM` does the same, and with `all` behind it 200 random conversations and 2,000 steps.
"""

import base64
import os
import re
import subprocess
import sys
import tempfile

if __name__ == "__main__":
    sys.dont_write_bytecode = True
    sys.path.insert(0, os.path.dirname(os.path.dirname(os.path.realpath(__file__))))

from checks.dap_bugs import BUG_CHECKS, check_growth  # noqa: E402
from checks.dap_editor import SOURCE, TOP, Editor, lines, top  # noqa: E402
from checks.dap_peers import check_deaf, check_delays, check_peers, check_rates  # noqa: E402
from checks.dap_program import PROGRAM_CHECKS  # noqa: E402
from checks.dap_random import check_hostile, check_random  # noqa: E402
from checks.dap_values import VALUE_CHECKS  # noqa: E402
from checks.programs import EXIT, LOOP, counting, plain  # noqa: E402
from checks.rig import PATIENCE, Rig  # noqa: E402

# exit_group with code 3; a write of "hi\n" again and again, as in `pipes.py`.
EXIT_3 = [0x05E00893, 0x00300513, 0x00000073]
WRITER = [0x04000893, 0x00100513, 0x000205B7, 0x00300613, 0x00000073, 0xFF1FF06F]


def check_two_threads(rig, name):
    """Both threads stop at a line; one takes steps while the other stands, and while it runs; then the end."""
    with Editor() as editor:
        rig.row(name + ": opened", editor.open(rig, "examples/lock/lock", harts=2), True)
        (point,) = editor.ask("setBreakpoints", **lines(18))["breakpoints"]
        rig.row(name + ": a breakpoint", (point["verified"], point["line"], point["instructionReference"]), (True, 18, "0x00010150"))
        editor.ask("configurationDone")
        for thread in (1, 2):
            stop = editor.event("stopped", threadId=thread)
            focus = {} if thread == 1 else {"preserveFocusHint": True}
            rig.row(name + ": stop", stop, dict({"reason": "breakpoint", "threadId": thread, "hitBreakpointIds": [point["id"]]}, **focus))
        rig.row(name + ": threads", editor.ask("threads")["threads"], [{"id": 1, "name": "hart 0"}, {"id": 2, "name": "hart 1"}])
        paged = editor.ask("stackTrace", threadId=2, startFrame=1, levels=1)
        rig.row(name + ": frames", (top(editor, 1), paged["stackFrames"][0]["name"], paged["totalFrames"]), (("add", 18, True), "main", 3))
        start = editor.ask("stackTrace", threadId=2)["stackFrames"][2]
        rig.row(name + ": a file below the clone", start["source"]["path"], os.path.join(TOP, "examples", "euclid", "start.s"))
        editor.ask("next", threadId=1, singleThread=True)
        editor.event("stopped", threadId=1, reason="step")
        rig.row(name + ": a step by itself", (top(editor, 1), top(editor, 2)), (("add", 19, True), ("add", 18, True)))
        editor.ask("setBreakpoints", **lines())
        editor.ask("next", threadId=1)
        rig.row(name + ": the other goes on", editor.event("continued", threadId=2) is not None, True)
        editor.event("stopped", threadId=1, reason="step")
        rig.row(name + ": the other runs", editor.ask("stackTrace", threadId=2), "Thread 2 is running")
        before = editor.ask("stackTrace", threadId=1)["stackFrames"][0]["instructionPointerReference"]
        editor.ask("stepIn", threadId=1, granularity="instruction", singleThread=True)
        editor.event("stopped", threadId=1, reason="step")
        after = editor.ask("stackTrace", threadId=1)["stackFrames"][0]["instructionPointerReference"]
        rig.row(name + ": an instruction", before != after, True)
        rig.row(name + ": continue", editor.ask("continue", threadId=1), {"allThreadsContinued": True})
        rig.row(name + ": the code", editor.event("exited"), {"exitCode": 0})
        rig.row(name + ": terminated", (editor.event("terminated"), editor.printed("stdout")), ({}, "30\n"))
        editor.end(rig, name)


def check_breakpoints(rig, name):
    """Conditions, counts, log points, functions, instructions and watches."""
    with Editor() as editor:
        editor.open(rig, "examples/lock/lock", harts=2, stopOnEntry=True)
        editor.ask("configurationDone")
        rig.row(name + ": entry", [editor.event("stopped", reason="entry", threadId=it) is not None for it in (1, 2)], [True, True])
        told = editor.ask("setBreakpoints", source={"path": SOURCE}, breakpoints=[{"line": 18, "condition": "$a0 =="}, {"line": 18, "hitCondition": "x"}])
        rig.row(name + ": refused", [it["message"] for it in told["breakpoints"]], ["Syntax error in expression at 6", "a hit condition is N, >= N, > N or == N, not x"])
        editor.ask("setBreakpoints", **lines(18, condition="$a0 == 2", hitCondition="== 3"))
        editor.ask("continue", threadId=1)
        rig.row(name + ": count and condition", editor.event("breakpoint", reason="changed")["breakpoint"]["message"], "it has made its one stop")
        stop = editor.event("stopped")
        editor.ask("setBreakpoints", **lines(19, logMessage="thread {$a0} of {{int} &ready} {1 / 0}"))
        editor.ask("setFunctionBreakpoints", breakpoints=[{"name": "write_number"}, {"name": "nothing"}])
        editor.ask("continue", threadId=stop["threadId"])
        stop = editor.event("stopped", reason="function breakpoint")
        said = re.search(r"^thread [12] of [01] <Division by zero>$", editor.printed("console"), re.M)
        rig.row(name + ": log points", (said is not None, stop is not None), (True, True))
        at = editor.ask("stackTrace", threadId=stop["threadId"])["stackFrames"][0]["instructionPointerReference"]
        there = editor.ask("setInstructionBreakpoints", breakpoints=[{"instructionReference": at, "offset": 4}, {"instructionReference": at, "offset": 1}])
        rig.row(name + ": instructions", [it["verified"] for it in there["breakpoints"]], [True, False])
        editor.ask("continue", threadId=stop["threadId"])
        rig.row(name + ": at an instruction", editor.event("stopped", reason="instruction breakpoint") is not None, True)
        editor.end(rig, name)


def check_log_points(rig, name):
    """A log point in a loop lets its thread go on, also where it is taken away; a pause and a step end there."""
    with Editor() as editor:
        editor.open(rig, os.path.join(rig.folder, "dap-counting"))
        source = {"path": "/nowhere/count.c"}
        count = {"line": 12, "logMessage": "at {count}"}
        editor.ask("configurationDone")
        editor.ask("setBreakpoints", source=source, breakpoints=[count])
        rig.row(name + ": it logs", editor.until(lambda: editor.printed("console").count("at ") > 3), True)
        rig.row(name + ": a running thread takes no step", editor.ask("next", threadId=1), "Thread 1 is running")
        editor.ask("pause", threadId=1)
        rig.row(name + ": a pause ends there", editor.event("stopped")["reason"], "pause")
        for _ in range(3):
            editor.ask("next", threadId=1)
            rig.row(name + ": a step ends there", editor.event("stopped")["reason"], "step")
        editor.ask("continue", threadId=1)
        editor.events.clear()
        for _ in range(5):
            editor.ask("setBreakpoints", source=source, breakpoints=[count])
            editor.until(lambda: editor.printed("console").count("at ") > 3)
            editor.ask("setBreakpoints", source=source, breakpoints=[])
            rig.row(name + ": no stop behind it", editor.event("stopped", 0.1), None)
            editor.events.clear()
        rig.row(name + ": it runs", editor.ask("stackTrace", threadId=1), "Thread 1 is running")
        editor.end(rig, name)


def check_watch(rig, name):
    """A watch stops the thread that writes."""
    with Editor() as editor:
        editor.open(rig, "examples/lock/lock", harts=2)
        rig.row(name + ": of a register", editor.ask("dataBreakpointInfo", name="a0", variablesReference=10100)["dataId"], None)
        found = editor.ask("dataBreakpointInfo", name="sum")
        rig.row(name + ": by a symbol", found["dataId"], "{int} &sum")
        points = editor.ask("setDataBreakpoints", breakpoints=[{"dataId": found["dataId"]}, {"dataId": "$a0"}, {"dataId": "{int} &sum", "accessType": "read"}])
        rig.row(name + ": set", [it["verified"] for it in points["breakpoints"]], [True, False, False])
        editor.ask("configurationDone")
        stop = editor.event("stopped", reason="data breakpoint")
        rig.row(name + ": a stop", (stop["text"], stop["hitBreakpointIds"]), ("{int} &sum was 0, is %d" % stop["threadId"], [points["breakpoints"][0]["id"]]))
        editor.end(rig, name)


def check_data(rig, name):
    """Registers with their radixes, expressions, lines of MI, and memory."""
    with Editor() as editor:
        editor.open(rig, "examples/lock/lock", harts=2)
        editor.ask("setFunctionBreakpoints", breakpoints=[{"name": "add"}])
        editor.ask("configurationDone")
        editor.event("stopped", threadId=2)
        frame = editor.ask("stackTrace", threadId=2)["stackFrames"][0]["id"]
        scopes = {it["name"]: it for it in editor.ask("scopes", frameId=frame)["scopes"]}
        scope = scopes["Registers"]
        registers = {it["name"]: it for it in editor.ask("variables", variablesReference=scope["variablesReference"])["variables"]}
        rig.row(name + ": registers", (len(registers), registers["a0"]["value"], registers["pc"]["value"]), (33, "0x00000002", "0x00010150"))
        set_ = editor.ask("setVariable", variablesReference=scope["variablesReference"], name="t0", value="-2")
        radixes = editor.ask("variables", variablesReference=set_["variablesReference"])["variables"]
        wanted = ["-2", "4294967294", "037777777776", "0b" + 31 * "1" + "0"]
        rig.row(name + ": radixes", [it["value"] for it in radixes], wanted)
        rig.row(name + ": pc stays", editor.ask("setVariable", variablesReference=scope["variablesReference"], name="pc", value="4"), "Cannot write register pc")
        asked = [("$t0 + 1", "watch"), ("sum", "hover"), ("nothing", "hover"), ("-1 +", "repl"), ("-thread-list-ids", "repl"), ("-exec-wait", "repl")]
        found = [editor.ask("evaluate", expression=text, frameId=frame, context=context) for text, context in asked]
        rig.row(name + ": values", (found[0]["result"], re.sub("[0-9a-f]+", "N", found[1]["result"])), ("-1 (0xffffffff)", "N (NxN)"))
        rig.row(name + ": no values", found[2:4], ["there is no variable and no symbol `nothing` here", "Syntax error in expression at 4"])
        rig.row(name + ": a line", found[4]["result"], '^done,thread-ids={thread-id="1",thread-id="2"},current-thread-id="2",number-of-threads="2"')
        rig.row(name + ": no line that waits", found[5].startswith("a line of MI is one line"), True)
        address = editor.ask("evaluate", expression="&sum", frameId=frame)["memoryReference"]
        rig.row(name + ": written", editor.ask("writeMemory", memoryReference=address, data=base64.b64encode(b"\1\2\3\4").decode()), {"bytesWritten": 4})
        rig.row(name + ": read", base64.b64decode(editor.ask("readMemory", memoryReference=address, count=4)["data"]), b"\1\2\3\4")
        edge = editor.ask("readMemory", memoryReference="0xEFFFFFF0", count=64)
        rig.row(name + ": to the end of a stack", (len(base64.b64decode(edge["data"])), edge["unreadableBytes"]), (16, 48))
        rig.row(name + ": nothing there", editor.ask("readMemory", memoryReference="0", count=8)["unreadableBytes"], 8)
        text = editor.ask("writeMemory", memoryReference="0x00010150", data="AAAA")
        rig.row(name + ": text stays", text, "Cannot write memory at address 0x00010150")
        editor.end(rig, name)


def check_pause(rig, name):
    """A loop is asked while it runs, and is paused; one that writes without end too."""
    for program in ("dap-loop", "dap-writer"):
        with Editor() as editor:
            editor.open(rig, os.path.join(rig.folder, program))
            editor.ask("configurationDone")
            rig.row(name + ": a running thread", editor.ask("stackTrace", threadId=1), "Thread 1 is running")
            editor.ask("pause", threadId=1)
            rig.row(name + ": paused", editor.event("stopped", reason="pause")["threadId"], 1)
            rig.row(name + ": twice", editor.ask("pause", threadId=1), "Thread 1 is not running")
            editor.end(rig, "%s of %s" % (name, program))


def check_restart(rig, name):
    """A session begins anew with its breakpoints; and one is ended."""
    with Editor() as editor:
        editor.open(rig, "examples/lock/lock")
        (point,) = editor.ask("setBreakpoints", **lines(18))["breakpoints"]
        editor.ask("configurationDone")
        for _ in range(3):
            rig.row(name + ": stop", editor.event("stopped")["hitBreakpointIds"], [point["id"]])
            editor.ask("restart")
            changed = editor.event("breakpoint", reason="changed")["breakpoint"]
            rig.row(name + ": the same breakpoint", (changed["id"], changed["verified"]), (point["id"], True))
        editor.event("stopped")
        editor.ask("terminate")
        rig.row(name + ": terminated", editor.event("terminated"), {})
        rig.row(name + ": over", editor.ask("evaluate", expression="1"), "no thread stands")
        editor.end(rig, name)


def check_ends(rig, name):
    """An exit code, the budget, and what is refused."""
    with Editor() as editor:
        editor.open(rig, os.path.join(rig.folder, "dap-exit"))
        editor.ask("configurationDone")
        rig.row(name + ": code", (editor.event("exited"), editor.event("terminated")), ({"exitCode": 3}, {}))
        rig.row(name + ": a file without lines", "has no table of lines" in editor.printed("console"), True)
        editor.end(rig, name)
    with Editor() as editor:
        editor.open(rig, "tests/programs/euclid-dwarf-5")
        rig.row(name + ": variables of DWARF 5", "in the form of DWARF 5" in editor.printed("console"), True)
        editor.end(rig, name + " by the editor")
    with Editor() as editor:
        editor.open(rig, os.path.join(rig.folder, "dap-loop"), budget=1000)
        editor.ask("configurationDone")
        rig.row(name + ": budget", (editor.event("terminated"), "budget" in editor.printed("stderr")), ({}, True))
        editor.end(rig, name + " by the budget")
    refused = [
        (dict(program=os.path.join(rig.folder, "dap-compressed"), rvdbg=None), "compressed instructions"),
        (dict(program=sys.executable), "Not an accepted ELF file"),
        (dict(program="/nowhere"), "there is no file"),
        (dict(program=SOURCE, rvdbg=None), "it is no ELF file"),
        (dict(program="examples/lock/lock", harts=17), "harts is a number from 1 to 16"),
        (dict(program="examples/lock/lock", slots="1.5"), "slots is a number from 0 to 512"),
        (dict(program="examples/lock/lock", rvdbg="/nowhere"), "doesn't start"),
        (dict(program="examples/lock/lock", rvdbg="/bin/false"), "status 1"),
        (dict(program="examples/lock/lock", singleThread="often"), "singleThread is one of never, step, always"),
        (dict(), "the launch argument `program` is missing"),
    ]
    with Editor() as editor:
        editor.ask("initialize")
        for words, text in refused:
            answer = editor.ask("launch", **dict(dict(rvdbg=rig.program), **words))
            rig.row("%s: %s" % (name, text), text in answer, True)
        editor.end(rig, name + " by refusals")


def check_front_end(rig, name):
    """The short front end in MI says it where fewer stops come than it wants."""
    words = [sys.executable, "examples/front-end/front_end.py", rig.program, "--harts", "1", "examples/lock/lock"]
    ran = subprocess.run(words, cwd=TOP, stdout=subprocess.PIPE, stderr=subprocess.PIPE, timeout=PATIENCE)
    said = b"front end: only 3 of 6 stops came, and no thread runs any more\n"
    rig.row(name + ": fewer threads", (ran.returncode, ran.stdout, ran.stderr), (1, b"", said))


def check_conversations(rig):
    """The conversations with a program, and those with peers."""
    own = [check_two_threads, check_breakpoints, check_log_points, check_watch, check_data, check_pause, check_restart, check_ends]
    for check in [*own, check_peers, check_hostile, check_front_end, *VALUE_CHECKS, *BUG_CHECKS, *PROGRAM_CHECKS]:
        rig.guarded(check.__name__, lambda: check(rig, "adapter, " + check.__name__[6:].replace("_", " ")))


def check_adapter(rig, conversations=8, steps=0):
    """All of them. Times are looked at where steps are asked for: a gate on a busy machine doesn't fail by them."""
    rig.put("dap-loop", plain(LOOP))
    rig.put("dap-counting", counting(0xFFFFFFFF))
    rig.put("dap-exit", plain(EXIT_3))
    rig.put("dap-writer", plain(WRITER, b"hi\n"))
    compressed = bytearray(plain(EXIT))
    compressed[36] = 1
    rig.put("dap-compressed", bytes(compressed))
    rig.guarded("deaf", lambda: check_deaf(rig, "adapter, a deaf debugger", lambda: check_conversations(rig)))
    if steps:
        rig.guarded("delays", lambda: check_delays(rig, "adapter, delays", steps))
        rig.guarded("rates", lambda: check_rates(rig, "adapter, rates"))
        rig.guarded("growth", lambda: check_growth(rig, "adapter, growth"))
    slowest = []
    for seed in range(conversations):
        rig.guarded("random %d" % seed, lambda: slowest.append(check_random(rig, "adapter, random conversation", seed)))
    print("outside: of %d random conversations the slowest answer took %.0f ms" % (conversations, 1e3 * max(slowest, default=0.0)))


def main():
    """Runs them over the program that is named."""
    with tempfile.TemporaryDirectory(prefix="rvdbg-dap-") as folder:
        rig = Rig(os.path.abspath(sys.argv[1]), None, folder)
        check_adapter(rig, *([200, 2000] if sys.argv[2:] == ["all"] else []))
    print("outside: %d passed, %d failed" % (rig.passed, rig.failed))
    return 1 if rig.failed else 0


if __name__ == "__main__":
    sys.exit(main())
