"""What the debug adapter does beside the debugger: conditions over variables, threads alone, logs, instructions and traps."""

import os
import random
import re
import shutil
import struct
import subprocess

from checks.dap_editor import PROGRAMS, TOP, VALUES, Editor, lines
from checks.rig import PATIENCE

VALUES_4 = os.path.join(PROGRAMS, "values-4")


def stops_of(rig, editor, frame, *expressions):
    """The values of expressions at each stop until the program's end."""
    found = []
    while True:
        found.append([editor.value(it, frame).split()[0] for it in expressions])
        editor.ask("continue", threadId=1)
        editor.until(lambda: any(it[0] in ("stopped", "exited") for it in editor.events))
        if editor.event("stopped", 0.0) is None:
            return found


def check_conditions(rig, name):
    """Conditions over variables: of locals they are judged by the adapter, of globals by the debugger once a thread has been there."""
    for condition, wanted in (
        ("i == 150", [["150", "150"]]),
        ("turns == 7", [["6", "7"]]),
        ("turns > 197 && total == 1000", [["197", "198"], ["198", "199"], ["199", "200"]]),
        ("high == 0x90000000 && turns == 9", [["8", "9"]]),
        ("form == 5 && i == 3", [["3", "4"]]),
    ):
        with Editor() as editor:
            (frame, *_) = editor.come_to(rig, VALUES_4, {"line": 27, "condition": condition})
            wanted = [[it[0], it[1] if "turns" in condition or "form" in condition else "151"] for it in wanted]
            rig.row("%s: %s" % (name, condition), stops_of(rig, editor, frame, "i", "turns"), wanted)
            editor.end(rig, "%s, %s" % (name, condition))
    with Editor() as editor:
        (frame, *_) = editor.come_to(rig, VALUES_4, {"line": 48})
        rows = [{"line": 27, "condition": it} for it in ("i == ", "$i == 1", "&nothing == 1", "turns == 3", "nothing == 1")]
        told = editor.ask("setBreakpoints", source={"path": VALUES}, breakpoints=rows)["breakpoints"]
        wanted = ["Syntax error in expression at 5", "No symbol in expression at 0", "No symbol in expression at 0", None, None]
        rig.row(name + ": refused", [it.get("message") for it in told], wanted)
        editor.ask("continue", threadId=1)
        rig.row(name + ": one without a value stops", editor.event("stopped")["hitBreakpointIds"], [told[4]["id"]])
        rig.row(name + ": and says why", "there is no variable and no symbol `nothing` here" in editor.printed("console"), True)
        editor.ask("setBreakpoints", source={"path": VALUES}, breakpoints=rows[3:4])
        editor.ask("continue", threadId=1)
        editor.event("stopped")
        row = editor.value("-break-list", frame, "repl")
        rig.row(name + ": the debugger judges a global", re.findall(r'cond="([^"]*)"', row), ["({int} &turns) == 3"])
        editor.end(rig, name)


def check_counted_conditions(rig, name):
    """Counts beside a judged condition, log points with one, and one that is taken away while threads come to it."""
    with Editor() as editor:
        (frame, *_) = editor.come_to(rig, VALUES_4, {"line": 27, "condition": "i > 1", "hitCondition": "== 5"})
        rig.row(name + ": the one stop", (editor.value("i", frame), editor.event("breakpoint")["breakpoint"]["message"]), ("4 (0x00000004)", "it has made its one stop"))
        editor.ask("setBreakpoints", source={"path": VALUES}, breakpoints=[{"line": 27, "condition": "i % 50 == 0", "logMessage": "at {i}"}, {"line": 29}])
        editor.ask("continue", threadId=1)
        stop = editor.event("stopped")
        rig.row(name + ": logged", (editor.printed("console").split("\n")[-4:-1], stop is not None), (["at 50", "at 100", "at 150"], True))
        editor.ask("setBreakpoints", source={"path": VALUES}, breakpoints=[{"line": 51, "logMessage": "{form} {big}"}, {"line": 52}])
        editor.ask("continue", threadId=1)
        editor.event("stopped")
        said = [it for it in editor.printed("console").split("\n")[-4:] if "form" in it or it[:2] == "5 "]
        wanted = ["breakpoint 4 has `form` as {int} &form", "5 <`big` has 8 bytes: 1, 2 or 4 can be shown; {int} &big shows four of them>"]
        rig.row(name + ": what names stand for", said, wanted)
        editor.end(rig, name)
    with Editor() as editor:
        source = {"path": "/nowhere/count.c"}
        editor.open(rig, os.path.join(rig.folder, "dap-counting"))
        editor.ask("configurationDone")
        for _ in range(5):
            (told,) = editor.ask("setBreakpoints", source=source, breakpoints=[{"line": 12, "condition": "nothing + count == 0 - 1 && 0"}])["breakpoints"]
            stop = editor.event("stopped")
            rig.row(name + ": no such name", stop["hitBreakpointIds"], [told["id"]])
            editor.ask("setBreakpoints", source=source, breakpoints=[{"line": 12, "condition": "limit == 5"}])
            editor.ask("continue", threadId=1)
            editor.ask("setBreakpoints", source=source, breakpoints=[])
            rig.row(name + ": it runs on", (editor.event("stopped", 0.1), editor.ask("stackTrace", threadId=1)), (None, "Thread 1 is running"))
        editor.end(rig, name + " in a loop")


def check_alone(rig, name):
    """Threads move alone where the launch says so, and the view stays with the thread that was moved."""
    for mode, others in (("never", [False, False]), ("step", [True, False]), ("always", [True, True])):
        with Editor() as editor:
            editor.open(rig, "examples/lock/lock", harts=2, singleThread=mode)
            editor.ask("setBreakpoints", **lines(18))
            editor.ask("configurationDone")
            focus = [editor.event("stopped", threadId=it).get("preserveFocusHint", False) for it in (1, 2)]
            rig.row(name + ": the first has the view", focus, [False, True])
            editor.ask("setBreakpoints", **lines())
            editor.ask("next", threadId=2)
            found = [editor.event("stopped", threadId=2, reason="step") is not None and editor.ask("stackTrace", threadId=1) != "Thread 1 is running"]
            if found[0]:
                found.append(not editor.ask("continue", threadId=2)["allThreadsContinued"])
            rig.row("%s: %s" % (name, mode), found, others if others[0] else others[:1])
            editor.end(rig, "%s, %s" % (name, mode))
    with Editor() as editor:
        editor.open(rig, "examples/lock/lock", harts=2, singleThread="always")
        editor.ask("setBreakpoints", **lines(18))
        editor.ask("configurationDone")
        for thread in (1, 2):
            editor.event("stopped", threadId=thread)
        editor.ask("next", threadId=1, singleThread=False)
        rig.row(name + ": the editor's word counts", editor.event("continued", threadId=2) is not None, True)
        editor.end(rig, name + " as asked")


def check_arguments(rig, name):
    """Arguments of a launch that nobody knows are named."""
    with Editor() as editor:
        rig.row(name + ": opened", editor.open(rig, VALUES_4, hart=2, name="x", type="rvdbg", request="launch", nonsense=1, __id="y"), True)
        said = editor.printed("console").split("\n")[:2]
        rig.row(name + ": unknown", said, ["there is no launch argument `hart`: is `harts` meant?", "there is no launch argument `nonsense`"])
        editor.end(rig, name)


def check_logged(rig, name):
    """A session with a log is checked at its end, however that comes."""
    log, picture = (os.path.join(rig.folder, "dap-session." + it) for it in ("log", "svg"))
    for end in ("disconnect", "terminate", "exit", "budget"):
        with Editor() as editor:
            editor.open(rig, "examples/lock/lock", harts=2, log=log, **({"budget": 300} if end == "budget" else {}))
            editor.ask("setBreakpoints", **lines(18, hitCondition="3"))
            editor.ask("configurationDone")
            if end != "budget":
                editor.event("stopped")
            if end in ("exit", "budget"):
                editor.ask("setBreakpoints", **lines())
                editor.ask("continue", threadId=1)
                rig.row("%s: terminated by %s" % (name, end), editor.event("terminated"), {})
            elif end == "terminate":
                editor.ask("terminate")
            editor.end(rig, "%s by %s" % (name, end))
            said = re.search(r"check accepted \d+; its picture is (\S+)$", editor.printed("console"), re.M)
            with open(log, "rb") as file:
                last = file.read().splitlines()[-1][:5]
            rig.row("%s: accepted by %s" % (name, end), (said is not None and said[1], last), (picture, b"#end "))
        with open(picture, "rb") as file:
            rig.row("%s: drawn by %s" % (name, end), file.read(4), b"<svg")
        os.remove(picture)
    with Editor() as editor:
        rig.row(name + ": the program", editor.open(rig, VALUES_4, log=VALUES_4), "the log can't be the program itself")
        rig.row(name + ": no such folder", editor.open(rig, VALUES_4, log="/nowhere/x"), "/nowhere/x: No such file or directory")
        editor.end(rig, name + " that can't be")


def check_disassembly(rig, name):
    """Instructions with their functions and lines, around a stop and where there are none."""
    with Editor() as editor:
        editor.come_to(rig, VALUES_4, {"line": 48})
        at = editor.ask("stackTrace", threadId=1)["stackFrames"][0]["instructionPointerReference"]
        rows = editor.ask("disassemble", memoryReference=at, instructionOffset=-2, instructionCount=4, resolveSymbols=True)["instructions"]
        rig.row(name + ": addresses", [int(it["address"], 16) - int(at, 16) for it in rows], [-8, -4, 0, 4])
        bare = editor.ask("disassemble", memoryReference=at, instructionCount=1, resolveSymbols=False)["instructions"][0]
        rig.row(name + ": no symbols", (bare["line"], "symbol" in bare), (48, False))
        rig.row(name + ": the place", (rows[2]["line"], rows[2]["location"]["path"], rows[2]["symbol"][:5]), (48, VALUES, "main+"))
        rows = editor.ask("disassemble", memoryReference="0x0000", offset=2, instructionCount=3)["instructions"]
        rig.row(name + ": none", [(it["instruction"], it["presentationHint"]) for it in rows], [("no instruction", "invalid")] * 3)
        rig.row(name + ": too many", editor.ask("disassemble", memoryReference=at, instructionCount=100000)[:6], "at mos")
        editor.end(rig, name)


def random_words(dice, count):
    """Words with the opcodes of this machine, most of them instructions."""
    for _ in range(count):
        opcode = dice.choice([0x37, 0x17, 0x6F, 0x67, 0x63, 0x03, 0x23, 0x13, 0x33, 0x73, 0x2F])
        word = dice.getrandbits(32) & ~0x7F | opcode
        if opcode == 0x33 or opcode == 0x13 and word >> 12 & 3 == 1:
            word = word & 0x1FFFFFF | dice.choice([0, 0x20, opcode >> 5]) << 25
        yield dice.choice([0x73, 0x100073]) if opcode == 0x73 else word & ~0x7000 | 0x2000 if opcode == 0x2F else word


def check_mnemonics(rig, name):
    """4,000 words as text beside that of objdump, where it is installed."""
    tool = shutil.which("riscv64-unknown-elf-objdump")
    if tool is None:
        print("outside: not run: %s: objdump isn't installed" % name, flush=True)
        return
    from rvdbg_dap.instructions import Instruction

    words = list(random_words(random.Random(1), 4000))
    rig.put("words", struct.pack("<%dI" % len(words), *words))
    flags = ["-D", "-b", "binary", "-m", "riscv:rv32", "-M", "no-aliases", os.path.join(rig.folder, "words")]
    listed = subprocess.run([tool, *flags], stdout=subprocess.PIPE, timeout=PATIENCE).stdout.decode()
    differ = []
    for at, word, text in re.findall(r"^\s*([0-9a-f]+):\t([0-9a-f]{8})\s+\t?(.*)$", listed, re.M):
        theirs = re.sub(r" [#<].*", "", text.replace("\t", " ")).strip()
        mine = Instruction(int(word, 16), int(at, 16)).text()
        is_none = mine is None and re.match(r"\.|0x|lr|sc|unimp", theirs)
        if not is_none and re.sub(r"0x0+(?=[0-9a-f]{1,8}$)", "0x", mine or "") != theirs:
            differ.append((word, mine, theirs))
    rig.row(name, differ[:5], [])


def check_traps(rig, name):
    """A trap is told with its instruction, its address, and what helps."""
    with Editor() as editor:
        editor.open(rig, VALUES_4, harts=3)
        editor.ask("setBreakpoints", source={"path": VALUES}, breakpoints=[{"line": 49}])
        editor.ask("configurationDone")
        for thread in (1, 2, 3):
            editor.event("stopped", threadId=thread)
        wanted = {
            1: "this thread stands at no trap",
            2: r"Segmentation fault: `lw a5,4\(a5\)` at 0x\w+ loads from 0x00000004",
            3: r"Illegal instruction: at 0x\w+ is `lr.w`, which isn't an instruction of this machine: use an AMO",
        }
        for thread, text in wanted.items():
            told = editor.ask("exceptionInfo", threadId=thread)["description"]
            rig.row("%s of thread %d" % (name, thread), re.fullmatch(text, told) is not None or told, True)
        editor.end(rig, name)


def check_line_tables(rig, name):
    """The adapter's reader of line tables says of each instruction what the debugger says."""
    from rvdbg_dap.program import Program

    for path in (VALUES_4, os.path.join(PROGRAMS, "folders-5"), os.path.join(TOP, "tests", "programs", "locks")):
        program = Program(path)
        places = [at for text in program.texts for at in range(text.start, text.stop, 4)]
        typed = "".join("-break-insert *0x%x\n-break-delete %d\n" % (at, number) for number, at in enumerate(places, 1))
        told = re.findall(rb'^\^done,bkpt=.*?addr="0x(\w+)"(?:,func="(\w+)")?(?:,file="([^"]+)",line="(\d+)")?', rig.run(["--workers", "0", path], typed.encode())[1], re.M)
        found = []
        for at in places:
            row = program.row(at)
            place = (os.path.basename(row.path), str(row.line)) if row else ("", "")
            found.append(("%08x" % at, program.near(at).split("+")[0], *place))
        rig.row("%s of %s" % (name, os.path.basename(path)), found, [tuple(it.decode() for it in row) for row in told])


PROGRAM_CHECKS = [
    check_line_tables,
    check_conditions,
    check_counted_conditions,
    check_alone,
    check_arguments,
    check_logged,
    check_disassembly,
    check_mnemonics,
    check_traps,
]
