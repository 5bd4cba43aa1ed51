"""What the debug adapter shows of values, over programs of `tests/programs/editors`: never one in the place of another."""

import os

from checks.dap_editor import PROGRAMS, Editor

NOT_HERE = "%s isn't known here: variables and registers are known of a thread's innermost frame alone"
VALUES_4, HIDDEN = os.path.join(PROGRAMS, "values-4"), os.path.join(PROGRAMS, "hidden")


def check_outer_frames(rig, name):
    """In an outer frame what is known of the innermost alone is refused, by whichever way it is asked for."""
    with Editor() as editor:
        frames = editor.come_to(rig, VALUES_4, {"line": 18})
        rig.row(name + ": the frames", len(frames), 8)
        rig.row(name + ": the innermost", editor.value("n", frames[0]), "1 (0x00000001)")
        for text, context in (("n", "hover"), ("n + 1", "watch"), ("$sp", "hover"), ("total", "repl"), ("{int} $sp", "variables")):
            told = editor.value(text, frames[2], context)
            rig.row("%s: %s" % (name, text), told, NOT_HERE % text.replace("{int} ", "").replace(" + 1", ""))
        rig.row(name + ": what is the same everywhere", editor.value("{int} &total + 1", frames[2]), "1001 (0x000003e9)")
        for line in ("-data-evaluate-expression n", "-stack-list-variables 1", "-gdb-set $a0=1", "-data-list-register-values x"):
            told = editor.value(line, frames[1], "repl")
            rig.row("%s: %s" % (name, line), told.startswith("the frame that is shown is an outer one"), True)
        rig.row(name + ": a line that names its thread", editor.value("-data-evaluate-expression --thread 1 n", frames[1], "repl"), '^done,value="1"')
        kinds = [editor.ask("variables", variablesReference=it * 10000 + frames[1])["variables"] for it in (2, 3)]
        rig.row(name + ": no variables", kinds, [[], []])
        scope = editor.ask("scopes", frameId=frames[1])["scopes"][0]
        row = editor.ask("variables", variablesReference=scope["variablesReference"])["variables"][1]
        rig.row(name + ": the registers say whose they are", (scope["name"], "evaluateName" in row), ("Registers (of the innermost frame)", False))
        told = editor.ask("setVariable", variablesReference=scope["variablesReference"], name="t0", value="n")
        rig.row(name + ": nor is a register set by one", told, NOT_HERE % "n")
        rig.row(name + ": nor a global", editor.ask("setExpression", expression="{int} &total", value="n", frameId=frames[1]), NOT_HERE % "n")
        rig.row(name + ": nor is one watched", editor.ask("dataBreakpointInfo", name="total", frameId=frames[1])["dataId"], None)
        rig.row(name + ": without a frame", (editor.value("$sp"), editor.value("n")), (NOT_HERE % "$sp", "there is no variable and no symbol `n` here"))
        rig.row(name + ": a global without one", editor.value("turns"), "0 (0x00000000), with `turns` as {int} &turns")
        editor.end(rig, name)


def check_stand_ins(rig, name):
    """A name without a value: the bytes at a symbol stand for it by their size, and never for a variable, for code or for what is larger."""
    with Editor() as editor:
        (main, *_) = editor.come_to(rig, VALUES_4, {"line": 50})
        asked = [
            ("small", "200 (0x000000c8)"),
            ("level", "204 (0x000000cc)"),
            ("high", "2415919104 (0x90000000)"),
            ("total", "797 (0x0000031d)"),
            ("form", "5 (0x00000005), with `form` as {int} &form"),
            ("form + turns", "5 (0x00000005), with `form` as {int} &form"),
            ("big", "`big` has 8 bytes: 1, 2 or 4 can be shown; {int} &big shows four of them"),
            ("text", "`text` has 8 bytes: 1, 2 or 4 can be shown; {int} &text shows four of them"),
            ("ring", "`ring` has 8 bytes: 1, 2 or 4 can be shown; {int} &ring shows four of them"),
            ("factorial", "`factorial` is code: write &factorial for its address"),
            ("nothing + 1", "there is no variable and no symbol `nothing` here"),
        ]
        for text, shown in asked:
            rig.row("%s: %s" % (name, text), editor.value(text, main), shown)
        editor.end(rig, name)
    with Editor() as editor:
        (main, *_) = editor.come_to(rig, HIDDEN, {"line": 6}, source=os.path.join(PROGRAMS, "hidden.c"))
        editor.ask("stepOut", threadId=1)
        editor.event("stopped", reason="step")
        scopes = editor.ask("scopes", frameId=main)["scopes"]
        listed = [(it["name"], it["value"]) for it in editor.ask("variables", variablesReference=scopes[1]["variablesReference"])["variables"]]
        rig.row(name + ": it is listed", ("total", "<optimized out>") in listed, True)
        rig.row(name + ": it hides the global", (editor.value("total", main), editor.value("total + 1", main)), ("<optimized out>", "total is <optimized out>"))
        rig.row(name + ": it isn't watched", editor.ask("dataBreakpointInfo", name="total", frameId=main), {"dataId": None, "description": "total is <optimized out>"})
        rig.row(name + ": nor set", editor.ask("setExpression", expression="total", value="1", frameId=main), "total is <optimized out>")
        rig.row(name + ": the global itself", editor.value("{int} &total", main), "1000 (0x000003e8)")
        editor.end(rig, name + " that is hidden")
    with Editor() as editor:
        (main, *_) = editor.come_to(rig, os.path.join(PROGRAMS, "values-5"), {"line": 50})
        wanted = "`total` may be a variable of DWARF 5, which isn't read: build with -gdwarf-4, or write {int} &total"
        rig.row(name + ": no name of DWARF 5", editor.value("total", main), wanted)
        rig.row(name + ": but where no frame is", editor.value("total"), "1000 (0x000003e8), with `total` as {int} &total")
        rig.row(name + ": and to be watched", editor.ask("dataBreakpointInfo", name="total")["dataId"], "{int} &total")
        editor.end(rig, name + " of DWARF 5")


def check_watched(rig, name):
    """What can be watched is told with its size, and what can't isn't given out."""
    with Editor() as editor:
        frames = editor.come_to(rig, VALUES_4, {"line": 48})
        for text, shown in (("small", "{unsigned char} &small"), ("level", "{unsigned short} &level"), ("turns", "{int} &turns"), ("{short} &level", "{short} &level")):
            found = editor.ask("dataBreakpointInfo", name=text)
            size = {"int}": 4, "short}": 2}.get(shown.split(" &")[0].split()[-1].lstrip("{"), 1)
            rig.row("%s: %s" % (name, text), (found["dataId"], found["description"]), (shown, "%d bytes: %s" % (size, shown)))
        for text in ("nosuch", "main", "ring.head", "big", "text", "n", "{int} &main", "{int} $sp", "1 + 2"):
            rig.row("%s: not %s" % (name, text), editor.ask("dataBreakpointInfo", name=text)["dataId"], None)
        rig.row(name + ": no local", editor.ask("dataBreakpointInfo", name="total", frameId=frames[0])["dataId"], None)
        rig.row(name + ": four bytes of two", editor.ask("dataBreakpointInfo", name="level", bytes=4)["dataId"], None)
        rig.row(name + ": code at an address", editor.ask("dataBreakpointInfo", name="0x00010100", asAddress=True, bytes=4)["dataId"], None)
        at = editor.value("&level", frames[0]).split("(")[1][:10]
        found = editor.ask("dataBreakpointInfo", name=at, asAddress=True, bytes=2)
        rig.row(name + ": an address", found["dataId"], "{unsigned short} " + at)
        (point,) = editor.ask("setDataBreakpoints", breakpoints=[{"dataId": "{short} &level"}])["breakpoints"]
        editor.ask("continue", threadId=1)
        stop = editor.event("stopped", reason="data breakpoint")
        rig.row(name + ": a watch of two bytes", (point["verified"], stop["text"]), (True, "{short} &level was -3, is 204"))
        editor.end(rig, name)


VALUE_CHECKS = [check_outer_frames, check_stand_ins, check_watched]
