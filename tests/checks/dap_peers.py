"""The debug adapter over debuggers that are scripts, and how soon it tells what they say."""

import os
import sys
import time

from checks.dap_editor import PROGRAMS, VALUES, Editor

# A debugger that is a script: `build` says how far it is built, `stops` stops as often as its word says, each time with the moment in
# the function's name; `variables` knows the command for them; `deaf` answers nothing behind its opening, and `odd` what isn't MI.
PEER = r'''
import os, sys, time
kind, *count = os.environ["PEER"].split()
def put(*lines):
    os.write(1, "".join(it + "\n" for it in lines).encode())
if kind == "build":
    for it in ("rvdbg: proving and building dbg_program", "rvdbg: rv_decode, 1 of 4", "rvdbg: dbg_program, 4 of 4"):
        print(it, file=sys.stderr, flush=True)
    time.sleep(0.5)
if kind == "unbuilt":
    print("rvdbg: the program isn't built yet, and rt isn't found", file=sys.stderr, flush=True)
    sys.exit(127)
put('=thread-created,id="1",group-id="i1"', "(gdb)")
for line in sys.stdin:
    token, _, command = line.strip().partition("-")
    if kind == "deaf":
        continue
    if kind == "odd":
        put("what is this", "*stopped,thread-id=", '=thread-created,id="x"', '~"half', token + "^done,x=[}", "(gdb)")
    elif command.startswith("gdb-exit"):
        put(token + "^exit")
        break
    elif command.startswith("exec-"):
        put(token + "^running", '*running,thread-id="1"', "(gdb)")
        for _ in range(int(count[0]) if count else 0):
            time.sleep(0.004)
            put('*stopped,reason="signal-received",signal-name="S",signal-meaning="%d",thread-id="1"' % time.monotonic_ns())
    elif command.startswith("stack-list-variables"):
        put(token + '^done,variables=[{name="n",arg="1",value="7"},{name="k",value="-1"},{name="s",value="<optimized out>"}]', "(gdb)")
    else:
        put(token + "^done", "(gdb)")
'''


def peer(rig, words):
    """A debugger that behaves as the words say."""
    path = os.path.join(rig.folder, "peer-" + words.replace(" ", "-"))
    with open(path, "w", encoding="utf-8") as file:
        file.write("#!%s\nimport os\nos.environ['PEER'] = %r\n%s" % (sys.executable, words, PEER))
    os.chmod(path, 0o755)
    return path


def check_peers(rig, name):
    """What other debuggers bring: one that is built first, one that isn't, one with variables, one that isn't understood."""
    with Editor() as editor:
        rig.row(name + ": built", editor.open(rig, "examples/lock/lock", peer(rig, "build")), True)
        kinds = [it[0] for it in editor.events if it[0].startswith("progress")]
        rig.row(name + ": progress", kinds, ["progressStart", "progressUpdate", "progressUpdate", "progressUpdate", "progressEnd"])
        rig.row(name + ": percentages", [it[1].get("percentage") for it in editor.events if it[0] == "progressUpdate"], [None, 25, 100])
        editor.end(rig, name + " that is built")
    with Editor() as editor:
        answer = editor.open(rig, "examples/lock/lock", peer(rig, "unbuilt"))
        rig.row(name + ": not built", answer, "rvdbg: the program isn't built yet, and rt isn't found")
        editor.end(rig, name + " that isn't built")
    with Editor() as editor:
        editor.open(rig, "examples/lock/lock", peer(rig, "variables"))
        scopes = editor.ask("scopes", frameId=100)["scopes"]
        rig.row(name + ": scopes", [it["name"] for it in scopes], ["Arguments", "Locals", "Registers"])
        found = [[(it["name"], it["value"]) for it in editor.ask("variables", variablesReference=scope["variablesReference"])["variables"]] for scope in scopes[:2]]
        rig.row(name + ": variables", found, [[("n", "7")], [("k", "-1"), ("s", "<optimized out>")]])
        rig.row(name + ": of outer frames", [it["name"] for it in editor.ask("scopes", frameId=101)["scopes"]], ["Registers (of the innermost frame)"])
        editor.end(rig, name + " with variables")
    with Editor() as editor:
        editor.open(rig, "examples/lock/lock", peer(rig, "odd"))
        rig.row(name + ": odd", "isn't understood" in editor.ask("evaluate", expression="-thread-info", context="repl"), True)
        editor.until(lambda: editor.printed("console").count("isn't understood") == 3)
        rig.row(name + ": odd lines", editor.printed("console").count("isn't understood"), 3)
        editor.end(rig, name + " that is odd")


def check_deaf(rig, name, check):
    """While something else is checked, a request to a debugger that answers nothing is answered all the same."""
    with Editor() as editor:
        editor.open(rig, "examples/lock/lock", peer(rig, "deaf"))
        number = editor.send("evaluate", expression="-thread-info", context="repl")
        check()
        editor.until(lambda: number in editor.answers)
        rig.row(name, editor.answers[number]["message"], "-thread-info: the debugger doesn't answer in time")
        editor.end(rig, name)


def check_delays(rig, name, count):
    """Stops reach the editor soon after their records, and steps in a row neither slow down nor take more memory."""
    with Editor() as editor:
        editor.open(rig, "examples/lock/lock", peer(rig, "stops %d" % count))
        editor.ask("configurationDone")
        delays = []
        for _ in range(count):
            stop = editor.event("stopped")
            delays.append((time.monotonic_ns() - int(stop["text"].split()[1])) / 1e6)
        delays.sort()
        print("outside: %d stops reach the editor within %.2f ms, half of them within %.2f ms" % (count, delays[-1], delays[count // 2]))
        rig.row(name + ": a tenth of the stops within 20 ms, whatever else the machine does", delays[count // 10] < 20.0, True)
        editor.end(rig, name + " of stops")
    with Editor() as editor:
        editor.open(rig, os.path.join(rig.folder, "dap-loop"), stopOnEntry=True)
        editor.ask("configurationDone")
        editor.event("stopped")
        times, sizes = [], []
        for _ in range(count):
            begun = time.monotonic()
            editor.ask("stepIn", threadId=1, granularity="instruction")
            editor.event("stopped", reason="step")
            editor.ask("stackTrace", threadId=1)
            editor.ask("variables", variablesReference=10100)
            times.append(time.monotonic() - begun)
            with open("/proc/%d/statm" % editor.process.pid, encoding="ascii") as file:
                sizes.append(int(file.read().split()[1]) * 4)
        tenth = count // 10
        early, late = sorted(times[tenth : 2 * tenth])[tenth // 2], sorted(times[-tenth:])[tenth // 2]
        print("outside: %d steps: %.2f ms each early, %.2f ms late; %d KB early, %d KB late" % (count, 1e3 * early, 1e3 * late, sizes[tenth], sizes[-1]))
        rig.row(name + ": the quickest steps don't slow down", min(times[-tenth:]) < 3 * min(times[:tenth]) + 0.01, True)
        rig.row(name + ": memory stays", sizes[-1] - sizes[tenth] < 1024, True)
        editor.end(rig, name + " of steps")


def check_rates(rig, name):
    """How many arrivals a second the adapter judges, and the debugger where it judges a global; both see each arrival of a loop."""
    for condition, who in (("i < 0", "the adapter"), ("turns < 0", "the debugger")):
        with Editor() as editor:
            editor.come_to(rig, os.path.join(PROGRAMS, "values-4"), {"line": 50})
            editor.ask("setBreakpoints", source={"path": VALUES}, breakpoints=[{"line": 27, "condition": condition}])
            begun = time.monotonic()
            editor.ask("continue", threadId=1)
            editor.event("exited")
            print("outside: %s judges 200 arrivals in %.1f ms" % (who, 1e3 * (time.monotonic() - begun)))
            editor.end(rig, name + " of " + who)
