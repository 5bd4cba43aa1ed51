"""Variables: what the program lists at the stops of tests/variables/stops, where GDB's values stand.

Each file there is of the program of tests/programs/variables that has its name. `at ADDRESS FUNCTION` is a stop, the first that comes to
that address, and then stand the variables that GDB shows there, the innermost block first: `NAME argument VALUE` or `NAME variable VALUE`,
and last those of the unit, which are for names alone: `NAME global VALUE`. Where this debugger has to answer something else,
` -> ANSWER (REASON)` follows; ` -> (REASON)` says that it lists no such variable.
`tests/variables/compare` makes the files anew.
"""

import os
import re

from checks.programs import EXIT, plain

LISTED = re.compile(rb'\{name="([^"]*)",(arg="1",)?value="((?:[^"\\]|\\.)*)"\}')
LINE = re.compile(r"(\w+) (argument|variable|global) (.*?)(?: -> (?:(.*?) )?\((.*)\))?$")
NUMBER = re.compile(r"-?[0-9]+$")


class Variable:
    """A variable at a stop: GDB's value, and what this debugger has to answer, which is None where it lists none."""

    def __init__(self, name, kind, value, answer, reason):
        self.name, self.kind, self.value, self.reason = name, kind, value, reason
        self.answer = answer if reason else value


def read_stops(path):
    """The stops of a file, each its address and its variables."""
    stops = []
    with open(path, encoding="utf-8") as file:
        for line in file.read().splitlines():
            if line.startswith("at "):
                stops.append((int(line.split()[1], 16), []))
            else:
                stops[-1][1].append(Variable(*LINE.match(line).groups()))
    return stops


def names_of(variables):
    """The names that have a number, each with it: that of its first variable, if that one is listed and has a number."""
    first = {}
    for it in variables:
        first.setdefault(it.name, it.answer)
    return {name: answer for name, answer in first.items() if answer is not None and NUMBER.match(answer)}


def conversation(stops):
    """The lines for a session that goes from stop to stop."""
    lines = ["-break-insert -t *0x%x" % address for address, _ in stops]
    for _, variables in stops:
        lines += ["-exec-continue", "-exec-wait", "-stack-list-variables --all-values"]
        lines += ["-data-evaluate-expression %s" % name for name in names_of(variables)]
    return "".join(line + "\n" for line in lines).encode()


def wanted(stops):
    """What the session has to answer: at each stop the variables, by their names in the order of each name's, and the names' values."""
    answers = []
    for address, variables in stops:
        listed = [(it.name, it.kind, it.answer) for it in variables if it.answer is not None and it.kind != "global"]
        answers += ["at 0x%08x" % address, *rows(listed)]
        answers += ["%s = %s" % it for it in names_of(variables).items()]
    return answers


def rows(listed):
    """The variables as lines. Those of one name stay in their order, and the names are sorted: each debugger has its own order of them."""
    return ["%s %s %s" % it for it in sorted(listed, key=lambda it: it[0])]


def found(stops, output):
    """The same of the program's output."""
    answers, names = [], []
    variables = iter(it for _, it in stops)
    for line in output.splitlines():
        if line.startswith(b"*stopped,"):
            place = re.search(rb'frame=\{addr="0x([0-9a-f]{8})"', line)
            answers.append("at 0x%s" % place.group(1).decode() if place else line.decode("ascii", "backslashreplace"))
        elif line.startswith(b"^done,variables="):
            texts = [(name.decode(), "argument" if arg else "variable", text.decode()) for name, arg, text in LISTED.findall(line)]
            answers += rows(texts)
            names = list(names_of(next(variables, [])))
        elif line.startswith((b"^done,value=", b"^error")):
            value = line.decode("ascii", "backslashreplace").removeprefix('^done,value="').removesuffix('"')
            answers.append("%s = %s" % (names.pop(0) if names else "?", value))
    return answers


def has_variables(rig):
    """Whether the program knows the command."""
    rig.put("exit", plain(EXIT))
    return b"^error" not in rig.run(["--workers", "0", "exit"], b"-stack-list-variables 0\n")[1]


def check_variables(rig, top):
    """Each of the programs. Where the program has no such command nothing is looked at, and a line says so."""
    if not has_variables(rig):
        print("outside: variables: the program has no -stack-list-variables; left out", flush=True)
        return
    folder = os.path.join(top, "tests", "variables", "stops")
    for name in sorted(os.listdir(folder)):
        stops = read_stops(os.path.join(folder, name))
        status, output = rig.run(["--workers", "0", os.path.join(top, "tests", "programs", "variables", name)], conversation(stops))
        rig.row("variables of " + name, [status, *found(stops, output)], [0, *wanted(stops)])
