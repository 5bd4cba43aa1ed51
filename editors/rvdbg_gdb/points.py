"""Breakpoints and watchpoints that GDB wants, and their numbers in the debugger."""

from rvdbg_dap.mi import Refused

BREAKPOINT, WATCH = "breakpoint", "watch"
TYPES = ((4, "int"), (2, "short"), (1, "char"))


def lines_of(kind, address, length):
    """The debugger's lines for one of them: it watches up to four bytes at once."""
    if kind == BREAKPOINT:
        yield "-break-insert *0x%x" % address
    while kind == WATCH and length > 0:
        size, name = next(it for it in TYPES if it[0] <= length)
        yield "-break-watch {%s} 0x%x" % (name, address)
        address, length = address + size, length - size


class Points:
    """They are known by kind, address and length. `numbers` has those that stand, `times` how often watches have fired.

    GDB takes all of its breakpoints away at each stop, and puts them back before it goes on. So one that isn't `wanted`
    any more is deleted only when a hart is to run.
    """

    def __init__(self, ask):
        self.ask, self.numbers, self.wanted, self.times = ask, {}, set(), {}

    def insert(self, *key):
        if key not in self.numbers:
            self.settle()
            self.numbers[key] = self.make(lines_of(*key))
        self.wanted.add(key)

    def remove(self, *key):
        self.wanted.discard(key)

    def settle(self):
        """Deletes what isn't wanted any more."""
        self.delete([number for key in set(self.numbers) - self.wanted for number in self.numbers.pop(key)])

    def make(self, lines):
        """Has the debugger make breakpoints, all or none, and gives their numbers."""
        made = []
        try:
            for line in lines:
                (fields,) = self.ask(line).fields.values()
                made.append(fields["number"])
        except Refused:
            self.delete(made)
            raise
        return made

    def delete(self, numbers):
        if numbers:
            self.ask("-break-delete " + " ".join(numbers))

    def rows(self):
        """What the debugger says of all breakpoints and watches."""
        return self.ask("-break-list").fields["BreakpointTable"]["body"]

    def has(self, kind, address):
        """Whether GDB has a breakpoint there, or watches the byte there."""
        return any(it == kind and at <= address < at + length for it, at, length in self.wanted)

    def fired(self):
        """Where a watch has fired since this was asked last, or None."""
        places = {it: at for (kind, at, _), numbers in self.numbers.items() if kind == WATCH for it in numbers}
        rows = [it for it in self.rows() if it["number"] in places] if places else []
        before, self.times = self.times, {it["number"]: int(it["times"]) for it in rows}
        return next((places[it] for it, count in self.times.items() if count > before.get(it, 0)), None)
