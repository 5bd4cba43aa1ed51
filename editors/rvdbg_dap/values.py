"""What the editor is shown of a thread: its frames, variables, registers and the values of expressions."""

import re

from rvdbg_dap.engine import WORD, Engine
from rvdbg_dap.instructions import NAMES
from rvdbg_dap.mi import Refused, c_string, need

# A frame's number is made of its thread and its level, a reference to variables of what they are and of the frame.
LEVELS, KINDS = 100, 10000
REGISTERS, LOCALS, ARGUMENTS, RADIXES = 1, 2, 3, 10
SCOPES = [("Arguments", "arguments", ARGUMENTS), ("Locals", "locals", LOCALS), ("Registers", "registers", REGISTERS)]
OUTER_SCOPES = [("Registers (of the innermost frame)", "registers", REGISTERS)]
RADIX = {"decimal": "{1:d}", "unsigned": "{0:d}", "octal": "0{0:o}", "binary": "0b{0:032b}"}
SIZES = {1: "unsigned char", 2: "unsigned short", 4: "int"}
WIDTHS = {"int": 4, "unsigned int": 4, "short": 2, "unsigned short": 2, "char": 1, "unsigned char": 1}
NUMBER = re.compile(r"-?(0x[0-9A-Fa-f]+|0b[01]+|[1-9]\d*|0)")
NAME = re.compile(r"[A-Za-z_.][\w.$]*", re.ASCII)
# Behind an operand `&` is an operation, elsewhere it makes a symbol of the name behind it.
TOKEN = r"\{[^{}]*\}|&&|&\s*\$?NAME|(?:(\$?NAME)|\d\w*|\))(?:\s*&(?!&))?|\S".replace("NAME", NAME.pattern)
PLACE = re.compile(r"\{\s*((?:unsigned )?(?:int|short|char))\s*\}\s*(&\s*[\w.]+|\$?\w+|\([^()]*\))")
REGISTER_NAMES = [{"s0": "fp"}.get(it, it) for it in [*NAMES, "pc"]]
REGISTER_NUMBERS = {name: at for at in range(32) for name in ("x%d" % at, NAMES[at], REGISTER_NAMES[at])}
NOT_HERE = "%s isn't known here: variables and registers are known of a thread's innermost frame alone"
UNREAD = "`%s` may be a variable of DWARF 5, which isn't read: build with -gdwarf-4, or write {int} &%s"
LARGE = "`%s` has %d bytes: 1, 2 or 4 can be shown; {int} &%s shows four of them"
NO_PLACE = "only {type} and an address, or the name of a global outside of outer frames, has a place in memory here"
UNWATCHED = "1, 2 or 4 bytes of data can be watched, as many as there are, at an address without names and registers"


def names(text):
    """The places of a text's bare names and registers, and they. What stands behind `&` or in braces is neither."""
    return [(it.start(1), it[1]) for it in re.finditer(TOKEN, text, re.ASCII) if it[1]]


def bare_names(text):
    return [(at, name) for at, name in names(text) if name[0] != "$"]


def replaced(text, stands):
    for at, name in reversed(bare_names(text)):
        text = text[:at] + stands.get(name, name) + text[at + len(name) :]
    return text


class Values(Engine):
    def on_stack_trace(self, arguments):
        thread, told = self.thread(arguments["threadId"]), []
        rows = self.ask("-stack-list-frames --thread %d" % thread.identity)["stack"]
        first, most = (max(0, int(arguments.get(it) or 0)) for it in ("startFrame", "levels"))
        for row in rows[first : first + most] if most else rows[first:]:
            level, address = int(row["level"]), int(row["addr"], 16)
            frame = {"id": thread.identity * LEVELS + level, "name": row.get("func", row["addr"])}
            frame.update(line=0, column=0, instructionPointerReference=row["addr"])
            if "file" in row:
                source = self.sources.source(row["file"], address - (level > 0))  # (an outer one is behind its call)
                frame.update(source=source, line=int(row["line"]), column=1)
            told.append(frame)
        return {"stackFrames": told, "totalFrames": len(rows)}

    def on_source(self, arguments):
        return {"content": self.sources.text(arguments["sourceReference"]), "mimeType": "text/plain"}

    def framed(self, number):
        return self.thread(number // LEVELS), number % LEVELS

    def listed(self, thread):
        return self.ask("-stack-list-variables --thread %d 1" % thread.identity)["variables"]

    def on_scopes(self, arguments):
        number, (_, level) = arguments["frameId"], self.framed(arguments["frameId"])
        keys = ("name", "presentationHint", "variablesReference", "expensive")
        rows = [(*it, kind * KINDS + number, False) for *it, kind in (OUTER_SCOPES if level else SCOPES)]
        return {"scopes": [dict(zip(keys, it)) for it in rows]}

    def on_variables(self, arguments):
        kind, number = divmod(arguments["variablesReference"], KINDS)
        thread, level = self.framed(number)
        if kind == REGISTERS:
            return {"variables": [self.register(at, word, number) for at, word in self.registers(thread)]}
        if kind in (LOCALS, ARGUMENTS):
            listed = [] if level else self.listed(thread)
            rows = [(it["name"], it["value"]) for it in listed if ("arg" in it) == (kind == ARGUMENTS)]
        else:
            ((_, word),) = self.registers(thread, kind - RADIXES)
            rows = [(it, form.format(word, word - (word >> 31) * WORD)) for it, form in RADIX.items()]
        return {"variables": [{"name": name, "value": value, "variablesReference": 0} for name, value in rows]}

    def registers(self, thread, number=""):
        found = self.ask("-data-list-register-values --thread %d x %s" % (thread.identity, number))
        return [(int(it["number"]), int(it["value"], 16)) for it in found["register-values"]]

    def register(self, at, word, number):
        """What the editor is told of a register: it stands in hexadecimal, and opens to other radixes."""
        name, text, reference = REGISTER_NAMES[at], "0x%08x" % word, (RADIXES + at) * KINDS + number
        told = {"name": name, "value": text, "variablesReference": reference, "memoryReference": text}
        told.update({"evaluateName": "$" + name} if number % LEVELS == 0 else {})
        return dict(told, presentationHint={"attributes": ["readOnly"] if name in ("zero", "pc") else []})

    def on_set_variable(self, arguments):
        kind, number = divmod(arguments["variablesReference"], KINDS)
        need(kind == REGISTERS, "only registers can be set here")
        return self.set_register(number, arguments["name"], arguments["value"])

    def set_register(self, number, name, value):
        need(NAME.fullmatch(name), "%.50s is no register", name)
        thread, _ = self.framed(number)
        word = self.number(value, number) % WORD
        self.ask("-gdb-set --thread %d $%s=%d" % (thread.identity, name, word))
        told = self.register(REGISTER_NUMBERS[name], word, number)
        return {it: told[it] for it in ("value", "variablesReference", "memoryReference")}

    def number(self, text, frame):
        return int(text, 0) if NUMBER.fullmatch(text.strip()) else int(self.evaluated(text, frame)[0])

    def evaluate(self, text, frame):
        value, notes = self.evaluated(text, frame)
        if not NUMBER.fullmatch(value):
            return {"result": value, "variablesReference": 0}
        word = "0x%08x" % (int(value) % WORD)
        result = ", with ".join(["%s (%s)" % (value, word), *notes])
        return {"result": result, "variablesReference": 0, "memoryReference": word}

    def evaluated(self, text, frame):
        """An expression's value in a frame with notes. Without a frame its names are those of symbols."""
        thread, level = self.framed(frame) if frame else (next(iter(self.standing()), None), 0)
        need(thread, "no thread stands")
        for _, it in names(text):
            need(not level and (frame or it[0] != "$"), NOT_HERE, it)
        stands = {} if frame else {it: self.at_symbol(it, None) for _, it in bare_names(text)}
        return self.value(thread, text, stands)

    def value(self, thread, text, stands=()):
        """The value of an expression in a thread's innermost frame, and notes of what stands for its names."""
        line, stands = "-data-evaluate-expression --thread %d " % thread.identity, dict(stands)
        while True:
            asked = replaced(text, stands)
            result, _ = self.reply(line + c_string(asked))
            if result.name == "done":
                return result.fields["value"], ["`%s` as %s" % (name, it[1:-1]) for name, it in stands.items()]
            unknown = re.match(r"No symbol in expression at (\d+)", result.fields["msg"])
            name = unknown and asked.isascii() and dict(bare_names(asked)).get(int(unknown[1]))
            need(name, "%s", result.fields["msg"])
            listed = self.listed(thread)
            for it in listed:
                if it["name"] == name == text.strip():
                    return it["value"], []
            stands[name] = self.at_symbol(name, listed)

    def at_symbol(self, name, listed):
        """What reads the bytes at a symbol, where none of the variables that a frame has hides it."""
        program, places = self.program, self.program.symbols.get(name, ())
        for it in listed or ():
            need(it["name"] != name, "%s is %s", name, it["value"])
        need(places, "there is no variable and no symbol `%s` here", name)
        need(listed is None or not program.has_unread, UNREAD, name, name)
        need(len(places) == 1, "there are several symbols `%s`", name)
        ((address, size),) = places
        need(not program.is_text(address), "`%s` is code: write &%s for its address", name, name)
        need(size in SIZES, LARGE, name, size, name)
        return "({%s} &%s)" % (SIZES[size], name)

    def in_core(self, thread, text):
        """A condition over globals of 4 bytes as one that the debugger can judge. Another one is refused."""
        stands, listed = {}, self.listed(thread)
        for _, name in bare_names(text):
            stands[name] = self.at_symbol(name, listed)
            need(stands[name].startswith("({int}"), "%s hasn't 4 bytes", name)
            if self.value(thread, "((%s & 0) - 1) / 2" % name)[0] != "0":
                stands[name] = stands[name].replace("int", "unsigned int", 1)
        return replaced(text, stands)

    def place(self, text, frame):
        """The type and the address of what an expression reads: `{type} e`, or the name of a global."""
        found, (thread, level) = PLACE.fullmatch(text), self.framed(frame) if frame else (None, 0)
        if found is None:
            need(not level and NAME.fullmatch(text), NO_PLACE)
            found = PLACE.fullmatch(self.at_symbol(text, self.listed(thread) if frame else None)[1:-1])
        return found[1], int(self.evaluated(found[2], frame)[0]) % WORD

    def on_set_expression(self, arguments):
        text, frame, value = arguments["expression"].strip(), arguments.get("frameId"), arguments["value"]
        if text[:1] == "$" and frame and frame % LEVELS == 0:
            return self.set_register(frame, text[1:], value)
        kind, address = self.place(text, frame)
        content = (self.number(value, frame) % (1 << 8 * WIDTHS[kind])).to_bytes(WIDTHS[kind], "little")
        self.ask("-data-write-memory-bytes 0x%08x %s" % (address, content.hex()))
        self.written(address, len(content))
        return {"value": self.evaluate(text, frame)["result"]}

    def on_data_breakpoint_info(self, arguments):
        """What can be watched: 1, 2 or 4 bytes of data at an address or at a symbol, and no variable of a frame."""
        name, size, frame = arguments["name"].strip(), arguments.get("bytes"), arguments.get("frameId")
        if arguments.get("asAddress"):
            name = "{%s} 0x%08x" % (SIZES.get(size or 4), int(name, 0) % WORD)
        try:
            need(not arguments.get("variablesReference"), "registers and variables of a frame can't be watched")
            kind, address = self.place(name, frame)
            text = name if name[0] == "{" else "{%s} &%s" % (kind, name)
            is_data = size in (None, WIDTHS[kind]) and not self.program.is_text(address)
            need(is_data and not names(text), UNWATCHED)
        except Refused as refusal:
            return {"dataId": None, "description": str(refusal)}
        told = {"dataId": text, "description": "%d bytes: %s" % (WIDTHS[kind], text)}
        return dict(told, accessTypes=["write"], canPersist=True)
