"""What GDB shows of variables. `compare` runs it inside of GDB, with the program loaded and a stub to connect to:

    gdb-multiarch -batch -ex "python PORT, PLACES, OUT = 1234, [0x10100, ..], 'FILE'" -x in_gdb.py PROGRAM

At each of the places, the first time that the program comes there, it writes one line of JSON: the place, the function, and each
variable of the frame's blocks, the innermost block first, as [name, kind, value, line of its declaration], and then those of the unit that
have a number.
"""

import json

import gdb

OPTIMIZED, UNREAD = "<optimized out>", "<type not read>"


def shown(value):
    """A value as a decimal number; what has no number of 32 bits at most, and what can't be had, in the debugger's words."""
    try:
        kind = value.type.strip_typedefs()
        if value.is_optimized_out:
            return OPTIMIZED
        if kind.code not in (gdb.TYPE_CODE_INT, gdb.TYPE_CODE_CHAR, gdb.TYPE_CODE_BOOL, gdb.TYPE_CODE_PTR) or kind.sizeof > 4:
            return UNREAD
        value.fetch_lazy()
        number = int(value)
        return str(number & 0xFFFFFFFF if kind.code == gdb.TYPE_CODE_PTR else number)
    except gdb.error as error:
        return "<error: %s>" % error


def own_frame():
    """The innermost frame that isn't of an inlined function."""
    frame = gdb.newest_frame()
    while frame.type() == gdb.INLINE_FRAME:
        frame = frame.older()
    return frame


def variables(frame):
    """The variables of the frame's blocks. A function without debugging information has none."""
    block, found = frame.block() if frame.function() else None, []
    while block is not None:
        found += [[it.name, kind_of(it), shown(it.value(frame)), it.line] for it in block if kind_of(it)]
        if block.function is not None:
            return found + unit_variables(frame, block)
        block = block.superblock
    return found


def kind_of(symbol):
    """What kind of variable a symbol is, if it is one."""
    return "argument" if symbol.is_argument else "variable" if symbol.is_variable else None


def unit_variables(frame, block):
    """The unit's own variables that are numbers."""
    symbols = [it for own in (block.static_block, block.global_block) for it in own if it.is_variable]
    found = sorted([it.name, "global", shown(it.value(frame)), it.line] for it in symbols)
    return [it for it in found if it[2].lstrip("-").isdigit()]


def main():
    """Goes from place to place."""
    for command in ("set confirm off", "set pagination off", "set architecture riscv:rv32", "target remote :%d" % PORT):
        gdb.execute(command, to_string=True)
    for place in PLACES:
        gdb.Breakpoint("*0x%x" % place, temporary=True, internal=True)
    with open(OUT, "w", encoding="utf-8") as out:
        while True:
            gdb.execute("continue", to_string=True)
            if gdb.selected_thread() is None:
                return
            frame = own_frame()
            print(json.dumps([frame.pc(), frame.name(), variables(frame)]), file=out)


main()
