"""Where a hart leaves a range of addresses, which is one of a line's, by its instructions: text doesn't change."""

BRANCH, JAL, JALR = 0x63, 0x6F, 0x67


def branch_offset(word):
    """The offset of a B-type instruction ("Base Instruction Formats" of the unprivileged ISA), its sign at the left."""
    return ((word >> 7 & 1) << 11 | (word >> 25 & 0x3F) << 5 | (word >> 8 & 0xF) << 1) - (word >> 31 << 12)


def jump_offset(word):
    """The offset of a J-type instruction."""
    return ((word >> 12 & 0xFF) << 12 | (word >> 20 & 1) << 11 | (word >> 21 & 0x3FF) << 1) - (word >> 31 << 20)


def edges(code, start):
    """The addresses outside of a range that come next to one in it, and those in it of jumps by a register."""
    ahead, jumps, end = set(), set(), start + len(code)
    for at in range(start, end, 4):
        word = int.from_bytes(code[at - start : at - start + 4], "little")
        opcode = word & 0x7F
        if opcode == JALR:
            jumps.add(at)
        elif opcode == JAL:
            ahead.add(at + jump_offset(word))
        else:
            ahead |= {at + 4, at + branch_offset(word)} if opcode == BRANCH else {at + 4}
    return jumps | {it & 0xFFFFFFFF for it in ahead if not start <= it < end}
