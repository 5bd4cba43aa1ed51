"""The instructions of this machine as text, without aliases, after "Instructions" in `docs/FILES.md`."""

NAMES = "zero ra sp gp tp t0 t1 t2 s0 s1 a0 a1 a2 a3 a4 a5 a6 a7 s2 s3 s4 s5 s6 s7 s8 s9 s10 s11 t3 t4 t5 t6".split()
LOAD, FENCE, NUMBER, AUIPC, STORE, AMO = 0x03, 0x0F, 0x13, 0x17, 0x23, 0x2F
PAIR, LUI, BRANCH, JALR, JAL, SYSTEM = 0x33, 0x37, 0x63, 0x67, 0x6F, 0x73

# By opcode, by it and the seven high bits, or by the whole word: the names by funct3, and how operands are written.
FORMS = {
    LOAD: ("lb lh lw - lbu lhu", "{rd},{number}({rs1})"),
    STORE: ("sb sh sw", "{rs2},{stored}({rs1})"),
    BRANCH: ("beq bne - - blt bge bltu bgeu", "{rs1},{rs2},0x{branch:08x}"),
    LUI: (8 * "lui ", "{rd},0x{upper:x}"),
    AUIPC: (8 * "auipc ", "{rd},0x{upper:x}"),
    JAL: (8 * "jal ", "{rd},0x{jump:08x}"),
    JALR: ("jalr", "{rd},{number}({rs1})"),
    FENCE: ("fence fence.i", ""),
    NUMBER: ("addi - slti sltiu xori - ori andi", "{rd},{rs1},{number}"),
    (NUMBER, 0): ("- slli - - - srli", "{rd},{rs1},0x{shift:x}"),
    (NUMBER, 32): ("- - - - - srai", "{rd},{rs1},0x{shift:x}"),
    (PAIR, 0): ("add sll slt sltu xor srl or and", "{rd},{rs1},{rs2}"),
    (PAIR, 1): ("mul mulh mulhsu mulhu div divu rem remu", "{rd},{rs1},{rs2}"),
    (PAIR, 32): ("sub - - - - sra", "{rd},{rs1},{rs2}"),
    (0x73,): ("ecall", ""),
    (0x100073,): ("ebreak", ""),
}
AMOS = {0: "add", 1: "swap", 4: "xor", 8: "or", 12: "and", 16: "min", 20: "max", 24: "minu", 28: "maxu"}
for code, amo in AMOS.items():
    for bits, order in enumerate(("", ".rl", ".aq", ".aqrl")):
        FORMS[AMO, code << 2 | bits] = ("- - amo%s.w%s" % (amo, order), "{rd},{rs2},({rs1})")
ACCESSES = {LOAD: ("loads from", "number"), STORE: ("stores to", "stored"), AMO: ("changes", None)}
FLOATS = (0x07, 0x27, 0x43, 0x47, 0x4B, 0x4F, 0x53)
CSRS = "system csrrw csrrs csrrc system csrrwi csrrsi csrrci".split()


class Instruction:
    """A word, and its fields as they are written at an address."""

    def __init__(self, word, pc):
        self.word, self.opcode, self.form, self.high = word, word & 0x7F, word >> 12 & 7, word >> 25
        sign = -(word >> 31)
        branch = sign << 12 | word << 4 & 0x800 | word >> 20 & 0x7E0 | word >> 7 & 0x1E
        jump = sign << 20 | word & 0xFF000 | word >> 9 & 0x800 | word >> 20 & 0x7FE
        number, stored = sign << 11 | word >> 20 & 0x7FF, sign << 11 | word >> 20 & 0x7E0 | word >> 7 & 0x1F
        self.fields = {it: NAMES[word >> at & 31] for it, at in (("rd", 7), ("rs1", 15), ("rs2", 20))}
        self.fields.update(number=number, stored=stored, upper=word >> 12, shift=word >> 20 & 31)
        self.fields.update(branch=(pc + branch) % (1 << 32), jump=(pc + jump) % (1 << 32), pc=pc)

    def text(self):
        for key in (self.opcode, (self.opcode, self.high), (self.word,)):
            names, operands = FORMS.get(key, ("", ""))
            name = [*names.split(), *8 * ["-"]][self.form]
            if name != "-":
                return ("%s %s" % (name, operands.format_map(self.fields))).strip()

    def trap(self, registers):
        """What it does, where the registers hold this, that it has trapped."""
        if self.text() is None:
            return "at 0x%08x is %s" % (self.fields["pc"], self.foreign())
        does, offset = ACCESSES.get(self.opcode, ("", None))
        there = "0x%08x" % ((registers[self.word >> 15 & 31] + self.fields.get(offset, 0)) % (1 << 32))
        return " ".join(["`%s` at 0x%08x" % (self.text(), self.fields["pc"]), *([does, there] if does else [])])

    def foreign(self):
        if self.word & 3 != 3:
            return "a compressed instruction or none at all: leave `c` out of -march"
        if self.opcode in FLOATS:
            return "floating point, which this machine hasn't: -march=rv32ima -mabi=ilp32"
        name, helps = CSRS[self.form], "there are no CSRs and no other modes"
        if self.opcode == AMO and self.form == 2 and self.high >> 2 in (2, 3):
            name, helps = ("lr.w", "sc.w")[self.high >> 2 & 1], "use an AMO"
        elif self.opcode != SYSTEM:
            return "no instruction of this machine"
        return "`%s`, which isn't an instruction of this machine: %s" % (name, helps)
