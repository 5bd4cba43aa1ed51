// A plain interpreter of RV32IM in C, to compare with: one switch over instructions that were decoded before, and memory
// that is checked at each access (a permission for each page of 512 bytes, as the debugger's machine has them).
// It runs one hart of a linked ELF32 file, and writes the instructions that it executed to standard error.
#include <elf.h>
#include <stdint.h>
#include <stdio.h>
#include <stdlib.h>
#include <string.h>
#include <unistd.h>

enum op { LUI, AUIPC, JAL, JALR, BEQ, BNE, BLT, BGE, BLTU, BGEU, LB, LH, LW, LBU, LHU, SB, SH, SW, ADDI, SLTI, SLTIU, XORI,
    ORI, ANDI, SLLI, SRLI, SRAI, ADD, SUB, SLL, SLT, SLTU, XOR, SRL, SRA, OR, AND, MUL, MULH, MULHSU, MULHU, DIV, DIVU, REM,
    REMU, FENCE, ECALL, ILLEGAL };

struct instr { uint8_t op, rd, rs1, rs2; uint32_t imm; };
struct page { uint8_t readable, writable; uint8_t bytes[512]; };

static struct page *pages[1 << 23];
static struct instr *text;
static uint32_t text_base, text_count, x[33], pc;

static uint32_t bits(uint32_t w, int high, int low) { return (w >> low) & ((1u << (high - low + 1)) - 1); }

static struct instr decode(uint32_t w) {
    struct instr i = { ILLEGAL, bits(w, 11, 7), bits(w, 19, 15), bits(w, 24, 20), 0 };
    uint32_t f3 = bits(w, 14, 12), f7 = bits(w, 31, 25);
    int32_t imm = (int32_t)w >> 20;
    static const uint8_t loads[8] = { LB, LH, LW, ILLEGAL, LBU, LHU, ILLEGAL, ILLEGAL };
    static const uint8_t stores[8] = { SB, SH, SW, ILLEGAL, ILLEGAL, ILLEGAL, ILLEGAL, ILLEGAL };
    static const uint8_t branches[8] = { BEQ, BNE, ILLEGAL, ILLEGAL, BLT, BGE, BLTU, BGEU };
    static const uint8_t plain[8] = { ADD, SLL, SLT, SLTU, XOR, SRL, OR, AND };
    static const uint8_t immediate[8] = { ADDI, SLLI, SLTI, SLTIU, XORI, SRLI, ORI, ANDI };
    switch (w & 127) {
    case 0x37: i.op = LUI; i.imm = w & 0xfffff000; break;
    case 0x17: i.op = AUIPC; i.imm = w & 0xfffff000; break;
    case 0x6f: i.op = JAL;
        i.imm = (uint32_t)((int32_t)w >> 31 << 20) | bits(w, 19, 12) << 12 | bits(w, 20, 20) << 11 | bits(w, 30, 21) << 1; break;
    case 0x67: if (f3 == 0) i.op = JALR; i.imm = (uint32_t)imm; break;
    case 0x63: i.op = branches[f3];
        i.imm = (uint32_t)((int32_t)w >> 31 << 12) | bits(w, 7, 7) << 11 | bits(w, 30, 25) << 5 | bits(w, 11, 8) << 1; break;
    case 0x03: i.op = loads[f3]; i.imm = (uint32_t)imm; break;
    case 0x23: i.op = stores[f3]; i.imm = (uint32_t)((int32_t)w >> 25 << 5) | bits(w, 11, 7); break;
    case 0x13: i.op = immediate[f3]; i.imm = (uint32_t)imm;
        if (f3 == 1 || f3 == 5) i.imm = i.rs2;
        if (f3 == 5 && f7 == 32) i.op = SRAI;
        break;
    case 0x33:
        if (f7 == 1) i.op = MUL + f3;
        else if (f7 == 32) i.op = f3 == 0 ? SUB : f3 == 5 ? SRA : ILLEGAL;
        else if (f7 == 0) i.op = plain[f3];
        break;
    case 0x0f: i.op = FENCE; break;
    case 0x73: if (w == 0x73) i.op = ECALL; break;
    }
    return i;
}

static void fail(const char *why) { fprintf(stderr, "%s at 0x%08x\n", why, pc); exit(2); }

static struct page *page_of(uint32_t addr) {
    struct page **p = &pages[addr / 512];
    if (!*p) *p = calloc(1, sizeof **p);
    return *p;
}

static void map(uint32_t addr, uint32_t size, int writable) {
    for (uint32_t k = 0; k < size; k++) {
        struct page *p = page_of(addr + k);
        p->readable = 1, p->writable |= (uint8_t)writable;
    }
}

static inline uint32_t load(uint32_t addr, uint32_t len) {
    struct page *p = pages[addr / 512];
    if (addr % len || !p || !p->readable) fail("load");
    uint32_t value = 0;
    memcpy(&value, p->bytes + addr % 512, len);
    return value;
}

static inline void store(uint32_t addr, uint32_t len, uint32_t value) {
    struct page *p = pages[addr / 512];
    if (addr % len || !p || !p->writable) fail("store");
    memcpy(p->bytes + addr % 512, &value, len);
}

static void call(void) {
    if (x[17] == 93 || x[17] == 94) return;
    if (x[17] != 64) fail("call");
    uint8_t bytes[4096];
    uint32_t n = x[12] < 4096 ? x[12] : 4096;
    for (uint32_t k = 0; k < n; k++) bytes[k] = (uint8_t)load(x[11] + k, 1);
    if (write(1, bytes, n) < 0) fail("write");
    x[10] = n;
}

static uint64_t run(void) {
    uint64_t count = 0;
    for (;;) {
        uint32_t at = (pc - text_base) / 4;
        if (pc % 4 || at >= text_count) fail("fetch");
        struct instr i = text[at];
        uint32_t a = x[i.rs1], b = x[i.rs2], next = pc + 4, d = i.rd ? i.rd : 32;
        count++;
        switch (i.op) {
        case LUI: x[d] = i.imm; break;
        case AUIPC: x[d] = pc + i.imm; break;
        case JAL: x[d] = next; next = pc + i.imm; break;
        case JALR: x[d] = next; next = (a + i.imm) & ~1u; break;
        case BEQ: if (a == b) next = pc + i.imm; break;
        case BNE: if (a != b) next = pc + i.imm; break;
        case BLT: if ((int32_t)a < (int32_t)b) next = pc + i.imm; break;
        case BGE: if ((int32_t)a >= (int32_t)b) next = pc + i.imm; break;
        case BLTU: if (a < b) next = pc + i.imm; break;
        case BGEU: if (a >= b) next = pc + i.imm; break;
        case LB: x[d] = (uint32_t)(int8_t)load(a + i.imm, 1); break;
        case LH: x[d] = (uint32_t)(int16_t)load(a + i.imm, 2); break;
        case LW: x[d] = load(a + i.imm, 4); break;
        case LBU: x[d] = load(a + i.imm, 1); break;
        case LHU: x[d] = load(a + i.imm, 2); break;
        case SB: store(a + i.imm, 1, b); break;
        case SH: store(a + i.imm, 2, b); break;
        case SW: store(a + i.imm, 4, b); break;
        case ADDI: x[d] = a + i.imm; break;
        case SLTI: x[d] = (int32_t)a < (int32_t)i.imm; break;
        case SLTIU: x[d] = a < i.imm; break;
        case XORI: x[d] = a ^ i.imm; break;
        case ORI: x[d] = a | i.imm; break;
        case ANDI: x[d] = a & i.imm; break;
        case SLLI: x[d] = a << i.imm; break;
        case SRLI: x[d] = a >> i.imm; break;
        case SRAI: x[d] = (uint32_t)((int32_t)a >> i.imm); break;
        case ADD: x[d] = a + b; break;
        case SUB: x[d] = a - b; break;
        case SLL: x[d] = a << (b & 31); break;
        case SLT: x[d] = (int32_t)a < (int32_t)b; break;
        case SLTU: x[d] = a < b; break;
        case XOR: x[d] = a ^ b; break;
        case SRL: x[d] = a >> (b & 31); break;
        case SRA: x[d] = (uint32_t)((int32_t)a >> (b & 31)); break;
        case OR: x[d] = a | b; break;
        case AND: x[d] = a & b; break;
        case MUL: x[d] = a * b; break;
        case MULH: x[d] = (uint32_t)((int64_t)(int32_t)a * (int32_t)b >> 32); break;
        case MULHSU: x[d] = (uint32_t)((int64_t)(int32_t)a * (int64_t)(uint64_t)b >> 32); break;
        case MULHU: x[d] = (uint32_t)((uint64_t)a * b >> 32); break;
        case DIV: x[d] = !b ? ~0u : a == 0x80000000 && b == ~0u ? a : (uint32_t)((int32_t)a / (int32_t)b); break;
        case DIVU: x[d] = b ? a / b : ~0u; break;
        case REM: x[d] = !b ? a : a == 0x80000000 && b == ~0u ? 0 : (uint32_t)((int32_t)a % (int32_t)b); break;
        case REMU: x[d] = b ? a % b : a; break;
        case FENCE: break;
        case ECALL: if (x[17] == 93 || x[17] == 94) return count; call(); break;
        default: fail("illegal");
        }
        pc = next;
    }
}

int main(int argc, char **argv) {
    static uint8_t file[1 << 24];
    FILE *f = argc == 2 ? fopen(argv[1], "rb") : NULL;
    if (!f || !fread(file, 1, sizeof file, f)) return fprintf(stderr, "usage: interpreter FILE\n"), 1;
    Elf32_Ehdr *head = (Elf32_Ehdr *)file;
    for (int k = 0; k < head->e_phnum; k++) {
        Elf32_Phdr *p = (Elf32_Phdr *)(file + head->e_phoff + k * sizeof *p);
        if (p->p_type != PT_LOAD) continue;
        if (p->p_flags & PF_X) {
            text_base = p->p_vaddr, text_count = p->p_filesz / 4;
            text = malloc(text_count * sizeof *text);
            for (uint32_t n = 0; n < text_count; n++) {
                uint32_t word;
                memcpy(&word, file + p->p_offset + 4 * n, 4);
                text[n] = decode(word);
            }
            continue;
        }
        map(p->p_vaddr, p->p_memsz, p->p_flags & PF_W ? 1 : 0);
        for (uint32_t n = 0; n < p->p_filesz; n++) page_of(p->p_vaddr + n)->bytes[(p->p_vaddr + n) % 512] = file[p->p_offset + n];
    }
    map(0xf0000000u - 65536, 65536, 1);
    x[2] = 0xf0000000u, pc = head->e_entry;
    fprintf(stderr, "%llu\n", (unsigned long long)run());
    return 0;
}
