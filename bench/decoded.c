/* What a plain interpreter can be: the same instructions, checks and counts as yardstick.c, but each word
   of the text is decoded once into operation, registers and immediate, the program counter is a local, a
   register 32 takes what register 0 loses, and the count is looked at only at a backward transfer. It
   reads an image of one task and a plan without masks, and prints the task's marker and registers. */
#include <stdint.h>
#include <stdio.h>
#include <stdlib.h>
#include <string.h>

#define DATA_START 0x10000000u
#define EPOCH_LENGTH 1048576u

enum op {
    NONE, LUI, AUIPC, JAL, JALR, BEQ, BNE, BLT, BGE, BLTU, BGEU, LB, LH, LW, LBU, LHU, SB, SH, SW, ADDI, SLTI,
    SLTIU, XORI, ORI, ANDI, SLLI, SRLI, SRAI, ADD, SUB, SLL, SLT, SLTU, XOR, SRL, SRA, OR, AND, FENCE, ECALL
};

struct instr {
    uint8_t op, rd, rs1, rs2;
    int32_t imm;
};

struct task {
    uint32_t pc, regs[33], *text, *data;
    struct instr *code;
    uint32_t text_bytes, data_bytes;
    uint64_t epoch;
    uint32_t count;
};

static struct instr decode(uint32_t w)
{
    uint32_t f3 = w >> 12 & 7, f7 = w >> 25;
    struct instr i = { NONE, w >> 7 & 31, w >> 15 & 31, w >> 20 & 31, (int32_t)w >> 20 };
    static const uint8_t branches[8] = { BEQ, BNE, NONE, NONE, BLT, BGE, BLTU, BGEU };
    static const uint8_t loads[8] = { LB, LH, LW, NONE, LBU, LHU, NONE, NONE };
    static const uint8_t stores[8] = { SB, SH, SW, NONE, NONE, NONE, NONE, NONE };
    static const uint8_t immediates[8] = { ADDI, SLLI, SLTI, SLTIU, XORI, SRLI, ORI, ANDI };
    static const uint8_t registers[8] = { ADD, SLL, SLT, SLTU, XOR, SRL, OR, AND };
    if (i.rd == 0)
        i.rd = 32;
    switch (w & 0x7f) {
    case 0x37: i.op = LUI; i.imm = w & 0xfffff000; break;
    case 0x17: i.op = AUIPC; i.imm = w & 0xfffff000; break;
    case 0x6f:
        i.op = JAL;
        i.imm = ((int32_t)w >> 31 << 20) | (w & 0xff000) | (w >> 9 & 0x800) | (w >> 20 & 0x7fe);
        break;
    case 0x67: i.op = f3 ? NONE : JALR; break;
    case 0x63:
        i.op = branches[f3];
        i.imm = ((int32_t)w >> 31 << 12) | (w << 4 & 0x800) | (w >> 20 & 0x7e0) | (w >> 7 & 0x1e);
        break;
    case 0x03: i.op = loads[f3]; break;
    case 0x23: i.op = stores[f3]; i.imm = ((int32_t)w >> 25 << 5) | (w >> 7 & 31); break;
    case 0x13:
        i.op = immediates[f3];
        if (f3 == 1 || f3 == 5) {
            i.imm = i.rs2;
            if (f7 != 0)
                i.op = f3 == 5 && f7 == 0x20 ? SRAI : NONE;
        }
        break;
    case 0x33:
        i.op = registers[f3];
        if (f7 != 0)
            i.op = f7 != 0x20 ? NONE : f3 == 0 ? SUB : f3 == 5 ? SRA : NONE;
        break;
    case 0x0f: i.op = f3 ? NONE : FENCE; break;
    default: i.op = w == 0x73 ? ECALL : NONE;
    }
    return i;
}

#define READ(type, size) \
    address = regs[i->rs1] + i->imm; \
    if (address & (size - 1)) \
        goto stop; \
    if (address < text_bytes) \
        memcpy(&type, (char *)t->text + address, size); \
    else if (address - DATA_START < data_bytes) \
        memcpy(&type, data + (address - DATA_START), size); \
    else \
        goto stop; \
    regs[i->rd] = type; \
    break

#define WRITE(size) \
    address = regs[i->rs1] + i->imm; \
    if (address & (size - 1) || address < text_bytes || address - DATA_START >= data_bytes) \
        goto stop; \
    memcpy(data + (address - DATA_START), &regs[i->rs2], size); \
    break

#define TRANSFER(to) \
    target = (to); \
    if (target & 3) \
        goto stop

/* Runs up to `most` instructions, and tells how many were executed. */
static uint32_t run(struct task *t, uint32_t most)
{
    const struct instr *code = t->code;
    const uint32_t text_bytes = t->text_bytes, data_bytes = t->data_bytes;
    char *data = (char *)t->data;
    uint32_t *regs = t->regs, pc = t->pc, done, address, target, word;
    int8_t byte;
    int16_t half;
    uint8_t ubyte;
    uint16_t uhalf;
    for (done = 0; done < most; done++) {
        if (pc >= text_bytes)
            goto stop;
        const struct instr *i = &code[pc / 4];
        switch (i->op) {
        case LUI: regs[i->rd] = i->imm; break;
        case AUIPC: regs[i->rd] = pc + i->imm; break;
        case JAL: TRANSFER(pc + i->imm); regs[i->rd] = pc + 4; goto went;
        case JALR: TRANSFER((regs[i->rs1] + i->imm) & ~1u); regs[i->rd] = pc + 4; goto went;
        case BEQ: if (regs[i->rs1] == regs[i->rs2]) goto taken; break;
        case BNE: if (regs[i->rs1] != regs[i->rs2]) goto taken; break;
        case BLT: if ((int32_t)regs[i->rs1] < (int32_t)regs[i->rs2]) goto taken; break;
        case BGE: if ((int32_t)regs[i->rs1] >= (int32_t)regs[i->rs2]) goto taken; break;
        case BLTU: if (regs[i->rs1] < regs[i->rs2]) goto taken; break;
        case BGEU: if (regs[i->rs1] >= regs[i->rs2]) goto taken; break;
        case LB: READ(byte, 1);
        case LH: READ(half, 2);
        case LW: READ(word, 4);
        case LBU: READ(ubyte, 1);
        case LHU: READ(uhalf, 2);
        case SB: WRITE(1);
        case SH: WRITE(2);
        case SW: WRITE(4);
        case ADDI: regs[i->rd] = regs[i->rs1] + i->imm; break;
        case SLTI: regs[i->rd] = (int32_t)regs[i->rs1] < i->imm; break;
        case SLTIU: regs[i->rd] = regs[i->rs1] < (uint32_t)i->imm; break;
        case XORI: regs[i->rd] = regs[i->rs1] ^ i->imm; break;
        case ORI: regs[i->rd] = regs[i->rs1] | i->imm; break;
        case ANDI: regs[i->rd] = regs[i->rs1] & i->imm; break;
        case SLLI: regs[i->rd] = regs[i->rs1] << i->imm; break;
        case SRLI: regs[i->rd] = regs[i->rs1] >> i->imm; break;
        case SRAI: regs[i->rd] = (int32_t)regs[i->rs1] >> i->imm; break;
        case ADD: regs[i->rd] = regs[i->rs1] + regs[i->rs2]; break;
        case SUB: regs[i->rd] = regs[i->rs1] - regs[i->rs2]; break;
        case SLL: regs[i->rd] = regs[i->rs1] << (regs[i->rs2] & 31); break;
        case SLT: regs[i->rd] = (int32_t)regs[i->rs1] < (int32_t)regs[i->rs2]; break;
        case SLTU: regs[i->rd] = regs[i->rs1] < regs[i->rs2]; break;
        case XOR: regs[i->rd] = regs[i->rs1] ^ regs[i->rs2]; break;
        case SRL: regs[i->rd] = regs[i->rs1] >> (regs[i->rs2] & 31); break;
        case SRA: regs[i->rd] = (int32_t)regs[i->rs1] >> (regs[i->rs2] & 31); break;
        case OR: regs[i->rd] = regs[i->rs1] | regs[i->rs2]; break;
        case AND: regs[i->rd] = regs[i->rs1] & regs[i->rs2]; break;
        case FENCE: break;
        default: goto stop;
        }
        pc += 4;
        continue;
taken:
        TRANSFER(pc + i->imm);
went:
        if (target <= pc && ++t->count == EPOCH_LENGTH) {
            t->epoch++;
            t->count = 0;
        }
        pc = target;
    }
stop:
    t->pc = pc;
    return done;
}

static uint32_t *read_image(const char *name, uint32_t *words, uint32_t *data_words)
{
    FILE *f = fopen(name, "r");
    uint32_t *text = calloc(16384, 4), n = 0;
    if (!f || !text || fscanf(f, "tmi 1 task 0 basic %*u auto 0 %u text 0", data_words) != 1)
        exit(2);
    while (n < 16384 && fscanf(f, " %x", &text[n]) == 1)
        n++;
    fclose(f);
    *words = n;
    return text;
}

int main(int argc, char **argv)
{
    uint32_t words, data_words, length, done = 0;
    if (argc != 3)
        return 2;
    struct task t = { 0 };
    t.text = read_image(argv[1], &words, &data_words);
    t.data = calloc(data_words, 4);
    t.code = calloc(words, sizeof *t.code);
    if (!t.data || !t.code)
        return 2;
    for (uint32_t n = 0; n < words; n++)
        t.code[n] = decode(t.text[n]);
    t.text_bytes = 4 * words;
    t.data_bytes = 4 * data_words;
    t.regs[2] = DATA_START + t.data_bytes;
    FILE *plan = fopen(argv[2], "r");
    if (!plan || fscanf(plan, "tmplan 1") != 0)
        return 2;
    length = 0;
    while (done == length && fscanf(plan, " slice %u 0", &length) == 1)
        done = run(&t, length);
    printf("task 0 running %llu.%u.%08x\nregs", (unsigned long long)t.epoch, t.count, t.pc);
    for (int n = 1; n < 32; n++)
        if (t.regs[n])
            printf(" x%d=%08x", n, t.regs[n]);
    printf("\n");
    return 0;
}
