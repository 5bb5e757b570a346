/* The yardstick: a plain interpreter of one RV32I task, with the table, the checks and the counts of
   the machine, and nothing else. It reads an image of one task and a plan without masks, runs them, and
   prints the task's marker and registers. */
#include <stdint.h>
#include <stdio.h>
#include <stdlib.h>
#include <string.h>

#define DATA_START 0x10000000u
#define EPOCH_LENGTH 1048576u

enum outcome { RAN, CALL, FAULT };

struct task {
    uint32_t pc, regs[32], *text, *data;
    uint32_t text_bytes, data_bytes;
    uint64_t epoch;
    uint32_t count;
};

static inline int32_t immediate_i(uint32_t w) { return (int32_t)w >> 20; }
static inline int32_t immediate_s(uint32_t w) { return ((int32_t)w >> 25 << 5) | (w >> 7 & 31); }
static inline int32_t immediate_b(uint32_t w)
{
    return ((int32_t)w >> 31 << 12) | (w << 4 & 0x800) | (w >> 20 & 0x7e0) | (w >> 7 & 0x1e);
}
static inline int32_t immediate_j(uint32_t w)
{
    return ((int32_t)w >> 31 << 20) | (w & 0xff000) | (w >> 9 & 0x800) | (w >> 20 & 0x7fe);
}

static inline void put(struct task *t, uint32_t rd, uint32_t value)
{
    if (rd)
        t->regs[rd] = value;
}

static inline enum outcome jump(struct task *t, uint32_t rd, uint32_t target)
{
    if (target & 3)
        return FAULT;
    put(t, rd, t->pc + 4);
    int back = target <= t->pc;
    t->pc = target;
    if (back && ++t->count == EPOCH_LENGTH) {
        t->epoch++;
        t->count = 0;
    }
    return RAN;
}

static inline int reaches(const struct task *t, uint32_t address, uint32_t size, uint8_t **byte)
{
    if (address & (size - 1))
        return 0;
    if (address < t->text_bytes)
        *byte = (uint8_t *)t->text + address;
    else if (address >= DATA_START && address - DATA_START < t->data_bytes)
        *byte = (uint8_t *)t->data + (address - DATA_START);
    else
        return 0;
    return 1;
}

static enum outcome load(struct task *t, uint32_t w, uint32_t rd, uint32_t address)
{
    uint8_t *p;
    uint16_t half;
    uint32_t word;
    switch (w >> 12 & 7) {
    case 0: if (!reaches(t, address, 1, &p)) return FAULT; put(t, rd, (int8_t)*p); break;
    case 1: if (!reaches(t, address, 2, &p)) return FAULT; memcpy(&half, p, 2); put(t, rd, (int16_t)half); break;
    case 2: if (!reaches(t, address, 4, &p)) return FAULT; memcpy(&word, p, 4); put(t, rd, word); break;
    case 4: if (!reaches(t, address, 1, &p)) return FAULT; put(t, rd, *p); break;
    case 5: if (!reaches(t, address, 2, &p)) return FAULT; memcpy(&half, p, 2); put(t, rd, half); break;
    default: return FAULT;
    }
    t->pc += 4;
    return RAN;
}

static enum outcome store(struct task *t, uint32_t w, uint32_t address, uint32_t value)
{
    uint32_t size = 1u << (w >> 12 & 3);
    uint8_t *p;
    if ((w >> 12 & 7) > 2 || !reaches(t, address, size, &p) || address < t->text_bytes)
        return FAULT;
    memcpy(p, &value, size);
    t->pc += 4;
    return RAN;
}

static enum outcome arithmetic(struct task *t, uint32_t w, uint32_t rd, uint32_t a, uint32_t b, int immediate)
{
    uint32_t f7 = w >> 25, f3 = w >> 12 & 7, value;
    if ((!immediate || f3 == 1 || f3 == 5) && f7 != 0 && !(f7 == 0x20 && (f3 == 5 || (f3 == 0 && !immediate))))
        return FAULT;
    switch (f3) {
    case 0: value = !immediate && f7 ? a - b : a + b; break;
    case 1: value = a << (b & 31); break;
    case 2: value = (int32_t)a < (int32_t)b; break;
    case 3: value = a < b; break;
    case 4: value = a ^ b; break;
    case 5: value = f7 == 0x20 ? (uint32_t)((int32_t)a >> (b & 31)) : a >> (b & 31); break;
    case 6: value = a | b; break;
    default: value = a & b; break;
    }
    put(t, rd, value);
    t->pc += 4;
    return RAN;
}

static enum outcome branch(struct task *t, uint32_t w, uint32_t a, uint32_t b)
{
    int taken;
    switch (w >> 12 & 7) {
    case 0: taken = a == b; break;
    case 1: taken = a != b; break;
    case 4: taken = (int32_t)a < (int32_t)b; break;
    case 5: taken = (int32_t)a >= (int32_t)b; break;
    case 6: taken = a < b; break;
    case 7: taken = a >= b; break;
    default: return FAULT;
    }
    if (taken)
        return jump(t, 0, t->pc + immediate_b(w));
    t->pc += 4;
    return RAN;
}

static enum outcome step(struct task *t)
{
    if (t->pc >= t->text_bytes)
        return FAULT;
    uint32_t w = t->text[t->pc / 4];
    uint32_t rd = w >> 7 & 31, a = t->regs[w >> 15 & 31], b = t->regs[w >> 20 & 31];
    switch (w & 0x7f) {
    case 0x37: put(t, rd, w & 0xfffff000); t->pc += 4; return RAN;
    case 0x17: put(t, rd, t->pc + (w & 0xfffff000)); t->pc += 4; return RAN;
    case 0x6f: return jump(t, rd, t->pc + immediate_j(w));
    case 0x67: return w >> 12 & 7 ? FAULT : jump(t, rd, (a + immediate_i(w)) & ~1u);
    case 0x63: return branch(t, w, a, b);
    case 0x03: return load(t, w, rd, a + immediate_i(w));
    case 0x23: return store(t, w, a + immediate_s(w), b);
    case 0x13: return arithmetic(t, w, rd, a, immediate_i(w), 1);
    case 0x33: return arithmetic(t, w, rd, a, b, 0);
    case 0x0f: if (w >> 12 & 7) return FAULT; t->pc += 4; return RAN;
    default: return w == 0x73 ? CALL : FAULT;
    }
}

static uint32_t *read_image(const char *name, uint32_t *words, uint32_t *data_words)
{
    FILE *f = fopen(name, "r");
    uint32_t *text = calloc(16384, 4), n = 0;
    if (!f || !text || fscanf(f, "tmi 1 task 0 basic %*u auto 0 %u text 0", data_words) != 1)
        exit(2);
    while (n < 16384 && fscanf(f, " %x", &text[n]) == 1)
        n++;
    fclose(f);
    *words = n;
    return text;
}

int main(int argc, char **argv)
{
    uint32_t words, data_words, length;
    if (argc != 3)
        return 2;
    struct task t = { 0 };
    t.text = read_image(argv[1], &words, &data_words);
    t.data = calloc(data_words, 4);
    t.text_bytes = 4 * words;
    t.data_bytes = 4 * data_words;
    t.regs[2] = DATA_START + t.data_bytes;
    FILE *plan = fopen(argv[2], "r");
    if (!plan || !t.data || fscanf(plan, "tmplan 1") != 0)
        return 2;
    enum outcome last = RAN;
    while (last == RAN && fscanf(plan, " slice %u 0", &length) == 1)
        for (uint32_t i = 0; i < length && last == RAN; i++)
            last = step(&t);
    printf("task 0 running %llu.%u.%08x\nregs", (unsigned long long)t.epoch, t.count, t.pc);
    for (int i = 1; i < 32; i++)
        if (t.regs[i])
            printf(" x%d=%08x", i, t.regs[i]);
    printf("\n");
    return 0;
}
