/* A hart in plain C for the yardsticks here: RV64I in mode M, with records in a ring, the filters and return-stack emulation
   of mctrctl, and the static predictor. */
#include <stdint.h>
#include <string.h>

enum { NOT_TAKEN = 4, TAKEN, INDIRECT_CALL = 8, CALL, INDIRECT_JUMP, JUMP, SWAP, RETURN, INDIRECT_LINK_JUMP, LINK_JUMP };

static const uint64_t BASE = 0x80000000;

struct slot { uint64_t source, target, kind; };
struct core { uint64_t x[32], pc, mip, mie; };
struct memory { uint8_t *bytes; uint64_t size; };
struct unit { uint64_t control, select; unsigned code, depth, pointer; struct slot slots[256]; };
struct hart { struct core core; struct unit unit; uint64_t accesses; int resident; };

static inline int64_t sext(uint64_t value, int bits) { return (int64_t)(value << (64 - bits)) >> (64 - bits); }
static inline int is_link(unsigned r) { return r == 1 || r == 5; }

static inline void push(struct unit *u, struct slot entry) {
    u->slots[u->pointer] = entry;
    u->pointer = u->pointer + 1 == u->depth ? 0 : u->pointer + 1;
}

/* A transfer of the hart: what the records keep of it, and the new pc. */
static inline void go(struct hart *h, uint64_t target, unsigned kind, int missed) {
    struct unit *u = &h->unit;
    if (u->control & 4) {
        struct slot entry = {h->core.pc + 1, target + missed, kind};
        if (u->control & 0x80) {
            unsigned last = u->pointer ? u->pointer - 1 : u->depth - 1;
            if (kind == CALL || kind == INDIRECT_CALL) push(u, entry);
            else if (kind == RETURN) { u->slots[last].source &= ~1ULL; u->pointer = last; }
            else if (kind == SWAP) u->slots[last] = entry;
        } else if ((u->control >> (32 + kind) & 1) == (kind == NOT_TAKEN)) {
            push(u, entry);
        }
    }
    h->core.pc = target;
}

/* Whether so many bytes from a place on lie in memory, at a multiple of their number. */
static inline int lies(const struct memory *m, uint64_t at, uint64_t n) {
    return at % n == 0 && at <= m->size - n;
}

#define LOAD(TYPE) do { TYPE v; if (!lies(m, at, sizeof v)) return 0; memcpy(&v, m->bytes + at, sizeof v); \
                        *value = (uint64_t)(int64_t)v; return 1; } while (0)

static inline int load(const struct memory *m, unsigned f3, uint64_t at, uint64_t *value) {
    switch (f3) {
    case 0: LOAD(int8_t);
    case 1: LOAD(int16_t);
    case 2: LOAD(int32_t);
    case 3: LOAD(int64_t);
    case 4: LOAD(uint8_t);
    case 5: LOAD(uint16_t);
    case 6: LOAD(uint32_t);
    default: return 0;
    }
}

#define STORE(TYPE) do { TYPE v = (TYPE)value; if (!lies(m, at, sizeof v)) return 0; \
                         memcpy(m->bytes + at, &v, sizeof v); return 1; } while (0)

static inline int store(struct memory *m, unsigned f3, uint64_t at, uint64_t value) {
    switch (f3) {
    case 0: STORE(uint8_t);
    case 1: STORE(uint16_t);
    case 2: STORE(uint32_t);
    case 3: STORE(uint64_t);
    default: return 0;
    }
}

static inline uint64_t alu(unsigned f3, int other, uint64_t a, uint64_t b) {
    switch (f3) {
    case 0: return other ? a - b : a + b;
    case 1: return a << (b & 63);
    case 2: return (int64_t)a < (int64_t)b;
    case 3: return a < b;
    case 4: return a ^ b;
    case 5: return other ? (uint64_t)((int64_t)a >> (b & 63)) : a >> (b & 63);
    case 6: return a | b;
    default: return a & b;
    }
}

static inline int holds(unsigned f3, uint64_t a, uint64_t b) {
    switch (f3) {
    case 0: return a == b;
    case 1: return a != b;
    case 4: return (int64_t)a < (int64_t)b;
    case 5: return (int64_t)a >= (int64_t)b;
    case 6: return a < b;
    default: return a >= b;
    }
}

/* One step; 0 where an instruction isn't among those that are built, or an interrupt would be taken. */
static inline int step(struct hart *h, struct memory *m, uint64_t pending) {
    struct core *c = &h->core;
    c->mip |= pending;
    uint64_t at = c->pc - BASE;
    if (c->mip & c->mie || at > m->size - 4) return 0;
    uint32_t w;
    memcpy(&w, m->bytes + at, 4);
    unsigned rd = w >> 7 & 31, rs1 = w >> 15 & 31, rs2 = w >> 20 & 31, f3 = w >> 12 & 7;
    uint64_t target, value = 0, link = c->pc + 4;
    switch (w & 127) {
    case 0x03:
        if (!load(m, f3, c->x[rs1] + sext(w >> 20, 12) - BASE, &value)) return 0;
        break;
    case 0x13:
        value = alu(f3, f3 == 5 && w >> 30 & 1, c->x[rs1], sext(w >> 20, 12));
        break;
    case 0x17:
        value = c->pc + sext(w & 0xfffff000, 32);
        break;
    case 0x33:
        value = alu(f3, w >> 30 & 1, c->x[rs1], c->x[rs2]);
        break;
    case 0x37:
        value = sext(w & 0xfffff000, 32);
        break;
    case 0x23:
        if (!store(m, f3, c->x[rs1] + sext((w >> 25) << 5 | (w >> 7 & 31), 12) - BASE, c->x[rs2])) return 0;
        c->pc = link;
        return 1;
    case 0x63: {
        target = c->pc + sext((w >> 31) << 12 | (w >> 7 & 1) << 11 | (w >> 25 & 63) << 5 | (w >> 8 & 15) << 1, 13);
        int taken = holds(f3, c->x[rs1], c->x[rs2]), backward = w >> 31;
        if (taken && target & 3) return 0;
        go(h, taken ? target : link, taken ? TAKEN : NOT_TAKEN, taken != backward);
        return 1;
    }
    case 0x67:
        target = (c->x[rs1] + sext(w >> 20, 12)) & ~1ULL;
        if (f3 || target & 3) return 0;
        if (rd) c->x[rd] = link;
        go(h, target, is_link(rd) ? (is_link(rs1) && rd != rs1 ? SWAP : INDIRECT_CALL)
                      : is_link(rs1) ? RETURN : rd ? INDIRECT_LINK_JUMP : INDIRECT_JUMP, 0);
        return 1;
    case 0x6f:
        target = c->pc + sext((w >> 31) << 20 | (w >> 12 & 255) << 12 | (w >> 20 & 1) << 11 | (w >> 21 & 1023) << 1, 21);
        if (target & 3) return 0;
        if (rd) c->x[rd] = link;
        go(h, target, is_link(rd) ? CALL : rd ? LINK_JUMP : JUMP, 0);
        return 1;
    default:
        return 0;
    }
    if (rd) c->x[rd] = value;
    c->pc = link;
    return 1;
}
