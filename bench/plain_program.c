/* A yardstick for bench/program.py: the words `run` and `show` in plain C, for schedules of version 1 in the layout 803 whose
   tasks are in mode M, and for samples of that layout. What is well formed is taken; nothing is said of what isn't.
   plain_program run < SCHEDULE > SAMPLES, plain_program show < SAMPLES > TEXT. Compiled with -DCALLS each access to a
   register of the records is a call, as it is where a monitor is another program than the hart. */
#include <stdio.h>
#include <stdlib.h>
#include <unistd.h>
#include "plain_hart.h"

enum { MCTRCTL = 0x34e, SCTRSTATUS = 0x14f, SISELECT = 0x150, SIREG, SIREG2, SIREG3, SCTRDEPTH = 0x15f };
enum { HARTS = 16, TASKS = 64, HEAD = 32, BRANCH = 24, NOWHERE = -1 };

struct area { uint64_t control, code, pointer, select; struct slot slots[256]; };
struct task { struct memory memory; uint64_t steps, period; int hart; struct core core; struct area area; };

static struct hart harts[HARTS];
static struct task tasks[TASKS];
static int task_count;

/* The word of an entry that sireg, sireg2 or sireg3 stand for: entry i is the ith youngest. */
static inline uint64_t *word(struct unit *u, unsigned number) {
    unsigned i = (u->select - 0x200) & 255;
    struct slot *slot = &u->slots[(u->pointer + u->depth - 1 - i) % u->depth];
    return number == SIREG ? &slot->source : number == SIREG2 ? &slot->target : &slot->kind;
}

#ifdef CALLS
#define ACCESS __attribute__((noinline, noclone))
#else
#define ACCESS
#endif

/* An access to a register of the records from outside. */
static ACCESS uint64_t get(struct hart *h, unsigned number) {
    struct unit *u = &h->unit;
    h->accesses++;
    switch (number) {
    case MCTRCTL: return u->control;
    case SCTRSTATUS: return u->pointer;
    case SISELECT: return u->select;
    case SCTRDEPTH: return u->code;
    default: return *word(u, number);
    }
}

static ACCESS void set(struct hart *h, unsigned number, uint64_t value) {
    struct unit *u = &h->unit;
    h->accesses++;
    switch (number) {
    case MCTRCTL: u->control = value; break;
    case SCTRSTATUS: u->pointer = value % u->depth; break;
    case SISELECT: u->select = value; break;
    case SCTRDEPTH:
        u->code = value;
        u->depth = 16u << value;
        u->pointer = 0;
        memset(u->slots, 0, sizeof u->slots);
        break;
    default: *word(u, number) = value;
    }
}

/* The records of a hart go to an area and come back through the registers alone. */
static void save(struct hart *h, struct area *a) {
    a->control = get(h, MCTRCTL);
    a->code = get(h, SCTRDEPTH);
    a->pointer = get(h, SCTRSTATUS);
    a->select = get(h, SISELECT);
    for (unsigned i = 0; i < 16u << a->code; i++) {
        set(h, SISELECT, 0x200 + i);
        a->slots[i] = (struct slot){get(h, SIREG), get(h, SIREG2), get(h, SIREG3)};
    }
}

static void restore(struct hart *h, const struct area *a) {
    set(h, SCTRDEPTH, a->code);
    set(h, SCTRSTATUS, a->pointer);
    for (unsigned i = 0; i < 16u << a->code; i++) {
        set(h, SISELECT, 0x200 + i);
        set(h, SIREG, a->slots[i].source);
        set(h, SIREG2, a->slots[i].target);
        set(h, SIREG3, a->slots[i].kind);
    }
    set(h, SISELECT, a->select);
    set(h, MCTRCTL, a->control);
}

static void leave(int hart) {
    struct hart *h = &harts[hart];
    if (h->resident == NOWHERE) return;
    struct task *t = &tasks[h->resident];
    save(h, &t->area);
    t->core = h->core;
    t->hart = h->resident = NOWHERE;
}

static void come(int task, int hart) {
    struct task *t = &tasks[task];
    if (t->hart == hart) return;
    if (t->hart != NOWHERE) leave(t->hart);
    leave(hart);
    restore(&harts[hart], &t->area);
    harts[hart].core = t->core;
    harts[hart].resident = task;
    t->hart = hart;
}

/* The flags of a branch: its type, and whether its prediction missed or hit where it has one. */
static uint64_t flags_of(uint64_t kind, int missed) {
    static const uint8_t types[16] = {0, 7, 12, 11, 1, 1, 0, 0, 5, 4, 3, 2, 5, 6, 3, 2};
    static const uint8_t predicted[16] = {[4] = 1, [5] = 1, [8] = 1, [10] = 1, [12] = 1, [13] = 1, [14] = 1};
    return (uint64_t)types[kind & 15] << 20 | (predicted[kind & 15] ? 2 - missed : 0);
}

static uint8_t *put(uint8_t *at, uint64_t value, int count) {
    memcpy(at, &value, count);
    return at + count;
}

static int written(const uint8_t *bytes, size_t count) {
    while (count) {
        ssize_t took = write(1, bytes, count);
        if (took <= 0) return 0;
        bytes += took;
        count -= took;
    }
    return 1;
}

static int sample(int task) {
    static uint8_t bytes[HEAD + BRANCH * 256];
    struct hart *h = &harts[tasks[task].hart];
    unsigned depth = 16u << get(h, SCTRDEPTH);
    uint64_t select = get(h, SISELECT), count = 0;
    uint8_t *at = bytes + HEAD;
    for (unsigned i = 0; i < depth; i++) {
        set(h, SISELECT, 0x200 + i);
        uint64_t source = get(h, SIREG), target = get(h, SIREG2), kind = get(h, SIREG3);
        if (!(source & 1)) continue;
        at = put(put(put(at, source & ~1ULL, 8), target & ~1ULL, 8), flags_of(kind, target & 1), 8);
        count++;
    }
    set(h, SISELECT, select);
    size_t size = at - bytes;
    at = put(put(put(bytes, 9, 4), 3, 2), size, 2);
    put(put(put(put(at, h->core.pc, 8), task + 1, 4), task + 1, 4), count, 8);
    return written(bytes, size);
}

static int run(int hart, int task, uint64_t steps) {
    struct task *t = &tasks[task];
    come(task, hart);
    uint64_t due = t->period ? t->period - t->steps % t->period : 0;
    for (uint64_t i = 0; i < steps; i++) {
        if (!step(&harts[hart], &t->memory, 0)) return 0;
        t->steps++;
        if (due && --due == 0) {
            if (!sample(task)) return 0;
            due = t->period;
        }
    }
    return 1;
}

static char *line(void) {
    static char text[256];
    return fgets(text, sizeof text, stdin);
}

static int head(void) {
    unsigned image, size, code;
    unsigned long long control, other, period;
    static unsigned images[TASKS];
    for (char *text = line(); text && strcmp(text, "images\n"); text = line()) {
        if (sscanf(text, "task %u %u %u %llx %llx %llu", &image, &size, &code, &control, &other, &period) != 6) continue;
        struct task *t = &tasks[task_count];
        images[task_count++] = image;
        t->memory = (struct memory){calloc(size, 1), size};
        t->period = period;
        t->hart = NOWHERE;
        t->core.pc = BASE;
        t->area.control = control;
        t->area.code = code;
    }
    for (int i = 0; i < task_count; i++)
        if (fread(tasks[i].memory.bytes, 1, images[i], stdin) != images[i]) return 0;
    return 1;
}

static int run_schedule(void) {
    int hart, task;
    unsigned long long steps;
    for (int i = 0; i < HARTS; i++) harts[i].resident = NOWHERE, set(&harts[i], SCTRDEPTH, 0);
    if (!head()) return 5;
    for (char *text = line(); text && strcmp(text, "end\n"); text = line()) {
        if (sscanf(text, "run %d %d %llu", &hart, &task, &steps) == 3) {
            if (!run(hart, task, steps)) return 8;
        } else if (sscanf(text, "sample %d", &task) == 1) {
            if (!sample(task)) return 4;
        } else if (sscanf(text, "evict %d", &hart) == 1) {
            leave(hart);
        }
    }
    return 0;
}

static int show(void) {
    static const char *const types[16] = {"unknown", "cond", "uncond", "ind", "call", "ind_call", "ret", "syscall", "sysret",
        "cond_call", "cond_ret", "eret", "irq", "serror", "no_tx", "extend_abi"};
    static uint8_t bytes[HEAD + BRANCH * 256];
    static char text[32768];
    unsigned long long offset = 0, word[3], ip, count;
    while (fread(bytes, 1, HEAD, stdin) == HEAD) {
        uint16_t misc, size;
        uint32_t thread[2];
        memcpy(&misc, bytes + 4, 2);
        memcpy(&size, bytes + 6, 2);
        memcpy(&ip, bytes + 8, 8);
        memcpy(thread, bytes + 16, 8);
        memcpy(&count, bytes + 24, 8);
        if (fread(bytes + HEAD, 1, size - HEAD, stdin) != size - (size_t)HEAD) return 6;
        char *at = text;
        at += sprintf(at, "sample %llu misc %u size %u\nip 0x%016llx\npid %u tid %u\nbranches %llu\n", offset, misc, size, ip,
                      thread[0], thread[1], count);
        for (unsigned long long i = 0; i < count; i++) {
            memcpy(word, bytes + HEAD + BRANCH * i, BRANCH);
            at += sprintf(at, "0x%016llx 0x%016llx %s 0x%016llx\n", word[0], word[1], types[word[2] >> 20 & 15], word[2]);
        }
        if (!written((uint8_t *)text, at - text)) return 4;
        offset += size;
    }
    return 0;
}

int main(int argc, char **argv) {
    if (argc == 2 && !strcmp(argv[1], "run")) return run_schedule();
    if (argc == 2 && !strcmp(argv[1], "show")) return show();
    return 2;
}
