/* A yardstick for bench/readers.py: the same input in plain C, with the same tests of each field and each number; the layout is 803.
   plain_readers samples|fields|schedule: reads standard input into memory, then prints how many samples or commands there are, a sum
   of the numbers that were read, and the nanoseconds of processor time that reading took. Samples are read where they lie, or field
   by field through a call.
   plain_readers copy: copies the bytes of a sample of 256 branches as many times as standard input has bytes, and prints how many
   bytes that were, the sum of one byte of each copy, and the nanoseconds. */
#include <stdint.h>
#include <stdio.h>
#include <stdlib.h>
#include <string.h>
#include <time.h>

struct branch { uint64_t from, to, flags; };
struct sample { uint64_t ip; uint32_t pid, tid; uint16_t misc; unsigned nr; struct branch branches[256]; };
struct task { uint64_t image, mem, depth, m, vs, period; };
struct irq { uint64_t task, step, cause; };
struct mark { unsigned count; uint64_t step, cause; };

static uint64_t le(const uint8_t *p, int n) { uint64_t v = 0; memcpy(&v, p, n); return v; }

/* A sample of the layout 803 at the front: its length, or 0 where it is broken. */
__attribute__((noinline)) static size_t sample_at(const uint8_t *p, size_t left, struct sample *s) {
    if (left < 8 || le(p, 4) != 9) return 0;
    unsigned size = le(p + 6, 2);
    if (size < 32 || size > 32 + 24 * 256 || (size - 32) % 24) return 0;
    if (left < 32) return 0;
    s->misc = le(p + 4, 2);
    s->ip = le(p + 8, 8);
    s->pid = le(p + 16, 4);
    s->tid = le(p + 20, 4);
    uint64_t nr = le(p + 24, 8);
    if (nr > 256 || size != 32 + 24 * nr || left < size) return 0;
    s->nr = nr;
    for (unsigned i = 0; i < nr; i++) {
        const uint8_t *q = p + 32 + 24 * i;
        s->branches[i] = (struct branch){le(q, 8), le(q + 8, 8), le(q + 16, 8)};
        if (s->branches[i].flags >> 33) return 0;
    }
    return size;
}

/* What is summed up, so that nobody's stores are left out: ip, and each branch's numbers. */
static uint64_t sum;

static void add(const struct sample *s) {
    sum += s->ip;
    for (unsigned i = 0; i < s->nr; i++) sum += s->branches[i].from ^ s->branches[i].to ^ s->branches[i].flags;
}

__attribute__((noinline)) static long samples(const uint8_t *p, size_t len) {
    static struct sample s;
    long count = 0;
    for (size_t n; len; p += n, len -= n, count++) {
        if (!(n = sample_at(p, len, &s))) return -1;
        add(&s);
    }
    return count;
}

/* The same through a call that gives the next bytes, as many as are asked for and are left. */
struct source { const uint8_t *p; size_t left; };

__attribute__((noinline)) static size_t take(struct source *from, uint8_t *to, size_t n) {
    if (n > from->left) n = from->left;
    memcpy(to, from->p, n);
    from->p += n;
    from->left -= n;
    return n;
}

/* The next field: 1, or 0 where nothing is left of it, or -1 where not all of it is. */
static int field(struct source *from, uint64_t *v) {
    uint8_t b[8];
    size_t at = 0;
    for (size_t n; at < 8; at += n)
        if (!(n = take(from, b + at, 8 - at))) return at ? -1 : 0;
    *v = le(b, 8);
    return 1;
}

__attribute__((noinline)) static int next_sample(struct source *from, struct sample *s) {
    uint64_t v, nr;
    int some = field(from, &v);
    if (some != 1) return some;
    unsigned size = v >> 48;
    if ((uint32_t)v != 9 || size < 32 || size > 32 + 24 * 256 || (size - 32) % 24) return -1;
    s->misc = v >> 32;
    if (field(from, &s->ip) != 1 || field(from, &v) != 1) return -1;
    s->pid = v;
    s->tid = v >> 32;
    if (field(from, &nr) != 1 || nr > 256 || size != 32 + 24 * nr) return -1;
    s->nr = nr;
    for (unsigned i = 0; i < nr; i++) {
        struct branch *b = s->branches + i;
        if (field(from, &b->from) != 1 || field(from, &b->to) != 1 || field(from, &b->flags) != 1 || b->flags >> 33) return -1;
    }
    return 1;
}

__attribute__((noinline)) static long fields(const uint8_t *p, size_t len) {
    static struct sample s;
    struct source from = {p, len};
    long count = 0;
    int some;
    while ((some = next_sample(&from, &s)) == 1) {
        count++;
        add(&s);
    }
    return some ? -1 : count;
}

static int large; /* whether a number of the line is past 64 bits */

/* A number of digits of this base, behind one space: what follows it, or NULL. Larger ones stay at 2^64 - 1. */
static const uint8_t *number(const uint8_t *p, const uint8_t *end, int base, uint64_t *to) {
    uint64_t v = 0;
    if (p == end || *p++ != ' ') return NULL;
    const uint8_t *first = p;
    for (; p < end && *p != ' '; p++) {
        int d = *p >= '0' && *p <= '9' ? *p - '0' : base == 16 && (*p | 32) >= 'a' && (*p | 32) <= 'f' ? (*p | 32) - 'a' + 10 : 16;
        if (d >= base) return NULL;
        if (__builtin_mul_overflow(v, (uint64_t)base, &v) || __builtin_add_overflow(v, (uint64_t)d, &v)) {
            v = UINT64_MAX;
            large = 1;
        }
    }
    *to = v;
    return p > first ? p : NULL;
}

/* A line of one word and some numbers, the h-th and the next of them in hexadecimal; whether it is one. */
static int line(const uint8_t *p, const uint8_t *end, const char *word, int n, int h, uint64_t *to) {
    size_t len = strlen(word);
    if ((size_t)(end - p) < len || memcmp(p, word, len)) return 0;
    p += len;
    large = 0;
    for (int i = 0; i < n && p; i++) p = number(p, end, i == h || i == h + 1 ? 16 : 10, to + i);
    return p == end;
}

static const uint8_t *line_end(const uint8_t *p, const uint8_t *end) {
    size_t left = end - p;
    return memchr(p, '\n', left < 256 ? left : 256);
}

static struct task tasks[64];
static struct irq irqs[64 * 1024];
static struct mark marks[64];

/* Whether an irq line may follow those of its task. */
static int follows(struct mark *m, uint64_t step, uint64_t cause) {
    if (m->count == 1024 || (m->count && (step < m->step || (step == m->step && cause <= m->cause)))) return 0;
    *m = (struct mark){m->count + 1, step, cause};
    return 1;
}

__attribute__((noinline)) static long schedule(const uint8_t *p, size_t len) {
    const uint8_t *end = p + len, *to;
    uint64_t v[6], images = 0;
    long count = 0, at = 0, n = 0, m = 0;
    for (; (to = line_end(p, end)); p = to + 1, at++) {
        if (at == 0) { if (!line(p, to, "ctr-schedule", 1, -9, v) || v[0] != 1) return -1; }
        else if (at == 1) { if (!line(p, to, "harts", 1, -9, v) || v[0] < 1 || v[0] > 16) return -1; }
        else if (at == 2) { if (!line(p, to, "layout", 1, 0, v) || v[0] != 0x803) return -1; }
        else if (line(p, to, "task", 6, 3, v)) {
            if (m || n == 64 || v[1] < 4 || v[1] > 1 << 20 || v[1] % 4 || v[0] > v[1] || v[2] > 4 || v[5] > 1000000000 || large) return -1;
            tasks[n++] = (struct task){v[0], v[1], v[2], v[3], v[4], v[5]};
            images += v[0];
        } else if (line(p, to, "irq", 3, -9, v)) {
            if (v[1] > 1000000000000000 || v[2] > 13 || !(0x2EEE >> v[2] & 1) || v[0] >= (uint64_t)n || !follows(marks + v[0], v[1], v[2])) return -1;
            irqs[m++] = (struct irq){v[0], v[1], v[2]};
        } else break;
    }
    if (!to || !n || !line(p, to, "images", 0, -9, v)) return -1;
    p = to + 1;
    if ((uint64_t)(end - p) < images) return -1;
    uint8_t *image = malloc(images + 1);
    memcpy(image, p, images);
    free(image);
    for (p += images; (to = line_end(p, end)); p = to + 1, count++) {
        if (line(p, to, "end", 0, -9, v)) return to + 1 == end ? count : -1;
        if (count == 1 << 20) return -1;
        if (line(p, to, "run", 3, -9, v)) { if (v[2] > 1000000000) return -1; sum += v[2]; }
        else if (!line(p, to, "sample", 1, -9, v) && !line(p, to, "evict", 1, -9, v)) return -1;
    }
    return -1;
}

static uint8_t *put(uint8_t *p, uint64_t v, int n) { return (uint8_t *)memcpy(p, &v, n) + n; }

/* The sample that write_samples of bench/readers.py writes, copied so many times. */
__attribute__((noinline)) static long copy(size_t times) {
    static uint8_t from[32 + 24 * 256], to[sizeof from];
    uint8_t *p = put(put(put(put(put(from, 9, 4), 3, 2), sizeof from, 2), 0x80000008, 8), 1, 4);
    p = put(put(p, 1, 4), 256, 8);
    for (int i = 0; i < 256; i++) p = put(put(put(p, 0x80000000 + 8 * i, 8), 0x80000100 + 8 * i, 8), 2 << 20, 8);
    for (size_t i = 0; i < times; i++) {
        memcpy(to, from, sizeof from);
        __asm__ volatile("" : : "r"(to) : "memory");
        sum += to[i % sizeof to];
    }
    return times * sizeof from;
}

int main(int argc, char **argv) {
    size_t len = 0, room = 1 << 20;
    uint8_t *bytes = malloc(room);
    for (size_t n; bytes && (n = fread(bytes + len, 1, room - len, stdin)); )
        if ((len += n) == room) bytes = realloc(bytes, room *= 2);
    if (!bytes || argc != 2) return 1;
    struct timespec a, b;
    clock_gettime(CLOCK_THREAD_CPUTIME_ID, &a);
    long count = argv[1][0] == 'f' ? fields(bytes, len) : argv[1][0] == 'c' ? copy(len)
        : strcmp(argv[1], "samples") ? schedule(bytes, len) : samples(bytes, len);
    clock_gettime(CLOCK_THREAD_CPUTIME_ID, &b);
    if (count < 0) return 1;
    printf("%ld %llu %lld\n", count, (unsigned long long)sum, (b.tv_sec - a.tv_sec) * 1000000000LL + (b.tv_nsec - a.tv_nsec));
    return 0;
}
