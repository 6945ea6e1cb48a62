/* longjmp out of functions that call on directly and by tail calls, over and over; no switch table among them. */
typedef long jump_buffer[14];
int set_jump(long *) __attribute__((returns_twice));
void long_jump(long *, int) __attribute__((noreturn));
__asm__(".text\n.globl set_jump\n.type set_jump, @function\nset_jump:\n"
        "sd ra, 0(a0)\nsd sp, 8(a0)\nsd s0, 16(a0)\nsd s1, 24(a0)\nsd s2, 32(a0)\nsd s3, 40(a0)\nsd s4, 48(a0)\nsd s5, 56(a0)\n"
        "sd s6, 64(a0)\nsd s7, 72(a0)\nsd s8, 80(a0)\nsd s9, 88(a0)\nsd s10, 96(a0)\nsd s11, 104(a0)\nli a0, 0\nret\n"
        ".size set_jump, . - set_jump\n.globl long_jump\n.type long_jump, @function\nlong_jump:\n"
        "ld ra, 0(a0)\nld sp, 8(a0)\nld s0, 16(a0)\nld s1, 24(a0)\nld s2, 32(a0)\nld s3, 40(a0)\nld s4, 48(a0)\nld s5, 56(a0)\n"
        "ld s6, 64(a0)\nld s7, 72(a0)\nld s8, 80(a0)\nld s9, 88(a0)\nld s10, 96(a0)\nld s11, 104(a0)\nmv a0, a1\nret\n"
        ".size long_jump, . - long_jump\n");
static jump_buffer buffer;
volatile int sink;

__attribute__((noinline)) static int work(int n) { int s = 0; for (int i = 0; i < n; i++) s += i ^ sink; return s; }
__attribute__((noinline)) static int last(int n) { sink += work(n & 7); return work(n & 15); }
__attribute__((noinline)) static int deep(int n)
{
    sink += work(n & 3);
    if (n == 0)
        long_jump(buffer, 1 + (sink & 1));
    int got = deep(n - 1);
    sink += got;
    return got + work(2);
}
__attribute__((noinline)) static int on(int n) { sink += n; return deep(n); }
__attribute__((noinline)) static int tried(int n)
{
    if (set_jump(buffer)) {
        sink += work(9);
        return last(n);
    }
    return on(n) + 1;
}

__attribute__((noinline)) void finished(void) { for (;;) { } }

int main(void)
{
    for (int i = 0; i < 40; i++) {
        sink += tried(i % 9);
        sink += work(i & 7);
    }
    finished();
}
