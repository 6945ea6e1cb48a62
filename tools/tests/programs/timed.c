/* A timer's interrupt in the midst of recursion and of tail calls: its handler calls on. */
volatile long ticks, sink;

__attribute__((noinline)) static long counted(long n) { return ticks += n; }
__attribute__((interrupt("machine"))) void tick(void) { sink += counted(1); }

__attribute__((noinline)) static long fib(long n) { return n < 2 ? n : fib(n - 1) + fib(n - 2); }
__attribute__((noinline)) static long tail(long n) { sink += n; return fib(n & 7); }

__attribute__((noinline)) void finished(void) { for (;;) { } }

int main(void)
{
    /* As words, since the compilers ask for different names of the extension: csrw mtvec, a5; csrw mie, a5; csrsi mstatus, 8. */
    register long place __asm__("a5") = (long)tick;
    __asm__ volatile(".word 0x30579073" : : "r"(place));
    register long enabled __asm__("a5") = 128;
    __asm__ volatile(".word 0x30479073\n.word 0x30046073" : : "r"(enabled));
    for (long i = 0; i < 60; i++)
        sink += tail(i);
    __asm__ volatile(".word 0x30047073");      /* csrci mstatus, 8 */
    finished();
}
