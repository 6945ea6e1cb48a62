/* Switches by a table, with calls and tail calls in their cases. */
volatile int sink;

__attribute__((noinline)) static int work(int n) { int s = 0; for (int i = 0; i < n; i++) s += i ^ sink; return s; }
__attribute__((noinline)) static int other(int n) { sink += n; return work(n & 7) + 1; }
__attribute__((noinline)) static int chosen(int n)
{
    switch (n % 10) {
    case 0: return work(3);
    case 1: return other(n);
    case 2: sink += work(5); return other(n + 1);
    case 3: sink ^= 3; return n;
    case 4: return work(7) + other(2);
    case 5: sink -= n; return work(2);
    case 6: return other(1) * 3;
    case 7: sink += 7; return work(n & 3);
    case 8: return other(work(1));
    default: return chosen(n - 1) + 1;
    }
}

__attribute__((noinline)) void finished(void) { for (;;) { } }

int main(void)
{
    for (int i = 0; i < 200; i++)
        sink += chosen(i);
    finished();
}
