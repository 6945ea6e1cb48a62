/* longjmp out of a function that has a switch by a table: what no record tells. */
#define main other_main
#define deep other_deep
#include "jumps_back.c"
#undef main
#undef deep

__attribute__((noinline)) static int deep(int n)
{
    sink += work(n & 3);
    switch (n) {
    case 0: long_jump(buffer, 1);
    case 1: return deep(0) + work(1);
    case 2: sink ^= 5; return deep(1) + work(2);
    case 3: sink += 9; return deep(2) - work(3);
    case 4: return deep(3) * work(4);
    case 5: sink -= 2; return deep(4) + 1;
    default: return deep(n - 1) + work(5);
    }
}
__attribute__((noinline)) static int tried_here(int n)
{
    if (set_jump(buffer)) {
        sink += work(9);
        return last(n);
    }
    return deep(n) + 1;
}

int main(void)
{
    for (int i = 0; i < 40; i++) {
        sink += tried_here(i % 9);
        sink += work(i & 7);
    }
    finished();
}
