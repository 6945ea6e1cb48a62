/* An interpreter of threaded code: each word is a function that goes on to the next one, by a tail call through a pointer
   where the compiler makes one of it. One word calls a function, one runs a program of its own. */
typedef struct machine machine;
typedef long (*word)(machine *, const long *);
struct machine { long stack[64]; long *top; };
volatile long sink;

__attribute__((noinline)) static long next(machine *m, const long *at) { return ((word)at[0])(m, at + 1); }
__attribute__((noinline)) static long work(long n) { long s = 0; for (long i = 0; i < n; i++) s += i ^ sink; return s; }
static long push(machine *m, const long *at) { *m->top++ = at[0]; return next(m, at + 1); }
static long add(machine *m, const long *at) { m->top--; m->top[-1] += m->top[0]; return ((word)at[0])(m, at + 1); }
static long call(machine *m, const long *at) { m->top[-1] += work(m->top[-1] & 15); return ((word)at[0])(m, at + 1); }
static long enter_word(machine *m, const long *at)
{
    long got = ((word)((const long *)at[0])[0])(m, (const long *)at[0] + 1);
    *m->top++ = got;
    return next(m, at + 1);
}
static long leave(machine *m, const long *at) { (void)at; return *--m->top; }

static long inner[6], outer[12];

__attribute__((noinline)) void finished(void) { for (;;) { } }

int main(void)
{
    long *at = inner;
    *at++ = (long)push, *at++ = 5, *at++ = (long)call, *at++ = (long)leave;
    at = outer;
    *at++ = (long)push, *at++ = 3, *at++ = (long)push, *at++ = 4, *at++ = (long)add, *at++ = (long)enter_word, *at++ = (long)inner;
    *at++ = (long)add, *at++ = (long)call, *at++ = (long)leave;
    for (int i = 0; i < 60; i++) {
        machine m;
        m.top = m.stack;
        sink += ((word)outer[0])(&m, outer + 1);
    }
    finished();
}
