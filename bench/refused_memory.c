/* For bench/refused_memory.py: loaded before the C library (LD_PRELOAD), it refuses the request for memory whose number is
   FAIL_AT, counted from 1, and writes how many requests there were into the file COUNT_TO. */
#include <errno.h>
#include <stdio.h>
#include <stdlib.h>

extern void *__libc_malloc(size_t), *__libc_calloc(size_t, size_t), *__libc_realloc(void *, size_t);

static long count, fail_at = -1;

static int refused(void) {
    if (fail_at < 0) fail_at = getenv("FAIL_AT") ? atol(getenv("FAIL_AT")) : 0;
    if (++count != fail_at) return 0;
    errno = ENOMEM;
    return 1;
}

void *malloc(size_t size) { return refused() ? NULL : __libc_malloc(size); }
void *calloc(size_t items, size_t size) { return refused() ? NULL : __libc_calloc(items, size); }
void *realloc(void *old, size_t size) { return refused() ? NULL : __libc_realloc(old, size); }

__attribute__((destructor)) static void tell(void) {
    FILE *file = getenv("COUNT_TO") ? fopen(getenv("COUNT_TO"), "w") : NULL;
    if (!file) return;
    fprintf(file, "%ld\n", count);
    fclose(file);
}
