// A library to be loaded before a program (LD_PRELOAD): it refuses the call number FAIL_AT, from 0, of those that ask for
// memory, and with FAIL_TELL tells at the end, on the error output, how many there were. Programs that this one starts are
// without it.
#define _GNU_SOURCE
#include <errno.h>
#include <stdio.h>
#include <stdlib.h>
#include <unistd.h>

extern void *__libc_malloc(size_t);
extern void *__libc_calloc(size_t, size_t);
extern void *__libc_realloc(void *, size_t);
extern void *__libc_memalign(size_t, size_t);

static long calls, refused = -2;
static int tells;

static int refuses(void) {
    if (refused == -2) {
        const char *number = getenv("FAIL_AT");
        refused = number ? atol(number) : -1;
    }
    if (calls++ != refused) return 0;
    errno = ENOMEM;
    return 1;
}

void *malloc(size_t size) { return refuses() ? 0 : __libc_malloc(size); }
void *calloc(size_t count, size_t size) { return refuses() ? 0 : __libc_calloc(count, size); }
void *realloc(void *old, size_t size) { return refuses() ? 0 : __libc_realloc(old, size); }
void *aligned_alloc(size_t at, size_t size) { return refuses() ? 0 : __libc_memalign(at, size); }

int posix_memalign(void **place, size_t at, size_t size) {
    if (refuses()) return ENOMEM;
    *place = __libc_memalign(at, size);
    return *place ? 0 : ENOMEM;
}

__attribute__((constructor)) static void begin(void) {
    tells = getenv("FAIL_TELL") != 0;
    unsetenv("LD_PRELOAD");
}

__attribute__((destructor)) static void tell(void) {
    if (tells) {
        char line[40];
        int length = snprintf(line, sizeof line, "calls %ld\n", calls);
        if (write(2, line, length) < 0) return;
    }
}
