/* Refuses the memory request of the number FAIL_ALLOC, counted from 1 over malloc, calloc and realloc, and at the end writes
   how many there were to the file FAIL_COUNT. It is loaded before the C library (LD_PRELOAD). */
#include <errno.h>
#include <stdatomic.h>
#include <stddef.h>
#include <stdio.h>
#include <stdlib.h>
#include <sys/syscall.h>
#include <unistd.h>

extern void *__libc_malloc(size_t);
extern void *__libc_calloc(size_t, size_t);
extern void *__libc_realloc(void *, size_t);

static atomic_long calls;
static long refused;

__attribute__((constructor)) static void begin(void) {
    const char *number = getenv("FAIL_ALLOC");
    refused = number ? atol(number) : 0;
    atomic_store(&calls, 0);
}

__attribute__((destructor)) static void end(void) {
    long count = atomic_load(&calls);
    refused = 0;
    const char *name = getenv("FAIL_COUNT");
    FILE *file = name ? fopen(name, "w") : NULL;
    if (file) {
        fprintf(file, "%ld\n", count);
        fclose(file);
    }
}

/* A program may end without the destructor. */
void _exit(int status) {
    end();
    syscall(SYS_exit_group, status);
    __builtin_unreachable();
}

static int is_refused(void) {
    if (atomic_fetch_add(&calls, 1) + 1 != refused || refused == 0)
        return 0;
    errno = ENOMEM;
    return 1;
}

void *malloc(size_t size) { return is_refused() ? NULL : __libc_malloc(size); }

void *calloc(size_t count, size_t size) { return is_refused() ? NULL : __libc_calloc(count, size); }

void *realloc(void *kept, size_t size) { return is_refused() ? NULL : __libc_realloc(kept, size); }
