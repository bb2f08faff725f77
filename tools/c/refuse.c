/* A library to load before a program: the request for memory whose number, from 1, stands in REFUSE is refused, which is told on standard
   error as `refused`. The number of all requests is told there where COUNT is set, and each with its size where SIZES is. */
#define _GNU_SOURCE
#include <errno.h>
#include <stddef.h>
#include <stdio.h>
#include <stdlib.h>
#include <sys/syscall.h>
#include <unistd.h>

extern void *__libc_malloc(size_t size);
extern void *__libc_realloc(void *old, size_t size);
extern void *__libc_calloc(size_t count, size_t size);
extern void *__libc_memalign(size_t align, size_t size);

static long refused = -1;
static long requests;

static int told = -1;

static void tell(size_t size) {
    char line[40];
    (void)!syscall(SYS_write, 2, line, snprintf(line, sizeof line, "request %zu\n", size));
}

static int refuse(size_t size) {
    if (refused < 0) {
        const char *word = getenv("REFUSE");
        told = getenv("SIZES") != NULL;
        refused = word ? atol(word) : 0;
    }
    long number = __atomic_add_fetch(&requests, 1, __ATOMIC_SEQ_CST);
    if (told == 1) tell(size);
    if (refused != number) return 0;
    (void)!syscall(SYS_write, 2, "refused\n", 8);
    errno = ENOMEM;
    return 1;
}

void *malloc(size_t size) { return refuse(size) ? NULL : __libc_malloc(size); }
void *realloc(void *old, size_t size) { return refuse(size) ? NULL : __libc_realloc(old, size); }
void *calloc(size_t count, size_t size) { return refuse(count * size) ? NULL : __libc_calloc(count, size); }
void *memalign(size_t align, size_t size) { return refuse(size) ? NULL : __libc_memalign(align, size); }
void *aligned_alloc(size_t align, size_t size) { return refuse(size) ? NULL : __libc_memalign(align, size); }

int posix_memalign(void **place, size_t align, size_t size) {
    if (refuse(size)) return ENOMEM;
    *place = __libc_memalign(align, size);
    return *place ? 0 : ENOMEM;
}

__attribute__((destructor)) static void count(void) {
    if (getenv("COUNT")) dprintf(2, "requests %ld\n", requests);
}

/* A program that ends so runs no destructor. */
void _exit(int status) {
    count();
    syscall(SYS_exit_group, status);
    __builtin_unreachable();
}
