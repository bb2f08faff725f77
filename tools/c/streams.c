/* A library to load before a program: its reads, its writes to standard output and the threads that it starts go as these variables say.
       READ_FAILS, WRITE_FAILS     the number, from 1, of the read or write that fails, once
       READ_PART, WRITE_PART       how many octets one takes at most
       READS_OF, WRITES_OF         the descriptor, or how the path of the file ends, of which reads or writes are meant; else all reads, and
                                   writes to standard output
       INTERRUPTED                 each is interrupted once before it is made
       THREADS_FAIL                the number, from 1, of the thread from which on none can be started
       TELL                        how many reads, writes and threads there were is told on standard error at the end */
#define _GNU_SOURCE
#include <dlfcn.h>
#include <errno.h>
#include <pthread.h>
#include <limits.h>
#include <stdio.h>
#include <stdlib.h>
#include <string.h>
#include <sys/syscall.h>
#include <unistd.h>

struct stream {
    const char *of;
    long fails, part, made;
    int is_next;
};

static struct stream reads, writes;
static long threads, threads_fail, interrupted;

static long said(const char *name) {
    const char *word = getenv(name);
    return word ? atol(word) : 0;
}

__attribute__((constructor)) static void begin(void) {
    reads.of = getenv("READS_OF");
    writes.of = getenv("WRITES_OF");
    reads.fails = said("READ_FAILS");
    reads.part = said("READ_PART");
    writes.fails = said("WRITE_FAILS");
    writes.part = said("WRITE_PART");
    threads_fail = said("THREADS_FAIL");
    interrupted = said("INTERRUPTED");
}

/* Whether this one goes, and how many octets it may take. */
static int goes(struct stream *it, size_t *size) {
    if (interrupted && !it->is_next) {
        it->is_next = 1;
        errno = EINTR;
        return 0;
    }
    it->is_next = 0;
    if (++it->made == it->fails) {
        errno = EIO;
        return 0;
    }
    if (it->part && (size_t)it->part < *size) *size = it->part;
    return 1;
}

/* Whether a descriptor is the one that is said, by its number or by how the path of its file ends. */
static int is_meant(const char *of, int file) {
    char link[32], path[PATH_MAX];
    char *end;
    long number = strtol(of, &end, 10);
    if (!*end) return number == file;
    snprintf(link, sizeof link, "/proc/self/fd/%d", file);
    ssize_t size = readlink(link, path, sizeof path), tail = (ssize_t)strlen(of);
    return size >= tail && !memcmp(path + size - tail, of, tail);
}

ssize_t read(int file, void *room, size_t size) {
    if ((!reads.of || is_meant(reads.of, file)) && !goes(&reads, &size)) return -1;
    return syscall(SYS_read, file, room, size);
}

ssize_t write(int file, const void *octets, size_t size) {
    if ((writes.of ? is_meant(writes.of, file) : file == 1) && !goes(&writes, &size)) return -1;
    return syscall(SYS_write, file, octets, size);
}

ssize_t __write(int file, const void *octets, size_t size) { return write(file, octets, size); }

int pthread_create(pthread_t *thread, const pthread_attr_t *how, void *(*run)(void *), void *given) {
    int (*real)(pthread_t *, const pthread_attr_t *, void *(*)(void *), void *) = dlsym(RTLD_NEXT, "pthread_create");
    long number = __atomic_add_fetch(&threads, 1, __ATOMIC_SEQ_CST);
    return threads_fail && number >= threads_fail ? EAGAIN : real(thread, how, run, given);
}

__attribute__((destructor)) static void tell(void) {
    if (getenv("TELL")) dprintf(2, "reads %ld writes %ld threads %ld\n", reads.made, writes.made, threads);
}

/* A program that ends so runs no destructor. */
void _exit(int status) {
    tell();
    syscall(SYS_exit_group, status);
    __builtin_unreachable();
}
