/* Asks the kernel for large pages where a program maps a large block of its own memory. The prover maps its memory a gigabyte at a time and walks all over it, so most
   of what it waits for is the look-up of small pages. tools/gate and tools/building/build have this loaded in front of it where there is a C compiler; all else is
   as it was, and where the kernel has no large pages nothing changes. */
#define _GNU_SOURCE
#include <stddef.h>
#include <sys/mman.h>
#include <sys/syscall.h>
#include <sys/types.h>
#include <unistd.h>

/* A block from here on is large, in octets. */
#define LARGE (256UL << 20)

void *mmap(void *address, size_t length, int protection, int flags, int file, off_t offset)
{
    void *at = (void *)syscall(SYS_mmap, address, length, protection, flags, file, offset);
    if (at != MAP_FAILED && (flags & MAP_ANONYMOUS) && length >= LARGE)
        (void)syscall(SYS_madvise, at, length, MADV_HUGEPAGE);
    return at;
}

void *mmap64(void *address, size_t length, int protection, int flags, int file, off_t offset)
{
    return mmap(address, length, protection, flags, file, offset);
}
