/* Makes calls of a program fail, for bench/hostile: loaded before the C library by LD_PRELOAD.

   FAIL_ALLOCATION=N   the Nth allocation finds no memory
   FAIL_READ=N         the Nth read of standard input fails
   FAIL_WRITE=N        the Nth write to standard output fails
   PIECES=1            each read of standard input and each write to standard output moves one byte at most
   COUNTS=FILE         the numbers of allocations, reads and writes stand there, three numbers of 8 bytes */
#define _GNU_SOURCE
#include <dlfcn.h>
#include <errno.h>
#include <fcntl.h>
#include <stdatomic.h>
#include <stdlib.h>
#include <sys/mman.h>
#include <unistd.h>

struct counts {
    atomic_long allocations, reads, writes;
};

static struct counts own;
/* in the file, since a program may end without any call that could write it */
static struct counts *counts = &own;
static long fail_allocation, fail_read, fail_write, pieces;

static long number(const char *name)
{
    const char *text = getenv(name);
    return text ? atol(text) : 0;
}

__attribute__((constructor)) static void begin(void)
{
    fail_allocation = number("FAIL_ALLOCATION");
    fail_read = number("FAIL_READ");
    fail_write = number("FAIL_WRITE");
    pieces = number("PIECES");
    const char *path = getenv("COUNTS");
    int file = path ? open(path, O_RDWR | O_CREAT | O_TRUNC, 0600) : -1;
    if (file >= 0 && ftruncate(file, sizeof *counts) == 0) {
        void *kept = mmap(NULL, sizeof *counts, PROT_READ | PROT_WRITE, MAP_SHARED, file, 0);
        if (kept != MAP_FAILED)
            counts = kept;
    }
    counts->allocations = 0;
}

static int is_refused(void)
{
    return atomic_fetch_add(&counts->allocations, 1) + 1 == fail_allocation;
}

extern void *__libc_malloc(size_t);
extern void *__libc_calloc(size_t, size_t);
extern void *__libc_realloc(void *, size_t);
extern void *__libc_memalign(size_t, size_t);

void *malloc(size_t size)
{
    if (is_refused()) {
        errno = ENOMEM;
        return NULL;
    }
    return __libc_malloc(size);
}

void *calloc(size_t count, size_t size)
{
    if (is_refused()) {
        errno = ENOMEM;
        return NULL;
    }
    return __libc_calloc(count, size);
}

void *realloc(void *old, size_t size)
{
    if (is_refused()) {
        errno = ENOMEM;
        return NULL;
    }
    return __libc_realloc(old, size);
}

void *aligned_alloc(size_t alignment, size_t size)
{
    if (is_refused()) {
        errno = ENOMEM;
        return NULL;
    }
    return __libc_memalign(alignment, size);
}

int posix_memalign(void **out, size_t alignment, size_t size)
{
    if (is_refused())
        return ENOMEM;
    *out = __libc_memalign(alignment, size);
    return *out ? 0 : ENOMEM;
}

ssize_t read(int fd, void *to, size_t size)
{
    static ssize_t (*real)(int, void *, size_t);
    if (!real)
        real = (ssize_t(*)(int, void *, size_t))dlsym(RTLD_NEXT, "read");
    if (fd == 0) {
        if (atomic_fetch_add(&counts->reads, 1) + 1 == fail_read) {
            errno = EIO;
            return -1;
        }
        if (pieces && size > 1)
            size = 1;
    }
    return real(fd, to, size);
}

ssize_t write(int fd, const void *from, size_t size)
{
    static ssize_t (*real)(int, const void *, size_t);
    if (!real)
        real = (ssize_t(*)(int, const void *, size_t))dlsym(RTLD_NEXT, "write");
    if (fd == 1) {
        if (atomic_fetch_add(&counts->writes, 1) + 1 == fail_write) {
            errno = EIO;
            return -1;
        }
        if (pieces && size > 1)
            size = 1;
    }
    return real(fd, from, size);
}
