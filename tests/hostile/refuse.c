/* Stands before the C library for one run of the program, by LD_PRELOAD, and refuses it what a system may refuse.

   REFUSE says what, one or several with commas between them:
     memory:N       the N-th call for memory, from 1
     memory-from:N  that one and all behind it
     call:N         the N-th call on files, an open or a read, fails with EIO
     write:N        the N-th write on standard output fails with ENOSPC
     short          each read and each write moves one byte at most
   COUNT names a file for the numbers of calls, four words of eight bytes: calls for memory, opens, opens and reads together, writes on standard output. The program may end without a word to
   the C library, so they are counted in the file's memory. */
#include <errno.h>
#include <fcntl.h>
#include <stdarg.h>
#include <stdatomic.h>
#include <stdlib.h>
#include <string.h>
#include <sys/mman.h>
#include <sys/syscall.h>
#include <unistd.h>

extern void *__libc_malloc(size_t);
extern void *__libc_calloc(size_t, size_t);
extern void *__libc_realloc(void *, size_t);
extern void *__libc_memalign(size_t, size_t);

static unsigned long memory_at, memory_from, call_at, write_at;
static int moves_one;

enum { ASKED, OPENS, CALLS, WRITES, COUNTS };
static atomic_ulong here[COUNTS];
static atomic_ulong *calls = here;

static void count_in(const char *file)
{
    int fd = open(file, O_RDWR | O_CREAT | O_TRUNC, 0600);
    if (fd < 0 || ftruncate(fd, sizeof here) != 0)
        abort();
    void *at = mmap(0, sizeof here, PROT_READ | PROT_WRITE, MAP_SHARED, fd, 0);
    if (at == MAP_FAILED)
        abort();
    calls = at;
    close(fd);
}

static void read_one(const char *told)
{
    static const struct {
        const char *name;
        unsigned long *place;
    } numbered[] = {{"memory:", &memory_at}, {"memory-from:", &memory_from}, {"call:", &call_at}, {"write:", &write_at}};
    for (int i = 0; i < 4; i++) {
        size_t length = strlen(numbered[i].name);
        if (!strncmp(told, numbered[i].name, length))
            *numbered[i].place = strtoul(told + length, 0, 10);
    }
    if (!strncmp(told, "short", 5))
        moves_one = 1;
}

__attribute__((constructor)) static void begin(void)
{
    if (getenv("COUNT"))
        count_in(getenv("COUNT"));
    for (const char *told = getenv("REFUSE"); told; told = strchr(told, ',') ? strchr(told, ',') + 1 : 0)
        read_one(told);
}

static int no_memory(void)
{
    unsigned long number = ++calls[ASKED];
    if (number == memory_at || (memory_from && number >= memory_from)) {
        errno = ENOMEM;
        return 1;
    }
    return 0;
}

void *malloc(size_t size) { return no_memory() ? 0 : __libc_malloc(size); }
void *calloc(size_t count, size_t size) { return no_memory() ? 0 : __libc_calloc(count, size); }
void *realloc(void *old, size_t size) { return no_memory() ? 0 : __libc_realloc(old, size); }
void *aligned_alloc(size_t align, size_t size) { return no_memory() ? 0 : __libc_memalign(align, size); }

int posix_memalign(void **into, size_t align, size_t size)
{
    void *got = no_memory() ? 0 : __libc_memalign(align, size);
    if (!got)
        return ENOMEM;
    *into = got;
    return 0;
}

static int no_call(void)
{
    if (++calls[CALLS] == call_at) {
        errno = EIO;
        return 1;
    }
    return 0;
}

int open(const char *path, int flags, ...)
{
    mode_t mode = 0;
    if (flags & O_CREAT) {
        va_list more;
        va_start(more, flags);
        mode = va_arg(more, mode_t);
        va_end(more);
    }
    ++calls[OPENS];
    return no_call() ? -1 : (int)syscall(SYS_openat, AT_FDCWD, path, flags, mode);
}

ssize_t read(int fd, void *into, size_t size)
{
    return no_call() ? -1 : syscall(SYS_read, fd, into, moves_one && size > 1 ? 1 : size);
}

ssize_t write(int fd, const void *from, size_t size)
{
    if (fd == 1 && ++calls[WRITES] == write_at) {
        errno = ENOSPC;
        return -1;
    }
    return syscall(SYS_write, fd, from, moves_one && size > 1 ? 1 : size);
}
