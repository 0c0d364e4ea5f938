/* Loaded before the C library: makes one chosen call of a program fail. bench/refused builds and loads it.
 *
 * The environment names the call: REFUSED_KIND (memory, memory-on, read, write, interrupt or short) and REFUSED_AT, its
 * number from 1 among the calls of its kind; `memory-on` refuses all growths from that one on. REFUSED_COUNTS names a file
 * for the counts of the calls: growths, reads, writes, and reads and writes together.
 */
#define _GNU_SOURCE
#include <errno.h>
#include <stdio.h>
#include <stdlib.h>
#include <string.h>
#include <sys/syscall.h>
#include <unistd.h>

extern void *__libc_malloc(size_t);
extern void *__libc_calloc(size_t, size_t);
extern void *__libc_realloc(void *, size_t);
extern void *__libc_memalign(size_t, size_t);

static const char *kind = "";
static long at = 0;
static long growths = 0, reads = 0, writes = 0;

static int is(const char *word) { return strcmp(kind, word) == 0; }

__attribute__((constructor)) static void begin(void)
{
    const char *word = getenv("REFUSED_KIND"), *number = getenv("REFUSED_AT");
    growths = 0;
    kind = word ? word : "";
    at = number ? atol(number) : 0;
}

__attribute__((destructor)) static void tell(void)
{
    const char *file = getenv("REFUSED_COUNTS");
    long g = growths, r = reads, w = writes;
    if (!file)
        return;
    kind = "";
    FILE *out = fopen(file, "w");
    if (out) {
        fprintf(out, "%ld %ld %ld %ld\n", g, r, w, r + w);
        fclose(out);
    }
}

static int refused(void)
{
    growths++;
    if ((is("memory") && growths == at) || (is("memory-on") && growths >= at)) {
        errno = ENOMEM;
        return 1;
    }
    return 0;
}

void *malloc(size_t size) { return refused() ? NULL : __libc_malloc(size); }
void *calloc(size_t count, size_t size) { return refused() ? NULL : __libc_calloc(count, size); }
void *realloc(void *old, size_t size) { return refused() ? NULL : __libc_realloc(old, size); }
void *aligned_alloc(size_t to, size_t size) { return refused() ? NULL : __libc_memalign(to, size); }

int posix_memalign(void **made, size_t to, size_t size)
{
    *made = refused() ? NULL : __libc_memalign(to, size);
    return *made ? 0 : ENOMEM;
}

/* How many bytes the call may move, or -1 where it fails. */
static ssize_t allowed(long count, const char *failing, size_t size)
{
    if (is(failing) && count == at) {
        errno = EIO;
        return -1;
    }
    if (reads + writes != at)
        return (ssize_t)size;
    if (is("interrupt")) {
        errno = EINTR;
        return -1;
    }
    return is("short") && size > 1 ? 1 : (ssize_t)size;
}

ssize_t read(int file, void *bytes, size_t size)
{
    ssize_t most = allowed(++reads, "read", size);
    return most < 0 ? most : syscall(SYS_read, file, bytes, most);
}

ssize_t write(int file, const void *bytes, size_t size)
{
    ssize_t most = allowed(++writes, "write", size);
    return most < 0 ? most : syscall(SYS_write, file, bytes, most);
}

ssize_t __write(int file, const void *bytes, size_t size) { return write(file, bytes, size); }
