// Refuses what a program asks of the system, for tools/refusals.py: loaded before the C library, it counts the calls that take
// memory, the reads of standard input and the writes of standard output and error, and has one of them fail, or each one give little.
//
// REFUSE_MEMORY=N  the Nth call that takes memory gives none         REFUSE_LATER=1  and so does each one after it
// FAIL_READ=N      the Nth read of standard input fails              SHORT_READ=K    a read gives at most K bytes
// FAIL_OUT=N       the Nth write to standard output fails            SHORT_WRITE=K   a write takes at most K bytes
// FAIL_ERROR=N     the Nth write to standard error fails             INTERRUPT=K     K reads or writes in a row are interrupted
//                                                                    before each one that is done
// COUNTS=FILE      the four counts are written there at the end
#define _GNU_SOURCE
#include <dlfcn.h>
#include <errno.h>
#include <fcntl.h>
#include <stdio.h>
#include <stdlib.h>
#include <string.h>
#include <unistd.h>

static long memory_calls, reads, outs, errors_written;
static long refuse_memory, refuse_later, fail_read, short_read, fail_out, short_write, fail_error, interrupt, interrupted;
static int is_ready;

static long number(const char *name)
{
    const char *text = getenv(name);
    return text ? atol(text) : 0;
}

__attribute__((constructor)) static void begin(void)
{
    refuse_memory = number("REFUSE_MEMORY");
    refuse_later = number("REFUSE_LATER");
    fail_read = number("FAIL_READ");
    short_read = number("SHORT_READ");
    fail_out = number("FAIL_OUT");
    short_write = number("SHORT_WRITE");
    fail_error = number("FAIL_ERROR");
    interrupt = number("INTERRUPT");
    is_ready = 1;
}

static ssize_t (*real_read(void))(int, void *, size_t) { return (ssize_t (*)(int, void *, size_t))dlsym(RTLD_NEXT, "read"); }
static ssize_t (*real_write(void))(int, const void *, size_t) { return (ssize_t (*)(int, const void *, size_t))dlsym(RTLD_NEXT, "write"); }

__attribute__((destructor)) static void end(void)
{
    const char *name = getenv("COUNTS");
    if (!name)
        return;
    char line[128];
    int length = snprintf(line, sizeof line, "%ld %ld %ld %ld\n", memory_calls, reads, outs, errors_written);
    int file = open(name, O_WRONLY | O_CREAT | O_TRUNC, 0600);
    if (file >= 0) {
        if (real_write()(file, line, length) != length)
            abort();
        close(file);
    }
}

// Whether this call that takes memory is one to be refused. Those before the program's own start are not counted.
static int is_refused(void)
{
    if (!is_ready)
        return 0;
    long now = ++memory_calls;
    return refuse_memory && (now == refuse_memory || (refuse_later && now > refuse_memory));
}

extern void *__libc_malloc(size_t);
extern void *__libc_calloc(size_t, size_t);
extern void *__libc_realloc(void *, size_t);
extern void *__libc_memalign(size_t, size_t);

static void *none(void)
{
    errno = ENOMEM;
    return NULL;
}

void *malloc(size_t size) { return is_refused() ? none() : __libc_malloc(size); }
void *calloc(size_t count, size_t size) { return is_refused() ? none() : __libc_calloc(count, size); }
void *realloc(void *old, size_t size) { return is_refused() ? none() : __libc_realloc(old, size); }
void *memalign(size_t alignment, size_t size) { return is_refused() ? none() : __libc_memalign(alignment, size); }
void *aligned_alloc(size_t alignment, size_t size) { return is_refused() ? none() : __libc_memalign(alignment, size); }
int posix_memalign(void **to, size_t alignment, size_t size)
{
    if (is_refused())
        return ENOMEM;
    void *made = __libc_memalign(alignment, size);
    if (!made)
        return ENOMEM;
    *to = made;
    return 0;
}

// Whether this call is one that a signal interrupts.
static int is_interrupted(void)
{
    if (interrupted == interrupt) {
        interrupted = 0;
        return 0;
    }
    interrupted++;
    errno = EINTR;
    return 1;
}

ssize_t read(int file, void *to, size_t size)
{
    if (is_ready && file == 0) {
        if (is_interrupted())
            return -1;
        if (++reads == fail_read) {
            errno = EIO;
            return -1;
        }
        if (short_read && size > (size_t)short_read)
            size = short_read;
    }
    return real_read()(file, to, size);
}

ssize_t write(int file, const void *from, size_t size)
{
    if (is_ready && (file == 1 || file == 2) && is_interrupted())
        return -1;
    if (is_ready && file == 1 && ++outs == fail_out) {
        errno = EIO;
        return -1;
    }
    if (is_ready && file == 2 && ++errors_written == fail_error) {
        errno = EIO;
        return -1;
    }
    if (is_ready && (file == 1 || file == 2) && short_write && size > (size_t)short_write)
        size = short_write;
    return real_write()(file, from, size);
}
