/* Stands before the C library, and has calls of a program fail as the environment says.
 *
 *     FAIL_GROWTH=N    the Nth call for memory finds none
 *     COUNT=1          at the end the numbers of calls for memory and of reads are told on standard error
 *     THREADS=1        at the end the number of threads that were started is told there
 *     FAIL_THREAD=N    the Nth thread isn't started, nor is a later one
 *     FAIL_READ=N      the Nth read of standard input fails with FAIL_ERRNO (5, an input or output error, without it)
 *     FAIL_WRITE=N     the Nth write to standard output fails so
 *     ZERO_WRITE=N     the Nth write to standard output takes no byte
 *     ONE_BYTE=1       reads and writes there move one byte a call
 */
#define _GNU_SOURCE
#include <dlfcn.h>
#include <errno.h>
#include <pthread.h>
#include <stdio.h>
#include <stdlib.h>
#include <unistd.h>

static long growth_at, thread_at, read_at, write_at, zero_at, error = EIO, growths, tries, threads, reads, writes;
static int is_ready, is_short;
static void *(*next_malloc)(size_t);
static void *(*next_realloc)(void *, size_t);
static int (*next_memalign)(void **, size_t, size_t);
static int (*next_create)(pthread_t *, const pthread_attr_t *, void *(*)(void *), void *);
static ssize_t (*next_read)(int, void *, size_t);
static ssize_t (*next_write)(int, const void *, size_t);

static long number(const char *name) {
    const char *text = getenv(name);
    return text ? atol(text) : 0;
}

static void begin(void) {
    if (is_ready) return;
    is_ready = 1;
    next_malloc = dlsym(RTLD_NEXT, "malloc");
    next_realloc = dlsym(RTLD_NEXT, "realloc");
    next_memalign = dlsym(RTLD_NEXT, "posix_memalign");
    next_create = dlsym(RTLD_NEXT, "pthread_create");
    next_read = dlsym(RTLD_NEXT, "read");
    next_write = dlsym(RTLD_NEXT, "write");
    growth_at = number("FAIL_GROWTH");
    thread_at = number("FAIL_THREAD");
    read_at = number("FAIL_READ");
    write_at = number("FAIL_WRITE");
    zero_at = number("ZERO_WRITE");
    is_short = number("ONE_BYTE") != 0;
    if (number("FAIL_ERRNO")) error = number("FAIL_ERRNO");
}

static int is_refused(void) {
    begin();
    if (__atomic_add_fetch(&growths, 1, __ATOMIC_SEQ_CST) != growth_at) return 0;
    errno = ENOMEM;
    return 1;
}

void *malloc(size_t n) { return is_refused() ? NULL : next_malloc(n); }
void *realloc(void *p, size_t n) { return is_refused() ? NULL : next_realloc(p, n); }
int posix_memalign(void **p, size_t a, size_t n) { return is_refused() ? ENOMEM : next_memalign(p, a, n); }

ssize_t read(int file, void *to, size_t n) {
    begin();
    if (file == 0 && ++reads == read_at) {
        errno = error;
        return -1;
    }
    return next_read(file, to, file == 0 && is_short && n > 1 ? 1 : n);
}

ssize_t write(int file, const void *from, size_t n) {
    begin();
    if (file == 1 && ++writes == write_at) {
        errno = error;
        return -1;
    }
    if (file == 1 && writes == zero_at) return 0;
    return next_write(file, from, file == 1 && is_short && n > 1 ? 1 : n);
}

int pthread_create(pthread_t *thread, const pthread_attr_t *how, void *(*run)(void *), void *with) {
    begin();
    long nth = __atomic_add_fetch(&tries, 1, __ATOMIC_SEQ_CST);
    if (thread_at && nth >= thread_at) return EAGAIN;
    int refused = next_create(thread, how, run, with);
    if (!refused) __atomic_add_fetch(&threads, 1, __ATOMIC_SEQ_CST);
    return refused;
}

__attribute__((destructor)) static void tell(void) {
    if (getenv("COUNT")) dprintf(2, "%ld %ld\n", growths, reads);
    if (getenv("THREADS")) dprintf(2, "%ld\n", threads);
}

/* A program that may have threads ends by this call alone. */
void _exit(int status) {
    tell();
    ((void (*)(int))dlsym(RTLD_NEXT, "_exit"))(status);
    __builtin_unreachable();
}
