/* Refuses the library memory, as a test tells it to. Stands before the C library: linked into a test, or preloaded.
 *
 *     refuse_growth(3, NULL)      the third call for memory from now on finds none, whoever makes it
 *     refuse_growth(3, "libdilforec")  the third that comes from a file with such a name
 *     refuse_growth(0, NULL)      none is refused any more; the result is how many were asked for
 */
#define _GNU_SOURCE
#include <dlfcn.h>
#include <errno.h>
#include <stddef.h>
#include <string.h>

static _Thread_local long nth, asked;
static _Thread_local const char *asker;

long refuse_growth(long n, const char *file) {
    long before = asked;
    nth = n;
    asker = file;
    asked = 0;
    return before;
}

static int is_refused(void *caller) {
    Dl_info from;
    if (nth == 0) return 0;
    if (asker && !(dladdr(caller, &from) && from.dli_fname && strstr(from.dli_fname, asker))) return 0;
    if (++asked != nth) return 0;
    errno = ENOMEM;
    return 1;
}

void *malloc(size_t size) {
    static void *(*next)(size_t);
    if (!next) next = dlsym(RTLD_NEXT, "malloc");
    return is_refused(__builtin_return_address(0)) ? NULL : next(size);
}

void *realloc(void *old, size_t size) {
    static void *(*next)(void *, size_t);
    if (!next) next = dlsym(RTLD_NEXT, "realloc");
    return is_refused(__builtin_return_address(0)) ? NULL : next(old, size);
}
