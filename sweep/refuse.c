// Refuses one request for memory of a program: the one whose number REFUSE names, among all that it makes and that the C library makes for it
// (as for a thread). It reports that by making the file REFUSE_MARK. Preloaded by sweep/refused_memory; frees are never refused.
#define _GNU_SOURCE
#include <dlfcn.h>
#include <errno.h>
#include <fcntl.h>
#include <stdlib.h>
#include <unistd.h>

static long asked;

static int is_refused(void) {
    const char *number = getenv("REFUSE");
    if (!number || __atomic_add_fetch(&asked, 1, __ATOMIC_RELAXED) != atol(number))
        return 0;
    const char *mark = getenv("REFUSE_MARK");
    int made = mark ? open(mark, O_CREAT | O_WRONLY, 0600) : -1;
    if (made >= 0)
        close(made);
    errno = ENOMEM;
    return 1;
}

void *malloc(size_t size) {
    static void *(*next)(size_t);
    if (!next)
        next = (void *(*)(size_t))dlsym(RTLD_NEXT, "malloc");
    return is_refused() ? NULL : next(size);
}

void *calloc(size_t count, size_t size) {
    static void *(*next)(size_t, size_t);
    if (!next)
        next = (void *(*)(size_t, size_t))dlsym(RTLD_NEXT, "calloc");
    return is_refused() ? NULL : next(count, size);
}

void *realloc(void *old, size_t size) {
    static void *(*next)(void *, size_t);
    if (!next)
        next = (void *(*)(void *, size_t))dlsym(RTLD_NEXT, "realloc");
    return is_refused() ? NULL : next(old, size);
}

void *aligned_alloc(size_t alignment, size_t size) {
    static void *(*next)(size_t, size_t);
    if (!next)
        next = (void *(*)(size_t, size_t))dlsym(RTLD_NEXT, "aligned_alloc");
    return is_refused() ? NULL : next(alignment, size);
}

int posix_memalign(void **place, size_t alignment, size_t size) {
    static int (*next)(void **, size_t, size_t);
    if (!next)
        next = (int (*)(void **, size_t, size_t))dlsym(RTLD_NEXT, "posix_memalign");
    return is_refused() ? ENOMEM : next(place, alignment, size);
}
