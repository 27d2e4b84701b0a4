// Fails one call of a program: the one whose number FAIL names, of read, write or pthread_create, by FAIL_CALL. FAIL_HOW is `error` (it
// fails with EIO, and with EAGAIN where it is to make a thread), `interrupted` (it fails with EINTR), `always` (it and each later call fail),
// `none` (a write takes 0 bytes) or `short` (it and each later call move one byte, and nothing fails). Before an error or an interruption the
// calls move one byte each. It reports that the call came by making the file FAIL_MARK, and puts one byte into it for each later call of that kind.
// Preloaded by sweep/failed_calls; standard input, the file that the program opened last, standard output and threads alone count.
#define _GNU_SOURCE
#include <dlfcn.h>
#include <errno.h>
#include <fcntl.h>
#include <pthread.h>
#include <stdarg.h>
#include <stdlib.h>
#include <string.h>
#include <sys/syscall.h>
#include <sys/types.h>
#include <unistd.h>

enum kind { READ, WRITE, THREAD };
enum how { WHOLE, SHORT, NONE, ERROR, INTERRUPTED };

static const char *const names[] = {"read", "write", "pthread_create"};
static long made[3];
static int mark = -1, opened = -1;

static void make_mark(void) {
    const char *name = getenv("FAIL_MARK");
    if (name)
        __atomic_store_n(&mark, syscall(SYS_openat, AT_FDCWD, name, O_CREAT | O_WRONLY | O_APPEND, 0600), __ATOMIC_SEQ_CST);
}

static void count_later_call(void) {
    int made = __atomic_load_n(&mark, __ATOMIC_SEQ_CST);
    if (made >= 0)
        syscall(SYS_write, made, ".", 1);
}

static enum how how(enum kind kind) {
    const char *number = getenv("FAIL"), *wanted = getenv("FAIL_CALL"), *way = getenv("FAIL_HOW");
    if (!number || !wanted || !way || strcmp(wanted, names[kind]))
        return WHOLE;
    long now = __atomic_add_fetch(&made[kind], 1, __ATOMIC_SEQ_CST), at = atol(number);
    int is_short = !strcmp(way, "short"), is_always = !strcmp(way, "always"), is_interrupted = !strcmp(way, "interrupted");
    if (now < at)
        return !strcmp(way, "error") || is_interrupted ? SHORT : WHOLE;
    if (now == at)
        make_mark();
    else
        count_later_call();
    if (is_short)
        return SHORT;
    if (now > at)
        return is_always ? ERROR : WHOLE;
    return is_interrupted ? INTERRUPTED : !strcmp(way, "none") ? NONE : ERROR;
}

// Whether a call fails; errno is the reason.
static int fails(enum how it, int error) {
    if (it == ERROR || it == INTERRUPTED)
        errno = it == ERROR ? error : EINTR;
    return it == ERROR || it == INTERRUPTED;
}

int open(const char *name, int flags, ...) {
    va_list more;
    va_start(more, flags);
    opened = syscall(SYS_openat, AT_FDCWD, name, flags, flags & O_CREAT ? va_arg(more, int) : 0);
    va_end(more);
    return opened;
}

ssize_t read(int file, void *to, size_t count) {
    static ssize_t (*next)(int, void *, size_t);
    if (!next)
        next = (ssize_t (*)(int, void *, size_t))dlsym(RTLD_NEXT, "read");
    enum how it = file == STDIN_FILENO || file == opened ? how(READ) : WHOLE;
    if (fails(it, EIO))
        return -1;
    return next(file, to, it == SHORT && count > 1 ? 1 : count);
}

ssize_t write(int file, const void *from, size_t count) {
    static ssize_t (*next)(int, const void *, size_t);
    if (!next)
        next = (ssize_t (*)(int, const void *, size_t))dlsym(RTLD_NEXT, "write");
    enum how it = file == STDOUT_FILENO ? how(WRITE) : WHOLE;
    if (fails(it, EIO))
        return -1;
    return it == NONE ? 0 : next(file, from, it == SHORT && count > 1 ? 1 : count);
}

ssize_t __write(int file, const void *from, size_t count) {
    return write(file, from, count);
}

int pthread_create(pthread_t *thread, const pthread_attr_t *attributes, void *(*start)(void *), void *argument) {
    static int (*next)(pthread_t *, const pthread_attr_t *, void *(*)(void *), void *);
    if (!next)
        next = (int (*)(pthread_t *, const pthread_attr_t *, void *(*)(void *), void *))dlsym(RTLD_NEXT, "pthread_create");
    enum how it = how(THREAD);
    return it == ERROR ? EAGAIN : next(thread, attributes, start, argument);
}
