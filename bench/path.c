// Tells the processor time of the longest chain of a program's threads, in seconds: that of the first thread, and where it waits for another
// longer than that took beside it, the rest of that one. So long a run takes where each thread has a processor of its own. It stands at the
// end in the file that PATH_FILE names. Preloaded by bench/measure; threads alone count that are made by pthread_create and waited for by
// pthread_join, and no waiting for a lock.
#define _GNU_SOURCE
#include <dlfcn.h>
#include <pthread.h>
#include <stdio.h>
#include <stdlib.h>
#include <sys/syscall.h>
#include <time.h>
#include <unistd.h>

struct thread {
    void *(*work)(void *);
    void *word;
    double start, end;
    pthread_t id;
    struct thread *next;
};

static pthread_mutex_t lock = PTHREAD_MUTEX_INITIALIZER;
static struct thread *threads;
// how far the chain up to this thread is ahead of its own processor time
static __thread double ahead;

static double now(void) {
    struct timespec time;
    clock_gettime(CLOCK_THREAD_CPUTIME_ID, &time);
    return time.tv_sec + time.tv_nsec / 1e9 + ahead;
}

static void *run(void *word) {
    struct thread *it = word;
    ahead = it->start;
    void *result = it->work(it->word);
    it->end = now();
    return result;
}

static void keep(struct thread *it, pthread_t id) {
    pthread_mutex_lock(&lock);
    it->id = id;
    it->next = threads;
    threads = it;
    pthread_mutex_unlock(&lock);
}

static struct thread *take(pthread_t id) {
    pthread_mutex_lock(&lock);
    struct thread **at = &threads;
    while (*at && !pthread_equal((*at)->id, id))
        at = &(*at)->next;
    struct thread *it = *at;
    if (it)
        *at = it->next;
    pthread_mutex_unlock(&lock);
    return it;
}

int pthread_create(pthread_t *id, const pthread_attr_t *how, void *(*work)(void *), void *word) {
    static int (*next)(pthread_t *, const pthread_attr_t *, void *(*)(void *), void *);
    if (!next)
        next = (int (*)(pthread_t *, const pthread_attr_t *, void *(*)(void *), void *))dlsym(RTLD_NEXT, "pthread_create");
    struct thread *it = calloc(1, sizeof *it);
    if (!it)
        return next(id, how, work, word);
    it->work = work;
    it->word = word;
    it->start = now();
    int status = next(id, how, run, it);
    if (status)
        free(it);
    else
        keep(it, *id);
    return status;
}

int pthread_join(pthread_t id, void **result) {
    static int (*next)(pthread_t, void **);
    if (!next)
        next = (int (*)(pthread_t, void **))dlsym(RTLD_NEXT, "pthread_join");
    int status = next(id, result);
    struct thread *it = take(id);
    if (it) {
        double behind = it->end - now();
        if (behind > 0)
            ahead += behind;
        free(it);
    }
    return status;
}

static void tell(void) {
    const char *name = getenv("PATH_FILE");
    FILE *file = name ? fopen(name, "w") : NULL;
    if (file) {
        fprintf(file, "%.6f\n", now());
        fclose(file);
    }
}

// (gtidrep ends so, without what the C library does at an end)
void _exit(int status) {
    tell();
    syscall(SYS_exit_group, status);
    __builtin_unreachable();
}

__attribute__((destructor)) static void end(void) {
    tell();
}
