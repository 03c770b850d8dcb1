/* Refuses one allocation of a program: the one whose number, from 1, is in REFUSE_ALLOCATION. Preloaded by `refuse_each_allocation`,
   `refuse_in_tests` and `refuse_in_a_run`. Where it was refused, the file named by REFUSED_FILE is made. Where BEFORE_THREADS is set, none
   is refused once a first thread was asked for. */
#define _GNU_SOURCE
#include <dlfcn.h>
#include <errno.h>
#include <fcntl.h>
#include <pthread.h>
#include <stdlib.h>
#include <unistd.h>

static long number;
static int threads;
static __thread int busy;

static int refused(void) {
    const char *wanted = getenv("REFUSE_ALLOCATION");
    const char *file = getenv("REFUSED_FILE");
    if (busy || !wanted || (threads && getenv("BEFORE_THREADS")) || __sync_add_and_fetch(&number, 1) != atol(wanted))
        return 0;
    busy = 1;
    if (file)
        close(open(file, O_CREAT | O_WRONLY, 0600));
    busy = 0;
    errno = ENOMEM;
    return 1;
}

void *malloc(size_t size) {
    static void *(*next)(size_t);
    if (!next)
        next = (void *(*)(size_t))dlsym(RTLD_NEXT, "malloc");
    return refused() ? NULL : next(size);
}

void *realloc(void *old, size_t size) {
    static void *(*next)(void *, size_t);
    if (!next)
        next = (void *(*)(void *, size_t))dlsym(RTLD_NEXT, "realloc");
    return refused() ? NULL : next(old, size);
}

void *aligned_alloc(size_t alignment, size_t size) {
    static void *(*next)(size_t, size_t);
    if (!next)
        next = (void *(*)(size_t, size_t))dlsym(RTLD_NEXT, "aligned_alloc");
    return refused() ? NULL : next(alignment, size);
}

int pthread_create(pthread_t *thread, const pthread_attr_t *attributes, void *(*run)(void *), void *with) {
    int (*next)(pthread_t *, const pthread_attr_t *, void *(*)(void *), void *) = dlsym(RTLD_NEXT, "pthread_create");
    threads = 1;
    return next(thread, attributes, run, with);
}
