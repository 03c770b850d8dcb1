/* Refuses one thread of a program: the one whose number, from 1, is in REFUSE_THREAD. Preloaded by `refuse_in_tests`, `refuse_in_a_run` and
   `refuse_each_allocation`. Where it was refused, the file named by REFUSED_FILE is made. A process that ends by itself while one of its
   threads still runs says so and ends with status 99. Where LAST_THREAD_MAY_RUN is set, the thread that was started last, as the one that
   frees the tables of a run and for which nobody waits, may run on for ten seconds. */
#define _GNU_SOURCE
#include <dlfcn.h>
#include <errno.h>
#include <fcntl.h>
#include <pthread.h>
#include <stdlib.h>
#include <unistd.h>

typedef void *(*start)(void *);
typedef int (*create)(pthread_t *, const pthread_attr_t *, start, void *);

struct job {
    start run;
    void *with;
    long number;
};

// Threads that were asked for, that were started, and that run; and the last one that ended as the last started.
static long number, started, running, last_ended;

// A thread ended.
static void end(long thread) {
    if (thread == __sync_add_and_fetch(&started, 0))
        __sync_lock_test_and_set(&last_ended, thread);
    __sync_sub_and_fetch(&running, 1);
}

static void *run_job(void *taken) {
    struct job job = *(struct job *)taken;
    free(taken);
    void *answer = job.run(job.with);
    end(job.number);
    return answer;
}

static int refused(void) {
    const char *wanted = getenv("REFUSE_THREAD");
    const char *file = getenv("REFUSED_FILE");
    if (!wanted || __sync_add_and_fetch(&number, 1) != atol(wanted))
        return 0;
    if (file)
        close(open(file, O_CREAT | O_WRONLY, 0600));
    return 1;
}

int pthread_create(pthread_t *thread, const pthread_attr_t *attributes, start run, void *with) {
    create next = (create)dlsym(RTLD_NEXT, "pthread_create");
    struct job *job = malloc(sizeof *job);
    if (refused() || !job) {
        free(job);
        return EAGAIN;
    }
    *job = (struct job){run, with, __sync_add_and_fetch(&started, 1)};
    long thread_number = job->number;
    __sync_add_and_fetch(&running, 1);
    int status = next(thread, attributes, run_job, job);
    if (status) {
        end(thread_number);
        free(job);
    }
    return status;
}

// Whether just one thread runs, the one that was started last, and may do so.
static int last_may_run(void) {
    return getenv("LAST_THREAD_MAY_RUN") && __sync_add_and_fetch(&running, 0) == 1 &&
           __sync_add_and_fetch(&last_ended, 0) != __sync_add_and_fetch(&started, 0);
}

__attribute__((destructor)) static void tell(void) {
    static const char text[] = "a thread is left\n";
    for (int waited = 0; waited < 10000 && last_may_run(); waited++)
        usleep(1000);
    if (__sync_add_and_fetch(&running, 0)) {
        if (write(2, text, sizeof text - 1)) {}
        _exit(99);
    }
}
