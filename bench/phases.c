/* Put before the C library by LD_PRELOAD: writes of each phase of a run, to the file that PHASES names, a line with how long it took, from the start of its first thread to the end of
   its last, and with the processor time of the thread that was busiest in it, which other work of the machine doesn't lengthen. `bench/run` builds it where there is a C compiler. */
#define _GNU_SOURCE
#include <dlfcn.h>
#include <pthread.h>
#include <stdio.h>
#include <stdlib.h>
#include <time.h>

struct work {
    void *(*start)(void *);
    void *argument;
};

static pthread_mutex_t guard = PTHREAD_MUTEX_INITIALIZER;
static int live;
static double began, spent_before, busiest;

static double seconds(clockid_t clock)
{
    struct timespec t;
    clock_gettime(clock, &t);
    return t.tv_sec + t.tv_nsec * 1e-9;
}

static void tell(double took)
{
    const char *path = getenv("PHASES");
    FILE *file = path ? fopen(path, "a") : NULL;
    if (file) {
        fprintf(file, "%.6f %.6f\n", took, busiest);
        fclose(file);
    }
}

static void count(double spent)
{
    if (spent > busiest)
        busiest = spent;
}

static void *counted(void *argument)
{
    struct work work = *(struct work *)argument;
    free(argument);
    void *answer = work.start(work.argument);
    pthread_mutex_lock(&guard);
    count(seconds(CLOCK_THREAD_CPUTIME_ID));
    pthread_mutex_unlock(&guard);
    return answer;
}

int pthread_create(pthread_t *thread, const pthread_attr_t *attributes, void *(*start)(void *), void *argument)
{
    int (*create)(pthread_t *, const pthread_attr_t *, void *(*)(void *), void *) = dlsym(RTLD_NEXT, "pthread_create");
    struct work *work = malloc(sizeof *work);
    if (!work)
        abort();
    work->start = start;
    work->argument = argument;
    pthread_mutex_lock(&guard);
    if (live++ == 0) {
        began = seconds(CLOCK_MONOTONIC);
        spent_before = seconds(CLOCK_THREAD_CPUTIME_ID);
        busiest = 0;
    }
    pthread_mutex_unlock(&guard);
    return create(thread, attributes, counted, work);
}

int pthread_join(pthread_t thread, void **answer)
{
    int (*join)(pthread_t, void **) = dlsym(RTLD_NEXT, "pthread_join");
    int status = join(thread, answer);
    pthread_mutex_lock(&guard);
    if (--live == 0) {
        count(seconds(CLOCK_THREAD_CPUTIME_ID) - spent_before);
        tell(seconds(CLOCK_MONOTONIC) - began);
    }
    pthread_mutex_unlock(&guard);
    return status;
}
