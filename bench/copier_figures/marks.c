/* Preloaded into the driver under callgrind: counts the collections of the numbers FROM to TO, from 1 on, and nothing else.

The driver asks for the time before each collection and after it. So each odd call begins one and the next one ends it. A
thread's counts are written when it ends, under the number that it has among those started in the collection; those of the
thread that asks when the collection ends. So a thread whose place callgrind gives to the next one is not mixed with it. */
#define _GNU_SOURCE
#include <dlfcn.h>
#include <pthread.h>
#include <stdatomic.h>
#include <stdio.h>
#include <stdlib.h>
#include <sys/syscall.h>
#include <time.h>
#include <unistd.h>
#include <valgrind/callgrind.h>

#define LIVES 65536
typedef void *body(void *);
static struct { body *start; void *argument; } lives[LIVES];
static atomic_long started;
static long calls, begun, from, to;

static void write_counts(const char *who, long number)
{
    char name[64];
    snprintf(name, sizeof name, "collection %ld %s %ld.", begun, who, number);
    CALLGRIND_DUMP_STATS_AT(name);
}

static long read_number(const char *name)
{
    const char *text = getenv(name);
    return text ? atol(text) : 0;
}

static int is_counted(void)
{
    return begun >= from && begun <= to;
}

int clock_gettime(clockid_t clock, struct timespec *time)
{
    if (!to) {
        from = read_number("FROM");
        to = read_number("TO");
    }
    if (calls++ % 2 == 0) {
        begun++;
        started = 0;
        if (is_counted())
            CALLGRIND_START_INSTRUMENTATION;
    } else if (is_counted()) {
        write_counts("asks", 0);
        CALLGRIND_STOP_INSTRUMENTATION;
    }
    return syscall(SYS_clock_gettime, clock, time);
}

static void *live(void *given)
{
    long number = (long)given;
    void *result = lives[number % LIVES].start(lives[number % LIVES].argument);
    if (is_counted())
        write_counts("thread", number);
    return result;
}

int pthread_create(pthread_t *thread, const pthread_attr_t *attributes, body *start, void *argument)
{
    static int (*next)(pthread_t *, const pthread_attr_t *, body *, void *);
    long number = started++;
    if (!next)
        next = (int (*)(pthread_t *, const pthread_attr_t *, body *, void *))dlsym(RTLD_NEXT, "pthread_create");
    lives[number % LIVES].start = start;
    lives[number % LIVES].argument = argument;
    return next(thread, attributes, live, (void *)number);
}
