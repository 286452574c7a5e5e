/* A control of the clock: seconds that so many threads take for one fixed piece of work, of which each does its share. A step
has several sums that do not wait for one another, so that two threads on one core are seen. */
#include <pthread.h>
#include <stdio.h>
#include <stdlib.h>
#include <time.h>

#define MOST 16
static unsigned tables[MOST][4096];
static long steps;

static void *work(void *given)
{
    unsigned *table = tables[(long)given];
    unsigned a = 1, b = 2, c = 3, d = 4;
    for (long i = 0; i < steps; i++) {
        a += table[i & 4095];
        b ^= a + (unsigned)i;
        c += table[(i * 3) & 4095];
        d += table[(i * 5) & 4095] ^ 3;
        table[(i * 7) & 4095] = c + d;
    }
    table[0] = a + b + c + d;
    return NULL;
}

static double now(void)
{
    struct timespec time;
    clock_gettime(CLOCK_MONOTONIC, &time);
    return (double)time.tv_sec + (double)time.tv_nsec * 1e-9;
}

int main(int count, char **words)
{
    long threads = count > 1 ? atol(words[1]) : 1;
    pthread_t others[MOST];
    if (threads < 1 || threads > MOST)
        return 1;
    steps = 20000000 / threads;
    double begun = now();
    for (long i = 1; i < threads; i++)
        pthread_create(&others[i], NULL, work, (void *)i);
    work(NULL);
    for (long i = 1; i < threads; i++)
        pthread_join(others[i], NULL);
    printf("%.6f\n", now() - begun);
    return 0;
}
