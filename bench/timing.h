/* Two jobs timed beside each other, the two taking turns: the best of each, and the ratio. */
#ifndef TIMING_H
#define TIMING_H

#include <stdio.h>
#include <stdlib.h>
#include <string.h>
#include <time.h>

/* Answers 0 where it fails. */
typedef size_t job(void *on);

/* microseconds */
static inline double now(void)
{
    struct timespec t;
    clock_gettime(CLOCK_MONOTONIC, &t);
    return (double)t.tv_sec * 1e6 + (double)t.tv_nsec / 1e3;
}

static inline void must_hold(int holds, const char *what)
{
    if (!holds) {
        fprintf(stderr, "%s: ours and the peer differ, or one failed\n", what);
        exit(EXIT_FAILURE);
    }
}

static inline double timed(const char *name, job *j, void *on, int times)
{
    double from = now();
    for (int i = 0; i < times; i++)
        must_hold(j(on) != 0, name);
    return (now() - from) / times;
}

static inline double least(double a, double b)
{
    return a < b ? a : b;
}

/* One line of a table: ours, the peer's, the ratio, of a job that does the same thing `calls` times. A round is so many jobs that it takes
 * ROUND microseconds or more: shorter ones would time the clock, and find in the cache what the other left. Of rounds there are as
 * many as take TOTAL microseconds, but not fewer than FEWEST nor more than MOST. */
enum { ROUND = 500, TOTAL = 100000, FEWEST = 25, MOST = 100 };

static inline void compare(const char *name, job *ours, job *peer, void *on, size_t calls)
{
    int times = 1;
    double best_ours = timed(name, ours, on, times);
    double best_peer = timed(name, peer, on, times);
    while (least(best_ours, best_peer) * times < ROUND) {
        times *= 2;
        best_ours = timed(name, ours, on, times);
        best_peer = timed(name, peer, on, times);
    }
    double rounds = TOTAL / ((best_ours + best_peer) * times);
    rounds = rounds < FEWEST ? FEWEST : least(rounds, MOST);
    for (int i = 0; i < rounds; i++) {
        best_ours = least(best_ours, timed(name, ours, on, times));
        best_peer = least(best_peer, timed(name, peer, on, times));
    }
    printf("| %-34s | %10.3f | %10.3f | %5.2f |\n", name, best_ours / (double)calls, best_peer / (double)calls,
           best_ours / best_peer);
    fflush(stdout);
}

static inline void heading(const char *what, const char *peer)
{
    printf("\n| %-34s | ours us    | %-7s us | ratio |\n|---|---|---|---|\n", what, peer);
}

static inline void *memory(size_t n)
{
    void *p = malloc(n);
    if (p == NULL)
        exit(EXIT_FAILURE);
    memset(p, 0, n);
    return p;
}

#endif
