#define _POSIX_C_SOURCE 200809L
#include "measure.h"

#include <stdio.h>
#include <stdlib.h>
#include <time.h>
#include <x86intrin.h>

enum { CALLS_MOST = 1 << 21 };

static uint32_t least[CALLS][CALLS_MOST];
static uint32_t noted[CALLS];
static int repeat = -1;

static uint64_t nanoseconds(clockid_t clock)
{
    struct timespec t;
    clock_gettime(clock, &t);
    return (uint64_t)t.tv_sec * 1000000000u + (uint64_t)t.tv_nsec;
}

uint64_t cpu_nanoseconds(void) { return nanoseconds(CLOCK_PROCESS_CPUTIME_ID); }

uint64_t ticks(void)
{
    uint64_t t;
    _mm_lfence();
    t = __rdtsc();
    _mm_lfence();
    return t;
}

double tick_length(void)
{
    const uint64_t start = nanoseconds(CLOCK_MONOTONIC), first = ticks();
    while (nanoseconds(CLOCK_MONOTONIC) - start < 50000000u) {}
    return (double)(nanoseconds(CLOCK_MONOTONIC) - start) / (double)(ticks() - first);
}

void start_repeat(void)
{
    int kind;
    repeat++;
    for (kind = 0; kind < CALLS; kind++) noted[kind] = 0;
}

void note_call(enum call kind, uint64_t taken)
{
    const uint32_t i = noted[kind]++, t = taken > UINT32_MAX ? UINT32_MAX : (uint32_t)taken;
    if (i >= CALLS_MOST) {
        fprintf(stderr, "bench: too many calls: divide the workload\n");
        exit(3);
    }
    if (repeat == 0 || t < least[kind][i]) least[kind][i] = t;
}

uint64_t worst_call(enum call kind)
{
    uint64_t most = 0;
    uint32_t i;
    for (i = 0; i < noted[kind]; i++)
        if (least[kind][i] > most) most = least[kind][i];
    return most;
}
