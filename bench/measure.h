/* Clocks, and the worst single call.
 *
 * A workload is the same in every repeat, so call i is the same call: its least time over all repeats is its own, without
 * what the machine did meanwhile. The worst call is the largest of these. */
#ifndef MEASURE_H
#define MEASURE_H

#include <stdint.h>

enum call { SEND, INPUT, FLUSH, RECEIVE, CALLS };
enum { REPEATS = 7 };

uint64_t cpu_nanoseconds(void);

/* Ticks of the processor, fenced, and nanoseconds of a tick. */
uint64_t ticks(void);
double tick_length(void);

/* Starts a repeat, notes a call's ticks, and gives the worst call of a kind, in ticks. */
void start_repeat(void);
void note_call(enum call kind, uint64_t taken);
uint64_t worst_call(enum call kind);

#endif
