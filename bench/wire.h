/* The way from one link to the other, in memory: datagrams on time, and late ones behind them. */
#ifndef WIRE_H
#define WIRE_H

#include <stddef.h>
#include <stdint.h>

enum { SLOT = 1500, SLOTS = 8192 };

struct queue {
    uint8_t bytes[SLOTS][SLOT];
    uint16_t len[SLOTS];
    size_t count;
};

struct wire {
    struct queue on_time, late;
    int discards;                                /* everything is lost */
    uint64_t datagrams, bytes, dropped;
    uint64_t pushes, retransmissions, acks;      /* segments, where they are counted */
    uint32_t top;                                /* past the highest number pushed */
};

extern struct wire wires[2];
extern int lossy;           /* drops 10 of 100 datagrams, and delivers 5 after all others */
extern int counts_segments;

/* The generator of all that is by chance (xorshift). */
extern uint32_t state;
uint32_t chance(void);

void clear_wire(struct wire *wire);

/* Takes a datagram of a link: `wire` is where it goes. */
void put_on_wire(void *wire, const uint8_t *datagram, size_t len);

/* Gives all that is on the wire to `input`, and leaves it empty. */
void deliver(struct wire *wire, void (*input)(void *link, const uint8_t *datagram, size_t len), void *link);

void fail(const char *why);

#endif
