#include "wire.h"

#include <stdio.h>
#include <stdlib.h>
#include <string.h>

struct wire wires[2];
int lossy, counts_segments;
uint32_t state;

void fail(const char *why)
{
    fprintf(stderr, "bench: %s\n", why);
    exit(3);
}

uint32_t chance(void)
{
    state ^= state << 13;
    state ^= state >> 17;
    state ^= state << 5;
    return state;
}

void clear_wire(struct wire *wire)
{
    wire->on_time.count = wire->late.count = 0;
    wire->discards = 0;
    wire->datagrams = wire->bytes = wire->dropped = wire->pushes = wire->retransmissions = wire->acks = 0;
    wire->top = 0;
}

static void count_segments(struct wire *wire, const uint8_t *at, size_t left)
{
    while (left >= 24) {
        uint32_t sn, len;
        memcpy(&sn, at + 12, 4);
        memcpy(&len, at + 20, 4);
        if (len > left - 24) fail("a segment on the wire runs past its datagram");
        if (at[4] == 81) {
            wire->pushes++;
            if ((int32_t)(sn - wire->top) < 0) wire->retransmissions++; else wire->top = sn + 1;
        } else if (at[4] == 82) wire->acks++;
        at += 24 + len;
        left -= 24 + len;
    }
    if (left != 0) fail("a datagram on the wire has a tail");
}

static void put(struct queue *queue, const uint8_t *datagram, size_t len)
{
    if (queue->count == SLOTS || len > SLOT) fail("the wire is full");
    memcpy(queue->bytes[queue->count], datagram, len);
    queue->len[queue->count++] = (uint16_t)len;
}

void put_on_wire(void *context, const uint8_t *datagram, size_t len)
{
    struct wire *wire = context;
    wire->datagrams++;
    wire->bytes += len;
    if (counts_segments) count_segments(wire, datagram, len);
    if (wire->discards) return;
    if (lossy) {
        const uint32_t luck = chance() % 100;
        if (luck < 10) { wire->dropped++; return; }
        if (luck < 15) { put(&wire->late, datagram, len); return; }
    }
    put(&wire->on_time, datagram, len);
}

static void empty(struct queue *queue, void (*input)(void *, const uint8_t *, size_t), void *link)
{
    size_t i;
    for (i = 0; i < queue->count; i++) input(link, queue->bytes[i], queue->len[i]);
    queue->count = 0;
}

void deliver(struct wire *wire, void (*input)(void *link, const uint8_t *datagram, size_t len), void *link)
{
    empty(&wire->on_time, input, link);
    empty(&wire->late, input, link);
}
