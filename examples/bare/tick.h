/* A link on a board without an operating system: a station, two hooks that the board brings, and a tick. */
#ifndef TICK_H
#define TICK_H

#include <ampferweg.h>

struct node {
    ampferweg_station *station;
    uint32_t (*clock)(void);                                                    /* hook: milliseconds, which may wrap */
    void (*datagram_out)(void *context, const uint8_t *datagram, size_t len);   /* hook: the way to the peer */
    void *context;                                                              /* for datagram_out */
    uint32_t flushed;                                                           /* when the last flush was */
};

/* Call it as often as the main loop comes round: it flushes once in each interval. Answers as a flush, and 0 where none was due. */
static inline ampferweg_result tick(struct node *node)
{
    const uint32_t now = node->clock();
    if (now - node->flushed < node->station->link.settings.interval) return 0;
    node->flushed = now;
    return ampferweg_station_flush_to(node->station, now, node->datagram_out, node->context);
}

#endif
