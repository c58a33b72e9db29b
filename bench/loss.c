/* Delivery under loss, in virtual time: one end sends a message of 64 bytes every 20 ms, both flush every 10 ms, a datagram takes 20 ms,
 * and so many in a hundred are lost, both ways. Prints one JSON object: how many milliseconds after its sending a message was read.
 *
 *     loss_NAME PERCENT MODE [MESSAGES [SEED]] */
#include "kcp_impl.h"
#include "wire.h"

#include <stdio.h>
#include <stdlib.h>
#include <string.h>

enum { PACE = 20, FLUSH = 10, DELAY = 20, SIZE = 64, MOST = 100000, ROOM = 1 << 14 };

/* What is on its way to one end; all of it takes equally long, so that it arrives in order. */
struct way {
    struct { uint8_t bytes[256]; size_t len; uint32_t at; } flying[ROOM];
    size_t first, end;
};

static struct way ways[2];
static uint32_t now, lost_percent, count = 20000, taken[MOST];
static unsigned long datagrams;

static void put(void *context, const uint8_t *datagram, size_t len)
{
    struct way *way = context;
    datagrams++;
    if (chance() % 100 < lost_percent) return;
    if (way->end - way->first == ROOM || len > sizeof way->flying[0].bytes) fail("the way is full");
    memcpy(way->flying[way->end % ROOM].bytes, datagram, len);
    way->flying[way->end % ROOM].len = len;
    way->flying[way->end++ % ROOM].at = now + DELAY;
}

static void arrive(const struct kcp_impl *impl, struct way *way, void *link)
{
    for (; way->first < way->end && way->flying[way->first % ROOM].at <= now; way->first++)
        if (impl->input(link, way->flying[way->first % ROOM].bytes, way->flying[way->first % ROOM].len) < 0) fail("an input is refused");
}

/* Messages wait at the sender where it has no room, and their time runs. */
static void run(const struct kcp_impl *impl, void *one, void *two)
{
    uint8_t message[SIZE] = {0};
    uint32_t sent = 0, got = 0;
    for (now = 0; got < count; now++) {
        for (; sent < count && sent * PACE <= now; sent++) {
            memcpy(message, &sent, 4);
            if (impl->send(one, message, SIZE) != KCP_DONE) break;
        }
        if (now % FLUSH == 0) { impl->flush(one, now); impl->flush(two, now); }
        arrive(impl, &ways[0], two);
        arrive(impl, &ways[1], one);
        while (impl->receive(two, message, SIZE) == SIZE) {
            if (memcmp(message, &got, 4) != 0) fail("a wrong message arrives");
            taken[got] = now - got * PACE;
            got++;
        }
        if (now > 1000u * count) fail("there is no progress");
    }
}

static int later(const void *a, const void *b)
{
    const uint32_t x = *(const uint32_t *)a, y = *(const uint32_t *)b;
    return (x > y) - (x < y);
}

int main(int argc, char **argv)
{
    struct kcp_settings settings = {0x11223344, 256, 1, 10, 2};
    const struct kcp_impl *impl = kcp_impl_get();
    void *one, *two;
    if (argc < 3) fail("usage: loss PERCENT MODE [MESSAGES [SEED]]");
    settings.mode = (uint32_t)strtoul(argv[2], NULL, 10);
    one = impl->open(&settings, put, &ways[0]);
    two = impl->open(&settings, put, &ways[1]);
    if (one == NULL || two == NULL) fail("an opening is refused");
    lost_percent = (uint32_t)strtoul(argv[1], NULL, 10);
    if (argc > 3) count = (uint32_t)strtoul(argv[3], NULL, 10);
    state = argc > 4 ? (uint32_t)strtoul(argv[4], NULL, 10) : 1;
    if (count == 0 || count > MOST || state == 0) fail("1 to 100,000 messages, and a seed of 1 or more");
    run(impl, one, two);
    qsort(taken, count, sizeof *taken, later);
    printf("{\"impl\":\"%s\",\"mode\":%u,\"loss\":%u,\"median\":%u,\"p99\":%u,\"most\":%u,\"datagrams\":%.3f}\n", impl->name, settings.mode,
        lost_percent, taken[count / 2], taken[count - 1 - count / 100], taken[count - 1], (double)datagrams / count);
    return 0;
}
