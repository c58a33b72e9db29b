#define _GNU_SOURCE
#include "lent.h"

#include <stdio.h>
#include <stdlib.h>
#include <string.h>
#include <sys/mman.h>

enum { PAGE = 4096, GUARD = 0xC3 };

uint32_t seed = 1;

uint32_t any(void)
{
    seed ^= seed << 13;
    seed ^= seed >> 17;
    seed ^= seed << 5;
    return seed;
}

uint32_t below(uint32_t bound) { return any() % bound; }

static void fail(const char *what)
{
    perror(what);
    exit(2);
}

/* Pages for `size` bytes that end where a page ends, between two pages that cannot be touched. */
static void make_part(struct part *part, size_t size)
{
    const size_t inner = (size / PAGE + 2) * PAGE;
    uint8_t *pages;
    size_t i;
    part->pages_size = inner + 2 * PAGE;
    part->pages = mmap(NULL, part->pages_size, PROT_NONE, MAP_PRIVATE | MAP_ANONYMOUS, -1, 0);
    if (part->pages == MAP_FAILED) fail("mmap");
    pages = part->pages;
    if (mprotect(pages + PAGE, inner, PROT_READ | PROT_WRITE) != 0) fail("mprotect");
    part->front = pages + PAGE;
    part->at = pages + PAGE + inner - size;
    part->size = size;
    part->snapshot = malloc(size + 1);
    if (part->snapshot == NULL) fail("malloc");
    memset(part->front, GUARD, inner - size);
    for (i = 0; i < size; i++) part->at[i] = (uint8_t)(i * 7 + 1);
}

static void drop_part(struct part *part)
{
    munmap(part->pages, part->pages_size);
    free(part->snapshot);
}

void lend(struct lent *lent, uint32_t mtu, size_t spare)
{
    ampferweg_station *s = &lent->station;
    s->send_pool_len = AMPFERWEG_SEND_POOL_SIZE(mtu) + spare;
    s->receive_pool_len = AMPFERWEG_RECEIVE_POOL_SIZE(mtu) + spare;
    s->table_len = AMPFERWEG_TABLE_LEN + spare;
    s->acks_len = AMPFERWEG_ACKS_LEN + spare;
    s->output_len = AMPFERWEG_OUTPUT_SIZE + spare;
    s->lengths_len = AMPFERWEG_LENGTHS_LEN + spare;
    make_part(&lent->parts[LINK], sizeof(ampferweg_link));
    make_part(&lent->parts[SEND_POOL], s->send_pool_len);
    make_part(&lent->parts[RECEIVE_POOL], s->receive_pool_len);
    make_part(&lent->parts[TABLE], s->table_len * sizeof *s->table);
    make_part(&lent->parts[ACKS], s->acks_len * sizeof *s->acks);
    make_part(&lent->parts[OUTPUT], s->output_len);
    make_part(&lent->parts[LENGTHS], s->lengths_len * sizeof *s->lengths);
    make_part(&lent->parts[MESSAGE], 0);
    s->send_pool = lent->parts[SEND_POOL].at;
    s->receive_pool = lent->parts[RECEIVE_POOL].at;
    s->table = (ampferweg_record *)(void *)lent->parts[TABLE].at;
    s->acks = (uint32_t *)(void *)lent->parts[ACKS].at;
    s->output = lent->parts[OUTPUT].at;
    s->lengths = (uint16_t *)(void *)lent->parts[LENGTHS].at;
    lent->link = (ampferweg_link *)(void *)lent->parts[LINK].at;
    lent->message = lent->parts[MESSAGE].at;
    memset(lent->link, 0, sizeof *lent->link);
    snapshot(lent);
}

void give_back(struct lent *lent)
{
    int i;
    for (i = 0; i < PARTS; i++) drop_part(&lent->parts[i]);
}

void lend_message(struct lent *lent, size_t len)
{
    drop_part(&lent->parts[MESSAGE]);
    make_part(&lent->parts[MESSAGE], len);
    lent->message = lent->parts[MESSAGE].at;
}

void snapshot(struct lent *lent)
{
    int i;
    for (i = 0; i < PARTS; i++) memcpy(lent->parts[i].snapshot, lent->parts[i].at, lent->parts[i].size);
}

int unchanged_from(const struct lent *lent, int part, size_t from)
{
    const struct part *p = &lent->parts[part];
    return from >= p->size || memcmp(p->at + from, p->snapshot + from, p->size - from) == 0;
}

unsigned changed(const struct lent *lent)
{
    ampferweg_link was;
    unsigned bits;
    int i;
    memcpy(&was, lent->parts[LINK].snapshot, sizeof was);
    bits = same_link(lent->link, &was) ? 0 : 1u << LINK;
    for (i = LINK + 1; i < PARTS; i++)
        if (!unchanged_from(lent, i, 0)) bits |= 1u << i;
    return bits;
}

int guarded(const struct lent *lent)
{
    const uint8_t *p;
    int i;
    for (i = 0; i < PARTS; i++)
        for (p = lent->parts[i].front; p < lent->parts[i].at; p++)
            if (*p != GUARD) return 0;
    return 1;
}

static int same_held(const ampferweg_held *a, const ampferweg_held *b, size_t count)
{
    size_t i;
    for (i = 0; i < count; i++)
        if (a[i].slot != b[i].slot || a[i].len != b[i].len || a[i].fragment != b[i].fragment) return 0;
    return 1;
}

static int same_flight(const ampferweg_flight *a, const ampferweg_flight *b)
{
    return a->una == b->una && a->next == b->next && a->window == b->window && memcmp(&a->rtt, &b->rtt, sizeof a->rtt) == 0 &&
        memcmp(&a->congestion, &b->congestion, sizeof a->congestion) == 0 && a->queued == b->queued && a->outstanding == b->outstanding;
}

static int same_arrival(const ampferweg_arrival *a, const ampferweg_arrival *b)
{
    return a->expected == b->expected && a->tell == b->tell && a->ready == b->ready && a->waiting == b->waiting && a->acks == b->acks;
}

static int same_clock(const ampferweg_clock *a, const ampferweg_clock *b)
{
    return a->probe.wait == b->probe.wait && a->probe.due == b->probe.due && a->current == b->current && a->next_flush == b->next_flush &&
        a->ask == b->ask && a->dead == b->dead && a->updated == b->updated;
}

int same_link(const ampferweg_link *a, const ampferweg_link *b)
{
    const ampferweg_settings *s = &a->settings, *t = &b->settings;
    return s->conv == t->conv && s->mtu == t->mtu && s->interval == t->interval && s->mode == t->mode && s->threshold == t->threshold &&
        s->stream == t->stream && s->congestion == t->congestion &&
        same_flight(&a->flight, &b->flight) && same_arrival(&a->arrival, &b->arrival) && same_clock(&a->clock, &b->clock) &&
        same_held(a->queued, b->queued, 128) && same_held(a->outstanding, b->outstanding, 32) &&
        memcmp(a->transmissions, b->transmissions, sizeof a->transmissions) == 0 && same_held(a->ready, b->ready, 128) &&
        same_held(a->waiting, b->waiting, 128) && memcmp(a->waiting_numbers, b->waiting_numbers, sizeof a->waiting_numbers) == 0;
}

ampferweg_result call_open(struct lent *lent, uint32_t conv, uint32_t mtu, uint32_t mode, uint32_t interval, uint32_t threshold)
{
    return ampferweg_open(lent->link, conv, mtu, mode, interval, threshold, 0, 0, AMPFERWEG_PARTS(&lent->station));
}

ampferweg_result call_open_stream(struct lent *lent, uint32_t mtu, uint32_t stream)
{
    return ampferweg_open(lent->link, 7, mtu, 1, 10, 2, stream, 0, AMPFERWEG_PARTS(&lent->station));
}

ampferweg_result call_send(struct lent *lent, const uint8_t *message, size_t len)
{
    return ampferweg_send(lent->link, AMPFERWEG_PARTS(&lent->station), message, len);
}

ampferweg_result call_input(struct lent *lent, const uint8_t *datagram, size_t len)
{
    return ampferweg_input(lent->link, AMPFERWEG_PARTS(&lent->station), datagram, len);
}

ampferweg_result call_flush(struct lent *lent, uint32_t now)
{
    return ampferweg_flush(lent->link, AMPFERWEG_PARTS(&lent->station), now,
        lent->station.output, lent->station.output_len, lent->station.lengths, lent->station.lengths_len);
}

ampferweg_result call_update(struct lent *lent, uint32_t now)
{
    return ampferweg_update(lent->link, AMPFERWEG_PARTS(&lent->station), now,
        lent->station.output, lent->station.output_len, lent->station.lengths, lent->station.lengths_len);
}

ampferweg_result call_check(const struct lent *lent, uint32_t now, uint32_t *when)
{
    return ampferweg_check(lent->link, AMPFERWEG_PARTS(&lent->station), now, when);
}

ampferweg_result call_read(struct lent *lent, uint8_t *buffer, size_t len)
{
    return ampferweg_read(lent->link, AMPFERWEG_PARTS(&lent->station), buffer, len);
}

ampferweg_result call_size(const struct lent *lent) { return ampferweg_size(lent->link, AMPFERWEG_PARTS(&lent->station)); }

ampferweg_result call_show(const struct lent *lent, uint32_t *start)
{
    return ampferweg_show(lent->link, AMPFERWEG_PARTS(&lent->station), start);
}
