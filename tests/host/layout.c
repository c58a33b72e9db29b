/* The layout of the header is the archive's: each field of the block that C writes is the one that the archive reads, at
 * both ends of every list, and the other way round. */
#include "check.h"
#include "lent.h"
#include "segments.h"

#include <string.h>

static struct lent lent;
static ampferweg_link *l;

/* Opening writes every number, over a block of other bytes. */
static void opening_writes(void)
{
    memset(l, 0xA5, sizeof *l);
    CHECK_EQUAL(call_open(&lent, 0x89ABCDEF, 256, 1, 0x1234, 100), 0);
    CHECK_EQUAL(l->settings.conv, 0x89ABCDEF);
    CHECK_EQUAL(l->settings.mtu, 256);
    CHECK_EQUAL(l->settings.mode, 1);
    CHECK_EQUAL(l->settings.interval, 0x1234);
    CHECK_EQUAL(l->settings.threshold, 100);
    CHECK_EQUAL(l->settings.stream, 0);
    CHECK_EQUAL(l->settings.congestion, 0);
    CHECK(l->flight.congestion.window == 0 && l->flight.congestion.threshold == 2 && l->flight.congestion.allowance == 0);
    CHECK(l->flight.queued == 0 && l->flight.outstanding == 0 && l->arrival.ready == 0 && l->arrival.waiting == 0);
    CHECK(l->flight.una == 0 && l->flight.next == 0 && l->arrival.expected == 0);
    CHECK(l->flight.rtt.smoothed == 0 && l->flight.rtt.variation == 0);
    CHECK_EQUAL(l->flight.rtt.timeout, 200);
    CHECK_EQUAL(l->flight.window, 128);
    CHECK(l->arrival.acks == 0 && l->clock.probe.wait == 0 && l->clock.probe.due == 0 && l->clock.current == 0);
    CHECK(l->clock.ask == 0 && l->arrival.tell == 0 && l->clock.dead == 0);
    CHECK(l->clock.next_flush == 0 && l->clock.updated == 0);
}

/* A value that refusal 13 names is refused in this field and in no other: the block is as before, and accepted, once it
 * is put back. */
#define REFUSED_13(field, wrong) do { \
        const ampferweg_link was_ = *l; \
        CHECK(call_size(&lent) != -AMPFERWEG_INVALID_BLOCK); \
        l->field = (wrong); \
        CHECK_EQUAL(call_size(&lent), -AMPFERWEG_INVALID_BLOCK); \
        *l = was_; \
    } while (0)

static void fill_held(ampferweg_held *at, size_t count, unsigned first_slot)
{
    size_t i;
    for (i = 0; i < count; i++) {
        at[i].slot = (uint8_t)(first_slot + i);
        at[i].len = 232;
        at[i].fragment = 126;
    }
}

static void numbers(void)
{
    CHECK_EQUAL(call_open(&lent, 7, 256, 1, 10, 2), 0);
    REFUSED_13(settings.mtu, 49);
    REFUSED_13(settings.mode, 3);
    REFUSED_13(settings.interval, 5001);
    REFUSED_13(settings.threshold, 101);
    REFUSED_13(settings.stream, 2);
    REFUSED_13(settings.congestion, 2);
    REFUSED_13(flight.congestion.window, 65536);
    REFUSED_13(flight.congestion.threshold, 1);
    REFUSED_13(flight.congestion.threshold, 17);
    REFUSED_13(flight.congestion.allowance, 233);
    REFUSED_13(flight.una, 1);
    REFUSED_13(flight.next, 1);
    REFUSED_13(flight.rtt.smoothed, 0x80000000);
    REFUSED_13(flight.rtt.variation, 0x80000000);
    REFUSED_13(flight.rtt.timeout, 60001);
    REFUSED_13(flight.rtt.timeout, 29);
    REFUSED_13(arrival.acks, 257);
    REFUSED_13(clock.probe.wait, 6999);
    REFUSED_13(flight.queued, 129);
    REFUSED_13(flight.outstanding, 33);
    REFUSED_13(arrival.ready, 129);
    REFUSED_13(arrival.waiting, 129);
    REFUSED_13(flight.queued, (uint64_t)1 << 32);
    REFUSED_13(arrival.acks, (uint64_t)1 << 32);
}

static void queued_list(void)
{
    CHECK_EQUAL(call_open(&lent, 7, 256, 1, 10, 2), 0);
    fill_held(l->queued, 128, 0);
    l->flight.queued = 128;
    REFUSED_13(queued[0].slot, 127);
    REFUSED_13(queued[0].len, 233);
    REFUSED_13(queued[0].fragment, 127);
    REFUSED_13(queued[127].slot, 128);
    REFUSED_13(queued[127].len, 0xFFFF);
    REFUSED_13(queued[127].fragment, 0xFF);
}

/* Number, timeout and skips of an outstanding segment's record at their limits: one more is refused; due may be anything. */
static void record_of_slot(size_t slot)
{
    ampferweg_record *record = &lent.station.table[slot];
    const ampferweg_record was = *record;
    record->number += 1;
    CHECK_EQUAL(call_size(&lent), -AMPFERWEG_INVALID_BLOCK);
    *record = was;
    record->timeout += 1;
    CHECK_EQUAL(call_size(&lent), -AMPFERWEG_INVALID_BLOCK);
    *record = was;
    record->skips += 1;
    CHECK_EQUAL(call_size(&lent), -AMPFERWEG_INVALID_BLOCK);
    *record = was;
    record->due += 1;
    CHECK(call_size(&lent) != -AMPFERWEG_INVALID_BLOCK);
    *record = was;
}

static void outstanding_list(void)
{
    ampferweg_record *table = lent.station.table;
    size_t i;
    CHECK_EQUAL(call_open(&lent, 7, 256, 1, 10, 2), 0);
    l->flight.una = 0xFFFFFFF0;
    l->flight.next = 16;
    l->flight.outstanding = 32;
    for (i = 0; i < 32; i++) {
        fill_held(&l->outstanding[i], 1, (unsigned)(96 + i));
        l->transmissions[i] = 20;
        table[96 + i].number = 0xFFFFFFF0 + (uint32_t)i;
        table[96 + i].timeout = 60000;
        table[96 + i].skips = 255;
    }
    REFUSED_13(outstanding[0].slot, 127);
    REFUSED_13(outstanding[0].len, 233);
    REFUSED_13(outstanding[0].fragment, 127);
    REFUSED_13(transmissions[0], 21);
    REFUSED_13(outstanding[31].slot, 128);
    REFUSED_13(outstanding[31].len, 233);
    REFUSED_13(outstanding[31].fragment, 127);
    REFUSED_13(transmissions[31], 21);
    REFUSED_13(flight.una, 0xFFFFFFEF);
    REFUSED_13(flight.next, 17);
    record_of_slot(96);
    record_of_slot(127);
}

static void receiving_lists(void)
{
    size_t i;
    CHECK_EQUAL(call_open(&lent, 7, 256, 1, 10, 2), 0);
    l->arrival.expected = 0xFFFFFFC0;
    fill_held(l->ready, 128, 128);
    l->arrival.ready = 128;
    l->arrival.waiting = 128;
    for (i = 0; i < 128; i++) {
        l->waiting_numbers[i] = 0xFFFFFFC0 + (uint32_t)i;
        fill_held(&l->waiting[i], 1, (unsigned)i);
    }
    REFUSED_13(arrival.expected, 0xFFFFFFBF);
    REFUSED_13(arrival.ready, 127);
    REFUSED_13(ready[0].slot, 255);
    REFUSED_13(ready[0].len, 233);
    REFUSED_13(ready[0].fragment, 127);
    REFUSED_13(ready[127].slot, 0);
    REFUSED_13(ready[127].len, 233);
    REFUSED_13(ready[127].fragment, 127);
    REFUSED_13(waiting_numbers[0], 0xFFFFFFC1);
    REFUSED_13(waiting[0].slot, 127);
    REFUSED_13(waiting[0].len, 233);
    REFUSED_13(waiting[0].fragment, 127);
    REFUSED_13(waiting_numbers[127], 0x40);
    REFUSED_13(waiting[127].slot, 255);
    REFUSED_13(waiting[127].len, 233);
    REFUSED_13(waiting[127].fragment, 127);
}

static struct segment flushed(uint32_t now)
{
    const struct segment none = {0, 0, 0, 0, 0, 0, 0, 0};
    return call_flush(&lent, now) > 0 ? segment_at(lent.station.output) : none;
}

/* The fields that no refusal names are seen in what a flush writes. */
static void seen_in_a_flush(void)
{
    struct segment s;
    CHECK_EQUAL(call_open(&lent, 7, 256, 1, 10, 2), 0);
    l->settings.conv = 0xFEDCBA98;
    l->arrival.expected = 0x12345678;
    l->arrival.tell = 0x80;
    s = flushed(5);
    CHECK(s.command == TELL && s.conv == 0xFEDCBA98 && s.una == 0x12345678 && s.window == 128);
    CHECK_EQUAL(l->clock.current, 5);
    CHECK_EQUAL(l->arrival.tell, 0);
    l->clock.ask = 1;
    CHECK_EQUAL(flushed(6).command, ASK);
    l->arrival.acks = 256;
    lent.station.acks[0] = 0xA1B2C3D4;
    lent.station.acks[1] = 0x01020304;
    lent.station.acks[510] = 0x55667788;
    s = flushed(7);
    CHECK(s.command == ACK && s.sn == 0xA1B2C3D4 && s.ts == 0x01020304);
    CHECK_EQUAL(segment_at(lent.station.output + 255 * HEADER).sn, 0x55667788);
    CHECK_EQUAL(l->arrival.acks, 0);
}

/* The peer's window 0 starts the probe clock; when it is due an ask goes out. dead stays as it is set. */
static void seen_in_the_clock(void)
{
    CHECK_EQUAL(call_open(&lent, 7, 256, 1, 10, 2), 0);
    l->flight.window = 0;
    l->clock.dead = 1;
    CHECK_EQUAL(call_flush(&lent, 1000), 0);
    CHECK(l->clock.probe.wait == 7000 && l->clock.probe.due == 8000);
    l->clock.probe.due = 1001;
    CHECK_EQUAL(flushed(1001).command, ASK);
    CHECK(l->clock.probe.wait == 10500 && l->clock.probe.due == 11501);
    CHECK(l->clock.dead != 0 && l->clock.ask == 0);
}

/* The next time and whether an update was made, as update and check read and leave them. */
static void seen_in_the_schedule(void)
{
    uint32_t when = 1;
    CHECK_EQUAL(call_open(&lent, 7, 256, 1, 0x1234, 2), 0);
    l->clock.next_flush = 0x89ABCDEF;
    CHECK(call_check(&lent, 0x89ABCDE0, &when) == 0 && when == 0x89ABCDE0);
    l->clock.updated = 0x80;
    CHECK(call_check(&lent, 0x89ABCDE0, &when) == 0 && when == 0x89ABCDEF);
    l->clock.updated = 0;
    CHECK_EQUAL(call_update(&lent, 0xFFFFFFF0), 0);
    CHECK(l->clock.current == 0xFFFFFFF0 && l->clock.next_flush == 0x1224 && l->clock.updated == 1);
    CHECK_EQUAL(call_update(&lent, 0x1223), AMPFERWEG_NOT_YET);
    CHECK(l->clock.current == 0x1223 && l->clock.next_flush == 0x1224 && l->clock.updated == 1);
}

int main(void)
{
    lend(&lent, 256, 0);
    l = lent.link;
    opening_writes();
    numbers();
    queued_list();
    outstanding_list();
    receiving_lists();
    seen_in_a_flush();
    seen_in_the_clock();
    seen_in_the_schedule();
    CHECK(guarded(&lent));
    give_back(&lent);
    return check_report("layout");
}
