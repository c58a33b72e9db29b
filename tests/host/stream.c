/* Stream mode through C: what a send fills and what it leaves, what is refused, and a stream of bytes over a bad network. */
#include "check.h"
#include "lent.h"

#include <string.h>

enum { MTU = 50, MSS = 26, MOST = 127 * MSS };

static struct lent lent;

/* Stream is 0 or 1, at opening and in the block. */
static void settings(void)
{
    CHECK_EQUAL(call_open_stream(&lent, MTU, 0), 0);
    CHECK_EQUAL(call_open_stream(&lent, MTU, 2), -AMPFERWEG_SETTING_OUT_OF_RANGE);
    CHECK_EQUAL(call_open_stream(&lent, MTU, 256), -AMPFERWEG_SETTING_OUT_OF_RANGE);
    CHECK_EQUAL(call_open_stream(&lent, MTU, UINT32_MAX), -AMPFERWEG_SETTING_OUT_OF_RANGE);
    CHECK_EQUAL(lent.link->settings.stream, 0);
    CHECK_EQUAL(call_open_stream(&lent, MTU, 1), 0);
    CHECK_EQUAL(lent.link->settings.stream, 1);
}

/* Settings by name: what is left out is 0. */
static void settings_by_name(void)
{
    const ampferweg_settings logger = {.conv = 9, .mtu = MTU, .mode = 2, .interval = 20, .threshold = 3, .stream = 1};
    CHECK_EQUAL(ampferweg_station_open_settings(&lent.station, &logger), 0);
    CHECK_EQUAL(lent.station.link.settings.conv, 9);
    CHECK_EQUAL(lent.station.link.settings.mtu, MTU);
    CHECK_EQUAL(lent.station.link.settings.mode, 2);
    CHECK_EQUAL(lent.station.link.settings.interval, 20);
    CHECK_EQUAL(lent.station.link.settings.threshold, 3);
    CHECK_EQUAL(lent.station.link.settings.stream, 1);
}

static ampferweg_result send(size_t len)
{
    lend_message(&lent, len);
    snapshot(&lent);
    return call_send(&lent, lent.message, len);
}

/* A fill changes the bytes behind the payload, and no other byte of any pool. */
static void fills(void)
{
    size_t i;
    CHECK_EQUAL(call_open_stream(&lent, MTU, 1), 0);
    CHECK_EQUAL(send(10), 0);
    CHECK_EQUAL(send(5), 0);
    CHECK_EQUAL(changed(&lent), 1u << LINK | 1u << SEND_POOL);
    CHECK(memcmp(lent.parts[SEND_POOL].at, lent.parts[SEND_POOL].snapshot, 10) == 0);
    CHECK(memcmp(lent.parts[SEND_POOL].at + 10, lent.message, 5) == 0);
    CHECK(unchanged_from(&lent, SEND_POOL, 15));
    CHECK_EQUAL(lent.link->flight.queued, 1);
    CHECK_EQUAL(lent.link->queued[0].len, 15);
    CHECK_EQUAL(send(40), 0); /* 11 fill, then a full segment and one of 3 */
    CHECK_EQUAL(lent.link->flight.queued, 3);
    CHECK_EQUAL(lent.link->queued[2].len, 3);
    for (i = 0; i < 3; i++) CHECK_EQUAL(lent.link->queued[i].fragment, 0);
    CHECK(guarded(&lent));
}

/* Nothing left to cut adds no segment; what a flush has numbered is not filled. */
static void adds_none(void)
{
    CHECK_EQUAL(call_open_stream(&lent, MTU, 1), 0);
    CHECK_EQUAL(send(0), 0);
    CHECK_EQUAL(changed(&lent), 0);
    CHECK_EQUAL(send(10), 0);
    CHECK_EQUAL(send(16), 0);
    CHECK_EQUAL(lent.link->flight.queued, 1);
    CHECK_EQUAL(send(0), 0);
    CHECK_EQUAL(changed(&lent), 0);
    CHECK_EQUAL(send(4), 0);
    CHECK_EQUAL(lent.link->flight.queued, 2);
    CHECK_EQUAL(call_flush(&lent, 5), 2);
    CHECK_EQUAL(send(1), 0);
    CHECK_EQUAL(lent.link->flight.queued, 1);
    CHECK_EQUAL(lent.link->outstanding[1].len, 4);
}

/* 10 and 11 are of new segments, and a refused send fills nothing. */
static void refusals(void)
{
    CHECK_EQUAL(call_open_stream(&lent, MTU, 1), 0);
    CHECK_EQUAL(send(10), 0);
    CHECK_EQUAL(send(16 + MOST + 1), -AMPFERWEG_LONG_MESSAGE);
    CHECK_EQUAL(changed(&lent), 0);
    CHECK_EQUAL(send(16 + MOST), 0);
    CHECK_EQUAL(lent.link->flight.queued, 128);
    CHECK_EQUAL(send(1), -AMPFERWEG_NO_FREE_SLOTS);
    CHECK_EQUAL(changed(&lent), 0);
    CHECK_EQUAL(send(0), 0);
    CHECK_EQUAL(call_open_stream(&lent, MTU, 1), 0);
    CHECK_EQUAL(send(MOST), 0);
    CHECK_EQUAL(send(10), 0); /* the last slot */
    CHECK_EQUAL(send(17), -AMPFERWEG_NO_FREE_SLOTS);
    CHECK_EQUAL(changed(&lent), 0);
    CHECK_EQUAL(send(16), 0); /* fits the last segment */
    CHECK_EQUAL(lent.link->flight.queued, 128);
}

/* ---- a stream of bytes, with one datagram in five lost ---- */

enum { BYTES = 60000 };

AMPFERWEG_STATION_STORAGE(here, MTU);
AMPFERWEG_STATION_STORAGE(there, MTU);
static size_t given, heard;

static uint8_t byte_at(size_t i) { return (uint8_t)(i * 31 + i / 256); }

static void carry(void *to, const uint8_t *datagram, size_t len)
{
    if (below(5) != 0) CHECK_EQUAL(ampferweg_station_input((ampferweg_station *)to, datagram, len), 0);
}

static void give(void)
{
    uint8_t line[100];
    size_t len = below(100), i;
    if (len > BYTES - given) len = BYTES - given;
    for (i = 0; i < len; i++) line[i] = byte_at(given + i);
    if (ampferweg_station_send(&here, line, len) == 0) given += len;
}

static void take(void)
{
    uint8_t segment[MSS];
    ampferweg_result len;
    while ((len = ampferweg_station_read(&there, segment, sizeof segment)) >= 0) {
        ampferweg_result i;
        for (i = 0; i < len; i++) CHECK_EQUAL(segment[i], byte_at(heard++));
    }
}

static void a_stream(void)
{
    const ampferweg_settings both = {.conv = 1, .mtu = MTU, .mode = 1, .interval = 10, .threshold = 2, .stream = 1};
    uint32_t now;
    CHECK_EQUAL(ampferweg_station_open_settings(&here, &both), 0);
    CHECK_EQUAL(ampferweg_station_open_settings(&there, &both), 0);
    for (now = 0; heard < BYTES && now < 4000000; now += 10) {
        give();
        CHECK(ampferweg_station_flush_to(&here, now, carry, &there) >= 0);
        CHECK(ampferweg_station_flush_to(&there, now, carry, &here) >= 0);
        take();
    }
    CHECK_EQUAL(given, BYTES);
    CHECK_EQUAL(heard, BYTES);
}

int main(void)
{
    lend(&lent, MTU, 0);
    settings();
    settings_by_name();
    fills();
    adds_none();
    refusals();
    give_back(&lent);
    a_stream();
    return check_report("stream");
}
