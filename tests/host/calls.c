/* What each call does when it is not refused: the rules' marked cases through C, and that exactly the named bytes change. */
#include "check.h"
#include "lent.h"
#include "segments.h"

#include <string.h>

static struct lent lent;
static ampferweg_link *l;

static void open_with(uint32_t mtu, uint32_t mode, uint32_t interval, uint32_t threshold)
{
    CHECK_EQUAL(call_open(&lent, 1, mtu, mode, interval, threshold), 0);
}

static void take_in(struct segment segment, uint8_t fill)
{
    static uint8_t datagram[HEADER + 512];
    CHECK_EQUAL(call_input(&lent, datagram, put_segment(datagram, segment, fill)), 0);
}

/* Case A: the very bytes of a push of "hi". */
static void case_a(void)
{
    static const uint8_t wanted[] = {1, 0, 0, 0, 0x51, 0, 0x80, 0, 0, 0, 0, 0, 0, 0, 0, 0, 0, 0, 0, 0, 2, 0, 0, 0, 'h', 'i'};
    open_with(256, 0, 10, 0);
    CHECK_EQUAL(call_send(&lent, (const uint8_t *)"hi", 2), 0);
    snapshot(&lent);
    CHECK_EQUAL(call_flush(&lent, 0), 1);
    CHECK_EQUAL(lent.station.lengths[0], sizeof wanted);
    CHECK(memcmp(lent.station.output, wanted, sizeof wanted) == 0);
    CHECK(unchanged_from(&lent, OUTPUT, sizeof wanted));
    CHECK(unchanged_from(&lent, LENGTHS, sizeof lent.station.lengths[0]));
    CHECK(unchanged_from(&lent, TABLE, sizeof *lent.station.table));
    CHECK_EQUAL(changed(&lent), 1u << LINK | 1u << TABLE | 1u << OUTPUT | 1u << LENGTHS);
}

/* Cases C and D: how messages are cut, at mss 26; sending changes the block and the payload's bytes alone. */
static void cases_c_and_d(void)
{
    static uint8_t message[3303];
    open_with(50, 0, 10, 0);
    memset(message, 'm', sizeof message);
    snapshot(&lent);
    CHECK_EQUAL(call_send(&lent, NULL, 0), 0);
    CHECK_EQUAL(changed(&lent), 1u << LINK);
    CHECK(l->flight.queued == 1 && l->queued[0].len == 0 && l->queued[0].fragment == 0);
    CHECK_EQUAL(call_send(&lent, message, 26), 0);
    CHECK(l->flight.queued == 2 && l->queued[1].len == 26 && l->queued[1].slot == 1);
    CHECK_EQUAL(call_send(&lent, message, 27), 0);
    CHECK(l->flight.queued == 4 && l->queued[2].len == 26 && l->queued[2].fragment == 1);
    CHECK(l->queued[3].len == 1 && l->queued[3].fragment == 0 && l->queued[3].slot == 3);
    CHECK(memcmp(lent.station.send_pool + 26, message, 53) == 0);
    CHECK(unchanged_from(&lent, SEND_POOL, 26 + 53));
    CHECK_EQUAL(changed(&lent), 1u << LINK | 1u << SEND_POOL);
    open_with(50, 0, 10, 0);
    CHECK_EQUAL(call_send(&lent, message, 3303), -AMPFERWEG_LONG_MESSAGE);
    CHECK_EQUAL(call_send(&lent, message, 3302), 0);
    CHECK(l->flight.queued == 127 && l->queued[0].fragment == 126 && l->queued[126].fragment == 0);
}

/* Case E: two samples of the round trip. */
static void case_e(void)
{
    open_with(256, 0, 100, 0);
    CHECK_EQUAL(call_flush(&lent, 1000), 0);
    take_in(ack_of(0, 950, 0), 0);
    CHECK(l->flight.rtt.smoothed == 50 && l->flight.rtt.variation == 25 && l->flight.rtt.timeout == 150);
    take_in(ack_of(0, 910, 0), 0);
    CHECK(l->flight.rtt.smoothed == 55 && l->flight.rtt.variation == 28 && l->flight.rtt.timeout == 167);
}

/* Cases F and G: the due times of one segment, sent at 1000 and again whenever it is due. */
static void due_times(uint32_t mode, const uint32_t *due, size_t count)
{
    uint32_t now = 1000;
    size_t i;
    open_with(256, mode, 10, 0);
    CHECK_EQUAL(call_send(&lent, (const uint8_t *)"x", 1), 0);
    for (i = 0; i < count; i++) {
        CHECK_EQUAL(call_flush(&lent, now), 1);
        CHECK_EQUAL(lent.station.table[0].due, due[i]);
        CHECK_EQUAL(l->transmissions[0], i + 1);
        CHECK_EQUAL(call_flush(&lent, due[i] - 1), 0);
        now = due[i];
    }
}

static void cases_f_and_g(void)
{
    static const uint32_t mode_0[] = {1225, 1625}, mode_1[] = {1200, 1500, 1950}, mode_2[] = {1200, 1500, 1900};
    due_times(0, mode_0, 2);
    due_times(1, mode_1, 3);
    due_times(2, mode_2, 3);
}

/* Case H: the waits of the probe clock. */
static void case_h(void)
{
    static const uint32_t waits[] = {7000, 10500, 15750, 23625};
    struct segment closed = {1, TELL, 0, 0, 0, 0, 0, 0};
    uint32_t now = 100;
    size_t i;
    open_with(256, 0, 10, 0);
    take_in(closed, 0);
    for (i = 0; i < 4; i++) {
        CHECK_EQUAL(call_flush(&lent, now), i > 0);
        if (i > 0) CHECK_EQUAL(segment_at(lent.station.output).command, ASK);
        CHECK_EQUAL(l->clock.probe.wait, waits[i]);
        CHECK_EQUAL(call_flush(&lent, l->clock.probe.due - 1), 0);
        now = l->clock.probe.due;
    }
    closed.window = 1;
    take_in(closed, 0);
    CHECK_EQUAL(call_flush(&lent, now), 0);
    CHECK(l->clock.probe.wait == 0 && l->clock.probe.due == 0);
}

/* Case I: sn 127 is kept, 128 is neither kept nor acknowledged. */
static void case_i(void)
{
    open_with(256, 0, 10, 0);
    snapshot(&lent);
    take_in(push_of(128, 0, 5), 'n');
    CHECK(l->arrival.waiting == 0 && l->arrival.acks == 0);
    CHECK_EQUAL(changed(&lent) & ~(1u << LINK), 0);
    take_in(push_of(127, 0, 5), 'k');
    CHECK(l->arrival.waiting == 1 && l->arrival.acks == 1 && lent.station.acks[0] == 127);
    CHECK(memcmp(lent.station.receive_pool, "kkkkk", 5) == 0);
    CHECK(unchanged_from(&lent, RECEIVE_POOL, 5) && unchanged_from(&lent, ACKS, 2 * sizeof *lent.station.acks));
    CHECK_EQUAL(changed(&lent), 1u << LINK | 1u << RECEIVE_POOL | 1u << ACKS);
}

/* Case J: three acknowledgements at mtu 50 make datagrams of 48 and 24 bytes. */
static void case_j(void)
{
    uint32_t sn;
    open_with(50, 0, 10, 0);
    for (sn = 0; sn < 3; sn++) take_in(push_of(sn, 0, 1), 'j');
    CHECK_EQUAL(call_flush(&lent, 9), 2);
    CHECK(lent.station.lengths[0] == 48 && lent.station.lengths[1] == 24);
    CHECK_EQUAL(segment_at(lent.station.output + 48).sn, 2);
    CHECK_EQUAL(l->arrival.acks, 0);
}

/* A message of three segments, told, shown and read; the buffer beyond it stays. */
static void reading(void)
{
    uint32_t start;
    size_t slot;
    open_with(256, 0, 10, 0);
    lend_message(&lent, 600);
    take_in(push_of(2, 0, 36), 'c');
    take_in(push_of(1, 1, 232), 'b');
    CHECK_EQUAL(call_size(&lent), -AMPFERWEG_NO_MESSAGE);
    take_in(push_of(0, 2, 232), 'a');
    snapshot(&lent);
    CHECK_EQUAL(call_size(&lent), 500);
    CHECK_EQUAL(call_show(&lent, &start), 232);
    slot = l->ready[0].slot;
    CHECK_EQUAL(start, slot * 232);
    CHECK(lent.station.receive_pool[start] == 'a' && lent.station.receive_pool[start + 231] == 'a');
    CHECK_EQUAL(changed(&lent), 0);
    CHECK_EQUAL(call_read(&lent, lent.message, 600), 500);
    CHECK(lent.message[0] == 'a' && lent.message[231] == 'a' && lent.message[232] == 'b' && lent.message[499] == 'c');
    CHECK(unchanged_from(&lent, MESSAGE, 500));
    CHECK_EQUAL(changed(&lent), 1u << LINK | 1u << MESSAGE);
    CHECK_EQUAL(call_size(&lent), -AMPFERWEG_NO_MESSAGE);
    take_in(push_of(3, 0, 0), 0);
    CHECK_EQUAL(call_size(&lent), 0);
    CHECK_EQUAL(call_show(&lent, &start), 0);
    CHECK_EQUAL(call_read(&lent, NULL, 0), 0);
    CHECK_EQUAL(call_size(&lent), -AMPFERWEG_NO_MESSAGE);
}

/* 128 ready and 128 waiting; reading one moves one up and, once fewer are ready, wants a tell. */
static void full_window(void)
{
    uint32_t sn;
    uint8_t byte;
    open_with(256, 0, 10, 0);
    for (sn = 0; sn < 300; sn++) take_in(push_of(sn, 0, 1), (uint8_t)sn);
    CHECK(l->arrival.ready == 128 && l->arrival.waiting == 128 && l->arrival.expected == 128);
    CHECK_EQUAL(l->arrival.acks, 256); /* what is past 256 is not noted, and nothing was kept of it: 256 to 299 are out of window */
    CHECK_EQUAL(call_read(&lent, &byte, 1), 1);
    CHECK(byte == 0 && l->arrival.ready == 128 && l->arrival.tell == 0);
    for (sn = 1; sn < 256; sn++) {
        CHECK_EQUAL(call_read(&lent, &byte, 1), 1);
        CHECK_EQUAL(byte, sn);
    }
    CHECK(l->arrival.tell != 0);
    CHECK_EQUAL(call_read(&lent, &byte, 1), -AMPFERWEG_NO_MESSAGE);
}

/* A fast retransmission after two skips, and two acks in one datagram that count as one skip. */
static void skips(void)
{
    uint8_t datagram[2 * HEADER];
    int i;
    open_with(256, 1, 10, 2);
    for (i = 0; i < 4; i++) CHECK_EQUAL(call_send(&lent, (const uint8_t *)"s", 1), 0);
    CHECK_EQUAL(call_flush(&lent, 100), 1);
    put_segment(datagram, ack_of(1, 100, 0), 0);
    put_segment(datagram + HEADER, ack_of(2, 100, 0), 0);
    CHECK_EQUAL(call_input(&lent, datagram, sizeof datagram), 0);
    CHECK_EQUAL(lent.station.table[0].skips, 1);
    CHECK_EQUAL(call_flush(&lent, 101), 0);
    take_in(ack_of(2, 100, 0), 0);
    CHECK_EQUAL(lent.station.table[0].skips, 2);
    CHECK_EQUAL(call_flush(&lent, 102), 1);
    CHECK_EQUAL(segment_at(lent.station.output).sn, 0);
    CHECK_EQUAL(lent.station.table[0].skips, 0);
}

/* After 20 transmissions the link is dead, says so from then on, and goes on. */
static void dead(void)
{
    uint32_t now = 0;
    int i;
    open_with(256, 1, 10, 0);
    CHECK_EQUAL(call_send(&lent, (const uint8_t *)"d", 1), 0);
    for (i = 0; i < 20; i++) {
        CHECK(l->clock.dead == 0);
        CHECK_EQUAL(call_flush(&lent, now), 1);
        now = lent.station.table[0].due;
    }
    CHECK(l->clock.dead != 0);
    CHECK_EQUAL(call_flush(&lent, now), 1);
    CHECK_EQUAL(l->transmissions[0], 20);
    take_in(ack_of(0, now, 0), 0);
    CHECK(l->clock.dead != 0 && l->flight.outstanding == 0);
}

/* An update that comes early writes nothing, and records the time; at its time it is a flush. */
static void updates(void)
{
    open_with(256, 1, 100, 0);
    CHECK_EQUAL(call_send(&lent, (const uint8_t *)"u", 1), 0);
    CHECK_EQUAL(call_update(&lent, 1000), 1);
    CHECK(l->clock.next_flush == 1100 && l->clock.updated == 1 && lent.station.table[0].due == 1200);
    snapshot(&lent);
    CHECK_EQUAL(call_update(&lent, 1099), AMPFERWEG_NOT_YET);
    CHECK(l->clock.current == 1099 && l->clock.next_flush == 1100);
    l->clock.current = 1000; /* the one number that it changed */
    CHECK_EQUAL(changed(&lent), 0);
    CHECK_EQUAL(call_update(&lent, 1100), 0);
    CHECK_EQUAL(l->clock.next_flush, 1200);
    CHECK_EQUAL(call_update(&lent, 1250), 1); /* the segment was due at 1200; late by less than an interval */
    CHECK(l->clock.next_flush == 1300 && l->transmissions[0] == 2);
    CHECK_EQUAL(call_update(&lent, 1400), 0); /* a whole interval late */
    CHECK_EQUAL(l->clock.next_flush, 1500);
    CHECK_EQUAL(call_flush(&lent, 1450), 0); /* a flush leaves the schedule alone */
    CHECK_EQUAL(l->clock.next_flush, 1500);
}

/* The 10,000 rule: a next time 10,000 ahead is waited for, one further ahead is not. */
static void jumps(void)
{
    uint32_t when;
    open_with(256, 1, 100, 0);
    CHECK_EQUAL(call_update(&lent, 20000), 0);
    CHECK_EQUAL(call_update(&lent, 10100), AMPFERWEG_NOT_YET);
    CHECK(call_check(&lent, 10100, &when) == 0 && when == 10200);
    snapshot(&lent);
    CHECK(call_check(&lent, 10099, &when) == 0 && when == 10099);
    CHECK_EQUAL(changed(&lent), 0);
    CHECK_EQUAL(call_update(&lent, 10099), 0);
    CHECK_EQUAL(l->clock.next_flush, 10199);
}

/* What check names: now before the first update, the next flush, a segment's due time, an interval at most, now where one is due. */
static void checks(void)
{
    uint32_t when = 5;
    open_with(256, 1, 5000, 0);
    CHECK(call_check(&lent, 900, &when) == 0 && when == 900);
    CHECK_EQUAL(call_flush(&lent, 900), 0);
    CHECK(call_check(&lent, 901, &when) == 0 && when == 901);
    CHECK_EQUAL(call_send(&lent, (const uint8_t *)"c", 1), 0);
    CHECK_EQUAL(call_update(&lent, 1000), 1);
    snapshot(&lent);
    CHECK(call_check(&lent, 1000, &when) == 0 && when == 1200); /* the segment before the flush at 6000 */
    CHECK(call_check(&lent, 1200, &when) == 0 && when == 1200);
    CHECK(call_check(&lent, 1300, &when) == 0 && when == 1300);
    CHECK_EQUAL(changed(&lent), 0);
    CHECK_EQUAL(call_update(&lent, 1200), AMPFERWEG_NOT_YET);
    CHECK_EQUAL(call_flush(&lent, 1200), 1);
    CHECK(call_check(&lent, 1200, &when) == 0 && when == 1500);
    take_in(ack_of(0, 1200, 1), 0);
    CHECK(call_check(&lent, 1200, &when) == 0 && when == 6000);
    CHECK(call_check(&lent, 999, &when) == 0 && when == 5999); /* at most an interval away */
    CHECK(call_check(&lent, 6000, &when) == 0 && when == 6000);
}

static void texts(void)
{
    char number[32];
    int i;
    CHECK(strcmp(ampferweg_text(0), "done") == 0 && strcmp(ampferweg_text(290), "done") == 0);
    CHECK(strncmp(ampferweg_text(AMPFERWEG_NOT_YET), "done", 4) == 0 && ampferweg_refusal_of(AMPFERWEG_NOT_YET) == 0);
    for (i = 1; i <= 14; i++) {
        if (i == 8) continue;
        snprintf(number, sizeof number, "refused %d:", i);
        CHECK(strncmp(ampferweg_text(-i), number, strlen(number)) == 0);
    }
    CHECK(strcmp(ampferweg_text(-8), "refused: no number of this library") == 0);
    CHECK(ampferweg_refusal_of(-9) == AMPFERWEG_NO_MESSAGE && ampferweg_refusal_of(5) == 0);
}

/* Stations as the header declares them: refused 13 until opened, and two that share an output. */
AMPFERWEG_OUTPUT_STORAGE(shared);
AMPFERWEG_STATION_STORAGE_SHARED(near_end, 256, shared);
AMPFERWEG_STATION_STORAGE_SHARED(far_end, 256, shared);

static void to_far_end(void *context, const uint8_t *datagram, size_t len)
{
    ++*(int *)context;
    CHECK_EQUAL(ampferweg_station_input(&far_end, datagram, len), 0);
}

static void stations(void)
{
    char text[600];
    int carried = 0;
    size_t len;
    memset(text, 't', sizeof text);
    CHECK_EQUAL(ampferweg_station_send(&near_end, text, 1), -AMPFERWEG_INVALID_BLOCK);
    CHECK_EQUAL(ampferweg_station_input(&near_end, text, 1), -AMPFERWEG_INVALID_BLOCK);
    CHECK_EQUAL(ampferweg_station_flush_to(&near_end, 1, to_far_end, &carried), -AMPFERWEG_INVALID_BLOCK);
    CHECK_EQUAL(ampferweg_station_update_to(&near_end, 1, to_far_end, &carried), -AMPFERWEG_INVALID_BLOCK);
    CHECK_EQUAL(ampferweg_station_run_to(&near_end, 1, to_far_end, &carried), -AMPFERWEG_INVALID_BLOCK);
    CHECK_EQUAL(ampferweg_station_wait(&near_end, 1), 0);
    CHECK_EQUAL(ampferweg_station_read(&near_end, text, 1), -AMPFERWEG_INVALID_BLOCK);
    CHECK_EQUAL(ampferweg_station_size(&near_end), -AMPFERWEG_INVALID_BLOCK);
    CHECK(ampferweg_station_show(&near_end, &len) != NULL && len == 0);
    CHECK_EQUAL(ampferweg_station_open(&near_end, 3, 257, 0, 10, 0), -AMPFERWEG_SHORT_PART);
    CHECK_EQUAL(ampferweg_station_open(&near_end, 3, 256, 0, 10, 0), 0);
    CHECK_EQUAL(ampferweg_station_open(&far_end, 3, 256, 0, 10, 0), 0);
    CHECK_EQUAL(ampferweg_station_send(&near_end, text, sizeof text), 0);
    CHECK_EQUAL(ampferweg_station_pending(&near_end), 3);
    CHECK_EQUAL(ampferweg_station_flush_to(&near_end, 1, to_far_end, &carried), 3);
    CHECK_EQUAL(carried, 3);
    CHECK_EQUAL(ampferweg_station_size(&far_end), sizeof text);
    CHECK(*ampferweg_station_show(&far_end, &len) == 't' && len == 232);
    CHECK_EQUAL(ampferweg_station_read(&far_end, text, sizeof text), sizeof text);
    CHECK(!ampferweg_station_dead(&near_end));
}

/* A station that runs at the times that it names: it sends each segment when it is due, and its waits are never 0. */
static void on_time(void)
{
    static const uint32_t due[] = {0, 200, 500, 950, 1625};
    uint32_t now = 0, wait;
    int carried = 0, i = 0;
    CHECK_EQUAL(ampferweg_station_open(&near_end, 3, 256, 1, 1000, 0), 0);
    CHECK_EQUAL(ampferweg_station_open(&far_end, 3, 256, 1, 1000, 0), 0);
    CHECK_EQUAL(ampferweg_station_wait(&near_end, now), 0);
    CHECK_EQUAL(ampferweg_station_send(&near_end, "t", 1), 0);
    while (now < 2000) {
        const ampferweg_result result = ampferweg_station_run_to(&near_end, now, to_far_end, &carried);
        if (result > 0) CHECK_EQUAL(now, due[i++]);
        CHECK(result == (result > 0) && carried == i);
        wait = ampferweg_station_wait(&near_end, now);
        CHECK(wait > 0 && wait <= 1000);
        if (wait > 1) CHECK_EQUAL(ampferweg_station_update_to(&near_end, now + wait - 1, to_far_end, &carried), AMPFERWEG_NOT_YET);
        now += wait;
    }
    CHECK_EQUAL(i, 5);
}

static void every_case(size_t spare)
{
    lend(&lent, 256, spare);
    l = lent.link;
    case_a();
    cases_c_and_d();
    case_e();
    cases_f_and_g();
    case_h();
    case_i();
    case_j();
    reading();
    full_window();
    skips();
    dead();
    updates();
    jumps();
    checks();
    CHECK(guarded(&lent));
    give_back(&lent);
}

int main(void)
{
    every_case(0);
    every_case(13);
    stations();
    on_time();
    texts();
    return check_report("calls");
}
