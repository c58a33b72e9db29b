/* Every refusal number of every call, and that a refused call changes no byte: not of the block, not of a lent part.
 * 8 is no refusal's number any more. */
#include "check.h"
#include "lent.h"
#include "segments.h"

#include <string.h>

static struct lent lent;
static uint8_t *buffer; /* a message part of 1000 bytes */

/* The call is refused with this number, and everything stands as before it. */
#define REFUSED(number, call) do { \
        snapshot(&lent); \
        CHECK_EQUAL(call, -(number)); \
        CHECK_EQUAL(changed(&lent), 0); \
    } while (0)

/* Showing is refused: an empty part, and everything stands. */
static void shows_nothing(void)
{
    uint32_t start = 77;
    snapshot(&lent);
    CHECK_EQUAL(call_show(&lent, &start), 0);
    CHECK_EQUAL(start, 0);
    CHECK_EQUAL(changed(&lent), 0);
}

/* A check is refused with this number: it stores nothing, and everything stands. */
static void check_refused(int number)
{
    uint32_t when = 77;
    REFUSED(number, call_check(&lent, 10, &when));
    CHECK_EQUAL(when, 77);
}

/* All calls but opening and showing, with arguments that would do. */
static void all_refused(int number)
{
    static uint8_t good[HEADER];
    struct segment tell = {1, TELL, 0, 0, 0, 0, 0, 0};
    put_segment(good, tell, 0);
    REFUSED(number, call_send(&lent, buffer, 100));
    REFUSED(number, call_input(&lent, good, sizeof good));
    REFUSED(number, call_flush(&lent, 10));
    REFUSED(number, call_update(&lent, 10));
    REFUSED(number, call_update(&lent, lent.link->clock.next_flush - 1));
    check_refused(number);
    REFUSED(number, call_read(&lent, buffer, 1000));
    REFUSED(number, call_size(&lent));
    shows_nothing();
}

/* A link with something in every list. */
static void open_busy(uint32_t mtu)
{
    static uint8_t arrives[2 * (HEADER + 26)];
    size_t len = put_segment(arrives, push_of(0, 0, 26), 'r');
    len += put_segment(arrives + len, push_of(2, 0, 26), 'w');
    CHECK_EQUAL(call_open(&lent, 1, mtu, 0, 10, 2), 0);
    CHECK_EQUAL(call_send(&lent, buffer, 900), 0);
    CHECK(call_update(&lent, 5) > 0);
    CHECK_EQUAL(call_send(&lent, buffer, 900), 0);
    CHECK_EQUAL(call_input(&lent, arrives, len), 0);
}

static uint8_t datagram[4 * (HEADER + 300)];

/* A bad segment behind `at` good bytes, and the datagram `less` bytes shorter than it should be. */
static void refused_with(int number, size_t at, struct segment bad, size_t less)
{
    const size_t len = at + put_segment(datagram + at, bad, 'b');
    REFUSED(number, call_input(&lent, datagram, len - less));
}

static void each_bad_segment(size_t at)
{
    struct segment bad = push_of(3, 0, 10);
    size_t len;
    bad.conv = 2;
    refused_with(AMPFERWEG_OTHER_CONVERSATION, at, bad, 0);
    bad = push_of(3, 0, 10);
    refused_with(AMPFERWEG_LENGTH_PAST_END, at, bad, 1);
    len = at + put_segment(datagram + at, bad, 'b');
    datagram[at + 23] = 0x80;
    REFUSED(AMPFERWEG_LENGTH_PAST_END, call_input(&lent, datagram, len));
    bad.command = 80;
    refused_with(AMPFERWEG_UNKNOWN_COMMAND, at, bad, 0);
    bad.command = 85;
    refused_with(AMPFERWEG_UNKNOWN_COMMAND, at, bad, 0);
    refused_with(AMPFERWEG_LONG_PAYLOAD, at, push_of(3, 0, 233), 0);
    refused_with(AMPFERWEG_HIGH_FRAGMENT, at, push_of(3, 127, 10), 0);
}

/* The first bad segment decides, and in a segment the first test. */
static void order_of_1_to_6(void)
{
    struct segment bad = push_of(3, 127, 300);
    const size_t len = put_segment(datagram, push_of(3, 127, 10), 'b');
    bad.conv = 2;
    refused_with(AMPFERWEG_HIGH_FRAGMENT, len, bad, 0);
    bad.command = 90;
    refused_with(AMPFERWEG_OTHER_CONVERSATION, 0, bad, 1);
    bad.conv = 1;
    refused_with(AMPFERWEG_LENGTH_PAST_END, 0, bad, 1);
    refused_with(AMPFERWEG_UNKNOWN_COMMAND, 0, bad, 0);
    bad.command = PUSH;
    refused_with(AMPFERWEG_LONG_PAYLOAD, 0, bad, 0);
}

static void number_1_to_6(void)
{
    struct segment odd = ack_of(900, 0, 0);
    size_t len;
    open_busy(256);
    memset(datagram, 1, sizeof datagram);
    for (len = 0; len < HEADER; len++) REFUSED(AMPFERWEG_SHORT_DATAGRAM, call_input(&lent, datagram, len));
    each_bad_segment(0);
    /* Behind a good push and a good ack, of which nothing is applied. */
    len = put_segment(datagram, push_of(1, 0, 232), 'g');
    len += put_segment(datagram + len, ack_of(0, 5, 1), 0);
    each_bad_segment(len);
    order_of_1_to_6();
    /* 5 and 6 are for pushes only. */
    odd.fragment = 200;
    odd.len = 300;
    len = put_segment(datagram, odd, 0);
    CHECK_EQUAL(call_input(&lent, datagram, len), 0);
}

/* 14 for a tail of 1 to 23 bytes behind good segments, of which nothing is applied; a bad segment before it decides. */
static void number_14(void)
{
    const size_t good = put_segment(datagram, push_of(1, 0, 232), 'g');
    size_t bad, len;
    open_busy(256);
    memset(datagram + good, 1, HEADER);
    for (len = good + 1; len < good + HEADER; len++) REFUSED(AMPFERWEG_TRAILING_BYTES, call_input(&lent, datagram, len));
    bad = good + put_segment(datagram + good, push_of(2, 127, 10), 'b');
    datagram[bad] = 0;
    REFUSED(AMPFERWEG_HIGH_FRAGMENT, call_input(&lent, datagram, bad + 1));
    CHECK_EQUAL(call_input(&lent, datagram, good), 0);
}

/* 7 for each part that is one element short; longer parts are fine. */
static void number_7_of_parts(uint32_t mtu)
{
    ampferweg_station *s = &lent.station;
    size_t *lengths[6];
    size_t i;
    lengths[0] = &s->send_pool_len;
    lengths[1] = &s->receive_pool_len;
    lengths[2] = &s->table_len;
    lengths[3] = &s->acks_len;
    lengths[4] = &s->output_len;
    lengths[5] = &s->lengths_len;
    open_busy(mtu);
    for (i = 0; i < 4; i++) {
        const size_t was = *lengths[i];
        *lengths[i] = was - 1;
        all_refused(AMPFERWEG_SHORT_PART);
        REFUSED(AMPFERWEG_SHORT_PART, call_open(&lent, 1, mtu, 0, 10, 2));
        *lengths[i] = 0;
        all_refused(AMPFERWEG_SHORT_PART);
        REFUSED(AMPFERWEG_SHORT_PART, call_open(&lent, 1, mtu, 0, 10, 2));
        REFUSED(AMPFERWEG_SETTING_OUT_OF_RANGE, call_open(&lent, 1, 1401, 0, 10, 2)); /* 12 before 7 */
        *lengths[i] = was;
    }
    for (i = 4; i < 6; i++) {
        const size_t was = *lengths[i];
        uint32_t when;
        *lengths[i] = was - 1;
        REFUSED(AMPFERWEG_SHORT_PART, call_flush(&lent, 10));
        REFUSED(AMPFERWEG_SHORT_PART, call_update(&lent, 10)); /* whether or not it would flush, at 15 */
        REFUSED(AMPFERWEG_SHORT_PART, call_update(&lent, 15));
        CHECK_EQUAL(call_check(&lent, 10, &when), 0); /* asks for neither */
        *lengths[i] = was;
    }
    /* 7 before 13: a bad block with a short part. */
    lent.link->settings.mode = 3;
    s->table_len--;
    all_refused(AMPFERWEG_SHORT_PART);
    s->table_len++;
    all_refused(AMPFERWEG_INVALID_BLOCK);
}

/* The sizes follow the block's own mtu, in range or not. */
static void number_7_of_a_strange_mtu(void)
{
    open_busy(256);
    lent.link->settings.mtu = 600;
    all_refused(AMPFERWEG_SHORT_PART);
    lent.link->settings.mtu = 0xFFFF;
    all_refused(AMPFERWEG_SHORT_PART);
    lent.link->settings.mtu = 0;
    all_refused(AMPFERWEG_INVALID_BLOCK);
    lent.link->settings.mtu = 49;
    all_refused(AMPFERWEG_INVALID_BLOCK);
}

static void number_7_and_9_of_reading(void)
{
    size_t len;
    CHECK_EQUAL(call_open(&lent, 1, 256, 0, 10, 2), 0);
    REFUSED(AMPFERWEG_NO_MESSAGE, call_read(&lent, buffer, 1000));
    REFUSED(AMPFERWEG_NO_MESSAGE, call_read(&lent, NULL, 0));
    REFUSED(AMPFERWEG_NO_MESSAGE, call_size(&lent));
    shows_nothing();
    len = put_segment(datagram, push_of(0, 1, 232), 'a');
    CHECK_EQUAL(call_input(&lent, datagram, len), 0);
    REFUSED(AMPFERWEG_NO_MESSAGE, call_read(&lent, buffer, 1000));
    REFUSED(AMPFERWEG_NO_MESSAGE, call_size(&lent));
    shows_nothing();
    len = put_segment(datagram, push_of(1, 0, 3), 'b');
    CHECK_EQUAL(call_input(&lent, datagram, len), 0);
    REFUSED(AMPFERWEG_SHORT_PART, call_read(&lent, buffer, 234));
    REFUSED(AMPFERWEG_SHORT_PART, call_read(&lent, NULL, 0));
    CHECK_EQUAL(call_size(&lent), 235);
    CHECK_EQUAL(call_read(&lent, buffer, 235), 235);
}

static void number_10_and_11(void)
{
    static uint8_t message[127 * 232 + 1];
    int i;
    CHECK_EQUAL(call_open(&lent, 1, 256, 0, 10, 2), 0);
    REFUSED(AMPFERWEG_LONG_MESSAGE, call_send(&lent, message, sizeof message));
    CHECK_EQUAL(call_send(&lent, message, sizeof message - 1), 0);
    REFUSED(AMPFERWEG_NO_FREE_SLOTS, call_send(&lent, message, 233));
    CHECK_EQUAL(call_send(&lent, message, 232), 0);
    REFUSED(AMPFERWEG_NO_FREE_SLOTS, call_send(&lent, message, 0));
    REFUSED(AMPFERWEG_LONG_MESSAGE, call_send(&lent, message, sizeof message));
    CHECK_EQUAL(call_open(&lent, 1, 256, 0, 10, 2), 0);
    for (i = 0; i < 128; i++) CHECK_EQUAL(call_send(&lent, NULL, 0), 0);
    REFUSED(AMPFERWEG_NO_FREE_SLOTS, call_send(&lent, NULL, 0));
}

static void number_12(void)
{
    static const uint32_t bad[][4] = { /* mtu, mode, interval, threshold */
        {49, 0, 10, 0}, {1401, 0, 10, 0}, {0, 0, 10, 0}, {65536 + 256, 0, 10, 0}, {0x80000100, 0, 10, 0},
        {256, 3, 10, 0}, {256, 256, 10, 0}, {256, 0x80000000, 10, 0},
        {256, 0, 9, 0}, {256, 0, 5001, 0}, {256, 0, 0, 0}, {256, 0, 65536 + 10, 0},
        {256, 0, 10, 101}, {256, 0, 10, 256}, {256, 0, 10, 0xFFFFFFFF},
    };
    static const uint32_t good[][4] = {{50, 0, 10, 0}, {256, 2, 5000, 100}, {256, 1, 10, 1}};
    size_t i;
    open_busy(256);
    for (i = 0; i < sizeof bad / sizeof *bad; i++)
        REFUSED(AMPFERWEG_SETTING_OUT_OF_RANGE, call_open(&lent, 1, bad[i][0], bad[i][1], bad[i][2], bad[i][3]));
    for (i = 0; i < sizeof good / sizeof *good; i++) {
        snapshot(&lent);
        CHECK_EQUAL(call_open(&lent, 0xFFFFFFFF, good[i][0], good[i][1], good[i][2], good[i][3]), 0);
        CHECK_EQUAL(changed(&lent), 1u << LINK); /* opening writes no lent byte */
    }
}

static void number_13(void)
{
    memset(lent.link, 0, sizeof *lent.link);
    all_refused(AMPFERWEG_INVALID_BLOCK);
    open_busy(256);
    memset(lent.link, 0xFF, sizeof *lent.link);
    lent.link->settings.mtu = 256;
    all_refused(AMPFERWEG_INVALID_BLOCK);
    open_busy(256);
    lent.link->queued[1].slot = lent.link->queued[0].slot;
    all_refused(AMPFERWEG_INVALID_BLOCK);
    open_busy(256);
    lent.station.table[lent.link->outstanding[0].slot].skips = 256;
    all_refused(AMPFERWEG_INVALID_BLOCK);
    open_busy(256);
    lent.link->clock.probe.wait = 1;
    all_refused(AMPFERWEG_INVALID_BLOCK);
}

int main(void)
{
    lend(&lent, 256, 0);
    lend_message(&lent, 1000);
    buffer = lent.message;
    number_1_to_6();
    number_14();
    number_7_of_parts(256);
    number_7_of_a_strange_mtu();
    number_7_and_9_of_reading();
    number_10_and_11();
    number_12();
    number_13();
    CHECK(guarded(&lent));
    give_back(&lent);
    lend(&lent, 1400, 0);
    lend_message(&lent, 1000);
    buffer = lent.message;
    number_7_of_parts(1400);
    CHECK(guarded(&lent));
    give_back(&lent);
    return check_report("refusals");
}
