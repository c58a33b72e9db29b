/* The deepest stack and the time of each call, near empty and full. A call runs on a stack of its own that was painted, and
 * the paint that is gone was used; its time is the least of many repeats from one state. Prints one JSON object: of each
 * call the bytes of stack and the nanoseconds. */
#define _XOPEN_SOURCE 700
#include <ampferweg.h>
#include <stdio.h>
#include <stdlib.h>
#include <string.h>
#include <time.h>
#include <ucontext.h>

enum { STACK = 1 << 20, PAINT = 0x5A, MTU = 256, MSS = 232, REPEATS = 2000 };

AMPFERWEG_STATION_STORAGE(station, MTU);

static uint8_t stack[STACK];
static uint8_t message[AMPFERWEG_MESSAGE_SIZE(MTU)], buffer[sizeof message], datagram[2048];
static size_t message_len, datagram_len;
static ucontext_t here, there;
static void (*what)(void);
static ampferweg_result result;

/* ---- painting ---- */

static void enter(void) { what(); }

static size_t used_by(void (*call)(void))
{
    size_t untouched = 0;
    memset(stack, PAINT, sizeof stack);
    what = call;
    getcontext(&there);
    there.uc_stack.ss_sp = stack;
    there.uc_stack.ss_size = sizeof stack;
    there.uc_link = &here;
    makecontext(&there, enter, 0);
    swapcontext(&here, &there);
    while (untouched < sizeof stack && stack[untouched] == PAINT) untouched++;
    return sizeof stack - untouched;
}

static void nothing(void) {}

/* ---- the calls, without the station layer, which counts ---- */

#define LENT &station.link, AMPFERWEG_PARTS(&station)
#define FLUSHED station.output, station.output_len, station.lengths, station.lengths_len

static void call_open(void) { result = ampferweg_open(&station.link, 1, MTU, 1, 10, 2, 0, 0, AMPFERWEG_PARTS(&station)); }
static void call_send(void) { result = ampferweg_send(LENT, message, message_len); }
static void call_input(void) { result = ampferweg_input(LENT, datagram, datagram_len); }
static void call_flush(void) { result = ampferweg_flush(LENT, 100, FLUSHED); }
static void call_read(void) { result = ampferweg_read(LENT, buffer, sizeof buffer); }
static void call_size(void) { result = ampferweg_size(LENT); }

/* Early by a millisecond, so that it does not flush. */
static void call_update(void)
{
    result = ampferweg_update(LENT, station.link.clock.next_flush - 1, FLUSHED);
    if (result == AMPFERWEG_NOT_YET) result = 0;
}

static void call_check(void)
{
    uint32_t when;
    result = ampferweg_station_check(&station, 100, &when);
}

static void call_show(void)
{
    size_t len;
    (void)ampferweg_station_show(&station, &len);
    result = 0;
}

/* ---- time ---- */

static ampferweg_link link_before;
static ampferweg_record table_before[AMPFERWEG_TABLE_LEN];
static uint32_t acks_before[AMPFERWEG_ACKS_LEN];

static void keep(void)
{
    link_before = station.link;
    memcpy(table_before, station.table, sizeof table_before);
    memcpy(acks_before, station.acks, sizeof acks_before);
}

static void put_back(void)
{
    station.link = link_before;
    memcpy(station.table, table_before, sizeof table_before);
    memcpy(station.acks, acks_before, sizeof acks_before);
}

static long nanoseconds_of(void (*call)(void))
{
    long least = 1000000000, took;
    struct timespec from, to;
    int i;
    for (i = 0; i < REPEATS; i++) {
        put_back();
        clock_gettime(CLOCK_MONOTONIC, &from);
        call();
        clock_gettime(CLOCK_MONOTONIC, &to);
        took = (to.tv_sec - from.tv_sec) * 1000000000L + (to.tv_nsec - from.tv_nsec);
        if (took < least) least = took;
    }
    return least;
}

static void say(const char *name, void (*call)(void), int last)
{
    const size_t base = used_by(nothing);
    size_t used;
    long took, clock;
    keep();
    clock = nanoseconds_of(nothing);
    took = nanoseconds_of(call);
    put_back();
    used = used_by(call);
    if (result < 0) {
        fprintf(stderr, "calls: %s is %s\n", name, ampferweg_text(result));
        exit(3);
    }
    printf("\"%s\":[%zu,%ld]%s", name, used > base ? used - base : 0, took > clock ? took - clock : 0, last ? "" : ",");
}

/* ---- states ---- */

static void add_push(uint32_t sn, uint8_t fragment, uint8_t len)
{
    uint8_t *at = datagram + datagram_len;
    memset(at, 0, 24);
    at[0] = 1;
    at[4] = 81;
    at[5] = fragment;
    at[6] = 128;
    at[12] = (uint8_t)sn;
    at[13] = (uint8_t)(sn >> 8);
    at[20] = len;
    datagram_len += 24 + (size_t)len;
}

static void take_in_push(uint32_t sn, uint8_t fragment)
{
    datagram_len = 0;
    add_push(sn, fragment, MSS);
    call_input();
}

/* All slots used: 32 outstanding and 96 queued, 128 ready (a message of 127 at the front), 128 waiting, 256 noted acks. */
static void fill(void)
{
    uint32_t sn;
    call_open();
    message_len = MSS;
    for (sn = 0; sn < 128; sn++) call_send();
    result = ampferweg_update(LENT, 100, FLUSHED);
    for (sn = 0; sn < 256; sn++) take_in_push(sn, (uint8_t)(sn < 127 ? 126 - sn : 0));
}

static void near_empty(void)
{
    say("open", call_open, 0);
    message_len = 1;
    say("send", call_send, 0);
    say("flush", call_flush, 0);
    result = ampferweg_update(LENT, 100, FLUSHED);
    say("update", call_update, 0);
    say("check", call_check, 0);
    datagram_len = 0;
    add_push(0, 0, 1);
    say("input", call_input, 0);
    say("size", call_size, 0);
    say("show", call_show, 0);
    say("read", call_read, 1);
}

static void near_full(void)
{
    fill();
    say("open", call_open, 0);
    message_len = sizeof message;
    say("send", call_send, 0);
    fill();
    say("update", call_update, 0);
    say("check", call_check, 0);
    say("flush", call_flush, 0);
    fill();
    datagram_len = 0;
    while (datagram_len + 24 + 1 <= MTU) add_push(255, 0, 1);
    say("input", call_input, 0);
    say("size", call_size, 0);
    say("show", call_show, 0);
    say("read", call_read, 1);
}

int main(void)
{
    printf("{\"empty\":{");
    near_empty();
    printf("},\"full\":{");
    near_full();
    puts("}}");
    return 0;
}
