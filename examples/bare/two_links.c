/* Two links in one image send each other messages over a network inside the image, which loses, doubles and delays datagrams. No heap, no
 * libc. The last line says what arrived; main answers 0 if it was every message, whole and in order, both ways. */
#include "board.h"
#include "tick.h"

enum { MTU = 64, MESSAGES = 1000, PATIENCE = 300000, AIR = 128 };

AMPFERWEG_OUTPUT_STORAGE(output);
AMPFERWEG_STATION_STORAGE_SHARED(left, MTU, output);
AMPFERWEG_STATION_STORAGE_SHARED(right, MTU, output);

static uint32_t datagrams, lost, doubled;

static uint32_t draw(uint32_t below)
{
    static uint32_t state = 1;
    state = state * 1664525u + 1013904223u;
    return (state >> 8) % below;
}

/* ---- the network: datagrams in the air, each with its way and the time of its arrival */

static struct flying { ampferweg_station *to; uint32_t due; size_t len; uint8_t bytes[MTU]; } air[AIR];
static uint32_t flying;

static void put_in_the_air(ampferweg_station *to, const uint8_t *datagram, size_t len)
{
    struct flying *f;
    size_t i;
    if (flying == AIR) { lost++; return; }
    f = &air[flying++];
    f->to = to;
    f->due = board_clock() + 5 + draw(40);
    f->len = len;
    for (i = 0; i < len; i++) f->bytes[i] = datagram[i];
}

/* The hook of a node: one datagram in ten is lost, one in twenty arrives twice. */
static void datagram_out(void *peer, const uint8_t *datagram, size_t len)
{
    datagrams++;
    if (draw(10) == 0) { lost++; return; }
    put_in_the_air((ampferweg_station *)peer, datagram, len);
    if (draw(20) == 0) { doubled++; put_in_the_air((ampferweg_station *)peer, datagram, len); }
}

static void arrive(void)
{
    uint32_t i = 0;
    while (i < flying) {
        if ((int32_t)(board_clock() - air[i].due) < 0) { i++; continue; }
        (void)ampferweg_station_input(air[i].to, air[i].bytes, air[i].len);
        air[i] = air[--flying];
    }
}

/* ---- messages that follow from their number: empty ones, short ones, some of several segments */

static uint8_t message[6 * AMPFERWEG_MSS(MTU)], heard_bytes[AMPFERWEG_MESSAGE_SIZE(MTU)];

struct talker { struct node node; uint32_t name, said, heard; };

static size_t compose(uint32_t name, uint32_t n)
{
    const size_t len = (n * 37 + name * 11) % (n % 13 == 5 ? sizeof message : 2 * AMPFERWEG_MSS(MTU));
    size_t i;
    for (i = 0; i < len; i++) message[i] = (uint8_t)(n * 7 + name + i * 3);
    return len;
}

static void say_all(struct talker *talker)
{
    while (talker->said < MESSAGES) {
        const size_t len = compose(talker->name, talker->said);
        if (ampferweg_station_send(talker->node.station, message, len) < 0) break; /* 11: the send pool is full, for now */
        talker->said++;
    }
}

/* Whether every message read is the next one of the other talker. */
static int hear_all(struct talker *talker)
{
    ampferweg_result count;
    while ((count = ampferweg_station_read(talker->node.station, heard_bytes, sizeof heard_bytes)) >= 0) {
        const size_t len = compose(1 - talker->name, talker->heard);
        size_t i;
        if ((size_t)count != len) return 0;
        for (i = 0; i < len; i++) if (heard_bytes[i] != message[i]) return 0;
        talker->heard++;
    }
    return ampferweg_refusal_of(count) == AMPFERWEG_NO_MESSAGE;
}

/* ---- both */

static void say_number(const char *before, uint32_t n)
{
    char text[11];
    char *at = text + sizeof text - 1;
    *at = 0;
    do *--at = (char)('0' + n % 10); while ((n /= 10) > 0);
    board_say(before);
    board_say(at);
}

static int fail(const char *why)
{
    board_say(why);
    board_say("\nbare: FAILED\n");
    return 1;
}

static int done(const struct talker *talker)
{
    return talker->said == MESSAGES && talker->heard == MESSAGES && ampferweg_station_pending(talker->node.station) == 0;
}

int main(void)
{
    const uint32_t began = board_clock();
    struct talker talkers[2] = {
        {{&left, board_clock, datagram_out, &right, began}, 0, 0, 0},
        {{&right, board_clock, datagram_out, &left, began}, 1, 0, 0},
    };
    int i;
    for (i = 0; i < 2; i++) if (ampferweg_station_open(talkers[i].node.station, 7, MTU, 1, 10, 2) < 0) return fail("a link does not open");
    while (!done(&talkers[0]) || !done(&talkers[1])) {
        if (board_clock() - began > PATIENCE) return fail("not done in five minutes");
        arrive();
        for (i = 0; i < 2; i++) {
            say_all(&talkers[i]);
            if (!hear_all(&talkers[i])) return fail("a message is not the one that was sent");
            if (tick(&talkers[i].node) < 0) return fail("a flush was refused");
        }
        board_wait();
    }
    say_number("two links, mtu ", MTU);
    say_number(": datagrams ", datagrams);
    say_number(", lost ", lost);
    say_number(", doubled ", doubled);
    say_number("; stack ", board_stack_used());
    say_number(" bytes\nbare: ", talkers[0].heard);
    say_number(" and ", talkers[1].heard);
    say_number(" messages, whole and in order, in ", board_clock() - began);
    board_say(" ms\n");
    return 0;
}
