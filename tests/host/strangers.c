/* Anything at all: blocks of random bytes or with one byte changed, parts of any length, datagrams that are cut, bent or
 * random, clocks that jump. Each call answers a number of the list, a refused one changes nothing, and no byte outside the
 * lent parts, nor beyond the stated sizes, is touched. */
#include "check.h"
#include "lent.h"
#include "segments.h"

#include <string.h>

enum { STEPS = 60000, SPARE = 5 };

static struct lent lent;
static ampferweg_link *l;

static size_t any_datagram(uint8_t *at)
{
    static const uint8_t commands[] = {PUSH, PUSH, PUSH, ACK, ACK, ASK, TELL};
    size_t len = 0, i, count = 1 + below(4);
    for (i = 0; i < count; i++) {
        struct segment s = push_of(l->arrival.expected + below(140) - 5, (uint8_t)below(3), below(27));
        s.command = commands[below(sizeof commands)];
        if (s.command == ACK) s = ack_of(l->flight.una + below(34) - 1, l->clock.current - below(300) + 20, l->flight.una + below(3));
        s.window = (uint16_t)below(40);
        len += put_segment(at + len, s, (uint8_t)any());
    }
    if (below(8) == 0) at[below((uint32_t)len)] = (uint8_t)any();
    if (below(16) == 0) len = below((uint32_t)len + 1);
    return len;
}

/* Bends the block, or lends less of a part, one time in sixteen each; both are undone after the step. */
static void bend(void)
{
    ampferweg_station *s = &lent.station;
    if (below(16) == 0) ((uint8_t *)l)[below(sizeof *l)] = (uint8_t)any();
    if (below(256) == 0) {
        size_t i;
        for (i = 0; i < sizeof *l; i++) ((uint8_t *)l)[i] = (uint8_t)any();
        l->settings.mtu = (uint16_t)(below(2) ? 50 : below(100));
    }
    if (below(16) != 0) return;
    switch (below(6)) {
    case 0: s->send_pool_len = below((uint32_t)s->send_pool_len); break;
    case 1: s->receive_pool_len = below((uint32_t)s->receive_pool_len); break;
    case 2: s->table_len = below((uint32_t)s->table_len); break;
    case 3: s->acks_len = below((uint32_t)s->acks_len); break;
    case 4: s->output_len = below((uint32_t)s->output_len); break;
    default: s->lengths_len = below((uint32_t)s->lengths_len); break;
    }
}

/* A check names a time at most an interval away, or stores nothing. */
static ampferweg_result any_check(uint32_t now)
{
    uint32_t when = ~now;
    const ampferweg_result result = call_check(&lent, now, &when);
    CHECK(result < 0 ? when == ~now : when - now <= l->settings.interval);
    return result;
}

/* One call with any arguments; *may says which parts it may change. */
static ampferweg_result any_call(unsigned *may)
{
    static uint8_t datagram[4 * (HEADER + 40)];
    static uint32_t now;
    uint32_t start;
    const uint32_t len = below(8) == 0 ? below(3400) : below(60);
    *may = 1u << LINK;
    switch (below(9)) {
    case 0: *may |= 1u << SEND_POOL; return call_send(&lent, lent.message, len);
    case 1: case 2: case 3:
        *may |= 1u << RECEIVE_POOL | 1u << TABLE | 1u << ACKS;
        return call_input(&lent, datagram, any_datagram(datagram));
    case 4: case 5:
        *may |= 1u << TABLE | 1u << OUTPUT | 1u << LENGTHS;
        now = below(64) == 0 ? any() : now + below(150);
        return below(2) ? call_flush(&lent, now) : call_update(&lent, now);
    case 6: *may |= 1u << MESSAGE; return call_read(&lent, lent.message, len);
    case 7: *may = 0; return any_check(now);
    default: *may = 0; return below(2) ? call_size(&lent) : call_show(&lent, &start);
    }
}

static void step(void)
{
    const ampferweg_station parts = lent.station;
    const ampferweg_link was = *l;
    unsigned may;
    ampferweg_result result;
    bend();
    snapshot(&lent);
    result = any_call(&may);
    CHECK((result >= -14 && result <= 3400 && result != -8 && result != -12) || result == AMPFERWEG_NOT_YET);
    if (result == AMPFERWEG_NOT_YET) may = 1u << LINK;
    CHECK_EQUAL(changed(&lent) & ~(ampferweg_refusal_of(result) ? 0 : may), 0);
    CHECK(unchanged_from(&lent, SEND_POOL, AMPFERWEG_SEND_POOL_SIZE(50)) && unchanged_from(&lent, RECEIVE_POOL, AMPFERWEG_RECEIVE_POOL_SIZE(50)));
    CHECK(unchanged_from(&lent, TABLE, AMPFERWEG_TABLE_LEN * sizeof(ampferweg_record)) && unchanged_from(&lent, ACKS, AMPFERWEG_ACKS_LEN * 4));
    CHECK(unchanged_from(&lent, OUTPUT, AMPFERWEG_OUTPUT_SIZE) && unchanged_from(&lent, LENGTHS, AMPFERWEG_LENGTHS_LEN * 2));
    lent.station = parts;
    if (ampferweg_refusal_of(result)) *l = was; /* the block as it was before it was bent */
}

int main(void)
{
    int i;
    seed = 0x2545F491;
    lend(&lent, 50, SPARE);
    lend_message(&lent, 3400);
    l = lent.link;
    for (i = 0; i < STEPS; i++) {
        if (i % 500 == 0) CHECK_EQUAL(call_open(&lent, 1, 50, below(3), 10 + below(100), below(4)), 0);
        if (i % 100 == 0) CHECK(guarded(&lent));
        step();
    }
    CHECK(guarded(&lent));
    give_back(&lent);
    return check_report("strangers");
}
