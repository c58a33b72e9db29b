/* Two stations over a bad network, both sending: every message arrives whole, once and in order, in every mode, at small and
 * large mtu, with and without fast retransmission, over the wrap of clock and sequence numbers. */
#include "check.h"
#include "lent.h"

#include <string.h>

enum { MESSAGES = 60, STEP = 10, FLYING_MOST = 4096, STEPS_MOST = 60000 };

struct flying {
    uint32_t to, at; /* where it goes, and the step in which it arrives */
    size_t len;
    uint8_t bytes[AMPFERWEG_MTU_MOST];
};

struct end {
    struct lent lent;
    ampferweg_station *station;
    uint32_t sent, heard, name;
};

static struct end ends[2];
static struct flying flying[FLYING_MOST];
static size_t flying_count;
static uint32_t step_now, lost_percent;
static uint8_t message[AMPFERWEG_MESSAGE_SIZE(AMPFERWEG_MTU_MOST)], buffer[AMPFERWEG_MESSAGE_SIZE(AMPFERWEG_MTU_MOST)];

/* The message that a station sends as its number n: its length and its bytes follow from both. */
static size_t compose(uint32_t name, uint32_t n, size_t mss)
{
    const uint32_t mix = (n * 2654435761u) ^ (name * 40503u);
    size_t len = n % 7 == 3 ? 9 * mss + mix % mss : mix % (2 * mss), i;
    if (n % 11 == 0) len = 0;
    if (n == 20) len = 127 * mss;
    for (i = 0; i < len; i++) message[i] = (uint8_t)(mix + i * 31);
    return len;
}

static void put_in_the_air(void *context, const uint8_t *datagram, size_t len)
{
    const uint32_t *to = context;
    uint32_t copies = below(100) < 5 ? 2 : 1;
    if (below(100) < lost_percent) return;
    while (copies-- > 0 && flying_count < FLYING_MOST) {
        struct flying *f = &flying[flying_count++];
        f->to = *to;
        f->at = step_now + (below(4) == 0 ? below(12) : 1);
        f->len = len;
        memcpy(f->bytes, datagram, len);
    }
}

static void arrive(void)
{
    size_t i = 0;
    while (i < flying_count) {
        if (flying[i].at > step_now) { i++; continue; }
        CHECK_EQUAL(ampferweg_station_input(ends[flying[i].to].station, flying[i].bytes, flying[i].len), 0);
        flying[i] = flying[--flying_count];
    }
}

static void send_some(struct end *end, size_t mss)
{
    while (end->sent < MESSAGES) {
        const size_t len = compose(end->name, end->sent, mss);
        const ampferweg_result result = ampferweg_station_send(end->station, message, len);
        if (result == -AMPFERWEG_NO_FREE_SLOTS) return;
        CHECK_EQUAL(result, 0);
        end->sent++;
    }
}

static void read_some(struct end *end, size_t mss)
{
    for (;;) {
        const ampferweg_result told = ampferweg_station_size(end->station);
        const size_t len = compose(1 - end->name, end->heard, mss);
        size_t shown;
        const uint8_t *front = ampferweg_station_show(end->station, &shown);
        CHECK(shown == (told < 0 ? 0 : len < mss ? len : mss) && memcmp(front, message, shown) == 0);
        if (told == -AMPFERWEG_NO_MESSAGE) return;
        CHECK_EQUAL(told, len);
        CHECK_EQUAL(ampferweg_station_read(end->station, buffer, sizeof buffer), len);
        CHECK(memcmp(buffer, message, len) == 0);
        end->heard++;
    }
}

static void open_end(struct end *end, uint32_t name, uint32_t mtu, uint32_t mode, uint32_t threshold, uint32_t first)
{
    lend(&end->lent, mtu, 3);
    end->station = &end->lent.station;
    end->sent = end->heard = 0;
    end->name = name;
    CHECK_EQUAL(ampferweg_station_open(end->station, 99, mtu, mode, 10, threshold), 0);
    end->station->link.flight.una = end->station->link.flight.next = end->station->link.arrival.expected = first;
}

static int done(void)
{
    return ends[0].heard == MESSAGES && ends[1].heard == MESSAGES &&
        ampferweg_station_pending(ends[0].station) == 0 && ampferweg_station_pending(ends[1].station) == 0;
}

/* How a step sends: by a flush, or by an update. */
typedef ampferweg_result sends_to(ampferweg_station *, uint32_t, void (*)(void *, const uint8_t *, size_t), void *);
static sends_to *sends = ampferweg_station_flush_to;

static void play(uint32_t mtu, uint32_t mode, uint32_t threshold, uint32_t loss, uint32_t first, uint32_t clock)
{
    uint32_t i;
    lost_percent = loss;
    flying_count = 0;
    for (i = 0; i < 2; i++) open_end(&ends[i], i, mtu, mode, threshold, first);
    for (step_now = 0; step_now < STEPS_MOST && !done(); step_now++) {
        for (i = 0; i < 2; i++) {
            uint32_t to = 1 - i;
            send_some(&ends[i], AMPFERWEG_MSS(mtu));
            CHECK(ampferweg_refusal_of(sends(ends[i].station, clock + STEP * step_now, put_in_the_air, &to)) == 0);
            if (below(3) == 0) read_some(&ends[i], AMPFERWEG_MSS(mtu));
        }
        arrive();
    }
    for (i = 0; i < 2; i++) {
        CHECK_EQUAL(ends[i].heard, MESSAGES);
        CHECK_EQUAL(ampferweg_station_pending(ends[i].station), 0);
        CHECK(!ampferweg_station_dead(ends[i].station));
        CHECK(guarded(&ends[i].lent));
        give_back(&ends[i].lent);
    }
}

int main(void)
{
    uint32_t mode;
    seed = 7;
    for (mode = 0; mode < 3; mode++) {
        play(50, mode, 0, 10, 0, 0);
        play(256, mode, 2, 10, 0xFFFFFF80, 0xFFFFF000);
        play(1400, mode, 1, 20, 0x7FFFFFF0, 0x7FFFF000);
    }
    play(256, 1, 2, 0, 0, 0);
    sends = ampferweg_station_update_to;
    play(256, 1, 2, 10, 0xFFFFFF80, 0xFFFFF000);
    sends = ampferweg_station_run_to;
    play(256, 0, 0, 10, 0, 0);
    return check_report("session");
}
