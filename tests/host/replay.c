/* Plays a script of calls (standard input) through the C interface and writes the answers (standard output).
 *
 * One command a line: open CONV MTU MODE INTERVAL THRESHOLD [STREAM [CONGESTION]], send HEX, input HEX, flush TIME, update TIME,
 * check TIME, read ROOM, size, show, state, held, jump SND RCV, lend PART COUNT, poke FIELD VALUE, hold LIST INDEX FIELD VALUE,
 * rec SLOT NUMBER DUE TIMEOUT SKIPS.
 * The parts are those of an mtu of 256. tests/vectors has scripts with the answers that they must get. */
#include "script.h"
#include <ampferweg.h>
#include <inttypes.h>

enum { ROOM_MOST = 60000 };

AMPFERWEG_STATION_STORAGE(station, 256);

static uint8_t bytes[LINE_MOST];          /* of a send or an input */
static uint8_t buffer[ROOM_MOST];         /* of a read */
static int opened, just_opened, after_open; /* after_open: the last line was an accepted open */

/* ---- reading a line ---- */

/* All words from the second on as numbers, `count` of them. */
static int numbers(uint32_t *values, size_t count)
{
    size_t i;
    if (words != count + 1) return 0;
    for (i = 0; i < count; i++)
        if (!number_word(i + 1, UINT32_MAX, &values[i])) return 0;
    return 1;
}

/* The second word as bytes in lower-case hex, `-` for none. */
static int hex(size_t *len) { return words == 2 && bytes_word(1, bytes, len); }

/* ---- writing an answer ---- */

static void malformed(void) { puts("malformed"); }

static void say_part(const char *what, const uint8_t *from, size_t len)
{
    fputs(what, stdout);
    say_bytes(from, len);
    putchar('\n');
}

static void say_refused(ampferweg_result result) { printf("refused %d\n", ampferweg_refusal_of(result)); }

static void say_done(ampferweg_result result)
{
    if (result < 0) say_refused(result); else puts("ok");
}

/* A line that is not well made answers `malformed`, and any other before the first opening `refused 13`. */
static int stops(int well_made)
{
    if (!well_made) malformed();
    else if (!opened) say_refused(-AMPFERWEG_INVALID_BLOCK);
    return !well_made || !opened;
}

static void say_held(const char *list, const ampferweg_held *held)
{
    printf("%s %u %u %u", list, (unsigned)held->slot, (unsigned)held->len, (unsigned)held->fragment);
}

/* ---- the commands ---- */

static void play_open(void)
{
    uint32_t v[7] = {0, 0, 0, 0, 0, 0, 0};
    ampferweg_result result;
    if (!numbers(v, 5) && !numbers(v, 6) && !numbers(v, 7)) { malformed(); return; }
    result = ampferweg_open(&station.link, v[0], v[1], v[2], v[3], v[4], v[5], v[6], AMPFERWEG_PARTS(&station));
    if (result >= 0) opened = just_opened = 1;
    say_done(result);
}

static void play_send(void)
{
    size_t len;
    if (!hex(&len)) malformed(); else say_done(ampferweg_station_send(&station, bytes, len));
}

static void play_input(void)
{
    size_t len;
    if (!hex(&len)) malformed(); else say_done(ampferweg_station_input(&station, bytes, len));
}

static void say_datagram(void *context, const uint8_t *datagram, size_t len)
{
    (void)context;
    say_part("datagram", datagram, len);
}

static void play_flush(void)
{
    uint32_t now;
    ampferweg_result count;
    if (!numbers(&now, 1)) { malformed(); return; }
    count = ampferweg_station_flush_to(&station, now, say_datagram, NULL);
    if (count < 0) say_refused(count); else printf("ok %d\n", (int)count);
}

static void play_update(void)
{
    uint32_t now;
    ampferweg_result count;
    if (!numbers(&now, 1)) { malformed(); return; }
    count = ampferweg_station_update_to(&station, now, say_datagram, NULL);
    if (ampferweg_refusal_of(count)) say_refused(count);
    else if (count == AMPFERWEG_NOT_YET) puts("ok");
    else printf("ok %d\n", (int)count);
}

static void play_check(void)
{
    uint32_t now, when;
    ampferweg_result result;
    if (!numbers(&now, 1)) { malformed(); return; }
    result = ampferweg_station_check(&station, now, &when);
    if (result < 0) say_refused(result); else printf("ok %u\n", when);
}

static void play_read(void)
{
    uint32_t room;
    ampferweg_result count;
    if (!numbers(&room, 1) || room > ROOM_MOST) { malformed(); return; }
    count = ampferweg_station_read(&station, buffer, room);
    if (count < 0) say_refused(count); else say_part("message", buffer, (size_t)count);
}

static void play_size(void)
{
    const ampferweg_result count = ampferweg_station_size(&station);
    if (words != 1) malformed();
    else if (count < 0) say_refused(count);
    else printf("ok %d\n", (int)count);
}

static void play_show(void)
{
    size_t len;
    const uint8_t *part = ampferweg_station_show(&station, &len);
    if (words != 1) malformed(); else say_part("part", part, len);
}

static void play_state(void)
{
    const ampferweg_link *l = &station.link;
    if (stops(words == 1)) return;
    printf("state %u %u %u %u %u %u %u %u %u %u %d %d %d %" PRIu64 " %" PRIu64 " %" PRIu64 " %" PRIu64 " %" PRIu64 " %u %d %u %u %u\n",
        l->flight.una, l->flight.next, l->arrival.expected, l->clock.current, (unsigned)l->flight.window, l->flight.rtt.smoothed,
        l->flight.rtt.variation, l->flight.rtt.timeout, l->clock.probe.wait, l->clock.probe.due,
        l->clock.ask != 0, l->arrival.tell != 0, l->clock.dead != 0, l->arrival.acks, l->flight.queued, l->flight.outstanding,
        l->arrival.ready, l->arrival.waiting, l->clock.next_flush, l->clock.updated != 0, l->flight.congestion.window,
        l->flight.congestion.threshold, l->flight.congestion.allowance);
}

static void say_outstanding(const ampferweg_link *l, size_t i)
{
    const ampferweg_record *record = &station.table[l->outstanding[i].slot];
    say_held(" o", &l->outstanding[i]);
    printf(" %u %u %u %u %u", (unsigned)l->transmissions[i], record->number, record->due, record->timeout, record->skips);
}

static void play_held(void)
{
    const ampferweg_link *l = &station.link;
    size_t i;
    if (stops(words == 1)) return;
    printf("held");
    for (i = 0; i < l->flight.queued; i++) say_held(" q", &l->queued[i]);
    for (i = 0; i < l->flight.outstanding; i++) say_outstanding(l, i);
    for (i = 0; i < l->arrival.ready; i++) say_held(" r", &l->ready[i]);
    for (i = 0; i < l->arrival.waiting; i++) {
        printf(" w %u", l->waiting_numbers[i]);
        say_held("", &l->waiting[i]);
    }
    putchar('\n');
}

static void play_jump(void)
{
    uint32_t v[2];
    if (stops(numbers(v, 2) && (after_open || !opened))) return;
    station.link.flight.una = station.link.flight.next = v[0];
    station.link.arrival.expected = v[1];
    puts("ok");
}

static size_t least(size_t a, size_t b) { return a < b ? a : b; }

static void play_lend(void)
{
    uint32_t v[2];
    if (stops(numbers(v, 2) && v[0] <= 5)) return;
    switch (v[0]) {
    case 0: station.send_pool_len = least(v[1], AMPFERWEG_SEND_POOL_SIZE(256)); break;
    case 1: station.receive_pool_len = least(v[1], AMPFERWEG_RECEIVE_POOL_SIZE(256)); break;
    case 2: station.table_len = least(v[1], AMPFERWEG_TABLE_LEN); break;
    case 3: station.acks_len = least(v[1], AMPFERWEG_ACKS_LEN); break;
    case 4: station.output_len = least(v[1], AMPFERWEG_OUTPUT_SIZE); break;
    default: station.lengths_len = least(v[1], AMPFERWEG_LENGTHS_LEN); break;
    }
    puts("ok");
}

/* Stores a value of 8, 16 or 32 bits; 0 where it has more. */
static int store8(uint8_t *at, uint32_t value) { *at = (uint8_t)(value > UINT8_MAX ? *at : value); return value <= UINT8_MAX; }
static int store16(uint16_t *at, uint32_t value) { *at = (uint16_t)(value > UINT16_MAX ? *at : value); return value <= UINT16_MAX; }
static int store32(uint32_t *at, uint32_t value) { *at = value; return 1; }
static int store_flag(uint8_t *at, uint32_t value) { *at = value != 0; return 1; }
static int store_count(uint64_t *at, uint32_t value) { *at = value > UINT16_MAX ? *at : value; return value <= UINT16_MAX; }

static int poke(uint32_t field, uint32_t value)
{
    ampferweg_link *l = &station.link;
    switch (field) {
    case 0: return store32(&l->settings.conv, value);
    case 1: return store16(&l->settings.mtu, value);
    case 2: return store8(&l->settings.mode, value);
    case 3: return store16(&l->settings.interval, value);
    case 4: return store8(&l->settings.threshold, value);
    case 5: return store32(&l->flight.una, value);
    case 6: return store32(&l->flight.next, value);
    case 7: return store32(&l->arrival.expected, value);
    case 8: return store32(&l->clock.current, value);
    case 9: return store16(&l->flight.window, value);
    case 10: return store32(&l->flight.rtt.smoothed, value);
    case 11: return store32(&l->flight.rtt.variation, value);
    case 12: return store32(&l->flight.rtt.timeout, value);
    case 13: return store32(&l->clock.probe.wait, value);
    case 14: return store32(&l->clock.probe.due, value);
    case 15: return store_flag(&l->clock.ask, value);
    case 16: return store_flag(&l->arrival.tell, value);
    case 17: return store_flag(&l->clock.dead, value);
    case 18: return store_count(&l->arrival.acks, value);
    case 19: return store8(&l->settings.stream, value);
    case 20: return store8(&l->settings.congestion, value);
    case 21: return store32(&l->clock.next_flush, value);
    case 22: return store_flag(&l->clock.updated, value);
    case 23: return store32(&l->flight.congestion.window, value);
    case 24: return store32(&l->flight.congestion.threshold, value);
    case 25: return store32(&l->flight.congestion.allowance, value);
    default: return 0;
    }
}

static void play_poke(void)
{
    uint32_t v[2];
    if (stops(numbers(v, 2))) return;
    if (poke(v[0], v[1])) puts("ok"); else malformed();
}

/* The held part of an entry of a list: 0 queued, 1 outstanding, 2 ready, 3 waiting. */
static ampferweg_held *entry(uint32_t list, size_t i)
{
    ampferweg_link *l = &station.link;
    switch (list) {
    case 0: return i < l->flight.queued ? &l->queued[i] : NULL;
    case 1: return i < l->flight.outstanding ? &l->outstanding[i] : NULL;
    case 2: return i < l->arrival.ready ? &l->ready[i] : NULL;
    case 3: return i < l->arrival.waiting ? &l->waiting[i] : NULL;
    default: return NULL;
    }
}

static int hold(uint32_t list, uint32_t i, uint32_t field, uint32_t value)
{
    ampferweg_held *held = entry(list, i);
    if (held == NULL) return 0;
    if (field == 0) return store8(&held->slot, value);
    if (field == 1) return store16(&held->len, value);
    if (field == 2) return store8(&held->fragment, value);
    if (field == 3 && list == 1) return store8(&station.link.transmissions[i], value);
    if (field == 3 && list == 3) return store32(&station.link.waiting_numbers[i], value);
    return 0;
}

static void play_hold(void)
{
    uint32_t v[4];
    if (stops(numbers(v, 4))) return;
    if (hold(v[0], v[1], v[2], v[3])) puts("ok"); else malformed();
}

static void play_rec(void)
{
    uint32_t v[5];
    if (stops(numbers(v, 5) && v[0] < AMPFERWEG_TABLE_LEN && v[4] <= UINT16_MAX)) return;
    station.table[v[0]].number = v[1];
    station.table[v[0]].due = v[2];
    station.table[v[0]].timeout = v[3];
    station.table[v[0]].skips = v[4];
    puts("ok");
}

static const struct { const char *name; void (*play)(void); } commands[] = {
    {"open", play_open}, {"send", play_send}, {"input", play_input}, {"flush", play_flush}, {"update", play_update},
    {"check", play_check}, {"read", play_read}, {"size", play_size}, {"show", play_show}, {"state", play_state}, {"held", play_held},
    {"jump", play_jump}, {"lend", play_lend}, {"poke", play_poke}, {"hold", play_hold}, {"rec", play_rec},
};

static int play_line(void)
{
    size_t i;
    after_open = just_opened;
    just_opened = 0;
    for (i = 0; i < sizeof commands / sizeof *commands; i++)
        if (is_word(0, commands[i].name)) { commands[i].play(); return 1; }
    return 0;
}

int main(void) { return play_script(play_line); }
