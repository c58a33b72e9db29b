/* The station layer: parts laid into one piece of memory, links in an array on one socket, the reason of a refusal by name, counters
 * held to what was seen on the wire, and a block in words. */
#include "check.h"
#include "lent.h"
#include "segments.h"

#include <stdio.h>
#include <string.h>

enum { LINKS = 4, MTU = 256, MESSAGES = 40, ROOM = 4096, GUARD_BYTE = 0xC3 };

/* ---- one piece of memory ---- */

static uint8_t memory[LINKS + 1][AMPFERWEG_STATION_MEMORY(AMPFERWEG_MTU_MOST) + 8];
static ampferweg_station station, other;

static void hand_over(void *to, const uint8_t *datagram, size_t len)
{
    CHECK_EQUAL(ampferweg_station_input((ampferweg_station *)to, datagram, len), 0);
}

/* Whether the bytes of a memory from one place to another were never written. */
static int untouched(const uint8_t *bytes, size_t from, size_t to)
{
    while (from < to && bytes[from] == GUARD_BYTE) from++;
    return from == to;
}

/* The longest message to and fro fills both pools; no byte around the memory changes. */
static void laid_out(uint32_t mtu, size_t offset)
{
    static uint8_t message[AMPFERWEG_MESSAGE_SIZE(AMPFERWEG_MTU_MOST)], heard[sizeof message];
    const size_t size = AMPFERWEG_STATION_MEMORY(mtu), len = AMPFERWEG_MESSAGE_SIZE(mtu);
    uint32_t now;
    size_t i;
    memset(memory, GUARD_BYTE, sizeof memory);
    for (i = 0; i < len; i++) message[i] = (uint8_t)(i * 7);
    CHECK_EQUAL(ampferweg_station_init(&station, memory[0] + offset, size, mtu), 0);
    CHECK_EQUAL(ampferweg_station_init_shared(&other, memory[1] + offset, AMPFERWEG_STATION_MEMORY_SHARED(mtu), mtu, &station), 0);
    CHECK((size_t)station.table % 4 == 0 && (size_t)station.acks % 4 == 0 && (size_t)station.lengths % 2 == 0);
    CHECK(station.output + station.output_len <= memory[0] + offset + size);
    CHECK(other.receive_pool + other.receive_pool_len <= memory[1] + offset + AMPFERWEG_STATION_MEMORY_SHARED(mtu));
    CHECK_EQUAL(ampferweg_station_size(&station), -AMPFERWEG_INVALID_BLOCK);
    CHECK(ampferweg_station_open(&station, 7, mtu, 1, 10, 2) == 0 && ampferweg_station_open(&other, 7, mtu, 1, 10, 2) == 0);
    CHECK(ampferweg_station_send(&station, message, len) == 0 && ampferweg_station_send(&other, message, len) == 0);
    for (now = 0; now < 200; now += 10) {
        CHECK(ampferweg_station_flush_to(&station, now, hand_over, &other) >= 0);
        CHECK(ampferweg_station_flush_to(&other, now, hand_over, &station) >= 0);
    }
    CHECK(ampferweg_station_read(&station, heard, sizeof heard) == (ampferweg_result)len && memcmp(heard, message, len) == 0);
    CHECK(ampferweg_station_read(&other, heard, sizeof heard) == (ampferweg_result)len && memcmp(heard, message, len) == 0);
    CHECK(untouched(memory[0], 0, offset) && untouched(memory[0], offset + size, sizeof memory[0]));
    CHECK(untouched(memory[1], 0, offset) && untouched(memory[1], offset + AMPFERWEG_STATION_MEMORY_SHARED(mtu), sizeof memory[1]));
}

static void not_laid_out(void)
{
    ampferweg_station was;
    memset(&station, 0x5A, sizeof station);
    memcpy(&was, &station, sizeof was);
    CHECK_EQUAL(ampferweg_station_init(&station, memory[0], AMPFERWEG_STATION_MEMORY(MTU) - 1, MTU), -AMPFERWEG_SHORT_PART);
    CHECK_EQUAL(ampferweg_station_init_shared(&station, memory[0], AMPFERWEG_STATION_MEMORY_SHARED(MTU) - 1, MTU, &other),
        -AMPFERWEG_SHORT_PART);
    CHECK_EQUAL(ampferweg_station_init(&station, memory[0], sizeof memory[0], 49), -AMPFERWEG_SETTING_OUT_OF_RANGE);
    CHECK_EQUAL(ampferweg_station_init(&station, memory[0], sizeof memory[0], 1401), -AMPFERWEG_SETTING_OUT_OF_RANGE);
    CHECK_EQUAL(ampferweg_station_init(&station, memory[0], 0, 0), -AMPFERWEG_SETTING_OUT_OF_RANGE);
    CHECK(memcmp(&station, &was, sizeof was) == 0);
}

/* ---- an array of links on one socket: what arrives there goes by its conversation ---- */

static const uint32_t conversations[LINKS] = {0, 1, 0x80000000, 0xFFFFFFFF};
static ampferweg_station hub[LINKS], machines[LINKS];

/* The datagrams that lie in the hub's socket, of all links in one row. */
static struct { uint8_t bytes[MTU]; size_t len; } row[ROOM];
static size_t row_len, in_socket;

static void to_hub(void *context, const uint8_t *datagram, size_t len)
{
    (void)context;
    CHECK(row_len < ROOM && len <= MTU);
    memcpy(row[row_len].bytes, datagram, len);
    row[row_len++].len = len;
}

static void hub_takes_in(void)
{
    for (; in_socket < row_len; in_socket++) {
        const int64_t conversation = ampferweg_conversation_of(row[in_socket].bytes, row[in_socket].len);
        size_t i = 0;
        while (i < LINKS && hub[i].link.settings.conv != conversation) i++;
        CHECK(i < LINKS && ampferweg_station_input(&hub[i], row[in_socket].bytes, row[in_socket].len) == 0);
    }
    row_len = in_socket = 0;
}

static void open_array(void)
{
    ampferweg_settings settings = {0, MTU, 10, 1, 2, 0, 0};
    size_t i;
    for (i = 0; i < LINKS; i++) {
        settings.conv = conversations[i];
        CHECK_EQUAL(ampferweg_station_init_shared(&hub[i], memory[i], sizeof memory[i], MTU, &station), 0);
        CHECK_EQUAL(ampferweg_station_init_shared(&machines[i], memory[i] + sizeof memory[i] / 2, sizeof memory[i] / 2, MTU, &station), 0);
        CHECK_EQUAL(ampferweg_station_open_settings(&hub[i], &settings), 0);
        CHECK_EQUAL(ampferweg_station_open_settings(&machines[i], &settings), 0);
    }
}

static void array_on_one_socket(void)
{
    char text[300];
    uint32_t n, now;
    size_t i;
    CHECK_EQUAL(ampferweg_station_init(&station, memory[LINKS], sizeof memory[LINKS], MTU), 0);
    open_array();
    for (n = 0, now = 0; n < MESSAGES; n++, now += 10) {
        for (i = 0; i < LINKS; i++) {
            memset(text, (int)('a' + i), sizeof text);
            CHECK_EQUAL(ampferweg_station_send(&machines[i], text, n + i), 0);
            CHECK(ampferweg_station_flush_to(&machines[i], now, to_hub, NULL) > 0);
        }
        hub_takes_in();
        for (i = 0; i < LINKS; i++) {
            CHECK_EQUAL(ampferweg_station_read(&hub[i], text, sizeof text), n + i);
            CHECK(n + i == 0 || text[n + i - 1] == (char)('a' + i));
            CHECK(ampferweg_station_flush_to(&hub[i], now, hand_over, &machines[i]) > 0);
            CHECK_EQUAL(ampferweg_station_pending(&machines[i]), 0);
        }
    }
}

static void no_conversation(void)
{
    uint8_t bytes[24] = {1, 2, 3, 4};
    CHECK_EQUAL(ampferweg_conversation_of(bytes, 24), 0x04030201);
    CHECK_EQUAL(ampferweg_conversation_of(bytes, 23), -1);
    CHECK_EQUAL(ampferweg_conversation_of(NULL, 0), -1);
    memset(bytes, 0xFF, sizeof bytes);
    CHECK_EQUAL(ampferweg_conversation_of(bytes, 24), 0xFFFFFFFF);
}

/* ---- the reason by name ---- */

static int says(const char *part) { return strstr(ampferweg_station_why(&station), part) != NULL; }

/* Around both ends of each setting's range: named where opening refuses 12, and only there. */
static void each_setting(void)
{
    static const char *const names[] = {": mtu ", ": mode ", ": interval ", ": threshold ", ": stream ", ": congestion "};
    static const uint32_t good[] = {256, 1, 10, 2, 0, 0};
    static const uint32_t tried[] = {0, 1, 2, 3, 9, 10, 49, 50, 100, 101, 256, 1400, 1401, 5000, 5001, 65536 + 256, 0xFFFFFFFF};
    size_t setting, i;
    for (setting = 0; setting < 6; setting++) {
        for (i = 0; i < sizeof tried / sizeof *tried; i++) {
            uint32_t s[6];
            ampferweg_result result;
            memcpy(s, good, sizeof s);
            s[setting] = tried[i];
            CHECK_EQUAL(ampferweg_station_init(&station, memory[0], sizeof memory[0], AMPFERWEG_MTU_MOST), 0);
            result = ampferweg_station_open_numbers(&station, 7, s[0], s[1], s[2], s[3], s[4], s[5]);
            CHECK(result == 0 || result == -AMPFERWEG_SETTING_OUT_OF_RANGE);
            CHECK_EQUAL(says(names[setting]), result != 0);
            CHECK_EQUAL(says("no call was refused"), result == 0);
            CHECK_EQUAL(station.counters.refused[12], result != 0);
        }
    }
}

/* A part that is one element short is named by an opening and by the calls behind one; then it is given back. */
#define SHORT(part, name, call, opens) do { \
        station.part--; \
        CHECK_EQUAL(call, -AMPFERWEG_SHORT_PART); \
        CHECK(says("refused 7: ") && says(name)); \
        CHECK_EQUAL(ampferweg_station_open(&station, 7, MTU, 1, 10, 2), (opens) ? 0 : -AMPFERWEG_SHORT_PART); \
        CHECK(says(name)); \
        station.part++; \
    } while (0)

static void each_part(void)
{
    uint8_t message[10] = {0};
    CHECK_EQUAL(ampferweg_station_init(&station, memory[0], sizeof memory[0], MTU), 0);
    CHECK_EQUAL(ampferweg_station_send(&station, message, 1), -AMPFERWEG_INVALID_BLOCK);
    CHECK(says("refused 13") && says("was it opened?"));
    CHECK_EQUAL(ampferweg_station_open(&station, 7, MTU, 1, 10, 2), 0);
    SHORT(send_pool_len, "send pool", ampferweg_station_send(&station, message, 1), 0);
    SHORT(receive_pool_len, "receive pool", ampferweg_station_input(&station, message, 1), 0);
    SHORT(table_len, "table", ampferweg_station_flush(&station, 1), 0);
    SHORT(acks_len, "ack list", ampferweg_station_read(&station, message, 1), 0);
    SHORT(output_len, "output", ampferweg_station_flush(&station, 1), 1);
    SHORT(lengths_len, "lengths", ampferweg_station_update(&station, 1), 1);
    CHECK_EQUAL(ampferweg_station_init_shared(&other, memory[1], sizeof memory[1], MTU, &station), 0);
    CHECK(ampferweg_station_open(&station, 7, MTU, 1, 10, 2) == 0 && ampferweg_station_open(&other, 7, MTU, 1, 10, 2) == 0);
    CHECK_EQUAL(ampferweg_station_send(&other, message, 10), 0);
    CHECK_EQUAL(ampferweg_station_flush_to(&other, 1, hand_over, &station), 1);
    CHECK_EQUAL(ampferweg_station_read(&station, message, 9), -AMPFERWEG_SHORT_PART);
    CHECK(says("refused 7: the read buffer"));
    CHECK_EQUAL(ampferweg_station_read(&station, message, 10), 10);
    CHECK_EQUAL(ampferweg_station_read(&station, message, 10), -AMPFERWEG_NO_MESSAGE);
    CHECK(says("refused 9: "));
}

/* ---- counters, held to a count of the wire ---- */

static struct { uint32_t datagrams, pushes, again, arrived; uint8_t seen[ROOM]; } wire;

static void lossy(void *to, const uint8_t *datagram, size_t len)
{
    size_t at;
    wire.datagrams++;
    for (at = 0; at < len; at += HEADER + segment_at(datagram + at).len) {
        const struct segment s = segment_at(datagram + at);
        if (s.command != PUSH) continue;
        CHECK(s.sn < ROOM);
        wire.pushes++;
        if (wire.seen[s.sn]++ > 0) wire.again++;
    }
    if (below(100) < 30) return;
    wire.arrived++;
    hand_over(to, datagram, len);
}

static void back(void *to, const uint8_t *datagram, size_t len)
{
    if (below(100) >= 30) hand_over(to, datagram, len);
}

static void counts_the_wire(void)
{
    uint8_t message[700] = {0};
    uint32_t now, sent = 0, full = 0, none = 0;
    CHECK_EQUAL(ampferweg_station_init(&station, memory[0], sizeof memory[0], MTU), 0);
    CHECK_EQUAL(ampferweg_station_init(&other, memory[1], sizeof memory[1], MTU), 0);
    CHECK(ampferweg_station_open(&station, 7, MTU, 1, 10, 2) == 0 && ampferweg_station_open(&other, 7, MTU, 1, 10, 2) == 0);
    seed = 11;
    for (now = 0; now < 20000; now += 10) {
        if (sent < 300 && ampferweg_station_send(&station, message, sent % sizeof message) == 0) sent++;
        else if (sent < 300) full++;
        (void)(now % 20 ? ampferweg_station_run_to : ampferweg_station_flush_to)(&station, now, lossy, &other);
        while (ampferweg_station_read(&other, message, sizeof message) >= 0) { }
        none++;
        (void)ampferweg_station_flush_to(&other, now, back, &station);
    }
    CHECK(sent == 300 && ampferweg_station_pending(&station) == 0 && wire.again > 20);
    CHECK_EQUAL(station.counters.datagrams_out, wire.datagrams);
    CHECK_EQUAL(station.counters.segments_out, wire.pushes);
    CHECK_EQUAL(station.counters.retransmissions, wire.again);
    CHECK_EQUAL(other.counters.datagrams_in, wire.arrived);
    CHECK(other.counters.datagrams_out > 0 && other.counters.segments_out == 0 && other.counters.retransmissions == 0); /* acks alone */
    CHECK_EQUAL(station.counters.refused[11], full);
    CHECK_EQUAL(other.counters.refused[9], none);
    CHECK_EQUAL(ampferweg_station_open(&station, 7, MTU, 1, 10, 2), 0);
    CHECK_EQUAL(station.counters.datagrams_out, wire.datagrams); /* opening anew goes on counting */
}

static void counts_refusals(void)
{
    uint8_t datagram[2 * (HEADER + 300)];
    struct segment s = push_of(0, 0, 5);
    CHECK_EQUAL(ampferweg_station_init(&station, memory[0], sizeof memory[0], MTU), 0);
    CHECK_EQUAL(ampferweg_station_open(&station, 1, MTU, 1, 10, 2), 0);
    put_segment(datagram, s, 'd');
    CHECK_EQUAL(ampferweg_station_input(&station, datagram, 23), -1);
    CHECK_EQUAL(ampferweg_station_input(&station, datagram, 28), -3);
    s.conv = 2;
    CHECK_EQUAL(ampferweg_station_input(&station, datagram, put_segment(datagram, s, 'd')), -2);
    s = push_of(0, 0, 5);
    s.command = 80;
    CHECK_EQUAL(ampferweg_station_input(&station, datagram, put_segment(datagram, s, 'd')), -4);
    CHECK_EQUAL(ampferweg_station_input(&station, datagram, put_segment(datagram, push_of(0, 0, 233), 'd')), -5);
    CHECK_EQUAL(ampferweg_station_input(&station, datagram, put_segment(datagram, push_of(0, 127, 5), 'd')), -6);
    CHECK_EQUAL(ampferweg_station_input(&station, datagram, put_segment(datagram, push_of(0, 0, 5), 'd') + 1), -14);
    CHECK_EQUAL(ampferweg_station_input(&station, datagram, put_segment(datagram, push_of(0, 0, 5), 'd') + 1), -14);
    CHECK_EQUAL(ampferweg_station_send(&station, memory[1], AMPFERWEG_MESSAGE_SIZE(MTU) + 1), -10);
    CHECK(station.counters.refused[1] == 1 && station.counters.refused[2] == 1 && station.counters.refused[3] == 1);
    CHECK(station.counters.refused[4] == 1 && station.counters.refused[5] == 1 && station.counters.refused[6] == 1);
    CHECK(station.counters.refused[14] == 2 && station.counters.refused[10] == 1 && station.counters.datagrams_in == 0);
    CHECK_EQUAL(ampferweg_station_update(&station, 1), 0);
    CHECK_EQUAL(ampferweg_station_update(&station, 2), AMPFERWEG_NOT_YET);
    CHECK(station.counters.datagrams_out == 0 && station.counters.segments_out == 0);
}

/* ---- a block in words ---- */

static char printed[ROOM * 16];
static size_t printed_len, printed_lines;

static void keep_line(void *context, const char *line)
{
    const size_t len = strlen(line);
    CHECK(context == &printed_lines && len < 120 && printed_len + len + 1 < sizeof printed);
    memcpy(printed + printed_len, line, len);
    printed_len += len;
    printed[printed_len++] = '\n';
    printed_lines++;
}

static void prints(void)
{
    static const char wanted[] =
        "settings: conv 7, mtu 256, mode 1, interval 10, threshold 2, stream 0, congestion 0\n"
        "sending: una 0, next 1, window 128, queued 2, outstanding 1\n"
        "round trip: smoothed 0, variation 0, timeout 200\n"
        "congestion: window 1, threshold 2, allowance 232\n"
        "receiving: expected 1, tell 0, ready 1, waiting 1, acks 2\n"
        "clock: current 4294967295, next flush 0, probe wait 0, probe due 0, ask 0, dead 0, updated 0\n"
        "queued 0: slot 1, fragment 1, len 232\n"
        "queued 1: slot 2, fragment 0, len 1\n"
        "outstanding 0: slot 0, fragment 0, len 4, transmissions 1\n"
        "ready 0: slot 0, fragment 0, len 3\n"
        "waiting 0: slot 1, fragment 5, len 2, number 2\n";
    uint8_t datagram[2 * (HEADER + 8)];
    struct segment first = push_of(0, 0, 3), third = push_of(2, 5, 2);
    size_t len;
    first.conv = third.conv = 7;
    len = put_segment(datagram, first, 'a');
    len += put_segment(datagram + len, third, 'b');
    CHECK_EQUAL(ampferweg_station_open(&station, 7, MTU, 1, 10, 2), 0);
    CHECK_EQUAL(ampferweg_station_send(&station, "seat", 4), 0);
    CHECK_EQUAL(ampferweg_station_flush(&station, 0xFFFFFFFF), 1);
    CHECK_EQUAL(ampferweg_station_send(&station, memory[1], 233), 0);
    CHECK_EQUAL(ampferweg_station_input(&station, datagram, len), 0);
    ampferweg_print(&station.link, keep_line, &printed_lines);
    printed[printed_len] = '\0';
    CHECK(strcmp(printed, wanted) == 0);
    if (strcmp(printed, wanted) != 0) puts(printed);
    memset(&station.link, 0xFF, sizeof station.link);
    printed_lines = printed_len = 0;
    ampferweg_print(&station.link, keep_line, &printed_lines);
    CHECK_EQUAL(printed_lines, 6 + 128 + 32 + 128 + 128); /* lists as long as their room, whatever their counts say */
}

/* One version in words and as a number, in header and archive. */
static void versions(void)
{
    char words[24];
    snprintf(words, sizeof words, "%d.%d.%d", AMPFERWEG_VERSION_NUMBER / 10000, AMPFERWEG_VERSION_NUMBER / 100 % 100,
        AMPFERWEG_VERSION_NUMBER % 100);
    CHECK(strcmp(words, AMPFERWEG_VERSION) == 0);
    CHECK(strcmp(ampferweg_version(), AMPFERWEG_VERSION) == 0);
    CHECK(ampferweg_version_number() == AMPFERWEG_VERSION_NUMBER);
    CHECK(ampferweg_block_size() == sizeof(ampferweg_link));
}

int main(void)
{
    size_t offset;
    for (offset = 0; offset < 4; offset++) laid_out(offset == 0 ? 50 : offset == 1 ? 1400 : 256, offset);
    not_laid_out();
    array_on_one_socket();
    no_conversation();
    each_setting();
    each_part();
    counts_the_wire();
    counts_refusals();
    prints();
    versions();
    return check_report("station");
}
