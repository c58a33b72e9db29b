/* Two stations in one process, over a network that loses one datagram in ten, with parity and without.
 *
 * The sender gives a message a step of 10 ms, the network takes 30 ms, and the clock is virtual, so that every run shows the same. With
 * parity the datagrams of each flush go out in groups of K; a group that is not full is filled up with its last datagram again, which the
 * link takes as a repeat. A data frame's datagram is given to input as soon as it arrives, and what was lost once K frames of its group
 * are there. */
#include <ampferweg.h>
#include <ampferweg_parity.h>

#include <stdio.h>
#include <string.h>

enum { MTU = 256, K = 4, FRAME = MTU + 8, MESSAGES = 20000, DELAY = 30, GROUPS = 64, QUEUE = 4096 };

AMPFERWEG_STATION_STORAGE(sender, MTU);
AMPFERWEG_STATION_STORAGE(receiver, MTU);

/* ---- The network: frames or datagrams, each there after DELAY milliseconds unless it is lost. */

struct packet { uint32_t due; uint16_t len; uint8_t bytes[FRAME]; };

/* A group as it arrives: its frames packed, each sequence once. */
struct group { uint32_t number; int open, done; size_t count, size; uint16_t lengths[K + 2]; uint32_t places; uint8_t bytes[(K + 2) * FRAME]; };

struct way {
    struct packet queue[QUEUE];
    size_t first, count;
    uint32_t next_group;
    struct group groups[GROUPS];
    ampferweg_station *to;
    unsigned long pushes, lost, recovered, frames;
};

static struct way there, back;
static int parity;
static uint32_t clock_now, chance;

static int lose(void)
{
    chance = chance * 1664525u + 1013904223u;
    return (chance >> 16) % 10 == 0;
}

static void carry(struct way *way, const uint8_t *bytes, size_t len)
{
    struct packet *packet = &way->queue[(way->first + way->count) % QUEUE];
    way->frames++;
    if (lose()) {
        way->lost++;
        return;
    }
    packet->due = clock_now + DELAY;
    packet->len = (uint16_t)len;
    memcpy(packet->bytes, bytes, len);
    way->count++;
}

/* ---- Sending: a flush's datagrams, as they are or in groups. */

static void send_group(struct way *way, const uint8_t *datagrams, const uint16_t *lengths, size_t count)
{
    static uint8_t packed[K * MTU], frames[AMPFERWEG_PARITY_WRITE_SIZE(MTU)];
    uint16_t packed_lengths[K], frame_lengths[AMPFERWEG_PARITY_WRITE_LEN];
    const uint8_t *last = datagrams, *frame = frames;
    size_t size = 0, i;
    int32_t written, f;
    for (i = 0; i < K; i++) {
        const size_t from = i < count ? i : count - 1;
        if (i > 0 && i < count) last += lengths[i - 1];
        memcpy(packed + size, last, lengths[from]);
        packed_lengths[i] = lengths[from];
        size += lengths[from];
    }
    written = ampferweg_parity_write(way->next_group++, K, MTU, packed, size, packed_lengths, K,
        frames, sizeof frames, frame_lengths, AMPFERWEG_PARITY_WRITE_LEN);
    for (f = 0; f < written; f++) {
        carry(way, frame, frame_lengths[f]);
        frame += frame_lengths[f];
    }
}

/* Segments with data in what a flush wrote. */
static unsigned long pushes_of(const ampferweg_station *station, ampferweg_result count)
{
    unsigned long pushes = 0;
    const uint8_t *at = station->output;
    ampferweg_result i;
    for (i = 0; i < count; i++) {
        const uint8_t *end = at + station->lengths[i];
        while (at < end) {
            pushes += at[4] == 81;
            at += 24 + ((size_t)at[20] | (size_t)at[21] << 8);
        }
    }
    return pushes;
}

static void flush(ampferweg_station *station, struct way *way)
{
    const ampferweg_result count = ampferweg_station_flush(station, clock_now);
    const uint8_t *datagram = station->output;
    ampferweg_result i, j;
    way->pushes += pushes_of(station, count);
    for (i = 0; i < count; i += parity ? K : 1) {
        const size_t n = parity ? (size_t)(count - i < K ? count - i : K) : 1;
        if (parity) send_group(way, datagram, station->lengths + i, n);
        else carry(way, datagram, station->lengths[i]);
        for (j = 0; j < (ampferweg_result)n; j++) datagram += station->lengths[i + j];
    }
}

/* ---- Receiving. */

static void recover(struct way *way, struct group *group)
{
    static uint8_t datagrams[AMPFERWEG_PARITY_READ_SIZE(MTU)];
    uint16_t lengths[AMPFERWEG_PARITY_READ_LEN];
    const uint8_t *datagram = datagrams;
    const int32_t count = ampferweg_parity_read(K, MTU, group->bytes, group->size, group->lengths, group->count,
        datagrams, sizeof datagrams, lengths, AMPFERWEG_PARITY_READ_LEN);
    int32_t place;
    group->done = 1;
    for (place = 0; place < count; place++) {
        if (!(group->places >> place & 1)) {
            way->recovered++;
            (void)ampferweg_station_input(way->to, datagram, lengths[place]);
        }
        datagram += lengths[place];
    }
}

static void take_frame(struct way *way, const struct packet *packet)
{
    const uint8_t *b = packet->bytes;
    const uint32_t sequence = (uint32_t)b[0] | (uint32_t)b[1] << 8 | (uint32_t)b[2] << 16 | (uint32_t)b[3] << 24;
    const uint32_t number = sequence / (K + 2), place = sequence % (K + 2);
    struct group *group = &way->groups[number % GROUPS];
    if (place < K) (void)ampferweg_station_input(way->to, b + 8, (size_t)packet->len - 8);
    if (!group->open || group->number != number) {
        memset(group, 0, sizeof *group);
        group->open = 1;
        group->number = number;
    }
    if (group->done || group->places >> place & 1) return;
    memcpy(group->bytes + group->size, b, packet->len);
    group->size += packet->len;
    group->lengths[group->count++] = packet->len;
    group->places |= 1u << place;
    if (group->count == K) recover(way, group);
}

static void deliver(struct way *way)
{
    while (way->count > 0 && (int32_t)(clock_now - way->queue[way->first].due) >= 0) {
        const struct packet *packet = &way->queue[way->first];
        if (parity) take_frame(way, packet);
        else (void)ampferweg_station_input(way->to, packet->bytes, packet->len);
        way->first = (way->first + 1) % QUEUE;
        way->count--;
    }
}

/* ---- A run. */

static int run(int with_parity)
{
    static uint8_t message[AMPFERWEG_MESSAGE_SIZE(MTU)];
    unsigned long sent = 0, read = 0, slowest = 0, late = 0;
    parity = with_parity;
    clock_now = 0;
    chance = 1;
    memset(&there, 0, sizeof there);
    memset(&back, 0, sizeof back);
    there.to = &receiver;
    back.to = &sender;
    if (ampferweg_station_open(&sender, 7, MTU, 1, 10, 2) < 0 || ampferweg_station_open(&receiver, 7, MTU, 1, 10, 2) < 0) return 1;
    while (read < MESSAGES && !ampferweg_station_dead(&sender)) {
        ampferweg_result count;
        unsigned long i;
        for (i = 0; i < 4 && sent < MESSAGES; i++) {
            memset(message, 0, 200);
            memcpy(message, &sent, sizeof sent);
            memcpy(message + sizeof sent, &clock_now, sizeof clock_now);
            if (ampferweg_station_send(&sender, message, 200) < 0) break;
            sent++;
        }
        deliver(&back);
        flush(&sender, &there);
        deliver(&there);
        while ((count = ampferweg_station_read(&receiver, message, sizeof message)) >= 0) {
            unsigned long number;
            uint32_t when;
            memcpy(&number, message, sizeof number);
            memcpy(&when, message + sizeof number, sizeof when);
            if (number != read || count != 200) return 1;
            if (clock_now - when > slowest) slowest = clock_now - when;
            late += clock_now - when > 100;
            read++;
        }
        flush(&receiver, &back);
        clock_now += 10;
    }
    printf("%s: %lu messages in %.2f s, slowest %lu ms, %lu over 100 ms\n    %lu packets, %lu lost, %lu datagrams recovered, %lu retransmissions\n",
        with_parity ? "with parity" : "without parity", read, clock_now / 1000.0, slowest, late,
        there.frames + back.frames, there.lost + back.lost, there.recovered + back.recovered, there.pushes - read);
    return read != MESSAGES;
}

int main(void)
{
    return run(0) || run(1);
}
