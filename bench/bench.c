/* Runs a workload and prints one JSON object. README.md says what the workloads are.
 *
 *     bench_NAME W1|W2|W3|W4|W5a|W5b|W6|W7 time|count|worst [DIVISOR [SEED]]
 *
 * time: processor time, nothing else measured. count: segments on the wire. worst: each call's time. */
#include "kcp_impl.h"
#include "measure.h"
#include "wire.h"

#include <stdio.h>
#include <stdlib.h>
#include <string.h>

static const struct kcp_impl *impl;
static struct kcp_settings settings = {0x11223344, 256, 1, 10, 2};
static int times_calls, checks_bytes;
static uint32_t divisor = 1, first_state = 0x9E3779B9;
static void *one, *two;
static uint32_t now;
static uint64_t refused, started;
static uint8_t message[4096], buffer[65536], push[24 + 232];

/* ---- calls, each timed where that is asked for ---- */

static int send_one(void *link, size_t len)
{
    const uint64_t start = times_calls ? ticks() : 0;
    const int result = impl->send(link, message, len);
    if (times_calls) note_call(SEND, ticks() - start);
    return result;
}

static void take_in(void *link, const uint8_t *datagram, size_t len)
{
    const uint64_t start = times_calls ? ticks() : 0;
    const int result = impl->input(link, datagram, len);
    if (times_calls) note_call(INPUT, ticks() - start);
    if (result < 0) refused++;
}

static int flush(void *link, uint32_t at)
{
    const uint64_t start = times_calls ? ticks() : 0;
    const int result = impl->flush(link, at);
    if (times_calls) note_call(FLUSH, ticks() - start);
    if (result < 0) fail("a flush is refused");
    return result;
}

static int receive(void *link)
{
    const uint64_t start = times_calls ? ticks() : 0;
    const int result = impl->receive(link, buffer, sizeof buffer);
    if (times_calls) note_call(RECEIVE, ticks() - start);
    return result;
}

/* ---- messages carry their number ---- */

static void number_message(uint32_t number) { memcpy(message, &number, 4); }

static void check_message(int result, size_t len, uint32_t number)
{
    uint32_t got;
    memcpy(&got, buffer, 4);
    if ((size_t)result != len || got != number || (checks_bytes && memcmp(buffer + 4, message + 4, len - 4) != 0)) fail("a wrong message arrives");
}

/* ---- workloads: each gives the count of its messages ---- */

/* Up to 32 sends, flush, deliver, read all, flush back, deliver; until all have arrived. */
static uint32_t bulk(uint32_t count, size_t len)
{
    uint32_t sent = 0, got = 0, steps = 0;
    while (got < count) {
        int i, result = 0;
        now += 10;
        for (i = 0; i < 32 && sent < count; i++, sent++) {
            number_message(sent);
            if ((result = send_one(one, len)) != KCP_DONE) break;
        }
        if (result < 0 && result != KCP_FULL) fail("a send is refused");
        flush(one, now);
        deliver(&wires[0], take_in, two);
        while ((result = receive(two)) != KCP_NONE) check_message(result, len, got++);
        flush(two, now);
        deliver(&wires[1], take_in, one);
        if (++steps > 200 * count + 100000) fail("there is no progress");
    }
    return count;
}

static void one_way(void *from, void *to, struct wire *wire, uint32_t number)
{
    number_message(number);
    if (send_one(from, 32) != KCP_DONE) fail("a send is refused");
    flush(from, now);
    deliver(wire, take_in, to);
    check_message(receive(to), 32, number);
}

static uint32_t ping_pong(uint32_t rounds)
{
    uint32_t i;
    for (i = 0; i < rounds; i++) {
        now += 10;
        one_way(one, two, &wires[0], i);
        one_way(two, one, &wires[1], i);
    }
    return 2 * rounds;
}

static void write_push(uint32_t sn, uint32_t ts)
{
    const uint32_t len = 232, none = 0;
    const uint16_t window = 128;
    memcpy(push, &settings.conv, 4);
    push[4] = 81;
    push[5] = 0;
    memcpy(push + 6, &window, 2);
    memcpy(push + 8, &ts, 4);
    memcpy(push + 12, &sn, 4);
    memcpy(push + 16, &none, 4);
    memcpy(push + 20, &len, 4);
}

/* 128 ready and 128 waiting, and nothing of that is measured. */
static void fill_receiver(void)
{
    const int times = times_calls;
    uint32_t sn;
    times_calls = 0;
    wires[0].discards = 1;
    flush(one, 10);
    for (sn = 0; sn < 256; sn++) {
        write_push(sn, 0);
        take_in(one, push, sizeof push);
    }
    flush(one, 10);
    times_calls = times;
    started = cpu_nanoseconds();
}

/* Half old, a quarter repeats, a quarter out of the window. */
static uint32_t flood_number(void)
{
    const uint32_t luck = chance(), value = luck >> 2;
    if ((luck & 3) < 2) return value % 128;
    return (luck & 3) == 2 ? 128 + value % 128 : 256 + value % 0x3FFFFFFF;
}

static uint32_t flood(uint32_t count, int flushes)
{
    uint32_t i;
    fill_receiver();
    now = 10;
    for (i = 0; i < count; i++) {
        write_push(flood_number(), i);
        take_in(one, push, sizeof push);
        if (flushes && i % 32 == 31) flush(one, now += 10);
    }
    return count;
}

/* 32 outstanding, none due. */
static uint32_t idle(uint32_t count)
{
    const int times = times_calls;
    uint32_t i;
    times_calls = 0;
    for (i = 0; i < 32; i++)
        if (send_one(one, 64) != KCP_DONE) fail("a send is refused");
    flush(one, 100);
    times_calls = times;
    started = cpu_nanoseconds();
    for (i = 0; i < count; i++)
        if (flush(one, 101) != 0) fail("an idle flush writes");
    return count;
}

static uint32_t work(const char *name)
{
    if (strcmp(name, "W1") == 0) return bulk(1000000 / divisor, 64);
    if (strcmp(name, "W2") == 0) return bulk(100000 / divisor, 2000);
    if (strcmp(name, "W3") == 0) return ping_pong(500000 / divisor);
    if (strcmp(name, "W4") == 0) return bulk(100000 / divisor, 64);
    if (strcmp(name, "W5a") == 0) return flood(1000000 / divisor, 0);
    if (strcmp(name, "W5b") == 0) return flood(1000000 / divisor, 1);
    if (strcmp(name, "W6") == 0) return idle(1000000 / divisor);
    if (strcmp(name, "W7") == 0) return bulk(100000 / divisor, 2000);
    fail("no such workload");
    return 0;
}

/* One run over fresh links: the messages, and the processor time. */
static uint32_t run(const char *name, uint64_t *taken)
{
    uint32_t count;
    state = first_state;
    now = 0;
    refused = 0;
    lossy = strcmp(name, "W4") == 0;
    settings.mtu = strcmp(name, "W7") == 0 ? 1400 : 256;
    clear_wire(&wires[0]);
    clear_wire(&wires[1]);
    one = impl->open(&settings, put_on_wire, &wires[0]);
    two = impl->open(&settings, put_on_wire, &wires[1]);
    if (one == NULL || two == NULL) fail("an opening is refused");
    started = cpu_nanoseconds();
    count = work(name);
    *taken = cpu_nanoseconds() - started;
    impl->close(one);
    impl->close(two);
    return count;
}

static void say_worst(void)
{
    static const char *const names[CALLS] = {"send", "input", "flush", "receive"};
    const double length = tick_length();
    int kind;
    printf(",\"worst\":{");
    for (kind = 0; kind < CALLS; kind++)
        printf("%s\"%s\":%.0f", kind > 0 ? "," : "", names[kind], (double)worst_call((enum call)kind) * length);
    printf("}");
}

int main(int argc, char **argv)
{
    uint64_t taken = 0;
    uint32_t count = 0;
    int i;
    if (argc < 3) fail("usage: bench W1|W2|W3|W4|W5a|W5b|W6|W7 time|count|worst [DIVISOR [SEED]]");
    times_calls = strcmp(argv[2], "worst") == 0;
    counts_segments = checks_bytes = strcmp(argv[2], "count") == 0;
    if (argc > 3) divisor = (uint32_t)strtoul(argv[3], NULL, 0);
    if (argc > 4) first_state = (uint32_t)strtoul(argv[4], NULL, 0);
    if (divisor == 0 || first_state == 0) fail("divisor and seed are 1 or more");
    impl = kcp_impl_get();
    for (i = 0; i < (int)sizeof message; i++) message[i] = (uint8_t)(i * 31 + 7);
    for (i = 0; i < (times_calls ? REPEATS : 1); i++) {
        start_repeat();
        count = run(argv[1], &taken);
    }
    printf("{\"impl\":\"%s\",\"messages\":%u,\"ns\":%.1f,\"datagrams\":%llu,\"bytes\":%llu,\"dropped\":%llu,\"refused\":%llu,"
        "\"pushes\":%llu,\"retransmissions\":%llu,\"heap\":%zu,\"lent\":%zu",
        impl->name, count, (double)taken / count, (unsigned long long)(wires[0].datagrams + wires[1].datagrams),
        (unsigned long long)(wires[0].bytes + wires[1].bytes), (unsigned long long)(wires[0].dropped + wires[1].dropped),
        (unsigned long long)refused, (unsigned long long)(wires[0].pushes + wires[1].pushes),
        (unsigned long long)(wires[0].retransmissions + wires[1].retransmissions), impl->heap, impl->lent);
    if (times_calls) say_worst();
    puts("}");
    return 0;
}
