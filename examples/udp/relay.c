/* A bad network: passes datagrams between two stations and, by a seed, drops some, repeats some and holds some back. */
#define _POSIX_C_SOURCE 200809L
#include "options.h"
#include "udp.h"

#include <signal.h>
#include <stdio.h>
#include <stdlib.h>
#include <string.h>

enum { HELD_MOST = 512, WAIT_MS = 5 };

static const char *left_text, *right_text;
static uint32_t port, drop = 10, repeat = 5, shuffle = 10, delay = 40, seed = 1;

static const struct option options[] = {
    {"port", "PORT", "the port to listen on", NULL, &port, 1, 65535},
    {"left", "ADDRESS", "one station, as 127.0.0.1:4001", &left_text, NULL, 0, 0},
    {"right", "ADDRESS", "the other one", &right_text, NULL, 0, 0},
    {"drop", "PERCENT", "datagrams lost (default 10)", NULL, &drop, 0, 100},
    {"repeat", "PERCENT", "datagrams passed twice (default 5)", NULL, &repeat, 0, 100},
    {"shuffle", "PERCENT", "datagrams held back, so that later ones pass them (default 10)", NULL, &shuffle, 0, 100},
    {"delay", "MS", "how long they are held back at most (default 40)", NULL, &delay, 1, 10000},
    {"seed", "NUMBER", "another seed, other losses (default 1)", NULL, &seed, 1, UINT32_MAX},
};

struct held {
    const struct sockaddr_in *to;
    uint32_t due;
    size_t len;
    uint8_t bytes[DATAGRAM_MOST];
};

static struct held held[HELD_MOST];
static size_t held_count;
static struct sockaddr_in left, right;
static struct { unsigned heard, dropped, repeated, shuffled; } count;
static volatile sig_atomic_t ended;

static void end(int signal)
{
    (void)signal;
    ended = 1;
}

/* Whether it happens, so many times in a hundred (xorshift). */
static int happens(uint32_t percent)
{
    seed ^= seed << 13;
    seed ^= seed >> 17;
    seed ^= seed << 5;
    return seed % 100 < percent;
}

static void hold(const struct sockaddr_in *to, const uint8_t *datagram, size_t len, uint32_t due)
{
    struct held *h;
    if (held_count == HELD_MOST) return; /* lost: the network is full */
    h = &held[held_count++];
    h->to = to;
    h->due = due;
    h->len = len;
    memcpy(h->bytes, datagram, len);
}

static void pass(const struct sockaddr_in *to, const uint8_t *datagram, size_t len)
{
    const uint32_t now = clock_now();
    const int dropped = happens(drop), repeated = happens(repeat), shuffled = happens(shuffle);
    count.heard++;
    if (dropped) { count.dropped++; return; }
    hold(to, datagram, len, shuffled ? now + 1 + seed % delay : now);
    count.shuffled += shuffled != 0;
    if (!repeated) return;
    count.repeated++;
    hold(to, datagram, len, now + seed % delay);
}

/* Lets go what is due, in the order in which it came. */
static void let_go(int udp)
{
    size_t i, kept = 0;
    for (i = 0; i < held_count; i++) {
        if ((int32_t)(clock_now() - held[i].due) >= 0) udp_send(udp, held[i].to, held[i].bytes, held[i].len);
        else if (kept++ != i) held[kept - 1] = held[i];
    }
    held_count = kept;
}

static void run(int udp)
{
    static uint8_t datagram[DATAGRAM_MOST];
    struct sockaddr_in from;
    while (!ended) {
        const long len = udp_receive(udp, WAIT_MS, &from, datagram, sizeof datagram);
        if (len >= 0 && same_address(&from, &left)) pass(&right, datagram, (size_t)len);
        if (len >= 0 && same_address(&from, &right)) pass(&left, datagram, (size_t)len);
        let_go(udp);
    }
}

int main(int argc, char **argv)
{
    struct sigaction action;
    int udp;
    lines_at_once();
    read_options(argc, argv, "usage: relay --port PORT --left ADDRESS --right ADDRESS [options]\n"
        "Passes datagrams between two stations over a bad network, until it is stopped (SIGINT or SIGTERM).",
        options, sizeof options / sizeof *options);
    if (port == 0 || left_text == NULL || right_text == NULL) {
        fprintf(stderr, "relay: --port, --left and --right are wanted (--help lists the options)\n");
        return 2;
    }
    left = udp_address("relay", left_text);
    right = udp_address("relay", right_text);
    memset(&action, 0, sizeof action);
    action.sa_handler = end;
    sigaction(SIGINT, &action, NULL);
    sigaction(SIGTERM, &action, NULL);
    udp = udp_open("relay", port);
    printf("relay: listens on port %u\n", port);
    run(udp);
    printf("relay: %u datagrams, %u lost, %u repeated, %u held back\n", count.heard, count.dropped, count.repeated, count.shuffled);
    return 0;
}
