/* A hub: one socket, an array of links, a station at the other end of each. A datagram goes to the link of its conversation, and the
 * link answers to where it came from. Each message that arrives is sent back. It has no heap. */
#define _POSIX_C_SOURCE 200809L
#include "options.h"
#include "udp.h"

#include <ampferweg.h>
#include <signal.h>
#include <stdio.h>
#include <string.h>

enum { LINKS_MOST = 8, MTU = 256, IDLE_MS = 100 };

struct line {
    ampferweg_station station;
    struct sockaddr_in peer; /* where its last accepted datagram came from */
    int known;
    unsigned heard;
};

static struct line lines[LINKS_MOST];
static uint8_t memory[LINKS_MOST][AMPFERWEG_STATION_MEMORY_SHARED(MTU)];
AMPFERWEG_STATION_STORAGE(first, MTU); /* all flush into its output */

static uint32_t port, links = 4, first_conv = 1, seconds = 20, print;
static const struct option options[] = {
    {"port", "PORT", "the port to listen on", NULL, &port, 1, 65535},
    {"links", "COUNT", "so many links, 1 to 8 (default 4)", NULL, &links, 1, LINKS_MOST},
    {"conv", "NUMBER", "conversation of the first link; the others follow (default 1)", NULL, &first_conv, 0, 1000000},
    {"seconds", "COUNT", "end after so many seconds (default 20)", NULL, &seconds, 1, 86400},
    {"print", "0|1", "1: print every link's block at the end", NULL, &print, 0, 1},
};

static int udp;
static unsigned strangers;
static volatile sig_atomic_t ended;

static void end(int signal)
{
    (void)signal;
    ended = 1;
}

static int open_links(void)
{
    ampferweg_settings settings = {.mtu = MTU, .mode = 1, .interval = 10, .threshold = 2};
    uint32_t i;
    for (i = 0; i < links; i++) {
        ampferweg_station *station = &lines[i].station;
        settings.conv = first_conv + i;
        if (ampferweg_station_init_shared(station, memory[i], sizeof memory[i], MTU, &first) < 0) return 0;
        if (ampferweg_station_open_settings(station, &settings) < 0) {
            fprintf(stderr, "hub: link %lu: %s\n", (unsigned long)i, ampferweg_station_why(station));
            return 0;
        }
    }
    return 1;
}

/* The line whose conversation a datagram has, or NULL. */
static struct line *line_of(const uint8_t *datagram, size_t len)
{
    const int64_t conversation = ampferweg_conversation_of(datagram, len);
    uint32_t i;
    for (i = 0; i < links; i++)
        if (lines[i].station.link.settings.conv == conversation) return &lines[i];
    return NULL;
}

static void take_in(uint32_t wait)
{
    static uint8_t datagram[DATAGRAM_MOST];
    struct sockaddr_in from;
    const long len = udp_receive(udp, wait, &from, datagram, sizeof datagram);
    struct line *line = len < 0 ? NULL : line_of(datagram, (size_t)len);
    if (len >= 0 && line == NULL) strangers++;
    if (line == NULL || ampferweg_station_input(&line->station, datagram, (size_t)len) < 0) return;
    line->peer = from;
    line->known = 1;
}

/* Sends back each message, as long as there are send slots for it; the others stay where they are. */
static void answer(struct line *line)
{
    static uint8_t message[AMPFERWEG_MESSAGE_SIZE(MTU)];
    for (;;) {
        const ampferweg_result size = ampferweg_station_size(&line->station);
        const size_t segments = size <= 0 ? 1 : ((size_t)size + AMPFERWEG_MSS(MTU) - 1) / AMPFERWEG_MSS(MTU);
        if (size < 0 || ampferweg_station_pending(&line->station) + segments > 128) return;
        (void)ampferweg_station_read(&line->station, message, sizeof message);
        (void)ampferweg_station_send(&line->station, message, (size_t)size);
        line->heard++;
    }
}

static void transmit(void *to, const uint8_t *datagram, size_t len) { udp_send(udp, (const struct sockaddr_in *)to, datagram, len); }

/* Runs every link whose peer is known, and gives the least of their waits. */
static uint32_t run_links(uint32_t now)
{
    uint32_t wait = IDLE_MS, i;
    for (i = 0; i < links; i++) {
        struct line *line = &lines[i];
        uint32_t own;
        if (!line->known) continue;
        answer(line);
        (void)ampferweg_station_run_to(&line->station, now, transmit, &line->peer);
        own = ampferweg_station_wait(&line->station, now);
        if (own < wait) wait = own;
    }
    return wait;
}

static void print_line(void *name, const char *text) { printf("link %s: %s\n", (const char *)name, text); }

static void summary(void)
{
    uint32_t i;
    for (i = 0; i < links; i++) {
        const ampferweg_counters *c = &lines[i].station.counters;
        char name[16];
        snprintf(name, sizeof name, "%lu", (unsigned long)lines[i].station.link.settings.conv);
        printf("link %s: %u messages; %lu datagrams in, %lu out; %lu segments out, %lu of them retransmissions\n", name, lines[i].heard,
            (unsigned long)c->datagrams_in, (unsigned long)c->datagrams_out, (unsigned long)c->segments_out,
            (unsigned long)c->retransmissions);
        if (print) ampferweg_print(&lines[i].station.link, print_line, name);
    }
    printf("hub: %u datagrams of no link here\n", strangers);
}

int main(int argc, char **argv)
{
    struct sigaction action;
    uint32_t start;
    lines_at_once();
    read_options(argc, argv, "usage: hub --port PORT [options]\n"
        "Many links on one socket: sends back every message. Ends by --seconds, SIGINT or SIGTERM.",
        options, sizeof options / sizeof *options);
    memset(&action, 0, sizeof action);
    action.sa_handler = end;
    sigaction(SIGINT, &action, NULL);
    sigaction(SIGTERM, &action, NULL);
    if (port == 0) fprintf(stderr, "hub: --port is wanted (--help lists the options)\n");
    if (port == 0 || !open_links()) return 2;
    udp = udp_open("hub", port);
    printf("hub: Ampferweg %s, %lu links, listens on port %u\n", ampferweg_version(), (unsigned long)links, port);
    start = clock_now();
    while (!ended && clock_now() - start < 1000 * seconds) take_in(run_links(clock_now()));
    summary();
    return 0;
}
