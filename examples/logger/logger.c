/* A torque logger: 10,000 lines of 20 bytes go to a station that prints what they cost on the wire, as messages and as a stream.
 * The network is a function call that loses nothing. In stream mode a read gives a segment and not a line, so the reader cuts at
 * the newline itself; in message mode a read is a line. */
#include <ampferweg.h>
#include <stdio.h>
#include <string.h>

enum { MTU = 256, LINES = 10000, LINE = 20, BURST = 20, INTERVAL = 10 };

AMPFERWEG_STATION_STORAGE(logger, MTU);
AMPFERWEG_STATION_STORAGE(office, MTU);

struct wire { ampferweg_station *to; unsigned long datagrams, bytes; };

static void carry(void *context, const uint8_t *datagram, size_t len)
{
    struct wire *wire = context;
    wire->datagrams++;
    wire->bytes += len;
    if (ampferweg_station_input(wire->to, datagram, len) < 0) puts("a datagram is refused");
}

/* The line that the office has read in part, and how many it has read whole and in order. */
static char line[LINE];
static size_t line_len;
static int lines;

static void compose(char *text, int n)
{
    char all[32];
    snprintf(all, sizeof all, "%06d torque 41 Nm\n\n", n);
    memcpy(text, all, LINE);
    text[LINE - 1] = '\n';
}

static void take_byte(char c)
{
    char wanted[LINE];
    line[line_len++] = c;
    if (line_len < LINE) return;
    compose(wanted, lines);
    if (memcmp(line, wanted, LINE) == 0) lines++; else printf("line %d is wrong\n", lines);
    line_len = 0;
}

static void read_all(void)
{
    static uint8_t segment[AMPFERWEG_MESSAGE_SIZE(MTU)];
    ampferweg_result len, i;
    while ((len = ampferweg_station_read(&office, segment, sizeof segment)) >= 0)
        for (i = 0; i < len; i++) take_byte((char)segment[i]);
}

/* Up to BURST lines in each interval, fewer where no slot is free; then both flush. */
static void run(int stream)
{
    const ampferweg_settings settings = {.conv = 7, .mtu = MTU, .mode = 1, .interval = INTERVAL, .threshold = 2, .stream = (uint8_t)stream};
    struct wire out = {&office, 0, 0}, back = {&logger, 0, 0};
    char text[LINE];
    uint32_t now = 0;
    int sent = 0, i;
    lines = 0;
    line_len = 0;
    if (ampferweg_station_open_settings(&logger, &settings) < 0 || ampferweg_station_open_settings(&office, &settings) < 0) return;
    while (lines < LINES && now < 1000000) {
        for (i = 0; i < BURST && sent < LINES; i++) {
            compose(text, sent);
            if (ampferweg_station_send(&logger, text, LINE) < 0) break;
            sent++;
        }
        ampferweg_station_flush_to(&logger, now, carry, &out);
        read_all();
        ampferweg_station_flush_to(&office, now, carry, &back);
        now += INTERVAL;
    }
    printf("%-8s %5d lines, %6lu bytes: %5lu datagrams of %6lu bytes out, %5lu of %6lu back\n", stream ? "stream" : "messages", lines,
        (unsigned long)lines * LINE, out.datagrams, out.bytes, back.datagrams, back.bytes);
}

int main(void)
{
    run(0);
    run(1);
    return 0;
}
