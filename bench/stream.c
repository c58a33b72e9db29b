/* What a short send costs, as a message and in stream mode: ten lines of 20 bytes after an opening, the least of many rounds.
 *     cc -O2 -I include bench/stream.c target/staticlib/libampferweg.a -o target/stream && target/stream */
#define _POSIX_C_SOURCE 199309L
#include <ampferweg.h>
#include <stdio.h>
#include <time.h>

enum { MTU = 256, LINE = 20, LINES = 10, BATCH = 200, ROUNDS = 2000 };

AMPFERWEG_STATION_STORAGE(station, MTU);

static double nanoseconds(void)
{
    struct timespec t;
    clock_gettime(CLOCK_MONOTONIC, &t);
    return 1e9 * (double)t.tv_sec + (double)t.tv_nsec;
}

/* A batch of openings, each with so many sends behind it. */
static double batch(const ampferweg_settings *settings, int lines)
{
    static const uint8_t line[LINE];
    const double start = nanoseconds();
    int i, k;
    for (i = 0; i < BATCH; i++) {
        if (ampferweg_station_open_settings(&station, settings) < 0) puts("refused");
        for (k = 0; k < lines; k++)
            if (ampferweg_station_send(&station, line, LINE) < 0) puts("refused");
    }
    return (nanoseconds() - start) / BATCH;
}

static double least(const ampferweg_settings *settings, int lines)
{
    double best = 1e12;
    int i;
    for (i = 0; i < ROUNDS; i++) {
        const double now = batch(settings, lines);
        if (now < best) best = now;
    }
    return best;
}

int main(void)
{
    const ampferweg_settings messages = {.conv = 7, .mtu = MTU, .mode = 1, .interval = 10, .threshold = 2};
    const ampferweg_settings stream = {.conv = 7, .mtu = MTU, .mode = 1, .interval = 10, .threshold = 2, .stream = 1};
    printf("message %.0f ns, stream %.0f ns a send\n", (least(&messages, LINES) - least(&messages, 0)) / LINES,
        (least(&stream, LINES) - least(&stream, 0)) / LINES);
    return 0;
}
