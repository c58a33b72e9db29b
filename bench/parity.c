/* Bytes a second of parity: groups of 10 datagrams of 1,400 bytes written, and read with none, one or two data frames lost. */
#include <ampferweg_parity.h>

#include <stdio.h>
#include <stdlib.h>
#include <string.h>
#include <time.h>

enum { K = 10, MTU = 1400 };

static uint8_t datagrams[K * MTU], frames[AMPFERWEG_PARITY_WRITE_SIZE(MTU)], given[AMPFERWEG_PARITY_WRITE_SIZE(MTU)];
static uint8_t back[AMPFERWEG_PARITY_READ_SIZE(MTU)];
static uint16_t lengths[K], frame_lengths[AMPFERWEG_PARITY_WRITE_LEN], given_lengths[K + 2], back_lengths[AMPFERWEG_PARITY_READ_LEN];

static double seconds(void)
{
    struct timespec t;
    clock_gettime(CLOCK_MONOTONIC, &t);
    return (double)t.tv_sec + 1e-9 * (double)t.tv_nsec;
}

/* The frames that arrive: K of them, the first `lost` data frames being lost. */
static size_t arrive(int lost)
{
    const size_t size = MTU + 8;
    size_t i, at = 0;
    for (i = 0; i < K; i++) {
        memcpy(given + at, frames + (i + (size_t)lost) * size, size);
        given_lengths[i] = (uint16_t)size;
        at += size;
    }
    return at;
}

static void say(const char *name, double best)
{
    printf("%-22s %8.2f us a group  %8.1f MB/s\n", name, best * 1e6, K * MTU / best / 1e6);
}

int main(void)
{
    static const char *const names[] = {"read, none lost", "read, one lost", "read, two lost"};
    double best = 1e9;
    int i, lost, turn;
    for (i = 0; i < K * MTU; i++) datagrams[i] = (uint8_t)(rand() >> 7);
    for (i = 0; i < K; i++) lengths[i] = MTU;
    for (turn = 0; turn < 20; turn++) {
        const double start = seconds();
        double took;
        for (i = 0; i < 1000; i++)
            if (ampferweg_parity_write((uint32_t)i, K, MTU, datagrams, sizeof datagrams, lengths, K,
                    frames, sizeof frames, frame_lengths, AMPFERWEG_PARITY_WRITE_LEN) != K + 2) return 1;
        took = (seconds() - start) / 1000;
        if (took < best) best = took;
    }
    say("write", best);
    for (lost = 0; lost <= 2; lost++) {
        const size_t size = arrive(lost);
        best = 1e9;
        for (turn = 0; turn < 20; turn++) {
            const double start = seconds();
            double took;
            for (i = 0; i < 1000; i++)
                if (ampferweg_parity_read(K, MTU, given, size, given_lengths, K,
                        back, sizeof back, back_lengths, AMPFERWEG_PARITY_READ_LEN) != K) return 1;
            took = (seconds() - start) / 1000;
            if (took < best) best = took;
        }
        if (memcmp(back, datagrams, sizeof back) != 0) return 1;
        say(names[lost], best);
    }
    return 0;
}
