/* Settings files through C: the very bytes of both versions, every refusal in its order, and both round trips. */
#include "check.h"

#include <ampferweg.h>
#include <string.h>

enum { FIRST = 15, SECOND = AMPFERWEG_SETTINGS_FILE_SIZE };

struct numbers { uint32_t conv, mtu, mode, interval, threshold, stream, congestion; };

static const uint8_t first[FIRST] = {'K', 'L', 'S', 1, 0, 0x78, 0x56, 0x34, 0x12, 0, 1, 2, 0x88, 0x13, 100};
static const struct numbers first_settings = {0x12345678, 256, 2, 5000, 100, 0, 0};

static const uint8_t second[SECOND] = {'K', 'L', 'S', 2, 0, 0x78, 0x56, 0x34, 0x12, 0x78, 5, 2, 0x88, 0x13, 100, 0, 1};
static const struct numbers second_settings = {0x12345678, 1400, 2, 5000, 100, 0, 1};

static ampferweg_result write_to(struct numbers n, uint8_t *file, size_t len)
{
    return ampferweg_settings_write(n.conv, n.mtu, n.mode, n.interval, n.threshold, n.stream, n.congestion, file, len);
}

static ampferweg_result read_from(const uint8_t *file, size_t len, struct numbers *n)
{
    return ampferweg_settings_read(file, len, &n->conv, &n->mtu, &n->mode, &n->interval, &n->threshold, &n->stream, &n->congestion);
}

static int same(struct numbers a, struct numbers b)
{
    return a.conv == b.conv && a.mtu == b.mtu && a.mode == b.mode && a.interval == b.interval && a.threshold == b.threshold &&
        a.stream == b.stream && a.congestion == b.congestion;
}

/* An example is written and read, and the bytes behind it stay. */
static void the_bytes(struct numbers n, const uint8_t *example, size_t len)
{
    uint8_t file[SECOND + 3];
    struct numbers found = {0, 0, 0, 0, 0, 9, 9};
    size_t i;
    memset(file, 0xEE, sizeof file);
    CHECK_EQUAL(write_to(n, file, sizeof file), (int)len);
    CHECK(memcmp(file, example, len) == 0);
    for (i = len; i < sizeof file; i++) CHECK_EQUAL(file[i], 0xEE);
    CHECK_EQUAL(read_from(example, len, &found), 0);
    CHECK(same(found, n));
}

/* A refused writing writes nothing; 7 comes before 12. */
static void refused_writing(struct numbers n, size_t len, int refusal)
{
    uint8_t file[SECOND];
    size_t i;
    memset(file, 0xEE, sizeof file);
    CHECK_EQUAL(write_to(n, file, len), -refusal);
    for (i = 0; i < SECOND; i++) CHECK_EQUAL(file[i], 0xEE);
}

/* With one setting out of its range, in a part that is long enough and in one that is not. */
static void out_of_range(uint32_t *setting, uint32_t value, const struct numbers *n)
{
    const uint32_t was = *setting;
    *setting = value;
    refused_writing(*n, SECOND, AMPFERWEG_SETTING_OUT_OF_RANGE);
    refused_writing(*n, SECOND - 1, AMPFERWEG_SHORT_PART);
    *setting = was;
}

static void writings_refused(void)
{
    struct numbers n = first_settings;
    size_t len;
    for (len = 0; len < SECOND; len++) refused_writing(first_settings, len, AMPFERWEG_SHORT_PART); /* 15 and 16 too */
    refused_writing(second_settings, SECOND - 1, AMPFERWEG_SHORT_PART);
    out_of_range(&n.mtu, 49, &n);
    out_of_range(&n.mtu, 1401, &n);
    out_of_range(&n.mtu, 65536 + 256, &n);
    out_of_range(&n.mode, 3, &n);
    out_of_range(&n.interval, 5001, &n);
    out_of_range(&n.threshold, 101, &n);
    out_of_range(&n.stream, 2, &n);
    out_of_range(&n.stream, 256, &n);
    out_of_range(&n.congestion, 2, &n);
    out_of_range(&n.congestion, 256, &n);
}

/* A file with one byte changed, at that length; a refused reading stores nothing. */
static void refused_reading(const uint8_t *example, size_t size, size_t at, uint8_t byte, size_t len, int refusal)
{
    const struct numbers before = {1, 2, 3, 4, 5, 6, 7};
    struct numbers found = before;
    uint8_t file[SECOND + 1] = {0};
    memcpy(file, example, size);
    file[at] = byte;
    CHECK_EQUAL(read_from(file, len, &found), -refusal);
    CHECK(same(found, before));
}

static void first_refused(size_t at, uint8_t byte, size_t len, int refusal) { refused_reading(first, FIRST, at, byte, len, refusal); }

static void second_refused(size_t at, uint8_t byte, size_t len, int refusal) { refused_reading(second, SECOND, at, byte, len, refusal); }

static void readings_refused(void)
{
    size_t len;
    for (len = 0; len < 5; len++) first_refused(0, 'K', len, AMPFERWEG_NOT_SETTINGS);
    first_refused(0, 'k', FIRST, AMPFERWEG_NOT_SETTINGS);
    first_refused(1, 'K', FIRST, AMPFERWEG_NOT_SETTINGS);
    first_refused(2, 'T', FIRST, AMPFERWEG_NOT_SETTINGS);
    first_refused(3, 3, FIRST, AMPFERWEG_UNKNOWN_VERSION);
    first_refused(4, 1, FIRST, AMPFERWEG_UNKNOWN_VERSION);
    first_refused(3, 0, 5, AMPFERWEG_UNKNOWN_VERSION);
    for (len = 5; len < FIRST; len++) first_refused(3, 1, len, AMPFERWEG_NOT_SETTINGS);
    first_refused(3, 1, FIRST + 1, AMPFERWEG_NOT_SETTINGS);
    first_refused(3, 1, SECOND, AMPFERWEG_NOT_SETTINGS);
    first_refused(10, 3, FIRST, AMPFERWEG_SETTING_OUT_OF_RANGE); /* an mtu of 768, which only version 2 has */
    first_refused(11, 3, FIRST, AMPFERWEG_SETTING_OUT_OF_RANGE);
    first_refused(12, 0x89, FIRST, AMPFERWEG_SETTING_OUT_OF_RANGE);
    first_refused(14, 101, FIRST, AMPFERWEG_SETTING_OUT_OF_RANGE);
}

static void second_readings_refused(void)
{
    size_t len;
    for (len = 5; len < SECOND; len++) second_refused(3, 2, len, AMPFERWEG_NOT_SETTINGS);
    second_refused(3, 2, SECOND + 1, AMPFERWEG_NOT_SETTINGS);
    second_refused(4, 2, SECOND, AMPFERWEG_UNKNOWN_VERSION);
    second_refused(9, 0x79, SECOND, AMPFERWEG_SETTING_OUT_OF_RANGE); /* 1,401 */
    second_refused(15, 2, SECOND, AMPFERWEG_SETTING_OUT_OF_RANGE);
    second_refused(16, 2, SECOND, AMPFERWEG_SETTING_OUT_OF_RANGE);
}

/* Version 2 with settings that fit version 1; where one of them is out of range too, 12 comes first. */
static void needless(void)
{
    const uint8_t file[SECOND] = {'K', 'L', 'S', 2, 0, 1, 0, 0, 0, 0, 2, 0, 100, 0, 0, 0, 0}; /* mtu 512 */
    refused_reading(file, SECOND, 3, 2, SECOND, AMPFERWEG_NEEDLESS_VERSION);
    refused_reading(file, SECOND, 11, 3, SECOND, AMPFERWEG_SETTING_OUT_OF_RANGE);
    refused_reading(file, SECOND, 16, 2, SECOND, AMPFERWEG_SETTING_OUT_OF_RANGE);
    refused_reading(file, SECOND, 3, 2, SECOND - 1, AMPFERWEG_NOT_SETTINGS);
}

/* Written in the version that the settings ask for, read back the same, and written again the same. */
static void round_trip(struct numbers n)
{
    const int len = n.mtu <= 512 && n.stream == 0 && n.congestion == 0 ? FIRST : SECOND;
    uint8_t file[SECOND], again[SECOND];
    struct numbers found = {0, 0, 0, 0, 0, 9, 9};
    CHECK_EQUAL(write_to(n, file, SECOND), len);
    CHECK_EQUAL(file[3], len == FIRST ? 1 : 2);
    CHECK_EQUAL(read_from(file, (size_t)len, &found), 0);
    CHECK(same(found, n));
    CHECK_EQUAL(write_to(found, again, SECOND), len);
    CHECK(memcmp(file, again, (size_t)len) == 0);
}

/* Every mtu, mode and threshold with stream and congestion on and off, and intervals over their range. */
static void round_trips(void)
{
    struct numbers n = {0, 50, 0, 10, 0, 0, 0};
    for (; n.mtu <= 1400; n.mtu++, n.conv += 9295591, n.mode = n.mtu % 3, n.interval = 10 + n.mtu * 3, n.threshold = n.mtu % 101) {
        for (n.stream = 0; n.stream < 2; n.stream++)
            for (n.congestion = 0; n.congestion < 2; n.congestion++) round_trip(n);
        n.stream = n.congestion = 0;
    }
    n.conv = 4294967295u;
    n.mtu = 1400;
    n.interval = 5000;
    n.threshold = 100;
    n.mode = 2;
    n.stream = n.congestion = 1;
    round_trip(n);
}

int main(void)
{
    the_bytes(first_settings, first, FIRST);
    the_bytes(second_settings, second, SECOND);
    writings_refused();
    readings_refused();
    second_readings_refused();
    needless();
    round_trips();
    return check_report("settings");
}
