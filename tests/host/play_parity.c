/* Plays the parity commands of an extras script: parity-write, parity-read, parity-room, parity-cut and parity-more, one to a line,
 * and answers on standard output. `parity_line` takes one line, for play.c.
 *
 * All bytes that a call may write to are held here with bytes behind what is lent. Where one that the answer does not show has changed,
 * the last answer line ends with the word `changed`. */
#include <ampferweg_parity.h>

#include <stdio.h>
#include <stdlib.h>
#include <string.h>

int parity_line(const char *line);

enum { ROOM = 20000, SLOTS = 16, PARTS = 64, LINE = 65000, PACKED = LINE / 2 + 100 };

static size_t room = ROOM, slots = SLOTS; /* what is lent for output */
static size_t cut, more;                  /* of the next call's packed bytes */

static uint8_t packed[PACKED];
static uint16_t lengths[PARTS];
static size_t packed_len, count;

/* A number of at most 2^32 - 1, without sign or leading zeros, that ends at a space or the end; NULL where it is none. */
static const char *number(const char *at, uint32_t *value)
{
    uint64_t n = 0;
    const char *start = at;
    for (; *at >= '0' && *at <= '9'; at++) {
        n = n * 10 + (uint64_t)(*at - '0');
        if (n > UINT32_MAX || (at > start && *start == '0')) return NULL;
    }
    if (at == start || (*at != ' ' && *at != '\0')) return NULL;
    *value = (uint32_t)n;
    return at;
}

static int digit(char c)
{
    if (c >= '0' && c <= '9') return c - '0';
    return c >= 'a' && c <= 'f' ? c - 'a' + 10 : -1;
}

/* Bytes in hex, or `-` for none, packed behind the others; NULL where they are none. */
static const char *part(const char *at)
{
    size_t len = 0;
    if (count == PARTS) return NULL;
    if (*at == '-') {
        at++;
    } else {
        for (; digit(at[0]) >= 0 && digit(at[1]) >= 0; at += 2) packed[packed_len + len++] = (uint8_t)(digit(at[0]) * 16 + digit(at[1]));
        if (len == 0) return NULL;
    }
    if (*at != ' ' && *at != '\0') return NULL;
    lengths[count++] = (uint16_t)len;
    packed_len += len;
    return at;
}

/* The parts from here to the end of the line, packed. */
static int parts(const char *at)
{
    count = packed_len = 0;
    while (*at == ' ')
        if ((at = part(at + 1)) == NULL) return 0;
    if (*at != '\0') return 0;
    packed_len -= cut < packed_len ? cut : packed_len;
    memset(packed + packed_len, 0xaa, more);
    packed_len += more;
    cut = more = 0;
    return 1;
}

/* What a call answered and wrote. */
static void answer(int32_t result, const char *name, const uint8_t *out, const uint16_t *out_lengths)
{
    size_t at = 0, i, n = result < 0 ? 0 : (size_t)result;
    int changed = 0;
    for (i = 0; i < n && i < SLOTS; i++) {
        size_t x;
        printf("%s ", name);
        if (out_lengths[i] == 0) printf("-");
        for (x = 0; x < out_lengths[i] && at + x < ROOM; x++) printf("%02x", out[at + x]);
        printf("\n");
        at += out_lengths[i];
    }
    for (; at < ROOM; at++) changed |= out[at] != 0xaa;
    for (; i < SLOTS; i++) changed |= out_lengths[i] != 0xaaaa;
    printf("%s %d%s\n", result < 0 ? "refused" : "ok", result < 0 ? -result : result, changed ? " changed" : "");
}

/* Plays one line without its newline: 1, or 0 and nothing done where it is no parity command. */
int parity_line(const char *line)
{
    static uint8_t out[ROOM];
    static uint16_t out_lengths[SLOTS];
    const size_t cut_before = cut, more_before = more;
    uint32_t a = 0, b = 0, c = 0;
    const char *at;
    memset(out, 0xaa, sizeof out);
    memset(out_lengths, 0xaa, sizeof out_lengths);
    if (strncmp(line, "parity-write ", 13) == 0) {
        if ((at = number(line + 13, &a)) != NULL && *at == ' ' && (at = number(at + 1, &b)) != NULL && *at == ' ' &&
            (at = number(at + 1, &c)) != NULL && parts(at)) {
            answer(ampferweg_parity_write(a, b, c, packed, packed_len, lengths, count, out, room, out_lengths, slots), "frame", out, out_lengths);
            return 1;
        }
    } else if (strncmp(line, "parity-read ", 12) == 0) {
        if ((at = number(line + 12, &a)) != NULL && *at == ' ' && (at = number(at + 1, &b)) != NULL && parts(at)) {
            answer(ampferweg_parity_read(a, b, packed, packed_len, lengths, count, out, room, out_lengths, slots), "datagram", out, out_lengths);
            return 1;
        }
    } else if (strncmp(line, "parity-room ", 12) == 0) {
        if ((at = number(line + 12, &a)) != NULL && *at == ' ' && (at = number(at + 1, &b)) != NULL && *at == '\0' && a <= ROOM && b <= SLOTS) {
            room = a;
            slots = b;
            printf("ok\n");
            return 1;
        }
    } else if (strncmp(line, "parity-cut ", 11) == 0) {
        if ((at = number(line + 11, &a)) != NULL && *at == '\0' && a <= 65000) {
            cut = a;
            printf("ok\n");
            return 1;
        }
    } else if (strncmp(line, "parity-more ", 12) == 0) {
        if ((at = number(line + 12, &a)) != NULL && *at == '\0' && a <= 100) {
            more = a;
            printf("ok\n");
            return 1;
        }
    } else {
        return 0;
    }
    cut = cut_before;
    more = more_before;
    printf("malformed\n");
    return 1;
}
