/* Lent parts between guards: in front of each part lie bytes that must stay, and a page that cannot be touched lies right
 * behind it. A snapshot says which parts a call has changed. */
#ifndef LENT_H
#define LENT_H

#include <ampferweg.h>

enum { LINK, SEND_POOL, RECEIVE_POOL, TABLE, ACKS, OUTPUT, LENGTHS, MESSAGE, PARTS };

struct part {
    uint8_t *at;        /* the part */
    size_t size;        /* in bytes */
    uint8_t *front;     /* guard bytes, up to the part */
    uint8_t *snapshot;  /* as it was */
    void *pages;
    size_t pages_size;
};

/* A station's parts, and one more for a message, a datagram or a read buffer. */
struct lent {
    struct part parts[PARTS];
    ampferweg_station station; /* leads to the parts but for the block, which is lent->link */
    ampferweg_link *link;
    uint8_t *message;
};

/* Makes the parts for an mtu, each longer than stated by `spare` elements. They hold a pattern, and the block zeros. */
void lend(struct lent *lent, uint32_t mtu, size_t spare);
void give_back(struct lent *lent);

/* Makes the message part anew, with `len` bytes of a pattern. */
void lend_message(struct lent *lent, size_t len);

/* Notes how the parts stand, and says which have changed since: a bit 1 << PART for each, 0 for none. */
void snapshot(struct lent *lent);
unsigned changed(const struct lent *lent);

/* Whether the parts are unchanged from their element `from` on (in bytes). */
int unchanged_from(const struct lent *lent, int part, size_t from);

/* Whether all guard bytes stand. */
int guarded(const struct lent *lent);

/* Whether two blocks are equal, field by field, padding apart. */
int same_link(const ampferweg_link *a, const ampferweg_link *b);

/* The calls on the parts. */
ampferweg_result call_open(struct lent *lent, uint32_t conv, uint32_t mtu, uint32_t mode, uint32_t interval, uint32_t threshold);
ampferweg_result call_open_stream(struct lent *lent, uint32_t mtu, uint32_t stream); /* conversation 7, mode 1, interval 10, threshold 2 */
ampferweg_result call_send(struct lent *lent, const uint8_t *message, size_t len);
ampferweg_result call_input(struct lent *lent, const uint8_t *datagram, size_t len);
ampferweg_result call_flush(struct lent *lent, uint32_t now);
ampferweg_result call_update(struct lent *lent, uint32_t now);
ampferweg_result call_check(const struct lent *lent, uint32_t now, uint32_t *when);
ampferweg_result call_read(struct lent *lent, uint8_t *buffer, size_t len);
ampferweg_result call_size(const struct lent *lent);
ampferweg_result call_show(const struct lent *lent, uint32_t *start);

/* A generator of numbers with a seed (xorshift). */
extern uint32_t seed;
uint32_t any(void);
uint32_t below(uint32_t bound);

#endif
