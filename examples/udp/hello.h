/* A hello, by which two stations agree on a conversation that neither has used before, and notice when the other restarts.
 *
 * Each station says hello every so often, beside the link: 16 bytes, which the link refuses with 1 and so never takes for a
 * segment. A hello carries a number of the station's boot, a token, and the last token heard. A boot number that is new is believed
 * only with our own token of now, so that a hello of an earlier boot, held back by the network, changes nothing. Both then open with
 * the conversation that follows from both boot numbers: it is another one as soon as either restarts.
 *
 * A boot number differs from boot to boot: a counter kept in flash, or a random number. The same goes for the first
 * token, which is not 0. */
#ifndef HELLO_H
#define HELLO_H

#include <stddef.h>
#include <stdint.h>
#include <string.h>

enum { HELLO_SIZE = 16 };

enum hello_kind {
    HELLO_NONE,    /* not a hello */
    HELLO_OF_PEER, /* a hello that changes nothing */
    HELLO_NEW_BOOT /* the peer is there for the first time, or has restarted: open anew */
};

struct hello {
    uint32_t boot, token;           /* our own */
    uint32_t peer_boot, peer_token; /* as last believed, as last heard */
    int met;                        /* whether a boot number of the peer was believed */
};

static const uint8_t hello_magic[4] = {'A', 'W', 'H', '1'};

static inline void hello_put(uint8_t *bytes, uint32_t number)
{
    int i;
    for (i = 0; i < 4; i++) bytes[i] = (uint8_t)(number >> 8 * i);
}

static inline uint32_t hello_get(const uint8_t *bytes)
{
    return bytes[0] | (uint32_t)bytes[1] << 8 | (uint32_t)bytes[2] << 16 | (uint32_t)bytes[3] << 24;
}

/* Writes the hello to send now. */
static inline void hello_write(const struct hello *hello, uint8_t bytes[HELLO_SIZE])
{
    memcpy(bytes, hello_magic, sizeof hello_magic);
    hello_put(bytes + 4, hello->boot);
    hello_put(bytes + 8, hello->token);
    hello_put(bytes + 12, hello->peer_token);
}

/* Takes in a datagram of the peer, and tells what it is. */
static inline enum hello_kind hello_input(struct hello *hello, const uint8_t *datagram, size_t len)
{
    uint32_t boot;
    if (len != HELLO_SIZE || memcmp(datagram, hello_magic, sizeof hello_magic) != 0) return HELLO_NONE;
    boot = hello_get(datagram + 4);
    hello->peer_token = hello_get(datagram + 8);
    if (hello->met && boot == hello->peer_boot) return HELLO_OF_PEER;
    if (hello_get(datagram + 12) != hello->token) return HELLO_OF_PEER;
    hello->peer_boot = boot;
    hello->met = 1;
    hello->token++;
    return HELLO_NEW_BOOT;
}

/* The conversation of these two boots, the same at both stations; `line` tells apart the lines of a shop. */
static inline uint32_t hello_conversation(const struct hello *hello, uint32_t line)
{
    return line + hello->boot + hello->peer_boot;
}

#endif
