/* What the driver asks of a KCP implementation. One program is the driver and one impl_X.c, which defines kcp_impl_get. */
#ifndef KCP_IMPL_H
#define KCP_IMPL_H

#include <stddef.h>
#include <stdint.h>

struct kcp_settings {
    uint32_t conv, mtu, mode, interval, threshold;
};

#define KCP_DONE 0
#define KCP_FULL (-100) /* send: no room now, the message is not taken */
#define KCP_NONE (-101) /* receive: no message */
/* Any other number below 0 is a refusal. */

/* Is given each datagram; the bytes stand only during the call. */
typedef void (*kcp_emit)(void *context, const uint8_t *datagram, size_t len);

struct kcp_impl {
    const char *name;
    void *(*open)(const struct kcp_settings *settings, kcp_emit emit, void *context); /* NULL: refused */
    void (*close)(void *link);
    int (*send)(void *link, const uint8_t *message, size_t len);
    int (*input)(void *link, const uint8_t *datagram, size_t len);
    int (*flush)(void *link, uint32_t now);
    int (*receive)(void *link, uint8_t *buffer, size_t room); /* the message's length */
    size_t heap; /* bytes of heap at most, of two links */
    size_t lent; /* bytes lent to one link, the block among them */
};

const struct kcp_impl *kcp_impl_get(void);

#endif
