/* The link, through the nine calls of its C interface; the station layer only holds the parts, and does not count here. */
#include "kcp_impl.h"

#include <ampferweg.h>

enum { MTU = AMPFERWEG_MTU_MOST, LINKS = 2 };

struct link {
    ampferweg_station *station;
    kcp_emit emit;
    void *context;
    int taken;
};

AMPFERWEG_STATION_STORAGE(first, MTU);
AMPFERWEG_STATION_STORAGE(second, MTU);

static struct link links[LINKS] = {{&first, 0, 0, 0}, {&second, 0, 0, 0}};

static void *open_link(const struct kcp_settings *s, kcp_emit emit, void *context)
{
    int i = 0;
    while (i < LINKS && links[i].taken) i++;
    if (i == LINKS || ampferweg_station_open(links[i].station, s->conv, s->mtu, s->mode, s->interval, s->threshold) < 0) return NULL;
    links[i].emit = emit;
    links[i].context = context;
    links[i].taken = 1;
    return &links[i];
}

static void close_link(void *link) { ((struct link *)link)->taken = 0; }

static int send_message(void *link, const uint8_t *message, size_t len)
{
    ampferweg_station *s = ((struct link *)link)->station;
    const ampferweg_result result = ampferweg_send(&s->link, AMPFERWEG_PARTS(s), message, len);
    return result == -AMPFERWEG_NO_FREE_SLOTS ? KCP_FULL : (int)result;
}

static int input(void *link, const uint8_t *datagram, size_t len)
{
    ampferweg_station *s = ((struct link *)link)->station;
    return (int)ampferweg_input(&s->link, AMPFERWEG_PARTS(s), datagram, len);
}

static int flush(void *link, uint32_t now)
{
    const struct link *l = link;
    ampferweg_station *s = l->station;
    const ampferweg_result count =
        ampferweg_flush(&s->link, AMPFERWEG_PARTS(s), now, s->output, s->output_len, s->lengths, s->lengths_len);
    return (int)ampferweg_station_transmit(s, count, l->emit, l->context);
}

static int receive(void *link, uint8_t *buffer, size_t room)
{
    ampferweg_station *s = ((struct link *)link)->station;
    const ampferweg_result result = ampferweg_read(&s->link, AMPFERWEG_PARTS(s), buffer, room);
    return result == -AMPFERWEG_NO_MESSAGE ? KCP_NONE : (int)result;
}

const struct kcp_impl *kcp_impl_get(void)
{
    static const struct kcp_impl impl = {"ampferweg", open_link, close_link, send_message, input, flush, receive, 0,
        sizeof(ampferweg_link) + sizeof first_send_pool + sizeof first_receive_pool + sizeof first_table + sizeof first_acks +
            sizeof first_output_bytes + sizeof first_output_lengths};
    return &impl;
}
