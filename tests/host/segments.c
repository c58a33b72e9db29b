#include "segments.h"

#include <string.h>

static void put_number(uint8_t *at, uint32_t value, size_t width)
{
    size_t i;
    for (i = 0; i < width; i++) at[i] = (uint8_t)(value >> (8 * i));
}

static uint32_t number_at(const uint8_t *at, size_t width)
{
    uint32_t value = 0;
    while (width-- > 0) value = value << 8 | at[width];
    return value;
}

size_t put_segment(uint8_t *at, struct segment s, uint8_t fill)
{
    put_number(at, s.conv, 4);
    at[4] = s.command;
    at[5] = s.fragment;
    put_number(at + 6, s.window, 2);
    put_number(at + 8, s.ts, 4);
    put_number(at + 12, s.sn, 4);
    put_number(at + 16, s.una, 4);
    put_number(at + 20, s.len, 4);
    memset(at + HEADER, fill, s.len);
    return HEADER + s.len;
}

struct segment segment_at(const uint8_t *at)
{
    struct segment s;
    s.conv = number_at(at, 4);
    s.command = at[4];
    s.fragment = at[5];
    s.window = (uint16_t)number_at(at + 6, 2);
    s.ts = number_at(at + 8, 4);
    s.sn = number_at(at + 12, 4);
    s.una = number_at(at + 16, 4);
    s.len = number_at(at + 20, 4);
    return s;
}

struct segment push_of(uint32_t sn, uint8_t fragment, uint32_t len)
{
    struct segment s = {1, PUSH, 0, 128, 0, 0, 0, 0};
    s.sn = sn;
    s.fragment = fragment;
    s.len = len;
    return s;
}

struct segment ack_of(uint32_t sn, uint32_t ts, uint32_t una)
{
    struct segment s = {1, ACK, 0, 128, 0, 0, 0, 0};
    s.sn = sn;
    s.ts = ts;
    s.una = una;
    return s;
}
