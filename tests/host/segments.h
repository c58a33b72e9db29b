/* Segments, written by the test itself, byte by byte. */
#ifndef SEGMENTS_H
#define SEGMENTS_H

#include <stddef.h>
#include <stdint.h>

enum { PUSH = 81, ACK = 82, ASK = 83, TELL = 84, HEADER = 24 };

struct segment {
    uint32_t conv;
    uint8_t command, fragment;
    uint16_t window;
    uint32_t ts, sn, una, len;
};

/* Writes a segment at `at`, its payload `fill` repeated, and gives the bytes written. */
size_t put_segment(uint8_t *at, struct segment segment, uint8_t fill);

/* Reads the header at `at`. */
struct segment segment_at(const uint8_t *at);

/* A push of conversation 1 with window 128, and an acknowledgement. */
struct segment push_of(uint32_t sn, uint8_t fragment, uint32_t len);
struct segment ack_of(uint32_t sn, uint32_t ts, uint32_t una);

#endif
