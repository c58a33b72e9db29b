/* Ampferweg: a KCP link between two stations, proved, without a heap.
 *
 * KCP is a small reliable protocol over UDP: messages are cut into segments that are numbered, acknowledged and
 * retransmitted, so that they arrive whole, once and in order. This library has no heap, no clock and no socket: the
 * caller lends every part, says what time it is, and carries the datagrams.
 *
 * A station that sends one recipe and prints what arrives:
 *
 *     #include <ampferweg.h>
 *     #include <stdio.h>
 *
 *     uint32_t milliseconds(void);                                        // your clock
 *     void transmit(void *socket, const uint8_t *datagram, size_t len);   // your network
 *     size_t receive(void *socket, uint8_t *datagram, size_t room, uint32_t wait); // waits so many ms at most; 0: none came
 *
 *     AMPFERWEG_STATION_STORAGE(station, 256);                            // static, about 145 KiB for an mtu of 256
 *
 *     int run(void *socket)
 *     {
 *         static uint8_t datagram[2048], message[AMPFERWEG_MESSAGE_SIZE(256)];
 *         const ampferweg_settings line = {.conv = 7, .mtu = 256, .mode = 1, .interval = 10, .threshold = 2};
 *         ampferweg_result result = ampferweg_station_open_settings(&station, &line);
 *         if (result == 0) result = ampferweg_station_send(&station, "seat 12: 4 holes", 16);
 *         while (!ampferweg_refusal_of(result) && !ampferweg_station_dead(&station)) {
 *             ampferweg_result count;
 *             const size_t len = receive(socket, datagram, sizeof datagram, ampferweg_station_wait(&station, milliseconds()));
 *             if (len > 0) (void)ampferweg_station_input(&station, datagram, len); // a bad one is refused, and changes nothing
 *             while ((count = ampferweg_station_read(&station, message, sizeof message)) >= 0)
 *                 printf("%.*s\n", (int)count, (const char *)message);
 *             result = ampferweg_station_run_to(&station, milliseconds(), transmit, socket);
 *         }
 *         if (ampferweg_refusal_of(result)) fprintf(stderr, "%s\n", ampferweg_station_why(&station));
 *         return ampferweg_refusal_of(result);
 *     }
 *
 * Sleep until the time that check names, then call update. A host with a timer of its own calls flush about every `interval`
 * milliseconds instead; so may anyone after a send that should not wait.
 *
 * The header has four parts: sizes and results; the nine calls, and settings files, which are proved; and `ampferweg_station`, a
 * layer of inline functions that holds the lent parts, passes them on, counts, and says by name why a call was refused. C99 or
 * C++; x86-64 Linux, and other machines (docs/BOARDS.md).
 * Counts are 64 bits wide everywhere, so that the block has one layout on 32-bit and 64-bit machines. */
#ifndef AMPFERWEG_H
#define AMPFERWEG_H

#include <stddef.h>
#include <stdint.h>

#define AMPFERWEG_VERSION "0.4.0"
#define AMPFERWEG_VERSION_NUMBER 400 /* 10,000 for the first number, 100 for the second, 1 for the third */

#ifdef __cplusplus
extern "C" {
#endif

/* ---- Sizes ---------------------------------------------------------------------------------------------------------
 *
 * What every call is lent at least, for a link of the given mtu (50 to 1400 bytes a datagram). A longer part is fine, and
 * what lies beyond these sizes is neither read nor written. */

#define AMPFERWEG_MTU_LEAST 50
#define AMPFERWEG_MTU_MOST  1400

/* The largest payload of a segment: the mtu without a header. */
#define AMPFERWEG_MSS(mtu) ((size_t)(mtu) - 24)

/* Bytes of the send pool (128 slots) and of the receive pool (256 slots). */
#define AMPFERWEG_SEND_POOL_SIZE(mtu)    (128 * AMPFERWEG_MSS(mtu))
#define AMPFERWEG_RECEIVE_POOL_SIZE(mtu) (256 * AMPFERWEG_MSS(mtu))

/* Bytes of the longest message: 127 segments. A read buffer of this size is never too short. */
#define AMPFERWEG_MESSAGE_SIZE(mtu) (127 * AMPFERWEG_MSS(mtu))

#define AMPFERWEG_TABLE_LEN   128   /* records of the table, one for each send slot */
#define AMPFERWEG_ACKS_LEN    512   /* entries of the ack list: 256 pairs of sn and ts */
#define AMPFERWEG_OUTPUT_SIZE 50992 /* bytes of a flush's output, for any mtu */
#define AMPFERWEG_LENGTHS_LEN 290   /* lengths of a flush, one for each datagram */
#define AMPFERWEG_BLOCK_SIZE  2336  /* bytes of the control block, for any mtu */

/* ---- Results -------------------------------------------------------------------------------------------------------
 *
 * 0 or more: the call is done. A flush gives the datagrams that it wrote, a read, a size and a show give bytes, the
 * others 0. No count is capped, which is proved: it is at most AMPFERWEG_LENGTHS_LEN datagrams, or
 * AMPFERWEG_MESSAGE_SIZE(mtu) bytes.
 * Below 0: the call is refused, -N for refusal number N, and nothing has changed: not a field of the control block, not a
 * byte of any lent part.
 * An update that is done and did not flush, since it is not time yet, gives AMPFERWEG_NOT_YET, which is no count and no
 * refusal's. It is below 0, so that a loop over the datagrams of an update finds none. */

typedef int32_t ampferweg_result;

#define AMPFERWEG_NOT_YET ((ampferweg_result)-256)

enum ampferweg_refusal {
    AMPFERWEG_SHORT_DATAGRAM = 1,        /* input: the datagram is under 24 bytes */
    AMPFERWEG_OTHER_CONVERSATION = 2,    /* input: a segment of another conversation */
    AMPFERWEG_LENGTH_PAST_END = 3,       /* input: a segment's len runs past the datagram's end */
    AMPFERWEG_UNKNOWN_COMMAND = 4,       /* input: a command that is not 81 to 84 */
    AMPFERWEG_LONG_PAYLOAD = 5,          /* input: a push with a payload above mss (the peer's mtu is larger than ours) */
    AMPFERWEG_HIGH_FRAGMENT = 6,         /* input: a push with a fragment number above 126 */
    AMPFERWEG_SHORT_PART = 7,            /* any call: a lent part is shorter than stated above; read: so is the buffer */
    AMPFERWEG_NO_MESSAGE = 9,            /* read, size: no message has arrived whole. Number 8 is not used any more */
    AMPFERWEG_LONG_MESSAGE = 10,         /* send: the message is above 127 segments */
    AMPFERWEG_NO_FREE_SLOTS = 11,        /* send: more segments than free send slots; flush, take in, and try again */
    AMPFERWEG_SETTING_OUT_OF_RANGE = 12, /* open, settings files: a setting outside its range */
    AMPFERWEG_INVALID_BLOCK = 13,        /* any call but open: the control block is not one that this link makes */
    AMPFERWEG_TRAILING_BYTES = 14,       /* input: 1 to 23 bytes behind the last segment; tested after 1 to 6 */
    AMPFERWEG_NOT_SETTINGS = 15,         /* a settings file under 5 bytes, with another mark, or with a wrong length */
    AMPFERWEG_UNKNOWN_VERSION = 16,      /* a settings file of another version than 1 and 2 */
    AMPFERWEG_NEEDLESS_VERSION = 20      /* a settings file of version 2 whose settings fit version 1 */
};

/* The refusal number of a result, 0 where the call is done. */
static inline int ampferweg_refusal_of(ampferweg_result result)
{
    return result < 0 && result != AMPFERWEG_NOT_YET ? (int)-result : 0;
}

/* A result in plain words, for a log line. */
static inline const char *ampferweg_text(ampferweg_result result)
{
    switch (ampferweg_refusal_of(result)) {
    case 0: return result == AMPFERWEG_NOT_YET ? "done: it is not yet time to flush" : "done";
    case AMPFERWEG_SHORT_DATAGRAM: return "refused 1: the datagram is under 24 bytes";
    case AMPFERWEG_OTHER_CONVERSATION: return "refused 2: the datagram is of another conversation";
    case AMPFERWEG_LENGTH_PAST_END: return "refused 3: a segment runs past the datagram's end";
    case AMPFERWEG_UNKNOWN_COMMAND: return "refused 4: a segment has an unknown command";
    case AMPFERWEG_LONG_PAYLOAD: return "refused 5: a segment's payload is too long for this mtu";
    case AMPFERWEG_HIGH_FRAGMENT: return "refused 6: a segment's fragment number is above 126";
    case AMPFERWEG_SHORT_PART: return "refused 7: a lent part or the read buffer is too short";
    case AMPFERWEG_NO_MESSAGE: return "refused 9: no message has arrived whole";
    case AMPFERWEG_LONG_MESSAGE: return "refused 10: the message is above 127 segments";
    case AMPFERWEG_NO_FREE_SLOTS: return "refused 11: not enough free send slots";
    case AMPFERWEG_SETTING_OUT_OF_RANGE: return "refused 12: a setting is outside its range";
    case AMPFERWEG_INVALID_BLOCK: return "refused 13: the control block is not valid: was it opened?";
    case AMPFERWEG_TRAILING_BYTES: return "refused 14: bytes are left behind the datagram's last segment";
    case AMPFERWEG_NOT_SETTINGS: return "refused 15: this is not a settings file";
    case AMPFERWEG_UNKNOWN_VERSION: return "refused 16: the settings file is of an unknown version";
    case AMPFERWEG_NEEDLESS_VERSION: return "refused 20: the settings file is of version 2, and version 1 would do";
    default: return "refused: no number of this library";
    }
}

/* ---- The control block ---------------------------------------------------------------------------------------------
 *
 * One for each link. The caller keeps it and shows it to every call; only the calls change it. Its fields may be read, for
 * a display or a log. A block that was written to by hand is answered like any other: with refusal 13 if no call of this
 * library could have left it. Compare blocks field by field, never with memcmp: padding is not part of a block. */

typedef struct ampferweg_settings {
    uint32_t conv;     /* conversation: the same number at both stations */
    uint16_t mtu;      /* bytes of the longest datagram */
    uint16_t interval; /* milliseconds between flushes, as the retransmission timeout reckons */
    uint8_t mode;      /* 0, 1 or 2: how the timeout grows at a retransmission */
    uint8_t threshold; /* skips before a fast retransmission; 0: off */
    uint8_t stream;    /* 1: what is sent is a stream of bytes; 0: messages */
    uint8_t congestion; /* 1: flushes go by the congestion window; 0: off */
} ampferweg_settings;

/* A segment in a slot of a pool. */
typedef struct ampferweg_held { uint8_t slot, fragment; uint16_t len; } ampferweg_held;

/* Round trip, in milliseconds: smoothed time, variation, retransmission timeout. */
typedef struct ampferweg_round_trip { uint32_t smoothed, variation, timeout; } ampferweg_round_trip;

/* Congestion window in segments, the threshold up to which it grows by one a time, and the allowance in bytes. They move in every
 * link; only with the setting on does a flush go by the window. */
typedef struct ampferweg_congestion { uint32_t window, threshold, allowance; } ampferweg_congestion;

/* Probe of a closed window: milliseconds between two asks (0: stopped), and when the next one is due. */
typedef struct ampferweg_probe_clock { uint32_t wait, due; } ampferweg_probe_clock;

/* The sending half: snd_una, snd_nxt, the round trip, the peer's last window, the congestion window; segments queued (accepted and
 * not yet sent) and outstanding (sent and not acknowledged). */
typedef struct ampferweg_flight {
    uint32_t una, next;
    ampferweg_round_trip rtt;
    uint16_t window;
    ampferweg_congestion congestion;
    uint64_t queued, outstanding;
} ampferweg_flight;

/* The receiving half: rcv_nxt; whether a window tell is wanted; segments ready to be read, segments that wait for one before
 * them, and acknowledgements noted, as pairs in the ack list. */
typedef struct ampferweg_arrival {
    uint32_t expected;
    uint8_t tell;
    uint64_t ready, waiting, acks;
} ampferweg_arrival;

/* What a flush or an update moves on: the probe clock, the time of the last one, and the time from which an update flushes; whether
 * a window ask is wanted, whether the link is dead, and whether an update has been made. */
typedef struct ampferweg_clock {
    ampferweg_probe_clock probe;
    uint32_t current, next_flush;
    uint8_t ask, dead, updated;
} ampferweg_clock;

/* Flags are set where not 0. Of each list the first entries, as many as its count above says, are segments, in order; what
 * lies past them means nothing. */
typedef struct ampferweg_link {
    ampferweg_settings settings;
    ampferweg_flight flight;
    ampferweg_arrival arrival;
    ampferweg_clock clock;
    ampferweg_held queued[128];
    ampferweg_held outstanding[32];
    uint8_t transmissions[32];      /* of the outstanding segments */
    ampferweg_held ready[128];
    ampferweg_held waiting[128];
    uint32_t waiting_numbers[128];  /* the sequence numbers of the waiting segments */
} ampferweg_link;

/* A record of the lent table: number, due time, timeout and skip count of the segment in that send slot. */
typedef struct ampferweg_record { uint32_t number, due, timeout, skips; } ampferweg_record;

/* The layout that the archive was compiled for. A line that does not compile here means another machine or compiler. */
#if defined(__cplusplus) && __cplusplus >= 201103L
#define AMPFERWEG_LAYOUT(name, holds) static_assert(holds, #holds)
#elif defined(__STDC_VERSION__) && __STDC_VERSION__ >= 201112L
#define AMPFERWEG_LAYOUT(name, holds) _Static_assert(holds, #holds)
#else
#define AMPFERWEG_LAYOUT(name, holds) typedef char ampferweg_layout_of_##name[(holds) ? 1 : -1]
#endif
#if defined(__BYTE_ORDER__) && __BYTE_ORDER__ != __ORDER_LITTLE_ENDIAN__
#error "the archive is for little-endian machines"
#endif
AMPFERWEG_LAYOUT(settings, sizeof(ampferweg_settings) == 12 && offsetof(ampferweg_settings, mtu) == 4 &&
    offsetof(ampferweg_settings, interval) == 6 && offsetof(ampferweg_settings, mode) == 8 &&
    offsetof(ampferweg_settings, threshold) == 9 && offsetof(ampferweg_settings, stream) == 10 &&
    offsetof(ampferweg_settings, congestion) == 11);
AMPFERWEG_LAYOUT(held, sizeof(ampferweg_held) == 4 && offsetof(ampferweg_held, fragment) == 1 && offsetof(ampferweg_held, len) == 2);
AMPFERWEG_LAYOUT(flight, sizeof(ampferweg_flight) == 56 && offsetof(ampferweg_flight, rtt) == 8 &&
    offsetof(ampferweg_flight, window) == 20 && offsetof(ampferweg_flight, congestion) == 24 &&
    offsetof(ampferweg_flight, queued) == 40 && offsetof(ampferweg_flight, outstanding) == 48);
AMPFERWEG_LAYOUT(arrival, sizeof(ampferweg_arrival) == 32 && offsetof(ampferweg_arrival, tell) == 4 &&
    offsetof(ampferweg_arrival, ready) == 8 && offsetof(ampferweg_arrival, waiting) == 16 && offsetof(ampferweg_arrival, acks) == 24);
AMPFERWEG_LAYOUT(clock, sizeof(ampferweg_clock) == 20 && offsetof(ampferweg_clock, current) == 8 &&
    offsetof(ampferweg_clock, next_flush) == 12 && offsetof(ampferweg_clock, ask) == 16 && offsetof(ampferweg_clock, dead) == 17 &&
    offsetof(ampferweg_clock, updated) == 18);
AMPFERWEG_LAYOUT(link, sizeof(ampferweg_link) == AMPFERWEG_BLOCK_SIZE && offsetof(ampferweg_link, flight) == 16 &&
    offsetof(ampferweg_link, arrival) == 72 && offsetof(ampferweg_link, clock) == 104 && offsetof(ampferweg_link, queued) == 124 &&
    offsetof(ampferweg_link, outstanding) == 636 && offsetof(ampferweg_link, transmissions) == 764 &&
    offsetof(ampferweg_link, ready) == 796 && offsetof(ampferweg_link, waiting) == 1308 &&
    offsetof(ampferweg_link, waiting_numbers) == 1820);
AMPFERWEG_LAYOUT(record, sizeof(ampferweg_record) == 16 && offsetof(ampferweg_record, due) == 4 &&
    offsetof(ampferweg_record, timeout) == 8 && offsetof(ampferweg_record, skips) == 12);

/* ---- The nine calls ------------------------------------------------------------------------------------------------
 *
 * Every call is lent the control block and four parts, each as a pointer and a count of elements:
 *
 *     send pool      AMPFERWEG_SEND_POOL_SIZE(mtu) bytes      payloads of queued and outstanding segments
 *     receive pool   AMPFERWEG_RECEIVE_POOL_SIZE(mtu) bytes   payloads of ready and waiting segments
 *     table          AMPFERWEG_TABLE_LEN records              numbers and timers of outstanding segments
 *     acks           AMPFERWEG_ACKS_LEN entries               acknowledgements to send at the next flush
 *
 * A call uses them until it returns, and keeps no pointer. Between calls they belong to the link all the same: lend the
 * same parts each time, as the last call left them. A part that a call takes as const is not changed by it.
 *
 * What the caller owes, and nothing checks: each pointer leads to that many elements, aligned as their type; no two
 * arguments overlap, but for two that are both const; a link is in one call at a time. NULL is fine for a count of 0.
 *
 * Times are milliseconds of 32 bits that may start anywhere and wrap. Any clock reading is answered, also one that goes
 * back.
 *
 * Order of the checks: open 12, 7. The others 7 for the lent parts, 13, then: input 1, 2 to 6 for each segment in
 * turn, then 14; send 10, 11; size 9; read 9, then 7 for the buffer. An update checks what a flush checks, whether or not it
 * flushes; check asks for no output and no lengths. */

/* Opens a link: whatever stood in *link, it becomes a fresh link. Lent bytes stay as they are.
 * conv any number; mtu 50 to 1400; mode 0, 1 or 2; interval 10 to 5000; threshold 0 to 100, 0 being off; stream and
 * congestion 0 or 1.
 * Answers 0, or refuses 12, 7; a refused opening leaves the old link. ampferweg_station_open_settings takes them by name. */
ampferweg_result ampferweg_open(ampferweg_link *link, uint32_t conv, uint32_t mtu, uint32_t mode, uint32_t interval, uint32_t threshold,
    uint32_t stream, uint32_t congestion, const uint8_t *send_pool, uint64_t send_pool_len, const uint8_t *receive_pool,
    uint64_t receive_pool_len, const ampferweg_record *table, uint64_t table_len, const uint32_t *acks, uint64_t acks_len);

/* Accepts a message for sending, whole or not at all: it is copied to the send pool, and goes out with the next flushes.
 * An empty message is a message. Answers 0, or refuses 7, 13, 10, 11.
 * With stream 1 the bytes are what is accepted, and where one send ends and the next begins is not kept: they fill the last segment
 * that no flush has taken yet, and the rest is cut into new ones. So many short lines share a header. The peer's reads give
 * segments, of mss bytes at most, whose bytes joined are those sent; a line may end in the next one. An empty send adds nothing. 10
 * and 11 count only new segments: 10 is for more than 127 of them. A refused send fills nothing. */
ampferweg_result ampferweg_send(ampferweg_link *link, uint8_t *send_pool, uint64_t send_pool_len,
    const uint8_t *receive_pool, uint64_t receive_pool_len, const ampferweg_record *table, uint64_t table_len,
    const uint32_t *acks, uint64_t acks_len, const uint8_t *message, uint64_t message_len);

/* Takes in a datagram that arrived, whole or not at all. Answers 0, or refuses 7, 13, 1 to 6, 14. */
ampferweg_result ampferweg_input(ampferweg_link *link, const uint8_t *send_pool, uint64_t send_pool_len,
    uint8_t *receive_pool, uint64_t receive_pool_len, ampferweg_record *table, uint64_t table_len,
    uint32_t *acks, uint64_t acks_len, const uint8_t *datagram, uint64_t datagram_len);

/* Writes what is to be sent at the time `now`: acknowledgements, window probes, new segments and retransmissions. The
 * datagrams stand in `output` one behind the other, from its start, and their lengths in `lengths`; what lies beyond is
 * not touched. Besides the four parts it is lent AMPFERWEG_OUTPUT_SIZE bytes and AMPFERWEG_LENGTHS_LEN lengths.
 * Answers the count of datagrams, or refuses 7, 13. link->clock.dead is set once a segment was transmitted 20 times. */
ampferweg_result ampferweg_flush(ampferweg_link *link, const uint8_t *send_pool, uint64_t send_pool_len,
    const uint8_t *receive_pool, uint64_t receive_pool_len, ampferweg_record *table, uint64_t table_len,
    const uint32_t *acks, uint64_t acks_len, uint32_t now, uint8_t *output, uint64_t output_len, uint16_t *lengths, uint64_t lengths_len);

/* Flushes where it is time to: call it as often as you like, or at the times that check names. The first update flushes,
 * then one in each `interval` milliseconds. The next flush is an interval after the last time for one, or after `now` where
 * that has come already; where it is more than 10,000 milliseconds ahead the clock went back, and the update flushes.
 * An update that does not flush takes `now` for the current time, by which round trips are measured, and writes nothing:
 * a segment that is due waits for the next flush.
 * Answers the count of datagrams, or AMPFERWEG_NOT_YET. Refuses 7, 13; it is lent what a flush is lent, also where it does not flush. */
ampferweg_result ampferweg_update(ampferweg_link *link, const uint8_t *send_pool, uint64_t send_pool_len,
    const uint8_t *receive_pool, uint64_t receive_pool_len, ampferweg_record *table, uint64_t table_len,
    const uint32_t *acks, uint64_t acks_len, uint32_t now, uint8_t *output, uint64_t output_len, uint16_t *lengths, uint64_t lengths_len);

/* Tells when to call: *when becomes the earlier of the time from which an update flushes and the first time at which a segment
 * is due, at most an `interval` after `now`; `now` itself where one of them has come, and before the first update. From `now`
 * until just before it no update flushes and no segment falls due, as long as nothing but updates is called: this is proved.
 * Acknowledgements, messages just sent and window probes do not move it: they go with the next flush.
 * Answers 0, or refuses 7, 13 and stores nothing. */
ampferweg_result ampferweg_check(const ampferweg_link *link, const uint8_t *send_pool, uint64_t send_pool_len,
    const uint8_t *receive_pool, uint64_t receive_pool_len, const ampferweg_record *table, uint64_t table_len,
    const uint32_t *acks, uint64_t acks_len, uint32_t now, uint32_t *when);

/* Reads the next message into the buffer, and frees its slots; the buffer beyond it is not touched.
 * Answers its bytes, or refuses 7, 13, 9, and 7 again for a buffer that is too short (the message stays). */
ampferweg_result ampferweg_read(ampferweg_link *link, const uint8_t *send_pool, uint64_t send_pool_len,
    const uint8_t *receive_pool, uint64_t receive_pool_len, const ampferweg_record *table, uint64_t table_len,
    const uint32_t *acks, uint64_t acks_len, uint8_t *buffer, uint64_t buffer_len);

/* Tells the size of the next message. Answers its bytes, or refuses 7, 13, 9. */
ampferweg_result ampferweg_size(const ampferweg_link *link, const uint8_t *send_pool, uint64_t send_pool_len,
    const uint8_t *receive_pool, uint64_t receive_pool_len, const ampferweg_record *table, uint64_t table_len,
    const uint32_t *acks, uint64_t acks_len);

/* Shows the first segment of the next message where it lies: its payload is receive_pool[*start] and on. Answers its
 * length. Never gives a refusal number: where showing is refused, or the payload is empty, the answer is 0. */
ampferweg_result ampferweg_show(const ampferweg_link *link, const uint8_t *send_pool, uint64_t send_pool_len,
    const uint8_t *receive_pool, uint64_t receive_pool_len, const ampferweg_record *table, uint64_t table_len,
    const uint32_t *acks, uint64_t acks_len, uint32_t *start);

/* The version of the archive, as AMPFERWEG_VERSION_NUMBER has that of this header, and the bytes of its control block. Opening a
 * station compares both. */
uint32_t ampferweg_version_number(void);
uint32_t ampferweg_block_size(void);

/* ---- Settings files ------------------------------------------------------------------------------------------------
 *
 * A link's settings in a file, for a controller that is swapped: the letters KLS, the version in 2 bytes, then conversation 4 bytes,
 * mtu 2, mode 1, interval 2, threshold 1, all little-endian. That is version 1, of 15 bytes, for an mtu up to 512 with stream and
 * congestion 0. All other settings have version 2, of 17 bytes, which adds one byte each for stream and congestion. What is written
 * and read back is the same, and each file that is read is the very one that writing its settings gives: one setting has one file.
 * Opening and keeping the file is the caller's.
 * The file has settings, not the state of a link: a board that opens with it has the conversation of the board before it, and its
 * messages are lost unless the peer opens anew as well (docs/C.md, 'When a station restarts or is swapped'). */

#define AMPFERWEG_SETTINGS_FILE_SIZE 17 /* bytes that the writer is lent; a file has 15 or 17 */

/* Writes the file of these settings at the start of `file`; what lies beyond the file is not touched.
 * Answers the file's bytes, 15 or 17, or refuses 7 for fewer than 17 bytes, also where 15 would do, then 12. */
ampferweg_result ampferweg_settings_write(uint32_t conv, uint32_t mtu, uint32_t mode, uint32_t interval, uint32_t threshold,
    uint32_t stream, uint32_t congestion, uint8_t *file, uint64_t file_len);

/* Reads a file of `file_len` bytes, and stores its settings, ready for opening. No two pointers may lead to one number.
 * Answers 0, or refuses 15 for fewer than 5 bytes or another mark, 16 for an unknown version, 15 for another length than the version
 * has, then 12, also for an mtu above 512 in version 1, then 20 for a version 2 that is not needed; a refused file stores nothing. */
ampferweg_result ampferweg_settings_read(const uint8_t *file, uint64_t file_len, uint32_t *conv, uint32_t *mtu, uint32_t *mode,
    uint32_t *interval, uint32_t *threshold, uint32_t *stream, uint32_t *congestion);

/* ---- A station: a link with its parts ------------------------------------------------------------------------------
 *
 * Holds the pointers and counts that the calls above ask for, and passes them on. Besides it counts, and says why a call was
 * refused. Plain C over the proved calls: tested, not proved. */

/* What a station has counted since it was declared or initialized; opening anew goes on counting. Each number wraps at 2^32. */
typedef struct ampferweg_counters {
    uint32_t datagrams_out;   /* written by flushes and updates */
    uint32_t datagrams_in;    /* accepted by input */
    uint32_t segments_out;    /* pushes in the datagrams out */
    uint32_t retransmissions; /* those of them that had gone out before */
    uint32_t refused[15];     /* refusals by number, of open, send, input, flush, update and read; 9 and 11 come in ordinary use */
} ampferweg_counters;

typedef struct ampferweg_station {
    uint8_t *send_pool;       size_t send_pool_len;
    uint8_t *receive_pool;    size_t receive_pool_len;
    ampferweg_record *table;  size_t table_len;
    uint32_t *acks;           size_t acks_len;
    uint8_t *output;          size_t output_len;   /* of flushes; stations that flush one after the other may share it */
    uint16_t *lengths;        size_t lengths_len;  /* and these */
    ampferweg_link link;
    ampferweg_counters counters;
    const char *why;          /* of the last refusal; NULL where there was none */
} ampferweg_station;

#ifdef __cplusplus
#define AMPFERWEG_LINK_UNOPENED {}
#define AMPFERWEG_COUNTERS_NONE {}
#else
#define AMPFERWEG_LINK_UNOPENED {{0, 0, 0, 0, 0, 0, 0}, {0, 0, {0, 0, 0}, 0, {0, 0, 0}, 0, 0}, {0, 0, 0, 0, 0}, {{0, 0}, 0, 0, 0, 0, 0}, \
    {{0, 0, 0}}, {{0, 0, 0}}, {0}, {{0, 0, 0}}, {{0, 0, 0}}, {0}}
#define AMPFERWEG_COUNTERS_NONE {0, 0, 0, 0, {0}}
#endif

/* Declares a static output and its lengths, to be shared by stations. */
#define AMPFERWEG_OUTPUT_STORAGE(name) \
    static uint8_t name##_bytes[AMPFERWEG_OUTPUT_SIZE]; \
    static uint16_t name##_lengths[AMPFERWEG_LENGTHS_LEN]

/* Declares a static station with parts of its own for this mtu, which flushes into an output declared as above. */
#define AMPFERWEG_STATION_STORAGE_SHARED(name, mtu, output) \
    static uint8_t name##_send_pool[AMPFERWEG_SEND_POOL_SIZE(mtu)]; \
    static uint8_t name##_receive_pool[AMPFERWEG_RECEIVE_POOL_SIZE(mtu)]; \
    static ampferweg_record name##_table[AMPFERWEG_TABLE_LEN]; \
    static uint32_t name##_acks[AMPFERWEG_ACKS_LEN]; \
    static ampferweg_station name = { \
        name##_send_pool, sizeof name##_send_pool, name##_receive_pool, sizeof name##_receive_pool, \
        name##_table, AMPFERWEG_TABLE_LEN, name##_acks, AMPFERWEG_ACKS_LEN, \
        output##_bytes, AMPFERWEG_OUTPUT_SIZE, output##_lengths, AMPFERWEG_LENGTHS_LEN, \
        AMPFERWEG_LINK_UNOPENED, AMPFERWEG_COUNTERS_NONE, NULL}

/* Declares a static station with all its parts. Open it before use: until then every call is refused 13. */
#define AMPFERWEG_STATION_STORAGE(name, mtu) \
    AMPFERWEG_OUTPUT_STORAGE(name##_output); \
    AMPFERWEG_STATION_STORAGE_SHARED(name, mtu, name##_output)

/* The four parts, as arguments of one of the nine calls: ampferweg_size(&station.link, AMPFERWEG_PARTS(&station)). */
#define AMPFERWEG_PARTS(station) \
    (station)->send_pool, (station)->send_pool_len, (station)->receive_pool, (station)->receive_pool_len, \
    (station)->table, (station)->table_len, (station)->acks, (station)->acks_len

/* Bytes of memory that hold all parts of a station, and all but an output that another station has. */
#define AMPFERWEG_STATION_MEMORY_SHARED(mtu) ((size_t)4 + sizeof(ampferweg_record) * AMPFERWEG_TABLE_LEN + \
    sizeof(uint32_t) * AMPFERWEG_ACKS_LEN + AMPFERWEG_SEND_POOL_SIZE(mtu) + AMPFERWEG_RECEIVE_POOL_SIZE(mtu))
#define AMPFERWEG_STATION_MEMORY(mtu) \
    (AMPFERWEG_STATION_MEMORY_SHARED(mtu) + sizeof(uint16_t) * AMPFERWEG_LENGTHS_LEN + AMPFERWEG_OUTPUT_SIZE)

/* Lays the parts of a station into one piece of memory, at any address, and takes the output of another station; for arrays of
 * links. Counters are 0 then, and it is to be opened. Answers 0, or refuses 12 for an mtu out of range and 7 for memory shorter
 * than AMPFERWEG_STATION_MEMORY_SHARED(mtu): then nothing has changed.
 *     static ampferweg_station stations[8];
 *     static uint8_t memory[8][AMPFERWEG_STATION_MEMORY(256)];
 *     for (i = 0; i < 8; i++) ampferweg_station_init(&stations[i], memory[i], sizeof memory[i], 256); */
static inline ampferweg_result ampferweg_station_init_shared(ampferweg_station *station, void *memory, size_t len, uint32_t mtu,
    const ampferweg_station *flushes)
{
    uint8_t *at = (uint8_t *)memory, *byte = (uint8_t *)station;
    size_t i;
    if (mtu < AMPFERWEG_MTU_LEAST || mtu > AMPFERWEG_MTU_MOST) return -AMPFERWEG_SETTING_OUT_OF_RANGE;
    if (len < AMPFERWEG_STATION_MEMORY_SHARED(mtu)) return -AMPFERWEG_SHORT_PART;
    for (i = 0; i < sizeof *station; i++) byte[i] = 0;
    at += (4 - (size_t)memory % 4) % 4; /* records and acks want it */
    station->table = (ampferweg_record *)(void *)at;
    station->table_len = AMPFERWEG_TABLE_LEN;
    station->acks = (uint32_t *)(void *)(station->table + AMPFERWEG_TABLE_LEN);
    station->acks_len = AMPFERWEG_ACKS_LEN;
    station->send_pool = (uint8_t *)(station->acks + AMPFERWEG_ACKS_LEN);
    station->send_pool_len = AMPFERWEG_SEND_POOL_SIZE(mtu);
    station->receive_pool = station->send_pool + station->send_pool_len;
    station->receive_pool_len = AMPFERWEG_RECEIVE_POOL_SIZE(mtu);
    station->output = flushes->output;
    station->output_len = flushes->output_len;
    station->lengths = flushes->lengths;
    station->lengths_len = flushes->lengths_len;
    return 0;
}

/* The same with an output of its own; refuses 7 for memory shorter than AMPFERWEG_STATION_MEMORY(mtu). */
static inline ampferweg_result ampferweg_station_init(ampferweg_station *station, void *memory, size_t len, uint32_t mtu)
{
    ampferweg_result result;
    if (mtu >= AMPFERWEG_MTU_LEAST && mtu <= AMPFERWEG_MTU_MOST && len < AMPFERWEG_STATION_MEMORY(mtu)) return -AMPFERWEG_SHORT_PART;
    result = ampferweg_station_init_shared(station, memory, len, mtu, station);
    if (result != 0) return result;
    station->lengths = (uint16_t *)(void *)(station->receive_pool + station->receive_pool_len);
    station->lengths_len = AMPFERWEG_LENGTHS_LEN;
    station->output = (uint8_t *)(station->lengths + AMPFERWEG_LENGTHS_LEN);
    station->output_len = AMPFERWEG_OUTPUT_SIZE;
    return 0;
}

/* A number of four bytes, as the wire has it. */
static inline uint32_t ampferweg_number_at(const uint8_t *bytes)
{
    return bytes[0] | (uint32_t)bytes[1] << 8 | (uint32_t)bytes[2] << 16 | (uint32_t)bytes[3] << 24;
}

/* The conversation of a datagram, for many links on one socket: input it to the station whose link.settings.conv it is. -1 for
 * fewer than 24 bytes, which no link accepts (refusal 1). */
static inline int64_t ampferweg_conversation_of(const void *datagram, size_t datagram_len)
{
    return datagram_len < 24 ? -AMPFERWEG_SHORT_DATAGRAM : (int64_t)ampferweg_number_at((const uint8_t *)datagram);
}

/* The version of this header, in words. */
static inline const char *ampferweg_version(void) { return AMPFERWEG_VERSION; }

/* Why the last refused call of this station was refused, by the name of the part (7) or of the setting (12). */
static inline const char *ampferweg_station_why(const ampferweg_station *station)
{
    return station->why == NULL ? "no call was refused" : station->why;
}

/* Which setting is outside its range, in plain words; NULL where none is. */
static inline const char *ampferweg_inner_wrong_setting(uint32_t mtu, uint32_t mode, uint32_t interval, uint32_t threshold, uint32_t stream,
    uint32_t congestion)
{
    if (mtu < AMPFERWEG_MTU_LEAST || mtu > AMPFERWEG_MTU_MOST) return "refused 12: mtu is not 50 to 1400";
    if (mode > 2) return "refused 12: mode is not 0, 1 or 2";
    if (interval < 10 || interval > 5000) return "refused 12: interval is not 10 to 5000";
    if (threshold > 100) return "refused 12: threshold is not 0 to 100";
    if (stream > 1) return "refused 12: stream is not 0 or 1";
    return congestion > 1 ? "refused 12: congestion is not 0 or 1" : NULL;
}

/* Which of the four parts that every call is lent is too short for this mtu, in plain words; NULL where none is. */
static inline const char *ampferweg_inner_short_part(const ampferweg_station *station, uint32_t mtu)
{
    const size_t mss = mtu > 24 ? AMPFERWEG_MSS(mtu) : 0; /* that of a block that was never opened */
    if (station->send_pool_len < 128 * mss) return "refused 7: the send pool is shorter than 128 x (mtu - 24) bytes";
    if (station->receive_pool_len < 256 * mss) return "refused 7: the receive pool is shorter than 256 x (mtu - 24) bytes";
    if (station->table_len < AMPFERWEG_TABLE_LEN) return "refused 7: the table is shorter than 128 records";
    return station->acks_len < AMPFERWEG_ACKS_LEN ? "refused 7: the ack list is shorter than 512 entries" : NULL;
}

/* Counts a refusal and keeps its words; `rest` are those of a 7 where none of the four parts is short. */
static inline ampferweg_result ampferweg_inner_note(ampferweg_station *station, ampferweg_result result, const char *rest)
{
    const int number = ampferweg_refusal_of(result);
    if (number == 0 || number >= (int)(sizeof station->counters.refused / sizeof *station->counters.refused)) return result;
    station->counters.refused[number]++;
    station->why = NULL;
    if (number == AMPFERWEG_SHORT_PART) {
        station->why = ampferweg_inner_short_part(station, station->link.settings.mtu);
        if (station->why == NULL) station->why = rest;
    }
    if (station->why == NULL) station->why = ampferweg_text(result);
    return result;
}

/* Whether the archive has the very block of this header, tried on a link just opened: both receiving lists are filled by hand, up to the
 * block's last entry, and a number that cannot be there is refused 13. The lists are empty again then. */
static inline int ampferweg_inner_same_block(ampferweg_station *station)
{
    ampferweg_link *link = &station->link;
    ampferweg_result good, bad;
    size_t i;
    for (i = 0; i < 128; i++) {
        const ampferweg_held none = {0, 0, 0};
        link->ready[i] = link->waiting[i] = none;
        link->ready[i].slot = (uint8_t)(128 + i);
        link->waiting[i].slot = (uint8_t)i;
        link->waiting_numbers[i] = (uint32_t)i;
    }
    link->arrival.ready = link->arrival.waiting = 128;
    good = ampferweg_size(link, AMPFERWEG_PARTS(station));
    link->waiting_numbers[127]++;
    bad = ampferweg_size(link, AMPFERWEG_PARTS(station));
    link->arrival.ready = link->arrival.waiting = 0;
    return good == 0 && bad == -AMPFERWEG_INVALID_BLOCK && link->flight.rtt.timeout == 200 && link->flight.window == 128;
}

/* Whether the archive is of this header's version, with a block of as many bytes. */
static inline int ampferweg_inner_same_version(void)
{
    return ampferweg_version_number() == AMPFERWEG_VERSION_NUMBER && ampferweg_block_size() == sizeof(ampferweg_link);
}

/* Opens with seven numbers. Besides ampferweg_open's refusals it gives 13 where header and archive are of two versions. */
static inline ampferweg_result ampferweg_station_open_numbers(ampferweg_station *station, uint32_t conv, uint32_t mtu, uint32_t mode,
    uint32_t interval, uint32_t threshold, uint32_t stream, uint32_t congestion)
{
    const ampferweg_settings *is = &station->link.settings;
    ampferweg_result result = -AMPFERWEG_INVALID_BLOCK;
    if (ampferweg_inner_same_version())
        result = ampferweg_open(&station->link, conv, mtu, mode, interval, threshold, stream, congestion, AMPFERWEG_PARTS(station));
    if (result == 0) {
        if (is->conv == conv && is->mtu == mtu && is->mode == mode && is->interval == interval && is->threshold == threshold &&
            is->stream == stream && is->congestion == congestion && ampferweg_inner_same_block(station)) return 0;
        result = -AMPFERWEG_INVALID_BLOCK;
    }
    (void)ampferweg_inner_note(station, result, NULL);
    if (result == -AMPFERWEG_SETTING_OUT_OF_RANGE)
        station->why = ampferweg_inner_wrong_setting(mtu, mode, interval, threshold, stream, congestion);
    if (result == -AMPFERWEG_SHORT_PART) station->why = ampferweg_inner_short_part(station, mtu);
    if (result == -AMPFERWEG_INVALID_BLOCK) station->why = "refused 13: header and archive are of two versions: their blocks differ";
    return result;
}

/* Opens with settings by name, so that no two of them can be exchanged unnoticed; what is left out is 0:
 *     const ampferweg_settings logger = {.conv = 7, .mtu = 256, .mode = 1, .interval = 10, .threshold = 2, .stream = 1}; */
static inline ampferweg_result ampferweg_station_open_settings(ampferweg_station *station, const ampferweg_settings *settings)
{
    return ampferweg_station_open_numbers(station, settings->conv, settings->mtu, settings->mode, settings->interval, settings->threshold,
        settings->stream, settings->congestion);
}

/* Opens for messages, without the congestion window: stream and congestion 0. */
static inline ampferweg_result ampferweg_station_open(ampferweg_station *station,
    uint32_t conv, uint32_t mtu, uint32_t mode, uint32_t interval, uint32_t threshold)
{
    return ampferweg_station_open_numbers(station, conv, mtu, mode, interval, threshold, 0, 0);
}

static inline ampferweg_result ampferweg_station_send(ampferweg_station *station, const void *message, size_t message_len)
{
    return ampferweg_inner_note(station,
        ampferweg_send(&station->link, AMPFERWEG_PARTS(station), (const uint8_t *)message, message_len), NULL);
}

static inline ampferweg_result ampferweg_station_input(ampferweg_station *station, const void *datagram, size_t datagram_len)
{
    const ampferweg_result result = ampferweg_input(&station->link, AMPFERWEG_PARTS(station), (const uint8_t *)datagram, datagram_len);
    if (result == 0) station->counters.datagrams_in++;
    return ampferweg_inner_note(station, result, NULL);
}

/* Counts what a flush or an update has written; a push whose number is not new is a retransmission. */
static inline ampferweg_result ampferweg_inner_count(ampferweg_station *station, ampferweg_result count, uint32_t next_before)
{
    uint32_t pushes = 0;
    size_t at = 0, end = 0;
    ampferweg_result i;
    for (i = 0; i < count; i++) end += station->lengths[i];
    for (; at < end; at += 24 + ampferweg_number_at(station->output + at + 20)) pushes += station->output[at + 4] == 81;
    if (count > 0) station->counters.datagrams_out += (uint32_t)count;
    station->counters.segments_out += pushes;
    station->counters.retransmissions += pushes - (station->link.flight.next - next_before);
    return ampferweg_inner_note(station, count, station->output_len < AMPFERWEG_OUTPUT_SIZE ?
        "refused 7: the output is shorter than 50992 bytes" : "refused 7: the lengths are fewer than 290");
}

/* The datagrams stand in station->output, one behind the other, and their lengths in station->lengths. */
static inline ampferweg_result ampferweg_station_flush(ampferweg_station *station, uint32_t now)
{
    const uint32_t next = station->link.flight.next;
    return ampferweg_inner_count(station, ampferweg_flush(&station->link, AMPFERWEG_PARTS(station), now,
        station->output, station->output_len, station->lengths, station->lengths_len), next);
}

/* The same, where it is time to flush; else AMPFERWEG_NOT_YET. */
static inline ampferweg_result ampferweg_station_update(ampferweg_station *station, uint32_t now)
{
    const uint32_t next = station->link.flight.next;
    return ampferweg_inner_count(station, ampferweg_update(&station->link, AMPFERWEG_PARTS(station), now,
        station->output, station->output_len, station->lengths, station->lengths_len), next);
}

static inline ampferweg_result ampferweg_station_check(const ampferweg_station *station, uint32_t now, uint32_t *when)
{
    return ampferweg_check(&station->link, AMPFERWEG_PARTS(station), now, when);
}

/* How many milliseconds from `now` a host may sleep, by check; 0 also where that is refused, as the next call will be. */
static inline uint32_t ampferweg_station_wait(const ampferweg_station *station, uint32_t now)
{
    uint32_t when = now;
    (void)ampferweg_station_check(station, now, &when);
    return when - now;
}

/* Gives each datagram of a flush or an update in turn to `transmit`; none where `count` is below 0. */
static inline ampferweg_result ampferweg_station_transmit(const ampferweg_station *station, ampferweg_result count,
    void (*transmit)(void *context, const uint8_t *datagram, size_t len), void *context)
{
    const uint8_t *datagram = station->output;
    ampferweg_result i;
    for (i = 0; i < count; i++) {
        transmit(context, datagram, station->lengths[i]);
        datagram += station->lengths[i];
    }
    return count;
}

/* Flushes, and transmits. */
static inline ampferweg_result ampferweg_station_flush_to(ampferweg_station *station, uint32_t now,
    void (*transmit)(void *context, const uint8_t *datagram, size_t len), void *context)
{
    return ampferweg_station_transmit(station, ampferweg_station_flush(station, now), transmit, context);
}

/* Updates, and transmits. */
static inline ampferweg_result ampferweg_station_update_to(ampferweg_station *station, uint32_t now,
    void (*transmit)(void *context, const uint8_t *datagram, size_t len), void *context)
{
    return ampferweg_station_transmit(station, ampferweg_station_update(station, now), transmit, context);
}

/* Updates, and transmits; flushes where a segment is due before an update would. Called at the times that check names, it sends
 * every segment when it is due, and the wait behind it is never 0. */
static inline ampferweg_result ampferweg_station_run_to(ampferweg_station *station, uint32_t now,
    void (*transmit)(void *context, const uint8_t *datagram, size_t len), void *context)
{
    const ampferweg_result count = ampferweg_station_update_to(station, now, transmit, context);
    if (count != AMPFERWEG_NOT_YET || ampferweg_station_wait(station, now) > 0) return count;
    return ampferweg_station_flush_to(station, now, transmit, context);
}

static inline ampferweg_result ampferweg_station_read(ampferweg_station *station, void *buffer, size_t buffer_len)
{
    return ampferweg_inner_note(station, ampferweg_read(&station->link, AMPFERWEG_PARTS(station), (uint8_t *)buffer, buffer_len),
        "refused 7: the read buffer is shorter than the message");
}

static inline ampferweg_result ampferweg_station_size(const ampferweg_station *station)
{
    return ampferweg_size(&station->link, AMPFERWEG_PARTS(station));
}

/* The first segment's payload of the next message, and its length in *len. Valid until the next input, read or open. */
static inline const uint8_t *ampferweg_station_show(const ampferweg_station *station, size_t *len)
{
    uint32_t start = 0;
    *len = (size_t)ampferweg_show(&station->link, AMPFERWEG_PARTS(station), &start);
    return station->receive_pool + start;
}

/* Whether a segment was transmitted 20 times without an acknowledgement. Calls go on; whether to open anew is the
 * caller's to decide. It comes late, after minutes in modes 0 and 1 (docs/C.md, 'When dead comes'). */
static inline int ampferweg_station_dead(const ampferweg_station *station) { return station->link.clock.dead != 0; }

/* Segments accepted for sending and not yet acknowledged; 0 once the peer has acknowledged all of them. That means that it has them
 * where both links were opened anew together, or with a conversation that neither had before. A peer that went on through our
 * restart has had these numbers already: it drops the segments as repeats, and acknowledges them (docs/C.md, 'When a station
 * restarts or is swapped'). */
static inline size_t ampferweg_station_pending(const ampferweg_station *station)
{
    return (size_t)(station->link.flight.queued + station->link.flight.outstanding);
}

/* ---- A block in words ----------------------------------------------------------------------------------------------
 *
 * For a display, a log or a letter to the makers: every field of a block, a line at a time through the caller's hook. No libc. */

/* A line that is put together from names and numbers; what does not fit is left out. */
typedef struct ampferweg_inner_line { char text[120]; size_t len; } ampferweg_inner_line;

static inline void ampferweg_inner_text(ampferweg_inner_line *line, const char *text)
{
    while (*text != '\0' && line->len + 1 < sizeof line->text) line->text[line->len++] = *text++;
    line->text[line->len] = '\0';
}

static inline void ampferweg_inner_number(ampferweg_inner_line *line, const char *name, uint64_t number)
{
    char digits[21];
    size_t at = sizeof digits - 1;
    digits[at] = '\0';
    do {
        digits[--at] = (char)('0' + number % 10);
        number /= 10;
    } while (number > 0);
    ampferweg_inner_text(line, name);
    ampferweg_inner_text(line, digits + at);
}

/* A line of `count` numbers, each behind its name. */
static inline void ampferweg_inner_print_line(const char *head, const char *const *names, const uint64_t *numbers, size_t count,
    void (*put)(void *context, const char *line), void *context)
{
    ampferweg_inner_line line;
    size_t i;
    line.len = 0;
    ampferweg_inner_text(&line, head);
    for (i = 0; i < count; i++) ampferweg_inner_number(&line, names[i], numbers[i]);
    put(context, line.text);
}

/* A line for each segment of a list, never more than the list has room for; with transmissions, or with sequence numbers. */
static inline void ampferweg_inner_print_held(const char *head, const ampferweg_held *held, uint64_t count, size_t room,
    const uint8_t *transmissions, const uint32_t *numbers, void (*put)(void *context, const char *line), void *context)
{
    size_t i;
    for (i = 0; i < room && i < count; i++) {
        ampferweg_inner_line line;
        line.len = 0;
        ampferweg_inner_number(&line, head, i);
        ampferweg_inner_number(&line, ": slot ", held[i].slot);
        ampferweg_inner_number(&line, ", fragment ", held[i].fragment);
        ampferweg_inner_number(&line, ", len ", held[i].len);
        if (transmissions != NULL) ampferweg_inner_number(&line, ", transmissions ", transmissions[i]);
        if (numbers != NULL) ampferweg_inner_number(&line, ", number ", numbers[i]);
        put(context, line.text);
    }
}

/* Prints a block, valid or not. `put` is called with one line after the other, without a newline. */
static inline void ampferweg_print(const ampferweg_link *link, void (*put)(void *context, const char *line), void *context)
{
    static const char *const settings[] = {"conv ", ", mtu ", ", mode ", ", interval ", ", threshold ", ", stream ", ", congestion "};
    static const char *const flight[] = {"una ", ", next ", ", window ", ", queued ", ", outstanding "};
    static const char *const rtt[] = {"smoothed ", ", variation ", ", timeout "};
    static const char *const congestion[] = {"window ", ", threshold ", ", allowance "};
    static const char *const arrival[] = {"expected ", ", tell ", ", ready ", ", waiting ", ", acks "};
    static const char *const clock[] = {"current ", ", next flush ", ", probe wait ", ", probe due ", ", ask ", ", dead ", ", updated "};
    const ampferweg_settings *s = &link->settings;
    const ampferweg_flight *f = &link->flight;
    const ampferweg_arrival *a = &link->arrival;
    const ampferweg_clock *c = &link->clock;
    uint64_t n[7];
    n[0] = s->conv; n[1] = s->mtu; n[2] = s->mode; n[3] = s->interval; n[4] = s->threshold; n[5] = s->stream; n[6] = s->congestion;
    ampferweg_inner_print_line("settings: ", settings, n, 7, put, context);
    n[0] = f->una; n[1] = f->next; n[2] = f->window; n[3] = f->queued; n[4] = f->outstanding;
    ampferweg_inner_print_line("sending: ", flight, n, 5, put, context);
    n[0] = f->rtt.smoothed; n[1] = f->rtt.variation; n[2] = f->rtt.timeout;
    ampferweg_inner_print_line("round trip: ", rtt, n, 3, put, context);
    n[0] = f->congestion.window; n[1] = f->congestion.threshold; n[2] = f->congestion.allowance;
    ampferweg_inner_print_line("congestion: ", congestion, n, 3, put, context);
    n[0] = a->expected; n[1] = a->tell; n[2] = a->ready; n[3] = a->waiting; n[4] = a->acks;
    ampferweg_inner_print_line("receiving: ", arrival, n, 5, put, context);
    n[0] = c->current; n[1] = c->next_flush; n[2] = c->probe.wait; n[3] = c->probe.due; n[4] = c->ask; n[5] = c->dead; n[6] = c->updated;
    ampferweg_inner_print_line("clock: ", clock, n, 7, put, context);
    ampferweg_inner_print_held("queued ", link->queued, f->queued, 128, NULL, NULL, put, context);
    ampferweg_inner_print_held("outstanding ", link->outstanding, f->outstanding, 32, link->transmissions, NULL, put, context);
    ampferweg_inner_print_held("ready ", link->ready, a->ready, 128, NULL, NULL, put, context);
    ampferweg_inner_print_held("waiting ", link->waiting, a->waiting, 128, NULL, link->waiting_numbers, put, context);
}

#ifdef __cplusplus
}
#endif
#endif
