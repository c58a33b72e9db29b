/* Ampferweg parity: datagrams that are lost come back from those that arrive.
 *
 * Datagrams are sent in groups of k, 1 to 10, each in a data frame of its own, and two parity frames follow. From any k of the k + 2
 * frames the k datagrams are read again, so that a group survives the loss of any two. It stands beside the link: what the link's flush
 * writes is given to ampferweg_parity_write, and what ampferweg_parity_read returns is given to the link's input.
 *
 * A frame has 8 bytes ahead of its datagram, all numbers little-endian: sequence 4 bytes, type 2 (241 data, 242 parity), len 2, which
 * counts itself and the datagram. Group n starts at sequence n x (k + 2), and a frame's place in it is its sequence modulo k + 2. Parity
 * covers len and datagram, and a parity frame carries it in their place.
 *
 * A sender, with datagrams packed as a flush leaves them:
 *
 *     #include <ampferweg_parity.h>
 *
 *     void transmit(const uint8_t *frame, size_t len);                    // your network
 *
 *     int send_group(uint32_t group, const uint8_t *datagrams, const uint16_t lengths[10])
 *     {
 *         static uint8_t frames[AMPFERWEG_PARITY_WRITE_SIZE(256)];
 *         static uint16_t frame_lengths[AMPFERWEG_PARITY_WRITE_LEN];
 *         const uint8_t *frame = frames;
 *         size_t size = 0;
 *         int32_t count, i;
 *         for (i = 0; i < 10; i++) size += lengths[i];
 *         count = ampferweg_parity_write(group, 10, 256, datagrams, size, lengths, 10,
 *             frames, sizeof frames, frame_lengths, AMPFERWEG_PARITY_WRITE_LEN);
 *         for (i = 0; i < count; i++) {
 *             transmit(frame, frame_lengths[i]);
 *             frame += frame_lengths[i];
 *         }
 *         return count < 0;
 *     }
 *
 * Both calls are proved: what they answer and what they leave, for all arguments. C99 or C++. Counts are 64 bits wide on every machine. */
#ifndef AMPFERWEG_PARITY_H
#define AMPFERWEG_PARITY_H

#include <stddef.h>
#include <stdint.h>

#ifdef __cplusplus
extern "C" {
#endif

/* ---- Sizes ---------------------------------------------------------------------------------------------------------
 *
 * What a call is lent at least for its output, for datagrams of at most mtu bytes (50 to 1400). Longer is fine. */

#define AMPFERWEG_PARITY_WRITE_SIZE(mtu) (12 * ((size_t)(mtu) + 8)) /* bytes of the frames that are written */
#define AMPFERWEG_PARITY_WRITE_LEN       12                         /* and their lengths */
#define AMPFERWEG_PARITY_READ_SIZE(mtu)  (10 * (size_t)(mtu))       /* bytes of the datagrams that are read */
#define AMPFERWEG_PARITY_READ_LEN        10                         /* and their lengths */

/* ---- Results -------------------------------------------------------------------------------------------------------
 *
 * 0 or more: the count of frames or datagrams that were written. Below 0: the call is refused, -N for refusal number N, and nothing
 * that is lent has changed. */

enum ampferweg_parity_refusal {
    AMPFERWEG_PARITY_SHORT_PART = 7,            /* packed bytes shorter than their lengths say, or too little room */
    AMPFERWEG_PARITY_SETTING_OUT_OF_RANGE = 12, /* k is not 1 to 10, or mtu not 50 to 1400 */
    AMPFERWEG_PARITY_NOT_A_GROUP = 21,          /* other than k datagrams, or one not of 24 to mtu bytes; frames that are not of one group */
    AMPFERWEG_PARITY_TOO_FEW_FRAMES = 22,       /* fewer than k different sequences */
    AMPFERWEG_PARITY_LATE_GROUP = 23            /* a group that starts at 2^32 - 12 or later */
};

/* A result in plain words, for a log line. */
static inline const char *ampferweg_parity_text(int32_t result)
{
    switch (result < 0 ? -result : 0) {
    case 0: return "done";
    case AMPFERWEG_PARITY_SHORT_PART: return "refused 7: packed bytes or a lent part are too short";
    case AMPFERWEG_PARITY_SETTING_OUT_OF_RANGE: return "refused 12: a setting is outside its range";
    case AMPFERWEG_PARITY_NOT_A_GROUP: return "refused 21: these are not the parts of a group";
    case AMPFERWEG_PARITY_TOO_FEW_FRAMES: return "refused 22: too few frames of the group";
    case AMPFERWEG_PARITY_LATE_GROUP: return "refused 23: the group's number is too high";
    default: return "refused: no number of this library";
    }
}

/* ---- The two calls -------------------------------------------------------------------------------------------------
 *
 * Datagrams and frames are packed one behind the other, with a 16-bit length for each, as a flush's output is; packed bytes may be
 * longer than their lengths say. Each part is a pointer and a count of elements. What the caller owes, and nothing checks: each pointer
 * leads to that many elements, and no two arguments overlap, but for two that are both const. NULL is fine for a count of 0. */

/* Writes group `group` of k datagrams, each of 24 to mtu bytes: k data frames and two parity frames, with their lengths; what lies
 * beyond them is not touched. Answers k + 2, or refuses 7, 12, 21, 23, in this order. */
int32_t ampferweg_parity_write(uint32_t group, uint32_t k, uint32_t mtu,
    const uint8_t *datagrams, uint64_t datagrams_len, const uint16_t *lengths, uint64_t lengths_len,
    uint8_t *frames, uint64_t frames_len, uint16_t *frame_lengths, uint64_t frame_lengths_len);

/* Reads a group from frames of it, in any order, with repeats: its k datagrams by place, with their lengths; what lies beyond them is
 * not touched. Frames that are not the group's are refused, not left out: give the frames of one group, as their sequences say.
 * Answers k, or refuses 7, 12, 21 for a frame by itself or of another group than the first, 22, and 21 unless the datagrams found have
 * 24 to mtu bytes and their group holds every frame given. */
int32_t ampferweg_parity_read(uint32_t k, uint32_t mtu,
    const uint8_t *frames, uint64_t frames_len, const uint16_t *lengths, uint64_t lengths_len,
    uint8_t *datagrams, uint64_t datagrams_len, uint16_t *datagram_lengths, uint64_t datagram_lengths_len);

#ifdef __cplusplus
}
#endif
#endif
