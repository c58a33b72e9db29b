/* Ampferweg tags: names and values above the link, proved, without a heap.
 *
 * A tag is a name and a value, as a recipe for a seat. It travels as a tag message, which is a message of the link like any
 * other, and is kept in a table of 64 entries that the caller lends. What is too long or not of its form is refused by number,
 * and a refused call changes nothing.
 *
 * A station that tells its neighbour a recipe, and takes those that arrive:
 *
 *     #include <ampferweg_tags.h>
 *
 *     static uint8_t own[AMPFERWEG_TAG_TABLE_SIZE], defaults[AMPFERWEG_TAG_TABLE_SIZE];   // all zero: empty
 *
 *     ampferweg_result tell(ampferweg_station *station, const char *name, const uint8_t *value, size_t value_len)
 *     {
 *         uint8_t message[AMPFERWEG_TAG_MESSAGE_SIZE];
 *         const ampferweg_result len =
 *             ampferweg_tag_write((const uint8_t *)name, strlen(name), value, value_len, message, sizeof message);
 *         return len < 0 ? len : ampferweg_station_send(station, message, (size_t)len);
 *     }
 *
 *     void take_all(ampferweg_station *station)
 *     {
 *         uint8_t message[AMPFERWEG_MESSAGE_SIZE(256)];
 *         ampferweg_result len, taken;
 *         while ((len = ampferweg_station_read(station, message, sizeof message)) >= 0) {
 *             taken = ampferweg_tag_take(own, sizeof own, message, (size_t)len);
 *             if (taken < 0) fprintf(stderr, "%s\n", ampferweg_tag_text(taken));   // and the table is as it was
 *         }
 *     }
 *
 *     void show(const char *name)
 *     {
 *         size_t len;
 *         const uint8_t *value = ampferweg_tag_value(own, sizeof own, defaults, sizeof defaults,
 *             (const uint8_t *)name, strlen(name), &len);                              // where it lies, not a copy
 *         printf("%s: %.*s\n", name, (int)len, (const char *)value);
 *     }
 *
 * C99 or C++. Counts are 64 bits wide on every machine, as the link's. Link libampferweg_tags.a, and libampferweg.a for the link itself. */
#ifndef AMPFERWEG_TAGS_H
#define AMPFERWEG_TAGS_H

#include <ampferweg.h>

#ifdef __cplusplus
extern "C" {
#endif

/* ---- Sizes ---------------------------------------------------------------------------------------------------------
 *
 * A name has 1 to 32 bytes, 33 to 126 each (printable, no space); a value has 0 to 64 bytes of any kind.
 *
 * A tag message is a byte with the name's length, the name, a byte with the value's length, the value, and then the end.
 *
 * A table has 64 entries of 98 bytes: a byte with the name's length, 0 for a free entry; 32 name bytes; a byte with the value's
 * length; 64 value bytes. Unused name and value bytes are zero, and so is all of a free entry. No name stands twice. A table of
 * zeros is an empty one. Tables may be kept in a file, sent, or copied as they are. */

#define AMPFERWEG_TAG_NAME_MOST    32
#define AMPFERWEG_TAG_VALUE_MOST   64
#define AMPFERWEG_TAG_MESSAGE_SIZE 98   /* bytes of the longest message */
#define AMPFERWEG_TAG_ENTRY_SIZE   98
#define AMPFERWEG_TAG_ENTRIES      64
#define AMPFERWEG_TAG_TABLE_SIZE   6272 /* a table has this size, no more and no less */

/* ---- Results -------------------------------------------------------------------------------------------------------
 *
 * 0 or more: the call is done. Below 0: it is refused, -N for refusal number N, and no byte has changed. The refusals of each
 * call are named in the order in which they are tested; with two tables, 7 for both comes before 24 for either. */

enum ampferweg_tag_refusal {
    AMPFERWEG_TAG_OTHER_SIZE = 7,   /* a table of another size, or fewer than 98 bytes for a message */
    AMPFERWEG_TAG_NOT_A_TAG = 17,   /* a message, a name or a value that is not of its form */
    AMPFERWEG_TAG_TABLE_FULL = 18,  /* a new name, and no entry is free */
    AMPFERWEG_TAG_ABSENT = 19,      /* the name to be removed is not there */
    AMPFERWEG_TAG_NOT_A_TABLE = 24  /* a length or a byte outside of the rules above, or a name twice */
};

/* A result in plain words, for a log line. */
static inline const char *ampferweg_tag_text(ampferweg_result result)
{
    switch (ampferweg_refusal_of(result)) {
    case 0: return "done";
    case AMPFERWEG_TAG_OTHER_SIZE: return "refused 7: the table has another size, or the message has too little room";
    case AMPFERWEG_TAG_NOT_A_TAG: return "refused 17: the message, the name or the value is not of its form";
    case AMPFERWEG_TAG_TABLE_FULL: return "refused 18: the name is new and the table is full";
    case AMPFERWEG_TAG_ABSENT: return "refused 19: the name is not in the table";
    case AMPFERWEG_TAG_NOT_A_TABLE: return "refused 24: the table is not one that this library makes";
    default: return "refused: no number of this library";
    }
}

/* ---- Messages ------------------------------------------------------------------------------------------------------
 *
 * What the caller owes, and nothing checks: each pointer leads to that many bytes; no two arguments overlap, but for two that
 * are both const. NULL is fine for a count of 0. Reading a written message gives its name and its value, and each message that
 * is read is the very one that writing them gives. */

/* Writes the message of a name and a value at the start of `message`; what lies beyond it is not touched.
 * Answers its length, or refuses 7 for fewer than 98 bytes, then 17. */
ampferweg_result ampferweg_tag_write(const uint8_t *name, uint64_t name_len, const uint8_t *value, uint64_t value_len,
    uint8_t *message, uint64_t message_len);

/* Reads a message, and stores the lengths of its name and its value: the name is at message + 1, the value at
 * message + 2 + *name_len. Answers 0, or refuses 17; a refused message stores nothing. */
ampferweg_result ampferweg_tag_read(const uint8_t *message, uint64_t message_len, uint64_t *name_len, uint64_t *value_len);

/* ---- Tables --------------------------------------------------------------------------------------------------------
 *
 * Every call tests the whole of each table that it is lent, so that a table that was written to by hand, or damaged, is
 * refused and not believed. */

/* Sets a tag: a known name's value is replaced, a new name takes the lowest free entry. Every other entry keeps all its bytes.
 * Answers 0, or refuses 7, 24, 17, and 18 for a new name in a full table. */
ampferweg_result ampferweg_tag_set(uint8_t *table, uint64_t table_len, const uint8_t *name, uint64_t name_len,
    const uint8_t *value, uint64_t value_len);

/* Reads a message and sets its tag. No entry with another name changes. Answers 0, or refuses 7, 24, 17, 18. */
ampferweg_result ampferweg_tag_take(uint8_t *table, uint64_t table_len, const uint8_t *message, uint64_t message_len);

/* Removes a name: its entry becomes free. Answers 0, or refuses 7, 24, 17, and 19 for a name that is not there. */
ampferweg_result ampferweg_tag_remove(uint8_t *table, uint64_t table_len, const uint8_t *name, uint64_t name_len);

/* Asks for the value of a name, in the station's own table, else in the line's defaults: answers 0 for the own table, 1 for the
 * defaults, and stores where the value's part starts in that table and its length. Never gives a refusal number: where asking
 * is refused (7, 24, 17) or nothing is found, it answers 0 and the part is empty. A value of no bytes is an empty part too, and
 * hides the default's. `start` and `len` may not lead to one number. */
ampferweg_result ampferweg_tag_ask(const uint8_t *own, uint64_t own_len, const uint8_t *defaults, uint64_t defaults_len,
    const uint8_t *name, uint64_t name_len, uint64_t *start, uint64_t *len);

/* Whether a name is in the own table or in the defaults. Answers 1 or 0, or refuses 7, 24, 17. */
ampferweg_result ampferweg_tag_found(const uint8_t *own, uint64_t own_len, const uint8_t *defaults, uint64_t defaults_len,
    const uint8_t *name, uint64_t name_len);

/* The value of a name where it lies, and its length. Valid until its table is changed. */
static inline const uint8_t *ampferweg_tag_value(const uint8_t *own, size_t own_len, const uint8_t *defaults, size_t defaults_len,
    const uint8_t *name, size_t name_len, size_t *len)
{
    uint64_t start = 0, bytes = 0;
    const ampferweg_result table = ampferweg_tag_ask(own, own_len, defaults, defaults_len, name, name_len, &start, &bytes);
    *len = (size_t)bytes;
    return (table == 0 ? own : defaults) + start;
}

#ifdef __cplusplus
}
#endif
#endif
