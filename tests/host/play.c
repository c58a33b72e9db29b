/* Plays a script of calls (standard input) on what stands beside the link, and writes the answers (standard output).
 *
 *   settings-write ROOM CONV MTU MODE INTERVAL THRESHOLD [STREAM [CONGESTION]]                settings-read HEX
 *   tag-write ROOM NAME VALUE    tag-read HEX                 tag-set TABLE NAME VALUE     tag-take TABLE HEX
 *   tag-remove TABLE NAME        tag-ask NAME                 tag-found NAME               tag-entry TABLE INDEX
 *   tag-table TABLE              tag-poke TABLE OFFSET BYTE   tag-lend TABLE LEN
 *   parity-write GROUP K MTU DATAGRAM..                       parity-read K MTU FRAME..
 *   parity-room BYTES LENGTHS    parity-cut N                 parity-more N
 *
 * Each command has one answer line (tag-table one for each entry that is not zero, and one more; parity-write and parity-read
 * one for each frame or datagram, and one more; they are in play_parity.c). Whatever a call may write to
 * is held with bytes behind what is lent, and all of it is looked at after the call: where a byte has changed that the answer
 * does not show, the line ends with the word `changed`. tests/extras has scripts with the answers that they must get. */
#include <ampferweg_tags.h>
#include "script.h"

static void say_refused(ampferweg_result result) { printf("refused %d", ampferweg_refusal_of(result)); }

static void end_line(int changed) { puts(changed ? " changed" : ""); }

/* Whether a byte of these is another than `byte`. */
static int differs(const uint8_t *bytes, size_t len, uint8_t byte)
{
    size_t i;
    for (i = 0; i < len; i++)
        if (bytes[i] != byte) return 1;
    return 0;
}

/* ---- settings files ---- */

enum { FILE_HELD = 64, UNTOUCHED = 0xaa };

static uint8_t word_bytes[2][LINE_MOST];
static size_t word_bytes_len[2];

static int settings_write(void)
{
    uint8_t file[FILE_HELD];
    uint32_t room, value[7] = {0, 0, 0, 0, 0, 0, 0}; /* the last, congestion, or the last two may be left out */
    ampferweg_result result;
    size_t i;
    if (words < 7 || words > 9 || !number_word(1, FILE_HELD, &room)) return 0;
    for (i = 0; i + 2 < words; i++)
        if (!number_word(i + 2, UINT32_MAX, &value[i])) return 0;
    memset(file, UNTOUCHED, sizeof file);
    result = ampferweg_settings_write(value[0], value[1], value[2], value[3], value[4], value[5], value[6], file, room);
    if (result < 0) {
        say_refused(result);
        end_line(differs(file, sizeof file, UNTOUCHED));
    } else {
        printf("ok");
        say_bytes(file, (size_t)result);
        end_line(differs(file + result, sizeof file - (size_t)result, UNTOUCHED));
    }
    return 1;
}

static int settings_read(void)
{
    uint32_t i, value[7] = {1, 2, 3, 4, 5, 6, 7};
    ampferweg_result result;
    int changed = 0;
    if (words != 2 || !bytes_word(1, word_bytes[0], &word_bytes_len[0])) return 0;
    result = ampferweg_settings_read(word_bytes[0], word_bytes_len[0], &value[0], &value[1], &value[2], &value[3], &value[4], &value[5],
        &value[6]);
    if (result < 0) {
        say_refused(result);
        for (i = 0; i < 7; i++) changed |= value[i] != i + 1;
    } else {
        printf("ok");
        for (i = 0; i < 7; i++) printf(" %lu", (unsigned long)value[i]);
    }
    end_line(changed);
    return 1;
}

/* ---- tag messages ---- */

enum { MESSAGE_HELD = 128 };

static int tag_write(void)
{
    uint8_t message[MESSAGE_HELD];
    uint32_t room;
    ampferweg_result result;
    if (words != 4 || !number_word(1, MESSAGE_HELD, &room) || !bytes_word(2, word_bytes[0], &word_bytes_len[0])
        || !bytes_word(3, word_bytes[1], &word_bytes_len[1])) return 0;
    memset(message, UNTOUCHED, sizeof message);
    result = ampferweg_tag_write(word_bytes[0], word_bytes_len[0], word_bytes[1], word_bytes_len[1], message, room);
    if (result < 0) {
        say_refused(result);
        end_line(differs(message, sizeof message, UNTOUCHED));
    } else {
        printf("ok");
        say_bytes(message, (size_t)result);
        end_line(differs(message + result, sizeof message - (size_t)result, UNTOUCHED));
    }
    return 1;
}

static int tag_read(void)
{
    uint64_t name = 1000, value = 2000;
    ampferweg_result result;
    int changed = 0;
    if (words != 2 || !bytes_word(1, word_bytes[0], &word_bytes_len[0])) return 0;
    result = ampferweg_tag_read(word_bytes[0], word_bytes_len[0], &name, &value);
    if (result < 0) {
        say_refused(result);
        changed = name != 1000 || value != 2000;
    } else {
        printf("ok");
        say_bytes(word_bytes[0] + 1, (size_t)name);
        say_bytes(word_bytes[0] + 2 + name, (size_t)value);
    }
    end_line(changed);
    return 1;
}

/* ---- tables of tags ---- */

enum { TABLES = 2, TABLE_HELD = AMPFERWEG_TAG_TABLE_SIZE + AMPFERWEG_TAG_ENTRY_SIZE };

static uint8_t table[TABLES][TABLE_HELD], before[TABLES][TABLE_HELD];
static size_t lent[TABLES] = {AMPFERWEG_TAG_TABLE_SIZE, AMPFERWEG_TAG_TABLE_SIZE};

static void remember(void) { memcpy(before, table, sizeof before); }

/* Whether more has changed than the 64 entries of the table `done`, or anything at all where there is none (TABLES). */
static int changed_beyond(uint32_t done)
{
    uint32_t t;
    for (t = 0; t < TABLES; t++) {
        const size_t from = t == done ? AMPFERWEG_TAG_TABLE_SIZE : 0;
        if (memcmp(table[t] + from, before[t] + from, TABLE_HELD - from) != 0) return 1;
    }
    return 0;
}

static int say_change(uint32_t t, ampferweg_result result)
{
    if (result < 0) say_refused(result); else printf("ok");
    end_line(changed_beyond(result < 0 ? TABLES : t));
    return 1;
}

static int tag_set(void)
{
    uint32_t t;
    if (words != 4 || !number_word(1, TABLES - 1, &t) || !bytes_word(2, word_bytes[0], &word_bytes_len[0])
        || !bytes_word(3, word_bytes[1], &word_bytes_len[1])) return 0;
    remember();
    return say_change(t, ampferweg_tag_set(table[t], lent[t], word_bytes[0], word_bytes_len[0], word_bytes[1], word_bytes_len[1]));
}

static int tag_take(void)
{
    uint32_t t;
    if (words != 3 || !number_word(1, TABLES - 1, &t) || !bytes_word(2, word_bytes[0], &word_bytes_len[0])) return 0;
    remember();
    return say_change(t, ampferweg_tag_take(table[t], lent[t], word_bytes[0], word_bytes_len[0]));
}

static int tag_remove(void)
{
    uint32_t t;
    if (words != 3 || !number_word(1, TABLES - 1, &t) || !bytes_word(2, word_bytes[0], &word_bytes_len[0])) return 0;
    remember();
    return say_change(t, ampferweg_tag_remove(table[t], lent[t], word_bytes[0], word_bytes_len[0]));
}

static int tag_ask(void)
{
    uint64_t start = 1000, len = 2000;
    ampferweg_result which;
    if (words != 2 || !bytes_word(1, word_bytes[0], &word_bytes_len[0])) return 0;
    remember();
    which = ampferweg_tag_ask(table[0], lent[0], table[1], lent[1], word_bytes[0], word_bytes_len[0], &start, &len);
    printf("part");
    if (len == 0) {
        printf(" -");
    } else {
        printf(" %ld %lu", (long)which, (unsigned long)start);
        say_bytes(table[which] + start, (size_t)len);
    }
    end_line(changed_beyond(TABLES));
    return 1;
}

static int tag_found(void)
{
    ampferweg_result result;
    if (words != 2 || !bytes_word(1, word_bytes[0], &word_bytes_len[0])) return 0;
    remember();
    result = ampferweg_tag_found(table[0], lent[0], table[1], lent[1], word_bytes[0], word_bytes_len[0]);
    if (result < 0) say_refused(result); else printf("ok %ld", (long)result);
    end_line(changed_beyond(TABLES));
    return 1;
}

static int tag_entry(void)
{
    uint32_t t, index;
    if (words != 3 || !number_word(1, TABLES - 1, &t) || !number_word(2, AMPFERWEG_TAG_ENTRIES, &index)) return 0;
    printf("entry");
    say_bytes(table[t] + index * AMPFERWEG_TAG_ENTRY_SIZE, AMPFERWEG_TAG_ENTRY_SIZE);
    end_line(0);
    return 1;
}

static int tag_table(void)
{
    uint32_t t, index, count = 0;
    if (words != 2 || !number_word(1, TABLES - 1, &t)) return 0;
    for (index = 0; index <= AMPFERWEG_TAG_ENTRIES; index++) {
        const uint8_t *entry = table[t] + index * AMPFERWEG_TAG_ENTRY_SIZE;
        if (!differs(entry, AMPFERWEG_TAG_ENTRY_SIZE, 0)) continue;
        printf("entry %lu", (unsigned long)index);
        say_bytes(entry, AMPFERWEG_TAG_ENTRY_SIZE);
        end_line(0);
        count++;
    }
    printf("ok %lu\n", (unsigned long)count);
    return 1;
}

static int tag_poke(void)
{
    uint32_t t, offset, byte;
    if (words != 4 || !number_word(1, TABLES - 1, &t) || !number_word(2, TABLE_HELD - 1, &offset) || !number_word(3, 255, &byte)) return 0;
    table[t][offset] = (uint8_t)byte;
    puts("ok");
    return 1;
}

static int tag_lend(void)
{
    uint32_t t, len;
    if (words != 3 || !number_word(1, TABLES - 1, &t) || !number_word(2, TABLE_HELD, &len)) return 0;
    lent[t] = len;
    puts("ok");
    return 1;
}

/* ---- parity ---- */

int parity_line(const char *line);

/* The line as it was before it was cut into words. */
static int parity(void)
{
    char *end = script_text + (word[words - 1] - script_text) + word_len[words - 1];
    const char was = *end;
    int played;
    *end = '\0';
    played = parity_line(word[0]);
    *end = was;
    return played;
}

/* ---- the commands ---- */

static int play_line(void)
{
    static const struct { const char *name; int (*play)(void); } commands[] = {
        {"settings-write", settings_write}, {"settings-read", settings_read},
        {"tag-write", tag_write}, {"tag-read", tag_read}, {"tag-set", tag_set}, {"tag-take", tag_take},
        {"tag-remove", tag_remove}, {"tag-ask", tag_ask}, {"tag-found", tag_found}, {"tag-entry", tag_entry},
        {"tag-table", tag_table}, {"tag-poke", tag_poke}, {"tag-lend", tag_lend},
    };
    size_t i;
    for (i = 0; i < sizeof commands / sizeof *commands; i++)
        if (is_word(0, commands[i].name)) return commands[i].play();
    return parity();
}

int main(void) { return play_script(play_line); }
