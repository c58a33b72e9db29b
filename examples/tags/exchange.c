/* Two stations exchange recipes by tag, in one process: the planner tells the drill which recipe a seat has, over a link that
 * loses every third datagram. An old planner also sends a name that is longer than a table's slot; it is refused by number, and
 * the table is as it was. */
#include <ampferweg_tags.h>
#include <stdio.h>
#include <string.h>

AMPFERWEG_OUTPUT_STORAGE(output);
AMPFERWEG_STATION_STORAGE_SHARED(planner, 256, output);
AMPFERWEG_STATION_STORAGE_SHARED(drill, 256, output);

/* The drill's own table, and the line's defaults. All zero is an empty table. */
static uint8_t own[AMPFERWEG_TAG_TABLE_SIZE], defaults[AMPFERWEG_TAG_TABLE_SIZE];

static const uint8_t *bytes_of(const char *text) { return (const uint8_t *)text; }

/* Sends a tag; a name or a value that is not of its form never leaves the station. */
static void tell(const char *name, const char *value)
{
    uint8_t message[AMPFERWEG_TAG_MESSAGE_SIZE];
    ampferweg_result result =
        ampferweg_tag_write(bytes_of(name), strlen(name), bytes_of(value), strlen(value), message, sizeof message);
    if (result >= 0) result = ampferweg_station_send(&planner, message, (size_t)result);
    printf("planner tells %s = %s: %s\n", name, value, ampferweg_tag_text(result < 0 ? result : 0));
}

/* What a runtime without a test would send: a name of 40 bytes, in the form of a message. */
static void tell_overlong(void)
{
    uint8_t message[1 + 40 + 1 + 5];
    message[0] = 40;
    memset(message + 1, 'x', 40);
    message[41] = 5;
    memcpy(message + 42, "drill", 5);
    (void)ampferweg_station_send(&planner, message, sizeof message);
    printf("an old planner sends a name of 40 bytes\n");
}

/* The network: every third datagram is lost. */
static void carry(void *to, const uint8_t *datagram, size_t len)
{
    static unsigned sent;
    if (++sent % 3 != 0) (void)ampferweg_station_input((ampferweg_station *)to, datagram, len);
}

/* Takes every message that has arrived whole into the drill's table. */
static void take_all(void)
{
    static uint8_t message[AMPFERWEG_MESSAGE_SIZE(256)], before[AMPFERWEG_TAG_TABLE_SIZE];
    ampferweg_result len, taken;
    while ((len = ampferweg_station_read(&drill, message, sizeof message)) >= 0) {
        memcpy(before, own, sizeof own);
        taken = ampferweg_tag_take(own, sizeof own, message, (size_t)len);
        printf("drill takes a message of %d bytes: %s%s\n", (int)len, ampferweg_tag_text(taken),
            taken < 0 && memcmp(before, own, sizeof own) == 0 ? ", the table is as it was" : "");
    }
}

static void ask(const char *name)
{
    size_t len = 0;
    const uint8_t *value =
        ampferweg_tag_value(own, sizeof own, defaults, sizeof defaults, bytes_of(name), strlen(name), &len);
    const ampferweg_result found =
        ampferweg_tag_found(own, sizeof own, defaults, sizeof defaults, bytes_of(name), strlen(name));
    if (found < 0) printf("drill asks for %s: %s\n", name, ampferweg_tag_text(found));
    else printf("drill asks for %s: %s%.*s\n", name, found ? "" : "(not found)", (int)len, (const char *)value);
}

int main(void)
{
    uint32_t now;
    if (ampferweg_station_open(&planner, 7, 256, 1, 10, 2) < 0 || ampferweg_station_open(&drill, 7, 256, 1, 10, 2) < 0) return 1;
    (void)ampferweg_tag_set(defaults, sizeof defaults, bytes_of("speed"), 5, bytes_of("1200 rpm"), 8);

    tell("seat-12", "4 holes of 6.5 mm");
    tell("seat-13", "2 holes of 8 mm");
    tell("seat-12", "5 holes");
    tell("a-name-that-is-longer-than-its-slot", "1 hole");
    tell_overlong();
    tell("seat-14", "no hole");

    for (now = 0; ampferweg_station_pending(&planner) > 0 && now < 10000; now += 10) {
        (void)ampferweg_station_flush_to(&planner, now, carry, &drill);
        take_all();
        (void)ampferweg_station_flush_to(&drill, now, carry, &planner);
    }

    ask("seat-12");
    ask("seat-13");
    ask("seat-14");
    ask("speed");
    ask("torque");
    ask("seat 12");
    return 0;
}
