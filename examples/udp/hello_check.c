/* Tries the hello: two stations that meet, a restart, hellos of earlier boots that come late, and that no link takes one in. */
#include "hello.h"

#include <ampferweg.h>
#include <stdio.h>

AMPFERWEG_STATION_STORAGE(station, AMPFERWEG_MTU_LEAST);

static int failed;

static void holds(int it, const char *what)
{
    if (it) return;
    failed = 1;
    printf("hello: FAILED: %s\n", what);
}

/* Brings a hello from one to the other. */
static enum hello_kind bring(const struct hello *from, struct hello *to)
{
    uint8_t bytes[HELLO_SIZE];
    hello_write(from, bytes);
    return hello_input(to, bytes, sizeof bytes);
}

/* Two stations that have not met agree after a hello of each that answers the other's. */
static void meet(struct hello *a, struct hello *b)
{
    (void)bring(a, b);
    holds(bring(b, a) == HELLO_NEW_BOOT, "a new peer is believed when it answers");
    holds(bring(a, b) == HELLO_NEW_BOOT, "so is the other one");
    holds(hello_conversation(a, 7) == hello_conversation(b, 7), "both have the same conversation");
    holds(bring(b, a) == HELLO_OF_PEER && bring(a, b) == HELLO_OF_PEER, "then nothing changes any more");
}

int main(void)
{
    struct hello a = {100, 11, 0, 0, 0}, b = {200, 21, 0, 0, 0}, restarted = {300, 31, 0, 0, 0};
    uint8_t late[HELLO_SIZE];
    uint32_t before;
    holds(bring(&a, &b) == HELLO_OF_PEER, "a first hello alone is not believed");
    meet(&a, &b);
    hello_write(&a, late);
    before = hello_conversation(&b, 7);
    meet(&restarted, &b);
    holds(hello_conversation(&b, 7) != before, "a restart gives another conversation");
    holds(hello_input(&b, late, sizeof late) == HELLO_OF_PEER && b.peer_boot == restarted.boot, "a late hello of the boot before changes nothing");
    holds(bring(&restarted, &b) == HELLO_OF_PEER, "nor does the next one");
    holds(hello_input(&b, late, sizeof late - 1) == HELLO_NONE, "a shorter datagram is no hello");
    late[0] ^= 1;
    holds(hello_input(&b, late, sizeof late) == HELLO_NONE, "nor is one with another magic");
    holds(ampferweg_station_open(&station, 7, AMPFERWEG_MTU_LEAST, 1, 10, 2) == 0, "a link opens");
    holds(ampferweg_station_input(&station, late, sizeof late) == -AMPFERWEG_SHORT_DATAGRAM, "a link refuses a hello with 1");
    return failed;
}
