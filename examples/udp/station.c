/* A station: sends the messages of a file to its peer over UDP, and prints those that arrive. Clock, socket and every part
 * that the link is lent are its own; it has no heap. */
#define _POSIX_C_SOURCE 200809L
#include "hello.h"
#include "options.h"
#include "udp.h"

#include <ampferweg.h>
#include <fcntl.h>
#include <signal.h>
#include <stdio.h>
#include <stdlib.h>
#include <string.h>
#include <unistd.h>

enum { MTU_MOST = AMPFERWEG_MTU_MOST, FILE_MOST = 1 << 18, HEADER = 24, PUSH = 81, TELL = 84, NUMBERS = 17 };

/* At its end a station stays until the peer has sent no data for QUIET_MS and four intervals, LINGER_MS at most, and says every
 * TELL_MS what it has. */
enum { QUIET_MS = 2000, LINGER_MS = 20000, TELL_MS = 100 };

AMPFERWEG_STATION_STORAGE(station, MTU_MOST);

static const char *name = "station", *peer_text, *send_file, *save_file, *settings_file, *keep_file;
static uint32_t port, conv = 1, mtu = 256, mode = 1, interval = 10, threshold = 2, stream, congestion;
static uint32_t expect, hold, seconds = 20, hello_ms, silence = 5000, raw;

static const struct option options[] = {
    {"port", "PORT", "the port to listen on", NULL, &port, 1, 65535},
    {"peer", "ADDRESS", "where the peer is, as 127.0.0.1:4000", &peer_text, NULL, 0, 0},
    {"send", "FILE", "the messages to send, one a line", &send_file, NULL, 0, 0},
    {"hold", "MS", "wait so long before the first message, for the peer to be there (default 0)", NULL, &hold, 0, 60000},
    {"expect", "COUNT", "end once so many messages arrived and its own are acknowledged (default: run on)", NULL, &expect, 0, 1000000},
    {"save", "FILE", "write the messages that arrive, one a line", &save_file, NULL, 0, 0},
    {"seconds", "COUNT", "end after so many seconds at the latest (default 20)", NULL, &seconds, 1, 86400},
    {"hello", "MS", "agree on a conversation by a hello so often, and notice a restart (default: no)", NULL, &hello_ms, 10, 10000},
    {"silence", "MS", "say so when the peer is not heard for so long, 0 for never (default 5000)", NULL, &silence, 0, 3600000},
    {"name", "NAME", "its name in what it prints", &name, NULL, 0, 0},
    {"conv", "NUMBER", "conversation, the same at both stations (default 1)", NULL, &conv, 0, UINT32_MAX},
    {"mtu", "BYTES", "longest datagram (default 256)", NULL, &mtu, AMPFERWEG_MTU_LEAST, MTU_MOST},
    {"mode", "MODE", "how the timeout grows: 0, 1 or 2 (default 1)", NULL, &mode, 0, 2},
    {"interval", "MS", "milliseconds between flushes at most (default 10)", NULL, &interval, 10, 5000},
    {"threshold", "SKIPS", "skips before a fast retransmission, 0 for none (default 2)", NULL, &threshold, 0, 100},
    {"congestion", "0|1", "1: send no more than the congestion window lets (default 0)", NULL, &congestion, 0, 1},
    {"stream", "0|1", "1: send a stream of bytes, not messages; wants --raw 1 (default 0)", NULL, &stream, 0, 1},
    {"raw", "0|1", "1: a line goes with its newline, and bytes are saved as they come: --expect is newlines (default 0)", NULL, &raw, 0, 1},
    {"keep", "FILE", "write these settings to a settings file, and end", &keep_file, NULL, 0, 0},
    {"settings", "FILE", "open with the settings of a settings file", &settings_file, NULL, 0, 0},
};

static struct sockaddr_in peer;
static int udp, saved = -1, expects, opened;
static struct hello hello;
static struct {
    unsigned sent, acknowledged, again, heard, datagrams_sent, datagrams_heard, datagrams_refused;
    unsigned refused[NUMBERS]; /* by refusal number */
} count;
static volatile sig_atomic_t ended;

static void end(int signal)
{
    (void)signal;
    ended = 1;
}

/* ---- what is sent ---- */

static char lines[FILE_MOST];
static const char *first_line, *next_line, *lines_end; /* the first that is not acknowledged, the next to be sent */
static uint32_t first_number;                           /* of the first one's first segment */

static void fail(const char *what, const char *why)
{
    fprintf(stderr, "station: %s: %s\n", what, why);
    exit(2);
}

static void read_lines(void)
{
    const int file = open(send_file, O_RDONLY);
    ssize_t len, all = 0;
    if (file < 0) fail(send_file, "this file of messages cannot be opened");
    while ((len = read(file, lines + all, sizeof lines - (size_t)all)) > 0) all += len;
    close(file);
    if (len < 0 || all == FILE_MOST) fail(send_file, len < 0 ? "this file of messages cannot be read" : "this file of messages is too long");
    first_line = next_line = lines;
    lines_end = lines + all;
}

/* The bytes of the message that begins here, and where the next one begins. */
static size_t message_at(const char *line, const char **next)
{
    const char *end = memchr(line, '\n', (size_t)(lines_end - line));
    *next = end == NULL ? lines_end : end + 1;
    return (size_t)((end == NULL || raw ? *next : end) - line);
}

/* Gives the link as many messages as it has slots for. */
static void send_messages(void)
{
    while (next_line < lines_end) {
        const char *next;
        const size_t len = message_at(next_line, &next);
        const ampferweg_result result = ampferweg_station_send(&station, next_line, len);
        if (result == -AMPFERWEG_NO_FREE_SLOTS) return;
        if (result < 0) fail("a message cannot be sent", ampferweg_text(result));
        count.sent++;
        next_line = next;
    }
}

/* Takes the peer's una, the number of the first segment that it lacks: messages before it are acknowledged. This station reads all
 * that has arrived before it flushes, so that a peer like it has then also saved them. */
static void acknowledge(uint32_t una)
{
    static int said;
    if ((int32_t)(una - station.link.flight.next) > 0) {
        if (!said++) fprintf(stderr, "%s: the peer acknowledges what was never sent: the two were not opened together\n", name);
        return;
    }
    while (first_line < next_line) {
        const char *next;
        const size_t len = message_at(first_line, &next), mss = AMPFERWEG_MSS(mtu);
        const uint32_t after = first_number + (uint32_t)(len == 0 ? 1 : (len + mss - 1) / mss);
        if (stream ? ampferweg_station_pending(&station) > 0 : (int32_t)(una - after) < 0) return; /* a stream's lines share segments */
        count.acknowledged++;
        first_line = next;
        first_number = after;
    }
}

static uint8_t last_header[HEADER]; /* of the last datagram: conversation, window, and in una all that has arrived */
static int told;

static void transmit(void *context, const uint8_t *datagram, size_t len)
{
    (void)context;
    count.datagrams_sent++;
    memcpy(last_header, datagram, HEADER);
    told = 1;
    udp_send(udp, &peer, datagram, len);
}

/* Says again what has arrived, by a window tell with the last una: the peer may have lost its last acknowledgements, and is slow
 * to ask by then. */
static void tell_again(void)
{
    uint8_t tell[HEADER] = {0};
    if (!told) return;
    memcpy(tell, last_header, 4);
    tell[4] = TELL;
    memcpy(tell + 6, last_header + 6, 2);
    memcpy(tell + 16, last_header + 16, 4);
    count.datagrams_sent++;
    udp_send(udp, &peer, tell, sizeof tell);
}

/* Opens the link. What an earlier one did not get acknowledged is sent again. */
static void open_link(uint32_t conversation)
{
    if (ampferweg_station_open_numbers(&station, conversation, mtu, mode, interval, threshold, stream, congestion) < 0)
        fail("the link cannot be opened", ampferweg_station_why(&station));
    count.again += count.sent - count.acknowledged;
    count.sent = count.acknowledged;
    next_line = first_line;
    first_number = 0;
    told = 0;
    opened = 1;
}

/* ---- what arrives ---- */

/* In one piece, so that a station that is killed leaves whole lines. */
static void save(const char *line, size_t len)
{
    if (saved >= 0 && write(saved, line, len) != (ssize_t)len) fail(save_file, "this file cannot be written");
}

/* Counts what is heard: messages, or newlines of bytes that come as they come. */
static void count_heard(const char *bytes, size_t len)
{
    if (!raw) count.heard++;
    for (; raw && len > 0; len--) count.heard += *bytes++ == '\n';
}

static void read_messages(void)
{
    static char message[AMPFERWEG_MESSAGE_SIZE(MTU_MOST) + 1];
    ampferweg_result len;
    while ((len = ampferweg_station_read(&station, message, sizeof message - 1)) >= 0) {
        count_heard(message, (size_t)len);
        message[len] = '\n';
        save(message, (size_t)len + !raw);
        if (!raw) printf("%s hears %u: %.*s%s (%d bytes)\n", name, count.heard, len < 60 ? (int)len : 60, message, len < 60 ? "" : " ..", (int)len);
    }
}

/* A refused datagram has changed nothing. Says why, once for each reason; the summary has the counts. */
static void refuse(ampferweg_result result, size_t len)
{
    const int number = ampferweg_refusal_of(result);
    count.datagrams_refused++;
    if (count.refused[number]++ > 0) return;
    fprintf(stderr, "%s: a datagram of %lu bytes: %s\n", name, (unsigned long)len, ampferweg_text(result));
}

static uint32_t heard_at, data_at; /* when the peer was last heard, and last sent data */

/* Notes what the segments of an accepted datagram say. */
static void note(const uint8_t *datagram, size_t len)
{
    while (len >= HEADER) {
        const size_t size = HEADER + ampferweg_number_at(datagram + 20);
        if (datagram[4] == PUSH) data_at = heard_at;
        acknowledge(ampferweg_number_at(datagram + 16));
        datagram += size;
        len -= size;
    }
}

/* The peer is there, or has restarted: what it sent whole is read, then both begin anew. */
static void open_anew(void)
{
    const uint32_t conversation = hello_conversation(&hello, conv);
    if (opened) read_messages();
    open_link(conversation);
    printf("%s: the peer is new: opens conversation %lu\n", name, (unsigned long)conversation);
}

static void take_in_one(const uint8_t *datagram, size_t len)
{
    const enum hello_kind kind = hello_ms > 0 ? hello_input(&hello, datagram, len) : HELLO_NONE;
    ampferweg_result result;
    count.datagrams_heard++;
    heard_at = clock_now();
    if (kind == HELLO_NEW_BOOT) open_anew();
    if (kind != HELLO_NONE || !opened) return;
    result = ampferweg_station_input(&station, datagram, len);
    if (result < 0) refuse(result, len);
    else note(datagram, len);
}

/* Takes in the datagrams that come until it is time to send. */
static void take_in(uint32_t send_at)
{
    static uint8_t datagram[DATAGRAM_MOST];
    struct sockaddr_in from;
    int32_t left;
    do {
        long len;
        left = (int32_t)(send_at - clock_now());
        len = udp_receive(udp, left > 0 ? (uint32_t)left : 0, &from, datagram, sizeof datagram);
        if (len < 0) return;
        if (same_address(&from, &peer)) take_in_one(datagram, (size_t)len);
    } while (left > 0);
}

/* ---- the station ---- */

static int all_acknowledged(void) { return first_line == lines_end && ampferweg_station_pending(&station) == 0; }

static int complete(void) { return all_acknowledged() && (!expects || count.heard >= expect); }

/* Says hello, every hello_ms milliseconds. */
static void say_hello(uint32_t now)
{
    static uint32_t said_at;
    static int said;
    uint8_t datagram[HELLO_SIZE];
    if (hello_ms == 0 || (said && now - said_at < hello_ms)) return;
    hello_write(&hello, datagram);
    udp_send(udp, &peer, datagram, sizeof datagram);
    said_at = now;
    said = 1;
}

/* Says when the peer falls silent, long before the link is dead. A peer that has nothing to send is silent by right: silence counts
 * while something waits for its acknowledgement, or while hellos are said. */
static void watch(uint32_t now)
{
    static uint32_t since;
    static int begun, silent;
    if (!begun || (hello_ms == 0 && ampferweg_station_pending(&station) == 0)) since = heard_at = now;
    if ((int32_t)(heard_at - since) > 0) since = heard_at;
    begun = 1;
    if (silent != (silence > 0 && now - since >= silence)) {
        silent = !silent;
        if (silent) printf("%s: heard nothing for %lu ms\n", name, (unsigned long)silence);
        else printf("%s: hears the peer again\n", name);
    }
}

/* Sends what is due, and sleeps until the link names its next time; datagrams that come meanwhile are taken in. */
static void step(uint32_t now)
{
    uint32_t wait = interval;
    say_hello(now);
    if (opened) {
        const ampferweg_result result = ampferweg_station_run_to(&station, now, transmit, NULL);
        if (ampferweg_refusal_of(result)) fail("an update", ampferweg_text(result));
        wait = ampferweg_station_wait(&station, now);
    }
    take_in(now + wait);
    if (opened) read_messages();
    watch(clock_now());
}

/* Runs until all that is expected is done. Without --expect that is never so. */
static void run(uint32_t start)
{
    uint32_t now = start;
    while (!ended && now - start < 1000 * seconds && !(expects && complete())) {
        if (opened && now - start >= hold) send_messages();
        step(now);
        now = clock_now();
    }
}

/* Stays for the peer's sake, which may not know yet that all of its data has arrived. */
static void linger(uint32_t start)
{
    const uint32_t done = clock_now(), quiet = QUIET_MS + 4 * interval;
    uint32_t now = done, told_at = done - TELL_MS;
    data_at = done;
    while (!ended && now - start < 1000 * seconds && now - done < LINGER_MS && now - data_at < quiet) {
        step(now);
        if (now - told_at >= TELL_MS) {
            tell_again();
            told_at = now;
        }
        now = clock_now();
    }
}

/* ---- settings files ---- */

static void keep_settings(void)
{
    uint8_t file[AMPFERWEG_SETTINGS_FILE_SIZE];
    const ampferweg_result result = ampferweg_settings_write(conv, mtu, mode, interval, threshold, stream, congestion, file, sizeof file);
    int out;
    if (result < 0) fail(keep_file, ampferweg_text(result));
    out = open(keep_file, O_WRONLY | O_CREAT | O_TRUNC, 0666);
    if (out < 0 || write(out, file, (size_t)result) != result || close(out) < 0) fail(keep_file, "this file cannot be written");
    printf("%s: keeps the settings of conversation %lu\n", name, (unsigned long)conv);
}

/* A byte more than a file has is read, so that a file that is too long is told. */
static void read_settings(void)
{
    uint8_t file[AMPFERWEG_SETTINGS_FILE_SIZE + 1];
    const int in = open(settings_file, O_RDONLY);
    const ssize_t len = in < 0 ? -1 : read(in, file, sizeof file);
    ampferweg_result result;
    if (len < 0) fail(settings_file, "this file cannot be read");
    close(in);
    result = ampferweg_settings_read(file, (size_t)len, &conv, &mtu, &mode, &interval, &threshold, &stream, &congestion);
    if (result < 0) fail(settings_file, ampferweg_text(result));
}

/* Numbers that no earlier boot had. */
static void begin_hello(void)
{
    const int in = open("/dev/urandom", O_RDONLY);
    uint32_t numbers[2];
    if (in < 0 || read(in, numbers, sizeof numbers) != (ssize_t)sizeof numbers) fail("/dev/urandom", "no random number for a hello");
    close(in);
    hello.boot = numbers[0];
    hello.token = numbers[1] | 1; /* 0 stands for none heard */
}

static void prepare(void)
{
    if (port == 0 || peer_text == NULL) fail("--port and --peer are wanted", "--help lists the options");
    peer = udp_address("station", peer_text);
    if (settings_file != NULL) read_settings();
    if (stream && !raw) fail("a stream keeps no ends of lines", "say --raw 1 too");
    if (hello_ms > 0) begin_hello();
    else open_link(conv);
    if (send_file != NULL) read_lines();
    if (save_file != NULL && (saved = open(save_file, O_WRONLY | O_CREAT | O_TRUNC, 0666)) < 0) fail(save_file, "this file cannot be written");
    udp = udp_open("station", port);
    printf("%s: listens on port %u\n", name, port);
}

/* A settings file says all settings; an option beside it would say one of them twice. */
static void check_options(int argc, char **argv)
{
    static const char *const others[] = {"conv", "mtu", "mode", "interval", "threshold", "stream", "congestion", "keep"};
    size_t i;
    expects = option_given(argc, argv, "expect");
    for (i = 0; settings_file != NULL && i < sizeof others / sizeof *others; i++) {
        if (!option_given(argc, argv, others[i])) continue;
        fprintf(stderr, "station: --%s does not go with --settings, whose file says all settings\n", others[i]);
        exit(2);
    }
}

static void catch_signals(void)
{
    struct sigaction action;
    memset(&action, 0, sizeof action);
    action.sa_handler = end;
    sigaction(SIGINT, &action, NULL);
    sigaction(SIGTERM, &action, NULL);
}

static void summary(void)
{
    int number;
    printf("%s: %u messages sent", name, count.sent);
    if (count.acknowledged == count.sent) printf(" and acknowledged");
    else printf(", %u of them acknowledged", count.acknowledged);
    if (count.again > 0) printf(", %u sent again", count.again);
    printf(", %u", count.heard);
    if (expects) printf(" of %lu", (unsigned long)expect);
    printf(" heard; %u datagrams sent, %u heard, %u refused; %lu segments sent, %lu of them retransmissions\n",
        count.datagrams_sent, count.datagrams_heard, count.datagrams_refused, (unsigned long)station.counters.segments_out,
        (unsigned long)station.counters.retransmissions);
    for (number = 1; number < NUMBERS; number++)
        if (count.refused[number] > 0) printf("%s: %u datagrams %s\n", name, count.refused[number], ampferweg_text(-number));
    printf("%s: congestion window %lu segments, threshold %lu%s\n", name, (unsigned long)station.link.flight.congestion.window,
        (unsigned long)station.link.flight.congestion.threshold, congestion ? "" : ", not gone by");
    if (ampferweg_station_dead(&station)) fprintf(stderr, "%s: the link is dead: a segment was sent 20 times and not acknowledged\n", name);
    if (ended) fprintf(stderr, "%s: stopped by a signal\n", name);
    if (!all_acknowledged()) fprintf(stderr, "%s: ends before all of its messages were acknowledged\n", name);
    else if (!complete()) fprintf(stderr, "%s: ends before all that it expects was heard\n", name);
    if (!opened) fprintf(stderr, "%s: never heard the peer's hello: does it say hello too?\n", name);
}

int main(int argc, char **argv)
{
    uint32_t start;
    lines_at_once();
    read_options(argc, argv, "usage: station --port PORT --peer ADDRESS [options]\n"
        "Sends messages to a peer over UDP by KCP, and prints those that arrive. Ends by --expect, --seconds, SIGINT or SIGTERM;\n"
        "its status is 0 if all of its messages were acknowledged and all that it expects was heard.",
        options, sizeof options / sizeof *options);
    check_options(argc, argv);
    if (keep_file != NULL) {
        keep_settings();
        return 0;
    }
    catch_signals();
    prepare();
    start = clock_now();
    run(start);
    if (complete()) linger(start);
    summary();
    return complete() ? 0 : 1;
}
