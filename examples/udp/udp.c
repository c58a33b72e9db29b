#define _POSIX_C_SOURCE 200809L
#include "udp.h"

#include <arpa/inet.h>
#include <errno.h>
#include <poll.h>
#include <stdio.h>
#include <stdlib.h>
#include <string.h>
#include <sys/socket.h>
#include <time.h>

int udp_open(const char *program, uint32_t port)
{
    struct sockaddr_in own;
    const int made = socket(AF_INET, SOCK_DGRAM, 0);
    memset(&own, 0, sizeof own);
    own.sin_family = AF_INET;
    own.sin_addr.s_addr = htonl(INADDR_ANY);
    own.sin_port = htons((uint16_t)port);
    if (made >= 0 && bind(made, (const struct sockaddr *)&own, sizeof own) == 0) return made;
    if (made >= 0 && errno == EADDRINUSE)
        fprintf(stderr, "%s: port %u is already used by another program: choose another one with --port\n", program, port);
    else fprintf(stderr, "%s: port %u cannot be opened: %s\n", program, port, strerror(errno));
    exit(2);
}

/* A port in decimal digits and nothing else, or 0. */
static long port_of(const char *text)
{
    const size_t digits = strspn(text, "0123456789");
    const long port = digits > 5 || text[digits] != '\0' ? 0 : strtol(text, NULL, 10);
    return port < 65536 ? port : 0;
}

struct sockaddr_in udp_address(const char *program, const char *text)
{
    struct sockaddr_in address;
    char host[INET_ADDRSTRLEN];
    const char *colon = strrchr(text, ':');
    const long port = colon == NULL ? 0 : port_of(colon + 1);
    memset(&address, 0, sizeof address);
    address.sin_family = AF_INET;
    if (colon != NULL && colon - text < (long)sizeof host && port > 0) {
        memcpy(host, text, (size_t)(colon - text));
        host[colon - text] = '\0';
        address.sin_port = htons((uint16_t)port);
        if (inet_pton(AF_INET, host, &address.sin_addr) == 1) return address;
    }
    fprintf(stderr, "%s: %s: an address like 127.0.0.1:4000 is wanted\n", program, text);
    exit(2);
}

void udp_send(int socket, const struct sockaddr_in *to, const uint8_t *datagram, size_t len)
{
    /* A datagram that the network does not take is lost, as any may be; the link sends it again. */
    (void)sendto(socket, datagram, len, 0, (const struct sockaddr *)to, sizeof *to);
}

long udp_receive(int socket, uint32_t milliseconds, struct sockaddr_in *from, uint8_t *datagram, size_t room)
{
    struct pollfd waits;
    socklen_t size = sizeof *from;
    waits.fd = socket;
    waits.events = POLLIN;
    if (poll(&waits, 1, (int)milliseconds) <= 0) return -1;
    return recvfrom(socket, datagram, room, 0, (struct sockaddr *)from, &size);
}

int same_address(const struct sockaddr_in *a, const struct sockaddr_in *b)
{
    return a->sin_addr.s_addr == b->sin_addr.s_addr && a->sin_port == b->sin_port;
}

uint32_t clock_now(void)
{
    struct timespec time;
    clock_gettime(CLOCK_MONOTONIC, &time);
    return (uint32_t)((uint64_t)time.tv_sec * 1000 + (uint64_t)time.tv_nsec / 1000000);
}

void lines_at_once(void)
{
    static char buffer[BUFSIZ];
    setvbuf(stdout, buffer, _IOLBF, sizeof buffer);
}
