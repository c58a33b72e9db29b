/* UDP on IPv4, and a clock, for the two programs here. What goes wrong is said on standard error and ends the program. */
#ifndef UDP_H
#define UDP_H

#include <netinet/in.h>
#include <stddef.h>
#include <stdint.h>

enum { DATAGRAM_MOST = 2048 };

/* A socket bound to a port of all addresses of this machine. */
int udp_open(const char *program, uint32_t port);

/* An address written as 127.0.0.1:4000. */
struct sockaddr_in udp_address(const char *program, const char *text);

void udp_send(int socket, const struct sockaddr_in *to, const uint8_t *datagram, size_t len);

/* Waits for a datagram, so many milliseconds at most, and gives its length; -1 where none came. */
long udp_receive(int socket, uint32_t milliseconds, struct sockaddr_in *from, uint8_t *datagram, size_t room);

int same_address(const struct sockaddr_in *a, const struct sockaddr_in *b);

/* Milliseconds of a clock that only goes forward. */
uint32_t clock_now(void);

/* Has standard output written line by line, without a buffer from the heap. */
void lines_at_once(void);

#endif
