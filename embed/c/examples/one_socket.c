/* A caching forwarder of DNS, by UDP and IPv4: forwarder PORT SETTINGS, which are lines as "server 192.0.2.53". It
 * replies at 127.0.0.1, until it is ended. It shows the calls; embed/c/forward has a program for a network. */
#define _GNU_SOURCE
#include <arpa/inet.h>
#include <errno.h>
#include <poll.h>
#include <stdio.h>
#include <stdlib.h>
#include <string.h>
#include <sys/random.h>
#include <time.h>
#include <unistd.h>

#include "yimarotu.h"

enum { PLACES = 901 }; /* the socket of clients, and one for each channel */

static yimarotu_forwarder forwarder = YIMAROTU_FORWARDER;
static struct pollfd polled[PLACES];
static uint64_t channels[PLACES];
static nfds_t count = 1;
static uint8_t room[65535], octets[65535];

static uint64_t now(void) {
    struct timespec time;
    clock_gettime(CLOCK_BOOTTIME, &time);
    return (uint64_t)time.tv_sec * 1000 + (uint64_t)time.tv_nsec / 1000000;
}

/* Opens a socket, connected to the server whose address is in the room. (To connect by TCP it waits.) */
static void open_channel(const yimarotu_action *open) {
    struct sockaddr_in server = {.sin_family = AF_INET, .sin_port = htons(open->port)};
    int type = open->protocol == YIMAROTU_STREAM ? SOCK_STREAM : SOCK_DGRAM;
    int fd = open->family == 4 && count < PLACES ? socket(AF_INET, type | SOCK_CLOEXEC, 0) : -1;
    memcpy(&server.sin_addr, room, 4);
    bool is_connected = fd >= 0 && connect(fd, (struct sockaddr *)&server, sizeof server) == 0;
    if (!is_connected) yimarotu_forwarder_failed(&forwarder, open->channel, YIMAROTU_CHANNEL_UNREACHABLE, now());
    if (fd >= 0 && !is_connected) close(fd);
    if (is_connected) channels[count] = open->channel, polled[count++] = (struct pollfd){.fd = fd, .events = POLLIN};
}

/* A client's number is its address and its port. */
static void reply_to(uint64_t number, size_t length) {
    struct sockaddr_in client = {.sin_family = AF_INET, .sin_port = (uint16_t)number};
    client.sin_addr.s_addr = (uint32_t)(number >> 16);
    sendto(polled[0].fd, room, length, 0, (struct sockaddr *)&client, sizeof client);
}

static void act(void) {
    for (;;) {
        yimarotu_action next = yimarotu_forwarder_next(&forwarder, room, sizeof room);
        nfds_t place = 1;
        while (place < count && channels[place] != next.channel) place++;
        if (next.status != YIMAROTU_OK || next.kind == YIMAROTU_NOTHING) return;
        if (next.kind == YIMAROTU_REPLY) reply_to(next.number, next.length);
        if (next.kind == YIMAROTU_OPEN) open_channel(&next);
        if (next.kind == YIMAROTU_SEND && place < count) send(polled[place].fd, room, next.length, MSG_NOSIGNAL);
        if (next.kind != YIMAROTU_CLOSE || place == count) continue;
        close(polled[place].fd);
        polled[place] = polled[--count], channels[place] = channels[count];
    }
}

static void take_query(void) {
    struct sockaddr_in client;
    socklen_t size = sizeof client;
    ssize_t got = recvfrom(polled[0].fd, octets, sizeof octets, 0, (struct sockaddr *)&client, &size);
    if (got < 0) return;
    uint64_t number = (uint64_t)client.sin_addr.s_addr << 16 | client.sin_port;
    yimarotu_queried queried = yimarotu_forwarder_query(&forwarder, number, (uint8_t *)&client.sin_addr, 4, false,
                                                        octets, (size_t)got, now(), room, sizeof room);
    if (queried.status == YIMAROTU_OK && queried.answered == YIMAROTU_REPLIED) reply_to(number, queried.length);
}

static void take_reply(nfds_t place) {
    ssize_t got = recv(polled[place].fd, octets, sizeof octets, 0);
    uint8_t why = got == 0 ? YIMAROTU_CHANNEL_CLOSED : YIMAROTU_CHANNEL_REFUSED;
    if (got > 0) yimarotu_forwarder_came(&forwarder, channels[place], octets, (size_t)got, now());
    else yimarotu_forwarder_failed(&forwarder, channels[place], why, now());
}

int main(int words, char **word) {
    const uint8_t nothing[1] = {0};
    uint8_t seed[32];
    struct sockaddr_in at = {.sin_family = AF_INET, .sin_addr = {htonl(INADDR_LOOPBACK)}};
    if (words != 3) return fputs("usage: forwarder PORT SETTINGS\n", stderr), 2;
    at.sin_port = htons((uint16_t)atoi(word[1]));
    polled[0] = (struct pollfd){.fd = socket(AF_INET, SOCK_DGRAM | SOCK_CLOEXEC, 0), .events = POLLIN};
    if (bind(polled[0].fd, (struct sockaddr *)&at, sizeof at) != 0) return perror("cannot listen"), 4;
    if (getrandom(seed, sizeof seed, 0) != sizeof seed) return perror("no seed"), 4;
    const uint8_t *settings = (const uint8_t *)word[2];
    yimarotu_opened opened = yimarotu_forwarder_open(&forwarder, nothing, 0, nothing, 0, settings, strlen(word[2]),
                                                     nothing, 0, nothing, 0, seed, sizeof seed, now());
    if (opened.status != YIMAROTU_OK) return fprintf(stderr, "line %zu is no setting\n", opened.line), 2;
    for (;;) {
        yimarotu_waits waits = yimarotu_forwarder_wait(&forwarder, now());
        poll(polled, count, waits.has_deadline && waits.milliseconds < 60000 ? (int)waits.milliseconds + 1 : 60000);
        if (polled[0].revents != 0) take_query();
        for (nfds_t place = 1; place < count; place++)
            if (polled[place].revents != 0) take_reply(place);
        yimarotu_forwarder_tick(&forwarder, now());
        act();
    }
}
