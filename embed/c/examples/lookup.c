/* Looks the addresses of a host up: lookup HOST [SETTINGS]. Whom to ask, and how, the system's files say, or in place of
 * them the settings, lines as "server 192.0.2.53". It opens a socket for each channel, moves octets and tells the time; the
 * library decides all else. Ends with 0; with 1 where there is no address, or none of one family while the other one failed;
 * with 2 where a word has a fault, and with 3 where nothing was learnt. */
#define _GNU_SOURCE
#include <arpa/inet.h>
#include <errno.h>
#include <net/if.h>
#include <poll.h>
#include <stdio.h>
#include <stdlib.h>
#include <string.h>
#include <sys/random.h>
#include <time.h>
#include <unistd.h>

#include "yimarotu.h"

enum { NUMBER = 1, CHANNELS = 900, OUT = 4096, ADDRESSES = 256, FILE_ROOM = 1 << 20 };

/* A channel, with what waits to be sent on it; its socket has the same place in `polled`. */
static struct channel {
    uint64_t number;
    bool is_stream;
    size_t length;
    uint8_t out[OUT];
} channels[CHANNELS];
static struct pollfd polled[CHANNELS];
static nfds_t count;
static yimarotu_session session = YIMAROTU_SESSION;
static uint8_t room[1 << 16];

/* The moment, by a clock that does not go back, and that counts while the machine sleeps. */
static uint64_t now(void) {
    struct timespec time;
    clock_gettime(CLOCK_BOOTTIME, &time);
    return (uint64_t)time.tv_sec * 1000 + (uint64_t)time.tv_nsec / 1000000;
}

/* A channel failed with this error; where that is 0, its stream was closed. */
static void fail(uint64_t channel, int error) {
    uint8_t of_server = error == ECONNREFUSED ? YIMAROTU_CHANNEL_REFUSED : YIMAROTU_CHANNEL_UNREACHABLE;
    yimarotu_failed(&session, channel, error == 0 ? YIMAROTU_CHANNEL_CLOSED : of_server, now());
}

/* A channel could not be opened, which may be for want of something here. */
static void fail_to_open(uint64_t channel, int error, bool is_stream) {
    int no_port = is_stream ? EADDRNOTAVAIL : EAGAIN;
    bool is_local = error == EMFILE || error == ENFILE || error == ENOBUFS || error == ENOMEM || error == no_port;
    if (is_local) yimarotu_failed(&session, channel, YIMAROTU_CHANNEL_LOCAL, now());
    else fail(channel, error);
}

/* Opens a channel: a socket of its own, connected to the server whose address, and scope behind it, are in the room. A
 * socket that was not connected is closed at once: it has a port by then, and would hear anybody. One that fails later
 * stays until the library says that it is to be closed. */
static void open_channel(const yimarotu_action *open) {
    bool is_v4 = open->family == 4, is_stream = open->protocol == YIMAROTU_STREAM;
    struct sockaddr_in v4 = {.sin_family = AF_INET, .sin_port = htons(open->port)};
    struct sockaddr_in6 v6 = {.sin6_family = AF_INET6, .sin6_port = htons(open->port)};
    char scope[IF_NAMESIZE] = "";
    memcpy(is_v4 ? (void *)&v4.sin_addr : (void *)&v6.sin6_addr, room, is_v4 ? 4 : 16);
    if (open->length > 16) {
        snprintf(scope, sizeof scope, "%.*s", (int)open->length - 16, (char *)room + 16);
        v6.sin6_scope_id = if_nametoindex(scope) ? if_nametoindex(scope) : (uint32_t)atoi(scope);
    }
    if (count == CHANNELS) return fail_to_open(open->channel, EMFILE, is_stream);
    int fd = socket(is_v4 ? AF_INET : AF_INET6, (is_stream ? SOCK_STREAM : SOCK_DGRAM) | SOCK_CLOEXEC | SOCK_NONBLOCK, 0);
    if (fd < 0) return fail_to_open(open->channel, errno, is_stream);
    int ended = is_v4 ? connect(fd, (struct sockaddr *)&v4, sizeof v4) : connect(fd, (struct sockaddr *)&v6, sizeof v6);
    if (ended != 0 && errno != EINPROGRESS) {
        fail_to_open(open->channel, errno, is_stream);
        close(fd);
        return;
    }
    channels[count] = (struct channel){.number = open->channel, .is_stream = is_stream};
    polled[count++] = (struct pollfd){.fd = fd, .events = POLLIN};
}

/* Sends what waits on a channel, and so many octets of the room behind it, as far as it goes. */
static void send_on(nfds_t place, size_t length) {
    struct channel *channel = &channels[place];
    if (length > OUT - channel->length) return fail(channel->number, ENOBUFS);
    memcpy(channel->out + channel->length, room, length);
    ssize_t sent = send(polled[place].fd, channel->out, channel->length += length, MSG_NOSIGNAL);
    if (sent < 0 && errno != EAGAIN && errno != ENOTCONN && errno != EINTR) fail(channel->number, errno);
    if (sent > 0) memmove(channel->out, channel->out + sent, channel->length -= (size_t)sent);
    if (!channel->is_stream) channel->length = 0;
    polled[place].events = POLLIN | (channel->length > 0 ? POLLOUT : 0);
}

static void close_channel(nfds_t place) {
    close(polled[place].fd);
    channels[place] = channels[--count];
    polled[place] = polled[count];
}

/* Does what is to be done; gives whether a look-up is done, or the session cannot go on. */
static bool act(uint8_t *status) {
    for (;;) {
        yimarotu_action next = yimarotu_next(&session, room, sizeof room);
        nfds_t place = 0;
        while (place < count && channels[place].number != next.channel) place++;
        *status = next.status;
        if (next.status != YIMAROTU_OK || next.kind == YIMAROTU_LOOKED_UP) return true;
        if (next.kind == YIMAROTU_NOTHING) return false;
        if (next.kind == YIMAROTU_OPEN) open_channel(&next);
        if (next.kind == YIMAROTU_SEND && place < count) send_on(place, next.length);
        if (next.kind == YIMAROTU_CLOSE && place < count) close_channel(place);
    }
}

/* Waits until something happens, and hands it in. */
static void wait_for_channels(void) {
    yimarotu_waits waits = yimarotu_wait(&session, now());
    int ready = poll(polled, count, waits.has_deadline && waits.milliseconds < 60000 ? (int)waits.milliseconds + 1 : 60000);
    for (nfds_t place = 0; ready > 0 && place < count; place++) {
        if (polled[place].revents & POLLOUT) send_on(place, 0);
        if ((polled[place].revents & ~POLLOUT) == 0) continue;
        ssize_t got = recv(polled[place].fd, room, sizeof room, 0);
        if (got > 0 || (got == 0 && !channels[place].is_stream))
            yimarotu_came(&session, channels[place].number, room, (size_t)got, now());
        else if (got == 0 || (errno != EAGAIN && errno != EINTR))
            fail(channels[place].number, got == 0 ? 0 : errno);
    }
    yimarotu_tick(&session, now());
}

/* The octets of a file; none where it cannot be read, as the C library has it. */
static size_t read_file(const char *path, uint8_t *octets) {
    FILE *file = fopen(path, "rb");
    size_t length = file == NULL ? 0 : fread(octets, 1, FILE_ROOM, file);
    if (file != NULL) fclose(file);
    return length;
}

/* Opens the session, by the settings, or by the system's files where these say nothing. */
static yimarotu_opened open_by(const char *settings) {
    static uint8_t conf[FILE_ROOM], hosts[FILE_ROOM], seed[32];
    char name[256] = "";
    size_t conf_length = settings[0] ? 0 : read_file("/etc/resolv.conf", conf);
    size_t hosts_length = settings[0] ? 0 : read_file("/etc/hosts", hosts);
    if (gethostname(name, sizeof name - 1) != 0) name[0] = 0;
    if (getrandom(seed, sizeof seed, 0) != sizeof seed) return (yimarotu_opened){YIMAROTU_SEED, 0};
    return yimarotu_open(&session, conf, conf_length, (uint8_t *)name, strlen(name), (const uint8_t *)settings,
                         strlen(settings), hosts, hosts_length, seed, sizeof seed, now());
}

int main(int arguments, char **words) {
    static yimarotu_address addresses[ADDRESSES];
    char text[INET6_ADDRSTRLEN];
    if (arguments < 2 || arguments > 3) return fputs("usage: lookup HOST [SETTINGS]\n", stderr), 2;
    yimarotu_opened opened = open_by(arguments == 3 ? words[2] : "");
    if (opened.status == YIMAROTU_SCRIPT) return fprintf(stderr, "line %zu is no setting\n", opened.line), 2;
    uint8_t status = opened.status;
    if (status == YIMAROTU_OK)
        status = yimarotu_start_ip(&session, NUMBER, (uint8_t *)words[1], strlen(words[1]), now()).status;
    while (status == YIMAROTU_OK && !act(&status)) wait_for_channels();
    yimarotu_found found = yimarotu_addresses(&session, NUMBER, now(), addresses, sizeof addresses);
    if (status == YIMAROTU_OK) status = found.status;
    for (size_t at = 0; status == YIMAROTU_OK && at < found.count; at++)
        puts(inet_ntop(addresses[at].family == 4 ? AF_INET : AF_INET6, addresses[at].octets, text, sizeof text));
    if (status != YIMAROTU_OK || found.error != YIMAROTU_FOUND)
        fprintf(stderr, "%s: status %d, error %d, code %d\n", words[1], status, found.error, found.code);
    yimarotu_close(&session);
    while (count > 0) close(polled[--count].fd);
    if (status != YIMAROTU_OK) return 3;
    return found.error == YIMAROTU_FOUND ? 0 : found.error == YIMAROTU_NO_RECORDS ? 1 : 3;
}
