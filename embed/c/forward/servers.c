/* Channels to name servers: a socket of its own for each, connected to its server. */
#include "forward.h"

#include <errno.h>
#include <net/if.h>
#include <netinet/tcp.h>
#include <stdio.h>
#include <stdlib.h>
#include <string.h>
#include <unistd.h>

/* So many octets wait to be sent on a stream at the most, and so many failures to be told. So many datagrams of a socket
 * are let go at once, more than it holds. */
enum { BUCKETS = 1024, MOST_KEPT = 1 << 21, MOST_UNTOLD = 256, MOST_LET_GO = 4096 };

struct channel {
    uint64_t number;
    int fd;
    bool is_stream, has_failed; /* a stream that failed waits to be closed */
    struct octets out;
    struct channel *next; /* in its bucket */
};

struct failure {
    uint64_t channel;
    uint8_t why;
};

static struct channel *channels[BUCKETS];
/* Failures for which the library had no memory: until it is told of them, what it asked there waits. */
static struct failure untold[MOST_UNTOLD];
static size_t untold_count;

static struct channel **link_of(uint64_t number) {
    struct channel **link = &channels[number % BUCKETS];
    while (*link != NULL && (*link)->number != number) link = &(*link)->next;
    return link;
}

static uint64_t what(uint64_t number) { return 1ull << FROM_CHANNEL | number; }

static bool is_told(const struct failure *failure) {
    return yimarotu_forwarder_failed(&forwarder, failure->channel, failure->why, moment) != YIMAROTU_NO_MEMORY;
}

/* Whether this machine has an address to ask a server from: a socket for datagrams takes one as it is connected. Where there
 * is no socket nobody knows that there is none. */
static bool has_source(const union address *server) {
    int fd = socket(server->any.sa_family, SOCK_DGRAM | SOCK_CLOEXEC, 0);
    bool is_there = fd < 0 || connect(fd, &server->any, sizeof *server) == 0 || errno != EADDRNOTAVAIL;
    if (fd >= 0) close(fd);
    return is_there;
}

/* Whether a channel cannot be opened with this error since something is wanting here. That no address is left may say of a
 * stream that no port is; else it says that there is none of the family of its server. */
static bool is_local(int error, const union address *server, bool is_stream) {
    if (error == EADDRNOTAVAIL) return is_stream && has_source(server);
    return error == EMFILE || error == ENFILE || error == ENOBUFS || error == ENOMEM
        || error == EAGAIN || error == ENOSPC; /* connect(2) of a datagram socket: no port; epoll_ctl(2): no watch */
}

static void tell_failure(uint64_t number, uint8_t why) {
    struct failure failure = {number, why};
    if (!is_told(&failure) && untold_count < MOST_UNTOLD) untold[untold_count++] = failure;
}

/* A channel that was opened failed with this error; where that is 0, its stream was closed. Octets may have gone out on
 * it, so whatever is wanting here, it is no more than a channel that leads nowhere. */
static uint8_t why_failed(int error) {
    uint8_t of_server = error == ECONNREFUSED ? YIMAROTU_CHANNEL_REFUSED : YIMAROTU_CHANNEL_UNREACHABLE;
    return error == 0 ? YIMAROTU_CHANNEL_CLOSED : of_server;
}

bool has_untold_failures(void) { return untold_count > 0; }

void tell_failures_again(void) {
    size_t left = 0;
    for (size_t at = 0; at < untold_count; at++)
        if (!is_told(&untold[at])) untold[left++] = untold[at];
    untold_count = left;
}

/* A socket for datagrams is kept after an error, which ICMP told. */
static void fail(struct channel *channel, uint8_t why) {
    if (channel->is_stream && !channel->has_failed) watch(EPOLL_CTL_DEL, channel->fd, 0, what(channel->number));
    channel->has_failed = channel->is_stream;
    tell_failure(channel->number, why);
}

/* The number of a scope, which is the name of an interface or that number. */
static uint32_t scope_of(const char *text, size_t length) {
    char scope[IF_NAMESIZE];
    snprintf(scope, sizeof scope, "%.*s", (int)length, text);
    uint32_t number = if_nametoindex(scope);
    return number != 0 ? number : (uint32_t)strtoul(scope, NULL, 10);
}

/* The address of the server stands in front, and the scope of a link-local one behind it. */
static socklen_t read_server(const yimarotu_action *open, union address *server) {
    if (open->family == 4) {
        server->v4 = (struct sockaddr_in){.sin_family = AF_INET, .sin_port = htons(open->port)};
        memcpy(&server->v4.sin_addr, room, 4);
        return sizeof server->v4;
    }
    server->v6 = (struct sockaddr_in6){.sin6_family = AF_INET6, .sin6_port = htons(open->port)};
    memcpy(&server->v6.sin6_addr, room, 16);
    if (open->length > 16) server->v6.sin6_scope_id = scope_of((const char *)room + 16, open->length - 16);
    return sizeof server->v6;
}

static int socket_for(const union address *server, bool is_stream) {
    int on = 1, type = (is_stream ? SOCK_STREAM : SOCK_DGRAM) | SOCK_NONBLOCK | SOCK_CLOEXEC;
    int fd = socket(server->any.sa_family, type, 0);
    if (fd < 0) return fd;
    if (is_stream) setsockopt(fd, IPPROTO_TCP, TCP_NODELAY, &on, sizeof on);
    else ignore_path_mtu(fd, server->any.sa_family);
    return fd;
}

/* A socket that was not connected is closed at once: it has a port by then, and would hear anybody. What the library
 * still says of its channel finds none. */
void open_channel(const yimarotu_action *open) {
    union address server;
    socklen_t length = read_server(open, &server);
    bool is_stream = open->protocol == YIMAROTU_STREAM;
    struct channel *channel = malloc(sizeof *channel), **link = link_of(open->channel);
    int fd = channel != NULL ? socket_for(&server, is_stream) : -1;
    bool is_watched = fd >= 0 && watch(EPOLL_CTL_ADD, fd, EPOLLIN, what(open->channel));
    if (!is_watched || (connect(fd, &server.any, length) != 0 && errno != EINPROGRESS)) {
        int error = errno;
        tell_failure(open->channel, is_local(error, &server, is_stream) ? YIMAROTU_CHANNEL_LOCAL : why_failed(error));
        if (fd >= 0) close(fd);
        return free(channel);
    }
    *channel = (struct channel){.number = open->channel, .fd = fd, .is_stream = is_stream, .next = *link};
    *link = channel;
}

/* Sends what waits on a stream as far as it goes; before it is connected nothing does. That it was closed is told when
 * all was received that had come before. */
static void send_kept(struct channel *channel) {
    ssize_t sent = send(channel->fd, channel->out.at, channel->out.length, MSG_NOSIGNAL);
    if (sent < 0 && (errno == ENOBUFS || errno == ENOMEM)) return fail(channel, why_failed(errno));
    bool is_closed = sent < 0 && errno != EAGAIN && errno != EINTR;
    if (sent > 0 || is_closed) drop(&channel->out, is_closed ? channel->out.length : (size_t)sent);
    watch(EPOLL_CTL_MOD, channel->fd, EPOLLIN | (channel->out.length > 0 ? EPOLLOUT : 0), what(channel->number));
}

void send_on_channel(uint64_t number, const uint8_t *octets, size_t length) {
    struct channel *channel = *link_of(number);
    if (channel == NULL || channel->has_failed) return;
    if (!channel->is_stream) {
        ssize_t sent = send(channel->fd, octets, length, MSG_NOSIGNAL);
        if (sent < 0 && errno != EAGAIN && errno != EINTR) fail(channel, why_failed(errno));
    } else if (channel->out.length > MOST_KEPT || !keep(&channel->out, octets, length)) {
        fail(channel, why_failed(ENOBUFS));
    } else {
        send_kept(channel);
    }
}

/* Hands in a datagram, or a piece of a stream. More is read when what is to be done about it was done: a stream that is
 * closed takes what is not looked at with it. A piece for which there was no memory would lack. */
static void receive(struct channel *channel) {
    ssize_t got = recv(channel->fd, room, sizeof room, 0);
    if (got < 0 && (errno == EAGAIN || errno == EINTR)) return;
    if (got < 0 || (got == 0 && channel->is_stream)) return fail(channel, why_failed(got == 0 ? 0 : errno));
    uint8_t status = yimarotu_forwarder_came(&forwarder, channel->number, room, (size_t)got, moment);
    if (status == YIMAROTU_NO_MEMORY && channel->is_stream) fail(channel, why_failed(ENOMEM));
}

/* Takes a datagram, or an error, away; gives whether there was one. */
static bool has_datagram(const struct channel *channel) {
    return recv(channel->fd, room, sizeof room, 0) >= 0 || (errno != EAGAIN && errno != EINTR);
}

void on_channel(uint64_t number, uint32_t events) {
    struct channel *channel = *link_of(number);
    if (channel == NULL || channel->has_failed) return;
    if (events & ~(uint32_t)EPOLLOUT) receive(channel);
    else send_kept(channel);
}

/* Datagrams are read and not looked at. Of a stream it is not known what came by when: it is closed. */
void let_go_of_what_came(void) {
    for (size_t at = 0; at < BUCKETS; at++)
        for (struct channel *channel = channels[at]; channel != NULL; channel = channel->next) {
            if (channel->is_stream && !channel->has_failed) fail(channel, why_failed(0));
            for (int turn = 0; !channel->is_stream && turn < MOST_LET_GO && has_datagram(channel); turn++);
        }
}

void close_channel(uint64_t number) {
    struct channel **link = link_of(number), *channel = *link;
    if (channel == NULL) return;
    *link = channel->next;
    close(channel->fd);
    drop(&channel->out, channel->out.length);
    free(channel);
    accept_again();
}

void close_channels(void) {
    for (size_t at = 0; at < BUCKETS; at++)
        while (channels[at] != NULL) close_channel(channels[at]->number);
}
