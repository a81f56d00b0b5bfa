/* Clients by TCP, and those of the control socket. None waits for another: what a client does not take waits with its
 * connection, and past a bound the connection is closed (RFC 7766, section 6.2.3). */
#include "forward.h"

#include <errno.h>
#include <netinet/tcp.h>
#include <stdlib.h>
#include <string.h>
#include <unistd.h>

/* How many connections there may be, and how many of them clients have: the other places are for yimarotu-control, which
 * nobody keeps out. For how many milliseconds one may be idle. */
enum { CONNECTIONS = 1024, OF_CLIENTS = CONNECTIONS - 16, IDLE = 10000 };
/* How many octets wait to be sent on one; how many may, while more of its queries are taken; how many of these wait. */
enum { MOST_KEPT = 1 << 18, FEW_KEPT = 1 << 16, MOST_WAITING = 128 };
enum { LONGEST_LINE = 1100, ANSWER = 65536 };
/* How many queries of one connection are taken before others have their turn; how many connections one client has, and of
 * these one address of IPv6: one client is a network of 64 bits, as the library counts them, which may be a whole LAN. */
enum { MOST_AT_ONCE = 16, MOST_OF_CLIENT = 256, MOST_OF_ADDRESS = 64, NETWORK = 8, ADDRESS = 16 /* octets */ };

struct connection {
    uint64_t number; /* 0 where the place is free */
    int fd;
    bool is_control, is_over; /* the client sends no more */
    uint32_t events;
    uint64_t since; /* when the last query was taken, or octets were sent */
    size_t waiting; /* queries */
    union address client;
    struct octets in, out;
};

static struct connection connections[CONNECTIONS];

static struct connection *connection_of(uint64_t number) {
    struct connection *connection = &connections[number % CONNECTIONS];
    return connection->number == number ? connection : NULL;
}

/* What its queries wait for is not ended by that: so their places stay taken until it is there, and nobody begins look-ups
 * past the bounds by coming and going. Their replies find no connection of its number. */
static void close_connection(struct connection *connection) {
    close(connection->fd);
    drop(&connection->in, connection->in.length);
    drop(&connection->out, connection->out.length);
    connection->number = 0;
    counts.connections--;
    accept_again();
}

void close_connections(void) {
    for (struct connection *at = connections; at < connections + CONNECTIONS; at++)
        if (at->number != 0) close_connection(at);
}

/* ---- what is watched for */

static size_t length_at(const struct octets *in, size_t at) { return (size_t)in->at[at] << 8 | in->at[at + 1]; }

static bool is_whole(const struct octets *in, size_t at) {
    return in->length - at >= 2 && in->length - at - 2 >= length_at(in, at);
}

static bool may_ask(const struct connection *connection) {
    return connection->out.length <= FEW_KEPT && connection->waiting < MOST_WAITING;
}

/* Queries that are held go on when they may: this is told at once, since the connection can be written to. One that is
 * over is closed when all was sent. */
static void settle(struct connection *connection) {
    bool may = may_ask(connection), is_held = !connection->is_control && is_whole(&connection->in, 0);
    if (connection->is_over && connection->waiting == 0 && connection->out.length == 0 && !is_held)
        return close_connection(connection);
    uint32_t events = (may && !is_held && !connection->is_over ? EPOLLIN : 0)
        | (connection->out.length > 0 || (may && is_held) ? EPOLLOUT : 0);
    if (events != connection->events) watch(EPOLL_CTL_MOD, connection->fd, events, connection->number);
    connection->events = events;
}

/* ---- replies */

/* Sends as much as goes; gives whether the connection is still there. */
static bool send_now(struct connection *connection) {
    if (connection->out.length == 0) return true;
    ssize_t sent = send(connection->fd, connection->out.at, connection->out.length, MSG_NOSIGNAL);
    if (sent < 0 && errno != EAGAIN && errno != EINTR) return close_connection(connection), false;
    if (sent > 0) drop(&connection->out, (size_t)sent), connection->since = moment;
    return true;
}

/* The reply behind its length (RFC 1035, section 4.2.2); gives whether the connection is still there. */
static bool reply_on(struct connection *connection, const uint8_t *reply, size_t length) {
    uint8_t prefix[2] = {(uint8_t)(length >> 8), (uint8_t)length};
    bool is_first = connection->out.length == 0;
    bool is_full = connection->out.length > MOST_KEPT;
    if (is_full || !keep(&connection->out, prefix, 2) || !keep(&connection->out, reply, length))
        return counts.closed_full++, close_connection(connection), false;
    log_reply(&connection->client, true, reply, length);
    return !is_first || send_now(connection);
}

void on_stream_reply(uint64_t number, const uint8_t *reply, size_t length) {
    struct connection *connection = connection_of(number);
    if (connection == NULL) return;
    connection->waiting--;
    connection->since = moment;
    if (reply_on(connection, reply, length)) settle(connection);
}

/* ---- what comes */

/* Hands in the queries that came whole, as long as more may; gives whether the connection is still there. */
static bool take_queries(struct connection *connection) {
    const uint8_t *address;
    size_t address_length = octets_of_address(&connection->client, &address), at = 0;
    for (int turn = 0; turn < MOST_AT_ONCE && may_ask(connection) && is_whole(&connection->in, at); turn++) {
        size_t length = length_at(&connection->in, at);
        const uint8_t *query = connection->in.at + at + 2;
        yimarotu_queried queried = yimarotu_forwarder_query(&forwarder, connection->number, address, address_length,
                                                            true, query, length, moment, room, sizeof room);
        at += 2 + length;
        connection->since = moment;
        if (queried.status == YIMAROTU_NO_MEMORY) return close_connection(connection), false;
        if (queried.status == YIMAROTU_OK && queried.answered == YIMAROTU_QUERY_WAITS) connection->waiting++;
        if (queried.status == YIMAROTU_OK && queried.answered == YIMAROTU_REPLIED
            && !reply_on(connection, room, queried.length))
            return false;
    }
    drop(&connection->in, at);
    return true;
}

/* One line, and what is answered to it ends the connection. */
static bool take_line(struct connection *connection) {
    static char answer[ANSWER];
    char line[LONGEST_LINE];
    struct octets *in = &connection->in;
    uint8_t *end = in->length > 0 ? memchr(in->at, '\n', in->length) : NULL;
    if (end == NULL && in->length < LONGEST_LINE) return true;
    if (end == NULL || end - in->at >= LONGEST_LINE) return close_connection(connection), false;
    memcpy(line, in->at, (size_t)(end - in->at));
    line[end - in->at] = 0;
    drop(in, in->length);
    connection->is_over = true;
    size_t length = obey(line, answer, sizeof answer);
    if (!keep(&connection->out, (uint8_t *)answer, length)) return close_connection(connection), false;
    return send_now(connection);
}

/* Reads what is there, but no more than one message behind its length; gives whether the connection is still there. */
static bool read_some(struct connection *connection) {
    static uint8_t octets[2 + MESSAGE];
    if (connection->in.length == sizeof octets) return true;
    ssize_t got = recv(connection->fd, octets, sizeof octets - connection->in.length, 0);
    if (got == 0) connection->is_over = true;
    bool has_failed = got < 0 && errno != EAGAIN && errno != EINTR;
    if (has_failed || (got > 0 && !keep(&connection->in, octets, (size_t)got)))
        return close_connection(connection), false;
    return true;
}

/* Whether nothing is to be had of it. Of a command whose sender is gone the octets are there all the same. */
static bool is_lost(const struct connection *connection, uint32_t events) {
    bool has_command = connection->is_control && (events & EPOLLIN) != 0;
    return (events & EPOLLERR) != 0 || ((events & EPOLLHUP) != 0 && !has_command);
}

void on_connection(uint64_t number, uint32_t events) {
    struct connection *connection = connection_of(number);
    if (connection == NULL) return;
    if (is_lost(connection, events)) return close_connection(connection);
    if (!send_now(connection) || ((events & EPOLLIN) && !read_some(connection))) return;
    if (connection->is_control ? take_line(connection) : take_queries(connection)) settle(connection);
}

/* ---- connections come and go */

/* Whether so many octets of both addresses are the same; of IPv4 all of them. */
static bool is_of(const struct connection *connection, const union address *client, size_t octets) {
    const uint8_t *one, *other;
    size_t length = octets_of_address(&connection->client, &one);
    return length == octets_of_address(client, &other) && memcmp(one, other, length < octets ? length : octets) == 0;
}

/* Whether something came of it that is looked at in its turn: a query that is held, or octets that are still to be read. */
static bool is_heard(const struct connection *connection) {
    uint8_t octet;
    if (may_ask(connection) && is_whole(&connection->in, 0)) return true;
    return (connection->events & EPOLLIN) != 0 && recv(connection->fd, &octet, 1, MSG_PEEK) > 0;
}

/* The connection, of this client or (NULL) of all, that has been idle for the longest time, or NULL. One of which
 * something came by now is not idle: it is read at its turn. */
static struct connection *longest_idle(const union address *client, size_t octets) {
    struct connection *found;
    do {
        found = NULL;
        for (struct connection *at = connections; at < connections + OF_CLIENTS; at++)
            if (at->number != 0 && at->waiting == 0 && at->since < moment && (client == NULL || is_of(at, client, octets))
                && (found == NULL || at->since < found->since))
                found = at;
    } while (found != NULL && is_heard(found) && (found->since = moment));
    return found;
}

/* A free place, or else that of the client's connection that was idle for the longest time, or NULL. No command of
 * yimarotu-control gives way to another one. */
static struct connection *place_for(bool is_control) {
    struct connection *at = connections + (is_control ? OF_CLIENTS : 0);
    struct connection *end = connections + (is_control ? CONNECTIONS : OF_CLIENTS);
    while (at < end && at->number != 0) at++;
    return at < end ? at : is_control ? NULL : longest_idle(NULL, 0);
}

static void begin(struct connection *connection, const struct listener *listener, int fd, const union address *client) {
    static uint64_t turn;
    int on = 1;
    uint64_t number = 1ull << FROM_STREAM | ++turn * CONNECTIONS | (uint64_t)(connection - connections);
    if (connection->number != 0) close_connection(connection);
    if (!watch(EPOLL_CTL_ADD, fd, EPOLLIN, number)) return (void)close(fd);
    if (!listener->is_control) setsockopt(fd, IPPROTO_TCP, TCP_NODELAY, &on, sizeof on);
    *connection = (struct connection){
        .number = number, .fd = fd, .is_control = listener->is_control, .events = EPOLLIN,
        .since = moment, .client = *client,
    };
    counts.connections++;
}

/* One connection more than a share takes the place of another one of that, which is idle. */
static bool has_share(const union address *client, size_t octets, size_t most) {
    size_t count = 0;
    for (struct connection *at = connections; at < connections + OF_CLIENTS; at++)
        if (at->number != 0 && is_of(at, client, octets)) count++;
    struct connection *idle = count < most ? NULL : longest_idle(client, octets);
    if (idle != NULL) close_connection(idle);
    return count < most || idle != NULL;
}

/* No client has more than its share, and no host of a network of IPv6 has all of that; ::1 is a network by itself. */
static bool may_connect(const union address *client) {
    const uint8_t *octets;
    bool has_neighbours = octets_of_address(client, &octets) == ADDRESS && memcmp(octets, &in6addr_loopback, ADDRESS) != 0;
    return (!has_neighbours || has_share(client, ADDRESS, MOST_OF_ADDRESS))
        && has_share(client, NETWORK, MOST_OF_CLIENT);
}

/* Something may have come by now of the connection that was to give way: then there is no place. */
static void take_connection(const struct listener *listener, int fd, const union address *client) {
    bool may_begin = listener->is_control || may_connect(client);
    struct connection *place = may_begin ? place_for(listener->is_control) : NULL;
    if (place != NULL) begin(place, listener, fd, client);
    else close(fd);
}

/* Without a file, or a place, for another connection, those that come wait until one is closed. */
void on_connecting(const struct listener *listener) {
    for (int turn = 0; turn < BATCH; turn++) {
        union address client = {0};
        socklen_t length = sizeof client;
        if (place_for(listener->is_control) == NULL) return pause_accepting(listener);
        int fd = accept4(listener->fd, &client.any, &length, SOCK_NONBLOCK | SOCK_CLOEXEC);
        if (fd >= 0) take_connection(listener, fd, &client);
        else if (errno == EAGAIN) return;
        else if (errno != ECONNABORTED && errno != EINTR) return pause_accepting(listener);
    }
}

/* Once a second. Where the program could not run for long, what came meanwhile is still to be read: so one is closed that
 * was idle when it was looked at before, too, but for that second. */
void expire_connections(void) {
    static uint64_t looked_at;
    for (struct connection *at = connections; at < connections + CONNECTIONS; at++)
        if (at->number != 0 && at->waiting == 0 && moment - at->since >= IDLE && looked_at + SECOND >= at->since + IDLE)
            close_connection(at);
    looked_at = moment;
}
