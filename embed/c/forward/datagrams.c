/* Clients by UDP: many datagrams are received, and many sent, by one call of the system. */
#include "forward.h"

#include <errno.h>
#include <stdlib.h>
#include <string.h>
#include <sys/random.h>

/* The library takes no query for longer than it is, and replies by UDP with at most 1,232 octets. */
enum { LONGEST_QUERY = 4096, LONGEST_REPLY = 1232, CLIENTS = 1 << 16, BUCKETS = 1 << 13, NOBODY = 0 };
enum { CONTROL = CMSG_SPACE(sizeof(struct in6_pktinfo)) };

/* The way that a query came, and its reply goes. What is not said is 0: equal ways have equal octets. */
struct way {
    int fd;
    union address client;
    union {
        struct in_pktinfo v4;
        struct in6_pktinfo v6;
    } asked; /* the address that was asked */
};

/* A client of whose queries some wait. It has a number as long as they do, by which a query sent again is known. */
struct client {
    struct way way;
    uint32_t turn, waiting;
    struct client *next; /* in its bucket, or of those without one */
};

struct batch {
    struct mmsghdr headers[BATCH];
    struct iovec parts[BATCH];
    struct way ways[BATCH];
    _Alignas(struct cmsghdr) uint8_t controls[BATCH][CONTROL];
};

static struct client clients[CLIENTS], *buckets[BUCKETS], *without;
static size_t used = NOBODY + 1;
static struct batch received, sent;
static uint8_t queries[BATCH][LONGEST_QUERY], replies[BATCH][LONGEST_REPLY];
static unsigned sent_count;

/* ---- numbers of clients */

/* By a sum whose factors nobody knows: no list of addresses falls into one bucket. */
static struct client **bucket_of(const struct way *way) {
    enum { PARTS = sizeof *way / sizeof(uint32_t) };
    static uint64_t factors[PARTS];
    uint32_t parts[PARTS];
    uint64_t sum = 0;
    if (factors[0] == 0 && getrandom(factors, sizeof factors, 0) != sizeof factors) abort();
    memcpy(parts, way, sizeof parts);
    for (size_t at = 0; at < PARTS; at++) sum += (factors[at] | 1) * parts[at];
    return &buckets[sum >> 32 & (BUCKETS - 1)];
}

static uint64_t number_of(const struct client *client) {
    return (uint64_t)client->turn << 16 | (uint64_t)(client - clients);
}

/* The client that waits already, or a place for it, or that of nobody. */
static struct client *client_of(const struct way *way, struct client **bucket) {
    struct client *client = *bucket;
    while (client != NULL && memcmp(&client->way, way, sizeof *way) != 0) client = client->next;
    if (client != NULL) return client;
    client = without != NULL ? without : used < CLIENTS ? &clients[used] : &clients[NOBODY];
    client->way = *way;
    return client;
}

/* The first of its queries waits: the place is taken. */
static void take_place(struct client *client, struct client **bucket) {
    if (client == without) without = client->next;
    else used++;
    client->next = *bucket, *bucket = client;
}

static void give_back(struct client *client) {
    struct client **link = bucket_of(&client->way);
    while (*link != client) link = &(*link)->next;
    *link = client->next;
    client->turn++;
    client->next = without, without = client;
}

/* ---- replies */

static void put_asked(const struct way *way, struct msghdr *header) {
    bool is_v4 = way->client.any.sa_family == AF_INET;
    size_t length = is_v4 ? sizeof way->asked.v4 : sizeof way->asked.v6;
    header->msg_controllen = CMSG_SPACE(length);
    struct cmsghdr *part = CMSG_FIRSTHDR(header);
    part->cmsg_level = is_v4 ? IPPROTO_IP : IPPROTO_IPV6;
    part->cmsg_type = is_v4 ? IP_PKTINFO : IPV6_PKTINFO;
    part->cmsg_len = CMSG_LEN(length);
    memcpy(CMSG_DATA(part), &way->asked, length);
}

/* What cannot be sent at once is lost, as a datagram may be. */
void send_datagrams(void) {
    unsigned at = 0;
    while (at < sent_count) {
        int done = sendmmsg(sent.ways[0].fd, sent.headers + at, sent_count - at, 0);
        if (done > 0) at += (unsigned)done;
        else if (errno != EINTR) at++, counts.lost_replies++;
    }
    sent_count = 0;
}

static void gather(const struct way *way, const uint8_t *reply, size_t length) {
    if (length > LONGEST_REPLY) return (void)counts.lost_replies++;
    if (sent_count == BATCH || (sent_count > 0 && sent.ways[0].fd != way->fd)) send_datagrams();
    struct msghdr *header = &sent.headers[sent_count].msg_hdr;
    memcpy(replies[sent_count], reply, length);
    sent.ways[sent_count] = *way;
    sent.parts[sent_count] = (struct iovec){replies[sent_count], length};
    *header = (struct msghdr){
        .msg_name = &sent.ways[sent_count].client, .msg_iov = &sent.parts[sent_count], .msg_iovlen = 1,
        .msg_namelen = way->client.any.sa_family == AF_INET ? sizeof way->client.v4 : sizeof way->client.v6,
        .msg_control = sent.controls[sent_count], .msg_controllen = CONTROL,
    };
    put_asked(way, header);
    sent_count++;
    log_reply(&way->client, false, reply, length);
}

void on_datagram_reply(uint64_t number, const uint8_t *reply, size_t length) {
    struct client *client = &clients[number % CLIENTS];
    if (client->waiting == 0 || number_of(client) != number) return;
    gather(&client->way, reply, length);
    if (--client->waiting == 0) give_back(client);
}

/* ---- queries */

size_t octets_of_address(const union address *address, const uint8_t **octets) {
    bool is_v4 = address->any.sa_family == AF_INET;
    const uint8_t *v6 = address->v6.sin6_addr.s6_addr;
    bool is_mapped = !is_v4 && IN6_IS_ADDR_V4MAPPED(&address->v6.sin6_addr);
    *octets = is_v4 ? (const uint8_t *)&address->v4.sin_addr : is_mapped ? v6 + 12 : v6;
    return is_v4 || is_mapped ? 4 : 16;
}

static void take_query(const struct way *way, const uint8_t *query, size_t length) {
    const uint8_t *address;
    size_t address_length = octets_of_address(&way->client, &address);
    struct client **bucket = bucket_of(way), *client = client_of(way, bucket);
    yimarotu_queried queried = yimarotu_forwarder_query(&forwarder, number_of(client), address, address_length, false,
                                                        query, length, moment, room, sizeof room);
    if (queried.status != YIMAROTU_OK || queried.answered == YIMAROTU_DROPPED) return;
    if (queried.answered == YIMAROTU_REPLIED) return gather(way, room, queried.length);
    if (client == &clients[NOBODY]) yimarotu_forwarder_gone(&forwarder, number_of(client));
    else if (client->waiting++ == 0) take_place(client, bucket);
}

/* Whether an address means something on one interface alone (RFC 3927, section 3; RFC 4291, section 2.5.6). */
static bool is_of_link(const union address *address) {
    const uint8_t *octets;
    if (octets_of_address(address, &octets) == 4) return octets[0] == 169 && octets[1] == 254;
    return IN6_IS_ADDR_LINKLOCAL(&address->v6.sin6_addr);
}

/* The way of a datagram. An interface counts only for a client whose address means something on that alone, and where such
 * an address of IPv6 was asked, which the system takes as a source by its interface alone. By IPv4 it finds the way from one
 * itself: to another address of this machine none leads by the interface. */
static struct way way_of(int fd, struct msghdr *header) {
    struct way way = {.fd = fd};
    memcpy(&way.client, header->msg_name, header->msg_namelen);
    for (struct cmsghdr *part = CMSG_FIRSTHDR(header); part != NULL; part = CMSG_NXTHDR(header, part)) {
        struct in_pktinfo v4;
        if (part->cmsg_level == IPPROTO_IP && part->cmsg_type == IP_PKTINFO) {
            memcpy(&v4, CMSG_DATA(part), sizeof v4);
            way.asked.v4.ipi_spec_dst = v4.ipi_spec_dst;
            if (is_of_link(&way.client)) way.asked.v4.ipi_ifindex = v4.ipi_ifindex;
        }
        if (part->cmsg_level == IPPROTO_IPV6 && part->cmsg_type == IPV6_PKTINFO) {
            memcpy(&way.asked.v6, CMSG_DATA(part), sizeof way.asked.v6);
            if (!is_of_link(&way.client) && !IN6_IS_ADDR_LINKLOCAL(&way.asked.v6.ipi6_addr)) way.asked.v6.ipi6_ifindex = 0;
        }
    }
    return way;
}

void on_datagrams(int fd) {
    for (size_t at = 0; at < BATCH; at++) {
        received.parts[at] = (struct iovec){queries[at], LONGEST_QUERY};
        received.headers[at].msg_hdr = (struct msghdr){
            .msg_name = &received.ways[at].client, .msg_namelen = sizeof received.ways[at].client,
            .msg_iov = &received.parts[at], .msg_iovlen = 1,
            .msg_control = received.controls[at], .msg_controllen = CONTROL,
        };
    }
    int count = recvmmsg(fd, received.headers, BATCH, 0, NULL);
    for (int at = 0; at < count; at++) {
        struct way way = way_of(fd, &received.headers[at].msg_hdr);
        take_query(&way, queries[at], received.headers[at].msg_len);
    }
}
