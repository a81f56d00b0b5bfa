/* A session that asks by itself, over a network that stands in: a server is a function from a question to a reply. Looks up
 * names by the thousand, hands in replies that are cut, changed, forged and late, streams that are cut anywhere, and calls
 * that do not fit; and looks whether a seed and events tell all that is sent. Prints what is wrong, and at last
 * `N passed, M failed`. */
#include <stdio.h>
#include <stdlib.h>
#include <string.h>
#include <sys/wait.h>
#include <unistd.h>

#include "yimarotu.h"

#define BYTES(text) (const uint8_t *)(text), sizeof(text) - 1

enum { ROOM = 1024, HEADER = 12, A = 1, CROWD = 10000, MOST = 4096 + 4096, CHANGES = 100000, QUEUE = 1 << 14 };

static int passed, failed;

static void tell(const char *name, bool is_right) {
    passed += is_right, failed += !is_right;
    if (!is_right) printf("wrong: %s\n", name);
}

/* ---- the server: whatever A record is asked, its address is 192.0.2. and the last octet of the sum of the name */

static unsigned number_at(const uint8_t *bytes) { return 256u * bytes[0] + bytes[1]; }

static size_t end_of_name(const uint8_t *message) {
    size_t at = HEADER;
    while (message[at] != 0) at += message[at] + 1u;
    return at + 1;
}

static uint8_t sum_of_name(const uint8_t *message) {
    uint8_t sum = 0;
    for (size_t at = HEADER; at < end_of_name(message); at++) sum = (uint8_t)(sum * 31 + (message[at] | 32));
    return sum;
}

/* The reply to a question, in a room of ROOM octets; it says that it is truncated, where that is wanted. */
static size_t reply_to(const uint8_t *question, bool is_truncated, uint8_t *reply) {
    size_t length = end_of_name(question) + 4;
    const uint8_t answer[] = {0xc0, 0x0c, 0, 1, 0, 1, 0, 0, 0, 60, 0, 4, 192, 0, 2, sum_of_name(question)};
    memset(reply, 0, HEADER);
    memcpy(reply, question, length);
    reply[2] = is_truncated ? 0x83 : 0x81, reply[3] = 0x80, reply[7] = !is_truncated, reply[11] = 0;
    if (is_truncated) return length;
    memcpy(reply + length, answer, sizeof answer);
    return length + sizeof answer;
}

/* ---- a program around a session */

typedef struct sent {
    uint64_t channel;
    uint8_t protocol;
    size_t length;
    uint8_t octets[ROOM];
} sent;

static yimarotu_session session = YIMAROTU_SESSION;
static sent queue[QUEUE];
static size_t first, behind;
static uint64_t streams[64], told; /* channels that are streams; a sum over all that was to be done */
static size_t stream_count, done_count;
static uint64_t latest; /* the latest moment that was told */

static bool is_stream(uint64_t channel) {
    for (size_t at = 0; at < stream_count && at < 64; at++)
        if (streams[at] == channel) return true;
    return false;
}

static void add_to_sum(const void *bytes, size_t length) {
    for (size_t at = 0; at < length; at++) told = (told ^ ((const uint8_t *)bytes)[at]) * 0x100000001b3u;
}

/* Does what is to be done, into the queue; false where a call does not end well. */
static bool act(void) {
    static uint8_t room[ROOM];
    for (;;) {
        yimarotu_action next = yimarotu_next(&session, room, sizeof room);
        if (next.status != YIMAROTU_OK) return false;
        add_to_sum(&next.kind, 1), add_to_sum(&next.channel, 8), add_to_sum(&next.number, 8), add_to_sum(room, next.length);
        if (next.kind == YIMAROTU_NOTHING) return true;
        if (next.kind == YIMAROTU_OPEN && next.protocol == YIMAROTU_STREAM) streams[stream_count++ % 64] = next.channel;
        if (next.kind == YIMAROTU_LOOKED_UP) done_count++;
        if (next.kind != YIMAROTU_SEND) continue;
        sent *new = &queue[behind++ % QUEUE];
        new->channel = next.channel, new->length = next.length;
        new->protocol = is_stream(next.channel) ? YIMAROTU_STREAM : YIMAROTU_DATAGRAM;
        memcpy(new->octets, room, next.length);
    }
}

static bool open_over(uint8_t seed_octet, const char *settings, const char *hosts) {
    uint8_t seed[32];
    memset(seed, seed_octet, sizeof seed);
    first = behind = stream_count = done_count = 0;
    told = 0xcbf29ce484222325u;
    return yimarotu_open(&session, BYTES(""), BYTES("host.example"), (const uint8_t *)settings, strlen(settings),
                         (const uint8_t *)hosts, strlen(hosts), seed, sizeof seed, 1000).status == YIMAROTU_OK;
}

static bool open_with(uint8_t seed_octet, const char *settings) { return open_over(seed_octet, settings, ""); }

static const char ONE[] = "server 192.0.2.53\noption ip_strategy Ipv4Only\n";

/* A look-up of the addresses of a host, and of that of a number. */
static bool start_host(uint64_t number, const char *host, uint64_t moment) {
    latest = moment;
    yimarotu_progress progress = yimarotu_start_ip(&session, number, (const uint8_t *)host, strlen(host), moment);
    return progress.status == YIMAROTU_OK && act();
}

static bool start(uint64_t number, uint64_t moment) {
    char name[64];
    snprintf(name, sizeof name, "w%llu.example.", (unsigned long long)number);
    return start_host(number, name, moment);
}

static bool cancel(uint64_t number, uint64_t moment) {
    latest = moment;
    return yimarotu_cancel(&session, number, moment) == YIMAROTU_OK && act();
}

static bool came(uint64_t channel, const uint8_t *octets, size_t length, uint64_t moment) {
    latest = moment;
    return yimarotu_came(&session, channel, octets, length, moment) == YIMAROTU_OK && act();
}

/* Whether a look-up came to the address that the server has for its name. */
static bool has_address(uint64_t number) {
    yimarotu_address room[2];
    uint8_t question[80] = {0};
    char name[64];
    int length = snprintf(name, sizeof name, "w%llu", (unsigned long long)number);
    question[HEADER] = (uint8_t)length;
    memcpy(question + HEADER + 1, name, (size_t)length);
    memcpy(question + HEADER + 1 + length, "\7example", 9);
    yimarotu_found found = yimarotu_addresses(&session, number, latest, room, sizeof room);
    return found.status == YIMAROTU_OK && found.error == YIMAROTU_FOUND && found.count == 1 && found.ttl <= 60
        && room[0].family == 4 && memcmp(room[0].octets, "\300\0\2", 3) == 0 && room[0].octets[3] == sum_of_name(question);
}

static uint8_t error_of(uint64_t number) {
    yimarotu_address room[1];
    yimarotu_found found = yimarotu_addresses(&session, number, 1000, room, sizeof room);
    return found.status == YIMAROTU_OK ? found.error : 255;
}

/* ---- the tests */

/* So many at once: as many as are in flight and wait are answered, and those past that are told that there was no place. */
static bool crowd(uint8_t seed) {
    uint8_t reply[ROOM];
    bool is_right = open_with(seed, ONE);
    for (uint64_t number = 1; is_right && number <= CROWD; number++) is_right = start(number, 1000);
    for (; is_right && first < behind; first++) {
        sent *question = &queue[first % QUEUE];
        is_right = came(question->channel, reply, reply_to(question->octets, false, reply), 1001);
    }
    for (uint64_t number = 1; is_right && number <= CROWD; number++)
        is_right = number <= MOST ? has_address(number) : error_of(number) == YIMAROTU_UPSTREAM;
    is_right = is_right && done_count == CROWD;
    yimarotu_statistics_told statistics = yimarotu_statistics(&session);
    is_right = is_right && statistics.started == CROWD && statistics.sent == MOST && statistics.timed_out == 0
            && statistics.entries == MOST;
    yimarotu_close(&session);
    return is_right;
}

static void crowds(void) {
    uint64_t sums[3];
    for (int turn = 0; turn < 3; turn++) {
        tell("ten thousand look-ups at once", crowd(turn == 2 ? 8 : 7));
        sums[turn] = told;
    }
    tell("a seed and events tell all that is sent", sums[0] == sums[1]);
    tell("another seed sends something else", sums[0] != sums[2]);
}

/* A reply of which a part is missing is never an answer, and the whole one is. */
static void prefixes(void) {
    uint8_t reply[ROOM];
    bool is_right = open_with(1, ONE);
    uint64_t number = 0;
    for (size_t length = 0, whole = 1; is_right && length < whole; length++) {
        is_right = start(++number, 1000);
        sent *question = &queue[(behind - 1) % QUEUE];
        whole = reply_to(question->octets, false, reply);
        is_right = is_right && came(question->channel, reply, length, 1000) && error_of(number) != YIMAROTU_FOUND;
        is_right = is_right && cancel(number, 1000);
        is_right = is_right && start(++number, 1000);
        question = &queue[(behind - 1) % QUEUE];
        is_right = is_right && came(question->channel, reply, reply_to(question->octets, false, reply), 1000);
        is_right = is_right && has_address(number) && cancel(number, 1000);
    }
    tell("every part of a reply, and the whole", is_right && number > 80);
    yimarotu_close(&session);
}

/* A reply that was changed: where the id, the QR bit, the type or the class is another one it is never believed. */
static void changes(void) {
    uint8_t reply[ROOM], whole[ROOM];
    bool is_right = open_with(2, ONE);
    srand(1);
    for (uint64_t number = 1; is_right && number <= CHANGES; number++) {
        is_right = start(number, 1000 + number);
        sent *question = &queue[(behind - 1) % QUEUE];
        size_t length = reply_to(question->octets, false, whole), end = end_of_name(whole) + 4;
        memcpy(reply, whole, length);
        for (int left = 1 + rand() % 3; left > 0; left--) reply[(size_t)rand() % length] ^= (uint8_t)(1u << rand() % 8);
        if (rand() % 8 == 0) length = (size_t)rand() % (length + 1);
        bool is_other = length < end || memcmp(reply, whole, 2) != 0 || reply[2] < 128
                     || memcmp(reply + end - 4, whole + end - 4, 4) != 0;
        is_right = is_right && came(question->channel, reply, length, 1000 + number);
        is_right = is_right && !(is_other && error_of(number) == YIMAROTU_FOUND);
        is_right = is_right && cancel(number, 1000 + number);
    }
    tell("a hundred thousand changed replies", is_right);
    yimarotu_close(&session);
}

/* All other ids, on the right channel, and the right reply on all other channels; then the right one. */
static void forgeries(void) {
    uint8_t reply[ROOM];
    bool is_right = open_with(3, ONE) && start(1, 1000);
    sent *question = &queue[first % QUEUE];
    size_t length = reply_to(question->octets, false, reply);
    reply[length - 1] ^= 1;
    for (unsigned id = 0; is_right && id < 65536; id++) {
        reply[0] = (uint8_t)(id >> 8), reply[1] = (uint8_t)id;
        if (id == number_at(question->octets)) continue;
        is_right = came(question->channel, reply, length, 1000);
    }
    memcpy(reply, question->octets, 2);
    for (uint64_t channel = 0; is_right && channel < 1000; channel++)
        is_right = channel == question->channel || came(channel, reply, length, 1000);
    is_right = is_right && done_count == 0 && error_of(1) == 255;
    is_right = is_right && came(question->channel, reply, reply_to(question->octets, false, reply), 1000);
    tell("forged replies are not believed, and the true one is", is_right && has_address(1));
    yimarotu_close(&session);
}

/* A truncated reply is asked for again over a stream, which may be cut anywhere. */
static void cut_streams(void) {
    uint8_t reply[ROOM];
    bool is_right = open_with(4, ONE);
    uint64_t number = 0;
    for (size_t cut = 0, whole = 1; is_right && cut <= whole; cut++) {
        uint64_t moment = 1000 + 60000 * number;
        is_right = yimarotu_tick(&session, moment) == YIMAROTU_OK && act() && start(++number, moment);
        sent *question = &queue[(behind - 1) % QUEUE];
        is_right = is_right && question->protocol == YIMAROTU_DATAGRAM;
        is_right = is_right && came(question->channel, reply, reply_to(question->octets, true, reply), moment);
        question = &queue[(behind - 1) % QUEUE];
        is_right = is_right && question->protocol == YIMAROTU_STREAM && number_at(question->octets) == question->length - 2;
        size_t length = reply_to(question->octets + 2, false, reply + 2);
        reply[0] = (uint8_t)(length >> 8), reply[1] = (uint8_t)length;
        whole = length + 2;
        is_right = is_right && came(question->channel, reply, cut, moment);
        is_right = is_right && (cut == whole || error_of(number) == 255);
        is_right = is_right && came(question->channel, reply + cut, whole - cut, moment) && has_address(number);
    }
    tell("a stream that is cut anywhere", is_right && number > 40);
    yimarotu_close(&session);
}

/* A stream that is closed before its reply has come whole: the question is sent anew, on a stream of its own. */
static void closed_streams(void) {
    uint8_t reply[ROOM];
    bool is_right = open_with(10, ONE) && start(1, 1000);
    is_right = is_right && came(queue[0].channel, reply, reply_to(queue[0].octets, true, reply), 1000) && behind == 2;
    size_t length = reply_to(queue[1].octets + 2, false, reply + 2);
    reply[0] = (uint8_t)(length >> 8), reply[1] = (uint8_t)length;
    is_right = is_right && came(queue[1].channel, reply, length, 1000) && error_of(1) == 255;
    is_right = is_right && yimarotu_failed(&session, queue[1].channel, YIMAROTU_CHANNEL_CLOSED, 1000) == YIMAROTU_OK && act();
    is_right = is_right && behind == 3 && queue[2].channel != queue[1].channel && queue[2].protocol == YIMAROTU_STREAM;
    is_right = is_right && came(queue[1].channel, reply, length + 2, 1000) && error_of(1) == 255;
    length = reply_to(queue[2].octets + 2, false, reply + 2);
    tell("a stream that is closed", is_right && came(queue[2].channel, reply, length + 2, 1000) && has_address(1));
    yimarotu_close(&session);
}

/* Nobody answers: time alone ends a look-up, at the moments that the session tells. */
static void silence(void) {
    uint64_t moment = 1000, waited = 0;
    bool is_right = open_with(5, "server 192.0.2.53\nserver 192.0.2.54\noption timeout 2\noption attempts 1\n") && start(1, moment);
    for (int turn = 0; is_right && done_count == 0 && turn < 100; turn++) {
        yimarotu_waits waits = yimarotu_wait(&session, moment);
        is_right = waits.status == YIMAROTU_OK && waits.has_deadline;
        moment += waits.milliseconds, waited += waits.milliseconds;
        is_right = is_right && yimarotu_tick(&session, moment) == YIMAROTU_OK && act();
    }
    /* each of two servers, twice, for two seconds; both families are asked side by side */
    tell("silent servers", is_right && error_of(1) == YIMAROTU_TIMED_OUT && waited == 8000);
    tell("and that is counted", yimarotu_statistics(&session).timed_out == 1);
    yimarotu_close(&session);
}

/* The length of a reply that says that there is no such record, with an SOA record of its own zone. */
static size_t nothing_to(const uint8_t *question, uint8_t *reply) {
    static const uint8_t soa[] = "\xc0\x0c\0\6\0\1\0\0\0\x3c\0\x18\xc0\x0c\xc0\x0c\0\0\0\0\0\0\0\0\0\0\0\0\0\0\0\0\0\0\0\x3c";
    size_t length = end_of_name(question) + 4;
    memset(reply, 0, HEADER);
    memcpy(reply, question, length);
    reply[2] = 0x81, reply[3] = 0x80, reply[7] = 0, reply[9] = 1, reply[11] = 0;
    memcpy(reply + length, soa, sizeof soa - 1);
    return length + sizeof soa - 1;
}

static unsigned type_of(const sent *question) { return number_at(question->octets + end_of_name(question->octets)); }

/* Both families are asked at once, whichever reply comes first; and each question once. */
static void families(void) {
    uint8_t reply[ROOM];
    for (int turn = 0; turn < 2; turn++) {
        bool is_right = open_with(11, "server 192.0.2.53\noption ip_strategy Ipv4AndIpv6\n") && start(1, 1000) && behind == 2;
        is_right = is_right && type_of(&queue[0]) + type_of(&queue[1]) == 1 + 28;
        for (int at = 0; is_right && at < 2; at++) {
            sent *question = &queue[turn == 0 ? at : 1 - at];
            size_t length = type_of(question) == 1 ? reply_to(question->octets, false, reply) : nothing_to(question->octets, reply);
            is_right = done_count == 0 && came(question->channel, reply, length, 1000);
        }
        tell("both families at once", is_right && behind == 2 && done_count == 1 && has_address(1));
        yimarotu_close(&session);
    }
}

/* ---- what is asked ahead of a look-up, which asks for AAAA records first */

static const char BOTH[] = "server 192.0.2.53\noption ip_strategy Ipv6AndIpv4\n";

enum { AAAA = 28 };

/* The place in the queue of the last question of a type, and QUEUE where there is none. */
static size_t last_of(unsigned type) {
    for (size_t at = behind; at > 0; at--)
        if (type_of(&queue[at - 1]) == type) return at - 1;
    return QUEUE;
}

/* The server answers the last question of a type: with an address, that there is no such record, or with a code. */
static bool answer_last(unsigned type, uint64_t moment) {
    uint8_t reply[ROOM];
    size_t at = last_of(type);
    if (at == QUEUE) return false;
    size_t length = type == A ? reply_to(queue[at].octets, false, reply) : nothing_to(queue[at].octets, reply);
    return came(queue[at].channel, reply, length, moment);
}

static bool fail_last(unsigned type, uint64_t moment) {
    uint8_t reply[ROOM];
    size_t at = last_of(type);
    if (at == QUEUE) return false;
    size_t length = end_of_name(queue[at].octets) + 4;
    memset(reply, 0, HEADER);
    memcpy(reply, queue[at].octets, length);
    reply[2] = 0x81, reply[3] = 0x80 | 2, reply[7] = 0, reply[11] = 0;
    return came(queue[at].channel, reply, length, moment);
}

/* What the hosts, or the cache, answer is not asked ahead. */
static void answered_here(void) {
    yimarotu_address room[2];
    bool is_right = open_over(12, BOTH, "10.9.9.9 printer\n") && start_host(1, "printer.", 1000);
    tell("the hosts' question is not asked ahead", is_right && behind == 1 && type_of(&queue[0]) == AAAA);
    is_right = is_right && answer_last(AAAA, 1000) && behind == 1 && done_count == 1;
    yimarotu_found found = yimarotu_addresses(&session, 1, 1000, room, sizeof room);
    tell("and the hosts answer it", is_right && found.count == 1 && memcmp(room[0].octets, "\12\11\11\11", 4) == 0);
    yimarotu_close(&session);
    is_right = open_with(12, BOTH) && yimarotu_start(&session, 2, BYTES("w1.example."), A, 1000).waits && act();
    is_right = is_right && answer_last(A, 1000) && behind == 1 && start(1, 1000);
    tell("nor what the cache has", is_right && behind == 2 && type_of(&queue[1]) == AAAA);
    is_right = is_right && answer_last(AAAA, 1000) && behind == 2 && has_address(1);
    tell("and the cache answers it", is_right);
    yimarotu_close(&session);
}

/* What came ahead is in the cache at once: for a look-up beside it, and where the one that asked it is cancelled. */
static void heard_at_once(void) {
    bool is_right = open_with(13, BOTH) && start(1, 1000) && behind == 2 && answer_last(A, 1000) && done_count == 0;
    is_right = is_right && start_host(2, "w1.example.", 2000);
    tell("what came ahead is not asked again", is_right && behind == 2);
    is_right = is_right && answer_last(AAAA, 2000) && behind == 2 && done_count == 2 && has_address(1);
    tell("and answers both", is_right && error_of(2) == YIMAROTU_FOUND);
    yimarotu_close(&session);
    is_right = open_with(13, BOTH) && start(1, 1000) && answer_last(A, 1000) && cancel(1, 1000) && done_count == 0;
    yimarotu_progress progress = yimarotu_start(&session, 1, BYTES("w1.example."), A, 1000);
    is_right = is_right && progress.status == YIMAROTU_OK && !progress.waits && act() && behind == 2;
    tell("what came ahead of a look-up that is cancelled stays", is_right && has_address(1));
    yimarotu_close(&session);
}

static bool clear_all(void) { return yimarotu_clear(&session) == YIMAROTU_OK && act(); }

static bool clear_one(const char *name, uint16_t type) {
    return yimarotu_clear_name(&session, (const uint8_t *)name, strlen(name), type) == YIMAROTU_OK && act();
}

static bool clear_w1(void) { return clear_one("w1.EXAMPLE.", A); }
static bool clear_searched(void) { return clear_one("w1", A); }
static bool other_servers_and_clear(void) {
    return yimarotu_servers(&session, BYTES("nameserver 192.0.2.78\n"), true) == YIMAROTU_OK && act();
}

static bool clear_another(void) { return clear_one("w2.example.", A) && clear_one("w1.example.", AAAA); }
static bool clear_no_name(void) { return clear_one("w1..example.", A); }
static bool other_servers_alone(void) {
    return yimarotu_servers(&session, BYTES("nameserver 192.0.2.78\n"), false) == YIMAROTU_OK && act();
}

/* Each clear reaches what came ahead before it: an address, or a failure, which no cache has. Another one does not. */
static void cleared_ahead(void) {
    const struct { const char *name; bool (*clear)(void); bool reaches; } clears[] = {
        {"a clear reaches what came ahead", clear_all, true},
        {"a clear of its name", clear_w1, true},
        {"a clear of a name that is searched", clear_searched, true},
        {"other servers, and a clear", other_servers_and_clear, true},
        {"a clear of another name or type does not", clear_another, false},
        {"nor one of what is no name", clear_no_name, false},
        {"nor other servers alone", other_servers_alone, false},
    };
    const char settings[] = "server 192.0.2.53\noption ip_strategy Ipv6AndIpv4\nsearch example.\n";
    for (size_t at = 0; at < sizeof clears / sizeof clears[0]; at++) {
        for (int fails = 0; fails < 2; fails++) {
            bool is_right = open_with(14, settings) && start(1, 1000) && behind == 2;
            is_right = is_right && (fails ? fail_last(A, 1000) : answer_last(A, 1000)) && behind == 2;
            is_right = is_right && clears[at].clear() && behind == 2 && done_count == 0 && answer_last(AAAA, 1000);
            if (clears[at].reaches)
                is_right = is_right && behind == 3 && last_of(A) == 2 && done_count == 0 && answer_last(A, 1000);
            bool is_found = clears[at].reaches || !fails;
            is_right = is_right && done_count == 1 && behind == (clears[at].reaches ? 3u : 2u);
            tell(clears[at].name, is_right && error_of(1) == (is_found ? YIMAROTU_FOUND : YIMAROTU_NO_RECORDS));
            yimarotu_close(&session);
        }
    }
}

/* What is still in flight at a clear is kept when it comes, like any other. */
static void in_flight_at_a_clear(void) {
    bool is_right = open_with(15, BOTH) && start(1, 1000) && clear_all() && answer_last(A, 1000);
    is_right = is_right && start_host(2, "w1.example.", 1000) && behind == 2;
    is_right = is_right && answer_last(AAAA, 1000) && behind == 2 && done_count == 2;
    tell("in flight at a clear", is_right && has_address(1));
    yimarotu_close(&session);
}

/* The place of a look-up that is cancelled is taken at the moment of that: a question that waited has its time from
 * then on. */
static void places(void) {
    bool is_right = open_with(16, "server 192.0.2.53\noption ip_strategy Ipv4Only\noption timeout 2\n");
    for (uint64_t number = 1; is_right && number <= 4097; number++) is_right = start(number, 1000);
    for (uint64_t number = 1; is_right && number <= 4096; number++) is_right = cancel(number, 2500);
    yimarotu_waits waits = yimarotu_wait(&session, 2500);
    tell("a place that comes free", is_right && behind == 4097 && waits.has_deadline && waits.milliseconds == 2000);
    yimarotu_close(&session);
}

/* Channels that fail: the next server is asked; where none is left that is told. */
static void failures(void) {
    uint8_t reply[ROOM];
    bool is_right = open_with(6, "server 192.0.2.53\nserver 192.0.2.54\noption ip_strategy Ipv4Only\n") && start(1, 1000);
    is_right = is_right && yimarotu_failed(&session, queue[0].channel, YIMAROTU_CHANNEL_REFUSED, 1000) == YIMAROTU_OK && act();
    is_right = is_right && behind == 2 && queue[1].channel != queue[0].channel;
    is_right = is_right && came(queue[1].channel, reply, reply_to(queue[1].octets, false, reply), 1001);
    tell("the next server where one refuses", is_right && has_address(1));
    yimarotu_close(&session);
}

/* Servers that are read again, and a cache that stays or goes. */
static void other_servers(void) {
    uint8_t reply[ROOM];
    bool is_right = open_with(9, ONE) && start(1, 1000);
    is_right = is_right && came(queue[0].channel, reply, reply_to(queue[0].octets, false, reply), 1000);
    is_right = is_right && cancel(1, 1000);
    is_right = is_right && yimarotu_servers(&session, BYTES("nameserver 192.0.2.77\n"), false) == YIMAROTU_OK && start(1, 1000);
    tell("other servers: the cache stays", is_right && behind == 1 && has_address(1));
    is_right = cancel(1, 1000);
    is_right = is_right && yimarotu_servers(&session, BYTES("nameserver 192.0.2.78\n"), true) == YIMAROTU_OK && start(1, 1000);
    tell("other servers: the cache goes", is_right && behind == 2);
    yimarotu_close(&session);
}

static void what_does_not_fit(void) {
    uint8_t room[ROOM], seed[32] = {0};
    yimarotu_session moved;
    for (size_t length = 0; length < 40; length++) {
        uint8_t given[40] = {0};
        uint8_t status = yimarotu_open(&session, BYTES(""), BYTES(""), BYTES(""), BYTES(""), given, length, 1).status;
        tell("the length of a seed", status == (length == 32 ? YIMAROTU_OK : YIMAROTU_SEED));
        yimarotu_close(&session);
    }
    yimarotu_opened opened = yimarotu_open(&session, BYTES(""), BYTES(""), BYTES("option ndots 1\noption ndost 1\n"), BYTES(""), seed, 32, 1);
    tell("the line of a fault", opened.status == YIMAROTU_SCRIPT && opened.line == 2 && !session.is_open);
    tell("closed: next", yimarotu_next(&session, room, ROOM).status == YIMAROTU_CLOSED);
    tell("closed: came", yimarotu_came(&session, 1, room, 1, 1) == YIMAROTU_CLOSED);
    tell("closed: failed", yimarotu_failed(&session, 1, 1, 1) == YIMAROTU_CLOSED);
    tell("closed: tick", yimarotu_tick(&session, 1) == YIMAROTU_CLOSED);
    tell("closed: wait", yimarotu_wait(&session, 1).status == YIMAROTU_CLOSED);
    tell("closed: servers", yimarotu_servers(&session, BYTES(""), false) == YIMAROTU_CLOSED);
    tell("closed: statistics", yimarotu_statistics(&session).status == YIMAROTU_CLOSED);
    tell("closed: addresses", yimarotu_addresses(&session, 1, 1, (yimarotu_address *)room, ROOM).status == YIMAROTU_CLOSED);
    yimarotu_open_fed(&session, BYTES(""), BYTES(""), 1);
    tell("fed: next", yimarotu_next(&session, room, ROOM).status == YIMAROTU_IS_FED);
    tell("fed: came", yimarotu_came(&session, 1, room, 1, 1) == YIMAROTU_IS_FED);
    tell("fed: tick", yimarotu_tick(&session, 1) == YIMAROTU_IS_FED);
    tell("fed: wait", yimarotu_wait(&session, 1).status == YIMAROTU_IS_FED);
    tell("fed: servers", yimarotu_servers(&session, BYTES(""), false) == YIMAROTU_IS_FED);
    tell("fed: statistics", yimarotu_statistics(&session).status == YIMAROTU_IS_FED);
    yimarotu_close(&session);
    open_with(1, ONE);
    tell("open twice", yimarotu_open_fed(&session, BYTES(""), BYTES(""), 1).status == YIMAROTU_IS_OPEN);
    yimarotu_start(&session, 1, BYTES("w1.example."), A, 1000);
    tell("a number twice", yimarotu_start(&session, 1, BYTES("w1.example."), A, 1000).status == YIMAROTU_IN_USE);
    tell("asks itself: question", yimarotu_question(&session, 1, room, ROOM).status == YIMAROTU_ASKS_ITSELF);
    tell("asks itself: feed", yimarotu_feed(&session, 1, room, 1).status == YIMAROTU_ASKS_ITSELF);
    tell("asks itself: fail", yimarotu_fail(&session, 1, 1).status == YIMAROTU_ASKS_ITSELF);
    for (unsigned failure = 0; failure < 256; failure++)
        if (failure < 1 || failure > 4) tell("no such failure", yimarotu_failed(&session, 1, (uint8_t)failure, 1000) == YIMAROTU_KIND);
    tell("it waits", yimarotu_addresses(&session, 1, 1000, (yimarotu_address *)room, ROOM).status == YIMAROTU_WAITS);
    tell("no such look-up", yimarotu_addresses(&session, 2, 1000, (yimarotu_address *)room, ROOM).status == YIMAROTU_NO_LOOKUP);
    yimarotu_action next = yimarotu_next(&session, room, 0);
    while (next.status == YIMAROTU_OK && next.kind == YIMAROTU_CONTINUE) next = yimarotu_next(&session, room, 0);
    tell("a room that is too small for an address", next.status == YIMAROTU_ROOM && next.kind == YIMAROTU_OPEN && next.length == 4);
    next = yimarotu_next(&session, room, 4);
    tell("the same in a larger room", next.kind == YIMAROTU_OPEN && next.port == 53 && memcmp(room, "\300\0\2\65", 4) == 0);
    moved = session;
    next = yimarotu_next(&moved, room, 27);
    while (next.status == YIMAROTU_OK && next.kind == YIMAROTU_CONTINUE) next = yimarotu_next(&moved, room, 27);
    tell("a session that was moved, a room that is too small for a question", next.status == YIMAROTU_ROOM && next.length == 28);
    next = yimarotu_next(&moved, room, 28);
    tell("a room that it just fits", next.kind == YIMAROTU_SEND && number_at(room + 4) == 1);
    yimarotu_close(&moved);
    session = (yimarotu_session)YIMAROTU_SESSION;
}

/* A child of fork opens a session of its own, and the one before the fork goes on. */
static void children(void) {
    uint8_t reply[ROOM];
    int status = -1;
    bool is_right = open_with(1, ONE) && start(1, 1000);
    fflush(stdout);
    pid_t child = fork();
    if (child == 0) {
        session = (yimarotu_session)YIMAROTU_SESSION;
        is_right = open_with(2, ONE) && start(1, 1000);
        is_right = is_right && came(queue[0].channel, reply, reply_to(queue[0].octets, false, reply), 1000) && has_address(1);
        _exit(is_right ? 0 : 1);
    }
    is_right = is_right && child > 0 && waitpid(child, &status, 0) == child && status == 0;
    is_right = is_right && came(queue[0].channel, reply, reply_to(queue[0].octets, false, reply), 1000);
    tell("a child of fork", is_right && has_address(1));
    yimarotu_close(&session);
}

int main(void) {
    tell("the version", yimarotu_version() == 0x000100);
    crowds();
    prefixes();
    changes();
    forgeries();
    cut_streams();
    closed_streams();
    silence();
    families();
    answered_here();
    heard_at_once();
    cleared_ahead();
    in_flight_at_a_clear();
    places();
    failures();
    other_servers();
    what_does_not_fit();
    children();
    printf("%d passed, %d failed\n", passed, failed);
    return failed == 0 ? 0 : 1;
}
