/* Times a forwarder's reply out of its cache, from the octets of a query to those of the reply, or the codec over both:
 * forwarder_hits SECONDS hit|codec. Prints microseconds: of one hit, or of half of what it takes to read and to write
 * both messages, as one reading of the query and one writing of the reply. */
#include <stdint.h>
#include <stdio.h>
#include <stdlib.h>
#include <string.h>
#include <time.h>

#include "yimarotu.h"

static const uint8_t QUERY[] = "\x12\x34\x01\x00\0\1\0\0\0\0\0\0\3www\7example\0\0\1\0\1";
static const uint8_t ANSWERS[] = "\xc0\x0c\0\1\0\1\0\0\1\x2c\0\4\xc0\0\2\1\xc0\x0c\0\1\0\1\0\0\1\x2c\0\4\xc0\0\2\2"
                                 "\xc0\x0c\0\1\0\1\0\0\1\x2c\0\4\xc0\0\2\3\xc0\x0c\0\1\0\1\0\0\1\x2c\0\4\xc0\0\2\4";
enum { QUERY_LENGTH = sizeof QUERY - 1, ANSWERS_LENGTH = sizeof ANSWERS - 1, ROOM = 65535 };
static const char SETTINGS[] = "server 192.0.2.53\noption edns0 false\noption case_randomization false\n";
static const uint8_t CLIENT[4] = {127, 0, 0, 1};
static uint8_t room[ROOM];

static void ask(yimarotu_forwarder *forwarder) {
    yimarotu_queried queried =
        yimarotu_forwarder_query(forwarder, 1, CLIENT, sizeof CLIENT, false, QUERY, QUERY_LENGTH, 1000, room, ROOM);
    if (queried.status != YIMAROTU_OK || queried.answered == YIMAROTU_DROPPED) exit(1);
}

/* Does what it says until it says nothing: a question that is sent gets four addresses. */
static void drive(yimarotu_forwarder *forwarder) {
    for (;;) {
        yimarotu_action action = yimarotu_forwarder_next(forwarder, room, ROOM);
        if (action.status != YIMAROTU_OK) exit(1);
        if (action.kind == YIMAROTU_NOTHING) return;
        if (action.kind != YIMAROTU_SEND) continue;
        static uint8_t reply[512];
        memcpy(reply, room, action.length);
        memcpy(reply + action.length, ANSWERS, ANSWERS_LENGTH);
        reply[2] |= 0x80, reply[3] |= 0x80, reply[7] = 4;
        if (yimarotu_forwarder_came(forwarder, action.channel, reply, action.length + ANSWERS_LENGTH, 1000)) exit(1);
    }
}

static size_t rewrite(const uint8_t *message, size_t length) {
    static uint8_t written[ROOM];
    yimarotu_written rewritten = yimarotu_rewrite(message, length, ROOM, written, ROOM);
    if (rewritten.status != YIMAROTU_OK) exit(1);
    return rewritten.length;
}

static double seconds(void) {
    struct timespec now;
    clock_gettime(CLOCK_MONOTONIC, &now);
    return (double)now.tv_sec + 1e-9 * (double)now.tv_nsec;
}

int main(int count, char **words) {
    if (count != 3) return 2;
    int is_hit = !strcmp(words[2], "hit");
    static const uint8_t seed[32];
    yimarotu_forwarder forwarder = YIMAROTU_FORWARDER;
    const uint8_t *none = seed;
    yimarotu_opened opened =
        yimarotu_forwarder_open(&forwarder, none, 0, none, 0, (const uint8_t *)SETTINGS, sizeof SETTINGS - 1, none, 0,
                                none, 0, seed, sizeof seed, 1000);
    if (opened.status != YIMAROTU_OK) return 1;
    ask(&forwarder);
    drive(&forwarder);
    ask(&forwarder);
    uint8_t reply[512];
    size_t reply_length = QUERY_LENGTH + ANSWERS_LENGTH;
    memcpy(reply, room, reply_length);
    double limit = atof(words[1]), start = seconds(), now;
    long rounds = 0;
    do {
        for (int i = 0; i < 1000; i++, rounds++) {
            if (is_hit) {
                ask(&forwarder);
            } else {
                rewrite(QUERY, QUERY_LENGTH);
                rewrite(reply, reply_length);
            }
        }
        now = seconds();
    } while (now - start < limit);
    printf("%.4f\n", 1e6 * (now - start) / (double)rounds / (is_hit ? 1 : 2));
    yimarotu_forwarder_close(&forwarder);
}
