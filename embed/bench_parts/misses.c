/* Looks names up that are asked once, over a network that stands in, for so many seconds, and prints the nanoseconds of a
 * look-up: misses SECONDS fed, or misses SECONDS network IN_FLIGHT, where so many others wait for a reply all the while;
 * or misses SECONDS hit, a name that is in the cache of a session that asks by itself. */
#include <stdio.h>
#include <stdlib.h>
#include <string.h>
#include <time.h>

#include "yimarotu.h"

enum { ROOM = 1024, HEADER = 12 };

static yimarotu_session session = YIMAROTU_SESSION;
static uint8_t room[ROOM], question[ROOM];
static uint64_t channel;

static double nanoseconds(void) {
    struct timespec now;
    clock_gettime(CLOCK_MONOTONIC, &now);
    return now.tv_sec * 1e9 + now.tv_nsec;
}

/* Makes a reply of a question that stands in `question`. */
static size_t reply_to(size_t length) {
    static const uint8_t answer[] = {0xc0, 0x0c, 0, 1, 0, 1, 0, 0, 14, 16, 0, 4, 192, 0, 2, 1};
    question[2] = 0x81, question[3] = 0x80, question[7] = 1, question[11] = 0;
    size_t end = HEADER;
    while (question[end] != 0) end += question[end] + 1u;
    memcpy(question + end + 5, answer, sizeof answer);
    (void)length;
    return end + 5 + sizeof answer;
}

static size_t name_of(uint64_t number, char *name) {
    return (size_t)sprintf(name, "w%llu.example.test.", (unsigned long long)number);
}

/* Does what is to be done; gives the length of the last octets that were sent. */
static size_t act(void) {
    for (size_t length = 0;;) {
        yimarotu_action next = yimarotu_next(&session, room, ROOM);
        if (next.status != YIMAROTU_OK) exit(1);
        if (next.kind == YIMAROTU_NOTHING) return length;
        if (next.kind != YIMAROTU_SEND) continue;
        memcpy(question, room, length = next.length);
        channel = next.channel;
    }
}

static void start(uint64_t number, uint64_t moment) {
    char name[64];
    if (yimarotu_start(&session, number, (uint8_t *)name, name_of(number, name), 1, moment).status != YIMAROTU_OK) exit(1);
}

static void read_answer(uint64_t number) {
    yimarotu_answered answered = yimarotu_answer(&session, number, ROOM, room, ROOM);
    if (answered.status != YIMAROTU_OK || answered.error != YIMAROTU_FOUND) exit(1);
    yimarotu_cancel(&session, number, 1000);
}

static void by_hand(uint64_t number) {
    start(number, 1000);
    size_t length = yimarotu_question(&session, number, question, ROOM).length;
    if (yimarotu_feed(&session, number, question, reply_to(length)).status != YIMAROTU_OK) exit(1);
    read_answer(number);
}

static void by_network(uint64_t number) {
    start(number, 1000);
    size_t length = reply_to(act());
    if (yimarotu_came(&session, channel, question, length, 1000) != YIMAROTU_OK) exit(1);
    act();
    read_answer(number);
}

static void hit(uint64_t number) {
    (void)number;
    start(1, 1000);
    act();
    read_answer(1);
}

int main(int count, char **words) {
    static const char lines[] = "server 192.0.2.53\noption cache_size 1000\n";
    uint8_t seed[32] = {7};
    const uint8_t *none = seed, *settings = (const uint8_t *)lines;
    if (count < 3) return 2;
    double seconds = atof(words[1]), began, done = 0;
    int is_fed = strcmp(words[2], "fed") == 0;
    uint64_t waiting = count > 3 ? strtoull(words[3], NULL, 10) : 0, number = waiting + 1;
    void (*turn)(uint64_t) = is_fed ? by_hand : strcmp(words[2], "hit") == 0 ? hit : by_network;
    uint8_t status = is_fed ? yimarotu_open_fed(&session, settings + 18, sizeof lines - 19, none, 0, 1000).status
                            : yimarotu_open(&session, none, 0, none, 0, settings, sizeof lines - 1, none, 0, seed, 32, 1000).status;
    if (status != YIMAROTU_OK) return 1;
    for (uint64_t other = 1; other <= waiting; other++) start(other, 1000), act();
    if (turn == hit) by_network(1);
    for (began = nanoseconds(); nanoseconds() - began < seconds * 1e9; done++) turn(number++);
    printf("%.0f\n", (nanoseconds() - began) / done);
    yimarotu_close(&session);
    return 0;
}
