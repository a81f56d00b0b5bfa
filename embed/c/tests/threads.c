/* Calls from several threads at once, each over a session of its own, give what they give alone. Prints
 * `N passed, M failed`, a case for each thread. */
#include <pthread.h>
#include <stdio.h>
#include <string.h>

#include "yimarotu.h"

enum { THREADS = 8, TURNS = 5000, ROOM = 600 };

#define BYTES(text) (const uint8_t *)(text), sizeof(text) - 1

/* www.example.com. has one address, whose last octet is to be put in (RFC 1035, section 4.1). */
static const char REPLY[] =
    "\0\0\x81\x80\0\1\0\1\0\0\0\0\3www\7example\3com\0\0\1\0\1\xc0\x0c\0\1\0\1\0\0\0\x3c\0\4\xc0\0\2";

static bool turn(yimarotu_session *session, uint8_t last) {
    uint8_t reply[sizeof REPLY], room[ROOM];
    memcpy(reply, REPLY, sizeof REPLY);
    reply[sizeof REPLY - 1] = last;
    if (!yimarotu_start(session, 1, BYTES("www.example.com."), 1, 100000).waits) return false;
    if (yimarotu_feed(session, 1, reply, sizeof reply).waits) return false;
    yimarotu_answered answered = yimarotu_answer(session, 1, ROOM, room, ROOM);
    if (answered.length != sizeof reply || memcmp(room + 2, reply + 2, sizeof reply - 2) != 0) return false;
    return yimarotu_cancel(session, 1, 100000) == YIMAROTU_OK && yimarotu_clear(session) == YIMAROTU_OK;
}

static void *run(void *given) {
    uint8_t *last = given;
    yimarotu_session session = YIMAROTU_SESSION;
    bool is_right = yimarotu_open_fed(&session, BYTES(""), BYTES("192.0.2.9 printer.\n"), 100000).status == YIMAROTU_OK;
    for (int turns = 0; is_right && turns < TURNS; turns++) is_right = turn(&session, *last);
    yimarotu_close(&session);
    return is_right ? given : NULL;
}

int main(void) {
    pthread_t threads[THREADS];
    uint8_t last[THREADS];
    int passed = 0;
    for (int k = 0; k < THREADS; k++) {
        last[k] = (uint8_t)(k + 1);
        if (pthread_create(&threads[k], NULL, run, &last[k]) != 0) return 1;
    }
    for (int k = 0; k < THREADS; k++) {
        void *right = NULL;
        pthread_join(threads[k], &right);
        passed += right != NULL;
    }
    printf("%d passed, %d failed\n", passed, THREADS - passed);
    return passed == THREADS ? 0 : 1;
}
