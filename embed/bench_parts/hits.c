/* Looks up what is in the cache for so many seconds, and prints the nanoseconds of a look-up:
 * hits SECONDS yimarotu, or hits SECONDS libunbound ADDRESS@PORT, which is a server that knows the name. */
#include <stdio.h>
#include <stdlib.h>
#include <string.h>
#include <time.h>
#include <unbound.h>

#include "yimarotu.h"

static const char name[] = "www.example.test";
/* The reply to a question for its addresses, of two. */
static const uint8_t reply[] = "\0\0\x81\x80\0\1\0\2\0\0\0\0\3www\7example\4test\0\0\1\0\1"
                               "\xc0\x0c\0\1\0\1\0\0\x0e\x10\0\4\xc0\0\2\1\xc0\x0c\0\1\0\1\0\0\x0e\x10\0\4\xc0\0\2\2";

static double nanoseconds(void) {
    struct timespec now;
    clock_gettime(CLOCK_MONOTONIC, &now);
    return now.tv_sec * 1e9 + now.tv_nsec;
}

/* A look-up that is answered at once, and its answer. */
static int hit(yimarotu_session *session) {
    uint8_t room[512];
    yimarotu_progress came = yimarotu_start(session, 2, (const uint8_t *)name, sizeof name - 1, 1, 1000);
    if (came.status != YIMAROTU_OK || came.waits) return 0;
    yimarotu_answered answered = yimarotu_answer(session, 2, sizeof room, room, sizeof room);
    return yimarotu_cancel(session, 2, 1000) == YIMAROTU_OK && answered.status == YIMAROTU_OK && answered.length == sizeof reply - 1;
}

static int by_yimarotu(double seconds) {
    yimarotu_session session = YIMAROTU_SESSION;
    double began, done = 0;
    if (yimarotu_open_fed(&session, reply, 0, reply, 0, 1000).status != YIMAROTU_OK) return 1;
    if (!yimarotu_start(&session, 1, (const uint8_t *)name, sizeof name - 1, 1, 1000).waits) return 1;
    if (yimarotu_feed(&session, 1, reply, sizeof reply - 1).status != YIMAROTU_OK) return 1;
    for (began = nanoseconds(); nanoseconds() - began < seconds * 1e9; done++)
        if (!hit(&session)) return 1;
    printf("%.0f\n", (nanoseconds() - began) / done);
    yimarotu_close(&session);
    return 0;
}

static int by_libunbound(double seconds, const char *server) {
    struct ub_ctx *context = ub_ctx_create();
    struct ub_result *result;
    double began, done = 0;
    /* Asks that server alone, on loopback, also for names of the zone test., and does not validate. */
    if (context == NULL || ub_ctx_set_fwd(context, server) != 0
        || ub_ctx_set_option(context, "module-config:", "iterator") != 0
        || ub_ctx_set_option(context, "do-not-query-localhost:", "no") != 0
        || ub_ctx_zone_add(context, "test.", "transparent") != 0)
        return 1;
    for (began = nanoseconds(); nanoseconds() - began < seconds * 1e9; done++) {
        if (ub_resolve(context, name, 1, 1, &result) != 0) return 1;
        int is_found = result->havedata;
        ub_resolve_free(result);
        if (!is_found) return 1;
        if (done == 0) began = nanoseconds();
    }
    printf("%.0f\n", (nanoseconds() - began) / done);
    ub_ctx_delete(context);
    return 0;
}

int main(int count, char **words) {
    if (count == 3 && strcmp(words[2], "yimarotu") == 0) return by_yimarotu(atof(words[1]));
    if (count == 4 && strcmp(words[2], "libunbound") == 0) return by_libunbound(atof(words[1]), words[3]);
    return 2;
}
