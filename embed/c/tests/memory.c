/* Refuses each request for memory that a call of the library makes, in turn: the Nth alone, and the Nth and all after
 * it, from the first to one past the last. A call then gives its whole answer, or says that memory ran out, and changed
 * nothing that the header does not name: made again with enough memory it gives its whole answer, and so do all calls
 * behind it. What was taken is given back where the session is closed. A call that takes no memory makes no request.
 *
 * It is put before malloc and its like by the linker. Prints a line for each call, and at last `N passed, M failed`. */
#include <stdio.h>
#include <stdlib.h>
#include <string.h>

#include "yimarotu.h"

/* ---- requests for memory */

static long requests, refuse_at, held;
static bool refuses_more;

static bool is_refused(void) {
    requests++;
    return refuse_at != 0 && (requests == refuse_at || (refuses_more && requests > refuse_at));
}

static void *taken(void *bytes) {
    held += bytes != NULL;
    return bytes;
}

void *__real_malloc(size_t);
void *__real_calloc(size_t, size_t);
void *__real_realloc(void *, size_t);
void *__real_aligned_alloc(size_t, size_t);
void __real_free(void *);

void *__wrap_malloc(size_t size) { return is_refused() ? NULL : taken(__real_malloc(size)); }
void *__wrap_calloc(size_t count, size_t size) { return is_refused() ? NULL : taken(__real_calloc(count, size)); }
void *__wrap_aligned_alloc(size_t align, size_t size) {
    return is_refused() ? NULL : taken(__real_aligned_alloc(align, size));
}
void *__wrap_realloc(void *old, size_t size) {
    if (is_refused()) return NULL;
    return old == NULL ? taken(__real_realloc(old, size)) : __real_realloc(old, size);
}
void __wrap_free(void *bytes) {
    held -= bytes != NULL;
    __real_free(bytes);
}

/* ---- what is said and expected; messages are those of RFC 1035, section 4.1 */

#define BYTES(text) (const uint8_t *)(text), sizeof(text) - 1
#define WWW "\3www\7example\3com\0\0\1\0\1"
#define OPT "\0\0\x29\x04\xd0\0\0\0\0\0\0"
#define ADDRESS(ttl) "\xc0\x0c\0\1\0\1\0\0\0" ttl "\0\4\xc0\0\2\1"
#define SOA "\xc0\x14\0\6\0\1\0\0\0\x78\0\x18\xc0\x14\xc0\x14\0\0\0\0\0\0\0\0\0\0\0\0\0\0\0\0\0\0\0\x3c"
#define SCRIPT \
    "reply NOERROR www.example.com. A\nanswer www.example.com. 60 IN A 192.0.2.1\nat 100 lookup www.example.com. A\n"

static const char FOUND[] = "\0\0\x81\x80\0\1\0\1\0\0\0\0" WWW ADDRESS("\x3c");
static const char HIT[] = "\0\0\x81\x80\0\1\0\1\0\0\0\0" WWW ADDRESS("\x1e");
static const char NO_NAME[] = "\0\0\x81\x83\0\1\0\0\0\1\0\0\7missing\7example\3com\0\0\1\0\1" SOA;
/* A response that came from no upstream has no flag but QR. */
static const char LITERAL[] =
    "\0\0\x80\0\0\1\0\1\0\0\0\0\003192\0010\0012\0011\0\0\1\0\1\xc0\x0c\0\1\0\1\0\1\x51\x80\0\4\xc0\0\2\1";
static const char ASKED[] = "\0\0\1\0\0\1\0\0\0\0\0\1" WWW OPT;
static const char TEXT[] =
    "at 100 lookup www.example.com. A\n  sent www.example.com. IN A\n  ok www.example.com. IN A until 160\n"
    "  answer www.example.com. 60 IN A 192.0.2.1\n";

enum { ROOM = 600, A = 1, TIMEOUT = YIMAROTU_FAIL_TIMEOUT };

static yimarotu_session session = YIMAROTU_SESSION;
static uint8_t room[ROOM], untouched[ROOM];

/* How a call ended: with its whole answer, out of memory at once, or with a look-up that ran out of memory. */
typedef enum { WHOLE, NO_MEMORY, RAN_OUT, WRONG } end;

static bool is_room(const void *bytes, size_t length, size_t behind) {
    return memcmp(room + behind, (const uint8_t *)bytes + behind, length - behind) == 0
        && memcmp(room + length, untouched + length, ROOM - length) == 0;
}

static end written(uint8_t status, size_t length, const void *bytes, size_t wanted, size_t behind) {
    if (status == YIMAROTU_NO_MEMORY) return length == 0 && is_room(room, 0, 0) ? NO_MEMORY : WRONG;
    return status == YIMAROTU_OK && length == wanted && is_room(bytes, wanted, behind) ? WHOLE : WRONG;
}

/* A look-up that came to this; one that is done may have run out of memory. */
static end came(yimarotu_progress came, uint64_t number, bool waits) {
    long at = refuse_at;
    yimarotu_answered answered;
    if (came.status == YIMAROTU_NO_MEMORY) return came.waits || came.fault ? WRONG : NO_MEMORY;
    if (came.status != YIMAROTU_OK || came.fault) return WRONG;
    if (came.waits) return waits ? WHOLE : WRONG;
    refuse_at = 0;
    answered = yimarotu_answer(&session, number, 512, room, ROOM);
    refuse_at = at;
    memset(room, '#', ROOM);
    if (answered.status == YIMAROTU_OK && answered.error == YIMAROTU_RAN_OUT) return RAN_OUT;
    return waits ? WRONG : WHOLE;
}

static end answer(uint64_t number, uint8_t error, uint64_t until, const char *bytes, size_t length) {
    yimarotu_answered a = yimarotu_answer(&session, number, 512, room, ROOM);
    if (a.error != error || a.code || a.ttl || a.until != until || a.fault) return WRONG;
    return written(a.status, a.length, bytes, length, length < 2 ? 0 : 2);
}

/* ---- the calls, in the order in which they are made */

static end open_it(void) {
    yimarotu_opened opened =
        yimarotu_open_fed(&session, BYTES("option ip_strategy Ipv4Only\n"), BYTES("192.0.2.9 printer.\n"), 100000);
    if (opened.status == YIMAROTU_NO_MEMORY) return session.is_open || opened.line ? WRONG : NO_MEMORY;
    return opened.status == YIMAROTU_OK && session.is_open ? WHOLE : WRONG;
}

static end open_with(void) {
    yimarotu_opened opened = yimarotu_open_fed_with(&session, BYTES("search a.example b.example\noptions ndots:2 no-aaaa\n"),
                                                BYTES("host.example.com"), BYTES("option cache_size 9\n"), BYTES(""), 100000);
    if (opened.status == YIMAROTU_NO_MEMORY) return session.is_open || opened.line ? WRONG : NO_MEMORY;
    return opened.status == YIMAROTU_OK && session.is_open ? WHOLE : WRONG;
}

static end read_servers(void) {
    static const char servers[] = "192.0.2.53\nfe80::1%eth0\n";
    yimarotu_servers_read s = yimarotu_read_servers(BYTES("nameserver 192.0.2.53\nnameserver fe80::1%eth0\n"), room, ROOM);
    return written(s.status, s.length, servers, sizeof servers - 1, 0);
}

static end start_1(void) { return came(yimarotu_start(&session, 1, BYTES("www.example.com."), A, 100000), 1, true); }

static end question_1(void) {
    yimarotu_asked asked = yimarotu_question(&session, 1, room, ROOM);
    return written(asked.status, asked.length, ASKED, sizeof ASKED - 1, 0);
}

static end feed_1(void) { return came(yimarotu_feed(&session, 1, BYTES(FOUND)), 1, false); }
static end answer_1(void) { return answer(1, YIMAROTU_FOUND, 160, FOUND, sizeof FOUND - 1); }
static end start_2(void) { return came(yimarotu_start(&session, 2, BYTES("WWW.example.com."), A, 130000), 2, false); }
static end start_3(void) { return came(yimarotu_start_ip(&session, 3, BYTES("printer."), 100000), 3, false); }
static end start_4(void) { return came(yimarotu_start(&session, 4, BYTES("late.example.com."), A, 100000), 4, true); }
static end fail_4(void) { return came(yimarotu_fail(&session, 4, TIMEOUT), 4, false); }
static end answer_4(void) { return answer(4, YIMAROTU_TIMED_OUT, 0, "", 0); }
static end start_5(void) { return came(yimarotu_start(&session, 5, BYTES("missing.example.com."), A, 100000), 5, true); }
static end feed_5(void) { return came(yimarotu_feed(&session, 5, BYTES(NO_NAME)), 5, false); }

static end answer_2(void) {
    yimarotu_answered a = yimarotu_answer(&session, 2, 512, room, ROOM);
    /* behind the question, which is in the caller's letters, stands the record, half a minute older */
    return a.error == YIMAROTU_FOUND && a.until == 160 ? written(a.status, a.length, HIT, sizeof HIT - 1, 33) : WRONG;
}

static end answer_5(void) {
    yimarotu_answered a = yimarotu_answer(&session, 5, 512, room, ROOM);
    if (a.error != YIMAROTU_NO_RECORDS || a.code != 3 || !a.has_ttl || a.ttl != 60 || a.until) return WRONG;
    if (a.status == YIMAROTU_NO_MEMORY) return written(a.status, a.length, "", 0, 0);
    return a.status == YIMAROTU_OK && memcmp(room + 12, NO_NAME + 12, 25) == 0 ? WHOLE : WRONG;
}

static end rewrite(void) {
    yimarotu_written w = yimarotu_rewrite(BYTES(FOUND), 512, room, ROOM);
    return written(w.status, w.length, FOUND, sizeof FOUND - 1, 0);
}

static end replay(void) {
    yimarotu_replayed r = yimarotu_replay(BYTES(SCRIPT), BYTES(""), room, ROOM);
    return r.line ? WRONG : written(r.status, r.length, TEXT, sizeof TEXT - 1, 0);
}

static end start_6(void) { return came(yimarotu_start_ip(&session, 6, BYTES("192.0.2.1"), 100000), 6, false); }
static end answer_6(void) { return answer(6, YIMAROTU_FOUND, 86500, LITERAL, sizeof LITERAL - 1); }

static end clear_name(void) {
    uint8_t status = yimarotu_clear_name(&session, BYTES("www.example.com."), A);
    return status == YIMAROTU_OK ? WHOLE : status == YIMAROTU_NO_MEMORY ? NO_MEMORY : WRONG;
}

static end cancel_5(void) { return yimarotu_cancel(&session, 5, 100000) == YIMAROTU_OK ? WHOLE : WRONG; }
static end clear(void) { return yimarotu_clear(&session) == YIMAROTU_OK ? WHOLE : WRONG; }

static end close_it(void) {
    yimarotu_close(&session);
    return session.is_open ? WRONG : WHOLE;
}

/* ---- a session that asks by itself */

static end open_network(void) {
    uint8_t seed[32] = {7};
    yimarotu_opened opened = yimarotu_open(&session, BYTES("search a.example\n"), BYTES("host.example.com"),
                                           BYTES("server 192.0.2.53\noption ip_strategy Ipv4Only\n"),
                                           BYTES("192.0.2.9 printer.\n"), seed, sizeof seed, 100000);
    if (opened.status == YIMAROTU_NO_MEMORY) return session.is_open || opened.line ? WRONG : NO_MEMORY;
    return opened.status == YIMAROTU_OK && session.is_open ? WHOLE : WRONG;
}

/* Does what is to be done, up to an action of this kind, whose channel is noted. */
static uint64_t channel;
static end act_up_to(uint8_t kind) {
    for (;;) {
        yimarotu_action next = yimarotu_next(&session, room, ROOM);
        if (next.status == YIMAROTU_NO_MEMORY) return NO_MEMORY;
        if (next.status != YIMAROTU_OK) return WRONG;
        if (next.kind == kind) return channel = next.channel, WHOLE;
        if (next.kind == YIMAROTU_NOTHING) return WRONG;
    }
}

/* A whole look-up: what an earlier one left is forgotten first. */
static end look_up(void) {
    static uint8_t reply[sizeof FOUND - 1];
    yimarotu_address address;
    yimarotu_cancel(&session, 1, 100000);
    end end = act_up_to(YIMAROTU_NOTHING);
    if (end != WHOLE) return end;
    yimarotu_clear(&session);
    yimarotu_progress progress = yimarotu_start(&session, 1, BYTES("www.example.com."), A, 100000);
    if (progress.status == YIMAROTU_NO_MEMORY) return NO_MEMORY;
    if (progress.status != YIMAROTU_OK) return WRONG;
    if (progress.waits) {
        end = act_up_to(YIMAROTU_SEND);
        if (end == NO_MEMORY) return end;
        memcpy(reply, FOUND, sizeof reply);
        memcpy(reply, room, 2);
        uint8_t status = end == WHOLE ? yimarotu_came(&session, channel, reply, sizeof reply, 100000) : YIMAROTU_OK;
        if (status == YIMAROTU_NO_MEMORY) return NO_MEMORY;
    }
    end = act_up_to(YIMAROTU_LOOKED_UP);
    if (end == NO_MEMORY) return end;
    memset(room, '#', ROOM);
    yimarotu_found found = yimarotu_addresses(&session, 1, 100000, &address, sizeof address);
    if (found.status == YIMAROTU_NO_MEMORY) return NO_MEMORY;
    if (found.status == YIMAROTU_OK && found.error == YIMAROTU_RAN_OUT) return RAN_OUT;
    return found.status == YIMAROTU_OK && found.count == 1 && found.ttl == 60 && address.octets[3] == 1 ? WHOLE : WRONG;
}

static end other_servers(void) {
    uint8_t status = yimarotu_servers(&session, BYTES("nameserver 192.0.2.54\nnameserver fe80::1%eth0\n"), true);
    return status == YIMAROTU_OK ? WHOLE : status == YIMAROTU_NO_MEMORY ? NO_MEMORY : WRONG;
}

static end statistics(void) { return yimarotu_statistics(&session).status == YIMAROTU_OK ? WHOLE : WRONG; }
static end waits(void) { return yimarotu_wait(&session, 100000).status == YIMAROTU_OK ? WHOLE : WRONG; }
static end tick(void) { return yimarotu_tick(&session, 100000) == YIMAROTU_OK ? WHOLE : WRONG; }

typedef struct call {
    const char *name;
    end (*make)(void);
    uint64_t number;   /* of the look-up that it starts or goes on with, else 0 */
    end (*start)(void); /* where it goes on with one: how that was started */
    bool takes_none;
} call;

static const call CALLS[] = {
    {"yimarotu_open_fed", open_it, 0, NULL, false},
    {"yimarotu_start, a miss", start_1, 1, NULL, false},
    {"yimarotu_question", question_1, 0, NULL, false},
    {"yimarotu_feed, an answer", feed_1, 1, start_1, false},
    {"yimarotu_answer, records", answer_1, 0, NULL, false},
    {"yimarotu_start, a hit", start_2, 2, NULL, false},
    {"yimarotu_answer, a hit", answer_2, 0, NULL, false},
    {"yimarotu_start_ip, a host of the table", start_3, 3, NULL, false},
    {"yimarotu_start, another miss", start_4, 4, NULL, false},
    {"yimarotu_fail", fail_4, 4, start_4, true},
    {"yimarotu_answer, a failure", answer_4, 0, NULL, true},
    {"yimarotu_start, a name that is missing", start_5, 5, NULL, false},
    {"yimarotu_feed, no such name", feed_5, 5, start_5, false},
    {"yimarotu_answer, no such name", answer_5, 0, NULL, false},
    {"yimarotu_start_ip, an address", start_6, 6, NULL, false},
    {"yimarotu_answer, an address", answer_6, 0, NULL, false},
    {"yimarotu_clear_name", clear_name, 0, NULL, false},
    {"yimarotu_rewrite", rewrite, 0, NULL, false},
    {"yimarotu_replay", replay, 0, NULL, false},
    {"yimarotu_cancel", cancel_5, 0, NULL, true},
    {"yimarotu_clear", clear, 0, NULL, true},
    {"yimarotu_close", close_it, 0, NULL, true},
    {"yimarotu_open_fed_with", open_with, 0, NULL, false},
    {"yimarotu_close, by a resolv.conf", close_it, 0, NULL, true},
    {"yimarotu_read_servers", read_servers, 0, NULL, false},
    {"yimarotu_open", open_network, 0, NULL, false},
    {"a whole look-up by yimarotu_next and yimarotu_came", look_up, 1, NULL, false},
    {"yimarotu_servers", other_servers, 0, NULL, false},
    {"yimarotu_statistics", statistics, 0, NULL, true},
    {"yimarotu_wait", waits, 0, NULL, true},
    {"yimarotu_tick", tick, 0, NULL, true},
    {"yimarotu_close, of one that asks by itself", close_it, 0, NULL, true},
};
enum { COUNT = sizeof CALLS / sizeof CALLS[0] };

static end make(const call *made) {
    memset(room, '#', ROOM);
    return made->make();
}

/* Makes a call again, after it found no memory. A look-up that ran out is forgotten first. Where another call had
 * started it, it is started again; then its answer may stand in the cache already. */
static end make_again(const call *made, end before) {
    if (before != RAN_OUT) return make(made);
    yimarotu_cancel(&session, made->number, 100000);
    if (made->start == NULL || made->start() == WHOLE) return make(made);
    return yimarotu_answer(&session, made->number, 512, room, ROOM).error == YIMAROTU_RAN_OUT ? RAN_OUT : WHOLE;
}

typedef struct turn {
    end end;
    long requests;
} turn;

static turn wrong(const char *what, turn turn) {
    printf("%s: wrong\n", what);
    turn.end = WRONG;
    return turn;
}

/* All calls, one of them with a request refused. */
static turn run(int refused, long at, bool more) {
    turn turn = {WRONG, 0};
    long before = held;
    for (int k = 0; k < COUNT; k++) {
        requests = 0;
        refuse_at = k == refused ? at : 0;
        refuses_more = more;
        end end = make(&CALLS[k]);
        refuse_at = 0;
        if (k == refused) turn.end = end, turn.requests = requests;
        if (k == refused && (end == NO_MEMORY || end == RAN_OUT)) end = make_again(&CALLS[k], end);
        if (end != WHOLE) return wrong(CALLS[k].name, turn);
    }
    return held == before ? turn : wrong("memory that is not given back", turn);
}

/* Refuses each request of a call in turn, and says how many there are; -1 where something is wrong. */
static long refuse_in_turn(int refused, bool more) {
    bool ran_out = false;
    for (long at = 1;; at++) {
        turn turn = run(refused, at, more);
        if (turn.end == WRONG) return printf("request %ld refused: wrong\n", at), -1;
        ran_out |= turn.end != WHOLE;
        if (turn.requests >= at) continue;
        if (turn.end == WHOLE && ran_out == (at > 1) && ran_out != CALLS[refused].takes_none) return at - 1;
        return printf("%ld requests\n", at - 1), -1;
    }
}

int main(void) {
    int passed = 0;
    memset(untouched, '#', ROOM);
    for (int k = 0; k < COUNT; k++) {
        long alone = refuse_in_turn(k, false), more = alone < 0 ? -1 : refuse_in_turn(k, true);
        passed += more >= 0;
        printf("%s %s: %ld requests alone, ", more < 0 ? "wrong" : "ok", CALLS[k].name, alone);
        printf("%ld with all after them\n", more);
        if (more < 0) yimarotu_close(&session);
    }
    printf("%d passed, %d failed\n", passed, COUNT - passed);
    return passed == COUNT ? 0 : 1;
}
