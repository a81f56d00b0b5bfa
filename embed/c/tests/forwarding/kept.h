/* What a forwarder keeps, and under what: poison, chains, private addresses, keys, times, domains, other settings. */
#include "hostile.h"

/* ---- part 5: poison */

/* A record of an owner, with a name or octets as its data, in a section. */
static void put_other(int section, const char *owner, unsigned type, unsigned class, uint32_t ttl, const char *target,
                      const char *octets, size_t length) {
    put_name(&reply, owner), put_number(&reply, type, 2), put_number(&reply, class, 2), put_number(&reply, ttl, 4);
    size_t at = reply.length;
    put_number(&reply, 0, 2);
    if (target != NULL) put_name(&reply, target);
    else put(&reply, octets, length);
    reply.octets[at + 1] = (uint8_t)(reply.length - at - 2), count_in(&reply, section, 1);
}
static const char EVIL[] = "\x20\1\x0d\xb8\0\0\0\0\0\0\0\0\0\0\x06\x66";
static void put_evil(int section, const char *owner) { put_other(section, owner, AAAA, 1, 9000, NULL, EVIL, 16); }
static void put_link(const char *owner, unsigned type, const char *target) {
    put_other(1, owner, type, 1, 9000, target, NULL, 0);
}
static void put_true(const char *owner) {
    message name = {.length = 0};
    put_name(&name, owner), put_record(&reply, name.octets, name.length, AAAA, 9000, 0), count_in(&reply, 1, 1);
}

static void beside(void) { put_true("www.good.example."), put_evil(1, "victim.example."); }
static void before_it(void) { put_evil(1, "victim.example."), put_true("www.good.example."); }
static void alone(void) { put_evil(1, "victim.example."); }
static void in_additional(void) {
    put_true("www.good.example."), put_evil(3, "victim.example."), put_evil(3, "good.example.");
}
static void in_authority(void) {
    put_true("www.good.example."), put_other(2, "victim.example.", 2, 1, 9000, "ns.evil.example.", NULL, 0),
        put_evil(2, "victim.example."), put_evil(3, "ns.evil.example.");
}
static void by_alias(void) { put_link("www.good.example.", CNAME, "victim.example."), put_evil(1, "victim.example."); }
static void behind_alias(void) {
    by_alias(), put_evil(1, "sub.victim.example."), put_link("victim.example.", CNAME, "x.victim.example.");
}
static void out_of_chain(void) {
    put_true("www.good.example."), put_link("victim.example.", CNAME, "evil.example."), put_evil(1, "evil.example.");
}
static void two_aliases(void) {
    put_link("www.good.example.", CNAME, "a.evil.example."), put_link("www.good.example.", CNAME, "victim.example."),
        put_evil(1, "victim.example."), put_evil(1, "a.evil.example.");
}
static void by_dname(void) {
    put_link("good.example.", DNAME, "victim.example."), put_link("www.good.example.", CNAME, "www.victim.example."),
        put_evil(1, "www.victim.example."), put_evil(1, "victim.example.");
}
static void wrong_dname(void) {
    put_true("www.good.example."), put_link("victim.example.", DNAME, "evil.example."),
        put_link("other.example.", DNAME, "victim.example.");
}
static void dname_of_root(void) {
    put_true("www.good.example."), put_link("", DNAME, "evil.example."), put_link("example.", DNAME, "evil.example.");
}
static void other_class(void) {
    put_other(1, "www.good.example.", AAAA, 3, 9000, NULL, EVIL, 16),
        put_other(1, "victim.example.", AAAA, 3, 9000, NULL, EVIL, 16);
}
static void other_type(void) {
    put_other(1, "www.good.example.", A, 1, 9000, NULL, "\12\0\0\1", 4), put_evil(1, "victim.example.");
}
static void referral(void) {
    put_other(2, "example.", 2, 1, 9000, "ns.evil.example.", NULL, 0), put_evil(3, "ns.evil.example."),
        put_evil(3, "victim.example.");
}
static void denial_above(void) {
    reply.octets[3] |= NXDOMAIN;
    put_other(2, "example.", SOA, 1, 9000, NULL, "\0\0\0\0\0\1\0\0\0\1\0\0\0\1\0\0\0\1\0\0\x23\x28", 22),
        put_evil(2, "victim.example."), put_evil(3, "victim.example.");
}
static void own_loop(void) {
    put_link("www.good.example.", CNAME, "www.good.example."), put_evil(1, "victim.example.");
}
static void loop_of_two(void) {
    put_link("www.good.example.", CNAME, "b.example."), put_link("b.example.", CNAME, "www.good.example."),
        put_evil(1, "victim.example.");
}
static void signature(void) {
    put_true("www.good.example."),
        put_other(1, "victim.example.", RRSIG, 1, 9000, NULL, "\0\34\10\2\0\0\x23\x28\0\0\0\2\0\0\0\1\0\1\0sigs", 23);
}

/* What is found of www.good.example. where that is certain: 1, or 0, or -1 where only the rest matters. */
static const struct {
    const char *name;
    void (*build)(void);
    int found;
} POISONS[] = {
    {"a record of another name beside the answer", beside, 1},
    {"before it", before_it, 1},
    {"alone", alone, 0},
    {"among additional records", in_additional, 1},
    {"in the authority section", in_authority, 1},
    {"behind an alias", by_alias, 1},
    {"behind what an alias leads to", behind_alias, -1},
    {"out of the chain", out_of_chain, 1},
    {"two aliases of one name", two_aliases, -1},
    {"behind a DNAME", by_dname, 1},
    {"a DNAME of another name", wrong_dname, 1},
    {"a DNAME of the root", dname_of_root, 1},
    {"another class", other_class, -1},
    {"another type", other_type, 0},
    {"a referral", referral, 0},
    {"a denial", denial_above, 0},
    {"a name that is its own alias", own_loop, -1},
    {"a loop of two", loop_of_two, -1},
    {"a signature of another name", signature, 1},
};

static bool asks_afresh(const char *name, options as) {
    uint64_t count = w->behind;
    bool waits = ask_name(at_address(2, true), next_id++, name, as) == YIMAROTU_QUERY_WAITS && w->behind == count + 1;
    w->first = w->behind - 1, answer_all(GOOD, 60);
    return waits && is_found() && memcmp(w->last.octets + w->last.length - 16, EVIL, 16) != 0;
}

/* Whatever a reply has besides, what is told of other names comes from the replies to their own questions. */
static void poison(void) {
    static const char *const VICTIMS[]
        = {"victim.example.",     "evil.example.",  "ns.evil.example.", "a.evil.example.", "sub.victim.example.",
           "www.victim.example.", "other.example.", "x.other.example.", "good.example.",   "b.example."};
    size_t before = held;
    for (int signs = 0; signs < 2; signs++) {
        for (size_t at = 0; at < sizeof POISONS / sizeof POISONS[0]; at++) {
            options as = {AAAA, 1, signs ? 1232 : 0, signs, false};
            begin(0, 12, ONE, 1000000), w->is_poisoned = true;
            ask_name(at_address(1, true), 1, "www.good.example.", as);
            begin_reply(sent_before(1), 0), POISONS[at].build(), come_whole(sent_before(1), &reply);
            w->first = 1, answer_all(NODATA, 60), drain();
            hold(w->replies == 1 && (POISONS[at].found < 0 || is_found() == POISONS[at].found),
                 "what is told of the name itself");
            if (w->faults)
                printf("(%s, %d: code %u, %u answers)\n", POISONS[at].name, signs, w->last.octets[3] & 15,
                       number_at(w->last.octets + 6));
            w->is_poisoned = false;
            for (size_t victim = 0; victim < sizeof VICTIMS / sizeof VICTIMS[0]; victim++)
                hold(asks_afresh(VICTIMS[victim], as), VICTIMS[victim]);
            end(POISONS[at].name, before);
        }
    }
}

/* One alias a reply: eight questions are asked for one, and no ninth. */
static void long_chains(void) {
    size_t before = held;
    for (uint64_t links = 6; links < 10; links++) {
        begin(0, 13, ONE, 1000000);
        ask_name(at_address(1, true), 1, "n0.example.", PLAIN);
        for (uint64_t link = 0; link < links && w->waiting > 0; link++)
            begin_reply(sent_before(1), 0),
                put_link(numbered("n%llu.example.", link), CNAME, numbered("n%llu.example.", link + 1)),
                come_whole(sent_before(1), &reply);
        if (w->waiting > 0) w->first = w->behind - 1, answer_all(GOOD, 60);
        hold(w->behind == (links < 8 ? links + 1 : 8) && w->waiting == 0, "how many questions a chain has");
        hold(is_found() == (links < 8) && number_at(w->last.octets + 6) == (links < 8 ? links + 1 : 0),
             "what is told of a chain");
        hold(asks_afresh("n3.example.", PLAIN), "a name within a chain");
        end("chains over several replies", before);
    }
}

static const char HOME[] = "server 192.0.2.53\ndeny_answers private\nallow_answers 10.9.0.0/16\n";

/* Private addresses are taken out of replies, but for those that are allowed, at the end of an alias too. */
static void private_addresses(void) {
    static const struct {
        unsigned type;
        const char *octets;
        size_t length;
        bool stays;
    } ADDRESSES[] = {
        {A, "\12\0\0\1", 4, false},
        {A, "\12\11\0\1", 4, true},
        {A, "\300\250\1\1", 4, false},
        {A, "\254\20\0\1", 4, false},
        {A, "\254\40\0\1", 4, true},
        {A, "\177\0\0\1", 4, false},
        {A, "\251\376\0\1", 4, false},
        {A, "\0\0\0\0", 4, false},
        {A, "\10\10\10\10", 4, true},
        {AAAA, "\375\0\0\0\0\0\0\0\0\0\0\0\0\0\0\1", 16, false},
        {AAAA, "\376\200\0\0\0\0\0\0\0\0\0\0\0\0\0\1", 16, false},
        {AAAA, "\0\0\0\0\0\0\0\0\0\0\0\0\0\0\0\1", 16, false},
        {AAAA, "\0\0\0\0\0\0\0\0\0\0\0\0\0\0\0\0", 16, false},
        {AAAA, "\0\0\0\0\0\0\0\0\0\0\377\377\12\0\0\1", 16, false},
        {AAAA, EVIL, 16, true},
    };
    size_t before = held;
    begin(0, 14, HOME, 1000000);
    for (size_t at = 0; at < 2 * sizeof ADDRESSES / sizeof ADDRESSES[0]; at++) {
        options as = {(uint16_t)ADDRESSES[at / 2].type, 1, 0, false, false};
        const char *name = numbered("h%llu.example.", at), *owner = at % 2 ? "end.example." : name;
        ask_name(at_address(1, false), (uint16_t)at, name, as);
        begin_reply(sent_before(1), 0);
        if (at % 2) put_link(name, CNAME, owner);
        put_other(1, owner, as.type, 1, 60, NULL, ADDRESSES[at / 2].octets, ADDRESSES[at / 2].length),
            come_whole(sent_before(1), &reply);
        bool is_there = memcmp(w->last.octets + w->last.length - ADDRESSES[at / 2].length, ADDRESSES[at / 2].octets,
                               ADDRESSES[at / 2].length)
                        == 0;
        hold(w->waiting == 0 && is_there == ADDRESSES[at / 2].stays, "a private address, told at once");
        ask_name(at_address(2, false), (uint16_t)at, name, as),
            hold(number_at(w->last.octets + 6) == ADDRESSES[at / 2].stays + at % 2, "a private address, kept");
    }
    end("private addresses", before);
}

/* ---- part 6: what is kept apart, and for how long */

/* Each type, DO and CD has replies of its own, and letters have not. */
static void keys(void) {
    static const uint16_t CLASSES[] = {0, 2, 3, 4, 254, 255, 257, 65535};
    size_t before = held;
    begin(0, 15, ONE, 1000000);
    for (int turn = 0; turn < 2; turn++) {
        for (unsigned which = 0; which < 20; which++) {
            options as = {TYPES[which / 4], 1, which & 1 ? 1232 : 0, which & 1, which >> 1 & 1};
            build_query(&query, next_id++, "abcxyzabcxyz.example.", as), vary_letters(&query);
            client from = at_address(1, false);
            hold(ask(&from, query.octets, query.length) == (turn ? YIMAROTU_REPLIED : YIMAROTU_QUERY_WAITS),
                 "what is kept apart");
            answer_all(GOOD, 600), hold(w->behind == (turn ? 20 : which + 1) && is_found(), "a question for each");
        }
    }
    for (size_t at = 0; at < 8; at++) {
        options as = {AAAA, CLASSES[at], 0, false, false};
        hold(ask_name(at_address(1, false), 1, "abcxyzabcxyz.example.", as) == YIMAROTU_REPLIED
                 && (w->last.octets[3] & 15) == REFUSED,
             "another class");
    }
    end("types, DO, CD, classes and letters", before);
}

/* Asks for datagrams of a reply that has so many octets without OPT. */
static void ask_lengths(const char *name, size_t whole) {
    static const uint16_t SIZES[] = {0, 300, 512, 513, 700, 1231, 1232, 1233, 4096};
    for (size_t at = 0; at < sizeof SIZES / sizeof SIZES[0]; at++) {
        options as = {TXT, 1, SIZES[at], false, false};
        size_t limit = as.size < 512 ? 512 : as.size > 1232 ? 1232 : as.size, length = whole + (as.size > 0 ? 11 : 0);
        ask_name(at_address(2, false), next_id++, name, as);
        bool is_cut = w->last.octets[2] & 2;
        hold(is_cut == (length > limit) && (is_cut || w->last.length == length), "where a datagram is cut");
    }
}

/* A datagram is cut where the reply has more octets than the client takes, and only there: replies of each length. */
static void lengths(void) {
    static const char TEXT[] = "\x1a""abcdefghijklmnopqrstuvwxyz";
    size_t before = held;
    options as = {TXT, 1, 0, false, false};
    begin(0, 31, ONE, 1000000);
    for (size_t count = 15 * 20; count < 62 * 20; count++) {
        const char *name = numbered("length%llu.example.", count);
        ask_name(at_address(1, true), next_id++, name, as), begin_reply(sent_before(1), 0);
        for (size_t left = count / 20; left > 1; left--) put_other(1, name, TXT, 1, 600, NULL, "\7abcdefg", 8);
        char text[32];
        memcpy(text, TEXT, 27), text[0] = (char)(count % 20);
        put_other(1, name, TXT, 1, 600, NULL, text, 1 + count % 20);
        come_whole(sent_before(1), &reply), ask_lengths(name, w->last.length);
    }
    end("lengths of datagrams", before);
}

/* Aliases that are asked for themselves are told, and not followed. */
static void types_of_links(void) {
    static const uint16_t LINKS[] = {CNAME, DNAME};
    size_t before = held;
    begin(0, 32, ONE, 1000000);
    for (size_t at = 0; at < 2; at++) {
        options as = {LINKS[at], 1, 0, false, false};
        const char *name = numbered("link%llu.example.", at);
        ask_name(at_address(1, true), next_id++, name, as), begin_reply(sent_before(1), 0);
        put_link(name, LINKS[at], "target.example."), come_whole(sent_before(1), &reply);
        hold(w->waiting == 0 && w->behind == at + 1 && number_at(w->last.octets + 6) == 1, "a link that is asked for");
    }
    end("types of links", before);
}

/* The TTL of the first record that was told. */
static uint32_t ttl_told(void) {
    size_t end = end_of_question(w->last.octets, w->last.length);
    return end > 0 && read_records(w->last.octets, w->last.length, end) && record_count > 0 ? records[0].ttl
                                                                                            : UINT32_MAX;
}

/* For how many seconds a reply is told again without a question, and whether its TTL goes down by each. */
static uint64_t seconds_kept(const char *name, options as, uint32_t ttl) {
    for (uint64_t second = 0;; second++) {
        uint64_t count = w->behind;
        ask_name(at_address(1, false), next_id++, name, as);
        if (w->behind > count) return w->first = w->behind, second;
        hold(ttl_told() == ttl - second, "a TTL that does not go down by seconds");
        tick(w->moment + 1000);
    }
}

static void times(void) {
    static const struct {
        const char *name;
        kind as;
        uint32_t ttl, minimum;
        uint64_t seconds;
    } TIMES[] = {
        {"kept.example.", GOOD, 10, 0, 11},     {"long.example.", GOOD, 100000, 0, 31},
        {"none.example.", GOOD, 0, 0, 1},       {"negative.example.", NONAME, 20, 5, 6},
        {"no.data.example.", NODATA, 5, 20, 6}, {"never.example.", NODATA, 20, 0, 1},
        {"bare.example.", BARE, 0, 0, 1},
    };
    size_t before = held;
    for (size_t at = 0; at < sizeof TIMES / sizeof TIMES[0]; at++) {
        begin(0, 16, "server 192.0.2.53\noption greatest_ttl 30\n", 1000000), w->greatest_ttl = 30;
        ask_name(at_address(1, false), next_id++, TIMES[at].name, PLAIN);
        bool is_negative = TIMES[at].as == NONAME || TIMES[at].as == NODATA;
        if (is_negative)
            begin_reply(sent_before(1), TIMES[at].as == NONAME ? NXDOMAIN : 0),
                put_soa(&reply, TIMES[at].ttl, TIMES[at].minimum), count_in(&reply, 2, 1);
        else build_reply(sent_before(1), TIMES[at].as, TIMES[at].ttl);
        come_whole(sent_before(1), &reply);
        uint32_t ttl = TIMES[at].ttl < 30 ? TIMES[at].ttl : 30;
        /* A SOA record is told for no longer than its minimum says (RFC 2308, section 5). */
        if (is_negative && TIMES[at].minimum < ttl) ttl = TIMES[at].minimum;
        uint64_t seconds = seconds_kept(TIMES[at].name, PLAIN, TIMES[at].as == BARE ? UINT32_MAX : ttl);
        hold(seconds <= TIMES[at].seconds, "a reply is kept for too long"),
            hold(seconds + 1 >= TIMES[at].seconds, "a reply is not kept");
        end(TIMES[at].name, before);
    }
}

/* A clock that goes back takes no record's age away. */
static void clock_back(void) {
    size_t before = held;
    begin(0, 17, ONE, 1000000);
    ask_name(at_address(1, false), 1, "clock.example.", PLAIN), answer_all(GOOD, 100), tick(w->moment + 50000);
    for (int turn = 0; turn < 100; turn++) {
        ask_name(at_address(1, false), 2, "clock.example.", PLAIN),
            hold(ttl_told() == 50, "a clock that stands still or goes back");
        tick(turn % 2 ? 1000000 : 1000000 + roll(50000));
    }
    w->moment = 0, ask_name(at_address(1, false), 3, "another.example.", PLAIN);
    w->is_poisoned = true, answer_all(GOOD, 100), hold(w->waiting == 0, "a question while the clock goes back");
    ask_name(at_address(1, false), 4, "third.example.", PLAIN), w->moment = 1000000;
    end("a clock that goes back", before);
}

/* Moments near the greatest numbers: replies age, and who waits is replied to. */
static void great_moments(void) {
    static const uint64_t MOMENTS[] = {0,
                                       (1ull << 31) - 3000,
                                       (1ull << 32) - 3000,
                                       (1ull << 48) - 3000,
                                       (1ull << 63) - 3000,
                                       UINT64_MAX - 700000,
                                       UINT64_MAX - 30000,
                                       UINT64_MAX - 3000,
                                       UINT64_MAX};
    size_t before = held;
    for (size_t at = 0; at < sizeof MOMENTS / sizeof MOMENTS[0]; at++) {
        uint64_t last = MOMENTS[at] > UINT64_MAX - 40000;
        begin(0, 18, ONE, MOMENTS[at]), w->is_poisoned = true;
        ask_name(at_address(1, false), 1, "great.example.", PLAIN), answer_all(GOOD, 10);
        /* (at the greatest of all no time is left to wait) */
        bool is_told = w->waiting == 0 && is_found() && ttl_told() == 10;
        hold(is_told || MOMENTS[at] == UINT64_MAX, "a reply at a great moment");
        hold(last || seconds_kept("great.example.", PLAIN, 10) == 11, "the age at a great moment");
        ask_name(at_address(2, false), 1, "silent.example.", PLAIN), drain();
        ask_name(at_address(2, true), 2, "silent.example.", LARGE), drain();
        end("great moments", before);
    }
}

/* ---- domains, and settings that are read anew */

static const char DOMAINS[] = "server 192.0.2.53\nforward corp.example 192.0.2.99\nforward own.corp.example\n";

static uint8_t server_of(const char *name) {
    uint64_t count = w->behind;
    ask_name(at_address(1, true), next_id++, name, PLAIN);
    return w->behind == count + 1 ? sent_before(1)->server : 0;
}

/* What is asked of which servers; an alias is followed to the servers of its own domain. */
static void domains(void) {
    size_t before = held;
    begin(0, 22, DOMAINS, 1000000);
    hold(server_of("www.example.") == 53 && server_of("corp.example.") == 99 && server_of("a.b.corp.example.") == 99,
         "a domain's servers");
    hold(server_of("own.corp.example.") == 53 && server_of("x.own.corp.example.") == 53
             && server_of("acorp.example.") == 53,
         "those of others");
    w->first = w->behind, hold(server_of("out.corp.example.") == 99, "an alias out of a domain");
    begin_reply(sent_before(1), 0), put_link("out.corp.example.", CNAME, "in.example."),
        come_whole(sent_before(1), &reply);
    hold(sent_before(1)->server == 53, "an alias out of a domain"), answer_all(GOOD, 60),
        hold(is_found(), "an alias out of a domain");
    w->first = w->behind, hold(server_of("in.to.example.") == 53, "an alias into a domain");
    begin_reply(sent_before(1), 0), put_link("in.to.example.", CNAME, "y.corp.example."),
        come_whole(sent_before(1), &reply);
    hold(sent_before(1)->server == 99, "an alias into a domain"), answer_all(GOOD, 60),
        hold(is_found(), "an alias into a domain");
    end("domains", before);
}

static uint8_t reload(const char *settings, const char *blocked) {
    uint8_t status = yimarotu_forwarder_reload(
                         &w->forwarder, BYTES(""), BYTES("host.example"), (const uint8_t *)settings, strlen(settings),
                         BYTES("10.1.1.1 printer.example\n"), (const uint8_t *)blocked, strlen(blocked), w->moment)
                         .status;
    act();
    return status;
}

/* What was kept before a reload is kept on where nothing changed, and where a line has a fault; else not, nor what
 * comes of look-ups that began before. */
static void reloads(void) {
    size_t before = held;
    begin(0, 23, ONE, 1000000);
    ask_name(at_address(1, true), 1, "kept.example.", PLAIN), answer_all(GOOD, 600);
    hold(reload(ONE, "blocked.example\n") == YIMAROTU_OK && reload("server 192.0.2.54\nfault\n", "") == YIMAROTU_SCRIPT,
         "reload");
    hold(ask_name(at_address(1, true), 2, "kept.example.", PLAIN) == YIMAROTU_REPLIED, "a reload of nothing new");
    ask_name(at_address(1, true), 3, "flight.example.", PLAIN);
    hold(reload("server 192.0.2.54\n", "blocked.example\n") == YIMAROTU_OK && w->waiting == 1, "reload");
    answer_all(GOOD, 600), hold(w->waiting == 0 && is_found(), "in flight at a reload");
    hold(server_of("kept.example.") == 54 && server_of("flight.example.") == 54, "what was kept before a reload"),
        answer_all(GOOD, 600);
    hold(reload("server 192.0.2.54\nallow 192.0.2.0/24\n", "kept.example\n") == YIMAROTU_OK, "reload");
    client stranger = at_address(9, false);
    stranger.is_stranger = true, ask_name(stranger, 4, "kept.example.", PLAIN),
    hold((w->last.octets[3] & 15) == REFUSED, "who may ask");
    stranger = (client){10, {192, 0, 2, 1}, 4, false, false};
    hold(ask_name(stranger, 5, "kept.example.", PLAIN) == YIMAROTU_REPLIED && (w->last.octets[3] & 15) == NXDOMAIN,
         "blocked anew");
    end("reloads", before);
}
