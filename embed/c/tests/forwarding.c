/* A hostile client and a hostile server of a forwarder: queries and replies that are changed, cut, forged, doubled and
 * late; floods; poison; clocks that stand still, go back or end; and calls that do not fit. After each call a model of
 * what each client may be told is looked at (forwarding/model.h). `forwarding [PARTS]`: so many hundredths of the long
 * runs. Prints what is wrong, and at last `N passed, M failed`. */
#include "forwarding/kept.h"

/* ---- parts 1, 2 and 4: everything at random, and queries and replies that were changed */

static void event_query(uint32_t names) {
    client from = at_address(1 + roll(400), roll(4) == 0);
    uint32_t number = roll(4) ? roll(names) : roll(names) % 50;
    build_query(&query, next_id++, numbered("w%llu.example.", number), any_options());
    vary_letters(&query), query.octets[3] |= roll(4) ? 0 : 32;
    if (roll(16) == 0) change(&query);
    ask(&from, query.octets, query.length);
    if (roll(16) == 0) ask(&from, query.octets, query.length);
}

/* One of those that were sent last is replied to, by a reply that may be of another, changed, twice, or in pieces. */
static void event_reply(void) {
    if (w->behind == 0) return;
    uint64_t back = 1 + roll(w->behind < 40 ? (uint32_t)w->behind : 40);
    sent to = *sent_before(roll(8) ? 1 + roll(w->behind < 4 ? (uint32_t)w->behind : 4) : back);
    build_reply(&to, roll(2) ? GOOD : (kind)roll(KINDS), 1 + roll(roll(2) ? 30 : 100000));
    if (roll(32) == 0) reply.octets[0] ^= (uint8_t)(1 + roll(255));
    if (roll(32) == 0) to.channel = sent_before(back)->channel;
    if (to.protocol == STREAM && roll(2)) {
        size_t at = roll((uint32_t)reply.length + 3);
        come_piece(&to, &reply, 0, at), come_piece(&to, &reply, at, SIZE_MAX);
    } else come_whole(&to, &reply);
    if (roll(16) == 0) come_whole(&to, &reply);
}

static void event_time(void) {
    yimarotu_waits waits = yimarotu_forwarder_wait(&w->forwarder, w->moment);
    if (roll(2) && waits.has_deadline) return tick(w->moment + waits.milliseconds);
    tick(w->moment + roll(roll(4) ? 200 : 40000));
}

static void event_rare(const char *settings) {
    uint32_t which = roll(16);
    if (which == 0) hold(yimarotu_forwarder_clear(&w->forwarder) == YIMAROTU_OK, "clear"), act();
    if (which == 1)
        hold(yimarotu_forwarder_flush(&w->forwarder, BYTES("example."), roll(2)) == YIMAROTU_OK, "flush"), act();
    if (which == 2)
        hold(yimarotu_forwarder_reload(&w->forwarder, BYTES(""), BYTES("host.example"), (const uint8_t *)settings,
                                       strlen(settings), BYTES("10.1.1.1 printer.example\n"),
                                       (const uint8_t *)"blocked.example\n# more", 16 + roll(6), w->moment)
                     .status
                 == YIMAROTU_OK,
             "reload"),
            act();
    if (which > 2 && which < 8) leave(1 + roll(400));
    if (which > 8 && w->behind > 0)
        fail(sent_before(1 + roll(w->behind < 20 ? (uint32_t)w->behind : 20))->channel, (uint8_t)(1 + roll(4)));
}

static void any_event(uint32_t names, const char *settings) {
    uint32_t which = roll(100);
    if (which < 45) event_query(names);
    else if (which < 85) event_reply();
    else if (which < 97) event_time();
    else event_rare(settings);
}

static const char RANDOM[] = "server 192.0.2.53\nserver 192.0.2.54\nserver 192.0.2.55 53 tcp\nserver "
                             "2001:db8::53\noption timeout 2\noption attempts 1\n"
                             "option cache_octets 2000000\noption clients 500\noption clients_of_address 20\noption "
                             "clients_of_question 30\noption num_concurrent_reqs 2\n"
                             "option case_randomization true\noption failures 100\n";

static void begin_random(int which, uint8_t seed) {
    begin(which, seed, RANDOM, 1000000);
    w->cache_octets = 2000000, w->clients = 500, w->clients_of_address = 20, w->clients_of_question = 30;
}

/* What is held after so many events does not grow by ten times as many. */
static void any_events(void) {
    size_t before = held, after[2];
    begin_random(0, 1);
    w->held_bound = before + 3 * w->cache_octets + BESIDE;
    for (int turn = 0; turn < 2; turn++) {
        for (size_t left = scaled(turn == 0 ? 100000 : 900000); left > 0 && w->faults == 0; left--)
            any_event(4000, RANDOM);
        drain(), yimarotu_forwarder_clear(&w->forwarder), after[turn] = held;
    }
    /* (after fewer events not all tables have grown as much as they do) */
    size_t more = hundredths < 100 ? 262144 : 65536;
    tell("a million events hold no more memory than a hundred thousand", after[1] <= after[0] + more);
    printf("ok %zu octets after %zu events, %zu after ten times as many; at most %zu\n", after[0] - before,
           scaled(100000), after[1] - before, most_held - before);
    end("whatever happens, each who waits has one reply, of his own", before);
}

static const struct {
    const char *name, *settings;
    uint64_t clients, of_address, of_question, octets, ttl;
} SETTINGS[] = {
    {"nothing is set", "", 4096, 256, 256, 67108864, 3600},
    {"no server answers by UDP", "server 192.0.2.53 53 tcp\nserver 2001:db8::53 5353 tcp\noption timeout 1\n", 4096,
     256, 256, 67108864, 3600},
    {"nobody may wait", "option clients 0\n", 0, 256, 256, 67108864, 3600},
    {"one may wait", "option clients 1\noption clients_of_address 1\noption clients_of_question 1\n", 1, 1, 1, 67108864,
     3600},
    {"nobody of one address may wait", "option clients_of_address 0\n", 4096, 0, 256, 67108864, 3600},
    {"nobody may wait for a question", "option clients_of_question 0\n", 4096, 256, 0, 67108864, 3600},
    {"nothing is kept", "option cache_octets 0\noption failures 0\noption greatest_ttl 0\n", 4096, 256, 256, 0, 0},
    {"one is kept", "option cache_entries 1\noption failures 1\noption greatest_ttl 1\n", 4096, 256, 256, 67108864, 1},
    {"little is kept", "option cache_octets 60000\noption failures 2\n", 4096, 256, 256, 60000, 3600},
    {"the greatest numbers",
     "option clients 18446744073709551615\noption clients_of_address 18446744073709551615\noption clients_of_question "
     "18446744073709551615\n"
     "option cache_octets 18446744073709551615\noption cache_entries 18446744073709551615\noption failures "
     "18446744073709551615\noption greatest_ttl 18446744073709551615\n",
     UINT64_MAX, UINT64_MAX, UINT64_MAX, UINT64_MAX, UINT64_MAX},
    {"no rounds, no OPT", "server 192.0.2.53\noption attempts 0\noption edns0 false\noption try_tcp_on_error false\n",
     4096, 256, 256, 67108864, 3600},
    {"many rounds at once",
     "server 192.0.2.53\nserver 192.0.2.54\nserver 192.0.2.55\noption attempts 5\noption num_concurrent_reqs 3\noption "
     "try_tcp_on_error true\noption timeout 1\n",
     4096, 256, 256, 67108864, 3600},
    {"one try of a stream",
     "server 192.0.2.53 53 tcp\noption max_active_requests 1\noption num_concurrent_reqs 1\noption case_randomization "
     "true\n",
     4096, 256, 256, 67108864, 3600},
    {"several groups",
     "server 192.0.2.53\nforward w1.example 192.0.2.99\nforward w2.example 192.0.2.98 53 tcp\nserve w3.example\nblock "
     "w4.example null\nblock w5.example nodata\nforward w6.example\n",
     4096, 256, 256, 67108864, 3600},
    {"AD is passed on", "option trusts_authentic_data true\n", 4096, 256, 256, 67108864, 3600},
};

/* The same over settings of every kind. */
static void settings_of_every_kind(void) {
    for (size_t at = 0; at < sizeof SETTINGS / sizeof SETTINGS[0]; at++) {
        size_t before = held;
        begin(0, (uint8_t)at, SETTINGS[at].settings, 1000000);
        w->clients = SETTINGS[at].clients, w->clients_of_address = SETTINGS[at].of_address,
        w->clients_of_question = SETTINGS[at].of_question;
        w->cache_octets = SETTINGS[at].octets, w->greatest_ttl = SETTINGS[at].ttl;
        w->trusts = strstr(SETTINGS[at].settings, "trusts") != NULL, authentic_count = 0;
        for (size_t left = scaled(20000); left > 0 && w->faults == 0; left--)
            any_event(at % 2 ? 60 : 4000, SETTINGS[at].settings);
        hold((authentic_count > 0) == w->trusts, "AD is never passed on");
        end(SETTINGS[at].name, before);
    }
}

/* The same where memory is refused now and then, and rooms are small: nobody who waits is lost. */
static void short_of_memory_and_room(void) {
    for (int which = 1; which < 4; which++) {
        size_t before = held;
        begin_random(0, 5), w->is_short = which & 1, w->is_cramped = which & 2, refusals = 0;
        for (size_t left = scaled(100000); left > 0 && w->faults == 0; left--) any_event(left % 2 ? 100 : 4000, RANDOM);
        tell("memory was refused", (refusals > scaled(5000)) == w->is_short);
        end("short of memory, or of room", before);
    }
}

/* Two forwarders of one seed do the same, and one of another seed does not. */
static void side_by_side(void) {
    size_t before = held;
    uint64_t sums[3] = {0}, is_same = true;
    for (int which = 0; which < 2; which++) begin_random(which, 9);
    for (size_t left = scaled(20000); left > 0 && is_same; left--) {
        uint64_t state = random_state;
        uint16_t id = next_id;
        w = &worlds[0], any_event(500, RANDOM);
        random_state = state, next_id = id, w = &worlds[1], any_event(500, RANDOM);
        is_same = worlds[0].sum == worlds[1].sum;
    }
    tell("a seed and events tell all that is sent and replied", is_same);
    for (int which = 0; which < 2; which++)
        w = &worlds[which], drain(), yimarotu_forwarder_close(&w->forwarder);
    tell("side by side", worlds[0].faults + worlds[1].faults == 0);
    for (int which = 0; which < 3; which++) {
        begin_random(0, which == 2 ? 8 : 9), next_id = 0;
        ask_name(at_address(1, false), 1, "w1.example.", PLAIN), sums[which] = w->sum;
        end("one query", before);
    }
    tell("another seed asks under another id", sums[0] == sums[1] && sums[0] != sums[2]);
}

/* ---- part 2: queries and replies that were changed */

static client any_client(void) {
    client from = at_address(1 + roll(100), roll(4) == 0);
    if (roll(4) == 0) from.address_length = 16, from.address[0] = 0xfd;
    if (roll(16) == 0) from.address[0] = 192, from.is_stranger = true;
    return from;
}

static void changed_queries(void) {
    size_t before = held;
    begin(0, 2, ONE, 1000000);
    for (size_t left = scaled(100000); left > 0 && w->faults == 0; left--) {
        client from = any_client();
        build_query(&query, next_id++, numbered("q%llu.example.", roll(3000)), any_options());
        vary_letters(&query), change(&query), ask(&from, query.octets, query.length);
        answer_all(roll(8) ? GOOD : (kind)roll(KINDS), 1 + roll(600));
        if (roll(8) == 0) tick(w->moment + roll(3000));
    }
    end("a hundred thousand changed queries", before);
}

/* Every part of a query has its reply or none, as the rows say. */
static void parts_of_queries(void) {
    size_t before = held;
    options as = {HTTPS, 1, 1232, true, true};
    begin(0, 3, ONE, 1000000);
    for (int turn = 0; turn < 6; turn++) {
        build_query(&query, 7, "www.part.of.a.query.example.", turn % 2 ? as : PLAIN);
        if (turn >= 2) add_opt(&query), add_signature(&query);
        if (turn >= 4) query.octets[11] = 2;
        for (size_t length = 0; length <= query.length; length++) {
            client from = at_address(1000 * (uint64_t)turn + length, turn & 1);
            message part = query;
            part.octets[1] = (uint8_t)length, ask(&from, part.octets, length), answer_all(GOOD, 60);
        }
    }
    end("every part of queries", before);
}

/* Whether a reply is one to another message than was sent. */
static bool is_other(const sent *to, const message *it) {
    size_t end = end_of_question(to->octets, to->length);
    if (it->length < HEADER || memcmp(it->octets, to->octets, 2) != 0 || it->octets[2] < 128 || it->octets[2] & 0x78)
        return true;
    unsigned count = number_at(it->octets + 4);
    if (count == 0) return false; /* it may say that OPT is not understood */
    if (count > 1 || it->length < end || memcmp(it->octets + end - 4, to->octets + end - 4, 4) != 0) return true;
    for (size_t at = HEADER; at < end - 4; at++)
        if (lower(it->octets[at]) != lower(to->octets[at])) return true;
    return false;
}

static void changed_replies(void) {
    size_t before = held, others = 0;
    begin(0, 4, ONE, 1000000), w->is_poisoned = true;
    for (uint64_t number = 0; number < scaled(100000) && w->faults == 0; number++) {
        ask_name(at_address(1 + roll(100), roll(4) == 0), next_id++, numbered("r%llu.example.", number), any_options());
        sent to = *sent_before(1);
        build_reply(&to, roll(4) ? GOOD : (kind)roll(KINDS), 1 + roll(600));
        message whole = reply;
        change(&reply);
        uint64_t sum = w->sum, is_wrong = is_other(&to, &reply);
        come_whole(&to, &reply), others += is_wrong;
        hold(!is_wrong || w->sum == sum, "a reply to another message than was sent changes something");
        if (to.protocol == DATAGRAM && is_wrong && reply.length >= end_of_question(to.octets, to.length))
            come_whole(&to, &whole);
        w->first = w->behind - (w->waiting > 0), answer_all(GOOD, 60), drain();
        if (roll(64) == 0) tick(w->moment + roll(3000));
    }
    tell("many replies were those of others", others > scaled(10000));
    end("a hundred thousand changed replies", before);
}

/* A reply of which a part is missing is no answer. */
static void parts_of_replies(void) {
    size_t before = held, whole = 1;
    begin(0, 5, ONE, 1000000);
    for (size_t length = 0; length <= whole; length++) {
        ask_name(at_address(1, false), (uint16_t)length, numbered("p%llu.example.", length), LARGE);
        sent to = *sent_before(1);
        build_reply(&to, WHOLE_ALIAS, 60), whole = reply.length, reply.length = length;
        uint64_t told = w->replies;
        come_whole(&to, &reply);
        hold(told == w->replies || is_found() == (length == whole), "a part of a reply is an answer");
        if (w->waiting > 0) w->first = w->behind - 1, answer_all(GOOD, 60), hold(is_found(), "the whole is none");
    }
    tell("there are parts", whole > 80);
    end("every part of a reply", before);
}

/* All other ids on the right channel, and the right reply on all others; twice, and on a channel that is closed. */
static void forgeries(void) {
    size_t before = held;
    begin(0, 6, ONE, 1000000);
    ask_name(at_address(1, false), 1, "forged.example.", PLAIN);
    sent to = *sent_before(1);
    build_reply(&to, GOOD, 60);
    uint64_t sum = w->sum, id = number_at(reply.octets);
    for (unsigned other = 0; other < 65536; other++) {
        reply.octets[0] = (uint8_t)(other >> 8), reply.octets[1] = (uint8_t)other;
        if (other != id) come_whole(&to, &reply);
    }
    memcpy(reply.octets, to.octets, 2);
    for (uint64_t channel = 0; channel < 3000; channel++)
        if (channel != to.channel) come(channel, reply.octets, reply.length);
    come(UINT64_MAX, reply.octets, reply.length);
    hold(w->sum == sum && w->waiting == 1, "a forged reply changes something");
    come_whole(&to, &reply), hold(w->waiting == 0 && is_found(), "the true reply is not believed");
    sum = w->sum, come_whole(&to, &reply), come_whole(&to, &reply), fail(to.channel, 1),
    hold(w->sum == sum, "a reply that comes again");
    end("forged replies", before);
}

/* A reply that comes late, once the question was sent again, is believed; the second one is none's. */
static void late_replies(void) {
    size_t before = held;
    begin(0, 6, "server 192.0.2.53\noption timeout 2\noption attempts 1\n", 1000000);
    ask_name(at_address(1, false), 1, "late.example.", PLAIN);
    sent first = *sent_before(1);
    tick(w->moment + yimarotu_forwarder_wait(&w->forwarder, w->moment).milliseconds);
    hold(w->behind == 2 && w->waiting == 1, "it is not sent again");
    sent second = *sent_before(1);
    build_reply(&first, GOOD, 60), come_whole(&first, &reply), hold(w->waiting == 0 && is_found(), "a late reply");
    uint64_t sum = w->sum;
    build_reply(&second, NONAME, 60), come_whole(&second, &reply), hold(w->sum == sum, "a reply behind a late one");
    end("late replies", before);
}

/* ---- streams */

static const char BY_STREAM[] = "server 192.0.2.53 53 tcp\n";

static void cut_streams(void) {
    size_t before = held, whole = 1;
    begin(0, 7, BY_STREAM, 1000000);
    for (size_t at = 0; at <= whole; at++) {
        ask_name(at_address(1, true), (uint16_t)at, numbered("s%llu.example.", at), PLAIN);
        sent to = *sent_before(1);
        build_reply(&to, GOOD, 60), whole = reply.length + 2;
        come_piece(&to, &reply, 0, at), hold((w->waiting == 0) == (at == whole), "a part of a stream");
        come_piece(&to, &reply, at, whole), hold(w->waiting == 0 && is_found(), "the rest of a stream");
    }
    ask_name(at_address(1, true), 999, "octets.example.", PLAIN);
    sent to = *sent_before(1);
    build_reply(&to, GOOD, 60);
    for (size_t at = 0; at < reply.length + 2; at++)
        come_piece(&to, &reply, at, at + 1), come_piece(&to, &reply, at, at);
    hold(w->waiting == 0 && is_found(), "octet by octet");
    end("a stream that is cut at every octet", before);
}

/* Several replies in one piece, in another order; then lengths and messages that fit nothing: they fail the channel. */
static void odd_streams(void) {
    static const struct {
        const char *octets;
        size_t length;
    } ODD[] = {{"\0\0", 2}, {"\0\1x", 3}, {"\0\14xxxxxxxxxxxx", 14}, {"\377\377", 2}};
    size_t before = held;
    message all = {.length = 0};
    begin(0, 8, BY_STREAM, 1000000);
    for (uint16_t id = 0; id < 20; id++) ask_name(at_address(1, true), id, numbered("m%llu.example.", id), PLAIN);
    for (int back = 1; back <= 20; back++)
        build_reply(sent_before(back), GOOD, 60), put_number(&all, reply.length, 2),
            put(&all, reply.octets, reply.length);
    come(sent_before(1)->channel, all.octets, all.length),
        hold(w->waiting == 0 && is_found(), "twenty replies in one piece");
    for (size_t at = 0; at < 4; at++) {
        ask_name(at_address(1, true), 100, numbered("o%llu.example.", at), PLAIN);
        come(sent_before(1)->channel, (const uint8_t *)ODD[at].octets, ODD[at].length);
        if (at == 3) memset(all.octets, 0, ROOM), come(sent_before(1)->channel, all.octets, ROOM);
        w->first = w->behind - 1, answer_all(GOOD, 60), hold(w->waiting == 0 && is_found(), "behind an odd stream");
    }
    end("odd streams", before);
}

/* ---- part 3: floods */

static void show_held(const char *what, size_t before) {
    printf("ok %s: %zu octets held at the most\n", what, most_held - before);
    most_held = held;
}

static client of_one(uint64_t number) {
    client it = at_address(7, number % 3 == 0);
    it.number = 1000 + number;
    return it;
}
static client of_network(uint64_t number) {
    return (client){1000 + number,
                    {0xfd, 0, 0, 0, 0, 0, 0, 1, 0, 0, 0, 0, 0, 0, (uint8_t)(number >> 8), (uint8_t)number},
                    16,
                    number % 3 == 0,
                    false};
}
static client of_two_families(uint64_t number) {
    client it = at_address(7, false), mapped = {0, {[10] = 0xff, [11] = 0xff, [12] = 10, [15] = 7}, 16, false, false};
    if (number % 2) it = mapped;
    it.number = 1000 + number;
    return it;
}

/* What is kept, and local data, have their reply in any flood. */
static void ask_known(void) {
    options address = {A, 1, 0, false, false};
    hold(ask_name(at_address(3, false), 1, "kept.example.", PLAIN) == YIMAROTU_REPLIED && is_found(),
         "what is kept, in a flood");
    hold(ask_name(at_address(3, false), 2, "printer.example.", address) == YIMAROTU_REPLIED && is_found(),
         "local data, in a flood");
    hold(ask_name(at_address(3, false), 3, "blocked.example.", address) == YIMAROTU_REPLIED
             && (w->last.octets[3] & 15) == NXDOMAIN,
         "a blocked name, in a flood");
}

static void floods_of_queries(void) {
    static const struct {
        const char *name, *form;
        size_t count, waits;
        client (*who)(uint64_t);
    } floods[] = {
        {"fifty thousand addresses", "f%llu.example.", 50000, 4096, of_many},
        {"one address", "f%llu.example.", 10000, 256, of_one},
        {"one network of IPv6", "f%llu.example.", 10000, 256, of_network},
        {"one question", "one.example.", 10000, 256, of_many},
        {"one address as IPv4 and within IPv6", "f%llu.example.", 10000, 256, of_two_families},
    };
    for (size_t at = 0; at < sizeof floods / sizeof floods[0]; at++) {
        size_t before = held;
        begin(0, 9, "server 192.0.2.53\nallow 10.0.0.0/8\nallow fd00::/8\nallow ::ffff:0:0/96\n", 1000000);
        w->held_bound = before + BESIDE, most_held = held;
        ask_name(at_address(3, false), 1, "kept.example.", PLAIN), answer_all(GOOD, 3600);
        size_t waited = ask_many(floods[at].count, floods[at].who, floods[at].form, at == 3);
        hold(waited == floods[at].waits && w->waiting == waited, "how many wait in a flood");
        if (at != 0)
            hold(ask_name(at_address(3, false), 9, "beside.example.", PLAIN) == YIMAROTU_QUERY_WAITS,
                 "another client in a flood");
        ask_known(), drain(), show_held(floods[at].name, before);
        end(floods[at].name, before);
    }
}

/* A reply of almost 64 KB, of 250 strings. */
static void build_large(const sent *to) {
    asked query = begin_reply(to, 0);
    for (int left = 250; left > 0; left--) {
        put_number(&reply, 0xc00c, 2), put_number(&reply, query.type, 2), put_number(&reply, 1, 2),
            put_number(&reply, 86400, 4);
        put_number(&reply, 248, 2), put_number(&reply, 247, 1);
        for (int octets = 247; octets > 0; octets--) put_number(&reply, roll(256), 1);
        count_in(&reply, 1, 1);
    }
}

static void ask_ten(uint64_t minute) {
    for (uint64_t number = 0; number < 10; number++) {
        uint64_t sent_count = w->behind;
        ask_name(at_address(5, false), (uint16_t)(minute * 10 + number), numbered("ten%llu.example.", number), PLAIN);
        hold(minute == 0 || (w->behind == sent_count && is_found()),
             "one of ten names that are asked each minute is gone");
        answer_all(GOOD, 86400);
    }
}

/* Ten names that are asked each minute stay, whatever strangers ask besides. */
static void flood_of_names(void) {
    size_t before = held;
    options text = {TXT, 1, 0, false, false};
    begin(0, 10, "server 192.0.2.53 53 tcp\noption cache_octets 17100000\noption greatest_ttl 86400\n", 1000000);
    w->cache_octets = 17100000, w->greatest_ttl = 86400, w->held_bound = before + 3 * w->cache_octets + BESIDE,
    most_held = held;
    for (uint64_t minute = 0; minute < 50 && w->faults == 0; minute++, tick(w->moment + 60000)) {
        ask_ten(minute), ask_ten(minute + (minute == 0));
        for (uint64_t number = 0; number < 164; number++)
            ask_name(of_many(number), 1, numbered("x%llu.wild.example.", minute * 164 + number), PLAIN),
                answer_all(GOOD, 86400);
        for (uint64_t number = 0; number < 5; number++) {
            ask_name(at_address(6, true), 2, numbered("large%llu.example.", minute * 5 + number), text);
            build_large(sent_before(1)), come_whole(sent_before(1), &reply), w->first = w->behind;
            hold(is_found() && w->last.length > 65000, "a large reply");
        }
    }
    yimarotu_forwarder_counts told = yimarotu_forwarder_statistics(&w->forwarder);
    tell("the flood filled the cache", told.octets > 17000000 && told.entries < 8200 + 250);
    show_held("names and large replies", before);
    end("ten names that are asked each minute stay in a flood", before);
}

/* Entries that weigh as little as can be: how much memory they take in truth. */
static void small_entries(void) {
    size_t before = held;
    options address = {A, 1, 0, false, false};
    begin(0, 11, "server 192.0.2.53\noption cache_octets 4000000\n", 1000000);
    w->cache_octets = 4000000, w->held_bound = before + 3 * w->cache_octets + BESIDE, most_held = held;
    for (uint64_t number = 0; number < 40000 && w->faults == 0; number++)
        ask_name(at_address(6, false), (uint16_t)number, numbered("%llx.", number), address), answer_all(GOOD, 3600);
    yimarotu_forwarder_counts told = yimarotu_forwarder_statistics(&w->forwarder);
    printf("ok %llu entries that weigh %llu octets, in %zu octets\n", (unsigned long long)told.entries,
           (unsigned long long)told.octets, held - before);
    show_held("small entries", before);
    end("entries that weigh little", before);
}

/* ---- part 7: what does not fit */

static yimarotu_queried raw_query(size_t address_length, size_t length, uint8_t *room, size_t room_length) {
    static const uint8_t address[32] = {10};
    return yimarotu_forwarder_query(&w->forwarder, 1, address, address_length, false, query.octets, length, w->moment,
                                    room, room_length);
}

/* Rooms of every length, for a reply at once, again, and for each action. */
static void rooms(void) {
    static uint8_t room[ROOM], filled[ROOM];
    memset(filled, '#', sizeof filled), memset(room, '#', sizeof room);
    begin(0, 19, "server 2001:db8::53\n", 1000000);
    build_query(&query, 9, "room.example.", LARGE);
    bool is_right = raw_query(4, query.length, room, ROOM).answered == YIMAROTU_QUERY_WAITS;
    for (int kind = YIMAROTU_OPEN; kind <= YIMAROTU_REPLY; kind = kind == YIMAROTU_OPEN   ? YIMAROTU_SEND
                                                                  : kind == YIMAROTU_SEND ? YIMAROTU_REPLY
                                                                                          : 99) {
        yimarotu_action next = {.kind = YIMAROTU_CONTINUE};
        while (next.kind == YIMAROTU_CONTINUE || next.kind == YIMAROTU_CLOSE)
            next = yimarotu_forwarder_next(&w->forwarder, room, 0);
        size_t whole = next.length;
        is_right = is_right && next.status == YIMAROTU_ROOM && next.kind == kind && whole > 0;
        for (size_t length = 0; length < whole; length++) {
            next = yimarotu_forwarder_next(&w->forwarder, room, length);
            is_right
                = is_right && next.status == YIMAROTU_ROOM && next.length == whole && memcmp(room, filled, ROOM) == 0;
            if (kind == YIMAROTU_REPLY)
                is_right = is_right && raw_query(4, query.length, room, ROOM).status == YIMAROTU_WAITS;
        }
        next = yimarotu_forwarder_next(&w->forwarder, room, whole);
        is_right = is_right && next.status == YIMAROTU_OK && next.kind == kind && next.length == whole
                   && memcmp(room + whole, filled, ROOM - whole) == 0;
        sent it = {next.channel, DATAGRAM, 0, whole, {0}};
        memcpy(it.octets, room, whole < 512 ? whole : 512);
        if (kind == YIMAROTU_SEND)
            build_reply(&it, GOOD, 60),
                yimarotu_forwarder_came(&w->forwarder, it.channel, reply.octets, reply.length, w->moment);
        memset(room, '#', sizeof room);
    }
    tell("rooms of every length for what is to be done", is_right);
    while (yimarotu_forwarder_next(&w->forwarder, room, ROOM).kind != YIMAROTU_NOTHING) continue;
    memset(room, '#', sizeof room);
    size_t whole = raw_query(4, query.length, room, 0).length;
    for (size_t length = 0; length <= whole + 1; length++) {
        yimarotu_queried told = raw_query(4, query.length, room, length);
        bool fits = length >= whole;
        is_right = is_right && told.status == (fits ? YIMAROTU_OK : YIMAROTU_ROOM) && told.answered == YIMAROTU_REPLIED
                   && told.length == whole;
        is_right
            = is_right && (fits || memcmp(room, filled, ROOM) == 0) && memcmp(room + whole, filled, ROOM - whole) == 0;
        memset(room, '#', sizeof room);
        yimarotu_written again = yimarotu_forwarder_reply(&w->forwarder, room, length);
        is_right = is_right && again.status == told.status && again.length == whole && again.fault == 0
                   && (memcmp(room, filled, ROOM) == 0) == !fits;
        memset(room, '#', sizeof room);
    }
    tell("rooms of every length for a reply", is_right && whole > 60);
    yimarotu_forwarder_close(&w->forwarder);
}

/* Addresses and queries of every length, failures of every kind, seeds, and text that is no name. */
static void numbers(void) {
    uint8_t seed[40] = {0}, room[1];
    static uint8_t large[ROOM];
    begin(0, 20, ONE, 1000000), build_query(&query, 9, "n.example.", PLAIN);
    tell("no reply yet", yimarotu_forwarder_reply(&w->forwarder, room, 0).status == YIMAROTU_OK
                             && yimarotu_forwarder_reply(&w->forwarder, room, 0).length == 0);
    for (size_t length = 0; length <= 32; length++) {
        yimarotu_queried told = raw_query(length, query.length, large, ROOM);
        tell("the length of an address", told.status == (length == 4 || length == 16 ? YIMAROTU_OK : YIMAROTU_KIND)
                                             && (told.status == YIMAROTU_OK || told.answered == 0));
    }
    for (unsigned failure = 0; failure < 256; failure++)
        tell("a kind of failure", yimarotu_forwarder_failed(&w->forwarder, 99, (uint8_t)failure, 1)
                                      == (failure >= 1 && failure <= 4 ? YIMAROTU_OK : YIMAROTU_KIND));
    tell("a query of no octets", raw_query(4, 0, large, ROOM).answered == YIMAROTU_DROPPED);
    tell("octets of none", yimarotu_forwarder_came(&w->forwarder, 0, room, 0, 1) == YIMAROTU_OK
                               && yimarotu_forwarder_came(&w->forwarder, UINT64_MAX, room, 0, 1) == YIMAROTU_OK);
    tell("a query that is too long",
         raw_query(4, ROOM, large, ROOM).answered == YIMAROTU_REPLIED && (large[3] & 15) == FORMERR);
    tell("what is no name", yimarotu_forwarder_flush(&w->forwarder, BYTES("a..b"), false) == YIMAROTU_TEXT
                                && yimarotu_forwarder_flush(&w->forwarder, BYTES("\xff"), true) == YIMAROTU_TEXT);
    tell("open twice", open_forwarder(1, ONE).status == YIMAROTU_IS_OPEN);
    yimarotu_forwarder moved = w->forwarder;
    tell("a forwarder that was moved", yimarotu_forwarder_statistics(&moved).queries == 3);
    yimarotu_forwarder_close(&moved), yimarotu_forwarder_close(&moved), w->forwarder = moved;
    for (size_t length = 0; length <= 40; length++) {
        yimarotu_opened opened = yimarotu_forwarder_open(&w->forwarder, BYTES(""), BYTES(""), BYTES(ONE), BYTES(""),
                                                         BYTES(""), seed, length, 1);
        tell("the length of a seed", opened.status == (length == 32 ? YIMAROTU_OK : YIMAROTU_SEED)),
            yimarotu_forwarder_close(&w->forwarder);
    }
    tell("the line of a fault",
         open_forwarder(1, "server 192.0.2.1\n\noption nothing 1\n").line == 3 && !w->forwarder.is_open);
}

static void closed(void) {
    static uint8_t room[ROOM];
    size_t before = held;
    begin(0, 21, ONE, 1), yimarotu_forwarder_close(&w->forwarder), yimarotu_forwarder_close(&w->forwarder);
    tell("closed: query", raw_query(4, query.length, room, ROOM).status == YIMAROTU_CLOSED
                              && raw_query(3, 0, room, 0).status != YIMAROTU_OK);
    tell("closed: reply", yimarotu_forwarder_reply(&w->forwarder, room, ROOM).status == YIMAROTU_CLOSED);
    tell("closed: gone", yimarotu_forwarder_gone(&w->forwarder, 1) == YIMAROTU_CLOSED);
    tell("closed: next", yimarotu_forwarder_next(&w->forwarder, room, ROOM).status == YIMAROTU_CLOSED);
    tell("closed: came", yimarotu_forwarder_came(&w->forwarder, 1, room, 1, 1) == YIMAROTU_CLOSED);
    tell("closed: failed", yimarotu_forwarder_failed(&w->forwarder, 1, 1, 1) == YIMAROTU_CLOSED);
    tell("closed: tick", yimarotu_forwarder_tick(&w->forwarder, 1) == YIMAROTU_CLOSED);
    tell("closed: wait", yimarotu_forwarder_wait(&w->forwarder, 1).status == YIMAROTU_CLOSED);
    tell("closed: statistics", yimarotu_forwarder_statistics(&w->forwarder).status == YIMAROTU_CLOSED);
    tell("closed: flush", yimarotu_forwarder_flush(&w->forwarder, BYTES("a."), true) == YIMAROTU_CLOSED);
    tell("closed: clear", yimarotu_forwarder_clear(&w->forwarder) == YIMAROTU_CLOSED);
    tell("closed: reload",
         yimarotu_forwarder_reload(&w->forwarder, BYTES(""), BYTES(""), BYTES(ONE), BYTES(""), BYTES(""), 1).status
             == YIMAROTU_CLOSED);
    tell("closed: memory", held == before);
}
int main(int count, char **words) {
    if (count > 1) hundredths = strtoul(words[1], NULL, 10);
    any_events();
    settings_of_every_kind();
    short_of_memory_and_room();
    side_by_side();
    changed_queries();
    parts_of_queries();
    changed_replies();
    parts_of_replies();
    forgeries();
    late_replies();
    cut_streams();
    odd_streams();
    floods_of_queries();
    flood_of_names();
    small_entries();
    poison();
    long_chains();
    private_addresses();
    keys();
    lengths();
    types_of_links();
    times();
    clock_back();
    great_moments();
    domains();
    reloads();
    rooms();
    numbers();
    closed();
    printf("%d passed, %d failed\n", passed, failed);
    return failed == 0 ? 0 : 1;
}
