/* The clients and the servers that are hostile to a forwarder: what they ask, reply, and change in messages. */
#include "model.h"

static size_t hundredths = 100;

static size_t scaled(size_t count) { return count * hundredths / 100; }

static const char ONE[] = "server 192.0.2.53\n";

/* ---- clients */

static client at_address(uint64_t number, bool is_stream) {
    return (client){
        number, {10, (uint8_t)(number >> 16), (uint8_t)(number >> 8), (uint8_t)number}, 4, is_stream, false};
}

typedef struct options {
    uint16_t type, class, size; /* a size of 0: no OPT */
    bool dnssec, unchecked;
} options;

static const options PLAIN = {AAAA, 1, 0, false, false}, LARGE = {AAAA, 1, 1232, false, false};

static void build_query(message *to, uint16_t id, const char *name, options as) {
    to->length = 0;
    put_number(to, id, 2), put_number(to, as.unchecked ? 0x0110 : 0x0100, 2), put_number(to, 1, 2),
        put_number(to, 0, 4);
    put_number(to, as.size != 0 || as.dnssec, 2), put_name(to, name), put_number(to, as.type, 2),
        put_number(to, as.class, 2);
    if (as.size == 0 && !as.dnssec) return;
    put_number(to, OPT, 3), put_number(to, as.size, 2), put_number(to, as.dnssec ? 0x8000 : 0, 4), put_number(to, 0, 2);
}

static void vary_letters(message *to) {
    size_t end = end_of_question(to->octets, to->length);
    for (size_t at = HEADER; at + 4 < end; at++)
        if (to->octets[at] >= 'a' && to->octets[at] <= 'z' && roll(2)) to->octets[at] -= 32;
}

static const uint16_t TYPES[] = {A, AAAA, TXT, HTTPS, TYPE97};

static options any_options(void) {
    options as = {TYPES[roll(5)], 1, roll(3) ? (uint16_t)roll(5000) : 0, roll(4) == 0, roll(8) == 0};
    return as;
}

static uint16_t next_id;

static message query;

static uint8_t ask_name(client from, uint16_t id, const char *name, options as) {
    build_query(&query, id, name, as);
    return ask(&from, query.octets, query.length);
}

static const char *numbered(const char *form, uint64_t number) {
    static char names[4][80];
    static int turn;
    char *name = names[turn++ % 4];
    snprintf(name, sizeof names[0], form, (unsigned long long)number);
    return name;
}

static size_t ask_many(size_t count, client (*who)(uint64_t), const char *form, bool is_one) {
    size_t waited = 0;
    for (uint64_t number = 0; number < count && w->faults == 0; number++)
        waited += ask_name(who(number), (uint16_t)number, is_one ? form : numbered(form, number), PLAIN)
                  == YIMAROTU_QUERY_WAITS;
    return waited;
}

static client of_many(uint64_t number) { return at_address(1000 + number, number % 3 == 0); }

/* ---- servers */

typedef enum kind { GOOD, NODATA, NONAME, CUT, FAILS, REFUSES, LAME, ALIAS, WHOLE_ALIAS, BARE, KINDS } kind;

static message reply;

/* A header of this code and these flags, with AA, AD and the reserved bit, and the question, as it was asked. */
static asked begin_reply(const sent *to, unsigned flags) {
    asked query = read_query(to->octets, to->length, true);
    reply.length = 0;
    put_number(&reply, query.id, 2), put_number(&reply, 0x85e0 | flags, 2), put_number(&reply, 1, 2),
        put_number(&reply, 0, 6);
    put(&reply, query.question, query.question_length);
    return query;
}

static void put_alias(const uint8_t *name, size_t length, const char *target, uint32_t ttl) {
    put(&reply, name, length), put_number(&reply, CNAME, 2), put_number(&reply, 1, 2), put_number(&reply, ttl, 4);
    size_t at = reply.length;
    put_number(&reply, 0, 2), put_name(&reply, target), count_in(&reply, 1, 1);
    reply.octets[at + 1] = (uint8_t)(reply.length - at - 2);
}

static void put_own(const uint8_t *name, size_t length, const asked *query, uint32_t ttl) {
    put_record(&reply, name, length, query->type, ttl, query->dnssec | (query->flags >> 3 & 2)), count_in(&reply, 1, 1);
}

static void put_aliased(const uint8_t *name, size_t length, const asked *query, uint32_t ttl, bool is_whole) {
    const char *target = numbered("t%llu.example.", hash_of(name, length));
    message spelled = {.length = 0};
    put_alias(name, length, target, ttl), put_name(&spelled, target);
    if (is_whole) put_own(spelled.octets, spelled.length, query, ttl);
}

/* OPT of a server, with DO and a cookie, which no client may be told. */
static void put_server_opt(void) {
    put_number(&reply, OPT, 3), put_number(&reply, 4096, 2), put_number(&reply, 0x8000, 4), put_number(&reply, 12, 2);
    put_number(&reply, 10 << 16 | 8, 4), put_number(&reply, 0x0102030405060708, 8), count_in(&reply, 3, 1);
}

/* The reply of a kind to what was sent, with a TTL. */
static void build_reply(const sent *to, kind as, uint32_t ttl) {
    static const unsigned flags[KINDS] = {[NONAME] = NXDOMAIN, [CUT] = 512, [FAILS] = SERVFAIL, [REFUSES] = REFUSED};
    uint8_t name[256];
    size_t length;
    asked query = begin_reply(to, flags[as]);
    read_name(query.question, query.question_length, 0, name, &length);
    if ((as == ALIAS || as == WHOLE_ALIAS) && name[1] == 't') as = GOOD;
    if (as == GOOD) put_own(name, length, &query, ttl);
    if (as == ALIAS || as == WHOLE_ALIAS) put_aliased(name, length, &query, ttl, as == WHOLE_ALIAS);
    if (as == NODATA || as == NONAME) put_soa(&reply, ttl, ttl / 2 + 1), count_in(&reply, 2, 1);
    if (as == LAME)
        put_number(&reply, 2, 3), put_number(&reply, 1, 2), put_number(&reply, ttl, 4), put_number(&reply, 1, 2),
            put_number(&reply, 0, 1), count_in(&reply, 2, 1);
    if (query.has_opt && roll(2)) put_server_opt();
}

/* A message on the channel of what was sent: the piece from one place to another of it, with its length on a stream. */
static void come_piece(const sent *to, const message *from, size_t begin, size_t end) {
    static message whole;
    whole.length = 0;
    if (to->protocol == STREAM) put_number(&whole, from->length, 2);
    put(&whole, from->octets, from->length);
    if (end > whole.length) end = whole.length;
    come(to->channel, whole.octets + begin, end - begin);
}
static void come_whole(const sent *to, const message *from) { come_piece(to, from, 0, SIZE_MAX); }

static sent *sent_before(uint64_t back) { return &w->queue[(w->behind - back) % QUEUE]; }

static void answer_all(kind as, uint32_t ttl) {
    while (w->first < w->behind) {
        sent to = w->queue[w->first++ % QUEUE];
        build_reply(&to, as, ttl), come_whole(&to, &reply);
    }
}

/* Whether the last reply that was told has answers. */
static bool is_found(void) { return (w->last.octets[3] & 15) == NOERROR && number_at(w->last.octets + 6) > 0; }

/* ---- changes */

static void change_bits(message *it) {
    for (uint32_t left = 1 + roll(4); left > 0 && it->length > 0; left--)
        it->octets[roll((uint32_t)it->length)] ^= (uint8_t)(1u << roll(8));
}
static void cut(message *it) { it->length = roll((uint32_t)it->length + 1); }
static void change_counts(message *it) {
    if (it->length >= HEADER) it->octets[4 + roll(8)] = (uint8_t)roll(roll(2) ? 4 : 256);
}
static void put_pointer(message *it) {
    if (it->length > HEADER + 2)
        it->octets[HEADER + roll((uint32_t)it->length - HEADER - 1)]
            = 192,
            it->octets[HEADER + 1 + roll((uint32_t)it->length - HEADER - 1)] = (uint8_t)roll(64);
}
static void change_type(message *it) {
    static const uint16_t types[] = {0, 41, 65, 97, 128, 249, 250, 251, 252, 253, 254, 255, 256, 65535, 24, 46};
    size_t end = end_of_question(it->octets, it->length), type = types[roll(16)];
    if (end > 0 && end <= it->length) it->octets[end - 4] = (uint8_t)(type >> 8), it->octets[end - 3] = (uint8_t)type;
}
static void add_opt(message *it) {
    put_number(it, OPT, 3), put_number(it, roll(65536), 2),
        put_number(it, roll(8) == 0 ? roll(65536) << 16 : 0x8000 * roll(2), 4), put_number(it, 0, 2);
    if (it->length > HEADER) it->octets[11]++;
}
static void add_signature(message *it) {
    static const uint8_t tsig[] = "\1k\0\0\xfa\0\xff\0\0\0\0\0\4\0\0\0\0", sig[] = "\0\0\x18\0\xff\0\0\0\0\0\2\0\0";
    if (roll(2)) put(it, tsig, sizeof tsig - 1);
    else put(it, sig, sizeof sig - 1);
    it->octets[11]++;
}
static void lengthen_name(message *it) {
    message old = *it;
    size_t end = end_of_question(old.octets, old.length);
    if (end == 0) return;
    it->length = HEADER;
    for (uint32_t left = roll(6); left > 0; left--) {
        uint32_t label = 1 + roll(63);
        put_number(it, label, 1);
        while (label-- > 0) put_number(it, roll(256), 1);
    }
    put(it, old.octets + HEADER, old.length - HEADER);
}
static void add_octets(message *it) {
    for (uint32_t left = 1 + roll(12); left > 0; left--) put_number(it, roll(256), 1);
}
static void change_flags(message *it) { it->octets[2 + roll(2)] ^= (uint8_t)(1u << roll(8)); }

static void (*const CHANGES[])(message *) = {change_bits, cut,           change_counts, put_pointer, change_type,
                                             add_opt,     add_signature, lengthen_name, add_octets,  change_flags};

static void change(message *it) {
    for (uint32_t left = 1 + roll(2); left > 0; left--) CHANGES[roll(sizeof CHANGES / sizeof CHANGES[0])](it);
}
