/* A model of what each client of a forwarder may be told, which is looked at after every call; and records that say
 * when they were sent, for which question, and for how long. */
#include <malloc.h>
#include <stdio.h>
#include <stdlib.h>
#include <string.h>
#include <sys/mman.h>

#include "yimarotu.h"

#define BYTES(text) (const uint8_t *)(text), sizeof(text) - 1

enum {
    ROOM = 65535,
    HEADER = 12,
    QUEUE = 1 << 13,
    SLOTS = 1 << 13,
    BUCKETS = 1 << 14,
    CHANNELS = 1 << 22,
    TABLE = 1 << 18
};
enum {
    A = 1,
    CNAME = 5,
    SOA = 6,
    TXT = 16,
    AAAA = 28,
    DNAME = 39,
    OPT = 41,
    RRSIG = 46,
    HTTPS = 65,
    TYPE97 = 97,
    NXNAME = 128
};
enum {
    NOERROR = 0,
    FORMERR = 1,
    SERVFAIL = 2,
    NXDOMAIN = 3,
    NOTIMP = 4,
    REFUSED = 5,
    NOTAUTH = 9,
    BADVERS = 16,
    ANSWERED = 255
};
enum { NEVER = 0, DATAGRAM = 1, STREAM = 2, CLOSED = 3 };

/* ---- memory of the library: malloc and its like, which the linker puts these before */

static size_t held, most_held;
static uint32_t refuse_in; /* the request for memory that is refused, counted from now on; 0: none */

static bool is_refused(void) { return refuse_in > 0 && --refuse_in == 0; }

void *__real_malloc(size_t);
void *__real_calloc(size_t, size_t);
void *__real_realloc(void *, size_t);
void *__real_aligned_alloc(size_t, size_t);
void __real_free(void *);

static void *taken(void *bytes) {
    held += malloc_usable_size(bytes);
    if (held > most_held) most_held = held;
    return bytes;
}

void *__wrap_malloc(size_t size) { return is_refused() ? NULL : taken(__real_malloc(size)); }
void *__wrap_calloc(size_t count, size_t size) { return is_refused() ? NULL : taken(__real_calloc(count, size)); }
void *__wrap_aligned_alloc(size_t align, size_t size) {
    return is_refused() ? NULL : taken(__real_aligned_alloc(align, size));
}
void *__wrap_realloc(void *old, size_t size) {
    if (is_refused()) return NULL;
    held -= malloc_usable_size(old);
    return taken(__real_realloc(old, size));
}
void __wrap_free(void *bytes) {
    held -= malloc_usable_size(bytes);
    __real_free(bytes);
}

/* ---- numbers of a fixed seed, and sums */

static uint64_t random_state = 88172645463325252u;

static uint32_t roll(uint32_t below) {
    random_state ^= random_state << 13, random_state ^= random_state >> 7, random_state ^= random_state << 17;
    return (uint32_t)((random_state >> 20) % below);
}

static uint64_t sum_over(uint64_t sum, const void *bytes, size_t length) {
    for (size_t at = 0; at < length; at++) sum = (sum ^ ((const uint8_t *)bytes)[at]) * 0x100000001b3u;
    return sum;
}

static unsigned number_at(const uint8_t *octets) { return 256u * octets[0] + octets[1]; }
static uint32_t long_at(const uint8_t *octets) { return (uint32_t)number_at(octets) << 16 | number_at(octets + 2); }

/* ---- messages */

typedef struct message {
    size_t length;
    uint8_t octets[ROOM + 2];
} message;

static void put(message *to, const void *octets, size_t length) {
    memcpy(to->octets + to->length, octets, length), to->length += length;
}
static void put_number(message *to, uint64_t number, int octets) {
    while (octets-- > 0) to->octets[to->length++] = (uint8_t)(number >> 8 * octets);
}
/* A name of a text like `www.example.`, spelled out. */
static void put_name(message *to, const char *text) {
    while (*text != 0 && *text != '.') {
        size_t length = strcspn(text, ".");
        put_number(to, length, 1), put(to, text, length);
        text += length + (text[length] == '.');
    }
    put_number(to, 0, 1);
}
static void count_in(message *to, int section, int more) {
    to->octets[5 + 2 * section] = (uint8_t)(to->octets[5 + 2 * section] + more);
}

static uint8_t lower(uint8_t octet) { return octet >= 'A' && octet <= 'Z' ? octet + 32 : octet; }

/* Reads a name in lower case; where it ends, or 0 where it cannot be read. */
static size_t read_name(const uint8_t *octets, size_t length, size_t at, uint8_t *name, size_t *name_length) {
    size_t end = 0, steps = 0;
    for (*name_length = 0; at < length && steps++ < 300;) {
        size_t label = octets[at];
        if (label >= 192) {
            if (at + 2 > length) return 0;
            if (end == 0) end = at + 2;
            at = number_at(octets + at) & 0x3fff;
            continue;
        }
        if (label > 63 || at + 1 + label > length || *name_length + 1 + label > 255) return 0;
        name[(*name_length)++] = (uint8_t)label;
        for (size_t each = 1; each <= label; each++) name[(*name_length)++] = lower(octets[at + each]);
        at += 1 + label;
        if (label == 0) return end == 0 ? at : end;
    }
    return 0;
}

/* ---- what is asked: the rows of the design, up to what servers are asked for */

typedef struct asked {
    bool is_query, has_opt, dnssec, is_loose; /* loose: records behind the question that may have a fault */
    unsigned code;                            /* of its refusal, or ANSWERED */
    unsigned id, flags, type, class, limit;
    size_t question_length; /* 0 where it cannot be read */
    uint8_t question[259];
} asked;

static size_t end_of_question(const uint8_t *octets, size_t length) {
    size_t at = HEADER;
    while (at < length && octets[at] != 0 && octets[at] < 64) at += octets[at] + 1u;
    return at >= length || octets[at] != 0 || at + 1 - HEADER > 255 || at + 5 > length ? 0 : at + 5;
}

/* What the records behind the question say: 0, or the code that they are refused with. */
static unsigned read_extras(const uint8_t *octets, size_t length, size_t at, asked *to) {
    uint8_t name[256];
    size_t name_length, version = 0;
    bool is_signed = false;
    for (unsigned left = number_at(octets + 10); left > 0; left--) {
        size_t owner = at;
        /* (what signs a message is its last record: RFC 8945, section 5.2) */
        if (is_signed) return FORMERR;
        while (at < length && octets[at] != 0 && octets[at] < 64) at += octets[at] + 1u;
        if (at >= length || (octets[at] >= 64 && octets[at] < 192)) return FORMERR;
        at += octets[at] == 0 ? 1 : 2;
        if (at + 10 > length || at + 10 + number_at(octets + at + 8) > length) return FORMERR;
        if (read_name(octets, length, owner, name, &name_length) == 0) to->is_loose = true;
        unsigned type = number_at(octets + at), data = number_at(octets + at + 8);
        if (type == OPT && (to->has_opt || octets[owner] != 0)) return FORMERR;
        if (type == OPT) {
            unsigned size = number_at(octets + at + 2);
            to->has_opt = true, version = octets[at + 5], to->dnssec = octets[at + 6] >> 7;
            to->limit = size < 512 ? 512 : size > 1232 ? 1232 : size;
        }
        if (type == 250 || (type == 24 && data >= 2 && number_at(octets + at + 10) == 0)) is_signed = true;
        if (type != OPT || data != 0) to->is_loose = true;
        at += 10 + data;
    }
    if (at != length) return FORMERR;
    return is_signed ? NOTAUTH : version > 0 ? BADVERS : 0;
}

static bool is_no_type(unsigned type) { return type == 0 || type == OPT || (type >= 249 && type <= 254); }

static unsigned code_of(const uint8_t *octets, size_t length, asked *to) {
    size_t end = HEADER + to->question_length;
    unsigned counts = number_at(octets + 6) | number_at(octets + 8), extras = FORMERR;
    if (to->question_length > 0 && counts == 0 && number_at(octets + 10) <= 2)
        extras = read_extras(octets, length, end, to);
    if (extras == FORMERR) to->has_opt = false;
    if (to->flags >> 11 & 15) return NOTIMP;
    if (to->question_length == 0) return FORMERR;
    if (to->type == 251 || to->type == 252) return NOTIMP;
    if (extras != 0) return extras;
    if (to->type == NXNAME) return FORMERR; /* RFC 9824, section 3.5 */
    if (to->class != 1 || is_no_type(to->type) || !(to->flags & 256)) return REFUSED;
    return ANSWERED;
}

static asked read_query(const uint8_t *octets, size_t length, bool is_stream) {
    asked to = {.limit = 512};
    if (length < HEADER || octets[2] >= 128) return to;
    to.is_query = true, to.id = number_at(octets), to.flags = number_at(octets + 2);
    size_t end = number_at(octets + 4) == 1 ? end_of_question(octets, length) : 0;
    if (end > 0) {
        to.question_length = end - HEADER, to.type = number_at(octets + end - 4),
        to.class = number_at(octets + end - 2);
        memcpy(to.question, octets + HEADER, to.question_length);
    }
    to.code = code_of(octets, length, &to);
    if (is_stream) to.limit = ROOM;
    return to;
}

/* Under what its reply is kept: DO, CD, and the question without case of its name. */
static uint64_t key_of(const asked *query) {
    uint8_t key[260];
    for (size_t at = 0; at < query->question_length; at++)
        key[at] = at + 4 < query->question_length ? lower(query->question[at]) : query->question[at];
    key[query->question_length] = (uint8_t)(query->dnssec | (query->flags >> 3 & 2));
    return sum_over(0xcbf29ce484222325u, key, query->question_length + 1);
}

/* ---- a world: a forwarder with what its clients and servers know */

typedef struct client {
    uint64_t number;
    uint8_t address[16];
    size_t address_length;
    bool is_stream, is_stranger;
} client;

typedef struct waits {
    uint64_t client, key, network, place; /* its place among all that were told to wait */
    uint32_t next;
    bool is_used;
    asked query;
} waits;

typedef struct sent {
    uint64_t channel;
    uint8_t protocol, server; /* the last octet of its address */
    size_t length;
    uint8_t octets[512];
} sent;

typedef struct world {
    yimarotu_forwarder forwarder;
    uint64_t moment, sum, faults, queries, replied, dropped, waited, asked_upstream, waiting, replies, greatest_ttl;
    uint64_t clients, clients_of_address, clients_of_question, cache_octets, held_bound;
    uint64_t open_channels, first, behind, last_client;
    bool is_cramped;  /* actions come into small rooms first, and other calls between */
    bool is_short;    /* of memory: now and then a request for it is refused */
    bool trusts;      /* AD of servers is passed on to those who ask for it */
    bool is_poisoned; /* a reply was changed: what its records say is not looked at */
    uint8_t *channels, *servers;
    uint16_t *of_network, *of_key;
    uint32_t free_slot, buckets[BUCKETS];
    waits slots[SLOTS];
    sent queue[QUEUE];
    message last; /* the reply that was told last */
} world;

static world *w, worlds[2];
static int passed, failed;
/* How many octets the library may hold beside what three times the bound of the cache is. */
enum { BESIDE = 24 << 20 };

static bool tell(const char *name, bool is_right) {
    passed += is_right, failed += !is_right;
    if (!is_right) printf("wrong: %s\n", name);
    return is_right;
}

static void broken(const char *what) {
    if (w->faults++ < 3) printf("broken: %s (moment %llu)\n", what, (unsigned long long)w->moment);
}
static void hold(bool is_right, const char *what) {
    if (!is_right) broken(what);
}

/* ---- records that say when they were sent, for what, and for how long */

static uint32_t hash_of(const uint8_t *name, size_t length) { return (uint32_t)(sum_over(7, name, length) >> 16); }

/* 16 octets: 42, the moment (6), a hash of the owner (4), the TTL (3), DO and CD, the low octet of the type. */
static void put_stamp(message *to, const uint8_t *name, size_t length, unsigned type, uint32_t ttl, unsigned flags) {
    put_number(to, 42, 1), put_number(to, w->moment, 6), put_number(to, hash_of(name, length), 4);
    put_number(to, ttl, 3), put_number(to, flags, 1), put_number(to, type, 1);
}

/* A record of an owner that is spelled out, in lower case. */
static void put_record(message *to, const uint8_t *name, size_t length, unsigned type, uint32_t ttl, unsigned flags) {
    static const uint8_t service[] = {0, 1, 0, 0xff, 0, 0, 16};
    size_t before = type == TXT ? 1 : type == HTTPS ? sizeof service : 0;
    put(to, name, length), put_number(to, type, 2), put_number(to, 1, 2), put_number(to, ttl, 4);
    put_number(to, type == A ? 4 : 16 + before, 2);
    if (type == TXT) put_number(to, 16, 1);
    if (type == HTTPS) put(to, service, before);
    if (type == A) put_number(to, hash_of(name, length) | 0x40000000, 4);
    else put_stamp(to, name, length, type, ttl, flags);
}

/* The SOA record of the root, with the moment and the TTL among its numbers. */
static void put_soa(message *to, uint32_t ttl, uint32_t minimum) {
    put_number(to, 0, 1), put_number(to, SOA, 2), put_number(to, 1, 2), put_number(to, ttl, 4), put_number(to, 22, 2);
    put_number(to, 0, 2), put_number(to, 42, 4), put_number(to, w->moment, 8), put_number(to, ttl, 4),
        put_number(to, minimum, 4);
}

typedef struct record {
    uint8_t owner[256];
    size_t owner_length, data_at, data_length;
    unsigned type, class, section;
    uint32_t ttl;
} record;

static record records[8192];
static size_t record_count;

/* Reads all records of a message, which ends behind them. */
static bool read_records(const uint8_t *octets, size_t length, size_t at) {
    record_count = 0;
    for (unsigned section = 1; section < 4; section++) {
        for (unsigned left = number_at(octets + 4 + 2 * section); left > 0; left--) {
            record *to = &records[record_count];
            at = read_name(octets, length, at, to->owner, &to->owner_length);
            if (at == 0 || at + 10 > length || record_count + 1 == 8192) return false;
            to->type = number_at(octets + at), to->class = number_at(octets + at + 2),
            to->ttl = long_at(octets + at + 4);
            to->data_at = at + 10, to->data_length = number_at(octets + at + 8), to->section = section;
            if ((at = to->data_at + to->data_length) > length) return false;
            record_count++;
        }
    }
    return at == length;
}

/* No record is told for longer than it was sent for, nor for another question than its own. */
static void check_stamp(const record *it, const uint8_t *octets, const asked *query) {
    size_t before = it->type == TXT ? 1 : it->type == HTTPS ? 7 : 0;
    const uint8_t *stamp = octets + it->data_at + before;
    if (it->type == A || it->type == CNAME || it->type == DNAME || it->type == RRSIG || it->data_length != 16 + before
        || stamp[0] != 42)
        return;
    uint64_t moment = (uint64_t)number_at(stamp + 1) << 32 | long_at(stamp + 3),
             elapsed = w->moment / 1000 - moment / 1000;
    uint64_t ttl = (uint64_t)stamp[11] << 16 | number_at(stamp + 12);
    hold(moment <= w->moment && elapsed + it->ttl <= ttl, "a record is told for longer than it was sent for");
    hold(elapsed <= w->greatest_ttl, "a record is told past the greatest TTL");
    hold(long_at(stamp + 7) == hash_of(it->owner, it->owner_length), "a record of another owner");
    hold(stamp[15] == (it->type & 255) && it->type == query->type, "a record of another type");
    hold(stamp[14] == (query->dnssec | (query->flags >> 3 & 2)), "a record that was asked with other DO and CD");
}

static void check_soa(const record *it, const uint8_t *octets) {
    const uint8_t *data = octets + it->data_at;
    if (it->data_length != 22 || long_at(data + 2) != 42) return;
    uint64_t moment = (uint64_t)long_at(data + 6) << 32 | long_at(data + 10), ttl = long_at(data + 14),
             minimum = long_at(data + 18);
    uint64_t elapsed = w->moment / 1000 - moment / 1000;
    hold(moment <= w->moment && elapsed + it->ttl <= ttl, "an SOA record is told for longer than it was sent for");
    hold(elapsed <= minimum, "a negative answer is told past the minimum of its SOA record");
    hold(elapsed <= w->greatest_ttl, "a negative answer is told past the greatest TTL");
}

/* ---- the chain of aliases: each answer is of a name to which the question leads */

static uint8_t chain[64][256];
static size_t chain_lengths[64], chain_count;

static bool is_in_chain(const uint8_t *name, size_t length) {
    for (size_t at = 0; at < chain_count; at++)
        if (chain_lengths[at] == length && memcmp(chain[at], name, length) == 0) return true;
    return false;
}

static bool is_above_chain(const uint8_t *name, size_t length) {
    for (size_t at = 0; at < chain_count; at++)
        if (chain_lengths[at] > length && memcmp(chain[at] + chain_lengths[at] - length, name, length) == 0)
            return true;
    return false;
}

static void follow_chain(const uint8_t *octets, size_t length, const asked *query) {
    size_t end = read_name(query->question, query->question_length, 0, chain[0], &chain_lengths[0]), before = 0;
    for (chain_count = end > 0; before < chain_count && chain_count < 60;) {
        before = chain_count;
        for (size_t at = 0; at < record_count && chain_count < 60; at++) {
            uint8_t *name = chain[chain_count];
            size_t *name_length = &chain_lengths[chain_count];
            if (records[at].section != 1 || records[at].type != CNAME
                || !is_in_chain(records[at].owner, records[at].owner_length))
                continue;
            if (read_name(octets, length, records[at].data_at, name, name_length) > 0
                && !is_in_chain(name, *name_length))
                chain_count++;
        }
    }
}

static void check_records(const uint8_t *octets, size_t length, const asked *query) {
    follow_chain(octets, length, query);
    for (size_t at = 0; at < record_count; at++) {
        const record *it = &records[at];
        bool is_own = is_in_chain(it->owner, it->owner_length);
        if (it->section == 1) {
            bool is_above = is_above_chain(it->owner, it->owner_length)
                            && (it->type == DNAME || (it->type == RRSIG && query->dnssec));
            hold(is_own || is_above, "an answer to which the question does not lead");
            hold(it->type == query->type || query->type == 255 || it->type == CNAME || it->type == DNAME
                     || it->type == RRSIG,
                 "an answer of another type");
            if (!w->is_poisoned) check_stamp(it, octets, query);
        }
        if (it->section == 2 && it->type == SOA && !w->is_poisoned) check_soa(it, octets);
        hold(it->section != 3 || it->type == OPT, "an additional record that is not OPT");
    }
}

/* ---- a reply, beside the query that it is for */

static void check_opt(const asked *query, const uint8_t *octets, unsigned code) {
    const record *opt = NULL;
    for (size_t at = 0; at < record_count; at++)
        if (records[at].section == 3 && records[at].type == OPT) opt = &records[at];
    if (opt == NULL) return hold(!query->has_opt, "OPT is missing");
    hold(query->has_opt && opt->owner_length == 1, "OPT, where none was asked");
    hold((opt->ttl >> 16 & 255) == 0 && (opt->ttl >> 15 & 1) == query->dnssec && (opt->ttl & 0x7fff) == 0,
         "the version or the flags of OPT");
    bool is_error = opt->data_length == 6 && number_at(octets + opt->data_at) == 15 && code == SERVFAIL;
    hold(opt->data_length == 0 || is_error, "an option that is no extended error of a failure");
}

static unsigned code_in(const uint8_t *octets) {
    unsigned code = octets[3] & 15;
    for (size_t at = 0; at < record_count; at++)
        if (records[at].section == 3 && records[at].type == OPT) code |= records[at].ttl >> 24 << 4;
    return code;
}

static uint64_t authentic_count; /* replies with AD */

/* The header, the question, the length and the records; the code of the reply, or ANSWERED where it cannot be read. */
static unsigned check_reply(const asked *query, const uint8_t *octets, size_t length) {
    w->last.length = length, memcpy(w->last.octets, octets, length), w->replies++;
    if (length < HEADER + query->question_length || length > query->limit)
        return broken("the length of a reply"), ANSWERED;
    unsigned flags = number_at(octets + 2), told = query->question_length > 0;
    hold(number_at(octets) == query->id, "the id of a reply");
    unsigned authentic = w->trusts && (query->dnssec || query->flags & 32) ? flags & 32 : 0;
    hold((flags & ~0x20fu) == (0x8080 | authentic | (query->flags & 0x7910)), "the flags of a reply");
    authentic_count += flags >> 5 & 1;
    hold(number_at(octets + 4) == told && memcmp(octets + HEADER, query->question, query->question_length) == 0,
         "the question of a reply");
    if (!read_records(octets, length, HEADER + query->question_length))
        return broken("a reply that cannot be read"), ANSWERED;
    unsigned code = code_in(octets);
    check_opt(query, octets, code);
    hold(!(flags & 512) || query->limit < ROOM, "a reply over a stream that is cut");
    hold(!(flags & 512) || length + 28 > 512 || number_at(octets + 6) == 0, "a short reply that is cut");
    if (code == NOERROR || code == NXDOMAIN) check_records(octets, length, query);
    else hold(number_at(octets + 6) + number_at(octets + 8) == 0, "records of a refusal, or of a failure");
    return code;
}

/* ---- those who wait */

/* What an address counts as: one of IPv4 within IPv6 as that of IPv4, any other of IPv6 as its network of 64 bits. */
static uint64_t network_of(const client *from) {
    static const uint8_t within[12] = {[10] = 0xff, [11] = 0xff};
    if (from->address_length == 4) return sum_over(3, from->address, 4);
    return memcmp(from->address, within, 12) == 0 ? sum_over(3, from->address + 12, 4) : sum_over(3, from->address, 8);
}

static waits *find_waiting(uint64_t number, unsigned id, const uint8_t *question, size_t length, uint64_t key) {
    for (uint32_t at = w->buckets[number % BUCKETS]; at != 0; at = w->slots[at].next) {
        waits *it = &w->slots[at];
        if (it->client != number || it->query.id != id) continue;
        if (key != 0 ? it->key == key
                     : it->query.question_length == length && memcmp(it->query.question, question, length) == 0)
            return it;
    }
    return NULL;
}

static void remove_waiting(waits *it) {
    uint32_t *at = &w->buckets[it->client % BUCKETS];
    while (&w->slots[*at] != it) at = &w->slots[*at].next;
    uint32_t slot = *at;
    *at = it->next, it->next = w->free_slot, w->free_slot = slot, it->is_used = false;
    w->waiting--, w->of_network[it->network % TABLE]--, w->of_key[it->key % TABLE]--;
}

static uint64_t count_waiting(uint64_t network, uint64_t key) {
    uint64_t count = 0;
    for (size_t at = 1; at < SLOTS; at++)
        count += w->slots[at].is_used && (network == 0 || w->slots[at].network == network)
                 && (key == 0 || w->slots[at].key == key);
    return count;
}

/* Whether somebody waits for the same question for longer. */
static bool is_overtaking(const waits *it) {
    if (w->of_key[it->key % TABLE] < 2) return false;
    for (size_t at = 1; at < SLOTS; at++)
        if (w->slots[at].is_used && w->slots[at].key == it->key && w->slots[at].place < it->place) return true;
    return false;
}

static void add_waiting(const client *from, const asked *query) {
    uint64_t network = network_of(from), key = key_of(query);
    uint32_t slot = w->free_slot;
    if (slot == 0) return broken("more wait than the model has places for");
    waits *it = &w->slots[slot];
    w->free_slot = it->next;
    *it = (waits){from->number, key, network, w->waited, w->buckets[from->number % BUCKETS], true, *query};
    w->buckets[from->number % BUCKETS] = slot, w->waiting++;
    if (++w->of_network[network % TABLE] > w->clients_of_address)
        hold(count_waiting(network, 0) <= w->clients_of_address, "too many of one address wait");
    if (++w->of_key[key % TABLE] > w->clients_of_question)
        hold(count_waiting(0, key) <= w->clients_of_question, "too many wait for one question");
    hold(w->waiting <= w->clients, "too many wait");
}

/* ---- octets and rooms behind which no memory is */

enum { EDGE = 1 << 20 };

/* Where so many octets stand, before memory that nobody may touch. */
static uint8_t *at_edge(int which, size_t length) {
    static uint8_t *edges[2];
    if (edges[which] == NULL) {
        edges[which] = mmap(NULL, 2 * EDGE, PROT_READ | PROT_WRITE, MAP_PRIVATE | MAP_ANONYMOUS, -1, 0);
        if (edges[which] == MAP_FAILED || mprotect(edges[which] + EDGE, EDGE, PROT_NONE) != 0) abort();
    }
    return edges[which] + EDGE - length;
}

static const uint8_t *copied(const uint8_t *octets, size_t length) {
    return memcpy(at_edge(0, length), octets, length);
}

/* ---- calls, each with all that holds after it */

static void check_numbers(void) {
    yimarotu_forwarder_counts told = yimarotu_forwarder_statistics(&w->forwarder);
    hold(told.status == YIMAROTU_OK && told.queries == w->queries, "statistics: queries");
    hold(told.from_cache + told.local + told.failures_told + told.refused == w->replied, "statistics: replies at once");
    hold(told.dropped == w->dropped && told.waited == w->waited, "statistics: dropped, and waited");
    hold(told.sent == w->asked_upstream && told.waiting == w->waiting, "statistics: sent, and waiting");
    hold(told.octets <= w->cache_octets, "the octets of the cache");
    hold(held <= w->held_bound, "the octets that are held");
}

static uint8_t *channel_of(uint64_t number) {
    static uint8_t none;
    if (number < CHANNELS) return &w->channels[number];
    broken("a channel that the model has no place for");
    return &none;
}

static void act_reply(const yimarotu_action *next, const uint8_t *room) {
    size_t end = next->length < HEADER ? 0 : end_of_question(room, next->length);
    waits *it = end == 0 ? NULL : find_waiting(next->number, number_at(room), room + HEADER, end - HEADER, 0);
    w->last_client = next->number;
    if (it == NULL) return broken("a reply for which nobody waits");
    asked query = it->query;
    hold(!is_overtaking(it), "who came later for a question is replied to first");
    remove_waiting(it);
    unsigned code = check_reply(&query, room, next->length);
    hold(code != FORMERR && code != REFUSED, "who waited is refused");
}

static void act_send(const yimarotu_action *next, const uint8_t *room) {
    uint8_t *state = channel_of(next->channel);
    hold(*state == DATAGRAM || *state == STREAM, "octets for a channel that is not open");
    hold(next->length <= 512 && (*state != STREAM || number_at(room) + 2 == next->length),
         "the length of what is sent");
    sent *it = &w->queue[w->behind++ % QUEUE];
    size_t prefix = *state == STREAM ? 2 : 0;
    it->channel = next->channel, it->protocol = *state, it->server = w->servers[next->channel % CHANNELS],
    it->length = next->length - prefix;
    memcpy(it->octets, room + prefix, it->length < 512 ? it->length : 512);
    w->asked_upstream++;
    hold(read_query(it->octets, it->length, true).code == ANSWERED, "what is sent to a server is no query");
}

static void act_on(const yimarotu_action *next, const uint8_t *room) {
    uint8_t *state = next->kind == YIMAROTU_OPEN || next->kind == YIMAROTU_CLOSE ? channel_of(next->channel) : NULL;
    if (next->kind == YIMAROTU_OPEN) {
        hold(*state == NEVER, "a channel is opened twice");
        hold(next->length == (next->family == 4 ? 4u : 16u), "the address of a channel");
        *state = next->protocol, w->servers[next->channel % CHANNELS] = room[next->length - 1], w->open_channels++;
    } else if (next->kind == YIMAROTU_CLOSE) {
        hold(*state == DATAGRAM || *state == STREAM, "a channel is closed that is not open");
        *state = CLOSED, w->open_channels--;
    } else if (next->kind == YIMAROTU_SEND) act_send(next, room);
    else if (next->kind == YIMAROTU_REPLY) act_reply(next, room);
    else broken("a kind of action");
}

static size_t refusals;

static void be_short(void) { refuse_in = w->is_short && roll(8) == 0 ? 1 + roll(8) : 0; }

/* Whether memory was refused to a call that says so. */
static bool was_refused(uint8_t status) {
    bool is_out = status == YIMAROTU_NO_MEMORY && refuse_in == 0 && w->is_short;
    return refuse_in = 0, refusals += is_out, is_out;
}

static void leave(uint64_t number);

/* What did not fit into a room of so many octets stays, unless it is a reply to a client that leaves. */
static void look_again(const yimarotu_action *next, size_t length) {
    uint8_t room[1];
    yimarotu_action again = yimarotu_forwarder_next(&w->forwarder, room, 0);
    hold(again.status == YIMAROTU_ROOM && again.kind == next->kind && again.length == next->length
             && again.channel == next->channel && again.number == next->number && next->length > length,
         "an action in a room that is too small");
    if (next->kind == YIMAROTU_REPLY && roll(4) == 0) leave(next->number);
}

/* Does what is to be done, and looks whether all holds. */
static void act(void) {
    for (uint64_t turn = 0;; turn++) {
        size_t length = w->is_cramped && roll(4) == 0 ? roll(64) : ROOM;
        uint8_t *room = at_edge(1, length);
        be_short();
        yimarotu_action next = yimarotu_forwarder_next(&w->forwarder, room, length);
        if (was_refused(next.status)) continue;
        if (next.status == YIMAROTU_ROOM && length < ROOM) {
            look_again(&next, length);
            continue;
        }
        if (next.status != YIMAROTU_OK || turn > 100000) return broken("next does not end well");
        if (next.kind == YIMAROTU_NOTHING) break;
        if (next.kind == YIMAROTU_CONTINUE) continue;
        w->sum = sum_over(sum_over(sum_over(sum_over(w->sum, &next.kind, 1), &next.channel, 8), &next.number, 8), room,
                          next.length);
        act_on(&next, room);
    }
    check_numbers();
}

/* Whether a query may have no reply: it is none, it waits already, a bound is reached, or nobody of there may ask. */
static bool may_be_dropped(const client *from, const asked *query) {
    uint64_t key = key_of(query);
    if (!query->is_query || find_waiting(from->number, query->id, NULL, 0, key) != NULL) return true;
    if (query->code != ANSWERED || from->is_stream) return false;
    return w->waiting >= w->clients || w->of_network[network_of(from) % TABLE] >= w->clients_of_address
           || w->of_key[key % TABLE] >= w->clients_of_question || w->waiting >= 4096;
}

static uint8_t ask(const client *from, const uint8_t *octets, size_t length) {
    uint8_t *room = at_edge(1, ROOM);
    asked query = read_query(octets, length, from->is_stream);
    if (from->is_stranger && query.code == ANSWERED) query.code = REFUSED;
    bool may_drop = may_be_dropped(from, &query);
    octets = copied(octets, length), be_short();
    yimarotu_queried told = yimarotu_forwarder_query(&w->forwarder, from->number, from->address, from->address_length,
                                                     from->is_stream, octets, length, w->moment, room, ROOM);
    if (was_refused(told.status)) return act(), YIMAROTU_DROPPED;
    hold(told.status == YIMAROTU_OK && told.answered <= YIMAROTU_QUERY_WAITS, "a query is not taken in");
    w->sum = sum_over(sum_over(w->sum, &told.answered, 1), room, told.length);
    w->queries += query.is_query;
    if (told.answered == YIMAROTU_DROPPED) w->dropped += query.is_query, hold(may_drop, "a query is dropped");
    if (told.answered == YIMAROTU_QUERY_WAITS) {
        w->waited++, hold(query.is_query && query.code == ANSWERED, "a query waits that is to be refused"),
            add_waiting(from, &query);
    }
    if (told.answered == YIMAROTU_REPLIED) {
        w->replied++, hold(query.is_query, "a reply to what is no query");
        unsigned code = check_reply(&query, room, told.length);
        bool is_loose = query.is_loose && code == FORMERR;
        hold(is_loose || (query.code == ANSWERED ? code != FORMERR && code != REFUSED : code == query.code),
             "the code of a refusal");
    }
    act();
    return told.answered;
}

static void come(uint64_t channel, const uint8_t *octets, size_t length) {
    octets = copied(octets, length), be_short();
    uint8_t status = yimarotu_forwarder_came(&w->forwarder, channel, octets, length, w->moment);
    if (was_refused(status)) status = yimarotu_forwarder_came(&w->forwarder, channel, octets, length, w->moment);
    hold(status == YIMAROTU_OK, "octets are not taken in"), act();
}
static void fail(uint64_t channel, uint8_t why) {
    be_short();
    uint8_t status = yimarotu_forwarder_failed(&w->forwarder, channel, why, w->moment);
    if (was_refused(status)) status = yimarotu_forwarder_failed(&w->forwarder, channel, why, w->moment);
    hold(status == YIMAROTU_OK, "a failure is not taken in"), act();
}
static void tick(uint64_t moment) {
    w->moment = moment;
    hold(yimarotu_forwarder_tick(&w->forwarder, moment) == YIMAROTU_OK, "a tick is not taken in"), act();
}
static void leave(uint64_t number) {
    for (uint32_t at = w->buckets[number % BUCKETS], next; at != 0; at = next) {
        next = w->slots[at].next;
        if (w->slots[at].client == number) remove_waiting(&w->slots[at]);
    }
    hold(yimarotu_forwarder_gone(&w->forwarder, number) == YIMAROTU_OK, "gone is not taken in"), act();
}

/* Time passes from deadline to deadline until nobody waits; false where that does not come to an end. */
static bool drain(void) {
    for (int turn = 0; w->waiting > 0 && turn < 20000; turn++) {
        yimarotu_waits waits = yimarotu_forwarder_wait(&w->forwarder, w->moment);
        if (waits.status != YIMAROTU_OK || !waits.has_deadline) return broken("who waits has no deadline"), false;
        hold(turn == 0 || waits.milliseconds > 0, "a deadline that time has passed");
        tick(w->moment + waits.milliseconds);
    }
    hold(w->waiting == 0, "who waits is never replied to");
    return w->waiting == 0;
}

static yimarotu_opened open_forwarder(uint8_t seed_octet, const char *settings) {
    uint8_t seed[32];
    memset(seed, seed_octet, sizeof seed);
    return yimarotu_forwarder_open(&w->forwarder, BYTES(""), BYTES("host.example"), (const uint8_t *)settings,
                                   strlen(settings), BYTES("10.1.1.1 printer.example\n"), BYTES("blocked.example\n"),
                                   seed, sizeof seed, w->moment);
}

/* A world with a new forwarder, at a moment. What the settings say of bounds is said here again. */
static void begin(int which, uint8_t seed, const char *settings, uint64_t moment) {
    w = &worlds[which];
    uint8_t *channels = w->channels == NULL ? __real_calloc(2 * CHANNELS, 1) : w->channels;
    uint16_t *tables = w->of_network == NULL ? __real_calloc(2 * TABLE, 2) : w->of_network;
    memset(channels, 0, CHANNELS), memset(tables, 0, 4 * TABLE), memset(w, 0, sizeof *w);
    w->channels = channels, w->servers = channels + CHANNELS, w->of_network = tables, w->of_key = tables + TABLE;
    w->moment = moment, w->sum = 0xcbf29ce484222325u, w->greatest_ttl = 3600;
    w->clients = 4096, w->clients_of_address = w->clients_of_question = 256, w->cache_octets = 67108864,
    w->held_bound = SIZE_MAX;
    for (uint32_t at = SLOTS - 1; at > 0; at--) w->slots[at].next = w->free_slot, w->free_slot = at;
    hold(open_forwarder(seed, settings).status == YIMAROTU_OK, "the forwarder is not opened");
}

/* Time passes until it ends nothing more: then no channel is open. */
static void settle(void) {
    yimarotu_waits waits = yimarotu_forwarder_wait(&w->forwarder, w->moment);
    for (int turn = 0; waits.has_deadline && turn < 20000; turn++) {
        hold(turn == 0 || waits.milliseconds > 0, "a deadline that time has passed");
        tick(w->moment + waits.milliseconds);
        waits = yimarotu_forwarder_wait(&w->forwarder, w->moment);
    }
    hold(!waits.has_deadline && w->open_channels == 0, "a channel stays open");
}

/* Nothing is lost, nothing was wrong, and all memory is given back. */
static void end(const char *name, size_t before) {
    drain(), settle();
    yimarotu_forwarder_close(&w->forwarder);
    hold(held == before, "memory is not given back");
    tell(name, w->faults == 0);
}
