/* Yimarotu, a stub resolver and a caching forwarder, for C.
 *
 * The library does no input or output and knows no clock. A program opens a session, starts look-ups in it, hands in what
 * happens, and does what yimarotu_next says until it says nothing: it opens a channel to a name server, sends octets, closes
 * a channel, or reads an answer. Who is asked, which reply is believed and when it is asked again is decided inside. A
 * program with a transport of its own feeds a session by hand instead: "sessions that are fed by hand" below. A forwarder
 * ("forwarders" below) is used as a session is: a program opens one, hands in what happens, and does what
 * yimarotu_forwarder_next says until it says nothing. What is said here of sessions holds of forwarders, too.
 *
 * Octets cross as a pointer and a length; the library reads or writes so many octets there, keeps no pointer to them, and
 * frees none. No pointer may be null, not even where its length is 0. A length is at most PTRDIFF_MAX. A room overlaps
 * nothing else that the call is given. A moment is in milliseconds, from whatever start the program takes, of a clock that
 * does not go back and counts while the machine sleeps (CLOCK_BOOTTIME): else answers are used for longer than they were
 * received for. When the machine woke the moment is told first (yimarotu_tick), and what lies in sockets is let go, since
 * TTLs count from the moment at which octets are handed in. Answers count whole seconds.
 *
 * Each call is proved to be safe and to return, as long as the program keeps to this page; where memory runs out it says
 * so. The library takes memory by the malloc and realloc of the program, and gives it back by its free. What a session
 * holds is given back when it is closed; all other memory when the call returns. What is said of memory and of threads is
 * tested: no clause speaks of it.
 *
 * Calls may be made from several threads at once, but of one session only one at a time. None may come from a signal
 * handler, or from a child of fork() in a program with threads. A child of fork, and a machine that was copied, opens
 * sessions anew, with another seed: from one seed all numbers, letters and keys follow.
 */
#ifndef YIMAROTU_H
#define YIMAROTU_H

#include <stdbool.h>
#include <stddef.h>
#include <stdint.h>

#ifdef __cplusplus
extern "C" {
#endif

/* How a call ended: a status. The clause of each call gives one of these. */
enum {
    YIMAROTU_OK = 0,
    YIMAROTU_SCRIPT = 1,     /* a line of the script, or of the settings, has a fault */
    YIMAROTU_NO_MEMORY = 3,  /* no memory was left */
    YIMAROTU_HOSTS = 4,      /* a line of the hosts is not UTF-8 */
    YIMAROTU_ROOM = 5,       /* the room is too small: nothing was written, and the length says how much is wanted */
    YIMAROTU_MESSAGE = 6,    /* the octets are no DNS message; the fault says why */
    YIMAROTU_UNWRITABLE = 7, /* the message cannot be written; the fault says why */
    YIMAROTU_CLOSED = 8,     /* the session, or the forwarder, is not open */
    YIMAROTU_IS_OPEN = 9,    /* the session, or the forwarder, is open already */
    YIMAROTU_IN_USE = 10,    /* another look-up has this number */
    YIMAROTU_NO_LOOKUP = 11, /* no look-up has this number */
    YIMAROTU_WAITS = 12,     /* the look-up waits, and has no answer yet; or a reply is to be told first */
    YIMAROTU_DONE = 13,      /* the look-up is done, and has no question any more */
    YIMAROTU_TEXT = 14,      /* the name is not UTF-8 */
    YIMAROTU_KIND = 15,      /* no failure has this number, or no address this length */
    YIMAROTU_ASKS_ITSELF = 16, /* the session asks by itself: it is not fed */
    YIMAROTU_IS_FED = 17,    /* the session is fed by hand: it asks nothing */
    YIMAROTU_SEED = 18       /* the seed has not 32 octets */
};

/* Why octets are no message, or a message cannot be written: a fault; 0 where there is none. */
enum {
    YIMAROTU_SHORT = 1,              /* the octets, or a record's data, end within a field */
    YIMAROTU_BAD_LABEL = 2,          /* a name goes on with neither a label nor a pointer */
    YIMAROTU_NAME_TOO_LONG = 3,      /* a name of more than 255 octets */
    YIMAROTU_TOO_MANY_POINTERS = 4,  /* a name with more than 128 pointers */
    YIMAROTU_POINTER_NOT_BACK = 5,   /* a pointer that leads to no earlier place than where its labels began */
    YIMAROTU_TRAILING_DATA = 6,      /* octets behind the data of a record, within its length */
    YIMAROTU_OPT_NAME = 7,           /* an OPT record whose owner is not the root */
    YIMAROTU_SECOND_OPT = 8,         /* a second OPT record */
    YIMAROTU_TOO_MANY_LABELS = 10,   /* names that would take more than 16,384 labels */
    YIMAROTU_RELATIVE_NAME = 17,     /* a name that is relative */
    YIMAROTU_STRING_TOO_LONG = 18,   /* a string of TXT data of more than 255 octets */
    YIMAROTU_KNOWN_TYPE = 19,        /* unknown data under the code of a type that is parsed */
    YIMAROTU_OP_CODE_TOO_LARGE = 20, /* a kind of message past 15 */
    YIMAROTU_CODE_TOO_LARGE = 21,    /* a response code past 15 without OPT, or past 4095 with it */
    YIMAROTU_TOO_MANY_RECORDS = 22,  /* a section of more than 65,535 entries */
    YIMAROTU_LIMIT_TOO_SMALL = 23,   /* the limit is below what is always written */
    YIMAROTU_DATA_TOO_LONG = 24,     /* data of a record of more than 65,535 octets */
    YIMAROTU_NOT_SPELLED_OUT = 25    /* unknown data of an old type, as MINFO, that are not read as they stand */
};

/* What a look-up came to. */
enum {
    YIMAROTU_FOUND = 0,         /* records, which may all be in other sections than the answers */
    YIMAROTU_NO_RECORDS = 1,    /* a negative answer; its code is NOERROR (0) or NXDOMAIN (3) */
    YIMAROTU_RESPONSE_CODE = 2, /* a response with another code */
    YIMAROTU_TIMED_OUT = 3,     /* the upstream did not answer in time */
    YIMAROTU_UPSTREAM = 4,      /* the upstream cannot be reached, or failed otherwise */
    YIMAROTU_BAD_NAME = 5,      /* the text is no name */
    YIMAROTU_NO_OUTCOME = 6,    /* a script's error, which is not for sessions; no clause says that none gives it */
    YIMAROTU_BOUNDS = 7,        /* reversed bounds, which yimarotu_open tells; no clause says that no look-up does */
    YIMAROTU_RAN_OUT = 8        /* no memory was left within the look-up */
};

/* How a question of a session that is fed by hand fails. */
enum {
    YIMAROTU_FAIL_TIMEOUT = 1,  /* nothing came back in time */
    YIMAROTU_FAIL_REFUSED = 2,  /* the upstream cannot be reached */
    YIMAROTU_FAIL_UPSTREAM = 3, /* the upstream failed otherwise */
    YIMAROTU_FAIL_MEMORY = 4    /* no memory was left for what came back */
};

/* How a channel fails. */
enum {
    YIMAROTU_CHANNEL_REFUSED = 1,     /* nobody listens there */
    YIMAROTU_CHANNEL_UNREACHABLE = 2, /* the server cannot be reached */
    YIMAROTU_CHANNEL_CLOSED = 3,      /* the stream was closed */
    YIMAROTU_CHANNEL_LOCAL = 4        /* it could not be opened here: no descriptor or no port was left */
};

/* What a program has to do next. */
enum {
    YIMAROTU_NOTHING = 0,  /* nothing, until something happens */
    YIMAROTU_CONTINUE = 1, /* nothing of its own: it calls yimarotu_next again */
    YIMAROTU_OPEN = 2,     /* it opens a channel: a socket of its own, connected to this server */
    YIMAROTU_SEND = 3,     /* it sends octets on a channel */
    YIMAROTU_CLOSE = 4,    /* it closes a channel */
    YIMAROTU_LOOKED_UP = 5, /* of sessions: it may read the answer of a look-up, which is done */
    YIMAROTU_REPLY = 6     /* of forwarders: it sends octets to a client */
};

/* What goes over a channel. */
enum {
    YIMAROTU_DATAGRAM = 1, /* datagrams (UDP) */
    YIMAROTU_STREAM = 2    /* a stream (TCP): messages are in it with their lengths, which the library reads and writes */
};

/* ---- the version */

/* The version of the library: 65536 times its first number, 256 times its second, and its third. */
uint32_t yimarotu_version(void);

/* ---- messages */

typedef struct yimarotu_written {
    uint8_t status;
    uint8_t fault;
    size_t length; /* of the message: where it was written, and where the room is too small for it; else 0 */
} yimarotu_written;

/* Reads a DNS message, octets behind it passed over, and writes it at the front of the room, in at most `limit` octets:
 * where it is longer, records are left out from the end, whole, and the message says that it is truncated. What is
 * behind the message stays, and where the status is not YIMAROTU_OK all of the room does. */
yimarotu_written yimarotu_rewrite(const uint8_t *message, size_t message_length, size_t limit, uint8_t *room,
                                  size_t room_length);

/* ---- sessions */

/* A session: a resolver with its table of hosts and its cache, the look-ups in flight and done, each under a number that
 * the program chose, and a pool of name servers, unless it is fed by hand. The fields are the library's: a program neither
 * reads nor changes them. An open session may be moved, but makes no copy: of two only one may be used on. Before it is
 * opened it is closed: `yimarotu_session session = YIMAROTU_SESSION;`. */
typedef struct yimarotu_session {
    bool is_open;
    void *inside;
} yimarotu_session;

#define YIMAROTU_SESSION { false, NULL }

typedef struct yimarotu_opened {
    uint8_t status;
    size_t line; /* of the fault of the settings, from 1; 0 where no one line has it */
} yimarotu_opened;

/* Opens a session that asks by itself: as a file resolv.conf says on a host of this name (whom it asks and how, which names
 * it tries), over what a file of hosts says. A file of no octets says as much as one without lines; a resolv.conf is not
 * refused, whatever its octets. The settings are lines (yimarotu(3), SETTINGS): what they set counts in place of what
 * resolv.conf says, but domains of lines `search` come behind its. Set `option cache_octets N` where answers come from
 * strangers. The seed is 32 octets that nobody knows (getrandom): ids of messages, letters and the keys by which names are
 * hashed come from it, so that a stranger can neither guess a message nor make a session slow. The addresses that the
 * hosts answer are said to be usable for a day from this moment, however late they are asked, and the names of an address
 * for a day from the question. Where the status is not YIMAROTU_OK the session stays as it was. */
yimarotu_opened yimarotu_open(yimarotu_session *session, const uint8_t *conf, size_t conf_length,
                              const uint8_t *hostname, size_t hostname_length, const uint8_t *settings,
                              size_t settings_length, const uint8_t *hosts, size_t hosts_length, const uint8_t *seed,
                              size_t seed_length, uint64_t moment);

/* Closes the session, with all its look-ups, and gives its memory back. Channels that are open are the program's to close.
 * Of a session that is closed nothing changes. */
void yimarotu_close(yimarotu_session *session);

/* ---- what happens, and what is to be done */

typedef struct yimarotu_action {
    uint8_t status;
    uint8_t kind;     /* what is to be done */
    uint8_t protocol; /* of a channel that is to be opened: YIMAROTU_DATAGRAM or YIMAROTU_STREAM; else 0 */
    uint8_t family;   /* of a channel that is to be opened: 4 or 6, as the address of its server is; else 0 */
    uint16_t port;    /* of a channel that is to be opened: the port of its server; else 0 */
    uint64_t channel; /* the number of the channel, never used twice; 0 where there is none */
    uint64_t number;  /* the number of the look-up that is done, or of the client that is replied to; else 0 */
    size_t length;    /* of the octets: those that were put in the room, and those that are wanted there; else 0 */
} yimarotu_action;

/* Tells what the program has to do next, and puts its octets at the front of the room: those that are to be sent; of a
 * channel that is to be opened the address of its server, 4 or 16 octets, and behind them the scope of a link-local
 * address, the name of an interface or its number. It is called after each other call that changes a session, again and
 * again until it says YIMAROTU_NOTHING. Where the room is too small (YIMAROTU_ROOM) nothing was done, and it says the same
 * again in a larger one. Where memory runs out nothing was done either, it says the same when it is called again, and no
 * other field tells anything. No clause bounds the length: a header, the longest name and OPT (RFC 1035, sections 4.1 and
 * 2.3.4; RFC 6891, section 6.1.2) are 282 octets, two more stand before them on a stream, and a scope is as long as
 * resolv.conf has it.
 *
 * A datagram channel is a socket of its own, at a port that nobody can guess, connected to its server, and is kept after
 * an ICMP error. One that cannot be opened has failed (YIMAROTU_CHANNEL_LOCAL, where something is wanting here). Where
 * connect(2) fails the socket is closed at once: it has a port by then, and would hear anybody. What is still said of
 * its channel is passed over. Octets for a stream that is not connected yet, or is full, wait with the program. Each
 * channel that was opened is closed once, also one that failed. */
yimarotu_action yimarotu_next(yimarotu_session *session, uint8_t *room, size_t room_length);

/* Octets came on a channel: a datagram, or a piece of a stream, cut anywhere. On a channel that is not open they change
 * nothing. Where the status is YIMAROTU_NO_MEMORY nothing changed, and they may be handed in again. Gives a status. */
uint8_t yimarotu_came(yimarotu_session *session, uint64_t channel, const uint8_t *octets, size_t octets_length,
                      uint64_t moment);

/* A channel failed, in a way that has this number. Gives a status. */
uint8_t yimarotu_failed(yimarotu_session *session, uint64_t channel, uint8_t failure, uint64_t moment);

/* Time passed. A moment before one that was told counts as that one. Gives a status. */
uint8_t yimarotu_tick(yimarotu_session *session, uint64_t moment);

typedef struct yimarotu_waits {
    uint8_t status;
    bool has_deadline;     /* whether time ends something at all */
    uint64_t milliseconds; /* for how long it ends nothing; 0 where there is no such time */
} yimarotu_waits;

/* Tells for how many milliseconds from a moment on a program may wait for its channels, where nothing is left to be done;
 * behind them it calls yimarotu_tick. */
yimarotu_waits yimarotu_wait(yimarotu_session *session, uint64_t moment);

/* Asks the servers that a file resolv.conf names from now on, of which nothing is known yet, and no others: 127.0.0.1
 * where it names none, and those of lines `server` no more. Nothing else of the file counts here but its `use-vc`. What is
 * in flight goes on with the servers that it began with. Where the flag says so, all is cleared, as by yimarotu_clear;
 * what these still reply is kept like any other. Gives a status. */
uint8_t yimarotu_servers(yimarotu_session *session, const uint8_t *conf, size_t conf_length, bool clears);

typedef struct yimarotu_statistics_told {
    uint8_t status;
    bool is_bounded;       /* whether the octets of the cache are bounded, and so counted */
    uint64_t started;      /* look-ups that were started */
    uint64_t done_at_once; /* of them those that were done at once: from the cache, the hosts, or without a question */
    uint64_t sent;         /* messages that were to be sent */
    uint64_t timed_out;    /* look-ups that came to a timeout */
    uint64_t entries;      /* results in the cache, current or not */
    uint64_t octets;       /* how much they weigh; 0 where that is not bounded */
} yimarotu_statistics_told;

/* Tells what a session that asks by itself did and holds. */
yimarotu_statistics_told yimarotu_statistics(yimarotu_session *session);

/* ---- look-ups */

typedef struct yimarotu_progress {
    uint8_t status;
    uint8_t fault;
    bool waits; /* where the status is YIMAROTU_OK: it waits for what comes back to a question; else there is an answer */
} yimarotu_progress;

/* Starts a look-up of records of a type (RFC 1035, section 3.2.2) for a name, UTF-8, at this moment, under a number that
 * no other look-up of the session has. Where the status is not YIMAROTU_OK none was started. Of the questions of a session
 * 4,096 are in flight at most, and as many wait for a place: a question past them fails at once (YIMAROTU_UPSTREAM). Each
 * question comes to an end, but a look-up has no time limit of its own: it may be cancelled. */
yimarotu_progress yimarotu_start(yimarotu_session *session, uint64_t number, const uint8_t *name, size_t name_length,
                                 uint16_t record_type, uint64_t moment);

/* Starts a look-up of the addresses of a host, whose questions are of the families that the settings say. A reply counts
 * with all its answers: a server may have put addresses of the other family there, or of other names. Where both families
 * fail the error of one is told, that of the first, or with `then` in the strategy that of the second: so a negative
 * answer can hide a timeout. A text that is an address is its own answer: a record under the text as an absolute name, or
 * under the root where it is no name, as with IPv6. But with `ndots` above 4 a text that is an IPv4 address is first
 * looked up as a name, and is the answer where that has none. */
yimarotu_progress yimarotu_start_ip(yimarotu_session *session, uint64_t number, const uint8_t *host, size_t host_length,
                                    uint64_t moment);

typedef struct yimarotu_answered {
    uint8_t status;
    uint8_t error;  /* what the look-up came to; 0 where the status is none of OK, ROOM, UNWRITABLE and NO_MEMORY */
    uint8_t fault;
    bool has_ttl;   /* of a negative answer: whether it may be kept for a time that is known */
    uint16_t code;  /* the response code; 0 where there is none */
    uint32_t ttl;   /* of a negative answer: for how many seconds its SOA lets it be kept, bounded by no setting; else 0 */
    uint64_t until; /* of records: the last second at which they may be used, a moment divided by 1000; else 0 */
    size_t length;  /* of the message: where it was written, and where the room is too small for it; else 0 */
} yimarotu_answered;

/* Writes what a look-up came to at the front of the room, as a DNS message of at most `limit` octets, truncated as
 * yimarotu_rewrite does it. Records and negative answers have one, other errors none: then the length is 0. Its id is for
 * the program to set. What is behind it stays, and where the status is not YIMAROTU_OK all of the room does. The look-up
 * stays until it is cancelled: it may be read again. */
yimarotu_answered yimarotu_answer(yimarotu_session *session, uint64_t number, size_t limit, uint8_t *room,
                                  size_t room_length);

/* An address: 4 and four octets, behind which twelve are 0, or 6 and sixteen octets. */
typedef struct yimarotu_address {
    uint8_t family;
    uint8_t octets[16];
} yimarotu_address;

typedef struct yimarotu_found {
    uint8_t status;
    uint8_t error; /* what the look-up came to; 0 where there are records, or the status is not YIMAROTU_OK */
    uint16_t code; /* the response code; 0 where there is none */
    uint64_t ttl;  /* for how many seconds from the moment on the addresses may be used */
    size_t count;  /* how many there are: where they were written, and where the room is too small for them; else 0 */
} yimarotu_found;

/* Writes the addresses of what a look-up came to at the front of the room, whose length is in octets, in the order of the
 * answer. What is behind them stays, and where the status is not YIMAROTU_OK all of the room does. */
yimarotu_found yimarotu_addresses(yimarotu_session *session, uint64_t number, uint64_t moment, yimarotu_address *room,
                                  size_t room_length);

/* Forgets the look-up of a number, whether it waits or is done, and the number is free. What was kept of its questions
 * stays in the cache. Where nobody else asks its question, that is not asked on, and the place that it had goes to one that
 * waits, at this moment; a session that is fed by hand has no places, and looks at no moment here. Gives a status. */
uint8_t yimarotu_cancel(yimarotu_session *session, uint64_t number, uint64_t moment);

/* Drops from the cache what it has for the names that a look-up of this name, UTF-8, would attempt, of a type, and what
 * came for them ahead of a look-up; the look-ups stay. What is no name clears nothing. Where the status is not
 * YIMAROTU_OK nothing changes. Gives a status. */
uint8_t yimarotu_clear_name(yimarotu_session *session, const uint8_t *name, size_t name_length, uint16_t record_type);

/* Empties the cache, and lets go of what came ahead of a look-up: for its second family, while it waits for the first.
 * The look-ups stay. What is in flight, here and in yimarotu_clear_name, is kept when it comes. Gives a status. */
uint8_t yimarotu_clear(yimarotu_session *session);

/* ---- sessions that are fed by hand */

/* Opens a session that is fed by hand, for a program with a transport of its own: yimarotu_question tells what each
 * look-up waits for. The settings are lines `domain` and `search`, and lines `option` down to `cache_octets` (yimarotu(3),
 * SETTINGS), over what a file of hosts says. The hashers of such a session have no secret. Where the status is not
 * YIMAROTU_OK the session stays as it was. */
yimarotu_opened yimarotu_open_fed(yimarotu_session *session, const uint8_t *settings, size_t settings_length,
                                  const uint8_t *hosts, size_t hosts_length, uint64_t moment);

/* Opens such a session, and behind the settings, in place of which it counts, is what a file resolv.conf says on a host of
 * this name: its search list behind theirs, `ndots`, which is 1 where it says none, `no-aaaa`, and whether questions have
 * an EDNS record: not without `edns0`. Whom to ask, and how, is the program's affair. A file of no octets says as much as
 * one without lines, and whatever its octets, it is not refused. */
yimarotu_opened yimarotu_open_fed_with(yimarotu_session *session, const uint8_t *conf, size_t conf_length,
                                       const uint8_t *hostname, size_t hostname_length, const uint8_t *settings,
                                       size_t settings_length, const uint8_t *hosts, size_t hosts_length,
                                       uint64_t moment);

typedef struct yimarotu_asked {
    uint8_t status;
    uint8_t fault;
    bool mixed;    /* whether the case of the name is to be varied, which no line of the settings can say */
    size_t length; /* of the message: where it was written, and where the room is too small for it; else 0 */
} yimarotu_asked;

/* Writes the question that the look-up waits for at the front of the room, as a DNS message to send: its id is 0, and the
 * program puts its own in the first two octets. What is behind it stays, and where the status is not YIMAROTU_OK all of
 * the room does. No clause bounds its length: a header, the longest name and OPT (RFC 1035, sections 4.1 and 2.3.4; RFC
 * 6891, section 6.1.2) are 282 octets. */
yimarotu_asked yimarotu_question(yimarotu_session *session, uint64_t number, uint8_t *room, size_t room_length);

/* Goes on with the look-up by a DNS message that came back to its question. The program sees to it that this is the
 * response: by its QR bit, its id, its question and whom it comes from; and that it is not truncated. The message is read
 * first, whether or not there is such a look-up. Where the status is not YIMAROTU_OK nothing changes. */
yimarotu_progress yimarotu_feed(yimarotu_session *session, uint64_t number, const uint8_t *message, size_t message_length);

/* Goes on with the look-up by a failure of its question, by number. */
yimarotu_progress yimarotu_fail(yimarotu_session *session, uint64_t number, uint8_t failure);

typedef struct yimarotu_servers_read {
    uint8_t status;
    size_t length; /* of the text: where it was written, and where the room is too small for it; else 0 */
} yimarotu_servers_read;

/* Writes the servers that a file resolv.conf names at the front of the room, each address on a line of its own, with `%`
 * and its scope behind it where it is link-local and has one; 127.0.0.1 where no line names one. What is behind the text
 * stays, and where the status is not YIMAROTU_OK all of the room does. */
yimarotu_servers_read yimarotu_read_servers(const uint8_t *conf, size_t conf_length, uint8_t *room, size_t room_length);

/* ---- replays */

typedef struct yimarotu_replayed {
    uint8_t status;
    size_t length; /* of the text: where it was written, and where the room is too small for it; else 0 */
    size_t line;   /* of the fault of the script, from 1; 0 where no one line has it */
} yimarotu_replayed;

/* Writes the text of a replay of a script, over what a file of hosts says, at the front of the room. What is behind the
 * text stays, and where the status is not YIMAROTU_OK all of the room does. */
yimarotu_replayed yimarotu_replay(const uint8_t *script, size_t script_length, const uint8_t *hosts, size_t hosts_length,
                                  uint8_t *room, size_t room_length);

/* ---- forwarders */

/* A caching forwarder: it replies to queries of clients out of local data and out of what it keeps, and asks servers for
 * all else. A program hands in the queries that come, and what happens on its channels, and after each of these calls, or
 * after some of them, it does what yimarotu_forwarder_next says until it says nothing. The fields are the library's; an
 * open forwarder may be moved, but makes no copy. Before it is opened it is closed: `yimarotu_forwarder forwarder =
 * YIMAROTU_FORWARDER;`. */
typedef struct yimarotu_forwarder {
    bool is_open;
    void *inside;
} yimarotu_forwarder;

#define YIMAROTU_FORWARDER { false, NULL }

/* What becomes of a query. */
enum {
    YIMAROTU_DROPPED = 0,    /* it has no reply */
    YIMAROTU_REPLIED = 1,    /* it has its reply */
    YIMAROTU_QUERY_WAITS = 2 /* it waits for what servers say: YIMAROTU_REPLY says when it has its reply */
};

/* Opens a forwarder: as a file resolv.conf says on a host of this name (its servers, and how they are asked), and over it
 * settings, which are lines (yimarotu-forward.conf(5), from `server` on); over what a file of hosts says; and over a file
 * of blocked names. A file of no octets says as much as one without lines. A resolv.conf is not refused, nor is a file of
 * blocked names, whatever its octets. The seed is 32 octets that nobody knows (getrandom). Where the status is not
 * YIMAROTU_OK the forwarder stays as it was. */
yimarotu_opened yimarotu_forwarder_open(yimarotu_forwarder *forwarder, const uint8_t *conf, size_t conf_length,
                                        const uint8_t *hostname, size_t hostname_length, const uint8_t *settings,
                                        size_t settings_length, const uint8_t *hosts, size_t hosts_length,
                                        const uint8_t *blocked, size_t blocked_length, const uint8_t *seed,
                                        size_t seed_length, uint64_t moment);

/* Closes the forwarder, with all that it keeps and all that wait, and gives its memory back. Channels that are open are
 * the program's to close. Of a forwarder that is closed nothing changes. */
void yimarotu_forwarder_close(yimarotu_forwarder *forwarder);

/* Reads the files and the settings anew, as yimarotu_forwarder_open reads them. What is kept stays where the five say what
 * they said, but, of the settings, for comments and blank lines, lines `allow`, and the options `clients`,
 * `clients_of_address`, `clients_of_question`, `drops_strangers`, `serves_stale` and `prefetches`. Else all that is kept
 * is let go; what comes of look-ups in flight is told to those who wait, and not kept; and they go on with the servers
 * that they began with. How servers are asked (the options that a session has, too), and how much is kept at the most,
 * stay as the forwarder was opened. Where the status is none of YIMAROTU_OK and YIMAROTU_NO_MEMORY nothing changes; where
 * it is YIMAROTU_NO_MEMORY the general servers, and those of the first domains, may be the new ones, of which nothing is
 * known yet, and nothing else changes. */
yimarotu_opened yimarotu_forwarder_reload(yimarotu_forwarder *forwarder, const uint8_t *conf, size_t conf_length,
                                          const uint8_t *hostname, size_t hostname_length, const uint8_t *settings,
                                          size_t settings_length, const uint8_t *hosts, size_t hosts_length,
                                          const uint8_t *blocked, size_t blocked_length, uint64_t moment);

typedef struct yimarotu_queried {
    uint8_t status;
    uint8_t answered; /* what becomes of it; 0 where the status is none of YIMAROTU_OK and YIMAROTU_ROOM */
    size_t length;    /* of the reply: where it was written, and where the room is too small for it; else 0 */
} yimarotu_queried;

/* Octets of a query came from a client. Its number is the program's, and says whom a reply goes to: of a stream that of
 * the connection; of datagrams one for each socket, address and port, as long as something of it waits, so that the same
 * query sent twice is dropped the second time. Its address is 4 or 16 octets (an address of any other length is
 * YIMAROTU_KIND); one of IPv4 within IPv6 (::ffff:0:0/96) counts with that of IPv4 where is bounded how many wait. A
 * message of a stream stands here without its length.
 *
 * The reply, where there is one at once, is put at the front of the room. No clause bounds its length: a DNS message has at
 * most 65,535 octets. Where the room is too small (YIMAROTU_ROOM) the query is taken in all the same, and
 * yimarotu_forwarder_reply puts its reply into a larger one. What is behind the reply stays, and where none is put all of
 * the room does.
 *
 * While yimarotu_forwarder_next has a reply to tell, for which its room was too small, no query is taken in
 * (YIMAROTU_WAITS), since its reply would take the place of that one. Where the status is YIMAROTU_WAITS, YIMAROTU_KIND or
 * YIMAROTU_CLOSED nothing changes; where it is YIMAROTU_NO_MEMORY nothing changes but that the moment passed, as by
 * yimarotu_forwarder_tick, and the query has no reply. */
yimarotu_queried yimarotu_forwarder_query(yimarotu_forwarder *forwarder, uint64_t client, const uint8_t *address,
                                          size_t address_length, bool is_stream, const uint8_t *octets,
                                          size_t octets_length, uint64_t moment, uint8_t *room, size_t room_length);

/* Puts the reply that was written last, by yimarotu_forwarder_query or yimarotu_forwarder_next, at the front of the room:
 * no octets where none was. What is behind it stays, and where the status is not YIMAROTU_OK all of the room does. The
 * fault is 0. */
yimarotu_written yimarotu_forwarder_reply(yimarotu_forwarder *forwarder, uint8_t *room, size_t room_length);

/* The client of this number is gone: none of its requests is replied to any more, and the places that they had are free.
 * Look-ups go on. The number may be given to another client from then on. A program need not call it: a reply to a number
 * that it does not know is passed over, and until then the place stays taken, so that no client begins look-ups past its
 * bounds by coming and going. Gives a status. */
uint8_t yimarotu_forwarder_gone(yimarotu_forwarder *forwarder, uint64_t client);

/* Tells what the program has to do next, as yimarotu_next does it, and besides YIMAROTU_REPLY: the octets in the room are
 * the reply to the client of `number`, of a stream without its length. None is YIMAROTU_LOOKED_UP. Where the room is too
 * small (YIMAROTU_ROOM) it says the same again in a larger one; where memory runs out it may be called again, and at most
 * a look-up that was at its end has failed, its reply is not kept, or what is kept is not looked up anew before its end. */
yimarotu_action yimarotu_forwarder_next(yimarotu_forwarder *forwarder, uint8_t *room, size_t room_length);

/* Octets came on a channel: a datagram, or a piece of a stream, cut anywhere. On a channel that is not open they change
 * nothing but that the moment passed for what is kept. Where the status is YIMAROTU_NO_MEMORY nothing changed, and they may
 * be handed in again. Gives a status. */
uint8_t yimarotu_forwarder_came(yimarotu_forwarder *forwarder, uint64_t channel, const uint8_t *octets,
                                size_t octets_length, uint64_t moment);

/* A channel failed, in a way that has this number (YIMAROTU_KIND: none has). Where the status is not YIMAROTU_OK nothing
 * changed. Gives a status. */
uint8_t yimarotu_forwarder_failed(yimarotu_forwarder *forwarder, uint64_t channel, uint8_t failure, uint64_t moment);

/* Time passed. A moment before one that was told counts as that one. Gives a status. */
uint8_t yimarotu_forwarder_tick(yimarotu_forwarder *forwarder, uint64_t moment);

/* Tells for how many milliseconds from a moment on a program may wait for its channels and its clients, where nothing is
 * left to be done; behind them it calls yimarotu_forwarder_tick. */
yimarotu_waits yimarotu_forwarder_wait(yimarotu_forwarder *forwarder, uint64_t moment);

typedef struct yimarotu_forwarder_counts {
    uint8_t status;
    uint64_t queries;       /* octets that were a query; each is one of the six that follow */
    uint64_t from_cache;    /* queries that were told what is kept */
    uint64_t local;         /* queries that were told local data, these numbers, or that asked for all types */
    uint64_t failures_told; /* queries that were told at once that the look-up fails */
    uint64_t refused;       /* queries that were refused */
    uint64_t dropped;       /* queries that have no reply */
    uint64_t waited;        /* queries that waited for what servers say */
    uint64_t prefetched;    /* look-ups that nobody waited for as they began */
    uint64_t sent;          /* messages that were to be sent to servers */
    uint64_t waiting;       /* queries that wait */
    uint64_t entries;       /* replies that are kept, current or not */
    uint64_t octets;        /* how many octets of memory they weigh */
} yimarotu_forwarder_counts;

/* Tells what a forwarder did and holds. A number that is the greatest stays. */
yimarotu_forwarder_counts yimarotu_forwarder_statistics(yimarotu_forwarder *forwarder);

/* Lets go of the replies and the failures that are kept of a name, UTF-8, or, where the flag says so, of all names at and
 * below it. What comes of look-ups in flight is kept. Where the status is not YIMAROTU_OK nothing changes; a text that is
 * no name is YIMAROTU_TEXT. Gives a status. */
uint8_t yimarotu_forwarder_flush(yimarotu_forwarder *forwarder, const uint8_t *name, size_t name_length, bool below);

/* Lets go of all replies and failures that are kept. What comes of look-ups in flight is kept. Gives a status. */
uint8_t yimarotu_forwarder_clear(yimarotu_forwarder *forwarder);

typedef struct yimarotu_kept {
    uint8_t status;
    bool is_there;    /* whether there is one; else what follows is 0 */
    uint16_t code;    /* its response code */
    uint64_t seconds; /* for how many seconds more it is told; 0 where it is past its end */
    uint64_t weight;  /* how many octets of memory it weighs */
    size_t length;    /* of its key: where it was written, and where the room is too small for it */
} yimarotu_kept;

/* Goes through the replies that are kept: tells of the one behind that of a key, and puts its own key at the front of the
 * room. Behind a key of no octets is the first; behind the last, and behind a key that is not kept, is none. A key is an
 * octet, of which DO is 1 and CD is 2, and the question with its name in lower case. It and the room do not overlap. Nothing
 * of the forwarder changes; where the status is not YIMAROTU_OK all of the room stays. */
yimarotu_kept yimarotu_forwarder_kept(yimarotu_forwarder *forwarder, const uint8_t *key, size_t key_length, uint8_t *room,
                                      size_t room_length);

#ifdef __cplusplus
}
#endif

#endif
