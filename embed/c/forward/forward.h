/* What the files of yimarotu-forward share. The program moves octets between sockets and the library, and tells the
 * time. The library decides who may ask, what is kept, who is asked, which reply is believed and what a client is told.
 */
#ifndef FORWARD_H
#define FORWARD_H

#ifndef _GNU_SOURCE
#define _GNU_SOURCE
#endif
#include <limits.h>
#include <netinet/in.h>
#include <stdbool.h>
#include <stddef.h>
#include <stdint.h>
#include <sys/epoll.h>
#include <sys/socket.h>
#include <sys/types.h>

#include "yimarotu.h"

enum { MESSAGE = 65535, LISTENS = 32, PROCESSES = 64, BATCH = 64, SECOND = 1000 /* milliseconds */ };

union address {
    struct sockaddr any;
    struct sockaddr_in v4;
    struct sockaddr_in6 v6;
};

/* ---- settings.c: files */

struct octets { /* that malloc gave; NULL where there are none */
    uint8_t *at;
    size_t length;
};

struct word { /* a name or a path */
    size_t line; /* that says it; 0 where none does */
    char text[PATH_MAX];
};

/* What the lines of the program itself say. */
struct settings {
    union address listens[LISTENS];
    size_t listen_count, processes;
    bool names_servers;
    struct word user, control, log, resolv_conf, hosts, blocked;
};

/* What the library is opened with. The lines of the program itself are blank in the settings. */
struct files {
    struct octets settings, conf, hosts, blocked;
    char hostname[256];
};

/* Puts more behind them; false where no memory is left. */
bool keep(struct octets *octets, const uint8_t *more, size_t length);
/* Takes the first so many away. */
void drop(struct octets *octets, size_t length);

/* Reads the file of settings, and those that it names. Tells each fault of the lines of the program itself, and gives
 * how many there are. */
size_t read_settings(const char *path, struct settings *settings, struct files *files);
void free_files(struct files *files);
/* Whether what was read can be served: where it has no fault, memory or a seed may be wanting. */
enum opened { OPENED, HAS_FAULTS, IS_WANTING };
enum opened open_forwarder(const char *path, const struct settings *settings, struct files *files);
enum reloaded { ALL_STAYS, LOG_STAYS, READ_AGAIN };
/* Where the files have a fault all stays as it was; where only the log cannot be opened that does. */
enum reloaded reload_forwarder(const char *path);
/* Tells all faults, also those that the library finds. */
enum opened check(const char *path);
bool is_none(const struct word *path);

/* ---- listeners.c: the sockets that clients come to */

struct listener {
    int fd;
    bool is_stream, is_control;
};

struct listeners { /* of one process */
    size_t count;
    struct listener at[4 * LISTENS + 1]; /* control sockets that systemd gave stand beside those of this program */
};

bool take_activated(struct listeners *listeners); /* those that systemd gave, if there are any */
bool listen_at(const struct settings *settings, struct listeners *listeners);
bool listen_for_control(const char *path, struct listeners *listeners, uid_t user, gid_t group);
void control_path(const struct settings *settings, size_t process, char *path); /* of a process, from 1 */
void ignore_path_mtu(int fd, int family);

/* ---- datagrams.c, streams.c: clients by UDP and by TCP */

enum { FROM_STREAM = 63, FROM_CHANNEL = 62, FROM_SIGNAL = 61 }; /* bits of what epoll tells; else it is a listener */

void on_datagrams(int fd);
void on_datagram_reply(uint64_t number, const uint8_t *reply, size_t length);
void send_datagrams(void); /* the replies that have been gathered */
void on_connecting(const struct listener *listener);
void on_connection(uint64_t number, uint32_t events);
void on_stream_reply(uint64_t number, const uint8_t *reply, size_t length);
void expire_connections(void);
void close_connections(void);
size_t octets_of_address(const union address *address, const uint8_t **octets);

/* ---- servers.c: channels to name servers */

void open_channel(const yimarotu_action *open);
void send_on_channel(uint64_t number, const uint8_t *octets, size_t length);
void close_channel(uint64_t number);
void on_channel(uint64_t number, uint32_t events);
void let_go_of_what_came(void); /* to channels, while the program stood still */
bool has_untold_failures(void); /* of channels, for which the library had no memory */
void tell_failures_again(void);
void close_channels(void);

/* ---- log.c, control.c, dump.c, rights.c */

bool open_log(const char *path);
void close_log(void);
void log_reply(const union address *client, bool is_stream, const uint8_t *reply, size_t length);
void write_log(void);
/* Does what a line of yimarotu-control says, and writes what is answered; gives its length. */
size_t obey(const char *line, char *answer, size_t room_length);
size_t write_counts(char *text, size_t room_length, char between);
/* Writes what is kept behind a key, in digits (none: from the first on), as much as there is room for. Where there is more, the
 * last line is `behind` and the key that was written last. */
size_t write_kept(const char *digits, char *text, size_t room_length);
bool find_user(const char *name, uid_t *user, gid_t *group);
bool drop_rights(uid_t user, gid_t group);
extern const char *const confines; /* how the calls of the system are confined */
bool confine(void);

/* ---- main.c */

extern yimarotu_forwarder forwarder;
extern uint64_t moment;      /* milliseconds, when the events came that are looked at */
extern uint8_t room[MESSAGE];
extern struct counts {       /* of the program; the library has its own */
    uint64_t connections, closed_full, lost_replies, lost_lines;
} counts;

bool watch(int change, int fd, uint32_t events, uint64_t what);
void accept_again(void); /* connections are accepted, where files or places had run out */
void pause_accepting(const struct listener *listener);
enum reloaded reload(void);

#endif
