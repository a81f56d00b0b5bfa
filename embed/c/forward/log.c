/* The log of queries: a line for each reply, "MOMENT CLIENT udp|tcp NAME TYPE CODE". It never waits for a pipe: lines that
 * the file or the pipe does not take at once are dropped and counted. */
#include "forward.h"

#include <arpa/inet.h>
#include <fcntl.h>
#include <limits.h>
#include <stdio.h>
#include <string.h>
#include <sys/stat.h>
#include <time.h>
#include <unistd.h>

/* A name has at most 255 octets, each of which is written as at most four. */
enum { HEADER = 12, LONGEST_NAME = 255, TEXT = 4 * LONGEST_NAME + 1, LINE = TEXT + 200, OPT = 41 };

static int file = -1;
static char lines[PIPE_BUF]; /* a pipe takes so many octets whole, or none of them */
static size_t length;
static bool has_rest; /* in front stands what is left of a line that was taken in part, by a disk that is full */

/* Whether this is the log that is open. */
static bool is_open_log(int fd) {
    struct stat found, own;
    return file >= 0 && fstat(fd, &found) == 0 && fstat(file, &own) == 0
        && found.st_ino == own.st_ino && found.st_dev == own.st_dev;
}

/* A pipe without a reader is opened for reading, too: else it could not be opened at all. Where it is the same log,
 * what is left of a line that was cut stays: it is still to be ended there. */
bool open_log(const char *path) {
    struct stat found;
    bool is_pipe = stat(path, &found) == 0 && S_ISFIFO(found.st_mode);
    int fd = open(path, (is_pipe ? O_RDWR : O_WRONLY) | O_APPEND | O_CREAT | O_NONBLOCK | O_CLOEXEC | O_NOCTTY, 0640);
    if (fd < 0) return false;
    if (is_open_log(fd)) close(file);
    else close_log();
    file = fd;
    return true;
}

void close_log(void) {
    write_log();
    if (file >= 0) close(file);
    file = -1;
    length = 0, has_rest = false;
}

/* The end of the line in which these octets are. */
static size_t line_end(size_t at) {
    const char *end = memchr(lines + at, '\n', length - at);
    return end == NULL ? length : (size_t)(end - lines) + 1;
}

/* What is left of a line is tried again: else the next one would go on in it. */
void write_log(void) {
    ssize_t done = length > 0 ? write(file, lines, length) : 0;
    size_t taken = done > 0 ? (size_t)done : 0;
    bool is_cut = taken > 0 ? lines[taken - 1] != '\n' : has_rest;
    size_t kept = is_cut && taken < length ? line_end(taken) : taken;
    for (size_t at = kept; at < length; at = line_end(at)) counts.lost_lines++;
    memmove(lines, lines + taken, kept - taken);
    length = kept - taken, has_rest = length > 0;
}

static size_t put_moment(char *text) {
    struct timespec now;
    struct tm parts;
    clock_gettime(CLOCK_REALTIME, &now);
    gmtime_r(&now.tv_sec, &parts);
    size_t written = strftime(text, 32, "%Y-%m-%dT%H:%M:%S", &parts);
    return written + (size_t)sprintf(text + written, ".%03ldZ", now.tv_nsec / 1000000);
}

/* Letters as they are, and what would not stand in one word as \DDD. Gives where the name ends in the message, or 0. */
static size_t put_name(char *text, const uint8_t *message, size_t size) {
    size_t at = HEADER;
    while (at < size && message[at] != 0 && at + 1 + message[at] < size && at - HEADER + message[at] < LONGEST_NAME) {
        for (const uint8_t *octet = message + at + 1, *end = octet + message[at]; octet < end; octet++)
            if (*octet > ' ' && *octet < 127 && strchr(".\\", *octet) == NULL) *text++ = (char)*octet;
            else text += sprintf(text, "\\%03u", *octet);
        *text++ = '.';
        at += 1u + message[at];
    }
    if (at == HEADER) *text++ = '.';
    *text = 0;
    return at < size && message[at] == 0 ? at + 1 : 0;
}

static unsigned number_at(const uint8_t *at) { return (unsigned)at[0] << 8 | at[1]; }

static const char *type_text(unsigned number) {
    static const struct { unsigned number; const char *text; } types[] = {
        {1, "A"}, {2, "NS"}, {5, "CNAME"}, {6, "SOA"}, {12, "PTR"}, {15, "MX"}, {16, "TXT"}, {28, "AAAA"}, {33, "SRV"},
        {35, "NAPTR"}, {43, "DS"}, {46, "RRSIG"}, {47, "NSEC"}, {48, "DNSKEY"}, {50, "NSEC3"}, {52, "TLSA"},
        {64, "SVCB"}, {65, "HTTPS"}, {255, "ANY"}, {257, "CAA"},
    };
    static char text[16];
    for (size_t at = 0; at < sizeof types / sizeof *types; at++)
        if (types[at].number == number) return types[at].text;
    sprintf(text, "TYPE%u", number);
    return text;
}

/* Of a reply that has OPT behind its question, and nothing else, the code is in that, too (RFC 6891, section 6.1.3). */
static unsigned code_of(const uint8_t *reply, size_t size, size_t end) {
    bool is_alone = number_at(reply + 6) == 0 && number_at(reply + 8) == 0 && number_at(reply + 10) == 1;
    bool has_opt = is_alone && size >= end + 11 && reply[end] == 0 && number_at(reply + end + 1) == OPT;
    return (has_opt ? (unsigned)reply[end + 5] << 4 : 0) | (reply[3] & 15);
}

static const char *code_text(unsigned code) {
    static const char *const texts[] = {"NOERROR", "FORMERR", "SERVFAIL", "NXDOMAIN", "NOTIMP", "REFUSED"};
    static char text[16];
    if (code < sizeof texts / sizeof *texts) return texts[code];
    sprintf(text, code == 9 ? "NOTAUTH" : code == 16 ? "BADVERS" : "RCODE%u", code);
    return text;
}

/* A reply without a question has `-` in place of the name and the type. */
static size_t put_line(char *line, const union address *client, bool is_stream, const uint8_t *reply, size_t size) {
    char host[INET6_ADDRSTRLEN], name[TEXT + 1] = "-";
    const uint8_t *octets;
    const char *type = "-";
    int family = octets_of_address(client, &octets) == 4 ? AF_INET : AF_INET6;
    inet_ntop(family, octets, host, sizeof host);
    size_t end = size >= HEADER && number_at(reply + 4) == 1 ? put_name(name, reply, size) : HEADER;
    if (end > HEADER && end + 4 <= size) type = type_text(number_at(reply + end)), end += 4;
    size_t written = put_moment(line);
    return written + (size_t)sprintf(line + written, " %s#%u %s %s %s %s\n", host, ntohs(client->v4.sin_port),
                                     is_stream ? "tcp" : "udp", name, type, code_text(code_of(reply, size, end)));
}

void log_reply(const union address *client, bool is_stream, const uint8_t *reply, size_t size) {
    char line[LINE];
    if (file < 0 || size < HEADER) return;
    size_t more = put_line(line, client, is_stream, reply, size);
    if (length + more > sizeof lines) write_log();
    memcpy(lines + length, line, more);
    length += more;
}
