/* Reads the settings and the files that they name, and opens the library with them. */
#include "forward.h"

#include <errno.h>
#include <fcntl.h>
#include <netdb.h>
#include <stdio.h>
#include <stdlib.h>
#include <string.h>
#include <sys/random.h>
#include <unistd.h>

enum { LINE = 4096, WORDS = 8, FAULTS = 100, PIECE = 1 << 16 };

bool keep(struct octets *octets, const uint8_t *more, size_t length) {
    if (length == 0) return true;
    uint8_t *at = realloc(octets->at, octets->length + length);
    if (at == NULL) return false;
    memcpy(at + octets->length, more, length);
    *octets = (struct octets){at, octets->length + length};
    return true;
}

void drop(struct octets *octets, size_t length) {
    octets->length -= length;
    if (length > 0 && octets->length > 0) memmove(octets->at, octets->at + length, octets->length);
    if (octets->length > 0) return;
    free(octets->at);
    octets->at = NULL;
}

bool is_none(const struct word *path) { return path->text[0] == 0 || strcmp(path->text, "none") == 0; }

static void tell(const char *path, size_t line, const char *why) {
    if (line > 0) fprintf(stderr, "yimarotu-forward: %s: line %zu: %s\n", path, line, why);
    else fprintf(stderr, "yimarotu-forward: %s: %s\n", path, why);
}

/* ---- lines of the program itself */

static bool read_address(const char *address, const char *port, union address *read) {
    struct addrinfo wanted = {.ai_flags = AI_NUMERICHOST | AI_NUMERICSERV, .ai_socktype = SOCK_DGRAM}, *found;
    if (strspn(port, "0123456789") != strlen(port) || atoi(port) < 1 || atoi(port) > 65535) return false;
    if (getaddrinfo(address, port, &wanted, &found) != 0) return false;
    memcpy(read, found->ai_addr, found->ai_addrlen);
    freeaddrinfo(found);
    return true;
}

static const char *take_listen(struct settings *settings, char **words, size_t count) {
    if (count < 2 || count > 3) return "it is `listen ADDRESS [PORT]`";
    if (settings->listen_count == LISTENS) return "there are too many addresses";
    union address *at = &settings->listens[settings->listen_count++];
    return read_address(words[1], count == 3 ? words[2] : "53", at) ? NULL : "that is no address, or no port";
}

static const char *take_processes(struct settings *settings, char **words, size_t count) {
    char *end;
    if (count != 2) return "it is `processes N`";
    settings->processes = strtoul(words[1], &end, 10);
    return *end == 0 && settings->processes >= 1 && settings->processes <= PROCESSES ? NULL : "it is from 1 to 64";
}

static const char *take_word(struct word *word, size_t most, char **words, size_t count, size_t line) {
    if (count != 2) return "one word is wanted behind the first one";
    if (strlen(words[1]) > most) return "the word is too long";
    strcpy(word->text, words[1]);
    word->line = line;
    return NULL;
}

/* Takes a line of the program itself, and gives why it has a fault, or NULL. */
static const char *take_line(struct settings *settings, char **words, size_t count, size_t line, bool *is_own) {
    struct { const char *first; struct word *word; size_t most; } all[] = {
        {"user", &settings->user, PATH_MAX - 1}, {"control", &settings->control, 100},
        {"log", &settings->log, PATH_MAX - 1}, {"resolv_conf", &settings->resolv_conf, PATH_MAX - 1},
        {"hosts", &settings->hosts, PATH_MAX - 1}, {"blocked", &settings->blocked, PATH_MAX - 1},
    };
    *is_own = true;
    if (strcmp(words[0], "listen") == 0) return take_listen(settings, words, count);
    if (strcmp(words[0], "processes") == 0) return take_processes(settings, words, count);
    for (size_t at = 0; at < sizeof all / sizeof *all; at++)
        if (strcmp(words[0], all[at].first) == 0) return take_word(all[at].word, all[at].most, words, count, line);
    *is_own = false;
    if (strcmp(words[0], "server") == 0) settings->names_servers = true;
    return NULL;
}

static size_t split(const uint8_t *line, size_t length, char *copy, char **words) {
    size_t count = 0;
    char *rest;
    if (length >= LINE) length = LINE - 1;
    memcpy(copy, line, length);
    copy[length] = 0;
    char *word = strtok_r(copy, " \t\r", &rest);
    for (; word != NULL && count < WORDS; word = strtok_r(NULL, " \t\r", &rest)) words[count++] = word;
    return count;
}

static size_t line_length(const struct octets *text, size_t at) {
    const uint8_t *end = memchr(text->at + at, '\n', text->length - at);
    return end == NULL ? text->length - at : (size_t)(end - text->at) - at;
}

/* Takes the lines of the program itself, and blanks them, so that the others keep their numbers. */
static size_t take_lines(const char *path, struct settings *settings, struct octets *text) {
    size_t faults = 0, line = 1;
    for (size_t at = 0; at < text->length; line++) {
        char copy[LINE], *words[WORDS];
        size_t length = line_length(text, at), count = split(text->at + at, length, copy, words);
        bool is_own = false;
        const char *why = count > 0 ? take_line(settings, words, count, line, &is_own) : NULL;
        if (is_own) memset(text->at + at, ' ', length);
        if (why != NULL) tell(path, line, why), faults++;
        at += length + 1;
    }
    return faults;
}

/* ---- files */

/* Gives whether it could be read whole. */
static bool read_file(const char *path, struct octets *file) {
    uint8_t piece[PIECE];
    int fd = open(path, O_RDONLY | O_CLOEXEC);
    ssize_t got = -1;
    while (fd >= 0 && (got = read(fd, piece, sizeof piece)) > 0)
        if (!keep(file, piece, (size_t)got)) {
            errno = ENOMEM, got = -1;
            break;
        }
    int error = errno;
    if (fd >= 0) close(fd);
    errno = error;
    return got == 0;
}

/* A file that no line names may lack, and counts as one without lines. */
static size_t read_named(const char *path, const struct word *named, struct octets *file) {
    if (is_none(named) || read_file(named->text, file) || (named->line == 0 && errno == ENOENT)) return 0;
    char why[PATH_MAX + 64];
    snprintf(why, sizeof why, "%s: %s", named->text, strerror(errno));
    tell(path, named->line, why);
    return 1;
}

size_t read_settings(const char *path, struct settings *settings, struct files *files) {
    *settings = (struct settings){
        .processes = 1, .control = {0, "/run/yimarotu-forward/control"}, .hosts = {0, "/etc/hosts"},
    };
    *files = (struct files){0};
    if (gethostname(files->hostname, sizeof files->hostname - 1) != 0) files->hostname[0] = 0;
    if (!read_file(path, &files->settings)) return tell(path, 0, strerror(errno)), 1;
    size_t faults = take_lines(path, settings, &files->settings);
    if (settings->resolv_conf.line == 0 && !settings->names_servers)
        strcpy(settings->resolv_conf.text, "/etc/resolv.conf");
    faults += read_named(path, &settings->resolv_conf, &files->conf);
    faults += read_named(path, &settings->hosts, &files->hosts);
    return faults + read_named(path, &settings->blocked, &files->blocked);
}

void free_files(struct files *files) {
    struct octets *all[] = {&files->settings, &files->conf, &files->hosts, &files->blocked};
    for (size_t at = 0; at < sizeof all / sizeof *all; at++) drop(all[at], all[at]->length);
}

/* ---- the library */

/* What the library found. */
static enum opened tell_opened(const char *path, const struct settings *settings, yimarotu_opened opened) {
    if (opened.status == YIMAROTU_OK) return OPENED;
    if (opened.status == YIMAROTU_HOSTS) return tell(settings->hosts.text, opened.line, "it is not UTF-8"), HAS_FAULTS;
    if (opened.status == YIMAROTU_SCRIPT) return tell(path, opened.line, "it is no setting"), HAS_FAULTS;
    tell(path, 0, opened.status == YIMAROTU_NO_MEMORY ? "no memory is left" : "the library was not opened");
    return IS_WANTING;
}

/* No pointer is null, not even that of no octets. */
#define OCTETS(octets) (octets).at == NULL ? (const uint8_t *)"" : (octets).at, (octets).length
#define FILES(files) OCTETS((files)->conf), (const uint8_t *)(files)->hostname, strlen((files)->hostname), \
    OCTETS((files)->settings), OCTETS((files)->hosts), OCTETS((files)->blocked)

static yimarotu_opened open_with(yimarotu_forwarder *opened, const struct files *files) {
    uint8_t seed[32];
    if (getrandom(seed, sizeof seed, 0) != sizeof seed) return (yimarotu_opened){YIMAROTU_SEED, 0};
    return yimarotu_forwarder_open(opened, FILES(files), seed, sizeof seed, moment);
}

enum opened open_forwarder(const char *path, const struct settings *settings, struct files *files) {
    return tell_opened(path, settings, open_with(&forwarder, files));
}

enum reloaded reload_forwarder(const char *path) {
    static struct settings settings;
    struct files files;
    bool is_right = read_settings(path, &settings, &files) == 0
        && tell_opened(path, &settings, yimarotu_forwarder_reload(&forwarder, FILES(&files), moment)) == OPENED;
    free_files(&files);
    if (!is_right) return ALL_STAYS;
    if (is_none(&settings.log)) return close_log(), READ_AGAIN;
    if (open_log(settings.log.text)) return READ_AGAIN;
    return tell(settings.log.text, 0, strerror(errno)), LOG_STAYS;
}

/* Blanks a line, so that the next one with a fault is told; gives whether there is such a line. */
static bool blank(struct octets *text, size_t line) {
    size_t at = 0;
    for (; line > 1 && at < text->length; line--) at += line_length(text, at) + 1;
    if (line != 1 || at >= text->length) return false;
    memset(text->at + at, ' ', line_length(text, at));
    return true;
}

enum opened check(const char *path) {
    static struct settings settings;
    struct files files;
    uid_t user;
    gid_t group;
    size_t faults = read_settings(path, &settings, &files);
    if (settings.user.line > 0 && !find_user(settings.user.text, &user, &group))
        tell(path, settings.user.line, "there is no such user"), faults++;
    enum opened last = OPENED;
    while (faults < FAULTS) {
        yimarotu_forwarder opened = YIMAROTU_FORWARDER;
        yimarotu_opened found = open_with(&opened, &files);
        yimarotu_forwarder_close(&opened);
        last = tell_opened(path, &settings, found);
        if (last == HAS_FAULTS) faults++;
        if (found.status != YIMAROTU_SCRIPT || !blank(&files.settings, found.line)) break;
    }
    free_files(&files);
    return faults > 0 ? HAS_FAULTS : last;
}
