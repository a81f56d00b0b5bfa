/* Tells a running yimarotu-forward what to do: yimarotu-control(8). */
#include <errno.h>
#include <limits.h>
#include <stdbool.h>
#include <stdio.h>
#include <string.h>
#include <sys/socket.h>
#include <sys/time.h>
#include <sys/un.h>
#include <unistd.h>

#define DEFAULT "/run/yimarotu-forward/control"

enum { DONE = 0, REFUSED = 1, USAGE = 2, NOT_THERE = 3, LINE = 1100, ANSWER = 65536 };

static const char usage[] =
    "usage: yimarotu-control [--socket PATH] flush NAME [below] | clear | dump | statistics | reload\n";

/* A connection to a process; -1 where none is there. */
static int connect_to(const char *path) {
    struct sockaddr_un at = {.sun_family = AF_UNIX};
    int fd = socket(AF_UNIX, SOCK_STREAM | SOCK_CLOEXEC, 0);
    if (strlen(path) >= sizeof at.sun_path) return errno = ENAMETOOLONG, -1;
    strcpy(at.sun_path, path);
    struct timeval most = {.tv_sec = 60};
    if (fd >= 0) setsockopt(fd, SOL_SOCKET, SO_RCVTIMEO, &most, sizeof most);
    if (fd >= 0 && connect(fd, (struct sockaddr *)&at, sizeof at) == 0) return fd;
    int error = errno;
    if (fd >= 0) close(fd);
    return errno = error, -1;
}

/* Where what is kept goes on, the line before the last says behind what: takes it away, as the next line to be said. */
static bool take_behind(char *answer, char *next) {
    char *line = strstr(answer, "behind ");
    while (line != NULL && line != answer && line[-1] != '\n') line = strstr(line + 1, "behind ");
    if (line == NULL) return false;
    snprintf(next, LINE, "dump %.*s\n", (int)strcspn(line + 7, "\n"), line + 7);
    strcpy(line, "ok\n");
    return true;
}

/* Says a line, and prints what is answered. Its last line is `ok`, or an error, which goes to standard error. */
static int say(int fd, const char *line, char *next) {
    static char answer[ANSWER + 1];
    size_t length = 0;
    ssize_t got = send(fd, line, strlen(line), MSG_NOSIGNAL);
    while (got > 0 && length < ANSWER && (got = read(fd, answer + length, ANSWER - length)) > 0) length += (size_t)got;
    close(fd);
    answer[length] = 0;
    *next = 0;
    if (strncmp(line, "dump", 4) == 0 && take_behind(answer, next)) length = strlen(answer);
    char *last = strstr(answer, "error: ");
    bool is_right = length >= 3 && strcmp(answer + length - 3, "ok\n") == 0;
    if (is_right) fwrite(answer, 1, length - 3, stdout);
    else fputs(last != NULL ? last : "error: no answer came\n", stderr);
    return is_right ? DONE : REFUSED;
}

/* The same, and what is still to be said behind it, each on a connection of its own. */
static int say_all(int fd, const char *path, const char *line) {
    char next[LINE], said[LINE];
    int ended = say(fd, line, next);
    while (ended == DONE && *next != 0) {
        strcpy(said, next);
        if ((fd = connect_to(path)) < 0) return REFUSED;
        ended = say(fd, said, next);
    }
    return ended;
}

/* Where there are many processes, each has a socket of its own: PATH.1, PATH.2 and so on. One at PATH, where nobody
 * listens, may be left over. */
static int say_to_all(const char *path, const char *line) {
    int fd = connect_to(path), ended = NOT_THERE, error = errno;
    if (fd >= 0) return say_all(fd, path, line);
    for (unsigned process = 1; error == ENOENT || error == ECONNREFUSED; process++) {
        char each[PATH_MAX];
        snprintf(each, sizeof each, "%s.%u", path, process);
        if ((fd = connect_to(each)) < 0) break;
        printf("process %u\n", process);
        int of_it = say_all(fd, each, line);
        ended = ended == REFUSED ? REFUSED : of_it;
    }
    if (ended == NOT_THERE) fprintf(stderr, "yimarotu-control: %s: %s\n", path, strerror(error));
    return ended;
}

static bool is_command(int count, char **words) {
    bool is_flush = strcmp(words[0], "flush") == 0 && (count == 2 || (count == 3 && strcmp(words[2], "below") == 0));
    const char *alone[] = {"clear", "dump", "reload", "statistics"};
    bool is_alone = false;
    for (size_t at = 0; at < sizeof alone / sizeof *alone; at++) is_alone |= strcmp(words[0], alone[at]) == 0;
    return is_flush || (count == 1 && is_alone);
}

int main(int count, char **words) {
    const char *path = DEFAULT;
    char line[LINE] = "";
    size_t length = 0;
    if (count > 2 && strcmp(words[1], "--socket") == 0) path = words[2], words += 2, count -= 2;
    if (count < 2 || !is_command(count - 1, words + 1)) return fputs(usage, stderr), USAGE;
    for (int at = 1; at < count; at++) {
        if (length + strlen(words[at]) + 2 > sizeof line)
            return fputs("yimarotu-control: the name is too long\n", stderr), USAGE;
        length += (size_t)sprintf(line + length, "%s%c", words[at], at + 1 < count ? ' ' : '\n');
    }
    return say_to_all(path, line);
}
