/* Opens the sockets that clients come to, or takes those that systemd opened. */
#include "forward.h"

#include <errno.h>
#include <fcntl.h>
#include <net/if.h>
#include <netdb.h>
#include <stdio.h>
#include <stdlib.h>
#include <string.h>
#include <sys/stat.h>
#include <sys/un.h>
#include <unistd.h>

enum { FIRST_ACTIVATED = 3, RECEIVED = 1 << 20, BACKLOG = 1024 };

static bool set(int fd, int level, int option, int value) {
    return setsockopt(fd, level, option, &value, sizeof value) == 0;
}

/* What is told of a path's size by ICMP is believed nowhere: a stranger could have datagrams cut. By a socket of IPv6 that
 * systemd opened clients of IPv4 may come, too. */
void ignore_path_mtu(int fd, int family) {
    set(fd, IPPROTO_IP, IP_MTU_DISCOVER, IP_PMTUDISC_OMIT);
    if (family != AF_INET) set(fd, IPPROTO_IPV6, IPV6_MTU_DISCOVER, IPV6_PMTUDISC_OMIT);
}

/* Each datagram tells to which address it came. Where many ask at once, their queries wait in the socket. */
static bool prepare_datagrams(int fd, int family) {
    if (!set(fd, SOL_SOCKET, SO_RCVBUFFORCE, RECEIVED)) set(fd, SOL_SOCKET, SO_RCVBUF, RECEIVED);
    ignore_path_mtu(fd, family);
    return family == AF_INET ? set(fd, IPPROTO_IP, IP_PKTINFO, 1) : set(fd, IPPROTO_IPV6, IPV6_RECVPKTINFO, 1);
}

static void add(struct listeners *listeners, int fd, bool is_stream, bool is_control) {
    listeners->at[listeners->count++] = (struct listener){fd, is_stream, is_control};
}

/* ---- activated by systemd */

static bool take_socket(struct listeners *listeners, int fd) {
    union address at = {0};
    int type = 0, accepts = 0;
    socklen_t length = sizeof type, at_length = sizeof at;
    if (getsockopt(fd, SOL_SOCKET, SO_TYPE, &type, &length) != 0) return false;
    if (getsockopt(fd, SOL_SOCKET, SO_ACCEPTCONN, &accepts, &length) != 0) return false;
    if (type == SOCK_STREAM && !accepts) return false; /* it would be told of again and again */
    if (getsockname(fd, &at.any, &at_length) != 0 || listeners->count == 2 * LISTENS) return false;
    bool is_unix = at.any.sa_family == AF_UNIX, is_stream = type == SOCK_STREAM;
    if (is_unix && !is_stream) return false;
    if (fcntl(fd, F_SETFL, O_NONBLOCK) != 0 || fcntl(fd, F_SETFD, FD_CLOEXEC) != 0) return false;
    add(listeners, fd, is_stream, is_unix);
    return is_stream || prepare_datagrams(fd, at.any.sa_family);
}

bool take_activated(struct listeners *listeners) {
    const char *process = getenv("LISTEN_PID"), *given = getenv("LISTEN_FDS");
    if (process == NULL || given == NULL || strtol(process, NULL, 10) != getpid()) return true;
    for (int fd = FIRST_ACTIVATED, end = fd + atoi(given); fd < end; fd++) {
        if (take_socket(listeners, fd)) continue;
        return fprintf(stderr, "yimarotu-forward: descriptor %d is no socket for it\n", fd), false;
    }
    return true;
}

/* ---- opened here */

static bool is_opened(int fd, const union address *at, bool is_stream, bool is_shared) {
    socklen_t length = at->any.sa_family == AF_INET ? sizeof at->v4 : sizeof at->v6;
    if (fd < 0 || (at->any.sa_family == AF_INET6 && !set(fd, IPPROTO_IPV6, IPV6_V6ONLY, 1))) return false;
    if (is_stream && !set(fd, SOL_SOCKET, SO_REUSEADDR, 1)) return false;
    if (is_shared && !set(fd, SOL_SOCKET, SO_REUSEPORT, 1)) return false;
    if (!is_stream && !prepare_datagrams(fd, at->any.sa_family)) return false;
    return bind(fd, &at->any, length) == 0 && (!is_stream || listen(fd, BACKLOG) == 0);
}

static bool listen_by(const union address *at, bool is_stream, bool is_shared, struct listeners *listeners) {
    int type = (is_stream ? SOCK_STREAM : SOCK_DGRAM) | SOCK_NONBLOCK | SOCK_CLOEXEC;
    int fd = socket(at->any.sa_family, type, 0);
    char host[INET6_ADDRSTRLEN + IF_NAMESIZE] = "", port[8] = "";
    if (is_opened(fd, at, is_stream, is_shared)) return add(listeners, fd, is_stream, false), true;
    int error = errno;
    getnameinfo(&at->any, sizeof *at, host, sizeof host, port, sizeof port, NI_NUMERICHOST | NI_NUMERICSERV);
    fprintf(stderr, "yimarotu-forward: cannot listen at %s %s by %s: %s\n", host, port, is_stream ? "TCP" : "UDP",
            strerror(error));
    if (fd >= 0) close(fd);
    return errno = error, false;
}

/* Where no line says an address, it is both of loopback, and a machine may be without that of IPv6. */
bool listen_at(const struct settings *settings, struct listeners *listeners) {
    union address loopback[2] = {
        {.v4 = {.sin_family = AF_INET, .sin_port = htons(53), .sin_addr = {htonl(INADDR_LOOPBACK)}}},
        {.v6 = {.sin6_family = AF_INET6, .sin6_port = htons(53), .sin6_addr = IN6ADDR_LOOPBACK_INIT}},
    };
    bool is_default = settings->listen_count == 0;
    const union address *all = is_default ? loopback : settings->listens;
    for (size_t at = 0; at < (is_default ? 2 : settings->listen_count); at++)
        for (int is_stream = 0; is_stream < 2; is_stream++)
            if (!listen_by(&all[at], is_stream, settings->processes > 1, listeners)
                && !(is_default && at == 1 && (errno == EADDRNOTAVAIL || errno == EAFNOSUPPORT)))
                return false;
    return true;
}

void control_path(const struct settings *settings, size_t process, char *path) {
    if (settings->processes == 1) strcpy(path, settings->control.text);
    else sprintf(path, "%s.%zu", settings->control.text, process);
}

/* Makes the folder of a path where it is not there. */
static bool make_folder(const char *path, uid_t user, gid_t group) {
    char folder[PATH_MAX];
    snprintf(folder, sizeof folder, "%s", path);
    char *slash = strrchr(folder, '/');
    if (slash == NULL || slash == folder) return true;
    *slash = 0;
    return mkdir(folder, 0755) != 0 ? errno == EEXIST : lchown(folder, user, group) == 0;
}

/* Takes away a socket that nobody listens at any more. */
static bool make_room(const struct sockaddr_un *at) {
    struct stat found;
    if (lstat(at->sun_path, &found) != 0) return errno == ENOENT;
    if (!S_ISSOCK(found.st_mode)) return errno = EEXIST, false;
    int fd = socket(AF_UNIX, SOCK_STREAM | SOCK_NONBLOCK | SOCK_CLOEXEC, 0);
    bool is_left = fd >= 0 && connect(fd, (const struct sockaddr *)at, sizeof *at) != 0 && errno == ECONNREFUSED;
    if (fd >= 0) close(fd);
    return is_left ? unlink(at->sun_path) == 0 : (errno = EADDRINUSE, false);
}

/* A socket of its user alone. */
bool listen_for_control(const char *path, struct listeners *listeners, uid_t user, gid_t group) {
    struct sockaddr_un at = {.sun_family = AF_UNIX};
    strcpy(at.sun_path, path);
    int fd = socket(AF_UNIX, SOCK_STREAM | SOCK_NONBLOCK | SOCK_CLOEXEC, 0);
    bool is_made = fd >= 0 && make_folder(path, user, group) && make_room(&at);
    mode_t before = umask(0177);
    bool is_bound = is_made && bind(fd, (struct sockaddr *)&at, sizeof at) == 0;
    umask(before);
    if (is_bound && listen(fd, BACKLOG) == 0 && lchown(path, user, group) == 0)
        return add(listeners, fd, true, true), true;
    int error = errno;
    fprintf(stderr, "yimarotu-forward: cannot listen at %s: %s\n", path, strerror(error));
    if (is_bound) unlink(path);
    if (fd >= 0) close(fd);
    return errno = error, false;
}
