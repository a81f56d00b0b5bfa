/* Prints what the C library makes of a file: `res_ninit FILE HOSTNAME`. The file lies over /etc/resolv.conf, in
   namespaces of this process, which has the hostname and no interface but `lo` there. Its status is 2 where it may not
   have these, and says what was refused. */
#define _GNU_SOURCE
#include <arpa/inet.h>
#include <netinet/in.h>
#include <resolv.h>
#include <errno.h>
#include <fcntl.h>
#include <sched.h>
#include <stdio.h>
#include <string.h>
#include <sys/mount.h>
#include <unistd.h>

enum { NOT_ALLOWED = 2 };

#define FILE_OF_SYSTEM "/etc/resolv.conf"

/* Where the path leads to nothing, as where a service that writes the file does not run, it lies in a new folder. */
static int lay_in_new_folder(const char *file)
{
    if (errno != ENOENT || mount("none", "/etc", "tmpfs", 0, NULL) != 0)
        return -1;
    int place = open(FILE_OF_SYSTEM, O_CREAT | O_WRONLY | O_CLOEXEC, 0644);
    if (place < 0)
        return -1;
    close(place);
    return mount(file, FILE_OF_SYSTEM, NULL, MS_BIND, NULL);
}

static int refused(const char *what)
{
    perror(what);
    return NOT_ALLOWED;
}

static int enter(const char *file, const char *hostname)
{
    int spaces = CLONE_NEWNS | CLONE_NEWUTS | CLONE_NEWNET;
    if (unshare(spaces) != 0 && unshare(CLONE_NEWUSER | spaces) != 0)
        return refused("unshare");
    if (mount(NULL, "/", NULL, MS_REC | MS_PRIVATE, NULL) != 0)
        return refused("mount / as private");
    if (mount(file, FILE_OF_SYSTEM, NULL, MS_BIND, NULL) != 0 && lay_in_new_folder(file) != 0)
        return refused("mount over " FILE_OF_SYSTEM);
    if (sethostname(hostname, strlen(hostname)) != 0)
        return refused("sethostname");
    return 0;
}

static void print_server(res_state state, int place)
{
    char text[INET6_ADDRSTRLEN];
    const struct sockaddr_in *v4 = &state->nsaddr_list[place];
    const struct sockaddr_in6 *v6 = state->_u._ext.nsaddrs[place];
    if (v4->sin_family == AF_INET)
        printf("server %s\n", inet_ntop(AF_INET, &v4->sin_addr, text, sizeof text));
    else if (v6->sin6_scope_id == 0)
        printf("server %s\n", inet_ntop(AF_INET6, &v6->sin6_addr, text, sizeof text));
    else
        printf("server %s %%%u\n", inet_ntop(AF_INET6, &v6->sin6_addr, text, sizeof text), v6->sin6_scope_id);
}

static void print_flag(res_state state, const char *name, unsigned long flag)
{
    printf("%s %s\n", name, state->options & flag ? "yes" : "no");
}

int main(int count, char **words)
{
    struct __res_state state = {0};
    if (count != 3) {
        fputs("usage: res_ninit FILE HOSTNAME\n", stderr);
        return 1;
    }
    int status = enter(words[1], words[2]);
    if (status != 0)
        return status;
    if (res_ninit(&state) != 0) {
        fputs("res_ninit failed\n", stderr);
        return 1;
    }
    for (int place = 0; place < state.nscount; place++)
        print_server(&state, place);
    for (int place = 0; place < MAXDNSRCH && state.dnsrch[place] != NULL; place++)
        printf("search %s\n", state.dnsrch[place]);
    printf("ndots %u\ntimeout %d\nattempts %d\n", state.ndots, state.retrans, state.retry);
    print_flag(&state, "rotate", RES_ROTATE);
    print_flag(&state, "use-vc", RES_USEVC);
    print_flag(&state, "edns0", RES_USE_EDNS0);
    print_flag(&state, "no-aaaa", RES_NOAAAA);
    print_flag(&state, "trust-ad", RES_TRUSTAD);
    return 0;
}
