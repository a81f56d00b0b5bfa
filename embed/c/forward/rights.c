/* Gives up what the program may do and does not need. */
#include "forward.h"

#include <errno.h>
#include <grp.h>
#include <linux/capability.h>
#include <pwd.h>
#include <stdio.h>
#include <string.h>
#include <sys/prctl.h>
#include <sys/syscall.h>
#include <unistd.h>

bool find_user(const char *name, uid_t *user, gid_t *group) {
    const struct passwd *found = getpwnam(name);
    if (found == NULL) return false;
    *user = found->pw_uid, *group = found->pw_gid;
    return true;
}

/* Whether the rights are gone for good. */
static bool are_dropped(uid_t user, gid_t group) {
    uid_t users[3];
    gid_t groups[3];
    if (getresuid(&users[0], &users[1], &users[2]) != 0) return false;
    if (getresgid(&groups[0], &groups[1], &groups[2]) != 0) return false;
    bool is_user = users[0] == user && users[1] == user && users[2] == user;
    bool is_group = groups[0] == group && groups[1] == group && groups[2] == group;
    return is_user && is_group && (user == 0 || setuid(0) != 0);
}

/* Also that for ports below 1024, which systemd gives: the sockets are bound by now. */
static bool drop_capabilities(void) {
    struct __user_cap_header_struct header = {.version = _LINUX_CAPABILITY_VERSION_3};
    struct __user_cap_data_struct none[2] = {0};
    return syscall(SYS_capset, &header, none) == 0;
}

bool drop_rights(uid_t user, gid_t group) {
    bool changes = user != getuid() || group != getgid();
    if (changes && (setgroups(1, &group) != 0 || setgid(group) != 0 || setuid(user) != 0 || !are_dropped(user, group)))
        return perror("yimarotu-forward: the rights were not dropped"), false;
    if (user != 0 && !drop_capabilities()) return perror("yimarotu-forward: capset"), false;
    return prctl(PR_SET_NO_NEW_PRIVS, 1, 0, 0, 0) == 0;
}

#ifdef HAS_SECCOMP
#include <seccomp.h>

const char *const confines = "calls of the system are confined by seccomp";

/* What a process needs once its sockets are there. All else fails with EPERM. */
static const int NEEDED[] = {
    SCMP_SYS(epoll_wait), SCMP_SYS(epoll_pwait), SCMP_SYS(epoll_ctl), SCMP_SYS(recvmmsg), SCMP_SYS(sendmmsg),
    SCMP_SYS(recvfrom), SCMP_SYS(sendto), SCMP_SYS(recv), SCMP_SYS(send), SCMP_SYS(accept4), SCMP_SYS(connect),
    SCMP_SYS(setsockopt), SCMP_SYS(close), SCMP_SYS(read), SCMP_SYS(write), SCMP_SYS(writev), SCMP_SYS(openat),
    SCMP_SYS(open), SCMP_SYS(fstat), SCMP_SYS(stat), SCMP_SYS(lstat), SCMP_SYS(newfstatat), SCMP_SYS(fstatat64),
    SCMP_SYS(statx), SCMP_SYS(lseek), SCMP_SYS(ioctl), SCMP_SYS(uname), SCMP_SYS(getpid), SCMP_SYS(gettid),
    SCMP_SYS(getppid), SCMP_SYS(unlink), SCMP_SYS(unlinkat), SCMP_SYS(mmap), SCMP_SYS(mmap2), SCMP_SYS(munmap),
    SCMP_SYS(mremap), SCMP_SYS(mprotect), SCMP_SYS(madvise), SCMP_SYS(brk), SCMP_SYS(futex), SCMP_SYS(getrandom),
    SCMP_SYS(clock_gettime), SCMP_SYS(clock_gettime64), SCMP_SYS(gettimeofday), SCMP_SYS(rt_sigreturn),
    SCMP_SYS(rt_sigprocmask), SCMP_SYS(rt_sigaction), SCMP_SYS(tgkill), SCMP_SYS(restart_syscall), SCMP_SYS(exit),
    SCMP_SYS(exit_group),
};

/* Sockets are opened to name servers alone; glibc opens one of AF_UNIX to ask for the number of an interface. */
static bool allow_sockets(scmp_filter_ctx filter) {
    static const int families[] = {AF_INET, AF_INET6, AF_UNIX};
    for (size_t at = 0; at < sizeof families / sizeof *families; at++) {
        struct scmp_arg_cmp is_family = {.arg = 0, .op = SCMP_CMP_EQ, .datum_a = (scmp_datum_t)families[at]};
        if (seccomp_rule_add_array(filter, SCMP_ACT_ALLOW, SCMP_SYS(socket), 1, &is_family) != 0) return false;
    }
    return true;
}

bool confine(void) {
    scmp_filter_ctx filter = seccomp_init(SCMP_ACT_ERRNO(EPERM));
    bool is_right = filter != NULL && allow_sockets(filter);
    for (size_t at = 0; is_right && at < sizeof NEEDED / sizeof *NEEDED; at++)
        is_right = seccomp_rule_add(filter, SCMP_ACT_ALLOW, NEEDED[at], 0) == 0;
    is_right = is_right && seccomp_load(filter) == 0;
    seccomp_release(filter);
    if (!is_right) fprintf(stderr, "yimarotu-forward: the calls of the system could not be confined\n");
    return is_right;
}
#else
const char *const confines = "built without seccomp";

bool confine(void) { return true; }
#endif
