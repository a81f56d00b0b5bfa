/* yimarotu-forward: a caching forwarder of DNS for the hosts of a network: yimarotu-forward(8). */
#include "forward.h"

#include <errno.h>
#include <getopt.h>
#include <poll.h>
#include <signal.h>
#include <stddef.h>
#include <stdio.h>
#include <stdlib.h>
#include <string.h>
#include <sys/eventfd.h>
#include <sys/prctl.h>
#include <sys/resource.h>
#include <sys/signalfd.h>
#include <sys/socket.h>
#include <sys/stat.h>
#include <sys/un.h>
#include <sys/wait.h>
#include <time.h>
#include <unistd.h>

enum { WITHOUT_MEMORY = 50, STILL = 10 * SECOND }; /* milliseconds */
enum { ENDED = 0, FAULTS = 1, USAGE = 2, WANTING = 3, NOT_CONFINED = 4, UNFIT = 5 }; /* how the program ends */

yimarotu_forwarder forwarder = YIMAROTU_FORWARDER;
uint64_t moment;
uint8_t room[MESSAGE];
struct counts counts;

static const char *settings_path;
static struct settings settings;
static struct files files;
static struct listeners all[PROCESSES];
static const struct listeners *own; /* of this process */
static int epoll, signals = -1;
static int read_by_one = -1; /* of many processes: an eventfd, which tells their parent that one read the files again */
static bool is_paused, is_ended, lacks_memory;

static uint64_t milliseconds_by(clockid_t clock) {
    struct timespec time;
    clock_gettime(clock, &time);
    return (uint64_t)time.tv_sec * 1000 + (uint64_t)time.tv_nsec / 1000000;
}

/* By a clock that counts while the machine sleeps: else answers would be used for longer than they may be. */
static uint64_t now(void) { return milliseconds_by(CLOCK_BOOTTIME); }

/* ---- what is watched */

bool watch(int change, int fd, uint32_t events, uint64_t what) {
    struct epoll_event event = {events, {.u64 = what}};
    return epoll_ctl(epoll, change, fd, &event) == 0;
}

/* Where there is no file, or no place, for another connection those that wait are not told of: they would be again and
 * again. */
void pause_accepting(const struct listener *listener) {
    is_paused = true;
    watch(EPOLL_CTL_MOD, listener->fd, 0, (uint64_t)(listener - own->at));
}

void accept_again(void) {
    for (size_t at = 0; is_paused && at < own->count; at++)
        if (own->at[at].is_stream) watch(EPOLL_CTL_MOD, own->at[at].fd, EPOLLIN, at);
    is_paused = false;
}

/* ---- what happens, and what is to be done */

/* By a command: the parent of many processes hears of it by this alone. */
enum reloaded reload(void) {
    enum reloaded ended = reload_forwarder(settings_path);
    if (ended != ALL_STAYS && read_by_one >= 0) eventfd_write(read_by_one, 1);
    return ended;
}

static void on_signal(void) {
    struct signalfd_siginfo signal;
    char text[1024];
    if (read(signals, &signal, sizeof signal) != sizeof signal) return;
    if (signal.ssi_signo == SIGHUP) reload_forwarder(settings_path);
    if (signal.ssi_signo == SIGUSR1) {
        write_counts(text, sizeof text, ' ');
        fprintf(stderr, "yimarotu-forward: %s\n", text);
    }
    is_ended = signal.ssi_signo == SIGTERM || signal.ssi_signo == SIGINT;
}

static void on_event(const struct epoll_event *event) {
    uint64_t what = event->data.u64;
    if (what >> FROM_STREAM & 1) on_connection(what, event->events);
    else if (what >> FROM_CHANNEL & 1) on_channel(what ^ 1ull << FROM_CHANNEL, event->events);
    else if (what >> FROM_SIGNAL & 1) on_signal();
    else if (own->at[what].is_stream) on_connecting(&own->at[what]);
    else on_datagrams(own->at[what].fd);
}

static void do_next(const yimarotu_action *next) {
    if (next->kind == YIMAROTU_OPEN) open_channel(next);
    if (next->kind == YIMAROTU_SEND) send_on_channel(next->channel, room, next->length);
    if (next->kind == YIMAROTU_CLOSE) close_channel(next->channel);
    if (next->kind != YIMAROTU_REPLY) return;
    if (next->number >> FROM_STREAM & 1) on_stream_reply(next->number, room, next->length);
    else on_datagram_reply(next->number, room, next->length);
}

/* Does what is to be done. Where memory runs out that is said again a little later. */
static void act(void) {
    yimarotu_action next;
    do {
        next = yimarotu_forwarder_next(&forwarder, room, sizeof room);
        lacks_memory = next.status != YIMAROTU_OK;
        if (!lacks_memory) do_next(&next);
    } while (!lacks_memory && next.kind != YIMAROTU_NOTHING);
}

/* While it waits for servers it looks at the clock each second, too: else it would not see that it stood still. */
static int wait_time(void) {
    yimarotu_waits waits = yimarotu_forwarder_wait(&forwarder, now());
    bool tries_again = lacks_memory || has_untold_failures();
    bool is_watchful = waits.has_deadline || counts.connections > 0 || is_paused;
    uint64_t most = tries_again ? WITHOUT_MEMORY : is_watchful ? SECOND : 60 * SECOND;
    return (int)(waits.has_deadline && waits.milliseconds < most ? waits.milliseconds + 1 : most);
}

/* Of many streams that always have something epoll tells in turn: datagrams would wait for all of them. */
static void hear_datagrams(void) {
    for (size_t at = 0; at < own->count; at++)
        if (!own->at[at].is_stream) on_datagrams(own->at[at].fd), act();
}

/* Whether the machine slept since it was asked last, or the program could not run for long, by when it was to go on. */
static bool stood_still(uint64_t due) {
    static int64_t asleep;
    int64_t before = asleep;
    asleep = (int64_t)(moment - milliseconds_by(CLOCK_MONOTONIC));
    return asleep >= before + SECOND || moment >= due + STILL;
}

/* The TTLs of replies that came meanwhile would count from now: those that are still waited for are let go, too. What
 * time has to be done is done behind that: a stream that is opened for it stays. */
static void wake(void) {
    yimarotu_forwarder_tick(&forwarder, moment);
    let_go_of_what_came();
    act();
}

/* Looks at the clock again, which was to be done within so many milliseconds. It is done before each event: the machine
 * may sleep between two that were told at once. */
static void look_at_clock(int within) {
    uint64_t due = moment + (uint64_t)within;
    moment = now();
    if (stood_still(due)) wake();
}

static void serve(void) {
    struct epoll_event events[BATCH];
    uint64_t looked_at = 0;
    while (!is_ended) {
        int wait = wait_time();
        int count = epoll_wait(epoll, events, BATCH, wait);
        look_at_clock(wait);
        for (int at = 0; at < count; at++) look_at_clock(0), on_event(&events[at]), act();
        if (count == BATCH) hear_datagrams();
        tell_failures_again();
        yimarotu_forwarder_tick(&forwarder, moment);
        act();
        send_datagrams();
        write_log();
        if (moment - looked_at < SECOND) continue;
        looked_at = moment;
        expire_connections();
        accept_again();
    }
}

/* ---- a process */

static void block_signals(sigset_t *set) {
    static const int numbers[] = {SIGHUP, SIGUSR1, SIGTERM, SIGINT, SIGCHLD};
    sigemptyset(set);
    for (size_t at = 0; at < sizeof numbers / sizeof *numbers; at++) sigaddset(set, numbers[at]);
    sigprocmask(SIG_BLOCK, set, NULL);
}

static bool watch_all(void) {
    sigset_t set;
    block_signals(&set);
    epoll = epoll_create1(EPOLL_CLOEXEC);
    signals = signalfd(signals, &set, SFD_NONBLOCK | SFD_CLOEXEC);
    bool is_right = epoll >= 0 && signals >= 0 && watch(EPOLL_CTL_ADD, signals, EPOLLIN, 1ull << FROM_SIGNAL);
    for (size_t at = 0; is_right && at < own->count; at++) is_right = watch(EPOLL_CTL_ADD, own->at[at].fd, EPOLLIN, at);
    return is_right;
}

static void tell_that_it_listens(void) { fputs("yimarotu-forward: it listens\n", stderr); }

/* Tells whoever started it, as systemd wants (sd_notify(3)). */
static void tell_that_it_is_ready(void) {
    static const char text[] = "READY=1";
    struct sockaddr_un at = {.sun_family = AF_UNIX};
    const char *path = getenv("NOTIFY_SOCKET");
    if (path == NULL || path[0] == 0 || strlen(path) >= sizeof at.sun_path) return;
    strcpy(at.sun_path, path);
    if (path[0] == '@') at.sun_path[0] = 0;
    socklen_t length = (socklen_t)(offsetof(struct sockaddr_un, sun_path) + strlen(path));
    int fd = socket(AF_UNIX, SOCK_DGRAM | SOCK_CLOEXEC, 0);
    if (fd >= 0) sendto(fd, text, sizeof text - 1, MSG_NOSIGNAL, (struct sockaddr *)&at, length);
    if (fd >= 0) close(fd);
}

static int status_of(enum opened opened) {
    return opened == OPENED ? ENDED : opened == HAS_FAULTS ? FAULTS : WANTING;
}

/* Serves with the sockets of a process. */
static int run(const struct listeners *listeners) {
    own = listeners;
    moment = now();
    int status = status_of(open_forwarder(settings_path, &settings, &files));
    free_files(&files);
    if (status != ENDED) return status;
    if (!watch_all()) return perror("yimarotu-forward: epoll, or signalfd"), WANTING;
    if (settings.processes == 1) tell_that_it_is_ready();
    if (!confine()) return NOT_CONFINED;
    if (settings.processes == 1) tell_that_it_listens();
    serve();
    close_connections();
    yimarotu_forwarder_close(&forwarder);
    close_channels();
    return ENDED;
}

/* ---- many processes */

static pid_t children[PROCESSES];
static int hopeless; /* how a process ended that would end so each time */
static time_t begun[PROCESSES];

/* The files may have changed since they were read. Where they have a fault, what was read last counts. */
static void read_again(void) {
    static struct settings changed;
    struct files read;
    if (check(settings_path) != OPENED) return;
    bool is_right = read_settings(settings_path, &changed, &read) == 0;
    free_files(is_right ? &files : &read);
    if (!is_right) return;
    files = read;
    settings.log = changed.log;
}

/* One that died within its first second begins a second later: one that cannot begin does not take a processor. */
static void start(size_t process) {
    bool is_again = begun[process] != 0, is_late = is_again && time(NULL) - begun[process] <= 1;
    pid_t parent = getpid();
    begun[process] = time(NULL);
    children[process] = fork();
    if (children[process] < 0) perror("yimarotu-forward: fork");
    if (children[process] != 0) return;
    prctl(PR_SET_PDEATHSIG, SIGTERM);
    if (getppid() != parent) exit(ENDED);
    if (is_late) sleep(1);
    if (is_again) read_again();
    if (!is_none(&settings.log) && !open_log(settings.log.text)) perror(settings.log.text);
    exit(run(&all[process]));
}

/* Notes which processes died. */
static void bury(void) {
    pid_t died;
    int how;
    while ((died = waitpid(-1, &how, WNOHANG)) > 0)
        for (size_t at = 0; at < settings.processes; at++) {
            if (children[at] != died) continue;
            children[at] = 0;
            if (WIFEXITED(how) && WEXITSTATUS(how) == NOT_CONFINED) hopeless = NOT_CONFINED;
            fprintf(stderr, "yimarotu-forward: process %d died (%s %d), and is started again\n", (int)died,
                    WIFSIGNALED(how) ? "signal" : "status", WIFSIGNALED(how) ? WTERMSIG(how) : WEXITSTATUS(how));
        }
}

static void signal_all(int number) {
    for (size_t at = 0; at < settings.processes; at++)
        if (children[at] > 0) kill(children[at], number);
}

/* Waits for a signal, for a second at the most; gives its number, or 0. What a process read again is read at once: it may
 * have a fault by the time that one is started again. */
static int next_signal(void) {
    struct pollfd both[] = {{.fd = signals, .events = POLLIN}, {.fd = read_by_one, .events = POLLIN}};
    struct signalfd_siginfo signal;
    eventfd_t count;
    poll(both, 2, SECOND);
    if (eventfd_read(read_by_one, &count) == 0) read_again();
    return read(signals, &signal, sizeof signal) == sizeof signal ? (int)signal.ssi_signo : 0;
}

/* Passes signals on, and starts a process again that died, or could not be started. */
static int supervise(void) {
    sigset_t set;
    int number = 0;
    block_signals(&set);
    signals = signalfd(-1, &set, SFD_NONBLOCK | SFD_CLOEXEC);
    read_by_one = eventfd(0, EFD_NONBLOCK | EFD_CLOEXEC);
    if (signals < 0 || read_by_one < 0) return perror("yimarotu-forward: signalfd, or eventfd"), WANTING;
    close_log(); /* each process opens it */
    tell_that_it_is_ready();
    tell_that_it_listens();
    while (hopeless == ENDED && number != SIGTERM && number != SIGINT) {
        for (size_t at = 0; at < settings.processes; at++)
            if (children[at] <= 0) start(at);
        number = next_signal();
        if (number == SIGCHLD) bury();
        else if (number > 0) signal_all(number == SIGINT ? SIGTERM : number);
        if (number == SIGHUP) read_again();
    }
    if (hopeless != ENDED) signal_all(SIGTERM);
    while (wait(NULL) > 0 || errno == EINTR);
    return hopeless;
}

/* ---- the beginning */

/* The control sockets that were made here. */
static bool has_control[PROCESSES];
static struct stat controls[PROCESSES];

/* Where no line names one it goes on without. */
static bool listen_for_controls(uid_t user, gid_t group) {
    for (size_t at = 0; at < settings.processes && !is_none(&settings.control); at++) {
        char path[PATH_MAX + 32];
        control_path(&settings, at + 1, path);
        has_control[at] = listen_for_control(path, &all[at], user, group);
        if (!has_control[at] && settings.control.line > 0) return false;
        if (has_control[at]) lstat(path, &controls[at]);
    }
    return true;
}

static bool is_same(const char *path, const struct stat *made) {
    struct stat found;
    return lstat(path, &found) == 0 && found.st_ino == made->st_ino && found.st_dev == made->st_dev;
}

/* Those of others stay: of another process of this program, or of systemd. */
static void remove_controls(void) {
    for (size_t at = 0; at < settings.processes; at++) {
        char path[PATH_MAX + 32];
        control_path(&settings, at + 1, path);
        if (has_control[at] && is_same(path, &controls[at])) unlink(path);
    }
}

static bool has_activated(bool is_control) {
    bool is_there = false;
    for (size_t at = 0; at < all[0].count; at++) is_there |= all[0].at[at].is_control == is_control;
    return is_there;
}

/* Sockets for clients that systemd opened are those of each process. */
static bool listen_for_clients(void) {
    bool is_activated = has_activated(false);
    for (size_t at = 0; at < settings.processes; at++) {
        if (is_activated && at > 0) all[at] = all[0];
        if (!is_activated && !listen_at(&settings, &all[at])) return false;
    }
    return true;
}

/* Gives how it ends where it cannot begin, else ENDED. An address that is not there yet may come; a user does not. */
static int prepare(void) {
    uid_t user = getuid();
    gid_t group = getgid();
    struct rlimit files;
    if (settings.user.line > 0 && !find_user(settings.user.text, &user, &group))
        return fprintf(stderr, "yimarotu-forward: there is no user %s\n", settings.user.text), UNFIT;
    if (user == 0) fputs("yimarotu-forward: it keeps all rights of root: a line `user` is wanted\n", stderr);
    if (getrlimit(RLIMIT_NOFILE, &files) == 0) files.rlim_cur = files.rlim_max, setrlimit(RLIMIT_NOFILE, &files);
    if (!take_activated(&all[0])) return WANTING;
    if (settings.processes > 1 && has_activated(true)) /* one of them would have each command */
        return fputs("yimarotu-forward: a control socket of systemd is for one process\n", stderr), UNFIT;
    if (!listen_for_clients()) return WANTING;
    if (!listen_for_controls(user, group)) return errno == EPERM ? UNFIT : WANTING; /* chown(2) wants rights */
    if (!drop_rights(user, group)) return UNFIT;
    if (is_none(&settings.log) || open_log(settings.log.text)) return ENDED;
    return perror(settings.log.text), UNFIT;
}

/* Of many processes each would find a fault of the settings, again and again: they are checked before. */
static int begin(void) {
    sigset_t set;
    moment = now();
    block_signals(&set);
    signal(SIGPIPE, SIG_IGN);
    signal(SIGXFSZ, SIG_IGN); /* a log as long as files may be: its lines are lost, and counted */
    signal(SIGCHLD, SIG_DFL); /* where whoever began it ignored it, no death would be told */
    if (read_settings(settings_path, &settings, &files) > 0) return FAULTS;
    int ended = settings.processes > 1 ? status_of(check(settings_path)) : ENDED;
    if (ended != ENDED) return ended;
    ended = prepare();
    if (ended == ENDED) ended = settings.processes > 1 ? supervise() : run(&all[0]);
    remove_controls();
    return ended;
}

static void tell_version(void) { printf("yimarotu-forward %s, %s\n", VERSION, confines); }

static const char usage[] = "usage: yimarotu-forward --config FILE [--check] | --version\n";

int main(int count, char **words) {
    static const struct option options[] = {
        {"config", required_argument, NULL, 'c'}, {"check", no_argument, NULL, 'k'},
        {"version", no_argument, NULL, 'v'}, {"help", no_argument, NULL, 'h'}, {0},
    };
    bool is_check = false;
    int option;
    while ((option = getopt_long(count, words, "", options, NULL)) != -1) {
        if (option == 'v') return tell_version(), ENDED;
        if (option == 'h') return fputs(usage, stdout), ENDED;
        if (option == 'k') is_check = true;
        else if (option == 'c') settings_path = optarg;
        else return USAGE;
    }
    if (settings_path == NULL || optind < count) return fputs(usage, stderr), USAGE;
    if (is_check) return status_of(check(settings_path));
    return begin();
}
