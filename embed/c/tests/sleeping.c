/* A machine that slept, or is slow. Loaded into a program before the C library (LD_PRELOAD) it puts its CLOCK_BOOTTIME
 * forward, while other clocks stay, has accept4(2) give each connection late, and sleeps when it gave one. Where a
 * program stood still CLOCK_MONOTONIC goes forward, too. For how many milliseconds stands in the file that the variable
 * SLEPT names, in eight octets each. */
#define _GNU_SOURCE
#include <fcntl.h>
#include <stdint.h>
#include <stdlib.h>
#include <sys/mman.h>
#include <sys/socket.h>
#include <sys/syscall.h>
#include <time.h>
#include <unistd.h>

struct told {
    uint64_t slept, late, sleeps, stood;
};

static const volatile struct told *told;
static uint64_t slept_here; /* when it gave connections */

__attribute__((constructor)) static void begin(void) {
    const char *path = getenv("SLEPT");
    int file = path == NULL ? -1 : open(path, O_RDONLY | O_CLOEXEC);
    void *at = file < 0 ? MAP_FAILED : mmap(NULL, sizeof *told, PROT_READ, MAP_SHARED, file, 0);
    if (file >= 0) close(file);
    if (at == MAP_FAILED) abort();
    told = at;
}

int clock_gettime(clockid_t clock, struct timespec *time) {
    int ended = (int)syscall(SYS_clock_gettime, clock, time);
    if (ended != 0 || (clock != CLOCK_BOOTTIME && clock != CLOCK_MONOTONIC) || told == NULL) return ended;
    uint64_t milliseconds = told->stood + (clock == CLOCK_BOOTTIME ? told->slept + slept_here : 0);
    time->tv_sec += (time_t)(milliseconds / 1000), time->tv_nsec += (long)(milliseconds % 1000) * 1000000;
    if (time->tv_nsec >= 1000000000) time->tv_sec++, time->tv_nsec -= 1000000000;
    return 0;
}

static uint64_t milliseconds_now(void) {
    struct timespec time;
    clock_gettime(CLOCK_MONOTONIC, &time);
    return (uint64_t)time.tv_sec * 1000 + (uint64_t)time.tv_nsec / 1000000;
}

/* What comes meanwhile comes between two looks of the program. It does not sleep, since it may have no right to. */
int accept4(int fd, struct sockaddr *at, socklen_t *length, int flags) {
    int got = (int)syscall(SYS_accept4, fd, at, length, flags);
    uint64_t until = milliseconds_now() + told->late;
    while (got >= 0 && milliseconds_now() < until);
    if (got >= 0) slept_here += told->sleeps;
    return got;
}
