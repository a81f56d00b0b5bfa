/* A machine that is short of memory. Loaded into a program before the C library (LD_PRELOAD) it refuses each request while
 * the first of three numbers of eight octets, in the file that the variable SHORT names, is not 0, and counts in the
 * second how many it refused. As many messages as the third says have no room in the kernel. */
#define _GNU_SOURCE
#include <errno.h>
#include <fcntl.h>
#include <stdbool.h>
#include <stdint.h>
#include <stdlib.h>
#include <sys/mman.h>
#include <sys/socket.h>
#include <unistd.h>

void *__libc_malloc(size_t length);
void *__libc_calloc(size_t count, size_t length);
void *__libc_realloc(void *at, size_t length);
void *__libc_memalign(size_t alignment, size_t length);

static volatile uint64_t *numbers;

__attribute__((constructor)) static void begin(void) {
    const char *path = getenv("SHORT");
    int file = path == NULL ? -1 : open(path, O_RDWR | O_CLOEXEC);
    void *at = file < 0 ? MAP_FAILED : mmap(NULL, 3 * sizeof *numbers, PROT_READ | PROT_WRITE, MAP_SHARED, file, 0);
    if (file >= 0) close(file);
    if (at == MAP_FAILED) abort();
    numbers = at;
}

static bool is_refused(void) {
    if (numbers == NULL || numbers[0] == 0) return false;
    numbers[1]++;
    errno = ENOMEM;
    return true;
}

void *malloc(size_t length) { return is_refused() ? NULL : __libc_malloc(length); }

void *calloc(size_t count, size_t length) { return is_refused() ? NULL : __libc_calloc(count, length); }

void *realloc(void *at, size_t length) { return is_refused() ? NULL : __libc_realloc(at, length); }

void *aligned_alloc(size_t alignment, size_t length) { return is_refused() ? NULL : __libc_memalign(alignment, length); }

ssize_t send(int socket, const void *octets, size_t length, int flags) {
    if (numbers == NULL || numbers[2] == 0) return sendto(socket, octets, length, flags, NULL, 0);
    numbers[2]--;
    errno = ENOBUFS;
    return -1;
}
