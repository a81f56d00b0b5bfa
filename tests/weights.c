/* Stands before the C library's requests for memory, and counts the octets that a program holds: of each piece what it
   has room for, and 8 octets beside it. Behind each write to standard output it tells, on the file descriptor that
   WEIGHTS_TOLD names, how many octets were written and how many are held. */
#include <malloc.h>
#include <stdio.h>
#include <stdlib.h>
#include <unistd.h>

void *__libc_malloc(size_t);
void *__libc_calloc(size_t, size_t);
void *__libc_realloc(void *, size_t);
void *__libc_memalign(size_t, size_t);
void __libc_free(void *);
ssize_t __write(int, const void *, size_t);

static long held;
static int told = -1;

__attribute__((constructor)) static void begin(void) {
    const char *text = getenv("WEIGHTS_TOLD");
    if (text) told = atoi(text);
}

static long size_of(void *piece) { return piece ? (long)malloc_usable_size(piece) + 8 : 0; }

static void *counted(void *piece) {
    held += size_of(piece);
    return piece;
}

void *malloc(size_t size) { return counted(__libc_malloc(size)); }

void *calloc(size_t count, size_t size) { return counted(__libc_calloc(count, size)); }

void *realloc(void *old, size_t size) {
    long before = size_of(old);
    void *piece = __libc_realloc(old, size);
    if (piece) held += size_of(piece) - before;
    return piece;
}

void free(void *piece) {
    held -= size_of(piece);
    __libc_free(piece);
}

void *aligned_alloc(size_t align, size_t size) { return counted(__libc_memalign(align, size)); }

void *memalign(size_t align, size_t size) { return counted(__libc_memalign(align, size)); }

int posix_memalign(void **to, size_t align, size_t size) {
    *to = counted(__libc_memalign(align, size));
    return *to ? 0 : 12;
}

ssize_t write(int file, const void *bytes, size_t size) {
    ssize_t written = __write(file, bytes, size);
    if (file == 1 && told >= 0 && written > 0) {
        char line[64];
        int length = snprintf(line, sizeof line, "%ld %ld\n", (long)written, held);
        __write(told, line, length);
    }
    return written;
}
