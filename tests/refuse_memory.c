/* Stands before the C library's requests for memory, and refuses some of them.

   REFUSE_AT=N refuses the Nth request, and with REFUSE_MORE=1 all after it too. With REFUSE_MARKED=1 only those requests
   count that come behind a write of `# ` to standard output, up to a write of `answer: `. Each refusal is written as a
   byte to the file descriptor that REFUSE_TOLD names.

   With WRONG_PROGRAM defined this is a program instead, which does wrong where memory is refused. */
#include <stdlib.h>
#include <string.h>
#include <unistd.h>

#ifndef WRONG_PROGRAM
#include <errno.h>

void *__libc_malloc(size_t);
void *__libc_calloc(size_t, size_t);
void *__libc_realloc(void *, size_t);
void *__libc_memalign(size_t, size_t);
ssize_t __write(int, const void *, size_t);

static long at, requests;
static int refuses_more, is_counting, told;

static long number_of(const char *name) {
    const char *text = getenv(name);
    return text ? atol(text) : 0;
}

__attribute__((constructor)) static void begin(void) {
    at = number_of("REFUSE_AT");
    refuses_more = number_of("REFUSE_MORE") != 0;
    is_counting = number_of("REFUSE_MARKED") == 0;
    told = number_of("REFUSE_TOLD");
}

static int is_refused(void) {
    if (at == 0 || !is_counting) return 0;
    requests++;
    if (requests < at || (requests > at && !refuses_more)) return 0;
    __write(told, "r", 1);
    errno = ENOMEM;
    return 1;
}

static int is(const char *mark, const void *bytes, size_t size) {
    return size == strlen(mark) && memcmp(mark, bytes, size) == 0;
}

ssize_t write(int file, const void *bytes, size_t size) {
    if (file == 1 && is("# ", bytes, size)) is_counting = 1;
    if (file == 1 && is("answer: ", bytes, size)) is_counting = 0;
    return __write(file, bytes, size);
}

void *malloc(size_t size) { return is_refused() ? 0 : __libc_malloc(size); }

void *calloc(size_t count, size_t size) { return is_refused() ? 0 : __libc_calloc(count, size); }

void *realloc(void *old, size_t size) { return is_refused() ? 0 : __libc_realloc(old, size); }

void *aligned_alloc(size_t align, size_t size) { return is_refused() ? 0 : __libc_memalign(align, size); }

void *memalign(size_t align, size_t size) { return is_refused() ? 0 : __libc_memalign(align, size); }

int posix_memalign(void **to, size_t align, size_t size) {
    if (is_refused()) return ENOMEM;
    *to = __libc_memalign(align, size);
    return *to ? 0 : ENOMEM;
}

#else

static void say(int file, const char *text) { (void)!write(file, text, strlen(text)); }

static int refused(const char *kind) {
    if (strcmp(kind, "never") == 0) for (;;) pause();
    if (strcmp(kind, "nothing") == 0) return 0;
    if (strcmp(kind, "signal") == 0) abort();
    if (strcmp(kind, "silent") != 0) say(2, "out of memory\n");
    return 3;
}

int main(int count, char **words) {
    const char *kind = count > 1 ? words[1] : "right";
    char *first = malloc(8), *second;
    if (first == 0) return refused(kind);
    strcpy(first, "one\n");
    if (strcmp(kind, "beginning") == 0) say(1, first);
    second = malloc(8);
    if (second == 0) return refused(kind);
    strcpy(second, "two\n");
    if (strcmp(kind, "beginning") != 0) say(1, first);
    say(1, second);
    return 0;
}
#endif
