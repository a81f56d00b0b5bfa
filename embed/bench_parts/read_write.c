/* Reads and writes the messages of a file for so many seconds, and prints the nanoseconds of a message:
 * read_write FILE SECONDS yimarotu|ldns. */
#include <ldns/ldns.h>
#include <stdio.h>
#include <stdlib.h>
#include <string.h>
#include <time.h>

#include "yimarotu.h"

enum { MOST = 1000 };

static uint8_t file[1 << 20];
static struct { const uint8_t *at; size_t length; } messages[MOST];
static size_t count;

static int read_file(const char *path) {
    FILE *from = fopen(path, "rb");
    if (from == NULL) return 0;
    size_t length = fread(file, 1, sizeof file, from);
    fclose(from);
    for (size_t at = 0; at + 2 <= length && count < MOST; count++) {
        messages[count].at = file + at + 2, messages[count].length = (size_t)file[at] << 8 | file[at + 1];
        at += 2 + messages[count].length;
    }
    return count > 0;
}

static int by_yimarotu(const uint8_t *message, size_t length) {
    static uint8_t room[65535];
    return yimarotu_rewrite(message, length, sizeof room, room, sizeof room).status == YIMAROTU_OK;
}

static int by_ldns(const uint8_t *message, size_t length) {
    ldns_pkt *packet;
    uint8_t *wire;
    size_t written;
    if (ldns_wire2pkt(&packet, message, length) != LDNS_STATUS_OK) return 0;
    int was_written = ldns_pkt2wire(&wire, packet, &written) == LDNS_STATUS_OK;
    if (was_written) LDNS_FREE(wire);
    ldns_pkt_free(packet);
    return was_written;
}

static double nanoseconds(void) {
    struct timespec now;
    clock_gettime(CLOCK_MONOTONIC, &now);
    return now.tv_sec * 1e9 + now.tv_nsec;
}

int main(int argument_count, char **arguments) {
    if (argument_count != 4 || !read_file(arguments[1])) return 2;
    int (*call)(const uint8_t *, size_t) = strcmp(arguments[3], "ldns") == 0 ? by_ldns : by_yimarotu;
    double began = nanoseconds(), seconds = atof(arguments[2]), done = 0;
    while (nanoseconds() - began < seconds * 1e9) {
        for (size_t number = 0; number < count; number++)
            if (!call(messages[number].at, messages[number].length)) return 1;
        done += count;
    }
    printf("%.0f\n", (nanoseconds() - began) / done);
    return 0;
}
