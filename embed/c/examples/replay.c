/* Replays a script, over a file of hosts where one is given: replay SCRIPT [HOSTS]. Its text goes to standard
 * output. */
#include <stdio.h>
#include <stdlib.h>

#include "yimarotu.h"

struct bytes {
    uint8_t *at;
    size_t length;
};

/* Room for so many bytes, with what was there before. */
static int grow(struct bytes *bytes, size_t room) {
    uint8_t *larger = realloc(bytes->at, room);
    if (larger == NULL) return 0;
    bytes->at = larger;
    return 1;
}

static int read_file(const char *path, struct bytes *bytes) {
    FILE *file = fopen(path, "rb");
    size_t got = 1;
    if (file == NULL) return 0;
    while (got != 0 && grow(bytes, bytes->length + 65536)) {
        got = fread(bytes->at + bytes->length, 1, 65536, file);
        bytes->length += got;
    }
    int whole = got == 0 && !ferror(file);
    fclose(file);
    return whole;
}

static yimarotu_replayed replay(struct bytes script, struct bytes hosts, struct bytes text) {
    return yimarotu_replay(script.at, script.length, hosts.at, hosts.length, text.at, text.length);
}

/* The text of the replay, in a room that is made as large as it has to be. */
static yimarotu_replayed replay_whole(struct bytes script, struct bytes hosts, struct bytes *text) {
    yimarotu_replayed ended = replay(script, hosts, *text);
    if (ended.status != YIMAROTU_ROOM) return ended;
    if (!grow(text, ended.length)) return (yimarotu_replayed){.status = YIMAROTU_NO_MEMORY};
    text->length = ended.length;
    return replay(script, hosts, *text);
}

int main(int count, char **arguments) {
    struct bytes script = {0}, hosts = {0}, text = {0};
    if (count < 2 || count > 3) return fputs("usage: replay SCRIPT [HOSTS]\n", stderr), 2;
    if (!grow(&script, 1) || !grow(&hosts, 1) || !grow(&text, 1)) return fputs("out of memory\n", stderr), 3;
    if (!read_file(arguments[1], &script) || (count == 3 && !read_file(arguments[2], &hosts)))
        return fputs("cannot read a file\n", stderr), 4;
    yimarotu_replayed ended = replay_whole(script, hosts, &text);
    if (ended.status == YIMAROTU_OK) fwrite(text.at, 1, ended.length, stdout);
    else fprintf(stderr, "status %d, line %zu\n", ended.status, ended.line);
    free(script.at), free(hosts.at), free(text.at);
    return ended.status;
}
