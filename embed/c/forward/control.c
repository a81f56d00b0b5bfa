/* What is answered to a line of yimarotu-control. */
#include "forward.h"

#include <stdio.h>
#include <string.h>

size_t write_counts(char *text, size_t room_length, char between) {
    yimarotu_forwarder_counts told = yimarotu_forwarder_statistics(&forwarder);
    const struct { const char *word; uint64_t count; } all[] = {
        {"queries", told.queries}, {"from_cache", told.from_cache}, {"local", told.local}, {"waited", told.waited},
        {"failures_told", told.failures_told}, {"refused", told.refused}, {"dropped", told.dropped},
        {"prefetched", told.prefetched}, {"sent", told.sent}, {"waiting", told.waiting}, {"entries", told.entries},
        {"octets", told.octets}, {"connections", counts.connections}, {"connections_closed_full", counts.closed_full},
        {"replies_lost", counts.lost_replies}, {"log_lines_lost", counts.lost_lines},
    };
    size_t length = 0;
    for (size_t at = 0; at < sizeof all / sizeof *all; at++)
        length += (size_t)snprintf(text + length, room_length - length, "%s=%llu%c", all[at].word,
                                   (unsigned long long)all[at].count, between);
    return length;
}

static const char *flush(char *words) {
    char *rest, *name = strtok_r(words, " ", &rest), *below = strtok_r(NULL, " ", &rest);
    if (name == NULL || (below != NULL && strcmp(below, "below") != 0) || strtok_r(NULL, " ", &rest) != NULL)
        return "error: it is `flush NAME` or `flush NAME below`\n";
    uint8_t status = yimarotu_forwarder_flush(&forwarder, (uint8_t *)name, strlen(name), below != NULL);
    return status == YIMAROTU_OK ? "ok\n" : "error: that is no name\n";
}

static const char *read_files(void) {
    static const char *const told[] = {
        [ALL_STAYS] = "error: all stays: its standard error says why\n",
        [LOG_STAYS] = "error: all but the log was read again: its standard error says why\n",
        [READ_AGAIN] = "ok\n",
    };
    return told[reload()];
}

size_t obey(const char *line, char *answer, size_t room_length) {
    char words[1100];
    size_t length = 0;
    const char *ended = "error: it is `flush`, `clear`, `dump`, `statistics` or `reload`\n";
    snprintf(words, sizeof words, "%s", line);
    if (strncmp(line, "flush ", 6) == 0) ended = flush(words + 6);
    if (strcmp(line, "clear") == 0 && yimarotu_forwarder_clear(&forwarder) == YIMAROTU_OK) ended = "ok\n";
    bool is_dump = strcmp(line, "dump") == 0 || strncmp(line, "dump ", 5) == 0;
    if (is_dump) length = write_kept(line + (line[4] == ' ' ? 5 : 4), answer, room_length), ended = "ok\n";
    if (strcmp(line, "statistics") == 0) length = write_counts(answer, room_length, '\n'), ended = "ok\n";
    if (strcmp(line, "reload") == 0) ended = read_files();
    return length + (size_t)snprintf(answer + length, room_length - length, "%s", ended);
}
