/* A thousand look-ups at once, by sockets: crowd SERVER PORT. The addresses of w0.example.test to w999.example.test are
 * 192.0.2. and the number, less what of it is a multiple of 250. Prints how many were found. */
#define main lookup
#include "../examples/lookup.c"
#undef main

enum { CROWD = 1000 };

static size_t done_count;

/* Does all that is to be done, and counts the look-ups that are done. */
static bool act_all(void) {
    uint8_t status = YIMAROTU_OK;
    while (act(&status) && status == YIMAROTU_OK) done_count++;
    return status == YIMAROTU_OK;
}

static bool is_found(uint64_t number) {
    yimarotu_address room[2];
    const uint8_t wanted[] = {192, 0, 2, (uint8_t)(number % 250)};
    yimarotu_found found = yimarotu_addresses(&session, number, now(), room, sizeof room);
    return found.status == YIMAROTU_OK && found.count == 1 && memcmp(room[0].octets, wanted, sizeof wanted) == 0;
}

int main(int arguments, char **words) {
    uint8_t seed[32];
    char text[128], name[64];
    size_t found = 0;
    if (arguments != 3 || getrandom(seed, sizeof seed, 0) != sizeof seed) return 2;
    int length = snprintf(text, sizeof text, "server %s %s\noption ip_strategy Ipv4Only\n", words[1], words[2]);
    const uint8_t *none = seed, *settings = (const uint8_t *)text;
    if (yimarotu_open(&session, none, 0, none, 0, settings, (size_t)length, none, 0, seed, sizeof seed, now()).status != 0) return 3;
    for (uint64_t number = 0; number < CROWD; number++) {
        length = snprintf(name, sizeof name, "w%llu.example.test", (unsigned long long)number);
        if (yimarotu_start_ip(&session, number, (const uint8_t *)name, (size_t)length, now()).status != YIMAROTU_OK) return 3;
        if (!act_all()) return 3;
    }
    while (done_count < CROWD) {
        wait_for_channels();
        if (!act_all()) return 3;
    }
    for (uint64_t number = 0; number < CROWD; number++) found += is_found(number);
    yimarotu_close(&session);
    while (count > 0) close(polled[--count].fd);
    printf("%zu found\n", found);
    return found == CROWD ? 0 : 1;
}
