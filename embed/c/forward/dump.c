/* What is kept, as lines for yimarotu-control: NAME TYPE CODE SECONDS OCTETS, and `do` or `cd` where they were asked. */
#include "forward.h"

#include <ctype.h>
#include <stdio.h>
#include <string.h>

enum { KEY = 300, LONGEST_ENTRY = 1200 }; /* a key has a flag, a name of 255 octets at the most, type and class */

static const struct { unsigned number; const char *word; } types[] = {
    {1, "A"}, {2, "NS"}, {5, "CNAME"}, {6, "SOA"}, {12, "PTR"}, {15, "MX"}, {16, "TXT"}, {28, "AAAA"}, {33, "SRV"},
    {43, "DS"}, {46, "RRSIG"}, {48, "DNSKEY"}, {52, "TLSA"}, {64, "SVCB"}, {65, "HTTPS"},
};

/* The octets of two digits each; gives how many they are, 0 where they are no such digits. */
static size_t octets_of_digits(const char *digits, uint8_t *octets) {
    size_t length = strlen(digits) / 2;
    if (strlen(digits) != 2 * length || length > KEY) return 0;
    for (size_t at = 0; at < length; at++) {
        unsigned octet;
        if (!isxdigit((unsigned char)digits[2 * at]) || sscanf(digits + 2 * at, "%2x", &octet) != 1) return 0;
        octets[at] = (uint8_t)octet;
    }
    return length;
}

/* Whether it stands in a name as it is. An octet 0 does not, since it ends a text. */
static bool is_plain(uint8_t octet) { return isalnum(octet) || (octet != 0 && strchr("-_/*", octet) != NULL); }

/* A name as text (RFC 1035, section 5.1); gives how many octets it takes in the key. */
static size_t write_name(const uint8_t *name, char *text) {
    size_t at = 0;
    if (name[0] == 0) text += sprintf(text, ".");
    while (name[at] != 0) {
        size_t end = at + 1 + name[at];
        for (at++; at < end; at++)
            text += sprintf(text, is_plain(name[at]) ? "%c" : "\\%03u", name[at]);
        text += sprintf(text, ".");
    }
    return at + 1;
}

static void write_type(unsigned number, char *text) {
    sprintf(text, "TYPE%u", number);
    for (size_t at = 0; at < sizeof types / sizeof *types; at++)
        if (types[at].number == number) strcpy(text, types[at].word);
}

static size_t write_entry(const uint8_t *key, const yimarotu_kept *kept, char *text) {
    char name[LONGEST_ENTRY], type[16], code[16];
    const uint8_t *behind = key + 1 + write_name(key + 1, name);
    write_type(256u * behind[0] + behind[1], type);
    sprintf(code, kept->code == 0 ? "NOERROR" : kept->code == 3 ? "NXDOMAIN" : "CODE%u", kept->code);
    return (size_t)sprintf(text, "%s %s %s %llu %llu%s%s\n", name, type, code, (unsigned long long)kept->seconds,
                           (unsigned long long)kept->weight, key[0] & 1 ? " do" : "", key[0] & 2 ? " cd" : "");
}

size_t write_kept(const char *digits, char *text, size_t room_length) {
    uint8_t keys[2][KEY];
    size_t length = 0, of_key = octets_of_digits(digits, keys[0]), side = 0;
    while (room_length - length > 2 * LONGEST_ENTRY) {
        yimarotu_kept kept = yimarotu_forwarder_kept(&forwarder, keys[side], of_key, keys[1 - side], KEY);
        if (kept.status != YIMAROTU_OK || !kept.is_there) return length;
        side = 1 - side, of_key = kept.length;
        length += write_entry(keys[side], &kept, text + length);
    }
    length += (size_t)sprintf(text + length, "behind ");
    for (size_t at = 0; at < of_key; at++) length += (size_t)sprintf(text + length, "%02x", keys[side][at]);
    return length + (size_t)sprintf(text + length, "\n");
}
