/* What ldns reads out of a message: header, OPT, and each question and record with its names whole, letter for letter. */
#include <ldns/ldns.h>
#include <string.h>

struct room {
    uint8_t *at;
    size_t length, capacity;
};

static int put(struct room *room, const uint8_t *bytes, size_t length) {
    if (room->capacity - room->length < length) return 0;
    if (length != 0) memcpy(room->at + room->length, bytes, length);
    room->length += length;
    return 1;
}

static int put_number(struct room *room, uint32_t number) {
    uint8_t bytes[4] = {number >> 24, number >> 16, number >> 8, number};
    return put(room, bytes, 4);
}

static int put_header(struct room *room, const ldns_pkt *packet) {
    uint32_t flags = (uint32_t)ldns_pkt_qr(packet) << 15 | (uint32_t)ldns_pkt_get_opcode(packet) << 11
        | (uint32_t)ldns_pkt_aa(packet) << 10 | (uint32_t)ldns_pkt_tc(packet) << 9 | (uint32_t)ldns_pkt_rd(packet) << 8
        | (uint32_t)ldns_pkt_ra(packet) << 7 | (uint32_t)ldns_pkt_ad(packet) << 5 | (uint32_t)ldns_pkt_cd(packet) << 4
        | (uint32_t)ldns_pkt_get_rcode(packet);
    return put_number(room, (uint32_t)ldns_pkt_id(packet) << 16 | flags);
}

static int put_opt(struct room *room, const ldns_pkt *packet) {
    const ldns_rdf *options = ldns_pkt_edns_data(packet);
    if (!ldns_pkt_edns(packet)) return put_number(room, 0);
    return put_number(room, 1) && put_number(room, ldns_pkt_edns_udp_size(packet))
        && put_number(room, (uint32_t)ldns_pkt_edns_extended_rcode(packet) << 24
                                | (uint32_t)ldns_pkt_edns_version(packet) << 16 | ldns_pkt_edns_z(packet))
        && (options == NULL || put(room, ldns_rdf_data(options), ldns_rdf_size(options)));
}

static int put_record(struct room *room, const ldns_rr *record, int section) {
    uint8_t *wire = NULL;
    size_t length = 0;
    if (ldns_rr2wire(&wire, record, section, &length) != LDNS_STATUS_OK) return 0;
    int was_put = put_number(room, (uint32_t)length) && put(room, wire, length);
    LDNS_FREE(wire);
    return was_put;
}

static int put_section(struct room *room, const ldns_rr_list *records, int section) {
    size_t count = records == NULL ? 0 : ldns_rr_list_rr_count(records);
    if (!put_number(room, (uint32_t)count)) return 0;
    for (size_t number = 0; number < count; number++)
        if (!put_record(room, ldns_rr_list_rr(records, number), section)) return 0;
    return 1;
}

static int put_packet(struct room *room, const ldns_pkt *packet) {
    return put_header(room, packet) && put_opt(room, packet)
        && put_section(room, ldns_pkt_question(packet), LDNS_SECTION_QUESTION)
        && put_section(room, ldns_pkt_answer(packet), LDNS_SECTION_ANSWER)
        && put_section(room, ldns_pkt_authority(packet), LDNS_SECTION_AUTHORITY)
        && put_section(room, ldns_pkt_additional(packet), LDNS_SECTION_ADDITIONAL);
}

/* How long the form is that was written to the room; or where ldns refuses the message, its status below 0; or 0 where it
 * cannot write what it has read. */
long ldns_form(const uint8_t *wire, size_t length, uint8_t *at, size_t capacity) {
    struct room room = {at, 0, capacity};
    ldns_pkt *packet = NULL;
    ldns_status status = ldns_wire2pkt(&packet, wire, length);
    if (status != LDNS_STATUS_OK) return -(long)status;
    long written = put_packet(&room, packet) ? (long)room.length : 0;
    ldns_pkt_free(packet);
    return written;
}

const char *ldns_words(int status) { return ldns_get_errorstr_by_id((ldns_status)status); }
