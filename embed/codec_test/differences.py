"""The differences that are known, each with the reason, and with what a case of it looks like. A difference that is none
of these fails the test."""
from collections import namedtuple

import dns.rdata
import dns.rdatatype
from facts import ADDITIONAL

PARSED = (1, 2, 5, 6, 12, 15, 16, 28, 33)
# Kept as they stand, but for names in them, which are read whole.
OLD = (3, 4, 7, 8, 9, 14, 17, 18, 21, 24, 26, 30, 35)
OF_THE_INTERNET = (1, 28, 33)
OPT, TSIG, UPDATE = 41, 250, 5
SHORT, BAD_LABEL, NAME_TOO_LONG, TOO_MANY_POINTERS, POINTER_NOT_BACK, TRAILING_DATA, OPT_NAME, SECOND_OPT = range(1, 9)
TOO_MANY_LABELS = 10
WE, THEY, OTHER = "we refuse", "they refuse", "another message"

# A case: which of WE, THEY and OTHER, the facts of the message, our fault, and the words of the other's refusal.
Case = namedtuple("Case", "kind facts fault words")
Class = namedtuple("Class", "name why fits")


def is_taken_apart(record):
    """Whether dnspython takes apart the data of this type and class, which are kept as they stand here."""
    found = dns.rdata.get_rdata_class(record.rdclass, record.code)
    return record.code not in (*PARSED, OPT, TSIG) and found is not dns.rdata.GenericRdata


def has_other_class(case):
    return any(record.code in OF_THE_INTERNET and record.rdclass != 1 for record in case.facts.records)


DNSPYTHON = [
    Class(
        "octets behind the message",
        "dnspython refuses them; here they are passed over, as BIND and unbound do.",
        lambda case: case.kind == THEY and "TrailingJunk" in case.words and case.facts.end < len(case.facts.wire),
    ),
    Class(
        "names in data of MINFO and its like",
        "Here they are read whole, whatever the class (RFC 3597, section 4). dnspython keeps such data as they stand.",
        lambda case: case.kind != THEY and case.facts.has(*OLD),
    ),
    Class(
        "a chain of more than 16 pointers",
        "dnspython takes 16 pointers in a name, RFC 1035 names no number, and here it is 128. A message that is written here "
        "has one for each label at most.",
        lambda case: case.kind != WE
        and "PointerChainTooLong" in case.words
        and max(case.facts.pointers(), len(case.facts.records)) > 16,
    ),
    Class(
        "A, AAAA and SRV of a class that is not IN",
        "Here they are read so whatever the class. dnspython keeps the data as they stand, or as those of Chaosnet.",
        has_other_class,
    ),
    Class(
        "a type that dnspython takes apart",
        "Data of a type that the core does not know are kept as they stand (RFC 3597, section 3).",
        lambda case: case.kind != WE and any(map(is_taken_apart, case.facts.records)),
    ),
    Class(
        "OPT outside of the additional section",
        "Here it is a record as any other, since only OPT in the additional section means something (RFC 6891, "
        "section 6.1.1).",
        lambda case: case.kind == THEY and any(opt.section != ADDITIONAL for opt in case.facts.opts()),
    ),
    Class(
        "broken options",
        "Here the options of OPT are kept as they stand, and dnspython takes them apart.",
        lambda case: case.kind == THEY and (case.facts.has_broken_options() or set(case.facts.options()) & {8, 15}),
    ),
    Class(
        "an update",
        "dnspython reads its sections by RFC 2136, and here they are those of any message.",
        lambda case: case.kind != WE and case.facts.opcode == UPDATE,
    ),
    Class(
        "a kind of message without a name",
        "dnspython refuses opcodes to which no document gave a meaning.",
        lambda case: case.kind == THEY and case.facts.opcode not in (0, 1, 2, 4, 5),
    ),
    Class(
        "a signature",
        "dnspython checks TSIG, for which it wants a key, and here it is a record as any other.",
        lambda case: case.kind == THEY and case.facts.has(TSIG),
    ),
    Class(
        "a label through its pointer",
        "Where a pointer leads to a label that goes on past the pointer, dnspython goes on behind the label, and here it is "
        "behind the pointer (RFC 1035, section 4.1.4).",
        lambda case: case.facts.leads_past(),
    ),
]

LDNS = [
    Class(
        "a chain of more than 128 pointers",
        "ldns takes 65,535.",
        lambda case: case.kind == WE and case.fault == TOO_MANY_POINTERS and case.facts.pointers() > 128,
    ),
    Class(
        "a pointer that is not back",
        "ldns follows pointers forward, too. RFC 1035, section 4.1.4, has them to a prior occurrence.",
        lambda case: case.kind == WE and case.fault == POINTER_NOT_BACK,
    ),
    Class(
        "a pointer to the first octet",
        "ldns refuses it. RFC 1035, section 4.1.4, counts from the first octet of the id, and forbids no place that is prior.",
        lambda case: case.kind == THEY and "Invalid compression pointer" in case.words and b"\xc0\0" in case.facts.wire,
    ),
    Class(
        "no data",
        "ldns takes data of length 0 under any type.",
        lambda case: case.kind == WE
        and case.fault == SHORT
        and any(record.code in (*PARSED, *OLD) and record.start == record.end for record in case.facts.records),
    ),
    Class(
        "a name past the data",
        "ldns reads a name in data up to its end, also where that is past the length of the data, be it by a pointer to a label "
        "that goes on past the pointer.",
        lambda case: case.kind == WE
        and case.fault == SHORT
        and (case.facts.has_long_names() or case.facts.leads_past()),
    ),
    Class(
        "octets behind the data of a record",
        "ldns leaves out what is within the length of a record, and behind what the type has.",
        lambda case: case.kind == WE and case.fault == TRAILING_DATA,
    ),
    Class(
        "OPT with a name, or a second one",
        "RFC 6891, sections 6.1.1 and 6.1.2, has the root as its owner, and one. ldns does not look.",
        lambda case: case.kind == WE and case.fault in (OPT_NAME, SECOND_OPT),
    ),
    Class(
        "a signature",
        "ldns takes TSIG out of the count of the additional section, and so leaves the last record unread.",
        lambda case: case.kind == WE and case.facts.has(TSIG),
    ),
    Class(
        "a type that ldns takes apart",
        "Data of a type that the core does not know are kept as they stand (RFC 3597, section 3).",
        lambda case: case.kind != WE
        and any(record.code not in (*PARSED, OPT) and record.code < 65280 for record in case.facts.records),
    ),
]
