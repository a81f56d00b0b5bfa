"""DNS data between dnspython and the words of scripts, which docs/SCRIPTS.md describes."""
import functools
import ipaddress

import dns.exception
import dns.flags
import dns.message
import dns.name
import dns.rcode
import dns.rdata
import dns.rdataclass
import dns.rdatatype
import dns.rrset
from dns.rdtypes.ANY.TXT import TXT

TYPE_WORDS = set("A NS CNAME SOA PTR MX TXT AAAA SRV CERT TLSA SMIMEA ANY".split())
CLASS_WORDS = set("IN CH HS NONE ANY".split())
CODE_WORDS = set("NOERROR FORMERR SERVFAIL NXDOMAIN NOTIMP REFUSED".split())
# How many names and data are remembered as they were read: what comes again is not parsed again.
REMEMBERED = 8192
LETTERS = set(b"abcdefghijklmnopqrstuvwxyzABCDEFGHIJKLMNOPQRSTUVWXYZ0123456789_")


class NotSayable(ValueError):
    """A script has no words for this record."""


def type_word(rdtype):
    text = dns.rdatatype.to_text(rdtype)
    return text if text in TYPE_WORDS else f"TYPE{int(rdtype)}"


def read_type(word):
    """The type of a word as people write it, or None."""
    try:
        return dns.rdatatype.from_text(word) or None
    except (ValueError, dns.exception.DNSException):
        return None


def class_word(rdclass):
    text = dns.rdataclass.to_text(rdclass)
    return text if text in CLASS_WORDS else f"CLASS{int(rdclass)}"


def code_word(rcode):
    text = dns.rcode.to_text(rcode)
    return text if text in CODE_WORDS else f"CODE{int(rcode)}"


def read_code(word):
    return int(word[len("CODE"):]) if word.startswith("CODE") else dns.rcode.from_text(word)


def label_text(label):
    def is_plain(place, byte):
        return byte in LETTERS or byte == (ord("-") if place else ord("*"))

    return "".join(chr(byte) if is_plain(place, byte) else f"\\{byte:03}" for place, byte in enumerate(label))


def name_text(name):
    """The text of a name: bytes that are not plain in their place as \\DDD. A relative name has no last dot."""
    if name == dns.name.root:
        return "."
    return ".".join(label_text(label) for label in name.labels)


@functools.lru_cache(REMEMBERED)
def read_name(text):
    """The name that a text of a script spells. The relative name without labels is read as the root."""
    return dns.name.root if text == "@" else dns.name.from_text(text)


def address_text(kind, rdata):
    return [str(kind(rdata.to_wire()))]


def target_text(rdata):
    return [name_text(rdata.target)]


def soa_fields(rdata):
    numbers = (rdata.serial, rdata.refresh, rdata.retry, rdata.expire, rdata.minimum)
    return [name_text(rdata.mname), name_text(rdata.rname), *map(str, numbers)]


def srv_fields(rdata):
    return [str(rdata.priority), str(rdata.weight), str(rdata.port), name_text(rdata.target)]


def txt_fields(rdata):
    if not rdata.strings:
        raise NotSayable("TXT without strings")
    return [string.hex() or "-" for string in rdata.strings]


FIELDS = {
    "A": lambda rdata: address_text(ipaddress.IPv4Address, rdata),
    "AAAA": lambda rdata: address_text(ipaddress.IPv6Address, rdata),
    "CNAME": target_text,
    "NS": target_text,
    "PTR": target_text,
    "MX": lambda rdata: [str(rdata.preference), name_text(rdata.exchange)],
    "SOA": soa_fields,
    "SRV": srv_fields,
    "TXT": txt_fields,
}


def data_fields(rdata):
    """The data of a record as the fields that a script has for its type."""
    fields = FIELDS.get(type_word(rdata.rdtype), lambda rdata: [rdata.to_wire().hex() or "-"])
    try:
        return fields(rdata)
    except (AttributeError, ipaddress.AddressValueError) as error:
        # The type has other data in this class.
        raise NotSayable(f"{class_word(rdata.rdclass)} {type_word(rdata.rdtype)}: {error}") from error


def record_line(rrset, rdata):
    """A record as a script has it, behind the word of its section."""
    fields = (name_text(rrset.name), str(rrset.ttl), class_word(rdata.rdclass), type_word(rdata.rdtype))
    return " ".join((*fields, *data_fields(rdata)))


def section_lines(message):
    """A line for each record of a message, in order."""
    sections = (("answer", message.answer), ("authority", message.authority), ("additional", message.additional))
    return [f"{word} {record_line(rrset, rdata)}" for word, rrsets in sections for rrset in rrsets for rdata in rrset]


def reply_line(message, question=". A IN"):
    """The line that opens a reply. Where it has no question, these words stand for it."""
    if message.question:
        asked = message.question[0]
        question = f"{name_text(asked.name)} {type_word(asked.rdtype)} {class_word(asked.rdclass)}"
    marks = (" tc" if message.flags & dns.flags.TC else "") + ("" if message.question else " noq")
    return f"reply {code_word(message.rcode())} {question}{marks}"


def outcome_lines(message, *question):
    """A reply as a script has it: the line that opens it, and its records."""
    return [reply_line(message, *question), *section_lines(message)]


def read_message(wire):
    """A message with its records as they stand: each by itself, in order, with its own TTL."""
    return dns.message.from_wire(wire, one_rr_per_rrset=True)


@functools.lru_cache(REMEMBERED)
def read_data(rdclass, rdtype, fields):
    """The data that the fields of a record's line say."""
    word = type_word(rdtype)
    if word == "TXT":
        return TXT(rdclass, rdtype, [bytes.fromhex("" if field == "-" else field) for field in fields])
    if word in FIELDS:
        return dns.rdata.from_text(rdclass, rdtype, " ".join(fields))
    wire = bytes.fromhex("" if fields[0] == "-" else fields[0])
    try:
        return dns.rdata.from_wire(rdclass, rdtype, wire, 0, len(wire))
    except (dns.exception.DNSException, ValueError):
        return dns.rdata.GenericRdata(rdclass, rdtype, wire)


class Record:
    """A record out of the fields of its line: NAME TTL CLASS TYPE DATA."""

    def __init__(self, fields):
        self.fields = fields
        self.owner, self.ttl = read_name(fields[0]), int(fields[1])
        rdclass, self.rdtype = dns.rdataclass.from_text(fields[2]), dns.rdatatype.from_text(fields[3])
        self.rdata = read_data(rdclass, self.rdtype, tuple(fields[4:]))

    def rrset(self):
        return dns.rrset.from_rdata(self.owner, self.ttl, self.rdata)


def chain(name, rdtype, records):
    """The records that the name leads to: aliases from one to the next, and what their end has of the type; and that
    end. Records that lie elsewhere are left out."""
    led, seen = [], set()
    while name not in seen:
        seen.add(name)
        here = [record for record in records if record.owner == name]
        found = [record for record in here if rdtype in (record.rdtype, dns.rdatatype.ANY)]
        aliases = [record for record in here if record.rdtype == dns.rdatatype.CNAME]
        if found or not aliases:
            return led + found, name
        led.append(aliases[0])
        name = aliases[0].rdata.target
    return led, name
