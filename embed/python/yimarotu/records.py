"""Records as values, read out of messages that the library wrote (RFC 1035, section 4).

>>> record = Record("example.test.", "MX", "IN", 60, MX(10, "mail.example.test."))
>>> print(record)
example.test. 60 IN MX 10 mail.example.test.
>>> record.data.preference
10
"""
from __future__ import annotations

import ipaddress
import re
import struct
from dataclasses import dataclass
from typing import Callable, Dict, List, NamedTuple, Tuple, Union

__all__ = [
    "A", "AAAA", "CAA", "CNAME", "Data", "MX", "NS", "PTR", "Record", "SOA", "SRV", "TXT", "Unknown", "type_number",
    "type_word",
]

# The words of types (RFC 1035, section 3.2.2, and the registry of IANA).
TYPES = {
    "A": 1, "NS": 2, "CNAME": 5, "SOA": 6, "PTR": 12, "HINFO": 13, "MX": 15, "TXT": 16, "RP": 17, "AFSDB": 18,
    "AAAA": 28, "LOC": 29, "SRV": 33, "NAPTR": 35, "CERT": 37, "DNAME": 39, "DS": 43, "SSHFP": 44, "RRSIG": 46,
    "NSEC": 47, "DNSKEY": 48, "NSEC3": 50, "NSEC3PARAM": 51, "TLSA": 52, "SMIMEA": 53, "CDS": 59, "CDNSKEY": 60,
    "OPENPGPKEY": 61, "SVCB": 64, "HTTPS": 65, "SPF": 99, "ANY": 255, "URI": 256, "CAA": 257,
}
_TYPE_WORDS = {number: word for word, number in TYPES.items()}
# Most labels need no escape, and most names have none that does.
_is_plain = re.compile(rb"[A-Za-z0-9_-]+").fullmatch
_are_plain = re.compile(rb"[A-Za-z0-9_.-]+").fullmatch
_HEAD = struct.Struct(">2HIH")
_CLASS_WORDS = {1: "IN", 3: "CH", 4: "HS", 254: "NONE", 255: "ANY"}


def type_number(record_type: Union[str, int]) -> int:
    """The number of a type. Any type may be written as RFC 3597, section 5, has it.

    >>> type_number("mx"), type_number("TYPE65280"), type_number(28)
    (15, 65280, 28)
    """
    if isinstance(record_type, str):
        word = record_type.upper()
        number = TYPES.get(word, -1)
        if number < 0 and word.startswith("TYPE") and word[4:].isdecimal():
            number = int(word[4:])
    else:
        number = int(record_type)
    if not 0 <= number <= 65535:
        raise ValueError(f"{record_type} is no type of records")
    return number


def type_word(number: int) -> str:
    """
    >>> type_word(15), type_word(65280)
    ('MX', 'TYPE65280')
    """
    return _TYPE_WORDS.get(number, f"TYPE{number}")


def class_word(number: int) -> str:
    return _CLASS_WORDS.get(number, f"CLASS{number}")


@dataclass(frozen=True)
class A:
    """An IPv4 address (RFC 1035, section 3.4.1)."""

    address: ipaddress.IPv4Address

    def __str__(self) -> str:
        return str(self.address)


@dataclass(frozen=True)
class AAAA:
    """An IPv6 address (RFC 3596, section 2.2)."""

    address: ipaddress.IPv6Address

    def __str__(self) -> str:
        return str(self.address)


@dataclass(frozen=True)
class CNAME:
    """An alias (RFC 1035, section 3.3.1)."""

    target: str

    def __str__(self) -> str:
        return self.target


@dataclass(frozen=True)
class NS:
    """A name server of a zone (RFC 1035, section 3.3.11)."""

    target: str

    def __str__(self) -> str:
        return self.target


@dataclass(frozen=True)
class PTR:
    """A name that is pointed to, as the name of an address (RFC 1035, section 3.3.12)."""

    target: str

    def __str__(self) -> str:
        return self.target


@dataclass(frozen=True)
class MX:
    """A server for mail (RFC 1035, section 3.3.9). The least preference is tried first."""

    preference: int
    exchange: str

    def __str__(self) -> str:
        return f"{self.preference} {self.exchange}"


@dataclass(frozen=True)
class SRV:
    """Where a service is (RFC 2782)."""

    priority: int
    weight: int
    port: int
    target: str

    def __str__(self) -> str:
        return f"{self.priority} {self.weight} {self.port} {self.target}"


@dataclass(frozen=True)
class TXT:
    """Texts, as octets (RFC 1035, section 3.3.14)."""

    strings: Tuple[bytes, ...]

    @property
    def text(self) -> str:
        """The strings put together, as SPF, DKIM and their like read them (RFC 7208, section 3.3).

        >>> TXT((b"v=spf1 ", b"-all")).text
        'v=spf1 -all'
        """
        return b"".join(self.strings).decode("utf-8", "replace")

    def __str__(self) -> str:
        return " ".join(_quoted(string) for string in self.strings)


@dataclass(frozen=True)
class SOA:
    """The start of a zone (RFC 1035, section 3.3.13). Times are in seconds."""

    mname: str
    rname: str
    serial: int
    refresh: int
    retry: int
    expire: int
    minimum: int

    def __str__(self) -> str:
        numbers = (self.serial, self.refresh, self.retry, self.expire, self.minimum)
        return " ".join((self.mname, self.rname, *map(str, numbers)))


@dataclass(frozen=True)
class CAA:
    """Who may issue certificates (RFC 8659, section 4)."""

    flags: int
    tag: str
    value: bytes

    def __str__(self) -> str:
        return f"{self.flags} {self.tag} {_quoted(self.value)}"


@dataclass(frozen=True)
class Unknown:
    """Data of a type that is not read here, as HTTPS and DS: its octets.

    >>> print(Unknown(bytes([0, 1, 0])))
    \\# 3 000100
    """

    octets: bytes

    def __str__(self) -> str:
        return f"\\# {len(self.octets)} {self.octets.hex()}".rstrip()


Data = Union[A, AAAA, CNAME, NS, PTR, MX, SRV, TXT, SOA, CAA, Unknown]


@dataclass(frozen=True)
class Record:
    """A record. `name` is absolute, with a dot at its end; `type` and `class_` are words, as in zone files; `ttl` is in
    seconds, as it was when the answer was given."""

    name: str
    type: str
    class_: str
    ttl: int
    data: Data

    def __str__(self) -> str:
        return f"{self.name} {self.ttl} {self.class_} {self.type} {self.data}"


class Sections(NamedTuple):
    """The records of a message."""

    answers: Tuple[Record, ...]
    authorities: Tuple[Record, ...]
    additionals: Tuple[Record, ...]


def _escaped(octet: int, special: bytes) -> str:
    """An octet of a text as RFC 1035, section 5.1, has it."""
    if octet in special:
        return "\\" + chr(octet)
    return chr(octet) if 0x20 < octet < 0x7F else f"\\{octet:03}"


def _quoted(string: bytes) -> str:
    return '"' + "".join(" " if octet == 0x20 else _escaped(octet, b'"\\') for octet in string) + '"'


def _label_text(label: bytes) -> str:
    if _is_plain(label):
        return label.decode("ascii")
    return "".join(_escaped(octet, b'."\\();@$') for octet in label)


def _behind_name(message: bytes, at: int) -> int:
    """Where a name ends."""
    while 0 < message[at] < 0xC0:
        at += 1 + message[at]
    return at + (1 if message[at] == 0 else 2)


def read_name(message: bytes, at: int) -> Tuple[str, int]:
    """The text of a name, and where it ends (RFC 1035, section 4.1.4).

    >>> read_name(b"\\3www\\7example\\0" + b"\\1a\\xc0\\4", 13)
    ('a.example.', 17)
    """
    labels: List[bytes] = []
    end, limit = -1, at
    while length := message[at]:
        if length >= 0xC0:
            end = at + 2 if end < 0 else end
            at = (length & 0x3F) << 8 | message[at + 1]
            if at >= limit:
                raise ValueError("a pointer that does not lead back")
            limit = at
        else:
            labels.append(message[at + 1 : (at := at + 1 + length)])
    return _name_text(labels), at + 1 if end < 0 else end


def _name_text(labels: List[bytes]) -> str:
    text = b".".join(labels)
    # (a dot within a label is escaped)
    if _are_plain(text) and text.count(b".") < len(labels):
        return text.decode("ascii") + "."
    return ".".join(map(_label_text, labels)) + "."


def _read_txt(message: bytes, at: int, end: int) -> TXT:
    strings = []
    while at < end:
        strings.append(message[at + 1 : at + 1 + message[at]])
        at += 1 + message[at]
    return TXT(tuple(strings))


def _read_srv(message: bytes, at: int, end: int) -> SRV:
    priority, weight, port = struct.unpack_from(">3H", message, at)
    return SRV(priority, weight, port, read_name(message, at + 6)[0])


def _read_soa(message: bytes, at: int, end: int) -> SOA:
    mname, at = read_name(message, at)
    rname, at = read_name(message, at)
    return SOA(mname, rname, *struct.unpack_from(">5I", message, at))


def _read_caa(message: bytes, at: int, end: int) -> Union[CAA, Unknown]:
    behind = at + 2 + message[at + 1] if end >= at + 2 else end + 1
    tag = message[at + 2 : behind]
    if behind > end or not tag.isalnum():
        return Unknown(message[at:end])
    return CAA(message[at], tag.decode("ascii"), message[behind:end])


_READERS: Dict[int, Callable[[bytes, int, int], Data]] = {
    1: lambda message, at, end: A(ipaddress.IPv4Address(message[at:end])),
    2: lambda message, at, end: NS(read_name(message, at)[0]),
    5: lambda message, at, end: CNAME(read_name(message, at)[0]),
    6: _read_soa,
    12: lambda message, at, end: PTR(read_name(message, at)[0]),
    15: lambda message, at, end: MX(int.from_bytes(message[at : at + 2], "big"), read_name(message, at + 2)[0]),
    16: _read_txt,
    28: lambda message, at, end: AAAA(ipaddress.IPv6Address(message[at:end])),
    33: _read_srv,
    257: _read_caa,
}
OPT = 41
_new = object.__new__


def _read_records(message: bytes, at: int, count: int) -> Tuple[Tuple[Record, ...], int]:
    """So many records of a message without OPT, and where they end."""
    records: List[Record] = []
    owners: Dict[bytes, str] = {}
    for _ in range(count):
        pointer = message[at : at + 2]
        if pointer in owners:
            name, at = owners[pointer], at + 2
        else:
            name, at = read_name(message, at)
            if pointer >= b"\xc0":
                owners[pointer] = name
        number, class_number, ttl, length = _HEAD.unpack_from(message, at)
        at, start = at + 10 + length, at + 10
        reader = _READERS.get(number) if class_number == 1 else None
        if reader is not None and (length or number == TYPES["TXT"]):
            data = reader(message, start, at)
        else:
            data = Unknown(message[start:at])
        if number != OPT:
            record = _new(Record)
            # (as its `__init__` does, and faster)
            record.__dict__.update(
                name=name, type=type_word(number), class_=class_word(class_number), ttl=ttl, data=data
            )
            records.append(record)
    return tuple(records), at


def _behind_questions(message: bytes, count: int) -> int:
    at = 12
    for _ in range(count):
        at = _behind_name(message, at) + 4
    return at


def read_answers(message: bytes) -> Tuple[Record, ...]:
    """The records of the answer section of a message."""
    questions, answers = struct.unpack_from(">2H", message, 4)
    return _read_records(message, _behind_questions(message, questions), answers)[0]


def read_sections(message: bytes) -> Sections:
    """The records of a message, without its OPT record.

    >>> message = bytes.fromhex("000081800001000100000000" "0161000001" "0001" "c00c00010001" "0000003c0004c0000201")
    >>> print(*read_sections(message).answers)
    a. 60 IN A 192.0.2.1
    """
    questions, *counts = struct.unpack_from(">4H", message, 4)
    at, sections = _behind_questions(message, questions), []
    for count in counts:
        records, at = _read_records(message, at, count)
        sections.append(records)
    return Sections(*sections)


def read_question(message: bytes) -> Tuple[str, str]:
    """The name and the word of the type of the question of a message."""
    name, at = read_name(message, 12)
    return name, type_word(struct.unpack_from(">H", message, at)[0])
