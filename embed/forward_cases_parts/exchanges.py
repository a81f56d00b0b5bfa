"""What a case hands in and what it gets: queries of clients, questions that are asked upstream, and channels."""
import ipaddress
import struct

import dns.name
import dns.rdataclass
import dns.rdatatype

from . import library, messages
from .messages import CD, DO, FLAGS, QR, RD, SIZE, Z

SERVER, CLIENT = "192.0.2.53", "10.0.0.1"
BITS = {**FLAGS, "z": Z, "qr": QR}


class Difference(Exception):
    """What came is not what the case says."""


def wanted(is_so, text):
    if not is_so:
        raise Difference(text)


class Words:
    """The words behind the first ones of a line: some alone, and some with so many values."""

    VALUES = dict.fromkeys(("from", "id", "edns", "version", "class", "opcode", "room", "of", "port", "ede"), 1)
    VALUES["option"] = 2
    ALONE = {"tcp", "do", "first", "no_question", "any_question", "opt", "no_opt", "any_opt", "-rd", "-ra", *BITS}

    def __init__(self, words):
        self.given, words = {}, list(words)
        while words:
            word = words.pop(0)
            if word not in self.ALONE and word not in self.VALUES:
                raise ValueError(f"no such word: {word}")
            values = [words.pop(0) for _ in range(self.VALUES.get(word, 0))]
            self.given[word] = " ".join(values) if values else True

    def __contains__(self, word):
        return word in self.given

    def number(self, word, default):
        return int(self.given.get(word, default))

    def bits(self):
        return sum(bit for word, bit in BITS.items() if word in self.given)


class Query:
    """A query that was handed in: what the reply to it has to have."""

    def __init__(self, octets, question=None, opt=False, do=False, limit=512):
        self.octets, self.opt, self.do, self.limit = octets, opt, do, limit
        self.ident, self.flags = struct.unpack("!HH", octets[:4].ljust(4, b"\0"))
        self.question = question

    @classmethod
    def said(cls, ident, name, rdtype, words):
        flags = words.bits() | (0 if "-rd" in words else RD) | words.number("opcode", 0) << 11
        rdclass = dns.rdataclass.from_text(words.given.get("class", "IN"))
        question = dns.name.from_text(name).to_wire() + struct.pack("!HH", dns.rdatatype.from_text(rdtype), rdclass)
        opt = opt_of(words)
        octets = struct.pack("!HHHHHH", ident, flags, 1, 0, 0, bool(opt)) + question + opt
        limit = max(512, min(SIZE, words.number("edns", SIZE))) if opt else 512
        return cls(octets, question, bool(opt), "do" in words, limit)


def opt_of(words):
    """The OPT record of a query, or nothing."""
    if not {"edns", "do", "version", "option"} & words.given.keys():
        return b""
    options = b""
    if "option" in words:
        code, data = words.given["option"].split()
        data = bytes.fromhex(data.replace("-", ""))
        options = struct.pack("!HH", int(code), len(data)) + data
    flags = words.number("version", 0) << 16 | (DO if "do" in words else 0)
    return messages.opt_record(words.number("edns", SIZE), flags, options)


class Asked:
    """A question that was sent upstream."""

    def __init__(self, number, channel, octets):
        self.number, self.channel, self.message = number, channel, messages.Message(octets)
        wanted(len(self.message.names) == 1, "a message upstream without one question")
        self.name, self.rdtype, self.rdclass = self.message.names[0]

    def text(self):
        more = [word for word, is_so in (("do", self.message.has_do()), ("cd", self.message.flags & CD)) if is_so]
        server = [] if self.channel.address == SERVER else ["of", self.channel.address]
        port = [] if self.channel.port == 53 else ["port", str(self.channel.port)]
        protocol = ["tcp"] if self.channel.is_stream else []
        name, rdtype = str(self.name).lower(), dns.rdatatype.to_text(self.rdtype)
        return " ".join(["ask", name, rdtype, *protocol, *server, *port, *more])

    def replied(self, code, flags, sections, how=""):
        """The octets of a reply, as they go over the channel; forged, where it is said how."""
        flags |= code | (self.message.flags & (RD | CD)) | (0 if how == "query" else QR)
        opt = messages.opt_record(SIZE, DO * self.message.has_do()) if self.message.opt else b""
        question = self.message.question
        if how == "letters":
            question = question[:-4].swapcase() + question[-4:]
        elif how == "type":
            question = question[:-4] + struct.pack("!HH", self.rdtype + 1, self.rdclass)
        octets = messages.written(self.message.ident ^ (how == "id"), flags, question, sections, opt)
        if how == "cut":
            octets = octets[:-1]
        elif how == "header":
            octets = octets[:4] + bytes(8)
        return struct.pack("!H", len(octets)) + octets if self.channel.is_stream else octets


class Channel:
    def __init__(self, action, octets):
        size = 4 if action.family == 4 else 16
        self.number, self.port, self.is_stream = action.channel, action.port, action.protocol == library.STREAM
        self.address = str(ipaddress.ip_address(octets[:size]))
        self.is_failed = False


class Client:
    def __init__(self):
        self.address, self.is_stream, self.waiting, self.last = CLIENT, False, [], None
