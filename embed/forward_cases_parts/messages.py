"""Messages as cases say them: written, and read."""
import io
import re
import struct

import dns.edns
import dns.name
import dns.opcode
import dns.rcode
import dns.rdata
import dns.rdataclass
import dns.rdatatype
import dns.wire

SECTIONS = ("answer", "authority", "additional")
OPT = dns.rdatatype.OPT
QR, AA, TC, RD, RA, Z, AD, CD = 0x8000, 0x400, 0x200, 0x100, 0x80, 0x40, 0x20, 0x10
FLAGS = {"aa": AA, "tc": TC, "rd": RD, "ra": RA, "ad": AD, "cd": CD}
DO = 0x8000
EXTENDED_ERROR = 15
# What the OPT of each reply says that the forwarder takes, and that of each that comes from upstream.
SIZE = 1232


class Record:
    """A line `NAME TTL CLASS TYPE DATA`, as forward_cases.d/README.md says."""

    def __init__(self, text):
        name, self.ttl, rdclass, rdtype, self.data = text.split(None, 4)
        self.name = dns.name.from_text(name)
        self.rdclass = dns.rdataclass.from_text(rdclass)
        self.rdtype = dns.rdatatype.from_text(rdtype)
        self.text = text

    def rdata(self):
        if self.data.startswith("fill "):
            return dns.rdata.from_wire(self.rdclass, self.rdtype, *filled(int(self.data.split()[1])))
        return dns.rdata.from_text(self.rdclass, self.rdtype, self.data)

    def written(self, file, compress):
        self.name.to_wire(file, compress)
        data = io.BytesIO()
        self.rdata().to_wire(data)
        fixed = self.rdtype, self.rdclass, int(self.ttl), len(data.getvalue())
        file.write(struct.pack("!HHIH", *fixed) + data.getvalue())

    def differs(self, came):
        name, rdtype, rdclass, ttl, rdata = came
        if (name, rdtype, rdclass) != (self.name, self.rdtype, self.rdclass) or not self.has_ttl(ttl):
            return True
        if self.data == "*":
            return False
        if self.data.startswith("has "):
            return not {it.encode() for it in self.data.split()[1:]} <= set(rdata.strings)
        return rdata != self.rdata()

    def has_ttl(self, ttl):
        if self.ttl == "*":
            return True
        least, _, greatest = self.ttl.partition("-")
        return int(least) <= ttl <= int(greatest or least)


def filled(length):
    """Data of a TXT record of so many octets: strings of 255 octets, and a last one."""
    data = b""
    while len(data) < length:
        size = min(255, length - len(data) - 1)
        data += bytes([size]) + b"x" * size
    return data, 0, length


def opt_record(size, flags, data=b""):
    return b"\0" + struct.pack("!HHIH", OPT, size, flags, len(data)) + data


def written(ident, flags, question, sections, opt=b""):
    """A message: its question as octets, the records of three sections, and OPT as octets."""
    file, compress = io.BytesIO(), {}
    counts = [len(sections[section]) for section in SECTIONS]
    file.write(struct.pack("!HHHHHH", ident, flags, 1, *counts[:2], counts[2] + bool(opt)) + question)
    # Owners may point to the name of the question, or into it.
    labels = dns.name.from_wire(question, 0)[0].labels
    for depth in range(len(labels) - 1):
        compress[dns.name.Name(labels[depth:])] = 12 + sum(len(label) + 1 for label in labels[:depth])
    for section in SECTIONS:
        for record in sections[section]:
            record.written(file, compress)
    return file.getvalue() + opt


def from_tokens(tokens):
    """Octets as hexadecimal digits, with `*N` behind them N times, and names, which have a dot."""
    octets = b""
    for token in tokens:
        digits, _, times = token.partition("*")
        octets += dns.name.from_text(token).to_wire() if "." in token else bytes.fromhex(digits) * int(times or 1)
    return octets


class Message:
    """What can be read of octets: header, the octets of the question, and records; the OPT record apart."""

    def __init__(self, octets):
        parser = dns.wire.Parser(octets)
        self.ident, self.flags, questions, *counts = parser.get_struct("!HHHHHH")
        self.names = []
        for _ in range(questions):
            self.names.append((parser.get_name(), *parser.get_struct("!HH")))
        self.question = octets[12 : parser.current]
        self.sections, self.opt = {}, None
        for section, count in zip(SECTIONS, counts):
            self.sections[section] = [it for it in (self._record(parser) for _ in range(count)) if it]
        if parser.remaining():
            raise ValueError(f"{parser.remaining()} octets behind the message")
        self.code = self.flags & 15 | (self.opt[1] >> 24 << 4 if self.opt else 0)

    def _record(self, parser):
        name, (rdtype, rdclass, ttl, length) = parser.get_name(), parser.get_struct("!HHIH")
        with parser.restrict_to(length):
            rdata = dns.rdata.from_wire_parser(rdclass, rdtype, parser)
        if rdtype != OPT:
            return name, rdtype, rdclass, ttl, rdata
        if self.opt or name != dns.name.root:
            raise ValueError("an OPT record too many, or not at the root")
        self.opt = rdclass, ttl, rdata.options
        return None

    def has_do(self):
        return bool(self.opt and self.opt[1] & DO)

    def text(self):
        flags = [name for name, bit in FLAGS.items() if self.flags & bit]
        words = [dns.rcode.to_text(self.code), *flags]
        if self.opt:
            words += ["opt", str(self.opt[0])] + ["do"] * self.has_do()
            words += [f"ede {it.code}" if it.otype == EXTENDED_ERROR else f"option {it.otype}" for it in self.opt[2]]
        lines = [" ".join(words)]
        for section in SECTIONS:
            lines += [f"    {section} {record_text(it)}" for it in self.sections[section]]
        return "\n".join(lines)


def record_text(came):
    name, rdtype, rdclass, ttl, rdata = came
    data = rdata.to_text()
    kinds = dns.rdataclass.to_text(rdclass), dns.rdatatype.to_text(rdtype)
    return " ".join([str(name), str(ttl), *kinds, data if len(data) < 200 else f"{data[:200]} .."])


def records(lines):
    """The records of lines `SECTION RECORD`, and the sections that may hold anything."""
    sections, anything = {section: [] for section in SECTIONS}, set()
    for line in lines:
        word, text = line.split(None, 1)
        section, _, times = word.partition("*")
        if text == "*":
            anything.add(section)
        for number in range(int(times or 1) if text != "*" else 0):
            sections[section].append(Record(re.sub(r"\{\}", str(number), text)))
    return sections, anything
