"""What dnspython and ldns read out of a message, in a form in which equal messages are equal: letter for letter."""
import ctypes

import dns.exception
import dns.message
import dns.rdata
import dns.rdataclass
import dns.rdatatype

# Loaded before the first message: by a record of class ANY that comes first dnspython takes the data of its type for
# unknown in each class that it has not met.
for rdtype in dns.rdatatype.RdataType:
    dns.rdata.get_rdata_class(dns.rdataclass.IN, rdtype)


class NotRead(Exception):
    """The bytes are refused; with the reason in their own words."""


def dnspython_form(wire):
    try:
        found = dns.message.from_wire(wire, one_rr_per_rrset=True)
    except (dns.exception.DNSException, ValueError) as error:
        raise NotRead(f"{type(error).__name__}: {error}")
    sections = [[record_form(entry) for entry in section] for section in found.sections]
    opt = found.opt and (found.opt[0].rdclass, found.ednsflags, found.opt[0].to_wire())
    return found.id, int(found.flags), opt, sections


def record_form(entry):
    """A question, or a record by itself."""
    head = entry.name.labels, int(entry.rdtype), int(entry.rdclass)
    return (*head, entry.ttl, entry[0].to_wire()) if len(entry) else head


class Ldns:
    def __init__(self, path):
        self._library = ctypes.CDLL(path)
        self._library.ldns_form.restype = ctypes.c_long
        self._library.ldns_form.argtypes = [ctypes.c_char_p, ctypes.c_size_t] * 2
        self._library.ldns_words.restype = ctypes.c_char_p
        self._room = ctypes.create_string_buffer(1 << 20)

    def form(self, wire):
        length = self._library.ldns_form(wire, len(wire), self._room, len(self._room))
        if length < 0:
            raise NotRead(self._library.ldns_words(-length).decode())
        return ctypes.string_at(self._room, length) if length else "read, and not written"
