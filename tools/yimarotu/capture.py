"""Reads a capture of packets: the classic form of pcap, with UDP and TCP over IPv4 and IPv6."""
import ipaddress
import struct
from dataclasses import dataclass

# The order of bytes by the first four of them, and how many units of the second number are a millisecond.
MAGICS = {b"\xd4\xc3\xb2\xa1": ("<", 1000), b"\xa1\xb2\xc3\xd4": (">", 1000),
          b"\x4d\x3c\xb2\xa1": ("<", 1000000), b"\xa1\xb2\x3c\x4d": (">", 1000000)}
ETHERNET = 1
# The bytes before the packet of IP, by the type of the link: loopback of BSD, raw IP, and Linux's cooked captures.
LINK_BYTES = {0: 4, 108: 4, 12: 0, 14: 0, 101: 0, 228: 0, 229: 0, 113: 16, 276: 20}
VLAN_TAGS = (0x8100, 0x88A8)
IP_TYPES = (0x0800, 0x86DD)
TCP, UDP = 6, 17
FRAGMENT = 44
# Headers of IPv6 that may stand before that of UDP: hop-by-hop, routing, destination options, and that of a fragment.
IPV6_OPTIONS = (0, 43, 60, FRAGMENT)


class NoCapture(ValueError):
    """The file is none that is read here."""


class OtherPacket(Exception):
    """A packet without a whole datagram. `is_stream` says whether it is of TCP."""

    def __init__(self, is_stream=False):
        super().__init__()
        self.is_stream = is_stream


@dataclass(frozen=True)
class Datagram:
    second: int
    source: tuple
    target: tuple
    payload: bytes


class Capture:
    """A capture that is read as it comes. `is_cut` says whether it ended within a packet, which is left out."""

    def __init__(self, file):
        self.file, self.is_cut = file, False
        head = file.read(24)
        self.order, self.unit = MAGICS.get(head[:4], (None, None))
        if self.order is None or len(head) < 24:
            raise NoCapture("no pcap file; one of pcapng is made into one by: editcap -F pcap IN OUT")
        self.link = struct.unpack_from(self.order + "I", head, 20)[0] & 0xFFFF
        if self.link != ETHERNET and self.link not in LINK_BYTES:
            raise NoCapture(f"packets of link type {self.link} are not read")

    def packets(self):
        """The moment in milliseconds, the type of the link and the bytes of each packet."""
        while len(head := self.file.read(16)) == 16:
            second, fraction, length, _ = struct.unpack(self.order + "4I", head)
            packet = self.file.read(length)
            if len(packet) < length:
                break
            yield second * 1000 + fraction // self.unit, self.link, packet
        self.is_cut = bool(head)


def without_link(link, packet):
    if link != ETHERNET:
        return packet[LINK_BYTES[link]:]
    at = 12
    while int.from_bytes(packet[at:at + 2], "big") in VLAN_TAGS:
        at += 4
    if int.from_bytes(packet[at:at + 2], "big") not in IP_TYPES:
        raise OtherPacket
    return packet[at + 2:]


def ip_parts(packet):
    """The protocol, the two addresses and the rest of a packet of IP."""
    if not packet or len(packet) < (20 if packet[0] >> 4 == 4 else 40):
        raise OtherPacket
    protocol, source, target, rest = (read_ipv4 if packet[0] >> 4 == 4 else read_ipv6)(packet)
    return protocol, str(source), str(target), rest


def read_datagram(second, packet):
    """The datagram that a packet of IP holds."""
    protocol, source, target, rest = ip_parts(packet)
    if protocol != UDP:
        raise OtherPacket(is_stream=protocol == TCP)
    source_port, target_port, length = struct.unpack_from(">3H", rest)
    return Datagram(second, (source, source_port), (target, target_port), rest[8:length])


def read_ipv4(packet):
    length, fragment = struct.unpack_from(">2xH2xH", packet)
    # The first fragment of a packet holds its ports, and counts as a packet that is cut short.
    if fragment & 0x1FFF:
        raise OtherPacket
    # A capture of a machine's own packets may lack their length.
    rest = packet[(packet[0] & 15) * 4:length or None]
    return packet[9], ipaddress.IPv4Address(packet[12:16]), ipaddress.IPv4Address(packet[16:20]), rest


def read_ipv6(packet):
    if packet[0] >> 4 != 6:
        raise OtherPacket
    length = struct.unpack_from(">4xH", packet)[0]
    # Behind its end there may be a trailer of the link. A large packet of a machine's own has the length 0.
    following, rest = packet[6], packet[40:40 + length if length else None]
    while following in IPV6_OPTIONS:
        if following == FRAGMENT and struct.unpack_from(">2xH", rest)[0] >> 3:
            raise OtherPacket
        following, rest = rest[0], rest[(rest[1] + 1) * 8:]
    return following, ipaddress.IPv6Address(packet[8:24]), ipaddress.IPv6Address(packet[24:40]), rest
