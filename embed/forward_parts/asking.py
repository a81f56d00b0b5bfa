"""Clients of the program."""
import contextlib
import socket
import struct

import dns.message
import dns.rcode

from .daemon import SECONDS


def query(name, rdtype="A", **how):
    return dns.message.make_query(name, rdtype, **how)


def family_of(address):
    return socket.AF_INET6 if ":" in address else socket.AF_INET


def place(address, port):
    """A place of a socket, with the scope of its address where that has one."""
    return socket.getaddrinfo(address, port, type=socket.SOCK_DGRAM)[0][4]


@contextlib.contextmanager
def datagrams(port, address="127.0.0.1", source=None):
    """A socket that hears what comes from this address alone."""
    with socket.socket(family_of(address), socket.SOCK_DGRAM) as sock:
        sock.setsockopt(socket.SOL_SOCKET, socket.SO_RCVBUF, 1 << 20)
        sock.settimeout(SECONDS)
        if source:
            sock.bind((source, 0))
        sock.connect(place(address, port))
        yield sock


def by_udp(port, name, rdtype="A", address="127.0.0.1", **how):
    with datagrams(port, address) as sock:
        sock.send(query(name, rdtype, **how).to_wire())
        return dns.message.from_wire(sock.recv(65535))


def stream(port, address="127.0.0.1", source=None):
    return socket.create_connection((address, port), SECONDS, source and (source, 0))


def pipelined(*queries):
    return b"".join(struct.pack(">H", len(wire)) + wire for wire in (it.to_wire() for it in queries))


def read_reply(file):
    """The next reply of a connection, or None where it has ended."""
    with contextlib.suppress(ConnectionError):
        size = file.read(2)
        if len(size) == 2:
            return dns.message.from_wire(file.read(int.from_bytes(size, "big")))
    return None


def by_tcp(port, name, rdtype="A", address="127.0.0.1", **how):
    with stream(port, address) as sock, sock.makefile("rb") as file:
        sock.sendall(pipelined(query(name, rdtype, **how)))
        return read_reply(file)


def addresses(reply):
    """The addresses of a reply, or its code where it has none."""
    found = sorted(data.to_text() for rrset in reply.answer for data in rrset if rrset.rdtype in (1, 28))
    return found or dns.rcode.to_text(reply.rcode())
