"""A name server of the test's own, in a thread: it counts what it is asked, is silent, and lies."""
import collections
import selectors
import socket
import struct
import threading
import time
from contextlib import contextmanager

import dns.flags
import dns.message
import dns.name
import dns.rcode
import dns.rdatatype
import dns.rrset

from . import zone
from .servers import ADDRESS, both_sockets

# How long it is quiet behind a flood, in seconds.
PAUSE = 0.5
# What the resolver must never believe.
LIE = "203.0.113.66"
OTHER_ADDRESS = "127.0.0.2"
SILENT = dns.name.from_text("silent.example.test.")
LIED = dns.name.from_text("lied.example.test.")
REFUSED = dns.name.from_text("refused.example.test.")
# A name of another zone, of which the reply says that it has the SOA record of this one, with this number.
STRAY, STRAY_SERIAL = dns.name.from_text("stray.other.test."), 666


class Stub:
    """Answers out of a list of records. An alias is answered alone: nothing is said of its target."""

    def __init__(self, records, port):
        self._records = collections.defaultdict(list)
        self._names = set()
        for record in records:
            name, ttl, rdclass, rdtype, data = record.split(None, 4)
            rrset = dns.rrset.from_text(name, int(ttl), rdclass, rdtype, data)
            self._records[rrset.name, rrset.rdtype].append(rrset)
            self._names.add(rrset.name)
        # How many forged replies come before the true one to a question for addresses, over a second.
        self.floods = 0
        # Each question that came, with its id, the port that it came from, and whether it was by TCP.
        self.asked = []
        self.port = port
        self.text = f"{ADDRESS}:{self.port}"

    def reply(self, query):
        response = dns.message.make_response(query, recursion_available=True)
        question = query.question[0]
        if question.name == REFUSED:
            response.set_rcode(dns.rcode.REFUSED)
            return response
        alias = self._records.get((question.name, dns.rdatatype.CNAME)) or self.substituted(question.name)
        response.answer = list(self._records.get((question.name, question.rdtype), alias))
        if question.name == STRAY:
            soa = f"ns.other.test. admin.other.test. {STRAY_SERIAL} 7200 900 1209600 240"
            response.authority = [dns.rrset.from_text("example.test.", 300, "IN", "SOA", soa)]
            response.set_rcode(dns.rcode.NXDOMAIN)
        elif not response.answer:
            response.authority = list(self._records[dns.name.from_text("example.test."), dns.rdatatype.SOA])
            response.set_rcode(dns.rcode.NOERROR if question.name in self._names else dns.rcode.NXDOMAIN)
        return response

    def substituted(self, name):
        """The DNAME record above a name, and the alias that it makes of it (RFC 6672, section 3.1)."""
        for above in (name.split(depth)[1] for depth in range(2, len(name.labels))):
            for rrset in self._records.get((above, dns.rdatatype.DNAME), []):
                target = name.relativize(above) + rrset[0].target
                return [rrset, dns.rrset.from_text(name, rrset.ttl, "IN", "CNAME", target.to_text())]
        return []

    def lies(self, query):
        """Replies with another id, another name, another type, no mark of a reply, an opcode that stands for nothing,
        and cut off: each with a false address."""
        question = query.question[0]

        def lie(name=question.name, rdtype=question.rdtype):
            response = dns.message.make_response(dns.message.make_query(name, rdtype, id=query.id))
            response.answer = [dns.rrset.from_text(question.name, 60, "IN", "A", LIE)]
            return response

        other_id, no_reply = lie(), lie()
        other_id.id ^= 1
        no_reply.flags &= ~dns.flags.QR
        others = (other_id, lie(dns.name.from_text("other.example.test.")), lie(rdtype="TXT"), no_reply)
        wire = lie().to_wire()
        no_opcode = wire[:2] + bytes([wire[2] & 0x87 | 13 << 3]) + wire[3:]
        return [*(response.to_wire() for response in others), no_opcode, wire[:-2]]

    def serve_datagram(self, sock):
        wire, peer = sock.recvfrom(65535)
        query = self.note(wire, peer, False)
        name = query.question[0].name
        if name == SILENT:
            return
        if name == LIED:
            for lie in self.lies(query):
                sock.sendto(lie, peer)
            self.lie_from_elsewhere(query, peer)
        if self.floods:
            self.flood(sock, query, peer)
        response = self.reply(query)
        wire = response.to_wire(max_size=65535)
        if len(wire) > (query.payload or 512):
            response.answer.clear()
            response.flags |= dns.flags.TC
            wire = response.to_wire()
        sock.sendto(wire, peer)

    def flood(self, sock, query, peer):
        """Sends what is forged for a second: from another port, from another address, and from here under other ids."""
        response = dns.message.make_response(query)
        response.answer = [dns.rrset.from_text(query.question[0].name, 60, "IN", "A", LIE)]
        wire, start = response.to_wire(), time.monotonic()
        with socket.socket(socket.AF_INET, socket.SOCK_DGRAM) as port, socket.socket(socket.AF_INET, socket.SOCK_DGRAM) as other:
            port.bind((ADDRESS, 0))
            other.bind((OTHER_ADDRESS, self.port))
            for number in range(self.floods):
                port.sendto(wire, peer)
                other.sendto(wire, peer)
                forged = (query.id + 1 + number) % 65536
                if forged != query.id:
                    sock.sendto(struct.pack(">H", forged) + wire[2:], peer)
                time.sleep(max(0, start + number / self.floods - time.monotonic()))
        # The system drops what comes to a socket that is full: the program gets time to read.
        time.sleep(PAUSE)

    def lie_from_elsewhere(self, query, peer):
        """The same reply with a false address, from another port and from another address of this machine."""
        response = dns.message.make_response(query)
        response.answer = [dns.rrset.from_text(query.question[0].name, 60, "IN", "A", LIE)]
        for source in ((ADDRESS, 0), (OTHER_ADDRESS, self.port)):
            with socket.socket(socket.AF_INET, socket.SOCK_DGRAM) as sock:
                sock.bind(source)
                sock.sendto(response.to_wire(), peer)

    def serve_stream(self, listener):
        connection, peer = listener.accept()
        with connection, connection.makefile("rb") as file:
            (length,) = struct.unpack(">H", file.read(2))
            reply = self.reply(self.note(file.read(length), peer, True)).to_wire(max_size=65535)
            connection.sendall(struct.pack(">H", len(reply)) + reply)

    def note(self, wire, peer, by_stream):
        query = dns.message.from_wire(wire)
        question = query.question[0]
        self.asked.append((question.name, question.rdtype, query.id, peer[1], by_stream))
        return query

    def questions_for(self, name):
        return [asked for asked in self.asked if asked[0] == dns.name.from_text(name)]


@contextmanager
def running(records=tuple(zone.RECORDS)):
    """A stub with these records, in a thread of its own."""
    wake, woken = socket.socketpair()
    with both_sockets() as (datagrams, streams), wake, woken:
        stub = Stub(records, datagrams.getsockname()[1])
        datagrams.setsockopt(socket.SOL_SOCKET, socket.SO_RCVBUF, 1 << 20)
        streams.listen()
        thread = threading.Thread(target=serve, args=(stub, datagrams, streams, woken))
        thread.start()
        try:
            yield stub
        finally:
            wake.send(b"end")
            thread.join()


def serve(stub, datagrams, streams, woken):
    with selectors.DefaultSelector() as selector:
        selector.register(datagrams, selectors.EVENT_READ, stub.serve_datagram)
        selector.register(streams, selectors.EVENT_READ, stub.serve_stream)
        selector.register(woken, selectors.EVENT_READ, None)
        while True:
            for key, _ in selector.select():
                if key.data is None:
                    return
                key.data(key.fileobj)
