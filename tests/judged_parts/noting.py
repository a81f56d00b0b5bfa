"""Both sides of a resolver, noted as they happen: its upstream, and a client that asks for all names of it."""
import re
import select
import socket
import struct
import threading
import time
from contextlib import ExitStack

import dns.exception
import dns.message
import dns.name
import dns.rcode
import dns.rdatatype
import dns.rrset

from live_parts.servers import ADDRESS
from yimarotu import records

ZONE = "judged.test."
SOA = f"ns.{ZONE} admin.{ZONE} 1 7200 900 1209600 3"
# For how long what was asked is waited for where nothing more comes, in seconds.
PATIENCE = 2.2
# How long it takes to ask for one name, in seconds: not faster than the upstream answers.
PACE = 0.0005
BUFFER = 1 << 22
# Not in Python's module: what the kernel says of when a datagram came, and a buffer of any size (asm-generic/socket.h).
SO_TIMESTAMPNS = 35
SO_RCVBUFFORCE = 33


def free_ports(count):
    """So many ports that are free for UDP and TCP, all different."""
    with ExitStack() as held:
        ports = []
        while len(ports) < count:
            datagrams = held.enter_context(socket.socket(socket.AF_INET, socket.SOCK_DGRAM))
            streams = held.enter_context(socket.socket())
            datagrams.bind((ADDRESS, 0))
            try:
                streams.bind(datagrams.getsockname())
            except OSError:
                continue
            ports.append(datagrams.getsockname()[1])
        return ports


class Notes:
    """A trace as it happens, and by how many seconds something was late in it."""

    def __init__(self):
        self.late = 0
        self._events, self._lock, self._start = [], threading.Lock(), time.monotonic()

    def note(self, verb, message, at=None):
        """Notes what happened now, or at a moment of the monotonic clock."""
        asked = message.question[0]
        question = f"{records.name_text(asked.name)} {records.type_word(asked.rdtype)} {records.class_word(asked.rdclass)}"
        code = "" if verb == "asked" else f" {records.code_word(message.rcode())}"
        behind = [] if verb == "asked" else records.section_lines(message)
        with self._lock:
            at = time.monotonic() if at is None else at
            moment = max(0, int((at - self._start) * 1000))
            line = f"at {moment // 1000}.{moment % 1000:03} {verb}{code} {question}"
            self._events.append((moment, [line, *behind, ""]))

    def note_late(self, seconds):
        with self._lock:
            self.late = max(self.late, seconds)

    def text(self):
        """The trace, in the order of its moments."""
        events = sorted(self._events, key=lambda event: event[0])
        return "\n".join(line for _, lines in events for line in lines) + "\n"


class Upstream:
    """Answers for every name of the zone: its first label says of what kind it is, and for how many seconds it may be
    kept. It is silent once `silent` is set."""

    def __init__(self, notes, port):
        self.notes, self.silent, self._ended = notes, False, False
        self._socket = socket.socket(socket.AF_INET, socket.SOCK_DGRAM)
        self._socket.bind((ADDRESS, port))
        widen(self._socket)
        self._socket.settimeout(0.2)
        self._thread = threading.Thread(target=self._serve)
        self._thread.start()

    def end(self):
        self._ended = True
        self._thread.join()
        self._socket.close()

    def _serve(self):
        while not self._ended:
            try:
                wire, peer = self._socket.recvfrom(4096)
                query = records.read_message(wire)
            except (socket.timeout, dns.exception.DNSException):
                continue
            self.notes.note("asked", query)
            if not self.silent:
                response = self.reply(query)
                # It is noted before it is sent, as nothing is told before it was received.
                self.notes.note("received", response)
                began = time.monotonic()
                self._socket.sendto(response.to_wire(), peer)
                self.notes.note_late(time.monotonic() - began)

    def reply(self, query):
        response = dns.message.make_response(query, recursion_available=True)
        question = query.question[0]
        # A resolver may spell it in capitals, and another way each time.
        kind = re.fullmatch(rb"(host|alias|gone)(\d+)-(\d+)", question.name.labels[0].lower())
        if kind is None or question.rdtype != dns.rdatatype.A or kind[1] == b"gone":
            # The TTL is the lesser of the record's own and its minimum (RFC 2308, section 3).
            response.authority = [dns.rrset.from_text(ZONE, 3, "IN", "SOA", SOA)]
            is_there = kind is not None and kind[1] != b"gone"
            response.set_rcode(dns.rcode.NOERROR if is_there else dns.rcode.NXDOMAIN)
            return response
        owner, ttl = question.name, int(kind[3])
        if kind[1] == b"alias":
            target = dns.name.from_text(f"host{int(kind[2])}-60.{ZONE}")
            response.answer.append(dns.rrset.from_text(owner, ttl, "IN", "CNAME", target.to_text()))
            owner, ttl = target, 60
        response.answer.append(dns.rrset.from_text(owner, ttl, "IN", "A", f"192.0.2.{int(kind[2]) % 250 + 1}"))
        return response


def names(count, longest):
    """So many names, with TTLs of up to so many seconds."""
    for number in range(count):
        kind = ("host", "host", "alias", "gone")[number % 4]
        yield dns.name.from_text(f"{kind}{number}-{number // 4 % longest + 1}.{ZONE}")


def receive(client):
    """A datagram, and the moment of the monotonic clock at which the kernel had it."""
    wire, ancillary, _, _ = client.recvmsg(4096, socket.CMSG_SPACE(16))
    now, at = time.time(), time.monotonic()
    for level, kind, stamp in ancillary:
        if level == socket.SOL_SOCKET and kind == SO_TIMESTAMPNS:
            seconds, nanoseconds = struct.unpack("@qq", stamp)
            return wire, at - max(0, now - seconds - nanoseconds / 1e9)
    return wire, at


def ask_all(notes, port, wanted, is_prompt):
    """Asks for each name once, and notes what is told. Where it is told at once, but for a machine that is busy, it is
    noted how late it was."""
    with socket.socket(socket.AF_INET, socket.SOCK_DGRAM) as client:
        client.setsockopt(socket.SOL_SOCKET, SO_TIMESTAMPNS, 1)
        widen(client)
        client.connect((ADDRESS, port))
        asked, told = {}, 0
        for name in wanted:
            query = dns.message.make_query(name, "A").to_wire()
            asked[name] = time.monotonic()
            client.send(query)
            told += note_told(notes, client, asked, PACE, is_prompt)
        while told < len(asked) and (new := note_told(notes, client, asked, PATIENCE, is_prompt)):
            told += new


def note_told(notes, client, asked, seconds, is_prompt):
    """Notes a response that comes within so many seconds: 1, or 0 where none came."""
    if not select.select([client], [], [], seconds)[0]:
        return 0
    wire, at = receive(client)
    try:
        told = records.read_message(wire)
    except dns.exception.DNSException:
        return 1
    notes.note("told", told, at)
    if is_prompt and told.rcode() in (dns.rcode.NOERROR, dns.rcode.NXDOMAIN):
        notes.note_late(at - asked[told.question[0].name])
    return 1


def widen(receiver):
    """Room for what comes while nothing is read: as much as the machine lets it have."""
    try:
        receiver.setsockopt(socket.SOL_SOCKET, SO_RCVBUFFORCE, BUFFER)
    except OSError:
        receiver.setsockopt(socket.SOL_SOCKET, socket.SO_RCVBUF, BUFFER)
