"""A name server of the tests' own, in a thread: slow, silent, lying, truncating, with replies that it holds until it is
told, and with streams that close. It writes messages by hand (RFC 1035, section 4), and counts what it is asked."""
import contextlib
import ipaddress
import os
import select
import socket
import struct
import threading
import time
import unittest.mock
from dataclasses import dataclass

import yimarotu
from yimarotu import _driven

ADDRESS, OTHER_ADDRESS = "127.0.0.1", "127.0.0.2"
LIE = "203.0.113.66"
TYPES = {
    "A": 1, "NS": 2, "CNAME": 5, "SOA": 6, "PTR": 12, "MX": 15, "TXT": 16, "AAAA": 28, "SRV": 33, "HTTPS": 65,
    "CAA": 257,
}
NOERROR, SERVFAIL, NXDOMAIN, REFUSED = 0, 2, 3, 5
SLOW = 0.4
# What takes longer will not come, in seconds.
LONG = 30
# For how many nanoseconds a machine sleeps: for longer than any question waits, and while it waits.
NIGHT, NAP = 8 * 3600 * 10**9, 2 * 10**9


def name_octets(name):
    labels = [label.encode() for label in name.rstrip(".").split(".") if label]
    return b"".join(bytes([len(label)]) + label for label in labels) + b"\0"


def numbers(form, *values):
    return struct.pack(f">{form}", *values)


def texts(*strings):
    return b"".join(bytes([len(string)]) + string for string in strings)


def address(text):
    return ipaddress.ip_address(text).packed


SOA = name_octets("ns.example.test") + name_octets("admin.example.test") + numbers("5I", 1, 7200, 900, 1209600, 240)
BIG = [bytes([letter]) * 200 for letter in b"abcdefgh"]
# Names with their records: a type, a TTL, and data.
ZONE = {
    "www": [("A", 60, address("192.0.2.1")), ("AAAA", 60, address("2001:db8::1"))],
    "four": [("A", 60, address("192.0.2.4"))],
    "zero": [("A", 0, address("192.0.2.5"))],
    "alias": [("CNAME", 60, name_octets("www.example.test"))],
    "third": [("CNAME", 50, name_octets("alias.example.test"))],
    "": [
        ("SOA", 300, SOA),
        ("NS", 60, name_octets("ns.example.test")),
        ("MX", 60, numbers("H", 10) + name_octets("mail.example.test")),
        ("MX", 60, numbers("H", 20) + name_octets("backup.example.test")),
        ("TXT", 60, texts(b"v=spf1 -all", b"two words")),
        ("CAA", 60, b"\0\5issueca.example"), ("HTTPS", 60, b"\0\1\0"),
    ],
    "_imap._tcp": [("SRV", 60, numbers("3H", 10, 5, 143) + name_octets("mail.example.test"))],
    "big": [("TXT", 60, texts(*BIG))],
    "closes": [("A", 60, address("192.0.2.7"))],
    "cut": [("A", 60, address("192.0.2.8"))],
    "lied": [("A", 60, address("192.0.2.9"))],
    "slow": [("A", 60, address("192.0.2.10"))],
    "held": [("A", 60, address("192.0.2.12"))],
    "xn--bcher-kva": [("A", 60, address("192.0.2.11"))],
}
APEX = "example.test."


def records_of(name):
    """The records of a name; None where there is no such name. A name as `n7.` has the address 10.0.0.7."""
    if name != APEX and not name.endswith("." + APEX):
        return None
    first = name[: -len(APEX)].rstrip(".")
    if first[:1] == "n" and first[1:].isdecimal():
        return [("A", 60, (0x0A000000 + int(first[1:])).to_bytes(4, "big"))]
    return ZONE.get(first)


@dataclass(frozen=True)
class Query:
    """What is asked, and by what way."""

    octets: bytes
    name: str
    type: int
    by_stream: bool
    port: int

    @property
    def first(self):
        return self.name.split(".")[0]


def read_query(octets, by_stream, port):
    at, labels = 12, []
    while octets[at]:
        labels.append(octets[at + 1 : at + 1 + octets[at]].decode().lower())
        at += 1 + octets[at]
    return Query(octets[: at + 5], ".".join(labels) + ".", struct.unpack_from(">H", octets, at + 1)[0], by_stream, port)


def reply(query, code=NOERROR, answers=(), is_cut=False, authorities=b"", count=0):
    flags = 0x8180 | code | (0x0200 if is_cut else 0)
    head = query.octets[:2] + numbers("5H", flags, 1, len(answers), count, 0)
    records = b"".join(b"\xc0\x0c" + record(*it) for it in answers)
    return head + query.octets[12:] + records + authorities


def record(kind, ttl, data):
    return numbers("HHIH", TYPES[kind], 1, ttl, len(data)) + data


def true_reply(query):
    if query.first == "refused":
        return reply(query, REFUSED)
    if query.first == "servfail":
        return reply(query, SERVFAIL)
    records = records_of(query.name)
    soa = name_octets(APEX) + record("SOA", 300, SOA)
    if records is None:
        return reply(query, NXDOMAIN, authorities=soa, count=1)
    answers = [it for it in records if TYPES[it[0]] == query.type] or [it for it in records if it[0] == "CNAME"]
    whole = reply(query, answers=answers) if answers else reply(query, authorities=soa, count=1)
    is_cut = not query.by_stream and (len(whole) > 1232 or query.first in ("cut", "closes"))
    return reply(query, is_cut=True) if is_cut else whole


class Server:
    """Answers at a port of its own."""

    def __init__(self, port):
        self.port, self.asked, self._late, self._held, self._closed = port, [], [], [], 0
        self.text = f"{ADDRESS}:{port}"

    def count(self, first=None):
        return sum(first is None or query.first == first for query in self.asked)

    def wait_for(self, first, count):
        """Until it has been asked so often for this."""
        wait_until(lambda: self.count(first) >= count, f"it is asked for {first}, {count} times")

    def release(self):
        """Sends the replies that it holds."""
        held, self._held = self._held, []
        self._late += held

    def serve_datagram(self, sock):
        octets, peer = sock.recvfrom(65535)
        query = read_query(octets, False, peer[1])
        late = time.monotonic() + (SLOW if query.first == "slow" else 0), true_reply(query), peer
        if query.first == "held":
            self._held.append(late)
        # (who waits until it is asked may have it release at once)
        self.asked.append(query)
        if query.first == "lied":
            self._lie(sock, query, peer)
        if query.first == "slow":
            self._late.append(late)
        elif query.first not in ("held", "silent"):
            sock.sendto(true_reply(query), peer)

    def _lie(self, sock, query, peer):
        """With another id, another question, no mark of a reply; and the whole from another port and another
        address."""
        lie = reply(query, answers=[("A", 60, address(LIE))])
        sock.sendto(bytes([lie[0] ^ 1]) + lie[1:], peer)
        sock.sendto(lie.replace(b"lied", b"died"), peer)
        sock.sendto(lie[:2] + b"\1\0" + lie[4:], peer)
        sock.sendto(lie[:9], peer)
        for source in ((ADDRESS, 0), (OTHER_ADDRESS, self.port)):
            with socket.socket(socket.AF_INET, socket.SOCK_DGRAM) as other:
                other.bind(source)
                other.sendto(lie, peer)

    def send_late(self, sock):
        """How long until the next one is due."""
        moment = time.monotonic()
        for due in [it for it in self._late if it[0] <= moment]:
            self._late.remove(due)
            sock.sendto(due[1], due[2])
        return min((it[0] - moment for it in self._late), default=None)

    def serve_stream(self, listener):
        connection, peer = listener.accept()
        connection.settimeout(5)
        with connection, connection.makefile("rb") as file, contextlib.suppress(OSError):
            while True:
                head = file.read(2)
                if len(head) < 2:
                    return
                query = read_query(file.read(int.from_bytes(head, "big")), True, peer[1])
                self.asked.append(query)
                if query.first == "closes" and self._closed < 1:
                    self._closed += 1
                    return
                octets = true_reply(query)
                octets = numbers("H", len(octets)) + octets
                step = 1 if query.first == "cut" else len(octets)
                for at in range(0, len(octets), step):
                    connection.sendall(octets[at : at + step])


@contextlib.contextmanager
def sleeping_machine():
    """Gives what has the clock of the package go on as that of a machine that sleeps, for a night or for so long."""
    clock, slept = _driven._clock, 0

    def told(which):
        return clock(which) + (slept if which == time.CLOCK_BOOTTIME else 0)

    def sleep(nanoseconds=NIGHT):
        nonlocal slept
        slept += nanoseconds

    with unittest.mock.patch.object(_driven, "_clock", told):
        yield sleep


def runs_out_of_memory(session, call, times, behind=None):
    """From now on a call of a session raises so often that no memory is left: behind an action of a kind, where one is
    said, else at once."""
    calls, behind_it = getattr(session, call), behind is None

    def called(*words):
        nonlocal times, behind_it
        if behind_it and times:
            times -= 1
            raise yimarotu.OutOfMemory("no memory was left")
        told = calls(*words)
        behind_it = behind_it or told.kind == behind
        return told

    setattr(session, call, called)


def wait_until_readable(sock):
    if not select.select([sock], [], [], LONG)[0]:
        raise AssertionError("nothing came")


@contextlib.contextmanager
def nobody():
    """A port at which nobody is: a socket has it that hears itself alone."""
    with socket.socket(socket.AF_INET, socket.SOCK_DGRAM) as sock:
        sock.bind((ADDRESS, 0))
        sock.connect(sock.getsockname())
        yield sock.getsockname()[1]


def free_port():
    """A port that is free for UDP and TCP."""
    while True:
        with socket.socket(socket.AF_INET, socket.SOCK_DGRAM) as datagrams, socket.socket() as streams:
            datagrams.bind((ADDRESS, 0))
            try:
                streams.bind(datagrams.getsockname())
            except OSError:
                continue
            return datagrams.getsockname()[1]


@contextlib.contextmanager
def running():
    """A server, in threads of its own: one for datagrams, one for streams."""
    server, ending = Server(free_port()), threading.Event()
    with socket.socket(socket.AF_INET, socket.SOCK_DGRAM) as datagrams, socket.socket() as streams:
        datagrams.setsockopt(socket.SOL_SOCKET, socket.SO_RCVBUF, 1 << 21)
        datagrams.bind((ADDRESS, server.port))
        streams.setsockopt(socket.SOL_SOCKET, socket.SO_REUSEADDR, 1)
        streams.bind((ADDRESS, server.port))
        streams.listen()
        threads = [threading.Thread(target=serve, args=it, daemon=True) for it in (
            (datagrams, server.serve_datagram, ending, lambda: server.send_late(datagrams)),
            (streams, server.serve_stream, ending, lambda: None),
        )]
        for thread in threads:
            thread.start()
        try:
            yield server
        finally:
            ending.set()
            for thread in threads:
                thread.join()


def serve(sock, handle, ending, wait):
    while not ending.is_set():
        due = wait()
        if select.select([sock], [], [], 0.05 if due is None else max(0, min(due, 0.05)))[0]:
            handle(sock)


def wait_until(is_so, what):
    until = time.monotonic() + LONG
    while not is_so():
        if time.monotonic() > until:
            raise AssertionError(f"in vain: {what}")
        time.sleep(0.02)


def counted(count, wanted):
    """What is counted. Where a number is wanted, it is waited for: the server has its time to close its streams."""
    if wanted is not None:
        wait_until(lambda: count() == wanted, f"{wanted} are there")
    return count()


def sockets(wanted=None):
    """How many sockets this process has."""
    def count():
        places = [f"/proc/self/fd/{fd}" for fd in os.listdir("/proc/self/fd")]
        return sum(os.readlink(place).startswith("socket:") for place in places if os.path.lexists(place))

    return counted(count, wanted)


def descriptors(wanted=None):
    """How many files this process has open."""
    return counted(lambda: len(os.listdir("/proc/self/fd")), wanted)


def free_descriptor():
    """The number of the next file that is opened."""
    fd = os.open("/dev/null", os.O_RDONLY)
    os.close(fd)
    return fd
