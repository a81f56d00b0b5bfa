"""Clients that ask for more than it has, and answers that are cut."""
import contextlib
import functools
import os
import socket
import struct
import time
from pathlib import Path

import dns.message
import dns.rcode
import dns.rrset

from live_parts import servers

SECONDS = 120
# For how many seconds a question is asked, where a server is to be silent meanwhile, and where it is given up soon.
PATIENT, QUICK = 60, 1
# For how long a server hears nothing until all questions have come.
QUIET = 0.3
KEPT = "kept.example.test."
# What one connection asks at once, of which it may have so many under way.
PIPELINED, MOST_UNDER_WAY = 3000, 128
# How many queries one address sends for one name at once, of which so many may wait.
CROWD, MOST_WAITING = 20_000, 256
# How many queries are sent before it is seen to that they have been taken.
STEP = 400
# More names than are looked up at once.
NAMES = 2_500
# How often an answer of so many octets is asked for, and by how many octets the program may grow.
LARGE, UNREAD, READ, MOST_GROWTH = 60_000, 2_000, 300, 16 << 20
# Queries of a datagram full of questions, and the seconds of a processor that they may take.
DATAGRAM, FULL, MOST_SECONDS = 4096, 100, 0.5


class Upstream:
    """A name server by UDP that answers when it is told to."""

    def __init__(self, sock):
        self._sock = sock
        self.text = f"{servers.ADDRESS} {sock.getsockname()[1]}"

    def hear(self, seconds=SECONDS):
        """The next question with whom it came from, or None."""
        self._sock.settimeout(seconds)
        try:
            wire, peer = self._sock.recvfrom(512)
        except TimeoutError:
            return None
        return dns.message.from_wire(wire), peer

    def hear_of(self, name, seconds):
        """The next question for a name with whom it came from, or None."""
        until = time.monotonic() + seconds
        while (left := until - time.monotonic()) > 0 and (asked := self.hear(left)):
            if asked[0].question[0].name.to_text() == name:
                return asked

    def hear_all(self):
        """How many questions come until none does for a while."""
        count = int(self.hear() is not None)
        while self.hear(QUIET):
            count += 1
        return count

    def answer(self, asked, *records):
        query, peer = asked
        response = dns.message.make_response(query)
        response.answer = [dns.rrset.from_text(query.question[0].name, *record) for record in records]
        self._sock.sendto(response.to_wire(), peer)

    def answer_bytes(self, asked, count, records):
        """Answers a question with so many records, as octets."""
        query, peer = asked
        wire = bytearray(dns.message.make_response(query, our_payload=0).to_wire()[: 12 + question_length(query)])
        wire[6:12] = struct.pack(">3H", count, 0, 0)
        self._sock.sendto(bytes(wire) + records, peer)


def question_length(query):
    return len(query.question[0].name.to_wire()) + 4


class Client:
    """Asks a forwarder by UDP."""

    def __init__(self, sock, port):
        self._sock = sock
        sock.setsockopt(socket.SOL_SOCKET, socket.SO_RCVBUF, 1 << 20)
        sock.settimeout(SECONDS)
        sock.connect((servers.ADDRESS, port))

    def send(self, *names):
        for name in names:
            self.send_bytes(query(name))

    def send_bytes(self, wire):
        self._sock.send(wire)

    def hear(self):
        return dns.message.from_wire(self._sock.recv(65535))

    def ask(self, name):
        """The response code of the reply to a query."""
        self.send(name)
        return self.hear().rcode()

    def count(self):
        """How many replies have come."""
        count = 0
        self._sock.setblocking(False)
        with contextlib.suppress(BlockingIOError):
            while self._sock.recv(512):
                count += 1
        self._sock.settimeout(SECONDS)
        return count


@functools.lru_cache(4)
def query(name, rdtype="A"):
    return dns.message.make_query(name, rdtype).to_wire()


def pipelined(*queries):
    return b"".join(struct.pack(">H", len(wire)) + wire for wire in queries)


def stream(port):
    return socket.create_connection((servers.ADDRESS, port), SECONDS)


def read_replies(sock, count):
    """So many replies of a connection, or those that come before it ends."""
    replies = []
    with sock.makefile("rb") as file, contextlib.suppress(ConnectionError):
        while len(replies) < count and len(size := file.read(2)) == 2:
            replies.append(file.read(int.from_bytes(size, "big")))
    return replies


def processor_seconds(process):
    fields = Path(f"/proc/{process.pid}/stat").read_text().rsplit(")", 1)[1].split()
    return (int(fields[11]) + int(fields[12])) / os.sysconf("SC_CLK_TCK")


def most_memory(process):
    """The most octets that it held."""
    status = Path(f"/proc/{process.pid}/status").read_text()
    return next(int(line.split()[1]) for line in status.splitlines() if line.startswith("VmHWM:")) << 10


def datagrams():
    return socket.socket(socket.AF_INET, socket.SOCK_DGRAM)


@contextlib.contextmanager
def running(daemon, timeout=PATIENT):
    """An upstream, a client, the port of the program between them, and its process; a name is kept already."""
    with contextlib.ExitStack() as stack:
        socks = [stack.enter_context(datagrams()) for _ in range(2)]
        socks[0].bind((servers.ADDRESS, 0))
        upstream = Upstream(socks[0])
        lines = [f"server {upstream.text}", f"option timeout {timeout}", "option attempts 2"]
        running = stack.enter_context(daemon.saying_nothing(*lines))
        client = Client(socks[1], running.port)
        client.send(KEPT)
        upstream.answer(upstream.hear(), (3600, "IN", "A", "192.0.2.1"))
        client.hear()
        yield upstream, client, running.port, running.process


def one_connection(cases, daemon):
    """One connection cannot take all places."""
    with running(daemon) as (upstream, client, port, _), stream(port) as sock:
        sock.sendall(pipelined(*(query(f"n{number}.example.test.") for number in range(PIPELINED))))
        count = upstream.hear_all()
        cases.tell(f"of {PIPELINED} queries of one connection a part is under way", 0 < count <= MOST_UNDER_WAY, count)
        client.send("other.example.test.")
        asked = upstream.hear_of("other.example.test.", SECONDS)
        if asked:
            upstream.answer(asked, (60, "IN", "A", "192.0.2.2"))
        cases.equal("another client is answered meanwhile", client.hear().rcode(), dns.rcode.NOERROR)


def one_name(cases, daemon):
    """Of a crowd that asks for one name, not all wait, and those that do are all answered."""
    with running(daemon) as (upstream, client, port, _), datagrams() as sock:
        crowd, codes = Client(sock, port), set()
        for number in range(CROWD):
            crowd.send_bytes(struct.pack(">H", number) + query("slow.example.test.")[2:])
            if (number + 1) % STEP == 0:
                codes.add(client.ask(KEPT))
        cases.equal(f"a name in the cache, while {CROWD} ask for another", codes, {dns.rcode.NOERROR})
        count = 0
        if asked := upstream.hear_of("slow.example.test.", SECONDS):
            upstream.answer(asked, (60, "IN", "A", "192.0.2.2"))
            while count < MOST_WAITING and crowd.hear().rcode() == dns.rcode.NOERROR:
                count += 1
            # (with this reply any more would have come)
            client.ask(KEPT)
            count += crowd.count()
        cases.equal(f"of {CROWD} clients that ask for one name so many wait", count, MOST_WAITING)


def no_place(cases, daemon):
    """A name in the cache needs no place."""
    with running(daemon) as (_, client, port, _), datagrams() as sock:
        crowd, codes = Client(sock, port), set()
        for at in range(0, NAMES, STEP):
            crowd.send(*(f"s{number}.example.test." for number in range(at, at + STEP)))
            codes.add(client.ask(KEPT))
        cases.equal(f"a name in the cache, while {NAMES} others wait", codes, {dns.rcode.NOERROR})


def many_questions(cases, daemon):
    """A message of many questions is refused by its header."""
    count = (DATAGRAM - 12) // 5
    wire = struct.pack(">6H", 7, 0x100, count, 0, 0, 0) + b"\0\0\1\0\1" * count
    with running(daemon) as (_, client, _, process):
        before, codes = processor_seconds(process), set()
        for _ in range(FULL):
            client.send_bytes(wire)
            codes.add(client.hear().rcode())
        taken = processor_seconds(process) - before
        cases.equal(f"{count} questions at once", codes, {dns.rcode.FORMERR})
        cases.tell(f"{FULL} messages of {count} questions", taken < MOST_SECONDS, f"took {taken} s of a processor")


def cut_answer(cases, daemon):
    """An answer that no message has room for is a failure."""
    name, count = "_many._tcp.example.test.", 3000
    # The target of each is the name that was asked, by a pointer: written whole they are more than a message holds.
    head, target = b"\xc0\x0c\0\x21\0\1\0\0\x0e\x10\0\x08", b"\xc0\x0c"
    records = b"".join(head + struct.pack(">3H", 0, 0, port) + target for port in range(count))
    with running(daemon, QUICK) as (upstream, _, port, _):
        for turn in ("first", "second"):
            with stream(port) as sock:
                sock.sendall(pipelined(query(name, "SRV")))
                if turn == "first":
                    upstream.answer_bytes(upstream.hear(), count, records)
                (reply,) = read_replies(sock, 1)
            found = dns.rcode.to_text(dns.rcode.from_flags(reply[3], 0)), int.from_bytes(reply[6:8], "big")
            cases.equal(f"an answer that no message has room for, {turn} time", found, ("SERVFAIL", 0))


def ask_for_large(upstream, sock, times):
    """Asks for a large name so many times at once, and answers once all have come that are under way."""
    sock.sendall(pipelined(*[query("large.example.test.", "TXT")] * times))
    asked = upstream.hear()
    if times > 1:
        time.sleep(QUIET)
    text = b"\xfa" + bytes(250)
    record = b"\xc0\x0c\0\x10\0\1\0\0\x0e\x10" + struct.pack(">H", len(text)) + text
    upstream.answer_bytes(asked, LARGE // len(record), record * (LARGE // len(record)))


def nothing_is_read(cases, daemon):
    """Answers for a client that reads none take a bounded room. Under the sanitizers that is not measured."""
    if daemon.name.endswith(".sanitized"):
        return
    with running(daemon) as (upstream, client, port, process), stream(port) as sock:
        before = most_memory(process)
        ask_for_large(upstream, sock, UNREAD)
        client.ask(KEPT)
        time.sleep(QUIET)
        grown = most_memory(process) - before
        cases.tell(f"{UNREAD} answers of {LARGE} octets that nobody reads", grown <= MOST_GROWTH, f"{grown} octets")


def all_that_is_read(cases, daemon):
    """A client that reads late gets all answers, however many it asked for at once."""
    with running(daemon) as (upstream, _, port, _):
        with stream(port) as sock:
            ask_for_large(upstream, sock, 1)
            (first,) = read_replies(sock, 1)
        with stream(port) as sock:
            sock.sendall(pipelined(*[query("large.example.test.", "TXT")] * READ))
            time.sleep(QUIET)
            replies = read_replies(sock, READ)
        found = len(replies), {len(reply) for reply in replies}
        cases.equal(f"{READ} answers of {LARGE} octets that are read late", found, (READ, {len(first)}))


ALL = (one_connection, one_name, no_place, many_questions, cut_answer, all_that_is_read, nothing_is_read)
