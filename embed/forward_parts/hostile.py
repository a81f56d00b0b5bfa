"""Octets that are no messages, from clients and from servers; and memory that runs out."""
import contextlib
import ctypes
import functools
import os
import random
import resource
import socket
import struct
import threading
import time
from pathlib import Path

import dns.message
import dns.rrset

from live_parts import stub

from . import asking
from .daemon import wait_until

DATAGRAMS, CONNECTIONS, NAMES = 5_000, 100, 100
# Memory that a program is out of whose cache may take more, after so many rounds of questions at the most; how many
# rounds are a part of them; the questions of a round; and for how many seconds a reply is waited for, as none may come
# where there is no memory for it.
MEMORY, ROUNDS, PART, EACH, PATIENCE = 16 << 20, 1_000, 10, 40, 3
# As the headers of the system have them: a call, options of sockets, and that what ICMP says does not count (ip(7)).
SYSTEM, PIDFD_GETFD = ctypes.CDLL(None, use_errno=True), 438
IP_MTU_DISCOVER, IPV6_MTU_DISCOVER, OMIT = 10, 23, 5
# For how many seconds a server may be silent, and within how many it is known that one is gone.
TIMEOUT, SOON = 60, 20


def spoiled(chance, wire):
    """Octets with some changed, cut, or put in."""
    wire = bytearray(wire)
    for _ in range(chance.randint(1, 4)):
        at = chance.randrange(len(wire)) if wire else 0
        what = chance.randrange(3)
        if what == 0 and wire:
            wire[at] = chance.randrange(256)
        elif what == 1:
            del wire[at:]
        else:
            wire[at:at] = chance.randbytes(chance.randint(1, 20))
    return bytes(wire)


def clients(cases, daemon):
    """Clients that send anything."""
    chance = random.Random(7)
    wires = [asking.query("four.example.test", rdtype).to_wire() for rdtype in ("A", "MX", "TXT")]
    with stub.running() as server, daemon.over(server, "option timeout 1", "option attempts 1") as running:
        with asking.datagrams(running.port) as sock:
            for number in range(DATAGRAMS):
                sock.send(spoiled(chance, chance.choice(wires)))
                if number % 50 == 0:
                    found = asking.addresses(asking.by_udp(running.port, "four.example.test"))
                    if found != ["192.0.2.4"]:
                        cases.equal(f"behind {number} datagrams of anything", found, ["192.0.2.4"])
        for _ in range(CONNECTIONS):
            with asking.stream(running.port) as sock, contextlib.suppress(ConnectionError):
                for _ in range(20):
                    wire = spoiled(chance, asking.pipelined(asking.query("four.example.test")))
                    sock.sendall(wire)
        found = [asking.addresses(how(running.port, "four.example.test")) for how in (asking.by_udp, asking.by_tcp)]
        cases.equal("behind clients that send anything", found, [["192.0.2.4"]] * 2)
        wait_until(lambda: running.counts()["waiting"] == 0, "none waits")


@contextlib.contextmanager
def upstream(answer, address="127.0.0.1", port=0):
    """A server by UDP, whose replies to a query are what is made of it."""
    with socket.socket(asking.family_of(address), socket.SOCK_DGRAM) as sock:
        sock.bind(asking.place(address, port))

        def serve():
            while True:
                wire, peer = sock.recvfrom(65535)
                if wire == b"end":
                    return
                for reply in answer(dns.message.from_wire(wire)):
                    sock.sendto(reply, peer)

        thread = threading.Thread(target=serve)
        thread.start()
        try:
            yield sock.getsockname()[1]
        finally:
            with socket.socket(sock.family, socket.SOCK_DGRAM) as other:
                other.sendto(b"end", sock.getsockname())
            thread.join()


def answered(query, *records):
    response = dns.message.make_response(query)
    response.answer = [dns.rrset.from_text(query.question[0].name, *record) for record in records]
    return response.to_wire()


def servers(cases, daemon):
    """A server that replies with anything, and at last with the answer."""
    chance = random.Random(8)

    def answer(query):
        wire = answered(query, (60, "IN", "A", "192.0.2.4"))
        return [spoiled(chance, wire) for _ in range(chance.randint(0, 5))] + [wire]

    with upstream(answer) as port, daemon.running(f"server 127.0.0.1 {port} udp", "option timeout 1") as running:
        with asking.datagrams(running.port) as sock:
            for number in range(NAMES):
                sock.send(asking.query(f"n{number}.example.test").to_wire())
            replies = [dns.message.from_wire(sock.recv(2048)) for _ in range(NAMES)]
        codes = {reply.rcode() for reply in replies}
        cases.tell(f"{NAMES} names of a server that replies with anything", codes <= {0, 2, 3}, codes)
        found = sum(asking.addresses(reply) == ["192.0.2.4"] for reply in replies)
        cases.tell("most have their address", found > NAMES // 2, found)
        cases.equal("the program is there", running.process.poll(), None)


def fill(sock, number):
    """Asks for names that nobody asked for so far, and waits for what is told of them, as long as something comes."""
    for each in range(EACH):
        sock.send(asking.query(f"n{number}x{each}.example.test", "TXT", payload=1232).to_wire())
    sock.settimeout(PATIENCE)
    with contextlib.suppress(TimeoutError):
        for _ in range(EACH):
            sock.recv(2048)


def keeps_all(sock, running, rounds):
    """Whether all that was asked is kept once these rounds of new names were asked, too. The cache may take more than
    that, so a name that is not kept is one for which there was no memory."""
    for number in rounds:
        fill(sock, number)
    return running.counts()["entries"] == 1 + EACH * rounds.stop


def without_memory(cases, daemon):
    """Where memory runs out it goes on, and answers once there is some again."""
    if daemon.name.endswith(".sanitized"):
        return
    text = " ".join(['"' + "x" * 250 + '"'] * 4)
    most = resource.getrlimit(resource.RLIMIT_AS)[1]
    limit = functools.partial(resource.setrlimit, resource.RLIMIT_AS, (MEMORY, most))
    with upstream(lambda query: [answered(query, (3600, "IN", "TXT", text))]) as port:
        lines = [f"server 127.0.0.1 {port} udp", "option attempts 1"]
        lines += ["option cache_octets 1073741824", "option greatest_ttl 86400"]
        with daemon.running(*lines, preexec_fn=limit) as running, asking.datagrams(running.port) as sock:
            first = asking.by_udp(running.port, "first.example.test", "TXT", payload=1232)
            cases.equal("before memory runs out", len(first.answer), 1)
            parts = (range(at, at + PART) for at in range(0, ROUNDS, PART))
            cases.tell("there is memory at first", keeps_all(sock, running, next(parts)), running.counts())
            cases.tell("memory runs out", not all(keeps_all(sock, running, part) for part in parts), running.counts())
            keeps_all(sock, running, range(ROUNDS, ROUNDS + PART))
            cases.equal("the program is there", running.process.poll(), None)
            resource.prlimit(running.pid, resource.RLIMIT_AS, (most, most))
            for name in ("first", "last"):
                again = asking.by_udp(running.port, f"{name}.example.test", "TXT", payload=1232)
                cases.equal(f"{name}, once there is memory again", (again.rcode(), len(again.answer)), (0, 1))


def short_of_memory(cases, daemon):
    """A stream that a server closed while there was no memory has failed once there is some, and not when its time ends."""
    # (the library for the sanitizers has to be the first that is loaded)
    if daemon.name.endswith(".sanitized"):
        return
    file = daemon.folder / f"short{time.monotonic_ns()}"
    file.write_bytes(bytes(24))
    environment = {**os.environ, "LD_PRELOAD": str(daemon.program.parent / "short_of_memory.so"), "SHORT": str(file)}
    with contextlib.ExitStack() as stack:
        listener = socket.create_server(("127.0.0.1", 0))
        place = listener.getsockname()
        lines = [f"server 127.0.0.1 {place[1]} tcp", f"option timeout {TIMEOUT}", "option attempts 0"]
        running = stack.enter_context(daemon.running(*lines, env=environment))
        client = stack.enter_context(asking.datagrams(running.port))
        client.send(asking.query("late.example.test").to_wire())
        numbers = stack.enter_context(file.open("r+b", buffering=0))
        with listener, listener.accept()[0] as connection:
            connection.recv(512)
            numbers.write(struct.pack("@Q", 1))
        wait_until(lambda: struct.unpack("@3Q", file.read_bytes())[1] > 0, "it is refused memory")
        began = time.monotonic()
        numbers.seek(0)
        numbers.write(struct.pack("@Q", 0))
        told, taken = asking.addresses(dns.message.from_wire(client.recv(512))), time.monotonic() - began
        is_right = told == "SERVFAIL" and taken < SOON
        cases.tell("a server that was gone while there was no memory", is_right, f"{told} after {taken} s")
        listener = stack.enter_context(socket.create_server(place))
        client.send(asking.query("back.example.test").to_wire())
        answer_next(listener)
        told = asking.addresses(dns.message.from_wire(client.recv(512)))
        cases.equal("a server that came again", told, ["192.0.2.4"])


def answer_next(listener):
    """Answers the first query of the next stream."""
    listener.settimeout(SOON)
    with listener.accept()[0] as connection:
        connection.settimeout(SOON)
        wire = answered(dns.message.from_wire(connection.recv(512)[2:]), (60, "IN", "A", "192.0.2.4"))
        connection.sendall(struct.pack(">H", len(wire)) + wire)


def without_room(cases, daemon):
    """A query for which the kernel had no room on a stream is sent on another, and not once a channel has closed."""
    if daemon.name.endswith(".sanitized"):
        return
    file = daemon.folder / f"short{time.monotonic_ns()}"
    file.write_bytes(struct.pack("@3Q", 0, 0, 1))
    environment = {**os.environ, "LD_PRELOAD": str(daemon.program.parent / "short_of_memory.so"), "SHORT": str(file)}
    with contextlib.ExitStack() as stack:
        listener = stack.enter_context(socket.create_server(("127.0.0.1", 0)))
        listener.settimeout(SOON)
        lines = [f"server 127.0.0.1 {listener.getsockname()[1]} tcp", f"option timeout {TIMEOUT}", "option attempts 0"]
        running = stack.enter_context(daemon.running(*lines, env=environment))
        client = stack.enter_context(asking.datagrams(running.port))
        client.send(asking.query("room.example.test").to_wire())
        first = stack.enter_context(listener.accept()[0])
        cases.equal("nothing comes on the first", first.recv(512), b"")
        answer_next(listener)
        told = asking.addresses(dns.message.from_wire(client.recv(512)))
        cases.equal("a query for which the kernel had no room", told, ["192.0.2.4"])


def sockets_of(pid):
    """Those of another program, as this one may look at them. Where the system lets none be had, that is an error."""
    process = os.pidfd_open(pid)
    try:
        for file in Path(f"/proc/{pid}/fd").iterdir():
            if not os.readlink(file).startswith("socket:"):
                continue
            fd = SYSTEM.syscall(PIDFD_GETFD, process, int(file.name), 0)
            if fd < 0:
                raise OSError(ctypes.get_errno(), "pidfd_getfd")
            with socket.socket(fileno=fd) as sock:
                yield sock
    finally:
        os.close(process)


def path_mtu_told(pid):
    """Of each socket for datagrams: its family, what it makes of the size of a path that ICMP tells, and whether it is
    connected. By one of IPv6 clients of IPv4 may come, too."""
    found = []
    for sock in sockets_of(pid):
        if sock.type != socket.SOCK_DGRAM or sock.family == socket.AF_UNIX:
            continue
        how = [sock.getsockopt(socket.IPPROTO_IP, IP_MTU_DISCOVER)]
        if sock.family == socket.AF_INET6:
            how.append(sock.getsockopt(socket.IPPROTO_IPV6, IPV6_MTU_DISCOVER))
        with contextlib.suppress(OSError):
            sock.getpeername()
            how.append("connected")
        found.append((sock.family.name, *how))
    return sorted(found, key=str)


def path_mtu(cases, daemon):
    """What ICMP says of the size of a path is believed by no socket for clients, and by none for servers."""
    listening = [("AF_INET", OMIT), ("AF_INET6", OMIT, OMIT)]
    for address, own in (("127.0.0.1", ("AF_INET", OMIT, "connected")), ("::1", ("AF_INET6", OMIT, OMIT, "connected"))):
        with contextlib.ExitStack() as stack:
            silent = stack.enter_context(socket.socket(asking.family_of(address), socket.SOCK_DGRAM))
            silent.bind((address, 0))
            silent.settimeout(SOON)
            lines = [f"server {address} {silent.getsockname()[1]} udp", f"option timeout {TIMEOUT}"]
            running = stack.enter_context(daemon.running(*lines, listens=("127.0.0.1", "::1")))
            client = stack.enter_context(asking.datagrams(running.port))
            client.send(asking.query("path.example.test").to_wire())
            silent.recv(512)
            wanted = sorted([*listening, own], key=str)
            cases.equal(f"sockets, with a server at {address}", path_mtu_told(running.pid), wanted)


ALL = (clients, servers, without_memory, short_of_memory, without_room, path_mtu)
