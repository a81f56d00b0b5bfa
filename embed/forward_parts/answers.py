"""What clients are told: over real servers and over one that lies, by UDP and TCP, by IPv4 and IPv6."""
import contextlib
import os
import signal
import socket
import threading

import dns.flags
import dns.message

from live_parts import servers, stub, zone

from . import asking, bounds, hostile, many_clients
from .daemon import wait_until

WAYS = [(how, address) for how in (asking.by_udp, asking.by_tcp) for address in ("127.0.0.1", "::1")]
# Forged replies while a true one is late, and more names that nobody answers than clients of one address may wait.
FLOOD, SILENT, MOST_WAITING = 10_000, 400, 256


def facts(reply, rdtype):
    """The code, and the records of the type, as `said` of live_parts has them."""
    lines = [line.split() for rrset in reply.answer for line in rrset.to_text().split("\n")]
    return reply.rcode(), sorted([owner, *data] for owner, _, *data in lines if rdtype in data)


def over_servers(cases, daemon):
    """What each client is told is what the server itself says; a client asks again by TCP where a reply is cut."""
    for name in servers.SERVERS:
        with cases.guard(f"over {name}"), servers.running(name, daemon.folder) as server:
            questions = [question for question in zone.QUESTIONS if question[1]]
            with daemon.over(server, listens=("127.0.0.1", "::1")) as running:
                for how, address in WAYS:
                    for question in questions:
                        case = f"over {name}, {how.__name__} of {address}: {' '.join(question)}"
                        with cases.guard(case):
                            reply = how(running.port, *question, address=address, payload=4096)
                            if reply.flags & dns.flags.TC:
                                reply = asking.by_tcp(running.port, *question, address=address)
                            cases.equal(case, facts(reply, question[1]), many_clients.said(server.port, *question))


def nobody_there(cases, daemon):
    """Where nobody is at the first server the second is asked; its socket goes on."""
    with servers.nobody() as nobody, stub.running() as server:
        lines = [f"server 127.0.0.1 {nobody}", f"server 127.0.0.1 {server.port}", "option timeout 2"]
        with daemon.running(*lines) as running:
            for name, address in (("www", "192.0.2.1"), ("four", "192.0.2.4"), ("mail", "192.0.2.25")):
                found = asking.addresses(asking.by_udp(running.port, f"{name}.example.test"))
                cases.equal(f"{name}, where nobody is at the first server", found, [address])


def forged(cases, daemon):
    """Forged replies are not believed: of a server that lies, and ten thousand while the true one is late."""
    records = [*zone.RECORDS, "lied.example.test. 60 IN A 192.0.2.9", "late.example.test. 60 IN A 192.0.2.9"]
    with stub.running(records) as server:
        # (what is cut off ends the first try)
        lines = [f"server 127.0.0.1 {server.port}"] * 2 + ["option timeout 30"]
        with daemon.running(*lines) as running:
            found = asking.addresses(asking.by_udp(running.port, "lied.example.test"))
            cases.equal("a server that lies", found, ["192.0.2.9"])
            server.floods = FLOOD
            found = asking.addresses(asking.by_udp(running.port, "late.example.test"))
            cases.equal("a flood of forged replies", found, ["192.0.2.9"])


def truncated(cases, daemon):
    """Where the reply by UDP is cut the client is told so, and gets all by TCP; the server was asked by TCP, too."""
    many = sorted(f"10.1.0.{number}" for number in range(100))
    with stub.running([*zone.RECORDS, *(f"many.example.test. 60 IN A {address}" for address in many)]) as server:
        with daemon.over(server) as running:
            reply = asking.by_udp(running.port, "many.example.test", payload=4096)
            cases.equal("a reply that is cut by UDP", bool(reply.flags & dns.flags.TC), True)
            cases.equal("the same by TCP", asking.addresses(asking.by_tcp(running.port, "many.example.test")), many)
            by_stream = [asked[4] for asked in server.questions_for("many.example.test.")]
            cases.tell("its server was asked by TCP", True in by_stream, by_stream)


def closed_at_once(cases, daemon):
    """A server that replies by TCP and closes the connection, both before it is heard, was heard."""
    def serve(listener, pids):
        while True:
            connection, _ = listener.accept()
            with connection, connection.makefile("rb") as file:
                size = file.read(2)
                if not size:
                    return
                query = dns.message.from_wire(file.read(int.from_bytes(size, "big")))
                os.kill(pids[0], signal.SIGSTOP)
                reply = hostile.answered(query, (60, "IN", "A", "192.0.2.4"))
                connection.sendall(len(reply).to_bytes(2, "big") + reply)
            os.kill(pids[0], signal.SIGCONT)

    with socket.create_server(("127.0.0.1", 0)) as listener:
        pids = []
        thread = threading.Thread(target=serve, args=(listener, pids))
        thread.start()
        place = listener.getsockname()
        with daemon.running(f"server 127.0.0.1 {place[1]} tcp", "option attempts 1") as running:
            pids.append(running.pid)
            found = [asking.addresses(asking.by_udp(running.port, f"n{number}.example.test")) for number in range(5)]
            cases.equal("a server that closes at once", found, [["192.0.2.4"]] * 5)
        socket.create_connection(place).close()
        thread.join()


def silent(cases, daemon):
    """While many names wait for a server that is silent, what is kept is told."""
    with contextlib.ExitStack() as stack:
        upstream_sock = stack.enter_context(socket.socket(socket.AF_INET, socket.SOCK_DGRAM))
        upstream_sock.bind(("127.0.0.1", 0))
        upstream = bounds.Upstream(upstream_sock)
        port = upstream_sock.getsockname()[1]
        running = stack.enter_context(daemon.running(f"server 127.0.0.1 {port} udp", "option timeout 30"))
        crowd, client = (stack.enter_context(asking.datagrams(running.port)) for _ in range(2))
        client.send(asking.query("kept.example.test").to_wire())
        upstream.answer(upstream.hear(), (3600, "IN", "A", "192.0.2.1"))
        client.recv(512)
        codes = set()
        for number in range(SILENT):
            crowd.send(asking.query(f"s{number}.example.test").to_wire())
            if number % 20 == 0:
                client.send(asking.query("kept.example.test").to_wire())
                codes.add(asking.addresses(dns.message.from_wire(client.recv(512)))[0])
        cases.equal(f"a name that is kept, while {SILENT} others wait", codes, {"192.0.2.1"})
        waiting = wait_until(lambda: running.counts()["waiting"], "some wait")
        cases.tell("of the others no more wait than may", waiting <= MOST_WAITING, waiting)


def repeated(cases, daemon):
    """The same query sent again while it waits is replied to once; another client's, and another one, by themselves."""
    with contextlib.ExitStack() as stack:
        upstream_sock = stack.enter_context(socket.socket(socket.AF_INET, socket.SOCK_DGRAM))
        upstream_sock.bind(("127.0.0.1", 0))
        upstream = bounds.Upstream(upstream_sock)
        running = stack.enter_context(daemon.running(f"server 127.0.0.1 {upstream_sock.getsockname()[1]} udp"))
        one, other = (stack.enter_context(asking.datagrams(running.port)) for _ in range(2))
        wires = [asking.query("slow.example.test", id=number).to_wire() for number in (1, 2)]
        for sock, wire in ((one, wires[0]), (one, wires[0]), (one, wires[0]), (one, wires[1]), (other, wires[0])):
            sock.send(wire)
        wait_until(lambda: running.counts()["queries"] == 5, "all queries are there")
        upstream.answer(upstream.hear(), (60, "IN", "A", "192.0.2.1"))
        found = [[dns.message.from_wire(sock.recv(512)).id for _ in range(count)]
                 for sock, count in ((one, 2), (other, 1))]
        one.send(asking.query("slow.example.test", id=3).to_wire())
        found[0].append(dns.message.from_wire(one.recv(512)).id)
        cases.equal("a query sent three times", [sorted(found[0]), found[1]], [[1, 2, 3], [1]])


def burst(cases, daemon):
    """Queries that come while the program is held up are answered all the same."""
    clients, each = 8, 30
    with stub.running() as server, contextlib.ExitStack() as stack:
        running = stack.enter_context(daemon.over(server))
        socks = [stack.enter_context(asking.datagrams(running.port)) for _ in range(clients)]
        os.kill(running.pid, signal.SIGSTOP)
        for sock in socks:
            for number in range(each):
                sock.send(asking.query("four.example.test", id=number).to_wire())
        os.kill(running.pid, signal.SIGCONT)
        found = [sorted(dns.message.from_wire(sock.recv(512)).id for _ in range(each)) for sock in socks]
    cases.equal(f"{clients * each} queries at once", found, [list(range(each))] * clients)


def many_addresses(cases, daemon):
    """The reply comes from the address that was asked, of many of the machine."""
    with stub.running() as server, daemon.over(server, listens=("0.0.0.0", "::1")) as running:
        for address in ("127.0.0.1", "127.0.0.2", "127.1.2.3", "::1"):
            with cases.guard(f"a reply from {address}"):
                for how in (asking.by_udp, asking.by_tcp):
                    found = asking.addresses(how(running.port, "four.example.test", address=address))
                    cases.equal(f"{how.__name__} from {address}", found, ["192.0.2.4"])


ALL = (over_servers, nobody_there, forged, truncated, closed_at_once, silent, repeated, burst, many_addresses)
