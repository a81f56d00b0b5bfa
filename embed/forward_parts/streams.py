"""Clients by TCP: slow ones, ones that read nothing, and files that run out."""
import contextlib
import functools
import os
import re
import resource
import signal
import socket
import threading
import time

from live_parts import stub, zone

from . import asking, bounds
from .changing import Machine
from .daemon import SECONDS, wait_until

# Queries on one connection that reads nothing, and by how much the program may grow meanwhile.
UNREAD, MOST_GROWTH = 8_000, 16 << 20
DRIBBLERS, IDLE = 200, 10
# More connections than files, and the seconds of a processor that a second with them may take.
FILES, CONNECTIONS, MOST_AT_REST = 40, 80, 0.2
PIPELINED = 1_000
# How many connections one client has. How many always have something to be told, and for how many seconds a reply is
# waited for beside them at the most.
SHARE, GREEDY, MOST_WAITED = 256, 64, 0.5
# How many connections all clients have, and how many of each of some clients are more than that.
PLACES, CLIENTS, OF_EACH = 1008, range(2, 7), 210
# For how many seconds it is seen that no more queries come to wait.
QUIET = 0.5
NEWCOMERS = 100
# For how many milliseconds a connection is accepted.
LATE = 400


def slow(cases, daemon):
    """A client that sends an octet at a time, and one that reads none, keep out none."""
    with stub.running() as server, daemon.over(server) as running:
        wire = asking.pipelined(asking.query("four.example.test", id=9))
        with asking.stream(running.port) as slow_one, slow_one.makefile("rb") as file:
            slow_one.setsockopt(socket.IPPROTO_TCP, socket.TCP_NODELAY, 1)
            for at in range(len(wire)):
                slow_one.sendall(wire[at:at + 1])
                found = asking.addresses(asking.by_tcp(running.port, "four.example.test"))
                if found != ["192.0.2.4"]:
                    break
            cases.equal("a fast client beside a slow one", found, ["192.0.2.4"])
            reply = asking.read_reply(file)
            cases.equal("the slow one", reply and (reply.id, asking.addresses(reply)), (9, ["192.0.2.4"]))


def in_pieces(cases, daemon):
    """Queries that come cut anywhere, and many in one piece."""
    with stub.running() as server, daemon.over(server) as running:
        wire = asking.pipelined(*(asking.query("four.example.test", id=number) for number in range(PIPELINED)))
        with asking.stream(running.port) as sock, sock.makefile("rb") as file:
            for at in range(0, len(wire), 37):
                sock.sendall(wire[at:at + 37])
            found = sorted(asking.read_reply(file).id for _ in range(PIPELINED))
            cases.equal(f"{PIPELINED} queries in pieces", found, list(range(PIPELINED)))


def not_kept(cases, daemon):
    """Many names on one connection, none of them kept, are all answered."""
    records = [*zone.RECORDS, *(f"w{number}.example.test. 60 IN A 192.0.2.8" for number in range(PIPELINED))]
    with stub.running(records) as server, daemon.over(server, "option timeout 30") as running:
        queries = [asking.query(f"w{number}.example.test", id=number) for number in range(PIPELINED)]
        with asking.stream(running.port) as sock, sock.makefile("rb") as file:
            sock.sendall(asking.pipelined(*queries))
            replies = [asking.read_reply(file) for _ in queries]
        cases.equal(f"{PIPELINED} names: the replies", sorted(reply.id for reply in replies), list(range(PIPELINED)))
        found = {str(asking.addresses(reply)) for reply in replies}
        cases.equal(f"{PIPELINED} names: what they say", found, {"['192.0.2.8']"})


def unread(cases, daemon):
    """A client that reads nothing takes a bounded room, and others are answered."""
    with stub.running() as server, daemon.over(server) as running:
        asking.by_tcp(running.port, "big.example.test", "TXT")
        before = bounds.most_memory(running.process)
        with asking.stream(running.port) as sock:
            sock.setsockopt(socket.SOL_SOCKET, socket.SO_RCVBUF, 4096)
            sock.setblocking(False)
            wire = asking.pipelined(*(asking.query("big.example.test", "TXT", id=number) for number in range(UNREAD)))
            taken, still, until = 0, time.monotonic(), time.monotonic() + SECONDS
            with contextlib.suppress(ConnectionError):
                # (it is all sent, or the other end takes no more)
                while taken < len(wire) and time.monotonic() < until:
                    try:
                        taken += sock.send(wire[taken:])
                        still = time.monotonic()
                    except BlockingIOError:
                        if time.monotonic() - still > 1:
                            break
                        time.sleep(0.01)
            for how in (asking.by_udp, asking.by_tcp):
                found = asking.addresses(how(running.port, "four.example.test"))
                cases.equal(f"{how.__name__}, beside {UNREAD} queries of one that reads nothing", found, ["192.0.2.4"])
            grown = bounds.most_memory(running.process) - before
            if not daemon.name.endswith(".sanitized"):
                cases.tell(f"{UNREAD} replies that nobody reads", grown <= MOST_GROWTH, f"{grown} octets")
            wait_until(lambda: running.counts()["connections"] == 1, "its connection is closed, since it is idle")


def dribbling(cases, daemon):
    """Connections that dribble are closed once they are idle, and meanwhile others are answered."""
    with stub.running() as server, daemon.over(server) as running, contextlib.ExitStack() as stack:
        wire = asking.pipelined(asking.query("four.example.test"))
        socks = [stack.enter_context(asking.stream(running.port)) for _ in range(DRIBBLERS)]
        began, ended, rounds = time.monotonic(), set(), 0
        while len(ended) < len(socks) and time.monotonic() - began < SECONDS:
            for sock in socks:
                with contextlib.suppress(BlockingIOError):
                    sock.setblocking(False)
                    try:
                        # (the octets of one query last for longer than a connection may be idle)
                        if rounds < len(wire) - 1:
                            sock.send(wire[rounds:rounds + 1])
                        if sock.recv(1) == b"":
                            ended.add(sock)
                    except ConnectionError:
                        ended.add(sock)
            rounds += 1
            for how in (asking.by_udp, asking.by_tcp):
                found = asking.addresses(how(running.port, "four.example.test"))
                if found != ["192.0.2.4"]:
                    cases.equal(f"{how.__name__}, beside {DRIBBLERS} connections that dribble", found, ["192.0.2.4"])
            time.sleep(0.5)
        cases.equal(f"of {DRIBBLERS} connections that dribble all are closed", len(ended), DRIBBLERS)
        cases.tell("not before they were idle", time.monotonic() - began >= IDLE, time.monotonic() - began)


def half_closed(cases, daemon):
    """A client that sends no more gets its replies, also one that waits, and the end."""
    with stub.running() as server, daemon.over(server) as running:
        for name in ("four.example.test", "mail.example.test"):
            with asking.stream(running.port) as sock, sock.makefile("rb") as file:
                sock.sendall(asking.pipelined(asking.query(name, id=1), asking.query(name, id=2)))
                sock.shutdown(socket.SHUT_WR)
                found = [asking.read_reply(file) for _ in range(3)]
            ids = sorted(reply.id for reply in found if reply)
            cases.equal(f"half closed: {name}", (ids, found[2]), ([1, 2], None))
        with asking.stream(running.port) as sock:
            sock.sendall(b"\0")
            sock.shutdown(socket.SHUT_WR)
            cases.equal("half closed within a message", sock.recv(1), b"")


def gone(cases, daemon):
    """Clients that go keep their places until what they asked for fails, and leave nothing behind then."""
    with socket.socket(socket.AF_INET, socket.SOCK_DGRAM) as upstream:
        upstream.bind(("127.0.0.1", 0))
        lines = [f"server 127.0.0.1 {upstream.getsockname()[1]} udp", "option timeout 2", "option attempts 0"]
        with daemon.running(*lines) as running:
            for number in range(20):
                with asking.stream(running.port) as sock:
                    queries = [asking.query(f"g{number}.example.test", id=it) for it in range(10)]
                    sock.sendall(asking.pipelined(*queries))
                    wait_until(lambda: running.counts()["waiting"] > 0, "its queries wait")
                    sock.setsockopt(socket.SOL_SOCKET, socket.SO_LINGER, b"\1\0\0\0\0\0\0\0")
            wait_until(lambda: running.counts()["waiting"] == 0, "none waits any more")
            cases.equal("clients that are gone", running.counts()["waiting"], 0)


def no_files(cases, daemon):
    """It rests where there are more connections than files, and goes on when there are fewer."""
    limit = functools.partial(resource.setrlimit, resource.RLIMIT_NOFILE, (FILES, FILES))
    with stub.running() as server, daemon.over(server, preexec_fn=limit) as running:
        asking.by_udp(running.port, "four.example.test")
        with contextlib.ExitStack() as stack:
            for _ in range(CONNECTIONS):
                stack.enter_context(asking.stream(running.port))
            asking.by_udp(running.port, "four.example.test")
            before, began = bounds.processor_seconds(running.process), time.monotonic()
            time.sleep(2)
            taken = (bounds.processor_seconds(running.process) - before) / (time.monotonic() - began)
            cases.tell(f"{CONNECTIONS} connections, and {FILES} files", taken < MOST_AT_REST, f"{taken} of a processor")
            found = asking.addresses(asking.by_udp(running.port, "four.example.test"))
            cases.equal("a name in the cache, without files", found, ["192.0.2.4"])
        found = asking.addresses(asking.by_tcp(running.port, "four.example.test"))
        cases.equal("a connection, with files again", found, ["192.0.2.4"])
        found = asking.addresses(asking.by_udp(running.port, "www.example.test"))
        cases.equal("a name that is not in the cache, with files again", found, ["192.0.2.1"])


def many_connections(cases, daemon):
    """A client has its share of the places. Where all are taken, the connection that was idle for longest gives way."""
    with stub.running() as server, daemon.over(server) as running, contextlib.ExitStack() as stack:
        for _ in range(SHARE + 44):
            stack.enter_context(asking.stream(running.port))
        # (one is that by which the counts are asked for)
        wait_until(lambda: running.counts()["connections"] >= SHARE + 1, "all are taken in")
        cases.equal("a client has no more than its share", running.counts()["connections"], SHARE + 1)
        found = asking.addresses(asking.by_tcp(running.port, "four.example.test"))
        cases.equal("a connection more than its share", found, ["192.0.2.4"])
        for client in range(2, 7):
            for _ in range(160):
                stack.enter_context(asking.stream(running.port, source=f"127.0.0.{client}"))
        found = asking.addresses(asking.by_tcp(running.port, "four.example.test"))
        cases.equal("a connection more than there are places", found, ["192.0.2.4"])
        count = running.counts()["connections"]
        cases.tell("there are no more than places", 1000 < count <= PLACES + 1, count)


def waiting(running):
    """How many queries wait, as it is told without a connection."""
    told = running.said().count(" waiting=")
    os.kill(running.pid, signal.SIGUSR1)
    wait_until(lambda: running.said().count(" waiting=") > told, "it tells its counts")
    return int(re.findall(r" waiting=(\d+) ", running.said())[-1])


def all_wait(cases, daemon):
    """Where all connections wait for servers, yimarotu-control is answered, and one more client when one is closed."""
    with contextlib.ExitStack() as stack:
        silent = stack.enter_context(bounds.datagrams())
        silent.bind(("127.0.0.1", 0))
        lines = [f"server 127.0.0.1 {silent.getsockname()[1]} udp", f"option timeout {bounds.PATIENT}"]
        running, counts = stack.enter_context(daemon.running(*lines)), [0]

        def is_settled():
            time.sleep(QUIET)
            counts.append(waiting(running))
            return counts[-1] > 0 and counts[-1] == counts[-2]

        with contextlib.ExitStack() as connections:
            for client in CLIENTS:
                wire = asking.pipelined(asking.query(f"w{client}.example.test"))
                for _ in range(OF_EACH):
                    sock = connections.enter_context(asking.stream(running.port, source=f"127.0.0.{client}"))
                    # (it is closed with a reset)
                    sock.setsockopt(socket.SOL_SOCKET, socket.SO_LINGER, b"\1\0\0\0\0\0\0\0")
                    with contextlib.suppress(ConnectionError):
                        sock.sendall(wire)
            wait_until(is_settled, "no more queries come to wait")
            cases.equal(f"of {len(CLIENTS) * OF_EACH} connections so many wait", counts[-1], PLACES)
            status, told, error = running.control("statistics")
            cases.equal("yimarotu-control, while they do", (status, error), (0, ""))
            cases.tell("there are as many as places", f"connections={PLACES + 1}" in told.splitlines(), told)
            sock = stack.enter_context(asking.stream(running.port, source="127.0.0.9"))
            sock.sendall(asking.pipelined(asking.query("localhost")))
        reply = asking.read_reply(stack.enter_context(sock.makefile("rb")))
        cases.equal("one more client, when they are closed", reply and asking.addresses(reply), ["127.0.0.1"])


def heard_meanwhile(cases, daemon):
    """Something comes of the one connection that would give way, while another one is accepted: that one is closed."""
    if daemon.name.endswith(".sanitized"):
        return
    machine = Machine(daemon.folder, daemon.program.parent / "sleeping.so")
    with contextlib.ExitStack() as stack:
        silent = stack.enter_context(bounds.datagrams())
        silent.bind(("127.0.0.1", 0))
        lines = [f"server 127.0.0.1 {silent.getsockname()[1]} udp", f"option timeout {bounds.PATIENT}"]
        running = stack.enter_context(daemon.running(*lines, env=machine.environment))
        idle = stack.enter_context(asking.stream(running.port))
        for number in range(PLACES - 1):
            client = CLIENTS[number % len(CLIENTS)]
            sock = stack.enter_context(asking.stream(running.port, source=f"127.0.0.{client}"))
            sock.sendall(asking.pipelined(asking.query(f"w{client}.example.test")))
        wait_until(lambda: running.counts()["waiting"] == PLACES - 1, "all others wait")
        machine.accept_late(LATE)
        newcomer = stack.enter_context(asking.stream(running.port, source="127.0.0.9"))
        time.sleep(LATE / 4000)
        idle.sendall(b"\0")
        with contextlib.suppress(ConnectionError):
            cases.equal("one more, when it was accepted", newcomer.recv(1), b"")
        machine.accept_late(0)
        found = asking.addresses(asking.by_udp(running.port, "localhost"))
        cases.equal("a client by UDP, behind that", found, ["127.0.0.1"])


def is_answered(sock):
    with contextlib.suppress(ConnectionError), sock.makefile("rb") as file:
        return asking.read_reply(file) is not None
    return False


def asked_while_stopped(cases, daemon):
    """Connections whose queries came while the program could not run give way to no newcomers of the same client."""
    with stub.running() as server, daemon.over(server) as running, contextlib.ExitStack() as stack:
        wire = asking.pipelined(asking.query("localhost"))
        socks = [stack.enter_context(asking.stream(running.port)) for _ in range(SHARE)]
        for sock in socks:
            sock.sendall(wire)
        cases.equal("each of a client's connections is answered", sum(map(is_answered, socks)), SHARE)
        with running.stopped():
            for _ in range(NEWCOMERS):
                stack.enter_context(asking.stream(running.port))
            for sock in socks:
                sock.sendall(wire)
        cases.equal(f"again, though {NEWCOMERS} more came meanwhile", sum(map(is_answered, socks)), SHARE)


def write_and_read(socks, is_over):
    """Writes queries without a question to each connection, and reads what is told of them, without end."""
    wire = (b"\0\x0c" + bytes(12)) * 2_000
    sent = [0] * len(socks)
    while not is_over.is_set():
        for at, sock in enumerate(socks):
            with contextlib.suppress(BlockingIOError, ConnectionError):
                sent[at] = (sent[at] + sock.send(wire[sent[at]:])) % len(wire)
            with contextlib.suppress(BlockingIOError, ConnectionError):
                sock.recv(1 << 16)


def greedy(cases, daemon):
    """Connections that always have something to be told keep nobody out."""
    with stub.running() as server, daemon.over(server) as running, contextlib.ExitStack() as stack:
        socks = [stack.enter_context(asking.stream(running.port)) for _ in range(GREEDY)]
        for sock in socks:
            sock.setblocking(False)
        is_over = threading.Event()
        writer = threading.Thread(target=write_and_read, args=(socks, is_over))
        writer.start()
        try:
            waited = []
            for number in range(100):
                began = time.monotonic()
                found = asking.addresses(asking.by_udp(running.port, "four.example.test"))
                waited.append(time.monotonic() - began)
                if found != ["192.0.2.4"]:
                    cases.equal(f"beside {GREEDY} connections that are greedy", found, ["192.0.2.4"])
            told = f"the longest of {len(waited)} took {max(waited):.3f} s"
            cases.tell(f"beside {GREEDY} connections that are greedy", max(waited) < MOST_WAITED, told)
        finally:
            is_over.set()
            writer.join()


ALL = (slow, in_pieces, not_kept, unread, dribbling, half_closed, gone, no_files, many_connections, all_wait,
       heard_meanwhile, asked_while_stopped, greedy)
