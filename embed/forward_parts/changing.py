"""While clients ask: files that are read again, servers that change, a program that is killed, and a machine that slept."""
import contextlib
import os
import signal
import struct
import threading
import time

import dns.message

from live_parts import stub, zone

from . import asking, bounds, hostile
from .daemon import SECONDS, wait_until

CLIENTS, RELOADS = 6, 20
# It begins within so much of a processor; how long that takes depends on what else the machine does.
MOST_TO_BEGIN = 1
# For how many milliseconds a machine sleeps, which is longer than any answer lives here, or any question waits.
NIGHT, LIFE = 8 * 3600 * 1000, 3600
# For how many milliseconds it sleeps while a question is still waited for, and for how many a failure is kept.
NAP, FAILED = 20_000, 60_000
# For how long it stands still: for ten seconds more than the one within which it looks at the clock.
STOP = 12_000
# More connections than the program hears of at a time, and for how many milliseconds it stands still: for longer than one
# may be idle.
CONNECTIONS, STALL = 200, 15_000


class Client(threading.Thread):
    """Asks for names that nobody asked for yet, one at a time, until it is told to end; each third one by TCP."""

    def __init__(self, number, port):
        super().__init__()
        self.number, self.port, self.is_ended, self.replies, self.fault = number, port, False, [], None

    def run(self):
        try:
            if self.number % 3 == 0:
                with asking.stream(self.port) as sock, sock.makefile("rb") as file:
                    self.ask(lambda query: sock.sendall(asking.pipelined(query)), lambda: asking.read_reply(file))
            else:
                with asking.datagrams(self.port) as sock:
                    self.ask(lambda query: sock.send(query.to_wire()), lambda: dns.message.from_wire(sock.recv(512)))
        except OSError as error:
            self.fault = f"behind {len(self.replies)} replies: {error!r}"

    def ask(self, send, hear):
        while not self.is_ended:
            count = len(self.replies)
            query = asking.query(f"c{self.number}-{count}.example.test", id=count % 65536)
            send(query)
            reply = hear()
            is_own = reply is not None and query.is_response(reply)
            self.replies.append(str(asking.addresses(reply)) if is_own else f"not its own: {reply}")


@contextlib.contextmanager
def asking_clients(port):
    clients = [Client(number, port) for number in range(CLIENTS)]
    for client in clients:
        client.start()
    try:
        yield clients
    finally:
        for client in clients:
            client.is_ended = True
        for client in clients:
            client.join()


def answering(address):
    return lambda query: [hostile.answered(query, (60, "IN", "A", address))]


def under_load(cases, daemon):
    """While clients ask, files that are read again and other servers lose no query."""
    for processes in (1, 2):
        reload_under_load(cases, daemon, f"processes {processes}")


def reload_under_load(cases, daemon, line):
    servers = ("192.0.2.1", "192.0.2.2")
    with contextlib.ExitStack() as stack:
        ports = [stack.enter_context(hostile.upstream(answering(address))) for address in servers]
        running = stack.enter_context(daemon.running(f"server 127.0.0.1 {ports[0]}", "option timeout 30", line))
        lines = running.path.read_text()
        with asking_clients(running.port) as clients:
            for number in range(1, RELOADS + 1):
                running.path.write_text(lines.replace(f" {ports[0]}\n", f" {ports[number % 2]}\n") + f"# {number}\n")
                before = [len(client.replies) for client in clients]
                if number % 3:
                    done = running.control("reload")
                    if done[0]:
                        cases.equal("reload", done, (0, "", ""))
                else:
                    os.kill(running.pid, signal.SIGHUP)
                # (each client is replied to behind each reload)
                wait_until(lambda: all(client.fault or len(client.replies) > count + 1
                                       for client, count in zip(clients, before)), "clients are replied to")
        faults = [client.fault for client in clients if client.fault]
        what = f"{line}, {RELOADS} reloads"
        cases.equal(f"{what}: queries without a reply", faults, [])
        found = {reply for client in clients for reply in client.replies}
        cases.equal(f"{what}: what was told", found, {str([address]) for address in servers})
        last = asking.addresses(asking.by_udp(running.port, "last.example.test"))
        cases.equal(f"{what}: the last server is asked", last, [servers[RELOADS % 2]])
        cases.equal(f"{what}: none waits", running.counts()["waiting"], 0)


def killed(cases, daemon):
    """After kill -9 it begins again at once, at the same addresses."""
    with stub.running() as server:
        lines = [f"server 127.0.0.1 {server.port}"]
        with daemon.running(*lines, ends=-signal.SIGKILL) as running, asking.stream(running.port) as sock:
            sock.sendall(asking.pipelined(asking.query("four.example.test")))
            asking.by_udp(running.port, "four.example.test")
            os.kill(running.pid, signal.SIGKILL)
            running.process.wait()
            began = time.monotonic()
            with daemon.running(*lines, port=running.port) as again:
                found = asking.addresses(asking.by_udp(again.port, "four.example.test"))
                cases.equal("after kill -9", found, ["192.0.2.4"])
                taken, lasted = bounds.processor_seconds(again.process), time.monotonic() - began
                is_soon = taken < MOST_TO_BEGIN and lasted < 10 * MOST_TO_BEGIN
                cases.tell("it begins at once", is_soon, f"in {lasted} s, of which it ran for {taken} s")


class Machine:
    """A machine whose clock goes on while it sleeps, and which may be slow: sleeping.so tells the program so."""

    def __init__(self, folder, library):
        self._file = folder / f"slept{time.monotonic_ns()}"
        self._slept = self._late = self._sleeps = self._stood = 0
        self._tell()
        self.environment = {**os.environ, "LD_PRELOAD": str(library), "SLEPT": str(self._file)}

    def sleep(self, milliseconds):
        self._slept += milliseconds
        self._tell()

    def stand_still(self, milliseconds):
        """It does not sleep, but nothing runs for so long."""
        self._stood += milliseconds
        self._tell()

    def accept_late(self, milliseconds):
        """From now on it gives each connection so late."""
        self._late = milliseconds
        self._tell()

    def sleep_at_each_connection(self, milliseconds):
        """From now on it sleeps for so long when it gave one."""
        self._sleeps = milliseconds
        self._tell()

    def _tell(self):
        self._file.touch()
        with self._file.open("r+b", buffering=0) as file:
            file.write(struct.pack("@4Q", self._slept, self._late, self._sleeps, self._stood))


def slept(cases, daemon):
    """A machine that slept: what ran out meanwhile is asked anew, and who waited is told something, once."""
    # (the library for the sanitizers has to be the first that is loaded)
    if daemon.name.endswith(".sanitized"):
        return
    machine = Machine(daemon.folder, daemon.program.parent / "sleeping.so")
    records = [*zone.RECORDS, f"long.example.test. {LIFE} IN A 192.0.2.8"]
    with stub.running(records) as server, daemon.over(server, env=machine.environment) as running:
        for turn in ("before it slept", "when it slept"):
            for name in ("long", "nowhere", "third"):
                for _ in range(2):
                    reply = asking.by_udp(running.port, f"{name}.example.test")
                ttls = [rrset.ttl for rrset in (*reply.answer, *reply.authority)]
                if name == "long":
                    cases.tell(f"{name}, {turn}: its TTL as at first", min(ttls) > LIFE - SECONDS, ttls)
                asked = len(server.questions_for(f"{name}.example.test."))
                cases.equal(f"{name}, {turn}: how often it was asked", asked, 1 if turn == "before it slept" else 2)
            with asking.stream(running.port) as sock:
                machine.sleep(NIGHT)
                cases.equal(f"{turn}: a connection that was idle", sock.recv(1), b"")
    waits(cases, daemon, machine)


def waits(cases, daemon, machine):
    with contextlib.ExitStack() as stack:
        sock = stack.enter_context(bounds.datagrams())
        sock.bind(("127.0.0.1", 0))
        upstream = bounds.Upstream(sock)
        lines = [f"server {upstream.text} udp", "option timeout 30", "option attempts 1"]
        running = stack.enter_context(daemon.running(*lines, env=machine.environment))
        client, other = (stack.enter_context(asking.datagrams(running.port)) for _ in range(2))
        client.send(asking.query("late.example.test", id=7).to_wire())
        asked = upstream.hear()
        machine.sleep(NIGHT)
        upstream.answer(asked, (60, "IN", "A", "192.0.2.1"))
        reply = dns.message.from_wire(client.recv(512))
        told = asking.addresses(reply)
        cases.tell("a query that waited while it slept", reply.id == 7 and told in (["192.0.2.1"], "SERVFAIL"), reply)
        other.send(asking.query("new.example.test", id=8).to_wire())
        asked = upstream.hear_of("new.example.test.", SECONDS)
        upstream.answer(asked, (60, "IN", "A", "192.0.2.2"))
        cases.equal("a query when it slept", asking.addresses(dns.message.from_wire(other.recv(512))), ["192.0.2.2"])
        client.setblocking(False)
        with contextlib.suppress(BlockingIOError):
            cases.tell("that is told once", False, client.recv(512))
        cases.equal("none waits", running.counts()["waiting"], 0)


def stalled(cases, daemon):
    """What came on a connection while the program could not run is answered, however long that was."""
    if daemon.name.endswith(".sanitized"):
        return
    machine = Machine(daemon.folder, daemon.program.parent / "sleeping.so")
    with contextlib.ExitStack() as stack:
        server = stack.enter_context(stub.running())
        running = stack.enter_context(daemon.over(server, env=machine.environment))
        socks = [stack.enter_context(asking.stream(running.port)) for _ in range(CONNECTIONS)]
        # (one is that by which the counts are asked for)
        wait_until(lambda: running.counts()["connections"] == CONNECTIONS + 1, "all are taken in")
        with running.stopped():
            for sock in socks:
                sock.sendall(asking.pipelined(asking.query("localhost")))
            machine.sleep(STALL)
        replies = [asking.read_reply(stack.enter_context(sock.makefile("rb"))) for sock in socks]
        found = sum(reply is not None and asking.addresses(reply) == ["127.0.0.1"] for reply in replies)
        cases.equal(f"of {CONNECTIONS} connections so many are answered behind a stall", found, CONNECTIONS)


def stale(cases, daemon):
    """What ran out while the machine slept is told where its server is silent, and only where a setting says so."""
    if daemon.name.endswith(".sanitized"):
        return
    for line, wanted in (("option serves_stale 86400", (["192.0.2.1"], [30])), ("option serves_stale 0", ("SERVFAIL", []))):
        machine = Machine(daemon.folder, daemon.program.parent / "sleeping.so")
        with contextlib.ExitStack() as stack:
            sock = stack.enter_context(bounds.datagrams())
            sock.bind(("127.0.0.1", 0))
            upstream = bounds.Upstream(sock)
            lines = [f"server {upstream.text} udp", "option timeout 1", "option attempts 0", line]
            running = stack.enter_context(daemon.running(*lines, env=machine.environment))
            client = stack.enter_context(asking.datagrams(running.port))
            client.send(asking.query("late.example.test").to_wire())
            upstream.answer(upstream.hear(), (60, "IN", "A", "192.0.2.1"))
            client.recv(512)
            machine.sleep(NIGHT // 2)
            client.send(asking.query("late.example.test").to_wire())
            reply = dns.message.from_wire(client.recv(512))
            found = asking.addresses(reply), [rrset.ttl for rrset in reply.answer]
            cases.equal(f"{line}: what ran out, of a server that is silent", found, wanted)


@contextlib.contextmanager
def asked_for_late(daemon, machine):
    """Gives the program, a client whose query waits, and its server with the question that it was asked."""
    with contextlib.ExitStack() as stack:
        sock = stack.enter_context(bounds.datagrams())
        sock.bind(("127.0.0.1", 0))
        upstream = bounds.Upstream(sock)
        lines = [f"server {upstream.text} udp", "option timeout 30", "option attempts 0"]
        running = stack.enter_context(daemon.running(*lines, env=machine.environment))
        client = stack.enter_context(asking.datagrams(running.port))
        client.send(asking.query("late.example.test", id=7).to_wire())
        yield running, client, upstream, upstream.hear()


def left_in_socket(cases, daemon):
    """A reply that came while the machine slept is not used, though it was still waited for: its TTL would count from when
    it woke."""
    if daemon.name.endswith(".sanitized"):
        return
    machine = Machine(daemon.folder, daemon.program.parent / "sleeping.so")
    with asked_for_late(daemon, machine) as (running, client, upstream, asked):
        with running.stopped():
            upstream.answer(asked, (LIFE, "IN", "A", "192.0.2.1"))
            machine.sleep(NAP)
        # (it goes on, and then time ends what waits)
        asking.by_udp(running.port, "localhost")
        machine.sleep(NAP)
        asking.by_udp(running.port, "localhost")
        reply = dns.message.from_wire(client.recv(512))
        cases.equal("what is told of a reply that came while it slept", (reply.id, asking.addresses(reply)), (7, "SERVFAIL"))
        # (for longer than the failure is kept)
        machine.sleep(2 * FAILED)
        client.send(asking.query("late.example.test", id=8).to_wire())
        asked = upstream.hear_of("late.example.test.", SECONDS)
        cases.tell("it is asked for anew", asked is not None, asked)
        if asked is not None:
            upstream.answer(asked, (60, "IN", "A", "192.0.2.2"))
            reply = dns.message.from_wire(client.recv(512))
            cases.equal("what is told when it woke", (reply.id, asking.addresses(reply)), (8, ["192.0.2.2"]))


def left_between_events(cases, daemon):
    """The same where the machine slept between two events of which the program heard at once."""
    if daemon.name.endswith(".sanitized"):
        return
    machine = Machine(daemon.folder, daemon.program.parent / "sleeping.so")
    with asked_for_late(daemon, machine) as (running, client, upstream, asked):
        machine.sleep_at_each_connection(NAP)
        with running.stopped(), asking.stream(running.port):
            upstream.answer(asked, (LIFE, "IN", "A", "192.0.2.1"))
        # (it goes on, and then time ends what waits)
        asking.by_udp(running.port, "localhost")
        machine.sleep(NAP)
        asking.by_udp(running.port, "localhost")
        reply = dns.message.from_wire(client.recv(512))
        found = reply.id, asking.addresses(reply)
        cases.equal("what is told of a reply that came before it slept between two events", found, (7, "SERVFAIL"))


def left_while_it_stood(cases, daemon):
    """The same where the machine did not sleep, but the program stood still, whether or not it has a connection."""
    if daemon.name.endswith(".sanitized"):
        return
    for connections in (0, 1):
        machine = Machine(daemon.folder, daemon.program.parent / "sleeping.so")
        with contextlib.ExitStack() as stack:
            running, client, upstream, asked = stack.enter_context(asked_for_late(daemon, machine))
            for _ in range(connections):
                stack.enter_context(asking.stream(running.port))
            # (one is that by which the counts are asked for)
            wait_until(lambda: running.counts()["connections"] == connections + 1, "the connections are taken in")
            with running.stopped():
                upstream.answer(asked, (LIFE, "IN", "A", "192.0.2.1"))
                machine.stand_still(STOP)
            # (it goes on, and then time ends what waits)
            asking.by_udp(running.port, "localhost")
            machine.sleep(2 * NAP)
            asking.by_udp(running.port, "localhost")
            reply = dns.message.from_wire(client.recv(512))
            found = reply.id, asking.addresses(reply)
            what = f"what is told of a reply that came while it stood still, connections: {connections}"
            cases.equal(what, found, (7, "SERVFAIL"))


def stream_at_waking(cases, daemon):
    """A stream that is opened at waking, since time ended what was asked before, is not closed as one of before."""
    if daemon.name.endswith(".sanitized"):
        return
    machine = Machine(daemon.folder, daemon.program.parent / "sleeping.so")
    with contextlib.ExitStack() as stack:
        sock = stack.enter_context(bounds.datagrams())
        sock.bind(("127.0.0.1", 0))
        silent, server = bounds.Upstream(sock), stack.enter_context(stub.running())
        lines = [f"server {silent.text} udp", f"server 127.0.0.1 {server.port} tcp", "option timeout 30"]
        running = stack.enter_context(daemon.running(*lines, env=machine.environment))
        client = stack.enter_context(asking.datagrams(running.port))
        client.send(asking.query("four.example.test").to_wire())
        silent.hear()
        machine.sleep(2 * NAP)
        asking.by_udp(running.port, "localhost")
        found = asking.addresses(dns.message.from_wire(client.recv(512)))
        cases.equal("what is told by a stream that is opened at waking", found, ["192.0.2.4"])
        cases.equal("how often it is asked there", len(server.questions_for("four.example.test.")), 1)


ALL = (under_load, killed, slept, stalled, stale, left_in_socket, left_between_events, left_while_it_stood,
       stream_at_waking)
