"""Many clients at once, over a server that counts, and what each is told."""
import asyncio
import contextlib
import os
import random
import signal
import socket
import struct
import time

import dns.flags
import dns.message
import dns.name
import dns.query
import dns.rcode
import dns.rdatatype

from live_parts import lookups, servers, stub, zone

CLIENTS, ADDRESSES, ALIASES, ABSENT = 20, 120, 60, 20
# How many clients ask for each name.
ASKERS = 2
SECONDS = 120
# A server that is silent is given up soon.
QUICK = ("option timeout 1", "option attempts 2")
# Types whose codes are those of a letter, large and small; the first is HTTPS (RFC 9460, section 14.1).
TYPES = (65, 97)
SOA = dns.rdatatype.SOA


def zone_records():
    """Addresses, and aliases of them: of each fourth alias the target is an alias too."""
    yield from zone.RECORDS
    for number in range(ADDRESSES):
        yield f"n{number}.example.test. 300 IN A 10.0.0.{number}"
    for number in range(ALIASES):
        target = f"a{number - 1}" if number % 4 == 3 else f"n{number}"
        yield f"a{number}.example.test. 300 IN CNAME {target}.example.test."
    yield "gone.example.test. 300 IN CNAME absent.example.test."
    yield "moved.example.test. 300 IN DNAME example.test."
    yield from (f"types.example.test. 300 IN TYPE{number} \\# 3 000100" for number in TYPES)


def wanted():
    """For each name its address, or None where there is none."""
    names = {f"n{number}": f"10.0.0.{number}" for number in range(ADDRESSES)}
    names.update({f"a{number}": f"10.0.0.{number - (number % 4 == 3)}" for number in range(ALIASES)})
    names.update({f"absent{number}": None for number in range(ABSENT)})
    return {dns.name.from_text(f"{name}.example.test."): address for name, address in names.items()}


def many_at_once(cases, daemon):
    """Many clients at once, over a server that counts."""
    with stub.running(list(zone_records())) as server:
        with daemon.saying_nothing(f"server 127.0.0.1 {server.port}", *QUICK) as running:
            port, process = running.port, running.process
            one_name(cases, server, port)
            many_clients(cases, server, port)
            replies(cases, server, port)
            aliases(cases, server, port)
            substituted(cases, port)
            types(cases, port, process)
            zones(cases, port)
            malformed(cases, port)
            cases.equal("the program is still there", process.poll(), None)


def said(port, name, rdtype):
    """The response code and the records, without TTLs, which go down, and without the aliases that lead to them."""
    rcode, lines = lookups.direct(port, name, rdtype)
    records = [line.split() for line in lines]
    return rcode, sorted([owner, *data] for owner, _, *data in records if rdtype in data)


def one_name(cases, server, port):
    """Clients that ask for the same at once share a question."""
    query = dns.message.make_query("four.example.test", "A")
    started = time.monotonic()
    with contextlib.ExitStack() as stack:
        socks = [stack.enter_context(socket.socket(socket.AF_INET, socket.SOCK_DGRAM)) for _ in range(CLIENTS)]
        for sock in socks:
            sock.settimeout(SECONDS)
            sock.connect((servers.ADDRESS, port))
            sock.send(query.to_wire())
        replies = [dns.message.from_wire(sock.recv(512)) for sock in socks]
    # The TTL of a reply out of the cache has counted down since the first came.
    least = 59 - int(time.monotonic() - started)
    right = {f"four.example.test. {ttl} IN A 192.0.2.4" for ttl in range(least, 61)}
    found = {"\n".join(rrset.to_text() for rrset in reply.answer) for reply in replies}
    cases.equal(f"one name, {CLIENTS} clients at once", found - right, set())
    asked = server.questions_for("four.example.test.")
    cases.equal(f"one name, {CLIENTS} clients at once: one question", len(asked), 1)


def many_clients(cases, server, port):
    names = wanted()
    for turn in ("first", "second"):
        before = len(server.asked)
        faults = asyncio.run(all_clients(port, names))
        case = f"{len(names)} names, {CLIENTS} clients at once, {turn} round"
        cases.equal(f"{case}: each answer is right", faults[:3], [])
        if turn == "second":
            cases.equal(f"{case}: no question", len(server.asked) - before, 0)


async def all_clients(port, names):
    """What was wrong, of all that the clients were told. The last asks by TCP."""
    kinds = [by_datagrams] * (CLIENTS - 1) + [by_stream]
    faults = await asyncio.gather(*(client(kind, seed, port, names) for seed, kind in enumerate(kinds)))
    return [fault for some in faults for fault in some]


async def client(kind, seed, port, names):
    """What was wrong in the replies to one client, which asks for its part of the names in an order of its own."""
    part = [name for number, name in enumerate(names) if (number + seed) % (CLIENTS // ASKERS) == 0]
    order = random.Random(seed).sample(part, len(part))
    queries = [dns.message.make_query(name, "A", id=number) for number, name in enumerate(order)]
    replies = await asyncio.wait_for(kind(port, queries), SECONDS)
    return [fault for query, reply in zip(queries, replies) for fault in faults_of(query, reply, names)]


async def by_datagrams(port, queries):
    loop, replies = asyncio.get_running_loop(), []
    with socket.socket(socket.AF_INET, socket.SOCK_DGRAM) as sock:
        sock.setblocking(False)
        sock.connect((servers.ADDRESS, port))
        for query in queries:
            sock.send(query.to_wire())
            replies.append(dns.message.from_wire(await loop.sock_recv(sock, 65535)))
    return replies


async def by_stream(port, queries):
    """All queries at once, over one connection. Replies may come in any order (RFC 7766, section 7)."""
    reader, writer = await asyncio.open_connection(servers.ADDRESS, port)
    for query in queries:
        wire = query.to_wire()
        writer.write(struct.pack(">H", len(wire)) + wire)
    replies = {}
    for _ in queries:
        (length,) = struct.unpack(">H", await reader.readexactly(2))
        reply = dns.message.from_wire(await reader.readexactly(length))
        replies[reply.id] = reply
    writer.close()
    return [replies[query.id] for query in queries]


def faults_of(query, reply, names):
    """What a client that checks all finds wrong with a reply."""
    name = query.question[0].name
    address = names[name]
    told = f"{name}: {reply}"
    if not query.is_response(reply) or not reply.flags & dns.flags.RA or reply.flags & dns.flags.TC:
        return [told]
    if address is None:
        soa = [rrset.name for rrset in reply.authority if rrset.rdtype == SOA]
        is_right = reply.rcode() == dns.rcode.NXDOMAIN and soa == [dns.name.from_text("example.test.")]
        return [] if is_right and not reply.answer else [told]
    return [] if reply.rcode() == dns.rcode.NOERROR and joined(name, reply) == [address] else [told]


def joined(name, reply):
    """The addresses that a name leads to by the answer section, each of whose records has to be on the way; or what is
    wrong."""
    aliases = {rrset.name: rrset[0].target for rrset in reply.answer if rrset.rdtype == dns.rdatatype.CNAME}
    way = [name]
    while way[-1] in aliases:
        way.append(aliases.pop(way[-1]))
    ends = [rrset for rrset in reply.answer if rrset.rdtype == dns.rdatatype.A]
    if aliases or [rrset.name for rrset in ends] != way[-1:]:
        return [f"the way is {way}"]
    return [rdata.address for rdata in ends[0]]


def ask(port, name, rdtype, **how):
    query = dns.message.make_query(name, rdtype, **how)
    return dns.query.udp(query, servers.ADDRESS, timeout=SECONDS, port=port)


def replies(cases, server, port):
    reply = ask(port, "WWW.example.test", "A")
    question = reply.question[0].name.to_text()
    cases.equal("the question keeps its case", question, "WWW.example.test.")
    cases.equal("the flags", dns.flags.to_text(reply.flags), "QR RD RA")
    reply = ask(port, "www.example.test", "MX")
    soa = [(rrset.name.to_text(), rrset.ttl <= 240, rrset[0].minimum) for rrset in reply.authority]
    found = (reply.rcode(), reply.answer, soa)
    cases.equal("no such records", found, (dns.rcode.NOERROR, [], [("example.test.", True, 240)]))
    reply = ask(port, "refused.example.test", "A")
    cases.equal("an error upstream is SERVFAIL", reply.rcode(), dns.rcode.SERVFAIL)
    reply = ask(port, "silent.example.test", "A")
    cases.equal("silence upstream is SERVFAIL", reply.rcode(), dns.rcode.SERVFAIL)
    texts(cases, port)


def texts(cases, port):
    """An answer that is larger than what a client takes by UDP."""
    whole = tuple(text.encode("ascii") for text in zone.BIG)
    reply = ask(port, "big.example.test", "TXT")
    found = (bool(reply.flags & dns.flags.TC), len(reply.answer))
    cases.equal("larger than 512 bytes: truncated", found, (True, 0))
    reply = ask(port, "big.example.test", "TXT", payload=1232)
    cases.equal("larger than 1232 bytes: truncated", (bool(reply.flags & dns.flags.TC), reply.edns), (True, 0))
    reply = ask(port, "big.example.test", "TXT", payload=4096)
    cases.equal("larger than goes by UDP: truncated", (bool(reply.flags & dns.flags.TC), reply.edns), (True, 0))
    query = dns.message.make_query("big.example.test", "TXT")
    reply = dns.query.tcp(query, servers.ADDRESS, timeout=SECONDS, port=port)
    cases.equal("by TCP", reply.answer[0][0].strings, whole)


def aliases(cases, server, port):
    """The alias is in the answer, whatever was asked before it; and one to a name that is not there."""
    for turn in ("first", "second"):
        ask(port, "www.example.test", "A")
        for name in ("alias.example.test.", "third.example.test."):
            reply = ask(port, name, "A")
            found = joined(dns.name.from_text(name), reply)
            cases.equal(f"{name} behind what is kept, {turn} time", found, ["192.0.2.1"])
        found = joined(dns.name.from_text("www.example.test."), ask(port, "www.example.test", "A"))
        cases.equal(f"no alias of another name, {turn} time", found, ["192.0.2.1"])
        reply = ask(port, "gone.example.test", "A")
        answer = [(rrset.name.to_text(), rrset[0].to_text()) for rrset in reply.answer]
        found = (reply.rcode(), answer, [rrset.rdtype for rrset in reply.authority])
        end = [("gone.example.test.", "absent.example.test.")]
        cases.equal(f"an alias of no name, {turn} time", found, (dns.rcode.NXDOMAIN, end, [SOA]))


def substituted(cases, port):
    """The one alias of a name below a DNAME record is that which the record makes of it."""
    # Each record by itself: dnspython keeps one alias of a name.
    query = dns.message.make_query("www.moved.example.test", "CNAME")
    reply = dns.query.udp(query, servers.ADDRESS, timeout=SECONDS, port=port, one_rr_per_rrset=True)
    aliases = [rrset for rrset in reply.answer if rrset.rdtype == dns.rdatatype.CNAME]
    found = [(rrset.name.to_text(), rrset[0].to_text()) for rrset in aliases]
    cases.equal("the alias of a DNAME record", found, [("www.moved.example.test.", "www.example.test.")])
    found = joined(dns.name.from_text("www.moved.example.test."), ask(port, "www.moved.example.test", "A"))
    cases.equal("the address behind a DNAME record", found, ["192.0.2.1"])


def types(cases, port, process):
    """Clients that ask for types of one letter at once, which wait together, each get their own."""
    with contextlib.ExitStack() as stack:
        socks = [stack.enter_context(socket.socket(socket.AF_INET, socket.SOCK_DGRAM)) for _ in TYPES]
        os.kill(process.pid, signal.SIGSTOP)
        for sock, number in zip(socks, TYPES):
            sock.settimeout(SECONDS)
            sock.connect((servers.ADDRESS, port))
            sock.send(dns.message.make_query("types.example.test", number).to_wire())
        os.kill(process.pid, signal.SIGCONT)
        replies = [dns.message.from_wire(sock.recv(512)) for sock in socks]
    found = [[int(rrset.rdtype) for rrset in reply.answer] for reply in replies]
    cases.equal("types of one letter, asked for at once", found, [[number] for number in TYPES])


def zones(cases, port):
    """A negative answer has the SOA record of its zone, whatever a reply of another zone says of that."""
    for name in ("nowhere.example.test", "stray.other.test", "nowhere.example.test"):
        reply = ask(port, name, "A")
    found = [rrset[0].serial for rrset in reply.authority if rrset.rdtype == SOA]
    cases.equal("the SOA record of a zone, behind a reply of another zone", found, [1])


def malformed(cases, port):
    """Queries that are none are answered by a code, or dropped; a query after them is answered."""
    good = dns.message.make_query("www.example.test", "A", id=7).to_wire()
    # The version is the second byte of the TTL of the OPT record, which ends with flags and the length of no data.
    with_edns = dns.message.make_query("www.example.test", "A", id=7, use_edns=0).to_wire()
    codes = {
        "no question": (good[:4] + bytes(8), dns.rcode.FORMERR),
        "a question cut off": (good[:-3], dns.rcode.FORMERR),
        "a label that is too long": (good[:12] + b"\x7f" + good[13:], dns.rcode.FORMERR),
        "a name that points at itself": (good[:12] + b"\xc0\x0c\0\1\0\1", dns.rcode.FORMERR),
        "more behind the question": (good + b"more", dns.rcode.FORMERR),
        "two questions": (good[:4] + b"\0\2" + good[6:] + good[12:], dns.rcode.FORMERR),
        "another opcode": (good[:2] + b"\x11" + good[3:], dns.rcode.NOTIMP),
        "a transfer": (good[:-4] + b"\0\xfc\0\1", dns.rcode.NOTIMP),
        "another class": (good[:-4] + b"\0\1\0\3", dns.rcode.REFUSED),
        "another version of EDNS": (with_edns[:-5] + b"\1" + with_edns[-4:], dns.rcode.BADVERS),
    }
    for name, (wire, code) in codes.items():
        with cases.guard(f"malformed: {name}"):
            reply = dns.message.from_wire(exchange(port, wire), ignore_trailing=True)
            cases.equal(f"malformed: {name}", (reply.id, reply.rcode()), (7, code))
    # What has no header, and what is a reply itself, gets none: the first reply is that of the query behind them.
    dropped = [b"", b"\0", good[:11], good[:2] + b"\x81\x80" + good[4:]]
    reply = dns.message.from_wire(exchange(port, *dropped, good))
    cases.equal("malformed: dropped", (reply.id, len(reply.answer)), (7, 1))


def exchange(port, *wires):
    with socket.socket(socket.AF_INET, socket.SOCK_DGRAM) as sock:
        sock.settimeout(SECONDS)
        sock.connect((servers.ADDRESS, port))
        for wire in wires:
            sock.send(wire)
        return sock.recv(65535)


ALL = (many_at_once,)
