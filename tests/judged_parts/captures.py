"""Cases of `pcap2trace`: small captures that are made here, and the traces that they are."""
import ipaddress
import signal
import struct
import subprocess
import sys
import time

import dns.flags
import dns.message
import dns.rrset

from judged_parts import piped
from yimarotu.streams import Segment, Streams

RESOLVER, CLIENT, UPSTREAM = "192.0.2.1", "198.51.100.7", "203.0.113.53"
RESOLVER_6, UPSTREAM_6 = "2001:db8::1", "2001:db8::53"
HEAD = struct.pack("<IHHiIII", 0xA1B2C3D4, 2, 4, 0, 0, 65535, 101)
UDP, TCP = 17, 6
SYN, FIN, RST, PSH = 2, 1, 4, 8
# How many connections a stranger begins, while one goes on at each so many of them; and how many segments it sends early.
MANY, EACH, EARLY = 70000, 1000, 20000


def stamped(milliseconds, data):
    return struct.pack("<4I", milliseconds // 1000, milliseconds % 1000 * 1000, len(data), len(data)) + data


def packet(milliseconds, protocol, source, target, rest):
    addresses = [ipaddress.ip_address(address).packed for address in (source, target)]
    if len(addresses[0]) == 16:
        # Behind the packet stands a trailer of the link.
        head = struct.pack(">IHBB", 6 << 28, len(rest), protocol, 64)
        return stamped(milliseconds, head + b"".join(addresses) + rest + bytes(4))
    head = struct.pack(">BBHHHBBH", 0x45, 0, 20 + len(rest), 0, 0, 64, protocol, 0)
    return stamped(milliseconds, head + b"".join(addresses) + rest)


def datagram(milliseconds, source, target, payload):
    rest = struct.pack(">4H", source[1], target[1], 8 + len(payload), 0) + payload
    return packet(milliseconds, UDP, source[0], target[0], rest)


def segment(milliseconds, source, target, number, flags, payload=b""):
    rest = struct.pack(">2H2I2B3H", source[1], target[1], number, 0, 5 << 4, flags, 1024, 0, 0) + payload
    return packet(milliseconds, TCP, source[0], target[0], rest)


def query(name, rdtype="A"):
    return dns.message.make_query(name, rdtype)


def reply(asked, *records, cut=False):
    message = dns.message.make_response(asked)
    for record in records:
        name, ttl, rdclass, rdtype, data = record.split(maxsplit=4)
        message.answer.append(dns.rrset.from_text(name, int(ttl), rdclass, rdtype, data))
    if cut:
        message.flags |= dns.flags.TC
    return message


def framed(message):
    wire = message.to_wire()
    return struct.pack(">H", len(wire)) + wire


def both_sides(asker=RESOLVER):
    """A client's question that is asked once, from this address, and answered."""
    asked = query("www.example.test.")
    answered = reply(asked, "www.example.test. 60 IN A 192.0.2.80")
    client, here, there = (CLIENT, 4000), (RESOLVER, 53), (UPSTREAM, 53)
    return [
        datagram(100000, client, here, asked.to_wire()),
        datagram(100001, (asker, 5353), there, asked.to_wire()),
        datagram(100021, there, (asker, 5353), answered.to_wire()),
        datagram(100022, here, client, answered.to_wire()),
    ]


BOTH_SIDES = """at 100.001 asked www.example.test. A IN

at 100.021 received NOERROR www.example.test. A IN
answer www.example.test. 60 IN A 192.0.2.80

at 100.022 told NOERROR www.example.test. A IN
answer www.example.test. 60 IN A 192.0.2.80

"""


def by_tcp(order, start=0xFFFFFFF0, resolver=RESOLVER, upstream=UPSTREAM):
    """A truncated reply, and the whole one by TCP in three pieces, in this order; the numbers of their bytes wrap. Then
    a client is told something else."""
    asked = query("big.example.test.", "TXT")
    whole = framed(reply(asked, 'big.example.test. 60 IN TXT "a"'))
    here, there = (resolver, 6000), (upstream, 53)
    other = reply(query("other.example.test.")).to_wire()
    cuts = [0, 1, 20, len(whole)]
    pieces = [(cuts[i], whole[cuts[i]:cuts[i + 1]]) for i in range(3)]
    made = [
        datagram(1000, (resolver, 5353), there, asked.to_wire()),
        datagram(1001, there, (resolver, 5353), reply(asked, cut=True).to_wire()),
        segment(1002, here, there, 7, SYN),
        segment(1003, there, here, start, SYN),
        segment(1004, here, there, 8, PSH, framed(asked)),
    ]
    for step, at in enumerate(order):
        offset, payload = pieces[at]
        made.append(segment(1010 + step, there, here, (start + 1 + offset) & 0xFFFFFFFF, PSH, payload))
    made.append(segment(1020, there, here, (start + 1 + len(whole)) & 0xFFFFFFFF, FIN))
    return made + [datagram(1030, (resolver, 53), (resolver, 4000), other)]


BY_TCP = """at 1.000 asked big.example.test. TXT IN

at 1.001 received NOERROR big.example.test. TXT IN tc

at 1.004 asked big.example.test. TXT IN

at 1.{last} received NOERROR big.example.test. TXT IN
answer big.example.test. 60 IN TXT 61

"""
OTHER_TOLD = "at 1.030 told NOERROR other.example.test. A IN\n\n"


def run(top, packets, *resolvers):
    """What the tool makes of these packets as they come on standard input: its status, text and complaint."""
    options = [word for resolver in resolvers or (RESOLVER,) for word in ("--resolver", resolver)]
    words = [sys.executable, top / "tools/pcap2trace", "-", *options]
    done = subprocess.run(words, input=HEAD + b"".join(packets), capture_output=True, timeout=60)
    return done.returncode, done.stdout.decode(), done.stderr.decode()


ASKER = "192.0.2.2"
NOTHING_ASKED = (f"nothing was asked from {RESOLVER}: name each address of the resolver, "
                 "also the one that it asks from\n")
NOTHING_TOLD = f"nothing was told to a client by {ASKER}: name each address of the resolver\n"
CUT = "the capture is cut short: its last packet is left out\n"


def left_out(count, what="packets that are no whole message of DNS"):
    return f"{count} {what} are left out\n"


def kept_of_connection():
    """What is kept of a connection that both ends have finished, when the last acknowledgement is there."""
    streams, client, server = Streams(), (RESOLVER, 6000), (UPSTREAM, 53)
    streams.take(Segment(client, server, 7, SYN, b""))
    streams.take(Segment(server, client, 70, SYN, b""))
    streams.take(Segment(client, server, 8, FIN, b"\0\1a"))
    streams.take(Segment(server, client, 71, FIN, b""))
    streams.take(Segment(client, server, 12, 0, b""))
    return streams.directions


def kept_of_reset():
    """What is kept of connections that one end resets: behind both beginnings, and in place of its own."""
    streams, server = Streams(), (UPSTREAM, 53)
    for port in (6000, 6001):
        streams.take(Segment((RESOLVER, port), server, 7, SYN, b""))
    streams.take(Segment(server, (RESOLVER, 6000), 70, SYN, b""))
    for port in (6000, 6001):
        streams.take(Segment(server, (RESOLVER, port), 71, RST, b""))
    return streams.directions


def kept_of_many():
    """Of very many connections that a stranger begins, while one goes on: how many are kept, and what comes on that one."""
    streams, server, own = Streams(), (UPSTREAM, 53), (RESOLVER, 6000)
    streams.take(Segment(server, own, 7, SYN, b""))
    for number in range(MANY):
        streams.take(Segment((CLIENT, number), (RESOLVER, 53), 0, SYN, b""))
        if number % EACH == 0:
            streams.take(Segment(server, own, 8 + number // EACH, PSH, b"\0"))
    return len(streams.directions), streams.directions[server, own].following


def taken_by_early():
    """How many seconds of a processor it takes to hold many segments behind one that is missing."""
    streams, began, ends = Streams(), time.process_time(), ((CLIENT, 4000), (RESOLVER, 53))
    streams.take(Segment(*ends, 0, SYN, b""))
    for number in range(EARLY):
        streams.take(Segment(*ends, 8 + number, PSH, b"a"))
    return time.process_time() - began, streams.left_out()


def live(top, packets):
    """The lines of the first event, read before the capture ends."""
    words = [sys.executable, top / "tools/pcap2trace", "-", "--resolver", RESOLVER]
    with piped.running(words) as process:
        process.stdin.write(HEAD + packets[0])
        lines = [piped.line_within(process.stdout) for _ in range(2)]
        process.stdin.write(b"".join(packets[1:]))
        piped.ended(process)
    return lines


def interrupted(top, packets):
    """How it ends by Ctrl-C while the capture goes on: its status and complaint."""
    words = [sys.executable, top / "tools/pcap2trace", "-", "--resolver", RESOLVER]
    # Whoever runs the tests may have it ignored.
    how = {"stderr": subprocess.PIPE, "preexec_fn": lambda: signal.signal(signal.SIGINT, signal.SIG_DFL)}
    with piped.running(words, **how) as process:
        process.stdin.write(HEAD + packets[0])
        piped.line_within(process.stdout)
        process.send_signal(signal.SIGINT)
        # (while what goes in stays open)
        process.wait(timeout=piped.SECONDS)
        return process.returncode, process.stderr.read().decode()


def of_addresses(told, top):
    """A resolver that asks from another address than the one at which its clients ask it."""
    at = BOTH_SIDES.index("at 100.022")
    packets = both_sides(ASKER)
    told.equal("both addresses", run(top, packets, RESOLVER, ASKER), (0, BOTH_SIDES, ""))
    told.equal("only that of the clients", run(top, packets), (1, BOTH_SIDES[at:], NOTHING_ASKED))
    told.equal("only that which asks", run(top, packets, ASKER), (1, BOTH_SIDES[:at], NOTHING_TOLD))
    neither = NOTHING_ASKED + NOTHING_TOLD.replace(ASKER, RESOLVER)
    told.equal("no packet", run(top, []), (1, "", neither))
    others = [datagram(5, (CLIENT, 4000), (UPSTREAM, 80), b"\0\1")]
    told.equal("nothing of DNS", run(top, others), (1, "", neither))
    cut = [datagram(5, (CLIENT, 4000), (RESOLVER, 53), b"\0\1")]
    told.equal("messages that are cut short alone", run(top, cut), (1, "", left_out(1) + neither))
    scoped = run(top, by_tcp((0, 1, 2), resolver="fe80::1", upstream=UPSTREAM_6), "fe80::1%eth0")
    told.equal("an address with a scope", scoped, (0, BY_TCP.replace("{last}", "012") + OTHER_TOLD, ""))


def of_forged_replies(told, top):
    """Before the reply stand some of another number, question, port or address, and behind it the same once more."""
    packets = both_sides()
    asked = dns.message.from_wire(packets[1][16 + 28:])
    there, here = (UPSTREAM, 53), (RESOLVER, 5353)
    forged = reply(asked, "www.example.test. 60 IN A 203.0.113.66").to_wire()
    other_number = bytes([forged[0] ^ 1]) + forged[1:]
    other_question = forged.replace(b"\3www", b"\3wwx")
    replies = [(there, here, other_number), (there, here, other_question), (there, (RESOLVER, 5354), forged),
               ((CLIENT, 53), here, forged)]
    packets[2:2] = [datagram(100010, *ends, wire) for *ends, wire in replies]
    packets.insert(7, datagram(100021, there, here, forged))
    told.equal("forged replies", run(top, packets), (0, BOTH_SIDES, left_out(5, "replies to no open question")))


def cases(told, top):
    with told.guard("captures"):
        told.equal("both sides of a resolver", run(top, both_sides()), (0, BOTH_SIDES, ""))
        of_addresses(told, top)
        of_forged_replies(told, top)
        for order, last in (((0, 1, 2), "012"), ((2, 1, 0), "012"), ((0, 0, 2, 1, 1), "013")):
            name = f"TCP in pieces, {order}"
            told.equal(name, run(top, by_tcp(order)), (0, BY_TCP.replace("{last}", last) + OTHER_TOLD, ""))
        found = run(top, by_tcp((0, 2)))
        lost = BY_TCP[:BY_TCP.index("at 1.{last}")] + OTHER_TOLD
        why = left_out(1, "segments of TCP behind one that is missing")
        told.equal("TCP with a piece that is missing", found, (0, lost, why))
        told.equal("TCP that has ended is let go of", kept_of_connection(), {})
        told.equal("TCP that was reset is let go of", kept_of_reset(), {})
        told.equal("TCP that a stranger begins is bounded", kept_of_many(), (1 << 16, 8 + (MANY - 1) // EACH + 1))
        taken, behind = taken_by_early()
        told.tell(f"{EARLY} segments that are early", taken < 1 and behind == EARLY, f"{taken} s, {behind} left out")
        found = run(top, by_tcp((0, 1, 2), resolver=RESOLVER_6, upstream=UPSTREAM_6), RESOLVER_6)
        told.equal("TCP over IPv6, with trailers", found, (0, BY_TCP.replace("{last}", "012") + OTHER_TOLD, ""))
        lines = ["at 100.001 asked www.example.test. A IN\n", "\n"]
        told.equal("each event at once", live(top, both_sides()[1:]), lines)
        told.equal("Ctrl-C", interrupted(top, both_sides()[1:]), (130, ""))
        hidden = segment(1, (RESOLVER, 6000), (UPSTREAM, 853), 7, SYN)
        status, text, complaint = run(top, both_sides() + [hidden])
        told.equal("an upstream by TLS is refused", (status, text), (1, BOTH_SIDES))
        told.tell("and it is said why", "not to be seen" in complaint and "853" in complaint, complaint)
        hidden = datagram(1, (RESOLVER, 6000), (UPSTREAM, 443), b"\xc0")
        status, text, complaint = run(top, [hidden] + both_sides()[3:])
        told.tell("one by QUIC is refused where none else is seen", status == 1 and "443" in complaint, complaint)
        told.equal("web pages beside port 53 are none", run(top, [hidden] + both_sides()), (0, BOTH_SIDES, ""))
        status, text, complaint = run(top, [datagram(5, (UPSTREAM, 53), (RESOLVER, 5353), b"\x00\x01")] + both_sides())
        told.equal("what is no message is left out", (status, text), (0, BOTH_SIDES))
        told.tell("and counted", complaint.startswith("1 packets"), complaint)
        short = [stamped(5, bytes([version << 4, 0, 0, 0, 0, 0, UDP, 0, 0, UDP, 0])) for version in (4, 6)]
        found = run(top, short + both_sides())
        told.equal("packets that are shorter than a header of IP", found, (0, BOTH_SIDES, left_out(2)))
        for count in (9, 20):
            found = run(top, [*both_sides(), both_sides()[0][:count]])
            told.equal(f"a last packet of which {count} bytes are there", found, (0, BOTH_SIDES, CUT))
