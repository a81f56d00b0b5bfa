"""Cases of `dig2script` and `pcap2script`: what they make is replayed, and prints a text that was written by hand."""
import socket
import struct

import dns.message
import dns.rrset

from . import tools

DIG = """
; <<>> DiG 9.18.24 <<>> www.example.test alias.example.test nowhere.example.test example.test TXT +multiline
;; global options: +cmd
;; Got answer:
;; ->>HEADER<<- opcode: QUERY, status: NOERROR, id: 29010
;; flags: qr rd ra; QUERY: 1, ANSWER: 1, AUTHORITY: 0, ADDITIONAL: 1

;; OPT PSEUDOSECTION:
; EDNS: version: 0, flags:; udp: 1232
;; QUESTION SECTION:
;www.example.test.\t\tIN A

;; ANSWER SECTION:
www.example.test.\t60 IN\tA 192.0.2.1

;; Query time: 4 msec
;; SERVER: 127.0.0.1#53(127.0.0.1) (UDP)
;; WHEN: Fri Nov 27 04:00:00 UTC 2026
;; MSG SIZE  rcvd: 61

;; Got answer:
;; ->>HEADER<<- opcode: QUERY, status: NOERROR, id: 29011
;; flags: qr rd ra; QUERY: 1, ANSWER: 1, AUTHORITY: 0, ADDITIONAL: 0

;; QUESTION SECTION:
;alias.example.test.\tIN A

;; ANSWER SECTION:
alias.example.test.\t30 IN\tCNAME www.example.test.

;; WHEN: Fri Nov 27 04:00:10 UTC 2026

;; Got answer:
;; ->>HEADER<<- opcode: QUERY, status: NXDOMAIN, id: 29012
;; flags: qr rd ra; QUERY: 1, ANSWER: 0, AUTHORITY: 1, ADDITIONAL: 0

;; QUESTION SECTION:
;nowhere.example.test.\tIN A

;; AUTHORITY SECTION:
example.test.\t\t30 IN\tSOA ns.example.test. admin.example.test. (
\t\t\t\t1          ; serial
\t\t\t\t7200       ; refresh (2 hours)
\t\t\t\t900        ; retry (15 minutes)
\t\t\t\t1209600    ; expire (2 weeks)
\t\t\t\t40         ; minimum (40 seconds)
\t\t\t\t)

;; WHEN: Fri Nov 27 04:00:10 UTC 2026

;; Got answer:
;; ->>HEADER<<- opcode: QUERY, status: NOERROR, id: 29013
;; flags: qr tc rd ra; QUERY: 1, ANSWER: 2, AUTHORITY: 0, ADDITIONAL: 0

;; QUESTION SECTION:
;example.test.\t\tIN TXT

;; ANSWER SECTION:
example.test.\t\t60 IN\tTXT "v=spf1 (a) \\"b\\"; c" ""

;; WHEN: Fri Nov 27 04:00:11 UTC 2026

; <<>> DiG 9.18.24 <<>> @127.0.0.1 -p 5300 mail.example.test MX
;; global options: +cmd
;; no servers could be reached
"""
# The second answer may be used for as long as the alias that led to it, which has a TTL of 30.
DIG_REPLAYED = """at 1795752000 lookup www.example.test. A
  sent www.example.test. IN A
  ok www.example.test. IN A until 1795752060
  answer www.example.test. 60 IN A 192.0.2.1
at 1795752010 lookup alias.example.test. A
  sent alias.example.test. IN A
  ok www.example.test. IN A until 1795752040
  answer www.example.test. 50 IN A 192.0.2.1
at 1795752010 lookup nowhere.example.test. A
  sent nowhere.example.test. IN A
  err norecords NXDOMAIN 30 nowhere.example.test. IN A
at 1795752011 lookup example.test. TXT
  sent example.test. IN TXT
  ok example.test. IN TXT until 1795752071
  answer example.test. 60 IN TXT 763d7370663120286129202262223b2063 -
at 1795752011 lookup mail.example.test. MX
  sent mail.example.test. IN MX
  err timeout
"""

WWW = "www.example.test. 60 IN A 192.0.2.1"
# A reply as dig prints it.
ONE = """
; <<>> DiG 9.18.24 <<>> www.example.test
;; ->>HEADER<<- opcode: QUERY, status: NOERROR, id: 29010
;; flags: qr rd ra; QUERY: 1, ANSWER: 1, AUTHORITY: 0, ADDITIONAL: 0

;; QUESTION SECTION:
;{owner}\tIN A

;; ANSWER SECTION:
{owner}\t60 IN\t{data}

{when}
"""
WHEN = ";; WHEN: Fri Nov 27 04:00:00 UTC 2026"
CLIENT, SERVER = (4, "192.0.2.10", 40000), (4, "192.0.2.53", 53)
CLIENT_6, SERVER_6 = (6, "2001:db8::10", 40000), (6, "2001:db8::53", 53)
PCAP_REPLAYED = """at 100 lookup alias.example.test. A
  sent alias.example.test. IN A
  sent www.example.test. IN A
  ok www.example.test. IN A until 160
  answer alias.example.test. 60 IN CNAME www.example.test.
  answer www.example.test. 60 IN A 192.0.2.1
at 103 lookup example.test. MX
  sent example.test. IN MX
  ok example.test. IN MX until 163
  answer example.test. 60 IN MX 10 mail.example.test.
at 104 lookup mail.example.test. AAAA
  sent mail.example.test. IN AAAA
  err timeout
"""
PCAP_NOTES = """# Packets of TCP, which are not read, so that a truncated reply stands as it is: 1
# Packets that are no whole message of DNS by UDP, and are left out: 2
# Replies without a question before them, which are left out: 1
"""


def run(cases, programs, folder):
    with cases.guard("dig2script"):
        told = make(folder, "dig", DIG.encode("ascii"))
        script = folder / "dig.script"
        script.write_text(tools.run("dig2script", told)[1])
        cases.equal("dig2script", tools.replayed(programs.replay, script), DIG_REPLAYED)
        cases.equal("dig2script, of nothing", tools.run("dig2script", "/dev/null")[:2], (1, ""))
        of_moments(cases, folder)
        of_brackets(cases, folder)
        of_commands(cases, folder)
    for link, frame in LINKS.items():
        with cases.guard(f"pcap2script, link type {link}"):
            captured(cases, programs, folder, link, frame)
    with cases.guard("pcap2script, another file"):
        other = make(folder, "none", bytes(64))
        cases.equal("pcap2script, of another file", tools.run("pcap2script", other)[:2], (1, ""))
    with cases.guard("pcap2script, odd captures"):
        of_odd_captures(cases, folder)


def captured(cases, programs, folder, link, frame):
    status, text, said = tools.run("pcap2script", make(folder, "capture", capture(link, frame)))
    cases.equal(f"pcap2script, link type {link}", (status, said), (0, ""))
    script = make(folder, "capture.script", text.encode("ascii"))
    cases.equal(f"pcap2script, link type {link}: replayed", tools.replayed(programs.replay, script), PCAP_REPLAYED)
    cases.tell(f"pcap2script, link type {link}: notes", PCAP_NOTES in text, text)


def one(owner="www.example.test.", data="A 192.0.2.1", when=WHEN):
    return ONE.format(owner=owner, data=data, when=when).encode()


def of_moments(cases, folder):
    """Where dig does not tell when, or in another language."""
    for when in (";; WHEN: Mi Dez 02 04:00:00 CET 2026", ";; WHEN: mer. déc. 02 04:00:00 CET 2026"):
        status, text, said = tools.run("dig2script", make(folder, "odd", one(when=when)))
        cases.tell(f"dig2script, {when}", (status, text) == (1, "") and "run dig with LC_ALL=C" in said, (text, said))
    cases.equal("dig2script, no moment", made_of(folder, "dig2script", one(when="")), f"""\
# Of a reply dig told no moment: it counts as that of the reply before it, or else as 0.
upstream table
reply NOERROR www.example.test. A IN
answer {WWW}
at 0 lookup www.example.test. A
""")


def of_brackets(cases, folder):
    """A name that holds one, and a record of several lines that is cut."""
    cases.equal("dig2script, an escaped bracket", made_of(folder, "dig2script", one(owner=r"foo\(bar.example.")), r"""
upstream table
reply NOERROR foo\040bar.example. A IN
answer foo\040bar.example. 60 IN A 192.0.2.1
at 1795752000 lookup foo\040bar.example. A
""".lstrip("\n"))
    cut = make(folder, "odd", one(data="SOA ns.example.test. admin.example.test. ( 1 2"))
    status, text, said = tools.run("dig2script", cut)
    cases.tell("dig2script, a record that is cut", (status, text) == (1, "") and "no end" in said, (text, said))


def of_commands(cases, folder):
    """What is asked by a command line to which no reply came, by the manual of dig. Where it cannot be known, a comment
    says so."""
    commands = {
        "CH TXT version.bind": "version.bind. TXT CH",
        "-c CH -t TXT version.bind": "version.bind. TXT CH",
        "-tMX example.test -p5300": "example.test. MX IN",
        "-qexample.test -cCH": "example.test. A CH",
        "-m example.test": "example.test. A IN",
        "-x192.0.2.1": "1.2.0.192.in-addr.arpa. PTR IN",
        "-x 192.0.2": None,
    }
    for command, question in commands.items():
        lost = one() + f"; <<>> DiG 9.18.24 <<>> {command}\n;; no servers could be reached\n".encode()
        text = made_of(folder, "dig2script", lost)
        wanted = f"fail timeout {question}\n" if question else "# A question had no reply. Which one it was,"
        cases.tell(f"dig2script, {command}", text.count(wanted) == 1 and text.count("fail ") == bool(question), text)


def of_odd_captures(cases, folder):
    """Captures of a question or two."""
    query, reply = (message(1, "www.example.test.", "A", *answers) for answers in ((), (WWW,)))
    asked, answered = (100, 4, datagram(CLIENT, SERVER, query)), (100, 4, datagram(SERVER, CLIENT, reply))
    whole = f"""upstream table
reply NOERROR www.example.test. A IN
answer {WWW}
at 100 lookup www.example.test. A
"""
    cut = capture(101, LINKS[101], [asked, answered, asked])[:-1]
    cases.equal("pcap2script, a capture that is cut short", made_of(folder, "pcap2script", cut),
                "# The capture is cut short: its last packet is left out.\n" + whole)
    bare = (100, 4, datagram(SERVER, CLIENT, without_question(1)))
    cases.equal("pcap2script, a reply without its question", script_of(folder, asked, bare), """upstream table
reply FORMERR www.example.test. A IN noq
at 100 lookup www.example.test. A
""")
    unread = "# Packets that are no whole message of DNS by UDP, and are left out: 1\n"
    left_out = "# Left out, since a reply to it could not be read: www.example.test. {} IN\nupstream table\n"
    cut = (100, 4, datagram(SERVER, CLIENT, reply[:-1]))
    cases.equal("pcap2script, a reply that is cut", script_of(folder, asked, cut), unread + left_out.format("A"))
    cases.equal("pcap2script, a whole one behind it", script_of(folder, asked, cut, answered), unread + whole)
    for version, packets in (("4", fragments_4(query, reply)), ("6", fragments_6(query, reply))):
        cases.equal(f"pcap2script, a reply in fragments of IPv{version}", script_of(folder, *packets),
                    unread.replace("1", "2") + left_out.format("A"))
    query = message(1, "www.example.test.", "TXT")
    texts = (100, 4, datagram(CLIENT, SERVER, query)), (100, 4, datagram(SERVER, CLIENT, of_no_string(query)))
    cases.equal("pcap2script, a TXT record of no string", script_of(folder, *texts), unread + left_out.format("TXT"))


def fragments_4(query, reply):
    """A question and its reply in two fragments: the offset is in units of eight octets (RFC 791)."""
    data = udp(SERVER, CLIENT, reply)
    yield 100, 4, datagram(CLIENT, SERVER, query)
    yield 100, 4, packet_4(SERVER, CLIENT, 17, data[:40], fragment=0x2000)
    yield 100, 4, packet_4(SERVER, CLIENT, 17, data[40:], fragment=40 // 8)


def fragments_6(query, reply):
    """The same with a header for each fragment (RFC 8200, section 4.5)."""
    data = udp(SERVER_6, CLIENT_6, reply)
    yield 100, 6, datagram(CLIENT_6, SERVER_6, query)
    yield 100, 6, packet_6(SERVER_6, CLIENT_6, 44, struct.pack(">2BHI", 17, 0, 1, 7) + data[:40])
    yield 100, 6, packet_6(SERVER_6, CLIENT_6, 44, struct.pack(">2BHI", 17, 0, 40, 7) + data[40:])


def without_question(ident):
    """A reply that has none: FORMERR, as it is from a server that could not read the query."""
    return struct.pack(">6H", ident, 0x8001, 0, 0, 0, 0)


def of_no_string(query):
    """A reply with a record of TXT without data, for which no script has words (RFC 1035, section 3.3.14)."""
    head = struct.pack(">6H", 1, 0x8000, 1, 1, 0, 0)
    return head + query[12:] + struct.pack(">3HIH", 0xC00C, 16, 1, 60, 0)


def script_of(folder, *packets):
    return made_of(folder, "pcap2script", capture(101, LINKS[101], packets))


def made_of(folder, tool, data):
    """The script that a tool makes, without the comments that stand above each."""
    return tools.run(tool, make(folder, "odd", data))[1].partition("those that an alias led to.\n")[2]


def make(folder, name, data):
    path = folder / name
    path.write_bytes(data)
    return path


def capture(link, frame, packets=None):
    """A capture of these packets, or else of all that is seen below, over this type of link."""
    head = struct.pack("<IHHiIII", 0xA1B2C3D4, 2, 4, 0, 0, 65535, link)
    parts = [head]
    for second, version, packet in seen() if packets is None else packets:
        data = frame(version, packet)
        parts.append(struct.pack("<4I", second, 0, len(data), len(data)) + data)
    return b"".join(parts)


def seen():
    """The second, the version of IP and the packet of all that was seen on the wire."""
    alias = message(1, "alias.example.test.", "A", "alias.example.test. 60 IN CNAME www.example.test.")
    target = message(2, "www.example.test.", "A", "www.example.test. 60 IN A 192.0.2.1")
    mail = message(3, "example.test.", "MX", "example.test. 60 IN MX 10 mail.example.test.")
    lost = message(4, "mail.example.test.", "AAAA")
    # Sent again before the reply.
    yield 100, 4, datagram(CLIENT, SERVER, message(1, "alias.example.test.", "A"))
    yield 101, 4, datagram(CLIENT, SERVER, message(1, "alias.example.test.", "A"))
    # A reply of another id, then the right one.
    other = message(9, "alias.example.test.", "A", "alias.example.test. 60 IN A 203.0.113.66")
    yield 101, 4, datagram(SERVER, CLIENT, other)
    yield 101, 4, datagram(SERVER, CLIENT, alias)
    yield 102, 4, datagram(CLIENT, SERVER, message(2, "www.example.test.", "A"))
    yield 102, 4, datagram(SERVER, CLIENT, target)
    yield 103, 6, datagram(CLIENT_6, SERVER_6, message(3, "example.test.", "MX"))
    yield 103, 6, datagram(SERVER_6, CLIENT_6, mail)
    yield 104, 4, datagram(CLIENT, SERVER, lost)
    # Of another port, of TCP, no message, and a fragment that is not the first.
    yield 104, 4, datagram(CLIENT, (4, "192.0.2.53", 123), b"time")
    yield 105, 4, packet_4(CLIENT, SERVER, 6, bytes(20))
    yield 105, 4, datagram(SERVER, CLIENT, b"\0\1\x81\x80\0\1")
    yield 105, 4, packet_4(SERVER, CLIENT, 17, bytes(20), fragment=0x2001)


def message(ident, name, rdtype, *answers):
    query = dns.message.make_query(name, rdtype, id=ident)
    if not answers:
        return query.to_wire()
    response = dns.message.make_response(query)
    for answer in answers:
        name, ttl, rdclass, rdtype, data = answer.split(None, 4)
        response.answer.append(dns.rrset.from_text(name, int(ttl), rdclass, rdtype, data))
    return response.to_wire()


def udp(source, target, payload):
    return struct.pack(">4H", source[2], target[2], 8 + len(payload), 0) + payload


def datagram(source, target, payload):
    return (packet_4 if source[0] == 4 else packet_6)(source, target, 17, udp(source, target, payload))


def packet_4(source, target, protocol, data, fragment=0):
    head = struct.pack(">BBHHHBBH", 0x45, 0, 20 + len(data), 0, fragment, 64, protocol, 0)
    return head + address(source) + address(target) + data


def packet_6(source, target, protocol, data):
    return struct.pack(">IHBB", 6 << 28, len(data), protocol, 64) + address(source) + address(target) + data


def address(end):
    return socket.inet_pton(socket.AF_INET if end[0] == 4 else socket.AF_INET6, end[1])


def ether_type(version):
    return b"\x08\x00" if version == 4 else b"\x86\xdd"


LINKS = {
    # BSD's loopback: the family of addresses, in the order of bytes of the machine.
    0: lambda version, packet: struct.pack("<I", 2 if version == 4 else 10) + packet,
    # Ethernet with a tag of a VLAN.
    1: lambda version, packet: bytes(12) + b"\x81\x00\0\1" + ether_type(version) + packet,
    101: lambda version, packet: packet,
    # Linux's cooked captures.
    113: lambda version, packet: bytes(14) + ether_type(version) + packet,
    276: lambda version, packet: ether_type(version) + bytes(18) + packet,
}
