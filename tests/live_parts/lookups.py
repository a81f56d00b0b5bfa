"""Cases of `resolve`: over unbound, over dnsmasq, and over a server that lies."""
import re
from concurrent.futures import ThreadPoolExecutor

import dns.message
import dns.query
import dns.rcode
import dns.rdatatype

from . import servers, stub, tools, zone

HOSTS = "192.0.2.200 printer.example.test printer\n2001:db8::200 printer.example.test\n"
PRINTER = "printer.example.test. 86400 IN A 192.0.2.200\n"
# A second may begin between the opening, from which a day is counted, and the question.
AGED = PRINTER.replace("86400", "86399")
FOUND, NO_RECORDS, FAILED = 0, 1, 3
# How many tools run at once.
AT_ONCE = 8


def run(cases, programs, folder):
    hosts = folder / "hosts"
    hosts.write_text(HOSTS)
    for name in servers.SERVERS:
        with cases.guard(name), servers.running(name, folder) as server:
            compare_all(cases, name, server)
            names_and_hosts(cases, name, server, hosts)
            silence(cases, name, server)
    records = [*zone.RECORDS, "lied.example.test. 60 IN A 192.0.2.9"]
    with cases.guard("a server that lies"), stub.running(records) as server:
        misbehaviour(cases, server)


def resolve(server, *words):
    return tools.run("resolve", "--server", server.text, *words)


def direct(port, name, rdtype):
    """What the server at a port says to dnspython: the response code, and all records that the name leads to. Where it
    stops at an alias, its target is asked for."""
    lines = []
    while True:
        query = dns.message.make_query(name, rdtype, payload=1232)
        response, _ = dns.query.udp_with_fallback(query, servers.ADDRESS, timeout=30, port=port)
        for rrset in response.answer:
            kind = dns.rdatatype.to_text(rrset.rdtype)
            lines += [f"{rrset.name} {rrset.ttl} IN {kind} {rdata.to_text()}" for rdata in rrset]
        chained = response.resolve_chaining()
        if chained.answer is not None or chained.canonical_name == query.question[0].name:
            return response.rcode(), lines
        name = chained.canonical_name


def compare_all(cases, server_name, server):
    """Each question, some of them at once: what is printed is what the server itself says."""
    asked = [[word for word in question if word] for question in zone.QUESTIONS]
    with ThreadPoolExecutor(AT_ONCE) as pool:
        printed = pool.map(lambda words: resolve(server, *words), asked)
        for words, (status, output, said) in zip(asked, printed):
            found = (status, sorted(output.splitlines()), said)
            cases.equal(f"{server_name}, {' '.join(words)}", found, wanted(server, *words))


def wanted(server, name, rdtype=None):
    """What has to be printed for a question: the status, the lines in order, and what is said on standard error."""
    found = [direct(server.port, name, kind) for kind in ([rdtype] if rdtype else ["AAAA", "A"])]
    lines = {line for _, part in found for line in part}
    if lines:
        return FOUND, sorted(lines), ""
    what = "no such name" if found[0][0] == dns.rcode.NXDOMAIN else "no such records"
    return NO_RECORDS, [], f"{name} {rdtype}: {what}\n" if rdtype else f"{name}: {what}\n"


def names_and_hosts(cases, server_name, server, hosts):
    search = ("--search", "nowhere.test", "--search", "example.test")
    wanted = (FOUND, "www.example.test. 60 IN A 192.0.2.1\n", "")
    cases.equal(f"{server_name}, a search list", resolve(server, *search, "www", "A"), wanted)
    found = resolve(server, *search, "--ndots", "3", "_imap._tcp", "SRV")
    wanted = (FOUND, "_imap._tcp.example.test. 60 IN SRV 10 5 143 mail.example.test.\n", "")
    cases.equal(f"{server_name}, a search list and ndots", found, wanted)
    found = resolve(server, "--hosts", hosts, "printer.example.test", "A", "--reverse", "192.0.2.200")
    # A line of hosts names an address twice.
    name = "200.2.0.192.in-addr.arpa."
    names = f"{name} 86400 IN PTR printer.example.test.\n{name} 86400 IN PTR printer.\n"
    found = found[0], found[1].replace(AGED, PRINTER), found[2]
    cases.equal(f"{server_name}, a file of hosts", found, (FOUND, PRINTER + names, ""))


def silence(cases, server_name, server):
    with server.silenced():
        found = resolve(server, "--timeout", "1", "--tries", "1", "www.example.test", "A")
    cases.equal(f"{server_name}, silent", found, (FAILED, "", "www.example.test A: timeout\n"))


def misbehaviour(cases, server):
    # (what is cut off behind a right id and question ends what is asked of a server, which so is named twice)
    found = resolve(server, "--server", server.text, "--timeout", "1", "lied.example.test", "A")
    cases.equal("lies before the reply", found, (FOUND, "lied.example.test. 60 IN A 192.0.2.9\n", ""))
    found = resolve(server, "--timeout", "1", "--tries", "2", "silent.example.test", "A")
    cases.equal("a silent server", found, (FAILED, "", "silent.example.test A: timeout\n"))
    asked = server.questions_for("silent.example.test.")
    cases.equal("a silent server: two tries", len(asked), 2)
    ids, ports = {it[2] for it in asked}, {it[3] for it in asked}
    cases.equal("a silent server: fresh ids and ports", (len(ids), len(ports)), (2, 2))
    found = resolve(server, "refused.example.test", "A")
    cases.equal("a server that refuses", found, (FAILED, "", "refused.example.test A: code REFUSED\n"))
    explained(cases, server)
    server.asked.clear()
    resolve(server, "big.example.test", "TXT")
    cases.equal("a truncated reply is asked for by TCP", [it[4] for it in server.asked], [False, True])
    cases.equal("no more than one question a name", len(server.questions_for("big.example.test.")), 2)


def explained(cases, server):
    """Of a name that is looked up twice, a question is sent the first time. The seconds that are left may differ."""
    _, output, _ = resolve(server, "--explain", "www.example.test", "A", "www.example.test", "A")
    question = "www.example.test. A"
    told = [
        f"; {question} is asked of {server.text}",
        f"; {server.text} said of {question} after N ms: NOERROR, N answer",
        "; may be used for N seconds",
        "www.example.test. N IN A 192.0.2.1",
        "; no question was sent: the cache, the hosts or the name itself answers",
        "; may be used for N seconds",
        "www.example.test. N IN A 192.0.2.1",
    ]
    cases.equal("explained", [re.sub(r"(?<= )\d+(?= |$)", "N", line) for line in output.splitlines()], told)
