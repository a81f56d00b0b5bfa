"""What the program tells of two thousand names, beside what unbound and dnsmasq tell as forwarders to the same server."""
import contextlib

import dns.flags
import dns.message
import dns.name
import dns.rcode
import dns.rdatatype

from live_parts import servers

from . import asking, authority

NAMES = 2_000
ZONE = "mixed.test."
HEAD = f"""$ORIGIN {ZONE}
$TTL 300
@ SOA ns admin 1 7200 900 1209600 240
@ NS ns
ns A 192.0.2.53
mail A 192.0.2.25
moved DNAME far
"""
LONG = " ".join(f'"{letter * 250}"' for letter in "abcdefgh")
# For each kind the records of a name N, and what is asked: the names before it are of the kinds before it.
KINDS = (
    ("n{0} A 10.0.{1}.{2}\nn{0} A 10.1.{1}.{2}", "n{0}", "A"),
    ("n{0} AAAA 2001:db8::{1}:{2}", "N{0}", "AAAA"),
    ("n{0} CNAME n{3}", "n{0}", "A"),
    ("b{0} CNAME n{3}\na{0} CNAME b{0}\nn{0} CNAME a{0}", "n{0}", "A"),
    ("", "n{0}", "A"),
    ("n{0} A 10.2.{1}.{2}", "n{0}", "MX"),
    ("n{0} MX 10 mail\nn{0} MX 20 n{0}", "n{0}", "MX"),
    ('n{0} TXT "v={0}" "two words"', "n{0}", "TXT"),
    ("_imap._tcp.n{0} SRV 10 5 143 mail", "_imap._tcp.n{0}", "SRV"),
    ("n{0} CNAME absent{0}", "n{0}", "A"),
    ("*.n{0} A 10.3.{1}.{2}", "any.n{0}", "A"),
    ("n{0}.far A 10.4.{1}.{2}", "n{0}.moved", "A"),
    ("n{0} CNAME mail", "n{0}", "TXT"),
    ("n{0} TXT " + LONG, "n{0}", "TXT"),
    ("n{0} TYPE65280 \\# 3 010203", "n{0}", "TYPE65280"),
    ('n{0} CAA 0 issue "ca.example"', "n{0}", "CAA"),
    ("n{0} HTTPS 1 . alpn=h2", "n{0}", "HTTPS"),
    ("n{0} CNAME n{3}", "n{0}", "CNAME"),
    ("deep.n{0} A 10.5.{1}.{2}", "n{0}", "A"),
    ("n{0} CNAME loop{0}\nloop{0} CNAME n{0}", "n{0}", "CNAME"),
)
UNBOUND = """server:
  interface: {address}
  port: {port}
  do-daemonize: no
  username: ""
  chroot: ""
  directory: "{folder}"
  pidfile: ""
  use-syslog: no
  module-config: "iterator"
  do-not-query-localhost: no
  local-zone: "test." nodefault
forward-zone:
  name: "."
  forward-addr: {address}@{upstream}
remote-control:
  control-enable: no
"""


def of_number(number):
    """The records of a name, and what is asked of it."""
    records, name, rdtype = KINDS[number % len(KINDS)]
    # (the first of its kinds has an address)
    known = number - number % len(KINDS)
    return records.format(number, number // 250, number % 250, known), f"{name.format(number)}.{ZONE}", rdtype


def unbound(upstream):
    def words(port, folder):
        conf = folder / "forwarding.conf"
        conf.write_text(UNBOUND.format(address=servers.ADDRESS, port=port, folder=folder, upstream=upstream))
        return ["/usr/sbin/unbound", "-d", "-c", str(conf)]

    return words


def dnsmasq(upstream):
    """Without a cache: what it has kept it tells without the authority section."""
    def words(port, _):
        return ["/usr/sbin/dnsmasq", "--no-daemon", "--conf-file=/dev/null", "--no-resolv", "--no-hosts", "--pid-file=",
                "--bind-interfaces", "--cache-size=0", f"--listen-address={servers.ADDRESS}", f"--port={port}",
                f"--server={servers.ADDRESS}#{upstream}"]

    return words


def facts(port, name, rdtype):
    """The code; the names on the way, in order; the records where it ends; and whose SOA record says that there are none."""
    reply = asking.by_udp(port, name, rdtype, payload=1232)
    was_cut = bool(reply.flags & dns.flags.TC)
    if was_cut:
        reply = asking.by_tcp(port, name, rdtype, payload=1232)
    way = [name.lower()]
    records = {}
    for rrset in reply.answer:
        owner = rrset.name.to_text().lower()
        if rrset.rdtype == dns.rdatatype.CNAME and rdtype != "CNAME":
            way += [rrset[0].target.to_text().lower()] if owner == way[-1] else [f"{owner} is not on the way"]
        else:
            records.setdefault(f"{owner} {dns.rdatatype.to_text(rrset.rdtype)}", []).extend(it.to_text() for it in rrset)
    records = {owner: sorted(data) for owner, data in records.items()}
    soa = [rrset.name.to_text() for rrset in reply.authority if rrset.rdtype == dns.rdatatype.SOA]
    return dns.rcode.to_text(reply.rcode()), way, records, soa, was_cut


def beside_others(cases, daemon):
    """What it tells of each name is what unbound and dnsmasq tell."""
    if daemon.name.endswith(".sanitized"):
        return
    file = daemon.folder / "mixed.zone"
    asked = [of_number(number) for number in range(NAMES)]
    file.write_text(HEAD + "".join(f"{records}\n" for records, _, _ in asked))
    with contextlib.ExitStack() as stack:
        upstream = stack.enter_context(authority.serving(daemon.folder, {ZONE: file}))
        ours = stack.enter_context(daemon.running(f"server 127.0.0.1 {upstream}"))
        others = {
            name: stack.enter_context(servers.running_by(f"{name}.mixed", words(upstream), daemon.folder))
            for name, words in (("unbound", unbound), ("dnsmasq", dnsmasq))
        }
        told = [facts(ours.port, name, rdtype) for _, name, rdtype in asked]
        again = [facts(ours.port, name, rdtype) for _, name, rdtype in asked]
        cases.equal("each name again, out of the cache", differences(asked, again, told), [])
        for name, other in others.items():
            found = [facts(other.port, name, rdtype) for _, name, rdtype in asked]
            cases.equal(f"{NAMES} names beside {name}", differences(asked, told, found)[:5], [])
    codes = {code for code, *_ in told}
    cases.equal("among them are names that are there, and names that are not", codes, {"NOERROR", "NXDOMAIN"})
    cases.tell("some replies were cut", any(was_cut for *_, was_cut in told), codes)


def differences(asked, ours, theirs):
    return [(name, rdtype, our, their) for (_, name, rdtype), our, their in zip(asked, ours, theirs) if our != their]


ALL = (beside_others,)
