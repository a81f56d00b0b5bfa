"""Signed zones: what validates through the program, delv of BIND and unbound-host, finds secure what is, and bogus what
is not. The program checks no signature: it has to pass on what does."""
import subprocess
from collections import namedtuple

from live_parts import servers

from . import authority
from .daemon import SECONDS

# Those that Debian's unbound validates.
ALGORITHMS = ("RSASHA256", "ECDSAP256SHA256", "ECDSAP384SHA384", "ED25519")
ZONE = """$ORIGIN {zone}
$TTL 300
@ SOA ns admin 1 7200 900 1209600 240
@ NS ns
ns A 192.0.2.53
www A 192.0.2.1
www TXT "signed"
alias CNAME www
gone CNAME absent
*.wild A 192.0.2.7
a.deep A 192.0.2.8
bogus A {true}
plain NS ns.plain
ns.plain A 192.0.2.53
"""
# What stands there when it is signed, and what is put in its place then.
TRUE, FALSE = "192.0.2.66", "192.0.2.67"
PLAIN = """$ORIGIN plain.{zone}
$TTL 300
@ SOA ns admin 1 7200 900 1209600 240
@ NS ns
ns A 192.0.2.53
www A 192.0.2.9
"""
# What is asked, and what each says of it.
FOUND, NONE = "; fully validated", "; negative response, fully validated"
QUESTIONS = {
    ("www", "A"): ("has address 192.0.2.1 (secure)", (FOUND, "192.0.2.1")),
    ("alias", "A"): ("has address 192.0.2.1 (secure)", (FOUND, "CNAME", "192.0.2.1")),
    ("any.wild", "A"): ("has address 192.0.2.7 (secure)", (FOUND, "192.0.2.7")),
    ("www", "MX"): ("has no mail handler record (secure)", (NONE, "ncache nxrrset")),
    ("deep", "A"): ("has no address (secure)", (NONE, "ncache nxrrset")),
    ("any.wild", "TXT"): ("has no TXT record (secure)", (NONE, "ncache nxrrset")),
    ("nowhere", "A"): ("not found: 3(NXDOMAIN). (secure)", (NONE, "ncache nxdomain")),
    ("gone", "A"): ("not found: 3(NXDOMAIN). (secure)", (FOUND, "CNAME", "-$NXDOMAIN", "ncache nxdomain")),
    ("bogus", "A"): (f"has address {FALSE} (BOGUS (security failure))", ("resolution failed: RRSIG failed to verify",)),
    ("www.plain", "A"): ("has address 192.0.2.9 (insecure)", ("; unsigned answer", "192.0.2.9")),
}
VALIDATING = """server:
  do-not-query-localhost: no
  local-zone: "test." nodefault
  trust-anchor-file: "{anchor}"
forward-zone:
  name: "."
  forward-addr: {address}@{port}
"""

Signed = namedtuple("Signed", "name file anchor")


def run(folder, *words):
    return subprocess.run([str(word) for word in words], cwd=folder, capture_output=True, text=True, timeout=SECONDS)


def made(folder, *words):
    done = run(folder, *words)
    if done.returncode:
        raise RuntimeError(done.stdout + done.stderr)
    return done.stdout.strip()


def signed(folder, algorithm, denial):
    """A zone that is signed with a key of this algorithm, whose denials are NSEC or NSEC3 records."""
    name = f"{algorithm}.{denial}.test".lower()
    key = made(folder, "ldns-keygen", "-r", "/dev/urandom", "-k", "-a", algorithm, name)
    plain, file = folder / f"{name}.plain", folder / f"{name}.signed"
    plain.write_text(ZONE.format(zone=f"{name}.", true=TRUE))
    made(folder, "ldns-signzone", *(["-n", "-t", "0"] if denial == "NSEC3" else []), "-f", file, plain, key)
    file.write_text(file.read_text().replace(TRUE, FALSE))
    return Signed(name, file, folder / f"{key}.ds")


def all_signed(folder, algorithms):
    return [signed(folder, algorithm, denial) for algorithm in algorithms for denial in ("NSEC", "NSEC3")]


def files_of(folder, zones):
    """By name the file of each zone, and of one below each that is not signed."""
    files = {zone.name: zone.file for zone in zones}
    for zone in zones:
        files[f"plain.{zone.name}"] = below = folder / f"{zone.name}.below"
        below.write_text(PLAIN.format(zone=f"{zone.name}."))
    return files


def validated(cases, daemon):
    """Through the program delv and unbound-host validate what is secure, and see what is bogus."""
    is_short = daemon.name.endswith(".sanitized")
    folder = daemon.folder / f"{daemon.name}.signed"
    folder.mkdir(exist_ok=True)
    zones = all_signed(folder, ALGORITHMS[1:2] if is_short else ALGORITHMS)
    with authority.serving(folder, files_of(folder, zones)) as port, daemon.running(f"server 127.0.0.1 {port}") as running:
        for zone in zones:
            for (name, rdtype), (by_unbound, by_bind) in QUESTIONS.items():
                asked = f"{name}.{zone.name}", rdtype
                host(cases, folder, zone, running.port, asked, by_unbound)
                delv(cases, folder, zone, running.port, asked, by_bind)


def host(cases, folder, zone, port, asked, wanted):
    """What unbound-host, which asks first, makes of it."""
    conf = folder / "validating.conf"
    conf.write_text(VALIDATING.format(anchor=zone.anchor, address=servers.ADDRESS, port=port))
    done = run(folder, "unbound-host", "-C", conf, "-v", "-t", asked[1], asked[0])
    cases.tell(f"unbound-host, {' '.join(asked)}", wanted in done.stdout, done.stdout + done.stderr)


def delv(cases, folder, zone, port, asked, wanted):
    """What delv makes of it, which by now is in the cache."""
    *_, tag, algorithm, kind, digest = zone.anchor.read_text().split()
    anchors = folder / "anchors"
    anchors.write_text(f'trust-anchors {{ "{zone.name}." static-ds {tag} {algorithm} {kind} "{digest}"; }};\n')
    words = [f"@{servers.ADDRESS}", "-p", port, "-a", anchors, f"+root={zone.name}"]
    done = run(folder, "delv", *words, *asked)
    said = done.stdout + done.stderr
    cases.tell(f"delv, {' '.join(asked)}", all(text in said for text in wanted), said)


ALL = (validated,)
