"""Resolvers with a setting, as the command of each: given its port, that of its upstream and a folder of its own."""
from pathlib import Path

from live_parts.servers import ADDRESS

TOP = Path(__file__).resolve().parents[2]

UNBOUND = """server:
  interface: {address}
  port: {port}
  do-daemonize: no
  username: ""
  chroot: ""
  directory: "{folder}"
  pidfile: ""
  use-syslog: no
  module-config: "iterator"
  do-not-query-localhost: no
  local-zone: "test." nodefault
  domain-insecure: "test."
{more}
forward-zone:
  name: "."
  forward-addr: {address}@{upstream}
remote-control:
  control-enable: no
"""


def unbound(*more):
    def words(port, upstream, folder):
        file = folder / f"unbound{port}.conf"
        lines = "\n".join(f"  {line}" for line in more)
        file.write_text(UNBOUND.format(address=ADDRESS, port=port, upstream=upstream, folder=folder, more=lines))
        return ["/usr/sbin/unbound", "-d", "-c", str(file)]

    return words


def dnsmasq(*more):
    def words(port, upstream, folder):
        return ["/usr/sbin/dnsmasq", "--no-daemon", "--conf-file=/dev/null", "--no-resolv", "--no-hosts", "--pid-file=",
                "--bind-interfaces", f"--listen-address={ADDRESS}", f"--port={port}",
                f"--server={ADDRESS}#{upstream}", *more]

    return words


KNOT = """net.listen('{address}', {port}, {{ kind = 'dns' }})
cache.open(10 * MB, 'lmdb://{folder}/cache{port}')
trust_anchors.remove('.')
policy.add(policy.all(policy.STUB('{address}@{upstream}')))
{more}
"""


def knot(*more):
    def words(port, upstream, folder):
        file = folder / f"kresd{port}.conf"
        file.write_text(KNOT.format(address=ADDRESS, port=port, upstream=upstream, folder=folder, more="\n".join(more)))
        return ["/usr/sbin/kresd", "-n", "-c", str(file), str(folder)]

    return words


def recursor(*more):
    def words(port, upstream, folder):
        state = folder / f"recursor{port}"
        state.mkdir()
        return ["/usr/sbin/pdns_recursor", "--daemon=no", f"--local-address={ADDRESS}", f"--local-port={port}",
                f"--forward-zones-recurse=.={ADDRESS}:{upstream}", f"--socket-dir={state}", f"--config-dir={state}",
                "--dont-query=", "--dnssec=off", "--security-poll-suffix=", "--write-pid=no", "--setuid=", "--setgid=",
                "--disable-syslog=yes", "--threads=1", *more]

    return words


def resolved(unpacked):
    """systemd-resolved, out of the folder that Debian's packages of it and of libsystemd-shared are unpacked in."""
    def words(port, upstream, folder):
        return [str(TOP / "tests/judged_parts/resolved.sh"), str(unpacked), str(port), str(upstream)]

    return words


FORWARD = """listen {address} {port}
server {address} {upstream}
hosts none
control none
{more}
"""


def forwarder(*more):
    """yimarotu-forward, as `make -C embed` builds it."""
    def words(port, upstream, folder):
        file = folder / f"forward{port}.conf"
        file.write_text(FORWARD.format(address=ADDRESS, port=port, upstream=upstream, more="\n".join(more)))
        return [str(TOP / "embed/out/yimarotu-forward"), "--config", str(file)]

    return words


# This product, which has to be without a finding.
OWN = "yimarotu-forward, as it is"
# Each product with a setting, by the words of docs/JUDGED.md.
SETTINGS = {
    "unbound, as it is": unbound(),
    "unbound, serve-expired: yes": unbound("serve-expired: yes"),
    "dnsmasq, as it is": dnsmasq(),
    "dnsmasq, --min-cache-ttl=10": dnsmasq("--min-cache-ttl=10"),
    "dnsmasq, --use-stale-cache": dnsmasq("--use-stale-cache"),
    "knot-resolver, as it is": knot(),
    "knot-resolver, cache.min_ttl(1)": knot("cache.min_ttl(1)"),
    "knot-resolver, serve_stale": knot("modules.load('serve_stale < cache')"),
    "pdns-recursor, as it is": recursor(),
    "pdns-recursor, --serve-stale-extensions=10": recursor("--serve-stale-extensions=10"),
    OWN: forwarder(),
}
# Settings that serve on purpose what ran out: it is found.
SERVES_STALE = ("unbound, serve-expired: yes", "dnsmasq, --min-cache-ttl=10", "dnsmasq, --use-stale-cache",
                "pdns-recursor, --serve-stale-extensions=10")
