"""A name server with zones of the tests', on loopback: nsd."""
import contextlib

from live_parts import servers

CONF = """server:
  ip-address: {address}
  port: {port}
  server-count: 1
  username: ""
  chroot: ""
  zonesdir: "{folder}"
  zonelistfile: "{folder}/zone.list"
  xfrdfile: "{folder}/xfrd.state"
  xfrdir: "{folder}"
  pidfile: ""
  database: ""
  rrl-ratelimit: 0
remote-control:
  control-enable: no
"""
ZONE = """zone:
  name: "{name}"
  zonefile: "{file}"
"""
# Its `www` is asked until it answers.
READY = """$ORIGIN example.test.
$TTL 300
@ SOA ns admin 1 7200 900 1209600 240
@ NS ns
ns A 192.0.2.53
www A 192.0.2.1
"""


@contextlib.contextmanager
def serving(folder, files):
    """The port of a server of zones, by their names the files of each."""
    ready = folder / "example.test"
    ready.write_text(READY)
    zones = "".join(ZONE.format(name=name, file=file) for name, file in {"example.test": ready, **files}.items())

    def words(port, _):
        conf = folder / "nsd.conf"
        conf.write_text(CONF.format(address=servers.ADDRESS, port=port, folder=folder) + zones)
        return ["/usr/sbin/nsd", "-d", "-c", str(conf)]

    with servers.running_by("nsd", words, folder) as server:
        yield server.port
