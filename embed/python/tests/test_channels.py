"""Channels that cannot be opened, over sockets that stand in."""
import errno
import unittest
import unittest.mock

import network
import yimarotu
from yimarotu import _network, _numbers

QUICK = "option timeout 1\noption attempts 0\n"


def refusing(*kinds):
    """What has sockets of these kinds, and no others, connected to an address for which there is none here."""
    connected = _network._connected

    def called(place):
        if place.kind in [_network.KINDS[kind] for kind in kinds]:
            raise OSError(errno.EADDRNOTAVAIL, "no address is left")
        return connected(place)

    return unittest.mock.patch.object(_network, "_connected", called)


class NoAddress(unittest.TestCase):
    def error_of(self, protocol, *kinds):
        """What a look-up comes to where sockets of these kinds have no address."""
        settings = f"server {network.ADDRESS} {network.free_port()} {protocol}\n{QUICK}"
        with yimarotu.Resolver(resolv_conf="", hostname="", hosts="", settings=settings) as resolver, refusing(*kinds):
            with self.assertRaises(yimarotu.Error) as caught:
                resolver.lookup("www.example.test", timeout=network.LONG)
        return type(caught.exception)

    def test_no_address_of_the_family(self):
        """The server cannot be reached."""
        for protocol in ("udp", "tcp"):
            error = self.error_of(protocol, _numbers.DATAGRAM, _numbers.STREAM)
            self.assertIs(error, yimarotu.Unreachable, protocol)

    def test_no_port_for_a_stream(self):
        """One may come free while the server has time."""
        self.assertIs(self.error_of("tcp", _numbers.STREAM), yimarotu.Timeout)


if __name__ == "__main__":
    unittest.main()
