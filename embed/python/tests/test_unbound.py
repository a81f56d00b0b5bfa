"""Look-ups over unbound, as Debian has it."""
import asyncio
import contextlib
import ipaddress
import socket
import subprocess
import tempfile
import threading
import time
import unittest
from pathlib import Path

import network
import yimarotu
from yimarotu import aio

COUNT, SECONDS = 200, 60
UNBOUND = """server:
  interface: {address}
  port: {port}
  do-daemonize: no
  username: ""
  chroot: ""
  directory: "{folder}"
  pidfile: ""
  use-syslog: no
  module-config: "iterator"
  local-zone: "example.test." static
  local-data: "example.test. 60 IN MX 10 mail.example.test."
  local-data: 'big.example.test. 60 IN TXT {big}'
{records}
remote-control:
  control-enable: no
"""
NAMES = {f"n{number}.example.test": ipaddress.ip_address(0x0A000000 + number) for number in range(COUNT)}


@contextlib.contextmanager
def unbound():
    """The port of a server that answers."""
    port = network.free_port()
    with tempfile.TemporaryDirectory() as folder:
        records = "\n".join(f"  local-data: '{name}. 60 IN A {address}'" for name, address in NAMES.items())
        big = " ".join(f'"{text.decode()}"' for text in network.BIG)
        file = Path(folder, "unbound.conf")
        file.write_text(UNBOUND.format(address=network.ADDRESS, port=port, folder=folder, records=records, big=big))
        words = ["/usr/sbin/unbound", "-d", "-c", str(file)]
        nothing = subprocess.DEVNULL
        process = subprocess.Popen(words, stdin=nothing, stdout=nothing, stderr=nothing)
        try:
            wait_for(port, process)
            yield port
        finally:
            process.terminate()
            process.wait()


def wait_for(port, process):
    until = time.monotonic() + SECONDS
    while True:
        with contextlib.suppress(OSError), socket.create_connection((network.ADDRESS, port), 0.5):
            return
        if process.poll() is not None or time.monotonic() > until:
            raise RuntimeError("unbound did not start")
        time.sleep(0.05)


class Unbound(unittest.TestCase):
    @classmethod
    def setUpClass(cls):
        stack = contextlib.ExitStack()
        cls.addClassCleanup(stack.close)
        port = stack.enter_context(unbound())
        cls.given = {"servers": [(network.ADDRESS, port)], "resolv_conf": "", "hostname": "", "hosts": ""}

    def test_many_at_once(self):
        async def main():
            before = network.sockets()
            async with aio.Resolver(**self.given) as resolver:
                found = await asyncio.gather(*map(resolver.addresses, NAMES))
                self.assertEqual([list(it) for it in found], [[address] for address in NAMES.values()])
                again = await asyncio.gather(*map(resolver.addresses, NAMES))
                self.assertEqual(again, found)
                self.assertGreaterEqual(resolver.statistics().sent, 2 * COUNT)
            self.assertEqual(network.sockets(), before)

        asyncio.run(main())

    def test_threads(self):
        found = {}
        with yimarotu.Resolver(**self.given) as resolver:
            def look_up(name):
                found[name] = list(resolver.addresses(name))

            threads = [threading.Thread(target=look_up, args=(name,)) for name in NAMES]
            for thread in threads:
                thread.start()
            for thread in threads:
                thread.join(SECONDS)
        self.assertEqual(found, {name: [address] for name, address in NAMES.items()})

    def test_records(self):
        with yimarotu.Resolver(**self.given) as resolver:
            (record,) = resolver.lookup("example.test", "MX")
            self.assertEqual(str(record.data), "10 mail.example.test.")
            self.assertEqual(resolver.lookup("big.example.test", "TXT")[0].data.strings, tuple(network.BIG))
            with self.assertRaises(yimarotu.NoSuchName):
                resolver.addresses("nowhere.example.test")


if __name__ == "__main__":
    unittest.main()
