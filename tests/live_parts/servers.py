"""Name servers on loopback: unbound and dnsmasq with one zone."""
import os
import signal
import socket
import subprocess
import time
from contextlib import contextmanager

import dns.exception
import dns.message
import dns.query

from . import zone

ADDRESS = "127.0.0.1"
SECONDS_TO_START = 60
# How many ports are tried.
TRIES = 3

UNBOUND = """server:
  interface: {address}
  port: {port}
  do-daemonize: no
  username: ""
  chroot: ""
  directory: "{folder}"
  pidfile: ""
  use-syslog: no
  module-config: "iterator"
  local-zone: "example.test." static
{records}
remote-control:
  control-enable: no
"""


@contextmanager
def both_sockets():
    """A socket for datagrams and one for streams, at one port that was free for both."""
    while True:
        with socket.socket(socket.AF_INET, socket.SOCK_DGRAM) as datagrams, socket.socket() as streams:
            datagrams.bind((ADDRESS, 0))
            try:
                streams.bind(datagrams.getsockname())
            except OSError:
                continue
            yield datagrams, streams
            return


def free_port():
    """A port that is free for UDP and TCP."""
    with both_sockets() as (datagrams, _):
        return datagrams.getsockname()[1]


@contextmanager
def nobody():
    """A port at which nobody is: a socket has it that hears itself alone."""
    with socket.socket(socket.AF_INET, socket.SOCK_DGRAM) as sock:
        sock.bind((ADDRESS, 0))
        sock.connect(sock.getsockname())
        yield sock.getsockname()[1]


def unbound_words(port, folder):
    """The command for unbound, over a configuration that is written for it."""
    records = "\n".join(f"  local-data: '{record}'" for record in zone.RECORDS)
    file = folder / "unbound.conf"
    file.write_text(UNBOUND.format(address=ADDRESS, port=port, folder=folder, records=records))
    return ["/usr/sbin/unbound", "-d", "-c", str(file)]


def dnsmasq_words(port, folder):
    """The command for dnsmasq with the same zone, but for its SOA record."""
    big = ",".join(zone.BIG)
    return [
        "/usr/sbin/dnsmasq", "--no-daemon", "--conf-file=/dev/null", "--no-resolv", "--no-hosts", "--bind-interfaces",
        f"--listen-address={ADDRESS}", f"--port={port}", "--local-ttl=60", "--local=/test/", "--pid-file=",
        "--host-record=www.example.test,192.0.2.1,2001:db8::1,60", "--host-record=mail.example.test,192.0.2.25,60",
        "--host-record=four.example.test,192.0.2.4,60",
        "--cname=alias.example.test,www.example.test", "--cname=second.example.test,alias.example.test",
        "--cname=third.example.test,second.example.test", "--mx-host=example.test,mail.example.test,10",
        "--mx-host=example.test,backup.example.test,20", "--txt-record=example.test,v=spf1 -all,two words",
        "--srv-host=_imap._tcp.example.test,mail.example.test,143,10,5", f"--txt-record=big.example.test,{big}",
    ]


SERVERS = {"unbound": unbound_words, "dnsmasq": dnsmasq_words}


class Server:
    def __init__(self, process, port):
        self._process, self.port = process, port
        self.text = f"{ADDRESS}:{port}"

    @contextmanager
    def silenced(self):
        """The server says nothing meanwhile."""
        os.kill(self._process.pid, signal.SIGSTOP)
        try:
            yield
        finally:
            os.kill(self._process.pid, signal.SIGCONT)


def running(name, folder):
    """The server of this name, once it answers."""
    return running_by(name, SERVERS[name], folder)


@contextmanager
def running_by(name, words, folder):
    """A server whose command is made of its port and a folder, once it answers. It is ended by its id."""
    process, port = started(name, words, folder)
    try:
        yield Server(process, port)
    finally:
        process.terminate()
        process.wait()


def started(name, words, folder):
    """A server that answers, and its port. Where it ended, as another had its port by then, the next one is tried."""
    for tries_left in reversed(range(TRIES)):
        port = free_port()
        with open(folder / f"{name}.log", "wb") as log:
            process = subprocess.Popen(words(port, folder), stdin=subprocess.DEVNULL, stdout=log, stderr=log)
        try:
            wait_for(port, process)
            return process, port
        except RuntimeError:
            has_ended = process.poll() is not None
            process.kill()
            process.wait()
            if not has_ended or not tries_left:
                raise


def wait_for(port, process):
    until = time.monotonic() + SECONDS_TO_START
    query = dns.message.make_query("www.example.test", "A")
    while True:
        try:
            dns.query.udp(query, ADDRESS, timeout=1, port=port)
            return
        except (dns.exception.Timeout, OSError):
            if process.poll() is not None or time.monotonic() > until:
                raise RuntimeError(f"{process.args[0]} did not start")
            time.sleep(0.02)
