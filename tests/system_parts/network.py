"""Runs a program in this network, which holds nothing: network.py FOLDER WORD.. The file `resolv.conf` of the folder lies
over /etc/resolv.conf, and name servers answer at port 53 of 127.0.0.1 and of fe80::53 on loopback; 127.0.0.3 hears, and says
nothing. To the file `asked` is written who was asked for which name, a line each."""
import fcntl
import selectors
import socket
import struct
import subprocess
import sys
import threading
import time
from pathlib import Path

import dns.flags
import dns.message
import dns.rrset

PORT, UP, SECONDS, TRIES = 53, 0x41, 50, 30
SIOCSIFFLAGS, SIOCSIFADDR = 0x8914, 0x8916
SERVERS = ("127.0.0.1", "127.0.0.3", "fe80::53%lo")
SILENT = "127.0.0.3"
RECORDS = {
    "www.example.test.": ["192.0.2.1"],
    "both.example.test.": ["192.0.2.2", "2001:db8::2"],
}


def lay_over(file):
    """The file lies over /etc/resolv.conf, in the mounts of this program alone. Where that leads to nothing, as where a
    service that writes it does not run, there is a place for it first."""
    place = Path("/etc/resolv.conf").resolve()
    if not place.exists():
        above = next(folder for folder in place.parents if folder.exists())
        subprocess.run(["mount", "-t", "tmpfs", "none", above], check=True)
        place.parent.mkdir(parents=True, exist_ok=True)
        place.touch()
    subprocess.run(["mount", "--bind", file, place], check=True)


def set_up():
    """Loopback is up, and has a link-local address (netdevice(7), and struct in6_ifreq of Linux)."""
    with socket.socket(socket.AF_INET, socket.SOCK_DGRAM) as sock:
        fcntl.ioctl(sock, SIOCSIFFLAGS, struct.pack("16sH22x", b"lo", UP))
    with socket.socket(socket.AF_INET6, socket.SOCK_DGRAM) as sock:
        address = socket.inet_pton(socket.AF_INET6, "fe80::53")
        fcntl.ioctl(sock, SIOCSIFADDR, struct.pack("16sIi", address, 128, socket.if_nametoindex("lo")))


def reply(wire):
    """The reply to a query, and the name that it asks for."""
    query = dns.message.from_wire(wire)
    question = query.question[0]
    answer = dns.message.make_response(query, recursion_available=True)
    family = {1: ".", 28: ":"}.get(question.rdtype, " ")
    found = [text for text in RECORDS.get(str(question.name), ()) if family in text]
    if found:
        answer.answer.append(dns.rrset.from_text(question.name, 60, "IN", question.rdtype, *found))
    else:
        soa = dns.rrset.from_text("test.", 60, "IN", "SOA", "test. test. 1 1 1 1 60")
        answer.authority.append(soa)
        answer.set_rcode(0 if str(question.name) in RECORDS else 3)
    return answer.to_wire(), str(question.name)


def by_udp(server, sock, asked):
    wire, client = sock.recvfrom(65535)
    octets, name = reply(wire)
    asked.append(f"{server} {name}")
    if server != SILENT:
        sock.sendto(octets, client)


def by_tcp(server, sock, asked):
    stream, _ = sock.accept()
    with stream, stream.makefile("rb") as file:
        (length,) = struct.unpack(">H", file.read(2))
        octets, name = reply(file.read(length))
        asked.append(f"tcp {server} {name}")
        stream.sendall(struct.pack(">H", len(octets)) + octets)


def bind(sock, place):
    """A link-local address may not be there at once (RFC 4862, section 5.4)."""
    for _ in range(TRIES):
        try:
            return sock.bind(place)
        except OSError:
            time.sleep(0.1)
    return sock.bind(place)


def listen(asked):
    """Serves in a thread of its own, as long as the program runs."""
    found = selectors.DefaultSelector()
    for server in SERVERS:
        place = socket.getaddrinfo(server, PORT, flags=socket.AI_NUMERICHOST)[0]
        for kind, serve in ((socket.SOCK_DGRAM, by_udp), (socket.SOCK_STREAM, by_tcp)):
            sock = socket.socket(place[0], kind)
            bind(sock, place[4])
            if kind == socket.SOCK_STREAM:
                sock.listen()
            found.register(sock, selectors.EVENT_READ, (serve, server))

    def serve_all():
        while True:
            for key, _ in found.select():
                serve, server = key.data
                serve(server, key.fileobj, asked)

    threading.Thread(target=serve_all, daemon=True).start()


def main(folder, *words):
    folder, asked = Path(folder), []
    lay_over(folder / "resolv.conf")
    set_up()
    listen(asked)
    done = subprocess.run(words, stdin=subprocess.DEVNULL, timeout=SECONDS, check=False)
    (folder / "asked").write_text("".join(f"{line}\n" for line in asked))
    return done.returncode


if __name__ == "__main__":
    sys.exit(main(*sys.argv[1:]))
