#!/usr/bin/python3
"""inside.py OUT FOLDER PROGRAM: run in a network and mounts of their own, which hold nothing. The last line is
`N passed, M failed`."""
import contextlib
import email.utils
import fcntl
import hashlib
import http.server
import os
import select
import socket
import struct
import subprocess
import sys
import tempfile
import threading
import time
from pathlib import Path

import dns.message

sys.dont_write_bytecode = True
EMBED = Path(__file__).resolve().parent.parent
sys.path[:0] = [str(EMBED), str(EMBED.parent / "tests")]
from forward_parts import asking, bounds, daemon, hostile, operating
from live_parts import stub
from live_parts.cases import Cases

ADDRESSES = ("fd00::1", "fd00::2", "10.9.0.1", "10.9.0.2", "fe80::53")
SCOPED = "fe80::53%lo"
RECORDS = [
    "example.test. 300 IN SOA ns.example.test. admin.example.test. 1 7200 900 1209600 240",
    "web.example.test. 60 IN A 10.9.0.1", "web.example.test. 60 IN AAAA fd00::1",
    "alias.example.test. 60 IN CNAME web.example.test.", "four.example.test. 60 IN A 192.0.2.4",
    "mirror.example.test. 60 IN CNAME web.example.test.",
]
PAGES, SHELLS, CLIENT = 8080, 2222, 40000
# In so many seconds a reply comes that needs no server.
SOON = 20
# How many connections a network of IPv6 has, and how many of them one address.
OF_NETWORK, OF_ADDRESS = 256, 64
# The one package of a small repository, for every machine.
PACKAGE = b"""Package: from-the-tests
Version: 1.0
Architecture: all
Maintainer: nobody <nobody@example.test>
Filename: ./from-the-tests_1.0_all.deb
Size: 0
Description: what the repository of the tests has

"""


def run(*words):
    return subprocess.run([str(word) for word in words], capture_output=True, text=True, timeout=daemon.SECONDS)


def set_up():
    for words in (["link", "set", "lo", "up"], *(["address", "add", address, "dev", "lo"] for address in ADDRESSES)):
        done = run("ip", *words)
        if done.returncode:
            raise RuntimeError(done.stderr)


def lay_over(text, path):
    """A file with this text lies over another one, in the mounts of this program alone."""
    place = Path(path).resolve()
    if not place.exists():
        above = next(folder for folder in place.parents if folder.exists())
        subprocess.run(["mount", "-t", "tmpfs", "none", above], check=True)
        place.parent.mkdir(parents=True, exist_ok=True)
        place.touch()
    file = Path(tempfile.mkdtemp()) / "file"
    file.write_text(text)
    subprocess.run(["mount", "--bind", file, place], check=True)


def sources(cases, running):
    """The reply comes from the address that was asked, which a connected socket tells."""
    for address in (*ADDRESSES[:-1], SCOPED, "127.0.0.1", "127.0.0.2", "::1"):
        for how in (asking.by_udp, asking.by_tcp):
            with cases.guard(f"{how.__name__} from {address}"):
                found = asking.addresses(how(53, "four.example.test", address=address))
                cases.equal(f"{how.__name__} from {address}, of all of the machine", found, ["192.0.2.4"])
    with cases.guard("a client with a global address"), asking.datagrams(53, SCOPED, source=ADDRESSES[1]) as sock:
        sock.send(asking.query("four.example.test").to_wire())
        found = asking.addresses(dns.message.from_wire(sock.recv(512)))
        cases.equal("by UDP from a link-local address, to a global one", found, ["192.0.2.4"])


@contextlib.contextmanager
def link(name, address):
    """An interface at whose other end is this program; gives the file by which it hears and sends packets."""
    TUNSETIFF, IFF_TUN, IFF_NO_PI = 0x400454CA, 1, 0x1000
    with open("/dev/net/tun", "r+b", buffering=0) as file:
        fcntl.ioctl(file, TUNSETIFF, struct.pack("16sH22x", name.encode(), IFF_TUN | IFF_NO_PI))
        for words in (["link", "set", name, "up"], ["address", "add", f"{address}/16", "dev", name]):
            subprocess.run(["ip", *words], check=True)
        yield file


def packet(source, target, port, octets):
    """A datagram of UDP over IPv4 (RFC 791, section 3.1), without a checksum of its own (RFC 768)."""
    head = struct.pack(">BxH4xBBxx", 0x45, 28 + len(octets), 64, socket.IPPROTO_UDP)
    head += socket.inet_aton(source) + socket.inet_aton(target)
    total = sum(struct.unpack(">10H", head))
    head = head[:10] + struct.pack(">H", ~(total + (total >> 16)) & 0xFFFF) + head[12:]
    return head + struct.pack(">4H", port, 53, 8 + len(octets), 0) + octets


def heard_at(files, port):
    """By which of these interfaces a datagram to this port goes out, or None."""
    until = time.monotonic() + daemon.SECONDS
    while (left := until - time.monotonic()) > 0:
        for file in select.select(files.values(), [], [], left)[0]:
            octets = file.read(65535)
            if octets[0] >> 4 == 4 and octets[9] == socket.IPPROTO_UDP and octets[22:24] == struct.pack(">H", port):
                return next(name for name in files if files[name] is file)
    return None


def of_two_links(cases):
    """A client with a link-local address is replied to by the link on which it is, and not by the first one that has such
    addresses."""
    if not os.path.exists("/dev/net/tun"):
        return print("/dev/net/tun is not there: link-local addresses of IPv4 are not looked at")
    with link("first", "169.254.1.1") as first, link("second", "169.254.1.2") as second:
        for name in ("all", "second"):
            Path(f"/proc/sys/net/ipv4/conf/{name}/rp_filter").write_text("0")
        second.write(packet("169.254.9.9", "169.254.1.2", CLIENT, asking.query("localhost").to_wire()))
        found = heard_at({"first": first, "second": second}, CLIENT)
        cases.equal("by which link a client with a link-local address is replied to", found, "second")
        of_this_machine(cases, "169.254.1.2")


def of_one_socket(cases, run_daemon):
    """The same by a socket of systemd's for IPv4 and IPv6."""
    with socket.socket(socket.AF_INET6, socket.SOCK_DGRAM) as both:
        both.setsockopt(socket.IPPROTO_IPV6, socket.IPV6_V6ONLY, 0)
        both.bind(("::", 53))
        before, how = operating.passed_on(both)
        with run_daemon.running("server 192.0.2.53", before=before, **how):
            of_two_links(cases)


def of_this_machine(cases, asked):
    """A client that asks at a link-local address from one of another interface is replied to."""
    for source in ("10.9.0.2", "127.0.0.1"):
        with cases.guard(f"a client at {source}"), asking.datagrams(53, asked, source=source) as sock:
            sock.settimeout(SOON)
            sock.send(asking.query("localhost").to_wire())
            found = asking.addresses(dns.message.from_wire(sock.recv(512)))
            cases.equal(f"from a link-local address to {source}, of another interface", found, ["127.0.0.1"])


def scoped(cases, run_daemon):
    """A server with a link-local address, out of a file resolv.conf."""
    file = run_daemon.folder / "resolv.conf"
    file.write_text(f"nameserver {SCOPED}\n")
    with hostile.upstream(lambda query: [hostile.answered(query, (60, "IN", "A", "192.0.2.5"))], SCOPED, 53):
        with run_daemon.running(f"resolv_conf {file}", port=53) as running:
            found = asking.addresses(asking.by_udp(53, "five.example.test"))
            cases.equal("a server with a link-local address", found, ["192.0.2.5"])


def open_to_anybody(pid, own=53):
    """The ports, but for that of its clients, of a program's sockets for datagrams that are connected to nobody."""
    found, inodes = [], set()
    for file in Path(f"/proc/{pid}/fd").iterdir():
        with contextlib.suppress(FileNotFoundError):
            inodes.add(os.readlink(file))
    for table in ("udp", "udp6"):
        for line in Path(f"/proc/{pid}/net/{table}").read_text().splitlines()[1:]:
            here, there, inode = (line.split()[at] for at in (1, 2, 9))
            if f"socket:[{inode}]" in inodes and not there.strip("0:"):
                found.append(int(here.split(":")[1], 16))
    return [port for port in found if port != own]


def no_way(cases, run_daemon):
    """Of a server to which no way leads no socket stays that is connected to nobody, while the next one is asked."""
    with bounds.datagrams() as sock:
        sock.bind(("127.0.0.1", 0))
        silent = bounds.Upstream(sock)
        lines = ["server 2001:db8::1 53 udp", f"server {silent.text} udp", f"option timeout {daemon.SECONDS}"]
        with run_daemon.running(*lines, port=53) as running, asking.datagrams(53) as client:
            client.send(asking.query("four.example.test").to_wire())
            cases.tell("no way leads to the first server: the next one is asked", silent.hear(), "nothing came")
            cases.equal("ports that hear anybody", open_to_anybody(running.pid), [])
        words = [run_daemon.program.parent / "lookup", "third.example.test", "\n".join(lines)]
        process = subprocess.Popen(words, stdin=subprocess.DEVNULL, stderr=subprocess.DEVNULL)
        try:
            asked = silent.hear_of("third.example.test.", daemon.SECONDS)
            cases.tell("lookup, no way leads to the first server: the next one is asked", asked, "nothing came")
            cases.equal("lookup, ports that hear anybody", open_to_anybody(process.pid), [])
        finally:
            process.kill()
            process.wait()


def no_family(cases, run_daemon):
    """Where the machine has no IPv6 a server of it cannot be reached, by datagrams and by a stream. That is kept."""
    Path("/proc/sys/net/ipv6/conf/all/disable_ipv6").write_text("1")
    for protocol in ("udp", "tcp"):
        lines = [f"server 2001:db8::1 53 {protocol}", "option timeout 1", "option attempts 0"]
        with run_daemon.running(*lines, port=53) as running:
            # (the first failure is kept for what is left of a second, and each further one for longer)
            found = {asking.addresses(asking.by_udp(53, "four.example.test")) for _ in range(3)}
            cases.equal(f"no IPv6, by {protocol}", found, {"SERVFAIL"})
            counts = running.counts()
            cases.tell(f"no IPv6, by {protocol}: the failure is kept", counts["failures_told"], counts)
        done = run(run_daemon.program.parent / "lookup", "four.example.test", "\n".join(lines))
        if protocol == "udp":
            cases.tell("lookup, no IPv6", done.returncode == 3 and " error 4," in done.stderr, done)


@contextlib.contextmanager
def without_a_line(run_daemon):
    """Runs it with the control socket that counts where no line names one; gives what it says."""
    config = run_daemon.write("listen 127.0.0.1", "server 192.0.2.53", "hosts none")
    said = config.with_suffix(".said")
    with said.open("wb") as error:
        words = [run_daemon.program, "--config", config]
        running = daemon.Running(subprocess.Popen(words, stdin=subprocess.DEVNULL, stderr=error), said, None, 53)
    try:
        running.wait_for(daemon.LISTENS)
        yield running.said()
    finally:
        running.process.terminate()
        running.process.wait(daemon.SECONDS)


def other_control(cases, run_daemon):
    """When it ends it takes its own control socket away, and none of another program, for which it did without."""
    subprocess.run(["mount", "-t", "tmpfs", "none", "/run"], check=True)
    path = Path("/run/yimarotu-forward/control")
    try:
        with without_a_line(run_daemon):
            cases.tell("a control socket where no line names one", path.is_socket(), path)
        cases.tell("it goes with its program", not path.exists(), path)
        with socket.socket(socket.AF_UNIX) as other:
            other.bind(str(path))
            other.listen()
            with without_a_line(run_daemon) as said:
                cases.tell("the control socket of another program", f"cannot listen at {path}: " in said, said)
            cases.tell("it stays", path.is_socket(), path)
    finally:
        subprocess.run(["umount", "/run"], check=True)


def is_closed(sock):
    """Whether the other end has closed a connection on which nothing comes."""
    sock.setblocking(False)
    try:
        return sock.recv(1) == b""
    except BlockingIOError:
        return False
    except ConnectionError:
        return True


def one_of_a_network(cases, run_daemon):
    """A host whose connections all wait leaves other hosts of its network of 64 bits a part of what they have together."""
    with contextlib.ExitStack() as stack:
        silent = stack.enter_context(socket.socket(socket.AF_INET, socket.SOCK_DGRAM))
        silent.bind(("127.0.0.1", 0))
        lines = [f"server 127.0.0.1 {silent.getsockname()[1]} udp", "option timeout 60"]
        running = stack.enter_context(run_daemon.running(*lines, port=53, listens=("fd00::1",)))
        socks = [stack.enter_context(asking.stream(53, "fd00::1", source="fd00::2")) for _ in range(OF_NETWORK)]
        for sock in socks:
            with contextlib.suppress(ConnectionError):
                sock.sendall(asking.pipelined(asking.query("slow.example.test")))
        daemon.wait_until(lambda: sum(map(is_closed, socks)) + running.counts()["waiting"] == OF_NETWORK,
                          "each connection waits, or is closed")
        cases.equal(f"of {OF_NETWORK} connections of one address so many wait", running.counts()["waiting"], OF_ADDRESS)
        reply = asking.by_tcp(53, "localhost", address="fd00::1")
        cases.equal("another host of its network", reply and asking.addresses(reply), ["127.0.0.1"])


def release():
    """What a repository says of itself (apt-secure(8))."""
    lines = ["Origin: tests", "Suite: stable", f"Date: {email.utils.formatdate(usegmt=True)}", "SHA256:"]
    return "\n".join([*lines, f" {hashlib.sha256(PACKAGE).hexdigest()} {len(PACKAGE)} Packages", ""]).encode()


class Page(http.server.BaseHTTPRequestHandler):
    pages = {"/": b"hello\n", "/debian/./Release": release(), "/debian/./Packages": PACKAGE}

    def do_GET(self):
        page = self.pages.get(self.path)
        self.send_response(404 if page is None else 200)
        self.send_header("Content-Length", str(len(page or b"")))
        self.end_headers()
        self.wfile.write(page or b"")

    def log_message(self, *words):
        pass


@contextlib.contextmanager
def web():
    server = http.server.ThreadingHTTPServer(("10.9.0.1", PAGES), Page)
    thread = threading.Thread(target=server.serve_forever)
    thread.start()
    try:
        yield
    finally:
        server.shutdown()
        thread.join()
        server.server_close()


def by_ssh(cases):
    """It comes to the machine of the name, and is heard there."""
    heard = []

    def listen(listener):
        connection, _ = listener.accept()
        with connection, connection.makefile("rb") as file:
            heard.append(file.readline())

    with socket.create_server(("10.9.0.1", SHELLS)) as listener:
        thread = threading.Thread(target=listen, args=(listener,))
        thread.start()
        settings = ["BatchMode=yes", "StrictHostKeyChecking=no", "UserKnownHostsFile=/dev/null", "AddressFamily=inet"]
        options = [word for it in settings for word in ("-o", it)]
        done = run("ssh", "-F", "none", *options, "-p", SHELLS, "alias.example.test", "true")
        with contextlib.suppress(OSError):
            # (where ssh never came, this ends the thread)
            socket.create_connection(("10.9.0.1", SHELLS), daemon.SECONDS).close()
        thread.join()
    cases.tell("ssh", heard and heard[0].startswith(b"SSH-2.0-"), f"{heard}, {done.stderr}")


def by_apt(cases, folder):
    """apt-get update, from a repository whose name the zone of the tests has, and nobody else."""
    top = Path(tempfile.mkdtemp(dir=folder))
    for name in ("lists/partial", "archives/partial", "parts"):
        (top / name).mkdir(parents=True)
    (top / "sources.list").write_text(f"deb [trusted=yes] http://mirror.example.test:{PAGES}/debian ./\n")
    (top / "status").touch()
    settings = {
        "Dir::Etc::SourceList": top / "sources.list", "Dir::Etc::SourceParts": top / "parts",
        "Dir::State::Lists": top / "lists", "Dir::State::status": top / "status", "Dir::Cache": top,
        "Acquire::http::Proxy": "DIRECT", "Acquire::Languages": "none", "APT::Sandbox::User": "root",
    }
    options = [word for name, value in settings.items() for word in ("-o", f"{name}={value}")]
    done = run("apt-get", *options, "update")
    cases.tell("apt-get update", done.returncode == 0 and "mirror.example.test" in done.stdout, done.stdout + done.stderr)
    done = run("apt-cache", *options, "show", "from-the-tests")
    cases.tell("apt-cache show", "what the repository of the tests has" in done.stdout, done.stdout + done.stderr)


def programs(cases, folder):
    """Programs over the system's own resolver."""
    done = run("getent", "hosts", "four.example.test")
    cases.equal("getent hosts", (done.returncode, done.stdout.split()), (0, ["192.0.2.4", "four.example.test"]))
    done = run("getent", "ahosts", "alias.example.test")
    found = {line.split()[0] for line in done.stdout.splitlines()}
    cases.equal("getent ahosts", (done.returncode, found), (0, {"10.9.0.1", "fd00::1"}))
    cases.equal("getent hosts, no such name", run("getent", "hosts", "nowhere.example.test").returncode, 2)
    done = run("ping", "-c", 1, "-W", daemon.SECONDS, "web.example.test")
    cases.tell("ping", done.returncode == 0 and " 1 received" in done.stdout, done.stdout + done.stderr)
    words = ["-c", f"import urllib.request as it; print(it.urlopen('http://alias.example.test:{PAGES}/').read())"]
    with web():
        cases.equal("urllib", run(sys.executable, *words).stdout, "b'hello\\n'\n")
        done = run("curl", "--silent", "--show-error", "--noproxy", "*", "--ipv4", f"http://web.example.test:{PAGES}/")
        cases.equal("curl", (done.stdout, done.stderr), ("hello\n", ""))
        by_apt(cases, folder)
    by_ssh(cases)


def main(out, folder, name):
    cases, run_daemon = Cases(), daemon.Daemon(Path(out), Path(folder), name)
    with cases.guard("a network of its own"):
        set_up()
        lay_over("nameserver 127.0.0.1\noptions timeout:20\n", "/etc/resolv.conf")
        lay_over("hosts: files dns\n", "/etc/nsswitch.conf")
        with stub.running(RECORDS) as server:
            lines = [f"server 127.0.0.1 {server.port}", "user nobody"]
            os.chmod(folder, 0o755)
            with run_daemon.running(*lines, port=53, listens=("0.0.0.0", "::")) as running:
                sources(cases, running)
                with cases.guard("two links"):
                    of_two_links(cases)
                programs(cases, folder)
        with cases.guard("two links, by one socket"):
            of_one_socket(cases, run_daemon)
        with cases.guard("a server with a link-local address"):
            scoped(cases, run_daemon)
        with cases.guard("a server to which no way leads"):
            no_way(cases, run_daemon)
        with cases.guard("hosts of one network"):
            one_of_a_network(cases, run_daemon)
        with cases.guard("control sockets of others"):
            other_control(cases, run_daemon)
        with cases.guard("a machine without IPv6"):
            no_family(cases, run_daemon)
    print(f"{cases.passed} passed, {cases.failed} failed")


main(*sys.argv[1:])
