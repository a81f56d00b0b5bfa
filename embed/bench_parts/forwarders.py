"""Caching forwarders side by side under dnsperf, each on one processor, to one server on another: yimarotu-forward,
dnsmasq, unbound, knot-resolver and pdns-recursor. Queries a second of names in the cache, of names that are asked once,
of half of each, and over TCP; how long the slowest of a thousand queries waits; and memory with many names in the cache."""
import contextlib
import os
import re
import subprocess
import time
from pathlib import Path

from live_parts import servers

# Names that are asked over and over, those of which none is asked twice, and those whose memory is measured.
NAMES, OTHERS, HELD = 200, 1_000_000, 100_000
# What waits at the server while a load is measured.
IN_FLIGHT = 200
# Any name below it has the same address.
MISSES = """  local-zone: "miss.test." redirect
  local-data: "miss.test. 3600 IN A 192.0.2.1"
"""
UNBOUND = """server:
  interface: {address}
  port: {port}
  do-daemonize: no
  username: ""
  chroot: ""
  directory: "{folder}"
  pidfile: ""
  use-syslog: no
  num-threads: 1
  module-config: "iterator"
  do-not-query-localhost: no
  msg-cache-size: 64m
  rrset-cache-size: 128m
  local-zone: "test." nodefault
forward-zone:
  name: "."
  forward-addr: {address}@{upstream}
remote-control:
  control-enable: no
"""
KNOT = """net.listen('{address}', {port}, {{ kind = 'dns' }})
cache.size = 128 * MB
trust_anchors.remove('.')
policy.add(policy.all(policy.FORWARD('{address}@{upstream}')))
"""
OURS = """listen {address} {port}
server {address} {upstream}
resolv_conf none
hosts none
control none
log none
option cache_octets 134217728
option cache_entries 1000000
processes {processes}
"""


def written(path, text):
    path.write_text(text)
    return path


def ours(program, processes=1):
    def words(port, upstream, folder):
        text = OURS.format(address=servers.ADDRESS, port=port, upstream=upstream, processes=processes)
        return [program, "--config", written(folder / "forward.conf", text)]

    return words


def dnsmasq(port, upstream, folder):
    return [
        "/usr/sbin/dnsmasq", "--no-daemon", "--conf-file=/dev/null", "--no-resolv", "--no-hosts", "--bind-interfaces",
        "--pid-file=", "--cache-size=200000", "--dns-forward-max=10000", f"--listen-address={servers.ADDRESS}",
        f"--port={port}", f"--server={servers.ADDRESS}#{upstream}",
    ]


def unbound(port, upstream, folder):
    text = UNBOUND.format(address=servers.ADDRESS, port=port, folder=folder, upstream=upstream)
    return ["/usr/sbin/unbound", "-d", "-c", written(folder / "forwarding.conf", text)]


def knot(port, upstream, folder):
    place = folder / "kresd"
    place.mkdir(exist_ok=True)
    text = KNOT.format(address=servers.ADDRESS, port=port, upstream=upstream)
    return ["/usr/sbin/kresd", "-n", "-q", "-c", written(folder / "kresd.conf", text), place]


def pdns(port, upstream, folder):
    return [
        "/usr/sbin/pdns_recursor", "--daemon=no", f"--config-dir={folder}", f"--socket-dir={folder}", "--write-pid=no",
        "--disable-syslog", "--loglevel=0", "--quiet", "--threads=1", "--dnssec=off", "--dont-query=",
        f"--local-address={servers.ADDRESS}", f"--local-port={port}", "--max-cache-entries=1000000",
        f"--forward-zones-recurse=.={servers.ADDRESS}:{upstream}", f"--query-local-address={servers.ADDRESS}",
    ]


OTHER_PROGRAMS = {"dnsmasq": dnsmasq, "unbound": unbound, "knot-resolver": knot, "pdns-recursor": pdns}


def processors():
    """Those of the forwarder, two for two processes, that of the server, and those of dnsperf."""
    all_of_them = sorted(os.sched_getaffinity(0))
    first, second, *others = all_of_them if len(all_of_them) > 2 else all_of_them * 2
    return [first], [first, second], [others[0]], others


def pinned(processors, words):
    return ["taskset", "-c", ",".join(map(str, processors)), *map(str, words)]


@contextlib.contextmanager
def running(words, port, folder, processors):
    """A forwarder, once it answers."""
    with open(folder / "forwarder.log", "wb") as log:
        process = subprocess.Popen(pinned(processors, words), cwd=folder, stdin=subprocess.DEVNULL, stdout=log, stderr=log)
    try:
        servers.wait_for(port, process)
        yield process
    finally:
        process.terminate()
        process.wait()


@contextlib.contextmanager
def upstream(folder):
    """The server that all ask, on a processor of its own."""
    servers.zone.RECORDS += [f"n{number}.example.test. 3600 IN A 10.0.0.{number}" for number in range(NAMES)]
    servers.UNBOUND = servers.UNBOUND.replace("remote-control:", MISSES + "remote-control:")
    words = servers.SERVERS["unbound"]
    servers.SERVERS["unbound"] = lambda port, folder: pinned(processors()[2], words(port, folder))
    with servers.running("unbound", folder) as server:
        yield server.port


def files_of(folder):
    """The files of names: those in the cache, those asked once, half of each, those that are held, and so often each."""
    kept = [f"n{number}.example.test A" for number in range(NAMES)]
    once = [f"n{number}.miss.test A" for number in range(OTHERS)]
    mixed = [line for number, name in enumerate(once) for line in (name, kept[number % NAMES])]
    texts = {"in the cache": kept, "asked once": once, "half of each": mixed}
    texts["held"] = [f"h{number}.miss.test A" for number in range(HELD)]
    return {what: written(folder / f"names {what}", "\n".join(lines) + "\n") for what, lines in texts.items()}


def dnsperf(port, names, *more):
    words = ["dnsperf", "-s", servers.ADDRESS, "-p", port, "-d", names, "-q", IN_FLIGHT, "-c", 4, "-b", 4096, *more]
    return subprocess.run(pinned(processors()[3], words), capture_output=True, check=True, text=True).stdout


def queries_a_second(said):
    return float(re.search(r"Queries per second:\s+([\d.]+)", said)[1])


def lost(said):
    return int(re.search(r"Queries lost:\s+(\d+)", said)[1])


def waits(said):
    """How long each query waited, in milliseconds, the longest last."""
    return sorted(1000 * float(line.split()[-1]) for line in said.splitlines() if line.startswith("> "))


def resident(process):
    """The resident memory of a process and of its children, in KB."""
    found = 0
    for pid in [process.pid, *children(process.pid)]:
        status = Path(f"/proc/{pid}/status").read_text()
        found += int(re.search(r"VmRSS:\s+(\d+)", status)[1])
    return found


def children(pid):
    below = Path(f"/proc/{pid}/task/{pid}/children").read_text().split()
    return [it for child in map(int, below) for it in (child, *children(child))]


def loads(given, files):
    """What is measured: its name, the file, and what dnsperf is told."""
    for what in ("in the cache", "asked once", "half of each"):
        yield what, files[what], ["-l", given.seconds]
    yield "in the cache, over TCP", files["in the cache"], ["-l", given.seconds, "-m", "tcp"]


def warm(port, files):
    dnsperf(port, files["in the cache"], "-n", 2)


def measured(given, program, server, files, folder, processors):
    """The queries a second of each load, each by a forwarder that was begun for it, and how many it lost."""
    found = {}
    for what, names, more in loads(given, files):
        port = servers.free_port()
        with running(program(port, server, folder), port, folder, processors):
            warm(port, files)
            said = dnsperf(port, names, *more)
            found[what] = queries_a_second(said), lost(said)
    return found


def slowest(given, program, server, files, folder):
    """How long the thousandth part of the queries that wait longest do at the least, in milliseconds."""
    port = servers.free_port()
    with running(program(port, server, folder), port, folder, processors()[0]):
        warm(port, files)
        waited = waits(dnsperf(port, files["half of each"], "-l", given.seconds, "-Q", 5000, "-v"))
    return waited[len(waited) * 999 // 1000]


def memory(program, server, files, folder):
    """Resident memory, in KB, with many names in the cache, beside what it was before."""
    port = servers.free_port()
    with running(program(port, server, folder), port, folder, processors()[0]) as process:
        before = resident(process)
        dnsperf(port, files["held"], "-n", 1)
        time.sleep(0.2)
        return before, resident(process)


def measure(given, folder, program):
    programs = {"yimarotu-forward": ours(program), **OTHER_PROGRAMS}
    files = files_of(folder)
    best, all_lost, waited, held = {}, {}, {}, {}
    with upstream(folder) as server:
        for _ in range(given.rounds):
            for name, words in programs.items():
                for what, (found, lacking) in measured(given, words, server, files, folder, processors()[0]).items():
                    best[name, what] = max(best.get((name, what), 0), found)
                    all_lost[name] = all_lost.get(name, 0) + lacking
                waited[name] = min(waited.get(name, 1e9), slowest(given, words, server, files, folder))
        for name, words in programs.items():
            held[name] = memory(words, server, files, folder)
        two = measured(given, ours(program, 2), server, files, folder, processors()[1])
    tell(given, files, programs, best, all_lost, waited, held, two)


def tell(given, files, programs, best, all_lost, waited, held, two):
    ours_is = next(iter(programs))
    for what, _, _ in loads(given, files):
        print(f"forwarders, {what}, {IN_FLIGHT} in flight, queries a second on one processor:")
        for name in programs:
            print(f"    {name}: {best[name, what]:.0f}, ours {best[ours_is, what] / best[name, what]:.2f} of it")
        print(f"    ours with two processes on two processors: {two[what][0] / best[ours_is, what]:.2f} of one")
    for name in programs:
        before, after = held[name]
        print(f"{name}: the slowest of a thousand waits {waited[name]:.2f} ms; lost {all_lost[name]}; "
              f"{after / 1024:.1f} MB with {HELD} names, {before / 1024:.1f} before")
