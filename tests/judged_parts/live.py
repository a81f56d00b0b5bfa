"""The three programs of docs/TRACES.md in a row, over a capture of loopback: a finding is told while it happens."""
import subprocess
import sys
import time

import dns.message
import dns.query

from judged_parts.noting import ZONE, Notes, Upstream, free_ports
from judged_parts.piped import ended, line_within
from judged_parts.products import SETTINGS, TOP
from judged_parts.resolvers import SLACK, running
from live_parts.servers import ADDRESS

SECONDS_TO_START = 60
TRIES_TO_FIND = 20


def started(capture):
    """Whether tshark says that it captures."""
    until = time.monotonic() + SECONDS_TO_START
    while (left := until - time.monotonic()) > 0:
        line = line_within(capture.stderr, left)
        if not line or "Capturing on" in line:
            return bool(line)
    return False


def pipeline(program, port, upstream_port):
    piped = {"stdout": subprocess.PIPE, "stderr": subprocess.PIPE, "bufsize": 0}
    ports = f"udp port {port} or udp port {upstream_port}"
    capture = subprocess.Popen(["/usr/bin/tshark", "-i", "lo", "-l", "-F", "pcap", "-w", "-", ports], **piped)
    words = [sys.executable, TOP / "tools/pcap2trace", "-", "--resolver", ADDRESS, "--port", str(port),
             "--upstream-port", str(upstream_port)]
    trace = subprocess.Popen(words, stdin=capture.stdout, stdout=subprocess.PIPE)
    words = [program, "-", "--slack", str(SLACK)]
    judge = subprocess.Popen(words, stdin=trace.stdout, stdout=subprocess.PIPE, bufsize=0)
    # Only the next program reads from each.
    capture.stdout.close()
    trace.stdout.close()
    return capture, trace, judge


def ask_past_its_end(number, port):
    """Asks twice for a name of its own, once more when it has run out."""
    query = dns.message.make_query(f"host{number}-1.{ZONE}", "A")
    for _ in range(2):
        dns.query.udp(query, ADDRESS, timeout=30, port=port, ignore_unexpected=True)
        time.sleep(1.5)


def first_finding(judge, port):
    """The first line of the judge. tshark says that it captures a little before it does, and what it missed is no
    finding: so one name after another is asked for, until there is one."""
    for number in range(TRIES_TO_FIND):
        ask_past_its_end(number, port)
        if line := line_within(judge.stdout, 1):
            return line
    return ""


def cases(told, program, folder):
    with told.guard("a capture that goes on"):
        port, upstream_port = free_ports(2)
        upstream = Upstream(Notes(), upstream_port)
        programs = ()
        try:
            words = SETTINGS["dnsmasq, --min-cache-ttl=10"](port, upstream_port, folder)
            with running(words, port, folder, "live.log"):
                programs = capture, _, judge = pipeline(program, port, upstream_port)
                told.tell("tshark captures on loopback", started(capture), "it cannot")
                line = first_finding(judge, port)
                told.tell("a finding while the capture goes on", " stale by " in line and "host" in line
                          and capture.poll() is None, line)
                capture.terminate()
                status, text, _ = ended(judge, 2 * SECONDS_TO_START)
                text = line + text
                told.tell("and the counts at its end", status == 1 and "\ntold " in text and
                          f"\nstale {text.count(' stale by ')}\n" in text, text)
        finally:
            upstream.end()
            for process in programs:
                process.kill()
                process.wait()
