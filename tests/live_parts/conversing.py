"""Cases of `resolve_serve`: its questions are put to name servers, and its journal is replayed."""
import asyncio
import functools
import sys
import time
from pathlib import Path

import dns.exception
import dns.flags
import dns.query

from . import servers, stub, tools, zone

sys.path.insert(0, str(Path(__file__).resolve().parents[2] / "tools"))
from yimarotu import records
from yimarotu.conversation import Conversation

HOSTS = "192.0.2.200 printer.example.test printer\n2001:db8::200 printer.example.test\n"
# For how long a server is waited for.
SECONDS = 0.5
MORE = ["www A", "printer A", "www.example.test A"]


def run(cases, programs, folder):
    for name in servers.SERVERS:
        with cases.guard(f"{name}, a conversation"), servers.running(name, folder) as server:
            converse(cases, programs, name, server, folder)
    with cases.guard("a server that counts, a conversation"), stub.running() as server:
        more = ["silent.example.test A", "refused.example.test A"]
        converse(cases, programs, "a server that counts", server, folder, *more)


def moment():
    return time.clock_gettime(time.CLOCK_BOOTTIME)


def requests(more):
    questions = [f"{name} {kind}" if kind else name for name, kind in zone.QUESTIONS]
    asked = [*questions, *MORE, "localhost", "192.0.2.7", *more]
    return [f"lookup {words}" if " " in words else f"lookup_ip {words}" for words in asked]


def converse(cases, programs, name, server, folder, *more):
    """Many requests, and what a replay of the journal prints."""
    journal, hosts = folder / "journal", folder / "hosts"
    hosts.write_text(HOSTS)
    before, asked = int(moment()), requests(more)
    blocks = asyncio.run(told(programs.serve, server.port, asked, ["--journal", journal, "--hosts", hosts]))
    heads = [block.lines[0] for block in blocks]
    cases.equal(f"{name}: a block for each request", [head.split(None, 2)[2].split()[0] for head in heads],
                [words.split()[0] for words in asked])
    moments = [int(head.split()[1]) for head in heads]
    is_right = before <= moments[0] and moments == sorted(moments) and moments[-1] <= moment()
    cases.tell(f"{name}: the moments of the requests", is_right, moments)
    printed = "".join(f"{line}\n" for block in blocks for line in block.lines)
    cases.equal(f"{name}: the journal is replayed", tools.replayed(programs.replay, journal, hosts), printed)


async def told(program, port, asked, words):
    """The block of each request."""
    conversation = await Conversation.start(functools.partial(ask, port), ["search example.test"], program, words)
    blocks = [await conversation.request(request) for request in asked]
    await conversation.close()
    return blocks


async def ask(port, question):
    """The outcome of a question, as the lines that a script has for it."""
    try:
        return records.outcome_lines(await asyncio.to_thread(asked_of, port, question.query()))
    except dns.exception.Timeout:
        return [f"fail timeout {question.words()}"]


def asked_of(port, query):
    reply = dns.query.udp(query, servers.ADDRESS, timeout=SECONDS, port=port, one_rr_per_rrset=True)
    if reply.flags & dns.flags.TC:
        reply = dns.query.tcp(query, servers.ADDRESS, timeout=SECONDS, port=port, one_rr_per_rrset=True)
    return reply
