"""Looks names up, as the system's files say or as the options do.

    python -m yimarotu www.example.com
    python -m yimarotu www.example.com AAAA example.com MX --server 192.0.2.53
    python -m yimarotu --reverse 192.0.2.1 --explain

A word behind a name that is a type is the type that is looked up; without one the addresses of both families are.
Prints a line for each record: name, TTL in seconds, class, type, data.
"""
from __future__ import annotations

import argparse
import sys
from pathlib import Path
from typing import Any, Dict, List, NamedTuple, Optional

from ._explain import Explainer, explain
from ._requests import ForHost, ForRecords, Request, pointer_of
from ._settings import RESOLV_CONF, server_line
from .answers import Answer
from .errors import BadName, BadSettings, Error, NoAnswer, NoSuchName, ResponseCodeError, Timeout, Unreachable
from .records import CNAME, Record, type_number
from .resolver import Resolver

STATUSES = """exit status: 0 each name has an answer; 1 a name, or its type, does not exist; 2 wrong arguments; 3 a
server gave no answer, or an error, or the look-up failed; 4 a file cannot be read. Of several names the greatest
counts."""
SERVER_HELP = """a name server, in place of resolv.conf and all that it says,
and of /etc/hosts; may be given again"""
FOUND, NO_RECORDS, USAGE, FAILED, NO_FILE = range(5)


class Asked(NamedTuple):
    """What is looked up: as it is told, and as a request."""

    words: str
    request: Request[Answer]


def arguments(words: Optional[List[str]]) -> argparse.Namespace:
    layout = argparse.RawTextHelpFormatter
    parser = argparse.ArgumentParser("python -m yimarotu", description=__doc__, epilog=STATUSES, formatter_class=layout)
    add = parser.add_argument
    add("words", nargs="*", metavar="NAME [TYPE]", help="a name, and maybe the type to look up")
    add("--reverse", action="append", default=[], metavar="ADDRESS", help="the names of an address")
    add("--server", action="append", default=[], metavar="ADDR[:PORT]", help=SERVER_HELP)
    add("--resolv-conf", type=Path, metavar="FILE", help="in place of the system's resolv.conf")
    add("--hosts", type=Path, metavar="FILE", help="a file of hosts, in place of /etc/hosts")
    add("--search", action="append", default=[], metavar="DOMAIN", help="a search domain; may be given again")
    add("--ndots", type=int, metavar="N", help="a name of more labels is first tried as it is")
    add("--timeout", type=int, metavar="SECONDS", help="for how long a server is waited for")
    add("--tries", type=int, metavar="N", help="how often a question is sent to a server")
    add("--set", action="append", default=[], metavar="LINE", help="a line of the settings; may be given again")
    add("--explain", action="store_true", help="say what was sent and came, in lines that begin with ;")
    given = parser.parse_intermixed_args(words)
    try:
        given.asked = requests(given)
        for server in given.server:
            server_line(server)
    except (ValueError, Error) as error:
        parser.error(str(error))
    return given


def requests(given: argparse.Namespace) -> List[Asked]:
    asked: List[List[Optional[str]]] = []
    for word in given.words:
        if asked and asked[-1][1] is None and is_type(word):
            asked[-1][1] = word.upper()
        else:
            asked.append([word, None])
    found = [request_of(str(name), record_type) for name, record_type in asked]
    found += [Asked(f"{address} PTR", ForRecords(pointer_of(address), "PTR")) for address in given.reverse]
    if not found:
        raise ValueError("a name is wanted")
    return found


def is_type(word: str) -> bool:
    try:
        return type_number(word) > 0
    except ValueError:
        return False


def request_of(name: str, record_type: Optional[str]) -> Asked:
    if record_type is None:
        return Asked(name, ForHost(name))
    return Asked(f"{name} {record_type}", ForRecords(name, record_type))


def options(given: argparse.Namespace) -> Dict[str, Any]:
    """What the resolver is made with. A server that is named is asked alone, for names as they are written."""
    conf = given.resolv_conf.read_bytes() if given.resolv_conf else b"" if given.server else system_file()
    if given.search:
        # (the last line of a resolv.conf with domains counts)
        conf += b"\nsearch " + " ".join(given.search).encode() + b"\n"
    numbers = (("ndots", given.ndots), ("timeout", given.timeout), ("attempts", given.tries and given.tries - 1))
    lines = [f"option {name} {value}" for name, value in numbers if value is not None]
    hosts = given.hosts if given.hosts else b"" if given.server else None
    hostname = "" if given.server and not given.resolv_conf else None
    # (a reply of more than 512 octets comes at once)
    settings = ["option edns0 true", *lines, *given.set]
    return {
        "resolv_conf": conf, "servers": given.server, "settings": settings, "hosts": hosts, "hostname": hostname,
    }


def system_file() -> bytes:
    try:
        return RESOLV_CONF.read_bytes()
    except OSError:
        return b""


def records_of(asked: Asked, answer: Answer) -> List[str]:
    """The records to print: those that the name leads to, and its aliases. Where it leads to none, as behind an alias
    that was not asked for again, all of the type."""
    wanted = set(answer) if isinstance(asked.request, ForRecords) else {it for it in answer if it.type in ("A", "AAAA")}
    aliases = {it.name.lower(): it for it in answer.answers if isinstance(it.data, CNAME)}
    led: List[Record] = []
    for name in beginnings(asked.request.name, answer.answers):
        while name in aliases and aliases[name] not in led:
            led.append(aliases[name])
            name = str(aliases[name].data).lower()
        led += [it for it in wanted if it.name.lower() == name]
    if not wanted.intersection(led):
        led = list(wanted)
    return list(dict.fromkeys(str(it) for it in answer.answers if it in led))


def beginnings(text: str, answers: "tuple[Record, ...]") -> List[str]:
    """The owners that the name may stand for: itself, and itself below a domain."""
    name = text.lower().rstrip(".") + "."
    owners = dict.fromkeys(it.name.lower() for it in answers)
    return [owner for owner in owners if owner == name or owner.startswith(name)]


def why(error: Error) -> str:
    if isinstance(error, NoSuchName):
        return "no such name"
    if isinstance(error, NoAnswer):
        return "no such records"
    if isinstance(error, ResponseCodeError):
        return f"code {error.code_word}"
    words = {Timeout: "timeout", Unreachable: "no server can be reached", BadName: "no name"}
    return words.get(type(error), str(error))


def look_up(resolver: Resolver, asked: Asked, explainer: Optional[Explainer]) -> int:
    if explainer is not None:
        explainer.begin()
    try:
        answer = resolver._look_up(asked.request, None)
    except Error as error:
        print(f"{asked.words}: {why(error)}", file=sys.stderr)
        return NO_RECORDS if isinstance(error, NoAnswer) else FAILED
    finally:
        if explainer is not None:
            explainer.end()
    if explainer is not None:
        explain(f"may be used for {answer.ttl} seconds")
    lines = records_of(asked, answer)
    if not lines:
        print(f"{asked.words}: no such records", file=sys.stderr)
        return NO_RECORDS
    print(*lines, sep="\n")
    return FOUND


def main(words: Optional[List[str]] = None) -> int:
    given = arguments(words)
    explainer = Explainer() if given.explain else None
    try:
        resolver = Resolver(**options(given), _watcher=explainer)
    except BadSettings as error:
        print(error, file=sys.stderr)
        return USAGE
    except OSError as error:
        print(f"cannot read {error.filename}: {error.strerror}", file=sys.stderr)
        return NO_FILE
    with resolver:
        return max(look_up(resolver, asked, explainer) for asked in given.asked)


if __name__ == "__main__":
    sys.exit(main())
