"""What a resolver is opened with: the system's files, or what the caller gives in their place."""
from __future__ import annotations

import ipaddress
import os
import socket
from pathlib import Path
from typing import Iterable, List, NamedTuple, Optional, Tuple, Union

# A text, as str or bytes, or the path of a file; a str that begins with a slash is a path, too.
File = Union[str, bytes, "os.PathLike[str]", None]
Server = Union[str, ipaddress.IPv4Address, ipaddress.IPv6Address, Tuple[str, int]]
RESOLV_CONF, HOSTS = Path("/etc/resolv.conf"), Path("/etc/hosts")
# How many octets the cache may take where nothing is said.
CACHE_OCTETS = 1 << 24


class Opening(NamedTuple):
    """The octets that a session is opened with."""

    conf: bytes
    hostname: bytes
    settings: bytes
    hosts: bytes


def opening(
    resolv_conf: File, hosts: File, hostname: Optional[str], settings: Union[str, Iterable[str]],
    servers: Iterable[Server], cache_octets: Optional[int],
) -> Opening:
    lines = [f"option cache_octets {int(cache_octets)}"] if cache_octets is not None else []
    lines += [server_line(server) for server in servers]
    # What the caller says counts last.
    lines += settings.splitlines() if isinstance(settings, str) else list(settings)
    name = socket.gethostname() if hostname is None else hostname
    text = "".join(f"{line}\n" for line in lines)
    return Opening(read(resolv_conf, RESOLV_CONF), name.encode(), text.encode(), read(hosts, HOSTS))


def read(given: File, otherwise: Path) -> bytes:
    """The octets of a text, or of a file. The system's own file, where it cannot be read, says nothing."""
    if given is None:
        try:
            return otherwise.read_bytes()
        except OSError:
            return b""
    if isinstance(given, bytes):
        return given
    if isinstance(given, str) and not given.startswith("/"):
        return given.encode()
    return Path(given).read_bytes()


def server_line(server: Server) -> str:
    """The line of the settings for a server: an address, `IPV4:PORT`, `[IPV6]:PORT`, or a pair of both.

    >>> server_line("192.0.2.53"), server_line("[2001:db8::1]:5353"), server_line(("127.0.0.1", 5353))
    ('server 192.0.2.53', 'server 2001:db8::1 5353', 'server 127.0.0.1 5353')
    """
    words: List[str]
    if isinstance(server, tuple):
        words = [str(server[0]), str(int(server[1]))]
    else:
        words = _parts(str(server))
    address, port = words[0], words[1] if len(words) > 1 else "53"
    try:
        ipaddress.ip_address(address)
    except ValueError as error:
        raise ValueError(f"{server}: a server is an address, and no name") from error
    if not port.isdecimal() or not 0 < int(port) < 65536:
        raise ValueError(f"{server}: {port} is no port")
    return " ".join(["server", *words])


def _parts(text: str) -> List[str]:
    """The address and the port of a text, or the address alone."""
    if text.startswith("["):
        address, _, rest = text[1:].partition("]")
        return [address, rest[1:]] if rest.startswith(":") else [address]
    if text.count(":") == 1:
        return text.split(":")
    return [text]
