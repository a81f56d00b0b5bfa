"""`socket.getaddrinfo` over a resolver, for programs that call the standard library."""
from __future__ import annotations

import contextlib
import ipaddress
import socket
import threading
from typing import Any, Iterator, List, Optional, Tuple

from ._driven import Address
from .errors import BadName, Error, NoRecords, NoSuchName, ResponseCodeError
from .resolver import Resolver, WithinLookUp

_lock = threading.Lock()
SERVFAIL = 2


@contextlib.contextmanager
def patched_getaddrinfo(resolver: Optional[Resolver] = None) -> Iterator[Resolver]:
    """Within it `socket.getaddrinfo`, and what stands on it (`socket.create_connection`, urllib, smtplib and more),
    looks names up by a resolver: one that is given, or one of its own, which is closed at the end. It is for the whole
    process, and for one `with` at a time.

    Names of hosts are looked up here. Hosts that are addresses, no host, AI_NUMERICHOST, and the names of services go
    to the original. AI_CANONNAME gives the name at the end of the aliases. Places to which there is no way come last,
    as in RFC 6724, section 5, rule 1; else they are in the order of the answer. Errors are `socket.gaierror`.

    >>> import socket
    >>> with Resolver(servers=[SERVER]) as resolver, patched_getaddrinfo(resolver):
    ...     socket.getaddrinfo("four.example.test", 80, type=socket.SOCK_STREAM)[0][4]
    ('192.0.2.4', 80)
    """
    if not _lock.acquire(blocking=False):
        raise RuntimeError("getaddrinfo is patched already")
    original = socket.getaddrinfo
    used = Resolver() if resolver is None else resolver

    def getaddrinfo(host: Any, port: Any, family: int = 0, type: int = 0, proto: int = 0, flags: int = 0) -> Any:
        name = _name_of(host)
        if name is None or flags & socket.AI_NUMERICHOST:
            return original(host, port, family, type, proto, flags)
        return _looked_up(used, original, name, (port, family, type, proto, flags))

    socket.getaddrinfo = getaddrinfo
    try:
        yield used
    finally:
        socket.getaddrinfo = original
        _lock.release()
        if resolver is None:
            used.close()


def _name_of(host: Any) -> Optional[str]:
    """The name that is to be looked up, or None where the original is to be asked."""
    if isinstance(host, (bytes, bytearray)):
        host = bytes(host).decode("ascii", "replace")
    if not isinstance(host, str) or not host:
        return None
    try:
        socket.inet_aton(host)
        return None
    except (OSError, UnicodeError):
        pass
    try:
        ipaddress.ip_address(host.partition("%")[0])
        return None
    except ValueError:
        return host


def _looked_up(resolver: Resolver, original: Any, host: str, words: Tuple[Any, int, int, int, int]) -> List[Any]:
    port, family, kind, proto, flags = words
    try:
        addresses = _of_family(list(resolver.addresses(host)), family, flags)
        canonical = _canonical(resolver, host, addresses) if flags & socket.AI_CANONNAME else ""
    except (Error, WithinLookUp) as error:
        raise gaierror_of(error) from error
    if not addresses:
        raise gaierror_of(NoRecords())
    flags = flags & ~(socket.AI_CANONNAME | socket.AI_V4MAPPED | socket.AI_ALL) | socket.AI_NUMERICHOST
    found: List[Any] = []
    for address in sorted(addresses, key=_has_no_way) if len(addresses) > 1 else addresses:
        try:
            found += original(str(address), port, family, kind, proto, flags)
        except socket.gaierror as error:
            # (with AI_ADDRCONFIG, where this host has no address of the family)
            if error.errno not in (socket.EAI_ADDRFAMILY, socket.EAI_NONAME, socket.EAI_NODATA):
                raise
    if not found:
        raise socket.gaierror(socket.EAI_NONAME, "Name or service not known")
    if canonical:
        found[0] = (*found[0][:3], canonical, found[0][4])
    return found


def _of_family(addresses: List[Address], family: int, flags: int) -> List[Address]:
    of_4: List[Address] = [address for address in addresses if address.version == 4]
    of_6: List[Address] = [address for address in addresses if address.version == 6]
    if family == socket.AF_INET:
        return of_4
    if family == socket.AF_INET6:
        is_wanted = flags & socket.AI_V4MAPPED and (flags & socket.AI_ALL or not of_6)
        return of_6 + [ipaddress.IPv6Address(f"::ffff:{address}") for address in of_4] if is_wanted else of_6
    return addresses


def _canonical(resolver: Resolver, host: str, addresses: List[Address]) -> str:
    """The name at the end of the aliases."""
    if not addresses:
        return host
    try:
        record_type = "A" if addresses[0].version == 4 else "AAAA"
        return resolver.lookup(host, record_type).name.rstrip(".") or host
    except Error:
        return host


def _has_no_way(address: Address) -> bool:
    """Whether this host knows no way to an address. Nothing is sent."""
    family = socket.AF_INET if address.version == 4 else socket.AF_INET6
    try:
        with socket.socket(family, socket.SOCK_DGRAM) as sock:
            sock.connect((str(address), 9))
        return False
    except OSError:
        return True


def gaierror_of(error: Exception) -> socket.gaierror:
    """The error that getaddrinfo has for what went wrong."""
    if isinstance(error, (NoSuchName, BadName)):
        return socket.gaierror(socket.EAI_NONAME, "Name or service not known")
    if isinstance(error, NoRecords):
        return socket.gaierror(socket.EAI_NODATA, "No address associated with hostname")
    if isinstance(error, ResponseCodeError) and error.code != SERVFAIL:
        return socket.gaierror(socket.EAI_FAIL, "Non-recoverable failure in name resolution")
    return socket.gaierror(socket.EAI_AGAIN, "Temporary failure in name resolution")
