"""A look-up as data."""
from __future__ import annotations

import ipaddress
from typing import Generic, TypeVar, Union

from ._driven import DrivenSession
from .answers import ANY, Addresses, Answer
from .errors import BadName
from .records import type_number

Given = TypeVar("Given", Addresses, Answer)


class Request(Generic[Given]):
    """A look-up of a name."""

    __slots__ = ("name",)

    def __init__(self, name: str) -> None:
        self.name = name

    def start(self, session: DrivenSession, number: int) -> bool:
        """Starts it, and tells whether it waits."""
        raise NotImplementedError

    def read(self, session: DrivenSession, number: int) -> Given:
        """What it came to, or the error."""
        raise NotImplementedError


class ForAddresses(Request[Addresses]):
    """A look-up of the addresses of a host."""

    __slots__ = ()

    def start(self, session: DrivenSession, number: int) -> bool:
        return session.start_ip(number, octets_of(self.name))

    def read(self, session: DrivenSession, number: int) -> Addresses:
        return Addresses.of(*session.addresses(number, self.name))


class ForRecords(Request[Answer]):
    """A look-up of records of a type."""

    __slots__ = ("record_type",)

    def __init__(self, name: str, record_type: Union[str, int]) -> None:
        self.name = name
        self.record_type = type_number(record_type)

    def start(self, session: DrivenSession, number: int) -> bool:
        return session.start(number, octets_of(self.name), self.record_type)

    def read(self, session: DrivenSession, number: int) -> Answer:
        return Answer.of(self.record_type, session.answer(number, self.name))


class ForHost(Request[Answer]):
    """A look-up of the addresses of a host, whose whole answer is wanted."""

    __slots__ = ()

    def start(self, session: DrivenSession, number: int) -> bool:
        return session.start_ip(number, octets_of(self.name))

    def read(self, session: DrivenSession, number: int) -> Answer:
        return Answer.of(ANY, session.answer(number, self.name))


def pointer_of(address: Union[str, ipaddress.IPv4Address, ipaddress.IPv6Address]) -> str:
    """The name under which the names of an address are.

    >>> pointer_of("192.0.2.1")
    '1.2.0.192.in-addr.arpa.'
    """
    try:
        return ipaddress.ip_address(str(address).partition("%")[0]).reverse_pointer + "."
    except ValueError as error:
        raise BadName("this is no address", str(address)) from error


def octets_of(name: str) -> bytes:
    """A name that has letters beyond ASCII is spelled as IDNA has it (RFC 3490).

    >>> octets_of("b\\u00fccher.example")
    b'xn--bcher-kva.example'
    """
    if not isinstance(name, str):
        raise TypeError(f"a name is a str, and not {type(name).__name__}")
    if name.isascii():
        return name.encode("ascii")
    try:
        return name.encode("idna")
    except UnicodeError as error:
        raise BadName("this is no name", name) from error
