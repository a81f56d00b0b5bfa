"""What can go wrong, as exceptions of one base class, `Error`.

    Error
     +-- NoAnswer            the name, or its records of the type, do not exist
     |    +-- NoSuchName     there is no such name (NXDOMAIN)
     |    +-- NoRecords      there is the name, but no record of the type
     +-- ResponseCodeError   a server answered with another code, as SERVFAIL or REFUSED
     +-- Timeout             nobody answered in time; a TimeoutError too
     +-- Unreachable         no server can be reached, or it failed otherwise; a ConnectionError too
     +-- BadName             the text is no name; a ValueError too
     +-- BadSettings         a line of the settings, or of the hosts, cannot be read; a ValueError too
     +-- OutOfMemory         no memory was left; a MemoryError too
     +-- Closed              the resolver was closed
     +-- Refused             a call of a session that is fed by hand did not end well
"""
from __future__ import annotations

from typing import Optional

__all__ = [
    "BadName", "BadSettings", "Closed", "Error", "NoAnswer", "NoRecords", "NoSuchName", "OutOfMemory", "Refused",
    "ResponseCodeError", "Timeout", "Unreachable",
]

CODES = {
    0: "NOERROR", 1: "FORMERR", 2: "SERVFAIL", 3: "NXDOMAIN", 4: "NOTIMP", 5: "REFUSED", 6: "YXDOMAIN", 7: "YXRRSET",
    8: "NXRRSET", 9: "NOTAUTH", 10: "NOTZONE", 16: "BADVERS",
}


def code_word(code: int) -> str:
    """The word of a response code (RFC 6895, section 2.3).

    >>> code_word(2), code_word(77)
    ('SERVFAIL', 'CODE77')
    """
    return CODES.get(code, f"CODE{code}")


class Error(Exception):
    """What went wrong; `name` is the text that was looked up, or empty."""

    def __init__(self, what: str = "", name: str = "") -> None:
        super().__init__(f"{name}: {what}" if name else what)
        self.name = name


class NoAnswer(Error):
    """The name, or its records of the type, do not exist. `ttl` is for how many seconds that may be kept (RFC 2308,
    section 5), or None where the server did not say so."""

    def __init__(self, what: str = "", name: str = "", ttl: Optional[int] = None) -> None:
        super().__init__(what, name)
        self.ttl = ttl


class NoSuchName(NoAnswer):
    """There is no such name (NXDOMAIN)."""


class NoRecords(NoAnswer):
    """There is the name, but no record of the type."""


class ResponseCodeError(Error):
    """A server answered with another code than NOERROR and NXDOMAIN: `code` is its number, `code_word` its word."""

    def __init__(self, code: int, name: str = "") -> None:
        super().__init__(f"the server answered {code_word(code)}", name)
        self.code = code
        self.code_word = code_word(code)


class Timeout(Error, TimeoutError):
    """Nobody answered in time."""


class Unreachable(Error, ConnectionError):
    """No server can be reached, or it failed otherwise."""


class BadName(Error, ValueError):
    """The text is no name."""


class BadSettings(Error, ValueError):
    """A line of the settings, or of the hosts, cannot be read: `line` is its number from 1, or 0."""

    def __init__(self, what: str, line: int = 0) -> None:
        super().__init__(what)
        self.line = line


class OutOfMemory(Error, MemoryError):
    """No memory was left."""


class Closed(Error):
    """The resolver was closed."""


class Refused(Error):
    """A call that did not end well: the number of its status, and the line or the fault that it told, or 0."""

    def __init__(self, status: int, line: int = 0, fault: int = 0) -> None:
        told = "".join(f", {word} {number}" for word, number in (("line", line), ("fault", fault)) if number)
        super().__init__(f"status {status}{told}")
        self.status, self.line, self.fault = status, line, fault
