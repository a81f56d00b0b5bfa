"""A session that asks by itself: the calls of the library, with its rooms."""
from __future__ import annotations

import ctypes
import ipaddress
import os
import time
from typing import Any, List, NamedTuple, Optional, Tuple, Union

from . import _numbers as numbers
from ._loading import SessionStruct, library
from ._settings import Opening
from .errors import BadName, BadSettings, Closed, Error, NoRecords, NoSuchName, OutOfMemory, ResponseCodeError
from .errors import Timeout, Unreachable

Address = Union[ipaddress.IPv4Address, ipaddress.IPv6Address]
# For what has to be done, and for messages: a question is some 300 octets, a scope as long as resolv.conf has it.
ROOM = 1 << 16
# For addresses, of 17 octets each; and the longest message.
ADDRESSES, MESSAGE = 17 * 64, 65535
NXDOMAIN = 3
_clock, _BOOTTIME, _MONOTONIC = time.clock_gettime_ns, time.CLOCK_BOOTTIME, time.CLOCK_MONOTONIC
_next, _start, _start_ip, _cancel = (
    library.yimarotu_next, library.yimarotu_start, library.yimarotu_start_ip, library.yimarotu_cancel
)
_addresses, _answer = library.yimarotu_addresses, library.yimarotu_answer


def now() -> int:
    """The moment in milliseconds, of a clock that does not go back and counts while the machine sleeps."""
    return _clock(_BOOTTIME) // 1_000_000


def asleep() -> int:
    """For how many milliseconds the machine has slept since it was started."""
    return (_clock(_BOOTTIME) - _clock(_MONOTONIC)) // 1_000_000


class Told(NamedTuple):
    """What a look-up that has records came to: its message, and the second up to which they may be used."""

    message: bytes
    until: int


class Statistics(NamedTuple):
    """What a resolver did and holds: look-ups that were started, those of them that were done without a question,
    messages that were sent, look-ups that timed out, results in the cache, and how many octets they weigh (0 where
    the cache is not bounded)."""

    started: int
    done_at_once: int
    sent: int
    timed_out: int
    entries: int
    octets: int


class DrivenSession:
    """The calls of one session. It is closed when it is dropped. Who calls sees to it that calls come one at a time."""

    def __init__(self, opening: Opening) -> None:
        self._session = SessionStruct(False, None)
        self._at = ctypes.addressof(self._session)
        self.room_at, self.room = _new_room(ROOM)
        self._room_length = ROOM
        self._addresses_at, self._addresses = _new_room(ADDRESSES)
        words = [word for part in (*opening, os.urandom(32)) for word in (part, len(part))]
        ended = library.yimarotu_open(self._at, *words, now())
        if ended.status == numbers.SCRIPT:
            lines = ["bounds of TTLs are reversed", *opening.settings.decode().splitlines()]
            raise BadSettings(f"a setting cannot be read: {lines[ended.line]}", ended.line)
        if ended.status == numbers.HOSTS:
            raise BadSettings("a line of the hosts is not UTF-8")
        _check(ended.status)

    def close(self) -> None:
        if self._session.is_open:
            library.yimarotu_close(self._at)

    def leave(self) -> None:
        """Gives the session up as it is, in a child of fork: what it holds is the parent's."""
        self._session.is_open = False

    def __del__(self) -> None:
        # Where the interpreter ends, or the opening failed, parts of it may not be there.
        session = getattr(self, "_session", None)
        if session is not None and session.is_open and library is not None:
            library.yimarotu_close(self._at)

    def next(self) -> Any:
        """What is to be done next; its octets are at the front of `room`."""
        action = _next(self._at, self.room_at, self._room_length)
        if action.status:
            if action.status != numbers.ROOM:
                _check(action.status)
            self.room_at, self.room = _new_room(action.length)
            self._room_length = action.length
            return self.next()
        return action

    def came(self, channel: int, octets: bytes) -> None:
        _check(library.yimarotu_came(self._at, channel, octets, len(octets), now()))

    def failed(self, channel: int, failure: int) -> None:
        _check(library.yimarotu_failed(self._at, channel, failure, now()))

    def tick(self) -> None:
        _check(library.yimarotu_tick(self._at, now()))

    def wait(self) -> Optional[int]:
        """For how many milliseconds time ends nothing; None where it never does."""
        waits = library.yimarotu_wait(self._at, now())
        _check(waits.status)
        return int(waits.milliseconds) if waits.has_deadline else None

    def start(self, number: int, name: bytes, record_type: int) -> bool:
        """Starts a look-up of records, and tells whether it waits."""
        progress = _start(self._at, number, name, len(name), record_type, now())
        if progress.status:
            _check(progress.status)
        return bool(progress.waits)

    def start_ip(self, number: int, host: bytes) -> bool:
        """Starts a look-up of addresses, and tells whether it waits."""
        progress = _start_ip(self._at, number, host, len(host), now())
        if progress.status:
            _check(progress.status)
        return bool(progress.waits)

    def forget(self, number: int, is_done: bool) -> None:
        """Forgets a look-up, whether it waits or is done."""
        # Only the place of one that waited comes free. Time is told for no other: it could end what was answered already,
        # by octets that nobody has read yet.
        _cancel(self._at, number, 0 if is_done else now())

    def addresses(self, number: int, host: str) -> Tuple[List[Address], int]:
        """The addresses that a look-up came to, and for how many seconds from now on they may be used."""
        found = _addresses(self._at, number, now(), self._addresses_at, len(self._addresses))
        if found.status:
            if found.status != numbers.ROOM:
                _check(found.status)
            self._addresses_at, self._addresses = _new_room(17 * found.count)
            return self.addresses(number, host)
        if found.error:
            raise self._error(number, host)
        length = 17 * found.count
        octets = bytes(self._addresses[:length])
        return [_address(octets, at) for at in range(0, length, 17)], found.ttl

    def answer(self, number: int, name: str) -> Told:
        """The message of the records that a look-up came to."""
        told, message = self._answer(number)
        if told.error:
            raise _error_of(told, name)
        return Told(message, told.until)

    def _answer(self, number: int) -> Tuple[Any, bytes]:
        # (the room has space for the longest message)
        told = _answer(self._at, number, MESSAGE, self.room_at, self._room_length)
        if told.status:
            _check(told.status)
        return told, bytes(self.room[: told.length])

    def _error(self, number: int, name: str) -> Error:
        return _error_of(self._answer(number)[0], name)

    def clear(self) -> None:
        _check(library.yimarotu_clear(self._at))

    def clear_name(self, name: bytes, record_type: int) -> None:
        _check(library.yimarotu_clear_name(self._at, name, len(name), record_type))

    def servers(self, conf: bytes, clears: bool) -> None:
        _check(library.yimarotu_servers(self._at, conf, len(conf), clears))

    def statistics(self) -> Statistics:
        told = library.yimarotu_statistics(self._at)
        _check(told.status)
        return Statistics(told.started, told.done_at_once, told.sent, told.timed_out, told.entries, told.octets)


def _new_room(size: int) -> Tuple[int, memoryview]:
    """The address of a room, and a view of it: as long as that is held the room is there, and stays where it is."""
    octets = bytearray(size)
    return ctypes.addressof((ctypes.c_char * size).from_buffer(octets)), memoryview(octets)


def _address(octets: bytes, at: int) -> Address:
    if octets[at] == 4:
        return ipaddress.IPv4Address(octets[at + 1 : at + 5])
    return ipaddress.IPv6Address(octets[at + 1 : at + 17])


def _check(status: int) -> None:
    """Raises an error where a call did not end well."""
    if status == numbers.OK:
        return
    if status == numbers.NO_MEMORY:
        raise OutOfMemory("no memory was left")
    if status == numbers.CLOSED:
        raise Closed("the resolver is closed")
    if status == numbers.TEXT:
        raise BadName("the name is not UTF-8")
    raise Error(f"the library refused a call with status {status}")


def _error_of(told: Any, name: str) -> Error:
    """The error of a look-up that has no records."""
    ttl = int(told.ttl) if told.has_ttl else None
    if told.error == numbers.NO_RECORDS and told.code == NXDOMAIN:
        return NoSuchName("there is no such name", name, ttl)
    if told.error == numbers.NO_RECORDS:
        return NoRecords("there are no such records", name, ttl)
    if told.error == numbers.RESPONSE_CODE:
        return ResponseCodeError(told.code, name)
    if told.error == numbers.TIMED_OUT:
        return Timeout("nobody answered in time", name)
    if told.error == numbers.BAD_NAME:
        return BadName("this is no name", name)
    if told.error == numbers.RAN_OUT:
        return OutOfMemory("no memory was left", name)
    return Unreachable("no server can be reached", name)
