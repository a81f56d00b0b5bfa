"""What look-ups give: lists, that also say for how long they may be used."""
from __future__ import annotations

import time
from datetime import datetime, timezone
from typing import List, Tuple

from ._driven import Address, Told, now
from .records import PTR, Record, read_answers, read_sections, type_word

ANY = 255


class Timed:
    """For how long an answer may be used."""

    __slots__ = ()
    # The seconds, and the time on the wall when the answer was given.
    _told: Tuple[int, float]

    @property
    def ttl(self) -> int:
        """For how many seconds the answer may be used, from when it was given."""
        return self._told[0]

    @property
    def until(self) -> datetime:
        """The time up to which the answer may be used, in UTC, as the clock on the wall was when it was given."""
        return datetime.fromtimestamp(self._told[1] + self._told[0], timezone.utc)


class Addresses(List[Address], Timed):
    """The addresses of a host, in the order of the answer: `ipaddress.IPv4Address` and `ipaddress.IPv6Address`. `ttl`
    is for how many seconds they may be used, and `until` up to when.

    >>> import ipaddress
    >>> found = Addresses.of([ipaddress.ip_address("192.0.2.1")], 60)
    >>> str(found[0]), found.ttl, found.until.tzname()
    ('192.0.2.1', 60, 'UTC')
    """

    __slots__ = ("_told",)

    @classmethod
    def of(cls, addresses: List[Address], ttl: int) -> Addresses:
        made = cls(addresses)
        made._told = ttl, time.time()
        return made


class Names(List[str], Timed):
    """The names of an address, each with a dot at its end."""

    __slots__ = ("_told",)

    @classmethod
    def of(cls, answer: Answer) -> Names:
        made = cls(record.data.target for record in answer if isinstance(record.data, PTR))
        made._told = answer._told
        return made


class Answer(List[Record], Timed):
    """The records of the type that was looked up; all records of the answer for the type ANY. `answers` are all
    records of that section, as the aliases that led there, `authorities` and `additionals` those of the others, and
    `message` is the whole as a DNS message. What is found may have no records of the type: they may be in another
    section, as NS records among the authorities."""

    __slots__ = ("_told", "_whole")
    _whole: Tuple[Tuple[Record, ...], bytes]

    @classmethod
    def of(cls, record_type: int, told: Told) -> Answer:
        message, until = told
        answers = read_answers(message)
        word = type_word(record_type)
        made = cls(answers if record_type == ANY else [record for record in answers if record.type == word])
        made._told = max(0, until - now() // 1000), time.time()
        made._whole = answers, message
        return made

    @property
    def answers(self) -> Tuple[Record, ...]:
        return self._whole[0]

    @property
    def authorities(self) -> Tuple[Record, ...]:
        return read_sections(self._whole[1]).authorities

    @property
    def additionals(self) -> Tuple[Record, ...]:
        return read_sections(self._whole[1]).additionals

    @property
    def message(self) -> bytes:
        return self._whole[1]

    @property
    def name(self) -> str:
        """The name that owns the records: that of the end of the aliases."""
        return self[0].name if self else (self.answers[-1].name if self.answers else "")
