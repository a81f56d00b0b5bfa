"""Yimarotu, a stub resolver with a cache, over the proved library of yimarotu.h.

    with yimarotu.Resolver() as resolver:
        for address in resolver.addresses("www.example.com"):
            print(address)

`Resolver` is for plain code, also of several threads; `yimarotu.aio.Resolver` for asyncio. What can go wrong is in
`yimarotu.errors`, records are in `yimarotu.records`, and `python -m yimarotu NAME` looks a name up. `Session` is fed by
hand, for a transport of one's own.

Which reply is believed, who is asked, and when it is asked again, is decided by the library, and proved; the Python
around it, which moves octets and keeps the time, is tested.
"""
from . import _numbers, errors, records
from ._getaddrinfo import patched_getaddrinfo
from ._loading import library as _library
from ._numbers import *
from ._session import Question, Session, SessionAnswer, replay, rewrite
from .answers import Addresses, Answer, Names
from .errors import (
    BadName, BadSettings, Closed, Error, NoAnswer, NoRecords, NoSuchName, OutOfMemory, Refused, ResponseCodeError,
    Timeout, Unreachable,
)
from .records import Record
from .resolver import Resolver

__version__ = "0.1.0"
__all__ = [
    "Addresses", "Answer", "BadName", "BadSettings", "Closed", "Error", "Names", "NoAnswer", "NoRecords", "NoSuchName",
    "OutOfMemory", "Question", "Record", "Refused", "Resolver", "ResponseCodeError", "Session", "SessionAnswer",
    "Timeout", "Unreachable", "errors", "patched_getaddrinfo", "records", "replay", "rewrite",
]
__all__ += [name for name in vars(_numbers) if name.isupper()]
