"""A session that is fed by hand, for a transport of one's own, and the calls that need no session."""
from __future__ import annotations

import ctypes
from typing import Any, Callable, NamedTuple, Optional, Tuple, Union

from . import _numbers as numbers
from ._loading import CALLS, SessionStruct, library
from .errors import Refused

Text = Union[str, bytes]


class Question(NamedTuple):
    """A question to send: a message, whose id is to be set, and whether the case of its name is to be varied."""

    message: bytes
    mixed: bool


class SessionAnswer(NamedTuple):
    """What a look-up came to: one of FOUND to RAN_OUT; its message, or None; its response code; of a negative answer
    for how long it may be kept, or None; of records the last moment at which they may be used."""

    error: int
    message: Optional[bytes]
    code: int
    ttl: Optional[int]
    until: int


def _call(name: str, *words: Any) -> Any:
    for word, kind in zip(words, CALLS[name][1]):
        if isinstance(word, int) and not 0 <= word < 1 << 8 * ctypes.sizeof(kind):
            raise OverflowError(f"{word} does not fit")
    return getattr(library, "yimarotu_" + name)(*words)


def octets(text: Text) -> bytes:
    return text.encode() if isinstance(text, str) else bytes(text)


def _told(ended: Any) -> Any:
    """The result of a call that ended well."""
    if ended.status != numbers.OK:
        raise Refused(ended.status, getattr(ended, "line", 0), getattr(ended, "fault", 0))
    return ended


def _in_room(call: Callable[..., Any], size: int) -> Tuple[Any, bytes]:
    """What a call says, and the bytes that it wrote in a room, which is made as large as it has to be."""
    room = ctypes.create_string_buffer(size)
    ended = call(room, size)
    if ended.status == numbers.ROOM:
        return _in_room(call, ended.length)
    return _told(ended), ctypes.string_at(room, ended.length)


def rewrite(message: bytes, limit: int = 65535) -> bytes:
    """A DNS message that is read and written again, in at most so many bytes.

    >>> question = bytes.fromhex("00070100000100000000000003777777076578616d706c6503636f6d0000010001")
    >>> rewrite(question + b"behind it") == question
    True
    """
    size = max(1, min(limit, 4096))
    return _in_room(lambda *room: _call("rewrite", message, len(message), limit, *room), size)[1]


def replay(script: bytes, hosts: bytes = b"", room: int = 1 << 16) -> bytes:
    """The text of a replay of a script (docs/SCRIPTS.md), over what a file of hosts says.

    >>> print(replay(b"at 0 lookup localhost. A\\n").decode(), end="")
    at 0 lookup localhost. A
      ok localhost. IN A until 86400
      answer localhost. 86400 IN A 127.0.0.1
    """
    return _in_room(lambda *given: _call("replay", script, len(script), hosts, len(hosts), *given), room)[1]


class Session:
    """A resolver that is fed by hand: its hosts, its cache, and look-ups by number, each of which waits for an
    outcome or is done. The program asks the questions, and sees to it that a reply is the response: by its QR bit,
    its id, its question and whom it comes from (docs/EMBED.md, "Sessions that are fed by hand"). It is closed when it
    is dropped.

    Settings are lines of a script, texts are str or bytes, messages are bytes (RFC 1035, section 4.1), and moments are
    seconds. A call that does not end well raises `Refused` with the number of its status; a number that does not fit
    raises OverflowError. Threads may share a session: calls are made one at a time, under the interpreter's lock. Where
    an interpreter is built without that lock, a session that threads share wants one of its own.

    >>> with Session("option ip_strategy Ipv4Only\\n", "192.0.2.9 printer.\\n") as session:
    ...     waits = session.start_ip(1, "printer.", moment=100)
    ...     waits, session.answer(1).message[-4:]
    (False, b'\\xc0\\x00\\x02\\t')
    """

    def __init__(self, settings: Text = b"", hosts: Text = b"", moment: int = 0) -> None:
        self._session = SessionStruct(False, None)
        settings, hosts = octets(settings), octets(hosts)
        _told(self._call("open_fed", settings, len(settings), hosts, len(hosts), 1000 * moment))

    def _call(self, name: str, *words: Any) -> Any:
        return _call(name, ctypes.byref(self._session), *words)

    def start(self, number: int, name: Text, record_type: int, moment: int) -> bool:
        """Starts a look-up of records of a type, under a number that is free. Tells whether it waits."""
        name = octets(name)
        return bool(_told(self._call("start", number, name, len(name), record_type, 1000 * moment)).waits)

    def start_ip(self, number: int, host: Text, moment: int) -> bool:
        """The same of the addresses of a host."""
        host = octets(host)
        return bool(_told(self._call("start_ip", number, host, len(host), 1000 * moment)).waits)

    def question(self, number: int) -> Question:
        """The question that a look-up waits for."""
        asked, message = _in_room(lambda *room: self._call("question", number, *room), 512)
        return Question(message, bool(asked.mixed))

    def feed(self, number: int, message: bytes) -> bool:
        """Goes on with the message that came back. Tells whether the look-up waits again."""
        return bool(_told(self._call("feed", number, message, len(message))).waits)

    def fail(self, number: int, failure: int) -> bool:
        """Goes on with the failure of a question."""
        return bool(_told(self._call("fail", number, failure)).waits)

    def answer(self, number: int, limit: int = 65535) -> SessionAnswer:
        """What a look-up came to."""
        told, message = _in_room(lambda *room: self._call("answer", number, limit, *room), max(1, min(limit, 4096)))
        return SessionAnswer(told.error, message or None, told.code, told.ttl if told.has_ttl else None, told.until)

    def cancel(self, number: int) -> None:
        """Forgets a look-up; its number is free."""
        self._status("cancel", number, 0)

    def clear_name(self, name: Text, record_type: int) -> None:
        """Drops from the cache what it has for a name, of a type."""
        name = octets(name)
        self._status("clear_name", name, len(name), record_type)

    def clear(self) -> None:
        """Empties the cache."""
        self._status("clear")

    def _status(self, name: str, *words: Any) -> None:
        status = self._call(name, *words)
        if status != numbers.OK:
            raise Refused(status)

    def close(self) -> None:
        """Closes it, with all its look-ups."""
        self._call("close")

    def __del__(self) -> None:
        # Where the interpreter ends, or the opening failed, parts of it may not be there.
        session = getattr(self, "_session", None)
        if session is not None and session.is_open and library is not None:
            library.yimarotu_close(ctypes.addressof(session))

    def __enter__(self) -> Session:
        return self

    def __exit__(self, *_: object) -> None:
        self.close()
